/* Keys, sealing and taking (RULES: Key slots, Sending, Arriving; FORMATS: Cipher). */
#include "device.h"

#include <openssl/evp.h>
#include <stdio.h>
#include <stdlib.h>
#include <string.h>

const char *const sub_names[SUBS] = {"pr", "npr", "cpl"};
uint64_t units_per_key;

/* a fault that is built in on purpose has a short tag */
#ifdef FAULT_TAG
enum { TAG_SENT = 8 };
#else
enum { TAG_SENT = TAG_BYTES };
#endif

/* ---- slots */

struct slot *live_slot(struct lane *lane) {
    struct slot *a = &lane->slots[0], *b = &lane->slots[1];
    if (a->state != LIVE) return b->state == LIVE ? b : NULL;
    return b->state == LIVE && b->age > a->age ? b : a;
}

static int live_lanes(const struct stream *s, int direction) {
    int live = 0;
    for (int sub = 0; sub < SUBS; sub++) {
        const struct slot *slots = s->lanes[direction][sub].slots;
        live += slots[0].state == LIVE || slots[1].state == LIVE;
    }
    return live;
}

/* counts and failures end with the last Live key */
static void settle_stream(struct stream *s) {
    for (int direction = 0; direction < 2; direction++) {
        for (int sub = 0; sub < SUBS && !live_lanes(s, direction); sub++) {
            struct lane *lane = &s->lanes[direction][sub];
            lane->posted = lane->carried = lane->got = lane->total = 0;
        }
    }
    if (!live_lanes(s, RECEIVES) && !live_lanes(s, SENDS)) s->failed = false;
}

bool program_slot(struct stream *s, int direction, int sub, int set, const uint8_t *key) {
    static uint64_t age;
    struct slot *slot = &s->lanes[direction][sub].slots[set], *other = &s->lanes[direction][sub].slots[1 - set];
    if (slot->state == LIVE && !(other->state == LIVE && other->age > slot->age)) return false;
    memset(slot, 0, sizeof *slot);
    slot->state = PROGRAMMED;
    slot->age = ++age;
    memcpy(slot->key, key, 32);
    settle_stream(s);
    return true;
}

bool go_slot(struct stream *s, int direction, int sub, int set) {
    struct slot *slot = &s->lanes[direction][sub].slots[set], *other = &s->lanes[direction][sub].slots[1 - set];
    if (slot->state == EMPTY) return false;
    if (slot->state != PROGRAMMED) return true;
    if (direction == SENDS && other->unit.packets) {
        slot->state = ARMED;
        return true;
    }
    slot->state = LIVE;
    if (direction == SENDS) memset(other, 0, sizeof *other);
    return true;
}

void stop_slot(struct stream *s, int direction, int sub, int set) {
    struct slot *slot = &s->lanes[direction][sub].slots[set], *other = &s->lanes[direction][sub].slots[1 - set];
    memset(slot, 0, sizeof *slot);
    if (other->state == ARMED) other->state = LIVE;
    settle_stream(s);
}

void clear_stream(struct stream *s) {
    memset(s->lanes, 0, sizeof s->lanes);
    s->failed = false;
}

bool is_secure(const struct stream *s) {
    return !s->failed && live_lanes(s, RECEIVES) + live_lanes(s, SENDS) == 2 * SUBS;
}

const char *status_of(const struct stream *s) {
    if (!live_lanes(s, RECEIVES) && !live_lanes(s, SENDS)) return "idle";
    return s->failed ? "insecure" : is_secure(s) ? "secure" : "partial";
}

/* ---- the cipher */

static void fails(const char *what) {
    fprintf(stderr, "device: %s failed\n", what);
    exit(1);
}

/* runs the unit that comes next under the key through AES-256-GCM, `bodies` onto `out`. Sealing, it gives the tag of 16
 * bytes; opening, it says if the tag of 12 bytes verifies. */
static bool run_cipher(const struct slot *slot, int sub, const struct lane *lane, bool is_closed, const uint8_t *bodies,
                       uint8_t *out, uint8_t *tag, bool seals) {
    const struct unit *unit = &slot->unit;
    uint8_t iv[12] = {(uint8_t)(sub << 4)}, ahead[8];
    int n = 0;
    for (int i = 0; i < 8; i++) iv[11 - i] = (uint8_t)((slot->units + 1) >> 8 * i);
    for (int i = 0; i < 8; i++) ahead[7 - i] = (uint8_t)(lane->total >> 8 * i);
    EVP_CIPHER_CTX *context = EVP_CIPHER_CTX_new();
    if (!context || !EVP_CipherInit_ex(context, EVP_aes_256_gcm(), NULL, slot->key, iv, seals)) fails("the cipher");
    if (is_closed && slot->units == 0 && !EVP_CipherUpdate(context, NULL, &n, ahead, 8)) fails("the cipher");
    if (!EVP_CipherUpdate(context, NULL, &n, unit->front, (int)unit->front_bytes)) fails("the cipher");
    if (unit->body_bytes && !EVP_CipherUpdate(context, out, &n, bodies, (int)unit->body_bytes)) fails("the cipher");
    if (!seals && !EVP_CIPHER_CTX_ctrl(context, EVP_CTRL_GCM_SET_TAG, TAG_BYTES, tag)) fails("the tag");
    bool verifies = EVP_CipherFinal_ex(context, out + unit->body_bytes, &n) > 0;
    if (seals && !EVP_CIPHER_CTX_ctrl(context, EVP_CTRL_GCM_GET_TAG, 16, tag)) fails("the tag");
    EVP_CIPHER_CTX_free(context);
    return verifies;
}

/* one more packet of the unit */
static void join(struct unit *unit, const uint8_t *prefix, const uint8_t *head, const uint8_t *body,
                 const struct tlp *tlp) {
    uint8_t *packet = unit->packet[unit->packets];
    memcpy(packet, prefix, PREFIX_BYTES);
    memcpy(packet + PREFIX_BYTES, head, tlp->head);
    memcpy(unit->front + unit->front_bytes, packet, PREFIX_BYTES + tlp->head);
    if (tlp->body) memcpy(unit->body + unit->body_bytes, body, tlp->body);
    unit->front_bytes += PREFIX_BYTES + tlp->head;
    unit->body_bytes += tlp->body;
    unit->bodies[unit->packets] = tlp->body;
    unit->tlps[unit->packets++] = *tlp;
}

/* ---- sending */

static bool has_open_unit(const struct lane *lane) {
    return lane->slots[0].unit.packets || lane->slots[1].unit.packets;
}

/* seals one packet and writes it */
static void seal_packet(struct stream *s, const uint8_t *head, const struct tlp *tlp, bool last, bool trusted) {
    static uint8_t sealed[MOST_UNIT * MOST_TLP];
    struct lane *lanes = s->lanes[SENDS], *lane = &lanes[tlp->sub];
    struct slot *slot = live_slot(lane), *other = &lane->slots[slot == lane->slots];
    uint8_t tag[16], k = (uint8_t)(slot - lane->slots), m = last ? 0x80 : 0;
    uint8_t prefix[4] = {0x92, (uint8_t)(m | k << 6 | trusted << 5 | tlp->sub), (uint8_t)s->id, 0};
    if (tlp->sub == PR) {
        lanes[NPR].posted++;
        lanes[CPL].posted++;
    } else {
        prefix[3] = (uint8_t)lane->posted;
        lane->posted = 0;
    }
    size_t before = slot->unit.body_bytes;
    join(&slot->unit, prefix, head, head + tlp->head, tlp);
    run_cipher(slot, tlp->sub, lane, s->closed, slot->unit.body, sealed, tag, true);
    printf(" ");
    write_hex(prefix, PREFIX_BYTES);
    write_hex(head, tlp->head);
    write_hex(sealed + before, tlp->body);
    if (!last) return;
    write_hex(tag, TAG_SENT);
    memset(&slot->unit, 0, sizeof slot->unit);
    slot->units++;
    lane->total++;
    if (other->state == ARMED) {
        other->state = LIVE;
        memset(slot, 0, sizeof *slot);
    }
}

static bool needs_sync(const struct stream *s, int sub, int tlp_sub) {
    const struct lane *lanes = s->lanes[SENDS];
    return sub != PR && tlp_sub == PR && !has_open_unit(&lanes[PR]) && lanes[sub].posted + (uint64_t)s->mode > 255;
}

/* writes why a TLP of this sub-stream is not sealed, if it is not */
static bool is_refused(struct stream *s, int tlp_sub) {
    struct lane *lanes = s->lanes[SENDS];
    if (s->failed) return printf("refused insecure"), true;
    if (!live_slot(&lanes[tlp_sub])) return printf("refused nokey %s", sub_names[tlp_sub]), true;
    if (tlp_sub != PR && has_open_unit(&lanes[PR])) return printf("refused unfinished"), true;
    for (int sub = NPR; sub <= CPL; sub++) {
        if (needs_sync(s, sub, tlp_sub) && !live_slot(&lanes[sub]))
            return printf("refused nokey %s", sub_names[sub]), true;
    }
    for (int i = 0; i < SUBS; i++) {
        int sub = i ? i : tlp_sub;
        if ((i && !needs_sync(s, sub, tlp_sub)) || has_open_unit(&lanes[sub])) continue;
        if (live_slot(&lanes[sub])->units >= units_per_key)
            return printf("refused worn %s %llu", sub_names[sub], (unsigned long long)units_per_key), true;
    }
    return false;
}

void seal_tlp(struct stream *s, const uint8_t *bytes, const struct tlp *tlp, bool more, bool trusted) {
    static const uint8_t sync_head[12] = {0x34};
    if (is_refused(s, tlp->sub)) return;
    bool syncs[SUBS] = {false, needs_sync(s, NPR, tlp->sub), needs_sync(s, CPL, tlp->sub)};
    printf("sealed");
    for (int sub = NPR; sub <= CPL; sub++) {
        struct tlp sync = {.sub = sub, .head = 12, .is_sync = true};
        if (syncs[sub]) seal_packet(s, sync_head, &sync, true, false);
    }
    struct slot *slot = live_slot(&s->lanes[SENDS][tlp->sub]);
    seal_packet(s, bytes, tlp, !more || slot->unit.packets + 1 == s->mode, trusted);
}

/* ---- arriving */

static void drop_held(struct stream *s) {
    for (int sub = 0; sub < SUBS; sub++) {
        for (int set = 0; set < 2; set++) memset(&s->lanes[RECEIVES][sub].slots[set].unit, 0, sizeof(struct unit));
    }
}

static struct unit *fails_check(struct stream *s, int sub, const char *check) {
    s->failed = true;
    drop_held(s);
    printf("fail %d %s %s", s->id, sub_names[sub], check);
    return NULL;
}

/* the posted counts of the packets that are in the unit */
static uint64_t counts_in(const struct unit *unit) {
    uint64_t sum = 0;
    for (int i = 0; i < unit->packets; i++) sum += unit->packet[i][3];
    return sum;
}

/* the unit is whole: tag, order, and what the receiver counts */
static struct unit *take_unit(struct stream *s, int sub, struct slot *slot, uint8_t *tag) {
    static struct unit taken;
    struct lane *lanes = s->lanes[RECEIVES], *lane = &lanes[sub];
    struct slot *other = &lane->slots[slot == lane->slots];
    taken = slot->unit;
    bool verifies = run_cipher(slot, sub, lane, s->closed, slot->unit.body, taken.body, tag, false);
#ifdef FAULT_COUNTER
    if (!verifies) {
        memset(&slot->unit, 0, sizeof slot->unit);
        slot->units++;
        printf("fail %d %s tag", s->id, sub_names[sub]);
        return NULL;
    }
#endif
    if (!verifies) return fails_check(s, sub, "tag");
    if (sub != PR && lane->carried + counts_in(&taken) > lanes[PR].got) return fails_check(s, sub, "order");
    lane->carried += counts_in(&taken);
    lane->got += (uint64_t)taken.packets;
    lane->total++;
    slot->units++;
    memset(&slot->unit, 0, sizeof slot->unit);
    if (other->state == LIVE && other->age < slot->age) memset(other, 0, sizeof *other);
    return &taken;
}

struct unit *take_packet(struct stream *s, const uint8_t *bytes, const struct tlp *tlp, struct slot **taken) {
    struct lane *lane = &s->lanes[RECEIVES][tlp->sub];
    int set = bytes[1] >> 6 & 1;
    struct slot *slot = *taken = &lane->slots[set], *other = &lane->slots[1 - set];
    bool last = bytes[1] & 0x80;
    if (s->failed) return printf("insecure %d", s->id), NULL;
    if (!live_slot(lane)) return printf("notkeyed %d %s", s->id, sub_names[tlp->sub]), NULL;
    if (slot->state != LIVE) return fails_check(s, tlp->sub, "key");
    if (other->unit.packets || (!last && slot->unit.packets + 1 == s->mode)) return fails_check(s, tlp->sub, "unit");
    const uint8_t *head = bytes + PREFIX_BYTES, *body = head + tlp->head;
    join(&slot->unit, bytes, head, body, tlp);
    if (last) {
        uint8_t tag[TAG_BYTES];
        memcpy(tag, body + tlp->body, TAG_BYTES);
        return take_unit(s, tlp->sub, slot, tag);
    }
    printf("held %d %s k%d unit %llu", s->id, sub_names[tlp->sub], set, (unsigned long long)slot->units + 1);
    return NULL;
}
