/* The responders: key management and interfaces (FORMATS: Messages of the manager and a device). */
#include "device.h"

#include <stdio.h>
#include <string.h>

struct device device;

struct stream *stream_by_id(int id) {
    for (int i = 0; i < device.streams; i++) {
        if (device.stream[i].id == id) return &device.stream[i];
    }
    return NULL;
}

void settle_interfaces(void) {
    for (int n = 0; n < device.interfaces; n++) {
        struct interface *i = &device.interface[n];
        const struct stream *s = stream_by_id(i->stream);
        if (!s || !is_secure(s)) goes_wrong(i);
    }
}

void write_hex(const uint8_t *bytes, size_t n) {
    for (size_t i = 0; i < n; i++) printf("%02x", bytes[i]);
}

static uint64_t number_at(const uint8_t *bytes, int n) {
    uint64_t value = 0;
    while (n--) value = value << 8 | bytes[n];
    return value;
}

/* ---- key management */

enum { QUERY, QUERY_RESP, KEY_PROG, KP_ACK, K_SET_GO, K_SET_STOP, K_GOSTOP_ACK };
enum { KEY_PROG_BYTES = 48 };

/* the status that a KEY_PROG of the right length gets */
static uint8_t key_status(const uint8_t *request, struct stream *s) {
    uint8_t selector = request[6], sub = selector >> 4;
    if (request[7]) return 2;
    if (!s || sub > CPL || number_at(request + 40, 8) != 1) return 3;
    return program_slot(s, selector >> 1 & 1, sub, selector & 1, request + 8) ? 0 : 3;
}

static size_t key_ack(const uint8_t *request, uint8_t object, uint8_t status, uint8_t *out) {
    const uint8_t reply[8] = {0, object, 0, 0, request[4], status, request[6], request[7]};
    memcpy(out, reply, 8);
    return 8;
}

static size_t reply_to_query(uint8_t *out) {
    int rid = device.interfaces ? device.interface[0].rid : 0;
    const uint8_t reply[8] = {0, QUERY_RESP, 0, 0, (uint8_t)rid, (uint8_t)(rid >> 8), 0, 0};
    memcpy(out, reply, 8);
    return 8;
}

static size_t reply_to_key(const uint8_t *request, size_t n, uint8_t *out) {
    /* fields that are missing are 0 */
    uint8_t whole[KEY_PROG_BYTES] = {0};
    memcpy(whole, request, n < KEY_PROG_BYTES ? n : KEY_PROG_BYTES);
    uint8_t object = whole[1], selector = whole[6], sub = selector >> 4;
    struct stream *s = stream_by_id(whole[4]);
    if (n < 2) return 0;
    if (object == QUERY) return n == 4 && whole[3] == 0 ? reply_to_query(out) : 0;
    if (object == KEY_PROG) return key_ack(whole, KP_ACK, n == KEY_PROG_BYTES ? key_status(whole, s) : 1, out);
    if (n != 8 || whole[7] || !s || sub > CPL) return 0;
    if (object == K_SET_STOP) {
        stop_slot(s, selector >> 1 & 1, sub, selector & 1);
    } else if (object != K_SET_GO || !go_slot(s, selector >> 1 & 1, sub, selector & 1)) {
        return 0;
    }
    return key_ack(whole, K_GOSTOP_ACK, 0, out);
}

/* ---- interfaces */

enum { HEAD = 17, VERSION = 0x10, ANY_LOCK_FLAG = 0x1f, BINDS_PEERS = 8 };
enum { INVALID_REQUEST = 1, INVALID_STATE = 4, UNSUPPORTED = 7, BAD_VERSION = 0x41, INVALID_INTERFACE = 0x101,
       INVALID_NONCE = 0x102, NO_NONCE = 0x103, NOT_LOCKABLE = 0x104 };
enum { GET_VERSION = 0x81, GET_CAPABILITIES, LOCK, GET_REPORT, GET_STATE, START, STOP, BIND, UNBIND };

static size_t message(uint8_t type, uint32_t function, const uint8_t *body, size_t n, uint8_t *out) {
    memset(out, 0, HEAD);
    out[0] = 0x01;
    out[1] = VERSION;
    out[2] = type;
    for (int i = 0; i < 4; i++) out[5 + i] = (uint8_t)(function >> 8 * i);
    if (n) memcpy(out + HEAD, body, n);
    return HEAD + n;
}

static size_t error(uint32_t function, unsigned code, uint8_t *out) {
    const uint8_t body[8] = {(uint8_t)code, (uint8_t)(code >> 8)};
    return message(0x7f, function, body, sizeof body, out);
}

static unsigned lock(struct interface *i, const uint8_t *body) {
    unsigned flags = (unsigned)number_at(body, 2);
    uint64_t offset = number_at(body + 4, 8);
    const struct stream *s = stream_by_id(body[2]);
    if (i->state != UNLOCKED) return INVALID_STATE;
    if ((flags & ~(unsigned)ANY_LOCK_FLAG) || offset % 4096) return INVALID_REQUEST;
    if (!s || !is_secure(s) || bars_overlap(i)) return NOT_LOCKABLE;
    if (device.nonces_used == device.nonces) return NO_NONCE;
    memcpy(i->nonce, device.nonce[device.nonces_used++], 32);
    i->state = LOCKED;
    i->flags = (int)flags;
    i->offset = offset;
    i->stream = s->id;
    i->report_bytes = interface_report(i, i->report);
    return 0;
}

static size_t portion(struct interface *i, uint32_t function, const uint8_t *body, uint8_t *out) {
    uint8_t reply[4 + sizeof i->report];
    size_t offset = number_at(body, 2), length = number_at(body + 2, 2);
#ifdef FAULT_REPORT
    if (i->state == LOCKED || i->state == RUN) i->report_bytes = interface_report(i, i->report);
#endif
    if (i->state != LOCKED && i->state != RUN) return error(function, INVALID_STATE, out);
    if (length == 0 || offset >= i->report_bytes) return error(function, INVALID_REQUEST, out);
    if (length > i->report_bytes - offset) length = i->report_bytes - offset;
    size_t left = i->report_bytes - offset - length;
    const uint8_t counts[4] = {(uint8_t)length, (uint8_t)(length >> 8), (uint8_t)left, (uint8_t)(left >> 8)};
    memcpy(reply, counts, 4);
    memcpy(reply + 4, i->report + offset, length);
    return message(0x04, function, reply, 4 + length, out);
}

static unsigned start(struct interface *i, const uint8_t *nonce) {
    if (i->state != LOCKED) return INVALID_STATE;
    if (memcmp(nonce, i->nonce, 32)) return INVALID_NONCE;
    struct slot *newest = live_slot(&stream_by_id(i->stream)->lanes[RECEIVES][PR]);
    i->floor = newest->age;
    i->state = RUN;
    return 0;
}

/* BIND_P2P and UNBIND_P2P: this device has no stream to another one */
static unsigned bind_peer(const struct interface *i, bool binds) {
    if (i->state != LOCKED && i->state != RUN) return INVALID_STATE;
    return binds && (i->flags & BINDS_PEERS) ? NOT_LOCKABLE : INVALID_REQUEST;
}

static struct interface *interface_of(uint32_t function) {
    bool is_elsewhere = (function >> 24 & 1) && (function >> 16 & 0xff);
    for (int n = 0; n < device.interfaces && !is_elsewhere; n++) {
        if (device.interface[n].rid == (int)(function & 0xffff)) return &device.interface[n];
    }
    return NULL;
}

static size_t answer(struct interface *i, uint8_t type, uint32_t function, const uint8_t *body, uint8_t *out) {
    static const uint8_t version[2] = {1, VERSION};
    static const uint8_t capabilities[28] = {[4] = 0xfe, [5] = 0x03, [20] = 0x1f, [25] = 64, [26] = 1, [27] = 1};
    const uint8_t state = (uint8_t)i->state;
    unsigned code = 0;
    switch (type) {
    case GET_VERSION: return message(0x01, function, version, sizeof version, out);
    case GET_CAPABILITIES: return message(0x02, function, capabilities, sizeof capabilities, out);
    case GET_REPORT: return portion(i, function, body, out);
    case GET_STATE: return message(0x05, function, &state, 1, out);
    case LOCK: code = lock(i, body); break;
    case START: code = start(i, body); break;
    case STOP: stop_interface(i); break;
    default: code = bind_peer(i, type == BIND);
    }
    if (code) return error(function, code, out);
    return message(type & 0x7f, function, i->nonce, type == LOCK ? 32 : 0, out);
}

static size_t reply_to_interface(const uint8_t *request, size_t n, uint8_t *out) {
    static const size_t sizes[] = {0, 4, 20, 4, 0, 32, 0, 1, 1};
    if (n < HEAD) return error(0, INVALID_REQUEST, out);
    uint32_t function = (uint32_t)number_at(request + 5, 4);
    uint8_t type = request[2];
    if (request[1] != VERSION) return error(function, BAD_VERSION, out);
    if (type < GET_VERSION || type > UNBIND) return error(function, UNSUPPORTED, out);
    if (n != HEAD + sizes[type - GET_VERSION]) return error(function, INVALID_REQUEST, out);
    struct interface *i = interface_of(function);
    return i ? answer(i, type, function, request + HEAD, out) : error(function, INVALID_INTERFACE, out);
}

size_t reply_to(const uint8_t *request, size_t n, uint8_t *out) {
    size_t written = n == 0 ? 0 : request[0] == 0x00 ? reply_to_key(request, n, out)
                                : request[0] == 0x01 ? reply_to_interface(request, n, out) : 0;
    settle_interfaces();
    return written;
}
