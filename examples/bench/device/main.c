/* The device at its own standard input and output: a line is a word and what it needs, and gets one line. DEVICE.md has
 * the table. */
#include "device.h"

#include <inttypes.h>
#include <stdio.h>
#include <stdlib.h>
#include <string.h>

static char line[65536];
static uint8_t data[32768], out[2048];

static void refuse(const char *what) {
    fprintf(stderr, "device: %s\n", what);
    exit(2);
}

/* the next word of the line */
static char *word(void) {
    char *w = strtok(NULL, " \n");
    return w ? w : (refuse("a word is missing"), NULL);
}

static uint64_t number(void) {
    char *end, *w = word();
    uint64_t value = strtoull(w, &end, 0);
    if (*end) refuse("this is no number");
    return value;
}

/* a place that is there */
static int place(int count) {
    uint64_t n = number();
    if (n >= (uint64_t)count) refuse("there is no such place");
    return (int)n;
}

static size_t hex(uint8_t *bytes, size_t room) {
    const char *w = word();
    size_t n = strcmp(w, "-") ? strlen(w) / 2 : 0;
    if (n > room) refuse("these are too many bytes");
    for (size_t i = 0; i < n; i++) {
        unsigned value;
        if (sscanf(w + 2 * i, "%2x", &value) != 1) refuse("these are no bytes");
        bytes[i] = (uint8_t)value;
    }
    return n;
}

/* ---- what the device has */

static void add_stream(void) {
    if (device.streams == MOST_STREAMS) refuse("these are too many streams");
    struct stream *s = &device.stream[device.streams++];
    s->id = (int)number();
    s->is_selective = number();
    s->mode = (int)number();
    s->closed = number();
    s->is_default = number();
    s->classes = (unsigned)number();
    s->has_rid = number();
    for (int i = 0; i < 2; i++) s->rid[i] = (uint32_t)number();
    s->range_count = place(MOST_RANGES + 1);
    for (int i = 0; i < 2 * s->range_count; i++) s->ranges[i / 2][i % 2] = number();
}

static void add_interface(void) {
    if (device.interfaces == MOST_INTERFACES) refuse("these are too many interfaces");
    struct interface *i = &device.interface[device.interfaces++];
    i->rid = (int)number();
    for (int reg = 0; reg < BAR0; reg++) i->first[reg] = number();
    i->info_bytes = hex(i->info, sizeof i->info);
    i->bars = place(MOST_BARS + 1);
    for (int bar = 0; bar < i->bars; bar++) {
        i->first[BAR0 + bar] = number();
        i->pages[bar] = (uint32_t)number();
        i->attributes[bar] = (uint16_t)number();
        i->memory[bar] = calloc((size_t)i->pages[bar] + 1, 4096);
        if (!i->memory[bar]) refuse("there is no memory for a BAR");
    }
    level_reset(i);
    stop_interface(i);
}

static void add_nonce(void) {
    if (device.nonces == MOST_NONCES) refuse("these are too many nonces");
    if (hex(device.nonce[device.nonces++], 32) != 32) refuse("a nonce has 32 bytes");
}

/* ---- sends and arrivals */

static bool in_ranges(const struct stream *s, uint64_t address) {
    for (int i = 0; i < s->range_count; i++) {
        if (s->ranges[i][0] <= address && address <= s->ranges[i][1]) return true;
    }
    return false;
}

/* the stream that takes a TLP which this device sends */
static struct stream *choice(const uint8_t *bytes, const struct tlp *tlp) {
    uint32_t rid = pair_at(bytes + 4);
    struct stream *chosen = NULL, *by_default = NULL, *by_class = NULL;
    for (struct stream *s = device.stream; s < device.stream + device.streams; s++) {
        bool takes = (s->has_rid && s->rid[0] <= rid && rid <= s->rid[1]) ||
                     (tlp->is_memory && in_ranges(s, memory_address(bytes, tlp)));
        if (s->is_selective && takes && (!chosen || s->id < chosen->id)) chosen = s;
        if (s->is_default) by_default = s;
        if (!s->is_selective && (s->classes >> (bytes[1] >> 4 & 7) & 1)) by_class = s;
    }
    return chosen ? chosen : by_default ? by_default : by_class;
}

static bool is_trusted(const uint8_t *bytes, const struct stream *s) {
    for (int n = 0; n < device.interfaces; n++) {
        const struct interface *i = &device.interface[n];
        if (i->rid == pair_at(bytes + 4)) return i->state == RUN && i->stream == s->id;
    }
    return false;
}

static void send(void) {
    struct tlp tlp;
    size_t n = hex(data, sizeof data);
    const char *more = strtok(NULL, " \n");
    struct fault fault = read_tlp(data, n, &tlp);
    if (fault.word) {
        printf("malformed %s %zu", fault.word, fault.place);
        return;
    }
    struct stream *s = choice(data, &tlp);
    if (!s) printf("plain");
    else seal_tlp(s, data, &tlp, more && !strcmp(more, "more"), is_trusted(data, s));
}

static void take(void) {
    struct tlp tlp;
    struct slot *slot;
    size_t n = hex(data, sizeof data);
    if (n && data[0] != 0x92) {
        printf("plain");
        return;
    }
    struct fault fault = read_packet(data, n, &tlp);
    if (fault.word) {
        printf("malformed %s %zu", fault.word, fault.place);
        return;
    }
    struct stream *s = stream_by_id(data[2]);
    if (!s) {
        printf("unknown %d", data[2]);
        return;
    }
    struct unit *unit = take_packet(s, data, &tlp, &slot);
    if (unit) {
        printf("accepted %d %s k%d unit %" PRIu64, s->id, sub_names[tlp.sub], data[1] >> 6 & 1, slot->units);
        const uint8_t *body = unit->body;
        for (int i = 0; i < unit->packets; body += unit->bodies[i++])
            printf(" %s", effect_of(unit->packet[i], &unit->tlps[i], body, s->id, slot->age));
    }
    settle_interfaces();
}

/* ---- the other lines */

static int register_named(const char *name, int bars) {
    static const char *const names[BAR0] = {"command", "msix", "lnr", "pasid", "ats", "cacheline", "tph"};
    for (int reg = 0; reg < BAR0; reg++) {
        if (!strcmp(name, names[reg])) return reg;
    }
    int bar = strncmp(name, "bar", 3) ? -1 : name[3] - '0';
    if (bar < 0 || bar >= bars) refuse("there is no such register");
    return BAR0 + bar;
}

static void write_one(void) {
    struct interface *i = &device.interface[place(device.interfaces)];
    int reg = register_named(word(), i->bars);
    write_register(i, reg, number());
    printf("%d", i->state);
}

static void change(bool is_reset) {
    struct interface *i = &device.interface[place(device.interfaces)];
    if (is_reset) level_reset(i);
    else if (i->flags & 1) goes_wrong(i);
    printf("%d", i->state);
}

static void reset_all(void) {
    for (int n = 0; n < device.streams; n++) clear_stream(&device.stream[n]);
    for (int n = 0; n < device.interfaces; n++) {
        level_reset(&device.interface[n]);
        stop_interface(&device.interface[n]);
    }
    printf("reset");
}

static void show_memory(void) {
    const struct interface *i = &device.interface[place(device.interfaces)];
    int bar = place(i->bars);
    uint64_t offset = number(), length = number(), size = (uint64_t)4096 * i->pages[bar];
    if (offset > size || length > size - offset) refuse("the BAR does not have these bytes");
    printf("mmio ");
    write_hex(i->memory[bar] + offset, length);
}

static void talk(void) {
    size_t n = reply_to(data, hex(data, sizeof data), out);
    printf(n ? "reply " : "silent");
    write_hex(out, n);
}

static void status(void) {
    const struct stream *s = stream_by_id((int)number());
    printf("%s", s ? status_of(s) : "none");
}

static void flr(void) { change(true); }
static void firmware(void) { change(false); }
static void keys(void) { units_per_key = number(); }

/* those up to `nonce` say what the device has, and are answered by `ok` */
static const struct {
    const char *name;
    void (*runs)(void);
    bool is_ok;
} table[] = {
    {"keys", keys, true},      {"stream", add_stream, true}, {"interface", add_interface, true},
    {"nonce", add_nonce, true}, {"message", talk, false},     {"send", send, false},
    {"take", take, false},     {"write", write_one, false},  {"flr", flr, false},
    {"firmware", firmware, false}, {"reset", reset_all, false}, {"status", status, false},
    {"mmio", show_memory, false},
};

int main(void) {
    const size_t names = sizeof table / sizeof *table;
    while (fgets(line, sizeof line, stdin)) {
        const char *first = strtok(line, " \n");
        size_t n = 0;
        while (first && n < names && strcmp(first, table[n].name)) n++;
        if (!first || n == names) refuse("there is no such line");
        table[n].runs();
        printf(table[n].is_ok ? "ok\n" : "\n");
        fflush(stdout);
    }
    return 0;
}
