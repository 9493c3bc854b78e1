/* A small device at the end of one link, written from docs/FORMATS.md and docs/RULES.md alone, over the AES-256-GCM of
 * OpenSSL. It takes nothing from the program, so that the two can be compared. ../DEVICE.md says how to talk to it. */
#ifndef DEVICE_H
#define DEVICE_H

#include <stdbool.h>
#include <stddef.h>
#include <stdint.h>

enum { PR, NPR, CPL, SUBS };
enum { RECEIVES, SENDS };
enum { MOST_STREAMS = 16, MOST_INTERFACES = 64, MOST_BARS = 6, MOST_NONCES = 1024, MOST_RANGES = 8 };
enum { TAG_BYTES = 12, PREFIX_BYTES = 4, MOST_UNIT = 8, MOST_TLP = 4112, MOST_PACKET = 4128 };

/* ---- layouts (tlp.c) */

/* why bytes are no TLP or no packet, and the place; no word if they are one */
struct fault {
    const char *word;
    size_t place;
};

/* where the parts of a TLP stand; a sync packet has a header of 12 bytes */
struct tlp {
    int sub;
    size_t head, body;
    bool is_write, is_memory, is_sync;
};

struct fault read_tlp(const uint8_t *bytes, size_t n, struct tlp *tlp);
/* of bytes that begin with 92h, or of none */
struct fault read_packet(const uint8_t *bytes, size_t n, struct tlp *tlp);
uint16_t pair_at(const uint8_t *bytes);
uint64_t memory_address(const uint8_t *head, const struct tlp *tlp);

/* ---- keyed streams (stream.c) */

/* the packets of a unit that is not finished: prefixes and headers joined, bodies joined */
struct unit {
    int packets;
    size_t front_bytes, body_bytes;
    uint8_t front[MOST_UNIT * (PREFIX_BYTES + 16)], body[MOST_UNIT * MOST_TLP];
    uint8_t packet[MOST_UNIT][PREFIX_BYTES + 16];
    size_t bodies[MOST_UNIT];
    struct tlp tlps[MOST_UNIT];
};

enum slot_state { EMPTY, PROGRAMMED, ARMED, LIVE };

struct slot {
    enum slot_state state;
    uint8_t key[32];
    /* keys are numbered as they come; a later one is newer */
    uint64_t age;
    /* how many units were finished under the key */
    uint64_t units;
    struct unit unit;
};

struct lane {
    struct slot slots[2];
    /* sends: PR packets since the last packet of this sub-stream. receives: posted counts so far, packets so far */
    uint64_t posted, carried, got;
    /* units that were finished since the last establish */
    uint64_t total;
};

struct stream {
    int id, mode;
    bool closed, is_selective, is_default, has_rid, failed;
    unsigned classes;
    uint32_t rid[2];
    int range_count;
    uint64_t ranges[MOST_RANGES][2];
    struct lane lanes[2][SUBS];
};

extern const char *const sub_names[SUBS];
extern uint64_t units_per_key;

bool program_slot(struct stream *s, int direction, int sub, int set, const uint8_t *key);
bool go_slot(struct stream *s, int direction, int sub, int set);
void stop_slot(struct stream *s, int direction, int sub, int set);
void clear_stream(struct stream *s);
const char *status_of(const struct stream *s);
bool is_secure(const struct stream *s);
/* the Live key of a sub-stream, the newest if there are two; else none */
struct slot *live_slot(struct lane *lane);

/* writes the answer of a send: a refusal, or `sealed` and the packets */
void seal_tlp(struct stream *s, const uint8_t *bytes, const struct tlp *tlp, bool more, bool trusted);
/* an arrival at the stream; gives the unit that it ends, if that is accepted, else writes the answer */
struct unit *take_packet(struct stream *s, const uint8_t *bytes, const struct tlp *tlp, struct slot **slot);

/* ---- interfaces (interface.c) */

enum { UNLOCKED, LOCKED, RUN, IN_ERROR };
enum { COMMAND, MSIX, LNR, PASID, ATS, CACHELINE, TPH, BAR0, REGISTERS = BAR0 + MOST_BARS };

struct interface {
    int rid, state, bars, flags, stream;
    uint64_t first[REGISTERS], registers[REGISTERS];
    uint32_t pages[MOST_BARS];
    uint16_t attributes[MOST_BARS];
    uint8_t *memory[MOST_BARS];
    uint8_t info[1024], report[1200], nonce[32];
    size_t info_bytes, report_bytes;
    uint64_t offset, floor;
};

size_t interface_report(const struct interface *i, uint8_t *out);
void write_register(struct interface *i, int reg, uint64_t value);
void level_reset(struct interface *i);
void stop_interface(struct interface *i);
void goes_wrong(struct interface *i);
bool bars_overlap(const struct interface *i);
/* the effect of one packet of an accepted unit */
const char *effect_of(const uint8_t *packet, const struct tlp *tlp, const uint8_t *body, int stream, uint64_t age);

/* ---- the device, and its messages (message.c) */

struct device {
    int streams, interfaces, nonces, nonces_used;
    struct stream stream[MOST_STREAMS];
    struct interface interface[MOST_INTERFACES];
    uint8_t nonce[MOST_NONCES][32];
};

extern struct device device;

struct stream *stream_by_id(int id);
/* interfaces whose stream is not Secure any more go to ERROR */
void settle_interfaces(void);
/* the reply to a message, 0 bytes if there is none */
size_t reply_to(const uint8_t *request, size_t n, uint8_t *out);
void write_hex(const uint8_t *bytes, size_t n);

#endif
