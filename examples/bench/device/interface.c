/* Device interfaces and what stands behind their BARs (RULES: Device interfaces, Guarded memory; FORMATS: Interface
 * reports). */
#include "device.h"

#include <string.h>

enum { PAGE = 4096, MEMORY_SPACE = 2, KEPT_BITS = 6, OPEN = 4 };
enum { NO_FIRMWARE = 1, KEEPS_CACHE_LINE = 2, KEEPS_MSIX = 4 };

/* a 64-bit base and what comes after it may pass 2^64 */
typedef unsigned __int128 whole;

static whole bar_end(const struct interface *i, int bar) {
    return (whole)i->registers[BAR0 + bar] + (whole)PAGE * i->pages[bar];
}

/* ---- reports */

static uint8_t *put_number(uint8_t *out, int bytes, uint64_t value) {
    for (int i = 0; i < bytes; i++) *out++ = (uint8_t)(value >> 8 * i);
    return out;
}

/* of the registers as they stand */
size_t interface_report(const struct interface *i, uint8_t *out) {
    uint32_t ranges = 0;
    for (int bar = 0; bar < i->bars; bar++) ranges += i->pages[bar] > 0;
    uint8_t *at = put_number(out, 2, 2u | (i->flags & NO_FIRMWARE));
    at = put_number(at, 2, 0);
    at = put_number(at, 2, i->registers[MSIX]);
    at = put_number(at, 2, i->registers[LNR]);
    at = put_number(at, 4, i->registers[TPH]);
    at = put_number(at, 4, ranges);
    for (int bar = 0; bar < i->bars; bar++) {
        if (!i->pages[bar]) continue;
        at = put_number(at, 8, (i->registers[BAR0 + bar] + i->offset) / PAGE);
        at = put_number(at, 4, i->pages[bar]);
        at = put_number(at, 2, i->attributes[bar]);
        at = put_number(at, 2, (uint64_t)bar);
    }
    at = put_number(at, 4, i->info_bytes);
    memcpy(at, i->info, i->info_bytes);
    return (size_t)(at - out) + i->info_bytes;
}

bool bars_overlap(const struct interface *i) {
    for (int a = 0; a < i->bars; a++) {
        for (int b = 0; b < a; b++) {
            bool apart = bar_end(i, a) <= i->registers[BAR0 + b] || bar_end(i, b) <= i->registers[BAR0 + a];
            if (i->pages[a] && i->pages[b] && !apart) return true;
        }
    }
    return false;
}

/* ---- states and changes */

void goes_wrong(struct interface *i) {
    if (i->state == LOCKED || i->state == RUN) i->state = IN_ERROR;
}

void write_register(struct interface *i, int reg, uint64_t value) {
    uint64_t changed = i->registers[reg] ^ value;
    i->registers[reg] = value;
    bool listed = changed;
    if (reg == COMMAND) listed = changed & KEPT_BITS;
    if (reg == MSIX) listed = changed && (i->flags & KEEPS_MSIX);
    if (reg == CACHELINE) listed = changed && (i->flags & KEEPS_CACHE_LINE);
    if (listed) goes_wrong(i);
}

void level_reset(struct interface *i) {
    memcpy(i->registers, i->first, sizeof i->registers);
    for (int bar = 0; bar < i->bars; bar++) memset(i->memory[bar], 0, (size_t)PAGE * i->pages[bar]);
    goes_wrong(i);
}

void stop_interface(struct interface *i) {
    i->state = UNLOCKED;
    i->stream = -1;
    i->flags = 0;
    i->report_bytes = 0;
    for (int bar = 0; bar < i->bars; bar++) {
        if (!(i->attributes[bar] & OPEN)) memset(i->memory[bar], 0, (size_t)PAGE * i->pages[bar]);
    }
}

/* ---- writes to BARs */

/* the least BAR that has all of these bytes; none: -1 */
static int claims(const struct interface *i, uint64_t address, size_t length) {
    for (int bar = 0; bar < i->bars && (i->registers[COMMAND] & MEMORY_SPACE); bar++) {
        if (address >= i->registers[BAR0 + bar] && (whole)address + length <= bar_end(i, bar)) return bar;
    }
    return -1;
}

static const char *block_cause(const struct interface *i, int bar, bool trusted, int stream, uint64_t age) {
    if (!trusted) return (i->attributes[bar] & OPEN) || i->state == UNLOCKED ? NULL : "blocked:nottrusted";
    if (i->state != RUN) return "blocked:notrunning";
    if (stream != i->stream) return "blocked:wrongstream";
    return age < i->floor ? "blocked:stale" : NULL;
}

/* the bytes that the enables name, of double words from the memory's first byte on */
static void store(uint8_t *memory, const uint8_t *body, size_t length, uint8_t enables) {
    for (size_t at = 0; at < length; at++) {
        int named = at < 4 ? enables & 15 : at + 4 >= length ? enables >> 4 : 15;
        if (named >> at % 4 & 1) memory[at] = body[at];
    }
}

const char *effect_of(const uint8_t *packet, const struct tlp *tlp, const uint8_t *body, int stream, uint64_t age) {
    const uint8_t *head = packet + PREFIX_BYTES;
    if (tlp->is_sync) return "sync";
    if (!tlp->is_write) return "delivered";
    uint64_t address = memory_address(head, tlp);
    for (int n = 0; n < device.interfaces; n++) {
        struct interface *i = &device.interface[n];
        int bar = claims(i, address, tlp->body);
        if (bar < 0) continue;
        if (address / PAGE != (address + tlp->body - 1) / PAGE) return "blocked:crosses";
        const char *cause = block_cause(i, bar, packet[1] & 0x20, stream, age);
        if (cause) return cause;
        store(i->memory[bar] + (address - i->registers[BAR0 + bar]), body, tlp->body, head[7]);
        return "stored";
    }
    return "delivered";
}
