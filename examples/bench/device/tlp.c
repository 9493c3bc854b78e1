/* The layouts of TLPs and packets (FORMATS: Transaction layer packets, Packets of the link). */
#include "device.h"

uint16_t pair_at(const uint8_t *bytes) { return (uint16_t)(bytes[0] << 8 | bytes[1]); }

uint64_t memory_address(const uint8_t *head, const struct tlp *tlp) {
    uint64_t address = 0;
    for (size_t i = 8; i < tlp->head; i++) address = address << 8 | head[i];
    return address;
}

/* what byte 0 says; false if there is no such TLP */
static bool read_kind(uint8_t byte, struct tlp *tlp) {
    int fmt = byte >> 5, type = byte & 31;
    *tlp = (struct tlp){.head = fmt & 1 ? 16 : 12, .body = fmt >= 2};
    if (fmt > 3) return false;
    if (type == 0) {
        tlp->is_memory = true;
        tlp->is_write = fmt >= 2;
        tlp->sub = fmt >= 2 ? PR : NPR;
        return true;
    }
    if (type == 4 || type == 5) {
        tlp->sub = NPR;
        return !(fmt & 1);
    }
    if (type >> 3 == 2) {
        tlp->sub = PR;
        return (fmt & 1) && (type & 7) <= 5;
    }
    tlp->sub = CPL;
    return type == 10 && !(fmt & 1);
}

/* why no header goes on with the byte at this place */
static const char *header_fault(const uint8_t *head, const struct tlp *tlp, size_t place) {
    int type = head[0] & 31;
    bool is_configuration = type == 4 || type == 5;
    uint8_t byte = head[place];
    switch (place) {
    case 1: return byte & 0x03 ? "bit" : NULL;
    case 2: return byte & 0xc0 ? "bit" : is_configuration && (byte & 0x03) ? "length" : NULL;
    case 3: return is_configuration && byte != 1 ? "length" : NULL;
    case 10: return is_configuration && (byte & 0xf0) ? "bit" : NULL;
    case 11:
        if (is_configuration && (byte & 0x03)) return "bit";
        if (type == 10 && (byte & 0x80)) return "bit";
    }
    return tlp->is_memory && place == tlp->head - 1 && (byte & 0x03) ? "bit" : NULL;
}

/* the header after byte 0; then `body` is the payload's length in bytes */
static struct fault read_header(const uint8_t *head, size_t n, struct tlp *tlp) {
    for (size_t place = 1; place < tlp->head; place++) {
        if (place == n) return (struct fault){"short", n};
        const char *word = header_fault(head, tlp, place);
        if (word) return (struct fault){word, place};
    }
    size_t length = (size_t)(head[2] & 3) << 8 | head[3];
    tlp->body = tlp->body ? 4 * (length ? length : 1024) : 0;
    return (struct fault){NULL, 0};
}

static struct fault ends_at(size_t n, size_t end) {
    if (n < end) return (struct fault){"short", n};
    if (n > end) return (struct fault){"trailing", end};
    return (struct fault){NULL, 0};
}

struct fault read_tlp(const uint8_t *bytes, size_t n, struct tlp *tlp) {
    if (n == 0) return (struct fault){"short", 0};
    if (!read_kind(bytes[0], tlp)) return (struct fault){"kind", 0};
    struct fault fault = read_header(bytes, n, tlp);
    return fault.word ? fault : ends_at(n, tlp->head + tlp->body);
}

static struct fault read_sync(const uint8_t *bytes, size_t n, struct tlp *tlp) {
    *tlp = (struct tlp){.sub = bytes[1] & 7, .head = 12, .is_sync = true};
    if ((bytes[1] & 0xa0) != 0x80) return (struct fault){"sync", 4};
    for (size_t place = 5; place < 16; place++) {
        if (place == n) return (struct fault){"short", n};
        if (bytes[place]) return (struct fault){"sync", place};
    }
    return (struct fault){NULL, 0};
}

static struct fault read_prefix(const uint8_t *bytes, size_t n) {
    if (n > 1 && (bytes[1] & 0x18)) return (struct fault){"reserved", 1};
    if (n > 1 && (bytes[1] & 7) > CPL) return (struct fault){"substream", 1};
    if (n > 3 && (bytes[1] & 7) == PR && bytes[3]) return (struct fault){"reserved", 3};
    return n < 5 ? (struct fault){"short", n} : (struct fault){NULL, 0};
}

struct fault read_packet(const uint8_t *bytes, size_t n, struct tlp *tlp) {
    struct fault fault = read_prefix(bytes, n);
    if (fault.word) return fault;
    int sub = bytes[1] & 7;
    if (sub != PR && bytes[4] == 0x34) {
        fault = read_sync(bytes, n, tlp);
    } else {
        if (!read_kind(bytes[4], tlp)) return (struct fault){"kind", 4};
        if (tlp->sub != sub) return (struct fault){"class", 4};
        fault = read_header(bytes + 4, n - 4, tlp);
        fault.place += 4;
    }
    if (fault.word) return fault;
    return ends_at(n, PREFIX_BYTES + tlp->head + tlp->body + (bytes[1] & 0x80 ? TAG_BYTES : 0));
}
