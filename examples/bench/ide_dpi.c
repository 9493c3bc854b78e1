/* What ide_session_pkg.sv imports: sessions by a pointer, texts as strings that end with a zero byte. A text stands
 * until the next call for its session. */
#include "ide_session.h"

#include <stdio.h>
#include <stdlib.h>
#include <string.h>

#ifdef __cplusplus
extern "C" {
#endif

typedef struct {
    ide_session session;
    uint8_t *buf; /* one byte more than cap, for the zero byte */
    size_t cap;
} dpi_session;

static int grow(dpi_session *d, size_t cap) {
    uint8_t *more = (uint8_t *)realloc(d->buf, cap + 1);
    if (!more) return 0;
    d->buf = more;
    d->cap = cap;
    return 1;
}

/* the text without its line feed, or nothing */
static const char *text_of(dpi_session *d, size_t written) {
    if (written > d->cap) written = 0;
    if (written > 0 && d->buf[written - 1] == '\n') written--;
    d->buf[written] = 0;
    return (const char *)d->buf;
}

/* the bytes of a file, at most one more than a topology may have; null, and the answer that says why, if they cannot be
 * had */
static uint8_t *bytes_of(const char *path, size_t *n, int *answer) {
    const size_t most = (1u << 20) + 1;
    FILE *file = fopen(path, "rb");
    *answer = 5;
    if (!file) return NULL;
    uint8_t *bytes = (uint8_t *)malloc(most);
    if (!bytes) *answer = IDE_MEMORY;
    if (bytes) *n = fread(bytes, 1, most, file);
    if (bytes && ferror(file)) {
        free(bytes);
        bytes = NULL;
    }
    fclose(file);
    return bytes;
}

/* A session on the topology in a file, even if the answer is not 0: ide_dpi_close frees it. Null and answer 5 if the
 * file cannot be read, null and answer 7 if there is no memory. */
void *ide_dpi_open(const char *path, int *answer, const char **text) {
    size_t n = 0, written = 0;
    dpi_session *d = (dpi_session *)calloc(1, sizeof *d);
    *text = "";
    *answer = IDE_MEMORY;
    if (!d) return NULL;
    uint8_t *topology = bytes_of(path, &n, answer);
    if (!topology || !grow(d, 4096)) {
        if (topology) *answer = IDE_MEMORY;
        free(topology);
        free(d);
        return NULL;
    }
    *answer = (int)ide_open(&d->session, topology, n, d->buf, d->cap, &written);
    if (*answer == IDE_TOPOLOGY && written > d->cap && grow(d, written))
        *answer = (int)ide_open(&d->session, topology, n, d->buf, d->cap, &written);
    free(topology);
    if (*answer == IDE_MEMORY) {
        free(d->buf);
        free(d);
        return NULL;
    }
    *text = text_of(d, written);
    return d;
}

/* the answer of the next line, and its text */
int ide_dpi_step(void *handle, const char *line, const char **text) {
    dpi_session *d = (dpi_session *)handle;
    size_t written = 0;
    *text = "";
    if (!d) return IDE_CLOSED;
    uint32_t answer = ide_step(&d->session, (const uint8_t *)line, strlen(line), d->buf, d->cap, &written);
    if (answer == IDE_ROOM && grow(d, written)) answer = ide_text(&d->session, d->buf, d->cap, &written);
    *text = text_of(d, written);
    return (int)answer;
}

/* the answer of a call that tells something of a session, and its text; `n` is of ide_packet alone */
typedef uint32_t (*telling)(ide_session *session, uint64_t n, uint8_t *buf, size_t cap, size_t *written);

static uint32_t totals_of(ide_session *session, uint64_t n, uint8_t *buf, size_t cap, size_t *written) {
    (void)n;
    return ide_totals(session, buf, cap, written);
}

static uint32_t why_of(ide_session *session, uint64_t n, uint8_t *buf, size_t cap, size_t *written) {
    (void)n;
    return ide_why(session, buf, cap, written);
}

static int told(telling tell, void *handle, uint64_t n, const char **text) {
    dpi_session *d = (dpi_session *)handle;
    size_t written = 0;
    *text = "";
    if (!d) return IDE_CLOSED;
    uint32_t answer = tell(&d->session, n, d->buf, d->cap, &written);
    if (answer == IDE_ROOM && grow(d, written)) answer = tell(&d->session, n, d->buf, d->cap, &written);
    *text = text_of(d, written);
    return (int)answer;
}

/* the totals so far */
int ide_dpi_totals(void *handle, const char **text) { return told(totals_of, handle, 0, text); }

/* keeps what verdicts come from, from the next line on, or no more */
int ide_dpi_explain(void *handle, int on) {
    dpi_session *d = (dpi_session *)handle;
    return d ? (int)ide_explain(&d->session, on != 0) : IDE_CLOSED;
}

/* what the verdict of the last line came from */
int ide_dpi_why(void *handle, const char **text) { return told(why_of, handle, 0, text); }

/* the bytes of a packet, in hex digits */
int ide_dpi_packet(void *handle, uint64_t number, const char **text) {
    return told(ide_packet, handle, number, text);
}

/* ends a session */
void ide_dpi_close(void *handle) {
    dpi_session *d = (dpi_session *)handle;
    if (!d) return;
    ide_close(&d->session);
    free(d->buf);
    free(d);
}

#ifdef __cplusplus
}
#endif
