/* Sessions of `ide run` for C: a session is opened on the bytes of a topology, stepped by one line of a script at a
 * time, and closed. README.md beside this file says how it is linked, and what the caller owes. */
#ifndef IDE_SESSION_H
#define IDE_SESSION_H

#include <stdbool.h>
#include <stddef.h>
#include <stdint.h>

#ifdef __cplusplus
extern "C" {
#endif

/* The handle of a session: all zero before ide_open. While `live` is true it is the library's: neither write nor copy
 * it. */
typedef struct {
    void *at;
    bool live;
} ide_session;

/* What a call answers. The first five numbers are those of the program's exit codes. */
enum {
    IDE_DONE = 0,     /* done; the text, if the call has one, is in buf */
    IDE_TOPOLOGY = 3, /* ide_open: no plan; the text is the line of the first fault; the handle stays empty */
    IDE_SCRIPT = 4,   /* ide_step: the line is not spelled; the text is `refused N cause`; the session is as it was */
    IDE_MEMORY = 7,   /* no memory; ide_step leaves the session as it was or ends it: then ide_text says IDE_CLOSED */
    IDE_TOO_LONG = 8, /* ide_open: more than 1,048,576 bytes; ide_step: the session has had 67,108,862 lines */
    IDE_ROOM = 9,     /* ide_step, ide_text, ide_totals, ide_why, ide_packet: done, but buf has no room for the text */
    IDE_CLOSED = 10,  /* the handle has no session */
    IDE_OPEN = 11,    /* ide_open: the handle has a session already, which is as it was */
    IDE_ABSENT = 12   /* ide_why: nothing was kept of the last line; ide_packet: no packet has the number */
};

/* In each call *written says how many bytes the text has, 0 if there is none. The text ends with a line feed, and with
 * no zero byte. It is in buf if *written <= cap. A slice is a pointer, which is never null, and a length; buf, written,
 * s and what is read do not overlap. */

/* Opens a session on the bytes of a topology: that of the plan which they mean, before the first line. The text is
 * empty, or with IDE_TOPOLOGY the line that `ide check` writes; if buf has no room for that, call again with more. */
uint32_t ide_open(ide_session *s, const uint8_t *topology, size_t topology_len, uint8_t *buf, size_t cap,
                  size_t *written);

/* Runs the next line of a script, which stands without its line feed. The text is the line that `ide run` writes for
 * it, empty for a comment and for an empty line. With IDE_ROOM the line was run: ide_text gives its text. With
 * IDE_SCRIPT it was not, and if buf had no room, calling again with more gives the same answer. */
uint32_t ide_step(ide_session *s, const uint8_t *line, size_t line_len, uint8_t *buf, size_t cap, size_t *written);

/* The text of the line that was run last, as often as it is asked for; the session is as it was. */
uint32_t ide_text(ide_session *s, uint8_t *buf, size_t cap, size_t *written);

/* The line of the totals of all lines so far, which `ide run` writes at the end; the session is as it was. */
uint32_t ide_totals(ide_session *s, uint8_t *buf, size_t cap, size_t *written);

/* From the next line on, keeps what its verdict comes from, for ide_why, if `on` is true; else no more. A session that
 * was opened keeps nothing, and takes no time for it. */
uint32_t ide_explain(ide_session *s, bool on);

/* What the verdict of the line that was run last came from: the rule that answers, and facts of the state before the
 * line, one a line after a space, as `ide why` writes them below the verdict. It is empty for a comment and for an empty
 * line. IDE_ABSENT if no line was run, or it was run while nothing was kept; the session is as it was. */
uint32_t ide_why(ide_session *s, uint8_t *buf, size_t cap, size_t *written);

/* The bytes of packet `number`, from 1, among those that were sealed so far, in hex digits, as `dump` shows them.
 * IDE_ABSENT if there are not so many; the session is as it was. */
uint32_t ide_packet(ide_session *s, uint64_t number, uint8_t *buf, size_t cap, size_t *written);

/* Ends a session and frees its memory; the handle may be opened again. IDE_CLOSED if there is none. */
uint32_t ide_close(ide_session *s);

#ifdef __cplusplus
}
#endif
#endif
