/* run [--why] TOPOLOGY SCRIPT over the library: the text and the status of `ide run`, line by line; with --why what each
 * verdict came from below it, as `ide why` writes it. */
#include "ide_session.h"

#include <stdio.h>
#include <stdlib.h>
#include <string.h>

/* how many bytes of a script count, and how many a line may have */
enum { SCRIPT_LIMIT = 16777216, LINE_LIMIT = 20000 };

/* the bytes of a file, at most one more than a script may have */
static uint8_t *bytes_of(const char *path, size_t *n) {
    const size_t most = SCRIPT_LIMIT + 1;
    FILE *file = fopen(path, "rb");
    uint8_t *bytes = malloc(most);
    if (!file || !bytes) exit(file ? IDE_MEMORY : 5);
    *n = fread(bytes, 1, most, file);
    if (ferror(file)) exit(5);
    fclose(file);
    return bytes;
}

/* a buffer with room for as many bytes as a text has */
static void grow(uint8_t **buf, size_t *cap, size_t written) {
    uint8_t *more = realloc(*buf, written);
    if (!more) exit(IDE_MEMORY);
    *buf = more;
    *cap = written;
}

int main(int argc, char **argv) {
    bool why = argc == 4 && strcmp(argv[1], "--why") == 0;
    if (why) argv++;
    if (argc != (why ? 4 : 3)) return 2;
    ide_session s = {0};
    size_t topology_len, script_len = 0, written, cap = 64;
    uint8_t *topology = bytes_of(argv[1], &topology_len), *script = NULL, *buf = malloc(cap);
    if (!buf) return IDE_MEMORY;
    uint32_t answer = ide_open(&s, topology, topology_len, buf, cap, &written);
    if (answer == IDE_TOPOLOGY && written > cap) {
        grow(&buf, &cap, written);
        answer = ide_open(&s, topology, topology_len, buf, cap, &written);
    }
    if (answer == IDE_DONE) script = bytes_of(argv[2], &script_len);
    if (answer == IDE_DONE && why) answer = ide_explain(&s, true);
    for (size_t at = 0, end; answer == IDE_DONE && at < script_len; at = end + 1) {
        for (end = at; end < script_len && script[end] != '\n';) end++;
        /* a line that does not end within the limit is not run; one that is too long is refused all the same */
        if (script_len > SCRIPT_LIMIT && end >= SCRIPT_LIMIT && end - at <= LINE_LIMIT) {
            answer = IDE_TOO_LONG;
            break;
        }
        answer = ide_step(&s, script + at, end - at, buf, cap, &written);
        if (answer == IDE_ROOM) {
            grow(&buf, &cap, written);
            answer = ide_text(&s, buf, cap, &written);
        }
        if (answer == IDE_DONE) fwrite(buf, 1, written, stdout);
        if (answer != IDE_DONE || !why) continue;
        answer = ide_why(&s, buf, cap, &written);
        if (answer == IDE_ROOM) {
            grow(&buf, &cap, written);
            answer = ide_why(&s, buf, cap, &written);
        }
        if (answer == IDE_DONE) fwrite(buf, 1, written, stdout);
    }
    if (answer == IDE_DONE) answer = ide_totals(&s, buf, cap, &written);
    if (answer == IDE_ROOM) {
        grow(&buf, &cap, written);
        answer = ide_totals(&s, buf, cap, &written);
    }
    if (answer == IDE_DONE || ((answer == IDE_SCRIPT || answer == IDE_TOPOLOGY) && written <= cap))
        fwrite(buf, 1, written, stdout);
    if (fflush(stdout) || ferror(stdout)) answer = 6;
    ide_close(&s);
    free(topology);
    free(script);
    free(buf);
    return (int)answer;
}
