// The floor of a talk through two pipes: each line is answered by a constant line, and `pixels` by a constant frame.
//
//     cc -O2 floor.c -o floor; floor serve FILE
#include <stdio.h>
#include <stdlib.h>
#include <string.h>
#include <unistd.h>

enum { KEPT = 1 << 16, TILE = 64 * 64 * 4, TILES = 16 * 16 };

static char in[KEPT], out[KEPT], frame[TILES * TILE + 64];
static size_t kept;

static void tell(const char *bytes, size_t count) {
    while (count > 0) {
        ssize_t taken = write(1, bytes, count);
        if (taken <= 0)
            exit(7);
        bytes += taken;
        count -= taken;
    }
}

static void flush(void) {
    tell(out, kept);
    kept = 0;
}

static void answer(const char *line) {
    static long calls;
    if (strstr(line, "pixels") != NULL) {
        size_t count = strstr(line, "16 16") != NULL ? TILES * TILE : TILE;
        flush();
        int head = sprintf(frame, "0 pixels 1 %zu\n", count);
        frame[head + count] = '\n';
        tell(frame, head + count + 1);
        return;
    }
    if (kept + 64 > sizeof out)
        flush();
    if (strstr(line, "wait") != NULL)
        kept += sprintf(out + kept, "0 idle\n");
    else
        kept += sprintf(out + kept, "0.%ld %s\n", calls++, strstr(line, "save") != NULL ? "saving 1" : "changed 1 1 2");
}

int main(void) {
    size_t have = 0;
    tell("ready 4000 3000 11\n", 19);
    for (;;) {
        char *end;
        size_t at = 0;
        while ((end = memchr(in + at, '\n', have - at)) != NULL) {
            *end = 0;
            answer(in + at);
            at = end + 1 - in;
        }
        have -= at;
        memmove(in, in + at, have);
        flush();
        ssize_t came = read(0, in + have, sizeof in - have);
        if (came <= 0)
            break;
        have += came;
    }
    tell("order\n", 6);
    return 0;
}
