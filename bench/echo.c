/* An echo through the frames of `nrm_desks`, for bench/frames.py: what frames cost by themselves. It keeps each line as a
   row, and sends it back once the rows are kept. It takes well-formed frames alone: what isn't one ends it.

       cc -O2 -o echo bench/echo.c */
#include <stdio.h>
#include <stdlib.h>
#include <string.h>
#include <unistd.h>

enum { PLACES = 10000, ROOM = 1 << 20 };

struct buffer {
    char *bytes;
    size_t length, room;
};

static struct buffer rows, out, told[PLACES];
static size_t used[PLACES];
static int heard[PLACES], count_heard;
static int is_awaited, is_over;

static void add(struct buffer *to, const char *bytes, size_t length)
{
    if (to->length + length > to->room) {
        to->room = 2 * (to->length + length);
        to->bytes = realloc(to->bytes, to->room);
        if (!to->bytes)
            exit(6);
    }
    memcpy(to->bytes + to->length, bytes, length);
    to->length += length;
}

static void add_line(struct buffer *to, const char *format, size_t a, size_t b, size_t c)
{
    char line[80];
    add(to, line, (size_t)snprintf(line, sizeof line, format, a, b, c));
}

static void came(size_t place, const char *bytes, size_t size)
{
    if (!used[place])
        heard[count_heard++] = (int)place;
    used[place] += size;
    add(&told[place], bytes, size);
    add(&rows, bytes, size);
}

static void kept(void)
{
    for (int at = 0; at < count_heard; at++) {
        size_t place = (size_t)heard[at];
        add_line(&out, "send %zu %zu %zu\n", place, used[place], told[place].length);
        add(&out, told[place].bytes, told[place].length);
        used[place] = told[place].length = 0;
    }
    count_heard = is_awaited = 0;
}

static void ask_to_keep(void)
{
    if (is_awaited || !count_heard)
        return;
    add_line(&out, "keep %zu\n", rows.length, 0, 0);
    add(&out, rows.bytes, rows.length);
    rows.length = 0;
    is_awaited = 1;
}

/* The bytes of the first frame that waits, or none. */
static size_t take(const char *bytes, size_t length)
{
    const char *end = memchr(bytes, '\n', length);
    size_t size = 0, header;
    if (!end)
        return 0;
    header = (size_t)(end - bytes) + 1;
    if (!strncmp(bytes, "came ", 5)) {
        char *word;
        size_t place = strtoul(bytes + 5, &word, 10);
        size = strtoul(word, NULL, 10);
        if (length < header + size)
            return 0;
        came(place, end + 1, size);
    } else if (!strncmp(bytes, "kept\n", 5)) {
        kept();
    } else if (!strncmp(bytes, "again 0\n", 8)) {
        add_line(&out, "ready 0\n", 0, 0, 0);
    } else if (!strncmp(bytes, "end\n", 4)) {
        is_over = 1;
    } else if (strncmp(bytes, "open ", 5)) {
        exit(10);
    }
    return header + size;
}

int main(void)
{
    static char in[ROOM];
    size_t length = 0;
    ssize_t got = 0;
    while (!is_over && (got = read(0, in + length, ROOM - 1 - length)) > 0) {
        size_t at = 0, one;
        length += (size_t)got;
        in[length] = 0;
        while ((one = take(in + at, length - at)))
            at += one;
        memmove(in, in + at, length - at);
        length -= at;
        ask_to_keep();
        for (size_t sent = 0; sent < out.length;) {
            ssize_t put = write(1, out.bytes + sent, out.length - sent);
            if (put < 0)
                return 5;
            sent += (size_t)put;
        }
        out.length = 0;
    }
    return got < 0 ? 4 : 0;
}
