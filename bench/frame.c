/* Frames the HTTP/1.1 requests on standard input and prints how many there are: the least work that any reader of
   them has to do. A head ends with the first empty line, and its Content-Length says how long the body is.
   It takes no care of faults. Without arguments it answers nothing; with one it writes a reply that stands ready
   after each request, as a server must that answers each before it goes on. */
#include <stdio.h>
#include <stdlib.h>
#include <string.h>
#include <strings.h>
#include <unistd.h>

static char buffer[1 << 21];

/* The length of the head that begins at p, or 0 where it is not whole. */
static size_t head_len(const char *p, const char *end) {
    const char *at = p;
    while (at < end && (at = memchr(at, '\n', end - at))) {
        if (at + 1 < end && at[1] == '\n') return at + 2 - p;
        if (at + 2 < end && at[1] == '\r' && at[2] == '\n') return at + 3 - p;
        at++;
    }
    return 0;
}

static size_t body_len(const char *p, size_t len) {
    static const char name[] = "content-length:";
    const char *end = p + len;
    for (const char *line = p; line && line < end; line = memchr(line, '\n', end - line), line = line ? line + 1 : NULL)
        if ((size_t)(end - line) > sizeof name && !strncasecmp(line, name, sizeof name - 1))
            return strtoul(line + sizeof name - 1, NULL, 10);
    return 0;
}

/* What the server answers to GET /1.0. */
static const char reply[] =
    "HTTP/1.1 200 OK\r\nContent-Type: application/json\r\nContent-Length: 159\r\n\r\n"
    "{\"metadata\":{\"api_extensions\":[],\"api_status\":\"stable\",\"api_version\":\"1.0\",\"auth\":\"trusted\",\"public\":false},"
    "\"status\":\"Success\",\"status_code\":200,\"type\":\"sync\"}";

int main(int argc, char **argv) {
    (void)argv;
    size_t held = 0, used = 0;
    unsigned long count = 0, bodies = 0;
    for (;;) {
        size_t head = head_len(buffer + used, buffer + held);
        size_t body = head ? body_len(buffer + used, head) : 0;
        if (head && used + head + body <= held) {
            used += head + body;
            bodies += body;
            count++;
            if (argc > 1 && write(1, reply, sizeof reply - 1) < 0) return 1;
            continue;
        }
        memmove(buffer, buffer + used, held - used);
        held -= used;
        used = 0;
        ssize_t got = read(0, buffer + held, held + 65536 <= sizeof buffer ? 65536 : sizeof buffer - held);
        if (got <= 0) break;
        held += got;
    }
    fprintf(stderr, "%lu requests, %lu bytes of bodies, %lu bytes left\n", count, bodies, (unsigned long)held);
    return 0;
}
