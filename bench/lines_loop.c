// A bare server that writes each line back, and a client that says one line so many times, each behind the reply to the one before.
// lines_loop echo PORT
// lines_loop ask PORT COUNT HELLO LINE    says HELLO first, where it isn't empty; prints microseconds a line: the median, the least, and those of all
//                                         together; ends with 1 where a reply doesn't begin with `answer` or isn't the line
#include <arpa/inet.h>
#include <netinet/tcp.h>
#include <stdio.h>
#include <stdlib.h>
#include <string.h>
#include <time.h>
#include <unistd.h>

static void fail(const char *what) {
    perror(what);
    exit(2);
}

static struct sockaddr_in at(const char *port) {
    struct sockaddr_in found = {.sin_family = AF_INET, .sin_port = htons(atoi(port))};
    found.sin_addr.s_addr = htonl(INADDR_LOOPBACK);
    return found;
}

static void at_once(int link) {
    int one = 1;
    setsockopt(link, IPPROTO_TCP, TCP_NODELAY, &one, sizeof one);
}

static void put(int link, const char *data, size_t count) {
    while (count > 0) {
        ssize_t done = write(link, data, count);
        if (done <= 0) fail("write");
        data += done, count -= done;
    }
}

static void echo(const char *port) {
    int door = socket(AF_INET, SOCK_STREAM, 0), one = 1;
    struct sockaddr_in here = at(port);
    setsockopt(door, SOL_SOCKET, SO_REUSEADDR, &one, sizeof one);
    if (bind(door, (struct sockaddr *)&here, sizeof here) || listen(door, 8)) fail("listen");
    for (;;) {
        int link = accept(door, 0, 0);
        char data[8192];
        size_t held = 0;
        ssize_t more;
        at_once(link);
        while ((more = read(link, data + held, sizeof data - held)) > 0) {
            char *end;
            held += more;
            while ((end = memchr(data, '\n', held))) {
                size_t line = end - data + 1;
                put(link, data, line);
                memmove(data, data + line, held -= line);
            }
        }
        close(link);
    }
}

static size_t hear(int link, char *data, size_t room) {
    size_t held = 0;
    while (held == 0 || data[held - 1] != '\n') {
        ssize_t more = read(link, data + held, room - held);
        if (more <= 0) fail("read");
        held += more;
    }
    return held;
}

static int by_size(const void *a, const void *b) {
    double x = *(const double *)a, y = *(const double *)b;
    return (x > y) - (x < y);
}

static double now(void) {
    struct timespec t;
    clock_gettime(CLOCK_MONOTONIC, &t);
    return t.tv_sec * 1e6 + t.tv_nsec / 1e3;
}

static void ask(const char *port, int count, const char *hello, const char *words) {
    int link = socket(AF_INET, SOCK_STREAM, 0);
    struct sockaddr_in there = at(port);
    char line[20000], said[20000];
    double *took = malloc(count * sizeof *took), begun;
    if (!took || connect(link, (struct sockaddr *)&there, sizeof there)) fail("connect");
    at_once(link);
    if (*hello) {
        put(link, line, snprintf(line, sizeof line, "%s\n", hello));
        hear(link, said, sizeof said);
    }
    size_t length = snprintf(line, sizeof line, "%s\n", words);
    begun = now();
    for (int i = 0; i < count; i++) {
        double before = now();
        put(link, line, length);
        size_t held = hear(link, said, sizeof said);
        took[i] = now() - before;
        if (memcmp(said, "answer ", 7) && (held != length || memcmp(said, line, length))) {
            fprintf(stderr, "answered %.*s", (int)held, said);
            exit(1);
        }
    }
    double all = (now() - begun) / count;
    qsort(took, count, sizeof *took, by_size);
    printf("%.2f %.2f %.2f\n", took[count / 2], took[0], all);
}

int main(int words, char **word) {
    if (words == 3 && !strcmp(word[1], "echo")) echo(word[2]);
    if (words != 6 || strcmp(word[1], "ask")) return 2;
    ask(word[2], atoi(word[3]), word[4], word[5]);
    return 0;
}
