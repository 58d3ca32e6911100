// The writes and syncs of so many answers in a journal, and nothing else: what any program takes that keeps its promises.
// usage: journal_loop FILE ANSWERS    prints the seconds of wall that they took, on a journal in the layout of versions 2 and 3 with room for just these
//        journal_loop FILE grow N     those of one answer that opens an area of N slots, behind one of N/2 that is full
#define _GNU_SOURCE
#include <fcntl.h>
#include <stdio.h>
#include <stdlib.h>
#include <string.h>
#include <time.h>
#include <unistd.h>

static void must(int held, const char *what) {
    if (!held) {
        perror(what);
        exit(1);
    }
}

// One record: the slot without its gate, a sync, the gate, a sync.
static void append(int file, off_t slot, const char *record) {
    must(pwrite(file, record + 1, 63, slot + 1) == 63, "pwrite");
    must(fdatasync(file) == 0, "fdatasync");
    must(pwrite(file, record, 1, slot) == 1, "pwrite");
    must(fdatasync(file) == 0, "fdatasync");
}

// The next area: the slots of the one before and zeros, a sync, its gate, a sync.
static void open_area(int file, off_t before, size_t used, off_t begin, size_t size, int number) {
    char *slots = calloc(1, size);
    must(slots != 0, "calloc");
    must(pread(file, slots, used, before) == (ssize_t)used, "pread");
    must(pwrite(file, slots, size, begin) == (ssize_t)size, "pwrite");
    must(fdatasync(file) == 0, "fdatasync");
    must(pwrite(file, "\xA5", 1, 96 + number) == 1, "pwrite");
    must(fdatasync(file) == 0, "fdatasync");
    free(slots);
}

static double now(void) {
    struct timespec time;
    clock_gettime(CLOCK_MONOTONIC, &time);
    return time.tv_sec + time.tv_nsec / 1e9;
}

// One answer behind a full area of half as many slots, which stands where it does in a journal whose first area has 64.
static void grow(const char *name, long slots) {
    long used = slots / 2, before = used - 64;
    int file = open(name, O_RDWR | O_CREAT | O_TRUNC, 0644), number = 0;
    must(file >= 0, name);
    char record[64];
    memset(record, 0xA5, sizeof record);
    for (long slot = 0; slot < 2 + before + used; slot++)
        must(write(file, record, 64) == 64, "write");
    must(fsync(file) == 0, "fsync");
    for (long room = 64; room < slots; room *= 2) number++;
    double begun = now();
    off_t area = 128 + 64 * before, next = area + 64 * used;
    open_area(file, area, 64 * used, next, 64 * slots, number);
    append(file, next + 64 * used, record);
    append(file, next + 64 * (used + 1), record);
    printf("%.6f\n", now() - begun);
}

int main(int count, char **words) {
    must(count == 3 || (count == 4 && strcmp(words[2], "grow") == 0), "usage: journal_loop FILE ANSWERS, or FILE grow N");
    if (count == 4) {
        grow(words[1], atol(words[3]));
        return 0;
    }
    long records = 2 * atol(words[2]), room = records < 64 ? records : 64;
    int file = open(words[1], O_RDWR | O_CREAT | O_TRUNC, 0644), number = 0;
    must(file >= 0, words[1]);
    char record[64];
    memset(record, 0, sizeof record);
    for (long slot = 0; slot < room + 2; slot++)
        must(write(file, record, 64) == 64, "write");
    must(fsync(file) == 0, "fsync");
    double begun = now();
    memset(record, 0xA5, sizeof record);
    off_t area = 128;
    for (long at = 0; at < records; at++) {
        if (at == room) {
            long more = records < 2 * room ? records : 2 * room;
            open_area(file, area, 64 * room, area + 64 * room, 64 * more, ++number);
            area += 64 * room;
            room = more;
        }
        append(file, area + 64 * at, record);
    }
    printf("%.6f\n", now() - begun);
    return 0;
}
