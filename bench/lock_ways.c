/* Three ways of waiting for an owner's lock, in plain C, beside one thread: each answer is two holds, each of which writes and syncs a record's body and its
   gate as a journal does, with some work before each. "wakes": each leave wakes one who sleeps, where none is on its way. "watches": of those who wait
   one is awake, which naps between its tries; the others sleep until it has had its turn. "leaves": so, too, but it leaves the turn to those who take
   it again and again, for 64 longer naps at most, and a thread that has ended wakes it. As crates/owner_lock had them, and the last as it has it.
   usage: lock_ways FILE [ANSWERS [ROUNDS [WORK]]]     8,000 answers, 9 rounds, and 250 turns of a loop before each hold, unless said.
   It prints for 2, 4 and 16 threads the medians of processor time and of answers a second, as times those of one thread, and sleeps a hold. */
#define _GNU_SOURCE
#include <fcntl.h>
#include <linux/futex.h>
#include <pthread.h>
#include <stdatomic.h>
#include <stdint.h>
#include <stdio.h>
#include <stdlib.h>
#include <string.h>
#include <sys/resource.h>
#include <sys/syscall.h>
#include <time.h>
#include <unistd.h>

enum { TAKEN = 1, CALLED = 4, AWAKE = 8, QUIET = 150, PATIENCE = 64, MOST_ROUNDS = 99 };
enum way { WAKES, WATCHES, LEAVES };

static enum way way;
static int threads, answers, work, file;
static _Atomic uint64_t word;
static _Atomic long holds, sleeps;
static uint32_t never;
static char book[1 << 16];

static void wait_on(void *at, uint32_t value, long microseconds)
{
    struct timespec longest = {0, microseconds * 1000};
    atomic_fetch_add(&sleeps, 1);
    syscall(SYS_futex, at, FUTEX_WAIT_PRIVATE, value, microseconds ? &longest : NULL, NULL, 0);
}

static int try_turn(uint64_t counted, int waits, int watches)
{
    uint64_t found = atomic_load(&word), taken = found;
    if (found % 4 == TAKEN)
        return 0;
    if (waits && taken >= counted)
        taken -= counted;
    if (waits)
        taken &= ~(uint64_t)CALLED;
    if (watches)
        taken &= ~(uint64_t)AWAKE;
    return atomic_compare_exchange_strong(&word, &found, taken | TAKEN);
}

static void turn_by_wakes(void)
{
    int tries = 0, slept = 0;
    while (!try_turn(8, slept, 0)) {
        uint64_t found = atomic_load(&word), asleep = slept ? found / 8 * 8 + found % 4 : found + 8;
        if (tries++ < 100) {
            __builtin_ia32_pause();
        } else if (found % 4 == TAKEN && atomic_compare_exchange_strong(&word, &found, asleep)) {
            wait_on(&word, (uint32_t)asleep, asleep & CALLED ? 10000 : 0);
            slept = 1;
            tries = 0;
        }
    }
}

static void pause_often(void)
{
    for (int pause = 0; pause < 4; pause++)
        __builtin_ia32_pause();
}

static int is_quiet(void)
{
    for (int look = 0; look < QUIET; look++) {
        if (atomic_load(&word) % 4 == TAKEN)
            return 0;
        pause_often();
    }
    return 1;
}

static void turn_by_watches(void)
{
    int tries = 0, waits = 0, watches = 0, naps = 0;
    long nap = 100, longest = way == LEAVES ? 800 : 400;
    while ((way == LEAVES && watches && naps < PATIENCE && !is_quiet()) || !try_turn(16, waits, watches)) {
        uint64_t found = atomic_load(&word), waiting = waits ? found : found + 16;
        if (watches) {
            wait_on(&never, 0, nap);
            nap = nap < longest ? 2 * nap : nap;
            naps++;
        } else if (tries++ < 100) {
            pause_often();
        } else if (found % 4 == TAKEN) {
            if (found & CALLED)
                waiting += AWAKE - CALLED;
            if (!atomic_compare_exchange_strong(&word, &found, waiting))
                continue;
            waits = 1;
            watches = (found & CALLED) != 0;
            if (!watches)
                wait_on(&word, (uint32_t)waiting, 0);
        }
    }
}

static void leave(void)
{
    uint64_t counted = way == WAKES ? 8 : 16, left = atomic_fetch_sub(&word, TAKEN) - TAKEN;
    if (left >= counted && left % counted < CALLED && atomic_compare_exchange_strong(&word, &left, left + CALLED))
        syscall(SYS_futex, &word, FUTEX_WAKE_PRIVATE, 1, NULL, NULL, 0);
}

static void hold(void)
{
    char record[64] = {0};
    long place;
    for (volatile int turn = 0; turn < work; turn++)
        ;
    if (threads > 1)
        way == WAKES ? turn_by_wakes() : turn_by_watches();
    place = 64 * holds++;
    for (int at = 0; at < 40; at++)
        book[(place + 8 * at) % sizeof book]++;
    for (int gate = 0; gate < 2; gate++) {
        record[0] = (char)gate;
        if (pwrite(file, record, gate ? 1 : 64, place) < 0 || fdatasync(file) < 0)
            abort();
    }
    if (threads > 1)
        leave();
}

static void *answer(void *unused)
{
    for (int number = 0; number < answers / threads; number++) {
        hold();
        hold();
    }
    if (way == LEAVES && threads > 1)
        syscall(SYS_futex, &never, FUTEX_WAKE_PRIVATE, 1, NULL, NULL, 0);
    return unused;
}

static double seconds(const struct timeval *at) { return at->tv_sec + at->tv_usec / 1e6; }

static void run(double *wall, double *used)
{
    pthread_t started[16];
    struct timespec begun, ended;
    struct rusage before, after;
    holds = word = 0;
    getrusage(RUSAGE_SELF, &before);
    clock_gettime(CLOCK_MONOTONIC, &begun);
    if (threads == 1) {
        answer(NULL);
    } else {
        for (int number = 0; number < threads; number++)
            if (pthread_create(&started[number], NULL, answer, NULL))
                abort();
        for (int number = 0; number < threads; number++)
            pthread_join(started[number], NULL);
    }
    clock_gettime(CLOCK_MONOTONIC, &ended);
    getrusage(RUSAGE_SELF, &after);
    *wall = ended.tv_sec - begun.tv_sec + (ended.tv_nsec - begun.tv_nsec) / 1e9;
    *used = seconds(&after.ru_utime) + seconds(&after.ru_stime) - seconds(&before.ru_utime) - seconds(&before.ru_stime);
}

static int below(const void *one, const void *other) { return (*(double *)one > *(double *)other) - (*(double *)one < *(double *)other); }

static double median(double *of, int count)
{
    qsort(of, count, sizeof *of, below);
    return of[count / 2];
}

int main(int argc, char **argv)
{
    static const char *const names[] = {"wakes  ", "watches", "leaves "};
    static const struct { enum way way; int threads; } runs[] = {{WAKES, 1},   {WAKES, 2},  {WAKES, 4},  {WAKES, 16}, {WATCHES, 2},
                                                                      {WATCHES, 4}, {WATCHES, 16}, {LEAVES, 2}, {LEAVES, 4}, {LEAVES, 16}};
    enum { RUNS = sizeof runs / sizeof *runs };
    static double wall[RUNS][MOST_ROUNDS], used[RUNS][MOST_ROUNDS];
    long slept[RUNS] = {0};
    int rounds = argc > 3 ? atoi(argv[3]) : 9;
    answers = argc > 2 ? atoi(argv[2]) / 16 * 16 : 8000;
    work = argc > 4 ? atoi(argv[4]) : 250;
    if (argc < 2 || rounds < 1 || rounds > MOST_ROUNDS || answers < 16 || (file = open(argv[1], O_RDWR | O_CREAT | O_TRUNC, 0600)) < 0)
        return 2;
    for (long place = 0; place < 128L * answers; place += sizeof book)
        if (pwrite(file, book, sizeof book, place) < 0)
            return 2;
    fsync(file);
    for (int round = 0; round < rounds; round++)
        for (int number = 0; number < RUNS; number++) {
            way = runs[number].way;
            threads = runs[number].threads;
            sleeps = 0;
            run(&wall[number][round], &used[number][round]);
            slept[number] += sleeps;
        }
    unlink(argv[1]);
    for (int number = 0; number < RUNS; number++) {
        double took = median(wall[number], rounds), spent = median(used[number], rounds);
        if (number == 0)
            printf("one thread: %.2f us an answer, %.2f of the processor\n", took / answers * 1e6, spent / answers * 1e6);
        else
            printf("%2d threads, %s: %.2f times the processor time, %.2f times the answers, %.3f sleeps a hold\n", runs[number].threads,
                   names[runs[number].way], spent / median(used[0], rounds), median(wall[0], rounds) / took, (double)slept[number] / rounds / 2 / answers);
    }
    return 0;
}
