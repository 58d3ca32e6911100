/* Plain loops for the numbers that bench/bags.sh asks for, over the same rows.
   usage: bags_loop FILE    FILE has a header and a number a line
   It prints, by line, a name, the result, and the processor time in nanoseconds a row, the least of 50 rounds. */
#include <stdint.h>
#include <stdio.h>
#include <stdlib.h>
#include <time.h>

enum { ROUNDS = 50 };

static double seconds(void) {
    struct timespec now;
    clock_gettime(CLOCK_PROCESS_CPUTIME_ID, &now);
    return now.tv_sec + now.tv_nsec * 1e-9;
}

static int64_t clipped(int64_t z) { return z < 0 ? 0 : z > 100 ? 100 : z; }

__attribute__((noinline)) static int64_t filter(const int64_t *ages, size_t rows) {
    int64_t count = 0;
    for (size_t i = 0; i < rows; i++) count += ages[i] <= 30;
    return count;
}

__attribute__((noinline)) static int64_t sum_of_map(const int64_t *ages, size_t rows) {
    int64_t sum = 0;
    for (size_t i = 0; i < rows; i++) sum += clipped(ages[i] + 1);
    return sum;
}

static void measure(const char *name, int64_t (*loop)(const int64_t *, size_t), const int64_t *ages, size_t rows) {
    double least = 1e9;
    volatile int64_t result = 0;
    for (int round = 0; round < ROUNDS; round++) {
        double begun = seconds();
        result = loop(ages, rows);
        double taken = seconds() - begun;
        if (taken < least) least = taken;
    }
    printf("%s %lld %.3f\n", name, (long long)result, least * 1e9 / rows);
}

int main(int count, char **words) {
    FILE *file = count == 2 ? fopen(words[1], "r") : NULL;
    int64_t *ages = malloc((size_t)8 << 20);
    size_t rows = 0;
    long long age;
    if (!file || !ages || fscanf(file, "%*[^\n]") != 0) return 2;
    while (rows < (size_t)1 << 20 && fscanf(file, "%lld", &age) == 1) ages[rows++] = age;
    measure("filter", filter, ages, rows);
    measure("map", sum_of_map, ages, rows);
    return 0;
}
