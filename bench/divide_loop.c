/* What dividing 2^20 rows of a text and a number by 4,000 keys takes in plain C, beside one pass that compares each text with one: for
   bench/limits.py's bar. The rows lie as the program's do: texts one behind the other with their ends, numbers in a vector. A row's key is found by a
   hash of its text's eight bytes and compared; then the rows of each key are put side by side in a copy, each cell once.
   usage: divide_loop [ROUNDS]    It prints the least milliseconds of the pass, of finding the keys, and of the copy. */
#include <stdint.h>
#include <stdio.h>
#include <stdlib.h>
#include <string.h>
#include <time.h>

enum { ROWS = 1 << 20, KEYS = 4000, PLACES = 1 << 15, LENGTH = 8 };

static double now(void)
{
    struct timespec at;
    clock_gettime(CLOCK_MONOTONIC, &at);
    return at.tv_sec * 1e3 + at.tv_nsec / 1e6;
}

static uint32_t place(const char *text, uint32_t length)
{
    uint64_t word = 0;
    memcpy(&word, text, length < 8 ? length : 8);
    return (word ^ length) * 0x9E3779B97F4A7C15u >> 49;
}

int main(int argc, char **argv)
{
    int rounds = argc > 1 ? atoi(argv[1]) : 9;
    char *bytes = malloc(ROWS * LENGTH + 8), *copied = malloc(ROWS * LENGTH + 8), keys[KEYS][LENGTH + 1];
    uint32_t *ends = malloc(ROWS * 4), *copied_ends = malloc(ROWS * 4), *at = malloc(KEYS * 4), *bytes_at = malloc(KEYS * 4);
    int64_t *numbers = malloc(ROWS * 8), *copied_numbers = malloc(ROWS * 8);
    uint16_t *places = malloc(PLACES * 2), *of = malloc(ROWS * 2);
    double pass = 1e9, found = 1e9, copy = 1e9;
    uint32_t number, row, length, sum = 0;

    memset(places, 0xFF, PLACES * 2);
    for (number = 0; number < KEYS; number++) {
        snprintf(keys[number], sizeof keys[number], "town%04u", number);
        for (row = place(keys[number], LENGTH); places[row] != 0xFFFF;)
            row = (row + 1) % PLACES;
        places[row] = number;
    }
    srand(16);
    for (row = 0; row < ROWS; row++) {
        memcpy(bytes + row * LENGTH, keys[rand() % KEYS], LENGTH);
        ends[row] = (row + 1) * LENGTH;
        numbers[row] = rand() % 100;
    }
    while (rounds-- > 0) {
        double begun = now(), middle;
        uint32_t from = 0;
        for (row = 0; row < ROWS; row++) {
            length = ends[row] - from;
            sum += length == LENGTH && memcmp(bytes + from, keys[1], LENGTH) == 0;
            from = ends[row];
        }
        middle = now();
        if (middle - begun < pass)
            pass = middle - begun;
        begun = now();
        memset(at, 0, KEYS * 4);
        memset(bytes_at, 0, KEYS * 4);
        for (row = 0, from = 0; row < ROWS; row++) {
            uint32_t guess;
            length = ends[row] - from;
            for (guess = place(bytes + from, length); places[guess] != 0xFFFF && memcmp(keys[places[guess]], bytes + from, length) != 0;)
                guess = (guess + 1) % PLACES;
            of[row] = places[guess];
            at[of[row]]++;
            bytes_at[of[row]] += length;
            from = ends[row];
        }
        middle = now();
        if (middle - begun < found)
            found = middle - begun;
        begun = middle;
        for (number = 0, row = 0, from = 0; number < KEYS; number++) {
            uint32_t rows = at[number], more = bytes_at[number];
            at[number] = row;
            bytes_at[number] = from;
            row += rows;
            from += more;
        }
        for (row = 0, from = 0; row < ROWS; row++) {
            uint32_t to = at[of[row]]++;
            length = ends[row] - from;
            memcpy(copied + bytes_at[of[row]], bytes + from, length);
            copied_ends[to] = bytes_at[of[row]] += length;
            copied_numbers[to] = numbers[row];
            from = ends[row];
        }
        middle = now();
        if (middle - begun < copy)
            copy = middle - begun;
    }
    printf("one pass %.1f ms, keys found %.1f ms, rows copied %.1f ms: %.1f passes (%u)\n", pass, found, copy, (found + copy) / pass, sum + (uint32_t)copied_numbers[7]);
    return 0;
}
