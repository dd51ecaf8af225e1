/* Measures the proved next-write beside plain C, in one run: 64 KiB of text with line feeds, and one scroll beside a
   memmove of the 1,920 bytes that it moves. Both have to leave the same screen and cursor before anything is timed.
   Status 0: they do, and a scroll costs at most four times the memmove. */
#define _GNU_SOURCE
#include <stddef.h>
#include <stdint.h>
#include <stdio.h>
#include <stdlib.h>
#include <string.h>
#include <time.h>

typedef size_t (*put_all_fn)(uint8_t *cells, size_t length, size_t cursor, const uint8_t *bytes, size_t count);

size_t virpulens_put_all(uint8_t *cells, size_t length, size_t cursor, const uint8_t *bytes, size_t count);
size_t plain_put_all(uint8_t *cells, size_t length, size_t cursor, const uint8_t *bytes, size_t count);

enum { CELLS = 2000, TEXT = 1 << 16, ROUNDS = 201, SCROLLS = 2000 };
static uint8_t cells[CELLS], other[CELLS], text[TEXT];

static double cpu_seconds(void) {
    struct timespec t;
    clock_gettime(CLOCK_PROCESS_CPUTIME_ID, &t);
    return (double)t.tv_sec + (double)t.tv_nsec * 1e-9;
}

static int by_size(const void *a, const void *b) {
    double x = *(const double *)a, y = *(const double *)b;
    return (x > y) - (x < y);
}

static double nth(double *row, int smaller) {
    qsort(row, ROUNDS, sizeof *row, by_size);
    return row[smaller];
}

/* Lines of 0 to 119 printing bytes, so that some wrap. Every `rare` bytes one of 8, 13 and 0xff, or none where it is 0. */
static void write_text(unsigned rare) {
    uint32_t seed = 1;
    unsigned left = 40;
    for (size_t i = 0; i < TEXT; i++) {
        seed = seed * 1664525 + 1013904223;
        unsigned draw = seed >> 16;
        if (left == 0) {
            text[i] = '\n';
            left = draw % 120;
        } else {
            text[i] = rare && draw % rare == 0 ? (uint8_t)"\b\r\xff"[draw / rare % 3] : (uint8_t)(32 + draw % 95);
            left--;
        }
    }
}

/* The same screens from every starting place of a few, for texts with and without control bytes, and for what is no screen. */
static int agree(void) {
    static const size_t starts[] = {0, 1, 79, 80, 1919, 1920, 1998, 1999, 2000, SIZE_MAX};
    static const size_t sizes[] = {CELLS, CELLS - 1, 0};
    for (unsigned rare = 0; rare < 12; rare += 3)
        for (size_t s = 0; s < sizeof starts / sizeof *starts; s++)
            for (size_t z = 0; z < sizeof sizes / sizeof *sizes; z++)
                for (size_t n = 0; n <= TEXT; n = n < 300 ? n + 1 : n * 6) {
                    write_text(rare);
                    memset(cells, 'x', CELLS);
                    memset(other, 'x', CELLS);
                    size_t ours = virpulens_put_all(cells, sizes[z], starts[s], text, n);
                    size_t theirs = plain_put_all(other, sizes[z], starts[s], text, n);
                    if (ours != theirs || memcmp(cells, other, CELLS) != 0) {
                        printf("bench: FAILED: %zu bytes from place %zu of %zu cells leave two screens\n", n, starts[s], sizes[z]);
                        return 0;
                    }
                }
    return 1;
}

/* ---- the four things that are timed; each answers seconds */

static double time_put(put_all_fn put_all) {
    static size_t cursor;
    double began = cpu_seconds();
    for (int i = 0; i < 4; i++)
        cursor = put_all(cells, CELLS, cursor < CELLS ? cursor : 0, text, TEXT);
    return (cpu_seconds() - began) / 4;
}

static double ours_put(void) { return time_put(virpulens_put_all); }
static double theirs_put(void) { return time_put(plain_put_all); }

static double ours_scroll(void) {
    double began = cpu_seconds();
    for (int i = 0; i < SCROLLS; i++)
        virpulens_put_all(cells, CELLS, 1920, (const uint8_t *)"\n", 1);
    return (cpu_seconds() - began) / SCROLLS;
}

static double theirs_scroll(void) {
    double began = cpu_seconds();
    for (int i = 0; i < SCROLLS; i++) {
        memmove(cells, cells + 80, 1920);
        __asm__ volatile("" : : "r"(cells) : "memory");
    }
    return (cpu_seconds() - began) / SCROLLS;
}

/* The two right after each other, now one first and now the other, so that a slow spell of the machine meets both:
   the ratio is the middle one of all rounds. The times are those of the best round. */
static double measure(double (*ours)(void), double (*theirs)(void), double *own, double *other_time) {
    double a[ROUNDS], b[ROUNDS], ratios[ROUNDS];
    for (int round = 0; round < ROUNDS; round++) {
        double first = round % 2 ? theirs() : ours(), second = round % 2 ? ours() : theirs();
        a[round] = round % 2 ? second : first;
        b[round] = round % 2 ? first : second;
        ratios[round] = a[round] / b[round];
    }
    *own = nth(a, 0);
    *other_time = nth(b, 0);
    return nth(ratios, ROUNDS / 2);
}

int main(void) {
    double a, b, r;
    if (!agree())
        return 1;
    printf("bench: ours and plain C leave the same screens\n");
    write_text(0);
    r = measure(ours_put, theirs_put, &a, &b);
    printf("bench: next-write of 64 KiB: ours %.1f MB/s, plain C at gcc -O2 %.1f MB/s; ours takes %.2f of its time\n", TEXT / a / 1e6, TEXT / b / 1e6, r);
    r = measure(ours_scroll, theirs_scroll, &a, &b);
    printf("bench: a scroll: ours %.1f ns, a memmove of 1,920 bytes %.1f ns; ours takes %.2f of its time, at most 4.00: %s\n", a * 1e9, b * 1e9, r,
           r <= 4.0 ? "holds" : "DOES NOT HOLD");
    return r <= 4.0 ? 0 : 1;
}
