// Times the proved listing on two texts with the same forty statements, of 4,096 and of 16,384 bytes, filled up with comments, beside one
// pass over the same bytes. The time must grow no faster than the text: at most five times for four times the bytes.
#define _POSIX_C_SOURCE 199309L
#include <stdint.h>
#include <stdio.h>
#include <stdlib.h>
#include <string.h>
#include <time.h>

size_t virpulens_listing(const uint8_t *input, size_t length, uint8_t *output, size_t room);

enum { ROUNDS = 101, CALLS = 50, ROW = 9, SMALL = 4096, LARGE = 16384 };

static double now(void) {
    struct timespec t;
    clock_gettime(CLOCK_PROCESS_CPUTIME_ID, &t);
    return (double)t.tv_sec + (double)t.tv_nsec * 1e-9;
}

// Eight partitions, 8 CODE, 16 DSEG and 16 MSEG; behind each statement a comment, all of about the same length, so that the text has n bytes.
static size_t make(uint8_t *into, size_t n) {
    char *at = (char *)into;
    at += sprintf(at, "AAAAAAAA\n");
    char *text = at;
    for (int i = 0; i < 40; i++) {
        if (i < 8)
            at += sprintf(at, "CODE[%d] = /p%d;", i, i);
        else if (i < 24)
            at += sprintf(at, "DSEG[%d]={/d%d,0,RW,RO,RO,RO,RO,RO,RO,RO};", i - 8, i - 8);
        else
            at += sprintf(at, "MSEG[%d]={4KB,1,RW,RW,NA,NA,NA,NA,NA,NA};", i - 24);
        size_t upto = n * (size_t)(i + 1) / 40;
        *at++ = ' ';
        *at++ = '#';
        while ((size_t)(at - text) + 1 < upto)
            *at++ = 'x';
        *at++ = '\n';
    }
    return (size_t)(at - (char *)into);
}

static volatile uint32_t sink;

static void one_pass(const uint8_t *bytes, size_t n) {
    uint32_t sum = 0;
    for (size_t i = 0; i < n; i++)
        sum = sum * 31 + bytes[i];
    sink = sum;
}

static int by_value(const void *a, const void *b) {
    double x = *(const double *)a, y = *(const double *)b;
    return (x > y) - (x < y);
}

static double middle(double *times) {
    qsort(times, ROUNDS, sizeof *times, by_value);
    return times[ROUNDS / 2];
}

int main(void) {
    static uint8_t small[2 * LARGE], large[2 * LARGE], output[65536];
    size_t few = make(small, SMALL), many = make(large, LARGE);
    if (few != ROW + SMALL || many != ROW + LARGE) {
        printf("bench: the texts have %zu and %zu bytes\n", few - ROW, many - ROW);
        return 1;
    }
    size_t listed = virpulens_listing(small, few, output, sizeof output);
    uint8_t *kept = malloc(listed);
    memcpy(kept, output, listed);
    if (listed != virpulens_listing(large, many, output, sizeof output) || memcmp(kept, output, listed) || memcmp(output, "partitions 8 dsegs 16 msegs 16\n", 31)) {
        printf("bench: the two texts have not the same listing\n");
        return 1;
    }
    static double t_small[ROUNDS], t_large[ROUNDS], t_pass[ROUNDS];
    for (int r = 0; r < ROUNDS; r++) {
        double a = now();
        for (int i = 0; i < CALLS; i++)
            virpulens_listing(small, few, output, sizeof output);
        double b = now();
        for (int i = 0; i < CALLS; i++)
            virpulens_listing(large, many, output, sizeof output);
        double c = now();
        for (int i = 0; i < CALLS; i++)
            one_pass(large, many);
        double d = now();
        t_small[r] = b - a;
        t_large[r] = c - b;
        t_pass[r] = d - c;
    }
    double s = middle(t_small) / CALLS * 1e6, l = middle(t_large) / CALLS * 1e6, p = middle(t_pass) / CALLS * 1e6;
    printf("bench: listing of 40 statements: %.1f us for 4,096 bytes, %.1f us for 16,384; one pass over the 16,384 in C: %.1f us\n", s, l, p);
    printf("bench: 16,384 bytes take %.2f of the time of 4,096, and %.1f of one pass\n", l / s, l / p);
    printf("bench: must, at most 5 times for four times the bytes: %s\n", l <= 5 * s ? "holds" : "DOES NOT HOLD");
    return l <= 5 * s ? 0 : 1;
}
