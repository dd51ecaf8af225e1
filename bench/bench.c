/* Measures the proved digest beside C and OpenSSL, in one run: speed for three lengths, and the stack of one call.
   Every contender has to make the digests of crates/vectors/stdout (the one argument) before any is timed.
   Status 0: the two musts hold. 1: one does not, or a digest is wrong. */
#define _GNU_SOURCE
#include <dlfcn.h>
#include <stdint.h>
#include <stdio.h>
#include <stdlib.h>
#include <string.h>
#include <time.h>

typedef void (*digest_fn)(const uint8_t *message, size_t length, uint8_t out[32]);

void virpulens_sha256(const uint8_t *message, size_t length, uint8_t out[32]);
void textbook_o2(const uint8_t *message, size_t length, uint8_t out[32]);
void textbook_o3(const uint8_t *message, size_t length, uint8_t out[32]);
void best_o2(const uint8_t *message, size_t length, uint8_t out[32]);
void best_o3(const uint8_t *message, size_t length, uint8_t out[32]);
static void openssl(const uint8_t *message, size_t length, uint8_t out[32]);

enum { OURS, TEXTBOOK_O2, TEXTBOOK_O3, BEST_O2, BEST_O3, OPENSSL, MOST };
static const struct {
    const char *name;
    digest_fn digest;
} contenders[MOST] = {
    {"ours, proved", virpulens_sha256},       {"textbook C, gcc -O2", textbook_o2}, {"textbook C, gcc -O3", textbook_o3},
    {"best C we know, gcc -O2", best_o2},     {"best C we know, gcc -O3", best_o3}, {"OpenSSL", openssl},
};
static int count = MOST; /* one less where the machine has no OpenSSL, which stands last */

/* ---- OpenSSL, from the library that the machine has; its headers are not needed */

static int (*ssl_init)(void *), (*ssl_update)(void *, const void *, size_t), (*ssl_final)(unsigned char *, void *);

static int load_openssl(void) {
    static const char *const names[] = {"libcrypto.so.3", "libcrypto.so.1.1", "libcrypto.so"};
    void *library = NULL;
    for (int i = 0; i < 3 && !library; i++)
        library = dlopen(names[i], RTLD_NOW);
    if (!library)
        return 0;
    *(void **)&ssl_init = dlsym(library, "SHA256_Init");
    *(void **)&ssl_update = dlsym(library, "SHA256_Update");
    *(void **)&ssl_final = dlsym(library, "SHA256_Final");
    return ssl_init && ssl_update && ssl_final;
}

static void openssl(const uint8_t *message, size_t length, uint8_t out[32]) {
    uint64_t context[64]; /* SHA256_CTX has 112 bytes */
    ssl_init(context);
    ssl_update(context, message, length);
    ssl_final(out, context);
}

/* ---- the same vectors for all */

static uint8_t pattern[1 << 20];

static void fail(const char *what, const char *where) {
    printf("bench: FAILED: %s: %s\n", where, what);
    exit(1);
}

/* The message that a line of crates/vectors/stdout names, up to its colon. Answers its length. */
static size_t message_of(const char *what, uint8_t *to) {
    static const char two_blocks[] = "abcdbcdecdefdefgefghfghighijhijkijkljklmklmnlmnomnopnopq";
    size_t n = 0;
    if (strcmp(what, "abc") == 0)
        memcpy(to, "abc", n = 3);
    else if (strcmp(what, "the 448-bit message") == 0)
        memcpy(to, two_blocks, n = sizeof two_blocks - 1);
    else if (strcmp(what, "1000000 times a") == 0)
        memset(to, 'a', n = 1000000);
    else if (sscanf(what, "pattern of length %zu", &n) == 1 && n <= sizeof pattern)
        memcpy(to, pattern, n);
    else
        fail("a line of the vectors that names no message known here", what);
    return n;
}

static void check_vectors(const char *path) {
    static uint8_t message[1 << 20];
    char line[256];
    int lines = 0;
    FILE *file = fopen(path, "r");
    if (!file)
        fail("cannot be read", path);
    for (; fgets(line, sizeof line, file); lines++) {
        char *colon = strrchr(line, ':');
        if (!colon)
            fail("a line has no colon", path);
        *colon = 0;
        size_t n = message_of(line, message);
        for (int c = 0; c < count; c++) {
            uint8_t out[32];
            char text[80] = " ";
            contenders[c].digest(message, n, out);
            for (int i = 0; i < 32; i++)
                sprintf(text + 1 + 2 * i, "%02x", out[i]);
            strcat(text, "\n");
            if (strcmp(text, colon + 1) != 0) {
                printf("bench: %s makes%s", line, text);
                fail("another digest than the stored one", contenders[c].name);
            }
        }
    }
    fclose(file);
    if (lines == 0)
        fail("has no line", path);
    printf("bench: %d contenders make the %d digests of %s\n", count, lines, path);
}

/* Lengths 0 to 130 at eight places each, one contender against the other. */
static void check_each_other(void) {
    for (size_t n = 0; n <= 130; n++)
        for (size_t at = 0; at < 8; at++) {
            uint8_t ours[32], theirs[32];
            contenders[OURS].digest(pattern + at, n, ours);
            for (int c = 1; c < count; c++) {
                contenders[c].digest(pattern + at, n, theirs);
                if (memcmp(ours, theirs, 32) != 0)
                    fail("another digest than ours, for a length up to 130", contenders[c].name);
            }
        }
    printf("bench: they agree with each other on lengths 0 to 130, each at eight places\n");
}

/* ---- speed */

enum { SIZES = 3, ROUNDS = 101 };
static const size_t sizes[SIZES] = {32, 1024, 1 << 20};
static const char *const size_names[SIZES] = {"32 bytes", "1 KiB", "1 MiB"};
static double speed[MOST][SIZES]; /* MB/s */
static double ratio[MOST][SIZES]; /* ours / theirs */

static double cpu_seconds(void) {
    struct timespec t;
    clock_gettime(CLOCK_PROCESS_CPUTIME_ID, &t);
    return (double)t.tv_sec + (double)t.tv_nsec * 1e-9;
}

/* Seconds for a MiB, in messages of the given size. */
static double time_of(int c, size_t size) {
    uint8_t out[32];
    double began = cpu_seconds();
    for (size_t done = 0; done < 1 << 20; done += size)
        contenders[c].digest(pattern, size, out);
    return cpu_seconds() - began;
}

static int by_size(const void *a, const void *b) {
    double x = *(const double *)a, y = *(const double *)b;
    return (x > y) - (x < y);
}

/* The one of a row that has so many smaller ones before it. */
static double nth(double *row, int smaller) {
    qsort(row, ROUNDS, sizeof *row, by_size);
    return row[smaller];
}

/* A contender and ours right after each other, now one first and now the other, so that a slow spell of the machine
   meets both: the ratio is the middle one of all rounds. The speed is that of the best round. */
static void measure(int c, int size) {
    double ours[ROUNDS], theirs[ROUNDS], ratios[ROUNDS];
    for (int round = 0; round < ROUNDS; round++) {
        int first = round % 2 ? c : OURS, second = round % 2 ? OURS : c;
        double t1 = time_of(first, sizes[size]), t2 = time_of(second, sizes[size]);
        ours[round] = round % 2 ? t2 : t1;
        theirs[round] = round % 2 ? t1 : t2;
        ratios[round] = theirs[round] / ours[round];
    }
    ratio[c][size] = nth(ratios, ROUNDS / 2);
    speed[c][size] = 1.048576 / nth(theirs, 0);
    double own = 1.048576 / nth(ours, 0);
    if (own > speed[OURS][size])
        speed[OURS][size] = own;
}

static void print_table(void) {
    printf("\nMB/s of processor time in the best of %d rounds, and behind it ours / theirs, the middle of all rounds\n%-26s", ROUNDS, "");
    for (int s = 0; s < SIZES; s++)
        printf("%18s", size_names[s]);
    printf("\n");
    for (int c = 0; c < count; c++) {
        printf("%-26s", contenders[c].name);
        for (int s = 0; s < SIZES; s++) {
            printf("%11.1f", speed[c][s]);
            if (c == OURS)
                printf("       ");
            else
                printf(" %6.2f", ratio[c][s]);
        }
        printf("\n");
    }
    printf("\n");
}

/* ---- the stack of one call */

enum { STACK = 1 << 16 };
static uint8_t stack[STACK] __attribute__((aligned(64)));

/* Calls f with the stack pointer at the end of `stack`, so that all it touches lies there, its return address too. */
static void call_on_stack(digest_fn f, const uint8_t *message, size_t length, uint8_t *out) {
    __asm__ volatile("movq %%rsp, %%rbx\n\t"
                     "movq %[top], %%rsp\n\t"
                     "callq *%[f]\n\t"
                     "movq %%rbx, %%rsp"
                     : [f] "+a"(f), "+D"(message), "+S"(length), "+d"(out)
                     : [top] "r"(stack + STACK)
                     : "rbx", "rcx", "r8", "r9", "r10", "r11", "cc", "memory", "xmm0", "xmm1", "xmm2", "xmm3", "xmm4", "xmm5", "xmm6",
                       "xmm7", "xmm8", "xmm9", "xmm10", "xmm11", "xmm12", "xmm13", "xmm14", "xmm15");
}

/* The most that a call touches, over lengths of every kind, painted twice so that no byte is missed for having the paint's value. */
static int stack_of(digest_fn f) {
    static const size_t lengths[] = {0, 3, 32, 55, 56, 64, 119, 120, 1000};
    static const uint8_t paints[] = {0xa5, 0x5a};
    int deepest = 0;
    for (size_t i = 0; i < sizeof lengths / sizeof *lengths; i++)
        for (size_t p = 0; p < sizeof paints; p++) {
            uint8_t out[32];
            int at = 0;
            memset(stack, paints[p], STACK);
            call_on_stack(f, pattern, lengths[i], out);
            while (at < STACK && stack[at] == paints[p])
                at++;
            if (STACK - at > deepest)
                deepest = STACK - at;
        }
    return deepest;
}

/* ---- the verdict */

static int must_hold(int size) {
    double r = ratio[TEXTBOOK_O3][size];
    printf("bench: must, at least 1.00 of textbook C at gcc -O3, %s: %.2f, %s\n", size_names[size], r, r >= 1.0 ? "holds" : "DOES NOT HOLD");
    return r >= 1.0;
}

static void aim(int size) {
    printf("bench: aim, 1.00 of the best C we know at gcc -O3, %s: %.2f\n", size_names[size], ratio[BEST_O3][size]);
}

int main(int argc, char **argv) {
    if (argc != 2)
        fail("bench VECTORS", "usage");
    for (size_t i = 0; i < sizeof pattern; i++)
        pattern[i] = (uint8_t)((i * 167 + 13) % 251);
    if (!load_openssl()) {
        count = OPENSSL;
        printf("bench: this machine has no OpenSSL library; its row is left out\n");
    }
    check_vectors(argv[1]);
    check_each_other();
    for (int s = 0; s < SIZES; s++) {
        printf("bench: timing %s ..\n", size_names[s]);
        fflush(stdout);
        for (int c = 1; c < count; c++)
            measure(c, s);
    }
    print_table();
    printf("bench: stack of one digest call, painted, its return address with it: %d bytes (to stay within 512); textbook C -O3: %d, best C -O3: %d\n",
           stack_of(virpulens_sha256), stack_of(textbook_o3), stack_of(best_o3));
    aim(1);
    aim(2);
    int held = must_hold(1);
    held &= must_hold(2);
    return held ? 0 : 1;
}
