// Times one root: the port's, with OTHER defined that of another build of the port too, and the processor's own. Half the operands are random bit
// patterns, half lie between 0.5 and 2. They take turns; a time is the thread's processor time for one root.
#include "jeturipe.h"
#include <math.h>
#include <stdio.h>
#include <stdlib.h>
#include <string.h>
#include <time.h>

enum { OPERANDS = 1000000, ROUNDS = 41, SIDES = 3 };

static double operands[OPERANDS];

static uint64_t next_random(void) {
    static uint64_t state = 88172645463325252u;
    state ^= state << 13;
    state ^= state >> 7;
    state ^= state << 17;
    return state;
}

static void draw(void) {
    for (int i = 0; i < OPERANDS; i++) {
        uint64_t bits = next_random();
        if (i % 2) bits = 0x3fe0000000000000u + (bits >> 11);
        memcpy(&operands[i], &bits, 8);
    }
}

#ifdef OTHER
uint32_t other_sqrt(double x, double *value);
static double other(double x) {
    double value = NAN;
    other_sqrt(x, &value);
    return value;
}
#endif

// NaN where the root is refused.
static double port(double x) {
    double value = NAN;
    jeturipe_sqrt(x, &value);
    return value;
}

static double processor(double x) { return sqrt(x); }

static const struct { const char *name; double (*root)(double); } sides[SIDES] = {
    { "port", port },
#ifdef OTHER
    { "other", other },
#else
    { NULL, NULL },
#endif
    { "processor", processor },
};

static double nanoseconds(void) {
    struct timespec t;
    clock_gettime(CLOCK_THREAD_CPUTIME_ID, &t);
    return 1e9 * (double)t.tv_sec + (double)t.tv_nsec;
}

// Written to, so that no root is left out.
volatile double kept;

static double round_of(double (*root)(double)) {
    double sum = 0, began = nanoseconds();
    for (int i = 0; i < OPERANDS; i++) sum += root(operands[i]);
    kept = sum;
    return (nanoseconds() - began) / OPERANDS;
}

static int by_size(const void *a, const void *b) {
    double x = *(const double *)a, y = *(const double *)b;
    return (x > y) - (x < y);
}

// How many roots differ from the processor's; one that is not finite is refused.
static int differing(double (*root)(double)) {
    int n = 0;
    for (int i = 0; i < OPERANDS; i++) {
        double r = root(operands[i]), p = processor(operands[i]);
        n += memcmp(&r, &p, 8) != 0 && !(isnan(r) && !isfinite(p));
    }
    return n;
}

int main(void) {
    static double times[SIDES][ROUNDS];
    int wrong = 0;
    draw();
    for (int r = 0; r < ROUNDS; r++)
        for (int k = 0; k < SIDES; k++) {
            int side = (k + r) % SIDES;
            if (sides[side].root) times[side][r] = round_of(sides[side].root);
        }
    for (int side = 0; side < SIDES; side++) {
        if (!sides[side].root) continue;
        int n = differing(sides[side].root);
        qsort(times[side], ROUNDS, sizeof(double), by_size);
        printf("%-10s best %5.1f ns, median %5.1f ns, %d of %d roots differ\n", sides[side].name, times[side][0], times[side][ROUNDS / 2], n, OPERANDS);
        wrong += n;
    }
    return wrong != 0;
}
