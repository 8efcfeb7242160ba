/* All that the calls of a test may write, and what it held before: a refused call leaves it as it was. */
#include "jeturipe.h"

#include <stdio.h>
#include <string.h>

#define SLICE(a) (a), sizeof(a) / sizeof((a)[0])

static const double M[8] = {1, 0, -1, 0, -1, 0, 2, 0};

typedef struct {
    uint8_t rec[JETURIPE_RECORD], bytes[32];
    double y[8], out[8], x[4], work[16], z_re, z_im;
    double y_ward[2], p_ward[1], q_ward[1], ratio;
    double b[4], voltage, p, q;
    uint32_t buses[2], numbers[4];
    size_t rows[2], words[4], count, original, equivalent, reduced, bus, ties;
} Room;

static Room now, before;
static int failed = 0;

static inline void expect(int ok, const char *fact) {
    if (!ok) {
        printf("%s: wrong\n", fact);
        failed = 1;
    }
}

static inline void hold(void) {
    memcpy(&before, &now, sizeof now);
}

static inline void refused(uint32_t answer, uint32_t number, const char *call) {
    if (answer != number) {
        printf("%s: answered with %u, not %u\n", call, (unsigned)answer, (unsigned)number);
        failed = 1;
    }
    if (memcmp(&now, &before, sizeof now) != 0) {
        printf("%s: not all is as it was\n", call);
        failed = 1;
    }
}

static inline int cleared(size_t work_len) {
    static const double zeros[16];
    return memcmp(now.work, zeros, work_len * sizeof zeros[0]) == 0;
}

/* Refused in its work, which clears the work slice. */
static inline void stopped(uint32_t answer, uint32_t number, size_t work_len, const char *call) {
    expect(cleared(work_len), call);
    memcpy(now.work, before.work, sizeof now.work);
    refused(answer, number, call);
}

/* A reducer of two buses with these numbers; all else holds what no call leaves. */
static inline void make(const double y[8], const uint32_t numbers[2]) {
    memset(&now, 0x5c, sizeof now);
    memcpy(now.y, y, sizeof now.y);
    expect(jeturipe_kron_new(2, SLICE(now.y), numbers, 2, SLICE(now.rec)) == 0, "a reducer of two buses");
    hold();
}

static inline uint32_t removal(uint32_t bus) {
    return jeturipe_eliminate_bus(SLICE(now.rec), SLICE(now.y), bus);
}

static inline uint32_t removals(const uint32_t *buses, size_t len) {
    return jeturipe_eliminate_buses(SLICE(now.rec), SLICE(now.y), buses, len, &now.count);
}

static inline uint32_t active(void) {
    return jeturipe_active_buses(SLICE(now.rec), SLICE(now.buses), &now.count);
}

static inline uint32_t present_rows(void) {
    return jeturipe_reduced_matrix(SLICE(now.rec), SLICE(now.y), SLICE(now.out));
}

static inline uint32_t impedance(uint32_t i, uint32_t j) {
    return jeturipe_thevenin_impedance(SLICE(now.rec), SLICE(now.y), i, j, SLICE(now.work), &now.z_re, &now.z_im);
}
