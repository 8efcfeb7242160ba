/* One call of every entry of jeturipe.h, at the most buses. What it writes is handed in; what it reads is made here. */
#include "jeturipe.h"

#include <stdlib.h>
#include <string.h>

enum { N = JETURIPE_LIMIT, INTERNAL = 8, BOUNDARY = 8, RETAINED = INTERNAL + BOUNDARY, EXTERNAL = N - RETAINED, WRITTEN = 10 };

typedef struct {
    size_t count, size; /* of elements, and the bytes of one */
    void *at;
} Slice;

typedef struct {
    const char *name;
    uint32_t (*call)(const Slice *w);
    Slice written[WRITTEN]; /* w, in the call's order: slices, then single answers */
} Entry;

/* A full matrix, a ring of branches, and powers, voltages and reactances of all buses; numbers that are no rows. */
static struct {
    double y[2 * N * N], ptdf[N * N];
    double p[N], q[N], v[N], x[N]; /* MW, MVAr, per unit, per unit */
    size_t row[N], next[N];
    uint32_t number[N];
    uint8_t rec[JETURIPE_RECORD], bytes[8 * N];
} given;

static void prepare(void) {
    for (size_t i = 0; i < N; i++) {
        for (size_t j = 0; j < N; j++) {
            given.y[2 * (i * N + j)] = i == j ? 70 + (double)i : -(double)((7 * i + 3 * j) % 16) / 16;
            given.y[2 * (i * N + j) + 1] = i == j ? -90 : (double)((5 * i + j) % 8) / 8;
            given.ptdf[i * N + j] = (double)((3 * i + 5 * j) % 32) / 64;
        }
        given.p[i] = (double)i + 1;
        given.q[i] = (double)i / 2;
        given.v[i] = 1 + (double)i / 1024;
        given.x[i] = 0.125;
        given.row[i] = i;
        given.number[i] = 4000000000u - 7 * (uint32_t)i;
        given.next[i] = (i + 1) % N;
        given.bytes[8 * i] = (uint8_t)i;
    }
    jeturipe_kron_new(N, given.y, 2 * N * N, given.number, N, given.rec, JETURIPE_RECORD);
}

#define SLICE(a) (a), sizeof(a) / sizeof((a)[0])
#define W(i) w[i].at, w[i].count

static uint32_t call_numbers_of_bytes(const Slice *w) { return jeturipe_numbers_of_bytes(SLICE(given.bytes), W(0)); }
static uint32_t call_bytes_of_numbers(const Slice *w) { return jeturipe_bytes_of_numbers(SLICE(given.p), W(0)); }
static uint32_t call_words_of_bytes(const Slice *w) { return jeturipe_words_of_bytes(SLICE(given.bytes), W(0)); }
static uint32_t call_bytes_of_words(const Slice *w) { return jeturipe_bytes_of_words(SLICE(given.row), W(0)); }
static uint32_t call_bus_numbers_of_bytes(const Slice *w) { return jeturipe_bus_numbers_of_bytes(given.bytes, 4 * N, W(0)); }
static uint32_t call_bytes_of_bus_numbers(const Slice *w) { return jeturipe_bytes_of_bus_numbers(SLICE(given.number), W(0)); }

static uint32_t call_cadd(const Slice *w) { return jeturipe_cadd(1, 2, 3, 4, w[0].at, w[1].at); }
static uint32_t call_csub(const Slice *w) { return jeturipe_csub(1, 2, 3, 4, w[0].at, w[1].at); }
static uint32_t call_cmul(const Slice *w) { return jeturipe_cmul(1, 2, 3, 4, w[0].at, w[1].at); }
static uint32_t call_cdiv(const Slice *w) { return jeturipe_cdiv(1, 2, 3, 4, w[0].at, w[1].at); }
static uint32_t call_cneg(const Slice *w) { return jeturipe_cneg(1, 2, w[0].at, w[1].at); }
static uint32_t call_complex_inv(const Slice *w) { return jeturipe_complex_inv(1, 2, w[0].at, w[1].at); }
static uint32_t call_abs(const Slice *w) { return jeturipe_abs(-2, w[0].at); }
static uint32_t call_sqrt(const Slice *w) { return jeturipe_sqrt(2, w[0].at); }
static uint32_t call_magnitude(const Slice *w) { return jeturipe_magnitude(1, 2, w[0].at); }

static uint32_t call_solve_linear(const Slice *w) {
    return jeturipe_solve_linear(N, SLICE(given.y), given.y, 2 * N, JETURIPE_SOLVE_ROWS(N), W(0), W(1), w[2].at);
}

static uint32_t call_complex_matrix_inverse(const Slice *w) {
    return jeturipe_complex_matrix_inverse(N, SLICE(given.y), W(0), W(1));
}

static uint32_t call_kron_new(const Slice *w) { return jeturipe_kron_new(N, SLICE(given.y), SLICE(given.number), W(0)); }

/* The record and the matrix that a removal changes. */
static void lay_out(const Slice *w) {
    memcpy(w[0].at, given.rec, sizeof given.rec);
    memcpy(w[1].at, given.y, sizeof given.y);
}

static uint32_t call_eliminate_bus(const Slice *w) {
    lay_out(w);
    return jeturipe_eliminate_bus(W(0), W(1), given.number[5]);
}

static uint32_t call_eliminate_buses(const Slice *w) {
    lay_out(w);
    return jeturipe_eliminate_buses(W(0), W(1), given.number, N - 1, w[2].at);
}

static uint32_t call_active_buses(const Slice *w) { return jeturipe_active_buses(SLICE(given.rec), W(0), w[1].at); }

static uint32_t call_reduced_matrix(const Slice *w) {
    return jeturipe_reduced_matrix(SLICE(given.rec), SLICE(given.y), W(0));
}

static uint32_t call_thevenin_impedance(const Slice *w) {
    return jeturipe_thevenin_impedance(SLICE(given.rec), SLICE(given.y), given.number[3], given.number[7], W(0), w[1].at,
                                       w[2].at);
}

#define WARD_LISTS SLICE(given.number), given.number, INTERNAL, given.number + RETAINED, EXTERNAL, given.number + INTERNAL, BOUNDARY
#define WARD_POWERS given.p, EXTERNAL, given.q, EXTERNAL
#define WARD_ROWS JETURIPE_WARD_ROWS(RETAINED, EXTERNAL)

static uint32_t call_ward_compute(const Slice *w) {
    return jeturipe_ward_compute(N, SLICE(given.y), WARD_LISTS, 100, WARD_POWERS, WARD_ROWS, W(0), W(1), W(2), W(3), w[4].at, w[5].at, w[6].at,
                                 w[7].at);
}

static uint32_t call_ward_compute_extended(const Slice *w) {
    return jeturipe_ward_compute_extended(N, SLICE(given.y), WARD_LISTS, 100, WARD_POWERS, given.v, EXTERNAL, WARD_ROWS, W(0), W(1), W(2), W(3),
                                          W(4), W(5), w[6].at, w[7].at, w[8].at, w[9].at);
}

static uint32_t call_rei_compute(const Slice *w) {
    return jeturipe_rei_compute(given.row, N / 2, given.row + N / 2, N / 2, SLICE(given.y), SLICE(given.p), SLICE(given.q), 999, W(0), W(1),
                                W(2), W(3), w[4].at, w[5].at, w[6].at, w[7].at, w[8].at);
}

static uint32_t call_retained_buses(const Slice *w) { return jeturipe_retained_buses(N, given.row, RETAINED, W(0), w[1].at); }

static uint32_t call_build_b_bus(const Slice *w) {
    return jeturipe_build_b_bus(N, SLICE(given.row), SLICE(given.next), SLICE(given.x), W(0));
}

static uint32_t call_lodf_matrix(const Slice *w) {
    return jeturipe_lodf_matrix(N, SLICE(given.ptdf), SLICE(given.row), SLICE(given.next), W(0));
}

#define WORDS(count) {(count), 8, NULL}
#define HALVES(count) {(count), 4, NULL}
#define BYTES(count) {(count), 1, NULL}
#define ONE WORDS(1)
#define ENTRY(name, ...) {#name, call_##name, {__VA_ARGS__}}

static const Entry ENTRIES[] = {
    ENTRY(numbers_of_bytes, WORDS(N)),
    ENTRY(bytes_of_numbers, BYTES(8 * N)),
    ENTRY(words_of_bytes, WORDS(N)),
    ENTRY(bytes_of_words, BYTES(8 * N)),
    ENTRY(bus_numbers_of_bytes, HALVES(N)),
    ENTRY(bytes_of_bus_numbers, BYTES(4 * N)),
    ENTRY(cadd, ONE, ONE),
    ENTRY(csub, ONE, ONE),
    ENTRY(cmul, ONE, ONE),
    ENTRY(cdiv, ONE, ONE),
    ENTRY(cneg, ONE, ONE),
    ENTRY(complex_inv, ONE, ONE),
    ENTRY(abs, ONE),
    ENTRY(sqrt, ONE),
    ENTRY(magnitude, ONE),
    ENTRY(solve_linear, WORDS(2 * N), WORDS(2 * N * (N + 1)), ONE),
    ENTRY(complex_matrix_inverse, WORDS(2 * N * N), WORDS(4 * N * N)),
    ENTRY(kron_new, BYTES(JETURIPE_RECORD)),
    ENTRY(eliminate_bus, BYTES(JETURIPE_RECORD), WORDS(2 * N * N)),
    ENTRY(eliminate_buses, BYTES(JETURIPE_RECORD), WORDS(2 * N * N), ONE),
    ENTRY(active_buses, HALVES(N), ONE),
    ENTRY(reduced_matrix, WORDS(2 * N * N)),
    ENTRY(thevenin_impedance, WORDS(4 * N * N), ONE, ONE),
    ENTRY(ward_compute, WORDS(2 * RETAINED * RETAINED), WORDS(BOUNDARY), WORDS(BOUNDARY), WORDS(2 * EXTERNAL * (N + 1)), ONE, ONE, ONE, ONE),
    ENTRY(ward_compute_extended, WORDS(2 * RETAINED * RETAINED), WORDS(BOUNDARY), WORDS(BOUNDARY), WORDS(BOUNDARY), WORDS(BOUNDARY),
          WORDS(2 * EXTERNAL * (N + 1)), ONE, ONE, ONE, ONE),
    ENTRY(rei_compute, WORDS(N), WORDS(2 * N), WORDS(N * (N - 1)), WORDS(N * (N - 1)), ONE, ONE, ONE, ONE, ONE),
    ENTRY(retained_buses, WORDS(N), ONE),
    ENTRY(build_b_bus, WORDS(N * N)),
    ENTRY(lodf_matrix, WORDS(N * N)),
};

/* Memory as malloc gives it for all that a call writes; the first slice an element short where the call is to be refused. */
static void lend(const Entry *entry, uint32_t expected, Slice *w) {
    for (int i = 0; i < WRITTEN; i++) {
        w[i] = entry->written[i];
        if (w[i].count && !(w[i].at = malloc(w[i].count * w[i].size)))
            abort();
    }
    w[0].count -= expected == JETURIPE_WRONG_LENGTH;
}

static void take_back(Slice *w) {
    for (int i = 0; i < WRITTEN; i++)
        free(w[i].at);
}

/* Has each entry tried with an accepted call, and with a refused one if it writes a slice: 1 where every trial says so. */
static int every_entry(int (*trial)(const Entry *entry, uint32_t expected)) {
    int all = 1;
    prepare();
    for (size_t i = 0; i < sizeof ENTRIES / sizeof ENTRIES[0]; i++) {
        all &= trial(&ENTRIES[i], JETURIPE_DONE);
        if (ENTRIES[i].written[0].count > 1)
            all &= trial(&ENTRIES[i], JETURIPE_WRONG_LENGTH);
    }
    return all;
}
