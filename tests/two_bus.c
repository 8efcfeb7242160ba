/* The two-bus book through the C entries: all twelve cases. Standard input says what should be seen, as tests/book-words prints it from the
 * proved table: a line for each case, of hexadecimal words. What is seen is compared word by word and printed beside it.
 *
 *     tests/book-words | target/tests/two_bus
 */
#include "jeturipe.h"
#include "words_seen.h"

#define SLICE(a) (a), sizeof(a) / sizeof((a)[0])

static const double M[8] = {1, 0, -1, 0, -1, 0, 2, 0};
static const double FLAT[8] = {1, 0, -1, 0, -1, 0, 0, 0};
static const double DIAGONAL[8] = {2, 0, 0, 0, 0, 0, 4, 0};
static const double LOSSY[8] = {3, -4, -3, 4, -3, 4, 6, -8};
static const double SYSTEM[8] = {1, 0, 1, 0, -1, 0, 1, 0};

/* The rows' numbers in every case. */
static const uint32_t NUMBERS[2] = {0, 1};

/* The size at making, the present size, and the places of the active rows; then those of the numbers. */
static void put_record(const uint8_t *rec) {
    size_t sizes[2];
    uint32_t numbers[JETURIPE_LIMIT];
    memset(sizes, 0x5c, sizeof sizes);
    memset(numbers, 0x5c, sizeof numbers);
    if (jeturipe_words_of_bytes(rec, sizeof sizes, SLICE(sizes)) == JETURIPE_DONE)
        for (size_t i = 0; i < 2; i++)
            put(sizes[i]);
    const uint8_t *rows = rec + sizeof sizes;
    for (size_t i = 0; i < JETURIPE_LIMIT; i++)
        put(rows[i]);
    if (jeturipe_bus_numbers_of_bytes(rows + JETURIPE_LIMIT, sizeof numbers, SLICE(numbers)) == JETURIPE_DONE)
        for (size_t i = 0; i < JETURIPE_LIMIT; i++)
            put(numbers[i]);
}

/* ---- cases 1 to 4: complex numbers */

/* A refused call has no value: what it should have held is seen only where it is not held. */
static void put_value(uint32_t answer, const double z[2]) {
    put(answer);
    if (answer == JETURIPE_DONE || z[0] != before || z[1] != before)
        put_numbers(z, 2);
}

static void product(void) {
    double z[2];
    set(SLICE(z));
    uint32_t answer = jeturipe_cmul(1, 2, 3, 4, &z[0], &z[1]);
    put_value(answer, z);
}

static void inverse(double re, double im) {
    double z[2];
    set(SLICE(z));
    uint32_t answer = jeturipe_complex_inv(re, im, &z[0], &z[1]);
    put_value(answer, z);
}

static void inverse_of_2j(void) { inverse(0, 2); }
static void inverse_of_small(void) { inverse(0x1p-498, 0); }
static void inverse_of_too_small(void) { inverse(0x1p-499, 0); }

/* ---- cases 5 to 8: the reducer */

typedef struct {
    double y[8];
    uint8_t rec[JETURIPE_RECORD];
} Reducer;

/* Where a making is refused its record is none, and no call on it is carried out. */
static Reducer made(const double y[8]) {
    Reducer r;
    memcpy(r.y, y, sizeof r.y);
    memset(r.rec, 0x5c, sizeof r.rec);
    jeturipe_kron_new(2, SLICE(r.y), SLICE(NUMBERS), SLICE(r.rec));
    return r;
}

static void put_reducer(const Reducer *r) {
    put_record(r->rec);
    put_numbers(SLICE(r->y));
}

static void removal(const double y[8]) {
    Reducer r = made(y);
    put(jeturipe_eliminate_bus(SLICE(r.rec), SLICE(r.y), 1));
    put_reducer(&r);
}

static void removal_from_m(void) { removal(M); }
static void removal_from_flat(void) { removal(FLAT); }

static void removals(void) {
    static const uint32_t buses[2] = {1, 1};
    Reducer r = made(M);
    size_t removed = (size_t)before;
    put(jeturipe_eliminate_buses(SLICE(r.rec), SLICE(r.y), SLICE(buses), &removed));
    put(removed);
    put_reducer(&r);
}

static void impedance(uint32_t i, uint32_t j) {
    Reducer r = made(DIAGONAL);
    double z[2], work[16];
    set(SLICE(z));
    set(SLICE(work));
    put(jeturipe_thevenin_impedance(SLICE(r.rec), SLICE(r.y), i, j, SLICE(work), &z[0], &z[1]));
    put_numbers(SLICE(z));
    put_numbers(SLICE(work));
}

static void impedances(void) {
    impedance(0, 1);
    impedance(0, 0);
}

/* ---- cases 9 to 11: Ward's study with boundary bus 0 and base 100, bus 1 external or left out */

typedef struct {
    size_t original, equivalent, reduced;
    double ratio, y[2], p[1], q[1], correction[1], compensation[1], work[6];
} Study;

static const uint32_t boundary[1] = {0}, external[1] = {1};

static Study fresh(void) {
    Study s;
    s.original = s.equivalent = s.reduced = (size_t)before;
    s.ratio = before;
    set(SLICE(s.y));
    set(SLICE(s.p));
    set(SLICE(s.q));
    set(SLICE(s.correction));
    set(SLICE(s.compensation));
    set(SLICE(s.work));
    return s;
}

static void put_study(const Study *s) {
    put(s->original);
    put(s->equivalent);
    put(s->reduced);
    put_numbers(&s->ratio, 1);
    put_numbers(SLICE(s->y));
    put_numbers(SLICE(s->p));
    put_numbers(SLICE(s->q));
}

static void study(size_t e, size_t work_len) {
    static const double p[1] = {50}, q[1] = {0};
    Study s = fresh();
    put(jeturipe_ward_compute(2, SLICE(M), SLICE(NUMBERS), external, 0, external, e, SLICE(boundary), 100, p, e, q, e, JETURIPE_UNLIMITED,
                              SLICE(s.y), SLICE(s.p), SLICE(s.q), s.work, work_len, &s.original, &s.equivalent, &s.ratio, &s.reduced));
    put_study(&s);
    put_numbers(s.work, work_len);
}

static void study_of_bus_1(void) { study(1, 6); }
static void study_of_no_bus(void) { study(0, 0); }

static void extended(void) {
    static const double none[1] = {0}, v[1] = {1.25};
    Study s = fresh();
    put(jeturipe_ward_compute_extended(2, SLICE(LOSSY), SLICE(NUMBERS), external, 0, SLICE(external), SLICE(boundary), 100, SLICE(none),
                                       SLICE(none), SLICE(v), JETURIPE_UNLIMITED, SLICE(s.y), SLICE(s.p), SLICE(s.q), SLICE(s.correction),
                                       SLICE(s.compensation), SLICE(s.work), &s.original, &s.equivalent, &s.ratio, &s.reduced));
    put_study(&s);
    put_numbers(SLICE(s.correction));
    put_numbers(SLICE(s.compensation));
    put_numbers(SLICE(s.work));
}

/* ---- case 12: a system solved */

static void solution(void) {
    static const double b[4] = {2, 0, 0, 0};
    double x[4], work[12];
    size_t reduced = (size_t)before;
    set(SLICE(x));
    set(SLICE(work));
    put(jeturipe_solve_linear(2, SLICE(SYSTEM), SLICE(b), JETURIPE_UNLIMITED, SLICE(x), SLICE(work), &reduced));
    put(reduced);
    put_numbers(SLICE(x));
    put_numbers(SLICE(work));
}

/* ---- compared */

static const struct {
    const char *name;
    void (*run)(void);
} CASES[] = {
    {"(1, 2) (3, 4)", product},
    {"inverse of (0, 2)", inverse_of_2j},
    {"inverse of 2^-498", inverse_of_small},
    {"inverse of 2^-499", inverse_of_too_small},
    {"M without bus 1", removal_from_m},
    {"1, -1 / -1, 0 without bus 1", removal_from_flat},
    {"M without buses 1, 1", removals},
    {"2, 0 / 0, 4 between 0 and 1, 0 and 0", impedances},
    {"M, boundary 0, external 1, P 50", study_of_bus_1},
    {"M, boundary 0, no external bus", study_of_no_bus},
    {"extended, boundary 0, external 1, voltage 1.25", extended},
    {"1, 1 / -1, 1 with 2, 0", solution},
};

enum { COUNT = sizeof CASES / sizeof CASES[0] };

static int agrees(size_t i, const Words *words, double held) {
    before = held;
    seen.count = 0;
    CASES[i].run();
    return same(&seen, words);
}

/* With ones before the call, as the table has it, and with sevens, which no case leaves. */
static int agrees_and_says_so(size_t i, const Words *words) {
    int ok = agrees(i, words, 1) && agrees(i, words, 7);
    printf("%zu. %s:", i + 1, CASES[i].name);
    print_words(&seen);
    printf("; expected");
    print_words(words);
    printf("; %s\n", ok ? "ok" : "WRONG");
    return ok;
}

int main(void) {
    size_t agreeing = 0;
    for (size_t i = 0; i < COUNT; i++) {
        Words words = expected();
        agreeing += (size_t)agrees_and_says_so(i, &words);
    }
    if (getchar() != EOF)
        no_table("there are more lines than cases");
    printf("%zu of %d cases agree\n", agreeing, COUNT);
    return agreeing != COUNT;
}
