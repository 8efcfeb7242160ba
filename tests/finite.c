/* Numbers that are not finite: refused with 19 where one is given, with 20 where one is computed, also on the way. All is as it was
 * then, but for the work slice, which 20 clears, and the removals of a list before the one that 20 stops. */
#include "room.h"

#include <float.h>
#include <immintrin.h>
#include <math.h>

static void given(uint32_t answer, const char *call) {
    refused(answer, JETURIPE_GIVEN_NOT_FINITE, call);
}

/* The call's work slice has so many numbers, or it has none. */
static void computed(uint32_t answer, size_t work_len, const char *call) {
    stopped(answer, JETURIPE_COMPUTED_NOT_FINITE, work_len, call);
}

/* ---- single numbers */

#define PAIR &now.z_re, &now.z_im

static void given_singles(void) {
    given(jeturipe_cadd(NAN, 0, 0, 0, PAIR), "NaN + 0");
    given(jeturipe_csub(INFINITY, 0, INFINITY, 0, PAIR), "inf - inf");
    given(jeturipe_cmul(0, 0, 0, -INFINITY, PAIR), "0 (-inf j)");
    given(jeturipe_cdiv(1, 0, INFINITY, 0, PAIR), "1 / inf");
    given(jeturipe_cneg(0, NAN, PAIR), "-NaN j");
    given(jeturipe_complex_inv(0, -INFINITY, PAIR), "the inverse of -inf j");
    given(jeturipe_abs(-INFINITY, &now.p), "|-inf|");
    given(jeturipe_sqrt(INFINITY, &now.p), "the root of inf");
    given(jeturipe_sqrt(NAN, &now.p), "the root of NaN");
    given(jeturipe_magnitude(0, INFINITY, &now.p), "the magnitude of inf j");
}

static void computed_singles(void) {
    computed(jeturipe_cadd(0, DBL_MAX, 0, DBL_MAX, PAIR), 0, "the largest number twice");
    computed(jeturipe_csub(DBL_MAX, 0, -DBL_MAX, 0, PAIR), 0, "the largest number less the smallest");
    computed(jeturipe_cmul(0x1p512, 0, 0x1p512, 0, PAIR), 0, "2^512 2^512");
    computed(jeturipe_cmul(0x1p512, 0, 0, 0x1p512, PAIR), 0, "2^512 2^512 j");
    computed(jeturipe_cmul(0x1p512, 0x1p512, 0x1p512, 0x1p512, PAIR), 0, "a product whose own products would cancel");
    computed(jeturipe_cdiv(1, 0, 0x1p512, 0, PAIR), 0, "1 / 2^512, by a square that is not finite");
    computed(jeturipe_cdiv(1, 0, 0x1p-499, 0, PAIR), 0, "1 / 2^-499");
    computed(jeturipe_cdiv(1, 0, 0, 0, PAIR), 0, "1 / 0");
    computed(jeturipe_complex_inv(0x1p-499, 0, PAIR), 0, "the inverse of 2^-499");
    computed(jeturipe_complex_inv(0, 0x1p512, PAIR), 0, "the inverse of 2^512 j");
    computed(jeturipe_sqrt(-1, &now.p), 0, "the root of -1");
    computed(jeturipe_sqrt(-DBL_TRUE_MIN, &now.p), 0, "the root of the largest negative number");
    computed(jeturipe_magnitude(0x1p512, 0, &now.p), 0, "the magnitude of 2^512");
}

static int pair(uint32_t answer, double re, double im) {
    return answer == 0 && now.z_re == re && now.z_im == im;
}

static void accepted_singles(void) {
    expect(pair(jeturipe_cadd(DBL_MAX, 1, 0, 2, PAIR), DBL_MAX, 3), "the largest number + 0");
    expect(pair(jeturipe_csub(3, DBL_MAX, 1, 0, PAIR), 2, DBL_MAX), "3 - 1");
    expect(pair(jeturipe_cmul(0x1p511, 0, 0x1p511, 0, PAIR), 0x1p1022, 0), "2^511 2^511");
    expect(pair(jeturipe_cdiv(0, 1, 0x1p511, 0, PAIR), 0, 0x1p-511), "j / 2^511");
    expect(pair(jeturipe_cneg(DBL_MAX, -1, PAIR), -DBL_MAX, 1), "the largest number, negated");
    expect(pair(jeturipe_complex_inv(0x1p511, 0, PAIR), 0x1p-511, 0), "the inverse of 2^511");
    expect(pair(jeturipe_complex_inv(0x1p-498, 0, PAIR), 0x1p498, 0), "the inverse of 2^-498");
    expect(jeturipe_abs(-DBL_MAX, &now.p) == 0 && now.p == DBL_MAX, "the smallest number's magnitude");
    expect(jeturipe_sqrt(DBL_MAX, &now.p) == 0 && now.p == 0x1.fffffffffffffp511, "the root of the largest number");
    expect(jeturipe_sqrt(-0.0, &now.p) == 0 && now.p == 0 && signbit(now.p), "the root of -0");
    expect(jeturipe_magnitude(0x1p511, 0, &now.p) == 0 && now.p == 0x1p511, "the magnitude of 2^511");
}

/* An infinity is told by comparisons, which raise no flag of an invalid operation: a caller may trap it. */
static void no_flag(void) {
    _mm_setcsr(_mm_getcsr() & ~_MM_EXCEPT_MASK);
    given(jeturipe_abs(-INFINITY, &now.p), "|-inf|, flags down");
    computed(jeturipe_cadd(DBL_MAX, 0, DBL_MAX, 0, PAIR), 0, "the largest number twice, flags down");
    expect(!(_mm_getcsr() & _MM_EXCEPT_INVALID), "no flag of an invalid operation");
}

static void single_numbers(void) {
    memset(&now, 0x5c, sizeof now);
    hold();
    given_singles();
    no_flag();
    computed_singles();
    accepted_singles();
}

/* ---- linear systems */

/* Of a system with real parts alone. */
static uint32_t solution(double a, double b, double c, double d, double right, double right_below, size_t allowance) {
    const double system[8] = {a, 0, b, 0, c, 0, d, 0}, side[4] = {right, 0, right_below, 0};
    return jeturipe_solve_linear(2, SLICE(system), SLICE(side), allowance, SLICE(now.x), now.work, 12, &now.reduced);
}

static uint32_t inverse(double a, double b, double c, double d) {
    const double mat[8] = {a, 0, b, 0, c, 0, d, 0};
    return jeturipe_complex_matrix_inverse(2, SLICE(mat), SLICE(now.out), SLICE(now.work));
}

static void systems(void) {
    memset(&now, 0x5c, sizeof now);
    hold();
    given(solution(0, 0, 0, NAN, 1, 1, 0), "a singular system with NaN");
    given(solution(1, 0, 0, 1, 1, INFINITY, 2), "a system with an infinite right side");
    given(inverse(1, 0, -INFINITY, 1), "the inverse of a matrix with -inf");
    computed(solution(0x1p-400, 0, 0, 0, 0x1p700, 0, 2), 12, "2^700 / 2^-400, before a pivot that is too small");
    stopped(solution(0x1p-400, 0, 0, 0, 1, 0, 2), JETURIPE_SINGULAR, 12, "1 / 2^-400, before a pivot that is too small");
    stopped(solution(1, 0x1p600, 0x1p500, 1, 1, 1, 0), JETURIPE_BEYOND_ALLOWANCE, 12, "a row that is not allowed, before it overflows");
    computed(solution(1, 0x1p600, 0x1p500, 1, 1, 1, 1), 12, "a row that overflows");
    computed(solution(1, 0, 0, 0x1p512, 1, 1, 2), 12, "a pivot whose square is not finite");
    computed(solution(1, 0, 0x1p512, 1, 1, 1, 2), 12, "an entry below the first, whose square is not finite");
    computed(solution(1e-150, 3, 1e-150, 0, DBL_MAX, 0x1p-400, 2), 12, "the upper of equal pivots, and the largest number");
    computed(inverse(1, 0, 0, 0x1p512), 16, "an inverse with 2^512");
    computed(inverse(1e-150, 1e150, 0, 1e-150), 16, "an inverse whose entry overflows");
    expect(solution(1, 0, 0, 0x1p511, 1, 0x1p511, 2) == 0 && now.x[2] == 1, "a system with 2^511");
    expect(inverse(1, 0, 0, 0x1p-498) == 0 && now.out[6] == 0x1p498, "an inverse with 2^-498");
}

/* ---- Kron reduction */

static const uint32_t NUMBERS[2] = {101, 205};

static void make_real(double a, double b, double c, double d) {
    const double y[8] = {a, 0, b, 0, c, 0, d, 0};
    make(y, NUMBERS);
}

static void makings(void) {
    static const uint32_t twice[2] = {7, 7};
    make(M, NUMBERS);
    now.y[7] = INFINITY;
    hold();
    given(jeturipe_kron_new(2, SLICE(now.y), SLICE(NUMBERS), SLICE(now.rec)), "a reducer with inf");
    refused(jeturipe_kron_new(2, SLICE(now.y), SLICE(twice), SLICE(now.rec)), JETURIPE_BUS_TWICE, "buses 7, 7 and inf");
    given(removal(101), "a removal beside inf");
    given(removal(9), "the removal of no bus beside inf");
    given(removals(NUMBERS, 0), "no removal beside inf");
    given(present_rows(), "the rows with inf");
    expect(active() == 0 && now.count == 2, "which bus a row is, beside inf");
}

/* Only the present rows are given: what stands behind them may be anything. */
static void behind_the_rows(void) {
    make(M, NUMBERS);
    expect(removal(205) == 0, "a removal");
    for (int i = 2; i < 8; i++)
        now.y[i] = NAN;
    expect(present_rows() == 0 && now.out[0] == 0.5 && now.out[7] == 0, "the row that is left, before NaN");
    expect(removals(NUMBERS, 1) == 0 && now.count == 1 && now.y[0] == 0 && now.y[7] == 0, "the last bus's removal, before NaN");
}

static void overflowing_removals(void) {
    make_real(1, 1, 1, 0x1p512);
    computed(removal(205), 0, "the removal of a bus with 2^512");
    make_real(1, 1, 1, 0x1p-499);
    refused(removal(205), JETURIPE_SMALL_ENTRY, "the removal of a bus with 2^-499");
    make_real(DBL_MAX, -DBL_MAX, 1, 1);
    computed(removal(205), 0, "a removal that adds the largest number to itself");
    make_real(1, 1, 1, 0x1p511);
    expect(removal(205) == 0 && now.y[0] == 1 && now.y[2] == 0, "the removal of a bus with 2^511");
    now.y[0] = 0x1p512;
    hold();
    computed(removal(101), 0, "the removal of the last bus, with 2^512");
}

/* 2, 0, 0 / 0, 2^512, 0 / 0, 0, 1 without bus 3, then without bus 2. */
static void stopped_list(void) {
    static const uint32_t numbers[3] = {1, 2, 3}, list[2] = {3, 2};
    double y[18] = {2, 0, 0, 0, 0, 0, 0, 0, 0x1p512, 0, 0, 0, 0, 0, 0, 0, 1, 0};
    uint8_t rec[JETURIPE_RECORD];
    uint32_t buses[3];
    size_t removed = 9, count;
    expect(jeturipe_kron_new(3, SLICE(y), SLICE(numbers), SLICE(rec)) == 0, "a reducer of three buses");
    uint32_t answer = jeturipe_eliminate_buses(SLICE(rec), SLICE(y), SLICE(list), &removed);
    expect(answer == JETURIPE_COMPUTED_NOT_FINITE && removed == 1, "one of two removals");
    answer = jeturipe_active_buses(SLICE(rec), SLICE(buses), &count);
    expect(answer == 0 && count == 2 && buses[0] == 1 && buses[1] == 2, "the buses that are left");
    expect(y[0] == 2 && y[6] == 0x1p512 && y[8] == 0 && y[16] == 0, "their rows, and +0 behind");
    expect(jeturipe_eliminate_bus(SLICE(rec), SLICE(y), 1) == 0 && y[0] == 0x1p512, "a later removal");
}

static void reducers(void) {
    makings();
    behind_the_rows();
    overflowing_removals();
    stopped_list();
}

/* ---- Thevenin impedances */

static void impedances(void) {
    make_real(1e-79, 1e150, 0, 1e-79);
    computed(impedance(101, 205), 16, "an impedance with twice an entry that is too large for it");
    expect(impedance(205, 101) == 0 && now.z_re == 2e79, "the same the other way, by the entry 0");
    make_real(1, 0, 0, 0x1p512);
    computed(impedance(101, 101), 16, "an impedance beside a bus with 2^512");
    make(M, NUMBERS);
    now.y[2] = NAN;
    hold();
    given(impedance(101, 9), "an impedance to no bus beside NaN");
    make(M, NUMBERS);
    expect(removal(205) == 0, "a removal");
    now.y[2] = NAN;
    expect(impedance(101, 101) == 0 && now.z_re == 0, "an impedance before NaN behind the rows");
}

/* ---- Ward studies of 1, y_be / y_eb, 2 with boundary bus 101 and external bus 205, or with no external bus */

typedef struct {
    double y_be, y_eb, base, p, q, v;
    size_t external;
} Study;

static const Study SOUND = {-1, -1, 100, 50, 0, 1.25, 1};

static uint32_t study(Study s) {
    const double y[8] = {1, 0, s.y_be, 0, s.y_eb, 0, 2, 0};
    return jeturipe_ward_compute(2, SLICE(y), SLICE(NUMBERS), NUMBERS, 0, NUMBERS + 1, s.external, NUMBERS, 1, s.base, &s.p, s.external,
                                 &s.q, s.external, 0, SLICE(now.y_ward), SLICE(now.p_ward), SLICE(now.q_ward), now.work, 6 * s.external,
                                 &now.original, &now.equivalent, &now.ratio, &now.reduced);
}

static uint32_t extended(Study s) {
    const double y[8] = {1, 0, s.y_be, 0, s.y_eb, 0, 2, 0};
    return jeturipe_ward_compute_extended(2, SLICE(y), SLICE(NUMBERS), NUMBERS, 0, NUMBERS + 1, s.external, NUMBERS, 1, s.base, &s.p,
                                          s.external, &s.q, s.external, &s.v, s.external, 0, SLICE(now.y_ward), SLICE(now.p_ward),
                                          SLICE(now.q_ward), now.x, 1, now.b, 1, now.work, 6 * s.external, &now.original,
                                          &now.equivalent, &now.ratio, &now.reduced);
}

/* A study with one number changed. */
static Study with(double number, size_t at) {
    Study s = SOUND;
    memcpy((uint8_t *)&s + at, &number, sizeof number);
    return s;
}

#define WITH(field, number) with(number, offsetof(Study, field))

static void both_given(Study s, const char *call) {
    given(study(s), call);
    given(extended(s), call);
}

static void both_computed(Study s, const char *call) {
    computed(study(s), 6, call);
    computed(extended(s), 6, call);
}

static void studies(void) {
    Study none = WITH(base, NAN);
    none.external = 0;
    memset(&now, 0x5c, sizeof now);
    hold();
    both_given(WITH(y_eb, NAN), "a study with NaN in its matrix");
    both_given(WITH(base, INFINITY), "a study with an infinite base");
    both_given(WITH(p, -INFINITY), "a study with an infinite P");
    both_given(WITH(q, NAN), "a study with NaN for Q");
    both_given(none, "a study with no external bus, and NaN for its base");
    given(extended(WITH(v, INFINITY)), "a study with an infinite voltage");
    both_computed(WITH(base, 0), "a study with base 0");
    both_computed(WITH(base, 1e-308), "a study whose current overflows");
    Study s = WITH(y_be, 0x1p600);
    s.y_eb = 0x1p600;
    both_computed(s, "a study whose product overflows");
    s = WITH(y_be, 1e6);
    s.base = 1e300;
    s.p = 1e305;
    both_computed(s, "a study whose injection overflows");
    s = WITH(y_be, -2);
    s.v = DBL_MAX;
    computed(extended(s), 6, "a study whose corrections overflow");
    expect(study(s) == 0 && now.y_ward[0] == 0 && now.p_ward[0] == 50, "the same without them");
    none.base = 0;
    expect(study(none) == 0 && extended(none) == 0 && now.y_ward[0] == 1 && now.p_ward[0] == 0, "base 0 with no external bus");
    expect(study(WITH(base, -100)) == 0 && now.p_ward[0] == 25, "a negative base");
}

/* ---- the REI equivalent of a generator and a load */

static uint32_t rei(double own, double between, double p, double p_other) {
    static const size_t generator[1] = {7}, load[1] = {3};
    const double y[8] = {own, 0, between, 0, between, 0, 1, 0}, power[2] = {p, p_other}, none[2] = {0, 0};
    return jeturipe_rei_compute(SLICE(generator), SLICE(load), SLICE(y), SLICE(power), SLICE(none), 9, SLICE(now.rows), SLICE(now.x),
                                now.words, 2, now.b, 2, &now.bus, &now.voltage, &now.p, &now.q, &now.ties);
}

static void rei_equivalents(void) {
    memset(&now, 0x5c, sizeof now);
    hold();
    given(rei(1, NAN, 0, 0), "a tie of NaN");
    given(rei(1, 0, INFINITY, -INFINITY), "infinite injections");
    computed(rei(0x1p512, 0, 0, 0), 0, "a spoke of 2^512");
    computed(rei(1, 0, DBL_MAX, DBL_MAX), 0, "a sum that overflows");
    expect(rei(0x1p511, DBL_MAX, DBL_MAX, -1) == 0 && now.x[0] == 0x1p510 && now.p == DBL_MAX, "a spoke of 2^511, a large sum");
    expect(now.b[0] == -DBL_MAX && now.ties == 1, "a tie of the largest number");
}

/* ---- DC parts */

/* No division of a branch's own outage factor where the factors are looked at only, the first branch a bridge and its factor for the
 * other's outage too large, nor where a branch is alone: the first would be by 0, the second of an infinity by another. A caller may trap
 * both. Where several branches are accepted, a bridge's is made, and its flag raised. */
static void no_flag_of_a_division(void) {
    static const size_t from[2] = {0, 2}, to[2] = {1, 1};
    static const double bridge[6] = {1, 0, DBL_MAX, 0, 0, 1 - 2e-12}, lone[2] = {DBL_MAX, -DBL_MAX};
    _mm_setcsr(_mm_getcsr() & ~_MM_EXCEPT_MASK);
    computed(jeturipe_lodf_matrix(3, SLICE(bridge), SLICE(from), SLICE(to), SLICE(now.b)), 0, "a quotient that overflows beside a bridge");
    expect(jeturipe_lodf_matrix(2, SLICE(lone), from, 1, to, 1, now.b, 1) == 0 && now.b[0] == -1, "a lone branch, flags down");
    expect(!(_mm_getcsr() & (_MM_EXCEPT_DIV_ZERO | _MM_EXCEPT_INVALID)), "no flag of a division");
}

static void branches(void) {
    static const size_t from[2] = {0, 0}, to[2] = {1, 1}, apart[2] = {1, 2};
    static const double own[6] = {DBL_MAX, -DBL_MAX, DBL_MAX, 0.5, 0.25, 0.125};
    static const double wide[4] = {DBL_MAX, -DBL_MAX, 0.5, 0.25}, steep[4] = {DBL_MAX, 0, 1, 2e-12};
    static const double infinite[2] = {0, INFINITY}, x[1] = {DBL_MAX}, blown[1] = {NAN};
    memset(&now, 0x5c, sizeof now);
    hold();
    given(jeturipe_build_b_bus(2, from, 1, to, 1, SLICE(blown), SLICE(now.b)), "a reactance of NaN");
    refused(jeturipe_build_b_bus(1, from, 1, to, 1, SLICE(blown), now.b, 1), JETURIPE_NO_SUCH_END, "a reactance of NaN to no bus");
    given(jeturipe_lodf_matrix(2, SLICE(infinite), from, 1, to, 1, now.b, 1), "infinite transfer factors");
    computed(jeturipe_lodf_matrix(2, SLICE(wide), SLICE(from), SLICE(to), SLICE(now.b)), 0, "transfer factors that overflow");
    computed(jeturipe_lodf_matrix(2, SLICE(steep), SLICE(from), SLICE(to), SLICE(now.b)), 0, "a quotient that overflows");
    computed(jeturipe_lodf_matrix(3, SLICE(own), SLICE(from), SLICE(apart), SLICE(now.b)), 0, "a divisor alone that overflows");
    no_flag_of_a_division();
    expect(jeturipe_lodf_matrix(2, wide, 2, from, 1, to, 1, now.b, 1) == 0 && now.b[0] == -1, "a lone branch, which computes nothing");
    expect(jeturipe_build_b_bus(2, from, 1, to, 1, SLICE(x), SLICE(now.b)) == 0 && now.b[0] == 1 / DBL_MAX, "the largest reactance");
}

int main(void) {
    single_numbers();
    systems();
    reducers();
    impedances();
    studies();
    rei_equivalents();
    branches();
    if (!failed)
        printf("finite: what is not finite is refused, and all is as it was\n");
    return failed;
}
