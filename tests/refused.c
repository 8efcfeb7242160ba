/* For each refusal but 8 and 9, which tests/numbered.c has, and 19 and 20, which tests/finite.c has, a small call or more, which leaves all as it was; and what tests/two_bus.c does not ask
 * for: the active buses and the rows before and after a removal, and conversions there and back. */
#include "room.h"

static const double FLAT[8] = {1, 0, -1, 0, -1, 0, 0, 0};     /* bus 205 has no admittance of its own */
static const double FLOATING[8] = {1, 0, -1, 0, -1, 0, 1, 0}; /* singular: nothing leads to earth */
static const uint32_t NUMBERS[2] = {101, 205};

static void singular(uint32_t answer, size_t work_len, const char *call) {
    stopped(answer, JETURIPE_SINGULAR, work_len, call);
}

static void beyond(uint32_t answer, size_t work_len, const char *call) {
    stopped(answer, JETURIPE_BEYOND_ALLOWANCE, work_len, call);
}

static void before_and_after_a_removal(void) {
    make(M, NUMBERS);
    expect(active() == 0 && now.count == 2 && now.buses[0] == 101 && now.buses[1] == 205, "buses 101 and 205 before a removal");
    expect(removal(205) == 0 && active() == 0 && now.count == 1 && now.buses[0] == 101 && now.buses[1] == 0, "bus 101 after it, 0 behind");
    expect(present_rows() == 0 && memcmp(now.out, now.y, sizeof now.out) == 0, "the rows that are left");
    hold();
    refused(removal(205), JETURIPE_NOT_ACTIVE, "bus 205 again");
    refused(impedance(101, 205), JETURIPE_NOT_ACTIVE, "the impedance to a removed bus");
    refused(impedance(205, 101), JETURIPE_NOT_ACTIVE, "the impedance from a removed bus");
}

/* Stopped at their first bus, with 0 removed. */
static void lists_of_removals(void) {
    static const uint32_t absent[1] = {2}, weak[2] = {205, 101};
    make(M, NUMBERS);
    before.count = 0;
    refused(removals(SLICE(absent)), JETURIPE_NOT_ACTIVE, "a list of bus 2");
    make(FLAT, NUMBERS);
    before.count = 0;
    refused(removals(SLICE(weak)), JETURIPE_SMALL_ENTRY, "a list of a bus without admittance, and another");
}

static uint32_t ward(const double *y, uint32_t external, uint32_t boundary, size_t q_len, size_t work_len) {
    static const double p[1] = {50}, q[1] = {0};
    return jeturipe_ward_compute(2, y, 8, SLICE(NUMBERS), &external, 0, &external, 1, &boundary, 1, 100, SLICE(p), q, q_len, 0,
                                 SLICE(now.y_ward), SLICE(now.p_ward), SLICE(now.q_ward), now.work, work_len,
                                 &now.original, &now.equivalent, &now.ratio, &now.reduced);
}

static void studies(void) {
    make(M, NUMBERS);
    refused(ward(M, 205, 101, 1, 5), JETURIPE_WRONG_LENGTH, "Ward with a short work slice");
    refused(ward(M, 205, 101, 0, 6), JETURIPE_LISTS_DIFFER, "Ward without the external Q");
    refused(ward(M, 1, 0, 1, 6), JETURIPE_NO_SUCH_BUS, "Ward with rows for buses");
    refused(ward(M, 101, 101, 1, 6), JETURIPE_BUS_TWICE, "Ward with one bus on both sides");
    singular(ward(FLAT, 205, 101, 1, 6), 6, "Ward with an external bus without admittance");
}

static uint32_t solution(const double *a, size_t b_len, size_t allowance) {
    static const double b[4] = {2, 0, 0, 0};
    return jeturipe_solve_linear(2, a, 8, b, b_len, allowance, SLICE(now.x), now.work, 12, &now.reduced);
}

static void systems(void) {
    static const double a[8] = {1, 0, 1, 0, -1, 0, 1, 0};
    make(FLOATING, NUMBERS);
    refused(solution(a, 3, 0), JETURIPE_EMPTY_SYSTEM, "a right side of 3 numbers");
    refused(jeturipe_complex_matrix_inverse(0, a, 0, now.out, 0, now.work, 0), JETURIPE_EMPTY_SYSTEM, "an inverse of size 0");
    singular(impedance(101, 205), 16, "the impedance of buses without earth");
    singular(solution(FLOATING, 4, 1), 12, "a singular system");
    beyond(solution(FLOATING, 4, 0), 12, "a singular system, with no row before its second pivot");
    beyond(solution(a, 4, 1), 12, "one row of two in a system");
    singular(jeturipe_complex_matrix_inverse(2, SLICE(FLOATING), SLICE(now.out), SLICE(now.work)), 16, "a singular inverse");
}

/* 5, 1, 1 / 1, 2, 1 / 1, 1, 2 with one boundary and two external buses: two solves of two rows each. */
static uint32_t both_removed(int extended, size_t allowance) {
    static const double y[18] = {5, 0, 1, 0, 1, 0, 1, 0, 2, 0, 1, 0, 1, 0, 1, 0, 2, 0}, p[2] = {50, 0}, q[2] = {0, 25}, v[2] = {1, 1};
    static const uint32_t numbers[3] = {101, 205, 309}, *boundary = numbers, *external = numbers + 1;
    if (extended)
        return jeturipe_ward_compute_extended(3, SLICE(y), SLICE(numbers), boundary, 0, external, 2, boundary, 1, 100, SLICE(p), SLICE(q),
                                              SLICE(v), allowance, SLICE(now.y_ward), SLICE(now.p_ward), SLICE(now.q_ward), now.x, 1, now.b, 1,
                                              SLICE(now.work), &now.original, &now.equivalent, &now.ratio, &now.reduced);
    return jeturipe_ward_compute(3, SLICE(y), SLICE(numbers), boundary, 0, external, 2, boundary, 1, 100, SLICE(p), SLICE(q), allowance,
                                 SLICE(now.y_ward), SLICE(now.p_ward), SLICE(now.q_ward), SLICE(now.work),
                                 &now.original, &now.equivalent, &now.ratio, &now.reduced);
}

static void allowances(void) {
    static const double one[8] = {1, 0, 0, 0, 0, 0, 1, 0};
    for (int extended = 0; extended < 2; extended++) {
        make(M, NUMBERS);
        beyond(both_removed(extended, 3), 16, "three rows of four in a study");
        expect(both_removed(extended, 4) == 0 && now.reduced == 4 && cleared(16), "a study with an allowance of its four rows");
        expect(both_removed(extended, JETURIPE_UNLIMITED) == 0 && now.reduced == 4, "a study without an allowance");
    }
    expect(solution(one, 4, 0) == 0 && now.reduced == 0, "a system with no row to reduce");
    expect(JETURIPE_SOLVE_ROWS(0) == 0 && JETURIPE_SOLVE_ROWS(1) == 0 && JETURIPE_SOLVE_ROWS(256) == 65280, "the most rows of a solve");
    expect(JETURIPE_WARD_ROWS(3, 0) == 0 && JETURIPE_WARD_ROWS(0, 3) == 6 && JETURIPE_WARD_ROWS(1, 2) == 4, "the most rows of a study");
}

static void conversions(void) {
    static const double numbers[4] = {1, 0, -1, 0};
    static const size_t words[4] = {1, 256, 0, 2};
    static const uint32_t buses[4] = {1, 256, 0, 4294967295};
    expect(jeturipe_bytes_of_numbers(SLICE(numbers), SLICE(now.bytes)) == 0, "bytes of numbers");
    expect(now.bytes[5] == 0 && now.bytes[6] == 0xf0 && now.bytes[7] == 0x3f && now.bytes[23] == 0xbf, "1 and -1 in bytes");
    expect(jeturipe_numbers_of_bytes(SLICE(now.bytes), SLICE(now.x)) == 0, "numbers of bytes");
    expect(memcmp(now.x, numbers, sizeof numbers) == 0, "numbers to bytes and back");
    expect(jeturipe_bytes_of_words(SLICE(words), SLICE(now.bytes)) == 0, "bytes of whole numbers");
    expect(now.bytes[0] == 1 && now.bytes[8] == 0 && now.bytes[9] == 1 && now.bytes[24] == 2, "1, 256, 0, 2 in bytes");
    expect(jeturipe_words_of_bytes(SLICE(now.bytes), SLICE(now.words)) == 0, "whole numbers of bytes");
    expect(memcmp(now.words, words, sizeof words) == 0, "whole numbers to bytes and back");
    expect(jeturipe_bytes_of_bus_numbers(SLICE(buses), now.bytes, 16) == 0, "bytes of bus numbers");
    expect(now.bytes[0] == 1 && now.bytes[4] == 0 && now.bytes[5] == 1 && now.bytes[15] == 255, "1, 256, 0, 2^32 - 1 in bytes");
    expect(jeturipe_bus_numbers_of_bytes(now.bytes, 16, SLICE(now.numbers)) == 0, "bus numbers of bytes");
    expect(memcmp(now.numbers, buses, sizeof buses) == 0, "bus numbers to bytes and back");
    hold();
    refused(jeturipe_numbers_of_bytes(now.bytes, 31, SLICE(now.x)), JETURIPE_WRONG_LENGTH, "4 numbers of 31 bytes");
    refused(jeturipe_bytes_of_numbers(numbers, 3, SLICE(now.bytes)), JETURIPE_WRONG_LENGTH, "32 bytes of 3 numbers");
    refused(jeturipe_words_of_bytes(now.bytes, 24, SLICE(now.words)), JETURIPE_WRONG_LENGTH, "4 whole numbers of 24 bytes");
    refused(jeturipe_bytes_of_words(SLICE(words), now.bytes, 31), JETURIPE_WRONG_LENGTH, "31 bytes of 4 whole numbers");
    refused(jeturipe_bus_numbers_of_bytes(now.bytes, 15, SLICE(now.numbers)), JETURIPE_WRONG_LENGTH, "4 bus numbers of 15 bytes");
    refused(jeturipe_bytes_of_bus_numbers(SLICE(buses), SLICE(now.bytes)), JETURIPE_WRONG_LENGTH, "32 bytes of 4 bus numbers");
}

static void lengths(void) {
    static const uint32_t list[JETURIPE_LIMIT + 1];
    make(M, NUMBERS);
    refused(jeturipe_kron_new(257, SLICE(now.y), SLICE(NUMBERS), SLICE(now.rec)), JETURIPE_TOO_MANY, "a reducer of 257 buses");
    refused(removals(SLICE(list)), JETURIPE_TOO_MANY, "a list of 257 removals");
    refused(jeturipe_eliminate_bus(now.rec, JETURIPE_RECORD - 1, SLICE(now.y), 101), JETURIPE_WRONG_LENGTH, "a short record");
    refused(jeturipe_eliminate_buses(now.rec, JETURIPE_RECORD - 1, SLICE(now.y), SLICE(list), &now.count), JETURIPE_TOO_MANY, "257 removals from a short record");
    refused(jeturipe_active_buses(SLICE(now.rec), now.buses, 1, &now.count), JETURIPE_WRONG_LENGTH, "one place for two buses");
}

static void branches(void) {
    static const size_t from[1] = {1}, to[1] = {2};
    static const double x[1] = {0.1}, ptdf[2] = {0.5, -0.5};
    make(M, NUMBERS);
    refused(jeturipe_build_b_bus(2, SLICE(from), to, 0, SLICE(x), SLICE(now.b)), JETURIPE_LISTS_DIFFER, "a branch with one end");
    refused(jeturipe_build_b_bus(2, SLICE(from), SLICE(to), SLICE(x), SLICE(now.b)), JETURIPE_NO_SUCH_END, "ends numbered from 1");
    refused(jeturipe_lodf_matrix(2, SLICE(ptdf), SLICE(from), SLICE(to), now.b, 1), JETURIPE_NO_SUCH_END, "an outage by such");
    refused(jeturipe_retained_buses(257, SLICE(from), SLICE(now.rows), &now.count), JETURIPE_TOO_MANY, "what is left of 257 buses");
    refused(jeturipe_rei_compute(from, 0, to, 0, M, 0, x, 0, x, 0, 9, now.rows, 0, now.x, 0, now.words, 0, now.y, 0, &now.bus,
                                 &now.voltage, &now.p, &now.q, &now.ties),
            JETURIPE_NO_BUS, "REI of no bus");
}

int main(void) {
    before_and_after_a_removal();
    lists_of_removals();
    studies();
    systems();
    allowances();
    conversions();
    lengths();
    branches();
    if (!failed)
        printf("refused: each with its number, and all is as it was\n");
    return failed;
}
