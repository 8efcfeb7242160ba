/* Buses by number: rows that have other numbers, a list numbered from 1, makings that are refused for their numbers, and every kind of damaged
 * record. */
#include "room.h"

static const uint32_t FROM_0[2] = {0, 1}, FROM_1[2] = {1, 2}, TURNED[2] = {1, 0}, TWICE[2] = {7, 7};
static const uint32_t MANY[JETURIPE_LIMIT + 1];

static int left(double admittance, uint32_t bus) {
    return active() == 0 && now.count == 1 && now.buses[0] == bus && now.buses[1] == 0 && now.y[0] == admittance;
}

/* M without its first row is 1.0, without its second 0.5. */
static void removed_by_number(void) {
    static const uint32_t list[1] = {1}, wide[2] = {4294967295, 0};
    make(M, TURNED);
    expect(removal(1) == 0 && left(1, 0), "numbers 1, 0: without bus 1 bus 0 is left with 1.0");
    make(M, TURNED);
    expect(removals(SLICE(list)) == 0 && now.count == 1 && left(1, 0), "the same by a list");
    make(M, wide);
    expect(removal(0) == 0 && left(0.5, 4294967295), "numbers 2^32 - 1, 0: without bus 0");
    make(M, TURNED);
    expect(impedance(1, 1) == 0 && now.z_re == 0, "numbers 1, 0: the impedance between bus 1 and itself");
    expect(impedance(1, 0) == 0 && now.z_re == 1, "numbers 1, 0: the impedance between the buses");
}

/* Ward's study of M with 50 MW at the external bus. */
static uint32_t ward(const uint32_t *numbers, size_t len, uint32_t boundary, uint32_t external) {
    static const double p[1] = {50}, q[1] = {0};
    return jeturipe_ward_compute(2, SLICE(M), numbers, len, &boundary, 0, &external, 1, &boundary, 1, 100, SLICE(p), SLICE(q),
                                 JETURIPE_UNLIMITED, SLICE(now.y_ward), SLICE(now.p_ward), SLICE(now.q_ward), now.work, 6,
                                 &now.original, &now.equivalent, &now.ratio, &now.reduced);
}

static uint32_t extended(const uint32_t *numbers, size_t len, uint32_t boundary, uint32_t external) {
    static const double p[1] = {50}, q[1] = {0}, v[1] = {1};
    return jeturipe_ward_compute_extended(2, SLICE(M), numbers, len, &boundary, 0, &external, 1, &boundary, 1, 100, SLICE(p), SLICE(q),
                                          SLICE(v), JETURIPE_UNLIMITED, SLICE(now.y_ward), SLICE(now.p_ward), SLICE(now.q_ward), now.x, 1,
                                          now.b, 1, now.work, 6, &now.original, &now.equivalent, &now.ratio, &now.reduced);
}

static int equivalent(double admittance, double p) {
    return now.y_ward[0] == admittance && now.p_ward[0] == p && now.original == 2 && now.equivalent == 1;
}

static void studied_by_number(void) {
    make(M, TURNED);
    expect(ward(SLICE(TURNED), 1, 0) == 0 && equivalent(0.5, 25), "numbers 1, 0: boundary 1, external 0");
    expect(ward(SLICE(TURNED), 0, 1) == 0 && equivalent(1, 50), "numbers 1, 0: boundary 0, external 1");
    expect(extended(SLICE(TURNED), 1, 0) == 0 && equivalent(0.5, 25), "extended, numbers 1, 0: boundary 1, external 0");
}

/* The customer's lists were numbered from 1. */
static void numbered_from_1(void) {
    make(M, FROM_0);
    refused(ward(SLICE(FROM_0), 1, 2), JETURIPE_NO_SUCH_BUS, "numbers 0, 1: Ward with boundary 1, external 2");
    refused(extended(SLICE(FROM_0), 1, 2), JETURIPE_NO_SUCH_BUS, "numbers 0, 1: extended with boundary 1, external 2");
    refused(removal(2), JETURIPE_NOT_ACTIVE, "numbers 0, 1: without bus 2");
    refused(impedance(1, 2), JETURIPE_NOT_ACTIVE, "numbers 0, 1: the impedance to bus 2");
    before.count = 0;
    refused(removals(FROM_1 + 1, 1), JETURIPE_NOT_ACTIVE, "numbers 0, 1: a list of bus 2");
    expect(ward(SLICE(FROM_1), 1, 2) == 0 && equivalent(0.5, 25), "numbers 1, 2: boundary 1, external 2");
    make(M, FROM_1);
    expect(removal(2) == 0 && left(0.5, 1), "numbers 1, 2: without bus 2 bus 1 is left with 0.5");
}

static uint32_t making(const uint32_t *numbers, size_t len) {
    return jeturipe_kron_new(2, SLICE(now.y), numbers, len, SLICE(now.rec));
}

static void refused_makings(void) {
    make(M, FROM_0);
    refused(making(SLICE(TWICE)), JETURIPE_BUS_TWICE, "a reducer of buses 7, 7");
    refused(making(MANY, 1), JETURIPE_WRONG_LENGTH, "a reducer with one number");
    refused(making(MANY, 3), JETURIPE_WRONG_LENGTH, "a reducer with three numbers");
    refused(making(SLICE(MANY)), JETURIPE_TOO_MANY, "a reducer with 257 numbers");
    refused(jeturipe_kron_new(2, now.y, 7, SLICE(TWICE), SLICE(now.rec)), JETURIPE_WRONG_LENGTH, "buses 7, 7 and a short matrix");
    refused(jeturipe_kron_new(2, SLICE(now.y), SLICE(MANY), now.rec, JETURIPE_RECORD - 1), JETURIPE_TOO_MANY, "257 numbers and a short record");
    refused(jeturipe_kron_new(2, SLICE(now.y), SLICE(FROM_0), now.rec, JETURIPE_RECORD - 1), JETURIPE_WRONG_LENGTH, "a short record");
}

static void refused_studies(uint32_t (*study)(const uint32_t *, size_t, uint32_t, uint32_t)) {
    static const uint32_t zeros[2];
    make(M, FROM_0);
    refused(study(SLICE(TWICE), 7, 8), JETURIPE_NO_SUCH_BUS, "a study of buses 7, 7 with bus 8");
    refused(study(SLICE(TWICE), 7, 7), JETURIPE_BUS_TWICE, "a study of buses 7, 7");
    refused(study(SLICE(zeros), 0, 0), JETURIPE_BUS_TWICE, "a study of buses 0, 0");
    refused(study(SLICE(FROM_0), 1, 1), JETURIPE_BUS_TWICE, "a study with bus 1 on both sides");
    refused(study(FROM_0, 1, 0, 1), JETURIPE_WRONG_LENGTH, "a study with one number");
    refused(study(MANY, 3, 0, 1), JETURIPE_WRONG_LENGTH, "a study with three numbers");
    refused(study(SLICE(MANY), 0, 1), JETURIPE_TOO_MANY, "a study with 257 numbers");
}

/* ---- damaged records: of a sound one of two buses a byte is changed */

enum { SIZE = 0, PRESENT = 8, ROWS = 16, NUMBERS = ROWS + JETURIPE_LIMIT };

static const struct {
    const char *kind;
    size_t at;
    uint8_t byte;
} DAMAGES[] = {
    {"a number twice", NUMBERS, 1},
    {"a number behind the numbers", NUMBERS + 8, 1},
    {"a number in the last place", JETURIPE_RECORD - 1, 1},
    {"rows that do not rise", ROWS, 1},
    {"a row not below the size at making", ROWS + 1, 2},
    {"the highest row", ROWS + 1, 255},
    {"more buses than rows", PRESENT, 3},
    {"fewer buses than rows", PRESENT, 1},
    {"more buses than the limit", PRESENT + 1, 1},
    {"a row behind the rows", ROWS + 2, 1},
    {"a row in the last place", NUMBERS - 1, 1},
};

static void refused_calls(const char *kind) {
    refused(active(), JETURIPE_BAD_RECORD, kind);
    refused(present_rows(), JETURIPE_BAD_RECORD, kind);
    refused(impedance(0, 1), JETURIPE_BAD_RECORD, kind);
    refused(removal(1), JETURIPE_BAD_RECORD, kind);
    refused(removals(FROM_1, 1), JETURIPE_BAD_RECORD, kind);
}

static void damaged_records(void) {
    for (size_t i = 0; i < sizeof DAMAGES / sizeof DAMAGES[0]; i++) {
        make(M, FROM_0);
        now.rec[DAMAGES[i].at] = DAMAGES[i].byte;
        hold();
        refused_calls(DAMAGES[i].kind);
    }
    make(M, FROM_0);
    now.rec[SIZE + 1] = 1;
    hold();
    refused(removal(1), JETURIPE_TOO_MANY, "a record made of 258 buses");
}

int main(void) {
    removed_by_number();
    studied_by_number();
    numbered_from_1();
    refused_makings();
    refused_studies(ward);
    refused_studies(extended);
    damaged_records();
    if (!failed)
        printf("numbered: every bus is the one with its number, and what has none is refused\n");
    return failed;
}
