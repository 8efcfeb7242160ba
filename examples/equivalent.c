/* Buses 101 and 205: bus 205 is taken out by a Kron reducer and by a Ward study, and each refuses a wrong call.
 *
 *     cc -Iinclude examples/equivalent.c crates/entries/out/libentries.a -o equivalent
 */
#include "jeturipe.h"

#include <stdio.h>
#include <stdlib.h>
#include <string.h>

/* An array as a slice: its pointer and the count of its elements. */
#define SLICE(a) (a), sizeof(a) / sizeof((a)[0])

/* Admittances in per unit, real then imaginary, row after row: 1, -1 / -1, 2. */
static const double M[8] = {1, 0, -1, 0, -1, 0, 2, 0};

/* The rows' buses, by the numbers on the drawing. */
static const uint32_t NUMBERS[2] = {101, 205};

static const char *meaning(uint32_t refusal) {
    switch (refusal) {
    case JETURIPE_TOO_MANY: return "more than 256 buses, branches or elements of a list";
    case JETURIPE_WRONG_LENGTH: return "a slice is not of its exact length, or there is not a number for each row";
    case JETURIPE_LISTS_DIFFER: return "lists that belong together differ in length";
    case JETURIPE_NO_BUS: return "an REI equivalent of no bus";
    case JETURIPE_EMPTY_SYSTEM: return "a system of size 0, or a right side of another length";
    case JETURIPE_NO_SUCH_END: return "a branch ends at a bus that is not there (here buses are rows, from 0)";
    case JETURIPE_NO_SUCH_BUS: return "a Ward list names a bus that is none of the study's numbers";
    case JETURIPE_BUS_TWICE: return "two rows have one number, or a bus stands twice in the Ward lists";
    case JETURIPE_BAD_RECORD: return "the record is none that a making or a removal leaves";
    case JETURIPE_NOT_ACTIVE: return "the reducer has no such bus, or it was removed";
    case JETURIPE_SMALL_ENTRY: return "the bus's own admittance is too small to divide by";
    case JETURIPE_SINGULAR: return "a pivot is numerically nothing, below 1e-150 in size";
    case JETURIPE_BEYOND_ALLOWANCE: return "the work takes more row reductions than are allowed";
    case JETURIPE_GIVEN_NOT_FINITE: return "a number handed in is infinite or NaN";
    case JETURIPE_COMPUTED_NOT_FINITE: return "a number computed is infinite or NaN";
    default: return "not a refusal of this library";
    }
}

static void print_refusal(uint32_t number) {
    printf("  refused with %u: %s\n", (unsigned)number, meaning(number));
}

/* Ends the program where a call was refused. */
static void carried_out(uint32_t answer) {
    if (answer != JETURIPE_DONE) {
        print_refusal(answer);
        exit(EXIT_FAILURE);
    }
}

/* Ends the program where a call was not refused. */
static void refused(uint32_t answer) {
    if (answer == JETURIPE_DONE) {
        fprintf(stderr, "a call was carried out that should be refused\n");
        exit(EXIT_FAILURE);
    }
    print_refusal(answer);
}

static void remove_bus_205(void) {
    double y[8];
    uint8_t rec[JETURIPE_RECORD];
    uint32_t buses[2];
    size_t count;
    memcpy(y, M, sizeof y);
    carried_out(jeturipe_kron_new(2, SLICE(y), SLICE(NUMBERS), SLICE(rec)));
    printf("Bus 205 is removed:\n");
    carried_out(jeturipe_eliminate_bus(SLICE(rec), SLICE(y), 205));
    carried_out(jeturipe_active_buses(SLICE(rec), SLICE(buses), &count));
    for (size_t row = 0; row < count; row++) {
        const double *own = &y[2 * (row * count + row)];
        printf("  bus %u is left, its admittance is %g + j%g per unit\n", (unsigned)buses[row], own[0], own[1]);
    }
    printf("Bus 205 is removed again:\n");
    refused(jeturipe_eliminate_bus(SLICE(rec), SLICE(y), 205));
}

typedef struct {
    double y[2];                 /* per unit */
    double p[1], q[1];           /* MW and MVAr fed in at the boundary bus */
    size_t original, equivalent; /* buses */
    double ratio;
    size_t reduced; /* rows */
} Equivalent;

static uint32_t ward(uint32_t boundary, uint32_t external, Equivalent *e) {
    const double p_ext[1] = {50}, q_ext[1] = {0}; /* MW, MVAr */
    double work[6];                               /* 2 e (e + r + 1), with e = 1 external and r = 1 retained bus */
    return jeturipe_ward_compute(
        2, SLICE(M), SLICE(NUMBERS),
        &boundary, 0, /* no internal bus; the pointer is not null all the same */
        &external, 1,
        &boundary, 1,
        100, /* MVA */
        SLICE(p_ext), SLICE(q_ext),
        JETURIPE_UNLIMITED, /* of row reductions; JETURIPE_WARD_ROWS(1, 1) would do */
        SLICE(e->y), SLICE(e->p), SLICE(e->q), SLICE(work),
        &e->original, &e->equivalent, &e->ratio, &e->reduced);
}

int main(void) {
    Equivalent e;
    remove_bus_205();
    printf("Ward study, boundary bus 101, external bus 205 with 50 MW and 0 MVAr, base 100 MVA:\n");
    carried_out(ward(101, 205, &e));
    printf("  admittance of bus 101: %g + j%g per unit\n", e.y[0], e.y[1]);
    printf("  fed in at bus 101: %g MW and %g MVAr\n", e.p[0], e.q[0]);
    printf("  %zu buses become %zu, reduction ratio %g, rows reduced: %zu\n", e.original, e.equivalent, e.ratio, e.reduced);
    printf("The same study, its buses counted from 1, boundary bus 1, external bus 2:\n");
    refused(ward(1, 2, &e));
    return EXIT_SUCCESS;
}
