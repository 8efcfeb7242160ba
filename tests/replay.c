/* Makes recorded calls again through the C entries: replay FILE.. prints of each file how many agree, in the number answered and in every byte
 * of every slice, those that are only read too. Numbers, words and bus numbers go from their bytes into an aligned room and back by the
 * entries' own conversions. */
#include "jeturipe.h"
#include "recorded.h"

#include <stdio.h>

enum { FUNCTIONS = 29, SLICES = 18 };

/* The slices of each entry as the header has them: n numbers, w words, u bus numbers, b bytes, in capitals where it may write them; x one
 * number and k one word that it answers, by pointer. */
static const char *const SHAPES[FUNCTIONS + 1] = {
    "",
    "bN", "nB", "bW", "wB", "bU", "uB",
    "xx", "xx", "xx", "xx", "xx", "xx", "x", "x", "x",
    "nnNNk", "nNN",
    "nuB", "BN", "BNuk", "bUk", "bnN", "bnNxx",
    "nuuuunnNNNNkkxk", "nuuuunnnNNNNNNkkxk", "wwnnnWNWNkxxxk",
    "wWk", "wwnN", "nwwN",
};

/* A slice in bytes, which go back and forth; its room, and what that held before the call; and the bytes that must come back. */
typedef struct {
    char kind;
    Slice bytes, room, before, left;
} Lent;

static int is(const Lent *l, const char *kinds) { return strchr(kinds, l->kind) != NULL; }

#define W(i) h->whole[i]
#define R(i) h->real[i]
#define BYTES(i) l[i].bytes.at, l[i].bytes.len
#define NUMBER(i) (double *)(void *)l[i].room.at
#define NUMBERS(i) NUMBER(i), l[i].room.len / 8
#define WORD(i) (size_t *)(void *)l[i].room.at
#define WORDS(i) WORD(i), l[i].room.len / 8
#define BUSES(i) (uint32_t *)(void *)l[i].room.at, l[i].room.len / 4

static uint32_t on_numbers(const Head *h, const Lent *l) {
    switch (h->function) {
    case 1: return jeturipe_numbers_of_bytes(BYTES(0), NUMBERS(1));
    case 2: return jeturipe_bytes_of_numbers(NUMBERS(0), BYTES(1));
    case 3: return jeturipe_words_of_bytes(BYTES(0), WORDS(1));
    case 4: return jeturipe_bytes_of_words(WORDS(0), BYTES(1));
    case 5: return jeturipe_bus_numbers_of_bytes(BYTES(0), BUSES(1));
    case 6: return jeturipe_bytes_of_bus_numbers(BUSES(0), BYTES(1));
    case 7: return jeturipe_cadd(R(0), R(1), R(2), R(3), NUMBER(0), NUMBER(1));
    case 8: return jeturipe_csub(R(0), R(1), R(2), R(3), NUMBER(0), NUMBER(1));
    case 9: return jeturipe_cmul(R(0), R(1), R(2), R(3), NUMBER(0), NUMBER(1));
    case 10: return jeturipe_cdiv(R(0), R(1), R(2), R(3), NUMBER(0), NUMBER(1));
    case 11: return jeturipe_cneg(R(0), R(1), NUMBER(0), NUMBER(1));
    case 12: return jeturipe_complex_inv(R(0), R(1), NUMBER(0), NUMBER(1));
    case 13: return jeturipe_abs(R(0), NUMBER(0));
    case 14: return jeturipe_sqrt(R(0), NUMBER(0));
    default: return jeturipe_magnitude(R(0), R(1), NUMBER(0));
    }
}

static uint32_t on_slices(const Head *h, const Lent *l) {
    switch (h->function) {
    case 16: return jeturipe_solve_linear(W(0), NUMBERS(0), NUMBERS(1), W(1), NUMBERS(2), NUMBERS(3), WORD(4));
    case 17: return jeturipe_complex_matrix_inverse(W(0), NUMBERS(0), NUMBERS(1), NUMBERS(2));
    case 18: return jeturipe_kron_new(W(0), NUMBERS(0), BUSES(1), BYTES(2));
    case 19: return jeturipe_eliminate_bus(BYTES(0), NUMBERS(1), (uint32_t)W(0));
    case 20: return jeturipe_eliminate_buses(BYTES(0), NUMBERS(1), BUSES(2), WORD(3));
    case 21: return jeturipe_active_buses(BYTES(0), BUSES(1), WORD(2));
    case 22: return jeturipe_reduced_matrix(BYTES(0), NUMBERS(1), NUMBERS(2));
    case 23:
        return jeturipe_thevenin_impedance(BYTES(0), NUMBERS(1), (uint32_t)W(0), (uint32_t)W(1), NUMBERS(2), NUMBER(3), NUMBER(4));
    case 24:
        return jeturipe_ward_compute(W(0), NUMBERS(0), BUSES(1), BUSES(2), BUSES(3), BUSES(4), R(0), NUMBERS(5), NUMBERS(6), W(1), NUMBERS(7),
                                     NUMBERS(8), NUMBERS(9), NUMBERS(10), WORD(11), WORD(12), NUMBER(13), WORD(14));
    case 25:
        return jeturipe_ward_compute_extended(W(0), NUMBERS(0), BUSES(1), BUSES(2), BUSES(3), BUSES(4), R(0), NUMBERS(5), NUMBERS(6),
                                              NUMBERS(7), W(1), NUMBERS(8), NUMBERS(9), NUMBERS(10), NUMBERS(11), NUMBERS(12), NUMBERS(13),
                                              WORD(14), WORD(15), NUMBER(16), WORD(17));
    case 26:
        return jeturipe_rei_compute(WORDS(0), WORDS(1), NUMBERS(2), NUMBERS(3), NUMBERS(4), W(0), WORDS(5), NUMBERS(6), WORDS(7), NUMBERS(8),
                                    WORD(9), NUMBER(10), NUMBER(11), NUMBER(12), WORD(13));
    case 27: return jeturipe_retained_buses(W(0), WORDS(0), WORDS(1), WORD(2));
    case 28: return jeturipe_build_b_bus(W(0), WORDS(0), WORDS(1), NUMBERS(2), NUMBERS(3));
    default: return jeturipe_lodf_matrix(W(0), NUMBERS(0), WORDS(1), WORDS(2), NUMBERS(3));
    }
}

/* Fills the room, with NaNs of several patterns, and makes the bytes those that come back where it is held; 0 where they do not fit. */
static int enter(Lent *l) {
    size_t len = l->bytes.len;
    int fits = is(l, "bB") || (is(l, "xk") ? len == 8 : len % (is(l, "uU") ? 4 : 8) == 0);
    /* aligned for its elements and no further */
    l->room = within(is(l, "bB") ? 0 : len, is(l, "uU") ? 4 : 0);
    l->before = within(l->room.len, 0);
    if (fits && is(l, "wWk"))
        fits = jeturipe_words_of_bytes(BYTES(0), WORDS(0)) == 0;
    if (fits && is(l, "uU"))
        fits = jeturipe_bus_numbers_of_bytes(BYTES(0), BUSES(0)) == 0;
    if (fits && is(l, "nNx")) {
        fits = jeturipe_numbers_of_bytes(BYTES(0), NUMBERS(0)) == 0;
        vary(&l->room);
        plain(&l->bytes);
    }
    memcpy(l->before.at, l->room.at, l->room.len);
    return fits;
}

/* After the call: the bytes must come back as recorded, and a room that is only read, or held by a refusal, must have its bits. */
static int leave(Lent *l, uint64_t outcome) {
    int held = (is(l, "nwub") || outcome) && same(&l->bytes, &l->left);
    int agrees = 1;
    for (size_t i = 0; i < l->room.len; i++)
        l->bytes.at[i] ^= 0xff;
    if (is(l, "wWk"))
        agrees = jeturipe_bytes_of_words(WORDS(0), BYTES(0)) == 0;
    if (is(l, "uU"))
        agrees = jeturipe_bytes_of_bus_numbers(BUSES(0), BYTES(0)) == 0;
    if (is(l, "nNx"))
        agrees = jeturipe_bytes_of_numbers(NUMBERS(0), BYTES(0)) == 0;
    agrees &= edges_held(&l->room) && (!held || same(&l->room, &l->before));
    return agrees && edges_held(&l->bytes) && same(&l->bytes, &l->left);
}

static void give_back(const Lent *l) {
    free(l->bytes.buffer);
    free(l->room.buffer);
    free(l->before.buffer);
    free(l->left.buffer);
}

/* Reads a case's slices, each at another alignment: the written ones, those that are only read, the written ones after the call. What is only
 * read comes back as it stands there. */
static void slices(Reader *r, const char *shape, size_t turn, Lent *l) {
    for (size_t i = 0; shape[i]; i++) {
        l[i].kind = shape[i];
        if (!is(&l[i], "nwub"))
            l[i].bytes = slice(r, (turn + i) % 8);
    }
    for (size_t i = 0; shape[i]; i++)
        if (is(&l[i], "nwub")) {
            Reader again = *r;
            l[i].bytes = slice(r, (turn + i) % 8);
            l[i].left = slice(&again, 0);
            if (l[i].kind == 'n')
                plain(&l[i].left);
        }
    for (size_t i = 0; shape[i]; i++)
        if (!is(&l[i], "nwub"))
            l[i].left = slice(r, 0);
}

static int case_agrees(Reader r, size_t turn) {
    Lent l[SLICES];
    Head h = head(&r);
    if (r.cut_off || h.function < 1 || h.function > FUNCTIONS)
        return 0;
    const char *shape = SHAPES[h.function];
    slices(&r, shape, turn, l);
    int agrees = !r.cut_off && r.at == r.end;
    for (size_t i = 0; shape[i]; i++)
        agrees &= enter(&l[i]);
    if (agrees)
        agrees = (h.function < 16 ? on_numbers(&h, l) : on_slices(&h, l)) == h.outcome;
    for (size_t i = 0; shape[i]; i++) {
        agrees = agrees && leave(&l[i], h.outcome);
        give_back(&l[i]);
    }
    return agrees;
}

/* The cases of a file, read whole; 1 where all of them agree. */
static int replay(const char *name, Reader r) {
    uint64_t count = word(&r), agree = 0;
    for (uint64_t i = 0; i < count && !r.cut_off; i++) {
        size_t len = word(&r);
        const uint8_t *bytes = take(&r, len);
        if (bytes)
            agree += case_agrees((Reader){bytes, bytes + len, 0}, i);
    }
    printf("%s: %llu of %llu agree\n", name, (unsigned long long)agree, (unsigned long long)count);
    return agree == count && !r.cut_off && r.at == r.end;
}

int main(int argc, char **argv) {
    static uint8_t bytes[MOST];
    int failed = 0;
    for (int i = 1; i < argc; i++) {
        FILE *file = fopen(argv[i], "rb");
        if (!file) {
            perror(argv[i]);
            return 1;
        }
        size_t len = fread(bytes, 1, sizeof bytes, file);
        fclose(file);
        failed |= !replay(argv[i], (Reader){bytes, bytes + len, 0});
    }
    return failed;
}
