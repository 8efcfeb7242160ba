/* The reader of recorded calls (oracle/README.md has the format). What a file lacks, or no recorder writes, marks the reader. */
#include <stdint.h>
#include <stdlib.h>
#include <string.h>

/* More bytes than a file has, and than a slice in it; bytes on both sides of a slice, which no call may change. A slice that is not shifted is
 * aligned for elements of 8 bytes and no further. */
enum { MOST = 1 << 22, EDGE = 24, FILL = 0x5c };

typedef struct {
    const uint8_t *at, *end;
    int cut_off;
} Reader;

typedef struct {
    uint64_t function, outcome, whole[2];
    double real[4];
} Head;

typedef struct {
    uint8_t *buffer, *at;
    size_t len;
} Slice;

static const uint8_t *take(Reader *r, size_t len) {
    if (r->cut_off || (size_t)(r->end - r->at) < len) {
        r->cut_off = 1;
        return NULL;
    }
    r->at += len;
    return r->at - len;
}

static uint64_t word(Reader *r) {
    const uint8_t *bytes = take(r, 8);
    uint64_t w = 0;
    for (int i = 7; bytes && i >= 0; i--)
        w = w << 8 | bytes[i];
    return w;
}

static double real(Reader *r) {
    uint64_t w = word(r);
    double x;
    memcpy(&x, &w, sizeof x);
    return x;
}

static Head head(Reader *r) {
    Head h;
    h.function = word(r);
    h.outcome = word(r);
    for (int i = 0; i < 2; i++)
        h.whole[i] = word(r);
    for (int i = 0; i < 4; i++)
        h.real[i] = real(r);
    return h;
}

/* A slice within a buffer, shifted from where it would be aligned. */
static Slice within(size_t len, size_t shift) {
    Slice s = {malloc(EDGE + shift + len + EDGE), NULL, len};
    if (!s.buffer)
        abort();
    memset(s.buffer, FILL, EDGE + shift + len + EDGE);
    s.at = s.buffer + EDGE + shift;
    return s;
}

/* By turns how many bytes come, those bytes, and how many zeros, up to the slice's length. */
static void parts(Reader *r, const Slice *s) {
    for (size_t at = 0; at < s->len && !r->cut_off;) {
        size_t count = word(r);
        const uint8_t *bytes = take(r, count);
        size_t zeros = word(r);
        r->cut_off |= count > s->len - at || zeros > s->len - at - count;
        if (!r->cut_off) {
            memcpy(s->at + at, bytes, count);
            memset(s->at + at + count, 0, zeros);
            at += count + zeros;
        }
    }
}

/* A slice is its length and 0 and its bytes, or its length and one more than the byte that it repeats, or its length and 257 and its parts. */
static Slice slice(Reader *r, size_t shift) {
    size_t len = word(r);
    uint64_t form = word(r);
    const uint8_t *bytes = form ? NULL : take(r, len);
    r->cut_off |= form > 257 || len > MOST;
    Slice s = within(r->cut_off ? 0 : len, shift);
    if (bytes)
        memcpy(s.at, bytes, s.len);
    else if (form == 257)
        parts(r, &s);
    else
        memset(s.at, (int)(form - 1), s.len);
    return s;
}

static int same(const Slice *a, const Slice *b) {
    return a->len == b->len && memcmp(a->at, b->at, a->len) == 0;
}

/* The bytes around a slice are as they were. */
static int edges_held(const Slice *s) {
    int held = 1;
    for (const uint8_t *b = s->buffer; b < s->at; b++)
        held &= *b == FILL;
    for (size_t i = 0; i < EDGE; i++)
        held &= s->at[s->len + i] == FILL;
    return held;
}

/* Bytes of numbers: every NaN in the pattern that is written, 7ff8000000000000. */
static void plain(const Slice *s) {
    static const uint8_t nan[8] = {0, 0, 0, 0, 0, 0, 0xf8, 0x7f};
    for (size_t i = 0; i + 8 <= s->len; i += 8) {
        Reader r = {s->at + i, s->at + i + 8, 0};
        double x = real(&r);
        if (x != x)
            memcpy(s->at + i, nan, sizeof nan);
    }
}

/* A room of numbers: every NaN in one of several patterns, by its place. */
static void vary(const Slice *s) {
    static const uint64_t nans[4] = {0x7ff0000000000001, 0xfff8000000000000, 0xffffffffffffffff, 0x7ff8000000000000};
    for (size_t i = 0; i + 8 <= s->len; i += 8) {
        double x;
        memcpy(&x, s->at + i, sizeof x);
        if (x != x)
            memcpy(s->at + i, &nans[i / 8 % 4], sizeof x);
    }
}
