/* The words seen of a call, and those expected of it. */
#include <inttypes.h>
#include <stdio.h>
#include <stdlib.h>
#include <string.h>

/* More words than any case has. */
enum { MOST = 1024 };

typedef struct {
    size_t count;
    uint64_t at[MOST];
} Words;

static Words seen;
static double before; /* what everything that a call writes holds before it */

static void put(uint64_t word) {
    if (seen.count == MOST)
        abort();
    seen.at[seen.count++] = word;
}

static void put_numbers(const double *numbers, size_t len) {
    for (size_t i = 0; i < len; i++) {
        uint64_t bits;
        memcpy(&bits, &numbers[i], sizeof bits);
        put(bits);
    }
}

static void set(double *numbers, size_t len) {
    for (size_t i = 0; i < len; i++)
        numbers[i] = before;
}

static void no_table(const char *why) {
    fprintf(stderr, "standard input is no table: %s\n", why);
    exit(EXIT_FAILURE);
}

/* The words of the next line. */
static Words expected(void) {
    static char line[17 * MOST + 1];
    Words words = {0};
    char *at = fgets(line, sizeof line, stdin);
    while (at && *at != '\n' && words.count < MOST)
        words.at[words.count++] = strtoull(at, &at, 16);
    if (!at || *at != '\n')
        no_table("a line of words is missing or wrong");
    return words;
}

static int same(const Words *a, const Words *b) {
    return a->count == b->count && memcmp(a->at, b->at, a->count * sizeof a->at[0]) == 0;
}

/* Numbers below 1000 and +0 as decimals, other bits in hexadecimal; from three on, k like words as k*word. */
static void print_words(const Words *words) {
    for (size_t i = 0, like; i < words->count; i += like) {
        for (like = 1; i + like < words->count && words->at[i + like] == words->at[i];)
            like++;
        printf(" ");
        if (like < 3)
            like = 1;
        else
            printf("%zu*", like);
        printf(words->at[i] < 1000 ? "%" PRIu64 : "%016" PRIx64, words->at[i]);
    }
}
