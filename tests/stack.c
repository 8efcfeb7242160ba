/* The stack that the entries take at the most buses, by threads on painted stacks: below 64 KB each, for an accepted call and a refused one.
 * With an argument it tells what each call takes. */
#define _GNU_SOURCE
#include "every_entry.h"

#include <pthread.h>
#include <stdio.h>
#include <sys/mman.h>

enum { LIMIT = 64 * 1024, WIDE = 1024 * 1024, PAINT = 0xa5 };

typedef struct {
    const Entry *entry;
    Slice written[WRITTEN];
    uint32_t answer;
} Call;

static uint32_t no_call(const Slice *w) {
    (void)w;
    return JETURIPE_DONE;
}

static void *made(void *call) {
    Call *c = call;
    c->answer = c->entry->call(c->written);
    return NULL;
}

/* The bytes of a stack of this size that a call's thread uses, its own among them. What lies below may not be touched. */
static size_t used(Call *call, size_t size) {
    uint8_t *guard = mmap(NULL, 2 * size, PROT_NONE, MAP_PRIVATE | MAP_ANONYMOUS, -1, 0);
    if (guard == MAP_FAILED || mprotect(guard + size, size, PROT_READ | PROT_WRITE) != 0)
        abort();
    uint8_t *stack = memset(guard + size, PAINT, size);
    pthread_attr_t attributes;
    pthread_t thread;
    if (pthread_attr_init(&attributes) != 0 || pthread_attr_setstack(&attributes, stack, size) != 0)
        abort();
    if (pthread_create(&thread, &attributes, made, call) != 0 || pthread_join(thread, NULL) != 0)
        abort();
    size_t painted = 0;
    while (painted < size && stack[painted] == PAINT)
        painted++;
    munmap(guard, 2 * size);
    return size - painted;
}

/* What a call takes above a bare thread. It is then made on a stack of the limit's size too, if it takes less. */
static size_t taken(Call *call) {
    static const Entry bare = {"no entry", no_call, {{0, 0, NULL}}};
    Call none = {&bare, {{0, 0, NULL}}, 0};
    made(call); /* so that the symbols it needs are bound */
    size_t own = used(&none, WIDE), whole = used(call, WIDE);
    if (whole >= own + LIMIT)
        return whole - own;
    used(call, LIMIT);
    return whole > own ? whole - own : 0;
}

static size_t most = 0;
static const char *largest = "none";
static int tells_each = 0;

static int stays_below(const Entry *entry, uint32_t expected) {
    Call call = {entry, {{0, 0, NULL}}, 0};
    lend(entry, expected, call.written);
    size_t bytes = taken(&call);
    take_back(call.written);
    if (bytes > most) {
        most = bytes;
        largest = entry->name;
    }
    if (tells_each)
        printf("%7zu bytes, jeturipe_%s, answered with %u\n", bytes, entry->name, (unsigned)call.answer);
    if (call.answer != expected)
        printf("stack: jeturipe_%s: answered with %u, not %u\n", entry->name, (unsigned)call.answer, (unsigned)expected);
    return call.answer == expected && bytes < LIMIT;
}

int main(int count, char **arguments) {
    (void)arguments;
    tells_each = count > 1;
    int all = every_entry(stays_below);
    printf("stack: %zu bytes at most, by jeturipe_%s at %d buses%s\n", most, largest, N, most < LIMIT ? "" : ": 64 KB or more");
    return !all;
}
