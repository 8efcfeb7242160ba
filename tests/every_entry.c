/* Calls every entry with memory as malloc gives it for all that it writes, and hands what an accepted call left to the kernel: valgrind tells
 * of an entry that uses what it did not write, and of an output that it left unwritten. */
#include "every_entry.h"

#include <fcntl.h>
#include <stdio.h>
#include <unistd.h>

static int handed_on(const Slice *w) {
    int null = open("/dev/null", O_WRONLY), all = null >= 0;
    for (int i = 0; i < WRITTEN; i++)
        all &= write(null, w[i].at, w[i].count * w[i].size) >= 0;
    close(null);
    return all;
}

static int answered(const Entry *entry, uint32_t expected) {
    Slice w[WRITTEN];
    lend(entry, expected, w);
    fprintf(stderr, "every_entry: jeturipe_%s, to be answered with %u\n", entry->name, (unsigned)expected);
    int ok = entry->call(w) == expected && (expected != JETURIPE_DONE || handed_on(w));
    take_back(w);
    return ok;
}

int main(void) {
    return !every_entry(answered);
}
