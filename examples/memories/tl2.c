/* TL2 (Dice, Shalev, Shavit 2006): a clock, and a version for each cell, odd while a commit holds it. An attempt notes the clock when it begins, and
   is aborted where it meets a later version: at each read, and at the commit, which holds what it writes. opaq says `opaque`.

     cc -std=c11 -O2 -pthread -I examples examples/memories/tl2.c -o tl2 */

#define _POSIX_C_SOURCE 200809L /* for barriers */
#define OPAQ_RECORDER
#include "opaq.h"
#include <stdatomic.h>
#include <string.h>

#ifndef VALIDATES
#define VALIDATES 1
#endif

enum { CELLS = 7 };
struct attempt { long clock, values[CELLS]; int has_read[CELLS], has_written[CELLS]; };

#include "rounds.h"

static atomic_long now, cells[CELLS], versions[CELLS];

static int is_valid(const struct attempt *it, long version) { return !VALIDATES || (version % 2 == 0 && version <= it->clock); }

static void begin(struct attempt *it) {
    memset(it, 0, sizeof *it);
    it->clock = now;
}

static int read_cell(struct attempt *it, unsigned cell, long *value) {
    *value = it->values[cell];
    if (it->has_written[cell]) return 1;
    long before = versions[cell];
    *value = cells[cell];
    it->has_read[cell] = 1;
    return is_valid(it, before) && (!VALIDATES || versions[cell] == before);
}

static int write_cell(struct attempt *it, unsigned cell, long value) {
    it->values[cell] = value;
    it->has_written[cell] = 1;
    return 1;
}

/* Gives back the cells below `end` that the attempt holds, with their old versions. */
static int give_back(const struct attempt *it, unsigned end) {
    for (unsigned cell = 0; cell < end; cell++)
        if (it->has_written[cell]) atomic_fetch_sub(&versions[cell], 1);
    return 0;
}

static int commit(struct attempt *it) {
    for (unsigned cell = 0; cell < CELLS; cell++) {
        if (!it->has_written[cell]) continue;
        long version = versions[cell];
        if (version % 2 || !atomic_compare_exchange_strong(&versions[cell], &version, version + 1)) return give_back(it, cell);
    }
    long next = atomic_fetch_add(&now, 2) + 2;
    for (unsigned cell = 0; cell < CELLS; cell++)
        if (it->has_read[cell] && !is_valid(it, versions[cell] - it->has_written[cell])) return give_back(it, CELLS);
    for (unsigned cell = 0; cell < CELLS; cell++)
        if (it->has_written[cell]) cells[cell] = it->values[cell];
    for (unsigned cell = 0; cell < CELLS; cell++)
        if (it->has_written[cell]) versions[cell] = next;
    return 1;
}
