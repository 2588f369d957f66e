/* A memory of one global lock: an attempt holds it from its beginning to its end, so opaq says `opaque`.

     cc -std=c11 -O2 -pthread -I examples examples/memories/lock.c -o lock */

#define _POSIX_C_SOURCE 200809L /* for barriers */
#define OPAQ_RECORDER
#include "opaq.h"

enum { CELLS = 7 };
struct attempt { char unused; };

#include "rounds.h"

static pthread_mutex_t lock = PTHREAD_MUTEX_INITIALIZER;
static long cells[CELLS];

static void begin(struct attempt *it) {
    (void)it;
    pthread_mutex_lock(&lock);
}

static int read_cell(struct attempt *it, unsigned cell, long *value) {
    (void)it;
    *value = cells[cell];
    return 1;
}

static int write_cell(struct attempt *it, unsigned cell, long value) {
    (void)it;
    cells[cell] = value;
    return 1;
}

static int commit(struct attempt *it) {
    (void)it;
    pthread_mutex_unlock(&lock);
    return 1;
}
