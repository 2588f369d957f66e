/* GCC's libitm, in rounds. opaq says `opaque`.

     gcc -O2 -fgnu-tm -pthread -I examples examples/memories/itm.c -o itm
     ./itm [SEED [THREADS [ROUNDS [BLOCKS]]]] > run.jsonl

   ITM_DEFAULT_METHOD=ml_wt, gl_wt, serialirr and so on chooses the method of libitm. The closing transaction is the header's: it is handed the
   registers as they are while no transaction runs. */

#define OPAQ_RECORDER
#include "opaq.h"
#include <pthread.h>

enum { CELLS = 8, THREADS_MOST = 64 };

static long cells[CELLS]; /* what the transactions share */
static unsigned long start = 1, threads = 4, rounds = 10, blocks = 40;
static pthread_barrier_t meeting;
static int has_all = 1;
static _Thread_local unsigned long drawn_last;
static _Thread_local long written;

static OPAQ_OUTSIDE unsigned long drawn(unsigned long below) {
    drawn_last = drawn_last * 6364136223846793005u + 1442695040888963407u;
    return (drawn_last >> 33) % below;
}

static OPAQ_OUTSIDE long fresh(void) { return ++written; }

static OPAQ_OUTSIDE void pause_a_little(void) { for (volatile unsigned long spins = drawn(2000); spins; spins--) {} }

static long long value_of(unsigned cell) { return cells[cell]; }

static __attribute__((noinline)) void transact(void) {
    __transaction_atomic {
        opaq_begin();
        unsigned long calls = 1 + drawn(4);
        for (unsigned long call = 0; call < calls; call++) {
            unsigned cell = (unsigned)drawn(CELLS);
            opaq_call(OPAQ_READ, cell, 0);
            long value = cells[cell];
            opaq_back(value);
            pause_a_little();
            if (drawn(2)) {
                long next = fresh();
                opaq_call(OPAQ_WRITE, cell, next);
                cells[cell] = next;
                opaq_back(0);
            }
        }
        opaq_try();
    }
    opaq_end(1);
}

static void *work(void *own) {
    unsigned number = *(const unsigned *)own;
    drawn_last = start * 1000003u + number;
    written = (long)number * 1000000;
    opaq_thread(number);
    for (unsigned long round = 0; round < rounds; round++) {
        for (unsigned long block = 0; block < blocks; block++) transact();
        if (pthread_barrier_wait(&meeting) == PTHREAD_BARRIER_SERIAL_THREAD && !opaq_round(stdout, value_of)) has_all = 0;
        pthread_barrier_wait(&meeting);
    }
    return NULL;
}

static unsigned long given(int count, char **words, int at, unsigned long otherwise, unsigned long most) {
    char *end = NULL;
    unsigned long value = count > at ? strtoul(words[at], &end, 10) : otherwise;
    if ((end && *end) || value < 1 || value > most) {
        fputs("usage: itm [SEED [THREADS [ROUNDS [BLOCKS]]]]\n", stderr);
        exit(64);
    }
    return value;
}

int main(int count, char **words) {
    pthread_t running[THREADS_MOST];
    unsigned numbers[THREADS_MOST];
    start = given(count, words, 1, start, 1000000000);
    threads = given(count, words, 2, threads, THREADS_MOST);
    rounds = given(count, words, 3, rounds, 1000000000);
    blocks = given(count, words, 4, blocks, 1000000000);
    for (unsigned cell = 0; cell < CELLS; cell++) {
        char name[16];
        snprintf(name, sizeof name, "x%u", cell);
        opaq_object(OPAQ_REGISTER, name, 0);
    }
    pthread_barrier_init(&meeting, NULL, (unsigned)threads);
    for (unsigned number = 0; number < threads; number++) {
        numbers[number] = number;
        if (pthread_create(&running[number], NULL, work, &numbers[number])) { fputs("itm: no thread\n", stderr); return 1; }
    }
    for (unsigned number = 0; number < threads; number++) pthread_join(running[number], NULL);
    return !has_all;
}
