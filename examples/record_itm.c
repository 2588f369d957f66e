/* Records a run of GCC's libitm by opaq.h (docs/RECORDING.md says why each stamp is drawn where it is).

     gcc -O2 -fgnu-tm -pthread record_itm.c -o record_itm
     ./record_itm [THREADS [OBJECTS [TRANSACTIONS]]] > run.jsonl
     opaq decide < run.jsonl

   Each thread runs transactions that read some shared registers and write some of what they read. ITM_DEFAULT_METHOD=ml_wt, gl_wt,
   serialirr and so on chooses the method of libitm. */

#define OPAQ_RECORDER
#include "opaq.h"
#include <pthread.h>

enum { THREADS_MAX = 64, OBJECTS_MAX = 256, TRANSACTIONS_MAX = 4096 };

static long registers[OBJECTS_MAX];         /* what the transactions share */
static unsigned objects = 8, wanted = 800;
static pthread_barrier_t start;
static _Thread_local unsigned long seed;

static OPAQ_OUTSIDE unsigned long drawn(unsigned long below) { seed = seed * 6364136223846793005u + 1442695040888963407u; return (seed >> 33) % below; }
static OPAQ_OUTSIDE void wait(void) { for (volatile unsigned long spins = drawn(20000); spins; spins--) {} }

static void transact(void) {
    __transaction_atomic {
        opaq_begin();
        unsigned calls = 1 + drawn(4);
        for (unsigned call = 0; call < calls; call++) {
            unsigned object = drawn(objects);
            opaq_call(OPAQ_READ, object, 0);
            long value = registers[object];
            opaq_back(value);
            wait();
            if (drawn(2)) {
                opaq_call(OPAQ_WRITE, object, value + 1);
                registers[object] = value + 1;
                opaq_back(0);
            }
        }
        opaq_try();
    }
    opaq_end(1);
}

static void *thread(void *at) {
    seed = (unsigned long)at;
    opaq_thread(seed);
    pthread_barrier_wait(&start);
    while (opaq_attempts() < wanted) transact();
    return NULL;
}

static unsigned given(int count, char **words, int at, unsigned otherwise, unsigned most) {
    unsigned long value = count > at ? strtoul(words[at], NULL, 10) : otherwise;
    if (value < 1 || value > most) { fputs("usage: record_itm [THREADS [OBJECTS [TRANSACTIONS]]]\n", stderr); exit(64); }
    return value;
}

int main(int count, char **words) {
    pthread_t running[THREADS_MAX];
    unsigned threads = given(count, words, 1, 4, THREADS_MAX);
    objects = given(count, words, 2, objects, OBJECTS_MAX);
    wanted = given(count, words, 3, wanted, TRANSACTIONS_MAX);
    for (unsigned object = 0; object < objects; object++) {
        char name[16];
        snprintf(name, sizeof name, "x%u", object);
        opaq_object(OPAQ_REGISTER, name, 0);
    }
    pthread_barrier_init(&start, NULL, threads);
    for (unsigned long l = 0; l < threads; l++)
        if (pthread_create(&running[l], NULL, thread, (void *)l)) { fputs("record_itm: no thread\n", stderr); return 1; }
    for (unsigned l = 0; l < threads; l++) pthread_join(running[l], NULL);
    return !opaq_write(stdout);
}
