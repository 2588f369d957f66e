/* A small transactional memory, and a run of it that opaq.h records.

     cc -std=c11 -O2 -pthread tiny_stm.c -o tiny_stm
     ./tiny_stm > run.jsonl                  it is validated at each read: opaq says `opaque ..`
     ./tiny_stm --no-validation > run.jsonl  it is validated at the commit alone: opaq says `not opaque`

   Each register has a version, odd while a commit writes it. A transaction notes the clock when it begins, and is aborted where it reads a version
   that is newer. Writes are kept aside until the commit, which runs under one lock. A writer writes one number to x0 and x1 at a time, so no
   transaction should see two numbers. Every other reader asks for a write between its reads, and waits for it. The lines with `opaq_` are the
   recorder's. */

#define OPAQ_RECORDER
#include "opaq.h"
#include <pthread.h>
#include <sched.h>
#include <stdatomic.h>
#include <string.h>

enum { REGISTERS = 2, ROUNDS = 100 };

struct attempt { long started, values[REGISTERS]; int has_read[REGISTERS], has_written[REGISTERS]; };

static atomic_long clock_now, values[REGISTERS], versions[REGISTERS];
static pthread_mutex_t commit_lock = PTHREAD_MUTEX_INITIALIZER;
static atomic_int asked, is_over;
static int validates = 1;

static void begin(struct attempt *it) {
    memset(it, 0, sizeof *it);
    opaq_begin();
    it->started = clock_now;
}

/* 0 where the transaction has to be aborted. */
static int read_register(struct attempt *it, unsigned number, long *value) {
    opaq_call(OPAQ_READ, number, 0);
    long before, after;
    do {
        before = versions[number];
        *value = values[number];
        after = versions[number];
    } while (before != after || before % 2);
    if (validates && before > it->started) return 0;
    if (it->has_written[number]) *value = it->values[number];
    it->has_read[number] = 1;
    opaq_back(*value);
    return 1;
}

static void write_register(struct attempt *it, unsigned number, long value) {
    opaq_call(OPAQ_WRITE, number, value);
    it->values[number] = value;
    it->has_written[number] = 1;
    opaq_back(0);
}

static int is_valid(const struct attempt *it) {
    for (unsigned number = 0; number < REGISTERS; number++)
        if (it->has_read[number] && versions[number] > it->started) return 0;
    return 1;
}

static void write_back(const struct attempt *it) {
    long next = clock_now + 2;
    for (unsigned number = 0; number < REGISTERS; number++) if (it->has_written[number]) versions[number] = next - 1;
    for (unsigned number = 0; number < REGISTERS; number++) if (it->has_written[number]) values[number] = it->values[number];
    clock_now = next;
    for (unsigned number = 0; number < REGISTERS; number++) if (it->has_written[number]) versions[number] = next;
}

static int commit(struct attempt *it) {
    opaq_try();
    pthread_mutex_lock(&commit_lock);
    int valid = is_valid(it);
    if (valid) write_back(it);
    pthread_mutex_unlock(&commit_lock);
    opaq_end(valid);
    return valid;
}

static void *writer(void *unused) {
    opaq_thread(0);
    for (long number = 1;; number++) {
        struct attempt it;
        while (asked < number && !is_over) sched_yield();
        if (is_over) return unused;
        begin(&it);
        write_register(&it, 0, number);
        write_register(&it, 1, number);
        commit(&it);
    }
}

static void *reader(void *unused) {
    opaq_thread(1);
    for (int round = 0; round < ROUNDS; round++) {
        struct attempt it;
        long one, other;
        begin(&it);
        if (read_register(&it, 0, &one)) {
            long then = clock_now;
            asked += round % 2;
            while (round % 2 && clock_now == then) sched_yield();
            if (read_register(&it, 1, &other) && commit(&it)) continue;
        }
        opaq_end(0);
    }
    is_over = 1;
    return unused;
}

int main(int count, char **words) {
    pthread_t threads[2];
    validates = count == 1;
    if (count > 2 || (count == 2 && strcmp(words[1], "--no-validation"))) {
        fputs("usage: tiny_stm [--no-validation]\n", stderr);
        return 64;
    }
    opaq_object(OPAQ_REGISTER, "x0", 0);
    opaq_object(OPAQ_REGISTER, "x1", 0);
    if (pthread_create(&threads[0], NULL, writer, NULL) || pthread_create(&threads[1], NULL, reader, NULL)) return 1;
    for (int thread = 0; thread < 2; thread++) pthread_join(threads[thread], NULL);
    return !opaq_write(stdout);
}
