/* What the memories beside this file share: threads that run transactions in rounds, recorded by opaq.h. A memory defines CELLS, `struct attempt`
   and the four functions below, and includes this file after the struct.

     ./memory [SEED [THREADS [ROUNDS [BLOCKS]]]] > run.jsonl

   A round is BLOCKS blocks of each thread, or fewer, where there were ENOUGH attempts: a run has room for 4,096. Then all meet, and the last one
   reads each register and the counter in one transaction of the memory, which closes the round. Every write writes a number that no other writes,
   also over rounds, so a read tells whom it saw. A round is so short that one thread might be through before the next one runs: so after its first
   WAITS reads each thread waits until another attempt has ended, or naps NAPS times. The exit status is 0 where all was recorded and written. */

#include <pthread.h>
#include <sched.h>
#include <stdatomic.h>
#include <time.h>

static void begin(struct attempt *it);
static int read_cell(struct attempt *it, unsigned cell, long *value); /* 0 where the attempt is aborted, as with the two below */
static int write_cell(struct attempt *it, unsigned cell, long value);
static int commit(struct attempt *it);

enum { THREADS_MOST = 64, COUNTER = CELLS - 1, TRIES = 20, ENOUGH = 3000, WAITS = 3, NAPS = 20 };

struct worker { unsigned number, waits; unsigned long drawn; long written; struct attempt it; };

static unsigned long seed = 1, threads = 4, rounds = 10, blocks = 40;
static pthread_barrier_t meeting;
static atomic_ulong ended; /* how many attempts */
static int has_all = 1;

static unsigned long draw(struct worker *by, unsigned long below) {
    by->drawn = by->drawn * 6364136223846793005u + 1442695040888963407u;
    return (by->drawn >> 33) % below;
}

/* Lets other threads go on. */
static void let_others(struct worker *by) {
    const struct timespec nap = { 0, 20000 };
    const unsigned long then = ended;
    int yields = draw(by, 2) != 0;
    if (!by->waits) {
        if (yields) sched_yield();
        return;
    }
    by->waits--;
    for (unsigned naps = 0; naps < NAPS && ended == then; naps++) nanosleep(&nap, NULL);
}

static int do_read(struct worker *by, enum opaq_operation operation, unsigned cell) {
    long value;
    opaq_call(operation, cell, 0);
    if (!read_cell(&by->it, cell, &value)) return 0;
    opaq_back(value);
    let_others(by);
    return 1;
}

static int do_write(struct worker *by, unsigned cell) {
    long value = (long)by->number * 1000000 + ++by->written;
    opaq_call(OPAQ_WRITE, cell, value);
    if (!write_cell(&by->it, cell, value)) return 0;
    opaq_back(0);
    return 1;
}

static int do_count(struct worker *by) {
    long value;
    opaq_call(OPAQ_INC, COUNTER, 0);
    if (!read_cell(&by->it, COUNTER, &value) || !write_cell(&by->it, COUNTER, value + 1)) return 0;
    opaq_back(0);
    return 1;
}

/* One operation on a cell: it changes the cell, or not, by a lot. */
static int do_one(struct worker *by, unsigned cell) {
    if (draw(by, 2)) return cell == COUNTER ? do_count(by) : do_write(by, cell);
    return do_read(by, cell == COUNTER ? OPAQ_GET : OPAQ_READ, cell);
}

static int end(int is_done) {
    opaq_end(is_done);
    ended++;
    return is_done;
}

static int do_commit(struct worker *by) {
    opaq_try();
    return end(commit(&by->it));
}

static int transact(struct worker *by) {
    opaq_begin();
    begin(&by->it);
    for (unsigned long calls = 1 + draw(by, 4); calls; calls--)
        if (!do_one(by, (unsigned)draw(by, CELLS))) return end(0);
    return do_commit(by);
}

static int close_round(struct worker *by) {
    opaq_begin();
    begin(&by->it);
    for (unsigned cell = 0; cell < CELLS; cell++)
        if (!do_read(by, cell == COUNTER ? OPAQ_GET : OPAQ_READ, cell)) return end(0);
    return do_commit(by);
}

static void *work(void *own) {
    struct worker *by = (struct worker *)own;
    opaq_thread(by->number);
    by->drawn = seed * 1000003u + by->number;
    for (unsigned long round = 0; round < rounds; round++) {
        by->waits = WAITS;
        for (unsigned long block = 0; block < blocks; block++)
            for (unsigned tries = 0; tries < TRIES && opaq_attempts() < ENOUGH && !transact(by); tries++) sched_yield();
        by->waits = 0;
        if (pthread_barrier_wait(&meeting) == PTHREAD_BARRIER_SERIAL_THREAD) {
            while (!close_round(by)) {}
            if (!opaq_round(stdout, NULL)) has_all = 0;
        }
        pthread_barrier_wait(&meeting);
    }
    return NULL;
}

static void given(int count, char **words, int at, unsigned long *number, unsigned long most) {
    char *end;
    if (count <= at) return;
    *number = strtoul(words[at], &end, 10);
    if (*end || *number < 1 || *number > most) {
        fprintf(stderr, "usage: %s [SEED [THREADS [ROUNDS [BLOCKS]]]]\n", words[0]);
        exit(64);
    }
}

int main(int count, char **words) {
    static struct worker workers[THREADS_MOST];
    pthread_t running[THREADS_MOST];
    given(count, words, 1, &seed, 1000000000);
    given(count, words, 2, &threads, THREADS_MOST);
    given(count, words, 3, &rounds, 1000000000);
    given(count, words, 4, &blocks, 1000000000);
    for (unsigned cell = 0; cell < CELLS; cell++) {
        char name[16];
        snprintf(name, sizeof name, "x%u", cell);
        opaq_object(cell == COUNTER ? OPAQ_COUNTER : OPAQ_REGISTER, cell == COUNTER ? "count" : name, 0);
    }
    pthread_barrier_init(&meeting, NULL, (unsigned)threads);
    for (unsigned number = 0; number < threads; number++) {
        workers[number].number = number;
        if (pthread_create(&running[number], NULL, work, &workers[number])) { fputs("no thread\n", stderr); return 1; }
    }
    for (unsigned number = 0; number < threads; number++) pthread_join(running[number], NULL);
    return !has_all;
}
