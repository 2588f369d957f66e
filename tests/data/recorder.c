/* What tests/recorder compiles: one word says which call is wrong, or what is recorded. C and C++. */

#define OPAQ_RECORDER
#include "opaq.h"
#include <pthread.h>

static unsigned x, count, jobs, seen, table;
static long long cells[5];

static long long value_of(unsigned object) { return cells[object]; }

static void *take_zero(void *own) {
    opaq_thread(0);
    return own;
}

static void call(enum opaq_operation operation, unsigned object, long long argument, long long answer) {
    opaq_call(operation, object, argument);
    opaq_back(answer);
}

static void commit(void) {
    opaq_try();
    opaq_end(1);
}

static void write_x(long long value) {
    opaq_begin();
    call(OPAQ_WRITE, x, value, 0);
    cells[x] = value;
    commit();
}

static void read_all(void) {
    opaq_begin();
    call(OPAQ_READ, x, 0, cells[x]);
    call(OPAQ_GET, count, 0, cells[count]);
}

/* Before any thread has a number. */
static void wrong_early(int which) {
    switch (which) {
    case 'a': opaq_object(OPAQ_REGISTER, "x[0]", 0); break;
    case 'b': opaq_object(OPAQ_REGISTER, "x", 0); break;
    case 'c': opaq_object(OPAQ_REGISTER, "", 0); break;
    case 'd': opaq_object(OPAQ_REGISTER, "a23456789012345678901234567890123", 0); break;
    case 'e': opaq_begin(); break;
    case 'f': opaq_call(OPAQ_READ, x, 0); break;
    case 'g': opaq_back(0); break;
    case 'h': opaq_try(); break;
    case 'i': opaq_end(1); break;
    case 'j': opaq_leave(); break;
    case 'k': opaq_round(stdout, NULL); break;
    case 'l': opaq_object(OPAQ_COUNTER, "c", (1ll << 62) + 1); break;
    case 'm': opaq_object(OPAQ_SET, "s", 1); break;
    case 'n': opaq_thread(64); break;
    case 'o': opaq_object((enum opaq_kind)5, "k", 0); break;
    case 'p': opaq_object(OPAQ_REGISTER, "two\nlines", 0); break;
    case 'q': opaq_object(OPAQ_REGISTER, NULL, 0); break;
    case 'r': for (char name[] = "AA"; name[0] <= 'Z'; name[1] < 'Z' ? name[1]++ : (name[1] = 'A', name[0]++)) opaq_object(OPAQ_SET, name, 0); break;
    default: return;
    }
}

/* By thread 0, in an attempt or outside. */
static void wrong_call(int which) {
    pthread_t other;
    switch (which) {
    case 'A': if (!pthread_create(&other, NULL, take_zero, NULL)) pthread_join(other, NULL); break;
    case 'B': opaq_thread(1); break;
    case 'C': opaq_call(OPAQ_READ, x, 0); break;
    case 'D': opaq_begin(); opaq_back(0); break;
    case 'E': opaq_begin(); opaq_call(OPAQ_READ, x, 0); opaq_call(OPAQ_READ, x, 0); break;
    case 'F': read_all(); opaq_end(1); break;
    case 'G': opaq_begin(); opaq_call(OPAQ_READ, x, 0); opaq_try(); break;
    case 'H': opaq_begin(); opaq_call(OPAQ_GET, x, 0); break;
    case 'I': opaq_begin(); opaq_call(OPAQ_READ, 7, 0); break;
    case 'J': opaq_begin(); opaq_call(OPAQ_READ, x, 0); opaq_back_empty(); break;
    case 'K': opaq_begin(); opaq_open(x, 5); break;
    case 'L': read_all(); opaq_round(stdout, value_of); break;
    case 'M': opaq_end(1); break;
    case 'N': opaq_begin(); opaq_try(); opaq_try(); break;
    case 'O': opaq_begin(); opaq_try(); opaq_call(OPAQ_READ, x, 0); break;
    case 'P': opaq_begin(); opaq_call(OPAQ_PUT, table, 1); break;
    case 'Q': opaq_begin(); opaq_call(OPAQ_PLUS, count, (1ll << 31) + 1); break;
    case 'R': opaq_begin(); opaq_call((enum opaq_operation)14, x, 0); break;
    case 'S': opaq_begin(); opaq_call(OPAQ_READ, x, 0); opaq_end(1); break;
    case 'T': opaq_open(9, 0); break;
    case 'U': opaq_begin(); opaq_reset(); break;
    case 'V': opaq_begin(); opaq_call(OPAQ_READ, x, 0); opaq_object(OPAQ_SET, "late", 0); break;
    default: return;
    }
}

/* A closing transaction that is none. */
static void wrong_closing(int which) {
    switch (which) {
    case '0': jobs = opaq_object(OPAQ_QUEUE, "jobs", 0); opaq_round(stdout, value_of); return;
    case '1': opaq_begin(); call(OPAQ_READ, x, 0, 0); opaq_end(0); break;
    case '2': opaq_begin(); call(OPAQ_READ, x, 0, 0); commit(); break;
    case '3': read_all(); call(OPAQ_INC, count, 0, 0); call(OPAQ_GET, count, 0, 1); commit(); break;
    case '4': jobs = opaq_object(OPAQ_QUEUE, "jobs", 0); read_all(); call(OPAQ_ENQ, jobs, 5, 0); commit(); break;
    case '5': seen = opaq_object(OPAQ_SET, "seen", 0); read_all(); call(OPAQ_ADD, seen, 5, 1); commit(); break;
    case '6': table = opaq_object(OPAQ_MAP, "table", 0); read_all(); opaq_call_put(table, 1, 2); opaq_back(0); commit(); break;
    default: return;
    }
    opaq_round(stdout, NULL);
}

/* Every kind goes over a round: items that were put in are taken out by the closing transaction. */
static int all_kinds(void) {
    int is_whole = 1;
    jobs = opaq_object(OPAQ_QUEUE, "jobs", 0);
    seen = opaq_object(OPAQ_SET, "seen", 0);
    table = opaq_object(OPAQ_MAP, "table", 0);
    for (int round = 0; round < 3; round++) {
        write_x(round + 10);
        opaq_begin();
        call(OPAQ_PLUS, count, 3, 0);
        call(OPAQ_ENQ, jobs, round, 0);
        call(OPAQ_ADD, seen, round, 1);
        opaq_call_put(table, 7, round);
        opaq_back(0);
        commit();
        cells[count] += 3;
        read_all();
        call(OPAQ_DEQ, jobs, 0, round);
        opaq_call(OPAQ_DEQ, jobs, 0);
        opaq_back_empty();
        call(OPAQ_REMOVE, seen, round, 1);
        call(OPAQ_DEL, table, 7, 1);
        commit();
        is_whole &= opaq_round(stdout, NULL);
    }
    return is_whole;
}

/* Each attempt writes, and after 4,096 records nothing more has room: what was read wrongly then is in no run. */
static int full_log(void) {
    for (int attempt = 1; attempt <= 5000; attempt++) write_x(attempt);
    opaq_begin();
    call(OPAQ_READ, x, 0, 12345);
    commit();
    fprintf(stderr, "lost %u records\n", opaq_lost());
    return opaq_write(stdout);
}

/* More attempts than a run has transactions, none of which fills its log. */
static int many_attempts(void) {
    for (unsigned attempt = 0; attempt < 5000; attempt++) {
        if (attempt % 2000 == 1999) {
            opaq_leave();
            opaq_thread(attempt / 1000);
        }
        opaq_begin();
        opaq_try();
        opaq_end(0);
    }
    return opaq_write(stdout);
}

/* Rounds of which the second is cut; main has no number, and one closing transaction finds room in no log. */
static int cut_round(void) {
    int is_whole = 0;
    write_x(1);
    is_whole += opaq_round(stdout, value_of);
    for (int attempt = 2; attempt <= 1100; attempt++) write_x(attempt);
    is_whole += opaq_round(stdout, value_of);
    write_x(2000);
    opaq_leave();
    is_whole += opaq_round(stdout, value_of);
    return is_whole == 3;
}

/* A memory that is made anew; and a round without any attempt. */
static int made_anew(void) {
    int is_whole = 1;
    write_x(5);
    is_whole &= opaq_write(stdout);
    opaq_reset();
    cells[x] = 8;
    opaq_open(x, 8);
    is_whole &= opaq_round(stdout, value_of);
    write_x(9);
    return is_whole & opaq_round(stdout, value_of);
}

int main(int words, char **word) {
    int which = words > 1 ? word[1][0] : ' ';
    x = opaq_object(OPAQ_REGISTER, "x", 0);
    wrong_early(which);
    count = opaq_object(OPAQ_COUNTER, "count", 0);
    opaq_thread(0);
    wrong_call(which);
    wrong_closing(which);
    if (which == 'w') return !all_kinds();
    if (which == 'x') return !full_log();
    if (which == 'y') return !many_attempts();
    if (which == 'z') return !cut_round();
    if (which == 'v') return !made_anew();
    write_x(1);
    return !opaq_write(stdout);
}
