/* D1, wherever a call is made: what oatmist.h says of the stack and of threads. Each call is run in a thread whose stack was painted
   before, and what it painted over must keep within what is said there, of small things and of the largest; then all calls are made side by
   side in several threads, and must answer as they do alone. With an argument the bytes of stack are printed too, and the most that each call
   took in KiB. The last line is 'N passed, 0 failed'. */
#define _DEFAULT_SOURCE
#include "oatmist.h"
#include <pthread.h>
#include <stdio.h>
#include <string.h>
#include <sys/mman.h>

static int passed, failed;

/* ---- sheets, products and columns: X4, the smallest, and L1 to L7, R15 and R18 at their most ---- */

#define LONGEST_PRODUCT (2 + 16 * (3 + 2 * 255) + 16 * 64)
#define SHEET(components, transitions, steps) (16 * (components) + 4 * (transitions) + 8 * (steps) + 10)
static uint8_t smallest[OATMIST_SHORTEST_SHEET], middle[SHEET(6, 6 * 8 * 4, 64)], largest[OATMIST_LONGEST_SHEET];
static uint8_t internal[OATMIST_LONGEST_SHEET], shared[SHEET(16, 16 * 96, 1024)];
static uint8_t one_row[8], few_rows[2 + 4 * (3 + 2 * 12) + 4 * 12], all_rows[LONGEST_PRODUCT], alike[LONGEST_PRODUCT];
static uint8_t empty[2], few[2 * 6 + 6 * 8], spread[2 * OATMIST_COMPONENTS + 1024], single[2 * OATMIST_COMPONENTS + 1024];
static uint8_t together[2 * OATMIST_COMPONENTS + 1024];

/* What a call is given: sheets, each with columns for the call that wants them, or products; and whether it is one of the largest. */
#define GIVEN 5
static const struct given {
    const char *name;
    size_t large;
    const uint8_t *bytes;
    size_t length;
    const uint8_t *columns;
    size_t columns_length;
} sheets[GIVEN] = {{"smallest sheet", 0, smallest, sizeof smallest, empty, sizeof empty},
                   {"middle sheet", 0, middle, sizeof middle, few, sizeof few},
                   {"largest sheet", 1, largest, sizeof largest, spread, sizeof spread},
                   {"internal sheet", 1, internal, sizeof internal, single, sizeof single},
                   {"shared sheet", 1, shared, sizeof shared, together, sizeof together}},
  products[GIVEN] = {{"smallest product", 0, one_row, sizeof one_row, NULL, 0},
                     {"middle product", 0, few_rows, sizeof few_rows, NULL, 0},
                     {"largest product", 1, all_rows, sizeof all_rows, NULL, 0},
                     {"rows alike", 1, alike, sizeof alike, NULL, 0},
                     {"again", 1, all_rows, sizeof all_rows, NULL, 0}};

static void put2(uint8_t *bytes, size_t value) {
    bytes[0] = (uint8_t)(value & 255);
    bytes[1] = (uint8_t)(value >> 8);
}

static void put_transition(uint8_t *bytes, size_t component, size_t source, size_t label, size_t target) {
    bytes[0] = (uint8_t)component;
    bytes[1] = (uint8_t)source;
    bytes[2] = (uint8_t)label;
    bytes[3] = (uint8_t)target;
}

/* The steps behind the records and transitions, which end at a place: single actions, each in its turn. Then the trailer. */
static void finish(uint8_t *sheet, uint8_t *at, size_t components, size_t actions, size_t steps) {
    const size_t begin = (size_t)(at - sheet);
    size_t k, a;
    for (k = 0; k < steps; k++, at += 8) {
        a = k % actions;
        memset(at, 0, 8);
        at[a / 8] = (uint8_t)(1 << a % 8);
    }
    put2(at, 0);
    put2(at + 2, 16 * components);
    put2(at + 4, begin);
    at[6] = (uint8_t)components;
    at[7] = (uint8_t)actions;
    at[8] = 0x46;
    at[9] = 0x53;
}

/* Components with states, and actions of their own. Where there are several states each goes on to another by every action of its
   component and, if so asked, by an internal move. */
static void make(uint8_t *sheet, size_t components, size_t states, size_t actions, int moves, size_t steps) {
    uint8_t *at = sheet;
    size_t j, q, a;
    for (j = 0; j < components; j++, at += 16) {
        memset(at, 0, 16);
        at[0] = (uint8_t)states;
        at[4] = 1;
        for (a = actions * j; a < actions * (j + 1); a++)
            at[8 + a / 8] = (uint8_t)(at[8 + a / 8] | 1 << a % 8);
    }
    for (j = 0; j < components && states > 1; j++)
        for (q = 0; q < states; q++) {
            for (a = actions * j; a < actions * (j + 1); a++, at += 4)
                put_transition(at, j, q, a, (q + a + 1) % states);
            if (moves) {
                put_transition(at, j, q, 255, (q + 1) % states);
                at += 4;
            }
        }
    finish(sheet, at, components, components * actions, steps);
}

/* 16 components of 32 states in an internal ring, all with the same 64 actions; each action can be done in one state of each. So every
   component has a row for every action, the most that there can be. */
static void make_shared(uint8_t *sheet) {
    uint8_t *at = sheet;
    size_t j, q;
    for (j = 0; j < OATMIST_COMPONENTS; j++, at += 16) {
        memset(at, 0, 8);
        at[0] = 32;
        at[4] = 1;
        memset(at + 8, 255, 8);
    }
    for (j = 0; j < OATMIST_COMPONENTS; j++)
        for (q = 0; q < 32; q++, at += 12) {
            put_transition(at, j, q, q, q);
            put_transition(at + 4, j, q, q + 32, q);
            put_transition(at + 8, j, q, 255, (q + 1) % 32);
        }
    finish(sheet, at, OATMIST_COMPONENTS, 64, 1024);
}

/* V2: the columns of so many components, of which the first few have so many labels each and the others none. A component has so many
   actions; its own as `make` gives them, or all components the same. */
static void make_columns(uint8_t *columns, size_t components, size_t filled, size_t actions, int own, size_t labels) {
    uint8_t *at = columns;
    size_t j, k;
    for (j = 0; j < components; j++) {
        const size_t count = j < filled ? labels : 0;
        put2(at, count);
        at += 2;
        for (k = 0; k < count; k++)
            *at++ = (uint8_t)((own ? actions * j : 0) + k % actions);
    }
}

/* B5: components with states and transitions, and rows that differ in the last component, and in the others too unless they are alike. */
static void make_product(uint8_t *product, size_t components, size_t states, size_t transitions, size_t rows, int same) {
    uint8_t *at = product;
    size_t j, t, g;
    *at++ = (uint8_t)components;
    *at++ = (uint8_t)rows;
    for (j = 0; j < components; j++) {
        *at++ = (uint8_t)states;
        *at++ = 0;
        *at++ = (uint8_t)transitions;
        for (t = 0; t < transitions; t++) {
            *at++ = (uint8_t)(t % states);
            *at++ = (uint8_t)((t + j + 1) % states);
        }
    }
    for (g = 0; g < rows; g++)
        for (j = 0; j < components; j++)
            *at++ = (uint8_t)(same && j + 1 < components ? 0 : (g + j) % transitions);
}

/* ---- the calls: each on a sheet, with or without columns, or a product; those on two sheets on one twice; version on nothing ---- */

/* What is lent to a call. */
struct lent {
    uint8_t out[OATMIST_LONGEST_SHEET];
    uint64_t values[OATMIST_COMPONENTS];
    struct oatmist_part part;
};

#define CALL(name, arguments) \
    static uint64_t name(const struct given *given, struct lent *lent) { \
        const uint8_t *s = given->bytes; \
        const size_t l = given->length; \
        return oatmist_##name arguments; \
    }
CALL(check, (s, l, lent->values, OATMIST_COMPONENTS))
CALL(end_sets, (s, l, lent->values, OATMIST_COMPONENTS))
CALL(process, (s, l, lent->values, OATMIST_COMPONENTS))
CALL(figure, (s, l, lent->values, OATMIST_COMPONENTS))
CALL(stuck, (s, l, lent->values, OATMIST_COMPONENTS))
CALL(restate, (s, l, lent->out, sizeof lent->out, lent->values, OATMIST_COMPONENTS))
CALL(report, (s, l, lent->out, sizeof lent->out, lent->values, OATMIST_COMPONENTS))
CALL(same_work, (s, l, s, l, lent->values, OATMIST_COMPONENTS))
CALL(winner, (s, l, s, l, lent->values, OATMIST_COMPONENTS))
CALL(rows, (s, l, lent->out, OATMIST_ROWS_ROOM, lent->values, OATMIST_COMPONENTS))
CALL(columns, (s, l, given->columns, given->columns_length, lent->out, sizeof lent->out, lent->values, OATMIST_COMPONENTS))
static uint64_t leaner(const struct given *given, struct lent *lent) {
    oatmist_leaner(given->bytes, given->length, given->bytes, given->length, &lent->part);
    return 0;
}
static uint64_t version(const struct given *given, struct lent *lent) {
    (void)given;
    lent->values[0] = oatmist_version();
    return 0;
}

/* Each call, the KiB of stack that oatmist.h says it takes at most, of what is not large and of what is, and what it is given. */
static const struct {
    const char *name;
    uint64_t (*make)(const struct given *, struct lent *);
    size_t kib[2];
    const struct given *given;
} calls[] = {{"check", check, {25, 83}, sheets},
             {"end_sets", end_sets, {25, 83}, sheets},
             {"process", process, {25, 83}, sheets},
             {"figure", figure, {25, 84}, sheets},
             {"stuck", stuck, {26, 84}, sheets},
             {"restate", restate, {25, 84}, sheets},
             {"report", report, {50, 108}, sheets},
             {"same_work", same_work, {41, 99}, sheets},
             {"winner", winner, {25, 83}, sheets},
             {"leaner", leaner, {25, 83}, sheets},
             {"rows", rows, {3, 3}, products},
             {"columns", columns, {34, 92}, sheets},
             {"version", version, {1, 1}, sheets}};
#define CALLS (sizeof calls / sizeof calls[0])

/* ---- the stack: D1, every call ends ---- */

#define ROOM (1024 * 1024) /* the stack of the thread */
#define PAINT 0xa5

/* One call in a thread of its own. */
struct job {
    size_t call;
    const struct given *given;
    uint64_t told;
    char *from; /* where its caller's frame is */
};

static void *run(void *given) {
    static struct lent lent;
    struct job *job = (struct job *)given;
    job->from = (char *)__builtin_frame_address(0);
    job->told = calls[job->call].make(job->given, &lent);
    return NULL;
}

/* The bytes of stack that a call wrote, up to its caller's frame; 0 where the call was not made, or refused. */
static size_t taken(size_t call, const struct given *given) {
    struct job job = {call, given, 1, NULL};
    pthread_attr_t attributes;
    pthread_t thread;
    size_t lowest = 0;
    char *stack = (char *)mmap(NULL, ROOM, PROT_READ | PROT_WRITE, MAP_PRIVATE | MAP_ANONYMOUS, -1, 0);
    if (stack == MAP_FAILED)
        return 0;
    memset(stack, PAINT, ROOM);
    if (pthread_attr_init(&attributes) == 0 && pthread_attr_setstack(&attributes, stack, ROOM) == 0 &&
        pthread_create(&thread, &attributes, run, &job) == 0)
        pthread_join(thread, NULL);
    while (lowest < ROOM && (uint8_t)stack[lowest] == PAINT)
        lowest++;
    munmap(stack, ROOM);
    return job.told == 0 ? (size_t)(job.from - stack) - lowest : 0;
}

static void stacks(int printed) {
    size_t call, k;
    for (call = 0; call < CALLS; call++) {
        size_t most[2] = {0, 0};
        for (k = 0; k < GIVEN; k++) {
            const struct given *given = &calls[call].given[k];
            taken(call, given); /* once before: the C library's functions are then found */
            size_t bytes = taken(call, given);
            if (bytes > 0 && bytes <= 1024 * calls[call].kib[given->large] && bytes <= OATMIST_STACK) {
                passed++;
            } else {
                failed++;
                printf("FAILED: %s, %s: %zu bytes of stack\n", calls[call].name, given->name, bytes);
            }
            if (bytes > most[given->large])
                most[given->large] = bytes;
            if (printed)
                printf("%-10s %-16s: %6zu bytes of stack\n", calls[call].name, given->name, bytes);
        }
        if (printed)
            printf("%-10s {%zu, %zu} KiB\n", calls[call].name, (most[0] + 1023) / 1024, (most[1] + 1023) / 1024);
    }
}

/* ---- side by side: D1, the one answer that is due ---- */

#define THREADS 4
#define TURNS 100

/* All calls on all that they are given, one after another; what each returned and wrote. */
struct answers {
    uint64_t told[CALLS][GIVEN];
    struct lent lent[CALLS][GIVEN];
};

static struct answers alone, beside[THREADS];

static void ask(struct answers *answers) {
    size_t call, k;
    memset(answers, 0, sizeof *answers);
    for (call = 0; call < CALLS; call++)
        for (k = 0; k < GIVEN; k++)
            answers->told[call][k] = calls[call].make(&calls[call].given[k], &answers->lent[call][k]);
}

/* The same again and again; gives back its argument where nothing ever differed. */
static void *again(void *given) {
    int turn;
    for (turn = 0; turn < TURNS; turn++) {
        ask((struct answers *)given);
        if (memcmp(given, &alone, sizeof alone) != 0)
            return NULL;
    }
    return given;
}

static void side_by_side(void) {
    pthread_t threads[THREADS];
    int begun[THREADS], k;
    ask(&alone);
    for (k = 0; k < THREADS; k++)
        begun[k] = pthread_create(&threads[k], NULL, again, &beside[k]) == 0;
    for (k = 0; k < THREADS; k++) {
        void *same = NULL;
        if (begun[k] && pthread_join(threads[k], &same) == 0 && same == &beside[k]) {
            passed++;
        } else {
            failed++;
            printf("FAILED: thread %d got other answers than a thread alone\n", k);
        }
    }
}

int main(int count, char **arguments) {
    (void)arguments;
    make(smallest, 1, 1, 1, 0, 0);
    make(middle, 6, 8, 3, 1, 64);
    make(largest, 16, 32, 4, 0, 1024);
    make(internal, 16, 32, 3, 1, 1024);
    make_shared(shared);
    make_columns(few, 6, 6, 3, 1, 8);
    make_columns(spread, OATMIST_COMPONENTS, OATMIST_COMPONENTS, 4, 1, 1024 / OATMIST_COMPONENTS);
    make_columns(single, OATMIST_COMPONENTS, 1, 3, 1, 1024);
    make_columns(together, OATMIST_COMPONENTS, OATMIST_COMPONENTS, 64, 0, 64);
    make_product(one_row, 1, 1, 1, 1, 0);
    make_product(few_rows, 4, 6, 12, 12, 0);
    make_product(all_rows, 16, 32, 255, 64, 0);
    make_product(alike, 16, 32, 255, 64, 1);
    stacks(count > 1);
    side_by_side();
    printf("%d passed, %d failed\n", passed, failed);
    return failed != 0;
}
