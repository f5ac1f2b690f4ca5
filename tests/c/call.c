/* The calls by the header, built as C and as C++: accepted sheets, refused ones, pairs, products and columns, each with arrays lent for
   the answer that are empty, null, too short, exact and longer (C1, D1; what each part is about stands above it). Its last line is 'N
   passed, 0 failed'. */
#include "oatmist.h"
#include <stdio.h>
#include <string.h>

static int passed, failed;

static void expect(int holds, const char *call, const char *what) {
    if (holds) {
        passed++;
    } else {
        failed++;
        printf("FAILED: %s: %s\n", call, what);
    }
}

/* ---- sheets ---- */

/* X4: one component with one state and action 0, no transitions, no steps. */
static const uint8_t small[OATMIST_SHORTEST_SHEET] = {1, 0, 0, 0, 1, 0, 0, 0, 1, 0, 0, 0, 0, 0, 0, 0, 0, 0, 16, 0, 16, 0, 1, 1, 0x46, 0x53};

/* A sheet, or a product, or columns, as a call is given them. */
struct sheet {
    const uint8_t *bytes;
    size_t length;
};

static const struct sheet smallest = {small, sizeof small}, nothing = {NULL, 0}, cut = {small, 25};

#define PAIR_STEPS_AT 52
#define PAIR_ROOM 128

/* A sheet in the lent bytes: the tables, steps by their sets of actions, which are below 8, and the trailer. */
static struct sheet with_steps(uint8_t *bytes, const uint8_t *tables, size_t length, size_t count, const uint8_t *steps,
                               const uint8_t *trailer) {
    struct sheet made;
    size_t k;
    memcpy(bytes, tables, length);
    memset(bytes + length, 0, 8 * count);
    for (k = 0; k < count; k++)
        bytes[length + 8 * k] = steps[k];
    memcpy(bytes + length + 8 * count, trailer, 10);
    made.bytes = bytes;
    made.length = length + 8 * count + 10;
    return made;
}

/* X1: Pair of document 01: two components, three actions. */
static struct sheet pair(uint8_t *bytes, size_t count, const uint8_t *steps) {
    static const uint8_t tables[PAIR_STEPS_AT] = {
        2, 0, 0, 0, 1, 0, 0, 0, 5, 0, 0, 0, 0, 0, 0, 0, 3, 0, 0, 0, 1, 0, 0, 0, 6, 0, 0, 0, 0, 0, 0, 0,
        0, 0, 0, 1, 0, 1, 2, 0, 1, 0, 1, 1, 1, 1, 255, 2, 1, 2, 2, 0};
    static const uint8_t trailer[10] = {0, 0, 32, 0, PAIR_STEPS_AT, 0, 2, 3, 0x46, 0x53};
    return with_steps(bytes, tables, sizeof tables, count, steps, trailer);
}

/* Two components of one state with nothing in common: the one loops by action 0, the other by action 1. */
static struct sheet clocks(uint8_t *bytes, size_t count, const uint8_t *steps) {
    static const uint8_t tables[40] = {1, 0, 0, 0, 1, 0, 0, 0, 1, 0, 0, 0, 0, 0, 0, 0, 1, 0, 0, 0, 1, 0, 0, 0, 2, 0, 0, 0, 0, 0, 0, 0,
                                       0, 0, 0, 0, 1, 0, 1, 0};
    static const uint8_t trailer[10] = {0, 0, 32, 0, sizeof tables, 0, 2, 2, 0x46, 0x53};
    return with_steps(bytes, tables, sizeof tables, count, steps, trailer);
}

/* ---- the calls ---- */

enum call { CHECK, END_SETS, PROCESS, FIGURE, STUCK, RESTATE, REPORT, SAME_WORK, WINNER, ROWS, COLUMNS };

static const struct {
    const char *name;
    size_t values;
} calls[] = {{"check", 4},   {"end sets", OATMIST_COMPONENTS}, {"process check", 1}, {"figure", 1}, {"stuck", 1},
             {"restate", 1}, {"report", 1},                    {"same work", 1},     {"winner", 1}, {"rows", 1},
             {"columns", 1}};

#define ANSWER_ROOM 20
#define OUT_ROOM 200
static uint64_t answer[ANSWER_ROOM];
static uint8_t out[OUT_ROOM];

/* Makes a call. Without room the pointer is null where this is asked for. */
static uint64_t make(enum call call, struct sheet one, struct sheet two, size_t out_room, size_t room, int null) {
    uint64_t *a = room == 0 && null ? NULL : answer;
    uint8_t *o = out_room == 0 && null ? NULL : out;
    switch (call) {
    case CHECK: return oatmist_check(one.bytes, one.length, a, room);
    case END_SETS: return oatmist_end_sets(one.bytes, one.length, a, room);
    case PROCESS: return oatmist_process(one.bytes, one.length, a, room);
    case FIGURE: return oatmist_figure(one.bytes, one.length, a, room);
    case STUCK: return oatmist_stuck(one.bytes, one.length, a, room);
    case RESTATE: return oatmist_restate(one.bytes, one.length, o, out_room, a, room);
    case REPORT: return oatmist_report(one.bytes, one.length, o, out_room, a, room);
    case SAME_WORK: return oatmist_same_work(one.bytes, one.length, two.bytes, two.length, a, room);
    case WINNER: return oatmist_winner(one.bytes, one.length, two.bytes, two.length, a, room);
    case ROWS: return oatmist_rows(one.bytes, one.length, o, out_room, a, room);
    case COLUMNS: return oatmist_columns(one.bytes, one.length, two.bytes, two.length, o, out_room, a, room);
    }
    return 0;
}

/* O5, C1: a call with arrays of several lengths lent for its answer: what it must return, its values, and what stands at the front of the
   output then, of which so many bytes are lent. All other entries must keep their values. */
static void judge(const char *what, enum call call, struct sheet one, struct sheet two, size_t out_room, uint64_t told,
                  const uint64_t *values, const void *front, size_t front_length) {
    const size_t count = calls[call].values, rooms[] = {0, 1, count, count + 1, ANSWER_ROOM};
    size_t k;
    int null;
    for (k = 0; k < sizeof rooms / sizeof rooms[0]; k++)
        for (null = 0; null < 2; null++) {
            uint64_t answer_due[ANSWER_ROOM];
            uint8_t out_due[OUT_ROOM];
            memset(answer, 0xee, sizeof answer);
            memset(out, 0xee, sizeof out);
            memcpy(answer_due, answer, sizeof answer);
            memcpy(out_due, out, sizeof out);
            if (told == 0) {
                memcpy(answer_due, values, sizeof values[0] * (count < rooms[k] ? count : rooms[k]));
                if (front_length > 0)
                    memcpy(out_due, front, front_length);
            }
            expect(make(call, one, two, out_room, rooms[k], null) == told, calls[call].name, what);
            expect(memcmp(answer, answer_due, sizeof answer) == 0, calls[call].name, what);
            expect(memcmp(out, out_due, sizeof out) == 0, calls[call].name, what);
        }
}

/* One sheet, of which these values are due. */
static void gives(const char *what, enum call call, struct sheet sheet, const uint64_t *values) {
    judge(what, call, sheet, nothing, 0, 0, values, NULL, 0);
}

/* One value. */
static void gives_one(const char *what, enum call call, struct sheet sheet, uint64_t value) { gives(what, call, sheet, &value); }

/* O4, O5, P2, R13: a sheet that every call but the report refuses like this, whatever is lent, and of which the report is this text. */
static void refused(const char *what, struct sheet sheet, uint64_t told, const char *text) {
    const size_t length = strlen(text), rooms[] = {0, 1, 25, 100, OUT_ROOM};
    const uint64_t values[1] = {length};
    int call;
    size_t k;
    for (call = CHECK; call <= RESTATE; call++)
        for (k = 0; k < sizeof rooms / sizeof rooms[0]; k++)
            judge(what, (enum call)call, sheet, nothing, rooms[k], told, NULL, NULL, 0);
    for (k = 0; k <= length + 1; k++)
        judge(what, REPORT, sheet, nothing, k, k < length ? OATMIST_REFUSAL_OUTPUT : 0, values, text, length);
}

/* ---- what is tried ---- */

/* O4, O7: a refusal as it is returned. */
static uint64_t refusal(uint64_t number, uint64_t sheet, uint64_t step) { return number + 256 * sheet + 65536 * step; }

/* O4, O7: the macros of the header. */
static void taken_apart(void) {
    const uint64_t told = refusal(12, 1, 1023);
    expect(OATMIST_REFUSAL(told) == OATMIST_REFUSAL_NOT_ENABLED, "OATMIST_REFUSAL", "12 of sheet 1 at 1023");
    expect(OATMIST_SHEET(told) == 1, "OATMIST_SHEET", "12 of sheet 1 at 1023");
    expect(OATMIST_STEP(told) == 1023, "OATMIST_STEP", "12 of sheet 1 at 1023");
    expect(OATMIST_REFUSAL(0) == 0 && OATMIST_SHEET(0) == 0 && OATMIST_STEP(0) == 0, "0", "no refusal");
}

/* S6, E5, N7, A4, A5, N8, N9, P1 to P5, R13: every call on one sheet. */
static void accepted(void) {
    static const char text[] = "accepted 4 3 13 0\nstep 0 1\nstep 2\nstep 0\nend 0 1\nend 1 0\n";
    static const char small_text[] = "accepted 0 0 0 1\nend 0 0\n";
    const uint64_t small_sizes[4] = {1, 1, 16, 16}, sizes[4] = {2, 3, 32, PAIR_STEPS_AT};
    const uint64_t small_ends[OATMIST_COMPONENTS] = {1}, ends[OATMIST_COMPONENTS] = {2, 1};
    const uint8_t steps[4] = {1, 2, 4, 1}, packed[3] = {3, 4, 1};
    uint8_t bytes[PAIR_ROOM], restated_bytes[PAIR_ROOM];
    const struct sheet sheet = pair(bytes, 4, steps), restated = pair(restated_bytes, 3, packed);
    const uint64_t text_length = sizeof text - 1, small_length = sizeof small_text - 1, restated_length = restated.length, unchanged = sizeof small;
    size_t room;
    gives("smallest", CHECK, smallest, small_sizes);
    gives("Pair", CHECK, sheet, sizes);
    gives("smallest", END_SETS, smallest, small_ends);
    gives("Pair", END_SETS, sheet, ends);
    gives_one("smallest", PROCESS, smallest, 0);
    gives_one("Pair", PROCESS, sheet, 1 + 1);
    gives_one("Pair, restated", PROCESS, restated, 0);
    gives_one("smallest", FIGURE, smallest, 0);
    gives_one("Pair", FIGURE, sheet, 13);
    gives_one("smallest", STUCK, smallest, 1);
    gives_one("Pair", STUCK, sheet, 0);
    for (room = 0; room <= sizeof small + 2; room++)
        judge("smallest", RESTATE, smallest, nothing, room, room < unchanged ? OATMIST_REFUSAL_OUTPUT : 0, &unchanged, small, sizeof small);
    for (room = 0; room <= restated.length + 2; room++)
        judge("Pair", RESTATE, sheet, nothing, room, room < restated_length ? OATMIST_REFUSAL_OUTPUT : 0, &restated_length, restated_bytes, restated.length);
    for (room = 0; room <= sizeof small_text + 2; room++)
        judge("smallest", REPORT, smallest, nothing, room, room < small_length ? OATMIST_REFUSAL_OUTPUT : 0, &small_length, small_text, sizeof small_text - 1);
    for (room = 0; room <= sizeof text + 2; room++)
        judge("Pair", REPORT, sheet, nothing, room, room < text_length ? OATMIST_REFUSAL_OUTPUT : 0, &text_length, text, sizeof text - 1);
}

/* A4, P3: exact halves: 5 actions in 4 restated steps, and 7, each given as a step more. */
static void halves(void) {
    static const char five_text[] = "accepted 5 4 12 0\nstep 0 1\nstep 0\nstep 0\nstep 0\nend 0 0\nend 1 0\n";
    static const char seven_text[] = "accepted 5 4 18 0\nstep 0 1\nstep 0 1\nstep 0 1\nstep 0\nend 0 0\nend 1 0\n";
    const uint8_t five[5] = {1, 1, 1, 1, 2}, seven[5] = {1, 3, 3, 1, 2};
    const uint64_t five_length = sizeof five_text - 1, seven_length = sizeof seven_text - 1;
    uint8_t b1[PAIR_ROOM], b2[PAIR_ROOM];
    const struct sheet one = clocks(b1, 5, five), two = clocks(b2, 5, seven);
    gives_one("5 actions in 4 steps", FIGURE, one, 12);
    gives_one("7 actions in 4 steps", FIGURE, two, 18);
    judge("5 actions in 4 steps", REPORT, one, nothing, OUT_ROOM, 0, &five_length, five_text, sizeof five_text - 1);
    judge("7 actions in 4 steps", REPORT, two, nothing, OUT_ROOM, 0, &seven_length, seven_text, sizeof seven_text - 1);
}

/* O10: the library has the version of the header. */
static void same_version(void) { expect(oatmist_version() == OATMIST_VERSION_NUMBER, "version", "that of the header"); }

/* R1, R2, R10 to R12: refused sheets. */
static void turned_down(void) {
    static uint8_t zeros[OATMIST_LONGEST_SHEET + 1];
    const struct sheet too_long = {zeros, sizeof zeros}, unmarked = {zeros, OATMIST_LONGEST_SHEET};
    const uint8_t empty[2] = {1, 0}, both[2] = {1, 5}, again[2] = {1, 1};
    uint8_t bytes[PAIR_ROOM];
    refused("no bytes", nothing, OATMIST_REFUSAL_LENGTH, "refused 1 0\n");
    refused("25 bytes", cut, OATMIST_REFUSAL_LENGTH, "refused 1 0\n");
    refused("16,651 bytes", too_long, OATMIST_REFUSAL_LENGTH, "refused 1 0\n");
    refused("16,650 bytes", unmarked, OATMIST_REFUSAL_MARK, "refused 2 0\n");
    refused("an empty step", pair(bytes, 2, empty), refusal(OATMIST_REFUSAL_STEP, 0, 1), "refused 10 1\n");
    refused("a clash", pair(bytes, 2, both), refusal(OATMIST_REFUSAL_CLASH, 0, 1), "refused 11 1\n");
    refused("not enabled", pair(bytes, 2, again), refusal(OATMIST_REFUSAL_NOT_ENABLED, 0, 1), "refused 12 1\n");
}

/* A2: the leaner answer: the part that is due, or an empty one for a refused pair, whatever part stood there before. */
static void hands_back(const char *what, struct sheet one, struct sheet two, const uint8_t *bytes, size_t length) {
    struct oatmist_part part = {small, sizeof small}, null = {NULL, 0};
    const struct oatmist_part back = oatmist_leaner_part(one.bytes, one.length, two.bytes, two.length);
    oatmist_leaner(one.bytes, one.length, two.bytes, two.length, &part);
    expect(part.length == length && (bytes == NULL || part.bytes == bytes), "leaner", what);
    oatmist_leaner(one.bytes, one.length, two.bytes, two.length, &null);
    expect(null.length == length && (bytes == NULL || null.bytes == bytes), "leaner of a null part", what);
    expect(back.length == length && (bytes == NULL || back.bytes == bytes), "leaner by value", what);
}

/* A1 to A3: two sheets: whether they do the same work, and which is leaner. */
static void weighed(const char *what, struct sheet one, struct sheet two, uint64_t same, uint64_t winner, size_t section) {
    judge(what, SAME_WORK, one, two, 0, 0, &same, NULL, 0);
    judge(what, WINNER, one, two, 0, 0, &winner, NULL, 0);
    hands_back(what, one, two, (winner ? two : one).bytes + PAIR_STEPS_AT, section);
}

/* O6, O7, A2: two sheets that are refused. */
static void pair_refused(const char *what, struct sheet one, struct sheet two, uint64_t told) {
    judge(what, SAME_WORK, one, two, 0, told, NULL, NULL, 0);
    judge(what, WINNER, one, two, 0, told, NULL, NULL, 0);
    hands_back(what, one, two, NULL, 0);
}

/* A1 to A3, O6, O7, R14: pairs of sheets. */
static void pairs(void) {
    const uint8_t steps[3] = {1, 2, 4}, turned[2] = {2, 1}, faulty[2] = {1, 1};
    uint8_t b1[PAIR_ROOM], b2[PAIR_ROOM], b3[PAIR_ROOM], b4[PAIR_ROOM], b5[PAIR_ROOM];
    const struct sheet three = pair(b1, 3, steps), two = pair(b2, 2, steps), other = pair(b3, 2, turned), none = pair(b4, 0, steps);
    const struct sheet bad = pair(b5, 2, faulty);
    weighed("second leaner", three, two, 0, 1, 16);
    weighed("first leaner", two, three, 0, 0, 16);
    weighed("a tie", other, two, 1, 0, 16);
    weighed("a sheet and itself", three, three, 1, 0, 24);
    weighed("no steps", two, none, 0, 1, 0);
    pair_refused("second refused", two, bad, refusal(OATMIST_REFUSAL_NOT_ENABLED, 1, 1));
    pair_refused("first refused", bad, two, refusal(OATMIST_REFUSAL_NOT_ENABLED, 0, 1));
    pair_refused("both refused", cut, bad, OATMIST_REFUSAL_LENGTH);
    pair_refused("second cut", two, cut, refusal(OATMIST_REFUSAL_LENGTH, 1, 0));
    pair_refused("first null", nothing, two, OATMIST_REFUSAL_LENGTH);
    pair_refused("second null", two, nothing, refusal(OATMIST_REFUSAL_LENGTH, 1, 0));
    pair_refused("both null", nothing, nothing, OATMIST_REFUSAL_LENGTH);
    pair_refused("other tables", two, smallest, OATMIST_REFUSAL_TABLES);
    pair_refused("other tables, turned", smallest, two, OATMIST_REFUSAL_TABLES);
}

/* B5: a product of two components and three rows: component 0 with two states and the transitions 0 to 1 and 1 to 0, component 1 with one
   state and a loop; the rows (0, idle), (1, 0) and (idle, 0). */
static const uint8_t product[20] = {2, 3, 2, 0, 2, 0, 1, 1, 0, 1, 0, 1, 0, 0, 0, 255, 1, 0, 255, 0};

/* B7 to B10: the sheet that it becomes. */
static const uint8_t product_sheet[58] = {2, 0, 0, 0, 1, 0, 0, 0, 3, 0, 0, 0, 0, 0, 0, 0, 1, 0, 0, 0, 1, 0, 0, 0, 6, 0, 0, 0, 0, 0, 0, 0,
                                          0, 0, 0, 1, 0, 1, 1, 0, 1, 0, 1, 0, 1, 0, 2, 0, 0, 0, 32, 0, 48, 0, 2, 3, 0x46, 0x53};

/* R13, O5: a call that writes these bytes, with outputs of every length up to two bytes more. */
static void writes(const char *what, enum call call, struct sheet one, struct sheet two, struct sheet due) {
    const uint64_t length = due.length;
    size_t room;
    for (room = 0; room <= due.length + 2; room++)
        judge(what, call, one, two, room, room < due.length ? OATMIST_REFUSAL_OUTPUT : 0, &length, due.bytes, due.length);
    judge(what, call, one, two, OUT_ROOM, 0, &length, due.bytes, due.length);
}

/* O5: a call that refuses like this, whatever is lent. */
static void writes_nothing(const char *what, enum call call, struct sheet one, struct sheet two, uint64_t told) {
    const size_t rooms[] = {0, 1, 57, 58, OUT_ROOM};
    size_t k;
    for (k = 0; k < sizeof rooms / sizeof rooms[0]; k++)
        judge(what, call, one, two, rooms[k], told, NULL, NULL, 0);
}

/* B6: a product of which this sheet is due, which the desk accepts. */
static void becomes(const char *what, struct sheet given, struct sheet due) {
    const uint64_t sizes[4] = {given.bytes[0], given.bytes[1], 16 * (uint64_t)given.bytes[0], due.length - 10};
    writes(what, ROWS, given, nothing, due);
    gives(what, CHECK, due, sizes);
    gives_one(what, PROCESS, due, 0);
}

/* O8: a product that is refused like this. */
static void product_refused(const char *what, struct sheet given, uint64_t told) { writes_nothing(what, ROWS, given, nothing, told); }

/* The product with two of its bytes changed, or the same byte twice. */
static void changed(const char *what, size_t at, uint8_t value, size_t at2, uint8_t value2, uint64_t told) {
    uint8_t bytes[sizeof product];
    const struct sheet given = {bytes, sizeof bytes};
    memcpy(bytes, product, sizeof product);
    bytes[at] = value;
    bytes[at2] = value2;
    product_refused(what, given, told);
}

/* R15: one byte out of range. */
static void out_of_range(const char *what, size_t at, uint8_t value) { changed(what, at, value, at, value, OATMIST_REFUSAL_PRODUCT); }

/* B5 to B10, R15, R16, R17, O8: products given by rows. */
static void products(void) {
    static const uint8_t one[8] = {1, 1, 1, 0, 1, 0, 0, 0};
    static const uint8_t one_sheet[30] = {1, 0, 0, 0, 1, 0, 0, 0, 1, 0, 0, 0, 0, 0, 0, 0, 0, 0, 0, 0, 0, 0, 16, 0, 20, 0, 1, 1, 0x46, 0x53};
    static const uint8_t idle_row[6] = {1, 1, 1, 0, 0, 255}, idle_component[16] = {2, 2, 2, 0, 2, 0, 1, 1, 0, 1, 0, 0, 0, 255, 1, 255};
    static const struct sheet two = {product, sizeof product}, two_due = {product_sheet, sizeof product_sheet};
    static const struct sheet single = {one, sizeof one}, single_due = {one_sheet, sizeof one_sheet};
    static const struct sheet idle = {idle_component, sizeof idle_component}, both_idle = {idle_row, sizeof idle_row};
    uint8_t bytes[sizeof product + 1] = {0};
    struct sheet given = {bytes, sizeof bytes};
    becomes("two components", two, two_due);
    becomes("one component", single, single_due);
    product_refused("no bytes", nothing, OATMIST_REFUSAL_PRODUCT);
    memcpy(bytes, product, sizeof product);
    product_refused("a byte behind", given, OATMIST_REFUSAL_PRODUCT);
    for (given.length = 0; given.length < sizeof product; given.length++)
        product_refused("cut", given, OATMIST_REFUSAL_PRODUCT);
    out_of_range("no components", 0, 0);
    out_of_range("17 components", 0, 17);
    out_of_range("no rows", 1, 0);
    out_of_range("65 rows", 1, 65);
    out_of_range("a row too few", 1, 2);
    out_of_range("a row too many", 1, 4);
    out_of_range("no states", 2, 0);
    out_of_range("33 states", 2, 33);
    out_of_range("initial state", 3, 2);
    out_of_range("a transition too many", 4, 3);
    out_of_range("source", 5, 2);
    out_of_range("target", 8, 2);
    out_of_range("target in the last component", 13, 1);
    out_of_range("number", 14, 2);
    out_of_range("number 254", 14, 254);
    out_of_range("number in the last component", 15, 1);
    changed("idle throughout", 18, 255, 19, 255, OATMIST_REFUSAL_ROW);
    changed("the row before again", 18, 1, 19, 0, OATMIST_REFUSAL_ROW);
    changed("an earlier row again", 18, 0, 19, 255, OATMIST_REFUSAL_ROW);
    changed("idle throughout, and a number", 19, 255, 14, 2, OATMIST_REFUSAL_PRODUCT);
    product_refused("an idle component", idle, OATMIST_REFUSAL_IDLE_COMPONENT);
    product_refused("an idle component, by an idle row", both_idle, OATMIST_REFUSAL_ROW);
}

/* R13: the longest sheet of a product, of sixteen components that all take part in each of 64 rows: OATMIST_ROWS_ROOM bytes. */
static void longest(void) {
    static uint8_t bytes[2 + OATMIST_COMPONENTS * (3 + 2 * 64) + OATMIST_COMPONENTS * 64], sheet[OATMIST_ROWS_ROOM];
    uint8_t *at = bytes;
    uint64_t written = 0;
    size_t j, g;
    *at++ = OATMIST_COMPONENTS;
    *at++ = 64;
    for (j = 0; j < OATMIST_COMPONENTS; j++, at += 3 + 2 * 64) {
        at[0] = 1;
        at[2] = 64;
    }
    for (g = 0; g < 64; g++, at += OATMIST_COMPONENTS)
        memset(at, (int)g, OATMIST_COMPONENTS);
    expect(oatmist_rows(bytes, sizeof bytes, sheet, sizeof sheet - 1, &written, 1) == OATMIST_REFUSAL_OUTPUT, "rows", "a byte too few");
    expect(oatmist_rows(bytes, sizeof bytes, sheet, sizeof sheet, &written, 1) == 0, "rows", "the longest sheet");
    expect(written == sizeof sheet, "rows", "the length of the longest sheet");
}

/* V2: the columns of {0} {1} {2} {0} over Pair: 0 2 0, and 1 2. */
static const uint8_t pair_columns[9] = {3, 0, 0, 2, 0, 2, 0, 1, 2};

/* O9: columns over Pair that are refused like this, be the sheet with or without steps. */
static void pair_columns_refused(const char *what, const uint8_t *bytes, size_t length, uint64_t told) {
    const struct sheet columns = {bytes, length};
    const uint8_t steps[2] = {2, 1};
    uint8_t b1[PAIR_ROOM], b2[PAIR_ROOM];
    writes_nothing(what, COLUMNS, pair(b1, 0, steps), columns, told);
    writes_nothing(what, COLUMNS, pair(b2, 2, steps), columns, told);
}

/* R18, R19: the columns over Pair with one of their bytes changed. */
static void column_changed(const char *what, size_t at, uint8_t value, uint64_t told) {
    uint8_t bytes[sizeof pair_columns];
    memcpy(bytes, pair_columns, sizeof pair_columns);
    bytes[at] = value;
    pair_columns_refused(what, bytes, sizeof bytes, told);
}

/* V1 to V4, R13, R18, R19, O9: an execution from columns, over Pair. */
static void columns(void) {
    static const uint8_t none[4] = {0, 0, 0, 0}, behind[10] = {3, 0, 0, 2, 0, 2, 0, 1, 2, 0}, not_enabled[6] = {1, 0, 2, 1, 0, 2};
    static const struct sheet right = {pair_columns, sizeof pair_columns}, empty = {none, sizeof none}, one_empty = {none, 2};
    const uint8_t own[4] = {1, 2, 4, 1}, packed[3] = {3, 4, 1}, again[2] = {1, 1};
    uint8_t b1[PAIR_ROOM], b2[PAIR_ROOM], b3[PAIR_ROOM];
    const struct sheet due = pair(b2, 3, packed), bare = pair(b3, 0, own);
    size_t k;
    for (k = 0; k <= 4; k++) {
        writes("Pair", COLUMNS, pair(b1, k, own), right, due);
        writes("Pair, nothing done", COLUMNS, pair(b1, k, own), empty, bare);
    }
    gives_one("Pair by columns", PROCESS, due, 0);
    writes("smallest", COLUMNS, smallest, one_empty, smallest);
    for (k = 0; k < sizeof pair_columns; k++)
        pair_columns_refused("cut", pair_columns, k, OATMIST_REFUSAL_COLUMNS);
    pair_columns_refused("no columns", NULL, 0, OATMIST_REFUSAL_COLUMNS);
    pair_columns_refused("a byte behind", behind, sizeof behind, OATMIST_REFUSAL_COLUMNS);
    column_changed("a count too small", 5, 1, OATMIST_REFUSAL_COLUMNS);
    column_changed("a count too large", 5, 3, OATMIST_REFUSAL_COLUMNS);
    column_changed("a count of 65,282", 6, 255, OATMIST_REFUSAL_COLUMNS);
    column_changed("a first count of 65,283", 1, 255, OATMIST_REFUSAL_COLUMNS);
    column_changed("an action of the other component", 2, 1, OATMIST_REFUSAL_COLUMNS);
    column_changed("no action", 8, 3, OATMIST_REFUSAL_COLUMNS);
    column_changed("label 64", 2, 64, OATMIST_REFUSAL_COLUMNS);
    column_changed("the internal label", 7, 255, OATMIST_REFUSAL_COLUMNS);
    column_changed("a shared action once less", 8, 1, OATMIST_REFUSAL_NO_EXECUTION);
    column_changed("a shared action once more", 4, 2, OATMIST_REFUSAL_NO_EXECUTION);
    pair_columns_refused("not enabled", not_enabled, sizeof not_enabled, OATMIST_REFUSAL_NO_EXECUTION);
    writes_nothing("no sheet", COLUMNS, nothing, right, OATMIST_REFUSAL_LENGTH);
    writes_nothing("nothing at all", COLUMNS, nothing, nothing, OATMIST_REFUSAL_LENGTH);
    writes_nothing("a cut sheet", COLUMNS, cut, one_empty, OATMIST_REFUSAL_LENGTH);
    writes_nothing("its own steps", COLUMNS, pair(b1, 2, again), right, refusal(OATMIST_REFUSAL_NOT_ENABLED, 0, 1));
    writes_nothing("its own steps, no columns", COLUMNS, pair(b1, 2, again), nothing, refusal(OATMIST_REFUSAL_NOT_ENABLED, 0, 1));
}

/* R19: two components that share both their actions, and agree on the order, or wait for each other. */
static void waiting(void) {
    static const uint8_t both[58] = {1, 0, 0, 0, 1, 0, 0, 0, 3, 0, 0, 0, 0, 0, 0, 0, 1, 0, 0, 0, 1, 0, 0, 0, 3, 0, 0, 0, 0, 0, 0, 0,
                                     0, 0, 0, 0, 0, 0, 1, 0, 1, 0, 0, 0, 1, 0, 1, 0, 0, 0, 32, 0, 48, 0, 2, 2, 0x46, 0x53};
    static const uint8_t agreed[8] = {2, 0, 0, 1, 2, 0, 0, 1}, waits[8] = {2, 0, 0, 1, 2, 0, 1, 0};
    static const struct sheet sheet = {both, sizeof both}, order = {agreed, sizeof agreed}, circle = {waits, sizeof waits};
    uint8_t bytes[sizeof both + 16] = {0};
    const struct sheet due = {bytes, sizeof bytes};
    memcpy(bytes, both, 48);
    bytes[48] = 1;
    bytes[56] = 2;
    memcpy(bytes + 64, both + 48, 10);
    writes("agreed", COLUMNS, sheet, order, due);
    writes_nothing("a circle", COLUMNS, sheet, circle, OATMIST_REFUSAL_NO_EXECUTION);
}

/* R13, R18: the longest sheet from columns, OATMIST_LONGEST_SHEET bytes, over sixteen components of 32 states with four actions each:
   component 0 does action 0 as often as columns have labels. */
static void longest_columns(void) {
    enum { TABLES = 16 * OATMIST_COMPONENTS + 4 * 2048, LABELS = 1024 };
    static uint8_t sheet[TABLES + 10], bytes[2 * OATMIST_COMPONENTS + LABELS + 1], made[OATMIST_LONGEST_SHEET];
    static const uint8_t trailer[10] = {0, 0, 0, 1, TABLES & 255, TABLES >> 8, OATMIST_COMPONENTS, 64, 0x46, 0x53};
    uint8_t *at = sheet + 16 * OATMIST_COMPONENTS;
    uint64_t written = 0;
    int j, q, a;
    for (j = 0; j < OATMIST_COMPONENTS; j++) {
        sheet[16 * j] = 32;
        sheet[16 * j + 4] = 1;
        sheet[16 * j + 8 + j / 2] = (uint8_t)(j % 2 == 0 ? 0x0f : 0xf0);
        for (q = 0; q < 32; q++)
            for (a = 4 * j; a < 4 * j + 4; a++, at += 4) {
                at[0] = (uint8_t)j;
                at[1] = (uint8_t)q;
                at[2] = (uint8_t)a;
                at[3] = (uint8_t)((q + 1) % 32);
            }
    }
    memcpy(at, trailer, sizeof trailer);
    bytes[1] = LABELS >> 8;
    expect(oatmist_columns(sheet, sizeof sheet, bytes, sizeof bytes - 1, made, sizeof made - 1, &written, 1) == OATMIST_REFUSAL_OUTPUT,
           "columns", "a byte too few");
    expect(oatmist_columns(sheet, sizeof sheet, bytes, sizeof bytes - 1, made, sizeof made, &written, 1) == 0, "columns", "the longest sheet");
    expect(written == sizeof made, "columns", "the length of the longest sheet");
    bytes[0] = 1;
    expect(oatmist_columns(sheet, sizeof sheet, bytes, sizeof bytes, made, sizeof made, &written, 1) == OATMIST_REFUSAL_COLUMNS, "columns",
           "a label too many");
}

int main(void) {
    taken_apart();
    same_version();
    accepted();
    halves();
    turned_down();
    pairs();
    products();
    longest();
    columns();
    waiting();
    longest_columns();
    printf("%d passed, %d failed\n", passed, failed);
    return failed != 0;
}
