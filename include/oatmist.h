/* Oatmist for C and C++: the calls of the static library that `tools/build` makes.

   What a call is given. A sheet is any bytes, and so are a product and columns: every call takes all of them, and always answers. Each
   array is passed as a pointer and a length in entries, in this order. A pointer may be null where its length is 0, is aligned for its
   type, and an array that is lent to be written overlaps no other argument.

   What a call returns. 0: the call answered. Its values stand at the front of the array `answer` (or `ends`), as many as there is room
   for; the other entries keep their values. Not 0: the call refused, and every lent array is as it came. OATMIST_REFUSAL then has the
   number of the refusal, OATMIST_STEP the index of the step that it is about (from 0; 0 where it is about no step), and OATMIST_SHEET
   which of two sheets it is about (0 for the first, 1 for the second; 0 where it is about both, or there is but one). Of another
   kind are `oatmist_leaner`, which returns nothing, and `oatmist_version`, which is given nothing and returns the version.

     uint64_t figure, told = oatmist_figure(sheet, length, &figure, 1);
     if (told)
         printf("refused %d %d\n", OATMIST_REFUSAL(told), OATMIST_STEP(told));
     else
         printf("figure %d\n", (int)figure);

   Threads. The library keeps nothing between calls and takes no memory but the caller's stack: calls may run side by side, on the same
   sheets too, as long as each has outputs of its own.

   Stack. OATMIST_STACK bytes serve every call: no sheet, product or columns need more. So a thread with a stack of 256 KiB always serves.
   Measured on x86-64, in KiB, for small and middle sheets, and behind the slash for the largest: version 1 / 1, rows 3 / 3, check, process,
   end_sets, winner and leaner 25 / 83, figure and restate 25 / 84, stuck 26 / 84, columns 34 / 92, same_work 41 / 99, report 50 / 108. A sheet
   is small or middle here where its components times its actions, and for each component the actions it has in some step times one more
   than its states, make at most 1,280 together. */
#ifndef OATMIST_H
#define OATMIST_H

#include <stddef.h>
#include <stdint.h>

#ifdef __cplusplus
extern "C" {
#endif

/* The version, as in the file VERSION: as a text, and as a number that grows, 10000 times the first part, 100 times the second, the third. */
#define OATMIST_VERSION "2.0.0"
#define OATMIST_VERSION_NUMBER 20000

/* The version of the library, as such a number; nothing is refused. OATMIST_VERSION_NUMBER is that of the header, so where

     oatmist_version() != OATMIST_VERSION_NUMBER

   header and library are of two versions. The first part tells by which rules a library answers: from 20000 on a figure that is an
   exact half is rounded to the even number beside it, before that it was rounded up. A library before 20000 does not have this call. */
uint64_t oatmist_version(void);

/* Limits of a sheet, in bytes; other lengths are refused. A restated sheet is never longer than its sheet. One from columns may be, and
   an output of OATMIST_LONGEST_SHEET bytes always serves for it. */
#define OATMIST_SHORTEST_SHEET 26
#define OATMIST_LONGEST_SHEET 16650

/* The most components that a sheet has, and so the end sets of every sheet. */
#define OATMIST_COMPONENTS 16

/* An output of so many bytes always serves for a report. */
#define OATMIST_REPORT_ROOM 16384

/* An output of so many bytes always serves for the sheet of a product given by rows. */
#define OATMIST_ROWS_ROOM 4362

/* Stack that serves every call, in bytes: more than the most that was measured. */
#define OATMIST_STACK 131072

/* What a call returned, taken apart: its number in bits 0 to 7, the sheet in bits 8 to 15, the step index from bit 16 on. */
#define OATMIST_REFUSAL(told) ((int)((told) & 255))
#define OATMIST_SHEET(told) ((int)(((told) >> 8) & 255))
#define OATMIST_STEP(told) ((int)((told) >> 16))

/* The refusals; docs/RULES.md has each as R1 to R19. Of a sheet a call gives the lowest number that applies; among 10 to 12 the earliest
   faulty step comes first. Only 10 to 12 have a step index other than 0. Of two sheets the first is judged first, then the second, then
   14. Of a product 15, 16 and 17 come in this order, then 13. Of columns those of their sheet come first, then 18, 19, and last 13. */
enum oatmist_refusal {
    OATMIST_REFUSAL_LENGTH = 1,          /* the sheet is too short or too long */
    OATMIST_REFUSAL_MARK = 2,            /* it does not end in hexadecimal 46 53 */
    OATMIST_REFUSAL_COUNTS = 3,          /* not 1 to 16 components, or not 1 to 64 actions */
    OATMIST_REFUSAL_OFFSETS = 4,         /* the offsets do not fit, or too many transitions or steps */
    OATMIST_REFUSAL_RECORD = 5,          /* a component's record is wrong */
    OATMIST_REFUSAL_UNUSED_ACTION = 6,   /* an action is in no alphabet */
    OATMIST_REFUSAL_TRANSITION = 7,      /* a transition names something that is not there */
    OATMIST_REFUSAL_ORDER = 8,           /* the transitions are not sorted, or one stands twice */
    OATMIST_REFUSAL_ACTIONS = 9,         /* more than 1,024 actions over all steps */
    OATMIST_REFUSAL_STEP = 10,           /* the step is empty, or has an unknown action */
    OATMIST_REFUSAL_CLASH = 11,          /* two actions of the step share a component */
    OATMIST_REFUSAL_NOT_ENABLED = 12,    /* an action of the step is not enabled before it */
    OATMIST_REFUSAL_OUTPUT = 13,         /* the lent output is too short */
    OATMIST_REFUSAL_TABLES = 14,         /* two sheets over different components or transitions */
    OATMIST_REFUSAL_PRODUCT = 15,        /* a product's length does not fit, or a count, state or number is out of range */
    OATMIST_REFUSAL_ROW = 16,            /* a row is idle throughout, or repeats an earlier row */
    OATMIST_REFUSAL_IDLE_COMPONENT = 17, /* a component is idle in every row */
    OATMIST_REFUSAL_COLUMNS = 18,        /* the columns do not fill their bytes, have too many labels, or one outside its alphabet */
    OATMIST_REFUSAL_NO_EXECUTION = 19    /* no execution of this system has these columns */
};

/* The check. Four values: the number of components, the number of actions, where the transitions begin and where the steps begin. */
uint64_t oatmist_check(const uint8_t *sheet, size_t sheet_length, uint64_t *answer, size_t answer_length);

/* Where each component may be after the last step. Sixteen values: the set of component j, with bit i for state i; 0 for a component
   that the sheet does not have. */
uint64_t oatmist_end_sets(const uint8_t *sheet, size_t sheet_length, uint64_t *ends, size_t ends_length);

/* Whether the execution is a process execution. One value: 0 for yes, else 1 + the index of the first step that offends. */
uint64_t oatmist_process(const uint8_t *sheet, size_t sheet_length, uint64_t *answer, size_t answer_length);

/* The sheet restated in normal form, written to the front of `out`; the bytes behind it keep their values. One value: how many bytes
   were written. An output that is too short is refusal 13. */
uint64_t oatmist_restate(const uint8_t *sheet, size_t sheet_length, uint8_t *out, size_t out_length, uint64_t *answer, size_t answer_length);

/* The concurrency figure: ten times the actions, divided by the number of restated steps and rounded to a whole number, an exact half to the
   even one: so 5 actions in 4 steps make 12, and 7 make 18. Without steps it is 0. One value. */
uint64_t oatmist_figure(const uint8_t *sheet, size_t sheet_length, uint64_t *answer, size_t answer_length);

/* Whether the sheet is stuck: after the last step no action is enabled. One value: 1 for yes, 0 for no. */
uint64_t oatmist_stuck(const uint8_t *sheet, size_t sheet_length, uint64_t *answer, size_t answer_length);

/* The text that the program prints, written to the front of `out`; the bytes behind it keep their values. One value: its length. A
   refused sheet has a text too, so 13, for an output that is too short, is the only refusal here. */
uint64_t oatmist_report(const uint8_t *sheet, size_t sheet_length, uint8_t *out, size_t out_length, uint64_t *answer, size_t answer_length);

/* Whether two sheets do the same work: they are related. One value: 1 for yes, 0 for no. */
uint64_t oatmist_same_work(const uint8_t *first, size_t first_length, const uint8_t *second, size_t second_length, uint64_t *answer,
                           size_t answer_length);

/* Which of two sheets has fewer restated steps. One value: 0 for the first, also where they tie, 1 for the second. */
uint64_t oatmist_winner(const uint8_t *first, size_t first_length, const uint8_t *second, size_t second_length, uint64_t *answer,
                        size_t answer_length);

/* A product given by rows, turned into a sheet without steps, which is written to the front of `out`; the bytes behind it keep their
   values. One value: how many bytes were written. The product is the number of components and that of rows; of each component in turn
   its number of states, initial state and number of transitions, then source and target of each transition; then the rows. All are
   single bytes, and a row has one for each component: the number of one of its transitions, from 0, or 255 for idle. Row g becomes
   action g. Refused are 15, 16 and 17, and last 13, for an output that is too short. */
uint64_t oatmist_rows(const uint8_t *product, size_t product_length, uint8_t *out, size_t out_length, uint64_t *answer,
                      size_t answer_length);

/* An execution from columns: the sheet in normal form over the components and transitions of the given one whose columns are these. It is
   written to the front of `out`; the bytes behind it keep their values. One value: how many bytes were written. The columns are, for each
   component in turn, the number of its labels in two bytes, the low one first, and then the labels, a byte each: its own actions in their
   order. They have at most 1,024 labels together. The steps of the given sheet play no part, but it must be accepted. Refused are 1 to 12,
   of the sheet, then 18 and 19, and last 13, for an output that is too short. */
uint64_t oatmist_columns(const uint8_t *sheet, size_t sheet_length, const uint8_t *columns, size_t columns_length, uint8_t *out,
                         size_t out_length, uint64_t *answer, size_t answer_length);

/* Some bytes of the caller, which stay where they are. */
struct oatmist_part {
    const uint8_t *bytes;
    size_t length;
};

/* The leaner answer: `*part` becomes the step section of the sheet that `oatmist_winner` tells, in the caller's own bytes. For a refused
   pair its length becomes 0, and its pointer is of no use. `*part` must hold a part before the call, be it an empty one. */
void oatmist_leaner(const uint8_t *first, size_t first_length, const uint8_t *second, size_t second_length, struct oatmist_part *part);

/* The same, handed back by value: nothing need be prepared. */
static inline struct oatmist_part oatmist_leaner_part(const uint8_t *first, size_t first_length, const uint8_t *second,
                                                      size_t second_length) {
    struct oatmist_part part = {NULL, 0};
    oatmist_leaner(first, first_length, second, second_length, &part);
    return part;
}

#ifdef __cplusplus
}
#endif

#endif
