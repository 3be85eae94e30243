/*
 * The flight planner of radiosonde ground stations: the C interface of the static library that `rt lib` writes in crates/exports
 * (crates/exports/out/libexports.a, x86-64, System V calling convention). The library needs memcpy and memset from the C library, and nothing else.
 *
 * Each call takes bytes and lists of every content and length, does its own checking, and returns. A call that refuses replies a number above 0 and
 * a place, and leaves every lent list as it was. Parts of a reply that are not named are 0. A lent list beyond what was written keeps its content.
 *
 * A list passes as a pointer and its length in elements.
 * - The pointer is never null and is aligned for its elements, also where the length is 0.
 * - A list that is lent for writing (no const) overlaps no other list of the same call. Lists that are only read may overlap or be the same.
 *
 * No call uses a heap, keeps anything between calls, or writes anything but the lists that it was lent and its reply. Calls on different lists may
 * run at the same time on different threads. A call needs less than 32 KB of stack, whatever the length of a run list,
 * by what was measured (README, 'Speed and memory').
 *
 * Ticks are milliseconds. A frame lasts p/q ticks. Planning and judging take a launch tick, 0 to 86399999 (a day's last tick), where frame 0 begins:
 * it is added to every tick of the frame clock. The data of a frame are complete when it ends: a window holds the ticks from launch plus the least tick
 * not before (release + 1) * p / q, included, to launch plus the greatest tick not after deadline * p / q, excluded. A window that has no tick is
 * empty, as every window of one frame is; its release tick may then lie one tick after its deadline tick. A table with mandatory ticks in an
 * empty window is refused with 8; a task without hinders no plan, and its optional part is discarded, where it has ticks. No run of a plan ends after tick
 * 131071 * 4095 + 86399999 = 623135744.
 *
 * A table is plain or weighted. In a weighted table each task carries a weight from 1 to 15 for its optional part, and a plan discards the least total
 * weight where that of a plain table discards the fewest parts. Weighted tables have files of their own form, and calls of their own for reading, writing,
 * planning and judging; the other calls that take a table or a file take plain ones.
 *
 * Plain tables of two kinds are accepted, and weighted tables of the first. Both are judged in frames, and each has an order of its tasks.
 * - Nested: of any two windows one contains the other. Nest order puts the window with fewer frames first, and the lower position first among
 *   equals. The last in it is outermost.
 * - Similar: of any two tasks the one released earlier has no later deadline, so that the windows follow one another. They may overlap, and equal
 *   releases put no condition on the two. Similar order is by release, deadline, position.
 * A table of both kinds is taken as nested.
 *
 * Refusals
 *
 *   number  cause                                                            place
 *   1       fewer than 4 bytes, or fewer than the count needs                the file's length
 *   2       task count 0 or above 64                                         0
 *   3       more bytes than the count needs                                  the length needed
 *   4       a padding bit is set                                             0
 *   5       p or q is 0 or above 4095, or p is below q                       0
 *   6       a release frame is not below the deadline frame                  the lowest such position
 *   7       a plain table is neither nested nor similar                      the lowest position such that the tasks up to and with it are of
 *                                                                            neither kind
 *           a weighted table is not nested                                   the lowest position not nested with some earlier one
 *   8       no running completes all mandatory parts                         the position of the first task in its kind's order where the
 *                                                                            mandatory ticks up to and with it can't be met
 *   9       a lent list is too short                                         0
 *   10      a moved frame is below 0 or above 131071                         the lowest such position
 *   11      the keep list is not n long, or a mark is above 1                n if the length is wrong, else the first bad mark
 *   12      a field to be written is wider than its bits                     the lowest such position
 *   13      more than 4096 runs                                              0
 *   14      the launch tick is above 86399999                                0
 *   15      a run whose start is not below its end, or lies before the       the index of the first such run
 *           previous end
 *   16      a weight is 0 or, in writing, above 15                           the lowest such position
 *
 * The first cause that holds, in the order that stands at each call, is the one replied.
 */
#ifndef PLANNER_H
#define PLANNER_H

#include <stdbool.h>
#include <stddef.h>
#include <stdint.h>

#ifdef __cplusplus
extern "C" {
#endif

#define PLANNER_MAX_TASKS 64          /* tasks of a table */
#define PLANNER_MAX_RUNS 4096         /* runs of a list that is judged, counted or asked */
#define PLANNER_LAST_FRAME 131071     /* the last frame that a table can name */
#define PLANNER_MAX_PERIOD 4095       /* p and q */
#define PLANNER_MAX_TICKS 16383       /* a mandatory or an optional part */
#define PLANNER_MAX_WEIGHT 15         /* a weight */
#define PLANNER_MAX_LAUNCH 86399999   /* the last launch tick that is accepted: a day has 86400000 */
#define PLANNER_MAX_FILE 500          /* bytes of a plain file of 64 tasks */
#define PLANNER_MAX_WEIGHTED_FILE 532 /* bytes of a weighted file of 64 tasks */
#define PLANNER_MAX_PLAN_RUNS 127     /* runs of a plan of 64 tasks */

/* The bytes of a plain file of n tasks, and of a weighted one. */
#define PLANNER_FILE_LENGTH(n) ((31 + 62 * (size_t)(n) + 7) / 8)
#define PLANNER_WEIGHTED_FILE_LENGTH(n) ((31 + 66 * (size_t)(n) + 7) / 8)

/* The most runs that a plan of n tasks has, n at least 1. */
#define PLANNER_PLAN_RUNS(n) (2 * (size_t)(n) - 1)

/* The numbers of the refusals. */
enum {
    PLANNER_ACCEPTED = 0,
    PLANNER_SHORT_FILE = 1,
    PLANNER_BAD_COUNT = 2,
    PLANNER_LONG_FILE = 3,
    PLANNER_PADDING_SET = 4,
    PLANNER_BAD_PERIOD = 5,
    PLANNER_BAD_WINDOW = 6,
    PLANNER_NEITHER_KIND = 7,
    PLANNER_NOT_NESTED = PLANNER_NEITHER_KIND, /* its name where only nested tables are accepted: of weighted tables, and once of all */
    PLANNER_NO_RUNNING = 8,
    PLANNER_SHORT_LIST = 9,
    PLANNER_FRAME_OUTSIDE = 10,
    PLANNER_BAD_MARKS = 11,
    PLANNER_WIDE_FIELD = 12,
    PLANNER_MANY_RUNS = 13,
    PLANNER_BAD_RUNS = PLANNER_MANY_RUNS, /* its name when runs came as three columns */
    PLANNER_BAD_LAUNCH = 14,
    PLANNER_RUNS_OUT_OF_ORDER = 15,
    PLANNER_BAD_WEIGHT = 16
};

/* A task: its window in frames, its two lengths in ticks. */
struct planner_task {
    uint32_t release;   /* 0 to 131071, below the deadline */
    uint32_t deadline;  /* 0 to 131071 */
    uint32_t mandatory; /* 0 to 16383 */
    uint32_t optional;  /* 0 to 16383; run whole or not at all */
};

/* A plain table. Places beyond the count are 0 in a table that was read, and disregarded in one that is written. */
struct planner_table {
    uint32_t count; /* 1 to 64 */
    uint32_t p;     /* 1 to 4095, at least q */
    uint32_t q;     /* 1 to 4095 */
    struct planner_task tasks[PLANNER_MAX_TASKS];
};

/* A weighted table: a plain one, and the weight of the task at each position beside it. Places beyond the count are 0 and disregarded likewise. */
struct planner_weighted_table {
    struct planner_table table;
    uint32_t weights[PLANNER_MAX_TASKS]; /* 1 to 15 */
};

/* A run: it gives the ticks from its start, included, to its end, excluded, to the task at a position. */
struct planner_run {
    uint32_t start;
    uint32_t end;
    uint32_t task;
};

/* The reply of planner_read. */
struct planner_table_read {
    uint32_t number;
    size_t place;
    struct planner_table table; /* 0 throughout on a refusal */
};

/* The reply of planner_weighted_read. */
struct planner_weighted_table_read {
    uint32_t number;
    size_t place;
    struct planner_weighted_table table; /* 0 throughout on a refusal */
};

/* The reply of planner_write, planner_shift and planner_weighted_write. */
struct planner_written {
    uint32_t number;
    size_t place;
    size_t bytes; /* written at the head of the list */
};

/* The reply of planner_plan and planner_weighted_plan. Optional parts of 0 ticks are in neither count. */
struct planner_planned {
    uint32_t number;
    size_t place;
    uint32_t kept;      /* optional parts that are run */
    uint32_t discarded; /* optional parts that are not; no running of a plain table discards fewer, and none of a weighted one less weight */
    size_t runs;        /* written at the head of the three columns */
};

/* The reply of planner_judge and planner_weighted_judge. The counts come with a yes; with a no both are 0. */
struct planner_judged {
    uint32_t number;
    size_t place;
    bool yes;
    uint32_t kept;
    uint32_t discarded;
};

/* The reply of planner_busy. */
struct planner_busy_count {
    uint32_t number;
    size_t place;
    uint64_t ticks;
};

/* The reply of planner_check_runs. */
struct planner_checked {
    uint32_t number;
    size_t place;
};

/* The reply of planner_run_at and planner_run_from: a run or none. The run is 0 throughout where there is none, and on a refusal. */
struct planner_found {
    uint32_t number;
    size_t place;
    bool found;
    struct planner_run run;
};

/* The reply of planner_runs_touching: a stretch of the caller's list, by its first index and how many runs. Of an empty one both are 0. */
struct planner_part {
    size_t first;
    size_t runs;
};

/*
 * Reading: the table of a file. Fields are bit-packed, the most significant bit first: task count 7 bits, p 12, q 12; then for each task release 17,
 * deadline 17, mandatory 14, optional 14; the rest of the last byte is 0.
 * Refusals: 1 (under 4 bytes), 2, 1, 3, 4, 5, 6, 7.
 */
struct planner_table_read planner_read(const uint8_t *file, size_t file_length);

/*
 * Writing: the file of a table, into a list of at least PLANNER_FILE_LENGTH(count) bytes.
 * Refusals: 2, 5, 12, 6, 7, 9.
 */
struct planner_written planner_write(struct planner_table table, uint8_t *out, size_t out_length);

/*
 * Moving: the file with both frames of every task changed by a signed number, into a list of at least file_length bytes.
 * Refusals: those of reading, 10, 9.
 */
struct planner_written planner_shift(const uint8_t *file, size_t file_length, int32_t frames, uint8_t *out, size_t out_length);

/*
 * Planning a file of n tasks at a launch tick, into lists of at least n marks and 2n - 1 starts, ends and tasks (64 and 127 are always enough). A
 * mark is 1 where the optional part of the task at that position is kept, and 0 where it is discarded; it is 1 for a part of 0 ticks. Run i of the
 * plan gives the ticks from starts[i], included, to ends[i], excluded, to the task tasks[i]; runs are listed by start.
 * - Of the lists of marks that fit, the plan has one that discards fewest parts. In a nested table it is then one with the least total of kept
 *   optional ticks, and then, at the outermost task where two lists differ, the one that keeps. In a similar table it is then, at the last task in
 *   similar order where two lists differ, the one that keeps.
 * - In a nested table each task, in nest order, takes the latest ticks of its window that are still free. In a similar table each task runs in
 *   similar order, as early as it can, and the plan has at most n runs.
 * - The reply and the marks are the same for every accepted launch tick, and each run lies later by it than with launch 0.
 * Refusals: those of reading, 14, 8, 9. 9 is sent for fewer than 2n - 1 places whatever the kind.
 */
struct planner_planned planner_plan(const uint8_t *file, size_t file_length,
                                    uint32_t launch,
                                    uint8_t *marks, size_t marks_length,
                                    uint32_t *starts, size_t starts_length,
                                    uint32_t *ends, size_t ends_length,
                                    uint32_t *tasks, size_t tasks_length);

/*
 * Judging a keep list of n marks and a run list at a launch tick, whoever made them. Yes means: every start is below its end, no run starts before
 * the one listed before it ends, every task number is in the table, every run is inside its window at that launch tick, and each task's runs total
 * its work exactly (its mandatory ticks, plus its optional ticks where its mark is 1).
 * Refusals: those of reading, 14, 11, 13.
 */
struct planner_judged planner_judge(const uint8_t *file, size_t file_length,
                                    uint32_t launch,
                                    const uint8_t *marks, size_t marks_length,
                                    const struct planner_run *runs, size_t runs_length);

/*
 * Reading a weighted table: the weighted table of a file. The fields are those of a plain file, and for each task, behind the optional ticks, weight 4.
 * Refusals: 1 (under 4 bytes), 2, 1, 3, 4, 5, 6, 16, 7.
 */
struct planner_weighted_table_read planner_weighted_read(const uint8_t *file, size_t file_length);

/*
 * Writing a weighted table: its file, into a list of at least PLANNER_WEIGHTED_FILE_LENGTH(count) bytes.
 * Refusals: 2, 5, 12, 6, 16, 7, 9. 12 does not look at weights: one that is wider than its bits gets 16.
 */
struct planner_written planner_weighted_write(struct planner_weighted_table table, uint8_t *out, size_t out_length);

/*
 * Planning a weighted file of n tasks at a launch tick, into lists as long as those of planner_plan. Marks and runs mean the same, and work is placed as
 * that of a plain nested table.
 * - Of the lists of marks that fit, the plan has one that discards the least total weight; an optional part of 0 ticks adds nothing. Another list may
 *   discard fewer parts. It is then one with the least total of kept optional ticks, and then, at the outermost task where two lists differ, the one that
 *   keeps.
 * - The counts kept and discarded are numbers of parts, and not weights.
 * - With all weights 1 the reply and the lists are those of planner_plan for the plain table's file.
 * - The reply and the marks are the same for every accepted launch tick, and each run lies later by it than with launch 0.
 * Refusals: those of planner_weighted_read, 14, 8, 9.
 */
struct planner_planned planner_weighted_plan(const uint8_t *file, size_t file_length,
                                             uint32_t launch,
                                             uint8_t *marks, size_t marks_length,
                                             uint32_t *starts, size_t starts_length,
                                             uint32_t *ends, size_t ends_length,
                                             uint32_t *tasks, size_t tasks_length);

/*
 * Judging a keep list of n marks and a run list by a weighted file at a launch tick, whoever made them. Yes means what it means in planner_judge: no
 * weight is looked at, and the counts are numbers of parts.
 * Refusals: those of planner_weighted_read, 14, 11, 13.
 */
struct planner_judged planner_weighted_judge(const uint8_t *file, size_t file_length,
                                             uint32_t launch,
                                             const uint8_t *marks, size_t marks_length,
                                             const struct planner_run *runs, size_t runs_length);

/*
 * The busy count and the queries of a run list, whoever made it. The list is accepted where it has at most PLANNER_MAX_RUNS runs, every start is below
 * its end, and no start lies before the previous end. Runs that touch, and any task numbers, are no fault.
 * Refusals, before anything else is looked at: 13, 15. The reply of planner_runs_touching alone has no number.
 */

/* The check: what these calls refuse of a list, and nothing else. */
struct planner_checked planner_check_runs(const struct planner_run *runs, size_t runs_length);

/*
 * The busy count: the number of ticks from a, included, to b, excluded, that some run holds, so at most b - a. It is 0 where a is not below b.
 */
struct planner_busy_count planner_busy(const struct planner_run *runs, size_t runs_length, uint32_t a, uint32_t b);

/* The run that holds a tick: its start is not after the tick, and its end is. */
struct planner_found planner_run_at(const struct planner_run *runs, size_t runs_length, uint32_t tick);

/* The first run that starts at the tick or after it. */
struct planner_found planner_run_from(const struct planner_run *runs, size_t runs_length, uint32_t tick);

/*
 * The runs that share a tick with the interval from a, included, to b, excluded: one stretch of the caller's list, with all of them and no other. It is empty
 * where a is not below b, and where planner_check_runs refuses the list.
 */
struct planner_part planner_runs_touching(const struct planner_run *runs, size_t runs_length, uint32_t a, uint32_t b);

/* What the library was compiled with. */
#ifdef __cplusplus
#define PLANNER_ASSERT(condition) static_assert(condition, #condition)
#else
#define PLANNER_ASSERT(condition) _Static_assert(condition, #condition)
#endif
PLANNER_ASSERT(sizeof(size_t) == 8);
PLANNER_ASSERT(sizeof(bool) == 1);
PLANNER_ASSERT(sizeof(struct planner_task) == 16);
PLANNER_ASSERT(sizeof(struct planner_table) == 1036);
PLANNER_ASSERT(offsetof(struct planner_table, tasks) == 12);
PLANNER_ASSERT(sizeof(struct planner_table_read) == 1056);
PLANNER_ASSERT(offsetof(struct planner_table_read, place) == 8);
PLANNER_ASSERT(offsetof(struct planner_table_read, table) == 16);
PLANNER_ASSERT(sizeof(struct planner_weighted_table) == 1292);
PLANNER_ASSERT(offsetof(struct planner_weighted_table, weights) == 1036);
PLANNER_ASSERT(sizeof(struct planner_weighted_table_read) == 1312);
PLANNER_ASSERT(offsetof(struct planner_weighted_table_read, place) == 8);
PLANNER_ASSERT(offsetof(struct planner_weighted_table_read, table) == 16);
PLANNER_ASSERT(sizeof(struct planner_written) == 24);
PLANNER_ASSERT(offsetof(struct planner_written, bytes) == 16);
PLANNER_ASSERT(sizeof(struct planner_planned) == 32);
PLANNER_ASSERT(offsetof(struct planner_planned, kept) == 16);
PLANNER_ASSERT(offsetof(struct planner_planned, discarded) == 20);
PLANNER_ASSERT(offsetof(struct planner_planned, runs) == 24);
PLANNER_ASSERT(sizeof(struct planner_judged) == 32);
PLANNER_ASSERT(offsetof(struct planner_judged, yes) == 16);
PLANNER_ASSERT(offsetof(struct planner_judged, kept) == 20);
PLANNER_ASSERT(offsetof(struct planner_judged, discarded) == 24);
PLANNER_ASSERT(sizeof(struct planner_busy_count) == 24);
PLANNER_ASSERT(offsetof(struct planner_busy_count, ticks) == 16);
PLANNER_ASSERT(sizeof(struct planner_run) == 12);
PLANNER_ASSERT(offsetof(struct planner_run, end) == 4);
PLANNER_ASSERT(offsetof(struct planner_run, task) == 8);
PLANNER_ASSERT(sizeof(struct planner_checked) == 16);
PLANNER_ASSERT(offsetof(struct planner_checked, place) == 8);
PLANNER_ASSERT(sizeof(struct planner_found) == 32);
PLANNER_ASSERT(offsetof(struct planner_found, found) == 16);
PLANNER_ASSERT(offsetof(struct planner_found, run) == 20);
PLANNER_ASSERT(sizeof(struct planner_part) == 16);
PLANNER_ASSERT(offsetof(struct planner_part, runs) == 8);
#undef PLANNER_ASSERT

#ifdef __cplusplus
}
#endif

#endif
