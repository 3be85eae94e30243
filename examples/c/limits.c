/* Every limit and every number of the header against the library: what is at a limit is accepted, what is one above it is refused, and each refusal
   has the number that its name says. Prints what differs, and ends with status 1 then. */
#include <inttypes.h>
#include <stdio.h>
#include <string.h>

#include "planner.h"

/* How many replies were held against the header, and how many differed. */
static unsigned tried, wrong;

/* A reply's number and place must be these. */
static void expect(const char *what, uint32_t number, size_t place, uint32_t expected, size_t expected_place)
{
    tried++;
    if (number != expected || place != expected_place) {
        wrong++;
        printf("%s: number %" PRIu32 ", place %zu, and not number %" PRIu32 ", place %zu\n", what, number, place, expected, expected_place);
    }
}

/* The reply of writing a table into a list of so many bytes. */
static void expect_write(const char *what, struct planner_table table, size_t room, uint32_t expected, size_t expected_place)
{
    uint8_t file[PLANNER_MAX_FILE];
    struct planner_written reply = planner_write(table, file, room);

    expect(what, reply.number, reply.place, expected, expected_place);
}

/* A table of so many equal tasks: frames 0 to 2 of period 1, so one tick, and no work. */
static struct planner_table equal_tasks(uint32_t count)
{
    struct planner_table table;

    memset(&table, 0, sizeof table);
    table.count = count;
    table.p = 1;
    table.q = 1;
    for (uint32_t k = 0; k < PLANNER_MAX_TASKS; k++) {
        table.tasks[k].deadline = 2;
    }
    return table;
}

/* The limits on the numbers of a table, and the refusals of writing. */
static void tables(void)
{
    struct planner_table table = equal_tasks(PLANNER_MAX_TASKS);

    expect_write("as many tasks as there may be", table, PLANNER_MAX_FILE, PLANNER_ACCEPTED, 0);
    expect_write("a byte too few for them", table, PLANNER_MAX_FILE - 1, PLANNER_SHORT_LIST, 0);
    expect_write("a task more", equal_tasks(PLANNER_MAX_TASKS + 1), PLANNER_MAX_FILE, PLANNER_BAD_COUNT, 0);
    table.p = PLANNER_MAX_PERIOD;
    table.q = PLANNER_MAX_PERIOD;
    expect_write("the greatest period", table, PLANNER_MAX_FILE, PLANNER_ACCEPTED, 0);
    table.p = PLANNER_MAX_PERIOD + 1;
    expect_write("a greater p", table, PLANNER_MAX_FILE, PLANNER_BAD_PERIOD, 0);
    table = equal_tasks(2);
    table.tasks[1].deadline = PLANNER_LAST_FRAME;
    table.tasks[1].mandatory = PLANNER_MAX_TICKS;
    expect_write("the last frame, the longest part", table, PLANNER_MAX_FILE, PLANNER_ACCEPTED, 0);
    table.tasks[1].mandatory = PLANNER_MAX_TICKS + 1;
    expect_write("a longer part", table, PLANNER_MAX_FILE, PLANNER_WIDE_FIELD, 1);
    table.tasks[1].mandatory = 0;
    table.tasks[1].deadline = PLANNER_LAST_FRAME + 1;
    expect_write("a frame behind the last", table, PLANNER_MAX_FILE, PLANNER_WIDE_FIELD, 1);
    table.tasks[1].deadline = 0;
    expect_write("a window of no frame", table, PLANNER_MAX_FILE, PLANNER_BAD_WINDOW, 1);
}

/* Windows of neither kind: frames 0 to 5, 5 to 9 and 1 to 4. */
static void kinds(void)
{
    struct planner_table table = equal_tasks(3);

    table.tasks[0].deadline = 5;
    table.tasks[1].release = 5;
    table.tasks[1].deadline = 9;
    table.tasks[2].release = 1;
    table.tasks[2].deadline = 4;
    expect_write("windows of neither kind", table, PLANNER_MAX_FILE, PLANNER_NEITHER_KIND, 2);
    expect_write("windows of neither kind, by the older name", table, PLANNER_MAX_FILE, PLANNER_NOT_NESTED, 2);
}

/* The reply of writing a weighted table into a list of so many bytes. */
static void expect_weighted_write(const char *what, struct planner_weighted_table table, size_t room, uint32_t expected, size_t expected_place)
{
    uint8_t file[PLANNER_MAX_WEIGHTED_FILE];
    struct planner_written reply = planner_weighted_write(table, file, room);

    expect(what, reply.number, reply.place, expected, expected_place);
}

/* A weighted table of so many equal tasks, all of the greatest weight. */
static struct planner_weighted_table equal_weighted(uint32_t count)
{
    struct planner_weighted_table weighted;

    weighted.table = equal_tasks(count);
    for (uint32_t k = 0; k < PLANNER_MAX_TASKS; k++) {
        weighted.weights[k] = PLANNER_MAX_WEIGHT;
    }
    return weighted;
}

/* The limits on weights and on the file of a weighted table; and where 16 stands in the order of writing, after 12 and 6 and before 7 and 9. */
static void weighted_tables(void)
{
    struct planner_weighted_table weighted = equal_weighted(PLANNER_MAX_TASKS);

    expect_weighted_write("as many tasks of the greatest weight as there may be", weighted, PLANNER_MAX_WEIGHTED_FILE, PLANNER_ACCEPTED, 0);
    expect_weighted_write("a byte too few for their weighted file", weighted, PLANNER_MAX_WEIGHTED_FILE - 1, PLANNER_SHORT_LIST, 0);
    expect_weighted_write("a task with a weight more", equal_weighted(PLANNER_MAX_TASKS + 1), PLANNER_MAX_WEIGHTED_FILE, PLANNER_BAD_COUNT, 0);
    weighted = equal_weighted(4);
    weighted.weights[3] = 0;
    expect_weighted_write("a weight of 0", weighted, PLANNER_MAX_WEIGHTED_FILE, PLANNER_BAD_WEIGHT, 3);
    weighted.weights[1] = PLANNER_MAX_WEIGHT + 1;
    expect_weighted_write("a weight above the greatest before it", weighted, 0, PLANNER_BAD_WEIGHT, 1);
    weighted.table.tasks[2].deadline = 3;
    weighted.table.tasks[3].release = 1;
    weighted.table.tasks[3].deadline = 4;
    expect_weighted_write("windows not nested beside it", weighted, PLANNER_MAX_WEIGHTED_FILE, PLANNER_BAD_WEIGHT, 1);
    weighted.table.tasks[0].deadline = 0;
    expect_weighted_write("a window of no frame beside it", weighted, PLANNER_MAX_WEIGHTED_FILE, PLANNER_BAD_WINDOW, 0);
    weighted.table.tasks[3].optional = PLANNER_MAX_TICKS + 1;
    expect_weighted_write("a longer part beside it", weighted, PLANNER_MAX_WEIGHTED_FILE, PLANNER_WIDE_FIELD, 3);
    weighted.table.p = PLANNER_MAX_PERIOD + 1;
    expect_weighted_write("a greater p beside it", weighted, PLANNER_MAX_WEIGHTED_FILE, PLANNER_BAD_PERIOD, 0);
}

/* Windows that a plain table may have and a weighted one may not: frames 0 to 5, 5 to 9 and 1 to 4, of which the first two follow one another. */
static void weighted_kinds(void)
{
    struct planner_weighted_table weighted = equal_weighted(3);

    weighted.table.tasks[0].deadline = 5;
    weighted.table.tasks[1].release = 5;
    weighted.table.tasks[1].deadline = 9;
    weighted.table.tasks[2].release = 1;
    weighted.table.tasks[2].deadline = 4;
    expect_weighted_write("weighted windows that are not nested", weighted, PLANNER_MAX_WEIGHTED_FILE, PLANNER_NOT_NESTED, 1);
}

/* Reading and moving: the refusals that a file gets. */
static void files(void)
{
    uint8_t file[PLANNER_FILE_LENGTH(2) + 1], moved[PLANNER_FILE_LENGTH(2)];
    size_t length = PLANNER_FILE_LENGTH(2);
    struct planner_table_read reply;
    struct planner_written shifted;

    memset(file, 0, sizeof file);
    (void)planner_write(equal_tasks(2), file, length);
    reply = planner_read(file, length);
    expect("a file", reply.number, reply.place, PLANNER_ACCEPTED, 0);
    reply = planner_read(file, length - 1);
    expect("a byte less", reply.number, reply.place, PLANNER_SHORT_FILE, length - 1);
    reply = planner_read(file, length + 1);
    expect("a byte more", reply.number, reply.place, PLANNER_LONG_FILE, length);
    shifted = planner_shift(file, length, PLANNER_LAST_FRAME - 2, moved, length);
    expect("moved to the last frame", shifted.number, shifted.place, PLANNER_ACCEPTED, 0);
    shifted = planner_shift(file, length, PLANNER_LAST_FRAME - 1, moved, length);
    expect("moved beyond the last frame", shifted.number, shifted.place, PLANNER_FRAME_OUTSIDE, 0);
    file[length - 1] |= 1;
    reply = planner_read(file, length);
    expect("a padding bit", reply.number, reply.place, PLANNER_PADDING_SET, 0);
}

/* Reading weighted tables: the refusals that a weighted file gets. */
static void weighted_files(void)
{
    uint8_t file[PLANNER_WEIGHTED_FILE_LENGTH(2) + 1];
    size_t length = PLANNER_WEIGHTED_FILE_LENGTH(2);
    struct planner_weighted_table_read reply;

    memset(file, 0, sizeof file);
    (void)planner_weighted_write(equal_weighted(2), file, length);
    reply = planner_weighted_read(file, length);
    expect("a weighted file", reply.number, reply.place, PLANNER_ACCEPTED, 0);
    expect("a weight that was read", 0, reply.table.weights[1], 0, PLANNER_MAX_WEIGHT);
    reply = planner_weighted_read(file, length - 1);
    expect("a byte less of a weighted file", reply.number, reply.place, PLANNER_SHORT_FILE, length - 1);
    reply = planner_weighted_read(file, length + 1);
    expect("a byte more of a weighted file", reply.number, reply.place, PLANNER_LONG_FILE, length);
    file[length - 1] |= 1;
    reply = planner_weighted_read(file, length);
    expect("a padding bit of a weighted file", reply.number, reply.place, PLANNER_PADDING_SET, 0);
    /* Bits 159 to 162 are the weight of task 1, and all bits after them padding. */
    file[length - 2] &= 0xFE;
    file[length - 1] = 0;
    reply = planner_weighted_read(file, length);
    expect("a weight of 0 in a file", reply.number, reply.place, PLANNER_BAD_WEIGHT, 1);
}

/* The reply of planning a table at a launch tick into columns of so many runs. */
static void expect_plan(const char *what, struct planner_table table, uint32_t launch, size_t runs, uint32_t expected, size_t expected_place)
{
    uint8_t file[PLANNER_MAX_FILE], marks[PLANNER_MAX_TASKS];
    uint32_t starts[PLANNER_MAX_PLAN_RUNS], ends[PLANNER_MAX_PLAN_RUNS], tasks[PLANNER_MAX_PLAN_RUNS];
    size_t length = planner_write(table, file, sizeof file).bytes;
    struct planner_planned reply = planner_plan(file, length, launch, marks, table.count, starts, runs, ends, runs, tasks, runs);

    expect(what, reply.number, reply.place, expected, expected_place);
}

/* The same of a weighted table. */
static void expect_weighted_plan(const char *what, struct planner_weighted_table table, uint32_t launch, size_t runs, uint32_t expected,
                                 size_t expected_place)
{
    uint8_t file[PLANNER_MAX_WEIGHTED_FILE], marks[PLANNER_MAX_TASKS];
    uint32_t starts[PLANNER_MAX_PLAN_RUNS], ends[PLANNER_MAX_PLAN_RUNS], tasks[PLANNER_MAX_PLAN_RUNS];
    size_t length = planner_weighted_write(table, file, sizeof file).bytes;
    struct planner_planned reply = planner_weighted_plan(file, length, launch, marks, table.table.count, starts, runs, ends, runs, tasks, runs);

    expect(what, reply.number, reply.place, expected, expected_place);
}

/* Planning: the last launch tick, and room for the most runs. */
static void plans(void)
{
    struct planner_table table = equal_tasks(PLANNER_MAX_TASKS);

    expect_plan("the last launch tick", table, PLANNER_MAX_LAUNCH, PLANNER_MAX_PLAN_RUNS, PLANNER_ACCEPTED, 0);
    expect_plan("a tick later", table, PLANNER_MAX_LAUNCH + 1, PLANNER_MAX_PLAN_RUNS, PLANNER_BAD_LAUNCH, 0);
    expect_plan("room for a run less", table, 0, PLANNER_PLAN_RUNS(PLANNER_MAX_TASKS) - 1, PLANNER_SHORT_LIST, 0);
    table.tasks[7].mandatory = 2;
    expect_plan("two ticks in a window of one", table, 0, PLANNER_MAX_PLAN_RUNS, PLANNER_NO_RUNNING, 7);
}

/* Planning weighted tables: the same limits. */
static void weighted_plans(void)
{
    struct planner_weighted_table weighted = equal_weighted(PLANNER_MAX_TASKS);

    expect_weighted_plan("the last launch tick, weighted", weighted, PLANNER_MAX_LAUNCH, PLANNER_MAX_PLAN_RUNS, PLANNER_ACCEPTED, 0);
    expect_weighted_plan("a tick later, weighted", weighted, PLANNER_MAX_LAUNCH + 1, PLANNER_MAX_PLAN_RUNS, PLANNER_BAD_LAUNCH, 0);
    expect_weighted_plan("room for a run less, weighted", weighted, 0, PLANNER_PLAN_RUNS(PLANNER_MAX_TASKS) - 1, PLANNER_SHORT_LIST, 0);
    weighted.table.tasks[7].mandatory = 2;
    expect_weighted_plan("two ticks in a window of one, weighted", weighted, 0, PLANNER_MAX_PLAN_RUNS, PLANNER_NO_RUNNING, 7);
}

/* Run lists: the most runs, one more, and one that is out of order; and a mark above 1. */
static void run_lists(void)
{
    static struct planner_run runs[PLANNER_MAX_RUNS + 1];
    struct planner_checked reply;
    struct planner_judged judged;
    uint8_t file[PLANNER_FILE_LENGTH(2)], marks[2] = {0, 2};
    size_t length = planner_write(equal_tasks(2), file, sizeof file).bytes;

    for (uint32_t i = 0; i <= PLANNER_MAX_RUNS; i++) {
        runs[i] = (struct planner_run){i, i + 1, 0};
    }
    reply = planner_check_runs(runs, PLANNER_MAX_RUNS);
    expect("as many runs as there may be", reply.number, reply.place, PLANNER_ACCEPTED, 0);
    reply = planner_check_runs(runs, PLANNER_MAX_RUNS + 1);
    expect("a run more", reply.number, reply.place, PLANNER_MANY_RUNS, 0);
    expect("a run more, by the older name", reply.number, reply.place, PLANNER_BAD_RUNS, 0);
    runs[9].end = runs[9].start;
    reply = planner_check_runs(runs, PLANNER_MAX_RUNS);
    expect("an empty run", reply.number, reply.place, PLANNER_RUNS_OUT_OF_ORDER, 9);
    judged = planner_judge(file, length, 0, marks, 2, runs, 0);
    expect("a mark of 2", judged.number, judged.place, PLANNER_BAD_MARKS, 1);
}

/* Judging by a weighted table: a mark above 1, the most runs and one more. The runs are all empty: the most of them are judged, and get a no. */
static void weighted_judging(void)
{
    static const struct planner_run runs[PLANNER_MAX_RUNS + 1];
    struct planner_judged reply;
    uint8_t file[PLANNER_WEIGHTED_FILE_LENGTH(2)], marks[2] = {0, 2};
    size_t length = planner_weighted_write(equal_weighted(2), file, sizeof file).bytes;

    reply = planner_weighted_judge(file, length, 0, marks, 2, runs, PLANNER_MAX_RUNS + 1);
    expect("a mark of 2, weighted", reply.number, reply.place, PLANNER_BAD_MARKS, 1);
    marks[1] = 1;
    reply = planner_weighted_judge(file, length, 0, marks, 2, runs, PLANNER_MAX_RUNS + 1);
    expect("a run more, weighted", reply.number, reply.place, PLANNER_MANY_RUNS, 0);
    reply = planner_weighted_judge(file, length, PLANNER_MAX_LAUNCH, marks, 2, runs, PLANNER_MAX_RUNS);
    expect("as many runs as there may be, weighted", reply.number, reply.place, PLANNER_ACCEPTED, 0);
    reply = planner_weighted_judge(file, length, PLANNER_MAX_LAUNCH + 1, marks, 2, runs, PLANNER_MAX_RUNS);
    expect("a launch tick later, weighted", reply.number, reply.place, PLANNER_BAD_LAUNCH, 0);
}

/* All of it. The lengths that the header computes agree with the limits that it names. */
int main(void)
{
    tables();
    kinds();
    files();
    plans();
    run_lists();
    weighted_tables();
    weighted_kinds();
    weighted_files();
    weighted_plans();
    weighted_judging();
    expect("the longest file", 0, PLANNER_FILE_LENGTH(PLANNER_MAX_TASKS), 0, PLANNER_MAX_FILE);
    expect("the longest weighted file", 0, PLANNER_WEIGHTED_FILE_LENGTH(PLANNER_MAX_TASKS), 0, PLANNER_MAX_WEIGHTED_FILE);
    expect("the most runs of a plan", 0, PLANNER_PLAN_RUNS(PLANNER_MAX_TASKS), 0, PLANNER_MAX_PLAN_RUNS);
    printf("%u of %u replies differ from the header\n", wrong, tried);
    return wrong > 0;
}
