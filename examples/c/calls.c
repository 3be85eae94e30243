/* Each call of the planner through the header, accepted and refused. Prints every part of the replies. */
#include <inttypes.h>
#include <stdio.h>
#include <string.h>

#include "planner.h"

/* Three tasks, p = q = 1, so that frames f to g are the ticks f + 1 to g: frames 0 to 10, mandatory 2, optional 3; 2 to 8, 1 and 3; 4 to 6, 1 and 1. */
static const struct planner_table three = {
    .count = 3,
    .p = 1,
    .q = 1,
    .tasks = {{0, 10, 2, 3}, {2, 8, 1, 3}, {4, 6, 1, 1}},
};

/* Three tasks whose windows follow one another: frames 0 to 6, mandatory 2, optional 3; 3 to 9, 2 and 3; 7 to 12, 1 and 2. */
static const struct planner_table turns = {
    .count = 3,
    .p = 1,
    .q = 1,
    .tasks = {{0, 6, 2, 3}, {3, 9, 2, 3}, {7, 12, 1, 2}},
};

/* Three nested tasks with weights: frames 0 to 10, mandatory 2, optional 5, weight 6; 2 to 9, 1, 3 and 3; 4 to 7, 1, 1 and 2. The work with all parts
   comes to 13 ticks, and the outermost window has 9: the part of task 0 must go, of weight 6, or those of tasks 1 and 2, which weigh 5 together. */
static const struct planner_weighted_table levels = {
    .table = {.count = 3, .p = 1, .q = 1, .tasks = {{0, 10, 2, 5}, {2, 9, 1, 3}, {4, 7, 1, 1}}},
    .weights = {6, 3, 2},
};

/* Its file: 31 bits of header, 66 bits for each task and 3 bits of padding. In the last byte 1 bit is the end of the optional ticks, 4 are the weight. */
static const uint8_t levels_file[] = {0x06, 0x00, 0x20, 0x02, 0x00, 0x00, 0x00, 0x05, 0x00, 0x04, 0x00, 0x2B, 0x00, 0x00, 0x80,
                                      0x01, 0x20, 0x00, 0x80, 0x06, 0x60, 0x00, 0x40, 0x00, 0x38, 0x00, 0x20, 0x00, 0x90};

/* Noon, in ticks of the day: 12 hours of 3600000. */
static const uint32_t noon = 43200000;

/* The reply of writing and moving. */
static void show_written(const char *what, struct planner_written reply)
{
    printf("%s: %" PRIu32 " %zu %zu\n", what, reply.number, reply.place, reply.bytes);
}

/* The reply of reading, with the tasks up to the count and any place beyond it that is not 0. */
static void show_read(const char *what, struct planner_table_read reply)
{
    printf("%s: %" PRIu32 " %zu, %" PRIu32 " %" PRIu32 " %" PRIu32, what, reply.number, reply.place, reply.table.count, reply.table.p,
           reply.table.q);
    for (uint32_t k = 0; k < PLANNER_MAX_TASKS; k++) {
        struct planner_task task = reply.table.tasks[k];
        if (k < reply.table.count || task.release != 0 || task.deadline != 0 || task.mandatory != 0 || task.optional != 0) {
            printf(", %" PRIu32 " %" PRIu32 " %" PRIu32 " %" PRIu32, task.release, task.deadline, task.mandatory, task.optional);
        }
    }
    printf("\n");
}

/* The reply of reading a weighted table, likewise: a weight stands behind its task. */
static void show_weighted_read(const char *what, struct planner_weighted_table_read reply)
{
    struct planner_table table = reply.table.table;

    printf("%s: %" PRIu32 " %zu, %" PRIu32 " %" PRIu32 " %" PRIu32, what, reply.number, reply.place, table.count, table.p, table.q);
    for (uint32_t k = 0; k < PLANNER_MAX_TASKS; k++) {
        struct planner_task task = table.tasks[k];
        uint32_t weight = reply.table.weights[k];
        if (k < table.count || task.release != 0 || task.deadline != 0 || task.mandatory != 0 || task.optional != 0 || weight != 0) {
            printf(", %" PRIu32 " %" PRIu32 " %" PRIu32 " %" PRIu32 " %" PRIu32, task.release, task.deadline, task.mandatory, task.optional, weight);
        }
    }
    printf("\n");
}

/* The reply of planning, on a line that is not yet ended. */
static void show_plan_reply(const char *what, struct planner_planned reply)
{
    printf("%s: %" PRIu32 " %zu %" PRIu32 " %" PRIu32 " %zu", what, reply.number, reply.place, reply.kept, reply.discarded, reply.runs);
}

/* A planning that refuses: the reply alone. */
static void show_unplanned(const char *what, struct planner_planned reply)
{
    show_plan_reply(what, reply);
    printf("\n");
}

/* The plan of three tasks: the reply, the marks and the runs. */
static void show_planned(const char *what, struct planner_planned reply, const uint8_t *marks, const uint32_t *starts, const uint32_t *ends,
                         const uint32_t *tasks)
{
    show_plan_reply(what, reply);
    printf(", %d %d %d", marks[0], marks[1], marks[2]);
    for (size_t i = 0; i < reply.runs; i++) {
        printf(", %" PRIu32 " %" PRIu32 " %" PRIu32, starts[i], ends[i], tasks[i]);
    }
    printf("\n");
}

/* The reply of judging. */
static void show_judged(const char *what, struct planner_judged reply)
{
    printf("%s: %" PRIu32 " %zu %s %" PRIu32 " %" PRIu32 "\n", what, reply.number, reply.place, reply.yes ? "yes" : "no", reply.kept,
           reply.discarded);
}

/* The reply of the busy count. */
static void show_busy(const char *what, struct planner_busy_count reply)
{
    printf("%s: %" PRIu32 " %zu %" PRIu64 "\n", what, reply.number, reply.place, reply.ticks);
}

/* The first runs of the three columns of a plan, as records. */
static void records_of(struct planner_run *runs, size_t count, const uint32_t *starts, const uint32_t *ends, const uint32_t *tasks)
{
    for (size_t i = 0; i < count; i++) {
        runs[i] = (struct planner_run){starts[i], ends[i], tasks[i]};
    }
}

/* The reply of the check of a run list. */
static void show_checked(const char *what, struct planner_checked reply)
{
    printf("%s: %" PRIu32 " %zu\n", what, reply.number, reply.place);
}

/* The reply of a query for one run. */
static void show_found(const char *what, struct planner_found reply)
{
    printf("%s: %" PRIu32 " %zu %s %" PRIu32 " %" PRIu32 " %" PRIu32 "\n", what, reply.number, reply.place, reply.found ? "run" : "none",
           reply.run.start, reply.run.end, reply.run.task);
}

/* The reply of the query for an interval. */
static void show_part(const char *what, struct planner_part reply)
{
    printf("%s: %zu %zu\n", what, reply.first, reply.runs);
}

/* The file of three tasks, plain and weighted, and the lists of a plan of three tasks. */
enum { FILE_BYTES = PLANNER_FILE_LENGTH(3), WEIGHTED_BYTES = PLANNER_WEIGHTED_FILE_LENGTH(3), RUNS = PLANNER_PLAN_RUNS(3) };

struct plan_lists {
    uint8_t marks[3];
    uint32_t starts[RUNS], ends[RUNS], tasks[RUNS];
};

/* Planning into whole lists, with the reply and the lists on a line. */
static void plan_and_show(const char *what, const uint8_t *file, uint32_t launch, struct plan_lists *l)
{
    struct planner_planned reply = planner_plan(file, FILE_BYTES, launch, l->marks, 3, l->starts, RUNS, l->ends, RUNS, l->tasks, RUNS);
    show_planned(what, reply, l->marks, l->starts, l->ends, l->tasks);
}

/* The same of a weighted file. */
static void weighted_plan_and_show(const char *what, const uint8_t *file, uint32_t launch, struct plan_lists *l)
{
    struct planner_planned reply = planner_weighted_plan(file, WEIGHTED_BYTES, launch, l->marks, 3, l->starts, RUNS, l->ends, RUNS, l->tasks, RUNS);
    show_planned(what, reply, l->marks, l->starts, l->ends, l->tasks);
}

/* Writing, reading and moving; `file` then holds the table `three`. */
static void file_calls(uint8_t *file)
{
    uint8_t moved[FILE_BYTES];
    struct planner_table wide = three;

    show_written("write", planner_write(three, file, FILE_BYTES));
    show_written("write into a byte less", planner_write(three, file, FILE_BYTES - 1));
    wide.tasks[2].optional = PLANNER_MAX_TICKS + 1;
    show_written("write a wide field", planner_write(wide, file, FILE_BYTES));

    show_read("read", planner_read(file, FILE_BYTES));
    show_read("read a byte less", planner_read(file, FILE_BYTES - 1));

    show_written("shift by 1", planner_shift(file, FILE_BYTES, 1, moved, sizeof moved));
    show_read("read what was moved", planner_read(moved, sizeof moved));
    show_written("shift by -1", planner_shift(file, FILE_BYTES, -1, moved, sizeof moved));
}

/* Planning at launch 0 and at noon, and of similar windows. */
static void plan_calls(const uint8_t *file, struct plan_lists *l, struct plan_lists *at_noon)
{
    uint8_t other[FILE_BYTES];
    struct plan_lists turn;
    struct planner_table neither = turns;

    plan_and_show("plan", file, 0, l);
    show_unplanned("plan with 2 marks", planner_plan(file, FILE_BYTES, 0, l->marks, 2, l->starts, RUNS, l->ends, RUNS, l->tasks, RUNS));
    show_unplanned("plan at launch 86400000",
                   planner_plan(file, FILE_BYTES, PLANNER_MAX_LAUNCH + 1, l->marks, 3, l->starts, RUNS, l->ends, RUNS, l->tasks, RUNS));
    plan_and_show("plan at launch 43200000", file, noon, at_noon);

    neither.tasks[2].release = 4;
    neither.tasks[2].deadline = 8;
    show_written("write windows of neither kind", planner_write(neither, other, sizeof other));
    show_written("write similar windows", planner_write(turns, other, sizeof other));
    plan_and_show("plan similar windows", other, 0, &turn);
}

/* Judging plans, and the busy count of one. */
static void judge_calls(const uint8_t *file, const struct plan_lists *l, const struct plan_lists *at_noon)
{
    struct planner_run runs[RUNS], noon_runs[RUNS];

    records_of(runs, RUNS, l->starts, l->ends, l->tasks);
    show_judged("judge", planner_judge(file, FILE_BYTES, 0, l->marks, 3, runs, RUNS));
    show_judged("judge without the last run", planner_judge(file, FILE_BYTES, 0, l->marks, 3, runs, RUNS - 1));
    show_judged("judge with 2 marks", planner_judge(file, FILE_BYTES, 0, l->marks, 2, runs, RUNS));

    records_of(noon_runs, RUNS, at_noon->starts, at_noon->ends, at_noon->tasks);
    show_judged("judge the plan of launch 43200000 at that launch", planner_judge(file, FILE_BYTES, noon, at_noon->marks, 3, noon_runs, RUNS));
    show_judged("judge the plan of launch 43200000 at launch 0", planner_judge(file, FILE_BYTES, 0, at_noon->marks, 3, noon_runs, RUNS));
    show_judged("judge at launch 86400000", planner_judge(file, FILE_BYTES, PLANNER_MAX_LAUNCH + 1, l->marks, 3, runs, RUNS));

    show_busy("busy from 3 to 9", planner_busy(runs, RUNS, 3, 9));
}

/* The check and the queries of a plan. */
static void query_calls(const struct plan_lists *l)
{
    struct planner_run runs[RUNS];

    records_of(runs, RUNS, l->starts, l->ends, l->tasks);
    show_checked("check the plan", planner_check_runs(runs, RUNS));
    show_found("run at 5", planner_run_at(runs, RUNS, 5));
    show_found("run at 10", planner_run_at(runs, RUNS, 10));
    show_found("run from 7", planner_run_from(runs, RUNS, 7));
    show_found("run from 9", planner_run_from(runs, RUNS, 9));
    show_part("touching 4 to 7", planner_runs_touching(runs, RUNS, 4, 7));
    show_part("touching 10 to 20", planner_runs_touching(runs, RUNS, 10, 20));
}

/* Writing a weighted table, and what writing it refuses; `file` then holds the table `levels`. */
static void weighted_write_calls(uint8_t *file)
{
    struct planner_weighted_table other = levels;

    show_written("weighted write", planner_weighted_write(levels, file, WEIGHTED_BYTES));
    printf("bytes of the weighted file: %s\n", memcmp(file, levels_file, sizeof levels_file) == 0 ? "as they should be" : "others");
    show_written("weighted write into a byte less", planner_weighted_write(levels, file, WEIGHTED_BYTES - 1));
    other.weights[1] = PLANNER_MAX_WEIGHT + 1;
    show_written("weighted write of weight 16", planner_weighted_write(other, file, WEIGHTED_BYTES));
    other.table.tasks[2].optional = PLANNER_MAX_TICKS + 1;
    show_written("weighted write of weight 16 and a wide field", planner_weighted_write(other, file, WEIGHTED_BYTES));
    other.table = turns;
    other.weights[1] = 1;
    show_written("weighted write of similar windows", planner_weighted_write(other, file, WEIGHTED_BYTES));
}

/* Reading weighted tables, and a file of the one form as the other. */
static void weighted_read_calls(const uint8_t *file, const uint8_t *plain)
{
    uint8_t other[WEIGHTED_BYTES];

    show_weighted_read("weighted read", planner_weighted_read(file, WEIGHTED_BYTES));
    show_weighted_read("weighted read of a byte less", planner_weighted_read(file, WEIGHTED_BYTES - 1));
    memcpy(other, file, sizeof other);
    other[WEIGHTED_BYTES - 1] = 0x80;
    show_weighted_read("weighted read of weight 0", planner_weighted_read(other, sizeof other));
    show_weighted_read("weighted read of a plain file", planner_weighted_read(plain, FILE_BYTES));
    show_read("read a weighted file", planner_read(file, WEIGHTED_BYTES));
}

/* Planning by weight, at launch 0 and at noon; and with equal weights, where the plan is that of the plain table. */
static void weighted_plan_calls(const uint8_t *file, struct plan_lists *l, struct plan_lists *equal)
{
    uint8_t other[WEIGHTED_BYTES], plain[FILE_BYTES];
    struct plan_lists at_noon, unweighted;
    struct planner_weighted_table lighter = levels;

    weighted_plan_and_show("weighted plan", file, 0, l);
    weighted_plan_and_show("weighted plan at launch 43200000", file, noon, &at_noon);
    show_unplanned("weighted plan with 2 marks",
                   planner_weighted_plan(file, WEIGHTED_BYTES, 0, l->marks, 2, l->starts, RUNS, l->ends, RUNS, l->tasks, RUNS));
    show_unplanned("weighted plan at launch 86400000",
                   planner_weighted_plan(file, WEIGHTED_BYTES, PLANNER_MAX_LAUNCH + 1, l->marks, 3, l->starts, RUNS, l->ends, RUNS, l->tasks, RUNS));

    /* A tie: weight 5 goes either way. The parts of tasks 1 and 2 have 4 ticks, that of task 0 has 5, and the least kept ticks decide. */
    lighter.weights[0] = 5;
    show_written("weighted write of weight 5", planner_weighted_write(lighter, other, sizeof other));
    weighted_plan_and_show("weighted plan of weight 5", other, 0, equal);

    lighter.weights[0] = lighter.weights[1] = lighter.weights[2] = 1;
    show_written("weighted write of weights 1", planner_weighted_write(lighter, other, sizeof other));
    weighted_plan_and_show("weighted plan of weights 1", other, 0, equal);
    show_written("write without weights", planner_write(levels.table, plain, sizeof plain));
    plan_and_show("plan without weights", plain, 0, &unweighted);
}

/* Judging by a weighted table: the plan by weight, and that of other weights, which gets a yes too. */
static void weighted_judge_calls(const uint8_t *file, const struct plan_lists *l, const struct plan_lists *equal)
{
    static struct planner_run many[PLANNER_MAX_RUNS + 1];
    struct planner_run runs[RUNS], equal_runs[RUNS];

    records_of(runs, RUNS, l->starts, l->ends, l->tasks);
    show_judged("weighted judge", planner_weighted_judge(file, WEIGHTED_BYTES, 0, l->marks, 3, runs, RUNS));
    show_judged("weighted judge without the last run", planner_weighted_judge(file, WEIGHTED_BYTES, 0, l->marks, 3, runs, RUNS - 1));
    show_judged("weighted judge at launch 43200000", planner_weighted_judge(file, WEIGHTED_BYTES, noon, l->marks, 3, runs, RUNS));
    records_of(equal_runs, RUNS, equal->starts, equal->ends, equal->tasks);
    show_judged("weighted judge of the plan of weights 1", planner_weighted_judge(file, WEIGHTED_BYTES, 0, equal->marks, 3, equal_runs, RUNS));

    show_judged("weighted judge at launch 86400000", planner_weighted_judge(file, WEIGHTED_BYTES, PLANNER_MAX_LAUNCH + 1, l->marks, 3, runs, RUNS));
    show_judged("weighted judge with 2 marks", planner_weighted_judge(file, WEIGHTED_BYTES, 0, l->marks, 2, runs, RUNS));
    show_judged("weighted judge of 4097 runs", planner_weighted_judge(file, WEIGHTED_BYTES, 0, l->marks, 3, many, PLANNER_MAX_RUNS + 1));
}

/* Run lists that are refused: too many runs, and runs that overlap. */
static void refused_runs(const uint8_t *file, const uint8_t *marks)
{
    static struct planner_run many[PLANNER_MAX_RUNS + 1];
    struct planner_run overlapping[2] = {{3, 5, 0}, {4, 6, 1}};

    show_judged("judge 4097 runs", planner_judge(file, FILE_BYTES, 0, marks, 3, many, PLANNER_MAX_RUNS + 1));
    show_busy("busy with 4097 runs", planner_busy(many, PLANNER_MAX_RUNS + 1, 3, 9));
    show_checked("check 4097 runs", planner_check_runs(many, PLANNER_MAX_RUNS + 1));

    show_checked("check runs that overlap", planner_check_runs(overlapping, 2));
    show_busy("busy of runs that overlap", planner_busy(overlapping, 2, 3, 9));
    show_found("run at 3 of runs that overlap", planner_run_at(overlapping, 2, 3));
    show_found("run from 3 of runs that overlap", planner_run_from(overlapping, 2, 3));
    show_part("touching 0 to 9 of runs that overlap", planner_runs_touching(overlapping, 2, 0, 9));
}

/* The calls, one after another, on the three tables. */
int main(void)
{
    uint8_t file[FILE_BYTES], weighted[WEIGHTED_BYTES];
    struct plan_lists lists, at_noon, by_weight, equal;

    file_calls(file);
    plan_calls(file, &lists, &at_noon);
    judge_calls(file, &lists, &at_noon);
    query_calls(&lists);
    refused_runs(file, lists.marks);
    weighted_write_calls(weighted);
    weighted_read_calls(weighted, file);
    weighted_plan_calls(weighted, &by_weight, &equal);
    weighted_judge_calls(weighted, &by_weight, &equal);
    return 0;
}
