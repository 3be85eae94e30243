/* Plans the table file that is named on the command line, at the launch tick behind it or at 0, and prints the plan. */
#include <inttypes.h>
#include <stdio.h>

#include "planner.h"

/* The number that a text of digits gives. False where the text is anything else, or where the number needs more than 32 bits. */
static bool ticks_of(const char *text, uint32_t *ticks)
{
    *ticks = 0;
    if (*text == '\0') {
        return false;
    }
    for (; *text != '\0'; text++) {
        if (*text < '0' || *text > '9') {
            return false;
        }
        uint32_t digit = (uint32_t)(*text - '0');
        if (*ticks > (UINT32_MAX - digit) / 10) {
            return false;
        }
        *ticks = 10 * *ticks + digit;
    }
    return true;
}

/* Prints the plan and ends with status 0, or the refusal and ends with 1. Wrong arguments and files that can't be read end with 2. */
int main(int argc, char **argv)
{
    /* One byte more than any file has, so that a longer one is refused and not cut. */
    static uint8_t file[PLANNER_MAX_FILE + 1];
    uint8_t marks[PLANNER_MAX_TASKS];
    uint32_t starts[PLANNER_MAX_PLAN_RUNS];
    uint32_t ends[PLANNER_MAX_PLAN_RUNS];
    uint32_t tasks[PLANNER_MAX_PLAN_RUNS];
    uint32_t launch = 0;

    if (argc != 2 && argc != 3) {
        fprintf(stderr, "usage: %s FILE [TICKS]\n", argv[0]);
        return 2;
    }
    if (argc == 3 && !ticks_of(argv[2], &launch)) {
        fprintf(stderr, "%s: '%s' is no number of ticks from 0 to %" PRIu32 "\n", argv[0], argv[2], UINT32_MAX);
        return 2;
    }
    FILE *input = fopen(argv[1], "rb");
    if (input == NULL) {
        perror(argv[1]);
        return 2;
    }
    size_t length = fread(file, 1, sizeof file, input);
    if (ferror(input)) {
        perror(argv[1]);
        return 2;
    }
    fclose(input);

    struct planner_planned plan = planner_plan(file, length, launch, marks, PLANNER_MAX_TASKS, starts, PLANNER_MAX_PLAN_RUNS,
                                               ends, PLANNER_MAX_PLAN_RUNS, tasks, PLANNER_MAX_PLAN_RUNS);
    if (plan.number != PLANNER_ACCEPTED) {
        printf("REFUSED %" PRIu32 " %zu\n", plan.number, plan.place);
        return 1;
    }
    /* The file was accepted, so its table can be read. */
    uint32_t count = planner_read(file, length).table.count;
    printf("PLAN %" PRIu32 " %" PRIu32 " %" PRIu32 "\n", count, plan.kept, plan.discarded);
    for (uint32_t k = 0; k < count; k++) {
        if (marks[k] == 0) {
            printf("DROP %" PRIu32 "\n", k);
        }
    }
    for (size_t i = 0; i < plan.runs; i++) {
        printf("RUN %" PRIu32 " %" PRIu32 " %" PRIu32 "\n", starts[i], ends[i], tasks[i]);
    }
    return 0;
}
