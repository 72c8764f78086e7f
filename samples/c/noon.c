/* A shop edits its rules at noon, in C: the table is worked out in the morning; then a rule is replaced, another appended and dropped
 * again, and each time the plan is built anew from the record and the same job is asked.
 *
 * usage: noon FILE    (samples/shop.cells; samples/README.md has the numbers of the names) */

#include <string.h>

#include "shop.h"

enum { FIGURE = 2 };

/* The record that is edited, copies of it at two times, and the plan as it is now. */
static dudowiej_record record, morning, noon;
static uint32_t plan[DUDOWIEJ_PLAN_CELLS];

/* The row that changes: rule 4. */
enum { CHANGED = 3 };

static bool same(const dudowiej_record *a, const dudowiej_record *b) { return memcmp(a, b, sizeof *a) == 0; }

/* Builds the plan, checks it, and prints which rules fit the job. */
static void ask(void) {
    /* Blue rings that wait: which firing? */
    const uint32_t job[] = {dudowiej_whole(9), plain(BLUE), plain(RING), dudowiej_variable(0)};
    uint8_t rows[DUDOWIEJ_ROWS];
    uint64_t built = dudowiej_build_plan(&record, plan, DUDOWIEJ_PLAN_CELLS);
    if (refused(stdout, "  plan", built)) return;
    uint64_t checked = dudowiej_check_plan(&record, plan, dudowiej_first(built));
    if (refused(stdout, "  plan", checked)) return;
    printf("  plan: cost %u, %u branches\n", dudowiej_second(built), dudowiej_first(checked));
    uint64_t run = dudowiej_run_plan(&record, plan, dudowiej_first(built), job, COUNT(job), rows, sizeof rows);
    if (refused(stdout, "  job", run)) return;
    for (uint32_t hit = 0; hit < dudowiej_first(run); hit++) print_rule(&record, rows[hit], print_name);
}

/* Prints what came of an edit: the rules there are now, or why it was refused. */
static void tell(const char *edit, uint64_t answer) {
    if (refused(stdout, edit, answer)) return;
    printf("%s: %u rules\n", edit, dudowiej_second(answer));
    ask();
}

static void edits(void) {
    /* What the rule becomes, a rule for the end (back to the shelf below), and one with a column too few. */
    const uint32_t harder[] = {dudowiej_whole(9), plain(BLUE), plain(RING), plain(HARD)};
    const uint32_t last[] = {dudowiej_variable(0), plain(BLUE), dudowiej_variable(1), dudowiej_name(SHELF, 1), dudowiej_whole(-1)};
    const uint32_t too_short[] = {dudowiej_whole(9), plain(BLUE), plain(RING)};

    tell("replaced", dudowiej_replace(&record, CHANGED, harder, COUNT(harder)));
    noon = record;
    tell("appended", dudowiej_append(&record, last, COUNT(last)));
    tell("dropped", dudowiej_drop_last(&record));
    printf("as at noon: %s\n", same(&record, &noon) ? "true" : "false");

    tell("too short a rule", dudowiej_append(&record, too_short, COUNT(too_short)));
    tell("no such rule", dudowiej_replace(&record, DUDOWIEJ_ROWS, harder, COUNT(harder)));
    tell("the same rule again", dudowiej_append(&record, harder, COUNT(harder)));
    printf("as at noon: %s\n", same(&record, &noon) ? "true" : "false");

    /* Back to the morning's rule. Its cells are in another record: an edit's row may not lie in the record that is edited. */
    uint64_t row = dudowiej_row(&morning, CHANGED);
    tell("replaced", dudowiej_replace(&record, CHANGED, dudowiej_table(&morning) + dudowiej_first(row), dudowiej_second(row)));
    printf("as in the morning: %s\n", same(&record, &morning) ? "true" : "false");
}

int main(int argc, char **argv) {
    if (argc != 2) {
        fprintf(stderr, "usage: noon FILE\n");
        return 2;
    }
    int status = work_file_out("noon", argv[1], FIGURE, &record);
    if (status != 0) return status;
    printf("worked out: %u rules\n", dudowiej_table(&record)[1]);
    ask();
    morning = record;
    edits();
    return 0;
}
