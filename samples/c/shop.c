/* A shop's table in C: loads it, works it out, builds its plan, checks the plan, and asks which rules fit some jobs.
 *
 * usage: shop FILE    (samples/shop.cells; samples/README.md has the numbers of the names, and what is said of other files) */

#include "shop.h"

/* A choice between branches costs as much as two tests. */
enum { FIGURE = 2 };

/* A table worked out, and a plan for it. */
static dudowiej_record record;
static uint32_t plan[DUDOWIEJ_PLAN_CELLS];
static size_t plan_cells;
static uint32_t width, branches;

/* Loads the table, builds its plan and checks the plan; gives the exit status. */
static int prepare(const char *path) {
    int status = work_file_out("shop", path, FIGURE, &record);
    if (status != 0) return status;
    width = dudowiej_table(&record)[0];
    printf("table: %u rules of %u columns\n", dudowiej_table(&record)[1], width);

    uint64_t built = dudowiej_build_plan(&record, plan, DUDOWIEJ_PLAN_CELLS);
    if (refused(stderr, "shop", built)) return 1;
    plan_cells = dudowiej_first(built);
    printf("plan: cost %u with figure %d, %zu cells\n", dudowiej_second(built), FIGURE, plan_cells);

    uint64_t checked = dudowiej_check_plan(&record, plan, plan_cells);
    if (refused(stderr, "shop", checked)) return 1;
    branches = dudowiej_first(checked);
    printf("checked: %u branches\n", branches);
    return 0;
}

/* Prints the rules that fit a job. */
static void ask(const uint32_t *goal, size_t goal_cells) {
    uint8_t rows[DUDOWIEJ_ROWS];
    uint64_t run = dudowiej_run_plan(&record, plan, plan_cells, goal, goal_cells, rows, sizeof rows);
    if (refused(stdout, "\njob", run)) return;
    printf("\njob: ");
    print_columns(goal, width, print_name);
    for (uint32_t hit = 0; hit < dudowiej_first(run); hit++) print_rule(&record, rows[hit], print_name);
    printf("  %u of %u branches tried\n", dudowiej_second(run), branches);
}

static void ask_all(void) {
    const struct {
        uint32_t cells[5];
        size_t count;
    } jobs[] = {
        /* urgency 10, red, a ring: which firing? */
        {{dudowiej_whole(10), plain(RED), plain(RING), dudowiej_variable(0)}, 4},
        /* a red ring of any urgency: the rules for 9 come first, as printed */
        {{dudowiej_variable(0), plain(RED), plain(RING), dudowiej_variable(1)}, 4},
        /* a blue bowl of any size */
        {{dudowiej_whole(9), plain(BLUE), dudowiej_name(BOWL, 1), dudowiej_variable(0), dudowiej_variable(1)}, 5},
        /* a black ring that is not urgent */
        {{dudowiej_whole(1), plain(BLACK), plain(RING), dudowiej_variable(0)}, 4},
        /* a goal with a column too few */
        {{dudowiej_whole(9), plain(BLUE), plain(RING)}, 3},
    };
    for (size_t job = 0; job < COUNT(jobs); job++) ask(jobs[job].cells, jobs[job].count);
}

int main(int argc, char **argv) {
    if (argc != 2) {
        fprintf(stderr, "usage: shop FILE\n");
        return 2;
    }
    int status = prepare(argv[1]);
    if (status != 0) return status;
    ask_all();
    return 0;
}
