/* A shift's jobs in C: some hundred goals for a shop's table, answered in one call; then some that are turned away.
 *
 * usage: shift FILE    (samples/shop.cells; samples/README.md has the numbers of the names) */

#include "shop.h"

/* A job lies in memory as the library writes it. */
_Static_assert(sizeof(struct dudowiej_job) == 48, "six words of 64 bits");
_Static_assert(offsetof(struct dudowiej_job, start) == 0 && offsetof(struct dudowiej_job, count) == 8, "where the goal's cells are");
_Static_assert(offsetof(struct dudowiej_job, number) == 16 && offsetof(struct dudowiej_job, place) == 24, "its refusal");
_Static_assert(offsetof(struct dudowiej_job, hits) == 32 && offsetof(struct dudowiej_job, tried) == 40, "its answer");

enum { GOALS = 360, GOAL_CELLS = 4 };

static dudowiej_record record;
static uint32_t plan[DUDOWIEJ_PLAN_CELLS];
static uint32_t cells[GOALS * GOAL_CELLS];
static struct dudowiej_job jobs[GOALS];

/* A goal for each urgency, enamel, piece and firing, any of them blank: its cells one after another, its job beside them. */
static void ask_everything(void) {
    const uint32_t blank = dudowiej_variable(0);
    const uint32_t urgencies[] = {dudowiej_whole(9), dudowiej_whole(10), dudowiej_whole(1), blank};
    const uint32_t enamels[] = {plain(RED), plain(BLUE), plain(WHITE), plain(BLACK), blank};
    const uint32_t pieces[] = {plain(RING), plain(BROOCH), blank};
    const uint32_t firings[] = {plain(SOFT), plain(MEDIUM), plain(HARD), dudowiej_whole(820), plain(HEAT), blank};
    const uint32_t *columns[] = {urgencies, enamels, pieces, firings};
    const size_t sizes[] = {COUNT(urgencies), COUNT(enamels), COUNT(pieces), COUNT(firings)};
    for (size_t goal = 0; goal < GOALS; goal++) {
        size_t rest = goal;
        uint32_t variables = 0;
        for (size_t column = 0; column < GOAL_CELLS; column++) {
            uint32_t cell = columns[column][rest % sizes[column]];
            cells[goal * GOAL_CELLS + column] = cell == blank ? dudowiej_variable(variables++) : cell;
            rest /= sizes[column];
        }
        jobs[goal].start = goal * GOAL_CELLS;
        jobs[goal].count = GOAL_CELLS;
    }
}

/* How many of the jobs hit each row, and the branches tried. */
static void print_shift(size_t rows) {
    size_t tried = 0;
    for (size_t goal = 0; goal < GOALS; goal++) tried += jobs[goal].tried;
    printf("%d jobs, %zu branches tried\n", GOALS, tried);
    for (size_t row = 0; row < rows; row++) {
        size_t hits = 0;
        for (size_t goal = 0; goal < GOALS; goal++) hits += jobs[goal].hits >> row & 1;
        printf("  rule %zu: %zu\n", row + 1, hits);
    }
}

/* Jobs by themselves: cells that others use too, and jobs that are turned away. */
static void print_some(size_t plan_cells) {
    struct dudowiej_job some[] = {
        {.start = 0, .count = 4},
        {.start = 4, .count = 4},
        {.start = 0, .count = 5},
        {.start = 0, .count = 3},
        {.start = GOALS * GOAL_CELLS - 3, .count = 4},
        {.start = SIZE_MAX, .count = SIZE_MAX},
    };
    dudowiej_run_jobs(&record, plan, plan_cells, cells, GOALS * GOAL_CELLS, some, COUNT(some));
    for (size_t job = 0; job < COUNT(some); job++) {
        unsigned number = (unsigned)some[job].number;
        if (number != 0)
            printf("job %zu: refused, %s %u at %zu\n", job + 1, dudowiej_refusal_name(number), number, some[job].place);
        else
            printf("job %zu: hits %#llx, %zu tried\n", job + 1, (unsigned long long)some[job].hits, some[job].tried);
    }
}

int main(int argc, char **argv) {
    if (argc != 2) {
        fprintf(stderr, "usage: shift FILE\n");
        return 2;
    }
    int status = work_file_out("shift", argv[1], 0, &record);
    if (status != 0) return status;
    size_t plan_cells = dudowiej_first(dudowiej_build_plan(&record, plan, DUDOWIEJ_PLAN_CELLS));
    ask_everything();
    uint64_t ran = dudowiej_run_jobs(&record, plan, plan_cells, cells, GOALS * GOAL_CELLS, jobs, GOALS);
    printf("plan: %u branches\n", dudowiej_first(ran));
    print_shift(dudowiej_table(&record)[1]);
    print_some(plan_cells);
    return 0;
}
