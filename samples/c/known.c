/* Columns that are always filled in, in C: in this shop urgency and piece are known whenever a job is asked. The plain least plan is built,
 * and the least plan that finishes these two columns before it looks at any other place; both are checked and asked for the same jobs.
 *
 * usage: known FILE    (samples/shop.cells; samples/README.md has the numbers of the names) */

#include <string.h>

#include "shop.h"

/* What a choice between branches costs here. */
enum { FIGURE = 0 };

/* The columns that are always known: urgency and piece. */
static const uint32_t known[] = {0, 2};

/* A plan: its cells and how many they are. */
struct plan {
    uint32_t cells[DUDOWIEJ_PLAN_CELLS];
    size_t count;
};

static dudowiej_record record;
static struct plan least, for_known, other;

/* The branches that the two plans tried for all jobs. */
static uint32_t tried_by_least, tried_for_known;

static bool same(const struct plan *a, const struct plan *b) {
    return a->count == b->count && memcmp(a->cells, b->cells, a->count * sizeof a->cells[0]) == 0;
}

/* Builds the least plan for some columns. */
static uint64_t build_for(const uint32_t *columns, size_t count, struct plan *plan) {
    uint64_t built = dudowiej_build_for(&record, columns, count, plan->cells, DUDOWIEJ_PLAN_CELLS);
    plan->count = dudowiej_refused(built) ? 0 : dudowiej_first(built);
    return built;
}

/* Prints what a plan costs and its size, and whether it is one for the known columns. */
static void tell(const char *what, const struct plan *plan, uint32_t cost) {
    uint64_t checked = dudowiej_check_plan(&record, plan->cells, plan->count);
    if (refused(stdout, what, checked)) return;
    printf("%s: cost %u, %u branches in %zu cells\n", what, cost, dudowiej_first(checked), plan->count);
    checked = dudowiej_check_for(&record, known, COUNT(known), plan->cells, plan->count);
    if (refused(stdout, "  checked for the known columns", checked)) return;
    printf("  checked for the known columns: %u branches\n", dudowiej_first(checked));
}

/* Builds both plans; gives the exit status, which is -1 where the table has no such columns. */
static int prepare(const char *path) {
    int status = work_file_out("known", path, FIGURE, &record);
    if (status != 0) return status;
    printf("worked out: %u rules\n", dudowiej_table(&record)[1]);
    uint64_t built = dudowiej_build_plan(&record, least.cells, DUDOWIEJ_PLAN_CELLS);
    if (refused(stderr, "known", built)) return 1;
    least.count = dudowiej_first(built);
    uint64_t built_for = build_for(known, COUNT(known), &for_known);
    if (refused(stdout, "the known columns", built_for)) return -1;
    tell("plain", &least, dudowiej_second(built));
    tell("for the known columns", &for_known, dudowiej_second(built_for));
    return 0;
}

/* The list of columns is a set; with none of them, or all, the plan is the plain one. */
static void other_lists(void) {
    const uint32_t turned[] = {2, 0, 2};
    uint32_t all[DUDOWIEJ_COLUMNS];
    uint32_t width = dudowiej_table(&record)[0];
    for (uint32_t column = 0; column < width; column++) all[column] = column;
    if (!refused(stdout, "turned", build_for(turned, COUNT(turned), &other)))
        printf("listed in another order, one twice: %s\n", same(&other, &for_known) ? "the same plan" : "another plan");
    if (!refused(stdout, "none", build_for(known, 0, &other)))
        printf("no column listed: %s\n", same(&other, &least) ? "the plain plan" : "another plan");
    if (!refused(stdout, "all", build_for(all, width, &other)))
        printf("all columns listed: %s\n", same(&other, &least) ? "the plain plan" : "another plan");
}

/* Prints the rules that fit a job, and the branches that each plan tried. */
static void ask(const uint32_t *job, size_t job_cells) {
    uint8_t rows[DUDOWIEJ_ROWS], again[DUDOWIEJ_ROWS];
    uint64_t by_least = dudowiej_run_plan(&record, least.cells, least.count, job, job_cells, rows, sizeof rows);
    if (refused(stdout, "\njob", by_least)) return;
    uint64_t by_known = dudowiej_run_plan(&record, for_known.cells, for_known.count, job, job_cells, again, sizeof again);
    if (refused(stdout, "\njob", by_known)) return;
    uint32_t hits = dudowiej_first(by_least);
    printf("\njob: ");
    print_columns(job, dudowiej_table(&record)[0], print_name);
    for (uint32_t hit = 0; hit < hits; hit++) print_rule(&record, rows[hit], print_name);
    bool agree = hits == dudowiej_first(by_known) && memcmp(rows, again, hits) == 0;
    printf("  %s; tried: %u by the plain plan, %u by the other\n", agree ? "the same rules by both plans" : "other rules by the other plan",
           dudowiej_second(by_least), dudowiej_second(by_known));
    tried_by_least += dudowiej_second(by_least);
    tried_for_known += dudowiej_second(by_known);
}

/* Jobs in which urgency and piece are known. */
static void ask_all(void) {
    const struct {
        uint32_t cells[5];
        size_t count;
    } jobs[] = {
        /* a ring that is waited for: which enamels, and which firing? */
        {{dudowiej_whole(9), dudowiej_variable(0), plain(RING), dudowiej_variable(1)}, 4},
        /* a brooch likewise */
        {{dudowiej_whole(9), dudowiej_variable(0), plain(BROOCH), dudowiej_variable(1)}, 4},
        /* a large bowl for today */
        {{dudowiej_whole(10), dudowiej_variable(0), dudowiej_name(BOWL, 1), plain(LARGE), dudowiej_variable(1)}, 5},
        /* a ring that is not urgent */
        {{dudowiej_whole(1), dudowiej_variable(0), plain(RING), dudowiej_variable(1)}, 4},
        /* a blue ring for today: the enamel is known too */
        {{dudowiej_whole(10), plain(BLUE), plain(RING), dudowiej_variable(0)}, 4},
    };
    for (size_t job = 0; job < COUNT(jobs); job++) ask(jobs[job].cells, jobs[job].count);
    printf("\nin all: %u branches tried by the plain plan, %u by the other\n", tried_by_least, tried_for_known);
}

/* Prints two refusals. Each is given for every table that has the known columns. */
static void refusals(void) {
    const uint32_t past[] = {0, DUDOWIEJ_COLUMNS};
    refused(stdout, "a column that is not there", build_for(past, COUNT(past), &other));
    refused(stdout, "a cell too few", dudowiej_build_for(&record, known, COUNT(known), other.cells, for_known.count - 1));
}

int main(int argc, char **argv) {
    if (argc != 2) {
        fprintf(stderr, "usage: known FILE\n");
        return 2;
    }
    int status = prepare(argv[1]);
    if (status != 0) return status > 0 ? status : 0;
    other_lists();
    ask_all();
    refusals();
    return 0;
}
