/* Which columns to look at first, in C: that is asked of last month's jobs themselves. For three shops with the same rules, each with its own
 * jobs, the plan is built by which these try the fewest branches, and it is said which columns it looks at first.
 *
 * usage: liked FILE    (samples/shop.cells; samples/README.md has the numbers of the names) */

#include <string.h>

#include "shop.h"

/* What a choice between branches costs here, and room for a shop's jobs. */
enum { FIGURE = 0, MOST_JOBS = 100, MOST_CELLS = 100 };

/* A job, and how often it was asked last month. */
struct asked {
    uint32_t cells[5];
    size_t count, times;
};

/* A shop's jobs as the library takes them: the cells of each, and two words for each time that it was asked. */
static uint32_t cells[MOST_CELLS];
static size_t list[2 * MOST_JOBS];
static size_t cells_count, words;

static dudowiej_record record;
static uint32_t plan[DUDOWIEJ_PLAN_CELLS], other[DUDOWIEJ_PLAN_CELLS];
static struct dudowiej_job jobs[MOST_JOBS];

static void gather(const struct asked *asked, size_t count) {
    cells_count = words = 0;
    for (size_t job = 0; job < count; job++) {
        memcpy(cells + cells_count, asked[job].cells, asked[job].count * sizeof cells[0]);
        for (size_t i = 0; i < asked[job].times; i++) {
            list[words++] = cells_count;
            list[words++] = asked[job].count;
        }
        cells_count += asked[job].count;
    }
}

/* The plan is the one for these columns, and the jobs, run by it, try as many branches as was said. */
static void look_again(const dudowiej_liked *liked, size_t plan_cells) {
    uint32_t columns[DUDOWIEJ_COLUMNS];
    size_t columns_count = 0, tried = 0, turned_away = 0;
    for (uint32_t column = 0; column < DUDOWIEJ_COLUMNS; column++)
        if (liked->columns >> column & 1) columns[columns_count++] = column;
    uint64_t built = dudowiej_build_for(&record, columns, columns_count, other, DUDOWIEJ_PLAN_CELLS);
    bool same = !dudowiej_refused(built) && dudowiej_first(built) == plan_cells && memcmp(plan, other, plan_cells * sizeof plan[0]) == 0;
    for (size_t job = 0; job < words / 2; job++) jobs[job] = (struct dudowiej_job){.start = list[2 * job], .count = list[2 * job + 1]};
    if (refused(stdout, "  jobs", dudowiej_run_jobs(&record, plan, plan_cells, cells, cells_count, jobs, words / 2))) return;
    for (size_t job = 0; job < words / 2; job++) {
        tried += jobs[job].tried;
        turned_away += jobs[job].number != 0;
    }
    printf("  built for these columns: %s; run by it: %zu tried, %zu refused\n", same ? "the same plan" : "another plan", tried, turned_away);
}

/* Prints what a shop's jobs like best, and that a cell too few for it is refused. */
static void tell(const char *shop, const struct asked *asked, size_t count) {
    gather(asked, count);
    dudowiej_liked liked;
    uint64_t built = dudowiej_build_liked(&record, cells, cells_count, list, words, plan, DUDOWIEJ_PLAN_CELLS, &liked);
    if (refused(stdout, shop, built)) return;
    printf("\n%s: %zu jobs\n  columns to look at first:", shop, words / 2);
    for (uint32_t column = 0; column < DUDOWIEJ_COLUMNS; column++)
        if (liked.columns >> column & 1) printf(" %u", column);
    printf(liked.columns == 0 ? " none, the plain plan\n" : "\n");
    printf("  tried: %zu by this plan, %zu by the plain one\n", liked.tried, liked.plain);
    printf("  cost %u, %u cells\n", dudowiej_second(built), dudowiej_first(built));
    look_again(&liked, dudowiej_first(built));
    built = dudowiej_build_liked(&record, cells, cells_count, list, words, other, dudowiej_first(built) - 1, &liked);
    refused(stdout, "  a cell too few", built);
}

/* Three shops: one where enamel and piece are known, one where the urgency is, and one where nothing was asked. */
static void tell_all(void) {
    const uint32_t blank = dudowiej_variable(0), next = dudowiej_variable(1), last = dudowiej_variable(2);
    const struct asked by_piece[] = {
        {{blank, plain(RED), plain(RING), next}, 4, 20},
        {{blank, plain(BLUE), plain(RING), next}, 4, 15},
        {{blank, plain(WHITE), dudowiej_name(BOWL, 1), plain(LARGE), next}, 5, 8},
        {{blank, plain(BLACK), plain(BROOCH), next}, 4, 5},
        {{dudowiej_whole(9), plain(BLUE), dudowiej_name(BOWL, 1), plain(LARGE), blank}, 5, 4},
        /* a column too few: refused, and it adds nothing */
        {{dudowiej_whole(9), plain(BLUE), plain(RING)}, 3, 2},
    };
    const struct asked by_urgency[] = {
        {{dudowiej_whole(9), blank, next, last}, 4, 12},
        {{dudowiej_whole(10), blank, next, last}, 4, 9},
        {{dudowiej_whole(1), blank, plain(RING), next}, 4, 2},
    };
    tell("enamel and piece are known", by_piece, COUNT(by_piece));
    tell("the urgency is known", by_urgency, COUNT(by_urgency));
    tell("nothing was asked", by_urgency, 0);
}

int main(int argc, char **argv) {
    if (argc != 2) {
        fprintf(stderr, "usage: liked FILE\n");
        return 2;
    }
    int status = work_file_out("liked", argv[1], FIGURE, &record);
    if (status != 0) return status;
    printf("worked out: %u rules\n", dudowiej_table(&record)[1]);
    tell_all();
    return 0;
}
