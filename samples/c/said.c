/* What a shift's jobs are told, in C: some jobs for a shop's table, and the replies of the rules to all of them in one call and one room; once with
 * room enough, and once with so little that a job in the middle does not fit and a later one does.
 *
 * usage: said FILE    (samples/shop.cells; samples/README.md has the numbers of the names) */

#include "shop.h"

enum { JOBS = 7, CELLS = 64, ENOUGH = 100, LITTLE = 26 };

static dudowiej_record record;
static uint32_t plan[DUDOWIEJ_PLAN_CELLS];
static size_t plan_cells;
static uint32_t cells[CELLS];
static size_t cells_count;
static struct dudowiej_reply_job jobs[JOBS];
static uint32_t room[ENOUGH];

/* Puts a job's cells after those before it. */
static void add(size_t job, const uint32_t *goal, size_t goal_cells) {
    jobs[job].start = cells_count;
    jobs[job].count = goal_cells;
    for (size_t i = 0; i < goal_cells; i++) cells[cells_count++] = goal[i];
}

static void gather(void) {
    const uint32_t v0 = dudowiej_variable(0), v1 = dudowiej_variable(1), v2 = dudowiej_variable(2), v3 = dudowiej_variable(3);
    /* Urgency 10, red, a ring: which firing? */
    const uint32_t ring[] = {dudowiej_whole(10), plain(RED), plain(RING), v0};
    /* A column too few. */
    const uint32_t few[] = {dudowiej_whole(9), plain(BLUE), plain(RING)};
    /* A blue bowl of any size. */
    const uint32_t bowl[] = {dudowiej_whole(9), plain(BLUE), dudowiej_name(BOWL, 1), v0, v1};
    /* Anything at all: every rule replies. */
    const uint32_t all[] = {v0, v1, v2, v3};
    /* A soft brooch of urgency 1: no rule fits. */
    const uint32_t none[] = {dudowiej_whole(1), plain(RED), plain(BROOCH), plain(SOFT)};
    /* A blue bowl whose size is called as its firing: one variable twice. */
    const uint32_t alike[] = {dudowiej_whole(9), plain(BLUE), dudowiej_name(BOWL, 1), v0, v0};
    add(0, ring, COUNT(ring));
    add(1, few, COUNT(few));
    add(2, bowl, COUNT(bowl));
    add(3, all, COUNT(all));
    add(4, none, COUNT(none));
    add(5, alike, COUNT(alike));
    /* Past the cells. */
    jobs[6].start = cells_count;
    jobs[6].count = 1;
}

/* Prints what a job is told: for each rule that fits, from the top, its reply. */
static void print_job(const struct dudowiej_reply_job *job) {
    unsigned number = (unsigned)job->number;
    if (number != 0) {
        printf("job %zu: refused, %s %u at %zu\n", job - jobs + 1, dudowiej_refusal_name(number), number, job->place);
        return;
    }
    printf("job %zu: ", job - jobs + 1);
    print_columns(cells + job->start, dudowiej_table(&record)[0], print_name);
    const uint32_t *reply = room + job->at;
    for (size_t row = 0; row < DUDOWIEJ_ROWS; row++) {
        if (!(job->hits >> row & 1)) continue;
        printf("  rule %zu says: ", row + 1);
        reply = print_columns(reply, dudowiej_table(&record)[0], print_name);
    }
    printf("  replies: %zu, cells: %zu, from cell %zu on; %zu branches tried\n", job->replies, job->cells, job->at, job->tried);
}

/* Asks all jobs in a room of so many cells. */
static void ask(size_t room_cells) {
    uint64_t asked = dudowiej_reply_jobs(&record, plan, plan_cells, cells, cells_count, jobs, JOBS, room, room_cells);
    printf("\nroom for %zu cells\n", room_cells);
    if (refused(stdout, "jobs", asked)) return;
    for (size_t job = 0; job < JOBS; job++) print_job(&jobs[job]);
}

int main(int argc, char **argv) {
    if (argc != 2) {
        fprintf(stderr, "usage: said FILE\n");
        return 2;
    }
    int status = work_file_out("said", argv[1], 0, &record);
    if (status != 0) return status;
    plan_cells = dudowiej_first(dudowiej_build_plan(&record, plan, DUDOWIEJ_PLAN_CELLS));
    printf("worked out: %u rules\n", dudowiej_table(&record)[1]);
    gather();
    ask(ENOUGH);
    ask(LITTLE);
    plan_cells--;
    ask(ENOUGH);
    return 0;
}
