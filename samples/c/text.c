/* A shop's table from Prolog text in C: loads the facts, builds the plan, and asks some jobs, each a goal in Prolog text; prints the rules that fit
 * and what each of them says to the job, in the names of both texts.
 *
 * usage: text FILE    (samples/shop.pl) */

#include "facts.h"

static struct facts shop;

/* What the rules say to a job: enough for every job of every table. */
enum { REPLIES_CELLS = DUDOWIEJ_ROWS * DUDOWIEJ_REPLY_CELLS };
static uint32_t replies[REPLIES_CELLS];

/* Prints the rules that fit a job, and below each what it says: the job with the rule's bindings filled in. */
static void print_rules(const struct goal *job) {
    uint8_t rows[DUDOWIEJ_ROWS];
    uint64_t run = dudowiej_run_plan(&shop.record, shop.plan, shop.plan_cells, job->cells, job->cells_count, rows, sizeof rows);
    if (refused(stdout, "  job", run)) return;
    uint64_t said = dudowiej_replies(&shop.record, shop.plan, shop.plan_cells, job->cells, job->cells_count, replies, REPLIES_CELLS);
    if (refused(stdout, "  job", said)) return;
    /* There is a reply for each hit, in the same order. */
    const uint32_t *table = dudowiej_table(&shop.record), *reply = replies;
    for (uint32_t hit = 0; hit < dudowiej_first(run); hit++) {
        uint64_t row = dudowiej_row(&shop.record, rows[hit]);
        printf("  rule %d: ", rows[hit] + 1);
        print_said(&shop, job, table + dudowiej_first(row), dudowiej_second(row));
        size_t cells = cells_of_terms(reply, table[0]);
        printf("    says: ");
        print_said(&shop, job, reply, cells);
        reply += cells;
    }
}

int main(int argc, char **argv) {
    static const char *const jobs[] = {
        /* Urgency 10, red, a ring: which firing? */
        "rule(10, red, ring, Firing)",
        /* A blue bowl of any size. */
        "rule(9, blue, bowl(Size), Firing)",
        /* A black tray: no rule names a tray. */
        "rule(1, black, tray, Firing)",
        /* Anything black. */
        "rule(Urgency, black, Piece, Firing)",
        /* A blue bowl whose size is called as its firing: one variable twice. */
        "rule(9, blue, bowl(Firing), Firing)",
        /* A red ring that was put off: urgency below zero. */
        "rule(-1, red, ring, Firing).",
        /* Cut off, and with a column too few. */
        "rule(9, blue, ring",
        "rule(9, blue, ring)",
    };
    if (argc != 2) {
        fprintf(stderr, "usage: text FILE\n");
        return 2;
    }
    int status = prepare_file("text", argv[1], &shop);
    if (status != 0) return status;
    const uint32_t *table = dudowiej_table(&shop.record);
    printf("text: %u rules of %u columns, %zu names\n", table[1], table[0], shop.names_count);
    printf("plan: cost %u with figure 0\n", shop.cost);
    for (size_t number = 0; number < COUNT(jobs); number++) {
        struct goal job;
        printf("\njob: %s\n", jobs[number]);
        if (!refused(stdout, "  job", read_goal(&shop, jobs[number], &job))) print_rules(&job);
    }
    return 0;
}
