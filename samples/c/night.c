/* A bad card at night in C: nobody can send a new one, so the shop saves what it can and runs from that. The shop's table with more rules
 * is written to a card, the card is harmed in some ways, and each time it is said what was saved; then a job is asked.
 *
 * usage: night FILE    (samples/shop.cells; samples/README.md has the numbers of the names) */

#include <string.h>

#include "shop.h"

/* What a choice between branches costs in the shop; rules for as many urgencies more, and the first of these. */
enum { FIGURE = 2, MORE_RULES = 20, FIRST_URGENCY = 20 };

/* A block's bytes, and the most blocks of a card. */
enum { BLOCK = 512, BLOCKS = DUDOWIEJ_FILE_BYTES / BLOCK };

static dudowiej_record shop, saved;
static uint8_t card[DUDOWIEJ_FILE_BYTES], harmed[DUDOWIEJ_FILE_BYTES];
static uint32_t table[DUDOWIEJ_TABLE_CELLS], plan[DUDOWIEJ_PLAN_CELLS];
static size_t bad[BLOCKS], card_bytes;

/* Appends a rule for each of some urgencies: a large white bowl gets a hard firing. */
static void more_rules(void) {
    for (int32_t urgency = FIRST_URGENCY; urgency < FIRST_URGENCY + MORE_RULES; urgency++) {
        const uint32_t rule[] = {dudowiej_whole(urgency), plain(WHITE), dudowiej_name(BOWL, 1), plain(LARGE), plain(HARD)};
        if (refused(stdout, "appended", dudowiej_append(&shop, rule, COUNT(rule)))) return;
    }
}

/* Writes the card; gives the exit status. */
static int write_card(const char *path) {
    int status = work_file_out("night", path, FIGURE, &shop);
    if (status != 0) return status;
    more_rules();
    uint64_t built = dudowiej_build_plan(&shop, plan, DUDOWIEJ_PLAN_CELLS);
    if (refused(stderr, "night", built)) return 1;
    uint64_t written = dudowiej_write_file(&shop, plan, dudowiej_first(built), card, sizeof card);
    if (refused(stderr, "night", written)) return 1;
    card_bytes = dudowiej_first(written);
    printf("written: %u rules, %u cells of table and %u of plan, %u blocks\n", dudowiej_table(&shop)[1], shop.cell[0], dudowiej_first(built),
           dudowiej_second(written));
    return 0;
}

/* Prints what was saved. */
static void print_report(const char *what, const dudowiej_report *report) {
    printf("%s: %zu of %zu rules kept\n", what, report->kept, report->kept + report->dropped);
    printf("  the plan is %s, %zu cells of table and %zu of plan\n", report->plan_kept ? "kept" : "new", report->table_cells,
           report->plan_cells);
    printf("  bad blocks:");
    for (size_t i = 0; i < report->bad_blocks; i++) printf(" %zu", bad[i]);
    printf(report->bad_blocks == 0 ? " none\n" : "\n");
}

/* The shop runs from what was saved: which rules fit a large white bowl of this urgency? */
static void ask(const dudowiej_report *report, int32_t urgency) {
    const uint32_t job[] = {dudowiej_whole(urgency), plain(WHITE), dudowiej_name(BOWL, 1), plain(LARGE), dudowiej_variable(0)};
    uint8_t rows[DUDOWIEJ_ROWS];
    uint64_t run = dudowiej_run_plan(&saved, plan, report->plan_cells, job, COUNT(job), rows, sizeof rows);
    if (refused(stdout, "job", run)) return;
    printf("  urgency %d:\n", (int)urgency);
    for (uint32_t hit = 0; hit < dudowiej_first(run); hit++) {
        printf("  ");
        print_rule(&saved, rows[hit], print_name);
    }
}

/* Saves what can be saved of the harmed card, and makes it whole again. */
static void save(const char *what, size_t bytes) {
    dudowiej_report report;
    uint64_t answer =
        dudowiej_salvage(harmed, bytes, table, DUDOWIEJ_TABLE_CELLS, plan, DUDOWIEJ_PLAN_CELLS, bad, COUNT(bad), &report);
    memcpy(harmed, card, card_bytes);
    if (refused(stdout, what, answer)) return;
    print_report(what, &report);
    if (refused(stdout, what, dudowiej_work_out(table, report.table_cells, 0, &saved))) return;
    ask(&report, FIRST_URGENCY);
    ask(&report, FIRST_URGENCY + MORE_RULES - 1);
}

/* The card as it was written, and harmed. It has more than two blocks. */
static void harm(void) {
    memcpy(harmed, card, card_bytes);
    save("as written", card_bytes);

    memset(harmed + BLOCK, 0, BLOCK);
    save("block 1 wiped", card_bytes);

    memcpy(harmed + BLOCK, card + 2 * BLOCK, card_bytes - 2 * BLOCK);
    save("block 1 lost", card_bytes - BLOCK);
    save("the last byte lost", card_bytes - 1);
    save("only block 0 left", BLOCK);

    memcpy(harmed, card + BLOCK, card_bytes - BLOCK);
    save("block 0 lost", card_bytes - BLOCK);
}

int main(int argc, char **argv) {
    if (argc != 2) {
        fprintf(stderr, "usage: night FILE\n");
        return 2;
    }
    int status = write_card(argv[1]);
    if (status != 0) return status;
    if (card_bytes <= 2 * BLOCK) {
        printf("the card has no block after block 1\n");
        return 0;
    }
    harm();
    dudowiej_report report;
    memset(harmed + BLOCK, 0, BLOCK);
    refused(stdout, "no room for a bad block",
            dudowiej_salvage(harmed, card_bytes, table, DUDOWIEJ_TABLE_CELLS, plan, DUDOWIEJ_PLAN_CELLS, bad, 0, &report));
    return 0;
}
