/* A shop's table and plan on a card in C: the shop writes them as one file, the terminal reads it, works the table out with a figure of its
 * own and asks for a job. Then the card is spoiled in some ways, and the terminal says so.
 *
 * usage: terminal FILE    (samples/shop.cells; samples/README.md has the numbers of the names) */

#include <string.h>

#include "shop.h"

/* What a choice between branches costs: to the shop, which builds the plan; to the terminal, which only runs it, nothing. */
enum { SHOP_FIGURE = 2, TERMINAL_FIGURE = 0 };

/* A block's bytes and a word's, and where word 5 of block 1 stands. */
enum { BLOCK = 512, WORD = 4, SPOILED = BLOCK + 5 * WORD };

/* The card, the same spoiled, and what each of the two has. */
static uint8_t card[DUDOWIEJ_FILE_BYTES], spoiled[DUDOWIEJ_FILE_BYTES];
static dudowiej_record shop, terminal;
static uint32_t plan[DUDOWIEJ_PLAN_CELLS], read_plan[DUDOWIEJ_PLAN_CELLS];
static uint32_t read_table[DUDOWIEJ_TABLE_CELLS];
static size_t plan_cells, card_bytes;

static uint32_t word_at(const uint8_t *bytes) {
    uint32_t word = 0;
    cells_of(bytes, WORD, &word);
    return word;
}

/* The shop's side: loads the table, builds the plan and writes the card; gives the exit status. */
static int write_card(const char *path) {
    int status = work_file_out("terminal", path, SHOP_FIGURE, &shop);
    if (status != 0) return status;
    uint64_t built = dudowiej_build_plan(&shop, plan, DUDOWIEJ_PLAN_CELLS);
    if (refused(stderr, "terminal", built)) return 1;
    plan_cells = dudowiej_first(built);

    uint64_t written = dudowiej_write_file(&shop, plan, plan_cells, card, sizeof card);
    if (refused(stderr, "terminal", written)) return 1;
    card_bytes = dudowiej_first(written);
    uint32_t blocks = dudowiej_second(written);
    printf("written: %u cells of table and %zu of plan, %zu bytes, %u blocks\n", shop.cell[0], plan_cells, card_bytes, blocks);
    for (size_t block = 0; block < card_bytes; block += BLOCK)
        printf("  block %u: checks %u %u\n", word_at(card + block), word_at(card + block + 126 * WORD), word_at(card + block + 127 * WORD));
    return 0;
}

/* Reads a file into the terminal's rooms. */
static uint64_t read_card(const uint8_t *file, size_t bytes) {
    return dudowiej_read_file(file, bytes, read_table, DUDOWIEJ_TABLE_CELLS, read_plan, DUDOWIEJ_PLAN_CELLS);
}

/* The terminal's side: reads the card, works the table out, and prints which rules fit a job. */
static void use_card(void) {
    uint64_t answer = read_card(card, card_bytes);
    if (refused(stdout, "read", answer)) return;
    size_t table_cells = dudowiej_first(answer), cells = dudowiej_second(answer);
    bool same = table_cells == shop.cell[0] && memcmp(read_table, dudowiej_table(&shop), table_cells * WORD) == 0 && cells == plan_cells &&
                memcmp(read_plan, plan, cells * WORD) == 0;
    printf("read: %zu cells of table and %zu of plan, as written: %s\n", table_cells, cells, same ? "true" : "false");

    if (refused(stdout, "table", dudowiej_work_out(read_table, table_cells, TERMINAL_FIGURE, &terminal))) return;
    /* Blue rings that wait: which firing? */
    const uint32_t job[] = {dudowiej_whole(9), plain(BLUE), plain(RING), dudowiej_variable(0)};
    uint8_t rows[DUDOWIEJ_ROWS];
    uint64_t run = dudowiej_run_plan(&terminal, read_plan, cells, job, COUNT(job), rows, sizeof rows);
    if (refused(stdout, "job", run)) return;
    for (uint32_t hit = 0; hit < dudowiej_first(run); hit++) print_rule(&terminal, rows[hit], print_name);
}

/* Prints what is said of the spoiled card, and makes it whole again. */
static void tell(const char *what, size_t bytes) {
    uint64_t answer = read_card(spoiled, bytes);
    if (!refused(stdout, what, answer)) printf("%s: read\n", what);
    memcpy(spoiled, card, card_bytes);
}

/* A card of two blocks or more, spoiled. */
static void spoil(void) {
    memcpy(spoiled, card, card_bytes);
    printf("word 5 of block 1 was %u\n", word_at(spoiled + SPOILED));
    memset(spoiled + SPOILED, 0xff, WORD);
    tell("a word changed", card_bytes);

    memcpy(spoiled + SPOILED, card + SPOILED + WORD, WORD);
    memcpy(spoiled + SPOILED + WORD, card + SPOILED, WORD);
    tell("two words exchanged", card_bytes);

    memcpy(spoiled, card + BLOCK, BLOCK);
    memcpy(spoiled + BLOCK, card, BLOCK);
    tell("two blocks exchanged", card_bytes);
    tell("the last block lost", card_bytes - BLOCK);
    tell("a byte lost", card_bytes - 1);
}

int main(int argc, char **argv) {
    if (argc != 2) {
        fprintf(stderr, "usage: terminal FILE\n");
        return 2;
    }
    int status = write_card(argv[1]);
    if (status != 0) return status;
    use_card();
    if (card_bytes > BLOCK) spoil();
    refused(stdout, "a byte of room too few", dudowiej_write_file(&shop, plan, plan_cells, spoiled, card_bytes - 1));
    return 0;
}
