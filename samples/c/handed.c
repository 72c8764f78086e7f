/* A shop's table handed back as Prolog in C: loads the facts, works the table out, builds the plan and prints the program that the plan is,
 * then two refusals. Whatever is no clause stands in a comment, so that all of it is a Prolog text.
 *
 * usage: handed FILE    (samples/shop.pl) */

#include "facts.h"

static struct facts shop;

/* The program: enough for every table that is read from a text, with that text's names. */
static uint8_t program[131072];

/* The plan handed back, with the first so many names and so many bytes of room. */
static uint64_t hand_back(size_t names_listed, size_t room_bytes) {
    return dudowiej_clauses(&shop.record, shop.plan, shop.plan_cells, shop.text, shop.bytes, shop.names, names_listed, program, room_bytes);
}

int main(int argc, char **argv) {
    if (argc != 2) {
        fprintf(stderr, "usage: handed FILE\n");
        return 2;
    }
    int status = prepare_file("handed", argv[1], &shop);
    if (status != 0) return status;

    uint64_t handed = hand_back(shop.names_count, sizeof program);
    if (refused(stderr, "handed", handed)) return 1;
    uint32_t bytes = dudowiej_second(handed);
    printf("%% %u rules and %zu names: %u clauses, %u bytes\n", dudowiej_table(&shop.record)[1], shop.names_count, dudowiej_first(handed),
           bytes);
    fwrite(program, 1, bytes, stdout);

    /* A table that has no name at all needs no list. */
    if (shop.names_count > 0) refused(stdout, "% without the last name", hand_back(shop.names_count - 1, sizeof program));
    refused(stdout, "% a byte too few", hand_back(shop.names_count, bytes - 1));
    return 0;
}
