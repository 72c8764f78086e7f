/* What all the programs share: terms, rules and refusals as people read them, and a file's bytes. */
#ifndef SHARED_H
#define SHARED_H

#include <stdio.h>

#include "dudowiej.h"

#define COUNT(list) (sizeof(list) / sizeof(list)[0])

/* Prints the name of this number; each program has its own names. */
typedef void name_printer(uint32_t number);

/* Prints the term at the first of the cells and gives what follows it. */
static inline const uint32_t *print_term(const uint32_t *cells, name_printer *print_name) {
    uint32_t cell = *cells++;
    switch (cell >> 30) {
    case 0: printf("_%u", (unsigned)cell); return cells;
    case 2: printf("%d", (int)dudowiej_value(cell)); return cells;
    }
    print_name(cell & 0xffff);
    uint32_t arguments = cell >> 16 & 7;
    for (uint32_t i = 0; i < arguments; i++) {
        printf(i == 0 ? "(" : ", ");
        cells = print_term(cells, print_name);
    }
    if (arguments > 0) printf(")");
    return cells;
}

/* Prints a term for each column and the end of the line; gives what follows the terms. */
static inline const uint32_t *print_columns(const uint32_t *cells, uint32_t width, name_printer *print_name) {
    for (uint32_t left = width; left > 0; left--) {
        cells = print_term(cells, print_name);
        printf(left > 1 ? ", " : "\n");
    }
    return cells;
}

/* Prints a record's row. The library counts rows from 0, people count rules from 1. */
static inline void print_rule(const dudowiej_record *record, size_t row, name_printer *print_name) {
    const uint32_t *table = dudowiej_table(record);
    printf("  rule %zu: ", row + 1);
    print_columns(table + dudowiej_first(dudowiej_row(record, row)), table[0], print_name);
}

/* Prints a refusal after a word, if the answer is one. */
static inline bool refused(FILE *to, const char *word, uint64_t answer) {
    static const char *const inputs[] = {"?", "table", "plan", "goal", "room", "text", "figure", "names", "file", "columns"};
    if (!dudowiej_refused(answer)) return false;
    unsigned input = dudowiej_input(answer), number = dudowiej_number(answer);
    unsigned long long place = dudowiej_place(answer);
    fprintf(to, "%s: %s refused, %s %u at %llu\n", word, inputs[input < COUNT(inputs) ? input : 0], dudowiej_refusal_name(number), number, place);
    return true;
}

/* Reads the first bytes of a file, as many as there is room for; -1, and a word on standard error, where it cannot be read. */
static inline long load(const char *word, const char *path, uint8_t *bytes, size_t room) {
    FILE *file = fopen(path, "rb");
    size_t size = file ? fread(bytes, 1, room, file) : 0;
    bool failed = !file || ferror(file);
    if (file) fclose(file);
    if (failed) fprintf(stderr, "%s: cannot read %s\n", word, path);
    return failed ? -1 : (long)size;
}

#endif
