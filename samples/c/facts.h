/* What the programs for Prolog facts share: a text with its table and its plan, goals read from text, and answers printed as such. */
#ifndef FACTS_H
#define FACTS_H

#include <string.h>

#include "shared.h"

/* A text of facts, its names, its table worked out, and the plan. */
struct facts {
    const uint8_t *text;
    size_t bytes;
    uint32_t names[DUDOWIEJ_NAMES];
    size_t names_count;
    dudowiej_record record;
    uint32_t plan[DUDOWIEJ_PLAN_CELLS];
    size_t plan_cells;
    uint32_t cost;
};

/* Makes the table of a text, works it out and builds the plan; the answer is the first refusal, if there is one. A choice between branches costs
 * nothing. */
static inline uint64_t prepare(struct facts *facts, const uint8_t *text, size_t bytes) {
    static uint32_t table[DUDOWIEJ_TABLE_CELLS];
    facts->text = text;
    facts->bytes = bytes;
    uint64_t read = dudowiej_read_text(text, bytes, table, DUDOWIEJ_TABLE_CELLS, facts->names, DUDOWIEJ_NAMES);
    if (dudowiej_refused(read)) return read;
    facts->names_count = dudowiej_second(read);
    uint64_t worked_out = dudowiej_work_out(table, dudowiej_first(read), 0, &facts->record);
    if (dudowiej_refused(worked_out)) return worked_out;
    uint64_t built = dudowiej_build_plan(&facts->record, facts->plan, DUDOWIEJ_PLAN_CELLS);
    facts->plan_cells = dudowiej_first(built);
    facts->cost = dudowiej_second(built);
    return built;
}

/* The same for a file's text; gives the exit status, after a word on standard error where it is not 0. */
static inline int prepare_file(const char *word, const char *path, struct facts *facts) {
    /* One byte more than a text may have, so that too long a file is seen to be one. */
    static uint8_t text[DUDOWIEJ_TEXT_BYTES + 1];
    long bytes = load(word, path, text, sizeof text);
    if (bytes < 0) return 2;
    return refused(stderr, word, prepare(facts, text, (size_t)bytes)) ? 1 : 0;
}

/* A goal: its text, its cells, and those of its names that the facts have not. */
struct goal {
    const char *text;
    uint32_t cells[DUDOWIEJ_GOAL_CELLS], new_names[DUDOWIEJ_GOAL_CELLS];
    size_t cells_count, new_count;
};

static inline uint64_t read_goal(const struct facts *facts, const char *text, struct goal *goal) {
    uint64_t read = dudowiej_read_goal_text(facts->text, facts->bytes, facts->names, facts->names_count, (const uint8_t *)text, strlen(text),
                                            goal->cells, DUDOWIEJ_GOAL_CELLS, goal->new_names, DUDOWIEJ_GOAL_CELLS);
    goal->text = text;
    goal->cells_count = dudowiej_first(read);
    goal->new_count = dudowiej_second(read);
    return read;
}

/* Prints some cells as a term of the facts, in their names and in the goal's, and the end of the line. */
static inline void print_said(const struct facts *facts, const struct goal *goal, const uint32_t *cells, size_t count) {
    static uint8_t room[1 << 16];
    uint64_t said = dudowiej_put_answer(facts->text, facts->bytes, facts->names, facts->names_count, (const uint8_t *)goal->text,
                                        strlen(goal->text), goal->new_names, goal->new_count, cells, count, room, sizeof room);
    if (!refused(stdout, "answer", said)) printf("%.*s\n", (int)dudowiej_second(said), (const char *)room);
}

/* The cells of so many terms. */
static inline size_t cells_of_terms(const uint32_t *cells, size_t terms) {
    size_t count = 0;
    for (; terms > 0; terms--, count++) terms += cells[count] >> 30 == 1 ? cells[count] >> 16 & 7 : 0;
    return count;
}

#endif
