/* Front and back in one enamel, in C: rules that use a variable twice, what they say to some jobs, and an answer that is too large.
 *
 * usage: enamel */

#include "facts.h"

static struct facts facts;

/* Prints how many rules fit a job, and what each says to it. */
static void ask(const char *text) {
    static uint32_t room[DUDOWIEJ_ROWS * DUDOWIEJ_REPLY_CELLS];
    struct goal job;
    uint8_t rows[DUDOWIEJ_ROWS];
    if (refused(stdout, text, read_goal(&facts, text, &job))) return;
    uint64_t run = dudowiej_run_plan(&facts.record, facts.plan, facts.plan_cells, job.cells, job.cells_count, rows, sizeof rows);
    if (refused(stdout, text, run)) return;
    printf("%s: %u fit\n", text, dudowiej_first(run));
    uint64_t answer = dudowiej_replies(&facts.record, facts.plan, facts.plan_cells, job.cells, job.cells_count, room, COUNT(room));
    if (refused(stdout, "  answers", answer)) return;
    const uint32_t *reply = room;
    for (uint32_t hit = 0; hit < dudowiej_first(answer); hit++) {
        size_t cells = cells_of_terms(reply, dudowiej_table(&facts.record)[0]);
        printf("  rule %d: ", rows[hit] + 1);
        print_said(&facts, &job, reply, cells);
        reply += cells;
    }
}

static bool rules(const char *text) {
    return !refused(stdout, "rules", prepare(&facts, (const uint8_t *)text, strlen(text)));
}

int main(void) {
    /* Rule 1 asks for one enamel, front and back; rule 2 takes any two. */
    if (rules("sides(E, E). sides(_, _).")) {
        ask("sides(red, red)");
        ask("sides(red, blue)");
        ask("sides(red, Back)");
        /* No enamel is its own gilding: Prolog calls this the occurs check. */
        ask("sides(X, gilt(X))");
    }
    /* Each variable is a set of four of the one before, in the rule and in the job: what they have in common has over a million cells. */
    if (rules("sets(A, s(A,A,A,A), B, s(B,B,B,B), C, s(C,C,C,C), D, g(s(D,D,D,D), E, s(E,E,E,E)))."))
        ask("sets(s(A,A,A,A), B, s(B,B,B,B), C, s(C,C,C,C), D, s(D,D,D,D), g(E, s(E,E,E,E), F))");
    return 0;
}
