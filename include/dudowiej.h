/* The rule tables as a C library: tables and goals from Prolog text, reading tables and goals, the least plan, also for columns that are always
 * filled in, and the one that a list of goals likes best, the check of any plan, the run of a plan on a goal, what the rows say to it, also as
 * Prolog text, edits of a row at a time, a plan handed back as Prolog, one file for a table and its plan, and what is saved of a bad one.
 *
 * Link target/staticlib/libdudowiej.a, which `tools/build dudowiej` writes (x86-64).
 *
 * The cells of terms: bits 31..30 are the kind. 0, a variable: its number in bits 15..0. 1, a name: its number there, and how many
 * arguments it has, 0 to 4, in bits 18..16. 2, a whole number: its value in bits 15..0, two's complement, -32,768 to 32,767. All other
 * bits are zero.
 *
 * Every function takes any cells at all, and ends; nobody has to check first. It answers one number, which the inline functions below take
 * apart. Either it answered, and there are two values, or the input is refused: then there is the refusal's number, the input that it
 * concerns and a place in it, and nothing was written to the lent room, the record or the report; of dudowiej_build_plan and of the edits
 * this is said for a record that an entry made. The one exception is a goal of a list (dudowiej_run_jobs, dudowiej_reply_jobs): where the
 * goal is refused, its job says so.
 *
 * A table is worked out once, into a record (dudowiej_work_out). All other calls take the record in place of the table: the plan is built
 * from it, goals are read and run with it, and a row of it is appended, dropped or replaced without starting over.
 *
 * A list is passed as a pointer and a length, a record or a report as a pointer. A pointer is aligned for its type and not null, even where
 * the length is 0. What a call writes, a lent room, a record or a report, shares no memory with its other inputs: a row that is to be
 * appended again is copied out of its record first. The functions keep nothing between calls, and allocate nothing. Of its caller's stack a
 * call touches at most 128,600 bytes to read a goal's text, 125,112 to build the plan that a list likes best, 117,496 to salvage a file, 83,768
 * to build a plan for named columns, 61,944 to load a text, 47,600 to read a file, 46,576 to write one, 45,976 for the replies to a list, 44,840
 * for replies, 32,304 to hand a plan back, 30,368 to run one, 28,944 to build one, 18,600 to edit a record, 17,472 to write an answer's text,
 * 13,520 to check a plan, 9,688 to work a record out and 2,536 to read (measured: docs/BENCH.md, "Stack"). */
#ifndef DUDOWIEJ_H
#define DUDOWIEJ_H

#include <stdbool.h>
#include <stddef.h>
#include <stdint.h>

#ifdef __cplusplus
extern "C" {
#endif

/* The version of what this header declares. The first number is 0 while requests are open. The second counts the base and the requests that
 * have landed on it, W-201 to W-213, dudowiej_build_liked, dudowiej_reply_jobs, and goals and answers as text (dudowiej_read_goal_text,
 * dudowiej_put_answer). The third counts changes of this header since the last of them. */
#define DUDOWIEJ_VERSION "0.17.0"

/* What no table, row, goal, plan, text, reply, program or file exceeds. */
enum {
    DUDOWIEJ_COLUMNS = 8,
    DUDOWIEJ_ROWS = 64,
    DUDOWIEJ_ROW_CELLS = 32,
    DUDOWIEJ_GOAL_CELLS = 32,
    DUDOWIEJ_TABLE_CELLS = 2050,
    DUDOWIEJ_PLAN_CELLS = 6082,
    DUDOWIEJ_TEXT_BYTES = 65535,
    DUDOWIEJ_NAMES = 2048,
    DUDOWIEJ_REPLY_CELLS = 1024,
    DUDOWIEJ_CLAUSES = 127,
    DUDOWIEJ_FILE_BYTES = 33792,
    DUDOWIEJ_MOST_FIGURE = 15
};

/* The numbers of a record. */
enum { DUDOWIEJ_RECORD_CELLS = 14340 };

/* Why an input is refused. */
enum dudowiej_refusal {
    DUDOWIEJ_REFUSED_LENGTH = 1, /* table under 2 or over 2,050 cells, over 2,048 names; goal of 0 or over 32: place 0 */
    DUDOWIEJ_REFUSED_WIDTH = 2,  /* width not 1 to 8: place 0 */
    DUDOWIEJ_REFUSED_COUNT = 3,  /* row count not 1 to 64: place 1 */
    DUDOWIEJ_REFUSED_LONG = 4,   /* a row not complete after 32 cells: the next cell */
    DUDOWIEJ_REFUSED_SHORT = 5,  /* the cells end inside a row or goal, or before a row: number of cells */
    DUDOWIEJ_REFUSED_CELL = 6,   /* not a cell: that cell */
    DUDOWIEJ_REFUSED_FRESH = 7,  /* a variable's number above the count of variables so far: that cell */
    DUDOWIEJ_REFUSED_TWICE = 8,  /* no longer given: a row may repeat a variable */
    DUDOWIEJ_REFUSED_EXTRA = 9,  /* cells after the last row, the goal or the plan: the first such */
    DUDOWIEJ_REFUSED_SIZE = 10,  /* plan over 6,082 cells: place 0 */
    DUDOWIEJ_REFUSED_ENDS = 11,  /* the plan ends before its tree is complete: number of cells */
    DUDOWIEJ_REFUSED_OPEN = 12,  /* an index not below the number of open places: that cell */
    DUDOWIEJ_REFUSED_EDGES = 13, /* a branch count that is not the number of runs: that cell */
    DUDOWIEJ_REFUSED_LABEL = 14, /* a branch cell that is not the run's symbol: that cell */
    DUDOWIEJ_REFUSED_ROWS = 15,  /* a leaf cell that is not its number of rows: that cell */
    DUDOWIEJ_REFUSED_ROOM = 16,  /* the lent room is too small: cells, bytes or numbers needed */
    DUDOWIEJ_REFUSED_BYTES = 17, /* text over 65,535 bytes, a goal's over 65,533: place 0 */
    DUDOWIEJ_REFUSED_TEXT = 18,  /* no text, or no goal's, goes on so: that byte, or the number of bytes */
    DUDOWIEJ_REFUSED_OTHER = 19, /* a fact of another predicate or width than the first, a goal that is not one of theirs: the first byte of its name */
    DUDOWIEJ_REFUSED_FIGURE = 20,  /* a figure above 15: place 0 */
    DUDOWIEJ_REFUSED_FULL = 21,    /* a row appended to 64: place 0 */
    DUDOWIEJ_REFUSED_LAST = 22,    /* the only row dropped: place 0 */
    DUDOWIEJ_REFUSED_INDEX = 23,   /* a row replaced that is not there: place 0 */
    DUDOWIEJ_REFUSED_SAME = 24,    /* a row without variables equals an earlier one: its first cell; in an edit any other: place 0 */
    DUDOWIEJ_REFUSED_BIG = 25,     /* a reply to a goal, or an answer to be written, of over 1,024 cells: place 0 */
    DUDOWIEJ_REFUSED_NAMES = 26,   /* a listed place holds no lower-case name, two hold the same, a name is not listed: place 0 */
    DUDOWIEJ_REFUSED_BLOCKS = 27,  /* a file of no byte, or not of whole blocks of 512 bytes: place 0 */
    DUDOWIEJ_REFUSED_DAMAGE = 28,  /* a block whose number is not its place, or with a wrong check: the first such block, from 0 */
    DUDOWIEJ_REFUSED_SIZES = 29,   /* the sizes in a file do not give as many blocks as it has: place 0 */
    DUDOWIEJ_REFUSED_PADDING = 30, /* a cell after table and plan that is not 0: place 0 */
    DUDOWIEJ_REFUSED_HEAD = 31,    /* nothing to save: no sound block 0, or in it no width of 1 to 8 or no count of 1 to 64: place 0 */
    DUDOWIEJ_REFUSED_NONE = 32,    /* nothing to save: no row is kept: place 0 */
    DUDOWIEJ_REFUSED_COLUMN = 33,  /* a named column that is not below the table's width: place 0 */
    DUDOWIEJ_REFUSED_EARLY = 34    /* an index outside the named columns while a place inside them is open: that cell */
};

/* Which input a refusal concerns. */
enum dudowiej_input {
    DUDOWIEJ_TABLE = 1,
    DUDOWIEJ_PLAN = 2,
    DUDOWIEJ_GOAL = 3,
    DUDOWIEJ_ROOM = 4,
    DUDOWIEJ_TEXT = 5,
    DUDOWIEJ_FIGURE = 6,
    DUDOWIEJ_NAME_LIST = 7,
    DUDOWIEJ_FILE = 8,
    DUDOWIEJ_COLUMN_LIST = 9
};

/* Reads a table. First: its width. Second: its rows. */
uint64_t dudowiej_read_table(const uint32_t *table, size_t table_cells);

/* A table that is worked out: its cells and its figure, and for every run of rows what it costs and which place it takes first. It comes
 * from dudowiej_work_out and from the three edits alone. It holds no pointer: it may be copied by assignment, kept in a file and loaded
 * again. With any other numbers in it every call still ends, and stays within the record and the lent room. Reading a goal or a row,
 * checking and running then answer for the table that the first part holds, whose refusal comes first; dudowiej_build_for and
 * dudowiej_build_liked for that table and the figure; what dudowiej_build_plan and the edits make of such a record is not said.
 *
 *   cell[0]            the table's number of cells; more than DUDOWIEJ_TABLE_CELLS are read as a table of none
 *   cell[1]            the figure
 *   cell[2 .. 2051]    the table's cells, then zeros
 *   cell[2052 ..]      for first and last row, at 64 * first + last: what the rows cost with nothing closed;
 *   cell[6148 ..]      what they cost at least when all places are closed on which they agree;
 *   cell[10244 ..]     and the place taken then, from 0. All are 0 where there is no such run. */
typedef struct {
    uint32_t cell[DUDOWIEJ_RECORD_CELLS];
} dudowiej_record;

#ifndef __cplusplus
_Static_assert(sizeof(dudowiej_record) == 57360, "cells with no gaps");
#endif

/* The cells of a record's table; cell[0] says how many they are. */
static inline const uint32_t *dudowiej_table(const dudowiej_record *record) { return record->cell + 2; }

/* Works a table out with a figure, into a record; what that held before is never read, and stays where this is refused. The figure, 0 to
 * 15, is what a choice between branches costs (dudowiej_build_plan). A figure above 15 is refused before the table. First: the table's
 * width. Second: its rows. */
uint64_t dudowiej_work_out(const uint32_t *table, size_t table_cells, uint32_t figure, dudowiej_record *record);

/* The edits. Each leaves the record that working the new table out with the same figure would give, but runs without the changed row are
 * not worked out again. A plan that was built before is the old table's: build it again. First: the width. Second: the rows there are
 * now. Each refuses what it says, at 0; then of the row LONG, SHORT, CELL, FRESH, SAME and EXTRA, places from the row's start. All
 * concern DUDOWIEJ_TABLE. A refused edit changes nothing of a record that an entry made. */

/* Appends a row at the end. Refuses FULL at 64 rows. */
uint64_t dudowiej_append(dudowiej_record *record, const uint32_t *row, size_t row_cells);

/* Drops the last row. Refuses LAST at one row. */
uint64_t dudowiej_drop_last(dudowiej_record *record);

/* Replaces the row of this number, from 0. Refuses INDEX where there is no such row. */
uint64_t dudowiej_replace(dudowiej_record *record, size_t r, const uint32_t *row, size_t row_cells);

/* Reads a goal for a record's table. First: the goal's cells. Second: its variables. */
uint64_t dudowiej_read_goal(const dudowiej_record *record, const uint32_t *goal, size_t goal_cells);

/* The row of this number, from 0. First: where its cells start in the table (dudowiej_table). Second: how many they are. Both are 0 where
 * there is no such row; this function never refuses. */
uint64_t dudowiej_row(const dudowiej_record *record, size_t row);

/* Checks any plan for a record's table. First: the plan's branches. Second: 0. */
uint64_t dudowiej_check_plan(const dudowiej_record *record, const uint32_t *plan, size_t plan_cells);

/* Writes the least plan to the front of the room; the rest of it is untouched. Least is by work: the branch of a variable costs 0, of a
 * number 1, of a name 1 plus its arguments, and a state with two or more branches costs the record's figure once. First: the cells
 * written. Second: the plan's cost; dudowiej_check_plan answers its branches. A room of DUDOWIEJ_PLAN_CELLS cells is always large
 * enough. */
uint64_t dudowiej_build_plan(const dudowiej_record *record, uint32_t *room, size_t room_cells);

/* Plans for columns that are always filled in. The caller names columns, by their numbers from 0: those that are known whenever a goal is
 * asked. A place is inside a column when it is that argument of the row or stands below it. A plan of this kind chooses at each state a
 * place inside a named column, as long as one is open; so in every branch the named columns are finished before any other place is looked
 * at. It is a plan like any other: dudowiej_check_plan accepts it, and answers the same branches; whatever takes a plan takes it, and no
 * goal has to have these columns filled in. The rows that unify with a goal are the same by every plan; the branches tried may be more or
 * fewer.
 *
 * The list of columns is a set: neither order nor repeats matter. It may have any length, and none at all. A number in it that is not below
 * the table's width is refused, COLUMN, which concerns DUDOWIEJ_COLUMN_LIST at 0. */

/* Writes the least plan of this kind to the front of the room; the rest of it is untouched. Least is among plans of the kind, and by the
 * record's figure, as dudowiej_build_plan counts; ties go as there, among the places that may be chosen. With no column named, or all of
 * them, it is the plan that dudowiej_build_plan writes. First: the cells written. Second: the plan's cost. Refused in this order: FIGURE,
 * which concerns DUDOWIEJ_FIGURE at 0; the table; COLUMN; then the room, the place being the cells needed. Where anything is refused
 * nothing is written. A room of DUDOWIEJ_PLAN_CELLS cells is always large enough.
 *
 * What the record keeps for its runs of rows is not used, since that is of plans with no column named: all of it is worked out anew on each
 * call. So any record at all is answered by its table and its figure, cell[0] to cell[2051]. Of a record that an entry made neither is
 * refused. */
uint64_t dudowiej_build_for(const dudowiej_record *record, const uint32_t *columns, size_t columns_count, uint32_t *room, size_t room_cells);

/* Checks any plan for a record's table and named columns: it is accepted exactly when it is a plan of this kind. First: the plan's branches.
 * Second: 0. Refused in this order: the table; COLUMN; the plan, as dudowiej_check_plan refuses it, and with EARLY, which concerns
 * DUDOWIEJ_PLAN at an index that is outside the named columns while a place inside them is open. EARLY comes after OPEN at that index, and
 * before anything of the cells after it. With no column named, or all of them, there is no EARLY. The figure is not looked at. */
uint64_t dudowiej_check_for(const dudowiej_record *record, const uint32_t *columns, size_t columns_count, const uint32_t *plan,
                            size_t plan_cells);

/* Runs a plan on a goal and writes the numbers of the rows that unify with it, from the top, to the front of the room; the rest of it is
 * untouched. The room has a byte for every row of the table. First: the rows written. Second: the branches tried. Table and plan are
 * checked on each call, which is nearly all of its cost (docs/BENCH.md): for more than one goal there is dudowiej_run_jobs. */
uint64_t dudowiej_run_plan(const dudowiej_record *record, const uint32_t *plan, size_t plan_cells, const uint32_t *goal, size_t goal_cells,
                           uint8_t *room, size_t room_bytes);

/* Makes a table of a text of Prolog facts. Its cells are written to the front of one room; the list of its names to the front of the
 * other: for each name, in the order of their numbers, where it first stands in the text, its start in bits 15 to 0 and its bytes in bits
 * 31 to 16. The rest of both rooms is untouched. First: the cells. Second: the names. Refused in this order: the text; the room for the
 * cells, the place being the cells needed, then that for the names likewise (both DUDOWIEJ_ROOM: the place is above the cells lent exactly
 * where it is the first); then the table, with places in its cells. Rooms of DUDOWIEJ_TABLE_CELLS cells and DUDOWIEJ_NAMES names are
 * enough for every table. */
uint64_t dudowiej_read_text(const uint8_t *text, size_t text_bytes, uint32_t *cells, size_t cells_room, uint32_t *names, size_t names_room);

/* Reads a goal in Prolog text: a term of the facts' predicate, as `rule(9, red, Piece, Firing)`, by the grammar of the facts; a full stop after
 * it is allowed and not wanted. The text and the names are what dudowiej_read_text took and listed. A name that the facts have is theirs; the
 * others are numbered on from theirs, so that they fit no name of a row. A variable that stands twice is one, and `_` another each time. The
 * cells are written to the front of one room; the new names to the front of the other, in the order of their numbers, as places in the goal's
 * own bytes: start in bits 15 to 0, bytes in bits 31 to 16. The rest of both rooms is untouched. First: the cells. Second: the new names.
 *
 * With the facts `rule(9, red, ring, soft). rule(_, _, _, medium).`, whose names are red 0, ring 1, soft 2 and medium 3, the goal
 * `rule(9, red, tray, F)` has the cells 0x80000009, 0x40000000, 0x40000004 and 0; its new name is 0x0004000d, 4 bytes from byte 13 on.
 *
 * Refused in this order: LENGTH, which concerns DUDOWIEJ_TABLE at 0, where over DUDOWIEJ_NAMES names are listed; BYTES at 0 for a goal of over
 * 65,533 bytes, TEXT at the byte of the goal where no goal goes on so, or at its end, and OTHER at the first byte of its name, for another
 * predicate or number of arguments, for more than one fact, and for any goal where the facts' text is itself refused with one of these three,
 * all of which concern DUDOWIEJ_TEXT; LENGTH, which concerns DUDOWIEJ_GOAL at 0, for a goal of over DUDOWIEJ_GOAL_CELLS cells; then the room for
 * the cells, and that for the new names, the place being what is needed there. Where anything is refused nothing is written. Two rooms of
 * DUDOWIEJ_GOAL_CELLS are always large enough. */
uint64_t dudowiej_read_goal_text(const uint8_t *text, size_t text_bytes, const uint32_t *names, size_t name_count, const uint8_t *goal,
                                 size_t goal_bytes, uint32_t *cells, size_t cells_room, uint32_t *new_names, size_t new_room);

/* One goal of a list. Before the call start and count say where its cells lie among the lent cells; they stay. After the call number and
 * place hold the goal's refusal (enum dudowiej_refusal; places count from the goal's own first cell), or 0 and 0; hits has bit r set when
 * row r unifies with the goal; tried is the number of branches tried. A refused goal has hits and tried 0. What the last four held before
 * is never read. */
struct dudowiej_job {
    size_t start, count, number, place;
    uint64_t hits;
    size_t tried;
};

#ifndef __cplusplus
_Static_assert(sizeof(struct dudowiej_job) == 48, "six words of 64 bits");
_Static_assert(offsetof(struct dudowiej_job, number) == 16 && offsetof(struct dudowiej_job, hits) == 32, "with no gaps");
#endif

/* Runs a plan on every goal of a list, each as dudowiej_run_plan would by itself. The plan is checked once; where it is refused, no job is
 * written. A goal whose start or count reaches past the lent cells is refused by itself, with LENGTH at 0. Goals may share cells. First:
 * the plan's branches. Second: 0. */
uint64_t dudowiej_run_jobs(const dudowiej_record *record, const uint32_t *plan, size_t plan_cells, const uint32_t *cells,
                           size_t cells_count, struct dudowiej_job *jobs, size_t jobs_count);

/* What dudowiej_build_liked found: the columns that its plan was built for, bit c for column c, and so 0 for the plain plan; the branches that
 * the goals of the list try by this plan, all together; and what they would have tried by the plain plan. */
typedef struct {
    size_t columns, tried, plain;
} dudowiej_liked;

#ifndef __cplusplus
_Static_assert(sizeof(dudowiej_liked) == 24, "three words of 64 bits");
#endif

/* Writes the plan that a list of goals likes best, last month's jobs for example, to the front of the room; the rest of it is untouched. Of the
 * plans that dudowiej_build_for writes for each set of columns, it is the one by which the goals try the fewest branches, all together. Where
 * several do, it is the plain one, which is that of no column; otherwise the one whose columns, as bits, are the smallest number. So it never
 * tries more than the plain plan does. A plan that is none of these may try fewer still.
 *
 * The list has two words for each goal, one goal after another: where its cells start among the lent cells, and how many they are. An odd last
 * word is passed over. Goals may share cells. A goal that is refused adds nothing, by whatever plan, and neither does one whose start or count
 * reaches past the lent cells; which these are is not said. Of a list without goals it is the plain plan, and both sums are 0. A sum that
 * would be over 2^64 - 1 stays there.
 *
 * First: the cells written. Second: the plan's cost, by the record's figure. Refused in this order: FIGURE, which concerns DUDOWIEJ_FIGURE at 0;
 * the table; then the room, the place being the cells that the plan found needs. Where anything is refused nothing is written, nor is liked. A
 * room of DUDOWIEJ_PLAN_CELLS cells is always large enough. Any record at all is answered by its table and its figure, as by
 * dudowiej_build_for. Up to 255 plans are built, and the list is run by each: this is work for a night, not for each goal (docs/BENCH.md). */
uint64_t dudowiej_build_liked(const dudowiej_record *record, const uint32_t *goals, size_t goal_cells, const size_t *list, size_t words,
                              uint32_t *room, size_t room_cells, dudowiej_liked *liked);

/* Runs a plan on a goal and writes for each row that unifies with it what the two have in common: the goal with the row's bindings filled
 * in, its variables numbered anew from 0. The replies stand one after another in row order at the front of the room, each as many terms as
 * the table has columns; they carry no lengths, and the rest of the room is untouched. Where no row unifies there is none. First: the
 * replies. Second: the cells written. Refused in this order: the plan, the goal; BIG, which concerns DUDOWIEJ_GOAL at 0, exactly where some
 * reply needs over DUDOWIEJ_REPLY_CELLS cells, whatever room there is; then the room, the place being the cells of all replies together.
 * Where anything is refused nothing is written. Room for DUDOWIEJ_REPLY_CELLS cells for each row of the table is always enough. For more than
 * one goal there is dudowiej_reply_jobs. */
uint64_t dudowiej_replies(const dudowiej_record *record, const uint32_t *plan, size_t plan_cells, const uint32_t *goal, size_t goal_cells,
                          uint32_t *room, size_t room_cells);

/* One goal of a list whose replies are wanted too. Before the call start and count say where its cells lie among the lent cells; they stay.
 * After the call number and place hold the goal's refusal, or 0 and 0; at is where its replies begin in the room, also where there are none,
 * replies how many they are, cells how many cells they have together; hits and tried are as in struct dudowiej_job. A refused goal has 0 in
 * the last five. What the last seven held before is never read. */
struct dudowiej_reply_job {
    size_t start, count, number, place, at, replies, cells;
    uint64_t hits;
    size_t tried;
};

#ifndef __cplusplus
_Static_assert(sizeof(struct dudowiej_reply_job) == 72, "nine words of 64 bits");
_Static_assert(offsetof(struct dudowiej_reply_job, at) == 32 && offsetof(struct dudowiej_reply_job, hits) == 56, "with no gaps");
#endif

/* The replies to every goal of a list, in one room. Each goal is answered as dudowiej_replies would by itself with what the goals before it have
 * left of the room, and its hits and tried are those of dudowiej_run_jobs. The replies of all goals follow one another in the order of the jobs,
 * from the room's first cell; the rest of the room is untouched. Table and plan are checked once; where one is refused, neither a job nor the
 * room is written. A goal is refused in its own job, and writes nothing to the room: LENGTH at 0 where its start or count reaches past the lent
 * cells; what its cells are refused with; BIG; ROOM where its replies do not fit what is left, the place being the cells that they need. The
 * goals after it are answered all the same. Goals may share cells. First: the plan's branches. Second: 0. */
uint64_t dudowiej_reply_jobs(const dudowiej_record *record, const uint32_t *plan, size_t plan_cells, const uint32_t *cells,
                             size_t cells_count, struct dudowiej_reply_job *jobs, size_t jobs_count, uint32_t *room, size_t room_cells);

/* Writes an answer as Prolog text to the front of the room; the rest of it is untouched. It is a term of the facts' predicate: names by their
 * words, numbers with their sign, variables as `_0`, `_1`, `, ` between arguments, and no full stop. The text and the names are the facts', the
 * goal and the new names what dudowiej_read_goal_text took and listed; for a goal of cells both have the length 0. The cells are a reply, the
 * goal, a row, or any at all: what is no cell has no word, nor has a name that is in neither list, nor the predicate where the facts' text is
 * refused; terms that are missing are left out.
 *
 * To the goal of dudowiej_read_goal_text's example the second rule says `rule(9, red, tray, medium)`, 26 bytes. First: the cells said. Second:
 * the bytes. Refused in this order: BIG, which concerns DUDOWIEJ_GOAL at 0, for over DUDOWIEJ_REPLY_CELLS cells; then the room, the place being
 * the bytes needed. Where anything is refused nothing is written. */
uint64_t dudowiej_put_answer(const uint8_t *text, size_t text_bytes, const uint32_t *names, size_t name_count, const uint8_t *goal,
                             size_t goal_bytes, const uint32_t *new_names, size_t new_count, const uint32_t *cells, size_t cell_count,
                             uint8_t *room, size_t room_bytes);

/* Writes a plan as a Prolog program to the front of the room; the rest of it is untouched. A clause stands on a line of its own, with a
 * line feed at its end. There is a predicate for the first state and for each with several branches, 'P0', 'P1' and so on in the plan's
 * order; what is decided on the way from one to the next stands in the heads. A goal put to 'P0' is answered what dudowiej_replies gives
 * for it, in the same order. That is by unification with the occurs check, which most Prologs leave out; only rows that repeat a variable
 * can tell.
 *
 * The table's names are words of a text: name n is as many bytes of it as bits 31 to 16 of the list's entry n say, from the byte that bits
 * 15 to 0 say. So dudowiej_read_text lists them, but any bytes and any list will do. First: the clauses. Second: the bytes. Refused in
 * this order: the table, the plan; NAMES, which concerns DUDOWIEJ_NAME_LIST at 0, exactly where an entry, used or not, reaches past the
 * text, has no byte or holds no lower-case name, where two hold the same bytes, or where a name of the table has a number that is not
 * listed; then the room, the place being the bytes needed. Where anything is refused nothing is written. Room for 131,072 bytes is enough
 * for a table that was read from a text, with that text and its names. */
uint64_t dudowiej_clauses(const dudowiej_record *record, const uint32_t *plan, size_t plan_cells, const uint8_t *text, size_t text_bytes,
                          const uint32_t *names, size_t names_count, uint8_t *room, size_t room_bytes);

/* One file for a table and its plan, as it travels on a card. It is blocks of 512 bytes, that is 128 words of 32 bits, little-endian: the
 * block's number from 0, 125 cells, two check words. The first check is 1 and the block's first 126 words added up; the second is the
 * sum of what the first was after each of these words; both modulo 2^32. One changed word is always told, and so are two unequal
 * neighbours exchanged. The cells of all blocks one after another are the table's number of cells, the plan's, the table, the plan, and
 * zeros to the end of the last block. The figure is not in the file, and nothing else of the record. */

/* Writes the file of a record's table and a plan to the front of the room; the rest of it is untouched. First: the bytes. Second: the
 * blocks. Refused in this order: the table, the plan, as dudowiej_check_plan refuses them; then the room, the place being the bytes
 * needed. Where anything is refused nothing is written. Room for DUDOWIEJ_FILE_BYTES bytes is always enough. */
uint64_t dudowiej_write_file(const dudowiej_record *record, const uint32_t *plan, size_t plan_cells, uint8_t *room, size_t room_bytes);

/* Reads a file. The table's cells are written to the front of one room, the plan's to the front of the other; the rest of both is
 * untouched. First: the table's cells. Second: the plan's. Writing the two gives the file again, byte for byte. There is no record in a
 * file; dudowiej_work_out makes one of the table, with any figure. Refused in this order: BLOCKS, DAMAGE, SIZES and PADDING, which concern
 * DUDOWIEJ_FILE; the table, the plan, with places in their own cells; the room for the table, then that for the plan, the place being the
 * cells needed there (both DUDOWIEJ_ROOM; which of the two it was is not said). The place of DAMAGE is a block and no byte. Where anything
 * is refused nothing is written to either room. Rooms of DUDOWIEJ_TABLE_CELLS and DUDOWIEJ_PLAN_CELLS cells are enough for every file. */
uint64_t dudowiej_read_file(const uint8_t *file, size_t file_bytes, uint32_t *table, size_t table_room, uint32_t *plan, size_t plan_room);

/* What dudowiej_salvage saved: rows kept, rows dropped, 1 where the plan was kept and 0 where it is new; the cells of the table and of the
 * plan; the bad blocks. */
typedef struct {
    size_t kept, dropped, plan_kept, table_cells, plan_cells, bad_blocks;
} dudowiej_report;

#ifndef __cplusplus
_Static_assert(sizeof(dudowiej_report) == 48, "six words of 64 bits");
#endif

/* Saves what can be saved of a file, so that a shop can run from a bad card until a new one comes. A block is bad that is no whole block,
 * whose number is not its place, or that has a wrong check; bytes behind the file are blocks too. The rows from the top are kept as long as
 * the table's checks accept each, beside those before it, and it ends within the table size and before the first block that is bad or
 * missing. The plan is kept where all rows are, each of its cells is in a sound block and dudowiej_check_plan accepts it; otherwise the
 * least plan of the rows kept is built, with figure 0. Of a file that dudowiej_read_file accepts all is kept, and nothing is bad. Kept rows
 * are the original's, cell for cell, where sound blocks are as they were written.
 *
 * The table, that is the width, the rows kept and their cells, is written to the front of one room, the plan to the front of the next, the
 * numbers of the bad blocks, ascending from 0, to the front of the list; the rest of the three is untouched. First: the rows kept. Second:
 * the rows dropped, of as many as the file says. The report says both again and the rest. Refused in this order: HEAD, NONE, which concern
 * DUDOWIEJ_FILE at 0; the room for the table, that for the plan, the list, the place being the cells or numbers needed there (all
 * DUDOWIEJ_ROOM; which of the three it was is not said). Where anything is refused nothing is written, nor is the report. Rooms of
 * DUDOWIEJ_TABLE_CELLS and DUDOWIEJ_PLAN_CELLS cells are enough for every file; a list of as many numbers as the file has blocks, a part of
 * one counted, is. */
uint64_t dudowiej_salvage(const uint8_t *file, size_t file_bytes, uint32_t *table, size_t table_room, uint32_t *plan, size_t plan_room,
                          size_t *bad, size_t bad_room, dudowiej_report *report);

/* Cells built and a number's value. A cell takes the low bits of its parts, as many as it has for them: 16, and 3 for the arguments. With 5
 * to 7 arguments it is no cell, and is refused wherever it stands. */

static inline uint32_t dudowiej_variable(uint32_t number) { return number & 0xffff; }

static inline uint32_t dudowiej_name(uint32_t number, uint32_t arguments) {
    return UINT32_C(1) << 30 | (arguments & 7) << 16 | (number & 0xffff);
}

/* The whole number of this value, -32,768 to 32,767. */
static inline uint32_t dudowiej_whole(int32_t value) { return UINT32_C(2) << 30 | ((uint32_t)value & 0xffff); }

/* The value of a whole number's cell. */
static inline int32_t dudowiej_value(uint32_t cell) {
    int32_t bits = (int32_t)(cell & 0xffff);
    return bits < 32768 ? bits : bits - 65536;
}

/* An answer taken apart. Bits 0 to 7 are 0 exactly where it is no refusal:
 *   answered:  2^16 * first + 2^32 * second           first < 2^16, second < 2^32
 *   refused:   number + 2^8 * input + 2^16 * place    1 <= number < 2^8, input < 2^8, place < 2^48 */

/* The refusal's number (enum dudowiej_refusal), or 0 where there is none. */
static inline unsigned dudowiej_number(uint64_t answer) { return (unsigned)(answer & 0xff); }

/* The name of a refusal's number; "none" where it is no refusal's. */
static inline const char *dudowiej_refusal_name(unsigned number) {
    switch (number) {
    case DUDOWIEJ_REFUSED_LENGTH: return "LENGTH";
    case DUDOWIEJ_REFUSED_WIDTH: return "WIDTH";
    case DUDOWIEJ_REFUSED_COUNT: return "COUNT";
    case DUDOWIEJ_REFUSED_LONG: return "LONG";
    case DUDOWIEJ_REFUSED_SHORT: return "SHORT";
    case DUDOWIEJ_REFUSED_CELL: return "CELL";
    case DUDOWIEJ_REFUSED_FRESH: return "FRESH";
    case DUDOWIEJ_REFUSED_TWICE: return "TWICE";
    case DUDOWIEJ_REFUSED_EXTRA: return "EXTRA";
    case DUDOWIEJ_REFUSED_SIZE: return "SIZE";
    case DUDOWIEJ_REFUSED_ENDS: return "ENDS";
    case DUDOWIEJ_REFUSED_OPEN: return "OPEN";
    case DUDOWIEJ_REFUSED_EDGES: return "EDGES";
    case DUDOWIEJ_REFUSED_LABEL: return "LABEL";
    case DUDOWIEJ_REFUSED_ROWS: return "ROWS";
    case DUDOWIEJ_REFUSED_ROOM: return "ROOM";
    case DUDOWIEJ_REFUSED_BYTES: return "BYTES";
    case DUDOWIEJ_REFUSED_TEXT: return "TEXT";
    case DUDOWIEJ_REFUSED_OTHER: return "OTHER";
    case DUDOWIEJ_REFUSED_FIGURE: return "FIGURE";
    case DUDOWIEJ_REFUSED_FULL: return "FULL";
    case DUDOWIEJ_REFUSED_LAST: return "LAST";
    case DUDOWIEJ_REFUSED_INDEX: return "INDEX";
    case DUDOWIEJ_REFUSED_SAME: return "SAME";
    case DUDOWIEJ_REFUSED_BIG: return "BIG";
    case DUDOWIEJ_REFUSED_NAMES: return "NAMES";
    case DUDOWIEJ_REFUSED_BLOCKS: return "BLOCKS";
    case DUDOWIEJ_REFUSED_DAMAGE: return "DAMAGE";
    case DUDOWIEJ_REFUSED_SIZES: return "SIZES";
    case DUDOWIEJ_REFUSED_PADDING: return "PADDING";
    case DUDOWIEJ_REFUSED_HEAD: return "HEAD";
    case DUDOWIEJ_REFUSED_NONE: return "NONE";
    case DUDOWIEJ_REFUSED_COLUMN: return "COLUMN";
    case DUDOWIEJ_REFUSED_EARLY: return "EARLY";
    default: return "none";
    }
}

static inline bool dudowiej_refused(uint64_t answer) { return dudowiej_number(answer) != 0; }

/* The input that a refusal concerns (enum dudowiej_input), or 0 where there is none. */
static inline unsigned dudowiej_input(uint64_t answer) { return (unsigned)(answer >> 8 & 0xff); }

/* A refusal's place. */
static inline uint64_t dudowiej_place(uint64_t answer) { return answer >> 16; }

/* The two values of an answer that is no refusal. */
static inline uint32_t dudowiej_first(uint64_t answer) { return (uint32_t)(answer >> 16 & 0xffff); }

static inline uint32_t dudowiej_second(uint64_t answer) { return (uint32_t)(answer >> 32); }

#ifdef __cplusplus
}
#endif

#endif
