/* Names in a climbing gym's file, resolved by scope graphs.
 *
 * Every function is total: any bytes, any query number, memory of any length. All but two answer by
 * one number that says how the call went:
 *
 *   1 to 63       a refusal (TEWHORANU_TOO_LONG and so on); nothing that was lent has changed
 *   64 and more   the call was carried out. An output is 64 + how many cells or bytes were written.
 *                 A comparison or a judgement is 64 * (1 + case) + n: the case is TEWHORANU_FIRST
 *                 and so on, and n, 0 to 63, the number of equal steps that comes with it.
 *
 * Five inline functions read such an answer: tewhoranu_refused, tewhoranu_written, tewhoranu_case,
 * tewhoranu_equal_steps and tewhoranu_refusal_text. Do not hand them the answers of the other two:
 * tewhoranu_name_sought answers a length, 0 for any refusal, and tewhoranu_version the version of
 * this interface.
 *
 * What a caller owes, for every call:
 *   - A pointer is followed by its length: bytes for text, cells for a graph table, records for a
 *     step table. A length may be 0.
 *   - A pointer is not NULL, also where its length is 0, and is aligned for its type. What it points
 *     to takes at most PTRDIFF_MAX bytes.
 *   - Memory that a call may write (a pointer without const) overlaps nothing else that the call is
 *     given, and all of it is initialised.
 *   - TEWHORANU_STACK bytes of stack are free.
 *
 * No function keeps a pointer, allocates or has state. Calls may run at the same time, and may read
 * one text at the same time, as long as each has its own memory to write.
 *
 * Nothing bounds the time of a call. Most files take milliseconds. Slow are files in which a search
 * has very many paths to try: many edges between many scopes and a name that few of them lead to, or
 * an automaton that accepts long paths alone; and for tewhoranu_listing_counted also an order on
 * labels with many reached paths. docs/BENCHMARKS.md names such files and what they take. A host
 * that reads files of strangers lets a process of its own make the call, and ends it after a while.
 *
 * The archive is libtewhoranu.a (`rt lib` in crates/tewhoranu), for x86-64 Linux. Its global symbols are
 * the functions declared here, and none that is not called tewhoranu_...
 *
 * The contracts are proved: see crates/tewhoranu/src and docs/PROMISES.md. Nothing checks these
 * declarations against them but the host test, tests/host.
 */
#ifndef TEWHORANU_H
#define TEWHORANU_H

#include <stddef.h>
#include <stdint.h>

#ifdef __cplusplus
extern "C" {
#endif

/* The version of this interface: it goes up when a function gets other arguments or answers.
 * tewhoranu_version() says that of the archive; the two must agree. */
#define TEWHORANU_VERSION 1

/* Refusals. The sender of a file causes 1 to 6 (the host, where it has a table of its own written),
 * the writer of a path row 8, the writer of an expression 12 and 13, the writer of a list 17, who draws
 * a DOT text 18 and 19 and, by its edges, 3, 4 and 5; the host 7, 9, 11 and 14. */
#define TEWHORANU_TOO_LONG 1         /* the file has more than TEWHORANU_TEXT bytes */
#define TEWHORANU_MALFORMED 2        /* a line, or a row of a graph table, not of its section's form;
                                        a section missing or out of its place */
#define TEWHORANU_OUT_OF_RANGE 3     /* a number outside the bounds of its column, as 0 scopes; a
                                        scope or a label that the file does not have */
#define TEWHORANU_NOT_ASCENDING 4    /* a row out of its sequence, or there twice */
#define TEWHORANU_TOO_MANY_ROWS 5    /* a section has more rows than it may */
#define TEWHORANU_NO_ORDER 6         /* the order prefers an end to itself, or lacks a pair that
                                        follows from two others */
#define TEWHORANU_NO_QUERY 7         /* the file has no query of this number */
#define TEWHORANU_NO_PATH_ROW 8      /* a path row not of its form */
#define TEWHORANU_NO_ROOM 9          /* an output longer than the memory lent for it, or more steps
                                        than records */
#define TEWHORANU_NO_DECLARATION 11  /* the file has no declaration row at this place */
#define TEWHORANU_NO_EXPRESSION 12   /* not an expression over the file's labels, or a longer one than
                                        the limits below allow */
#define TEWHORANU_TOO_MANY_STATES 13 /* the smallest table for the expression has more than
                                        TEWHORANU_MOST_STATES states */
#define TEWHORANU_NO_OLD_FORM 14     /* a kind other than `v` or a turn other than 0, for which the
                                        old form has no column */
#define TEWHORANU_NO_LIST 17         /* a `was` list not of its form, or not with each scope of the
                                        file once */
#define TEWHORANU_NO_DRAWING 18      /* a DOT text outside the subset that tewhoranu_undot takes */
#define TEWHORANU_OTHER_SCOPES 19    /* a DOT text without a line for each scope of the file, or with
                                        another one, or with one twice */

/* An answer of this and more is no refusal. Cases are as far apart. */
#define TEWHORANU_DONE 64

/* The cases of tewhoranu_compare */
#define TEWHORANU_FIRST 0   /* the first row is more specific */
#define TEWHORANU_SECOND 1  /* the second row is more specific */
#define TEWHORANU_NEITHER 2 /* neither is */

/* The cases of tewhoranu_judge */
#define TEWHORANU_VISIBLE 0   /* an entry of the query */
#define TEWHORANU_SHADOWED 1  /* reached, and another reached path is more specific */
#define TEWHORANU_UNREACHED 2 /* neither */

/* Sizes that always serve: cells of a graph table, bytes of a file, records of a step table, bytes
 * of a summary, bytes of a declaration's readers, bytes of a `was` list, bytes of a drawing. */
#define TEWHORANU_CELLS 12271
#define TEWHORANU_TEXT 32768
#define TEWHORANU_STEPS 63
#define TEWHORANU_SUMMARY 64
#define TEWHORANU_READERS 195
#define TEWHORANU_WAS 196
#define TEWHORANU_DRAWING 11556

/* What the program lends for a listing. No size serves every listing. */
#define TEWHORANU_LISTING 65536

/* Limits. Of a file: scopes (numbered from 0), states of the automaton (numbered from 0, the start),
 * the greatest mark and turn, the bytes of a name. A file may have as many queries as its section
 * has rows. */
#define TEWHORANU_MOST_SCOPES 64
#define TEWHORANU_MOST_STATES 16
#define TEWHORANU_MOST_MARK 65535
#define TEWHORANU_MOST_TURN 99
#define TEWHORANU_MOST_NAME 16
/* the rows of each section, by the section's number below */
#define TEWHORANU_MOST_LABELS 8
#define TEWHORANU_MOST_PAIRS 36
#define TEWHORANU_MOST_TRANSITIONS 128
#define TEWHORANU_MOST_ACCEPTS 16
#define TEWHORANU_MOST_SCOPE_ROWS 1
#define TEWHORANU_MOST_EDGES 512
#define TEWHORANU_MOST_DECLARATIONS 512
#define TEWHORANU_MOST_OPEN 576
#define TEWHORANU_MOST_QUERIES 256
/* Of a path row: its bytes. Its steps are TEWHORANU_STEPS at most. */
#define TEWHORANU_MOST_ROW 256
/* Of an expression: its bytes, and the labels in it, each counted as often as it stands there. */
#define TEWHORANU_MOST_EXPRESSION 64
#define TEWHORANU_MOST_LETTERS 10

/* The number of lawful beginnings where there are so many or more. */
#define TEWHORANU_FOLLOWED 1000000000

/* The graph table. Cell 0 is the file's form; then come TEWHORANU_ROW cells for each row, in the
 * sequence of the file's lines: the number of its section, then five values, of which those that the
 * section does not use are 0. The cells are the same in all forms: a file without kinds has the kind
 * `v` everywhere, one without turns the turn 0. Row n starts at cell 1 + TEWHORANU_ROW * n. */
#define TEWHORANU_ROW 6

/* Cell 0: names alone, which are of the kind `v`; kinds and names; these and a turn for each edge. */
#define TEWHORANU_OLD_FORM 0
#define TEWHORANU_WITH_KINDS 1
#define TEWHORANU_WITH_TURNS 2

/* A row's first cell is its section; what stands in its other cells, by their place in the row. A
 * label is told by its number, from 0, as the rows of the labels come. An end is 0 for `$` and n + 1
 * for label number n. A kind is its letter. A name is two cells: its bytes, the first of them in the
 * highest byte of the first cell, and zero bytes behind them. */
#define TEWHORANU_SECTION_LABELS 0
#define TEWHORANU_LABEL_LETTER 1
#define TEWHORANU_SECTION_PAIRS 1
#define TEWHORANU_PAIR_LESS 1 /* the end that is preferred */
#define TEWHORANU_PAIR_MORE 2
#define TEWHORANU_SECTION_TRANSITIONS 2
#define TEWHORANU_TRANSITION_STATE 1
#define TEWHORANU_TRANSITION_LABEL 2
#define TEWHORANU_TRANSITION_NEXT 3
#define TEWHORANU_SECTION_ACCEPTS 3
#define TEWHORANU_ACCEPT_STATE 1
#define TEWHORANU_SECTION_SCOPES 4
#define TEWHORANU_SCOPES_COUNT 1
#define TEWHORANU_SECTION_EDGES 5
#define TEWHORANU_EDGE_FROM 1
#define TEWHORANU_EDGE_LABEL 2
#define TEWHORANU_EDGE_TO 3
#define TEWHORANU_EDGE_TURN 4
#define TEWHORANU_SECTION_DECLARATIONS 6
#define TEWHORANU_DECLARATION_AT 1
#define TEWHORANU_DECLARATION_KIND 2
#define TEWHORANU_DECLARATION_NAME 3 /* and 4 */
#define TEWHORANU_DECLARATION_MARK 5
#define TEWHORANU_SECTION_OPEN 7
#define TEWHORANU_OPEN_AT 1
#define TEWHORANU_OPEN_END 2
#define TEWHORANU_SECTION_QUERIES 8
#define TEWHORANU_QUERY_START 1
#define TEWHORANU_QUERY_KIND 2
#define TEWHORANU_QUERY_NAME 3 /* and 4 */

/* Stack that serves every call, in bytes. A walk has at most a frame for each edge and each scope, of
 * about 1,500 and 1,000 bytes, and a search that it asks for as many again, of about 750 bytes, above
 * some 120,000 bytes of tables: counted from the library as it is built, not proved. 1.5 MiB are
 * enough for every call but tewhoranu_listing_counted, which after the listing walks again with a
 * memo of 524,288 bytes below it. The host test runs the files that go deepest on a thread with this
 * much; of them 880 KiB served the one that takes most without the count, 1,390 KiB with it.
 * tewhoranu_rules, tewhoranu_renumber, tewhoranu_back, tewhoranu_dot and tewhoranu_undot walk no paths:
 * they hold a table or two, at most some 200,000 bytes. */
#define TEWHORANU_STACK (4 * 512 * 1024)

/* A step of a path: the label's letter (A to Z) and the scope that it comes to (0 to 63). */
typedef struct {
    uint8_t label;
    uint8_t scope;
} tewhoranu_step;

/* Was the call refused? */
static inline int tewhoranu_refused(uint64_t answer) { return answer < TEWHORANU_DONE; }

/* How many cells or bytes were written, of an output that was not refused. */
static inline size_t tewhoranu_written(uint64_t answer) { return (size_t)(answer - TEWHORANU_DONE); }

/* Which case holds, of a comparison or a judgement that was not refused. */
static inline unsigned tewhoranu_case(uint64_t answer) { return (unsigned)(answer / TEWHORANU_DONE - 1); }

/* How many equal steps come with the case, 0 to 63: of a comparison, the steps that both rows begin
 * with; of TEWHORANU_SHADOWED, the most that the row shares with a reached path that is more
 * specific; else 0. This is not how many records were filled: see tewhoranu_steps_in. */
static inline unsigned tewhoranu_equal_steps(uint64_t answer) { return (unsigned)(answer % TEWHORANU_DONE); }

/* How many steps a path row has, and so how many records a judgement or a comparison that was not
 * refused has filled from it: each step has one capital letter, and nothing else in a row is one. */
static inline size_t tewhoranu_steps_in(const uint8_t *row, size_t row_length)
{
    size_t at, steps = 0;

    for (at = 0; at < row_length; at++)
        steps += row[at] >= 'A' && row[at] <= 'Z';
    return steps;
}

/* What was refused, in words. */
static inline const char *tewhoranu_refusal_text(uint64_t answer)
{
    switch (answer) {
    case TEWHORANU_TOO_LONG:
        return "the file is longer than 32,768 bytes";
    case TEWHORANU_MALFORMED:
        return "a line or a table's row is not of its section's form, or a section is missing";
    case TEWHORANU_OUT_OF_RANGE:
        return "a number is outside the bounds of its column, or names a scope or label that the file lacks";
    case TEWHORANU_NOT_ASCENDING:
        return "a row is out of its sequence, or there twice";
    case TEWHORANU_TOO_MANY_ROWS:
        return "a section has more rows than it may";
    case TEWHORANU_NO_ORDER:
        return "the order prefers an end to itself, or lacks a pair that follows from two others";
    case TEWHORANU_NO_QUERY:
        return "there is no query of this number";
    case TEWHORANU_NO_PATH_ROW:
        return "a path row is not of its form";
    case TEWHORANU_NO_ROOM:
        return "the memory lent is too short for the output or the steps";
    case TEWHORANU_NO_DECLARATION:
        return "the file has no declaration at this place";
    case TEWHORANU_NO_EXPRESSION:
        return "not an expression over the file's labels, or past 64 bytes or ten letters";
    case TEWHORANU_TOO_MANY_STATES:
        return "the smallest table for the expression has more than 16 states";
    case TEWHORANU_NO_OLD_FORM:
        return "the old form has no kinds and no turns, and a kind is not v or a turn is not 0";
    case TEWHORANU_NO_LIST:
        return "the list is not of its form, or does not have each scope of the file once";
    case TEWHORANU_NO_DRAWING:
        return "the DOT text is outside the subset that is taken";
    case TEWHORANU_OTHER_SCOPES:
        return "the DOT text has not each scope of the file once and no other";
    default:
        return "no refusal that this header knows";
    }
}

/* The version of the interface that the archive has: TEWHORANU_VERSION of the header it goes with. */
uint64_t tewhoranu_version(void);

/* Reads a gym file's text into a graph table, whose layout stands above.
 * Answers 64 and the number of cells, at most TEWHORANU_CELLS; cells behind them stay as they were.
 * Refuses by 1; then from the top line by line 2, 5, 3, 4; then 6; then 9. */
uint64_t tewhoranu_read(const uint8_t *text, size_t text_length, uint64_t *table, size_t table_length);

/* Writes a graph table as a gym file's text, in the form that cell 0 says: the inverse of reading.
 * Answers 64 and the number of bytes, at most TEWHORANU_TEXT; bytes behind them stay as they were.
 * Refuses by 2 where cell 0 is missing or no form of file; then from the first row, row by row, by 2,
 * 5, 3, 4; then by 6; then by 9. In the old form a row of another kind than `v` is 2, and in a form
 * without turns an edge with another turn than 0. */
uint64_t tewhoranu_write(const uint64_t *table, size_t table_length, uint8_t *out, size_t out_length);

/* Finds the name that a query of the file seeks: the name alone, without its kind.
 * Answers its length, 1 to TEWHORANU_MOST_NAME, and puts the place of its first byte in the text into
 * *place: the name is text[*place] to text[*place + length - 1].
 * Answers 0 if there is no such name, since a refusal by 1 to 7 stands in the way, and leaves *place
 * as it was; tewhoranu_listing of the same query tells which. */
uint64_t tewhoranu_name_sought(const uint8_t *text, size_t text_length, size_t query, uint64_t *place);

/* Writes the listing of a query of the file: what it sees, and whether rows still to come could change
 * that. The head of a file with kinds, with turns or without, has the query's kind.
 * Answers 64 and the number of bytes; bytes behind them stay as they were.
 * Refuses by 1 to 6 as tewhoranu_read does, then 7, then 9. */
uint64_t tewhoranu_listing(const uint8_t *text, size_t text_length, size_t query, uint8_t *out,
                           size_t out_length);

/* Writes the same listing, with the same answer and refusals, and puts into *followed how many lawful
 * beginnings the query follows; a refusal leaves *followed as it was. These are paths from the query's
 * start, also the one without steps, that pass two tests. The automaton, by transitions alone, can
 * still come to an accepting state after them. And each of their steps is one that the query looks at:
 * no reached path that shares the steps before it goes on there by a preferred step, or stops there
 * where `$` is preferred. The number may be 0, where the automaton accepts nothing; it is
 * TEWHORANU_FOLLOWED where there are so many or more. No listing has it in its text.
 * Counting may take much longer than listing. */
uint64_t tewhoranu_listing_counted(const uint8_t *text, size_t text_length, size_t query, uint8_t *out,
                                   size_t out_length, uint64_t *followed);

/* Judges a path row for a query of the file.
 * Answers by a case, TEWHORANU_VISIBLE, TEWHORANU_SHADOWED or TEWHORANU_UNREACHED, and puts the row's
 * steps into the first records of the table, tewhoranu_steps_in of the row; those behind them stay as
 * they were. With TEWHORANU_SHADOWED comes the number of steps after which the name was caught: the
 * most that the row shares with a reached path that is more specific. With the others it is 0.
 * Refuses by 1 to 6 as tewhoranu_read does, then 7, then 8, then 9 where the steps outnumber the
 * records. */
uint64_t tewhoranu_judge(const uint8_t *text, size_t text_length, size_t query, const uint8_t *row,
                         size_t row_length, tewhoranu_step *steps, size_t steps_length);

/* Compares two path rows by the order of the file and the turns of its edges. Only the rows' letters
 * and scopes count: neither need be a path of the file, and a step along no edge of it has no turn.
 * Answers by a case, TEWHORANU_FIRST, TEWHORANU_SECOND or TEWHORANU_NEITHER, and puts each row's steps
 * into the first records of its table; those behind them stay as they were. With each case comes the
 * number of steps, told by letter and scope, that both rows begin with: 0 where they start at
 * different scopes, and every step where the two paths are one.
 * Refuses by 1 to 6 as tewhoranu_read does, then 8 for the first row, 8 for the second, then 9 where
 * the steps of one outnumber its records. */
uint64_t tewhoranu_compare(const uint8_t *text, size_t text_length, const uint8_t *first,
                           size_t first_length, const uint8_t *second, size_t second_length,
                           tewhoranu_step *first_steps, size_t first_steps_length,
                           tewhoranu_step *second_steps, size_t second_steps_length);

/* Writes the summary of the file: how many queries it has, how many are found one, several and none,
 * and the share of those found one in whole per cent, rounded to the nearer one and from the middle to
 * the even one.
 * Answers 64 and the number of bytes, at most TEWHORANU_SUMMARY; bytes behind them stay as they were.
 * Refuses by 1 to 6 as tewhoranu_read does, then 9. */
uint64_t tewhoranu_summary(const uint8_t *text, size_t text_length, uint8_t *out, size_t out_length);

/* Writes the file in the old form, without kinds and turns. A file in that form comes out as it is; one
 * with kinds converts back to the same bytes by tewhoranu_to_new, one with turns, which are then all 0,
 * to the file without that column. The listings of what comes out have the same entries, found and
 * awaits.
 * Answers 64 and the number of bytes, at most TEWHORANU_TEXT; bytes behind them stay as they were.
 * Refuses by 1 to 6 as tewhoranu_read does, then 14 where a declaration or a query is of a kind other
 * than `v` or an edge has a turn other than 0, then 9. */
uint64_t tewhoranu_to_old(const uint8_t *text, size_t text_length, uint8_t *out, size_t out_length);

/* Writes the file in the form with kinds, each being `v` where it is in the old form. A file with kinds,
 * with turns or without, comes out as it is; any other converts back to the same bytes by
 * tewhoranu_to_old.
 * Answers 64 and the number of bytes, at most TEWHORANU_TEXT; bytes behind them stay as they were.
 * Refuses by 1 to 6 as tewhoranu_read does, then 9. */
uint64_t tewhoranu_to_new(const uint8_t *text, size_t text_length, uint8_t *out, size_t out_length);

/* Writes the file with the path rules of an expression in the place of its own: transitions and
 * accepting states that lead to acceptance on just the words of the expression's language, by the
 * fewest states; all else of the file, its form too, stays. State 0 is the start; the others have
 * their numbers as a search in breadth, which takes labels by their numbers, comes to them.
 * An expression has labels of the file, `|`, `*` and round brackets, at most TEWHORANU_MOST_LETTERS
 * labels and TEWHORANU_MOST_EXPRESSION bytes. `*` binds closest, `|` loosest; a bracket pair and each
 * side of `|` hold something; a star stands after a label, a bracket pair or a star; there are no
 * blanks, and the empty text is none.
 * Answers 64 and the number of bytes, at most TEWHORANU_TEXT; bytes behind them stay as they were.
 * Refuses by 1 to 6 as tewhoranu_read does, then 12 where it is no such expression, then 13 where it
 * needs more than TEWHORANU_MOST_STATES states, then 9. */
uint64_t tewhoranu_rules(const uint8_t *text, size_t text_length, const uint8_t *expression,
                         size_t expression_length, uint8_t *out, size_t out_length);

/* Writes who sees a declaration, given its place among the file's declaration rows, counted from 0:
 * the line `at`, then on a line each, ascending, the scopes from which a query for its kind and name
 * has an entry for this very declaration. Every scope is asked, whether or not the file has a query
 * there.
 * Answers 64 and the number of bytes, at most TEWHORANU_READERS; bytes behind them stay as they were.
 * Refuses by 1 to 6 as tewhoranu_read does, then 11 for a place past the rows, then 9. */
uint64_t tewhoranu_readers(const uint8_t *text, size_t text_length, size_t place, uint8_t *out,
                           size_t out_length);

/* Numbers the scopes of the file for storage, so that neighbours have near numbers, and writes the file
 * with the new numbers, its rows sorted again, and the list of the old ones. The new scopes 0, 1 and so
 * on are: the start of the first query, or scope 0 of a file without queries; the scopes that a search
 * in breadth meets from there, which follows the edges of each scope in the sequence of their rows,
 * whatever their labels; then, ascending, the scopes that it does not meet. Queries stay in their
 * sequence. The list has the line `was`, and after it a line for each new scope with its old number.
 * Under the list a query of the new file has the entries and the found that it had, and it is settled
 * exactly if it was; awaits may name another open place. tewhoranu_back of both is the first file.
 * Answers 64 and the number of bytes of the file, at most TEWHORANU_TEXT, and puts the number of bytes
 * of the list, at most TEWHORANU_WAS, into *listed; bytes behind either stay as they were, and a
 * refusal leaves *listed as it was.
 * Refuses by 1 to 6 as tewhoranu_read does, then 9 where either buffer is too short. */
uint64_t tewhoranu_renumber(const uint8_t *text, size_t text_length, uint8_t *out, size_t out_length,
                            uint8_t *list, size_t list_length, uint64_t *listed);

/* Writes the file with the numbers that a `was` list gives its scopes: scope 0 gets the first number
 * after the line `was`, scope 1 the second, and so on; its rows are sorted again. Of a file and its list
 * that tewhoranu_renumber wrote this is the file that was renumbered, byte for byte. Any other file and
 * list will do too, if the list is of that form and has each scope of the file once.
 * Answers 64 and the number of bytes, at most TEWHORANU_TEXT; bytes behind them stay as they were.
 * Refuses by 1 to 6 as tewhoranu_read does, then 17 where it is no such list, then 9. */
uint64_t tewhoranu_back(const uint8_t *text, size_t text_length, const uint8_t *was, size_t was_length,
                        uint8_t *out, size_t out_length);

/* Writes the scopes and edges of the file in the DOT language, for Graphviz: the line
 * `digraph scopes {`, a line such as `4;` for each scope, ascending, a line such as
 * `1 -> 0 [label="P"];` for each edge in the sequence of the rows, and the line `}`. DOT has no turns:
 * where one is not 0, the line `// turns dropped` stands first.
 * Answers 64 and the number of bytes, at most TEWHORANU_DRAWING; bytes behind them stay as they were.
 * Refuses by 1 to 6 as tewhoranu_read does, then 9. */
uint64_t tewhoranu_dot(const uint8_t *text, size_t text_length, uint8_t *out, size_t out_length);

/* Writes the file with the edges of a DOT text in the place of its own, sorted, each of turn 0 where the
 * file has turns; all else of the file stays. A file without turns, or with turns that are all 0, comes
 * back from its own drawing to the same bytes.
 * The DOT text is as tewhoranu_dot writes it, but scopes may come in any sequence and so may edges, and
 * around each token may be any number of spaces, tabs and LFs, or none; only `digraph` and `scopes` need
 * one between them. `// turns dropped` is skipped where it is the first line. docs/FORMAT.md has all of
 * it. Nothing limits its length.
 * Answers 64 and the number of bytes, at most TEWHORANU_TEXT; bytes behind them stay as they were.
 * Refuses by 1 to 6 as tewhoranu_read does, for the file; then, for the DOT text, by 18 where it is
 * outside the subset; by 19 where its scope lines are not the file's scopes, each once; then edge by edge,
 * as they come, by 5 past TEWHORANU_MOST_EDGES, by 3 where the file lacks the scope or the label, by 4
 * where the edge came before; then by 9. */
uint64_t tewhoranu_undot(const uint8_t *text, size_t text_length, const uint8_t *dot, size_t dot_length,
                         uint8_t *out, size_t out_length);

#ifdef __cplusplus
}
#endif

#endif
