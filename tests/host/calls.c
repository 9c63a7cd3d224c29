/* Calls every function of the header from C, on document 01's example given as the one argument, and compares the answers
 * with what the document says. It is the test of the header's declarations: the Rust wrapper has its own. With the word
 * `words` as its argument it prints what the header says of each refusal. */
#include "tewhoranu.h"

#include <stdio.h>
#include <stdlib.h>
#include <string.h>

static uint8_t text[TEWHORANU_TEXT + 1];
static uint8_t out[TEWHORANU_LISTING];
static uint8_t list[TEWHORANU_WAS + 1];
static uint64_t table[TEWHORANU_CELLS];
static tewhoranu_step steps[TEWHORANU_STEPS];
static tewhoranu_step others[TEWHORANU_STEPS];

static void expect(int holds, const char *what)
{
    if (!holds) {
        fprintf(stderr, "calls: %s\n", what);
        exit(1);
    }
}

#define EXPECT(test) expect((test), #test)

/* Is the answer this case with so many equal steps, by the number that the header says and taken apart as it says? */
static int is_case(uint64_t answer, unsigned which, unsigned equal)
{
    return answer == 64 * (1 + which) + equal && !tewhoranu_refused(answer) && tewhoranu_case(answer) == which
        && tewhoranu_equal_steps(answer) == equal;
}

static const uint8_t *bytes(const char *string) { return (const uint8_t *)string; }

static int holds(const tewhoranu_step *step, char label, int scope)
{
    return step->label == label && step->scope == scope;
}

/* Is the row of the graph table one of the section, with this value in the cell? */
static int row_is(size_t row, uint64_t section, size_t cell, uint64_t value)
{
    const uint64_t *cells = table + 1 + TEWHORANU_ROW * row;

    return cells[0] == section && cells[cell] == value;
}

/* Is the text refused by this number, with the first `old` in it made `new`? Nothing lent changes then. */
static int refused_with(size_t length, const char *old, const char *new, uint64_t number)
{
    static uint8_t changed[TEWHORANU_TEXT];
    const char *found = strstr((const char *)text, old);
    size_t before, rest;
    uint64_t place = 7, listed = 7;

    expect(found != NULL, old);
    before = (size_t)(found - (const char *)text);
    rest = length - before - strlen(old);
    memcpy(changed, text, before);
    memcpy(changed + before, new, strlen(new));
    memcpy(changed + before + strlen(new), found + strlen(old), rest);
    length = before + strlen(new) + rest;
    out[0] = 'x';
    list[0] = 'x';
    return tewhoranu_read(changed, length, table, TEWHORANU_CELLS) == number
        && tewhoranu_summary(changed, length, out, TEWHORANU_SUMMARY) == number
        && tewhoranu_to_old(changed, length, out, sizeof out) == number
        && tewhoranu_to_new(changed, length, out, sizeof out) == number
        && tewhoranu_rules(changed, length, bytes("P)"), 2, out, sizeof out) == number
        && tewhoranu_readers(changed, length, 4, out, sizeof out) == number
        && tewhoranu_renumber(changed, length, out, sizeof out, list, sizeof list, &listed) == number
        && tewhoranu_back(changed, length, bytes("was"), 3, out, sizeof out) == number && listed == 7 && list[0] == 'x'
        && tewhoranu_dot(changed, length, out, sizeof out) == number
        && tewhoranu_undot(changed, length, bytes("}"), 1, out, sizeof out) == number
        && tewhoranu_compare(changed, length, bytes("1 2"), 3, bytes("1 2"), 3, steps, 1, others, 1) == number
        && tewhoranu_name_sought(changed, length, 0, &place) == 0 && place == 7 && out[0] == 'x';
}

/* Does the graph table hold the example's rows where the header says? */
static int laid_out(void)
{
    const uint64_t service = 0x7365727669636500, hours = 0x686f757273000000;

    return row_is(0, TEWHORANU_SECTION_LABELS, TEWHORANU_LABEL_LETTER, 'I')
        && row_is(4, TEWHORANU_SECTION_PAIRS, TEWHORANU_PAIR_LESS, 1) && row_is(4, TEWHORANU_SECTION_PAIRS, TEWHORANU_PAIR_MORE, 2)
        && row_is(7, TEWHORANU_SECTION_TRANSITIONS, TEWHORANU_TRANSITION_STATE, 1)
        && row_is(7, TEWHORANU_SECTION_TRANSITIONS, TEWHORANU_TRANSITION_LABEL, 0)
        && row_is(6, TEWHORANU_SECTION_TRANSITIONS, TEWHORANU_TRANSITION_LABEL, 1)
        && row_is(5, TEWHORANU_SECTION_TRANSITIONS, TEWHORANU_TRANSITION_NEXT, 1)
        && row_is(9, TEWHORANU_SECTION_ACCEPTS, TEWHORANU_ACCEPT_STATE, 1)
        && row_is(10, TEWHORANU_SECTION_SCOPES, TEWHORANU_SCOPES_COUNT, 5)
        && row_is(12, TEWHORANU_SECTION_EDGES, TEWHORANU_EDGE_FROM, 2) && row_is(14, TEWHORANU_SECTION_EDGES, TEWHORANU_EDGE_FROM, 3)
        && row_is(11, TEWHORANU_SECTION_EDGES, TEWHORANU_EDGE_LABEL, 1) && row_is(11, TEWHORANU_SECTION_EDGES, TEWHORANU_EDGE_TO, 0)
        && row_is(12, TEWHORANU_SECTION_EDGES, TEWHORANU_EDGE_TO, 4) && row_is(12, TEWHORANU_SECTION_EDGES, TEWHORANU_EDGE_TURN, 0)
        && row_is(16, TEWHORANU_SECTION_DECLARATIONS, TEWHORANU_DECLARATION_AT, 1)
        && row_is(16, TEWHORANU_SECTION_DECLARATIONS, TEWHORANU_DECLARATION_KIND, 'v')
        && row_is(16, TEWHORANU_SECTION_DECLARATIONS, TEWHORANU_DECLARATION_NAME, service)
        && row_is(16, TEWHORANU_SECTION_DECLARATIONS, TEWHORANU_DECLARATION_MARK, 10)
        && row_is(19, TEWHORANU_SECTION_OPEN, TEWHORANU_OPEN_AT, 3) && row_is(19, TEWHORANU_SECTION_OPEN, TEWHORANU_OPEN_END, 0)
        && row_is(22, TEWHORANU_SECTION_QUERIES, TEWHORANU_QUERY_START, 2)
        && row_is(22, TEWHORANU_SECTION_QUERIES, TEWHORANU_QUERY_KIND, 'v')
        && row_is(22, TEWHORANU_SECTION_QUERIES, TEWHORANU_QUERY_NAME, hours);
}

typedef uint64_t conversion(const uint8_t *text, size_t text_length, uint8_t *out, size_t out_length);

/* Does a conversion of one text give the other, in a buffer of its length, and 9 in one a byte less, which it leaves alone? */
static int converts(conversion *convert, const char *from, const char *to)
{
    size_t length = strlen(to);

    memset(out, 'x', length + 1);
    if (convert(bytes(from), strlen(from), out, length - 1) != TEWHORANU_NO_ROOM || out[0] != 'x')
        return 0;
    return convert(bytes(from), strlen(from), out, length) == TEWHORANU_DONE + length && memcmp(out, to, length) == 0
        && out[length] == 'x';
}

/* Two rows compared by the example, with all records lent. */
static uint64_t compared(size_t length, const char *first, const char *second)
{
    return tewhoranu_compare(text, length, bytes(first), strlen(first), bytes(second), strlen(second), steps,
                             TEWHORANU_STEPS, others, TEWHORANU_STEPS);
}

/* Does the example's second listing come with its number, 2, and is the number left alone where a listing is refused? */
static int follows(size_t length, const char *listing)
{
    static const uint64_t due[] = {1, 2, 2};
    size_t query, written = strlen(listing);
    uint64_t followed = 77;

    if (tewhoranu_listing_counted(text, length, 1, out, written - 1, &followed) != TEWHORANU_NO_ROOM || followed != 77)
        return 0;
    if (tewhoranu_listing_counted(text, length, 3, out, sizeof out, &followed) != TEWHORANU_NO_QUERY || followed != 77)
        return 0;
    if (tewhoranu_listing_counted(text, length - 1, 1, out, sizeof out, &followed) != TEWHORANU_MALFORMED || followed != 77)
        return 0;
    for (query = 0; query < 3; query++) {
        followed = 77;
        if (tewhoranu_refused(tewhoranu_listing_counted(text, length, query, out, sizeof out, &followed)) || followed != due[query])
            return 0;
    }
    return tewhoranu_listing_counted(text, length, 1, out, written, &followed) == TEWHORANU_DONE + written
        && memcmp(out, listing, written) == 0;
}

/* The example with the path rules of an expression, in a buffer of so many bytes. */
static uint64_t ruled(size_t length, const char *expression, size_t room)
{
    return tewhoranu_rules(text, length, bytes(expression), strlen(expression), out, room);
}

/* Are these the readers of the declaration at a place, in a buffer of their length, and 9 in one a byte less? */
static int seen_from(const char *gym, size_t length, size_t place, const char *lines)
{
    size_t size = strlen(lines);

    memset(out, 'x', size + 1);
    if (tewhoranu_readers(bytes(gym), length, place, out, size - 1) != TEWHORANU_NO_ROOM || out[0] != 'x')
        return 0;
    return tewhoranu_readers(bytes(gym), length, place, out, size) == TEWHORANU_DONE + size && memcmp(out, lines, size) == 0
        && out[size] == 'x';
}

/* Does a file become the other with this list, in buffers of their lengths, and go back by it? Where either buffer is a byte
 * less neither changes, nor does the number for the list. */
static int renumbers(const char *from, const char *to, const char *was)
{
    size_t before = strlen(from), length = strlen(to), size = strlen(was);
    uint64_t listed = 77;

    memset(out, 'x', length + 1);
    memset(list, 'x', size + 1);
    if (tewhoranu_renumber(bytes(from), before, out, length - 1, list, size, &listed) != TEWHORANU_NO_ROOM
        || tewhoranu_renumber(bytes(from), before, out, length, list, size - 1, &listed) != TEWHORANU_NO_ROOM
        || tewhoranu_renumber(bytes(from), before, out, 0, list, 0, &listed) != TEWHORANU_NO_ROOM)
        return 0;
    if (listed != 77 || out[0] != 'x' || list[0] != 'x')
        return 0;
    if (tewhoranu_renumber(bytes(from), before, out, length, list, size, &listed) != TEWHORANU_DONE + length || listed != size)
        return 0;
    if (memcmp(out, to, length) != 0 || memcmp(list, was, size) != 0 || out[length] != 'x' || list[size] != 'x')
        return 0;
    memset(out, 'x', before + 1);
    if (tewhoranu_back(bytes(to), length, list, size, out, before - 1) != TEWHORANU_NO_ROOM || out[0] != 'x')
        return 0;
    return tewhoranu_back(bytes(to), length, list, size, out, before) == TEWHORANU_DONE + before
        && memcmp(out, from, before) == 0 && out[before] == 'x';
}

/* The example's way back by a list. */
static uint64_t gone_back(size_t length, const char *was)
{
    return tewhoranu_back(text, length, bytes(was), strlen(was), out, sizeof out);
}

/* A drawing put into a gym's text, in a buffer of so many bytes. */
static uint64_t undrawn(const char *gym, size_t length, const char *drawing, size_t room)
{
    return tewhoranu_undot(bytes(gym), length, bytes(drawing), strlen(drawing), out, room);
}

/* Is this the drawing of a gym's text, and does the text come back from it, each in a buffer of its length, and 9 in one a byte less? */
static int drawn_as(const char *gym, size_t length, const char *drawing)
{
    size_t size = strlen(drawing);

    memset(out, 'x', size + 1);
    if (tewhoranu_dot(bytes(gym), length, out, size - 1) != TEWHORANU_NO_ROOM || out[0] != 'x')
        return 0;
    if (tewhoranu_dot(bytes(gym), length, out, size) != TEWHORANU_DONE + size || memcmp(out, drawing, size) != 0 || out[size] != 'x')
        return 0;
    memset(out, 'x', length + 1);
    if (undrawn(gym, length, drawing, length - 1) != TEWHORANU_NO_ROOM || out[0] != 'x')
        return 0;
    return undrawn(gym, length, drawing, length) == TEWHORANU_DONE + length && memcmp(out, gym, length) == 0 && out[length] == 'x';
}

/* Each refusal that the header has words for. */
static int print_words(void)
{
    const char *unknown = tewhoranu_refusal_text(0);
    uint64_t number;

    for (number = 1; number < TEWHORANU_DONE; number++)
        if (strcmp(tewhoranu_refusal_text(number), unknown) != 0)
            printf("refused %d: %s\n", (int)number, tewhoranu_refusal_text(number));
    return 0;
}

/* Thirty rungs of two routes each, by labels I and P, and the name nowhere: 2^31 - 1 beginnings. */
static const char *two_routes(void)
{
    static char rungs[1024];
    int at = sprintf(rungs, "label\nI\nP\nless more\nstate label next\n0 I 0\n0 P 0\naccept\n0\nscopes\n31\nfrom label to\n");
    int scope;
    for (scope = 0; scope < 30; scope++)
        at += sprintf(rungs + at, "%d I %d\n%d P %d\n", scope, scope + 1, scope, scope + 1);
    sprintf(rungs + at, "at name mark\nat open\nstart seek\n0 x\n");
    return rungs;
}

int main(int argc, char **argv)
{
    static const char listing[] = "start seek found awaits\n3 service one 3$\nmark path\n10 3P1\n";
    static const char summary[] = "queries one several none share\n3 3 0 0 100\n";
    static const char kinds[] = "label\nless more\nstate label next\naccept\n0\nscopes\n1\nfrom label to\n"
                                "at kind name mark\n0 c x 1\n0 v x 2\nat open\n0 $\nstart kind seek\n0 c x\n0 v x\n";
    static const char usual[] = "label\nless more\nstate label next\naccept\n0\nscopes\n1\nfrom label to\n"
                                "at kind name mark\n0 v x 1\nat open\n0 $\nstart kind seek\n0 v x\n";
    static const char old[] = "label\nless more\nstate label next\naccept\n0\nscopes\n1\nfrom label to\n"
                              "at name mark\n0 x 1\nat open\n0 $\nstart seek\n0 x\n";
    static const char turns[] = "label\nI\nless more\nstate label next\n0 I 0\naccept\n0\nscopes\n3\nfrom label turn to\n"
                                "0 I 1 2\n0 I 2 1\nat kind name mark\n1 v x 1\n2 v x 2\nat open\n0 I\nstart kind seek\n0 v x\n";
    static const char zeros[] = "label\nless more\nstate label next\naccept\n0\nscopes\n1\nfrom label turn to\n"
                                "at kind name mark\n0 v x 1\nat open\n0 $\nstart kind seek\n0 v x\n";
    static const char twice[] = "label\nI\nless more\nstate label next\n0 I 1\n1 I 2\naccept\n2\nscopes\n3\nfrom label turn to\n"
                                "0 I 1 2\n0 I 2 1\nat kind name mark\n1 v x 1\n2 v x 2\nat open\n0 I\nstart kind seek\n0 v x\n";
    static const char caught[] = "label\nI\nP\nless more\nI P\nstate label next\n0 I 0\n0 P 0\naccept\n0\nscopes\n5\nfrom label to\n"
                                 "0 I 3\n0 P 1\n1 I 4\n1 P 2\nat name mark\n2 x 2\n3 x 3\n4 x 4\nat open\nstart seek\n0 x\n";
    static const char none[] = "label\nless more\nstate label next\naccept\nscopes\n1\nfrom label to\n"
                               "at name mark\n0 x 1\nat open\nstart seek\n0 x\n";
    static const char later[] = "start kind seek found awaits\n0 v x one 0I\nmark path\n1 0I1\n";
    static const char limit[] = "start kind seek found awaits\n0 v x one 0$\nmark path\n2 0\n";
    static const char one_state[] = "state label next\n0 I 0\n0 P 0\naccept\n0\nscopes\n";
    static const char nearer[] = "label\nI\nless more\nstate label next\n0 I 0\naccept\n0\nscopes\n3\nfrom label turn to\n"
                                 "0 I 1 1\n0 I 2 2\nat kind name mark\n1 v x 2\n2 v x 1\nat open\n0 I\nstart kind seek\n0 v x\n";
    static const char numbered[] =
        "label\nI\nP\nless more\n$ I\n$ P\nI P\nstate label next\n0 I 1\n0 P 0\n1 I 1\naccept\n0\n1\nscopes\n5\nfrom label to\n"
        "0 I 1\n0 P 2\n2 P 3\n4 P 2\nat name mark\n0 service 21\n1 hours 40\n2 service 10\n3 hours 5\nat open\n4 $\nstart seek\n"
        "0 service\n4 service\n0 hours\n";
    static const char visible[] = "21 2", shadowed[] = "10 2P1", unreached[] = "5 2P1P0";
    static char most[4 * (TEWHORANU_STEPS + 1)];
    FILE *file = argc == 2 ? fopen(argv[1], "rb") : NULL;
    size_t length, cells;
    uint64_t answer, place = 7;

    if (argc == 2 && strcmp(argv[1], "words") == 0)
        return print_words();
    expect(file != NULL, "the example's file is the one argument");
    length = fread(text, 1, sizeof text, file);

    EXPECT(tewhoranu_version() == TEWHORANU_VERSION);

    answer = tewhoranu_read(text, length, table, TEWHORANU_CELLS);
    EXPECT(!tewhoranu_refused(answer));
    cells = tewhoranu_written(answer);
    EXPECT(cells == 1 + TEWHORANU_ROW * 23 && table[0] == TEWHORANU_OLD_FORM);
    EXPECT(laid_out());
    EXPECT(tewhoranu_read(text, length, table, cells - 1) == TEWHORANU_NO_ROOM);
    EXPECT(tewhoranu_read(text, length - 1, table, cells) == TEWHORANU_MALFORMED);
    EXPECT(tewhoranu_read(text, TEWHORANU_TEXT + 1, table, cells) == TEWHORANU_TOO_LONG);

    EXPECT(refused_with(length, "1 P 0\n2", "9 P 0\n2", TEWHORANU_OUT_OF_RANGE));
    EXPECT(refused_with(length, "1 P 0\n2", "3 P 0\n2", TEWHORANU_NOT_ASCENDING));
    EXPECT(refused_with(length, "scopes\n5\n", "scopes\n5\n5\n", TEWHORANU_TOO_MANY_ROWS));
    EXPECT(refused_with(length, "$ I\n", "$ $\n", TEWHORANU_NO_ORDER));
    EXPECT(refused_with(length, "at name mark\n", "at kind name mark\n", TEWHORANU_MALFORMED));
    EXPECT(refused_with(length, "start seek\n", "start kind seek\n", TEWHORANU_MALFORMED));
    EXPECT(refused_with(length, "from label to\n", "from label turn to\n", TEWHORANU_MALFORMED));

    answer = tewhoranu_write(table, cells, out, sizeof out);
    EXPECT(answer == TEWHORANU_DONE + length && memcmp(out, text, length) == 0);
    EXPECT(tewhoranu_write(table, cells, out, length - 1) == TEWHORANU_NO_ROOM);

    EXPECT(tewhoranu_name_sought(text, length, 3, &place) == 0 && place == 7);
    EXPECT(tewhoranu_name_sought(text, length, 2, &place) == 5 && memcmp(text + place, "hours", 5) == 0);
    EXPECT(place == length - 6);

    answer = tewhoranu_listing(text, length, 1, out, sizeof out);
    EXPECT(answer == TEWHORANU_DONE + strlen(listing) && memcmp(out, listing, strlen(listing)) == 0);
    EXPECT(tewhoranu_listing(text, length, 1, out, strlen(listing)) == answer);
    EXPECT(tewhoranu_listing(text, length, 1, out, strlen(listing) - 1) == TEWHORANU_NO_ROOM);
    EXPECT(tewhoranu_listing(text, length, 3, out, sizeof out) == TEWHORANU_NO_QUERY);
    EXPECT(follows(length, listing));

    answer = tewhoranu_summary(text, length, out, TEWHORANU_SUMMARY);
    EXPECT(answer == TEWHORANU_DONE + strlen(summary) && memcmp(out, summary, strlen(summary)) == 0);

    answer = tewhoranu_judge(text, length, 0, bytes(visible), strlen(visible), steps, TEWHORANU_STEPS);
    EXPECT(is_case(answer, TEWHORANU_VISIBLE, 0));
    EXPECT(holds(&steps[0], 0, 0));
    answer = tewhoranu_judge(text, length, 0, bytes(shadowed), strlen(shadowed), steps, 1);
    EXPECT(is_case(answer, TEWHORANU_SHADOWED, 0));
    EXPECT(holds(&steps[0], 'P', 1) && holds(&steps[1], 0, 0));
    answer = tewhoranu_judge(text, length, 0, bytes(unreached), strlen(unreached), steps, 2);
    EXPECT(is_case(answer, TEWHORANU_UNREACHED, 0));
    EXPECT(holds(&steps[0], 'P', 1) && holds(&steps[1], 'P', 0) && holds(&steps[2], 0, 0));
    EXPECT(tewhoranu_judge(text, length, 0, bytes(unreached), strlen(unreached), steps, 1) == TEWHORANU_NO_ROOM);
    EXPECT(tewhoranu_steps_in(bytes(visible), strlen(visible)) == 0 && tewhoranu_steps_in(bytes(shadowed), strlen(shadowed)) == 1);
    EXPECT(tewhoranu_steps_in(bytes(unreached), strlen(unreached)) == 2);
    EXPECT(tewhoranu_judge(text, length, 0, bytes("2"), 1, steps, 1) == TEWHORANU_NO_PATH_ROW);
    EXPECT(tewhoranu_judge(text, length, 3, bytes("2"), 1, steps, 1) == TEWHORANU_NO_QUERY);

    memset(steps, 0, sizeof steps);
    answer = tewhoranu_compare(text, length, bytes(visible), strlen(visible), bytes(unreached), strlen(unreached), steps,
                               TEWHORANU_STEPS, others, TEWHORANU_STEPS);
    EXPECT(is_case(answer, TEWHORANU_FIRST, 0) && holds(&steps[0], 0, 0) && holds(&others[1], 'P', 0));
    answer = tewhoranu_compare(text, length, bytes(unreached), strlen(unreached), bytes(visible), strlen(visible), steps, 2,
                               others, 0);
    EXPECT(is_case(answer, TEWHORANU_SECOND, 0) && holds(&steps[1], 'P', 0));
    answer = tewhoranu_compare(text, length, bytes(visible), strlen(visible), bytes(visible), strlen(visible), steps, 0,
                               others, 0);
    EXPECT(is_case(answer, TEWHORANU_NEITHER, 0));

    /* how far two rows agree, and where a path that is cut at two places was caught */
    EXPECT(is_case(compared(length, "10 2P1", "5 2P1P0"), TEWHORANU_FIRST, 1));
    EXPECT(is_case(compared(length, "5 2P1P0", "10 2P1"), TEWHORANU_SECOND, 1));
    EXPECT(is_case(compared(length, "5 2P1P0", "6 2P1P0"), TEWHORANU_NEITHER, 2));
    EXPECT(is_case(compared(length, "5 2P1P0", "5 2P1P4"), TEWHORANU_NEITHER, 1));
    EXPECT(is_case(compared(length, "10 3P1P0", "10 2P1P0"), TEWHORANU_NEITHER, 0));
    strcpy(most, "1 0");
    for (place = 1; place <= TEWHORANU_STEPS; place++)
        sprintf(most + strlen(most), "P%d", (int)place);
    EXPECT(is_case(compared(length, most, most), TEWHORANU_NEITHER, TEWHORANU_STEPS));
    EXPECT(holds(&steps[62], 'P', 63) && holds(&others[62], 'P', 63));
    answer = tewhoranu_judge(bytes(caught), strlen(caught), 0, bytes("2 0P1P2"), 7, steps, 2);
    EXPECT(is_case(answer, TEWHORANU_SHADOWED, 1));

    /* the example's own path rules as an expression; others; what is none, and what needs too many states */
    memset(out, 'x', length + 1);
    EXPECT(ruled(length, "P*I*", length - 1) == TEWHORANU_NO_ROOM && out[0] == 'x');
    EXPECT(ruled(length, "P*I*", length) == TEWHORANU_DONE + length && memcmp(out, text, length) == 0 && out[length] == 'x');
    answer = ruled(length, "(P|I)*", sizeof out);
    EXPECT(answer == TEWHORANU_DONE + length - 8 && memcmp(strstr((char *)out, "state"), one_state, strlen(one_state)) == 0);
    EXPECT(!tewhoranu_refused(ruled(length, "(P|I)*P(P|I)(P|I)(P|I)", sizeof out)));
    out[0] = 'x';
    EXPECT(ruled(length, "(P|I)*P(P|I)(P|I)(P|I)P", 0) == TEWHORANU_TOO_MANY_STATES);
    EXPECT(ruled(length, "P|(PPP)*|(PPPPP)*", 0) == TEWHORANU_TOO_MANY_STATES);
    EXPECT(ruled(length, "", 0) == TEWHORANU_NO_EXPRESSION && ruled(length, "P|", sizeof out) == TEWHORANU_NO_EXPRESSION);
    EXPECT(ruled(length, "Z", sizeof out) == TEWHORANU_NO_EXPRESSION);
    EXPECT(ruled(length - 1, "", 0) == TEWHORANU_MALFORMED && ruled(TEWHORANU_TEXT + 1, "", 0) == TEWHORANU_TOO_LONG);
    EXPECT(out[0] == 'x');

    /* who sees each declaration of the example; places past its rows; kinds apart, and the later turn */
    EXPECT(seen_from((const char *)text, length, 0, "at\n0\n1\n3\n") && seen_from((const char *)text, length, 1, "at\n1\n3\n"));
    EXPECT(seen_from((const char *)text, length, 2, "at\n2\n") && seen_from((const char *)text, length, 3, "at\n2\n4\n"));
    out[0] = 'x';
    EXPECT(tewhoranu_readers(text, length, 4, out, sizeof out) == TEWHORANU_NO_DECLARATION);
    EXPECT(tewhoranu_readers(text, length, (size_t)-1, out, 0) == TEWHORANU_NO_DECLARATION);
    EXPECT(tewhoranu_readers(text, length - 1, 4, out, 0) == TEWHORANU_MALFORMED && out[0] == 'x');
    EXPECT(seen_from(kinds, strlen(kinds), 0, "at\n0\n") && seen_from(kinds, strlen(kinds), 1, "at\n0\n"));
    EXPECT(seen_from(turns, strlen(turns), 0, "at\n0\n1\n") && seen_from(turns, strlen(turns), 1, "at\n2\n"));

    /* scopes numbered for storage, and the way back: the example, one scope, the lower turn first; lists that are none */
    text[length] = 0;
    EXPECT(renumbers((const char *)text, numbered, "was\n2\n4\n1\n0\n3\n"));
    EXPECT(renumbers(kinds, kinds, "was\n0\n") && renumbers(turns, nearer, "was\n0\n2\n1\n"));
    EXPECT(gone_back(length, "was\n0\n1\n2\n3\n4\n") == TEWHORANU_DONE + length && memcmp(out, text, length) == 0);
    EXPECT(!tewhoranu_refused(gone_back(length, "was\n4\n3\n2\n1\n0\n")));
    out[0] = 'x';
    EXPECT(gone_back(length, "") == TEWHORANU_NO_LIST && gone_back(length, "0\n1\n2\n3\n4\n") == TEWHORANU_NO_LIST);
    EXPECT(gone_back(length, "was\n0\n1\n2\n3\n4") == TEWHORANU_NO_LIST && gone_back(length, "was\n0\n1\n2\n3\n") == TEWHORANU_NO_LIST);
    EXPECT(gone_back(length, "was\n0\n1\n2\n3\n3\n") == TEWHORANU_NO_LIST && gone_back(length, "was\n0\n1\n2\n3\n5\n") == TEWHORANU_NO_LIST);
    EXPECT(gone_back(length, "was\n0\n1\n2\n3\n04\n") == TEWHORANU_NO_LIST);
    EXPECT(gone_back(length, "was\n0\n1\n2\n3\n4\n5\n") == TEWHORANU_NO_LIST);
    EXPECT(tewhoranu_back(text, length, bytes("was\n"), 4, out, 0) == TEWHORANU_NO_LIST);
    EXPECT(gone_back(length - 1, "") == TEWHORANU_MALFORMED && gone_back(TEWHORANU_TEXT + 1, "") == TEWHORANU_TOO_LONG);
    EXPECT(out[0] == 'x');

    /* the example's drawing and back; drawings that are refused; turns that are not drawn */
    EXPECT(drawn_as((const char *)text, length, "digraph scopes {\n0;\n1;\n2;\n3;\n4;\n1 -> 0 [label=\"P\"];\n2 -> 4 [label=\"I\"];\n"
                                                "2 -> 1 [label=\"P\"];\n3 -> 1 [label=\"P\"];\n}\n"));
    EXPECT(drawn_as(old, strlen(old), "digraph scopes {\n0;\n}\n") && drawn_as(zeros, strlen(zeros), "digraph scopes {\n0;\n}\n"));
    EXPECT(undrawn(old, strlen(old), "// turns dropped\n\tdigraph\nscopes{0 ;}", strlen(old)) == TEWHORANU_DONE + strlen(old));
    out[0] = 'x';
    EXPECT(undrawn(old, strlen(old), "", 0) == TEWHORANU_NO_DRAWING && undrawn(old, strlen(old), "digraph scopes{00;}", 0) == TEWHORANU_NO_DRAWING);
    EXPECT(undrawn(old, strlen(old), "digraph scopes{}", 0) == TEWHORANU_OTHER_SCOPES);
    EXPECT(undrawn(old, strlen(old), "digraph scopes{0;0->0[label=\"I\"];}", 0) == TEWHORANU_OUT_OF_RANGE);
    EXPECT(undrawn(caught, strlen(caught), "digraph scopes{4;3;2;1;0;0->1[label=\"P\"];0->1[label=\"P\"];}", 0) == TEWHORANU_NOT_ASCENDING);
    EXPECT(out[0] == 'x');
    answer = tewhoranu_dot(bytes(turns), strlen(turns), out, sizeof out);
    EXPECT(!tewhoranu_refused(answer) && memcmp(out, "// turns dropped\ndigraph scopes {\n", 34) == 0);

    /* the number beside a listing: a file with turns, and one with more beginnings than are told */
    EXPECT(!tewhoranu_refused(tewhoranu_listing_counted(bytes(turns), strlen(turns), 0, out, sizeof out, &place)) && place == 2);
    EXPECT(!tewhoranu_refused(tewhoranu_listing_counted(bytes(two_routes()), strlen(two_routes()), 0, out, sizeof out, &place)));
    EXPECT(place == TEWHORANU_FOLLOWED);

    /* a file that accepts nothing follows nothing */
    EXPECT(!tewhoranu_refused(tewhoranu_listing_counted(bytes(none), strlen(none), 0, out, sizeof out, &place)) && place == 0);

    /* a file with kinds: its cells, its text, its listing, its name sought */
    length = strlen(kinds);
    answer = tewhoranu_read(bytes(kinds), length, table, TEWHORANU_CELLS);
    EXPECT(answer == TEWHORANU_DONE + 1 + 6 * 7 && table[0] == TEWHORANU_WITH_KINDS);
    cells = tewhoranu_written(answer);
    EXPECT(table[13] == 6 && table[15] == 'c' && table[18] == 1 && table[21] == 'v' && table[24] == 2);
    answer = tewhoranu_write(table, cells, out, sizeof out);
    EXPECT(answer == TEWHORANU_DONE + length && memcmp(out, kinds, length) == 0);
    table[0] = TEWHORANU_OLD_FORM;
    EXPECT(tewhoranu_write(table, cells, out, sizeof out) == TEWHORANU_MALFORMED);
    table[0] = TEWHORANU_WITH_TURNS;
    EXPECT(!tewhoranu_refused(tewhoranu_write(table, cells, out, sizeof out)));
    table[0] = TEWHORANU_WITH_TURNS + 1;
    EXPECT(tewhoranu_write(table, cells, out, sizeof out) == TEWHORANU_MALFORMED);
    answer = tewhoranu_listing(bytes(kinds), length, 1, out, sizeof out);
    EXPECT(answer == TEWHORANU_DONE + strlen(limit) && memcmp(out, limit, strlen(limit)) == 0);
    EXPECT(tewhoranu_name_sought(bytes(kinds), length, 1, &place) == 1 && place == length - 2);
    answer = tewhoranu_judge(bytes(kinds), length, 1, bytes("2 0"), 3, steps, 0);
    EXPECT(is_case(answer, TEWHORANU_VISIBLE, 0));
    answer = tewhoranu_judge(bytes(kinds), length, 1, bytes("1 0"), 3, steps, 0);
    EXPECT(is_case(answer, TEWHORANU_UNREACHED, 0));

    /* a file with turns: its cells, its text, its listing, its rows judged and compared */
    answer = tewhoranu_read(bytes(turns), strlen(turns), table, TEWHORANU_CELLS);
    EXPECT(answer == TEWHORANU_DONE + 1 + 6 * 10 && table[0] == TEWHORANU_WITH_TURNS);
    cells = tewhoranu_written(answer);
    EXPECT(table[25] == 5 && table[26] == 0 && table[27] == 0 && table[28] == 2 && table[29] == 1);
    EXPECT(table[34] == 1 && table[35] == 2);
    answer = tewhoranu_write(table, cells, out, sizeof out);
    EXPECT(answer == TEWHORANU_DONE + strlen(turns) && memcmp(out, turns, strlen(turns)) == 0);
    table[35] = 100;
    EXPECT(tewhoranu_write(table, cells, out, sizeof out) == TEWHORANU_OUT_OF_RANGE);
    table[34] = 2;
    table[35] = 2;
    EXPECT(tewhoranu_write(table, cells, out, sizeof out) == TEWHORANU_NOT_ASCENDING);
    table[34] = 1;
    table[0] = TEWHORANU_WITH_KINDS;
    EXPECT(tewhoranu_write(table, cells, out, sizeof out) == TEWHORANU_MALFORMED);
    answer = tewhoranu_listing(bytes(turns), strlen(turns), 0, out, sizeof out);
    EXPECT(answer == TEWHORANU_DONE + strlen(later) && memcmp(out, later, strlen(later)) == 0);
    answer = tewhoranu_judge(bytes(turns), strlen(turns), 0, bytes("1 0I1"), 5, steps, 1);
    EXPECT(is_case(answer, TEWHORANU_VISIBLE, 0));
    answer = tewhoranu_judge(bytes(turns), strlen(turns), 0, bytes("2 0I2"), 5, steps, 1);
    EXPECT(is_case(answer, TEWHORANU_SHADOWED, 0));
    answer = tewhoranu_compare(bytes(turns), strlen(turns), bytes("2 0I2"), 5, bytes("1 0I1"), 5, steps, 1, others, 1);
    EXPECT(is_case(answer, TEWHORANU_SECOND, 0));
    answer = tewhoranu_compare(bytes(turns), strlen(turns), bytes("2 0I0"), 5, bytes("1 0I1"), 5, steps, 1, others, 1);
    EXPECT(is_case(answer, TEWHORANU_NEITHER, 0));
    EXPECT(converts(tewhoranu_to_new, turns, turns) && converts(tewhoranu_to_new, zeros, zeros));
    EXPECT(converts(tewhoranu_to_old, zeros, old));
    EXPECT(tewhoranu_to_old(bytes(turns), strlen(turns), out, 0) == TEWHORANU_NO_OLD_FORM);
    answer = tewhoranu_rules(bytes(turns), strlen(turns), bytes("II"), 2, out, sizeof out);
    EXPECT(answer == TEWHORANU_DONE + strlen(twice) && memcmp(out, twice, strlen(twice)) == 0);

    /* one file in the two forms without turns: each way, as it is, a byte less; and kinds that the old form cannot say */
    EXPECT(converts(tewhoranu_to_old, usual, old) && converts(tewhoranu_to_old, old, old));
    EXPECT(converts(tewhoranu_to_new, old, usual) && converts(tewhoranu_to_new, usual, usual));
    EXPECT(converts(tewhoranu_to_new, kinds, kinds));
    EXPECT(tewhoranu_rules(bytes(kinds), length, bytes("P"), 1, out, sizeof out) == TEWHORANU_NO_EXPRESSION);
    out[0] = 'x';
    EXPECT(tewhoranu_to_old(bytes(kinds), length, out, sizeof out) == TEWHORANU_NO_OLD_FORM);
    EXPECT(tewhoranu_to_old(bytes(kinds), length, out, 0) == TEWHORANU_NO_OLD_FORM);
    EXPECT(tewhoranu_to_old(bytes(kinds), length - 1, out, 0) == TEWHORANU_MALFORMED);
    EXPECT(tewhoranu_to_new(bytes(kinds), length - 1, out, 0) == TEWHORANU_MALFORMED);
    EXPECT(tewhoranu_to_old(text, TEWHORANU_TEXT + 1, out, sizeof out) == TEWHORANU_TOO_LONG);
    EXPECT(tewhoranu_to_new(text, TEWHORANU_TEXT + 1, out, sizeof out) == TEWHORANU_TOO_LONG);
    EXPECT(out[0] == 'x');
    puts("calls: ok");
    return 0;
}
