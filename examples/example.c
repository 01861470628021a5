/* Set E (docs/FORMATS.md) through the C interface: it lets in a pair of two equal leaves. And JSON, which has symbols of
 * its own, from a text to a verdict. */
#include "cidhomba.h"

#include <inttypes.h>
#include <stdio.h>
#include <string.h>

#define LENGTH(array) (sizeof(array) / sizeof((array)[0]))
#define U CIDHOMBA_UNUSED

/* Symbols pair/2, a/0, b/0; state 0 with tag 0, state 1 final; pair(0,0) to 1, a to 0, b to 0. */
static const uint8_t set_e[] = {
    3, 0, 2, 0, 1, 0, 3, 0, 16, 0, 19, 0, 23, 0, 59, 0,
    2, 0, 0,
    0, 1, 1, 0,
    0, 0, 1, 0, 0, 0, 0, 0, 255, 255, 255, 255,
    1, 0, 0, 0, 255, 255, 255, 255, 255, 255, 255, 255,
    2, 0, 0, 0, 255, 255, 255, 255, 255, 255, 255, 255,
};

/* pair(a=7,a=7) and pair(a=7,a=8): symbol, child places, kind (2 is a count), payload. */
static const uint16_t equal[] = {
    1, U, U, U, U, 2, 7, 0, 0, 0,
    0, 0, 0, U, U, 0, 0, 0, 0, 0,
};
static const uint16_t unequal[] = {
    1, U, U, U, U, 2, 7, 0, 0, 0,
    1, U, U, U, U, 2, 8, 0, 0, 0,
    0, 0, 1, U, U, 0, 0, 0, 0, 0,
};

/* Prints what a call answered: a value, or why it was refused. */
static void told(const char *what, uint64_t answer)
{
    unsigned number = CIDHOMBA_NUMBER(answer);
    if (!CIDHOMBA_REFUSED(answer)) {
        printf("%s: %" PRIu64 "\n", what, answer);
    } else if ((number >= CIDHOMBA_TEXT_FAULT && number <= CIDHOMBA_TEXT_ROWS) ||
               (number >= CIDHOMBA_JSON_FAULT && number <= CIDHOMBA_NUMBER_FORM)) {
        printf("%s: refused %u at %" PRIu64 ", %s\n", what, number, CIDHOMBA_PLACE(answer),
               cidhomba_refusal_text(number));
    } else {
        printf("%s: refused %u, %s\n", what, number, cidhomba_refusal_text(number));
    }
}

static void checks(void)
{
    /* The leaf by rule 1, then the pair by rule 0 over step 0 twice. */
    static const uint16_t run[] = {1, 0, U, U, U, U, 0, 1, 0, 0, U, U};
    told("set E", cidhomba_check_automaton(set_e, LENGTH(set_e)));
    told("set E without its last byte", cidhomba_check_automaton(set_e, LENGTH(set_e) - 1));
    told("pair(a=7,a=7)", cidhomba_check_document(set_e, LENGTH(set_e), equal, LENGTH(equal)));
    told("its first row", cidhomba_check_document(set_e, LENGTH(set_e), equal, CIDHOMBA_ROW_CELLS));
    told("half a row", cidhomba_check_document(set_e, LENGTH(set_e), equal, CIDHOMBA_ROW_CELLS / 2));
    told("its run", cidhomba_check_run(set_e, LENGTH(set_e), equal, LENGTH(equal), run, LENGTH(run)));
    told("the run on pair(a=7,a=8)",
         cidhomba_check_run(set_e, LENGTH(set_e), unequal, LENGTH(unequal), run, LENGTH(run)));
}

/* Whether a set lets a table in: room for eight annotations is plenty here. The work space must hold values. */
static uint64_t judged(const uint8_t *set, size_t set_length, const uint16_t *rows, size_t rows_length)
{
    uint16_t work[8 * CIDHOMBA_ANNOTATION_CELLS] = {0};
    uint16_t run[8 * CIDHOMBA_STEP_CELLS];
    return cidhomba_membership(set, set_length, rows, rows_length, work, LENGTH(work), run, LENGTH(run));
}

static void judging(void)
{
    told("steps for pair(a=7,a=7)", judged(set_e, LENGTH(set_e), equal, LENGTH(equal)));
    told("steps for pair(a=7,a=8), which is turned away",
         judged(set_e, LENGTH(set_e), unequal, LENGTH(unequal)));
}

static void two_sets(void)
{
    uint8_t out[CIDHOMBA_MAX_SET_BYTES];
    told("bytes of E or E", cidhomba_union(set_e, LENGTH(set_e), set_e, LENGTH(set_e), out, LENGTH(out)));
    told("bytes of E and E", cidhomba_product(set_e, LENGTH(set_e), set_e, LENGTH(set_e), out, LENGTH(out)));
    told("no space", cidhomba_union(set_e, LENGTH(set_e), set_e, LENGTH(set_e), out, 0));
}

/* A wide set with rules of 14 bytes, which forget nothing, and back; and with a tag to forget, which cannot go back. */
static void longer_rules(const uint8_t *wide, size_t wide_length)
{
    uint8_t isolating[CIDHOMBA_MAX_SET_BYTES];
    uint8_t back[CIDHOMBA_MAX_SET_BYTES];
    uint64_t answer = cidhomba_widen_rules(wide, wide_length, isolating, LENGTH(isolating));
    told("bytes of that in the isolating form", answer);
    if (CIDHOMBA_REFUSED(answer)) {
        return;
    }
    told("steps for pair(a=7,a=7) by it", judged(isolating, answer, equal, LENGTH(equal)));
    told("bytes of it in the wide form", cidhomba_narrow_rules(isolating, answer, back, LENGTH(back)));
    isolating[answer - 2] = 1; /* the last rule forgets tag 0 */
    told("the same with a tag to forget", cidhomba_narrow_rules(isolating, answer, back, LENGTH(back)));
}

/* The set with two bytes for the tags of a state, and back: the same bytes again. */
static void all_forms(void)
{
    uint8_t wide[CIDHOMBA_MAX_SET_BYTES];
    uint8_t narrow[CIDHOMBA_MAX_SET_BYTES];
    uint64_t answer = cidhomba_widen_states(set_e, LENGTH(set_e), wide, LENGTH(wide));
    told("bytes of E in the wide form", answer);
    if (CIDHOMBA_REFUSED(answer)) {
        return;
    }
    told("steps for pair(a=7,a=7) by it", judged(wide, answer, equal, LENGTH(equal)));
    longer_rules(wide, answer);
    answer = cidhomba_narrow_states(wide, answer, narrow, LENGTH(narrow));
    told("bytes of the wide form in the narrow one", answer);
    told("set E, which is not in the wide form, narrowed",
         cidhomba_narrow_states(set_e, LENGTH(set_e), narrow, LENGTH(narrow)));
}

static void lowest(void)
{
    uint16_t rows[CIDHOMBA_WITNESS_CELLS];
    uint64_t answer = cidhomba_witness(set_e, LENGTH(set_e), rows, LENGTH(rows));
    if (CIDHOMBA_REFUSED(answer) || answer == 0) {
        told("a lowest document", answer);
        return;
    }
    told("levels of a lowest document", answer / 65536);
    told("its rows", answer % 65536);
}

/* The site's names, without the byte 0 that C puts at the end; there is no built-in list. */
static const uint8_t names[] = "pair\na\nb";
#define NAMES names, LENGTH(names) - 1, NULL, 0

static void reading(void)
{
    static const uint8_t sound[] = "pair(a=7,b#3)";
    static const uint8_t unknown[] = "pair(a=7,c)";
    uint16_t rows[CIDHOMBA_TABLE_CELLS];
    told("rows of pair(a=7,b#3)",
         cidhomba_read_term(set_e, LENGTH(set_e), NAMES, sound, LENGTH(sound) - 1, rows, LENGTH(rows)));
    told("rows of pair(a=7,c)",
         cidhomba_read_term(set_e, LENGTH(set_e), NAMES, unknown, LENGTH(unknown) - 1, rows, LENGTH(rows)));
}

/* A list of keys, a line for each; its symbols are end, stop, other, item, null, flag, number, text, name and weight. The
 * set demands an object with a name, which is a text, then a weight, which is a number, and nothing else: states 0 a
 * number, 1 a text, 2 the end, 3 a weight and the end, 4 a name and that, final; end to 2, number to 0, text to 1,
 * name(1,3) to 4, weight(0,2) to 3. */
static const uint8_t keys[] = "name\nweight\n";
static const uint8_t set_server[] = {
    10, 0, 5, 0, 0, 0, 5, 0, 16, 0, 26, 0, 36, 0, 96, 0,
    0, 0, 3, 2, 0, 0, 0, 0, 2, 2,
    0, 0, 0, 0, 0, 0, 0, 0, 1, 0,
    0, 0, 2, 0, 255, 255, 255, 255, 255, 255, 255, 255,
    6, 0, 0, 0, 255, 255, 255, 255, 255, 255, 255, 255,
    7, 0, 1, 0, 255, 255, 255, 255, 255, 255, 255, 255,
    8, 0, 4, 0, 1, 0, 3, 0, 255, 255, 255, 255,
    9, 0, 3, 0, 0, 0, 2, 0, 255, 255, 255, 255,
};

/* Reads a text in JSON, without the byte 0 behind it, and judges its rows. */
static void judged_json(const char *what, const char *text)
{
    uint16_t rows[CIDHOMBA_TABLE_CELLS];
    uint64_t answer =
        cidhomba_read_json(keys, LENGTH(keys) - 1, (const uint8_t *)text, strlen(text), rows, LENGTH(rows));
    if (!CIDHOMBA_REFUSED(answer)) {
        answer = judged(set_server, LENGTH(set_server), rows, CIDHOMBA_ROW_CELLS * answer);
    }
    if (CIDHOMBA_REFUSED(answer)) {
        told(what, answer);
    } else {
        printf("%s: %s\n", what, answer == 0 ? "turned away" : "let in");
    }
}

static void judging_json(void)
{
    judged_json("a server in JSON", "{\"name\":\"web01\",\"weight\":30}");
    judged_json("one with a queue before the weight", "{\"name\":\"web01\",\"queue\":9,\"weight\":30}");
    judged_json("one with two names", "{\"name\":1,\"name\":2}");
}

static void writing(void)
{
    uint8_t text[64];
    uint64_t answer =
        cidhomba_write_term(set_e, LENGTH(set_e), NAMES, equal, LENGTH(equal), text, LENGTH(text));
    told("bytes of a text", answer);
    if (!CIDHOMBA_REFUSED(answer)) {
        printf("%.*s\n", (int)answer, (const char *)text);
    }
}

int main(void)
{
    checks();
    judging();
    two_sets();
    all_forms();
    lowest();
    reading();
    judging_json();
    writing();
    return 0;
}
