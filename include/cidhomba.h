/* Cidhomba: shape sets and the documents that they let in. The C interface of the verified library, for C99 and C++.
 *
 * A set is bytes in a stored form, of which there are three: the narrow one has a state's tags in one byte, at most 8,
 * the wide one in two, at most 16; and the isolating one is the wide one with rules of 14 bytes in place of 12, the last
 * two of which name tags that the rule forgets. Every function takes all three. A document is a table of rows of ten
 * 16-bit cells; a run is steps of six 16-bit cells; names come from two lists, and documents may also be read from term
 * text or from JSON. docs/FORMATS.md has each form, with an example worked byte by byte. 16-bit cells are uint16_t in the
 * machine's own order; where rows stand in a file, their cells are written low byte first.
 *
 * Slices. A slice passes as a pointer and a count of its elements, not of bytes. Where the count is 0 the pointer may
 * be NULL. Every input is either answered or refused: no bytes make a call read or write outside what is lent, run
 * without end, or wrap a sum. Owed by the caller is only what C's types cannot say:
 *   - the memory is there, whole and aligned, for as many elements as the count says;
 *   - a space that is written overlaps nothing else that is lent in the call: overlap is undefined behaviour;
 *   - nothing that is lent changes during the call, by another thread, a signal handler or a mapped file;
 *   - inputs hold values, and so does the judge's work space (see cidhomba_membership). Of every other space nothing
 *     is read before it is written.
 *
 * Answers. Every function answers one 64-bit word. CIDHOMBA_REFUSED tells a refusal, whose number and place the two
 * macros after it take out, and cidhomba_refusal_text says it in words; else the word is the value that stands with
 * the function. A refusal writes to no result space. A result fills the front of its space, and the rest is as it was.
 *
 * Stack and threads. A call takes at most 128 KiB of stack, and reading JSON at most 256 KiB (measured on the deepest
 * inputs; reading a text of 256 levels takes most), allocates nothing, keeps no pointer past its end and has no state. Calls may run at the same
 * time on several threads: they may share what they only read, and each needs spaces of its own.
 *
 * Spaces, in elements: the least that serves, and what is recommended. Of all but the last no call can use more.
 *
 *   work of cidhomba_membership   32 for each annotation of the document   CIDHOMBA_WORK_CELLS
 *   run of cidhomba_membership    6 for each annotation of the room        CIDHOMBA_RUN_CELLS
 *   out of union and product      the length of the result                 CIDHOMBA_MAX_SET_BYTES
 *   out of the four moves         the length of the result                 CIDHOMBA_MAX_SET_BYTES
 *   rows of cidhomba_witness      10 for each state of the set             CIDHOMBA_WITNESS_CELLS
 *   rows of cidhomba_read_term    10 for each row of the document          CIDHOMBA_TABLE_CELLS
 *   rows of cidhomba_read_json    10 for each row of the document          CIDHOMBA_TABLE_CELLS
 *   text of cidhomba_write_term   the length of the text                   CIDHOMBA_TEXT_BYTES
 *
 * A document has an annotation for each row, each state that the row can have there, and each choice of rows to which
 * tags went below and were not forgotten; 31 says that they were more than the room. Where in doubt, lend
 * CIDHOMBA_WORK_CELLS. A text has no greatest length, since rows may be shared: a table of 1,024 rows can stand for a
 * text longer than any memory, and CIDHOMBA_TEXT_BYTES is what the programs have.
 *
 * Link with libcidhomba.a: `./quickstart` builds it in target/staticlib, `./install PREFIX` installs it with this
 * header and a file for pkg-config. It needs the C library and nothing else.
 */
#ifndef CIDHOMBA_H
#define CIDHOMBA_H

#include <stddef.h>
#include <stdint.h>

#ifdef __cplusplus
extern "C" {
#endif

/* The version of this header and of the library that it belongs to. */
#define CIDHOMBA_VERSION_MAJOR 0
#define CIDHOMBA_VERSION_MINOR 1
#define CIDHOMBA_VERSION_PATCH 0
#define CIDHOMBA_VERSION "0.1.0"

/* Whether an answer is a refusal; its number; and its place in the text for the numbers 63 to 67 and 71 to 73 (0 is the
 * first byte, else there is none and it reads 0; a place past 2^55 - 1 is told as that). */
#define CIDHOMBA_REFUSED(answer) (((uint64_t)(answer) >> 63) != 0)
#define CIDHOMBA_NUMBER(answer) ((unsigned)((uint64_t)(answer) & 255))
#define CIDHOMBA_PLACE(answer) (((uint64_t)(answer) & (UINT64_MAX >> 1)) >> 8)

/* 16-bit cells of a row, of a step, and of work space for one annotation. */
#define CIDHOMBA_ROW_CELLS 10
#define CIDHOMBA_STEP_CELLS 6
#define CIDHOMBA_ANNOTATION_CELLS 32

/* The limits: rows of a table, annotations for which there can be room (and steps of a run), states of a set, and
 * bytes of the longest set. */
#define CIDHOMBA_MAX_ROWS 1024
#define CIDHOMBA_MAX_ROOM 4096
#define CIDHOMBA_MAX_STATES 256
#define CIDHOMBA_MAX_SET_BYTES 15184

/* Recommended sizes of spaces, in elements: cells of 16 bits, and bytes of text. */
#define CIDHOMBA_WORK_CELLS (CIDHOMBA_MAX_ROOM * CIDHOMBA_ANNOTATION_CELLS)
#define CIDHOMBA_RUN_CELLS (CIDHOMBA_MAX_ROOM * CIDHOMBA_STEP_CELLS)
#define CIDHOMBA_TABLE_CELLS (CIDHOMBA_MAX_ROWS * CIDHOMBA_ROW_CELLS)
#define CIDHOMBA_WITNESS_CELLS (CIDHOMBA_MAX_STATES * CIDHOMBA_ROW_CELLS)
#define CIDHOMBA_TEXT_BYTES 32768

/* What stands in a child place or a step place that is not used. */
#define CIDHOMBA_UNUSED 65535

/* Why a call is refused. Each function tries its inputs in the order in which it names them, and within one input
 * each number over the whole of it before the next; the two name lists count as one input, and in text the first
 * fault from the left counts, in JSON the one with the leftmost place, the lower number at one place. */
enum cidhomba_refusal {
    /* a set */
    CIDHOMBA_SET_TOO_SHORT = 1,    /* fewer than 16 bytes */
    CIDHOMBA_SET_COUNTS = 2,       /* symbols, states, tags or rules outside their range */
    CIDHOMBA_SET_LENGTHS = 3,      /* an offset, the total, or the lent length differs from the formulas of every form,
                                    * or over 8 tags in the narrow form */
    CIDHOMBA_SET_CHILDREN = 4,     /* a symbol with more than 4 children */
    CIDHOMBA_SET_STATE = 5,        /* a final byte above 1, or a tag bit at or above the number of tags */
    CIDHOMBA_SET_RULE = 6,         /* an unknown symbol or state, or an unused place that is not 65535 */
    CIDHOMBA_SET_ORDER = 7,        /* rules that do not ascend strictly by symbol, child places, target; what they forget
                                    * is not looked at */
    CIDHOMBA_SET_TAGS = 8,         /* over 8 tags in a set whose states are to be narrowed; tried after 18 */
    CIDHOMBA_SET_FORGETS = 9,      /* a rule that forgets a tag at or above the number of tags; tried after 7 */
    CIDHOMBA_RULE_FORGETS = 10,    /* a rule that forgets a tag, with or without an effect, in a set whose rules are to be
                                    * narrowed; tried after 18 */
    /* a table */
    CIDHOMBA_TABLE_LENGTH = 11,    /* 0 or over 1,024 rows, or a row cut short */
    CIDHOMBA_ROW_SYMBOL = 12,      /* an unknown symbol */
    CIDHOMBA_ROW_CHILDREN = 13,    /* a child that is not lower, or an unused place that is not 65535 */
    CIDHOMBA_ROW_SCALAR = 14,      /* kind or payload not those of a scalar that the row may have; no row may have the
                                    * rate -0.0, with only its sign bit set */
    CIDHOMBA_ROWS_EQUAL = 15,      /* two equal rows */
    CIDHOMBA_ROW_UNUSED = 16,      /* a row, not the last, that no later row uses */
    CIDHOMBA_TABLE_HEIGHT = 17,    /* a tree higher than 256 */
    /* a set that is to be moved to another form */
    CIDHOMBA_SET_FORM = 18,        /* a set that is not in the form that the move starts from; no move of states starts
                                    * from the isolating one, and none of rules from the narrow one; tried after 9 */
    /* a run */
    CIDHOMBA_RUN_LENGTH = 21,      /* 0 or over 4,096 steps, or a step cut short */
    CIDHOMBA_STEP_UNKNOWN = 22,    /* an unknown rule or row */
    CIDHOMBA_STEP_MISFIT = 23,     /* symbols that differ, or a step place that is not as it should be */
    CIDHOMBA_RUN_TAG = 24,         /* a step that gives a tag two rows: where the memories of its child steps are joined,
                                    * or where the tags of its target are added */
    CIDHOMBA_RUN_END = 25,         /* a last step that is not on the last row, or not in a final state */
    CIDHOMBA_STEP_UNUSED = 26,     /* a step, not the last, that no later step uses */
    /* judging */
    CIDHOMBA_NO_ROOM = 31,         /* more distinct annotations over all rows than the room */
    CIDHOMBA_RUN_SPACE = 32,       /* a run space that holds fewer steps than the room; tried before 31 */
    /* a lowest document */
    CIDHOMBA_TAG_SHARED = 41,      /* two states that share a tag */
    CIDHOMBA_ROW_SPACE = 42,       /* space for fewer rows than the set has states; tried before 41 */
    /* two sets */
    CIDHOMBA_SETS_DIFFER = 51,     /* numbers of symbols or of their children that differ */
    CIDHOMBA_RESULT_LIMITS = 52,   /* a result with over 256 states, 16 tags or 1,024 rules */
    CIDHOMBA_RESULT_SPACE = 53,    /* a space shorter than the result; also of a move to another form, tried last there */
    /* name lists */
    CIDHOMBA_LIST_LINE = 61,       /* over 64 lines, or a line that, but for spaces and bytes 13 at its end, is neither
                                    * empty nor a name */
    CIDHOMBA_NAMES_ALIKE = 62,     /* two symbols shown alike */
    /* text, with a place */
    CIDHOMBA_TEXT_FAULT = 63,      /* no legal continuation; place is that byte, or the end */
    CIDHOMBA_TEXT_LEVEL = 64,      /* a letter that opens a term at level 257; place is that letter. In JSON a value, or the
                                    * text of a whole key that is not listed, that would stand there; place is its first
                                    * byte */
    CIDHOMBA_NAME_UNKNOWN = 65,    /* an unknown name; place is its first byte */
    CIDHOMBA_TERM_CHILDREN = 66,   /* a wrong number of children; place is the term's first byte */
    CIDHOMBA_TEXT_ROWS = 67,       /* a row past the 1,024th or past the row space; place is the term's first byte, in JSON
                                    * the byte that finishes the row */
    /* writing text, and the programs */
    CIDHOMBA_TEXT_SPACE = 68,      /* a text longer than the space */
    CIDHOMBA_INPUT_LENGTH = 69,    /* an input of a program with over 32,768 bytes */
    /* JSON, with a place; and its list of keys, without */
    CIDHOMBA_JSON_FAULT = 71,      /* not RFC 8259, not UTF-8, or half a surrogate pair; place is the first byte with no
                                    * legal continuation, or the end */
    CIDHOMBA_KEY_REPEATED = 72,    /* a key that the object has already, after decoding; place is its opening quote */
    CIDHOMBA_NUMBER_FORM = 73,     /* a number that is no whole one below 2^64 without a sign, and has an exponent or over
                                    * 15 digits in all; place is its first byte */
    CIDHOMBA_KEY_LIST = 74         /* over 56 lines, a line that is empty or has over 64 bytes, or two equal lines */
};

/* The condition that a refusal's number stands for, in words. */
static inline const char *cidhomba_refusal_text(unsigned number)
{
    switch (number) {
    case CIDHOMBA_SET_TOO_SHORT:
        return "the set has fewer than 16 bytes";
    case CIDHOMBA_SET_COUNTS:
        return "the set's symbols, states, tags or rules are too few or too many";
    case CIDHOMBA_SET_LENGTHS:
        return "an offset, the total or the length of the set differs from the formulas of every form, or its states "
               "have one byte for over 8 tags";
    case CIDHOMBA_SET_CHILDREN:
        return "a symbol of the set has more than 4 children";
    case CIDHOMBA_SET_STATE:
        return "a state of the set has a final byte above 1 or a tag that the set does not have";
    case CIDHOMBA_SET_RULE:
        return "a rule of the set names an unknown symbol or state, or an unused place is not 65535";
    case CIDHOMBA_SET_ORDER:
        return "the rules of the set do not ascend strictly by symbol, child places and target";
    case CIDHOMBA_SET_TAGS:
        return "the set has over 8 tags, and its states cannot be narrowed";
    case CIDHOMBA_SET_FORGETS:
        return "a rule of the set forgets a tag that the set does not have";
    case CIDHOMBA_RULE_FORGETS:
        return "a rule of the set forgets a tag, and its rules cannot be narrowed";
    case CIDHOMBA_TABLE_LENGTH:
        return "the table has no rows, over 1,024, or a row cut short";
    case CIDHOMBA_ROW_SYMBOL:
        return "a row has an unknown symbol";
    case CIDHOMBA_ROW_CHILDREN:
        return "a child of a row is not lower, or an unused place is not 65535";
    case CIDHOMBA_ROW_SCALAR:
        return "kind and payload of a row are not those of a scalar that it may have";
    case CIDHOMBA_ROWS_EQUAL:
        return "two rows are equal";
    case CIDHOMBA_ROW_UNUSED:
        return "a row, not the last, is used by no later row";
    case CIDHOMBA_TABLE_HEIGHT:
        return "the tree is higher than 256";
    case CIDHOMBA_SET_FORM:
        return "the set is not in the form that the move starts from, by its states or by its rules";
    case CIDHOMBA_RUN_LENGTH:
        return "the run has no steps, over 4,096, or a step cut short";
    case CIDHOMBA_STEP_UNKNOWN:
        return "a step names an unknown rule or row";
    case CIDHOMBA_STEP_MISFIT:
        return "the symbols of a step's rule and row differ, or a step place is not as it should be";
    case CIDHOMBA_RUN_TAG:
        return "in some step a tag goes to two rows";
    case CIDHOMBA_RUN_END:
        return "the last step is not on the last row, or its state is not final";
    case CIDHOMBA_STEP_UNUSED:
        return "a step, not the last, is used by no later step";
    case CIDHOMBA_NO_ROOM:
        return "there are more distinct annotations than the room";
    case CIDHOMBA_RUN_SPACE:
        return "the run space holds fewer steps than the room";
    case CIDHOMBA_TAG_SHARED:
        return "two states share a tag";
    case CIDHOMBA_ROW_SPACE:
        return "there is space for fewer rows than the set has states";
    case CIDHOMBA_SETS_DIFFER:
        return "the symbols of the two sets or their numbers of children differ";
    case CIDHOMBA_RESULT_LIMITS:
        return "the result would have over 256 states, 16 tags or 1,024 rules";
    case CIDHOMBA_RESULT_SPACE:
        return "the space is shorter than the result";
    case CIDHOMBA_LIST_LINE:
        return "a name list has over 64 lines, or a line that, but for spaces and bytes 13 at its end, is neither "
               "empty nor a name";
    case CIDHOMBA_NAMES_ALIKE:
        return "two symbols are shown alike";
    case CIDHOMBA_TEXT_FAULT:
        return "the text has no legal continuation";
    case CIDHOMBA_TEXT_LEVEL:
        return "a term, or in JSON a value or the text of a key, stands at level 257";
    case CIDHOMBA_NAME_UNKNOWN:
        return "the text has an unknown name";
    case CIDHOMBA_TERM_CHILDREN:
        return "a term has a wrong number of children";
    case CIDHOMBA_TEXT_ROWS:
        return "there is a row past the 1,024th or past the row space";
    case CIDHOMBA_TEXT_SPACE:
        return "the text is longer than the space";
    case CIDHOMBA_INPUT_LENGTH:
        return "the input has over 32,768 bytes";
    case CIDHOMBA_JSON_FAULT:
        return "the text is not JSON or not UTF-8, or has half a surrogate pair";
    case CIDHOMBA_KEY_REPEATED:
        return "a key is repeated in one object";
    case CIDHOMBA_NUMBER_FORM:
        return "a number is no count, and has an exponent or over 15 digits";
    case CIDHOMBA_KEY_LIST:
        return "the key list has over 56 lines, a line that is empty or has over 64 bytes, or two equal lines";
    default:
        return "an unknown number";
    }
}

/* Whether bytes are a sound set, in any form. Value: 0. Refuses: set. */
uint64_t cidhomba_check_automaton(const uint8_t *set, size_t set_length);

/* Whether rows are a sound table over the set's symbols. Value: 0. Refuses: set, table. */
uint64_t cidhomba_check_document(const uint8_t *set, size_t set_length,
                                 const uint16_t *rows, size_t rows_length);

/* Whether steps are a run that shows that the set lets the document in. Value: 0. Refuses: set, table, run. A step's
 * memory has for each tag the row that it went to below, if any: the memories of the child steps joined, without the tags
 * that the rule forgets, and with those of its target going to the step's row. */
uint64_t cidhomba_check_run(const uint8_t *set, size_t set_length,
                            const uint16_t *rows, size_t rows_length,
                            const uint16_t *run, size_t run_length);

/* Judges whether the set lets the document in. Value: 0 for no; for yes the number of steps of a run that shows
 * it, written to the front of run. Refuses: set, table, 32, 31.
 * The room is work_length / 32, at most 4,096; the run space must hold as many steps of six cells. The work space
 * must hold values, and zeros will do: of each 32 cells the one with number 24 may be read before it is written.
 * Neither the answer nor what is promised of the run depends on them. The work space is all zeros afterwards, but
 * untouched where set, table or 32 refuse. A no leaves the run space as it was.
 * No number refuses for time: the question is NP-complete, and a set may make it hard. */
uint64_t cidhomba_membership(const uint8_t *set, size_t set_length,
                             const uint16_t *rows, size_t rows_length,
                             uint16_t *work, size_t work_length,
                             uint16_t *run, size_t run_length);

/* The set that lets in what either set does: the states, tags and rules of both, one after the other. It is in the
 * isolating form if either set has rules of 14 bytes, and else in the wide one. Value: the bytes written to the front of
 * out. Refuses: first set, second set, 51, 52, 53. CIDHOMBA_MAX_SET_BYTES hold every result. */
uint64_t cidhomba_union(const uint8_t *first, size_t first_length,
                        const uint8_t *second, size_t second_length,
                        uint8_t *out, size_t out_length);

/* The set that lets in what both sets do: a state for each pair of states, a rule for each pair of rules with one
 * symbol, which forgets what either of the two forgets, and the tags of both. Form, value and refusals are as for the
 * union. A tag of one set stands on a state for each state of the other, so that cidhomba_witness refuses a product with
 * 41, but where the other set has one state alone or no state carries the tag. */
uint64_t cidhomba_product(const uint8_t *first, size_t first_length,
                          const uint8_t *second, size_t second_length,
                          uint8_t *out, size_t out_length);

/* A narrow set in the wide form, which lets in the same documents. Value: the bytes written to the front of out, those of
 * the set and one more for each state. Refuses: set, 18, 53. */
uint64_t cidhomba_widen_states(const uint8_t *set, size_t set_length,
                               uint8_t *out, size_t out_length);

/* A wide set in the narrow form, which lets in the same documents. Value: the bytes written to the front of out, one fewer
 * for each state than the set has. Refuses: set, 18, 8, 53. A set with rules of 14 bytes is 18, whether or not they forget
 * anything. It is the number of tags that 8 looks at, whether or not a state carries them. A set that is widened and
 * narrowed again, or narrowed and widened again, has the same bytes. */
uint64_t cidhomba_narrow_states(const uint8_t *set, size_t set_length,
                                uint8_t *out, size_t out_length);

/* A wide set in the isolating form, with nothing forgotten, which lets in the same documents. Value: the bytes written to
 * the front of out, those of the set and two more for each rule. Refuses: set, 18, 53. A wide set without rules is in both
 * forms: both moves of rules take it, and write it as it is. */
uint64_t cidhomba_widen_rules(const uint8_t *set, size_t set_length,
                              uint8_t *out, size_t out_length);

/* An isolating set that forgets nothing, in the wide form, which lets in the same documents. Value: the bytes written to
 * the front of out, two fewer for each rule than the set has. Refuses: set, 18, 10, 53. A rule that names a tag to forget
 * is 10, whether or not that has an effect. A set whose rules are widened and narrowed again, or narrowed and widened
 * again, has the same bytes. */
uint64_t cidhomba_narrow_rules(const uint8_t *set, size_t set_length,
                               uint8_t *out, size_t out_length);

/* Whether the set lets in anything. Value: 0 for dead; for live the number of rows + 65536 * the levels of a
 * document that it lets in, none being lower, written to the front of rows. Refuses: set, 42, 41. What rules forget
 * changes nothing here. */
uint64_t cidhomba_witness(const uint8_t *set, size_t set_length,
                          uint16_t *rows, size_t rows_length);

/* Reads term text into rows. Value: the rows written to the front of rows. Refuses: set, names, text.
 * Names come from two lists, line i for symbol i: the site's, else the built-in one's, else `s` and the number.
 * Spaces and bytes 13 at the end of a line are no part of it, so that a list with line ends of Windows, bytes 13 and
 * 10, serves as it is. A list of length 0 has no lines. Space for 1,024 rows serves every text. The rate
 * ~8000000000000000, which is -0.0, is read as 0.0: the two zeros count as one rate. */
uint64_t cidhomba_read_term(const uint8_t *set, size_t set_length,
                            const uint8_t *site, size_t site_length,
                            const uint8_t *built_in, size_t built_in_length,
                            const uint8_t *text, size_t text_length,
                            uint16_t *rows, size_t rows_length);

/* Writes a table's tree as term text, without a byte 0 at its end. Value: the bytes written to the front of text.
 * Refuses: set, names, table, 68. Reading the text gives a table of the same tree, with rows numbered by first finishing
 * from the left, so the same rows where they are in that order already. */
uint64_t cidhomba_write_term(const uint8_t *set, size_t set_length,
                             const uint8_t *site, size_t site_length,
                             const uint8_t *built_in, size_t built_in_length,
                             const uint16_t *rows, size_t rows_length,
                             uint8_t *text, size_t text_length);

/* Reads JSON into rows. Value: the rows written to the front of rows. Refuses: 74, then in the text 64, 67, 71, 72, 73.
 * The symbols are those of the list of keys: end 0, stop 1, other 2, item 3, null 4, flag 5, number 6, text 7, and 8 + i
 * for line i, with 0, 0, 3, 2, 0, 0, 0, 0 and 2 children; a set that judges the rows must have them. A member with a
 * listed key has its value and the rest of the object as children, one with another key its key's text before these; an
 * element has its value and the rest of the array. Texts are numbered by first appearance, so that within one document
 * equal numbers mean equal texts. A list of length 0 has no keys. Space for 1,024 rows serves every text. */
uint64_t cidhomba_read_json(const uint8_t *keys, size_t keys_length,
                            const uint8_t *text, size_t text_length,
                            uint16_t *rows, size_t rows_length);

#ifdef __cplusplus
}
#endif

#endif
