/* What the header says, printed line by line for header.rs: the version, the sizes, the words of refusals, calls with
 * NULL, and results in spaces that were never written. It compiles as C and as C++. */
#include "cidhomba.h"

#include <inttypes.h>
#include <stdio.h>
#include <stdlib.h>

#define LENGTH(array) (sizeof(array) / sizeof((array)[0]))
#define U CIDHOMBA_UNUSED

/* Set E (docs/FORMATS.md), with the document pair(a=7,a=7) as rows, as a run and as text. */
static uint8_t set[] = {
    3, 0, 2, 0, 1, 0, 3, 0, 16, 0, 19, 0, 23, 0, 59, 0,
    2, 0, 0,
    0, 1, 1, 0,
    0, 0, 1, 0, 0, 0, 0, 0, 255, 255, 255, 255,
    1, 0, 0, 0, 255, 255, 255, 255, 255, 255, 255, 255,
    2, 0, 0, 0, 255, 255, 255, 255, 255, 255, 255, 255,
};
/* The same in the wide form. */
static uint8_t wide[] = {
    3, 0, 2, 0, 1, 0, 3, 0, 16, 0, 19, 0, 25, 0, 61, 0,
    2, 0, 0,
    0, 1, 0, 1, 0, 0,
    0, 0, 1, 0, 0, 0, 0, 0, 255, 255, 255, 255,
    1, 0, 0, 0, 255, 255, 255, 255, 255, 255, 255, 255,
    2, 0, 0, 0, 255, 255, 255, 255, 255, 255, 255, 255,
};
/* And with rules of 14 bytes, which forget nothing. */
static uint8_t isolating[] = {
    3, 0, 2, 0, 1, 0, 3, 0, 16, 0, 19, 0, 25, 0, 67, 0,
    2, 0, 0,
    0, 1, 0, 1, 0, 0,
    0, 0, 1, 0, 0, 0, 0, 0, 255, 255, 255, 255, 0, 0,
    1, 0, 0, 0, 255, 255, 255, 255, 255, 255, 255, 255, 0, 0,
    2, 0, 0, 0, 255, 255, 255, 255, 255, 255, 255, 255, 0, 0,
};
static uint16_t rows[] = {
    1, U, U, U, U, 2, 7, 0, 0, 0,
    0, 0, 0, U, U, 0, 0, 0, 0, 0,
};
static uint16_t run[] = {1, 0, U, U, U, U, 0, 1, 0, 0, U, U};
static uint8_t names[] = {'p', 'a', 'i', 'r', '\n', 'a', '\n', 'b'};
static uint8_t text[] = {'p', 'a', 'i', 'r', '(', 'a', '=', '7', ',', 'a', '=', '7', ')'};

/* A list of one key, and JSON that has it. */
static uint8_t keys[] = {'k'};
static uint8_t json[] = {'{', '"', 'k', '"', ':', '1', '}'};

/* Spaces that hold a result of E. */
static uint8_t out[CIDHOMBA_MAX_SET_BYTES];
static uint16_t row_space[CIDHOMBA_WITNESS_CELLS];
static uint16_t work_space[2 * CIDHOMBA_ANNOTATION_CELLS];
static uint16_t run_space[2 * CIDHOMBA_STEP_CELLS];
static uint8_t text_space[64];

/* A slice that is lent: where it is, and its count of elements. */
struct slice {
    void *at;
    size_t count;
};

/* Both of a slice, as a call takes them. */
#define BYTES(slice) (uint8_t *)(slice).at, (slice).count
#define CELLS(slice) (uint16_t *)(slice).at, (slice).count

static uint64_t check_automaton(const struct slice *lent)
{
    return cidhomba_check_automaton(BYTES(lent[0]));
}

static uint64_t check_document(const struct slice *lent)
{
    return cidhomba_check_document(BYTES(lent[0]), CELLS(lent[1]));
}

static uint64_t check_run(const struct slice *lent)
{
    return cidhomba_check_run(BYTES(lent[0]), CELLS(lent[1]), CELLS(lent[2]));
}

static uint64_t membership(const struct slice *lent)
{
    return cidhomba_membership(BYTES(lent[0]), CELLS(lent[1]), CELLS(lent[2]), CELLS(lent[3]));
}

/* `union` is a word of C. */
static uint64_t either(const struct slice *lent)
{
    return cidhomba_union(BYTES(lent[0]), BYTES(lent[1]), BYTES(lent[2]));
}

static uint64_t product(const struct slice *lent)
{
    return cidhomba_product(BYTES(lent[0]), BYTES(lent[1]), BYTES(lent[2]));
}

static uint64_t widen_states(const struct slice *lent)
{
    return cidhomba_widen_states(BYTES(lent[0]), BYTES(lent[1]));
}

static uint64_t narrow_states(const struct slice *lent)
{
    return cidhomba_narrow_states(BYTES(lent[0]), BYTES(lent[1]));
}

static uint64_t widen_rules(const struct slice *lent)
{
    return cidhomba_widen_rules(BYTES(lent[0]), BYTES(lent[1]));
}

static uint64_t narrow_rules(const struct slice *lent)
{
    return cidhomba_narrow_rules(BYTES(lent[0]), BYTES(lent[1]));
}

static uint64_t witness(const struct slice *lent)
{
    return cidhomba_witness(BYTES(lent[0]), CELLS(lent[1]));
}

static uint64_t read_term(const struct slice *lent)
{
    return cidhomba_read_term(BYTES(lent[0]), BYTES(lent[1]), BYTES(lent[2]), BYTES(lent[3]), CELLS(lent[4]));
}

static uint64_t write_term(const struct slice *lent)
{
    return cidhomba_write_term(BYTES(lent[0]), BYTES(lent[1]), BYTES(lent[2]), CELLS(lent[3]), BYTES(lent[4]));
}

static uint64_t read_json(const struct slice *lent)
{
    return cidhomba_read_json(BYTES(lent[0]), BYTES(lent[1]), CELLS(lent[2]));
}

#define MOST_SLICES 5

/* A function, and slices with which it answers a value. */
struct call {
    const char *name;
    uint64_t (*function)(const struct slice *);
    size_t slices;
    struct slice lent[MOST_SLICES];
};

#define LENT(array) {array, LENGTH(array)}
/* A name list of which nothing is lent, though it is there. */
#define NO_NAMES {names, 0}

static const struct call calls[] = {
    {"check_automaton", check_automaton, 1, {LENT(set)}},
    {"check_document", check_document, 2, {LENT(set), LENT(rows)}},
    {"check_run", check_run, 3, {LENT(set), LENT(rows), LENT(run)}},
    {"membership", membership, 4, {LENT(set), LENT(rows), LENT(work_space), LENT(run_space)}},
    {"union", either, 3, {LENT(set), LENT(set), LENT(out)}},
    {"product", product, 3, {LENT(set), LENT(set), LENT(out)}},
    {"widen_states", widen_states, 2, {LENT(set), LENT(out)}},
    {"narrow_states", narrow_states, 2, {LENT(wide), LENT(out)}},
    {"widen_rules", widen_rules, 2, {LENT(wide), LENT(out)}},
    {"narrow_rules", narrow_rules, 2, {LENT(isolating), LENT(out)}},
    {"witness", witness, 2, {LENT(set), LENT(row_space)}},
    {"read_term", read_term, 5, {LENT(set), LENT(names), NO_NAMES, LENT(text), LENT(row_space)}},
    {"write_term", write_term, 5, {LENT(set), LENT(names), NO_NAMES, LENT(rows), LENT(text_space)}},
    {"read_json", read_json, 3, {LENT(keys), LENT(json), LENT(row_space)}},
};

/* Prints the answers to a call with the count 0 for the slices from first to last: with pointers, and with NULL. */
static void told_without(const struct call *call, size_t first, size_t last)
{
    struct slice lent[MOST_SLICES];
    uint64_t with_pointers;
    size_t i;
    for (i = 0; i < call->slices; i++) {
        lent[i] = call->lent[i];
        if (first <= i && i <= last) {
            lent[i].count = 0;
        }
    }
    with_pointers = call->function(lent);
    for (i = first; i <= last; i++) {
        lent[i].at = NULL;
    }
    printf("without %s %u %u: %" PRIu64 " %" PRIu64 "\n", call->name, (unsigned)first, (unsigned)last, with_pointers,
           call->function(lent));
}

/* Each slice alone, and all at once. */
static void told_nulls(const struct call *call)
{
    size_t i;
    printf("whole %s: %" PRIu64 "\n", call->name, call->function(call->lent));
    for (i = 0; i < call->slices; i++) {
        told_without(call, i, i);
    }
    told_without(call, 0, call->slices - 1);
}

/* A space of the heap that was never written, for so many elements. */
static struct slice unwritten(size_t count, size_t width)
{
    struct slice space = {NULL, count};
    space.at = malloc(count * width);
    return space;
}

/* Prints a result that fills its space, and gives the space back. */
static void told_result(const char *name, uint64_t answer, struct slice space, size_t width)
{
    const uint8_t *at = (const uint8_t *)space.at;
    size_t i;
    printf("result %s: %" PRIu64 " ", name, answer);
    for (i = 0; i < space.count * width; i++) {
        printf("%02x", at[i]);
    }
    printf("\n");
    free(space.at);
}

/* Calls whose last slice is a result space, with one that was never written and has just the length of the result. */
static void told_results(void)
{
    /* The number of the call above, elements of its result, and bytes of an element. */
    static const struct {
        size_t call, count, width;
    } results[] = {{3, 12, 2}, {4, 103, 1}, {5, 67, 1}, {6, 61, 1}, {7, 59, 1}, {8, 67, 1},
                   {9, 61, 1}, {10, 20, 2}, {11, 20, 2}, {12, 13, 1}, {13, 30, 2}};
    size_t i;
    for (i = 0; i < LENGTH(results); i++) {
        struct call call = calls[results[i].call];
        struct slice space = unwritten(results[i].count, results[i].width);
        call.lent[call.slices - 1] = space;
        told_result(call.name, call.function(call.lent), space, results[i].width);
    }
}

int main(void)
{
    unsigned number;
    size_t i;
    printf("version: %s\n", CIDHOMBA_VERSION);
    printf("parts: %d.%d.%d\n", CIDHOMBA_VERSION_MAJOR, CIDHOMBA_VERSION_MINOR, CIDHOMBA_VERSION_PATCH);
    printf("sizes: %d %d %d %d %d %d\n", CIDHOMBA_WORK_CELLS, CIDHOMBA_RUN_CELLS, CIDHOMBA_TABLE_CELLS,
           CIDHOMBA_WITNESS_CELLS, CIDHOMBA_MAX_SET_BYTES, CIDHOMBA_TEXT_BYTES);
    for (number = 0; number < 256; number++) {
        printf("%u: %s\n", number, cidhomba_refusal_text(number));
    }
    for (i = 0; i < LENGTH(calls); i++) {
        told_nulls(&calls[i]);
    }
    told_results();
    return 0;
}
