/* records: parses records of texts by one call, and each of them by a call of its own, whose answers have to agree.
 * Prints the number of tests, and ends with 1 if one failed. */
#include "peg.h"

#include <stdio.h>
#include <string.h>

static int tests, failures;

#define CHECK(fact)                                                                                                    \
    do {                                                                                                               \
        tests++;                                                                                                       \
        if (!(fact)) {                                                                                                 \
            failures++;                                                                                                \
            printf("%s:%d: %s\n", __FILE__, __LINE__, #fact);                                                          \
        }                                                                                                              \
    } while (0)

enum { MOST = 16 };

/* A line of fields, whose nodes are made. Rule 0 is Line, and rule 1 is Field. */
static const char FILE_OF_LINES[] = "Line <- Field (',' Field)* !.\nField <- Letter+\nLetter <- [a-z]";

/* The outputs of a call, which are 9 before it. */
typedef struct outputs {
    peg_record records[MOST];
    peg_node nodes[MOST];
    peg_progress progress;
} outputs;

static const uint8_t *bytes(const char *text) {
    return (const uint8_t *)text;
}

static peg_parser parser_of_fields(void) {
    const uint8_t shown[] = {0, 1, 0};
    peg_parser parser = PEG_NULL;
    CHECK(peg_parser_read(bytes(FILE_OF_LINES), strlen(FILE_OF_LINES), shown, sizeof shown, &parser) == PEG_OK);
    return parser;
}

/* The outputs before a call for records with these spans. */
static outputs before(const uint32_t (*spans)[2], size_t count) {
    outputs out;
    for (size_t i = 0; i < MOST; i++) {
        out.records[i] = (peg_record){9, 9, 9, 9, 9, 9, 9};
        out.nodes[i] = (peg_node){9, 9, 9, 9, 9};
    }
    for (size_t i = 0; i < count; i++) {
        out.records[i].start = spans[i][0];
        out.records[i].end = spans[i][1];
    }
    out.progress = (peg_progress){9, 9, 9};
    return out;
}

/* The same without a memo, so that the steps are those of the grammar as it is written. */
static uint32_t parse(peg_parser *parser, const char *text, const char *start, uint64_t steps, size_t count,
                      size_t room, outputs *out) {
    return peg_parser_records(parser, bytes(text), strlen(text), bytes(start), strlen(start), 0, steps, out->records,
                              count, out->nodes, room, &out->progress);
}

static int is_progress(const outputs *out, uint64_t records, uint64_t nodes, uint64_t wanted) {
    return out->progress.records == records && out->progress.nodes == nodes && out->progress.wanted == wanted;
}

static int is_record(const peg_record *record, uint32_t status, uint32_t consumed, uint32_t furthest, uint32_t first,
                     uint32_t nodes) {
    return record->status == status && record->consumed == consumed && record->furthest == furthest &&
           record->first == first && record->nodes == nodes;
}

static int is_node(const peg_node *node, uint32_t rule, uint32_t start, uint32_t end, uint32_t level, uint64_t size) {
    return node->rule == rule && node->start == start && node->end == end && node->level == level &&
           node->size == size;
}

/* Whether the outputs from these numbers on are as they were. */
static int are_others_unchanged(const outputs *out, size_t records, size_t nodes) {
    for (size_t i = records; i < MOST; i++) {
        if (!is_record(&out->records[i], 9, 9, 9, 9, 9)) {
            return 0;
        }
    }
    for (size_t i = nodes; i < MOST; i++) {
        if (!is_node(&out->nodes[i], 9, 9, 9, 9, 9)) {
            return 0;
        }
    }
    return 1;
}

/* Whether a record has the answer of a call of its own. */
static int agrees(peg_parser *parser, const char *text, uint64_t steps, const outputs *out, size_t number) {
    const peg_record *record = &out->records[number];
    peg_match match = PEG_NULL;
    peg_summary summary = {0};
    peg_node nodes[MOST] = {{0, 0, 0, 0, 0}};
    uint32_t status = peg_parser_parse(parser, bytes(text) + record->start, record->end - record->start, bytes(""), 0,
                                       0, steps, &match);
    peg_match_summary(&match, &summary);
    peg_match_nodes(&match, 0, nodes, MOST);
    peg_match_free(&match);
    return record->status == status && record->consumed == summary.consumed && record->furthest == summary.furthest &&
           record->nodes == summary.nodes && record->first + record->nodes <= out->progress.nodes &&
           memcmp(nodes, out->nodes + record->first, record->nodes * sizeof *nodes) == 0;
}

static void records_have_their_answers(void) {
    peg_parser parser = parser_of_fields();
    /* Three lines, of which the second has no letter after its comma, and the last has no end. */
    const char *text = "ab,c\nd,1\ne";
    const uint32_t spans[][2] = {{0, 4}, {5, 8}, {9, 10}};
    outputs out = before(spans, 3);
    CHECK(parse(&parser, text, "", 0, 3, MOST, &out) == PEG_OK);
    CHECK(is_progress(&out, 3, 5, 0));
    CHECK(is_record(&out.records[0], PEG_OK, 4, 4, 0, 3));
    CHECK(is_record(&out.records[1], PEG_FAILED, 0, 2, 3, 0));
    CHECK(is_record(&out.records[2], PEG_OK, 1, 1, 3, 2));
    CHECK(out.records[1].start == 5 && out.records[1].end == 8);
    CHECK(is_node(&out.nodes[0], 0, 0, 4, 1, 3));
    CHECK(is_node(&out.nodes[1], 1, 0, 2, 2, 1));
    CHECK(is_node(&out.nodes[2], 1, 3, 4, 2, 1));
    CHECK(is_node(&out.nodes[3], 0, 0, 1, 1, 2));
    CHECK(is_node(&out.nodes[4], 1, 0, 1, 2, 1));
    CHECK(are_others_unchanged(&out, 3, 5));
    for (size_t i = 0; i < 3; i++) {
        CHECK(agrees(&parser, text, 0, &out, i));
    }
    peg_parser_free(&parser);
}

static void no_records_and_empty_records_are_allowed(void) {
    peg_parser parser = parser_of_fields();
    outputs out = before(NULL, 0);
    CHECK(parse(&parser, "", "", 0, 0, 0, &out) == PEG_OK);
    CHECK(is_progress(&out, 0, 0, 0) && are_others_unchanged(&out, 0, 0));
    /* An empty record in the middle, one at the end, and CR LF after "a". */
    const uint32_t spans[][2] = {{0, 2}, {1, 1}, {3, 3}};
    out = before(spans, 3);
    CHECK(parse(&parser, "a\r\n", "", 0, 3, MOST, &out) == PEG_OK);
    CHECK(is_progress(&out, 3, 0, 0));
    CHECK(is_record(&out.records[0], PEG_FAILED, 0, 1, 0, 0));
    CHECK(is_record(&out.records[1], PEG_FAILED, 0, 0, 0, 0));
    CHECK(is_record(&out.records[2], PEG_FAILED, 0, 0, 0, 0));
    CHECK(parse(&parser, "a\r\n", "Field", 0, 1, MOST, &out) == PEG_OK);
    CHECK(is_record(&out.records[0], PEG_OK, 1, 1, 0, 1) && is_node(&out.nodes[0], 1, 0, 1, 1, 1));
    peg_parser_free(&parser);
}

static void refused_records_do_not_stop_the_call(void) {
    peg_parser parser = parser_of_fields();
    /* The first record is over the limit of steps. Two spans aren't in the text. Spans may overlap. */
    const uint32_t spans[][2] = {{0, 40}, {41, 40}, {0, 43}, {41, 42}, {41, 42}};
    const char *text = "aaaaaaaaaaaaaaaaaaaaaaaaaaaaaaaaaaaaaaaa\nb";
    outputs out = before(spans, 5);
    CHECK(parse(&parser, text, "", 60, 5, MOST, &out) == PEG_OK);
    CHECK(is_progress(&out, 5, 4, 0));
    CHECK(is_record(&out.records[0], PEG_STEP_LIMIT, 0, 0, 0, 0));
    CHECK(is_record(&out.records[1], PEG_OUT_OF_RANGE, 0, 0, 0, 0));
    CHECK(is_record(&out.records[2], PEG_OUT_OF_RANGE, 0, 0, 0, 0));
    CHECK(is_record(&out.records[3], PEG_OK, 1, 1, 0, 2));
    CHECK(is_record(&out.records[4], PEG_OK, 1, 1, 2, 2));
    CHECK(agrees(&parser, text, 60, &out, 0) && agrees(&parser, text, 60, &out, 4));
    peg_parser_free(&parser);
}

static void a_call_stops_before_nodes_that_do_not_fit(void) {
    peg_parser parser = parser_of_fields();
    const char *text = "a,b\nc,d,e\nf";
    const uint32_t spans[][2] = {{0, 3}, {4, 9}, {10, 11}};
    outputs out = before(spans, 3);
    CHECK(parse(&parser, text, "", 0, 3, 0, &out) == PEG_OK);
    CHECK(is_progress(&out, 0, 0, 3) && are_others_unchanged(&out, 0, 0));
    CHECK(parse(&parser, text, "", 0, 3, 6, &out) == PEG_OK);
    CHECK(is_progress(&out, 1, 3, 4) && are_others_unchanged(&out, 1, 3));
    CHECK(is_record(&out.records[0], PEG_OK, 3, 3, 0, 3) && out.records[1].start == 4 && out.records[1].end == 9);
    CHECK(parse(&parser, text, "", 0, 3, 7, &out) == PEG_OK);
    CHECK(is_progress(&out, 2, 7, 2) && are_others_unchanged(&out, 2, 7));
    CHECK(parse(&parser, text, "", 0, 3, 9, &out) == PEG_OK);
    CHECK(is_progress(&out, 3, 9, 0) && is_record(&out.records[2], PEG_OK, 1, 1, 7, 2));
    peg_parser_free(&parser);
}

static void a_call_that_fails_changes_nothing(void) {
    peg_parser parser = PEG_NULL;
    peg_grammar grammar = PEG_NULL;
    const uint32_t spans[][2] = {{0, 1}};
    outputs out = before(spans, 1);
    CHECK(parse(&parser, "a", "", 0, 1, MOST, &out) == PEG_WRONG_HANDLE);
    CHECK(peg_grammar_read(bytes(FILE_OF_LINES), strlen(FILE_OF_LINES), &grammar) == PEG_OK);
    CHECK(parse((peg_parser *)&grammar, "a", "", 0, 1, MOST, &out) == PEG_WRONG_HANDLE);
    peg_grammar_free(&grammar);
    parser = parser_of_fields();
    CHECK(parse(&parser, "a", "Other", 0, 1, MOST, &out) == PEG_NO_SUCH_START);
    CHECK(parse(&parser, "a", "Other", 0, 0, MOST, &out) == PEG_NO_SUCH_START);
    CHECK(is_progress(&out, 9, 9, 9) && are_others_unchanged(&out, 0, 0));
    CHECK(out.records[0].start == 0 && out.records[0].end == 1);
    peg_parser_free(&parser);
}

int main(void) {
    records_have_their_answers();
    no_records_and_empty_records_are_allowed();
    refused_records_do_not_stop_the_call();
    a_call_stops_before_nodes_that_do_not_fit();
    a_call_that_fails_changes_nothing();
    printf("records: %d tests, %d failed\n", tests, failures);
    return failures != 0;
}
