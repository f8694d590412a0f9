/* misuse: calls on null handles and on handles that hold something else, empty buffers, and repeated use of a handle.
 * Prints the number of tests, and ends with 1 if one failed. */
#include "peg.h"

#include <stdio.h>
#include <string.h>

static int tests, failures;

#define CHECK(fact)                                                                                                    \
    do {                                                                                                               \
        tests++;                                                                                                       \
        if (!(fact)) {                                                                                                 \
            failures++;                                                                                                \
            printf("%s:%d: %s\n", __FILE__, __LINE__, #fact);                                                          \
        }                                                                                                              \
    } while (0)

static const uint8_t *bytes(const char *text) {
    return (const uint8_t *)text;
}

static uint32_t read_grammar(const char *file, peg_grammar *out) {
    return peg_grammar_read(bytes(file), strlen(file), out);
}

static uint32_t parse(peg_grammar *grammar, const char *text, const char *start, uint64_t steps, peg_match *out) {
    return peg_parse(grammar, bytes(text), strlen(text), bytes(start), strlen(start), PEG_DEFAULT_MEMO, steps, out);
}

static uint32_t explain(peg_grammar *grammar, const char *text, const char *start, uint64_t steps,
                        peg_explanation *out) {
    return peg_explain(grammar, bytes("t"), 1, bytes(text), strlen(text), bytes(start), strlen(start), PEG_DEFAULT_MEMO,
                       steps, out);
}

static void null_handles_give_nothing(void) {
    peg_grammar grammar = PEG_NULL, other_grammar = PEG_NULL;
    peg_match match = PEG_NULL, other_match = PEG_NULL;
    peg_refusal_info info = {9, 9, 9, 9, 9};
    peg_summary summary = {9, 9, 9, 9, 9, 9};
    peg_node node = {9, 9, 9, 9, 9};
    peg_span span = {9, 9};
    uint8_t byte = 9;
    uint32_t count = 9;
    CHECK(parse(&grammar, "a", "", 0, &match) == PEG_WRONG_HANDLE);
    CHECK(match.opaque == NULL);
    CHECK(peg_grammar_share(&grammar, &other_grammar) == PEG_WRONG_HANDLE && other_grammar.opaque == NULL);
    CHECK(peg_match_share(&match, &other_match) == PEG_WRONG_HANDLE && other_match.opaque == NULL);
    CHECK(peg_rule_count(&grammar, &count) == PEG_WRONG_HANDLE && count == 9);
    CHECK(peg_rule_name(&grammar, 0, &byte, 1) == 0 && byte == 9);
    CHECK(peg_grammar_refusal(&grammar, &byte, 1) == 0 && byte == 9);
    CHECK(peg_grammar_message(&grammar, &byte, 1) == 0 && byte == 9);
    CHECK(peg_grammar_refusal_info(&grammar, &info) == PEG_WRONG_HANDLE && info.kind == 9);
    CHECK(peg_match_summary(&match, &summary) == PEG_WRONG_HANDLE && summary.steps == 9);
    CHECK(peg_match_nodes(&match, 0, &node, 1) == 0 && node.size == 9);
    CHECK(peg_match_expected(&match, 0, &span, 1) == 0 && span.end == 9);
    peg_match_free(&match);
    peg_grammar_free(&grammar);
    CHECK(grammar.opaque == NULL && match.opaque == NULL);
}

static void null_explanations_give_nothing(void) {
    peg_grammar grammar = PEG_NULL;
    peg_explanation explanation = PEG_NULL, other = PEG_NULL;
    peg_mismatch mismatch = {9, 9, 9};
    peg_span span = {9, 9};
    uint8_t byte = 9;
    CHECK(explain(&grammar, "a", "", 0, &explanation) == PEG_WRONG_HANDLE && explanation.opaque == NULL);
    CHECK(peg_explanation_message(&explanation, &byte, 1) == 0 && byte == 9);
    CHECK(peg_explanation_mismatch(&explanation, &mismatch) == PEG_WRONG_HANDLE && mismatch.position == 9);
    CHECK(peg_explanation_expected(&explanation, 0, &span, 1) == 0 && span.end == 9);
    CHECK(peg_explanation_share(&explanation, &other) == PEG_WRONG_HANDLE && other.opaque == NULL);
    peg_explanation_free(&explanation);
    CHECK(explanation.opaque == NULL);
}

static uint32_t explain_by(peg_explainer *explainer, const char *text, const char *start, uint64_t steps,
                           peg_explanation *out) {
    return peg_explainer_explain(explainer, bytes("t"), 1, bytes(text), strlen(text), bytes(start), strlen(start),
                                 PEG_DEFAULT_MEMO, steps, out);
}

/* A call on an explainer has the status of the call on a grammar. */
static void explainers_have_the_statuses_of_grammars(void) {
    peg_explainer explainer = PEG_NULL, other = PEG_NULL;
    peg_grammar grammar = PEG_NULL;
    peg_explanation explanation = PEG_NULL;
    uint8_t message[100] = {0};
    CHECK(explain_by(&explainer, "a", "", 0, &explanation) == PEG_WRONG_HANDLE && explanation.opaque == NULL);
    CHECK(peg_explainer_share(&explainer, &other) == PEG_WRONG_HANDLE && other.opaque == NULL);
    CHECK(peg_explainer_read(bytes("S <- T"), 6, &explainer) == PEG_REFUSED && explainer.opaque == NULL);
    CHECK(peg_explainer_read(bytes("S <- 'a' 'b'"), 12, &explainer) == PEG_OK);
    CHECK(explain_by((peg_explainer *)&grammar, "a", "", 0, &explanation) == PEG_WRONG_HANDLE);
    CHECK(explain((peg_grammar *)&explainer, "a", "", 0, &explanation) == PEG_WRONG_HANDLE);
    CHECK(explain_by(&explainer, "ab", "", 0, &explanation) == PEG_OK && explanation.opaque == NULL);
    CHECK(explain_by(&explainer, "ab", "T", 0, &explanation) == PEG_NO_SUCH_START && explanation.opaque == NULL);
    CHECK(explain_by(&explainer, "ab", "", 1, &explanation) == PEG_STEP_LIMIT && explanation.opaque == NULL);
    CHECK(explain_by(&explainer, "ac", "S", 0, &explanation) == PEG_FAILED);
    const char *expected = "t:1:2: expected 'b', found 'c'\nac\n ^\n";
    size_t length = peg_explanation_message(&explanation, message, sizeof message);
    CHECK(length == strlen(expected) && strcmp((char *)message, expected) == 0);
    peg_explanation_free(&explanation);
    peg_explainer_free(&explainer);
    CHECK(explainer.opaque == NULL);
}

/* A handle keeps what it holds when a handle that shares it is freed or gets something else. */
static void shared_handles_are_independent(void) {
    peg_grammar grammar = PEG_NULL, other = PEG_NULL;
    peg_match match = PEG_NULL, other_match = PEG_NULL;
    peg_summary summary = {9, 9, 9, 9, 9, 9};
    CHECK(read_grammar("S <- 'a'+", &grammar) == PEG_OK);
    CHECK(peg_grammar_share(&grammar, &other) == PEG_OK && other.opaque != NULL && other.opaque != grammar.opaque);
    CHECK(peg_grammar_share(&grammar, &other) == PEG_OK);
    CHECK(read_grammar("S <- 'b'", &grammar) == PEG_OK);
    CHECK(parse(&grammar, "aa", "", 0, &match) == PEG_FAILED && parse(&other, "aa", "", 0, &match) == PEG_OK);
    CHECK(peg_match_share(&match, &other_match) == PEG_OK);
    peg_match_free(&match);
    CHECK(peg_match_summary(&other_match, &summary) == PEG_OK && summary.consumed == 2);
    peg_grammar_free(&grammar);
    CHECK(parse(&other, "aaa", "", 0, &match) == PEG_OK);
    CHECK(peg_match_summary(&match, &summary) == PEG_OK && summary.consumed == 3);
    CHECK(peg_match_summary(&other_match, &summary) == PEG_OK && summary.consumed == 2);
    peg_match_free(&match);
    peg_match_free(&other_match);
    peg_grammar_free(&other);
}

/* The types of handles have one form, so a cast can exchange them. */
static void other_handles_are_reported(void) {
    peg_grammar grammar = PEG_NULL;
    peg_match match = PEG_NULL, other = PEG_NULL;
    peg_refusal_info info = {9, 9, 9, 9, 9};
    peg_summary summary = {9, 9, 9, 9, 9, 9};
    peg_node node = {9, 9, 9, 9, 9};
    uint8_t byte = 9;
    uint32_t count = 9;
    CHECK(read_grammar("S <- 'a'", &grammar) == PEG_OK);
    CHECK(parse(&grammar, "a", "", 0, &match) == PEG_OK);
    CHECK(parse((peg_grammar *)&match, "a", "", 0, &other) == PEG_WRONG_HANDLE);
    CHECK(match.opaque != NULL && other.opaque == NULL);
    CHECK(peg_match_summary((peg_match *)&grammar, &summary) == PEG_WRONG_HANDLE && summary.nodes == 9);
    CHECK(peg_match_nodes((peg_match *)&grammar, 0, &node, 1) == 0 && node.size == 9);
    CHECK(peg_grammar_refusal(&grammar, &byte, 1) == 0 && byte == 9);
    CHECK(peg_grammar_message(&grammar, &byte, 1) == 0 && byte == 9);
    CHECK(peg_grammar_refusal_info(&grammar, &info) == PEG_WRONG_HANDLE && info.kind == 9);
    CHECK(peg_rule_count((peg_grammar *)&match, &count) == PEG_WRONG_HANDLE && count == 9);
    peg_match_free(&match);
    peg_grammar_free(&grammar);
}

static void refusals_have_their_place(void) {
    peg_grammar grammar = PEG_NULL;
    peg_match match = PEG_NULL;
    peg_refusal_info info = {9, 9, 9, 9, 9};
    uint8_t line[100] = {0};
    CHECK(read_grammar("A <- 'a'\nS <- B", &grammar) == PEG_REFUSED);
    CHECK(peg_grammar_refusal_info(&grammar, &info) == PEG_OK);
    CHECK(info.kind == PEG_UNDEFINED && info.start == 14 && info.end == 15 && info.line == 2 && info.column == 6);
    const char *expected = "{\"column\":6,\"end\":15,\"line\":2,\"name\":\"B\",\"refusal\":\"Undefined\",\"start\":14}";
    size_t length = peg_grammar_refusal(&grammar, line, sizeof line);
    CHECK(length == strlen(expected) && strcmp((char *)line, expected) == 0);
    uint8_t message[100] = {0};
    const char *said = ":2:6: the rule B is not defined\nS <- B\n     ^\n";
    length = peg_grammar_message(&grammar, message, sizeof message - 1);
    CHECK(length == strlen(said) && strcmp((char *)message, said) == 0);
    uint8_t start[6] = {0};
    CHECK(peg_grammar_message(&grammar, start, 5) == strlen(said) && strcmp((char *)start, ":2:6:") == 0);
    CHECK(parse(&grammar, "a", "", 0, &match) == PEG_WRONG_HANDLE);
    CHECK(read_grammar("S <- S", &grammar) == PEG_REFUSED);
    CHECK(peg_grammar_refusal_info(&grammar, &info) == PEG_OK);
    CHECK(info.kind == PEG_LEFT_RECURSION && info.line == 0 && info.column == 0);
    CHECK(read_grammar("", &grammar) == PEG_REFUSED);
    CHECK(read_grammar("S <- (", &grammar) == PEG_REFUSED);
    CHECK(peg_grammar_refusal_info(&grammar, &info) == PEG_OK && info.kind == PEG_SYNTAX && info.start == 6);
    peg_grammar_free(&grammar);
}

static void parses_have_their_statuses(void) {
    peg_grammar grammar = PEG_NULL;
    peg_match match = PEG_NULL;
    peg_summary summary = {9, 9, 9, 9, 9, 9};
    peg_node nodes[4] = {{9, 9, 9, 9, 9}, {9, 9, 9, 9, 9}, {9, 9, 9, 9, 9}, {9, 9, 9, 9, 9}};
    CHECK(read_grammar("S <- 'a' S / B\nB <- 'b'", &grammar) == PEG_OK);
    CHECK(parse(&grammar, "", "", 0, &match) == PEG_FAILED);
    CHECK(peg_match_summary(&match, &summary) == PEG_OK);
    CHECK(summary.matched == 0 && summary.consumed == 0 && summary.nodes == 0 && summary.expected == 2);
    CHECK(peg_match_nodes(&match, 0, nodes, 4) == 0 && nodes[0].size == 9);
    CHECK(parse(&grammar, "ab", "", 0, &match) == PEG_OK);
    CHECK(peg_match_summary(&match, &summary) == PEG_OK);
    CHECK(summary.matched == 1 && summary.consumed == 2 && summary.furthest == 1 && summary.nodes == 3);
    CHECK(peg_match_nodes(&match, 1, nodes, 4) == 2);
    CHECK(nodes[0].rule == 0 && nodes[0].start == 1 && nodes[0].end == 2 && nodes[0].level == 2 && nodes[0].size == 2);
    CHECK(nodes[1].rule == 1 && nodes[1].level == 3 && nodes[1].size == 1 && nodes[2].size == 9);
    CHECK(peg_match_nodes(&match, 0, nodes, 0) == 0 && peg_match_nodes(&match, 3, nodes, 4) == 0);
    CHECK(peg_match_nodes(&match, SIZE_MAX, nodes, 4) == 0);
    CHECK(parse(&grammar, "b", "B", 0, &match) == PEG_OK);
    CHECK(peg_match_summary(&match, &summary) == PEG_OK && summary.nodes == 1);
    void *before = match.opaque;
    CHECK(parse(&grammar, "b", "C", 0, &match) == PEG_NO_SUCH_START && match.opaque == before);
    CHECK(parse(&grammar, "b", "\xff", 0, &match) == PEG_NO_SUCH_START && match.opaque == before);
    CHECK(parse(&grammar, "aaaab", "", 2, &match) == PEG_STEP_LIMIT && match.opaque == before);
    peg_grammar_free(&grammar);
    CHECK(peg_match_nodes(&match, 0, nodes, 1) == 1 && nodes[0].rule == 1);
    peg_match_free(&match);
    peg_match_free(&match);
}

static void explanations_have_their_statuses(void) {
    peg_grammar grammar = PEG_NULL;
    peg_explanation explanation = PEG_NULL;
    peg_mismatch mismatch = {9, 9, 9};
    peg_span spans[3] = {{9, 9}, {9, 9}, {9, 9}};
    uint8_t message[60] = {0};
    peg_match match = PEG_NULL;
    CHECK(read_grammar("S <- !B [a-z] 'x'\nB <- 'b'", &grammar) == PEG_OK);
    CHECK(explain(&grammar, "ax", "", 0, &explanation) == PEG_OK && explanation.opaque == NULL);
    CHECK(explain(&grammar, "bx", "", 0, &explanation) == PEG_FAILED);
    CHECK(peg_explanation_mismatch(&explanation, &mismatch) == PEG_OK);
    CHECK(mismatch.position == 0 && mismatch.end_expected == 0 && mismatch.expected == 1);
    CHECK(peg_explanation_expected(&explanation, 0, spans, 3) == 1);
    CHECK(spans[0].start == 5 && spans[0].end == 7 && spans[1].end == 9);
    CHECK(peg_explanation_expected(&explanation, 1, spans, 3) == 0);
    const char *expected = "t:1:1: expected something other than B, found 'b'\nbx\n^\n";
    CHECK(peg_explanation_message(&explanation, message, sizeof message) == strlen(expected));
    CHECK(strcmp((char *)message, expected) == 0);
    CHECK(peg_explanation_message(&explanation, message, 1) == strlen(expected));
    CHECK(explain(&grammar, "axy", "", 0, &explanation) == PEG_FAILED);
    CHECK(peg_explanation_mismatch(&explanation, &mismatch) == PEG_OK);
    CHECK(mismatch.position == 2 && mismatch.end_expected == 1 && mismatch.expected == 0);
    void *before = explanation.opaque;
    CHECK(explain(&grammar, "b", "C", 0, &explanation) == PEG_NO_SUCH_START && explanation.opaque == before);
    CHECK(explain(&grammar, "b", "", 1, &explanation) == PEG_STEP_LIMIT && explanation.opaque == before);
    CHECK(explain(&grammar, "b", "B", 0, &explanation) == PEG_OK && explanation.opaque == before);
    CHECK(parse((peg_grammar *)&explanation, "a", "", 0, &match) == PEG_WRONG_HANDLE && match.opaque == NULL);
    CHECK(explain((peg_grammar *)&explanation, "a", "", 0, (peg_explanation *)&match) == PEG_WRONG_HANDLE);
    CHECK(peg_match_expected((peg_match *)&explanation, 0, spans, 3) == 0 && spans[0].end == 7);
    CHECK(peg_explanation_expected((peg_explanation *)&grammar, 0, spans, 3) == 0 && spans[0].end == 7);
    peg_grammar_free(&grammar);
    CHECK(peg_explanation_message(&explanation, message, sizeof message) > 0);
    peg_explanation_free(&explanation);
    peg_explanation_free(&explanation);
}

static void names_and_positions_fit_their_buffers(void) {
    peg_grammar grammar = PEG_NULL;
    peg_location place = {9, 9};
    uint8_t name[5] = "----";
    uint32_t count = 0;
    CHECK(read_grammar("Start <- End\nEnd <- 'b'", &grammar) == PEG_OK);
    CHECK(peg_rule_count(&grammar, &count) == PEG_OK && count == 2);
    CHECK(peg_rule_name(&grammar, 0, name, 2) == 5 && memcmp(name, "St--", 4) == 0);
    CHECK(peg_rule_name(&grammar, 1, name, 4) == 3 && memcmp(name, "End-", 4) == 0);
    CHECK(peg_rule_name(&grammar, 2, name, 4) == 0 && memcmp(name, "End-", 4) == 0);
    peg_grammar_free(&grammar);
    CHECK(peg_locate(bytes("a\r\nb"), 4, 3, &place) == PEG_OK && place.line == 2 && place.column == 1);
    CHECK(peg_locate(bytes("a\r\nb"), 4, 4, &place) == PEG_OK && place.line == 2 && place.column == 2);
    CHECK(peg_locate(bytes("a\r\nb"), 4, 5, &place) == PEG_OUT_OF_RANGE && place.column == 2);
    CHECK(peg_locate(bytes(""), 0, 0, &place) == PEG_OK && place.line == 1 && place.column == 1);
    CHECK(peg_locate(bytes(""), 0, SIZE_MAX, &place) == PEG_OUT_OF_RANGE);
    CHECK(peg_abi() == PEG_ABI);
    CHECK(peg_version(name, 4) == 5 && name[0] == '0' && name[1] == '.');
}

static uint32_t parse_shown(peg_parser *parser, const char *text, const char *start, uint64_t steps, peg_match *out) {
    return peg_parser_parse(parser, bytes(text), strlen(text), bytes(start), strlen(start), PEG_DEFAULT_MEMO, steps,
                            out);
}

/* The grammar and the text are those of docs/USAGE.md, section "Shown and hidden rules". */
static void trees_have_the_shown_nodes(void) {
    const char *file = "S <- A B\nA <- 'a' C\nC <- 'c'\nB <- 'b' D D\nD <- 'd'\n";
    const uint8_t shown[5] = {0, 0, 1, 0, 255};
    peg_parser parser = PEG_NULL, other = PEG_NULL;
    peg_match match = PEG_NULL;
    peg_summary summary = {9, 9, 9, 9, 9, 9};
    peg_node nodes[5] = {{9, 9, 9, 9, 9}, {9, 9, 9, 9, 9}, {9, 9, 9, 9, 9}, {9, 9, 9, 9, 9}, {9, 9, 9, 9, 9}};
    CHECK(parse_shown(&parser, "a", "", 0, &match) == PEG_WRONG_HANDLE && match.opaque == NULL);
    CHECK(peg_parser_share(&parser, &other) == PEG_WRONG_HANDLE && other.opaque == NULL);
    CHECK(peg_parser_read(bytes("S <- T"), 6, shown, 5, &parser) == PEG_REFUSED && parser.opaque == NULL);
    CHECK(peg_parser_read(bytes(file), strlen(file), shown, 5, &parser) == PEG_OK);
    CHECK(parse_shown(&parser, "acbdd", "", 0, &match) == PEG_OK);
    CHECK(peg_match_summary(&match, &summary) == PEG_OK && summary.consumed == 5 && summary.nodes == 4);
    CHECK(peg_match_nodes(&match, 0, nodes, 5) == 4 && nodes[4].size == 9);
    CHECK(nodes[0].rule == 0 && nodes[0].end == 5 && nodes[0].level == 1 && nodes[0].size == 4);
    CHECK(nodes[1].rule == 2 && nodes[1].start == 1 && nodes[1].end == 2 && nodes[1].level == 2);
    CHECK(nodes[3].rule == 4 && nodes[3].start == 4 && nodes[3].end == 5 && nodes[3].size == 1);
    CHECK(peg_parser_share(&parser, &other) == PEG_OK);
    CHECK(peg_parser_read(bytes(file), strlen(file), shown, 0, &parser) == PEG_OK);
    CHECK(parse_shown(&parser, "acbdd", "B", 0, &match) == PEG_FAILED);
    CHECK(parse_shown(&parser, "acbdd", "", 0, &match) == PEG_OK);
    CHECK(peg_match_summary(&match, &summary) == PEG_OK && summary.consumed == 5 && summary.nodes == 1);
    CHECK(parse_shown(&other, "acbdd", "", 0, &match) == PEG_OK);
    CHECK(peg_match_summary(&match, &summary) == PEG_OK && summary.nodes == 4);
    void *before = match.opaque;
    CHECK(parse_shown(&parser, "a", "E", 0, &match) == PEG_NO_SUCH_START && match.opaque == before);
    CHECK(parse_shown(&parser, "acbdd", "", 2, &match) == PEG_STEP_LIMIT && match.opaque == before);
    CHECK(parse((peg_grammar *)&parser, "a", "", 0, &match) == PEG_WRONG_HANDLE && match.opaque == before);
    peg_parser_free(&parser);
    peg_parser_free(&other);
    CHECK(parser.opaque == NULL && other.opaque == NULL);
    peg_match_free(&match);
}

/* A failure has the furthest failure and the spans that `peg_parse` gives. */
static void shown_rules_change_no_failure(void) {
    peg_parser parser = PEG_NULL;
    peg_match match = PEG_NULL;
    peg_summary summary = {9, 9, 9, 9, 9, 9};
    peg_span spans[3] = {{9, 9}, {9, 9}, {9, 9}};
    CHECK(peg_parser_read(bytes("S <- 'a' S / B\nB <- 'b'"), 23, bytes(""), 0, &parser) == PEG_OK);
    CHECK(parse_shown(&parser, "ac", "", 0, &match) == PEG_FAILED);
    CHECK(peg_match_summary(&match, &summary) == PEG_OK && summary.furthest == 1 && summary.expected == 2);
    CHECK(peg_match_expected(&match, 0, spans, 3) == 2 && spans[0].start == 5 && spans[0].end == 8);
    CHECK(spans[1].start == 20 && spans[1].end == 23 && spans[2].end == 9);
    peg_match_free(&match);
    peg_parser_free(&parser);
}

/* The text of a line handle is this string. */
static int is_line(peg_line *line, const char *expected) {
    uint8_t text[200] = {0};
    return peg_line_text(line, text, sizeof text) == strlen(expected) && strcmp((char *)text, expected) == 0;
}

/* The lines are in docs/USAGE.md and docs/LINT.md, or follow from them. */
static void lines_are_those_of_pegtool(void) {
    peg_grammar grammar = PEG_NULL;
    peg_line line = PEG_NULL, other = PEG_NULL;
    uint8_t byte = 9;
    CHECK(peg_code(&grammar, &line) == PEG_WRONG_HANDLE && peg_table(&grammar, &line) == PEG_WRONG_HANDLE);
    CHECK(peg_lint(&grammar, bytes(""), 0, 0, &line) == PEG_WRONG_HANDLE && line.opaque == NULL);
    CHECK(peg_line_text(&line, &byte, 1) == 0 && byte == 9);
    CHECK(peg_line_share(&line, &other) == PEG_WRONG_HANDLE && other.opaque == NULL);
    CHECK(read_grammar("S <- 'a' S / 'b'", &grammar) == PEG_OK);
    CHECK(peg_code(&grammar, &line) == PEG_OK);
    CHECK(is_line(&line, "{\"code\":[[\"end\"],[\"choice\",5],[\"test\",0,[[97,97]]],[\"call\",0],[\"commit\",6],"
                         "[\"test\",1,[[98,98]]],[\"ret\"]],\"entries\":[1]}"));
    CHECK(peg_line_share(&line, &other) == PEG_OK);
    CHECK(peg_table(&grammar, &line) == PEG_OK);
    CHECK(is_line(&line, "{\"table\":[{\"fails\":true,\"nothing\":false,\"rule\":\"S\",\"something\":true}]}"));
    CHECK(peg_line_text(&other, &byte, 1) == 119 && byte == '{');
    CHECK(peg_lint(&grammar, bytes("S"), 1, 0, &line) == PEG_OK && is_line(&line, "{\"warnings\":[]}"));
    void *before = line.opaque;
    CHECK(peg_lint(&grammar, bytes("T"), 1, 0, &line) == PEG_NO_SUCH_START && line.opaque == before);
    CHECK(peg_code((peg_grammar *)&line, &other) == PEG_WRONG_HANDLE);
    CHECK(peg_line_text((peg_line *)&grammar, &byte, 1) == 0);
    peg_line_free(&other);
    peg_line_free(&line);
    CHECK(line.opaque == NULL && other.opaque == NULL);
    peg_grammar_free(&grammar);
}

/* Warnings depend on the start, and habits of other notations aren't proved (docs/LINT.md). */
static void warnings_are_selected(void) {
    peg_grammar grammar = PEG_NULL;
    peg_line line = PEG_NULL;
    CHECK(read_grammar("S <- 'a' / 'ab'", &grammar) == PEG_OK);
    CHECK(peg_lint(&grammar, bytes(""), 0, 1, &line) == PEG_OK);
    CHECK(is_line(&line, "{\"warnings\":[{\"by\":[5,8],\"column\":12,\"end\":15,\"kind\":\"Shadowed\",\"line\":1,"
                         "\"proved\":true,\"rule\":\"S\",\"start\":11}]}"));
    CHECK(read_grammar("S <- T .\nT <- 'a'", &grammar) == PEG_OK);
    CHECK(peg_lint(&grammar, bytes(""), 0, 1, &line) == PEG_OK && is_line(&line, "{\"warnings\":[]}"));
    CHECK(peg_lint(&grammar, bytes(""), 0, 0, &line) == PEG_OK && !is_line(&line, "{\"warnings\":[]}"));
    CHECK(peg_lint(&grammar, bytes("T"), 1, 1, &line) == PEG_OK && !is_line(&line, "{\"warnings\":[]}"));
    peg_line_free(&line);
    peg_grammar_free(&grammar);
}

static uint32_t profile(peg_parser *parser, const char *text, const char *start, uint64_t steps, peg_line *out) {
    return peg_parser_profile(parser, bytes(text), strlen(text), bytes(start), strlen(start), 0, steps, out);
}

/* The lines are those of tests/cases/commands/profile.t, which are worked out by hand. */
static void profiles_count_calls(void) {
    peg_parser parser = PEG_NULL;
    peg_grammar grammar = PEG_NULL;
    peg_line line = PEG_NULL;
    CHECK(profile(&parser, "aab", "", 0, &line) == PEG_WRONG_HANDLE && line.opaque == NULL);
    CHECK(peg_parser_read(bytes("S <- 'a' S / 'b'"), 16, bytes(""), 0, &parser) == PEG_OK);
    CHECK(profile(&parser, "aab", "", 0, &line) == PEG_OK);
    CHECK(is_line(&line, "{\"consumed\":3,\"result\":\"matched\",\"rules\":[{\"again\":0,\"calls\":3,\"places\":3,"
                         "\"rule\":\"S\"}],\"steps\":15}"));
    CHECK(profile(&parser, "aab", "S", 14, &line) == PEG_OK);
    CHECK(is_line(&line, "{\"result\":\"stopped\",\"rules\":[{\"again\":0,\"calls\":3,\"places\":3,\"rule\":\"S\"}],"
                         "\"steps\":14}"));
    void *before = line.opaque;
    CHECK(profile(&parser, "aab", "T", 0, &line) == PEG_NO_SUCH_START && line.opaque == before);
    CHECK(read_grammar("S <- 'a'", &grammar) == PEG_OK);
    CHECK(profile((peg_parser *)&grammar, "a", "", 0, &line) == PEG_WRONG_HANDLE && line.opaque == before);
    CHECK(peg_parser_read(bytes("S <- T 'b'\nT <- 'a'"), 19, bytes("\1\1"), 2, &parser) == PEG_OK);
    CHECK(profile(&parser, "aa", "T", 0, &line) == PEG_OK);
    CHECK(is_line(&line, "{\"consumed\":1,\"result\":\"matched\",\"rules\":[{\"again\":0,\"calls\":0,\"places\":0,"
                         "\"rule\":\"S\"},{\"again\":0,\"calls\":1,\"places\":1,\"rule\":\"T\"}],\"steps\":3}"));
    peg_line_free(&line);
    peg_parser_free(&parser);
    peg_grammar_free(&grammar);
}

static void rules_have_numbers(void) {
    peg_grammar grammar = PEG_NULL;
    uint32_t number = 9;
    CHECK(peg_rule_number(&grammar, bytes("S"), 1, &number) == PEG_WRONG_HANDLE && number == 9);
    CHECK(read_grammar("Start <- End\nEnd <- 'b'", &grammar) == PEG_OK);
    CHECK(peg_rule_number(&grammar, bytes("End"), 3, &number) == PEG_OK && number == 1);
    CHECK(peg_rule_number(&grammar, bytes("Start"), 5, &number) == PEG_OK && number == 0);
    number = 9;
    CHECK(peg_rule_number(&grammar, bytes("En"), 2, &number) == PEG_NO_SUCH_RULE && number == 9);
    CHECK(peg_rule_number(&grammar, bytes(""), 0, &number) == PEG_NO_SUCH_RULE && number == 9);
    CHECK(peg_rule_number(&grammar, bytes("\xff"), 1, &number) == PEG_NO_SUCH_RULE && number == 9);
    peg_grammar_free(&grammar);
}

static void statuses_have_names(void) {
    uint8_t name[20] = {0};
    CHECK(peg_status_name(PEG_OK, name, sizeof name) == 6 && strcmp((char *)name, "PEG_OK") == 0);
    CHECK(peg_status_name(PEG_TEXT_TOO_LONG, name, sizeof name) == 17);
    CHECK(strcmp((char *)name, "PEG_TEXT_TOO_LONG") == 0);
    CHECK(peg_status_name(PEG_NO_SUCH_RULE, name, 4) == 16 && memcmp(name, "PEG_TEXT", 8) == 0);
    CHECK(peg_status_name(10, name, sizeof name) == 0 && peg_status_name(UINT32_MAX, name, sizeof name) == 0);
}

int main(void) {
    null_handles_give_nothing();
    null_explanations_give_nothing();
    shared_handles_are_independent();
    explainers_have_the_statuses_of_grammars();
    other_handles_are_reported();
    refusals_have_their_place();
    parses_have_their_statuses();
    explanations_have_their_statuses();
    names_and_positions_fit_their_buffers();
    trees_have_the_shown_nodes();
    shown_rules_change_no_failure();
    lines_are_those_of_pegtool();
    warnings_are_selected();
    profiles_count_calls();
    rules_have_numbers();
    statuses_have_names();
    printf("misuse: %d tests, %d failed\n", tests, failures);
    return failures != 0;
}
