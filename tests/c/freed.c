/* freed GRAMMAR TEXT: overwrites and frees the inputs of each call when it has returned, and then uses all results:
 * names and refusals of grammars, the nodes and the expected terminals of a match, and the message and the expected
 * items of an explanation. They have to be the results of the same calls whose inputs are kept. Under valgrind, each
 * use of a freed input is an error. The text to be explained is all but the last byte of TEXT, and the file to be
 * refused is GRAMMAR with an open parenthesis at its end. Ends with 1 if a result differs or a call has another status.
 */
#include "../../examples/c/files.h"
#include "peg.h"

#include <string.h>

/* Whether inputs are freed. */
static int is_freeing;
/* All results of the calls, one after the other. */
static uint8_t results[1 << 20];
static size_t results_length;

static void fail(const char *what) {
    printf("freed: %s\n", what);
    exit(1);
}

static void note(const void *bytes, size_t length) {
    if (length > sizeof results - results_length) {
        fail("the results are too long");
    }
    memcpy(results + results_length, bytes, length);
    results_length += length;
}

static void note_number(uint64_t number) {
    note(&number, sizeof number);
}

static void note_status(uint32_t status, uint32_t expected) {
    if (status != expected) {
        fail("a call has another status");
    }
    note_number(status);
}

/* Returns the input itself, or a copy of it that is to be freed. */
static uint8_t *lend(uint8_t *input, size_t length) {
    uint8_t *copy = is_freeing ? malloc(length > 0 ? length : 1) : input;
    if (copy == NULL) {
        fail("out of memory");
    }
    return is_freeing ? memcpy(copy, input, length) : copy;
}

/* Overwrites and frees a copy. A compiler may leave out what is written before free, but not through volatile. */
static void take_back(uint8_t *copy, size_t length) {
    if (is_freeing) {
        for (volatile uint8_t *byte = copy; byte < copy + length; byte++) {
            *byte = '#';
        }
        free(copy);
    }
}

static void read_grammar(uint8_t *file, size_t length, uint32_t expected, peg_grammar *out) {
    uint8_t *lent = lend(file, length);
    uint32_t status = peg_grammar_read(lent, length, out);
    take_back(lent, length);
    note_status(status, expected);
}

/* Parses a text from the first rule, by its name. */
static void parse(peg_grammar *grammar, uint8_t *text, size_t length, peg_match *out) {
    uint8_t name[64] = {0};
    size_t name_length = peg_rule_name(grammar, 0, name, sizeof name);
    uint8_t *lent = lend(text, length), *start = lend(name, name_length);
    uint32_t status = peg_parse(grammar, lent, length, start, name_length, PEG_DEFAULT_MEMO, 0, out);
    take_back(lent, length);
    take_back(start, name_length);
    note_status(status, PEG_OK);
}

static void explain(peg_grammar *grammar, uint8_t *text, size_t length, peg_explanation *out) {
    uint8_t file_name[] = {'t', 'e', 'x', 't'}, start[1] = {0};
    uint8_t *lent = lend(text, length), *name = lend(file_name, sizeof file_name);
    uint32_t status =
        peg_explain(grammar, name, sizeof file_name, lent, length, start, 0, PEG_DEFAULT_MEMO, 0, out);
    take_back(lent, length);
    take_back(name, sizeof file_name);
    note_status(status, PEG_FAILED);
}

static void use_rules(peg_grammar *grammar) {
    uint32_t rules = 0;
    note_status(peg_rule_count(grammar, &rules), PEG_OK);
    for (uint32_t rule = 0; rule < rules; rule++) {
        uint8_t name[64] = {0};
        note_number(peg_rule_name(grammar, rule, name, sizeof name));
        note(name, sizeof name);
    }
}

static void use_refusal(peg_grammar *grammar) {
    uint8_t line[1000] = {0}, message[1000] = {0};
    peg_refusal_info info = {0};
    note_number(peg_grammar_refusal(grammar, line, sizeof line));
    note(line, sizeof line);
    note_number(peg_grammar_message(grammar, message, sizeof message));
    note(message, sizeof message);
    note_status(peg_grammar_refusal_info(grammar, &info), PEG_OK);
    note_number(info.kind);
    note_number(info.start);
}

static void use_spans(const peg_span *spans, size_t count) {
    note_number(count);
    for (size_t i = 0; i < count; i++) {
        note_number(spans[i].start);
        note_number(spans[i].end);
    }
}

static void use_match(peg_match *match) {
    peg_summary summary = {0};
    note_status(peg_match_summary(match, &summary), PEG_OK);
    note_number(summary.consumed);
    note_number(summary.furthest);
    for (uint64_t from = 0; from < summary.nodes; from++) {
        peg_node node = {0};
        note_number(peg_match_nodes(match, from, &node, 1));
        note_number(node.rule);
        note_number(node.start);
        note_number(node.end);
        note_number(node.level);
        note_number(node.size);
    }
    peg_span spans[100] = {{0}};
    use_spans(spans, peg_match_expected(match, 0, spans, 100));
}

static void use_explanation(peg_explanation *explanation) {
    uint8_t message[1000] = {0};
    peg_mismatch mismatch = {0};
    peg_span spans[100] = {{0}};
    note_number(peg_explanation_message(explanation, message, sizeof message));
    note(message, sizeof message);
    note_status(peg_explanation_mismatch(explanation, &mismatch), PEG_OK);
    note_number(mismatch.position);
    use_spans(spans, peg_explanation_expected(explanation, 0, spans, 100));
}

/* Makes the calls and notes their results. The match and the explanation are used when their grammar is freed, too. */
static void make_calls(uint8_t *file, size_t file_length, uint8_t *text, size_t text_length) {
    peg_grammar grammar = PEG_NULL;
    peg_match match = PEG_NULL;
    peg_explanation explanation = PEG_NULL;
    results_length = 0;
    read_grammar(file, file_length, PEG_OK, &grammar);
    parse(&grammar, text, text_length, &match);
    explain(&grammar, text, text_length - 1, &explanation);
    use_rules(&grammar);
    peg_grammar_free(&grammar);
    use_match(&match);
    use_explanation(&explanation);
    peg_match_free(&match);
    peg_explanation_free(&explanation);
    uint8_t *broken = malloc(file_length + 1);
    if (broken == NULL) {
        fail("out of memory");
    }
    memcpy(broken, file, file_length);
    broken[file_length] = '(';
    read_grammar(broken, file_length + 1, PEG_REFUSED, &grammar);
    use_refusal(&grammar);
    peg_grammar_free(&grammar);
    free(broken);
}

int main(int argc, char **argv) {
    if (argc != 3) {
        fputs("usage: freed GRAMMAR TEXT\n", stderr);
        return 3;
    }
    static uint8_t kept[sizeof results];
    size_t file_length, text_length;
    uint8_t *file = read_file(argv[1], &file_length);
    uint8_t *text = read_file(argv[2], &text_length);
    make_calls(file, file_length, text, text_length);
    size_t kept_length = results_length;
    memcpy(kept, results, results_length);
    is_freeing = 1;
    make_calls(file, file_length, text, text_length);
    if (results_length != kept_length || memcmp(results, kept, kept_length) != 0) {
        fail("a result depends on an input after its call");
    }
    printf("freed: %zu bytes of results\n", results_length);
    free(text);
    free(file);
    return 0;
}
