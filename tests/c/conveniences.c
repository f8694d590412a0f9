/* conveniences NAME=NUMBER ..: uses each function that include/peg.h defines itself. The words are the statuses of the
 * header: each has to have its name, and the number after the last one has none. Prints the number of tests, and ends
 * with 1 if one failed. */
#include "peg.h"

#include <stdio.h>
#include <stdlib.h>
#include <string.h>

static int tests, failures;

#define CHECK(fact)                                                                                                    \
    do {                                                                                                               \
        tests++;                                                                                                       \
        if (!(fact)) {                                                                                                 \
            failures++;                                                                                                \
            printf("%s:%d: %s\n", __FILE__, __LINE__, #fact);                                                          \
        }                                                                                                              \
    } while (0)

/* The two names of a status are this one. */
static int is_name(uint32_t status, const char *expected) {
    uint8_t copied[32] = {0};
    size_t length = peg_status_name(status, copied, sizeof copied - 1);
    return length == strlen(expected) && strcmp((char *)copied, expected) == 0 &&
           strcmp(peg_status_string(status), expected) == 0;
}

static void statuses_have_their_names(int count, char **statuses) {
    unsigned long after = 0;
    for (int i = 0; i < count; i++) {
        char *number = strchr(statuses[i], '=');
        CHECK(number != NULL);
        *number = '\0';
        unsigned long status = strtoul(number + 1, NULL, 10);
        CHECK(is_name((uint32_t)status, statuses[i]));
        after = status >= after ? status + 1 : after;
    }
    CHECK(count >= 10 && after == (unsigned long)count);
    CHECK(is_name((uint32_t)after, "") && is_name(UINT32_MAX, ""));
}

/* NULL with a length of 0 is no bytes: an empty file, an empty text, the first rule. Other addresses are as they were. */
static void null_is_no_bytes(void) {
    const char file[] = "S <- 'a'*\nT <- 'b'";
    const char name[] = {'T'};
    const uint16_t text = 0x6161;
    peg_grammar grammar = PEG_NULL;
    peg_match match = PEG_NULL;
    peg_summary summary = {9, 9, 9, 9, 9, 9};
    uint32_t number = 9;
    CHECK(peg_bytes(NULL) != NULL && peg_bytes(file) == (const uint8_t *)file);
    CHECK(peg_grammar_read(peg_bytes(NULL), 0, &grammar) == PEG_REFUSED);
    CHECK(peg_grammar_read(peg_bytes(file), strlen(file), &grammar) == PEG_OK);
    CHECK(peg_rule_number(&grammar, peg_bytes(name), sizeof name, &number) == PEG_OK && number == 1);
    CHECK(peg_parse(&grammar, peg_bytes(NULL), 0, peg_bytes(NULL), 0, 0, 0, &match) == PEG_OK);
    CHECK(peg_match_summary(&match, &summary) == PEG_OK && summary.consumed == 0 && summary.nodes == 1);
    CHECK(peg_parse(&grammar, peg_bytes(&text), sizeof text, peg_bytes(NULL), 0, 0, 0, &match) == PEG_OK);
    CHECK(peg_match_summary(&match, &summary) == PEG_OK && summary.consumed == 2);
    CHECK(peg_parse(&grammar, peg_bytes(&text), sizeof text, peg_bytes(name), 1, 0, 0, &match) == PEG_FAILED);
    peg_match_drop(&match);
    peg_grammar_drop(&grammar);
}

static void null_is_dropped(void) {
    peg_grammar_drop(NULL);
    peg_line_drop(NULL);
    peg_parser_drop(NULL);
    peg_match_drop(NULL);
    peg_explainer_drop(NULL);
    peg_explanation_drop(NULL);
}

/* What is held is freed, which valgrind sees, and the handle is null then. It may be dropped once more. */
static void handles_are_dropped(void) {
    const uint8_t *file = peg_bytes("S <- 'a'"), *none = peg_bytes(NULL);
    peg_grammar grammar = PEG_NULL;
    peg_line line = PEG_NULL;
    peg_parser parser = PEG_NULL;
    peg_match match = PEG_NULL;
    peg_explainer explainer = PEG_NULL;
    peg_explanation explanation = PEG_NULL;
    CHECK(peg_grammar_read(file, 8, &grammar) == PEG_OK && peg_code(&grammar, &line) == PEG_OK);
    CHECK(peg_parser_read(file, 8, none, 0, &parser) == PEG_OK);
    CHECK(peg_parser_parse(&parser, none, 0, none, 0, 0, 0, &match) == PEG_FAILED);
    CHECK(peg_explainer_read(file, 8, &explainer) == PEG_OK);
    CHECK(peg_explainer_explain(&explainer, none, 0, none, 0, none, 0, 0, 0, &explanation) == PEG_FAILED);
    for (int times = 0; times < 2; times++) {
        peg_grammar_drop(&grammar);
        peg_line_drop(&line);
        peg_parser_drop(&parser);
        peg_match_drop(&match);
        peg_explainer_drop(&explainer);
        peg_explanation_drop(&explanation);
        CHECK(!grammar.opaque && !line.opaque && !parser.opaque);
        CHECK(!match.opaque && !explainer.opaque && !explanation.opaque);
    }
}

int main(int argc, char **argv) {
    statuses_have_their_names(argc - 1, argv + 1);
    null_is_no_bytes();
    null_is_dropped();
    handles_are_dropped();
    printf("conveniences: %d tests, %d failed\n", tests, failures);
    return failures != 0;
}
