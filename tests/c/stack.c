/* stack: no call takes more than 240 KiB of the caller's stack, and peg_lint no more than 272, for grammar files that
 * nest as deep as a file may.
 *
 * Each call runs on a thread of its own with a stack of 256 KiB. The stack is filled with one byte before, and what is
 * still filled afterwards was not used. The memory below the stack is filled too, so that a call that takes more than
 * the stack is reported and doesn't write elsewhere. */
#define _POSIX_C_SOURCE 200809L
#include "peg.h"

#include <pthread.h>
#include <stdio.h>
#include <stdlib.h>
#include <string.h>

#define LEVELS 200
#define MOST ((size_t)245760)
#define MOST_OF_LINT ((size_t)278528)
#define STACK ((size_t)262144)
#define REGION ((size_t)1048576)
#define FILL 0xA5
#define STEPS 1000000

/* A grammar file of one rule: `open` at each level, then `inside`, and then `close` at each level. */
struct shape {
    const char *open;
    const char *inside;
    const char *close;
    int levels;
};

static const struct shape SHAPES[] = {
    {"!(", "'a'", ")* 'b' / 'c'", LEVELS},
    {"&(", "'a'", ")? 'b' / 'c'", LEVELS},
    {"!(", "'a'", "){1} 'b' 'd' / 'c'", LEVELS},
    {"'c' / 'b' !(", "'a'", ")*", LEVELS},
    {"'c' / 'b' &(", "'a'", ")? 'd' / 'e'", LEVELS},
    {"'c' / 'd' / 'b' !(", "'a'", "){1} 'd' / 'e'", LEVELS},
    {"'a' !('b' &(", "'a'", ")? 'x' / 'y')? / 'z'", LEVELS / 2},
    {"(", "'a'", ")* 'b' / 'c'", LEVELS},
    {"'c' / 'b' (", "'a'", ")?", LEVELS},
    {"'b' / (", "'a'", ")", LEVELS},
    {"(", "[a-z]", ") / 'b'", LEVELS},
    {"'b' (", "S", "){1} .", LEVELS},
    {"(", "\"ab\"", "){1,1}", LEVELS},
    /* refused: the code is too large */
    {"'b' &(", "'a'", ")+ 'd' / 'c'", LEVELS},
    {"!(", "'a'", "){2,3} 'b' / 'c'", LEVELS},
    /* refused: an empty loop, a left recursion, an undefined name, one level too many, and a file that ends early */
    {"(", "'a'", ")*", LEVELS},
    {"'b' / !(", "S", ")? 'c'", LEVELS},
    {"'b' / 'c' &(", "T", ")? 'd'", LEVELS},
    {"'b' / 'c' !(", "'a'", ")? 'd'", LEVELS + 1},
    {"'b' / 'c' !(", "", "", LEVELS},
};

static uint8_t *file;
static size_t file_length;
static const uint8_t TEXT[] = "bcbcbabdbe";
static peg_grammar grammar = PEG_NULL, shared_grammar = PEG_NULL;
static peg_match match = PEG_NULL, shared_match = PEG_NULL;
static peg_explanation explanation = PEG_NULL, shared_explanation = PEG_NULL;
static peg_explainer explainer = PEG_NULL, shared_explainer = PEG_NULL;
static peg_parser parser = PEG_NULL, shared_parser = PEG_NULL;
static peg_line json = PEG_NULL, shared_line = PEG_NULL;
static uint8_t line[4096];
static uint32_t accepted, refused;

static void append(const char *part) {
    size_t length = strlen(part);
    memcpy(file + file_length, part, length);
    file_length += length;
}

static void write_file(const struct shape *shape) {
    size_t most = 16 + strlen(shape->inside) + (strlen(shape->open) + strlen(shape->close)) * (size_t)shape->levels;
    file = malloc(most);
    if (file == NULL) {
        exit(3);
    }
    file_length = 0;
    append("S <- ");
    for (int i = 0; i < shape->levels; i++) {
        append(shape->open);
    }
    append(shape->inside);
    for (int i = 0; i < shape->levels; i++) {
        append(shape->close);
    }
}

static void read_grammar(void) {
    uint32_t status = peg_grammar_read(file, file_length, &grammar);
    accepted += status == PEG_OK;
    refused += status == PEG_REFUSED;
}

static void refusal(void) { peg_grammar_refusal(&grammar, line, sizeof line); }

static void refusal_message(void) { peg_grammar_message(&grammar, line, sizeof line); }

static void refusal_info(void) {
    peg_refusal_info info = {0, 0, 0, 0, 0};
    peg_grammar_refusal_info(&grammar, &info);
}

static void rule_count(void) {
    uint32_t rules = 0;
    peg_rule_count(&grammar, &rules);
}

static void rule_name(void) { peg_rule_name(&grammar, 0, line, sizeof line); }

static void rule_number(void) {
    uint32_t number = 0;
    peg_rule_number(&grammar, (const uint8_t *)"S", 1, &number);
}

static void code(void) { peg_code(&grammar, &json); }

static void table(void) { peg_table(&grammar, &json); }

static void lint(void) { peg_lint(&grammar, TEXT, 0, 0, &json); }

static void line_text(void) { peg_line_text(&json, line, sizeof line); }

static void read_parser(void) { peg_parser_read(file, file_length, TEXT, 0, &parser); }

static void parse_by_parser(void) {
    peg_parser_parse(&parser, TEXT, sizeof TEXT - 1, TEXT, 0, PEG_DEFAULT_MEMO, STEPS, &match);
}

static void parse_records(void) {
    peg_record records[2] = {{.start = 0, .end = sizeof TEXT - 1}, {.start = 1, .end = 2}};
    peg_node nodes[2] = {{0}};
    peg_progress progress = {0};
    peg_parser_records(&parser, TEXT, sizeof TEXT - 1, TEXT, 0, PEG_DEFAULT_MEMO, STEPS, records, 2, nodes, 2,
                       &progress);
}

static void profile(void) {
    peg_parser_profile(&parser, TEXT, sizeof TEXT - 1, TEXT, 0, 0, STEPS, &json);
}

static void parse(void) { peg_parse(&grammar, TEXT, sizeof TEXT - 1, TEXT, 0, 0, STEPS, &match); }

static void parse_by_name(void) {
    peg_parse(&grammar, TEXT, sizeof TEXT - 1, (const uint8_t *)"S", 1, PEG_DEFAULT_MEMO, STEPS, &match);
}

static void summary(void) {
    peg_summary out = {0, 0, 0, 0, 0, 0};
    peg_match_summary(&match, &out);
}

static void nodes(void) {
    peg_node out = {0, 0, 0, 0, 0};
    peg_match_nodes(&match, 0, &out, 1);
}

static void expected(void) {
    peg_span out = {0, 0};
    peg_match_expected(&match, 0, &out, 1);
}

static void explain(void) {
    peg_explain(&grammar, TEXT, 1, TEXT, sizeof TEXT - 1, TEXT, 0, 0, STEPS, &explanation);
}

static void explain_with_memo(void) {
    peg_explain(&grammar, TEXT, 1, TEXT, sizeof TEXT - 1, TEXT, 0, PEG_DEFAULT_MEMO, STEPS, &explanation);
}

static void read_explainer(void) { peg_explainer_read(file, file_length, &explainer); }

static void explain_by_explainer(void) {
    peg_explainer_explain(&explainer, TEXT, 1, TEXT, sizeof TEXT - 1, TEXT, 0, PEG_DEFAULT_MEMO, STEPS, &explanation);
}

static void message(void) { peg_explanation_message(&explanation, line, sizeof line); }

static void mismatch(void) {
    peg_mismatch out = {0, 0, 0};
    peg_explanation_mismatch(&explanation, &out);
}

static void explained(void) {
    peg_span out = {0, 0};
    peg_explanation_expected(&explanation, 0, &out, 1);
}

static void locate(void) {
    peg_location out = {0, 0};
    peg_locate(file, file_length, file_length, &out);
}

static void version(void) { peg_version(line, sizeof line); }

static void status_name(void) { peg_status_name(PEG_STEP_LIMIT, line, sizeof line); }

static void share_grammar(void) { peg_grammar_share(&grammar, &shared_grammar); }

static void share_match(void) { peg_match_share(&match, &shared_match); }

static void share_explanation(void) { peg_explanation_share(&explanation, &shared_explanation); }

static void share_explainer(void) { peg_explainer_share(&explainer, &shared_explainer); }

static void share_parser(void) { peg_parser_share(&parser, &shared_parser); }

static void share_line(void) { peg_line_share(&json, &shared_line); }

/* Frees what these handles hold, since the first handles are freed before. */
static void free_shared(void) {
    peg_grammar_free(&shared_grammar);
    peg_match_free(&shared_match);
    peg_explanation_free(&shared_explanation);
    peg_explainer_free(&shared_explainer);
    peg_parser_free(&shared_parser);
    peg_line_free(&shared_line);
}

static void free_explanation(void) { peg_explanation_free(&explanation); }

static void free_explainer(void) { peg_explainer_free(&explainer); }

static void free_parser(void) { peg_parser_free(&parser); }

static void free_line(void) { peg_line_free(&json); }

static void free_match(void) { peg_match_free(&match); }

static void free_grammar(void) { peg_grammar_free(&grammar); }

/* The calls, in the order in which each file is taken through them. */
static const struct {
    const char *name;
    void (*run)(void);
} CALLS[] = {
    {"peg_grammar_read", read_grammar},
    {"peg_grammar_refusal", refusal},
    {"peg_grammar_message", refusal_message},
    {"peg_grammar_refusal_info", refusal_info},
    {"peg_rule_count", rule_count},
    {"peg_rule_name", rule_name},
    {"peg_rule_number", rule_number},
    {"peg_code", code},
    {"peg_table", table},
    {"peg_lint", lint},
    {"peg_line_text", line_text},
    {"peg_parser_read", read_parser},
    {"peg_parser_parse", parse_by_parser},
    {"peg_parser_records", parse_records},
    {"peg_parser_profile", profile},
    {"peg_parse without a memo", parse},
    {"peg_parse with a memo", parse_by_name},
    {"peg_match_summary", summary},
    {"peg_match_nodes", nodes},
    {"peg_match_expected", expected},
    {"peg_explain without a memo", explain},
    {"peg_explain with a memo", explain_with_memo},
    {"peg_explainer_read", read_explainer},
    {"peg_explainer_explain", explain_by_explainer},
    {"peg_explanation_message", message},
    {"peg_explanation_mismatch", mismatch},
    {"peg_explanation_expected", explained},
    {"peg_locate", locate},
    {"peg_version", version},
    {"peg_status_name", status_name},
    {"peg_grammar_share", share_grammar},
    {"peg_match_share", share_match},
    {"peg_explanation_share", share_explanation},
    {"peg_explainer_share", share_explainer},
    {"peg_parser_share", share_parser},
    {"peg_line_share", share_line},
    {"peg_explanation_free", free_explanation},
    {"peg_explainer_free", free_explainer},
    {"peg_parser_free", free_parser},
    {"peg_line_free", free_line},
    {"peg_match_free", free_match},
    {"peg_grammar_read over a grammar", read_grammar},
    {"peg_grammar_free", free_grammar},
    {"the last handles' peg_.._free", free_shared},
};

#define COUNT(items) (sizeof(items) / sizeof *(items))

static void *run(void *number) {
    CALLS[*(const size_t *)number].run();
    return NULL;
}

/* The number of bytes of the stack that a call takes, the start of its thread included. */
static size_t taken(uint8_t *region, size_t call) {
    pthread_attr_t attributes;
    pthread_t thread;
    memset(region, FILL, REGION);
    if (pthread_attr_init(&attributes) != 0 ||
        pthread_attr_setstack(&attributes, region + (REGION - STACK), STACK) != 0 ||
        pthread_create(&thread, &attributes, run, &call) != 0) {
        fputs("stack: no thread\n", stderr);
        exit(3);
    }
    pthread_join(thread, NULL);
    pthread_attr_destroy(&attributes);
    size_t unused = 0;
    while (unused < REGION && region[unused] == FILL) {
        unused++;
    }
    return REGION - unused;
}

int main(void) {
    size_t worst[COUNT(CALLS)] = {0};
    int wrong = 0;
    uint8_t *region = aligned_alloc(4096, REGION);
    if (region == NULL) {
        return 3;
    }
    for (size_t shape = 0; shape < COUNT(SHAPES); shape++) {
        write_file(&SHAPES[shape]);
        for (size_t call = 0; call < COUNT(CALLS); call++) {
            size_t bytes = taken(region, call);
            if (bytes > (CALLS[call].run == lint ? MOST_OF_LINT : MOST)) {
                fprintf(stderr, "stack: %s takes %zu bytes: S <- %s .. %s .. %s\n", CALLS[call].name, bytes,
                        SHAPES[shape].open, SHAPES[shape].inside, SHAPES[shape].close);
                wrong++;
            }
            if (bytes > worst[call]) {
                worst[call] = bytes;
            }
        }
        free(file);
    }
    for (size_t call = 0; call < COUNT(CALLS); call++) {
        printf("%7zu %s\n", worst[call], CALLS[call].name);
    }
    printf("stack: %zu files, read %u times as a grammar and refused %u times, %d calls over %zu bytes, or %zu of peg_lint\n",
           COUNT(SHAPES), accepted, refused, wrong, MOST, MOST_OF_LINT);
    free(region);
    return wrong != 0 || accepted == 0 || refused == 0;
}
