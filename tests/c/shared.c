/* shared GRAMMAR TEXT: two threads, and then eight, use handles that share a grammar, a match, an explanation, an
 * explainer and a parser. Their answers have to be the answers of one thread, and the explanations of the explainer
 * those of the grammar. The text to be explained is all but the last byte of TEXT.
 *
 * The handles of a thread are made by the main thread, which then frees its own while they run. So the last of them to
 * end frees the grammar. Each thread leaves handles behind that it made: another thread uses and frees them. */
#include "../../examples/c/files.h"
#include "peg.h"

#include <pthread.h>
#include <string.h>

#define MOST_THREADS 8
#define ROUNDS 4

/* The handles of a thread, and what it found. */
struct task {
    peg_grammar grammar, made_grammar;
    peg_match match, made_match;
    peg_explanation explanation, made_explanation;
    peg_explainer explainer, made_explainer;
    peg_parser parser, made_parser;
    uint64_t sum;
};

static uint8_t *file, *text;
static size_t file_length, text_length;

static void expect(int fact, const char *what) {
    if (!fact) {
        printf("shared: %s\n", what);
        exit(1);
    }
}

static uint64_t sum_of_match(peg_match *match) {
    peg_summary summary = {0, 0, 0, 0, 0, 0};
    expect(peg_match_summary(match, &summary) == PEG_OK, "a match has no summary");
    uint64_t sum = summary.consumed + summary.furthest;
    peg_node node = {0, 0, 0, 0, 0};
    for (size_t i = 0; peg_match_nodes(match, i, &node, 1) == 1; i++) {
        sum = sum * 31 + node.rule + node.start * 3 + node.end * 5 + node.level * 7 + node.size * 11;
    }
    return sum;
}

static uint64_t sum_of_explanation(peg_explanation *explanation) {
    uint8_t message[1000] = {0};
    peg_mismatch mismatch = {0, 0, 0};
    peg_span span = {0, 0};
    expect(peg_explanation_mismatch(explanation, &mismatch) == PEG_OK, "an explanation has no position");
    uint64_t sum = mismatch.position + peg_explanation_message(explanation, message, sizeof message);
    for (size_t i = 0; i < sizeof message; i++) {
        sum = sum * 31 + message[i];
    }
    return sum * 31 + peg_explanation_expected(explanation, 0, &span, 1) + span.end;
}

static void parse(peg_grammar *grammar, peg_match *out) {
    expect(peg_parse(grammar, text, text_length, text, 0, PEG_DEFAULT_MEMO, 0, out) == PEG_OK, "no match");
}

static void explain(peg_grammar *grammar, peg_explanation *out) {
    uint32_t status =
        peg_explain(grammar, text, 0, text, text_length - 1, text, 0, PEG_DEFAULT_MEMO, 0, out);
    expect(status == PEG_FAILED, "no explanation");
}

/* Explains by another handle of an explainer. */
static uint64_t sum_by_explainer(peg_explainer *explainer) {
    peg_explainer other = PEG_NULL;
    peg_explanation explanation = PEG_NULL;
    expect(peg_explainer_share(explainer, &other) == PEG_OK, "an explainer isn't shared");
    uint32_t status = peg_explainer_explain(&other, text, 0, text, text_length - 1, text, 0, PEG_DEFAULT_MEMO, 0,
                                            &explanation);
    expect(status == PEG_FAILED, "no explanation by an explainer");
    uint64_t sum = sum_of_explanation(&explanation);
    peg_explanation_free(&explanation);
    peg_explainer_free(&other);
    return sum;
}

/* Uses another handle of a parser, and one of a line. */
static uint64_t sum_by_parser(peg_grammar *grammar, peg_parser *parser) {
    peg_parser other = PEG_NULL;
    peg_line line = PEG_NULL, other_line = PEG_NULL;
    peg_match match = PEG_NULL;
    uint8_t bytes[1000] = {0};
    expect(peg_parser_share(parser, &other) == PEG_OK, "a parser isn't shared");
    uint32_t status = peg_parser_parse(&other, text, text_length, text, 0, PEG_DEFAULT_MEMO, 0, &match);
    expect(status == PEG_OK, "no match by a parser");
    expect(peg_table(grammar, &line) == PEG_OK && peg_line_share(&line, &other_line) == PEG_OK, "no line");
    peg_line_free(&line);
    uint64_t sum = sum_of_match(&match) * 31 + peg_line_text(&other_line, bytes, sizeof bytes);
    for (size_t i = 0; i < sizeof bytes; i++) {
        sum = sum * 31 + bytes[i];
    }
    peg_line_free(&other_line);
    peg_match_free(&match);
    peg_parser_free(&other);
    return sum;
}

/* Uses handles by each kind of call, the new handles that it makes included. */
static uint64_t use(peg_grammar *grammar, peg_match *match, peg_explanation *explanation, peg_explainer *explainer,
                    peg_parser *parser) {
    peg_grammar other_grammar = PEG_NULL;
    peg_match other_match = PEG_NULL;
    peg_explanation other_explanation = PEG_NULL;
    uint32_t rules = 0;
    expect(sum_by_explainer(explainer) == sum_of_explanation(explanation), "an explainer explains otherwise");
    expect(peg_grammar_share(grammar, &other_grammar) == PEG_OK, "a grammar isn't shared");
    expect(peg_match_share(match, &other_match) == PEG_OK, "a match isn't shared");
    expect(peg_explanation_share(explanation, &other_explanation) == PEG_OK, "an explanation isn't shared");
    uint64_t sum = sum_of_match(&other_match) * 31 + sum_of_explanation(&other_explanation);
    sum = sum * 31 + sum_by_parser(&other_grammar, parser);
    parse(&other_grammar, &other_match);
    explain(&other_grammar, &other_explanation);
    sum = (sum * 31 + sum_of_match(&other_match)) * 31 + sum_of_explanation(&other_explanation);
    expect(peg_rule_count(&other_grammar, &rules) == PEG_OK, "a grammar has no rules");
    uint8_t name[100] = {0};
    sum = sum * 31 + peg_rule_name(&other_grammar, rules - 1, name, sizeof name) + name[0];
    peg_grammar_free(&other_grammar);
    peg_match_free(&other_match);
    peg_explanation_free(&other_explanation);
    return sum;
}

static void *run(void *argument) {
    struct task *task = argument;
    for (int round = 0; round < ROUNDS; round++) {
        task->sum = task->sum * 31 +
                    use(&task->grammar, &task->match, &task->explanation, &task->explainer, &task->parser);
    }
    expect(peg_grammar_share(&task->grammar, &task->made_grammar) == PEG_OK, "a grammar isn't shared");
    expect(peg_explainer_share(&task->explainer, &task->made_explainer) == PEG_OK, "an explainer isn't shared");
    expect(peg_parser_share(&task->parser, &task->made_parser) == PEG_OK, "a parser isn't shared");
    parse(&task->grammar, &task->made_match);
    explain(&task->grammar, &task->made_explanation);
    peg_grammar_free(&task->grammar);
    peg_match_free(&task->match);
    peg_explanation_free(&task->explanation);
    peg_explainer_free(&task->explainer);
    peg_parser_free(&task->parser);
    return NULL;
}

/* Uses and frees what a thread has made that has ended. */
static void *take_over(void *argument) {
    struct task *task = argument;
    task->sum = task->sum * 31 +
                use(&task->made_grammar, &task->made_match, &task->made_explanation, &task->made_explainer,
                    &task->made_parser);
    peg_grammar_free(&task->made_grammar);
    peg_match_free(&task->made_match);
    peg_explanation_free(&task->made_explanation);
    peg_explainer_free(&task->made_explainer);
    peg_parser_free(&task->made_parser);
    return NULL;
}

static void start(pthread_t *thread, void *(*function)(void *), struct task *task) {
    expect(pthread_create(thread, NULL, function, task) == 0, "there is no thread");
}

/* Runs threads that share what these handles hold, and frees the handles. Returns the number of other answers. */
static int run_threads(int count, peg_grammar grammar, peg_match match, peg_explanation explanation,
                       peg_explainer explainer, peg_parser parser) {
    struct task tasks[MOST_THREADS];
    pthread_t threads[MOST_THREADS];
    uint64_t one = use(&grammar, &match, &explanation, &explainer, &parser), want = 0;
    int wrong = 0;
    memset(tasks, 0, sizeof tasks);
    for (int i = 0; i < count; i++) {
        expect(peg_grammar_share(&grammar, &tasks[i].grammar) == PEG_OK, "a grammar isn't shared");
        expect(peg_match_share(&match, &tasks[i].match) == PEG_OK, "a match isn't shared");
        expect(peg_explanation_share(&explanation, &tasks[i].explanation) == PEG_OK, "an explanation isn't shared");
        expect(peg_explainer_share(&explainer, &tasks[i].explainer) == PEG_OK, "an explainer isn't shared");
        expect(peg_parser_share(&parser, &tasks[i].parser) == PEG_OK, "a parser isn't shared");
        start(&threads[i], run, &tasks[i]);
    }
    peg_grammar_free(&grammar);
    peg_match_free(&match);
    peg_explanation_free(&explanation);
    peg_explainer_free(&explainer);
    peg_parser_free(&parser);
    for (int i = 0; i < count; i++) {
        pthread_join(threads[i], NULL);
        start(&threads[i], take_over, &tasks[i]);
    }
    for (int round = 0; round <= ROUNDS; round++) {
        want = want * 31 + one;
    }
    for (int i = 0; i < count; i++) {
        pthread_join(threads[i], NULL);
        wrong += tasks[i].sum != want;
    }
    return wrong;
}

/* A refusal is shared as a grammar is, and a null handle isn't. */
static void share_others(void) {
    peg_grammar refusal = PEG_NULL, other = PEG_NULL;
    peg_refusal_info info = {0, 0, 0, 0, 0};
    expect(peg_grammar_share(&refusal, &other) == PEG_WRONG_HANDLE && other.opaque == NULL, "a null handle is shared");
    expect(peg_grammar_read((const uint8_t *)"A <- B", 6, &refusal) == PEG_REFUSED, "no refusal");
    expect(peg_grammar_share(&refusal, &other) == PEG_OK, "a refusal isn't shared");
    peg_grammar_free(&refusal);
    expect(peg_grammar_refusal_info(&other, &info) == PEG_OK && info.kind == PEG_UNDEFINED, "no reason is shared");
    peg_grammar_free(&other);
}

int main(int argc, char **argv) {
    static const int counts[] = {2, MOST_THREADS};
    int wrong = 0;
    if (argc != 3) {
        fputs("usage: shared GRAMMAR TEXT\n", stderr);
        return 3;
    }
    file = read_file(argv[1], &file_length);
    text = read_file(argv[2], &text_length);
    share_others();
    for (size_t i = 0; i < sizeof counts / sizeof *counts; i++) {
        peg_grammar grammar = PEG_NULL;
        peg_match match = PEG_NULL;
        peg_explanation explanation = PEG_NULL;
        expect(peg_grammar_read(file, file_length, &grammar) == PEG_OK, "the grammar is refused");
        parse(&grammar, &match);
        explain(&grammar, &explanation);
        peg_explainer explainer = PEG_NULL;
        expect(peg_explainer_read(file, file_length, &explainer) == PEG_OK, "the explainer is refused");
        peg_parser parser = PEG_NULL;
        const uint8_t shown[2] = {0, 1};
        expect(peg_parser_read(file, file_length, shown, 2, &parser) == PEG_OK, "the parser is refused");
        wrong += run_threads(counts[i], grammar, match, explanation, explainer, parser);
    }
    printf("shared: 2 and %d threads, %d wrong\n", MOST_THREADS, wrong);
    free(text);
    free(file);
    return wrong != 0;
}
