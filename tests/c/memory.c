/* memory GRAMMAR TEXT: refuses each request for memory of a reading, a parse, an explanation, the same by an explainer,
 * of reading a parser of no rules, a parse by it, a parse of two records and a profile, of lines about the grammar, and
 * of sharing a handle in turn, alone and with all later ones. Each call has to return PEG_OUT_OF_MEMORY, leave the
 * handles as they were and release what it requested, or to have the answer. It makes at most ten times the requests
 * and the steps that it takes without a refusal. The text to be explained is all but the last byte of TEXT. Link it
 * with the linker's options --wrap=malloc, --wrap=realloc and --wrap=free. */
#include "../../examples/c/files.h"
#include "peg.h"

/* The number of requests until one is refused, or a negative number for none; and the number of live blocks. */
static long requests_left = -1, blocks;
/* Whether a request was refused, and whether all later ones are refused, too. */
static int refused, is_lasting;
/* The number of requests of a call, and how many it may make; 0 is no limit. */
static long requests, most_requests;
/* The number of steps that a parse may take; 0 is no limit. */
static uint64_t most_steps;

void *__real_malloc(size_t size);
void *__real_realloc(void *block, size_t size);
void __real_free(void *block);
void *__wrap_malloc(size_t size);
void *__wrap_realloc(void *block, size_t size);
void __wrap_free(void *block);

static void fail(const char *what, long request) {
    printf("memory: %s, request %ld%s\n", what, request, is_lasting ? " and all later ones" : "");
    exit(1);
}

/* The request before which no other is left is refused, and no later one unless the refusal lasts. */
static int is_refused(void) {
    requests++;
    if (most_requests > 0 && requests > most_requests) {
        fail("the call makes ten times the requests", requests);
    }
    if (requests_left != 0) {
        requests_left -= requests_left > 0;
        return 0;
    }
    refused = 1;
    requests_left = is_lasting ? 0 : -1;
    return 1;
}

void *__wrap_malloc(size_t size) {
    void *block = is_refused() ? NULL : __real_malloc(size);
    blocks += block != NULL;
    return block;
}

void *__wrap_realloc(void *block, size_t size) {
    void *moved = is_refused() ? NULL : __real_realloc(block, size);
    blocks += block == NULL && moved != NULL;
    return moved;
}

void __wrap_free(void *block) {
    blocks -= block != NULL;
    __real_free(block);
}

/* Refuses request number n. Number -1 is none: that call sets the limits for the others. */
static void refuse_request(long n) {
    requests_left = n;
    requests = 0;
    refused = 0;
    if (n < 0) {
        most_requests = 0;
        most_steps = 0;
    }
}

/* Ends the refusal. Returns whether another request is to be refused, and tests that a call without an answer changed
 * nothing. */
static int was_refused(int has_answer, uint32_t status, int is_unchanged, long blocks_before, long n) {
    requests_left = -1;
    if (!refused && !has_answer) {
        fail("the call gives no answer without a refusal", n);
    }
    if (n < 0) {
        most_requests = 10 * requests;
        return 1;
    }
    if (!has_answer && (status != PEG_OUT_OF_MEMORY || !is_unchanged)) {
        fail("the call has another status, or changed a handle", n);
    }
    if (!has_answer && blocks != blocks_before) {
        fail("the call keeps memory", n);
    }
    return refused;
}

/* Tests the steps of an answer against the limit, or sets it. */
static void count_steps(peg_match *match, long n) {
    peg_summary summary = {0};
    peg_match_summary(match, &summary);
    if (n < 0) {
        most_steps = 10 * summary.steps;
    } else if (summary.steps > most_steps) {
        fail("the call takes ten times the steps", n);
    }
}

/* Reads a grammar file with request number n refused, for each n until there are fewer. Returns the number of requests.
 * A refused request that an answer doesn't need, as of a cache, may be passed over. */
static long refuse_in_reading(const uint8_t *file, size_t length, uint32_t expected) {
    for (long n = -1;; n++) {
        peg_grammar grammar = PEG_NULL;
        long before = blocks;
        refuse_request(n);
        uint32_t status = peg_grammar_read(file, length, &grammar);
        int more = was_refused(status == expected, status, grammar.opaque == NULL, before, n);
        peg_grammar_free(&grammar);
        if (!more) {
            return n;
        }
    }
}

static long refuse_in_parsing(peg_grammar *grammar, const uint8_t *text, size_t length, uint32_t memo) {
    for (long n = -1;; n++) {
        peg_match match = PEG_NULL;
        long before = blocks;
        void *held = grammar->opaque;
        refuse_request(n);
        uint32_t status = peg_parse(grammar, text, length, (const uint8_t *)"", 0, memo, 0, &match);
        int has_answer = status == PEG_OK || status == PEG_FAILED;
        int more = was_refused(has_answer, status, match.opaque == NULL && grammar->opaque == held, before, n);
        if (has_answer) {
            count_steps(&match, n);
        }
        peg_match_free(&match);
        if (!more) {
            return n;
        }
    }
}

static long refuse_in_explaining(peg_grammar *grammar, const uint8_t *text, size_t length, uint32_t memo) {
    for (long n = -1;; n++) {
        peg_explanation explanation = PEG_NULL;
        long before = blocks;
        void *held = grammar->opaque;
        refuse_request(n);
        uint32_t status = peg_explain(grammar, (const uint8_t *)"text", 4, text, length, (const uint8_t *)"", 0, memo,
                                      0, &explanation);
        int has_answer = status == PEG_OK || status == PEG_FAILED;
        int is_unchanged = explanation.opaque == NULL && grammar->opaque == held;
        int more = was_refused(has_answer, status, is_unchanged, before, n);
        peg_explanation_free(&explanation);
        if (!more) {
            return n;
        }
    }
}

static long refuse_in_reading_an_explainer(const uint8_t *file, size_t length) {
    for (long n = -1;; n++) {
        peg_explainer explainer = PEG_NULL;
        long before = blocks;
        refuse_request(n);
        uint32_t status = peg_explainer_read(file, length, &explainer);
        int more = was_refused(status == PEG_OK, status, explainer.opaque == NULL, before, n);
        peg_explainer_free(&explainer);
        if (!more) {
            return n;
        }
    }
}

static long refuse_in_explaining_by(peg_explainer *explainer, const uint8_t *text, size_t length, uint32_t memo) {
    for (long n = -1;; n++) {
        peg_explanation explanation = PEG_NULL;
        long before = blocks;
        void *held = explainer->opaque;
        refuse_request(n);
        uint32_t status = peg_explainer_explain(explainer, (const uint8_t *)"text", 4, text, length,
                                                (const uint8_t *)"", 0, memo, 0, &explanation);
        int has_answer = status == PEG_OK || status == PEG_FAILED;
        int is_unchanged = explanation.opaque == NULL && explainer->opaque == held;
        int more = was_refused(has_answer, status, is_unchanged, before, n);
        peg_explanation_free(&explanation);
        if (!more) {
            return n;
        }
    }
}

static void refuse_in_explainers(const uint8_t *file, size_t file_length, const uint8_t *text, size_t text_length) {
    long reading = refuse_in_reading_an_explainer(file, file_length);
    peg_explainer explainer = PEG_NULL;
    most_requests = 0;
    if (peg_explainer_read(file, file_length, &explainer) != PEG_OK) {
        fail("the explainer is refused", 0);
    }
    long explanation = refuse_in_explaining_by(&explainer, text, text_length - 1, PEG_DEFAULT_MEMO);
    peg_explainer_free(&explainer);
    printf("memory: refused %ld requests of reading an explainer, %ld of an explanation by it%s\n", reading,
           explanation, is_lasting ? ", each with all later ones" : "");
}

static long refuse_in_reading_a_parser(const uint8_t *file, size_t length) {
    for (long n = -1;; n++) {
        peg_parser parser = PEG_NULL;
        long before = blocks;
        refuse_request(n);
        uint32_t status = peg_parser_read(file, length, (const uint8_t *)"", 0, &parser);
        int more = was_refused(status == PEG_OK, status, parser.opaque == NULL, before, n);
        peg_parser_free(&parser);
        if (!more) {
            return n;
        }
    }
}

static long refuse_in_parsing_by(peg_parser *parser, const uint8_t *text, size_t length, uint32_t memo) {
    for (long n = -1;; n++) {
        peg_match match = PEG_NULL;
        long before = blocks;
        void *held = parser->opaque;
        refuse_request(n);
        uint32_t status = peg_parser_parse(parser, text, length, (const uint8_t *)"", 0, memo, 0, &match);
        int has_answer = status == PEG_OK || status == PEG_FAILED;
        int more = was_refused(has_answer, status, match.opaque == NULL && parser->opaque == held, before, n);
        if (has_answer) {
            count_steps(&match, n);
        }
        peg_match_free(&match);
        if (!more) {
            return n;
        }
    }
}

/* Parses the text and its first byte as two records. A request that is refused after the first record gives PEG_OK, and
 * the second record is as it was. */
static long refuse_in_records(peg_parser *parser, const uint8_t *text, size_t length) {
    for (long n = -1;; n++) {
        peg_record records[2] = {{0, (uint32_t)length, 99, 0, 0, 0, 0}, {0, 1, 99, 0, 0, 0, 0}};
        peg_node nodes[2] = {{9, 9, 9, 9, 9}, {9, 9, 9, 9, 9}};
        peg_progress progress = {9, 9, 9};
        long before = blocks;
        void *held = parser->opaque;
        refuse_request(n);
        uint32_t status = peg_parser_records(parser, text, length, (const uint8_t *)"", 0, PEG_DEFAULT_MEMO, 0, records,
                                             2, nodes, 2, &progress);
        int is_part = status == PEG_OK && progress.records == 1 && progress.wanted == 0;
        if (is_part && (!refused || records[0].status == 99 || records[1].status != 99)) {
            fail("the call stops before a record, or changed it", n);
        }
        int is_unchanged = records[0].status == 99 && records[1].status == 99 && nodes[0].rule == 9 &&
                           progress.records == 9 && parser->opaque == held;
        int has_answer = status == PEG_OK && (is_part || progress.records == 2);
        if (!was_refused(has_answer, status, is_unchanged, before, n)) {
            return n;
        }
    }
}

static long refuse_in_a_profile(peg_parser *parser, const uint8_t *text, size_t length) {
    for (long n = -1;; n++) {
        peg_line line = PEG_NULL;
        long before = blocks;
        void *held = parser->opaque;
        refuse_request(n);
        uint32_t status =
            peg_parser_profile(parser, text, length, (const uint8_t *)"", 0, PEG_DEFAULT_MEMO, 0, &line);
        int is_unchanged = line.opaque == NULL && parser->opaque == held;
        int more = was_refused(status == PEG_OK, status, is_unchanged, before, n);
        peg_line_free(&line);
        if (!more) {
            return n;
        }
    }
}

static void refuse_in_parsers(const uint8_t *file, size_t file_length, const uint8_t *text, size_t text_length) {
    long reading = refuse_in_reading_a_parser(file, file_length);
    peg_parser parser = PEG_NULL;
    most_requests = 0;
    if (peg_parser_read(file, file_length, (const uint8_t *)"", 0, &parser) != PEG_OK) {
        fail("the parser is refused", 0);
    }
    long parse = refuse_in_parsing_by(&parser, text, text_length, PEG_DEFAULT_MEMO);
    long records = refuse_in_records(&parser, text, text_length);
    long profile = refuse_in_a_profile(&parser, text, text_length);
    peg_parser_free(&parser);
    printf("memory: refused %ld requests of reading a parser, %ld of a parse by it, %ld of two records, %ld of a "
           "profile%s\n",
           reading, parse, records, profile, is_lasting ? ", each with all later ones" : "");
}

static uint32_t lint(peg_grammar *grammar, peg_line *out) {
    return peg_lint(grammar, (const uint8_t *)"", 0, 0, out);
}

static long refuse_in_a_line(peg_grammar *grammar, uint32_t (*make)(peg_grammar *, peg_line *)) {
    for (long n = -1;; n++) {
        peg_line line = PEG_NULL;
        long before = blocks;
        void *held = grammar->opaque;
        refuse_request(n);
        uint32_t status = make(grammar, &line);
        int is_unchanged = line.opaque == NULL && grammar->opaque == held;
        int more = was_refused(status == PEG_OK, status, is_unchanged, before, n);
        peg_line_free(&line);
        if (!more) {
            return n;
        }
    }
}

static long refuse_in_sharing(peg_grammar *grammar) {
    for (long n = -1;; n++) {
        peg_grammar other = PEG_NULL;
        long before = blocks;
        void *held = grammar->opaque;
        refuse_request(n);
        uint32_t status = peg_grammar_share(grammar, &other);
        int is_unchanged = other.opaque == NULL && grammar->opaque == held;
        int more = was_refused(status == PEG_OK, status, is_unchanged, before, n);
        peg_grammar_free(&other);
        if (blocks != before) {
            fail("the other handle keeps memory", n);
        }
        if (!more) {
            return n;
        }
    }
}

static void refuse_in_calls(const uint8_t *file, size_t file_length, const uint8_t *text, size_t text_length) {
    long reading = refuse_in_reading(file, file_length, PEG_OK);
    long refusal = refuse_in_reading((const uint8_t *)"A <- 'a'\nS <- B", 15, PEG_REFUSED);
    peg_grammar grammar = PEG_NULL;
    most_requests = 0;
    if (peg_grammar_read(file, file_length, &grammar) != PEG_OK) {
        fail("the grammar is refused", 0);
    }
    long parse = refuse_in_parsing(&grammar, text, text_length, PEG_DEFAULT_MEMO);
    long explanation = refuse_in_explaining(&grammar, text, text_length - 1, PEG_DEFAULT_MEMO);
    long sharing = refuse_in_sharing(&grammar);
    long lines = refuse_in_a_line(&grammar, peg_code) + refuse_in_a_line(&grammar, peg_table) +
                 refuse_in_a_line(&grammar, lint);
    peg_grammar_free(&grammar);
    printf("memory: refused %ld requests of a reading, %ld of a refusal, %ld of a parse, %ld of an explanation, %ld of "
           "lines, %ld of sharing%s\n",
           reading, refusal, parse, explanation, lines, sharing, is_lasting ? ", each with all later ones" : "");
}

int main(int argc, char **argv) {
    if (argc != 3) {
        fputs("usage: memory GRAMMAR TEXT\n", stderr);
        return 3;
    }
    size_t file_length, text_length;
    uint8_t *file = read_file(argv[1], &file_length);
    uint8_t *text = read_file(argv[2], &text_length);
    long live = blocks;
    for (is_lasting = 0; is_lasting <= 1; is_lasting++) {
        refuse_in_calls(file, file_length, text, text_length);
        refuse_in_explainers(file, file_length, text, text_length);
        refuse_in_parsers(file, file_length, text, text_length);
    }
    if (blocks != live) {
        fail("memory is left", blocks - live);
    }
    free(text);
    free(file);
    return 0;
}
