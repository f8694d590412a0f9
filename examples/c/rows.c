/* rows GRAMMAR TEXT: prints the line that `pegtool parse GRAMMAR TEXT --rows` prints, and ends with the same status. */
#include "files.h"
#include "peg.h"

#include <inttypes.h>

/* The names of a grammar's rules, one after the other; name i ends at ends[i]. */
struct names {
    char *bytes;
    size_t *ends;
};

static void *or_end(void *memory) {
    if (memory == NULL) {
        fputs("out of memory\n", stderr);
        exit(5);
    }
    return memory;
}

static struct names names_of(peg_grammar *grammar) {
    uint32_t rules = 0;
    peg_rule_count(grammar, &rules);
    size_t total = 0;
    uint8_t none[1] = {0};
    for (uint32_t rule = 0; rule < rules; rule++) {
        total += peg_rule_name(grammar, rule, none, 0);
    }
    struct names names = {or_end(calloc(total + 1, 1)), or_end(calloc((size_t)rules + 1, sizeof(size_t)))};
    size_t used = 0;
    for (uint32_t rule = 0; rule < rules; rule++) {
        used += peg_rule_name(grammar, rule, (uint8_t *)names.bytes + used, total - used);
        names.ends[rule] = used;
    }
    return names;
}

static void print_expected(peg_match *match, uint64_t count) {
    peg_span *spans = or_end(calloc(count + 1, sizeof *spans));
    size_t copied = peg_match_expected(match, 0, spans, count);
    fputs("\"expected\":[", stdout);
    for (size_t i = 0; i < copied; i++) {
        printf("%s[%" PRIu32 ",%" PRIu32 "]", i == 0 ? "" : ",", spans[i].start, spans[i].end);
    }
    fputs("]", stdout);
    free(spans);
}

static void print_nodes(peg_match *match, struct names *names) {
    static peg_node nodes[4096];
    size_t from = 0, copied;
    fputs("\"rows\":[", stdout);
    while ((copied = peg_match_nodes(match, from, nodes, sizeof nodes / sizeof *nodes)) > 0) {
        for (size_t i = 0; i < copied; i++) {
            size_t start = nodes[i].rule == 0 ? 0 : names->ends[nodes[i].rule - 1];
            printf("%s[%" PRIu32 ",\"%.*s\",%" PRIu32 ",%" PRIu32 "]", from + i == 0 ? "" : ",", nodes[i].level,
                   (int)(names->ends[nodes[i].rule] - start), names->bytes + start, nodes[i].start, nodes[i].end);
        }
        from += copied;
    }
    fputs("]", stdout);
}

static void print_answer(peg_grammar *grammar, peg_match *match) {
    peg_summary summary = {0};
    peg_match_summary(match, &summary);
    fputs("{", stdout);
    if (summary.matched) {
        printf("\"consumed\":%" PRIu32 ",", summary.consumed);
    }
    print_expected(match, summary.expected);
    printf(",\"far\":%" PRIu32 ",\"result\":\"%s\"", summary.furthest, summary.matched ? "matched" : "failed");
    if (summary.matched) {
        struct names names = names_of(grammar);
        fputs(",", stdout);
        print_nodes(match, &names);
        free(names.bytes);
        free(names.ends);
    }
    fputs("}\n", stdout);
}

static void print_refusal(peg_grammar *grammar) {
    uint8_t none[1] = {0};
    size_t length = peg_grammar_refusal(grammar, none, 0);
    uint8_t *line = or_end(calloc(length + 1, 1));
    peg_grammar_refusal(grammar, line, length);
    printf("%s\n", (char *)line);
    free(line);
}

int main(int argc, char **argv) {
    if (argc != 3) {
        fputs("usage: rows GRAMMAR TEXT\n", stderr);
        return 3;
    }
    size_t file_length, text_length;
    uint8_t *file = read_file(argv[1], &file_length);
    uint8_t *text = read_file(argv[2], &text_length);
    peg_grammar grammar = PEG_NULL;
    peg_match match = PEG_NULL;
    uint32_t status = peg_grammar_read(file, file_length, &grammar);
    if (status == PEG_REFUSED) {
        print_refusal(&grammar);
    } else if (status == PEG_OK) {
        status = peg_parse(&grammar, text, text_length, peg_bytes(NULL), 0, PEG_DEFAULT_MEMO, 0, &match);
        if (status == PEG_OK || status == PEG_FAILED) {
            print_answer(&grammar, &match);
        }
    }
    peg_match_free(&match);
    peg_grammar_free(&grammar);
    free(text);
    free(file);
    return (int)status;
}
