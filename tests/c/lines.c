/* lines COMMAND GRAMMAR [TEXT STEPS]: prints the line of the command `code`, `table` or `lint` for a grammar file, or
 * with `names` the number of each rule, found by its name. With `profile` it prints the line for a text, with this limit
 * of steps. Ends with the status of the call. */
#include "../../examples/c/files.h"
#include "peg.h"

#include <inttypes.h>
#include <string.h>

static uint32_t make_line(const char *command, peg_grammar *grammar, peg_line *out) {
    if (strcmp(command, "code") == 0) {
        return peg_code(grammar, out);
    }
    if (strcmp(command, "table") == 0) {
        return peg_table(grammar, out);
    }
    return peg_lint(grammar, (const uint8_t *)"", 0, 0, out);
}

/* The profile of a text's parse by a parser that makes no nodes but the root. */
static uint32_t make_profile(const uint8_t *file, size_t length, const char *path, const char *steps, peg_line *out) {
    peg_parser parser = PEG_NULL;
    size_t text_length;
    uint8_t *text = read_file(path, &text_length);
    uint32_t status = peg_parser_read(file, length, peg_bytes(NULL), 0, &parser);
    if (status == PEG_OK) {
        uint64_t limit = strtoull(steps, NULL, 10);
        status = peg_parser_profile(&parser, text, text_length, peg_bytes(NULL), 0, 0, limit, out);
    }
    peg_parser_free(&parser);
    free(text);
    return status;
}

static void print_line(peg_line *line) {
    uint8_t none = 0;
    size_t length = peg_line_text(line, &none, 0);
    uint8_t *text = calloc(length, 1);
    if (text == NULL) {
        exit(5);
    }
    peg_line_text(line, text, length);
    fwrite(text, 1, length, stdout);
    putchar('\n');
    free(text);
}

/* Prints the number of each rule, which has to be the number that it has. */
static void print_numbers(peg_grammar *grammar) {
    uint32_t count = 0;
    peg_rule_count(grammar, &count);
    for (uint32_t rule = 0; rule < count; rule++) {
        uint8_t name[1000] = {0};
        uint32_t number = UINT32_MAX;
        size_t length = peg_rule_name(grammar, rule, name, sizeof name);
        peg_rule_number(grammar, name, length, &number);
        printf("%" PRIu32 "\n", number);
    }
}

int main(int argc, char **argv) {
    if (argc != 3 && argc != 5) {
        fputs("usage: lines COMMAND GRAMMAR [TEXT STEPS]\n", stderr);
        return 3;
    }
    size_t length;
    uint8_t *file = read_file(argv[2], &length);
    peg_grammar grammar = PEG_NULL;
    peg_line line = PEG_NULL;
    uint32_t status = peg_grammar_read(file, length, &grammar);
    if (status == PEG_OK && strcmp(argv[1], "names") == 0) {
        print_numbers(&grammar);
    } else if (status == PEG_OK && argc == 5) {
        status = make_profile(file, length, argv[3], argv[4], &line);
        print_line(&line);
    } else if (status == PEG_OK) {
        status = make_line(argv[1], &grammar, &line);
        print_line(&line);
    }
    peg_line_free(&line);
    peg_grammar_free(&grammar);
    free(file);
    return (int)status;
}
