/* lint GRAMMAR [TEXT]: says what is wrong with a grammar file, or where a text stops matching it.
 * Ends with 0 if nothing is wrong, and 1 otherwise. The messages are those of `pegtool explain`. */
#include "files.h"
#include "peg.h"

#include <inttypes.h>
#include <string.h>

/* Prints why a grammar file is refused. */
static int report_refusal(peg_grammar *grammar, const char *path) {
    static uint8_t message[4096];
    size_t length = peg_grammar_message(grammar, message, sizeof message);
    if (length > sizeof message) {
        length = sizeof message;
    }
    printf("%s%.*s", path, (int)length, (const char *)message);
    return 1;
}

/* Prints the message of an explanation. */
static void print_message(peg_explanation *explanation) {
    uint8_t none = 0;
    size_t length = peg_explanation_message(explanation, &none, 0);
    uint8_t *message = calloc(length, 1);
    if (message == NULL) {
        fputs("out of memory\n", stderr);
        exit(5);
    }
    peg_explanation_message(explanation, message, length);
    fwrite(message, 1, length, stdout);
    free(message);
}

static int lint_text(peg_grammar *grammar, const char *path) {
    size_t length;
    uint8_t *text = read_file(path, &length);
    peg_explanation explanation = PEG_NULL;
    uint32_t status = peg_explain(grammar, peg_bytes(path), strlen(path), text, length, peg_bytes(NULL), 0,
                                  PEG_DEFAULT_MEMO, 0, &explanation);
    if (status == PEG_FAILED) {
        print_message(&explanation);
    } else if (status != PEG_OK) {
        printf("%s: the parse ended with status %" PRIu32 "\n", path, status);
    }
    peg_explanation_free(&explanation);
    free(text);
    return status != PEG_OK;
}

int main(int argc, char **argv) {
    if (argc != 2 && argc != 3) {
        fputs("usage: lint GRAMMAR [TEXT]\n", stderr);
        return 3;
    }
    size_t length;
    uint8_t *file = read_file(argv[1], &length);
    peg_grammar grammar = PEG_NULL;
    uint32_t status = peg_grammar_read(file, length, &grammar);
    int wrong = 0;
    if (status == PEG_REFUSED) {
        wrong = report_refusal(&grammar, argv[1]);
    } else if (status != PEG_OK) {
        printf("%s: reading ended with status %" PRIu32 "\n", argv[1], status);
        wrong = 1;
    } else if (argc == 3) {
        wrong = lint_text(&grammar, argv[2]);
    }
    peg_grammar_free(&grammar);
    free(file);
    return wrong;
}
