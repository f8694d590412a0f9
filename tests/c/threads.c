/* threads GRAMMAR TEXT: distinct handles in distinct threads at the same time give the same answers as one thread. */
#include "../../examples/c/files.h"
#include "peg.h"

#include <pthread.h>

#define THREADS 4
#define ROUNDS 20

static uint8_t *file, *text;
static size_t file_length, text_length;

/* Reads the grammar and parses the text, and writes the summary and a sum over all nodes. */
static uint64_t answer(peg_summary *summary) {
    peg_grammar grammar = PEG_NULL;
    peg_match match = PEG_NULL;
    peg_node node = {0, 0, 0, 0, 0};
    uint64_t sum = 0;
    sum += peg_grammar_read(file, file_length, &grammar);
    sum += peg_parse(&grammar, text, text_length, (const uint8_t *)"", 0, PEG_DEFAULT_MEMO, 0, &match);
    peg_match_summary(&match, summary);
    for (size_t i = 0; peg_match_nodes(&match, i, &node, 1) == 1; i++) {
        sum = sum * 31 + node.rule + node.start * 3 + node.end * 5 + node.level * 7 + node.size * 11;
    }
    peg_match_free(&match);
    peg_grammar_free(&grammar);
    return sum;
}

static void *run(void *sums) {
    for (int round = 0; round < ROUNDS; round++) {
        peg_summary summary = {0, 0, 0, 0, 0, 0};
        ((uint64_t *)sums)[round] = answer(&summary) + summary.steps;
    }
    return NULL;
}

int main(int argc, char **argv) {
    static uint64_t sums[THREADS][ROUNDS];
    pthread_t threads[THREADS];
    if (argc != 3) {
        fputs("usage: threads GRAMMAR TEXT\n", stderr);
        return 3;
    }
    file = read_file(argv[1], &file_length);
    text = read_file(argv[2], &text_length);
    peg_summary summary = {0, 0, 0, 0, 0, 0};
    uint64_t want = answer(&summary) + summary.steps;
    for (int i = 0; i < THREADS; i++) {
        if (pthread_create(&threads[i], NULL, run, sums[i]) != 0) {
            return 1;
        }
    }
    int wrong = 0;
    for (int i = 0; i < THREADS; i++) {
        pthread_join(threads[i], NULL);
        for (int round = 0; round < ROUNDS; round++) {
            wrong += sums[i][round] != want;
        }
    }
    printf("threads: %d answers, %d wrong\n", THREADS * ROUNDS, wrong);
    free(text);
    free(file);
    return wrong != 0;
}
