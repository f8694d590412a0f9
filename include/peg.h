/* peg.h: the C interface of pegtool, a verified parser for parsing expression grammars (PEGs).
 *
 * A program reads a grammar file, parses texts by it, and copies the nodes of the parse trees into its own memory.
 * docs/C.md is a tutorial. docs/NOTATION.md describes grammar files, and docs/USAGE.md the limits and pegtool's output.
 *
 * Handles
 *   A handle is a struct of one pointer. A null handle, `PEG_NULL`, holds nothing. Initialise each handle to it before
 *   the first call. A call that fills a handle releases what it held before; a call that fails leaves it unchanged.
 *   The caller owns what a handle holds and releases it with the `free` function of its type, such as
 *   `peg_grammar_free`, which leaves the handle null. Releasing a null handle does nothing.
 *   Move a handle by copying the struct and no longer using the old one: two copies are two owners, and using both is
 *   undefined. For two owners call the `share` function of the type, such as `peg_grammar_share`. Handles that share
 *   what they hold own it together: it never changes, and its memory is freed when the last of them is released. A
 *   match, an explanation and a line don't depend on their grammar.
 *
 * Memory
 *   The library keeps no pointer to the caller's memory: a grammar file and a text may be freed after the call. Memory
 *   is requested from malloc, realloc and free. If a request fails, the call returns PEG_OUT_OF_MEMORY, and handles and
 *   buffers are as they were. Two kinds of requests may fail without it, since no answer depends on them. If there is
 *   no memory for a result in the memo, the memo evicts older results and tries again; the parse is out of memory only
 *   if none is left. If there is none for tables that save time, the parse goes on without them.
 *   The library prints nothing, doesn't end the process and has no global state.
 *   A call takes at most 240 KiB of the caller's stack, and peg_lint 272 KiB. These bounds are measured, not proved.
 *
 * Pointers
 *   No pointer may be NULL, not even with a length of 0: pass any valid address that is aligned for its type. For bytes
 *   it may be that of a string literal. `peg_bytes` and the `drop` functions, at the end of this file, take NULL.
 *   Check what malloc and calloc return, and request at least one byte: `calloc(0, ..)` may return NULL.
 *   Memory that a call writes must be initialised before, for example by calloc, or by `= {0}` in C and `= {}` in C++.
 *   It must not overlap other memory of the same call. Two handles of one call must be different variables.
 *
 * Threads
 *   The library starts no thread. Distinct handles may be used by distinct threads at the same time, also if they share
 *   what they hold. So a grammar is read once, and each thread gets a handle of its own by `peg_grammar_share`. A
 *   handle is used by one call at a time, also where a call only reads it. Any thread may take a handle over, and use
 *   and release it. It is handed over by what orders the accesses of two threads: the start or the end of a thread, a
 *   lock, or an atomic variable. No function may be called from a signal handler, or in the child of a process with
 *   threads after fork. All functions may be called from any thread within these rules.
 *
 * Steps
 *   A step is one instruction that the parsing machine executes. A call of a rule that the memo answers is one step.
 *   With a memo, a parse runs without it first, within 4,096 steps and 64 for each byte of the text. If these are not
 *   enough, it runs again with the memo. A limit holds for each of the two runs, so both together may take twice as
 *   many steps. A summary has the steps of the run that gave the answer.
 *
 * Results
 *   Functions that return `uint32_t` return a status, except for `peg_abi`. Functions that return `size_t` return a
 *   number of items or a length, and 0 for a handle that is null or holds something else.
 */
#ifndef PEG_H
#define PEG_H

#include <stddef.h>
#include <stdint.h>

/* How the functions of the library are declared. A program that builds a shared library of its own, whose names are
 * hidden by default, still finds those of libpeg. Define it before the header is included to declare them otherwise. */
#ifndef PEG_API
#ifdef __GNUC__
#define PEG_API __attribute__((visibility("default")))
#else
#define PEG_API
#endif
#endif

#ifdef __cplusplus
extern "C" {
#endif

/* The number of the binary interface that this header describes. `peg_abi` returns that of the library. */
#define PEG_ABI 1u

/* The version of this header. `peg_version` copies that of the library. */
#define PEG_VERSION_MAJOR 0
#define PEG_VERSION_MINOR 1
#define PEG_VERSION_PATCH 0
#define PEG_VERSION "0.1.0"

/* A grammar handle holds a grammar, or the reason why a grammar file was refused. A match handle holds the answer to a
 * parse, and an explanation handle says where a text doesn't match. An explainer handle holds a grammar that is
 * compiled for explanations. A line handle holds a line of JSON that pegtool prints about a grammar or a text. A parser
 * handle holds a grammar whose trees have the nodes of chosen rules. The member is private. */
typedef struct peg_grammar {
    void *opaque;
} peg_grammar;

typedef struct peg_match {
    void *opaque;
} peg_match;

typedef struct peg_explanation {
    void *opaque;
} peg_explanation;

typedef struct peg_explainer {
    void *opaque;
} peg_explainer;

typedef struct peg_line {
    void *opaque;
} peg_line;

typedef struct peg_parser {
    void *opaque;
} peg_parser;

/* The initialiser of a null handle. */
#ifdef __cplusplus
#define PEG_NULL {}
#else
#define PEG_NULL {0}
#endif

/* Statuses. The first two are the results of a parse, and PEG_OK that of any call that succeeds. */
enum peg_status {
    PEG_OK = 0,            /* the call succeeded; of a parse, a prefix of the text matched */
    PEG_FAILED = 1,        /* no prefix of the text matched; the match handle has the furthest failure */
    PEG_REFUSED = 2,       /* the grammar file was refused; the grammar handle has the reason */
    PEG_NO_SUCH_START = 3, /* no rule has the name of the start */
    PEG_WRONG_HANDLE = 4,  /* the handle is null, or it holds something else */
    PEG_OUT_OF_MEMORY = 5, /* a request for memory failed */
    PEG_STEP_LIMIT = 6,    /* the parse takes more steps than the limit allows */
    PEG_TEXT_TOO_LONG = 7, /* the text has more than 67,108,864 bytes */
    PEG_OUT_OF_RANGE = 8,  /* the offset is past the end of the text, or past 2,147,483,647 */
    PEG_NO_SUCH_RULE = 9   /* no rule has the name */
};

/* Why a grammar file was refused. docs/USAGE.md describes the kinds: PEG_FILE_TOO_LONG is FileTooLong there, etc. No
 * file gives PEG_NO_RULE, since each has a rule. */
enum peg_refusal_kind {
    PEG_FILE_TOO_LONG = 1,
    PEG_SYNTAX = 2,
    PEG_TOO_NESTED = 3,
    PEG_BAD_COUNT = 4,
    PEG_NO_RULE = 5,
    PEG_DUPLICATE = 6,
    PEG_UNDEFINED = 7,
    PEG_TOO_MANY_PARTS = 8,
    PEG_EMPTY_LOOP = 9,
    PEG_LEFT_RECURSION = 10,
    PEG_CODE_TOO_LARGE = 11
};

/* The kind of a refusal, and the part of the grammar file that it is about. Offsets are in bytes from 0, line and
 * column from 1; columns count bytes. If the refusal is about an offset, `end` is `start`. If it is about no part of
 * the file, all members but `kind` are 0. The names of rules are in the line of `peg_grammar_refusal`. */
typedef struct peg_refusal_info {
    uint32_t kind; /* an enum peg_refusal_kind */
    uint32_t start;
    uint32_t end;
    uint32_t line;
    uint32_t column;
} peg_refusal_info;

/* A node of a parse tree. Nodes are in preorder: the first child of node i, if it has one, is node i + 1, and the
 * subtree of node i ends before node i + size. */
typedef struct peg_node {
    uint32_t rule;  /* the number of the rule, from 0 */
    uint32_t start; /* the rule matched the bytes of the text from this offset */
    uint32_t end;   /* up to, but not including, this one */
    uint32_t level; /* 1 for the root; a level over 4,294,967,295 is given as that number */
    uint64_t size;  /* the number of nodes in the subtree, this one included */
} peg_node;

/* The bytes of a grammar file from offset `start` up to, but not including, offset `end`. */
typedef struct peg_span {
    uint32_t start;
    uint32_t end;
} peg_span;

/* A position in a file or a text: line and column, both from 1. Columns count bytes; CR LF, LF and CR end a line. */
typedef struct peg_location {
    uint32_t line;
    uint32_t column;
} peg_location;

/* The summary of an answer. */
typedef struct peg_summary {
    uint32_t matched;  /* 1 if a prefix of the text matched, else 0 */
    uint32_t consumed; /* the length of that prefix, or 0 */
    uint32_t furthest; /* the greatest offset of the text at which a terminal failed, or 0 if none failed */
    uint64_t nodes;    /* the number of nodes of the tree; 0 if no prefix matched */
    uint64_t expected; /* the number of terminals that failed at `furthest` */
    uint64_t steps;    /* the number of steps of the run that gave the answer; see "Steps" */
} peg_summary;

/* A record of a text, such as a line of a log: the bytes from offset `start` up to, but not including, offset `end`.
 * The caller sets these two members, and `peg_parser_records` sets the others. All have 32 bits, so an array of
 * records is a table of numbers with seven columns. */
typedef struct peg_record {
    uint32_t start;
    uint32_t end;
    uint32_t status;   /* PEG_OK or PEG_FAILED, or why there is no answer */
    uint32_t consumed; /* the length of the prefix of the record that matched, or 0 */
    uint32_t furthest; /* the greatest offset in the record at which a terminal failed, or 0 if none failed */
    uint32_t first;    /* the number of the record's first node in the array of nodes */
    uint32_t nodes;    /* the number of the record's nodes; 0 if no prefix matched */
} peg_record;

/* How many records a call parsed. */
typedef struct peg_progress {
    uint64_t records; /* the number of records that were parsed, the first ones of the array */
    uint64_t nodes;   /* the number of their nodes */
    uint64_t wanted;  /* the number of nodes of the next record, if there is no room for them, else 0 */
} peg_progress;

/* Where a text doesn't match as a whole. An item is a terminal or a predicate outside predicates. */
typedef struct peg_mismatch {
    uint32_t position;     /* the offset in the text, at most its length */
    uint32_t end_expected; /* 1 if the end of the text is expected there, else 0 */
    uint64_t expected;     /* the number of items that are expected there, at most 65,536 */
} peg_mismatch;

/* The capacity of the memo that pegtool uses if none is given. */
#define PEG_DEFAULT_MEMO 4096u

/* ---- grammars */

/* Reads a grammar file and stores the result in `out`.
 * Returns PEG_OK if the file is accepted; `out` then holds the grammar.
 * Returns PEG_REFUSED if it is not; `out` then holds the reason.
 * Returns PEG_OUT_OF_MEMORY if a request for memory failed; `out` is then unchanged.
 * With the first two, the caller has to release `out` with `peg_grammar_free`. */
PEG_API uint32_t peg_grammar_read(const uint8_t *file, size_t file_length, peg_grammar *out);

/* Makes `out` another handle of the grammar or the refusal that `grammar` holds. Nothing is copied, and the time is
 * constant, but for the release of what `out` held before. `grammar` is unchanged.
 * Returns PEG_OK; the caller then has to release both handles, in any order and on any threads.
 * Otherwise `out` is unchanged. PEG_WRONG_HANDLE: `grammar` is null. PEG_OUT_OF_MEMORY: a request for memory failed. */
PEG_API uint32_t peg_grammar_share(peg_grammar *grammar, peg_grammar *out);

/* Releases what a handle holds and leaves the handle null. Its memory is freed if no other handle shares it. */
PEG_API void peg_grammar_free(peg_grammar *grammar);

/* Copies to `out` the line of JSON that `pegtool check` prints for a refused file, without its line end and without a
 * final null byte. If the line is longer than `out_length`, only its start is copied.
 * Returns the length of the whole line, or 0 if the handle holds no refusal. */
PEG_API size_t peg_grammar_refusal(peg_grammar *grammar, uint8_t *out, size_t out_length);

/* Copies to `out` the message that `pegtool explain` prints for a refused file, after the name of the file:
 * `:LINE:COLUMN: SENTENCE`, the line of the file, and a caret; or `: SENTENCE`, if the refusal has no place. Each line
 * ends with LF; there is no final null byte. If the message is longer than `out_length`, only its start is copied.
 * Returns the length of the whole message, or 0 if the handle holds no refusal. */
PEG_API size_t peg_grammar_message(peg_grammar *grammar, uint8_t *out, size_t out_length);

/* Writes the kind of a refusal, and the part of the file that it is about.
 * Returns PEG_OK, or PEG_WRONG_HANDLE if the handle holds no refusal; `out` is then unchanged. */
PEG_API uint32_t peg_grammar_refusal_info(peg_grammar *grammar, peg_refusal_info *out);

/* Writes the number of rules of a grammar, which is at least 1. Rules are numbered from 0, as in the file.
 * Returns PEG_OK, or PEG_WRONG_HANDLE if the handle holds no grammar; `out` is then unchanged. */
PEG_API uint32_t peg_rule_count(peg_grammar *grammar, uint32_t *out);

/* Copies the name of a rule to `out`, without a final null byte. If the name is longer than `out_length`, only its
 * start is copied. Returns the length of the whole name, or 0 if there is no such rule or no grammar. */
PEG_API size_t peg_rule_name(peg_grammar *grammar, uint32_t rule, uint8_t *out, size_t out_length);

/* Writes the number of the rule with a name. The time is linear in the number of rules.
 * Returns PEG_OK. Otherwise `out` is unchanged. PEG_NO_SUCH_RULE: no rule has the name. PEG_WRONG_HANDLE: the handle
 * holds no grammar. */
PEG_API uint32_t peg_rule_number(peg_grammar *grammar, const uint8_t *name, size_t name_length, uint32_t *out);

/* ---- lines that pegtool prints about a grammar
 *
 * Each of these calls makes the line that a command of pegtool prints for the same grammar file, without its line end,
 * and stores it in `out`. docs/USAGE.md describes the lines. `grammar` is unchanged.
 * They return PEG_OK; the caller then has to release `out` with `peg_line_free`.
 * Otherwise `out` is unchanged. PEG_WRONG_HANDLE: the handle holds no grammar. PEG_OUT_OF_MEMORY: a request for memory
 * failed. */

/* The line of `pegtool code`: the instructions that the grammar compiles to. */
PEG_API uint32_t peg_code(peg_grammar *grammar, peg_line *out);

/* The line of `pegtool table`: what the expression of each rule can do. */
PEG_API uint32_t peg_table(peg_grammar *grammar, peg_line *out);

/* The line of `pegtool lint`: the warnings about the grammar, which are `{"warnings":[]}` if there are none. Texts are
 * parsed from the rule that `start` names, or from the first rule if `start` is empty. If `proved` isn't 0, there are
 * only warnings of proved kinds.
 * Returns PEG_NO_SUCH_START if no rule has the name; `out` is then unchanged. */
PEG_API uint32_t peg_lint(peg_grammar *grammar, const uint8_t *start, size_t start_length, uint32_t proved,
                          peg_line *out);

/* Makes `out` another handle of the line that `line` holds, as `peg_grammar_share` does for a grammar. */
PEG_API uint32_t peg_line_share(peg_line *line, peg_line *out);

/* Releases what a handle holds and leaves the handle null. Its memory is freed if no other handle shares it. */
PEG_API void peg_line_free(peg_line *line);

/* Copies a line to `out`, without a final null byte. If it is longer than `out_length`, only its start is copied.
 * Returns the length of the whole line, or 0 if the handle holds no line. */
PEG_API size_t peg_line_text(peg_line *line, uint8_t *out, size_t out_length);

/* ---- parses */

/* Parses a prefix of a text and stores the answer in `out`. `start` is the name of the start rule, or empty for the
 * first rule. `memo` is the capacity of the memo, which changes no result, only the time and the steps; 0 is none.
 * `steps` is the greatest number of steps of each run of the parse, as under "Steps"; 0 is no limit. `grammar` is
 * unchanged.
 * Returns PEG_OK if a prefix matched, and PEG_FAILED if none did. `out` then holds the answer, and the caller has to
 * release it with `peg_match_free`. To match the whole text, compare `consumed` of the summary with its length.
 * Otherwise `out` is unchanged. PEG_WRONG_HANDLE: `grammar` holds no grammar. PEG_NO_SUCH_START: no rule has the name.
 * PEG_TEXT_TOO_LONG: the text is too long, and the start has a rule. PEG_STEP_LIMIT: the parse takes more steps than
 * `steps`. PEG_OUT_OF_MEMORY: a request for memory failed. */
PEG_API uint32_t peg_parse(peg_grammar *grammar, const uint8_t *text, size_t text_length, const uint8_t *start,
                           size_t start_length, uint32_t memo, uint64_t steps, peg_match *out);

/* Reads a grammar file for parses whose trees have the root and the nodes of chosen rules. `shown` has a byte for each
 * rule by its number: if it is 0, nodes of the rule aren't made, and their children take their place. So a parse takes
 * less time and memory. Rules whose bytes are missing aren't shown: with `shown_length` 0 the root is the only node.
 * Returns PEG_OK; the caller then has to release `out` with `peg_parser_free`.
 * Otherwise `out` is unchanged. PEG_REFUSED: the file is refused, and `peg_grammar_read` gives the reason.
 * PEG_OUT_OF_MEMORY: a request for memory failed. */
PEG_API uint32_t peg_parser_read(const uint8_t *file, size_t file_length, const uint8_t *shown, size_t shown_length,
                                 peg_parser *out);

/* Makes `out` another handle of the parser that `parser` holds, as `peg_grammar_share` does for a grammar. */
PEG_API uint32_t peg_parser_share(peg_parser *parser, peg_parser *out);

/* Releases what a handle holds and leaves the handle null. Its memory is freed if no other handle shares it. */
PEG_API void peg_parser_free(peg_parser *parser);

/* Parses a prefix of a text as `peg_parse` does for a grammar of the same file. Status, summary and expected terminals
 * are those of `peg_parse`, but for the number of nodes. Rule numbers are the grammar's. `parser` is unchanged. */
PEG_API uint32_t peg_parser_parse(peg_parser *parser, const uint8_t *text, size_t text_length, const uint8_t *start,
                                  size_t start_length, uint32_t memo, uint64_t steps, peg_match *out);

/* Parses many records of one text. Each of the `record_count` records is parsed as `peg_parser_parse` parses a text of
 * its bytes alone, and gets the status, the lengths and the nodes of that call. The nodes of all records are written
 * to `nodes`, one record after the other: those of record i are `nodes[records[i].first]` and the ones after it.
 * Offsets of nodes are offsets in their record. `start`, `memo` and `steps` are those of `peg_parse`, for each record.
 * `parser` is unchanged.
 * The status of a record is PEG_OK or PEG_FAILED, or else it has no answer and no nodes. PEG_OUT_OF_RANGE: `start` is
 * greater than `end`, or `end` than `text_length`. PEG_TEXT_TOO_LONG: the record is too long. PEG_STEP_LIMIT: the
 * parse takes more steps than `steps`. The records after it are parsed all the same.
 * The call stops before the first record whose nodes don't fit into `nodes`, which has room for `node_capacity` of
 * them, and at most for 4,294,967,295. `out->wanted` is then their number. It stops, too, if a request for memory fails
 * after the first record. Records and nodes that it didn't reach are unchanged. Call it again for the records that are
 * left.
 * Returns PEG_OK. Otherwise records, nodes and `out` are unchanged. PEG_WRONG_HANDLE: `parser` holds no parser.
 * PEG_NO_SUCH_START: no rule has the name. PEG_OUT_OF_MEMORY: a request for memory failed, and no record was parsed. */
PEG_API uint32_t peg_parser_records(peg_parser *parser, const uint8_t *text, size_t text_length, const uint8_t *start,
                                    size_t start_length, uint32_t memo, uint64_t steps, peg_record *records,
                                    size_t record_count, peg_node *nodes, size_t node_capacity, peg_progress *out);

/* Makes the line that `pegtool profile` prints for a text, without its line end, and stores it in `out`: how often the
 * parse calls each rule, and at how many positions. docs/USAGE.md describes the line. `start`, `memo` and `steps` are
 * those of `peg_parse`; the program's own capacity of the memo is 0 here. A parse that takes more steps than `steps` is
 * stopped there, and has a profile, too. The rules that the parser shows don't matter. `parser` is unchanged.
 * Returns PEG_OK; the caller then has to release `out` with `peg_line_free`.
 * Otherwise `out` is unchanged. PEG_WRONG_HANDLE: `parser` holds no parser. PEG_NO_SUCH_START: no rule has the name.
 * PEG_TEXT_TOO_LONG: the text is too long, and the start has a rule. PEG_OUT_OF_MEMORY: a request for memory failed. */
PEG_API uint32_t peg_parser_profile(peg_parser *parser, const uint8_t *text, size_t text_length, const uint8_t *start,
                                    size_t start_length, uint32_t memo, uint64_t steps, peg_line *out);

/* Makes `out` another handle of the answer that `match` holds, as `peg_grammar_share` does for a grammar. */
PEG_API uint32_t peg_match_share(peg_match *match, peg_match *out);

/* Releases what a handle holds and leaves the handle null. Its memory is freed if no other handle shares it. */
PEG_API void peg_match_free(peg_match *match);

/* Writes the summary of an answer.
 * Returns PEG_OK, or PEG_WRONG_HANDLE if the handle holds no answer; `out` is then unchanged. */
PEG_API uint32_t peg_match_summary(peg_match *match, peg_summary *out);

/* Copies the nodes of the parse tree, from number `from` on, to `out`: as many as there are and fit.
 * Returns their number, which is 0 if the handle holds no tree. The rest of `out` is unchanged. */
PEG_API size_t peg_match_nodes(peg_match *match, size_t from, peg_node *out, size_t out_length);

/* Copies the spans in the grammar file of the terminals that failed at the furthest position, in ascending order of the
 * terminals, from number `from` on, to `out`: as many as there are and fit.
 * Returns their number, which is 0 if the handle holds no answer. The rest of `out` is unchanged. */
PEG_API size_t peg_match_expected(peg_match *match, size_t from, peg_span *out, size_t out_length);

/* ---- explanations */

/* Explains where a text doesn't match as a whole, as `pegtool explain` does, and stores the explanation in `out`.
 * `name` is how the message calls the text. `start`, `memo` and `steps` are those of `peg_parse`. `grammar` is
 * unchanged.
 * The parse is by a larger grammar, whose items tell where predicates fail: it takes more steps than `peg_parse`, and
 * each call compiles that grammar. So parse first, and explain only what doesn't match. To explain many texts, read an
 * explainer once.
 * Returns PEG_OK if the text matches as a whole; `out` is then unchanged.
 * Returns PEG_FAILED if it doesn't; `out` then holds the explanation, and the caller has to release it with
 * `peg_explanation_free`. The other statuses are those of `peg_parse`, and leave `out` unchanged. */
PEG_API uint32_t peg_explain(peg_grammar *grammar, const uint8_t *name, size_t name_length, const uint8_t *text,
                             size_t text_length, const uint8_t *start, size_t start_length, uint32_t memo,
                             uint64_t steps, peg_explanation *out);

/* Makes `out` another handle of the explanation that `explanation` holds, as `peg_grammar_share` does for a grammar. */
PEG_API uint32_t peg_explanation_share(peg_explanation *explanation, peg_explanation *out);

/* Reads a grammar file, and compiles the larger grammar by which explanations parse. `peg_explainer_explain` doesn't
 * compile it again.
 * Returns PEG_OK; the caller then has to release `out` with `peg_explainer_free`.
 * Otherwise `out` is unchanged. PEG_REFUSED: the file is refused, and `peg_grammar_read` gives the reason.
 * PEG_OUT_OF_MEMORY: a request for memory failed. */
PEG_API uint32_t peg_explainer_read(const uint8_t *file, size_t file_length, peg_explainer *out);

/* Makes `out` another handle of the explainer that `explainer` holds, as `peg_grammar_share` does for a grammar. */
PEG_API uint32_t peg_explainer_share(peg_explainer *explainer, peg_explainer *out);

/* Releases what a handle holds and leaves the handle null. Its memory is freed if no other handle shares it. */
PEG_API void peg_explainer_free(peg_explainer *explainer);

/* Explains where a text doesn't match as a whole. The explanation, the steps and the statuses are those of
 * `peg_explain` for a grammar of the same file. `explainer` is unchanged. */
PEG_API uint32_t peg_explainer_explain(peg_explainer *explainer, const uint8_t *name, size_t name_length,
                                       const uint8_t *text, size_t text_length, const uint8_t *start,
                                       size_t start_length, uint32_t memo, uint64_t steps, peg_explanation *out);

/* Releases what a handle holds and leaves the handle null. Its memory is freed if no other handle shares it. */
PEG_API void peg_explanation_free(peg_explanation *explanation);

/* Copies the message to `out`: `NAME:LINE:COLUMN: expected ITEMS, found WORD`, the line of the text, and a caret.
 * If the grammar is too large for an analysis of its items, a line with a note follows. Each line ends with LF; there
 * is no final null byte. If the message is longer than `out_length`, only its start is copied. Returns the length of
 * the whole message, or 0 if the handle holds no explanation. */
PEG_API size_t peg_explanation_message(peg_explanation *explanation, uint8_t *out, size_t out_length);

/* Writes the position where the text doesn't match, and how much is expected there.
 * Returns PEG_OK, or PEG_WRONG_HANDLE if the handle holds no explanation; `out` is then unchanged. */
PEG_API uint32_t peg_explanation_mismatch(peg_explanation *explanation, peg_mismatch *out);

/* Copies the spans in the grammar file of the items that are expected at the position, in ascending order of the items,
 * from number `from` on, to `out`: as many as there are and fit.
 * Returns their number, which is 0 if the handle holds no explanation. The rest of `out` is unchanged. */
PEG_API size_t peg_explanation_expected(peg_explanation *explanation, size_t from, peg_span *out, size_t out_length);

/* ---- positions, and the library itself */

/* Writes the line and the column of an offset of a file or a text. The time is linear in the offset.
 * Returns PEG_OK, or PEG_OUT_OF_RANGE if the offset is greater than the length or than 2,147,483,647; `out` is then
 * unchanged. */
PEG_API uint32_t peg_locate(const uint8_t *text, size_t text_length, size_t offset, peg_location *out);

/* Returns the number of the binary interface. If it isn't PEG_ABI, the library doesn't fit this header. */
PEG_API uint32_t peg_abi(void);

/* Copies the name of a status to `out`, such as PEG_OK, without a final null byte. If it is longer than `out_length`,
 * only its start is copied. Returns the length of the whole name, or 0 for a number that is no status. */
PEG_API size_t peg_status_name(uint32_t status, uint8_t *out, size_t out_length);

/* Copies the version of the library to `out`, such as 0.1.0, without a final null byte. If it is longer than
 * `out_length`, only its start is copied. Returns the length of the whole version. */
PEG_API size_t peg_version(uint8_t *out, size_t out_length);

/* ---- conveniences
 *
 * These functions are compiled as a part of the program that includes this file, and call the ones above. */

/* Returns the address of bytes, as the calls above take it, or any valid address if `bytes` is NULL. So bytes of any
 * type can be passed, and NULL with a length of 0:
 * `peg_parse(&grammar, peg_bytes(line), length, peg_bytes(NULL), 0, PEG_DEFAULT_MEMO, 0, &match)`. */
static inline const uint8_t *peg_bytes(const void *bytes) {
#ifdef __cplusplus
    return static_cast<const uint8_t *>(bytes ? bytes : "");
#else
    return (const uint8_t *)(bytes ? bytes : "");
#endif
}

/* Returns the name of a status for a message, such as "PEG_OK", or "" for a number that is no status. It is the name
 * that `peg_status_name` copies, as a string that needn't be freed. */
static inline const char *peg_status_string(uint32_t status) {
    static const char *const names[] = {
        "PEG_OK",           "PEG_FAILED",        "PEG_REFUSED",    "PEG_NO_SUCH_START",
        "PEG_WRONG_HANDLE", "PEG_OUT_OF_MEMORY", "PEG_STEP_LIMIT", "PEG_TEXT_TOO_LONG",
        "PEG_OUT_OF_RANGE", "PEG_NO_SUCH_RULE",
    };
    return status < sizeof names / sizeof *names ? names[status] : "";
}

/* Each of these functions releases what a handle holds, as the `free` function of its type does, and leaves the handle
 * null. It does nothing if the pointer is NULL. */
static inline void peg_grammar_drop(peg_grammar *grammar) {
    if (grammar) {
        peg_grammar_free(grammar);
    }
}

static inline void peg_line_drop(peg_line *line) {
    if (line) {
        peg_line_free(line);
    }
}

static inline void peg_parser_drop(peg_parser *parser) {
    if (parser) {
        peg_parser_free(parser);
    }
}

static inline void peg_match_drop(peg_match *match) {
    if (match) {
        peg_match_free(match);
    }
}

static inline void peg_explainer_drop(peg_explainer *explainer) {
    if (explainer) {
        peg_explainer_free(explainer);
    }
}

static inline void peg_explanation_drop(peg_explanation *explanation) {
    if (explanation) {
        peg_explanation_free(explanation);
    }
}

#ifdef __cplusplus
}
#endif

#endif
