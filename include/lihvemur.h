/* Lihvemur: the exported entries of the static library (./library.sh: target/c/liblihvemur.a). tests/c/entries.c calls each.
 *
 * A list of words passes as a pointer and its number of words; a list of no words needs a pointer that is not null all the same.
 * Buffers lent to one call must not overlap: what a call may write (a list that is not const, a result) shares no byte with anything else that it is lent. No function keeps a pointer.
 *
 * A function answers 0, or the number of a refusal (docs/RULES.md, "Refusals", says what each means), and writes the refusal's place behind `place`, its last parameter.
 * Three numbers are no refusals: LIHVEMUR_END of `lihvemur_advance`, the same in the records of `lihvemur_examples`, and the answer of `lihvemur_observed`, 0 or 1, which refuses nothing.
 * Refusal 16 of `lihvemur_build_states` has the number of LIHVEMUR_END; no call gives both.
 * A result behind another pointer is written only with answer 0, unless this header says otherwise.
 *
 * Stack: a trace, and so a class or a choice, calls on itself, at most 4,096 times nested, and there takes up to 1.4 MB. Reading a yacc text takes some 660 KB, building states some 190 KB,
 * any other call less than 100 KB (docs/COSTS.md, "Stack"). 8 MiB suffice for every call.
 *
 * A set of tokens is a word, token k its bit k; the end of input is the token after the last terminal.
 */
#ifndef LIHVEMUR_H
#define LIHVEMUR_H

#include <stdbool.h>
#include <stddef.h>
#include <stdint.h>

#ifdef __cplusplus
extern "C" {
#endif

enum {
    LIHVEMUR_TABLE_WORDS = 32768,   /* a table at most (refusal 1) */
    LIHVEMUR_SCRATCH_WORDS = 32000, /* scratch at least (refusal 11) to trace and to list */
    LIHVEMUR_CLASSIFY_WORDS = 8000, /* scratch at least to classify and to choose (11) */
    LIHVEMUR_BUILD_WORDS = 64000,   /* scratch at least to build states (11) */
    LIHVEMUR_CONFLICT_WORDS = 5,    /* a conflict of those that are built */
    LIHVEMUR_TEXT_BYTES = 65535,    /* a yacc text at most (refusal 20) */
    LIHVEMUR_WRITTEN_BYTES = 9468,  /* a yacc text that is written has no more */
    LIHVEMUR_EXAMPLE_WORDS = 1158,  /* an example's buffer at least (11) */
    LIHVEMUR_GRAPH_WORDS = 8193,    /* a graph at least (11): a count, then its edges */
    LIHVEMUR_EDGE_WORDS = 8,        /* an edge of a graph */
    LIHVEMUR_ENTRIES_WORDS = 384,   /* the entries of a choice at least (11) */
    LIHVEMUR_ENTRY_WORDS = 6,       /* one of them */
    LIHVEMUR_CALL_NUMBERS = 3,      /* a call in the list of lihvemur_examples */
    LIHVEMUR_RECORD_WORDS = 3,      /* what is recorded of it in front of its buffer */
    LIHVEMUR_END = 16               /* the listing has ended: no refusal */
};

/* Refusals 1 to 8 of a table. */
uint16_t lihvemur_check(const uint16_t *table, size_t table_words, uint16_t *place);

/* Writes an accepted table afresh in the single spelling of its meaning, at the front of `out`; how many records that are behind `records`. Refusals 1 to 8, then 17 where they pass
 * 8,192 or the room of `out` (its words divided by 4); no refusal changes a word. Two tables that are written have equal words exactly if they mean the same. */
uint16_t lihvemur_respell(const uint16_t *table, size_t table_words, uint16_t *out, size_t out_words, uint16_t *records, uint16_t *place);

/* Takes back, in place, the records of an accepted table that no chain reaches; how many are left behind `records`. Those that are reached move down in their order and stay shared, indexes follow, and
 * every word behind them is 0. Refusals 1 to 8 alone; they change no word. The whole table and its front of that many records both mean what the table meant. */
uint16_t lihvemur_compact(uint16_t *table, size_t table_words, uint16_t *records, uint16_t *place);

/* Builds the canonical LR(1) states of a grammar, a table of one state that has no items and no edges, from production `start`: the full table at the front of `out`, in the spelling of
 * `lihvemur_respell`, and its conflicts at the front of `conflicts`, LIHVEMUR_CONFLICT_WORDS each (state, production, action, its terminal or production, token), ascending; behind `records` how many
 * records the table has, behind `count` how many conflicts there are. Refusals 1 to 8, then 11 for scratch, then 18 for a start production out of range or states already given, then, as states are
 * found, 16 for the 129th and 17 where the records pass 8,192 or the room of `out` (its words divided by 4); at the end 17 also where `conflicts` has too few words. 1 to 11 change no word. Success and
 * 16 to 18 zero the first LIHVEMUR_BUILD_WORDS of `scratch`; a refusal writes nothing in `out` and `conflicts`. */
uint16_t lihvemur_build_states(const uint16_t *table, size_t table_words, uint16_t start, uint16_t *scratch, size_t scratch_words,
                               uint16_t *out, size_t out_words, uint16_t *conflicts, size_t conflict_words, uint16_t *records, uint32_t *count, uint16_t *place);

/* Reads the rules of a yacc text (docs/YACC.md says which texts) into a grammar, a table of one state that has no items and no edges, at the front of `table`, and the places of its ids to the front of
 * `places`: for each nonterminal by number the first byte of its first left side, then for each terminal by number that of the occurrence that numbered it. With answer 0 the records behind `records`,
 * the places behind `count`, the start nonterminal behind `start`. Refusals 20 (no text of the grammar, or above LIHVEMUR_TEXT_BYTES), 21 (a name that nothing defines, or two ways), 2, 5, 17 in
 * this order; they change no word. */
uint16_t lihvemur_read_yacc(const uint8_t *text, size_t text_bytes, uint16_t *table, size_t table_words, uint16_t *places, size_t place_words,
                            uint16_t *records, uint16_t *count, uint16_t *start, uint16_t *place);

/* Writes the grammar of a table as a yacc text at the front of `text`, its nonterminals N0, N1, .. and its terminals T0, T1, ..; how many bytes that are behind `bytes`. Refusals 1 to 8, then 23 where a
 * nonterminal has no production or the first ones do not ascend, then 17 for room (LIHVEMUR_WRITTEN_BYTES are room for every table); they change no byte. */
uint16_t lihvemur_write_yacc(const uint16_t *table, size_t table_words, uint8_t *text, size_t text_bytes, uint16_t *bytes, uint16_t *place);

/* FIRST of a list of symbols, kind and number each (0 a nonterminal, 1 a terminal): with answer 0 its terminals behind `set`, and behind `nullable` whether the list may be empty. */
uint16_t lihvemur_first0(const uint16_t *table, size_t table_words, const uint16_t *symbols, size_t symbol_words, uint64_t *set, bool *nullable, uint16_t *place);

/* FIRST of two lists joined: as `lihvemur_first0` of the words of `xs` and then those of `ys`. Two lists of an odd number of words share a symbol. */
uint16_t lihvemur_first0_joined(const uint16_t *table, size_t table_words, const uint16_t *xs, size_t xs_words, const uint16_t *ys, size_t ys_words, uint64_t *set, bool *nullable, uint16_t *place);

/* FIRST of a list, a token of `lookahead` following: one set, in which the end of input stands only where it is in `lookahead` and the list may be empty. */
uint16_t lihvemur_first1(const uint16_t *table, size_t table_words, uint64_t lookahead, const uint16_t *symbols, size_t symbol_words, uint64_t *set, uint16_t *place);

/* The states from which a path spells the symbols and ends at `state`: 0 to 63 in `low`, 64 to 127 in `high`. */
uint16_t lihvemur_trace_back(const uint16_t *table, size_t table_words, uint16_t state, const uint16_t *symbols, size_t symbol_words, uint64_t *low, uint64_t *high, uint16_t *place);

/* The same over two lists joined, the words of `xs` and then those of `ys`. */
uint16_t lihvemur_trace_back_joined(const uint16_t *table, size_t table_words, uint16_t state, const uint16_t *xs, size_t xs_words, const uint16_t *ys, size_t ys_words, uint64_t *low, uint64_t *high, uint16_t *place);

/* Adds an edge to a graph, unless an equal one is there; the number of edges behind `edges`. A node is kind (0 nonterminal, 1 item), number (nonterminal or production), index (0, or the item's). */
uint16_t lihvemur_add_edge(const uint16_t *table, size_t table_words,
                           uint16_t source_kind, uint16_t source, uint16_t source_index,
                           uint16_t target_kind, uint16_t target, uint16_t target_index,
                           uint16_t production, uint16_t index,
                           uint16_t *graph, size_t graph_words, uint16_t *edges, uint16_t *place);

/* The trace graph of an item in a state: count and edges at the front of `graph`, `scratch` zeroed, the number of edges behind `edges`. */
uint16_t lihvemur_backtrace_shift(const uint16_t *table, size_t table_words, uint16_t state, uint16_t production, uint16_t index,
                                  uint16_t *graph, size_t graph_words, uint16_t *scratch, size_t scratch_words, uint16_t *edges, uint16_t *place);
uint16_t lihvemur_backtrace_reduce(const uint16_t *table, size_t table_words, uint16_t state, uint16_t production, uint16_t index,
                                   uint16_t *graph, size_t graph_words, uint16_t *scratch, size_t scratch_words, uint16_t *edges, uint16_t *place);

/* Opens a listing of the examples of an item over a graph: 0, or the refusal. A fresh listing has count 0 and is open; nothing else is to be handed out.
 * `lihvemur_lr1_examples` keeps the examples whose next tokens meet `lookahead`. */
uint16_t lihvemur_lr0_examples(const uint16_t *table, size_t table_words, uint16_t production, uint16_t index,
                               const uint16_t *graph, size_t graph_words, uint16_t *place);
uint16_t lihvemur_lr1_examples(const uint16_t *table, size_t table_words, uint16_t production, uint16_t index, uint64_t lookahead,
                               const uint16_t *graph, size_t graph_words, uint16_t *place);

/* Moves a listing on: 0 with an example at the front of `buffer`, LIHVEMUR_END at the end, else the refusal. The listing is its start item, `filtered` and `lookahead`,
 * and behind pointers its count and whether it is open; these two are those of the listing after the call, whatever the answer. Between calls nobody else may write `scratch`. */
uint16_t lihvemur_advance(const uint16_t *table, size_t table_words, uint16_t production, uint16_t index, bool filtered, uint64_t lookahead,
                          const uint16_t *graph, size_t graph_words, uint16_t *scratch, size_t scratch_words,
                          uint16_t *buffer, size_t buffer_words, uint32_t *count, bool *is_open, uint16_t *place);

/* A list of calls on one listing, three numbers a call: words of the graph and of the scratch that it is lent, words of its buffer. Of each call `output` gets
 * three words (answer number, count modulo 65,536, count divided by 65,536), then its buffer; the number of calls behind `made` with answer 0. */
uint16_t lihvemur_examples(const uint16_t *table, size_t table_words, uint16_t production, uint16_t index, bool filtered, uint64_t lookahead,
                           const uint32_t *calls, size_t call_numbers, const uint16_t *graph, size_t graph_words,
                           uint16_t *scratch, size_t scratch_words, uint16_t *output, size_t output_words, size_t *made, uint16_t *place);

/* The class of a conflict (docs/ANSWERS.md), five numbers: state, production, action (0 shift, 1 reduce), its terminal or production, token. With answer 0: `class_number`, the class's own
 * values in one word (16 bits each, the first lowest, absent ones 0), the trials of the two sides, and the examples at the front of their buffers (class 0 none, class 5 the action's). */
uint16_t lihvemur_classify(const uint16_t *table, size_t table_words, uint16_t state, uint16_t production, uint16_t action, uint16_t operand, uint16_t token,
                           uint16_t *scratch, size_t scratch_words, uint16_t *action_example, size_t action_words, uint16_t *reduce_example, size_t reduce_words,
                           uint16_t *class_number, uint64_t *values, uint32_t *action_trials, uint32_t *reduce_trials, uint16_t *place);

/* Which tokens of a conflict's set to report, with their classes: LIHVEMUR_ENTRY_WORDS an entry at the front of `entries` (token, class, up to four own values, zeros), their number
 * behind `count` with answer 0; no word past the entries changes. `entries` is lent LIHVEMUR_ENTRIES_WORDS, else the call is refused as one without scratch, by 11 at most. */
uint16_t lihvemur_choose(const uint16_t *table, size_t table_words, uint16_t state, uint16_t production, uint16_t action, uint16_t operand, uint64_t tokens,
                         uint16_t *scratch, size_t scratch_words, uint16_t *entries, size_t entry_words, size_t *count, uint16_t *place);

/* The observed symbols: in which of two examples they lie (0 the action's, 1 the reduce's), and behind `words` how many words they have there from word 3 on. */
uint16_t lihvemur_observed(const uint16_t *action, size_t action_words, const uint16_t *reduce, size_t reduce_words, size_t *words);

#ifdef __cplusplus
}
#endif

#endif
