/* Replays the stored sample through the static library: reads requests from standard input, asks the entries of include/lihvemur.h, and prints an answer a line.
 *
 * A request, in little-endian 16-bit words: op; number of table words, low then high; the table; number of further words; the further words. Those that are missing are zeros.
 * Ops: 1 check; 2 first0 (symbols); 3 first1 (the lookahead's four words, low first, then symbols); 4 trace_back (state, then symbols);
 * 5 backtrace_shift, 6 backtrace_reduce (state, production, index, and how many words of graph and scratch are lent);
 * 7 add_edge (the edge's eight words, how many words of the graph are lent, then the words at its front);
 * 8 the next example of any listing (production, index, whether it is filtered, the set's four words, count low and high, whether it is open, how many words of graph, scratch and buffer are lent,
 *   number of graph words, whether the first 32,000 words of scratch are zeros, the words at the graph's front, the words at the scratch's front);
 * 9 examples (production, index, whether it is filtered, the set's four words, how many words of graph, scratch and output are lent, number of numbers of the list of calls, the numbers, the words at the graph's front);
 * 10 classify (the conflict's five words, how many words of scratch, of the action's and of the reduce's example buffer are lent);
 * 11 choose (state, production, action, operand, the set's four words, how many words of scratch and of entries are lent);
 * 12 observed (number of words of the first buffer, its words, then the second's);
 * 13 opening a listing (production, index, whether it is filtered, the set's four words, how many words of the graph are lent, the words at its front);
 * 16 first0_joined (number of words of the first list, its words, then the second's); 17 trace_back_joined (state, then as 16); 18 respell (how many words of output are lent); 19 compact;
 * 20 build_states (start production, how many words of scratch, of output and of conflicts are lent);
 * 21 read_yacc (in place of a table the text's bytes, two a word, the low one first; how many words of the table and of the places are lent, number of bytes, at which of them one stands several times, how many times more);
 * 22 write_yacc (how many bytes are lent). Ops 14 and 15, of token sets and items, ask what has no entry for C: the program of crates/item_sets answers them.
 *
 * An answer begins with answer and place, then what stands behind the other pointers, whether the call wrote it or not: it was 7 before (a set: token 7; whether a list is nullable: yes; a count of entries: 77).
 * 2, 16: whether the list is nullable, the set's tokens. 3: the set's tokens. 4, 17: the states. 5, 6, 7: number of edges, digest of the graph, of 5 and 6 that of the scratch; with answer 0 the count and the edges.
 * 8: count, openness, digests of scratch and buffer, the buffer's first 16 words. 9: number of calls, digests of scratch and output, the output's first 24 words.
 * 10: class, own values in halves of one word, trials of both sides, digests of scratch and both buffers, the words of each example that the class has. 11: count, digests of scratch and entries, the entries.
 * 12: in which buffer, number of words, the words (no place). 18, 19: number of records, digest of the output or of the table with the lent words behind it, its first 24 words.
 * 20: numbers of records and of conflicts, digests of scratch, output and conflicts, the first 24 words of the output and 20 of the conflicts.
 * 21: numbers of records and of places, the start, digests of table and places, the first 24 words of the table and 12 of the places. 22: number of bytes, their digest, the first 24.
 * Lent words are sevens before (buffers and outputs of listings zeros), but for what the request puts there. An unknown op gets `?`; a request that is cut short or too long for the buffers ends the run.
 * Each lent buffer has some words more than a call takes, so that those behind show that they stay. The table's buffer holds one record more than is accepted, so that refusal 1 can be asked. */
#include "lihvemur.h"

#include <stdio.h>
#include <string.h>

enum {
    REQUEST_TABLE = LIHVEMUR_TABLE_WORDS + 4,
    REQUEST_MORE = 8448,
    TABLE = LIHVEMUR_TABLE_WORDS + 8,
    GRAPH = LIHVEMUR_GRAPH_WORDS + 7,
    SCRATCH = LIHVEMUR_SCRATCH_WORDS + 8,
    BUFFER = 2000,
    CALLS = 96,
    EXAMPLE = LIHVEMUR_EXAMPLE_WORDS + 2,
    ENTRIES = LIHVEMUR_ENTRIES_WORDS + 6,
    BUILD_SCRATCH = LIHVEMUR_BUILD_WORDS + 8,
    CONFLICTS = 10008,
    GRAMMAR = 8848,
    PLACES = 104,
    TEXT = LIHVEMUR_TEXT_BYTES + 9,
    WRITTEN = LIHVEMUR_WRITTEN_BYTES + 12,
    TOKENS = 64,
    EXAMPLE_COUNTS = 3, /* words of an example in front of its symbols: symbols, cursor, reductions */
    SYMBOL_WORDS = 2,
    REDUCTION_WORDS = 3
};

/* A list of words, or its front or its rest. */
struct words {
    const uint16_t *at;
    size_t count;
};

/* A table and further words, and the two behind the op that hold them. */
struct request {
    struct words table, more;
};

static uint16_t table_buffer[REQUEST_TABLE], more_buffer[REQUEST_MORE];

static size_t least(size_t a, size_t b)
{
    return a < b ? a : b;
}

static struct words front(struct words list, size_t count)
{
    return (struct words){list.at, least(count, list.count)};
}

static struct words rest(struct words list, size_t from)
{
    from = least(from, list.count);
    return (struct words){list.at + from, list.count - from};
}

/* Further word k of a request, or 0. */
static uint16_t at(const struct request *request, size_t k)
{
    return k < request->more.count ? request->more.at[k] : 0;
}

static struct words rest_at(const struct request *request, size_t k)
{
    return rest(request->more, k);
}

/* A set of tokens from its four words, the lowest first; those that are missing are zeros. */
static uint64_t set_at(const struct request *request, size_t k)
{
    uint64_t set = 0;
    for (size_t i = 4; i-- > 0;)
        set = set << 16 | at(request, k + i);
    return set;
}

static void fill(uint16_t *buffer, size_t count, uint16_t word)
{
    for (size_t k = 0; k < count; k++)
        buffer[k] = word;
}

/* Words put at a buffer's front, as many as it has room for. */
static void put(struct words from, uint16_t *buffer, size_t count)
{
    memcpy(buffer, from.at, least(from.count, count) * sizeof *buffer);
}

static void say(uint64_t number)
{
    printf(" %llu", (unsigned long long)number);
}

static void say_answer(uint16_t answer, uint16_t place)
{
    printf("%u", (unsigned)answer);
    say(place);
}

static void say_halves(uint64_t word)
{
    say(word % 4294967296);
    say(word / 4294967296);
}

/* The places of a word's ones, counted from a number. */
static void say_ones(uint64_t bits, unsigned from)
{
    for (unsigned k = 0; k < 64; k++)
        if (bits >> k & 1)
            say(from + k);
}

static void say_words(struct words list)
{
    for (size_t k = 0; k < list.count; k++)
        say(list.at[k]);
}

static void say_front(const uint16_t *buffer, size_t size, size_t count)
{
    say_words((struct words){buffer, least(count, size)});
}

/* A number that depends on every word of a list. */
static void say_digest(const uint16_t *buffer, size_t count)
{
    uint64_t digest = 1;
    for (size_t k = 0; k < count; k++)
        digest = (digest * 31 + buffer[k]) % 65521;
    say(digest);
}

static void ask_check(const struct request *request)
{
    uint16_t place = 7;
    uint16_t answer = lihvemur_check(request->table.at, request->table.count, &place);
    say_answer(answer, place);
}

static void ask_first0(const struct request *request)
{
    uint16_t place = 7;
    bool nullable = true;
    uint64_t set = 128;
    uint16_t answer = lihvemur_first0(request->table.at, request->table.count, request->more.at, request->more.count, &set, &nullable, &place);
    say_answer(answer, place);
    say(nullable);
    say_ones(set, 0);
}

static void ask_first0_joined(const struct request *request)
{
    uint16_t place = 7;
    bool nullable = true;
    uint64_t set = 128;
    size_t count = at(request, 0);
    struct words xs = front(rest_at(request, 1), count), ys = rest_at(request, 1 + count);
    uint16_t answer = lihvemur_first0_joined(request->table.at, request->table.count, xs.at, xs.count, ys.at, ys.count, &set, &nullable, &place);
    say_answer(answer, place);
    say(nullable);
    say_ones(set, 0);
}

static void ask_first1(const struct request *request)
{
    uint16_t place = 7;
    uint64_t set = 128;
    struct words symbols = rest_at(request, 4);
    uint16_t answer = lihvemur_first1(request->table.at, request->table.count, set_at(request, 0), symbols.at, symbols.count, &set, &place);
    say_answer(answer, place);
    say_ones(set, 0);
}

static void say_states(uint16_t answer, uint16_t place, uint64_t low, uint64_t high)
{
    say_answer(answer, place);
    say_ones(low, 0);
    say_ones(high, 64);
}

static void ask_trace_back(const struct request *request)
{
    uint16_t place = 7;
    uint64_t low = 128, high = 128;
    struct words symbols = rest_at(request, 1);
    uint16_t answer = lihvemur_trace_back(request->table.at, request->table.count, at(request, 0), symbols.at, symbols.count, &low, &high, &place);
    say_states(answer, place, low, high);
}

static void ask_trace_back_joined(const struct request *request)
{
    uint16_t place = 7;
    uint64_t low = 128, high = 128;
    size_t count = at(request, 1);
    struct words xs = front(rest_at(request, 2), count), ys = rest_at(request, 2 + count);
    uint16_t answer = lihvemur_trace_back_joined(request->table.at, request->table.count, at(request, 0), xs.at, xs.count, ys.at, ys.count, &low, &high, &place);
    say_states(answer, place, low, high);
}

static void say_traced(uint16_t answer, uint16_t place, uint16_t edges, const uint16_t *graph)
{
    say_answer(answer, place);
    say(edges);
    say_digest(graph, GRAPH);
}

static void say_graph(uint16_t answer, uint16_t edges, const uint16_t *graph)
{
    if (answer == 0)
        say_front(graph, GRAPH, 1 + (size_t)edges * LIHVEMUR_EDGE_WORDS);
}

static void ask_backtrace(const struct request *request, bool shifts)
{
    static uint16_t graph[GRAPH], scratch[SCRATCH];
    uint16_t place = 7, edges = 7;
    fill(graph, GRAPH, 7);
    fill(scratch, SCRATCH, 7);
    uint16_t answer = (shifts ? lihvemur_backtrace_shift : lihvemur_backtrace_reduce)(
        request->table.at, request->table.count, at(request, 0), at(request, 1), at(request, 2),
        graph, least(at(request, 3), GRAPH), scratch, least(at(request, 4), SCRATCH), &edges, &place);
    say_traced(answer, place, edges, graph);
    say_digest(scratch, SCRATCH);
    say_graph(answer, edges, graph);
}

static void ask_add_edge(const struct request *request)
{
    static uint16_t graph[GRAPH];
    uint16_t place = 7, edges = 7;
    fill(graph, GRAPH, 7);
    put(rest_at(request, 9), graph, GRAPH);
    uint16_t answer = lihvemur_add_edge(
        request->table.at, request->table.count, at(request, 0), at(request, 1), at(request, 2), at(request, 3), at(request, 4), at(request, 5),
        at(request, 6), at(request, 7), graph, least(at(request, 8), GRAPH), &edges, &place);
    say_traced(answer, place, edges, graph);
    say_graph(answer, edges, graph);
}

static void ask_advance(const struct request *request)
{
    static uint16_t graph[GRAPH], scratch[SCRATCH], buffer[BUFFER];
    uint16_t place = 7;
    uint32_t count = at(request, 7) + (uint32_t)at(request, 8) * 65536;
    bool is_open = at(request, 9) != 0;
    size_t graph_count = at(request, 13);
    fill(graph, GRAPH, 7);
    fill(scratch, SCRATCH, 7);
    fill(buffer, BUFFER, 0);
    put(front(rest_at(request, 15), graph_count), graph, GRAPH);
    if (at(request, 14) != 0)
        fill(scratch, LIHVEMUR_SCRATCH_WORDS, 0);
    put(rest_at(request, 15 + graph_count), scratch, SCRATCH);
    uint16_t answer = lihvemur_advance(
        request->table.at, request->table.count, at(request, 0), at(request, 1), at(request, 2) != 0, set_at(request, 3),
        graph, least(at(request, 10), GRAPH), scratch, least(at(request, 11), SCRATCH), buffer, least(at(request, 12), BUFFER), &count, &is_open, &place);
    say_answer(answer, place);
    say(count);
    say(is_open);
    say_digest(scratch, SCRATCH);
    say_digest(buffer, BUFFER);
    say_front(buffer, BUFFER, 16);
}

static void ask_examples(const struct request *request)
{
    static uint16_t graph[GRAPH], scratch[SCRATCH], output[SCRATCH];
    static uint32_t calls[CALLS];
    uint16_t place = 7;
    size_t made = 7, count = at(request, 10);
    struct words numbers = front(rest_at(request, 11), count);
    fill(graph, GRAPH, 7);
    fill(scratch, SCRATCH, 7);
    fill(output, SCRATCH, 0);
    memset(calls, 0, sizeof calls);
    for (size_t k = 0; k < least(numbers.count, CALLS); k++)
        calls[k] = numbers.at[k];
    put(rest_at(request, 11 + count), graph, GRAPH);
    uint16_t answer = lihvemur_examples(
        request->table.at, request->table.count, at(request, 0), at(request, 1), at(request, 2) != 0, set_at(request, 3),
        calls, least(count, CALLS), graph, least(at(request, 7), GRAPH), scratch, least(at(request, 8), SCRATCH), output, least(at(request, 9), SCRATCH), &made, &place);
    say_answer(answer, place);
    say(made);
    say_digest(scratch, SCRATCH);
    say_digest(output, SCRATCH);
    say_front(output, SCRATCH, 24);
}

static void ask_open(const struct request *request)
{
    static uint16_t graph[GRAPH];
    uint16_t place = 7;
    fill(graph, GRAPH, 7);
    put(rest_at(request, 8), graph, GRAPH);
    size_t count = least(at(request, 7), GRAPH);
    uint16_t answer = at(request, 2) == 0
        ? lihvemur_lr0_examples(request->table.at, request->table.count, at(request, 0), at(request, 1), graph, count, &place)
        : lihvemur_lr1_examples(request->table.at, request->table.count, at(request, 0), at(request, 1), set_at(request, 3), graph, count, &place);
    say_answer(answer, place);
}

static void say_example(const uint16_t *buffer)
{
    say_front(buffer, EXAMPLE, EXAMPLE_COUNTS + SYMBOL_WORDS * (size_t)buffer[0] + REDUCTION_WORDS * (size_t)buffer[2]);
}

static void ask_classify(const struct request *request)
{
    static uint16_t scratch[SCRATCH], action[EXAMPLE], reduce[EXAMPLE];
    uint16_t place = 7, class_number = 7;
    uint64_t values = 7;
    uint32_t action_trials = 7, reduce_trials = 7;
    fill(scratch, SCRATCH, 7);
    fill(action, EXAMPLE, 7);
    fill(reduce, EXAMPLE, 7);
    uint16_t answer = lihvemur_classify(
        request->table.at, request->table.count, at(request, 0), at(request, 1), at(request, 2), at(request, 3), at(request, 4),
        scratch, least(at(request, 5), SCRATCH), action, least(at(request, 6), EXAMPLE), reduce, least(at(request, 7), EXAMPLE),
        &class_number, &values, &action_trials, &reduce_trials, &place);
    say_answer(answer, place);
    say(class_number);
    say_halves(values);
    say(action_trials);
    say(reduce_trials);
    say_digest(scratch, SCRATCH);
    say_digest(action, EXAMPLE);
    say_digest(reduce, EXAMPLE);
    if (class_number == 0 || class_number == 7)
        return;
    say_example(action);
    if (class_number != 5)
        say_example(reduce);
}

static void ask_choose(const struct request *request)
{
    static uint16_t scratch[SCRATCH], entries[ENTRIES];
    uint16_t place = 7;
    size_t count = 77;
    fill(scratch, SCRATCH, 7);
    fill(entries, ENTRIES, 7);
    uint16_t answer = lihvemur_choose(
        request->table.at, request->table.count, at(request, 0), at(request, 1), at(request, 2), at(request, 3), set_at(request, 4),
        scratch, least(at(request, 8), SCRATCH), entries, least(at(request, 9), ENTRIES), &count, &place);
    say_answer(answer, place);
    say(count);
    say_digest(scratch, SCRATCH);
    say_digest(entries, ENTRIES);
    if (answer == 0)
        say_front(entries, ENTRIES, least(count, TOKENS) * LIHVEMUR_ENTRY_WORDS);
}

static void ask_observed(const struct request *request)
{
    size_t words = 7, count = at(request, 0);
    struct words action = front(rest_at(request, 1), count), reduce = rest_at(request, 1 + count);
    uint16_t which = lihvemur_observed(action.at, action.count, reduce.at, reduce.count, &words);
    printf("%u", (unsigned)which);
    say(words);
    say_words(front(rest(which == 0 ? action : reduce, EXAMPLE_COUNTS), words));
}

static void ask_respell(const struct request *request)
{
    static uint16_t out[TABLE];
    uint16_t place = 7, records = 7;
    fill(out, TABLE, 7);
    uint16_t answer = lihvemur_respell(request->table.at, request->table.count, out, least(at(request, 0), TABLE), &records, &place);
    say_answer(answer, place);
    say(records);
    say_digest(out, TABLE);
    say_front(out, TABLE, 24);
}

static void ask_compact(const struct request *request)
{
    static uint16_t lent[TABLE];
    uint16_t place = 7, records = 7;
    fill(lent, TABLE, 7);
    put(request->table, lent, TABLE);
    uint16_t answer = lihvemur_compact(lent, least(request->table.count, TABLE), &records, &place);
    say_answer(answer, place);
    say(records);
    say_digest(lent, TABLE);
    say_front(lent, TABLE, 24);
}

static void ask_build_states(const struct request *request)
{
    static uint16_t scratch[BUILD_SCRATCH], out[TABLE], conflicts[CONFLICTS];
    uint16_t place = 7, records = 7;
    uint32_t count = 7;
    fill(scratch, BUILD_SCRATCH, 7);
    fill(out, TABLE, 7);
    fill(conflicts, CONFLICTS, 7);
    uint16_t answer = lihvemur_build_states(
        request->table.at, request->table.count, at(request, 0), scratch, least(at(request, 1), BUILD_SCRATCH), out, least(at(request, 2), TABLE),
        conflicts, least(at(request, 3), CONFLICTS), &records, &count, &place);
    say_answer(answer, place);
    say(records);
    say(count);
    say_digest(scratch, BUILD_SCRATCH);
    say_digest(out, TABLE);
    say_digest(conflicts, CONFLICTS);
    say_front(out, TABLE, 24);
    say_front(conflicts, CONFLICTS, 20);
}

/* Byte k of the text in a request's table, in which the byte at `from` stands `times` times more; 0 behind its end. */
static uint8_t byte_at(struct words words, size_t k, size_t from, size_t times)
{
    size_t given = k < from ? k : k - from < times ? from : k - times;
    uint16_t word = given / 2 < words.count ? words.at[given / 2] : 0;
    return (uint8_t)(given % 2 == 0 ? word : word >> 8);
}

static void ask_read_yacc(const struct request *request)
{
    static uint8_t text[TEXT];
    static uint16_t table[GRAMMAR], places[PLACES];
    uint16_t place = 7, records = 7, count = 7, start = 7;
    size_t from = at(request, 3), times = at(request, 4), bytes = least(at(request, 2) + times, TEXT);
    for (size_t k = 0; k < bytes; k++)
        text[k] = byte_at(request->table, k, from, times);
    fill(table, GRAMMAR, 7);
    fill(places, PLACES, 7);
    uint16_t answer = lihvemur_read_yacc(
        text, bytes, table, least(at(request, 0), GRAMMAR), places, least(at(request, 1), PLACES), &records, &count, &start, &place);
    say_answer(answer, place);
    say(records);
    say(count);
    say(start);
    say_digest(table, GRAMMAR);
    say_digest(places, PLACES);
    say_front(table, GRAMMAR, 24);
    say_front(places, PLACES, 12);
}

static void ask_write_yacc(const struct request *request)
{
    static uint8_t text[WRITTEN];
    static uint16_t words[WRITTEN];
    uint16_t place = 7, bytes = 7;
    memset(text, 7, sizeof text);
    uint16_t answer = lihvemur_write_yacc(request->table.at, request->table.count, text, least(at(request, 0), WRITTEN), &bytes, &place);
    say_answer(answer, place);
    say(bytes);
    for (size_t k = 0; k < WRITTEN; k++)
        words[k] = text[k];
    say_digest(words, WRITTEN);
    say_front(words, WRITTEN, 24);
}

static void ask(uint16_t op, const struct request *request)
{
    switch (op) {
    case 1: ask_check(request); break;
    case 2: ask_first0(request); break;
    case 3: ask_first1(request); break;
    case 0:
    case 4: ask_trace_back(request); break;
    case 5: ask_backtrace(request, true); break;
    case 6: ask_backtrace(request, false); break;
    case 7: ask_add_edge(request); break;
    case 8: ask_advance(request); break;
    case 9: ask_examples(request); break;
    case 10: ask_classify(request); break;
    case 11: ask_choose(request); break;
    case 12: ask_observed(request); break;
    case 13: ask_open(request); break;
    case 16: ask_first0_joined(request); break;
    case 17: ask_trace_back_joined(request); break;
    case 18: ask_respell(request); break;
    case 19: ask_compact(request); break;
    case 20: ask_build_states(request); break;
    case 21: ask_read_yacc(request); break;
    case 22: ask_write_yacc(request); break;
    default: printf("?");
    }
    printf("\n");
}

/* Fills a list with words of standard input, by way of bytes; whether there were as many. */
static bool read_words(uint16_t *list, size_t count)
{
    for (size_t k = 0; k < count; k++) {
        int low = getchar(), high = getchar();
        if (low == EOF || high == EOF)
            return false;
        list[k] = (uint16_t)(low | high << 8);
    }
    return true;
}

/* The next request of standard input: whether there is one that is whole and fits. */
static bool read_request(uint16_t *op, struct request *request)
{
    uint16_t head[3], count;
    if (!read_words(head, 3))
        return false;
    size_t table_count = head[1] + (size_t)head[2] * 65536;
    if (table_count > REQUEST_TABLE || !read_words(table_buffer, table_count))
        return false;
    if (!read_words(&count, 1) || count > REQUEST_MORE || !read_words(more_buffer, count))
        return false;
    *op = head[0];
    *request = (struct request){{table_buffer, table_count}, {more_buffer, count}};
    return true;
}

int main(void)
{
    uint16_t op;
    struct request request;
    while (read_request(&op, &request))
        ask(op, &request);
    return 0;
}
