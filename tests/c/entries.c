/* Every entry of include/lihvemur.h, called through the static library on table B of docs/RULES.md: its answers there, one refusal, and the words that a call must leave alone.
 * What the page does not print (trace graphs, edges added, choices) is compared with the stored sample (tests/sample), which has the same questions. */
#include "lihvemur.h"

#include <stdio.h>
#include <string.h>

enum {
    UNWRITTEN = 0x5A5A,
    LENT = LIHVEMUR_BUILD_WORDS + 2, /* words of each buffer here, some more than any call is lent */
    TOKEN_0 = 1,
    TOKEN_1 = 2,
    TOKEN_END = 4
};

#define COUNT(list) (sizeof(list) / sizeof((list)[0]))

/* E is E + E, or n. Terminals 0 + and 1 n, token 2 the end. */
static const uint16_t B[] = {
    1, 2, 4, 2, 6, 0, 0, 0, 12, 20, 0, 0, 14, 21, 0, 0, 15, 22, 0, 0, 18, 23, 0, 0,
    7, 8, 0, 9, 0, 11, 12, 13, 9, 0, 0, 0, 10, 1, 0, 0, 0, 0, 0, 0, 0, 1, 1, 0,
    13, 0, 0, 0, 0, 1, 0, 0, 0, 0, 1, 0, 16, 0, 2, 0, 17, 0, 0, 0, 0, 1, 0, 0,
    19, 0, 3, 0, 0, 0, 1, 0, 0, 0, 0, 1, 0, 1, 0, 2, 0, 0, 0, 3, 0, 1, 0, 2};

/* B with record 12's next index 12: refusal 3 at place 12. */
static uint16_t bad[COUNT(B)];

/* The grammar of B alone, and its table with the six states from production 0: state 4, behind E + E, has the one conflict. */
static const uint16_t GRAMMAR[] = {
    1, 2, 1, 2, 3, 0, 0, 0, 0, 0, 0, 0, 4, 5, 0, 9, 0, 8, 12, 13, 6, 0, 0, 0,
    7, 1, 0, 0, 0, 0, 0, 0, 0, 1, 1, 0};
static const uint16_t BUILT[] = {
    1, 2, 6, 2, 8, 0, 0, 0, 14, 24, 0, 0, 16, 26, 0, 0, 17, 0, 0, 0, 18, 27, 0, 0,
    21, 29, 0, 0, 23, 0, 0, 0, 9, 10, 0, 9, 0, 13, 12, 13, 11, 0, 0, 0, 12, 1, 0, 0,
    0, 0, 0, 0, 0, 1, 1, 0, 15, 0, 0, 0, 0, 1, 0, 0, 0, 0, 1, 0, 0, 1, 1, 0,
    19, 0, 0, 0, 20, 0, 2, 0, 0, 1, 0, 0, 22, 0, 1, 0, 0, 0, 3, 0, 0, 1, 1, 0,
    25, 0, 0, 1, 0, 1, 1, 2, 0, 1, 0, 3, 28, 0, 0, 4, 0, 1, 1, 5, 0, 1, 0, 3};
static const uint16_t CONFLICT[] = {4, 0, 0, 0, 0};

/* The same grammar as a yacc text, with what is read of it: GRAMMAR but for the spans, and where E, '+' and n stand; and as it is written. */
static const char TEXT[] = "%token '+' n\n%%\nE : E '+' E | n ;\n", UNDEFINED[] = "%% E : n ;", WRITTEN[] = "%token T0 T1\n%%\nN0 : N0 T0 N0 ;\nN0 : T1 ;\n";
static const uint16_t SPANS[] = {20, 27, 30, 31}, PLACES[] = {16, 7, 11};

/* Symbols, kind and number each. */
static const uint16_t E[] = {0, 0}, E_PLUS_E[] = {0, 0, 1, 0, 0, 0}, NOTHING[] = {0};

/* The trace graphs of state 3: count, then source, target and label of each edge. */
static const uint16_t SHIFT_GRAPH[] = {3, 0, 0, 0, 1, 0, 1, 0, 1, 1, 0, 2, 0, 0, 0, 0, 2, 0, 0, 0, 0, 0, 0, 0, 0};
static const uint16_t REDUCE_GRAPH[] = {4, 0, 0, 0, 1, 0, 3, 0, 3, 1, 0, 0, 0, 0, 0, 0, 0, 0, 0, 0, 0, 0, 0, 0, 2, 0, 0, 0, 1, 0, 2, 0, 2};

/* The two examples of conflict 3 0 0 0 0: counts, symbols, reductions. */
static const uint16_t ACTION[] = {5, 3, 2, 0, 0, 1, 0, 0, 0, 1, 0, 0, 0, 2, 5, 0, 0, 5, 0};
static const uint16_t REDUCE[] = {5, 3, 2, 0, 0, 1, 0, 0, 0, 1, 0, 0, 0, 0, 3, 0, 0, 5, 0};

static uint16_t graph[LENT], scratch[LENT], action[LENT], reduce[LENT], output[LENT], place;
static int failures;

static void expect(bool held, const char *said, const char *in, int line)
{
    if (!held) {
        printf("entries.c:%d: %s: not so: %s\n", line, in, said);
        failures++;
    }
}
#define EXPECT(condition) expect(condition, #condition, __func__, __LINE__)

/* Every lent word and `place` as no call leaves them. */
static void fresh(void)
{
    for (size_t i = 0; i < LENT; i++)
        graph[i] = scratch[i] = action[i] = reduce[i] = output[i] = UNWRITTEN;
    place = UNWRITTEN;
}

static bool all(const uint16_t *words, size_t from, size_t to, uint16_t value)
{
    for (size_t i = from; i < to; i++)
        if (words[i] != value)
            return false;
    return true;
}

static bool untouched(const uint16_t *words)
{
    return all(words, 0, LENT, UNWRITTEN);
}

/* The words at the front, and no word past them changed. */
static bool begins(const uint16_t *words, const uint16_t *front, size_t n)
{
    return memcmp(words, front, n * sizeof *words) == 0 && all(words, n, LENT, UNWRITTEN);
}

/* Zeroed as far as a call asks for it, and not past that. */
static bool zeroed_to(const uint16_t *words, size_t n)
{
    return all(words, 0, n, 0) && all(words, n, LENT, UNWRITTEN);
}

static bool zeroed(const uint16_t *words)
{
    return zeroed_to(words, LIHVEMUR_SCRATCH_WORDS);
}

static void lend_graph(const uint16_t *words, size_t n)
{
    fresh();
    memcpy(graph, words, n * sizeof *words);
}

static void check(void)
{
    fresh();
    EXPECT(lihvemur_check(B, COUNT(B), &place) == 0 && place == 0);
    EXPECT(lihvemur_check(bad, COUNT(bad), &place) == 3 && place == 12);
    EXPECT(lihvemur_check(B, 0, &place) == 1 && place == 0);
}

/* B is its own spelling. With the symbols of its two productions in the other order, and a record behind it that no chain reaches, it is written as B too; a word less than 24 records is no room. */
static void respell(void)
{
    uint16_t other[COUNT(B) + 4], records = UNWRITTEN;
    fresh();
    EXPECT(lihvemur_respell(B, COUNT(B), output, COUNT(B), &records, &place) == 0 && place == 0 && records == COUNT(B) / 4);
    EXPECT(begins(output, B, COUNT(B)));
    memcpy(other, B, sizeof B);
    memcpy(&other[8 * 4], &B[11 * 4], 4 * sizeof B[0]);
    memcpy(&other[9 * 4], &B[8 * 4], 12 * sizeof B[0]);
    other[6 * 4 + 1] = 9;
    other[7 * 4 + 1] = 8;
    other[9 * 4] = 10;
    other[10 * 4] = 11;
    for (size_t i = COUNT(B); i < COUNT(other); i++)
        other[i] = UNWRITTEN;
    fresh();
    records = UNWRITTEN;
    EXPECT(lihvemur_respell(other, COUNT(other), output, LENT, &records, &place) == 0 && place == 0 && records == COUNT(B) / 4);
    EXPECT(begins(output, B, COUNT(B)));
    fresh();
    records = UNWRITTEN;
    EXPECT(lihvemur_respell(B, COUNT(B), output, COUNT(B) - 1, &records, &place) == 17 && place == 0 && records == UNWRITTEN && untouched(output));
    EXPECT(lihvemur_respell(bad, COUNT(bad), output, COUNT(B), &records, &place) == 3 && place == 12 && records == UNWRITTEN && untouched(output));
}

/* B has nothing to take back. With a record that no chain reaches between its areas and its symbols, and one behind it, it is B again, and the freed end is zero. */
static void compact(void)
{
    uint16_t other[COUNT(B) + 8], records = UNWRITTEN;
    const size_t areas = 8 * 4;
    memcpy(other, B, sizeof B);
    EXPECT(lihvemur_compact(other, COUNT(B), &records, &place) == 0 && place == 0 && records == COUNT(B) / 4 && memcmp(other, B, sizeof B) == 0);
    memcpy(&other[areas + 4], &B[areas], sizeof B - areas * sizeof B[0]);
    for (size_t i = 0; i < 4; i++)
        other[areas + i] = other[COUNT(B) + 4 + i] = UNWRITTEN;
    for (size_t r = 2; r < COUNT(B) / 4 + 1; r++)
        if (r != 8) {
            if ((r < 6 || r > 8) && other[r * 4] != 0)
                other[r * 4]++;
            if (r < 8 && other[r * 4 + 1] != 0)
                other[r * 4 + 1]++;
        }
    records = UNWRITTEN;
    EXPECT(lihvemur_compact(other, COUNT(other), &records, &place) == 0 && place == 0 && records == COUNT(B) / 4 && memcmp(other, B, sizeof B) == 0);
    for (size_t i = COUNT(B); i < COUNT(other); i++)
        EXPECT(other[i] == 0);
    memcpy(other, bad, sizeof bad);
    records = UNWRITTEN;
    EXPECT(lihvemur_compact(other, COUNT(bad), &records, &place) == 3 && place == 12 && records == UNWRITTEN && memcmp(other, bad, sizeof bad) == 0);
}

typedef struct {
    uint16_t refusal, records;
    uint32_t count;
} built;

/* States built, with so many words lent. */
static built build(const uint16_t *table, size_t words, uint16_t start, size_t scratch_words, size_t out_words, size_t conflict_words)
{
    built b = {0, UNWRITTEN, UNWRITTEN};
    fresh();
    b.refusal = lihvemur_build_states(table, words, start, scratch, scratch_words, output, out_words, action, conflict_words, &b.records, &b.count, &place);
    return b;
}

/* A refusal writes nothing. */
static bool not_built(built b, uint16_t refusal, uint16_t at)
{
    return b.refusal == refusal && place == at && b.records == UNWRITTEN && b.count == UNWRITTEN && untouched(output) && untouched(action);
}

/* From 16 on scratch is zeroed, else it stays. */
static void build_states(void)
{
    built b = build(GRAMMAR, COUNT(GRAMMAR), 0, LIHVEMUR_BUILD_WORDS, COUNT(BUILT), COUNT(CONFLICT));
    EXPECT(b.refusal == 0 && place == 0 && b.records == COUNT(BUILT) / 4 && b.count == 1 && zeroed_to(scratch, LIHVEMUR_BUILD_WORDS));
    EXPECT(begins(output, BUILT, COUNT(BUILT)) && begins(action, CONFLICT, COUNT(CONFLICT)));
    b = build(GRAMMAR, COUNT(GRAMMAR), 0, LIHVEMUR_BUILD_WORDS, COUNT(BUILT) - 1, COUNT(CONFLICT));
    EXPECT(not_built(b, 17, 0) && zeroed_to(scratch, LIHVEMUR_BUILD_WORDS));
    b = build(GRAMMAR, COUNT(GRAMMAR), 0, LIHVEMUR_BUILD_WORDS, COUNT(BUILT), COUNT(CONFLICT) - 1);
    EXPECT(not_built(b, 17, 0) && zeroed_to(scratch, LIHVEMUR_BUILD_WORDS));
    b = build(GRAMMAR, COUNT(GRAMMAR), 2, LIHVEMUR_BUILD_WORDS, COUNT(BUILT), COUNT(CONFLICT));
    EXPECT(not_built(b, 18, 0) && zeroed_to(scratch, LIHVEMUR_BUILD_WORDS));
    b = build(B, COUNT(B), 0, LIHVEMUR_BUILD_WORDS, COUNT(BUILT), COUNT(CONFLICT));
    EXPECT(not_built(b, 18, 0) && zeroed_to(scratch, LIHVEMUR_BUILD_WORDS));
    b = build(GRAMMAR, COUNT(GRAMMAR), 2, LIHVEMUR_BUILD_WORDS - 1, COUNT(BUILT), COUNT(CONFLICT));
    EXPECT(not_built(b, 11, 0) && untouched(scratch));
    b = build(bad, COUNT(bad), 0, LIHVEMUR_BUILD_WORDS - 1, COUNT(BUILT), COUNT(CONFLICT));
    EXPECT(not_built(b, 3, 12) && untouched(scratch));
}

typedef struct {
    uint16_t refusal, records, count, start;
} was_read;

/* A text read, with so many words lent. */
static was_read read_text(const char *text, size_t bytes, size_t table_words, size_t place_words)
{
    was_read r = {0, UNWRITTEN, UNWRITTEN, UNWRITTEN};
    fresh();
    r.refusal = lihvemur_read_yacc((const uint8_t *)text, bytes, output, table_words, action, place_words, &r.records, &r.count, &r.start, &place);
    return r;
}

static bool not_read(was_read r, uint16_t refusal)
{
    return r.refusal == refusal && place == 0 && r.records == UNWRITTEN && r.count == UNWRITTEN && r.start == UNWRITTEN && untouched(output) && untouched(action);
}

static void read_yacc(void)
{
    uint16_t words[COUNT(GRAMMAR)];
    memcpy(words, GRAMMAR, sizeof GRAMMAR);
    for (size_t p = 0; p < 2; p++)
        for (size_t i = 0; i < 2; i++)
            words[(3 + p) * 4 + 2 + i] = SPANS[p * 2 + i];
    was_read r = read_text(TEXT, strlen(TEXT), COUNT(words), COUNT(PLACES));
    EXPECT(r.refusal == 0 && place == 0 && r.records == COUNT(words) / 4 && r.count == COUNT(PLACES) && r.start == 0);
    EXPECT(begins(output, words, COUNT(words)) && begins(action, PLACES, COUNT(PLACES)));
    EXPECT(not_read(read_text(TEXT, strlen(TEXT), COUNT(words) - 1, COUNT(PLACES)), 17));
    EXPECT(not_read(read_text(TEXT, strlen(TEXT), COUNT(words), COUNT(PLACES) - 1), 17));
    EXPECT(not_read(read_text(TEXT, strlen(TEXT) - 2, COUNT(words), COUNT(PLACES)), 20));
    EXPECT(not_read(read_text(UNDEFINED, strlen(UNDEFINED), COUNT(words), COUNT(PLACES)), 21));
}

static void write_yacc(void)
{
    char text[sizeof WRITTEN];
    size_t size = strlen(WRITTEN);
    uint16_t bytes = UNWRITTEN;
    memset(text, '?', sizeof text);
    EXPECT(lihvemur_write_yacc(GRAMMAR, COUNT(GRAMMAR), (uint8_t *)text, size - 1, &bytes, &place) == 17 && place == 0 && bytes == UNWRITTEN && text[0] == '?');
    EXPECT(lihvemur_write_yacc(bad, COUNT(bad), (uint8_t *)text, size, &bytes, &place) == 3 && place == 12 && bytes == UNWRITTEN && text[0] == '?');
    EXPECT(lihvemur_write_yacc(GRAMMAR, COUNT(GRAMMAR), (uint8_t *)text, size + 1, &bytes, &place) == 0 && place == 0 && bytes == size);
    EXPECT(memcmp(text, WRITTEN, size) == 0 && text[size] == '?');
    EXPECT(lihvemur_write_yacc(B, COUNT(B), (uint8_t *)text, size, &bytes, &place) == 0 && bytes == size && memcmp(text, WRITTEN, size) == 0);
}

static void first0(void)
{
    uint64_t set = UNWRITTEN;
    bool nullable = true;
    EXPECT(lihvemur_first0(B, COUNT(B), E, COUNT(E), &set, &nullable, &place) == 0 && place == 0 && set == TOKEN_1 && !nullable);
    EXPECT(lihvemur_first0(B, COUNT(B), NOTHING, 0, &set, &nullable, &place) == 0 && place == 0 && set == 0 && nullable);
    EXPECT(lihvemur_first0(B, COUNT(B), E, 1, &set, &nullable, &place) == 9 && place == 0 && set == 0 && nullable);
    EXPECT(lihvemur_first0(bad, COUNT(bad), E, COUNT(E), &set, &nullable, &place) == 3 && place == 12 && set == 0 && nullable);
}

static void first0_joined(void)
{
    uint64_t set = UNWRITTEN;
    bool nullable = true;
    for (size_t cut = 0; cut <= COUNT(E_PLUS_E); cut++) {
        set = UNWRITTEN;
        EXPECT(lihvemur_first0_joined(B, COUNT(B), E_PLUS_E, cut, E_PLUS_E + cut, COUNT(E_PLUS_E) - cut, &set, &nullable, &place) == 0 && place == 0 && set == TOKEN_1 && !nullable);
    }
    EXPECT(lihvemur_first0_joined(B, COUNT(B), NOTHING, 0, NOTHING, 0, &set, &nullable, &place) == 0 && place == 0 && set == 0 && nullable);
    EXPECT(lihvemur_first0_joined(B, COUNT(B), E, 1, NOTHING, 0, &set, &nullable, &place) == 9 && place == 0 && set == 0 && nullable);
    EXPECT(lihvemur_first0_joined(B, COUNT(B), E, COUNT(E), E, 1, &set, &nullable, &place) == 9 && place == 0 && set == 0 && nullable);
    EXPECT(lihvemur_first0_joined(bad, COUNT(bad), E, 1, E, 1, &set, &nullable, &place) == 3 && place == 12 && set == 0 && nullable);
}

static void first1(void)
{
    uint64_t set = UNWRITTEN;
    EXPECT(lihvemur_first1(B, COUNT(B), TOKEN_0 | TOKEN_END, NOTHING, 0, &set, &place) == 0 && place == 0 && set == (TOKEN_0 | TOKEN_END));
    EXPECT(lihvemur_first1(B, COUNT(B), TOKEN_0, E, COUNT(E), &set, &place) == 0 && place == 0 && set == TOKEN_1);
    EXPECT(lihvemur_first1(B, COUNT(B), 8, E, COUNT(E), &set, &place) == 9 && place == 0 && set == TOKEN_1);
    EXPECT(lihvemur_first1(bad, COUNT(bad), TOKEN_0, E, COUNT(E), &set, &place) == 3 && place == 12 && set == TOKEN_1);
}

static void trace_back(void)
{
    uint64_t low = UNWRITTEN, high = UNWRITTEN;
    EXPECT(lihvemur_trace_back(B, COUNT(B), 3, E_PLUS_E, COUNT(E_PLUS_E), &low, &high, &place) == 0 && place == 0 && low == (1 << 0 | 1 << 2) && high == 0);
    EXPECT(lihvemur_trace_back(B, COUNT(B), 3, NOTHING, 0, &low, &high, &place) == 0 && place == 0 && low == 1 << 3 && high == 0);
    EXPECT(lihvemur_trace_back(B, COUNT(B), 0, E, COUNT(E), &low, &high, &place) == 0 && place == 0 && low == 0 && high == 0);
    low = high = UNWRITTEN;
    EXPECT(lihvemur_trace_back(B, COUNT(B), 4, E, COUNT(E), &low, &high, &place) == 9 && place == 0 && low == UNWRITTEN && high == UNWRITTEN);
    EXPECT(lihvemur_trace_back(bad, COUNT(bad), 0, E, COUNT(E), &low, &high, &place) == 3 && place == 12 && low == UNWRITTEN && high == UNWRITTEN);
}

static void trace_back_joined(void)
{
    uint64_t low, high;
    for (size_t cut = 0; cut <= COUNT(E_PLUS_E); cut++) {
        low = high = UNWRITTEN;
        EXPECT(lihvemur_trace_back_joined(B, COUNT(B), 3, E_PLUS_E, cut, E_PLUS_E + cut, COUNT(E_PLUS_E) - cut, &low, &high, &place) == 0 && place == 0 && low == (1 << 0 | 1 << 2) && high == 0);
    }
    EXPECT(lihvemur_trace_back_joined(B, COUNT(B), 3, NOTHING, 0, NOTHING, 0, &low, &high, &place) == 0 && place == 0 && low == 1 << 3 && high == 0);
    low = high = UNWRITTEN;
    EXPECT(lihvemur_trace_back_joined(B, COUNT(B), 3, E, 1, E, COUNT(E), &low, &high, &place) == 9 && place == 0 && low == UNWRITTEN && high == UNWRITTEN);
    EXPECT(lihvemur_trace_back_joined(B, COUNT(B), 4, E, 1, E, 1, &low, &high, &place) == 9 && place == 0 && low == UNWRITTEN && high == UNWRITTEN);
    EXPECT(lihvemur_trace_back_joined(bad, COUNT(bad), 4, E, 1, E, 1, &low, &high, &place) == 3 && place == 12 && low == UNWRITTEN && high == UNWRITTEN);
}

static void add_edge(void)
{
    static const uint16_t four[] = {4, 0, 0, 0, 1, 0, 1, 0, 1, 1, 0, 2, 0, 0, 0, 0, 2, 0, 0, 0, 0, 0, 0, 0, 0, 1, 0, 0, 1, 0, 1, 0, 1};
    uint16_t edges = UNWRITTEN;
    lend_graph(SHIFT_GRAPH, COUNT(SHIFT_GRAPH));
    EXPECT(lihvemur_add_edge(B, COUNT(B), 0, 0, 0, 1, 0, 1, 0, 1, graph, LIHVEMUR_GRAPH_WORDS, &edges, &place) == 0 && place == 0 && edges == 3);
    EXPECT(begins(graph, SHIFT_GRAPH, COUNT(SHIFT_GRAPH)));
    EXPECT(lihvemur_add_edge(B, COUNT(B), 1, 0, 0, 1, 0, 1, 0, 1, graph, LIHVEMUR_GRAPH_WORDS, &edges, &place) == 0 && place == 0 && edges == 4);
    EXPECT(begins(graph, four, COUNT(four)));
    edges = place = UNWRITTEN;
    EXPECT(lihvemur_add_edge(B, COUNT(B), 2, 0, 0, 1, 0, 1, 0, 1, graph, LIHVEMUR_GRAPH_WORDS, &edges, &place) == 9 && place == 0 && edges == UNWRITTEN);
    EXPECT(lihvemur_add_edge(B, COUNT(B), 0, 0, 0, 1, 0, 1, 0, 1, graph, LIHVEMUR_GRAPH_WORDS - 1, &edges, &place) == 11 && place == 0 && edges == UNWRITTEN);
    EXPECT(begins(graph, four, COUNT(four)));
}

typedef uint16_t trace(const uint16_t *, size_t, uint16_t, uint16_t, uint16_t, uint16_t *, size_t, uint16_t *, size_t, uint16_t *, uint16_t *);

/* The trace graph of an item of production 0 in state 3. */
static void backtrace(trace *traced, uint16_t index, const uint16_t *want, size_t n)
{
    uint16_t edges = UNWRITTEN;
    fresh();
    EXPECT(traced(B, COUNT(B), 3, 0, index, graph, LIHVEMUR_GRAPH_WORDS, scratch, LIHVEMUR_SCRATCH_WORDS, &edges, &place) == 0 && place == 0 && edges == want[0]);
    EXPECT(begins(graph, want, n) && zeroed(scratch));
    fresh();
    edges = UNWRITTEN;
    EXPECT(traced(B, COUNT(B), 3, 0, 4, graph, LIHVEMUR_GRAPH_WORDS, scratch, LIHVEMUR_SCRATCH_WORDS, &edges, &place) == 9 && place == 0 && edges == UNWRITTEN);
    EXPECT(traced(B, COUNT(B), 3, 0, index, graph, LIHVEMUR_GRAPH_WORDS, scratch, LIHVEMUR_SCRATCH_WORDS - 1, &edges, &place) == 11 && place == 0 && edges == UNWRITTEN);
    EXPECT(untouched(graph) && untouched(scratch));
}

static void open_listing(void)
{
    lend_graph(SHIFT_GRAPH, COUNT(SHIFT_GRAPH));
    EXPECT(lihvemur_lr0_examples(B, COUNT(B), 0, 1, graph, LIHVEMUR_GRAPH_WORDS, &place) == 0 && place == 0);
    EXPECT(lihvemur_lr0_examples(B, COUNT(B), 0, 3, graph, LIHVEMUR_GRAPH_WORDS, &place) == 15 && place == 0);
    EXPECT(lihvemur_lr0_examples(bad, COUNT(bad), 0, 1, graph, LIHVEMUR_GRAPH_WORDS, &place) == 3 && place == 12);
    EXPECT(lihvemur_lr1_examples(B, COUNT(B), 0, 1, TOKEN_0, graph, LIHVEMUR_GRAPH_WORDS, &place) == 0 && place == 0);
    EXPECT(lihvemur_lr1_examples(B, COUNT(B), 0, 1, 8, graph, LIHVEMUR_GRAPH_WORDS, &place) == 9 && place == 0);
    EXPECT(lihvemur_lr1_examples(bad, COUNT(bad), 0, 1, TOKEN_0, graph, LIHVEMUR_GRAPH_WORDS, &place) == 3 && place == 12);
    EXPECT(begins(graph, SHIFT_GRAPH, COUNT(SHIFT_GRAPH)));
}

/* A listing over the graph that is lent: the words of `want`, if any, as its one example, and the end, twice; three trials, as the document says. */
static void listing(uint16_t index, bool filtered, uint64_t lookahead, const uint16_t *want, size_t n)
{
    uint32_t count = 0;
    bool is_open = true;
    if (n > 0) {
        EXPECT(lihvemur_advance(B, COUNT(B), 0, index, filtered, lookahead, graph, LIHVEMUR_GRAPH_WORDS, scratch, LIHVEMUR_SCRATCH_WORDS, action, LIHVEMUR_EXAMPLE_WORDS, &count, &is_open, &place) == 0);
        EXPECT(place == 0 && count == 3 && is_open);
        EXPECT(begins(action, want, n) && all(scratch, LIHVEMUR_SCRATCH_WORDS, LENT, UNWRITTEN));
    }
    for (int again = 0; again < 2; again++) {
        place = UNWRITTEN;
        EXPECT(lihvemur_advance(B, COUNT(B), 0, index, filtered, lookahead, graph, LIHVEMUR_GRAPH_WORDS, scratch, LIHVEMUR_SCRATCH_WORDS, action, LIHVEMUR_EXAMPLE_WORDS, &count, &is_open, &place) == LIHVEMUR_END);
        EXPECT(place == 0 && count == 3 && !is_open);
        EXPECT(zeroed(scratch) && begins(action, want, n));
    }
}

static void advance(void)
{
    uint32_t count = 0;
    bool is_open = true;
    lend_graph(SHIFT_GRAPH, COUNT(SHIFT_GRAPH));
    listing(1, false, 0, ACTION, COUNT(ACTION));
    lend_graph(SHIFT_GRAPH, COUNT(SHIFT_GRAPH));
    listing(1, true, TOKEN_0, ACTION, COUNT(ACTION));
    lend_graph(SHIFT_GRAPH, COUNT(SHIFT_GRAPH));
    listing(1, true, TOKEN_1, NOTHING, 0);
    lend_graph(REDUCE_GRAPH, COUNT(REDUCE_GRAPH));
    listing(3, true, TOKEN_0, REDUCE, COUNT(REDUCE));
    fresh();
    EXPECT(lihvemur_advance(bad, COUNT(bad), 0, 1, false, 0, graph, LIHVEMUR_GRAPH_WORDS, scratch, LIHVEMUR_SCRATCH_WORDS, action, LIHVEMUR_EXAMPLE_WORDS, &count, &is_open, &place) == 3 && place == 12);
    EXPECT(count == 0 && is_open && untouched(scratch) && untouched(action));
}

/* Two whole calls, the example and the end, and between them one whose buffer is a word short. */
static void examples(void)
{
    enum { SHORT = LIHVEMUR_EXAMPLE_WORDS - 1, SECOND = LIHVEMUR_RECORD_WORDS + LIHVEMUR_EXAMPLE_WORDS, THIRD = SECOND + LIHVEMUR_RECORD_WORDS + SHORT, LAST = THIRD + SECOND };
    static const uint32_t calls[] = {
        LIHVEMUR_GRAPH_WORDS, LIHVEMUR_SCRATCH_WORDS, LIHVEMUR_EXAMPLE_WORDS, LIHVEMUR_GRAPH_WORDS, LIHVEMUR_SCRATCH_WORDS, SHORT,
        LIHVEMUR_GRAPH_WORDS, LIHVEMUR_SCRATCH_WORDS, LIHVEMUR_EXAMPLE_WORDS};
    static uint16_t want[LENT];
    size_t made = UNWRITTEN;
    lend_graph(SHIFT_GRAPH, COUNT(SHIFT_GRAPH));
    memcpy(want, output, sizeof want);
    memcpy(want, (const uint16_t[]){0, 3, 0}, 3 * sizeof *want);
    memcpy(want + 3, ACTION, sizeof ACTION);
    memcpy(want + SECOND, (const uint16_t[]){11, 3, 0}, 3 * sizeof *want);
    memcpy(want + THIRD, (const uint16_t[]){LIHVEMUR_END, 3, 0}, 3 * sizeof *want);
    EXPECT(lihvemur_examples(B, COUNT(B), 0, 1, true, TOKEN_0, calls, COUNT(calls), graph, LIHVEMUR_GRAPH_WORDS, scratch, LIHVEMUR_SCRATCH_WORDS, output, LAST, &made, &place) == 0 && place == 0 && made == 3);
    EXPECT(memcmp(output, want, sizeof want) == 0 && zeroed(scratch));
    lend_graph(SHIFT_GRAPH, COUNT(SHIFT_GRAPH));
    made = UNWRITTEN;
    EXPECT(lihvemur_examples(B, COUNT(B), 0, 1, true, TOKEN_0, calls, COUNT(calls), graph, LIHVEMUR_GRAPH_WORDS, scratch, LIHVEMUR_SCRATCH_WORDS, output, LAST - 1, &made, &place) == 11 && place == 0 && made == UNWRITTEN);
    EXPECT(lihvemur_examples(B, COUNT(B), 0, 1, true, TOKEN_0, calls, COUNT(calls) - 1, graph, LIHVEMUR_GRAPH_WORDS, scratch, LIHVEMUR_SCRATCH_WORDS, output, LAST, &made, &place) == 9 && place == 0 && made == UNWRITTEN);
    EXPECT(untouched(scratch) && untouched(output));
}

/* A conflict in state 3: answer with class, own values and trials as given, the examples as many as the class has. */
static void class_is(uint16_t kind, uint16_t operand, uint16_t token, uint16_t want, uint64_t own, uint32_t actions, uint32_t reduces)
{
    uint16_t class_number = UNWRITTEN;
    uint64_t values = UNWRITTEN;
    uint32_t action_trials = UNWRITTEN, reduce_trials = UNWRITTEN;
    fresh();
    EXPECT(lihvemur_classify(B, COUNT(B), 3, 0, kind, operand, token, scratch, LIHVEMUR_CLASSIFY_WORDS, action, LIHVEMUR_EXAMPLE_WORDS, reduce, LIHVEMUR_EXAMPLE_WORDS, &class_number, &values, &action_trials, &reduce_trials, &place) == 0);
    EXPECT(place == 0 && class_number == want && values == own && action_trials == actions && reduce_trials == reduces && zeroed_to(scratch, LIHVEMUR_CLASSIFY_WORDS));
    if (want == 1 || want == 2)
        EXPECT(begins(action, ACTION, COUNT(ACTION)) && begins(reduce, REDUCE, COUNT(REDUCE)));
    if (want == 0)
        EXPECT(untouched(action) && untouched(reduce));
    if (want == 5)
        EXPECT(begins(action, REDUCE, COUNT(REDUCE)) && untouched(reduce));
}

static void classify(void)
{
    uint16_t class_number = UNWRITTEN;
    uint64_t values = UNWRITTEN;
    uint32_t action_trials = UNWRITTEN, reduce_trials = UNWRITTEN;
    class_is(0, 0, 0, 2, 0, 3, 3);
    class_is(0, 1, 0, 1, 0, 3, 3);
    class_is(0, 0, 1, 0, 0, 0, 3);
    class_is(1, 1, 2, 0, 0, 1, 3);
    class_is(1, 0, 0, 5, (uint64_t)9 << 16 | (uint64_t)9 << 48, 3, 3);
    fresh();
    EXPECT(lihvemur_classify(B, COUNT(B), 3, 0, 0, 0, 2, scratch, LIHVEMUR_CLASSIFY_WORDS, action, LIHVEMUR_EXAMPLE_WORDS, reduce, LIHVEMUR_EXAMPLE_WORDS, &class_number, &values, &action_trials, &reduce_trials, &place) == 10 && place == 0);
    EXPECT(lihvemur_classify(B, COUNT(B), 3, 0, 0, 0, 0, scratch, LIHVEMUR_CLASSIFY_WORDS, action, LIHVEMUR_EXAMPLE_WORDS, reduce, LIHVEMUR_EXAMPLE_WORDS - 1, &class_number, &values, &action_trials, &reduce_trials, &place) == 11 && place == 0);
    EXPECT(lihvemur_classify(B, COUNT(B), 3, 0, 0, 0, 0, scratch, LIHVEMUR_CLASSIFY_WORDS - 1, action, LIHVEMUR_EXAMPLE_WORDS, reduce, LIHVEMUR_EXAMPLE_WORDS, &class_number, &values, &action_trials, &reduce_trials, &place) == 11 && place == 0);
    EXPECT(class_number == UNWRITTEN && values == UNWRITTEN && action_trials == UNWRITTEN && reduce_trials == UNWRITTEN);
    EXPECT(untouched(scratch) && untouched(action) && untouched(reduce));
    /* More scratch than is asked for: no word past the first 8,000 changes. */
    EXPECT(lihvemur_classify(B, COUNT(B), 3, 0, 0, 0, 0, scratch, LIHVEMUR_SCRATCH_WORDS, action, LIHVEMUR_EXAMPLE_WORDS, reduce, LIHVEMUR_EXAMPLE_WORDS, &class_number, &values, &action_trials, &reduce_trials, &place) == 0);
    EXPECT(zeroed_to(scratch, LIHVEMUR_CLASSIFY_WORDS));
}

static void choose(void)
{
    static const uint16_t plus[] = {0, 2, 0, 0, 0, 0};
    size_t count = UNWRITTEN;
    fresh();
    EXPECT(lihvemur_choose(B, COUNT(B), 3, 0, 0, 0, TOKEN_0 | TOKEN_1, scratch, LIHVEMUR_CLASSIFY_WORDS, output, LIHVEMUR_ENTRIES_WORDS, &count, &place) == 0 && place == 0 && count == 1);
    EXPECT(begins(output, plus, LIHVEMUR_ENTRY_WORDS) && zeroed_to(scratch, LIHVEMUR_CLASSIFY_WORDS));
    fresh();
    count = UNWRITTEN;
    EXPECT(lihvemur_choose(B, COUNT(B), 3, 0, 0, 0, TOKEN_END, scratch, LIHVEMUR_CLASSIFY_WORDS, output, LIHVEMUR_ENTRIES_WORDS, &count, &place) == 10 && place == 0 && count == UNWRITTEN);
    EXPECT(lihvemur_choose(B, COUNT(B), 3, 0, 0, 0, TOKEN_0, scratch, LIHVEMUR_CLASSIFY_WORDS, output, LIHVEMUR_ENTRIES_WORDS - 1, &count, &place) == 11 && place == 0 && count == UNWRITTEN);
    EXPECT(lihvemur_choose(B, COUNT(B), 3, 0, 0, 0, TOKEN_0, scratch, LIHVEMUR_CLASSIFY_WORDS - 1, output, LIHVEMUR_ENTRIES_WORDS, &count, &place) == 11 && place == 0 && count == UNWRITTEN);
    EXPECT(untouched(output) && untouched(scratch));
}

/* Nothing is refused: a buffer that does not hold its example gives no words of the first. */
static void observed(void)
{
    uint16_t farther[COUNT(REDUCE)];
    size_t words = UNWRITTEN;
    memcpy(farther, REDUCE, sizeof farther);
    farther[1] = 4;
    EXPECT(lihvemur_observed(ACTION, COUNT(ACTION), REDUCE, COUNT(REDUCE), &words) == 0 && words == 6);
    EXPECT(memcmp(ACTION + 3, (const uint16_t[]){0, 0, 1, 0, 0, 0}, words * sizeof *ACTION) == 0);
    EXPECT(lihvemur_observed(ACTION, COUNT(ACTION), farther, COUNT(farther), &words) == 1 && words == 8);
    EXPECT(lihvemur_observed(ACTION, COUNT(ACTION), farther, COUNT(farther) - 1, &words) == 0 && words == 0);
}

int main(void)
{
    memcpy(bad, B, sizeof bad);
    bad[12 * 4] = 12;
    check();
    respell();
    compact();
    build_states();
    read_yacc();
    write_yacc();
    first0();
    first0_joined();
    first1();
    trace_back();
    trace_back_joined();
    add_edge();
    backtrace(lihvemur_backtrace_shift, 1, SHIFT_GRAPH, COUNT(SHIFT_GRAPH));
    backtrace(lihvemur_backtrace_reduce, 3, REDUCE_GRAPH, COUNT(REDUCE_GRAPH));
    open_listing();
    advance();
    examples();
    classify();
    choose();
    observed();
    if (failures == 0)
        puts("every C entry answers as it should");
    return failures != 0;
}
