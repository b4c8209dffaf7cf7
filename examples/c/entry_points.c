/*
 * A test of every entry point and of the functions over `struct echo_problem`, in C that is C++ too. It is meant to run under the address
 * and undefined-behaviour sanitizers: each input and each output is an allocation of exactly its length. It writes one line; the first thing
 * that is not as it should be ends it with the line number of its check.
 */
#include <stdio.h>
#include <stdlib.h>
#include <string.h>

#include "echo.h"

static int checks;

#define CHECK(holds) \
    do { \
        checks++; \
        if (!(holds)) { \
            fprintf(stderr, "entry_points.c:%d: not so: %s\n", __LINE__, #holds); \
            exit(1); \
        } \
    } while (0)

/* An exact allocation with a copy. It is never null, and never given back: the process is short. */
static void *kept[8192];
static size_t kept_count;

static void *keep(size_t size)
{
    void *p = malloc(size == 0 ? 1 : size);
    CHECK(p != NULL && kept_count < sizeof kept / sizeof kept[0]);
    kept[kept_count++] = p;
    return p;
}

static const uint8_t *bytes_of(const void *from, size_t len)
{
    uint8_t *p = (uint8_t *)keep(len);
    memcpy(p, from, len);
    return p;
}

static const uint64_t *numbers_of(const uint64_t *from, size_t len)
{
    uint64_t *p = (uint64_t *)keep(len * sizeof *p);
    memcpy(p, from, len * sizeof *p);
    return p;
}

static const uint64_t *same_numbers(uint64_t number, size_t len)
{
    uint64_t *p = (uint64_t *)keep(len * sizeof *p);
    for (size_t i = 0; i < len; i++) {
        p[i] = number;
    }
    return p;
}

struct record {
    uint8_t kind;
    uint32_t operands[4];
};

static const uint8_t *nodes_of(const struct record *from, size_t count)
{
    uint8_t *p = (uint8_t *)keep(count * ECHO_NODE_BYTES);
    for (size_t i = 0; i < count; i++) {
        p[i * ECHO_NODE_BYTES] = from[i].kind;
        for (size_t k = 0; k < 4; k++) {
            for (size_t j = 0; j < 4; j++) {
                p[i * ECHO_NODE_BYTES + 1 + 4 * k + j] = (uint8_t)(from[i].operands[k] >> (8 * j) & 255u);
            }
        }
    }
    return p;
}

static struct echo_problem empty(void)
{
    static struct echo_problem none;
    return none;
}

/* The marked case M2: is there an 8-bit x with x + 5 = x? */
static struct echo_problem m2(void)
{
    static const struct record records[4] = {
        {ECHO_KIND_VAR, {8, 0, 0, 0}},
        {ECHO_KIND_CONST, {0, 8, 0, 0}},
        {ECHO_KIND_ADD, {0, 1, 0, 0}},
        {ECHO_KIND_EQ, {2, 0, 0, 0}},
    };
    static const uint8_t bits[8] = {1, 0, 1, 0, 0, 0, 0, 0};
    struct echo_problem p = empty();
    p.nodes = nodes_of(records, 4);
    p.nodes_len = 4 * ECHO_NODE_BYTES;
    p.bits = bytes_of(bits, 8);
    p.bits_len = 8;
    p.roots = same_numbers(3, 1);
    p.roots_len = 1;
    p.names = bytes_of("x", 1);
    p.names_len = 1;
    p.name_start = same_numbers(0, 1);
    p.name_start_len = 1;
    p.name_len = same_numbers(1, 1);
    p.name_len_len = 1;
    p.var_node = same_numbers(0, 1);
    p.var_node_len = 1;
    p.var_width = same_numbers(8, 1);
    p.var_width_len = 1;
    return p;
}

/* An array of 24-bit addresses and 16-bit words, and a function, so that none of the eighteen slices is empty. */
static struct echo_problem rich(void)
{
    static const struct record records[6] = {
        {ECHO_KIND_VAR, {24, 0, 0, 0}},   /* 0: i */
        {ECHO_KIND_VAR, {16, 0, 0, 0}},   /* 1: v */
        {ECHO_KIND_CONST, {0, 16, 0, 0}}, /* 2 */
        {ECHO_KIND_SELECT, {0, 0, 0, 1}}, /* 3: m with v stored at i, at i */
        {ECHO_KIND_CALL, {0, 16, 2, 2}},  /* 4: f(i, node 2) */
        {ECHO_KIND_EQ, {3, 4, 0, 0}},     /* 5 */
    };
    static const uint64_t side[4] = {0, 1, 0, 2};
    static const uint64_t starts[2] = {0, 1};
    static const uint64_t widths[2] = {24, 16};
    struct echo_problem p = empty();
    p.nodes = nodes_of(records, 6);
    p.nodes_len = 6 * ECHO_NODE_BYTES;
    p.bits = bytes_of("\1\0\1\0\1\0\1\0\1\0\1\0\1\0\1\0", 16);
    p.bits_len = 16;
    p.side = numbers_of(side, 4);
    p.side_len = 4;
    p.roots = same_numbers(5, 1);
    p.roots_len = 1;
    p.names = bytes_of("iv", 2);
    p.names_len = 2;
    p.name_start = numbers_of(starts, 2);
    p.name_start_len = 2;
    p.name_len = same_numbers(1, 2);
    p.name_len_len = 2;
    p.var_node = numbers_of(starts, 2);
    p.var_node_len = 2;
    p.var_width = numbers_of(widths, 2);
    p.var_width_len = 2;
    p.anames = bytes_of("m", 1);
    p.anames_len = 1;
    p.aname_start = same_numbers(0, 1);
    p.aname_start_len = 1;
    p.aname_len = same_numbers(1, 1);
    p.aname_len_len = 1;
    p.index_width = same_numbers(24, 1);
    p.index_width_len = 1;
    p.value_width = same_numbers(16, 1);
    p.value_width_len = 1;
    p.fnames = bytes_of("f", 1);
    p.fnames_len = 1;
    p.fname_start = same_numbers(0, 1);
    p.fname_start_len = 1;
    p.fname_len = same_numbers(1, 1);
    p.fname_len_len = 1;
    p.func_width = same_numbers(16, 1);
    p.func_width_len = 1;
    return p;
}

enum { FILL = 127 };

static uint8_t *filled(size_t len)
{
    uint8_t *out = (uint8_t *)keep(len);
    memset(out, FILL, len);
    return out;
}

static int all(const uint8_t *out, size_t from, size_t to, uint8_t byte)
{
    for (size_t i = from; i < to; i++) {
        if (out[i] != byte) {
            return 0;
        }
    }
    return 1;
}

/* An accepted problem: its script and hidden script, with a buffer that is longer, exact and one byte short; its size. */
static void accepted(const struct echo_problem *p, const char *script, const char *hidden, uint64_t terms)
{
    const size_t length = strlen(script);
    const struct size_answer size = echo_problem_size(p);
    CHECK(size.number == ECHO_ACCEPTED && size.length == length && size.terms == terms);
    for (int way = 0; way < 2; way++) {
        struct echo_answer (*const print)(const struct echo_problem *, uint8_t *, size_t) = way == 0 ? echo_problem_print : echo_problem_hidden;
        for (size_t room = length; room <= length + 9; room += 9) {
            uint8_t *out = filled(room);
            const struct echo_answer answer = print(p, out, room);
            CHECK(answer.number == ECHO_ACCEPTED && answer.length == length);
            CHECK(memcmp(out, way == 0 ? script : hidden, length) == 0);
            CHECK(all(out, length, room, FILL));
        }
        uint8_t *out = filled(length - 1);
        const struct echo_answer answer = print(p, out, length - 1);
        CHECK(answer.number == ECHO_ROOM && answer.length == 0);
        CHECK(all(out, 0, length - 1, 0));
        const struct echo_answer nothing = print(p, NULL, 0);
        CHECK(nothing.number == ECHO_ROOM && nothing.length == 0);
    }
}

/* A refused problem: one number from the printers and the map file's lines, whatever the buffer, from the size, the fewest roots and a trace. */
static void refused(const struct echo_problem *p, uint64_t number)
{
    static const size_t rooms[3] = {0, 1, 300};
    static struct echo_answer (*const writers[3])(const struct echo_problem *, uint8_t *, size_t) = {
        echo_problem_print,
        echo_problem_hidden,
        echo_problem_formulas,
    };
    const struct size_answer size = echo_problem_size(p);
    CHECK(size.number == number && size.length == 0 && size.terms == 0);
    for (size_t i = 0; i < 3; i++) {
        for (size_t w = 0; w < 3; w++) {
            uint8_t *out = rooms[i] == 0 ? NULL : filled(rooms[i]);
            const struct echo_answer answer = writers[w](p, out, rooms[i]);
            CHECK(answer.number == number && answer.length == 0);
            CHECK(all(out, 0, rooms[i], 0));
        }
    }
    CHECK(echo_problem_fewest(p).number == number);
    uint64_t mask = 99;
    uint64_t count = 99;
    const struct trace_answer trace = echo_problem_replay(p, NULL, 0, &mask, 1, &count, 1);
    CHECK(trace.number == (p->roots_len > 64 ? (uint64_t)ECHO_LIMIT : number) && trace.rows == 0 && mask == 0 && count == 0);
}

/* The plain functions, all slices of which are there, and those over the struct answer the same. */
static void plain_functions(void)
{
    const struct echo_problem p = rich();
    uint8_t *one = filled(400);
    uint8_t *two = filled(400);
    const struct echo_answer a = echo_problem_print(&p, one, 400);
#define SLICES \
    p.nodes, p.nodes_len, p.bits, p.bits_len, p.side, p.side_len, p.roots, p.roots_len, p.names, p.names_len, p.name_start, \
        p.name_start_len, p.name_len, p.name_len_len, p.var_node, p.var_node_len, p.var_width, p.var_width_len, p.anames, \
        p.anames_len, p.aname_start, p.aname_start_len, p.aname_len, p.aname_len_len, p.index_width, p.index_width_len, \
        p.value_width, p.value_width_len, p.fnames, p.fnames_len, p.fname_start, p.fname_start_len, p.fname_len, p.fname_len_len, \
        p.func_width, p.func_width_len
    const struct echo_answer b = echo_ext(SLICES, two, 400);
    CHECK(a.number == ECHO_ACCEPTED && a.number == b.number && a.length == b.length && memcmp(one, two, 400) == 0);
    const struct echo_answer c = echo_problem_hidden(&p, one, 400);
    const struct echo_answer d = echo_hidden(SLICES, two, 400);
    CHECK(c.number == ECHO_ACCEPTED && c.number == d.number && c.length == d.length && memcmp(one, two, 400) == 0);
    const struct echo_answer h = echo_problem_let(&p, one, 400);
    const struct echo_answer i = echo_let(SLICES, two, 400);
    CHECK(h.number == ECHO_ACCEPTED && h.number == i.number && h.length == i.length && memcmp(one, two, 400) == 0);
    const struct size_answer e = echo_problem_size(&p);
    const struct size_answer f = echo_size(SLICES);
    CHECK(e.number == ECHO_ACCEPTED && e.number == f.number && e.length == f.length && e.terms == f.terms && e.length == a.length);
    const struct echo_answer j = echo_problem_formulas(&p, one, 400);
    const struct echo_answer k = echo_formulas(SLICES, two, 400);
    CHECK(j.number == ECHO_ACCEPTED && j.number == k.number && j.length == k.length && memcmp(one, two, (size_t)j.length) == 0);
    const struct fewest_answer l = echo_problem_fewest(&p);
    const struct fewest_answer m = fewest_roots(SLICES);
    CHECK(l.number == ECHO_ACCEPTED && l.number == m.number && l.count == 0 && m.count == 0);
    static const uint64_t values[2] = {0, 0};
    uint64_t masks[2] = {9, 9};
    uint64_t counts[2] = {9, 9};
    const struct trace_answer n = echo_problem_replay(&p, values, 2, masks, 1, counts, 1);
    const struct trace_answer o = replay_trace(SLICES, values, 2, masks + 1, 1, counts + 1, 1);
    CHECK(n.number == ECHO_WIDE && n.number == o.number && n.rows == 0 && o.rows == 0); /* a select */
    CHECK(masks[0] == 0 && masks[1] == 0 && counts[0] == 0 && counts[1] == 0);
#undef SLICES
    uint64_t *widths = (uint64_t *)keep(6 * sizeof *widths);
    const struct width_answer g = ext_wf(p.nodes, p.nodes_len, p.bits, p.bits_len, p.side, p.side_len, p.index_width, p.index_width_len,
        p.value_width, p.value_width_len, widths, 6);
    CHECK(g.number == ECHO_ACCEPTED && g.count == 6 && widths[0] == 24 && widths[3] == 16 && widths[5] == 1);
}

static void width_pass(void)
{
    struct echo_problem p = rich();
    uint64_t *widths = (uint64_t *)keep(7 * sizeof *widths);
    static const uint64_t want[7] = {24, 16, 16, 16, 16, 1, 99};
    widths[6] = 99;
    struct width_answer answer = echo_problem_widths(&p, widths, 7);
    CHECK(answer.number == ECHO_ACCEPTED && answer.count == 6 && memcmp(widths, want, sizeof want) == 0);
    answer = echo_problem_widths(&p, widths, 5);
    CHECK(answer.number == ECHO_ROOM && answer.count == 0 && widths[0] == 0 && widths[4] == 0 && widths[6] == 99);
    answer = echo_problem_widths(&p, NULL, 0);
    CHECK(answer.number == ECHO_ROOM && answer.count == 0);
    p.bits_len = 15;
    answer = echo_problem_widths(&p, widths, 7);
    CHECK(answer.number == ECHO_MALFORMED && answer.count == 2 && widths[6] == 0);
    p = rich();
    p.value_width_len = 0;
    p.value_width = NULL;
    answer = echo_problem_widths(&p, widths, 7);
    CHECK(answer.number == ECHO_MALFORMED && answer.count == 6);
    p = empty();
    answer = echo_problem_widths(&p, NULL, 0);
    CHECK(answer.number == ECHO_ACCEPTED && answer.count == 0);
}

static void every_number(void)
{
    struct echo_problem p = m2();
    p.roots = same_numbers(4, 1);
    refused(&p, ECHO_MALFORMED);
    p = rich();
    p.var_width_len = 1;
    refused(&p, ECHO_MALFORMED);
    p = m2();
    p.names = bytes_of("bvadd", 5);
    p.names_len = 5;
    p.name_len = same_numbers(5, 1);
    refused(&p, ECHO_NAME);
    p = m2();
    p.roots = same_numbers(0, 1);
    refused(&p, ECHO_SORT);
    p = m2();
    p.var_width = same_numbers(9, 1);
    refused(&p, ECHO_VAR);
    p = m2();
    {
        static const struct record records[3] = {
            {ECHO_KIND_VAR, {8, 0, 0, 0}},
            {ECHO_KIND_ROTL, {0, 0, 0, 0}},
            {ECHO_KIND_EQ, {1, 0, 0, 0}},
        };
        p.nodes = nodes_of(records, 3);
        p.nodes_len = 3 * ECHO_NODE_BYTES;
        p.roots = same_numbers(2, 1);
        refused(&p, ECHO_ROTATE);
    }
    p = m2();
    p.roots = same_numbers(3, 2);
    p.roots_len = 2;
    refused(&p, ECHO_SHARED);
    p = rich();
    p.func_width = same_numbers(17, 1);
    refused(&p, ECHO_SIGNATURE);
    p = m2();
    p.nodes_len--;
    refused(&p, ECHO_ENCODING);
    p = m2();
    p.roots = same_numbers(3, ECHO_MAX_ROOTS_LEN + 1);
    p.roots_len = ECHO_MAX_ROOTS_LEN + 1;
    refused(&p, ECHO_LIMIT);
    p = rich();
    p.index_width = same_numbers(ECHO_MAX_ARRAY_WIDTH + 1, 1);
    refused(&p, ECHO_ARRAY_WIDTH);
}

/* Each slice as long as its limit, all of them at once: what is read is the whole of each. */
static void at_the_limits(void)
{
    struct echo_problem p = empty();
    p.nodes = (const uint8_t *)filled(ECHO_MAX_NODES_LEN);
    p.nodes_len = ECHO_MAX_NODES_LEN;
    refused(&p, ECHO_ENCODING); /* kinds of 127 */
    p = empty();
    p.bits = bytes_of(same_numbers(0, ECHO_MAX_BITS_LEN / 8), ECHO_MAX_BITS_LEN);
    p.bits_len = ECHO_MAX_BITS_LEN;
    p.side = same_numbers(0, ECHO_MAX_SIDE_LEN);
    p.side_len = ECHO_MAX_SIDE_LEN;
    p.names = p.anames = p.fnames = filled(ECHO_MAX_ARENA_LEN);
    p.names_len = p.anames_len = p.fnames_len = ECHO_MAX_ARENA_LEN;
    accepted(&p, "(set-logic QF_BV)\n(check-sat)\n", "(set-logic QF_BV)\n(check-sat)\n", 0);
    p.roots = same_numbers(0, ECHO_MAX_ROOTS_LEN);
    p.roots_len = ECHO_MAX_ROOTS_LEN;
    refused(&p, ECHO_MALFORMED);
    p.func_width = same_numbers(8, ECHO_MAX_COLUMN_LEN);
    p.func_width_len = ECHO_MAX_COLUMN_LEN;
    refused(&p, ECHO_MALFORMED);
    p.func_width = same_numbers(8, ECHO_MAX_COLUMN_LEN + 1);
    p.func_width_len = ECHO_MAX_COLUMN_LEN + 1;
    refused(&p, ECHO_LIMIT);
}

static void records(void)
{
    const struct echo_problem p = rich();
    const size_t new_len = 5 + 5 + 9 + 17 + 17 + 9;
    uint8_t *shorter = filled(new_len + 1);
    struct record_answer answer = shorten_records(p.nodes, p.nodes_len, shorter, new_len + 1);
    CHECK(answer.number == ECHO_ACCEPTED && answer.length == new_len && shorter[new_len] == FILL);
    uint8_t *again = filled(p.nodes_len + 1);
    const uint8_t *lent = bytes_of(shorter, new_len);
    answer = lengthen_records(lent, new_len, again, p.nodes_len + 1);
    CHECK(answer.number == ECHO_ACCEPTED && answer.length == p.nodes_len && memcmp(again, p.nodes, p.nodes_len) == 0);
    CHECK(again[p.nodes_len] == FILL);

    answer = shorten_records(p.nodes, p.nodes_len, shorter, new_len - 1);
    CHECK(answer.number == ECHO_ROOM && answer.length == 0 && all(shorter, 0, new_len - 1, 0) && shorter[new_len] == FILL);
    answer = lengthen_records(lent, new_len, again, p.nodes_len - 1);
    CHECK(answer.number == ECHO_ROOM && answer.length == 0 && all(again, 0, p.nodes_len - 1, 0));
    answer = shorten_records(p.nodes, p.nodes_len - 1, shorter, new_len);
    CHECK(answer.number == ECHO_ENCODING && answer.length == 0);
    answer = lengthen_records(lent, new_len - 1, again, p.nodes_len);
    CHECK(answer.number == ECHO_SHORT_RECORD && answer.length == 0);
    const uint8_t *many = bytes_of(same_numbers(0, 4353), ECHO_MAX_NODES_LEN + 1);
    answer = shorten_records(many, ECHO_MAX_NODES_LEN + 1, again, 1);
    CHECK(answer.number == ECHO_LIMIT && answer.length == 0 && again[0] == 0);
    answer = lengthen_records(many, 5 * ECHO_MAX_NODES + 1, again, 1);
    CHECK(answer.number == ECHO_LIMIT && answer.length == 0);
    answer = shorten_records(many, 0, again, 0);
    CHECK(answer.number == ECHO_ACCEPTED && answer.length == 0);
}

static void files(void)
{
    const uint8_t *file = bytes_of("(set-logic QF_BV)\n(check-sat)\n(check-sat)\n (check-sat)\n", 55);
    struct script_answer answer = next_script(file, 55);
    CHECK(answer.found == 1 && answer.length == 30);
    answer = next_script(file + 30, 25);
    CHECK(answer.found == 1 && answer.length == 12);
    answer = next_script(file + 42, 13);
    CHECK(answer.found == 0 && answer.length == 0);
    answer = next_script(bytes_of("(check-sat)", 11), 11);
    CHECK(answer.found == 0 && answer.length == 0);
    answer = next_script(file, 0);
    CHECK(answer.found == 0 && answer.length == 0);
}

/* A term used twice: bound by let, and refused where a declared name is the one that it would be bound under. */
static void shared_terms(void)
{
    static const char script[] =
        "(set-logic QF_BV)\n(declare-const |x| (_ BitVec 8))\n"
        "(assert (let ((|d2| (bvadd |x| #b00000101))) (= |d2| |d2|)))\n(check-sat)\n";
    const size_t length = sizeof script - 1;
    static const struct record records[4] = {
        {ECHO_KIND_VAR, {8, 0, 0, 0}},
        {ECHO_KIND_CONST, {0, 8, 0, 0}},
        {ECHO_KIND_ADD, {0, 1, 0, 0}},
        {ECHO_KIND_EQ, {2, 2, 0, 0}},
    };
    struct echo_problem p = m2();
    p.nodes = nodes_of(records, 4);
    refused(&p, ECHO_SHARED);
    uint8_t *out = filled(length + 3);
    struct echo_answer answer = echo_problem_let(&p, out, length + 3);
    CHECK(answer.number == ECHO_ACCEPTED && answer.length == length && memcmp(out, script, length) == 0);
    CHECK(all(out, length, length + 3, FILL));
    answer = echo_problem_let(&p, out, length - 1);
    CHECK(answer.number == ECHO_ROOM && answer.length == 0 && all(out, 0, length - 1, 0));
    answer = echo_problem_let(&p, NULL, 0);
    CHECK(answer.number == ECHO_ROOM && answer.length == 0);
    p.names = bytes_of("d2", 2);
    p.names_len = 2;
    p.name_len = same_numbers(2, 1);
    answer = echo_problem_let(&p, out, length + 3);
    CHECK(answer.number == ECHO_CLASH && answer.length == 0 && all(out, 0, length + 3, 0));
    p = m2();
    p.names = bytes_of("d2", 2);
    p.names_len = 2;
    p.name_len = same_numbers(2, 1);
    answer = echo_problem_let(&p, NULL, 0);
    CHECK(answer.number == ECHO_ROOM);
}

/* The lines of a map file. */
static void map_file(void)
{
    static const char lines[] = "|x| + #b00000101 == |x|\n";
    const size_t length = sizeof lines - 1;
    struct echo_problem p = m2();
    for (size_t room = length; room <= length + 4; room += 4) {
        uint8_t *out = filled(room);
        const struct echo_answer answer = echo_problem_formulas(&p, out, room);
        CHECK(answer.number == ECHO_ACCEPTED && answer.length == length && memcmp(out, lines, length) == 0);
        CHECK(all(out, length, room, FILL));
    }
    uint8_t *out = filled(length - 1);
    struct echo_answer answer = echo_problem_formulas(&p, out, length - 1);
    CHECK(answer.number == ECHO_ROOM && answer.length == 0 && all(out, 0, length - 1, 0));
    answer = echo_problem_formulas(&p, NULL, 0);
    CHECK(answer.number == ECHO_ROOM && answer.length == 0);
    p = empty();
    answer = echo_problem_formulas(&p, NULL, 0); /* no roots, no lines */
    CHECK(answer.number == ECHO_ACCEPTED && answer.length == 0);
}

/* None, one and two positions. */
static void roots_that_matter(void)
{
    static const uint64_t roots[4] = {3, 9, 3, 9};
    struct echo_problem p = m2();
    struct fewest_answer answer = echo_problem_fewest(&p);
    CHECK(answer.number == ECHO_ACCEPTED && answer.count == 0 && answer.first == 0 && answer.second == 0);
    p.roots = numbers_of(roots, 2);
    p.roots_len = 2;
    answer = echo_problem_fewest(&p);
    CHECK(answer.number == ECHO_MALFORMED && answer.count == 1 && answer.first == 1 && answer.second == 0);
    p.roots = numbers_of(roots, 4);
    p.roots_len = 4;
    answer = echo_problem_fewest(&p);
    CHECK(answer.number == ECHO_SHARED && answer.count == 2 && answer.first == 0 && answer.second == 2);
    p = m2();
    p.var_width = same_numbers(0, 1);
    answer = echo_problem_fewest(&p);
    CHECK(answer.number == ECHO_VAR && answer.count == 0);
    p = empty();
    answer = echo_problem_fewest(&p);
    CHECK(answer.number == ECHO_ACCEPTED && answer.count == 0);
}

/* Rows of values: x < 5 and x = 1, of which both hold, one and none; what lies past the rows is left. */
static void traces(void)
{
    static const struct record records[6] = {
        {ECHO_KIND_VAR, {8, 0, 0, 0}},
        {ECHO_KIND_CONST, {0, 8, 0, 0}},
        {ECHO_KIND_ULT, {0, 1, 0, 0}},
        {ECHO_KIND_CONST, {0, 1, 0, 0}},
        {ECHO_KIND_ZERO_EXT, {3, 7, 0, 0}},
        {ECHO_KIND_EQ, {0, 4, 0, 0}},
    };
    static const uint64_t roots[2] = {2, 5};
    static const uint64_t rows[4] = {1, 4, 5, 256};
    static const uint64_t want[3] = {3, 1, 0};
    static const uint64_t ones[3] = {2, 1, 0};
    struct echo_problem p = m2();
    p.nodes = nodes_of(records, 6);
    p.nodes_len = 6 * ECHO_NODE_BYTES;
    p.roots = numbers_of(roots, 2);
    p.roots_len = 2;
    uint64_t *masks = (uint64_t *)keep(4 * sizeof *masks);
    uint64_t *counts = (uint64_t *)keep(3 * sizeof *counts);
    masks[3] = 99;
    struct trace_answer answer = echo_problem_replay(&p, numbers_of(rows, 3), 3, masks, 4, counts, 3);
    CHECK(answer.number == ECHO_ACCEPTED && answer.rows == 3 && masks[3] == 99);
    CHECK(memcmp(masks, want, sizeof want) == 0 && memcmp(counts, ones, sizeof ones) == 0);
    answer = echo_problem_replay(&p, NULL, 0, NULL, 0, NULL, 0);
    CHECK(answer.number == ECHO_ACCEPTED && answer.rows == 0);
    answer = echo_problem_replay(&p, numbers_of(rows, 4), 4, masks, 4, counts, 3);
    CHECK(answer.number == ECHO_VALUES && answer.rows == 0 && masks[0] == 0 && masks[3] == 0 && counts[2] == 0);
    masks[0] = 99;
    answer = echo_problem_replay(&p, numbers_of(rows, 3), 3, masks, 3, counts, 2);
    CHECK(answer.number == ECHO_ROOM && answer.rows == 0 && masks[0] == 0);
    answer = echo_problem_replay(&p, numbers_of(rows, 1), 1, NULL, 0, NULL, 0);
    CHECK(answer.number == ECHO_ROOM && answer.rows == 0);
    p.roots = same_numbers(2, 65);
    p.roots_len = 65;
    answer = echo_problem_replay(&p, NULL, 0, masks, 1, counts, 1);
    CHECK(answer.number == ECHO_LIMIT && answer.rows == 0);
    p = empty();
    masks[0] = counts[0] = 99;
    answer = echo_problem_replay(&p, NULL, 0, masks, 1, counts, 1); /* no variables: one row */
    CHECK(answer.number == ECHO_ACCEPTED && answer.rows == 1 && masks[0] == 0 && counts[0] == 0);
    answer = echo_problem_replay(&p, NULL, 0, NULL, 0, NULL, 0);
    CHECK(answer.number == ECHO_ROOM && answer.rows == 0);
    answer = echo_problem_replay(&p, numbers_of(rows, 1), 1, masks, 1, counts, 1);
    CHECK(answer.number == ECHO_VALUES && answer.rows == 0);
}

/* The eighteen outputs of read_script, each as long as the slice of a problem and some elements more, and filled. */
struct outputs {
    uint8_t *bytes[5];     /* nodes, bits, names, anames, fnames */
    uint64_t *numbers[13]; /* the others, in order */
    size_t bytes_len[5];
    size_t numbers_len[13];
};

static void lengths_of(const struct echo_problem *p, struct outputs *o)
{
    const size_t bytes_len[5] = {p->nodes_len, p->bits_len, p->names_len, p->anames_len, p->fnames_len};
    const size_t numbers_len[13] = {
        p->side_len, p->roots_len, p->name_start_len, p->name_len_len, p->var_node_len, p->var_width_len, p->aname_start_len,
        p->aname_len_len, p->index_width_len, p->value_width_len, p->fname_start_len, p->fname_len_len, p->func_width_len};
    memcpy(o->bytes_len, bytes_len, sizeof bytes_len);
    memcpy(o->numbers_len, numbers_len, sizeof numbers_len);
}

/* One of them, told by its place, is one element short; none where the place is past all. */
static struct outputs lent(const struct echo_problem *p, size_t more, size_t one_short)
{
    struct outputs o;
    lengths_of(p, &o);
    for (size_t k = 0; k < 5; k++) {
        o.bytes_len[k] = k == one_short ? o.bytes_len[k] - 1 : o.bytes_len[k] + more;
        o.bytes[k] = filled(o.bytes_len[k]);
    }
    for (size_t k = 0; k < 13; k++) {
        o.numbers_len[k] = k + 5 == one_short ? o.numbers_len[k] - 1 : o.numbers_len[k] + more;
        o.numbers[k] = (uint64_t *)keep(o.numbers_len[k] * sizeof *o.numbers[k]);
        for (size_t i = 0; i < o.numbers_len[k]; i++) {
            o.numbers[k][i] = FILL;
        }
    }
    return o;
}

static struct read_answer read_into(const char *script, size_t script_len, struct outputs *o)
{
    return read_script(
        bytes_of(script, script_len), script_len,
        o->bytes[0], o->bytes_len[0], o->bytes[1], o->bytes_len[1],
        o->numbers[0], o->numbers_len[0], o->numbers[1], o->numbers_len[1],
        o->bytes[2], o->bytes_len[2],
        o->numbers[2], o->numbers_len[2], o->numbers[3], o->numbers_len[3],
        o->numbers[4], o->numbers_len[4], o->numbers[5], o->numbers_len[5],
        o->bytes[3], o->bytes_len[3],
        o->numbers[6], o->numbers_len[6], o->numbers[7], o->numbers_len[7],
        o->numbers[8], o->numbers_len[8], o->numbers[9], o->numbers_len[9],
        o->bytes[4], o->bytes_len[4],
        o->numbers[10], o->numbers_len[10], o->numbers[11], o->numbers_len[11], o->numbers[12], o->numbers_len[12]);
}

static void refused_reading(const char *script, size_t script_len, struct outputs o, uint64_t number)
{
    struct read_answer answer = read_into(script, script_len, &o);
    CHECK(answer.number == number);
    CHECK(answer.nodes == 0 && answer.bits == 0 && answer.side == 0 && answer.roots == 0 && answer.names == 0 && answer.variables == 0);
    CHECK(answer.anames == 0 && answer.arrays == 0 && answer.fnames == 0 && answer.functions == 0);
    for (size_t k = 0; k < 5; k++) {
        for (size_t i = 0; i < o.bytes_len[k]; i++) {
            CHECK(o.bytes[k][i] == 0);
        }
    }
    for (size_t k = 0; k < 13; k++) {
        for (size_t i = 0; i < o.numbers_len[k]; i++) {
            CHECK(o.numbers[k][i] == 0);
        }
    }
}

/* The script of a problem that is as reading places it: it is read as that problem, and refused where an output is one element short. */
static void read_back(const struct echo_problem *p, const char *script)
{
    const uint8_t *bytes[5] = {p->nodes, p->bits, p->names, p->anames, p->fnames};
    const uint64_t *numbers[13] = {p->side, p->roots, p->name_start, p->name_len, p->var_node, p->var_width, p->aname_start,
        p->aname_len, p->index_width, p->value_width, p->fname_start, p->fname_len, p->func_width};
    for (size_t more = 0; more <= 2; more++) {
        struct outputs wanted = {{0}, {0}, {0}, {0}};
        lengths_of(p, &wanted);
        struct outputs o = lent(p, more, 18);
        struct read_answer answer = read_into(script, strlen(script), &o);
        CHECK(answer.number == ECHO_ACCEPTED);
        CHECK(answer.nodes == p->nodes_len && answer.bits == p->bits_len && answer.side == p->side_len && answer.roots == p->roots_len);
        CHECK(answer.names == p->names_len && answer.variables == p->var_node_len);
        CHECK(answer.anames == p->anames_len && answer.arrays == p->index_width_len);
        CHECK(answer.fnames == p->fnames_len && answer.functions == p->func_width_len);
        for (size_t k = 0; k < 5; k++) {
            for (size_t i = 0; i < o.bytes_len[k]; i++) {
                CHECK(o.bytes[k][i] == (i < wanted.bytes_len[k] ? bytes[k][i] : (uint8_t)FILL));
            }
        }
        for (size_t k = 0; k < 13; k++) {
            for (size_t i = 0; i < o.numbers_len[k]; i++) {
                CHECK(o.numbers[k][i] == (i < wanted.numbers_len[k] ? numbers[k][i] : (uint64_t)FILL));
            }
        }
    }
    struct outputs used = {{0}, {0}, {0}, {0}};
    lengths_of(p, &used);
    for (size_t k = 0; k < 18; k++) {
        if ((k < 5 ? used.bytes_len[k] : used.numbers_len[k - 5]) > 0) {
            refused_reading(script, strlen(script), lent(p, 1, k), ECHO_ROOM);
        }
    }
    for (size_t end = 0; end < strlen(script); end++) {
        if (end % 16 == 0 || end + 4 > strlen(script)) {
            refused_reading(script, end, lent(p, 0, 18), ECHO_NO_SCRIPT);
        }
    }
}

static void read_again(void)
{
    static const char wide[] = "(set-logic QF_BV)\n(declare-const |x| (_ BitVec 4294967296))\n(check-sat)\n";
    static const struct record records[6] = {
        {ECHO_KIND_VAR, {24, 0, 0, 0}},
        {ECHO_KIND_VAR, {16, 0, 0, 0}},
        {ECHO_KIND_SELECT, {0, 0, 0, 1}},
        {ECHO_KIND_CONST, {0, 16, 0, 0}}, /* just before the call that uses it */
        {ECHO_KIND_CALL, {0, 16, 2, 2}},
        {ECHO_KIND_EQ, {2, 4, 0, 0}},
    };
    static const uint64_t side[4] = {0, 1, 0, 3};
    struct echo_problem p = empty();
    read_back(&p, "(set-logic QF_BV)\n(check-sat)\n");
    p = m2();
    read_back(&p, "(set-logic QF_BV)\n(declare-const |x| (_ BitVec 8))\n(assert (= (bvadd |x| #b00000101) |x|))\n(check-sat)\n");
    refused_reading(wide, sizeof wide - 1, lent(&p, 0, 18), ECHO_LIMIT);
    p = rich();
    p.nodes = nodes_of(records, 6);
    p.side = numbers_of(side, 4);
    read_back(&p,
        "(set-logic QF_AUFBV)\n"
        "(declare-const |i| (_ BitVec 24))\n"
        "(declare-const |v| (_ BitVec 16))\n"
        "(declare-const |m| (Array (_ BitVec 24) (_ BitVec 16)))\n"
        "(declare-fun |f| ((_ BitVec 24) (_ BitVec 16)) (_ BitVec 16))\n"
        "(assert (= (select (store |m| |i| |v|) |i|) (|f| |i| #b0101010101010101)))\n"
        "(check-sat)\n");
    CHECK(echo_script_depth(bytes_of("(a |((| (b) ((c)))", 18), 18) == 3);
    CHECK(echo_script_depth(bytes_of("))((", 4), 4) == 2 && echo_script_depth(bytes_of("", 0), 0) == 0);
    CHECK(echo_script_depth(NULL, 0) == 0 && echo_release_depth(NULL, 0) == 0);
    CHECK(echo_read_stack(1) > echo_read_stack(0) && echo_release_stack(1) > echo_read_stack(1));
}

/* A release of these scripts, one behind the other: what is answered. */
static void release_is(const char *const *scripts, size_t count, uint64_t number, uint64_t script)
{
    size_t len = 0;
    for (size_t i = 0; i < count; i++) {
        len += strlen(scripts[i]);
    }
    char *file = (char *)keep(len);
    size_t at = 0;
    for (size_t i = 0; i < count; i++) {
        memcpy(file + at, scripts[i], strlen(scripts[i]));
        at += strlen(scripts[i]);
    }
    struct release_answer answer = check_release((const uint8_t *)file, len);
    CHECK(answer.number == number && answer.script == script);
}

#define DECLARING(logic, line) "(set-logic " logic ")\n" line "\n(check-sat)\n"

/* Every number, with the script that is told; each kind of difference; the order of what is told. */
static void releases(void)
{
    static const char x8[] = DECLARING("QF_BV", "(declare-const |x| (_ BitVec 8))");
    static const char x9[] = DECLARING("QF_BV", "(declare-const |x| (_ BitVec 9))");
    static const char y9[] = DECLARING("QF_BV", "(declare-const |y| (_ BitVec 9))");
    static const char none[] = "(set-logic QF_BV)\n(check-sat)\n";
    static const char blank[] = "(set-logic  QF_BV)\n(check-sat)\n";
    static const char wide[] = DECLARING("QF_BV", "(declare-const |w| (_ BitVec 4294967296))");
    static const char high8[] = DECLARING("QF_BV", "(declare-const |\xe9\xa0\x98| (_ BitVec 8))");
    static const char high9[] = DECLARING("QF_BV", "(declare-const |\xe9\xa0\x98| (_ BitVec 9))");
    /* A name that the scripts above have too, as each of eight: no two are the same. */
    static const char *const meanings[8] = {
        x8,
        x9,
        DECLARING("QF_ABV", "(declare-const |x| (Array (_ BitVec 8) (_ BitVec 9)))"),
        DECLARING("QF_ABV", "(declare-const |x| (Array (_ BitVec 9) (_ BitVec 8)))"),
        DECLARING("QF_AUFBV", "(declare-fun |x| () (_ BitVec 8))"),
        DECLARING("QF_AUFBV", "(declare-fun |x| ((_ BitVec 8) (_ BitVec 9)) (_ BitVec 8))"),
        DECLARING("QF_AUFBV", "(declare-fun |x| ((_ BitVec 9) (_ BitVec 8)) (_ BitVec 8))"),
        DECLARING("QF_AUFBV", "(declare-fun |x| ((_ BitVec 8) (_ BitVec 9)) (_ BitVec 9))"),
    };
    static const char deep[] = "|(((\n(check-sat)\n(a (b (c)))\n(check-sat)\n((((((((";
    CHECK(ECHO_MAX_SCRIPTS == 64 && ECHO_TWO_MEANINGS == 17);
    CHECK(echo_release_depth(bytes_of(deep, sizeof deep - 1), sizeof deep - 1) == 3 && echo_release_depth(bytes_of("", 0), 0) == 0);
    release_is(NULL, 0, ECHO_ACCEPTED, 0);
    for (size_t i = 0; i < 8; i++) {
        for (size_t j = 0; j < 8; j++) {
            const char *const two[4] = {meanings[i], none, y9, meanings[j]};
            release_is(two, 4, i == j ? ECHO_ACCEPTED : ECHO_TWO_MEANINGS, i == j ? 0 : 3);
        }
    }
    {
        const char *const names[3] = {high8, x8, high8};
        release_is(names, 3, ECHO_ACCEPTED, 0);
        const char *const differ[3] = {high8, x8, high9};
        release_is(differ, 3, ECHO_TWO_MEANINGS, 2);
        /* the earliest that disagrees with one before it, and not its partner or a later one */
        const char *const several[5] = {y9, x8, none, x9, x8};
        release_is(several, 5, ECHO_TWO_MEANINGS, 3);
        /* what reading refuses comes first, in order */
        const char *const unread[4] = {x8, x9, blank, wide};
        release_is(unread, 4, ECHO_NO_SCRIPT, 2);
        const char *const limit[4] = {x8, x9, wide, blank};
        release_is(limit, 4, ECHO_LIMIT, 2);
        /* bytes after the last check-sat line */
        const char *const more[3] = {x8, x9, "\n"};
        release_is(more, 3, ECHO_NO_SCRIPT, 2);
        const char *const let[2] = {
            x8, DECLARING("QF_BV", "(declare-const |x| (_ BitVec 8))\n(assert (let ((|d1| (bvneg |x|))) (= |d1| |d1|)))")};
        release_is(let, 2, ECHO_NO_SCRIPT, 1);
    }
    for (size_t count = 63; count <= 66; count++) {
        const char *many[67];
        for (size_t i = 0; i < 67; i++) {
            many[i] = i % 2 == 0 ? x8 : y9;
        }
        release_is(many, count, count <= 64 ? ECHO_ACCEPTED : ECHO_LIMIT, count <= 64 ? 0 : 64);
        many[count] = "(check-sat)";
        release_is(many, count + 1, count <= 64 ? ECHO_NO_SCRIPT : ECHO_LIMIT, count <= 64 ? count : 64);
        many[count - 1] = x9;
        release_is(many, count, count <= 64 ? ECHO_TWO_MEANINGS : ECHO_LIMIT, count <= 64 ? count - 1 : 64);
        many[0] = blank;
        release_is(many, count, count <= 64 ? ECHO_NO_SCRIPT : ECHO_LIMIT, count <= 64 ? 0 : 64);
    }
}

/* What is handed over is never null, and is the slice itself where it has elements. */
static void never_null(void)
{
    uint8_t byte = 0;
    uint64_t number = 0;
    CHECK(echo_lent_bytes(NULL, 0) != NULL && echo_lent_bytes(&byte, 1) == &byte);
    CHECK(echo_lent_numbers(NULL, 0) != NULL && echo_lent_numbers(&number, 1) == &number);
    CHECK(echo_lent_out(NULL, 0) != NULL && echo_lent_out(&byte, 1) == &byte);
    CHECK(echo_lent_numbers_out(NULL, 0) != NULL && echo_lent_numbers_out(&number, 1) == &number);
}

int main(void)
{
    struct echo_problem p = empty();
    accepted(&p, "(set-logic QF_BV)\n(check-sat)\n", "(set-logic QF_BV)\n(check-sat)\n", 0);
    p = m2();
    accepted(&p,
        "(set-logic QF_BV)\n(declare-const |x| (_ BitVec 8))\n(assert (= (bvadd |x| #b00000101) |x|))\n(check-sat)\n",
        "(set-logic QF_BV)\n(declare-const |x| (_ BitVec 8))\n(assert (= (bvadd |x| #b00000000) |x|))\n(check-sat)\n", 5);
    p = rich();
    accepted(&p,
        "(set-logic QF_AUFBV)\n"
        "(declare-const |i| (_ BitVec 24))\n"
        "(declare-const |v| (_ BitVec 16))\n"
        "(declare-const |m| (Array (_ BitVec 24) (_ BitVec 16)))\n"
        "(declare-fun |f| ((_ BitVec 24) (_ BitVec 16)) (_ BitVec 16))\n"
        "(assert (= (select (store |m| |i| |v|) |i|) (|f| |i| #b0101010101010101)))\n"
        "(check-sat)\n",
        "(set-logic QF_AUFBV)\n"
        "(declare-const |i| (_ BitVec 24))\n"
        "(declare-const |v| (_ BitVec 16))\n"
        "(declare-const |m| (Array (_ BitVec 24) (_ BitVec 16)))\n"
        "(declare-fun |f| ((_ BitVec 24) (_ BitVec 16)) (_ BitVec 16))\n"
        "(assert (= (select (store |m| |i| |v|) |i|) (|f| |i| #b0000000000000000)))\n"
        "(check-sat)\n", 8);
    never_null();
    plain_functions();
    width_pass();
    shared_terms();
    map_file();
    roots_that_matter();
    traces();
    every_number();
    at_the_limits();
    records();
    files();
    read_again();
    releases();
    printf("entry points: %d checks\n", checks);
    while (kept_count > 0) {
        free(kept[--kept_count]);
    }
    return 0;
}
