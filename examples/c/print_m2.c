/*
 * Prints one problem: is there an 8-bit x with x + 5 = x? It is the marked case M2. The output is set aside by the length that
 * echo_size tells; the first line has the label, the number, the length and how many terms the walk enters. The script follows, and then
 * the same script with its constant hidden, which is as long.
 * Then its node records are made shorter, and made records again.
 */
#include <stdio.h>
#include <stdlib.h>
#include <string.h>

#include "echo.h"

/* Writes record i: a kind and four operands, the least significant byte first. */
static void put_node(uint8_t *nodes, size_t i, uint8_t kind, uint32_t a, uint32_t b, uint32_t c, uint32_t d)
{
    const uint32_t operands[4] = {a, b, c, d};
    uint8_t *record = nodes + i * ECHO_NODE_BYTES;
    record[0] = kind;
    for (size_t k = 0; k < 4; k++) {
        for (size_t j = 0; j < 4; j++) {
            record[1 + 4 * k + j] = (uint8_t)(operands[k] >> (8 * j) & 255u);
        }
    }
}

int main(void)
{
    uint8_t nodes[4 * ECHO_NODE_BYTES];
    put_node(nodes, 0, ECHO_KIND_VAR, 8, 0, 0, 0);   /* x, of width 8 */
    put_node(nodes, 1, ECHO_KIND_CONST, 0, 8, 0, 0); /* 8 bits from bit 0 on */
    put_node(nodes, 2, ECHO_KIND_ADD, 0, 1, 0, 0);   /* node 0 + node 1 */
    put_node(nodes, 3, ECHO_KIND_EQ, 2, 0, 0, 0);    /* node 2 = node 0 */

    const uint8_t bits[8] = {1, 0, 1, 0, 0, 0, 0, 0}; /* 5, the lowest bit first */
    const uint64_t roots[1] = {3};

    /* The table of variables has one entry: the first byte of the arena, for node 0, of width 8. */
    const uint8_t names[1] = {'x'};
    const uint64_t name_start[1] = {0};
    const uint64_t name_len[1] = {1};
    const uint64_t var_node[1] = {0};
    const uint64_t var_width[1] = {8};

    /* What is not named is empty: no side entries, no arrays, no functions. */
    struct echo_problem problem;
    memset(&problem, 0, sizeof problem);
    problem.nodes = nodes;
    problem.nodes_len = sizeof nodes;
    problem.bits = bits;
    problem.bits_len = 8;
    problem.roots = roots;
    problem.roots_len = 1;
    problem.names = names;
    problem.names_len = 1;
    problem.name_start = name_start;
    problem.name_start_len = 1;
    problem.name_len = name_len;
    problem.name_len_len = 1;
    problem.var_node = var_node;
    problem.var_node_len = 1;
    problem.var_width = var_width;
    problem.var_width_len = 1;

    const struct size_answer size = echo_problem_size(&problem);
    if (size.number != ECHO_ACCEPTED) {
        fprintf(stderr, "M2 is refused with %llu\n", (unsigned long long)size.number);
        return 1;
    }
    const size_t room = (size_t)size.length;
    uint8_t *out = (uint8_t *)malloc(room);
    if (out == NULL) {
        fprintf(stderr, "no memory for %llu bytes\n", (unsigned long long)size.length);
        return 3;
    }
    const struct echo_answer answer = echo_problem_print(&problem, out, room);
    printf("M2 %llu %llu %llu\n", (unsigned long long)answer.number, (unsigned long long)answer.length, (unsigned long long)size.terms);
    /* The script has no byte 0 at its end: its length says where it ends. */
    int written = answer.number == ECHO_ACCEPTED && fwrite(out, 1, room, stdout) == room;

    const struct echo_answer hidden = echo_problem_hidden(&problem, out, room);
    written = written && hidden.number == ECHO_ACCEPTED && hidden.length == size.length && fwrite(out, 1, room, stdout) == room && fflush(stdout) == 0;
    free(out);
    if (!written) {
        return 2;
    }

    /* The same nodes in the shorter form, and back: a variable has one operand, the others have two. */
    uint8_t shorter[sizeof nodes];
    uint8_t again[sizeof nodes];
    const struct record_answer made = shorten_records(nodes, sizeof nodes, shorter, sizeof shorter);
    if (made.number != ECHO_ACCEPTED) {
        return 3;
    }
    const struct record_answer back = lengthen_records(shorter, (size_t)made.length, again, sizeof again);
    if (back.number != ECHO_ACCEPTED || back.length != sizeof nodes || memcmp(nodes, again, sizeof nodes) != 0) {
        return 4;
    }
    /* Without its last byte the shorter form ends inside a record. */
    const struct record_answer cut = lengthen_records(shorter, (size_t)made.length - 1, again, sizeof again);
    printf("records %zu %llu %llu %llu\n", sizeof nodes, (unsigned long long)made.length, (unsigned long long)back.length,
        (unsigned long long)cut.number);
    return cut.number == ECHO_SHORT_RECORD ? 0 : 5;
}
