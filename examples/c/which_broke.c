/*
 * Which assertion did the board break? Three variables of 16 bits, base, size and limit, are logged on a board; the rules are
 * base + size <= limit, size != 0 and base & 15 = 0. Each row of the log is checked against the rules that the script asks of the solver.
 */
#include <stdio.h>
#include <string.h>

#include "echo.h"

/* Writes record i: a kind and four operands, the least significant byte first. */
static void put_node(uint8_t *nodes, size_t i, uint8_t kind, uint32_t a, uint32_t b)
{
    const uint32_t operands[4] = {a, b, 0, 0};
    uint8_t *record = nodes + i * ECHO_NODE_BYTES;
    record[0] = kind;
    for (size_t k = 0; k < 4; k++) {
        for (size_t j = 0; j < 4; j++) {
            record[1 + 4 * k + j] = (uint8_t)(operands[k] >> (8 * j) & 255u);
        }
    }
}

int main(void)
{
    enum { NODES = 10, ROWS = 4 };
    uint8_t nodes[NODES * ECHO_NODE_BYTES];
    put_node(nodes, 0, ECHO_KIND_VAR, 16, 0);   /* base */
    put_node(nodes, 1, ECHO_KIND_VAR, 16, 0);   /* size */
    put_node(nodes, 2, ECHO_KIND_VAR, 16, 0);   /* limit */
    put_node(nodes, 3, ECHO_KIND_CONST, 0, 16); /* 0 */
    put_node(nodes, 4, ECHO_KIND_CONST, 16, 16); /* 15 */
    put_node(nodes, 5, ECHO_KIND_ADD, 0, 1);
    put_node(nodes, 6, ECHO_KIND_ULE, 5, 2); /* base + size <= limit */
    put_node(nodes, 7, ECHO_KIND_NE, 1, 3);  /* size != 0 */
    put_node(nodes, 8, ECHO_KIND_AND, 0, 4);
    put_node(nodes, 9, ECHO_KIND_EQ, 8, 3); /* base & 15 = 0 */

    uint8_t bits[32] = {0};
    for (size_t k = 16; k < 20; k++) {
        bits[k] = 1;
    }
    const uint64_t roots[3] = {6, 7, 9};
    static const char *const rules[3] = {"base + size <= limit", "size != 0", "base & 15 = 0"};

    const uint8_t names[] = {'b', 'a', 's', 'e', 's', 'i', 'z', 'e', 'l', 'i', 'm', 'i', 't'};
    const uint64_t name_start[3] = {0, 4, 8};
    const uint64_t name_len[3] = {4, 4, 5};
    const uint64_t var_node[3] = {0, 1, 2};
    const uint64_t var_width[3] = {16, 16, 16};

    /* What is not named is empty: no side entries, no arrays, no functions. */
    struct echo_problem problem;
    memset(&problem, 0, sizeof problem);
    problem.nodes = nodes;
    problem.nodes_len = sizeof nodes;
    problem.bits = bits;
    problem.bits_len = sizeof bits;
    problem.roots = roots;
    problem.roots_len = 3;
    problem.names = names;
    problem.names_len = sizeof names;
    problem.name_start = name_start;
    problem.name_start_len = 3;
    problem.name_len = name_len;
    problem.name_len_len = 3;
    problem.var_node = var_node;
    problem.var_node_len = 3;
    problem.var_width = var_width;
    problem.var_width_len = 3;

    /* The log: base, size and limit of each row. */
    const uint64_t values[3 * ROWS] = {
        0x1000, 0x200,  0x2000,
        0x1000, 0,      0x2000,
        0xfff0, 0x20,   0x10,
        0x1008, 0x2000, 0x2000,
    };
    uint64_t masks[ROWS];
    uint64_t counts[ROWS];
    const struct trace_answer answer = echo_problem_replay(&problem, values, 3 * ROWS, masks, ROWS, counts, ROWS);
    if (answer.number != ECHO_ACCEPTED) {
        printf("refused with %llu\n", (unsigned long long)answer.number);
        return 1;
    }
    for (size_t j = 0; j < answer.rows; j++) {
        printf("row %zu: %llu of 3 hold", j, (unsigned long long)counts[j]);
        for (size_t k = 0; k < 3; k++) {
            if ((masks[j] >> k & 1) == 0) {
                printf("; broken: %s", rules[k]);
            }
        }
        printf("\n");
    }
    return 0;
}
