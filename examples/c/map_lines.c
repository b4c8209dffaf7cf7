/*
 * Writes two roots as the lines of a map file. The first holds where a flag is set and a region ends within its limit, the second where the
 * region does not begin at the limit. Of the buffer only the lines are written; one byte less is refused, and cleared. The function is called
 * with its slices one by one; the other programs here have them in a struct.
 */
#include <stdio.h>
#include <string.h>

#include "echo.h"

/* Writes record i: a kind and four operands, the least significant byte first. */
static void put_node(uint8_t *nodes, size_t i, uint8_t kind, uint32_t a, uint32_t b)
{
    const uint32_t operands[4] = {a, b, 0, 0};
    uint8_t *record = nodes + i * ECHO_NODE_BYTES;
    record[0] = kind;
    for (size_t k = 0; k < 4; k++) {
        for (size_t j = 0; j < 4; j++) {
            record[1 + 4 * k + j] = (uint8_t)(operands[k] >> (8 * j) & 255u);
        }
    }
}

/* As much of the buffer as is lent. */
static struct echo_answer lines(const uint8_t *nodes, size_t nodes_len, uint8_t *out, size_t room)
{
    static const uint8_t bits[8] = {1, 0, 0, 0, 0, 0, 0, 0};
    static const uint64_t roots[2] = {9, 11};
    static const char names[] = "flagsaddrsizelimit";
    static const uint64_t start[4] = {0, 5, 9, 13};
    static const uint64_t len[4] = {5, 4, 4, 5};
    static const uint64_t node[4] = {0, 1, 2, 3};
    static const uint64_t width[4] = {8, 8, 8, 8};
    /* What stands for an empty slice, which may not be null here. */
    static const uint8_t no_bytes[1] = {0};
    static const uint64_t no_numbers[1] = {0};
    return echo_formulas(
        nodes, nodes_len,
        bits, 8,
        no_numbers, 0, /* side */
        roots, 2,
        (const uint8_t *)names, strlen(names), start, 4, len, 4, node, 4, width, 4,
        no_bytes, 0, no_numbers, 0, no_numbers, 0, no_numbers, 0, no_numbers, 0, /* arrays */
        no_bytes, 0, no_numbers, 0, no_numbers, 0, no_numbers, 0,                /* functions */
        out, room);
}

int main(void)
{
    uint8_t nodes[12 * ECHO_NODE_BYTES];
    for (size_t i = 0; i < 4; i++) {
        put_node(nodes, i, ECHO_KIND_VAR, 8, 0); /* flags, addr, size, limit */
    }
    put_node(nodes, 4, ECHO_KIND_CONST, 0, 8); /* 1 */
    put_node(nodes, 5, ECHO_KIND_AND, 0, 4);
    put_node(nodes, 6, ECHO_KIND_EQ, 5, 4);
    put_node(nodes, 7, ECHO_KIND_ADD, 1, 2);
    put_node(nodes, 8, ECHO_KIND_ULE, 7, 3);
    put_node(nodes, 9, ECHO_KIND_BOOL_AND, 6, 8);
    put_node(nodes, 10, ECHO_KIND_EQ, 1, 3);
    put_node(nodes, 11, ECHO_KIND_NOT, 10, 0);

    uint8_t out[200];
    const struct echo_answer answer = lines(nodes, sizeof nodes, out, sizeof out);
    if (answer.number != ECHO_ACCEPTED) {
        return 1;
    }
    const size_t length = (size_t)answer.length;
    if (fwrite(out, 1, length, stdout) != length) {
        return 2;
    }
    const struct echo_answer cut = lines(nodes, sizeof nodes, out, length - 1);
    printf("%zu bytes; with one less %llu\n", length, (unsigned long long)cut.number);
    return cut.number == ECHO_ROOM && out[0] == 0 ? 0 : 3;
}
