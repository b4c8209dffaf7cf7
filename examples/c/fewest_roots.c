/*
 * Takes a refused problem of 200 roots to the two that matter. x is node 0, of width 8, and nodes 1 to 200 are 200 times x = x. Root k is
 * node k + 1, but for the one at position 150, which is node 58 again, so that the problem is refused with 6. The first line has the number
 * and the positions; the second has the number with the roots at these two positions alone; the third with all roots but the first of the two.
 */
#include <stdio.h>
#include <string.h>

#include "echo.h"

#define ROOTS 200

/* x and the 200 comparisons; operands are numbers below 256 here. */
static uint8_t nodes[(ROOTS + 1) * ECHO_NODE_BYTES];

static struct fewest_answer fewest(const uint64_t *roots, size_t count)
{
    static const uint8_t x[1] = {'x'};
    static const uint64_t zero[1] = {0};
    static const uint64_t one[1] = {1};
    static const uint64_t eight[1] = {8};
    struct echo_problem problem;
    memset(&problem, 0, sizeof problem);
    problem.nodes = nodes;
    problem.nodes_len = sizeof nodes;
    problem.roots = roots;
    problem.roots_len = count;
    problem.names = x; /* one variable: node 0, of width 8 */
    problem.names_len = 1;
    problem.name_start = zero;
    problem.name_start_len = 1;
    problem.name_len = one;
    problem.name_len_len = 1;
    problem.var_node = zero;
    problem.var_node_len = 1;
    problem.var_width = eight;
    problem.var_width_len = 1;
    return echo_problem_fewest(&problem);
}

static void tell(const char *label, struct fewest_answer answer)
{
    printf("%s: %llu", label, (unsigned long long)answer.number);
    if (answer.count > 0) {
        printf(", position %llu", (unsigned long long)answer.first);
    }
    if (answer.count > 1) {
        printf(" and position %llu", (unsigned long long)answer.second);
    }
    printf("\n");
}

int main(void)
{
    memset(nodes, 0, sizeof nodes);
    nodes[0] = ECHO_KIND_VAR;
    nodes[1] = 8;
    for (size_t i = 1; i <= ROOTS; i++) {
        nodes[i * ECHO_NODE_BYTES] = ECHO_KIND_EQ; /* of node 0 and node 0 */
    }
    uint64_t roots[ROOTS];
    for (size_t k = 0; k < ROOTS; k++) {
        roots[k] = k + 1;
    }
    roots[150] = roots[57];

    const struct fewest_answer all = fewest(roots, ROOTS);
    tell("200 roots", all);
    if (all.count != 2) {
        return 1;
    }
    const uint64_t two[2] = {roots[all.first], roots[all.second]};
    tell("these two", fewest(two, 2));

    memmove(roots + all.first, roots + all.first + 1, (ROOTS - 1 - (size_t)all.first) * sizeof roots[0]);
    tell("without the first of them", fewest(roots, ROOTS - 1));
    return 0;
}
