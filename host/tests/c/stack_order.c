/* Reads `2 + 3 * 4` at version 6, puts the tree into stack order, runs it there, puts it back, and has four calls turned back. */
#include "sorbrudder.h"

#include <stdio.h>
#include <string.h>

#define TOKENS 5
#define NODES 5
#define WORDS (SORBRUDDER_NODE_WORDS * NODES)

/* A token's words: a number carries its bits, an operator nothing. */
static void put_token(uint32_t *token, unsigned op, uint32_t start, float number) {
    uint32_t bits = 0, carries = SORBRUDDER_PAYLOAD_NONE;
    if (op == SORBRUDDER_OP_FLOAT) {
        memcpy(&bits, &number, sizeof bits);
        carries = SORBRUDDER_PAYLOAD_FLOAT;
    }
    token[SORBRUDDER_WORD_OP] = 0x20000000u | carries << 8 | op;
    token[SORBRUDDER_WORD_START] = 0x40000000u | start;
    token[SORBRUDDER_WORD_END] = 0x60000000u | (start + 1);
    token[SORBRUDDER_WORD_UPPER] = 0x80000000u | bits >> 16;
    token[SORBRUDDER_WORD_LOWER] = 0xA0000000u | (bits & 0xffff);
}

static float number_of(const uint32_t *node) {
    uint32_t bits = node[SORBRUDDER_WORD_UPPER] << 16 | (node[SORBRUDDER_WORD_LOWER] & 0xffff);
    float number;
    memcpy(&number, &bits, sizeof number);
    return number;
}

/* The value of numbers, sums and products in stack order: what a node takes is on the stack when it comes. */
static float run(const uint32_t *words, uint32_t nodes) {
    float stack[NODES];
    uint32_t top = 0;
    for (const uint32_t *node = words; node < words + SORBRUDDER_NODE_WORDS * nodes; node += SORBRUDDER_NODE_WORDS) {
        unsigned op = sorbrudder_op_of(node);
        top -= sorbrudder_children_of(node);
        stack[top] = op == SORBRUDDER_OP_FLOAT ? number_of(node)
                     : op == SORBRUDDER_OP_ADD ? stack[top] + stack[top + 1]
                                               : stack[top] * stack[top + 1];
        top++;
    }
    return stack[0];
}

/* Whether a call was turned back with this refusal, whose number and place are printed, and left the output, all ones, as it was. */
static int refused(uint64_t answer, const uint32_t *output, enum sorbrudder_refusal_number number) {
    printf("refused %u %u\n", sorbrudder_refusal(answer), sorbrudder_count(answer));
    for (int word = 0; word < WORDS; word++) {
        if (output[word] != 0xffffffffu) {
            return 0;
        }
    }
    return sorbrudder_kind(answer) == SORBRUDDER_REFUSED && sorbrudder_refusal(answer) == (unsigned)number;
}

int main(void) {
    const unsigned ops[TOKENS] = {SORBRUDDER_OP_FLOAT, SORBRUDDER_OP_ADD, SORBRUDDER_OP_FLOAT, SORBRUDDER_OP_MUL,
                                  SORBRUDDER_OP_FLOAT};
    uint32_t list[SORBRUDDER_TOKEN_WORDS * TOKENS], tree[SORBRUDDER_TREE_BUFFER(TOKENS)];
    uint32_t messages[SORBRUDDER_MESSAGE_BUFFER], work[SORBRUDDER_WORK_BUFFER(TOKENS)];
    uint32_t stack[WORDS + 1], back[WORDS + 1], unchanged[WORDS];
    uint64_t low, high, length, answer;
    for (unsigned token = 0; token < TOKENS; token++) {
        put_token(list + SORBRUDDER_TOKEN_WORDS * token, ops[token], token, 2.0f + (float)token / 2.0f);
    }
    sorbrudder_used(list, SORBRUDDER_TOKEN_WORDS * TOKENS, &low, &high, &length);
    answer = sorbrudder_parse(list, SORBRUDDER_TOKEN_WORDS * TOKENS, tree, SORBRUDDER_TREE_BUFFER(TOKENS), messages,
                              SORBRUDDER_MESSAGE_BUFFER, work, SORBRUDDER_WORK_BUFFER(TOKENS), length, 6, low, high,
                              SORBRUDDER_MOST_NESTING);
    if (answer != NODES) {
        return 1;
    }

    /* The word after the tree stays as it was. */
    memset(stack, 0xff, sizeof stack);
    memset(back, 0xff, sizeof back);
    memset(unchanged, 0xff, sizeof unchanged);
    answer = sorbrudder_export(tree, WORDS, stack, WORDS + 1);
    if (sorbrudder_kind(answer) != SORBRUDDER_DONE || stack[WORDS] != 0xffffffffu) {
        return 2;
    }
    uint32_t nodes = sorbrudder_count(answer);
    printf("nodes %u:", nodes);
    for (uint32_t number = 0; number < nodes; number++) {
        printf(" %u", sorbrudder_op_of(stack + SORBRUDDER_NODE_WORDS * number));
    }
    printf("\nvalue %g\n", (double)run(stack, nodes));
    answer = sorbrudder_import(stack, WORDS, back, WORDS + 1);
    if (answer != NODES || memcmp(back, tree, sizeof(uint32_t) * WORDS) != 0 || back[WORDS] != 0xffffffffu) {
        return 3;
    }

    /* The last word is missing; in the tree's own order the root has no children before it; an output is one word too short. */
    if (!refused(sorbrudder_export(tree, WORDS - 1, unchanged, WORDS), unchanged, SORBRUDDER_REFUSAL_NOT_A_TREE) ||
        !refused(sorbrudder_import(tree, WORDS, unchanged, WORDS), unchanged, SORBRUDDER_REFUSAL_NOT_A_STACK) ||
        !refused(sorbrudder_export(tree, WORDS, unchanged, WORDS - 1), unchanged, SORBRUDDER_REFUSAL_OUTPUT_BUFFER) ||
        !refused(sorbrudder_import(stack, WORDS, unchanged, WORDS - 1), unchanged, SORBRUDDER_REFUSAL_OUTPUT_BUFFER)) {
        return 4;
    }
    return 0;
}
