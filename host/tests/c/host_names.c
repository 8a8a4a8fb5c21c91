/* A host's own names: reads `torch + lamp * b` at version 6, where this host knows torch as 262 and lamp as 1023, writes the tree again,
 * and has two calls turned back. */
#include "sorbrudder.h"

#include <stdio.h>
#include <string.h>

#define TOKENS 5
#define LIST_WORDS (SORBRUDDER_TOKEN_WORDS * TOKENS)

/* The lower eight bits of torch are those of a minus. */
enum { TORCH = SORBRUDDER_FIRST_HOST + SORBRUDDER_OP_NEGATE, LAMP = SORBRUDDER_LAST_HOST };

/* A token's words: a host's own name carries the number 7 of one of its own, anything else nothing. */
static void put_token(uint32_t *token, unsigned op, uint32_t start) {
    unsigned carries = sorbrudder_is_host(op) ? SORBRUDDER_PAYLOAD_MEMBER : SORBRUDDER_PAYLOAD_NONE;
    token[SORBRUDDER_WORD_OP] = sorbrudder_op_word(op, carries);
    token[SORBRUDDER_WORD_START] = 0x40000000u | start;
    token[SORBRUDDER_WORD_END] = 0x60000000u | (start + 1);
    token[SORBRUDDER_WORD_UPPER] = 0x80000000u;
    token[SORBRUDDER_WORD_LOWER] = 0xA0000000u | (carries ? 7 : 0);
}

static uint64_t read_list(const uint32_t *list, uint32_t *tree) {
    uint32_t messages[SORBRUDDER_MESSAGE_BUFFER], work[SORBRUDDER_WORK_BUFFER(TOKENS)];
    uint64_t low, high, length;
    sorbrudder_used(list, LIST_WORDS, &low, &high, &length);
    return sorbrudder_parse(list, LIST_WORDS, tree, SORBRUDDER_TREE_BUFFER(TOKENS), messages, SORBRUDDER_MESSAGE_BUFFER, work,
                            SORBRUDDER_WORK_BUFFER(TOKENS), length, 6, low, high, SORBRUDDER_MOST_NESTING);
}

/* Whether the list with another first word is turned back with this refusal, whose number and place are printed. */
static int refused(uint32_t *list, uint32_t word, uint32_t *tree, enum sorbrudder_refusal_number number) {
    list[SORBRUDDER_WORD_OP] = word;
    uint64_t answer = read_list(list, tree);
    printf("refused %u %u\n", sorbrudder_refusal(answer), sorbrudder_count(answer));
    return sorbrudder_kind(answer) == SORBRUDDER_REFUSED && sorbrudder_refusal(answer) == (unsigned)number;
}

int main(void) {
    const unsigned ops[TOKENS] = {TORCH, SORBRUDDER_OP_ADD, LAMP, SORBRUDDER_OP_MUL, SORBRUDDER_OP_FLOAT};
    uint32_t list[LIST_WORDS], tree[SORBRUDDER_TREE_BUFFER(TOKENS)];
    static uint32_t written[SORBRUDDER_LIST_BUFFER];
    uint64_t low, high, length;
    for (uint32_t token = 0; token < TOKENS; token++) {
        put_token(list + SORBRUDDER_TOKEN_WORDS * token, ops[token], token);
    }

    /* Sum, product and number are in the set, the host's own names are not. */
    sorbrudder_used(list, LIST_WORDS, &low, &high, &length);
    if (low != (UINT64_C(1) << SORBRUDDER_OP_ADD | UINT64_C(1) << SORBRUDDER_OP_MUL | UINT64_C(1) << SORBRUDDER_OP_FLOAT) || high != 0) {
        return 1;
    }
    uint64_t answer = read_list(list, tree);
    if (answer != TOKENS) {
        return 2;
    }
    for (uint32_t number = 0; number < TOKENS; number++) {
        const uint32_t *node = tree + SORBRUDDER_NODE_WORDS * number;
        printf("%u %u%s\n", sorbrudder_op_of(node), sorbrudder_children_of(node),
               sorbrudder_is_host(sorbrudder_op_of(node)) ? " of the host" : "");
    }

    /* With the pair round the product: the words of both names are as they were given. */
    answer = sorbrudder_write(tree, SORBRUDDER_NODE_WORDS * TOKENS, written, SORBRUDDER_LIST_BUFFER);
    if (answer != TOKENS + 2) {
        return 3;
    }
    size_t token = sizeof(uint32_t) * SORBRUDDER_TOKEN_WORDS;
    if (memcmp(written, list, token) != 0 ||
        memcmp(written + 3 * SORBRUDDER_TOKEN_WORDS, list + 2 * SORBRUDDER_TOKEN_WORDS, token) != 0) {
        return 4;
    }
    printf("tokens %u\n", sorbrudder_count(answer));

    /* 1,024 is no host's number, and no word of an operator has bit 16. */
    uint32_t torch = sorbrudder_op_word(TORCH, SORBRUDDER_PAYLOAD_MEMBER);
    if (!refused(list, sorbrudder_op_word(SORBRUDDER_LAST_HOST + 1, SORBRUDDER_PAYLOAD_MEMBER), tree,
                 SORBRUDDER_REFUSAL_UNKNOWN_OPERATOR) ||
        !refused(list, torch | UINT32_C(1) << 16, tree, SORBRUDDER_REFUSAL_OTHER_BITS)) {
        return 5;
    }
    return 0;
}
