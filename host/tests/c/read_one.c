/* Reads `(a + b)` at version 6, writes the tree again, and has five calls turned back. */
#include "sorbrudder.h"

#include <assert.h>
#include <stdio.h>

#define TOKENS 5
#define TOKEN(op, start, end) \
    0x20000000u | (op), 0x40000000u | (start), 0x60000000u | (end), 0x80000000u, 0xA0000000u

enum { LIST_WORDS = SORBRUDDER_TOKEN_WORDS * TOKENS };

static_assert(SORBRUDDER_NODE_WORDS == SORBRUDDER_TOKEN_WORDS + 2, "a node is a token and two words");
static_assert(SORBRUDDER_NODE_WORDS == SORBRUDDER_WORD_CLOSE + 1, "where a node closes is its last word");
static_assert(SORBRUDDER_TREE_BUFFER(1) == 3 * SORBRUDDER_NODE_WORDS, "three nodes a token");

static uint64_t read_within(const uint32_t *list, size_t words, uint32_t *tree, size_t tree_words, uint32_t limit) {
    uint32_t messages[SORBRUDDER_MESSAGE_BUFFER];
    uint32_t work[SORBRUDDER_WORK_BUFFER(TOKENS)];
    uint64_t used_low, used_high, source_length;
    sorbrudder_used(list, words, &used_low, &used_high, &source_length);
    return sorbrudder_parse(list, words, tree, tree_words, messages, SORBRUDDER_MESSAGE_BUFFER,
                            work, SORBRUDDER_WORK_BUFFER(TOKENS), source_length, 6, used_low,
                            used_high, limit);
}

static uint64_t read_list(const uint32_t *list, size_t words, uint32_t *tree, size_t tree_words) {
    return read_within(list, words, tree, tree_words, SORBRUDDER_MOST_NESTING);
}

/* Whether an answer is this refusal, whose number and place are printed. */
static int refused(uint64_t answer, enum sorbrudder_refusal_number number) {
    printf("refused %u %u\n", sorbrudder_refusal(answer), sorbrudder_count(answer));
    return sorbrudder_kind(answer) == SORBRUDDER_REFUSED &&
           sorbrudder_refusal(answer) == (unsigned)number;
}

/* Whether the written list is the list, but for the closer's start: it starts and ends where the section closes. */
static int is_list(const uint32_t *written, const uint32_t *list) {
    const int start = SORBRUDDER_TOKEN_WORDS * (TOKENS - 1) + SORBRUDDER_WORD_START;
    for (int word = 0; word < LIST_WORDS; word++) {
        if (written[word] != (word == start ? 0x40000005u : list[word])) {
            return 0;
        }
    }
    return 1;
}

int main(void) {
    const uint32_t list[LIST_WORDS] = {TOKEN(SORBRUDDER_OP_LEFT_PARENTHESIS, 0, 1),
                                       TOKEN(SORBRUDDER_OP_FLOAT, 1, 2),
                                       TOKEN(SORBRUDDER_OP_ADD, 2, 3),
                                       TOKEN(SORBRUDDER_OP_FLOAT, 3, 4),
                                       TOKEN(SORBRUDDER_OP_RIGHT_PARENTHESIS, 4, 5)};
    uint32_t tree[SORBRUDDER_TREE_BUFFER(TOKENS)];
    static uint32_t written[SORBRUDDER_LIST_BUFFER];

    if (sorbrudder_abi_version() != SORBRUDDER_ABI_VERSION) {
        return 5;
    }
    uint64_t answer = read_list(list, LIST_WORDS, tree, SORBRUDDER_TREE_BUFFER(TOKENS));
    if (sorbrudder_kind(answer) != SORBRUDDER_DONE) {
        return 1;
    }
    uint32_t nodes = sorbrudder_count(answer);
    printf("tree %u\n", nodes);
    for (uint32_t number = 0; number < nodes; number++) {
        const uint32_t *node = tree + SORBRUDDER_NODE_WORDS * number;
        printf("%u %u %u %u closes %u\n", sorbrudder_op_of(node), sorbrudder_children_of(node),
               sorbrudder_start_of(node), sorbrudder_end_of(node), sorbrudder_close_of(node));
    }

    size_t tree_words = SORBRUDDER_NODE_WORDS * (size_t)nodes;
    answer = sorbrudder_write(tree, tree_words, written, SORBRUDDER_LIST_BUFFER);
    if (sorbrudder_kind(answer) != SORBRUDDER_DONE) {
        return 2;
    }
    printf("tokens %u\n", sorbrudder_count(answer));
    if (!is_list(written, list)) {
        return 3;
    }

    /* The last word alone is of the wrong kind for a first one; 20 words a token are too few; a node has seven words. */
    if (!refused(read_list(list + 4, SORBRUDDER_TOKEN_WORDS, tree, SORBRUDDER_TREE_BUFFER(1)),
                 SORBRUDDER_REFUSAL_WRONG_KIND) ||
        !refused(read_list(list, LIST_WORDS, tree, 20 * TOKENS), SORBRUDDER_REFUSAL_TREE_BUFFER) ||
        !refused(sorbrudder_write(tree, tree_words - 1, written, SORBRUDDER_LIST_BUFFER),
                 SORBRUDDER_REFUSAL_NOT_A_TREE)) {
        return 4;
    }

    /* No list is read with a limit of 0; `((` opens two brackets, its second token one more than one. */
    const uint32_t deep[2 * SORBRUDDER_TOKEN_WORDS] = {TOKEN(SORBRUDDER_OP_LEFT_PARENTHESIS, 0, 1),
                                                       TOKEN(SORBRUDDER_OP_LEFT_PARENTHESIS, 1, 2)};
    if (!refused(read_within(list, LIST_WORDS, tree, SORBRUDDER_TREE_BUFFER(TOKENS), 0),
                 SORBRUDDER_REFUSAL_LIMIT) ||
        !refused(read_within(deep, 2 * SORBRUDDER_TOKEN_WORDS, tree, SORBRUDDER_TREE_BUFFER(2), 1),
                 SORBRUDDER_REFUSAL_TOO_DEEP)) {
        return 6;
    }
    return 0;
}
