/* Reads `a == b && c || d` with rules at versions 5 and 6, and says which rule made each node; then has three calls leave the rule buffer
 * as it was. */
#include "sorbrudder.h"

#include <stdio.h>
#include <string.h>

#define TOKENS 7

enum { LIST_WORDS = SORBRUDDER_TOKEN_WORDS * TOKENS, RULE_BYTES = SORBRUDDER_RULE_BUFFER(TOKENS) };

/* What the rule buffer holds before a call. */
#define BEFORE 0xee

/* The name of a rule of this list. */
static const char *name_of(uint8_t rule) {
    switch (rule) {
    case SORBRUDDER_RULE_COMPARISON: return "comparison";
    case SORBRUDDER_RULE_EQUALITY: return "equality";
    case SORBRUDDER_RULE_AND: return "AND";
    case SORBRUDDER_RULE_OR: return "OR";
    default: return "another rule";
    }
}

static uint64_t read_list(const uint32_t *list, size_t words, uint32_t *tree, uint8_t *rules, size_t rule_bytes, int16_t version) {
    uint32_t messages[SORBRUDDER_MESSAGE_BUFFER];
    uint32_t work[SORBRUDDER_WORK_BUFFER(TOKENS)];
    uint64_t used_low, used_high, source_length;
    memset(rules, BEFORE, RULE_BYTES);
    sorbrudder_used(list, words, &used_low, &used_high, &source_length);
    return sorbrudder_parse_rules(list, words, tree, SORBRUDDER_TREE_BUFFER(TOKENS), messages, SORBRUDDER_MESSAGE_BUFFER, work,
                                  SORBRUDDER_WORK_BUFFER(TOKENS), rules, rule_bytes, source_length, version, used_low, used_high,
                                  SORBRUDDER_MOST_NESTING);
}

/* Whether the rule buffer is as it was from this byte on. */
static int is_unchanged(const uint8_t *rules, uint32_t from) {
    for (uint32_t byte = from; byte < RULE_BYTES; byte++) {
        if (rules[byte] != BEFORE) {
            return 0;
        }
    }
    return 1;
}

int main(void) {
    const unsigned ops[TOKENS] = {SORBRUDDER_OP_FLOAT, SORBRUDDER_OP_LOGICAL_EQUAL, SORBRUDDER_OP_FLOAT, SORBRUDDER_OP_LOGICAL_AND,
                                  SORBRUDDER_OP_FLOAT, SORBRUDDER_OP_LOGICAL_OR,    SORBRUDDER_OP_FLOAT};
    uint32_t list[LIST_WORDS], tree[SORBRUDDER_TREE_BUFFER(TOKENS)];
    uint8_t rules[RULE_BYTES];
    for (uint32_t token = 0; token < TOKENS; token++) {
        const uint32_t words[SORBRUDDER_TOKEN_WORDS] = {0x20000000u | ops[token], 0x40000000u | token, 0x60000000u | (token + 1),
                                                        0x80000000u, 0xA0000000u};
        memcpy(list + SORBRUDDER_TOKEN_WORDS * token, words, sizeof words);
    }

    for (int16_t version = 5; version <= 6; version++) {
        uint64_t answer = read_list(list, LIST_WORDS, tree, rules, RULE_BYTES, version);
        if (sorbrudder_kind(answer) != SORBRUDDER_DONE || !is_unchanged(rules, sorbrudder_count(answer))) {
            return 1;
        }
        printf("version %d:", version);
        for (uint32_t node = 0; node < sorbrudder_count(answer); node++) {
            if (rules[node] != SORBRUDDER_RULE_LEAF) {
                printf(" %u %s", sorbrudder_op_of(tree + SORBRUDDER_NODE_WORDS * node), name_of(rules[node]));
            }
        }
        printf("\n");
    }

    /* One byte too few; a word of the wrong kind; `a ==`, which is no tree. */
    uint64_t answer = read_list(list, LIST_WORDS, tree, rules, RULE_BYTES - 1, 6);
    if (sorbrudder_refusal(answer) != SORBRUDDER_REFUSAL_RULE_BUFFER || !is_unchanged(rules, 0)) {
        return 2;
    }
    printf("refused %u %u\n", sorbrudder_refusal(answer), sorbrudder_count(answer));
    answer = read_list(list + 1, SORBRUDDER_TOKEN_WORDS, tree, rules, RULE_BYTES, 6);
    if (sorbrudder_refusal(answer) != SORBRUDDER_REFUSAL_WRONG_KIND || !is_unchanged(rules, 0)) {
        return 3;
    }
    printf("refused %u %u\n", sorbrudder_refusal(answer), sorbrudder_count(answer));
    answer = read_list(list, 2 * SORBRUDDER_TOKEN_WORDS, tree, rules, RULE_BYTES, 6);
    if (sorbrudder_kind(answer) != SORBRUDDER_MESSAGES || !is_unchanged(rules, 0)) {
        return 4;
    }
    printf("messages %u\n", sorbrudder_count(answer));
    return 0;
}
