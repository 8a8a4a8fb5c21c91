/* Holds `a && b` open as an editor does: asks edits, commits one, raises the version, and has calls turned back that change nothing. */
#include "sorbrudder.h"

#include <stdio.h>
#include <string.h>

/* The most tokens that the list comes to have, and what the words behind the list hold. */
#define TOKENS 5
#define BEHIND 0xeeeeeeeeu

static uint32_t words[SORBRUDDER_LIST_BUFFER], tree[SORBRUDDER_TREE_BUFFER(TOKENS)], messages[SORBRUDDER_MESSAGE_BUFFER];
static uint32_t work[SORBRUDDER_WORK_BUFFER(TOKENS)];

/* Puts together the words of a list of these operators, each a place of the source wide from `from` on. */
static size_t lay(uint32_t *list, uint32_t from, size_t count, const unsigned *ops) {
    for (uint32_t token = 0; token < count; token++) {
        const uint32_t laid[SORBRUDDER_TOKEN_WORDS] = {sorbrudder_op_word(ops[token], SORBRUDDER_PAYLOAD_NONE),
                                                       0x40000000u | (from + token), 0x60000000u | (from + token + 1), 0x80000000u,
                                                       0xa0000000u};
        memcpy(list + SORBRUDDER_TOKEN_WORDS * token, laid, sizeof laid);
    }
    return SORBRUDDER_TOKEN_WORDS * count;
}

static uint64_t ask(const struct sorbrudder_held *held, size_t place, size_t removed, const uint32_t *put, size_t put_words) {
    return sorbrudder_held_ask(held, words, SORBRUDDER_LIST_BUFFER, place, removed, put, put_words, tree, SORBRUDDER_TREE_BUFFER(TOKENS),
                               messages, SORBRUDDER_MESSAGE_BUFFER, work, SORBRUDDER_WORK_BUFFER(TOKENS), SORBRUDDER_MOST_NESTING);
}

static uint64_t commit(struct sorbrudder_held *held, uint32_t seen, size_t place, size_t removed, const uint32_t *put, size_t put_words) {
    return sorbrudder_held_commit(held, seen, words, SORBRUDDER_LIST_BUFFER, place, removed, put, put_words, tree,
                                  SORBRUDDER_TREE_BUFFER(TOKENS), messages, SORBRUDDER_MESSAGE_BUFFER, work,
                                  SORBRUDDER_WORK_BUFFER(TOKENS), SORBRUDDER_MOST_NESTING);
}

static uint64_t open_list(struct sorbrudder_held *held, size_t slice_words, const uint32_t *list, size_t list_words, int16_t version) {
    return sorbrudder_held_open(held, words, slice_words, list, list_words, tree, SORBRUDDER_TREE_BUFFER(TOKENS), messages,
                                SORBRUDDER_MESSAGE_BUFFER, work, SORBRUDDER_WORK_BUFFER(TOKENS), version, SORBRUDDER_MOST_NESTING);
}

/* What was answered, and what is held after it. */
static void tell(const char *call, uint64_t answer, const struct sorbrudder_held *held) {
    printf("%s: ", call);
    switch (sorbrudder_kind(answer)) {
    case SORBRUDDER_DONE:
        printf("done %u", sorbrudder_count(answer));
        break;
    case SORBRUDDER_MESSAGES:
        printf("message %u at %u-%u", messages[0], messages[1], messages[2]);
        break;
    default:
        printf("refused %u %u", sorbrudder_refusal(answer), sorbrudder_count(answer));
    }
    printf(", %u tokens at %d, %u edits\n", (unsigned)held->tokens, held->version, (unsigned)held->edits);
}

int main(void) {
    const unsigned both[] = {SORBRUDDER_OP_FLOAT, SORBRUDDER_OP_LOGICAL_AND, SORBRUDDER_OP_FLOAT};
    const unsigned or_another[] = {SORBRUDDER_OP_LOGICAL_OR, SORBRUDDER_OP_FLOAT};
    uint32_t list[SORBRUDDER_TOKEN_WORDS * 3], put[SORBRUDDER_TOKEN_WORDS * 2];
    const size_t list_words = lay(list, 0, 3, both), put_words = lay(put, 3, 2, or_another);
    struct sorbrudder_held held = {9, 9, 9};
    for (size_t word = 0; word < SORBRUDDER_LIST_BUFFER; word++) {
        words[word] = BEHIND;
    }

    /* Words that are too few, and a list that the parse entry turns back: the held numbers stay. */
    tell("open", open_list(&held, SORBRUDDER_LIST_BUFFER - 1, list, list_words, 5), &held);
    tell("open", open_list(&held, SORBRUDDER_LIST_BUFFER, list, list_words - 1, 5), &held);
    tell("open", open_list(&held, SORBRUDDER_LIST_BUFFER, list, list_words, 5), &held);

    /* `a && b ||` misses an operand; `a && b || c` is a tree, another one from version 6 on. */
    const uint32_t seen = held.edits;
    tell("ask", ask(&held, 3, 0, put, SORBRUDDER_TOKEN_WORDS), &held);
    tell("ask", ask(&held, 4, 0, put, put_words), &held);
    tell("ask", ask(&held, 3, 0, put, put_words), &held);
    tell("commit", commit(&held, seen + 1, 4, 0, put, put_words), &held);
    tell("commit", commit(&held, seen, 3, 0, put, put_words), &held);
    printf("root %u\n", sorbrudder_op_of(tree));
    tell("commit", commit(&held, seen, 3, 0, put, put_words), &held);
    tell("adopt", sorbrudder_held_adopt(&held, 6), &held);
    tell("ask", ask(&held, 0, 0, put, 0), &held);
    printf("root %u\n", sorbrudder_op_of(tree));

    /* The words behind the list are as they were. */
    const size_t held_words = SORBRUDDER_TOKEN_WORDS * held.tokens;
    if (memcmp(words, list, sizeof list) || memcmp(words + list_words, put, sizeof put) || words[held_words] != BEHIND) {
        return 1;
    }
    held.edits = SORBRUDDER_LAST_EDIT;
    tell("adopt", sorbrudder_held_adopt(&held, 4), &held);
    tell("commit", commit(&held, SORBRUDDER_LAST_EDIT, 0, 1, put, 0), &held);
    held.tokens = SORBRUDDER_MOST_TOKENS + 1;
    tell("ask", ask(&held, SORBRUDDER_MOST_TOKENS + 2, 0, put, 0), &held);
    return 0;
}
