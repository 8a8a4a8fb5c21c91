/* Sorbrudder by the C convention: Molang token lists read into trees, plain trees written as token lists, lists lifted from one engine to
 * another, trees put into stack order and back, and lists held open while they are edited.
 *
 * Words. Lists, trees and messages are arrays of 32-bit words. The top three bits of a token's or a node's word are its kind; bits that are
 * not named below are 0.
 *
 *   a token, five words              kind   the other bits
 *     0  SORBRUDDER_WORD_OP          1      bits 0-7 the lower eight and bits 12-15 the upper four bits of the operator's number
 *                                           (SORBRUDDER_OP_.., or a host's), bits 8-11 what it carries (SORBRUDDER_PAYLOAD_..)
 *     1  SORBRUDDER_WORD_START       2      bits 0-28 where it starts in the source
 *     2  SORBRUDDER_WORD_END         3      bits 0-28 where it ends; the start may exceed the end
 *     3  SORBRUDDER_WORD_UPPER       4      bits 0-15 the upper half of the value that it carries
 *     4  SORBRUDDER_WORD_LOWER       5      bits 0-15 the lower half; both are 0 where it carries nothing
 *   a tree's node, a token's words and
 *     5  SORBRUDDER_WORD_CHILDREN    6      bits 0-13 the number of its children
 *     6  SORBRUDDER_WORD_CLOSE       7      bits 0-28 where it closes: a closed section, whose span is its opener's, at the end of its
 *                                           closer, every other node at its own span's end
 *
 * The numbers from SORBRUDDER_FIRST_HOST to SORBRUDDER_LAST_HOST are the host's, for names of its own. Such a token is an operand: it is
 * read as SORBRUDDER_OP_THIS would be, its number is kept in the tree, and a leaf of it can be written. No operator set has a bit for it.
 *
 * The nodes of a tree stand parent first, then its children in order, each with all that is below it. In stack order each node's seven
 * words stand after those of its children in order, so the root's come last; the words of a node are the same.
 *
 *   a message, eight words
 *     0      its number (SORBRUDDER_MESSAGE_..)
 *     1, 2   where in the source it points: start, end
 *     3-7    its arguments, 0 where it has fewer; an operator is given as its number:
 *            MULTIPLE_ROOTS: how many roots. CLOSING_MISMATCH: place of the opener from 1, opener, closer wanted, closer found, its place
 *            from 0. SECTION_NOT_CLOSED: closer wanted, opener. NO_CLOSING_SYMBOL: place of the opener from 1, opener, closer wanted.
 *            MATH_AT_END, MATH_WITHOUT_PARENTHESIS: the function, and its value where it is one of the host's. EMPTY_PARAMETER_LIST,
 *            BINARY_AT_END, UNKNOWN_OPERATION, UNARY_WITHOUT_OPERAND, TERNARY_WITHOUT_OPERANDS: the operator. The others have none.
 *
 * Buffers are lent as a pointer to words, aligned as a uint32_t is, and their number of words. A buffer that is written overlaps no other
 * buffer of the call, and nobody else writes any of them while the call runs. A pointer is never null, not even beside a length of 0. A
 * number that a call can change is lent as a pointer to it, and the same holds of it.
 *
 * Threads. The functions keep nothing between calls and have no state of their own: any number of threads may call them at once, each with
 * buffers of its own. The call stack is the caller's to provide, and the proofs say nothing of it: measured, with the library as an older
 * kit built it, reading takes at most 2 KiB, writing, and the lift, which writes, at most 256 KiB, export and import at most 1 KiB; of an
 * open list opening takes at most 2 KiB, asking and committing at most 84 KiB, since they put the new list together there, and a version
 * change nothing worth naming (docs/notes/host.md).
 *
 * Linking. From outside the library needs memcpy and memset, and no other name.
 *
 * An answer is one number. Bits 0-31: the count of nodes, tokens or messages, or a refusal's place. Bits 32-39: a refusal's number, else 0.
 * Bits 40-47: 0 for a tree, in either order, a written list, a list that stays as it is or a changed version, 1 for messages, 2 for a
 * refusal; 3, 4 and 5 are the lift's alone. The functions below take it apart.
 */
#ifndef SORBRUDDER_H
#define SORBRUDDER_H

#include <stddef.h>
#include <stdint.h>

#ifdef __cplusplus
extern "C" {
#endif

/* The version of this header, and the number of the layout and the calls that it describes. */
#define SORBRUDDER_VERSION_MAJOR 0
#define SORBRUDDER_VERSION_MINOR 1
#define SORBRUDDER_VERSION_PATCH 0
#define SORBRUDDER_ABI_VERSION 3

/* What an answer is (`sorbrudder_kind`). */
#define SORBRUDDER_DONE 0
#define SORBRUDDER_MESSAGES 1
#define SORBRUDDER_REFUSED 2
/* The lift's alone: a list came out; the list as it is stays behind; nothing that is written of its tree is a list for the new engine. */
#define SORBRUDDER_LIFTED 3
#define SORBRUDDER_BEHIND 4
#define SORBRUDDER_UNWRITTEN 5

/* Words of a token, of a tree node and of a message. */
#define SORBRUDDER_TOKEN_WORDS 5
#define SORBRUDDER_NODE_WORDS 7
#define SORBRUDDER_MESSAGE_WORDS 8

/* The most tokens of a list, and the buffers that reading n tokens asks for, in words. */
#define SORBRUDDER_MOST_TOKENS 4096
#define SORBRUDDER_TREE_BUFFER(n) (3 * SORBRUDDER_NODE_WORDS * (size_t)(n))
#define SORBRUDDER_MESSAGE_BUFFER (2 * SORBRUDDER_MESSAGE_WORDS)
#define SORBRUDDER_WORK_BUFFER(n) (64 * (size_t)(n) + 64)

/* The rule buffer that reading n tokens with rules asks for, in bytes. */
#define SORBRUDDER_RULE_BUFFER(n) (3 * (size_t)(n))

/* The greatest nesting limit, with which no list is too deep. */
#define SORBRUDDER_MOST_NESTING 4096

/* The first and the last operator number that a host may give to a name of its own. */
#define SORBRUDDER_FIRST_HOST 256
#define SORBRUDDER_LAST_HOST 1023

/* A list in which every tree that can be written has room, in words; the words of an open list are held in as many, and the lift's
   output has no fewer. */
#define SORBRUDDER_LIST_BUFFER (SORBRUDDER_TOKEN_WORDS * SORBRUDDER_MOST_TOKENS)

/* The last edit count of an open list, after which nothing more is committed and no version adopted. */
#define SORBRUDDER_LAST_EDIT UINT32_C(4294967295)

/* Which word of a token or a node is which. */
enum sorbrudder_word {
    SORBRUDDER_WORD_OP = 0,
    SORBRUDDER_WORD_START = 1,
    SORBRUDDER_WORD_END = 2,
    SORBRUDDER_WORD_UPPER = 3,
    SORBRUDDER_WORD_LOWER = 4,
    SORBRUDDER_WORD_CHILDREN = 5,
    SORBRUDDER_WORD_CLOSE = 6
};

/* What a token carries: nothing, a number literal, or 32 bits that are the caller's own: the number of a name, or for HASH what stands for a
   string. (A hash of 64 bits does not fit: number the strings, or take a part of the hash.) */
enum sorbrudder_payload {
    SORBRUDDER_PAYLOAD_NONE = 0,
    SORBRUDDER_PAYLOAD_FLOAT = 1,
    SORBRUDDER_PAYLOAD_HASH = 2,
    SORBRUDDER_PAYLOAD_CONTEXT = 3,
    SORBRUDDER_PAYLOAD_ENTITY = 4,
    SORBRUDDER_PAYLOAD_TEMP = 5,
    SORBRUDDER_PAYLOAD_MEMBER = 6,
    SORBRUDDER_PAYLOAD_ARRAY_VARIABLE = 7,
    SORBRUDDER_PAYLOAD_GEOMETRY = 8,
    SORBRUDDER_PAYLOAD_MATERIAL = 9,
    SORBRUDDER_PAYLOAD_TEXTURE = 10,
    SORBRUDDER_PAYLOAD_QUERY = 11,
    SORBRUDDER_PAYLOAD_HOST_MATH = 12
};

/* The operators but for the hosts' own; `sorbrudder ops` prints them with their signs. */
enum sorbrudder_op {
    SORBRUDDER_OP_LEFT_BRACE = 0, SORBRUDDER_OP_RIGHT_BRACE = 1, SORBRUDDER_OP_LEFT_BRACKET = 2, SORBRUDDER_OP_RIGHT_BRACKET = 3,
    SORBRUDDER_OP_LEFT_PARENTHESIS = 4, SORBRUDDER_OP_RIGHT_PARENTHESIS = 5, SORBRUDDER_OP_NEGATE = 6, SORBRUDDER_OP_LOGICAL_NOT = 7,
    SORBRUDDER_OP_ABS = 8, SORBRUDDER_OP_ADD = 9, SORBRUDDER_OP_ACOS = 10, SORBRUDDER_OP_ASIN = 11, SORBRUDDER_OP_ATAN = 12,
    SORBRUDDER_OP_ATAN2 = 13, SORBRUDDER_OP_CEIL = 14, SORBRUDDER_OP_CLAMP = 15, SORBRUDDER_OP_COPY_SIGN = 16, SORBRUDDER_OP_COS = 17,
    SORBRUDDER_OP_DIE_ROLL = 18, SORBRUDDER_OP_DIE_ROLL_INT = 19, SORBRUDDER_OP_DIV = 20, SORBRUDDER_OP_EXP = 21,
    SORBRUDDER_OP_FLOOR = 22, SORBRUDDER_OP_HERMITE_BLEND = 23, SORBRUDDER_OP_LERP = 24, SORBRUDDER_OP_LERP_ROTATE = 25,
    SORBRUDDER_OP_LN = 26, SORBRUDDER_OP_MAX = 27, SORBRUDDER_OP_MIN = 28, SORBRUDDER_OP_MIN_ANGLE = 29, SORBRUDDER_OP_MOD = 30,
    SORBRUDDER_OP_MUL = 31, SORBRUDDER_OP_POW = 32, SORBRUDDER_OP_RANDOM = 33, SORBRUDDER_OP_RANDOM_INT = 34, SORBRUDDER_OP_ROUND = 35,
    SORBRUDDER_OP_SIN = 36, SORBRUDDER_OP_SIGN = 37, SORBRUDDER_OP_SQRT = 38, SORBRUDDER_OP_TRUNC = 39,
    SORBRUDDER_OP_QUERY_FUNCTION = 40, SORBRUDDER_OP_ARRAY_VARIABLE = 41, SORBRUDDER_OP_CONTEXT_VARIABLE = 42,
    SORBRUDDER_OP_ENTITY_VARIABLE = 43, SORBRUDDER_OP_TEMP_VARIABLE = 44, SORBRUDDER_OP_MEMBER_ACCESSOR = 45,
    SORBRUDDER_OP_STRING_LITERAL = 46, SORBRUDDER_OP_GEOMETRY_VARIABLE = 47, SORBRUDDER_OP_MATERIAL_VARIABLE = 48,
    SORBRUDDER_OP_TEXTURE_VARIABLE = 49, SORBRUDDER_OP_LESS_THAN = 50, SORBRUDDER_OP_LESS_EQUAL = 51, SORBRUDDER_OP_GREATER_EQUAL = 52,
    SORBRUDDER_OP_GREATER_THAN = 53, SORBRUDDER_OP_LOGICAL_EQUAL = 54, SORBRUDDER_OP_LOGICAL_NOT_EQUAL = 55,
    SORBRUDDER_OP_LOGICAL_OR = 56, SORBRUDDER_OP_LOGICAL_AND = 57, SORBRUDDER_OP_NULL_COALESCING = 58, SORBRUDDER_OP_CONDITIONAL = 59,
    SORBRUDDER_OP_CONDITIONAL_ELSE = 60, SORBRUDDER_OP_FLOAT = 61, SORBRUDDER_OP_PI = 62, SORBRUDDER_OP_ARRAY = 63,
    SORBRUDDER_OP_GEOMETRY = 64, SORBRUDDER_OP_MATERIAL = 65, SORBRUDDER_OP_TEXTURE = 66, SORBRUDDER_OP_LOOP = 67,
    SORBRUDDER_OP_FOR_EACH = 68, SORBRUDDER_OP_BREAK = 69, SORBRUDDER_OP_CONTINUE = 70, SORBRUDDER_OP_ASSIGNMENT = 71,
    SORBRUDDER_OP_POINTER = 72, SORBRUDDER_OP_SEMICOLON = 73, SORBRUDDER_OP_RETURN = 74, SORBRUDDER_OP_COMMA = 75,
    SORBRUDDER_OP_THIS = 76, SORBRUDDER_OP_EXPRESSION_ARRAY = 77, SORBRUDDER_OP_INVERSE_LERP = 78, SORBRUDDER_OP_EASE_IN_QUAD = 79,
    SORBRUDDER_OP_EASE_OUT_QUAD = 80, SORBRUDDER_OP_EASE_IN_OUT_QUAD = 81, SORBRUDDER_OP_EASE_IN_CUBIC = 82,
    SORBRUDDER_OP_EASE_OUT_CUBIC = 83, SORBRUDDER_OP_EASE_IN_OUT_CUBIC = 84, SORBRUDDER_OP_EASE_IN_QUART = 85,
    SORBRUDDER_OP_EASE_OUT_QUART = 86, SORBRUDDER_OP_EASE_IN_OUT_QUART = 87, SORBRUDDER_OP_EASE_IN_QUINT = 88,
    SORBRUDDER_OP_EASE_OUT_QUINT = 89, SORBRUDDER_OP_EASE_IN_OUT_QUINT = 90, SORBRUDDER_OP_EASE_IN_SINE = 91,
    SORBRUDDER_OP_EASE_OUT_SINE = 92, SORBRUDDER_OP_EASE_IN_OUT_SINE = 93, SORBRUDDER_OP_EASE_IN_EXPO = 94,
    SORBRUDDER_OP_EASE_OUT_EXPO = 95, SORBRUDDER_OP_EASE_IN_OUT_EXPO = 96, SORBRUDDER_OP_EASE_IN_CIRC = 97,
    SORBRUDDER_OP_EASE_OUT_CIRC = 98, SORBRUDDER_OP_EASE_IN_OUT_CIRC = 99, SORBRUDDER_OP_EASE_IN_BOUNCE = 100,
    SORBRUDDER_OP_EASE_OUT_BOUNCE = 101, SORBRUDDER_OP_EASE_IN_OUT_BOUNCE = 102, SORBRUDDER_OP_EASE_IN_BACK = 103,
    SORBRUDDER_OP_EASE_OUT_BACK = 104, SORBRUDDER_OP_EASE_IN_OUT_BACK = 105, SORBRUDDER_OP_EASE_IN_ELASTIC = 106,
    SORBRUDDER_OP_EASE_OUT_ELASTIC = 107, SORBRUDDER_OP_EASE_IN_OUT_ELASTIC = 108, SORBRUDDER_OP_HOST_MATH = 109,
    SORBRUDDER_OP_HOST_MATH_VOLATILE = 110
};

/* Which rule made a node (`sorbrudder_parse_rules`): the first of the reader's passes that gave it children. */
enum sorbrudder_rule {
    SORBRUDDER_RULE_LEAF = 0,            /* none did */
    SORBRUDDER_RULE_MEMBER = 1,
    SORBRUDDER_RULE_SECTION = 2,         /* brackets of all three kinds, whatever they belong to */
    SORBRUDDER_RULE_CALL = 3,            /* a query, `loop` or `for_each` with its brackets */
    SORBRUDDER_RULE_SEMICOLON = 4,       /* the list of statements, and each statement */
    SORBRUDDER_RULE_ARRAY = 5,
    SORBRUDDER_RULE_POINTER = 6,
    SORBRUDDER_RULE_MATH = 7,            /* a math function with its brackets */
    SORBRUDDER_RULE_UNARY = 8,           /* `-` and `!` */
    SORBRUDDER_RULE_DIVISION = 9,
    SORBRUDDER_RULE_MULTIPLICATION = 10,
    SORBRUDDER_RULE_ADDITION = 11,       /* of `a - b` too, whose minus is a node of UNARY */
    SORBRUDDER_RULE_COMPARISON = 12,     /* below version 6 equality too */
    SORBRUDDER_RULE_EQUALITY = 13,       /* from version 6 on */
    SORBRUDDER_RULE_AND = 14,            /* before OR from version 6 on, after it below */
    SORBRUDDER_RULE_OR = 15,
    SORBRUDDER_RULE_CONDITIONAL = 16,    /* `?` and `:` */
    SORBRUDDER_RULE_NULL_COALESCING = 17,
    SORBRUDDER_RULE_COMMA = 18,
    SORBRUDDER_RULE_ASSIGNMENT = 19,
    SORBRUDDER_RULE_RETURN = 20
};

/* Why a list is no tree. */
enum sorbrudder_message {
    SORBRUDDER_MESSAGE_MULTIPLE_ROOTS = 1,
    SORBRUDDER_MESSAGE_COMPLEX_MUST_END_WITH_SEMICOLON = 2,
    SORBRUDDER_MESSAGE_LEADING_MEMBER_ACCESSOR = 3,
    SORBRUDDER_MESSAGE_CLOSING_MISMATCH = 4,
    SORBRUDDER_MESSAGE_SECTION_NOT_CLOSED = 5,
    SORBRUDDER_MESSAGE_NO_CLOSING_SYMBOL = 6,
    SORBRUDDER_MESSAGE_EMPTY_PARAMETER_LIST = 7,
    SORBRUDDER_MESSAGE_MATH_AT_END = 8,
    SORBRUDDER_MESSAGE_MATH_WITHOUT_PARENTHESIS = 9,
    SORBRUDDER_MESSAGE_LEADING_SEMICOLON = 10,
    SORBRUDDER_MESSAGE_EMPTY_ARRAY_INDEX = 11,
    SORBRUDDER_MESSAGE_BINARY_AT_END = 12,
    SORBRUDDER_MESSAGE_NEGATE_WITHOUT_OPERAND = 13,
    SORBRUDDER_MESSAGE_NOT_WITHOUT_OPERAND = 14,
    SORBRUDDER_MESSAGE_UNKNOWN_OPERATION = 15,
    SORBRUDDER_MESSAGE_UNARY_WITHOUT_OPERAND = 16,
    SORBRUDDER_MESSAGE_TERNARY_WITHOUT_OPERANDS = 17
};

/* Why a call is turned back (`sorbrudder_refusal`). */
enum sorbrudder_refusal_number {
    SORBRUDDER_REFUSAL_NOT_WHOLE = 1,         /* the list's words are no multiple of five */
    SORBRUDDER_REFUSAL_TOO_MANY_TOKENS = 2,   /* more than 4,096 tokens, or held numbers that claim more */
    SORBRUDDER_REFUSAL_TREE_BUFFER = 3,       /* the tree buffer is too short */
    SORBRUDDER_REFUSAL_MESSAGE_BUFFER = 4,    /* the message buffer is too short */
    SORBRUDDER_REFUSAL_WORK_BUFFER = 5,       /* the work buffer is too short */
    SORBRUDDER_REFUSAL_USED_SET = 6,          /* a bit of the set above operator 110 */
    SORBRUDDER_REFUSAL_SOURCE_TOO_LONG = 7,   /* a source above 536,870,911 */
    SORBRUDDER_REFUSAL_WRONG_KIND = 8,        /* place: the word, here and below */
    SORBRUDDER_REFUSAL_UNKNOWN_OPERATOR = 9,  /* an operator that is neither 0 to 110 nor 256 to 1,023 */
    SORBRUDDER_REFUSAL_UNKNOWN_PAYLOAD = 10,  /* what it carries is above 12 */
    SORBRUDDER_REFUSAL_OTHER_BITS = 11,       /* a bit that has to be 0, of a token's first word from 16 on */
    SORBRUDDER_REFUSAL_NOT_A_TREE = 12,       /* place: the first word that cannot continue a tree, or the word count; 86,016 at the most */
    SORBRUDDER_REFUSAL_NOT_PLAIN = 13,        /* place: the number of the first such node in tree order */
    SORBRUDDER_REFUSAL_WRITTEN_TOO_LONG = 14, /* the written list has more than 4,096 tokens */
    SORBRUDDER_REFUSAL_LIST_BUFFER = 15,      /* the lent list is too short; an open list's words, or the lift's output, under 20,480 */
    SORBRUDDER_REFUSAL_RULE_BUFFER = 16,      /* the rule buffer is too short */
    SORBRUDDER_REFUSAL_LIMIT = 17,            /* a nesting limit that is not 1 to 4,096 */
    SORBRUDDER_REFUSAL_TOO_DEEP = 18,         /* place: the token, counted from 0, with which more brackets are open than the limit */
    SORBRUDDER_REFUSAL_OTHER_EDIT_COUNT = 21, /* the open list has another edit count than the one seen; place 0, here and below */
    SORBRUDDER_REFUSAL_PAST_THE_END = 22,     /* an edit's place, or what it removes, is past the end of the open list */
    SORBRUDDER_REFUSAL_LAST_EDIT = 23,        /* the edit count of the open list is SORBRUDDER_LAST_EDIT */
    SORBRUDDER_REFUSAL_NOT_A_STACK = 24,      /* words in stack order that are not one tree; place as for 12 */
    SORBRUDDER_REFUSAL_OUTPUT_BUFFER = 25     /* the lent output is shorter than the words that are put into the other order */
};

/* Reads the list of tokens whose words are `list` at a pack's declared version, under the operator set in two halves of 64 bits (operator 0
 * is the lowest bit of `used_low`; `sorbrudder_used` finds the list's own), over a source of that length. At most `limit` brackets may be
 * open at once, 1 to SORBRUDDER_MOST_NESTING. They are counted along the list, whatever the operator set: `{`, `[` and `(` open one, and
 * any of `}`, `]` and `)` closes one, matching or not, unless none is open. Within the limit a list reads as it does at any other.
 * Done: the number of nodes; the tree's words fill the front of `tree`. Messages: their number, one or two; their words fill the front of
 * `messages`. The words after them, and the other of the two buffers, stay as they were; `work` is all zero.
 * Refused, 1 to 11, 17 and 18: every buffer is unchanged. The first of the refusals that applies is the answer, in the order 1 to 7, 17,
 * then 8 to 11 by the list's words, and 18. */
uint64_t sorbrudder_parse(const uint32_t *list, size_t list_words, uint32_t *tree, size_t tree_words, uint32_t *messages,
                          size_t message_words, uint32_t *work, size_t work_words, uint64_t source_length, int16_t version,
                          uint64_t used_low, uint64_t used_high, uint32_t limit);

/* Reads a list as `sorbrudder_parse` does, with the same answer and the same words in the same buffers, and says of a tree which rule made
 * each node. `rules` is lent as a pointer to bytes and their number.
 * Done: the number of nodes; their rules (SORBRUDDER_RULE_..), a byte for each node in the order of the tree, fill the front of `rules`,
 * and the bytes after them stay as they were. Messages: every byte of `rules` stays as it was.
 * Refused, 1 to 11 and 16 to 18: every buffer is unchanged. The refusals are in the order of `sorbrudder_parse`, with 16, a rule buffer of
 * fewer than SORBRUDDER_RULE_BUFFER bytes for the list's tokens, after 5. */
uint64_t sorbrudder_parse_rules(const uint32_t *list, size_t list_words, uint32_t *tree, size_t tree_words, uint32_t *messages,
                                size_t message_words, uint32_t *work, size_t work_words, uint8_t *rules, size_t rule_bytes,
                                uint64_t source_length, int16_t version, uint64_t used_low, uint64_t used_high, uint32_t limit);

/* Writes the plain tree whose words are `tree` as a list of tokens into the front of `list`; the words after it stay as they were. A tree
 * whose root is a semicolon (73) is a script: each of its statements is written with a semicolon after it, of payload 0 and the span of the
 * node that the statement holds. The closer of a bracket of the tree starts and ends where the bracket closes. Of the other nodes' words of
 * kind 7 only the kind is looked at. Added brackets have payload 0: the opener's span is from the lowest start to the highest end among the
 * spans of its operand and all below it, and its closer starts and ends at that end. With them the list may be deeper than the one that the
 * tree was read from; reading it says whether it is within a limit.
 * Done: the number of tokens. Refused, 12 to 15: the list is unchanged. The place of 12 is 86,016 at the most. */
uint64_t sorbrudder_write(const uint32_t *tree, size_t tree_words, uint32_t *list, size_t list_words);

/* Lifts the list of tokens whose words are `list` from an engine of version `from` and nesting limit `limit_from` to one of version `to`
 * and limit `limit_to`. It is read at both, each time with its own operator set and its highest span end as `sorbrudder_used` finds them:
 * `tree` gets the old engine's tree, `again` the new one's, both of at least SORBRUDDER_TREE_BUFFER words for the list's tokens; `messages`
 * and `work` are those of `sorbrudder_parse`. If the new engine reads it otherwise, the old tree is written to the front of `output`, of at
 * least SORBRUDDER_LIST_BUFFER words. Whatever comes out, the new engine reads it, under its limit, as the old one read `list`, brackets
 * taken away that only group; of a script's semicolons operators and children agree. So no third reading is needed.
 *
 * Done: both engines read the same tree, every word equal; the number of its nodes, and the list stays as it is.
 * LIFTED: the number of tokens that came out, which fill the front of `output`. Messages: those of the old engine.
 * BEHIND: the list as it is is too deep for the new limit: 18, and as the place the token of `list`.
 * UNWRITTEN: the list has to change and what would be written is no list: 13 with the node of `tree`, 14, or 18 with the token of what was
 * written, which stands in `output`. `sorbrudder_refusal` and `sorbrudder_count` give number and place of both.
 * REFUSED: every buffer is unchanged. In this order: 1 to 5, 17 if one of the two limits is none, 8 to 11 by the list's words, 18 of the
 * old limit, and 15 if the output has fewer than SORBRUDDER_LIST_BUFFER words.
 *
 * What a call that is not refused leaves: `work` is all zero. `tree` has the old tree in its front unless the old engine has messages,
 * `again` the new one if the list is read there as a tree, `messages` records in its front if one of the two readings has them, `output`
 * what was written. The words after them, and the buffers that are not named, stay as they were. */
uint64_t sorbrudder_lift(const uint32_t *list, size_t list_words, uint32_t *tree, size_t tree_words, uint32_t *again, size_t again_words,
                         uint32_t *messages, size_t message_words, uint32_t *work, size_t work_words, uint32_t *output,
                         size_t output_words, int16_t from, int16_t to, uint32_t limit_from, uint32_t limit_to);

/* Puts the words of a tree into stack order, in the front of `output`; the words after them stay as they were.
 * Done: the number of nodes. Refused, 12 or 25: the output is unchanged. The output is looked at last: words that are no tree are 12
 * whatever its length. The place of 12 is 86,016 at the most. */
uint64_t sorbrudder_export(const uint32_t *tree, size_t tree_words, uint32_t *output, size_t output_words);

/* Puts the words of a tree in stack order back: the tree, parent first, fills the front of `output`; the words after it stay as they were.
 * Taken are exactly the words that `sorbrudder_export` gives of some tree, and each of the two undoes the other.
 * Done: the number of nodes. Refused, 24 or 25: the output is unchanged. A whole tree may be followed by more, since it can become a child;
 * words that are several trees run out, so the place of 24 is then the word count. It is 86,016 at the most. */
uint64_t sorbrudder_import(const uint32_t *stack, size_t stack_words, uint32_t *output, size_t output_words);

/* An open list is held while somebody types and the version may rise under it. Three numbers are held, `tokens`, `version` and `edits`,
 * and the list's words in the front of `words`, a slice of at least SORBRUDDER_LIST_BUFFER words; the words after them are the caller's and
 * stay as they were. All of it is the caller's to keep: a call gets the numbers and the slice as the last one left them. `sorbrudder_held`
 * below has the three numbers together.
 *
 * An edit removes `removed` tokens from the token `place` on, counted from 0 to `tokens`, and puts in the tokens whose words are `put`. It
 * is asked, which changes nothing held, and then committed with the edit count that was seen when it was asked. Where an accepted commit of
 * the edit names that count, its answer and its words are those of the ask, over buffers of the same lengths and under the same limit,
 * whatever was called in between: every change adds one to the count.
 *
 * The list is read at its own operator set and its highest span end, as `sorbrudder_used` finds them; the buffers and the limit are those
 * of `sorbrudder_parse`, at the lengths that the new list asks for. A list is held, and an edit made, whether it reads as a tree or as
 * messages. Refused, a call changes nothing: no held number, no word of the slice and none of a buffer. */

/* Opens the list of tokens whose words are `list` at a version: reads it, and where it is not refused lays its words into the front of
 * `words` and sets `tokens` to its count, `held_version` to the version and `edits` to 0.
 * The answer is that of `sorbrudder_parse`, and so are the buffers after it. Refused, in this order: 15, then as `sorbrudder_parse` is. */
uint64_t sorbrudder_open(const uint32_t *list, size_t list_words, uint32_t *words, size_t slice_words, size_t *tokens,
                         int16_t *held_version, uint32_t *edits, uint32_t *tree, size_t tree_words, uint32_t *messages,
                         size_t message_words, uint32_t *work, size_t work_words, int16_t version, uint32_t limit);

/* Says what the held list would read as with an edit made: answer and buffers are those of `sorbrudder_parse` for the new list. An edit at
 * place 0 that removes and puts in nothing reads the held list afresh. The edit count to commit with is the one that is held now.
 * Refused, in this order: 15, 2 where more than 4,096 tokens are claimed, 22, then as `sorbrudder_parse` refuses the new list, in which the
 * places of 8 to 11 and 18 are counted. */
uint64_t sorbrudder_ask(size_t tokens, int16_t version, const uint32_t *words, size_t slice_words, size_t place, size_t removed,
                        const uint32_t *put, size_t put_words, uint32_t *tree, size_t tree_words, uint32_t *messages,
                        size_t message_words, uint32_t *work, size_t work_words, uint32_t limit);

/* Makes an edit that was asked when the edit count was `seen`: answers as `sorbrudder_ask`, and where it is not refused lays the new list
 * into the front of `words`, sets `tokens` to its count and adds one to `edits`.
 * Refused, in this order: 15, 2, 21 where `seen` is not `edits`, 22, 23, then as `sorbrudder_parse` refuses the new list. */
uint64_t sorbrudder_commit(size_t *tokens, int16_t version, uint32_t *edits, uint32_t seen, uint32_t *words, size_t slice_words,
                           size_t place, size_t removed, const uint32_t *put, size_t put_words, uint32_t *tree, size_t tree_words,
                           uint32_t *messages, size_t message_words, uint32_t *work, size_t work_words, uint32_t limit);

/* Adopts the rules of the version `to` over the same words: sets `version` to it and adds one to `edits`. Nothing is read; an ask says what
 * the list reads as now. Done: 0. Refused: 23. */
uint64_t sorbrudder_adopt(int16_t *version, uint32_t *edits, int16_t to);

/* The parts of an answer. */
static inline unsigned sorbrudder_kind(uint64_t answer) { return (unsigned)(answer >> 40); }

/* The count of nodes, tokens or messages; of a refusal, or of a list that stays behind, the place. */
static inline uint32_t sorbrudder_count(uint64_t answer) { return (uint32_t)answer; }

/* Of a refusal, or of a list that stays behind: its number, 1-18 or 21-25. */
static inline unsigned sorbrudder_refusal(uint64_t answer) { return (unsigned)(answer >> 32) & 0xff; }

/* The parts of a token's or a node's words. */
static inline unsigned sorbrudder_op_of(const uint32_t *token) {
    return (token[SORBRUDDER_WORD_OP] & 0xff) | (token[SORBRUDDER_WORD_OP] >> 4 & 0xf00);
}
static inline uint32_t sorbrudder_start_of(const uint32_t *token) { return token[SORBRUDDER_WORD_START] & 0x1fffffff; }
static inline uint32_t sorbrudder_end_of(const uint32_t *token) { return token[SORBRUDDER_WORD_END] & 0x1fffffff; }
static inline uint32_t sorbrudder_children_of(const uint32_t *node) { return node[SORBRUDDER_WORD_CHILDREN] & 0x3fff; }
static inline uint32_t sorbrudder_close_of(const uint32_t *node) { return node[SORBRUDDER_WORD_CLOSE] & 0x1fffffff; }

/* The first word of a token or a node of this operator, or of a host's own name, that carries this. */
static inline uint32_t sorbrudder_op_word(unsigned op, unsigned payload) {
    return 0x20000000u | (uint32_t)(op & 0xff) | (uint32_t)(payload & 0xf) << 8 | (uint32_t)(op >> 8 & 0xf) << 12;
}

/* Whether an operator number is a host's. */
static inline int sorbrudder_is_host(unsigned op) { return SORBRUDDER_FIRST_HOST <= op && op <= SORBRUDDER_LAST_HOST; }

/* The exact used set of a list, each operator of its tokens and no other, and its highest span end, which is its source length where
 * nothing else is known. Hosts' own names are passed over, and so is what names no operator; the call that follows turns that back. */
static inline void sorbrudder_used(const uint32_t *list, size_t list_words, uint64_t *used_low, uint64_t *used_high,
                                   uint64_t *source_length) {
    uint64_t half[2] = {0, 0}, length = 0;
    for (size_t at = 0; at + SORBRUDDER_TOKEN_WORDS <= list_words; at += SORBRUDDER_TOKEN_WORDS) {
        unsigned op = sorbrudder_op_of(list + at);
        uint32_t end = sorbrudder_end_of(list + at);
        if (op <= SORBRUDDER_OP_HOST_MATH_VOLATILE) {
            half[op / 64] |= UINT64_C(1) << (op % 64);
        }
        if (length < end) {
            length = end;
        }
    }
    *used_low = half[0];
    *used_high = half[1];
    *source_length = length;
}

/* The held numbers of an open list together, and the four calls over them. */
struct sorbrudder_held {
    size_t tokens;
    int16_t version;
    uint32_t edits;
};

static inline uint64_t sorbrudder_held_open(struct sorbrudder_held *held, uint32_t *words, size_t slice_words, const uint32_t *list,
                                            size_t list_words, uint32_t *tree, size_t tree_words, uint32_t *messages,
                                            size_t message_words, uint32_t *work, size_t work_words, int16_t version, uint32_t limit) {
    return sorbrudder_open(list, list_words, words, slice_words, &held->tokens, &held->version, &held->edits, tree, tree_words, messages,
                           message_words, work, work_words, version, limit);
}

static inline uint64_t sorbrudder_held_ask(const struct sorbrudder_held *held, const uint32_t *words, size_t slice_words, size_t place,
                                           size_t removed, const uint32_t *put, size_t put_words, uint32_t *tree, size_t tree_words,
                                           uint32_t *messages, size_t message_words, uint32_t *work, size_t work_words,
                                           uint32_t limit) {
    return sorbrudder_ask(held->tokens, held->version, words, slice_words, place, removed, put, put_words, tree, tree_words, messages,
                          message_words, work, work_words, limit);
}

static inline uint64_t sorbrudder_held_commit(struct sorbrudder_held *held, uint32_t seen, uint32_t *words, size_t slice_words,
                                              size_t place, size_t removed, const uint32_t *put, size_t put_words, uint32_t *tree,
                                              size_t tree_words, uint32_t *messages, size_t message_words, uint32_t *work,
                                              size_t work_words, uint32_t limit) {
    return sorbrudder_commit(&held->tokens, held->version, &held->edits, seen, words, slice_words, place, removed, put, put_words, tree,
                             tree_words, messages, message_words, work, work_words, limit);
}

static inline uint64_t sorbrudder_held_adopt(struct sorbrudder_held *held, int16_t version) {
    return sorbrudder_adopt(&held->version, &held->edits, version);
}

/* SORBRUDDER_ABI_VERSION where the linked library has this header's layout and calls, else 0. It is found by asking the library: a list of
 * one token, a host's own name, is read into a tree buffer of exactly the length that this header says, and refused with one of a word
 * less, and with the limit 0. */
static inline unsigned sorbrudder_abi_version(void) {
    const uint32_t list[SORBRUDDER_TOKEN_WORDS] = {sorbrudder_op_word(SORBRUDDER_FIRST_HOST, SORBRUDDER_PAYLOAD_NONE), 0x40000000u,
                                                   0x60000000u, 0x80000000u, 0xa0000000u};
    uint32_t tree[SORBRUDDER_TREE_BUFFER(1)], messages[SORBRUDDER_MESSAGE_BUFFER], work[SORBRUDDER_WORK_BUFFER(1)];
    uint64_t low, high, length, longer, shorter, without;
    sorbrudder_used(list, SORBRUDDER_TOKEN_WORDS, &low, &high, &length);
    longer = sorbrudder_parse(list, SORBRUDDER_TOKEN_WORDS, tree, SORBRUDDER_TREE_BUFFER(1), messages, SORBRUDDER_MESSAGE_BUFFER, work,
                              SORBRUDDER_WORK_BUFFER(1), length, 6, low, high, 1);
    shorter = sorbrudder_parse(list, SORBRUDDER_TOKEN_WORDS, tree, SORBRUDDER_TREE_BUFFER(1) - 1, messages, SORBRUDDER_MESSAGE_BUFFER,
                               work, SORBRUDDER_WORK_BUFFER(1), length, 6, low, high, 1);
    without = sorbrudder_parse(list, SORBRUDDER_TOKEN_WORDS, tree, SORBRUDDER_TREE_BUFFER(1), messages, SORBRUDDER_MESSAGE_BUFFER, work,
                               SORBRUDDER_WORK_BUFFER(1), length, 6, low, high, 0);
    return longer == 1 && sorbrudder_refusal(shorter) == SORBRUDDER_REFUSAL_TREE_BUFFER &&
                   sorbrudder_refusal(without) == SORBRUDDER_REFUSAL_LIMIT
               ? SORBRUDDER_ABI_VERSION
               : 0;
}

#ifdef __cplusplus
}
#endif

#endif
