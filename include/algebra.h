/* The C interface of the library algebra: three checks, locate, reduce, run, score, score_loose,
 * join_table, export, import, index, block, node, edit, mask and search.
 *
 * Each function returns the number of the answer: ALGEBRA_ACCEPTED, or the number of a
 * refusal (enum algebra_answer). Figures of the answer, such as a length, are stored through
 * pointers behind the slices; a refusal stores 0 (only algebra_locate then tells a position) and
 * leaves the output unchanged. Accepted, the output holds the result first, and its other bytes
 * are unchanged.
 *
 * What is asked of the caller, and not checked:
 *
 * - A slice is a pointer and a length. The pointer is valid for that many bytes: for reading,
 *   or for reading and writing if it is an output or a workspace. If the length is 0 nothing
 *   is read or written through the pointer, and it may be null; otherwise it must not be.
 * - Pointers to figures are never null: each points to a number that can be written.
 * - An output, a workspace and the figures overlap neither an input nor each other. Inputs may
 *   overlap each other. While a call is at work no other thread writes its inputs, or reads or
 *   writes its output, workspace and figures.
 * - When a function is called, at least ALGEBRA_STACK_BYTES bytes of stack are left to it. The
 *   stack is bounded since all levels are (64 of a tree, 16 of a code, 12 of a term). How many
 *   calls these open is proved of every function that calls itself; from that and the object code
 *   follows the most that each function can use, in bytes: check_language 104, import 19,144,
 *   export 26,072, check_tree 29,336, locate 29,352, index 29,368, block 29,512, node 29,528,
 *   edit 29,704, score 44,808, score_loose 44,808, check_translation 45,048, mask 45,416,
 *   join_table 67,896, reduce 142,656, search 172,872, run 255,368.
 *
 * Nothing else is asked: every content of the inputs, every length and every root has an
 * answer, and every call ends. The library has no global state, allocates nothing, and calls
 * only memcpy, memset, memmove and memcmp. What a call answers depends on its arguments alone,
 * and any number of threads may call at the same time.
 *
 * Platform: Linux on x86-64, the System V calling convention, ELF. The code is position
 * independent and uses no instruction beyond the base set of x86-64. The header is C99 and C++17.
 *
 * pkg-config gives the flags: `pkg-config --cflags --libs algebra`, and `pkg-config
 * --variable=archive algebra` names the archive. A program that is linked with the shared library
 * in a folder where the loader does not look is run with that folder in LD_LIBRARY_PATH, or is
 * linked with -Wl,-rpath,FOLDER. */
#ifndef ALGEBRA_H
#define ALGEBRA_H

#include <stddef.h>
#include <stdint.h>

/* The version. A program that was built with another ALGEBRA_VERSION_MAJOR is to be built anew; the
 * shared library has that number in its name. CHANGELOG.md tells what changed. */
#define ALGEBRA_VERSION_MAJOR 1
#define ALGEBRA_VERSION_MINOR 0
#define ALGEBRA_VERSION_PATCH 0
#define ALGEBRA_VERSION "1.0.0"

/* What compilers that know it warn of: an answer that is not looked at, and null for a pointer to a
 * figure, which is named by its place among the parameters. */
#ifdef __GNUC__
#define ALGEBRA_MUST_USE __attribute__((warn_unused_result))
#define ALGEBRA_NOT_NULL(...) __attribute__((nonnull(__VA_ARGS__)))
#else
#define ALGEBRA_MUST_USE
#define ALGEBRA_NOT_NULL(...)
#endif

/* A call needs at most so many bytes of stack. */
#define ALGEBRA_STACK_BYTES 327680

/* The longest files, in bytes: over these is ALGEBRA_TOO_LONG. A tree may have any length. */
#define ALGEBRA_LANGUAGE_BYTES 1024
#define ALGEBRA_TRANSLATION_BYTES 4096
#define ALGEBRA_PACK_BYTES 32768

/* The longest tree that has an index, in bytes: over this is ALGEBRA_NOT_INDEXED. An index has
 * ALGEBRA_ENTRY_BYTES bytes for each node, and a node has a byte or more of its own. */
#define ALGEBRA_INDEXED_BYTES 65535
#define ALGEBRA_ENTRY_BYTES 4

/* The name that is told of a token: productions have names 0 to 255, and a token has none. */
#define ALGEBRA_NO_NAME 256

/* What stands for a hidden block in a masked plan. */
#define ALGEBRA_HIDDEN_BYTE 0xFF

/* Reduce needs a workspace and an output of at least so many bytes. What it accepts is at most
 * ALGEBRA_TRANSLATION_BYTES long. */
#define ALGEBRA_WORKSPACE_BYTES 65536
#define ALGEBRA_OUTPUT_BYTES 4096

/* A search has a limit of 1 to so many levels, and is fast with so many bytes of workspace for each
 * byte of the tree. */
#define ALGEBRA_SEARCH_LEVELS 16
#define ALGEBRA_SEARCH_WORKSPACE 36

/* A search for a tree of at most so many bytes needs no workspace to be fast. */
#define ALGEBRA_SEARCH_TREE 2048

/* The most levels of a tree handed in, of a code and of a term. A token is no level. */
#define ALGEBRA_TREE_LEVELS 64
#define ALGEBRA_CODE_LEVELS 16
#define ALGEBRA_TERM_LEVELS 12

/* Kinds are 0 to 31, their mappings have numbers 0 to 255, in operands of a join 0 to 15, a
 * production has at most 8 arguments, variables are 0 to 15, and a pack has at most 32 languages
 * and 32 bodies. */
#define ALGEBRA_KINDS 32
#define ALGEBRA_MAPPING_NUMBERS 256
#define ALGEBRA_JOINED_NUMBERS 16
#define ALGEBRA_ARGUMENTS 8
#define ALGEBRA_VARIABLES 16
#define ALGEBRA_PACK_LANGUAGES 32
#define ALGEBRA_PACK_BODIES 32

/* The answers. */
enum algebra_answer {
    ALGEBRA_ACCEPTED = 0,
    /* a file, or a language inside it, is longer than its limit */
    ALGEBRA_TOO_LONG = 1,
    /* a field is broken: its tag, its length, a number in it, or the end of the input */
    ALGEBRA_BROKEN_FIELD = 2,
    /* fields are out of order, or a key occurs twice */
    ALGEBRA_OUT_OF_ORDER = 3,
    /* a kind is both a token class and the result of a production */
    ALGEBRA_CLASS_IS_RESULT = 4,
    /* the mapping is not as required */
    ALGEBRA_WRONG_MAPPING = 5,
    /* a clause is missing, or has no production in the source */
    ALGEBRA_WRONG_CLAUSES = 6,
    /* a code is broken, not of its kind, or over 16 levels */
    ALGEBRA_ILLEGAL_CODE = 7,
    /* field 32 is not exactly one translation term */
    ALGEBRA_ILLEGAL_TERM = 8,
    /* the workspace or the output is too short to reduce */
    ALGEBRA_BUFFERS_TOO_SHORT = 9,
    /* a variable has no value */
    ALGEBRA_UNBOUND_VARIABLE = 10,
    /* the value of a sign exceeds a limit of bytes or levels */
    ALGEBRA_VALUE_TOO_LARGE = 11,
    /* the operands of a sum do not fit together */
    ALGEBRA_SUM_UNFIT = 12,
    /* the target of a join's second operand does not lie within the source of its first */
    ALGEBRA_JOIN_UNFIT = 13,
    /* the root kind is not in the language */
    ALGEBRA_UNKNOWN_ROOT = 14,
    /* the tree is not legal */
    ALGEBRA_ILLEGAL_TREE = 15,
    /* the tree has more than 64 levels */
    ALGEBRA_TOO_DEEP = 16,
    /* the result is longer than the output */
    ALGEBRA_OUTPUT_TOO_SHORT = 17,
    /* the load table is broken, out of order, lacks a production or has one too many */
    ALGEBRA_BROKEN_TABLE = 18,
    /* a node's score lies outside -1,000,000,000 to 1,000,000,000 */
    ALGEBRA_SCORE_OUT_OF_RANGE = 19,
    /* the text is not an export of a legal tree */
    ALGEBRA_NOT_AN_EXPORT = 20,
    /* a path number is 0, or there is no such argument */
    ALGEBRA_NO_BLOCK = 21,
    /* the tree is over 65,535 bytes, or the index is not its own */
    ALGEBRA_NOT_INDEXED = 22,
    /* no source tree within the limit gives this tree */
    ALGEBRA_NO_SOURCE = 23,
    /* the limit of levels is not 1 to 16 */
    ALGEBRA_LIMIT_OUT_OF_RANGE = 24,
    /* the path has reached a hidden block */
    ALGEBRA_HIDDEN = 25,
    /* a mapping number is above 15 in a join, or not 0 where only 0 is taken */
    ALGEBRA_NUMBER_UNFIT = 26
};

/* The sentence of an answer: `accepted` for 0, for a refusal what stands above its name, and for any
 * other number that it is none. It is never null, and is not to be freed. */
ALGEBRA_MUST_USE static inline const char *algebra_sentence(uint32_t answer)
{
    switch (answer) {
    case ALGEBRA_ACCEPTED:
        return "accepted";
    case ALGEBRA_TOO_LONG:
        return "a file, or a language inside it, is longer than its limit";
    case ALGEBRA_BROKEN_FIELD:
        return "a field is broken: its tag, its length, a number in it, or the end of the input";
    case ALGEBRA_OUT_OF_ORDER:
        return "fields are out of order, or a key occurs twice";
    case ALGEBRA_CLASS_IS_RESULT:
        return "a kind is both a token class and the result of a production";
    case ALGEBRA_WRONG_MAPPING:
        return "the mapping is not as required";
    case ALGEBRA_WRONG_CLAUSES:
        return "a clause is missing, or has no production in the source";
    case ALGEBRA_ILLEGAL_CODE:
        return "a code is broken, not of its kind, or over 16 levels";
    case ALGEBRA_ILLEGAL_TERM:
        return "field 32 is not exactly one translation term";
    case ALGEBRA_BUFFERS_TOO_SHORT:
        return "the workspace or the output is too short to reduce";
    case ALGEBRA_UNBOUND_VARIABLE:
        return "a variable has no value";
    case ALGEBRA_VALUE_TOO_LARGE:
        return "the value of a sign exceeds a limit of bytes or levels";
    case ALGEBRA_SUM_UNFIT:
        return "the operands of a sum do not fit together";
    case ALGEBRA_JOIN_UNFIT:
        return "the target of a join's second operand does not lie within the source of its first";
    case ALGEBRA_UNKNOWN_ROOT:
        return "the root kind is not in the language";
    case ALGEBRA_ILLEGAL_TREE:
        return "the tree is not legal";
    case ALGEBRA_TOO_DEEP:
        return "the tree has more than 64 levels";
    case ALGEBRA_OUTPUT_TOO_SHORT:
        return "the result is longer than the output";
    case ALGEBRA_BROKEN_TABLE:
        return "the load table is broken, out of order, lacks a production or has one too many";
    case ALGEBRA_SCORE_OUT_OF_RANGE:
        return "a node's score lies outside -1,000,000,000 to 1,000,000,000";
    case ALGEBRA_NOT_AN_EXPORT:
        return "the text is not an export of a legal tree";
    case ALGEBRA_NO_BLOCK:
        return "a path number is 0, or there is no such argument";
    case ALGEBRA_NOT_INDEXED:
        return "the tree is over 65,535 bytes, or the index is not its own";
    case ALGEBRA_NO_SOURCE:
        return "no source tree within the limit gives this tree";
    case ALGEBRA_LIMIT_OUT_OF_RANGE:
        return "the limit of levels is not 1 to 16";
    case ALGEBRA_HIDDEN:
        return "the path has reached a hidden block";
    case ALGEBRA_NUMBER_UNFIT:
        return "a mapping number is above 15 in a join, or not 0 where only 0 is taken";
    default:
        return "no answer has this number";
    }
}

#ifdef __cplusplus
extern "C" {
#endif

/* Checks a language: 0 to 4. */
uint32_t algebra_check_language(const uint8_t *language, size_t language_length)
    ALGEBRA_MUST_USE;

/* Checks a translation: 0 to 7. */
uint32_t algebra_check_translation(const uint8_t *translation, size_t translation_length)
    ALGEBRA_MUST_USE;

/* Checks that a tree is legal for a root kind of a language: 0 to 4, 14 to 16. */
uint32_t algebra_check_tree(const uint8_t *language, size_t language_length,
                            uint32_t root,
                            const uint8_t *tree, size_t tree_length)
    ALGEBRA_MUST_USE;

/* Checks a tree as algebra_check_tree does, and tells where it is refused, in bytes from the start
 * of the tree: 0 to 4, 14 to 16. For ALGEBRA_ILLEGAL_TREE that is where a name or a token stands that
 * cannot stand there, the end of the tree if it ends too early, or the first byte behind a whole
 * tree. For ALGEBRA_TOO_DEEP it is where the first level over ALGEBRA_TREE_LEVELS begins. With any
 * other answer the position is 0. */
uint32_t algebra_locate(const uint8_t *language, size_t language_length,
                        uint32_t root,
                        const uint8_t *tree, size_t tree_length,
                        uint64_t *position)
    ALGEBRA_MUST_USE ALGEBRA_NOT_NULL(6);

/* Reduces a pack to one translation: 0 to 13, 26. The workspace is all zero at the end unless the
 * answer is 1 to 4, 8 or 9, which leave it unchanged. */
uint32_t algebra_reduce(const uint8_t *pack, size_t pack_length,
                        uint8_t *workspace, size_t workspace_length,
                        uint8_t *output, size_t output_length,
                        uint64_t *length)
    ALGEBRA_MUST_USE ALGEBRA_NOT_NULL(7);

/* Runs a translation on a tree of a root kind, by a number of that kind: 0 to 7, 14 to 17. A
 * number that the kind lacks is ALGEBRA_UNKNOWN_ROOT; every kind has number 0. A result may be
 * longer than any memory: ALGEBRA_OUTPUT_TOO_SHORT does not say how much longer. The cost is the
 * number of clauses applied, each use of an argument anew and unused arguments not at all, or
 * UINT32_MAX if there are more. */
uint32_t algebra_run(const uint8_t *translation, size_t translation_length,
                     uint32_t root, uint32_t number,
                     const uint8_t *tree, size_t tree_length,
                     uint8_t *output, size_t output_length,
                     uint64_t *length, uint32_t *cost)
    ALGEBRA_MUST_USE ALGEBRA_NOT_NULL(9, 10);

/* Scores a tree by a load table of the language: 0 to 4, 14 to 16, 18, 19. */
uint32_t algebra_score(const uint8_t *language, size_t language_length,
                       uint32_t root,
                       const uint8_t *tree, size_t tree_length,
                       const uint8_t *table, size_t table_length,
                       int64_t *score)
    ALGEBRA_MUST_USE ALGEBRA_NOT_NULL(8);

/* Scores a loose plan by a load table of the language: 0 to 4, 14 to 16, 18, 19. A loose plan is a
 * tree with two values in the place of each token, the least and the greatest, of two bytes each.
 * Some choice of legal tokens between them scores least and some choice greatest, and none scores
 * less or more. */
uint32_t algebra_score_loose(const uint8_t *language, size_t language_length,
                             uint32_t root,
                             const uint8_t *plan, size_t plan_length,
                             const uint8_t *table, size_t table_length,
                             int64_t *least, int64_t *greatest)
    ALGEBRA_MUST_USE ALGEBRA_NOT_NULL(8, 9);

/* Joins a load table of the target onto a translation, which gives a load table of the source:
 * 0 to 7, 11, 17, 18, 26. The translation has no number but 0. The table has fewer than
 * 2 * ALGEBRA_LANGUAGE_BYTES bytes. */
uint32_t algebra_join_table(const uint8_t *translation, size_t translation_length,
                            const uint8_t *table, size_t table_length,
                            uint8_t *output, size_t output_length,
                            uint64_t *length)
    ALGEBRA_MUST_USE ALGEBRA_NOT_NULL(7);

/* Writes a tree as XML: 0 to 4, 14 to 17. */
uint32_t algebra_export(const uint8_t *language, size_t language_length,
                        uint32_t root,
                        const uint8_t *tree, size_t tree_length,
                        uint8_t *output, size_t output_length,
                        uint64_t *length)
    ALGEBRA_MUST_USE ALGEBRA_NOT_NULL(8);

/* Reads a tree back from the text that its export is: 0 to 4, 14, 16, 17, 20. */
uint32_t algebra_import(const uint8_t *language, size_t language_length,
                        uint32_t root,
                        const uint8_t *text, size_t text_length,
                        uint8_t *output, size_t output_length,
                        uint64_t *length)
    ALGEBRA_MUST_USE ALGEBRA_NOT_NULL(8);

/* Builds the index of a tree: for each node, tokens too, in reading order its start and its
 * length, two bytes each: 0 to 4, 14 to 17, 22. */
uint32_t algebra_index(const uint8_t *language, size_t language_length,
                       uint32_t root,
                       const uint8_t *tree, size_t tree_length,
                       uint8_t *output, size_t output_length,
                       uint64_t *length)
    ALGEBRA_MUST_USE ALGEBRA_NOT_NULL(8);

/* Looks up the block of a tree, with its index, at a path of argument numbers, one byte each, from
 * 1: 0 to 4, 14 to 16, 21, 22. The block is the part of the tree from start on with that length, a
 * legal tree of the kind. The empty path gives the whole tree. */
uint32_t algebra_block(const uint8_t *language, size_t language_length,
                       uint32_t root,
                       const uint8_t *tree, size_t tree_length,
                       const uint8_t *index, size_t index_length,
                       const uint8_t *path, size_t path_length,
                       uint64_t *start, uint64_t *length, uint32_t *kind)
    ALGEBRA_MUST_USE ALGEBRA_NOT_NULL(10, 11, 12);

/* Tells what stands in a tree, with its index, at a path: the kind, the name of the production, 0 to
 * 255, and how many arguments it has; of a token the name ALGEBRA_NO_NAME and 0 arguments. It answers
 * as algebra_block does: 0 to 4, 14 to 16, 21, 22. A refusal stores 0 three times. */
uint32_t algebra_node(const uint8_t *language, size_t language_length,
                      uint32_t root,
                      const uint8_t *tree, size_t tree_length,
                      const uint8_t *index, size_t index_length,
                      const uint8_t *path, size_t path_length,
                      uint32_t *kind, uint32_t *name, uint32_t *arguments)
    ALGEBRA_MUST_USE ALGEBRA_NOT_NULL(10, 11, 12);

/* Replaces the block of a tree, with its index, at a path by a legal tree of the same kind, and
 * gives the new plan and its index, each in an output of its own: 0 to 4, 14 to 17, 21, 22, 25. The
 * card must show the block and each one on the way to it. The bytes before and behind the block
 * stay. The index is the one that algebra_index builds of the new plan. A refusal stores 0 twice and
 * leaves both outputs unchanged. */
uint32_t algebra_edit(const uint8_t *language, size_t language_length,
                      uint32_t root,
                      const uint8_t *tree, size_t tree_length,
                      const uint8_t *index, size_t index_length,
                      const uint8_t *path, size_t path_length,
                      const uint8_t *card, size_t card_length,
                      const uint8_t *block, size_t block_length,
                      uint8_t *plan, size_t plan_room,
                      uint8_t *plan_index, size_t plan_index_room,
                      uint64_t *plan_length, uint64_t *plan_index_length)
    ALGEBRA_MUST_USE ALGEBRA_NOT_NULL(18, 19);

/* Masks a tree by a card: each block of a kind that is not on the card, root and tokens included,
 * is the one byte ALGEBRA_HIDDEN_BYTE: 0 to 4, 14 to 17. A masked plan is not longer than the tree. */
uint32_t algebra_mask(const uint8_t *language, size_t language_length,
                      uint32_t root,
                      const uint8_t *card, size_t card_length,
                      const uint8_t *tree, size_t tree_length,
                      uint8_t *output, size_t output_length,
                      uint64_t *length)
    ALGEBRA_MUST_USE ALGEBRA_NOT_NULL(10);

/* Finds the source tree of a root kind, of at most limit levels, whose run gives a tree of the
 * target, the first in byte order: 0 to 7, 14 to 17, 23, 24, 26. The translation has no number
 * but 0, and the tree is of the kind to which the root is mapped. Where a clause drops an
 * argument, its place takes the first legal tree within the levels that are left. The workspace
 * may have any length, also 0, and the answer does not depend on it: the search remembers there
 * what it has found, and where the parts of the tree end. With ALGEBRA_SEARCH_WORKSPACE bytes for
 * each byte of the tree the time is bounded by the tree times the translation, plus the output. A
 * tree of up to ALGEBRA_SEARCH_TREE bytes takes as long with less: the search has a memory of its
 * own for it. For a longer tree and less workspace only the first positions of the tree have
 * their memory, and the time can grow with the power of the limit. The workspace is all zero at
 * the end if the answer is 0, 17 or 23, and unchanged otherwise. */
uint32_t algebra_search(const uint8_t *translation, size_t translation_length,
                        uint32_t root,
                        const uint8_t *tree, size_t tree_length,
                        uint32_t limit,
                        uint8_t *workspace, size_t workspace_length,
                        uint8_t *output, size_t output_length,
                        uint64_t *length)
    ALGEBRA_MUST_USE ALGEBRA_NOT_NULL(11);

#ifdef __cplusplus
}
#endif

#endif
