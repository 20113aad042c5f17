/* What the header says. Of null pointers: with length 0 a slice may be null, and the answer is
 * that of an empty slice elsewhere. Of limits: each constant is accepted, and one more is not.
 * Of positions and nodes: what is told of them. The last line says how many passed and failed. */
#include "algebra.h"
#include <stdio.h>
#include <string.h>

enum { WORKSPACE = ALGEBRA_WORKSPACE_BYTES, OUTPUT = ALGEBRA_OUTPUT_BYTES, MARK = 0xEE };

/* One production without arguments, 1.0; its identity; a pack that reduces to it. */
static const uint8_t language[] = { 0x12, 0, 2, 1, 0 };
static const uint8_t translation[] = { 0x20, 0, 5, 0x12, 0, 2, 1, 0, 0x21, 0, 5, 0x12, 0, 2, 1, 0,
                                       0x22, 0, 2, 1, 1, 0x23, 0, 4, 1, 0, 1, 0 };
static const uint8_t pack[] = { 0x30, 0, 5, 0x12, 0, 2, 1, 0, 0x32, 0, 3, 0x55, 0x40, 0 };
static const uint8_t tree[] = { 0 };
static const uint8_t table[] = { 0x24, 0, 4, 1, 0, 0xFF, 0xF9 };
static const uint8_t text[] = { '<', 'x', '1', '.', '0', '>', '<', '/', 'x', '1', '.', '0', '>' };
static const uint8_t entries[] = { 0, 0, 0, 1 };
static const uint8_t card[] = { 0x27, 0, 1, 1 };
static const uint8_t elsewhere[] = { MARK };

static uint8_t workspace[WORKSPACE], output[OUTPUT], no_bytes[] = { MARK };
static int passed, failed;

/* Counts one test. */
static void count(const char *what, int holds)
{
    if (holds)
        passed++;
    else
        failed++;
    if (!holds)
        printf("FAILED: %s\n", what);
}

/* Compares the answers for a null slice and for an empty one with the answer that is due. */
static void same(const char *what, uint32_t due, uint32_t null, uint32_t empty)
{
    count(what, null == due && empty == due);
}

/* Compares an answer with the one that is due. */
static void gives(const char *what, uint32_t due, uint32_t found)
{
    count(what, found == due);
}

/* Calls reduce; a refusal must store length 0. */
static uint32_t reduce(const uint8_t *p, size_t p_length, uint8_t *w, size_t w_length,
                       uint8_t *o, size_t o_length)
{
    uint64_t length = UINT64_MAX;
    uint32_t number = algebra_reduce(p, p_length, w, w_length, o, o_length, &length);
    count("the length of a reduction", length == (number == 0 ? sizeof translation : 0));
    return number;
}

/* Calls run on the tree's root kind by a number; a refusal must store length 0 and cost 0. */
static uint32_t run_by(uint32_t by, const uint8_t *t, size_t t_length, const uint8_t *n, size_t n_length,
                       uint8_t *o, size_t o_length)
{
    uint64_t length = UINT64_MAX;
    uint32_t cost = UINT32_MAX;
    uint32_t number = algebra_run(t, t_length, 1, by, n, n_length, o, o_length, &length, &cost);
    count("the length of a run", length == (number == 0 ? sizeof tree : 0));
    count("the cost of a run", cost == (number == 0));
    return number;
}

/* Calls run by number 0. */
static uint32_t run(const uint8_t *t, size_t t_length, const uint8_t *n, size_t n_length,
                    uint8_t *o, size_t o_length)
{
    return run_by(0, t, t_length, n, n_length, o, o_length);
}

/* Scores a tree of the tree's root kind; a refusal must store 0. */
static uint32_t score(const uint8_t *l, size_t l_length, const uint8_t *t, size_t t_length,
                      const uint8_t *b, size_t b_length)
{
    int64_t score = INT64_MIN;
    uint32_t number = algebra_score(l, l_length, 1, t, t_length, b, b_length, &score);
    count("the score", score == (number == 0 ? -7 : 0));
    return number;
}

/* Scores the tree, which has no tokens, as a loose plan; a refusal must store 0 twice. */
static uint32_t score_loose(const uint8_t *l, size_t l_length, const uint8_t *p, size_t p_length,
                            const uint8_t *b, size_t b_length)
{
    int64_t least = INT64_MIN, greatest = INT64_MIN;
    uint32_t number = algebra_score_loose(l, l_length, 1, p, p_length, b, b_length, &least, &greatest);
    count("the least score", least == (number == 0 ? -7 : 0));
    count("the greatest score", greatest == least);
    return number;
}

/* Joins a load table; a refusal must store length 0. */
static uint32_t join(const uint8_t *t, size_t t_length, const uint8_t *b, size_t b_length,
                     uint8_t *o, size_t o_length)
{
    uint64_t length = UINT64_MAX;
    uint32_t number = algebra_join_table(t, t_length, b, b_length, o, o_length, &length);
    count("the length of a joined table", length == (number == 0 ? sizeof table : 0));
    return number;
}

/* Export, import and index have the same form. */
typedef uint32_t conversion(const uint8_t *, size_t, uint32_t, const uint8_t *, size_t, uint8_t *, size_t, uint64_t *);

/* Exports, imports or builds an index by the tree's root kind; a refusal must store length 0. */
static uint32_t convert(conversion *of, size_t due, const uint8_t *l, size_t l_length,
                        const uint8_t *i, size_t i_length, uint8_t *o, size_t o_length)
{
    uint64_t length = UINT64_MAX;
    uint32_t number = of(l, l_length, 1, i, i_length, o, o_length, &length);
    count("the length of an export, import or index", length == (number == 0 ? due : 0));
    return number;
}

/* Builds the index of a tree of the tree's root kind; a refusal must store length 0. */
static uint32_t build(const uint8_t *l, size_t l_length, const uint8_t *t, size_t t_length,
                      uint8_t *o, size_t o_length)
{
    return convert(algebra_index, sizeof entries, l, l_length, t, t_length, o, o_length);
}

/* Looks up a block of the tree's root kind; a refusal must store 0 three times. */
static uint32_t block(const uint8_t *l, size_t l_length, const uint8_t *t, size_t t_length,
                      const uint8_t *i, size_t i_length, const uint8_t *p, size_t p_length)
{
    uint64_t start = UINT64_MAX, length = UINT64_MAX;
    uint32_t kind = UINT32_MAX;
    uint32_t number = algebra_block(l, l_length, 1, t, t_length, i, i_length, p, p_length, &start, &length, &kind);
    count("the start of a block", start == 0);
    count("the length of a block", length == (number == 0 ? sizeof tree : 0));
    count("the kind of a block", kind == (number == 0 ? 1 : 0));
    return number;
}

/* Locates a fault in a tree of the tree's root kind; the position is the one that is due for 15, and 0 otherwise. */
static uint32_t locate(const uint8_t *l, size_t l_length, const uint8_t *t, size_t t_length, uint64_t due)
{
    uint64_t position = UINT64_MAX;
    uint32_t number = algebra_locate(l, l_length, 1, t, t_length, &position);
    count("the position of a fault", position == (number == ALGEBRA_ILLEGAL_TREE ? due : 0));
    return number;
}

/* Asks what stands in a tree of the tree's root kind; a refusal must store 0 three times. */
static uint32_t node(const uint8_t *l, size_t l_length, const uint8_t *t, size_t t_length,
                     const uint8_t *i, size_t i_length, const uint8_t *p, size_t p_length)
{
    uint32_t kind = UINT32_MAX, name = UINT32_MAX, arguments = UINT32_MAX;
    uint32_t number = algebra_node(l, l_length, 1, t, t_length, i, i_length, p, p_length, &kind, &name, &arguments);
    count("the kind of a node", kind == (number == 0 ? 1 : 0));
    count("the name of a node", name == 0);
    count("the arguments of a node", arguments == 0);
    return number;
}

/* What an edit is given besides language, path and outputs. */
struct edited {
    const uint8_t *tree;
    size_t tree_length;
    const uint8_t *index;
    size_t index_length;
    const uint8_t *card;
    size_t card_length;
    const uint8_t *block;
    size_t block_length;
};

/* Edits the whole plan, in a language and with outputs of these lengths; a refusal must store 0 twice. */
static uint32_t edit(const uint8_t *l, size_t l_length, struct edited e, uint8_t *o, size_t o_length,
                     uint8_t *x, size_t x_length)
{
    uint64_t length = UINT64_MAX, index_length = UINT64_MAX;
    uint32_t number = algebra_edit(l, l_length, 1, e.tree, e.tree_length, e.index, e.index_length, NULL, 0, e.card,
                                   e.card_length, e.block, e.block_length, o, o_length, x, x_length, &length,
                                   &index_length);
    count("the length of an edited plan", length == (number == 0 ? sizeof tree : 0));
    count("the length of its index", index_length == (number == 0 ? sizeof entries : 0));
    return number;
}

/* The three checks. */
static void checks(void)
{
    same("check_language", 0, algebra_check_language(NULL, 0),
         algebra_check_language(elsewhere, 0));
    same("check_translation", 2, algebra_check_translation(NULL, 0),
         algebra_check_translation(elsewhere, 0));
    same("check_tree, language", 14, algebra_check_tree(NULL, 0, 1, tree, sizeof tree),
         algebra_check_tree(elsewhere, 0, 1, tree, sizeof tree));
    same("check_tree, tree", 15, algebra_check_tree(language, sizeof language, 1, NULL, 0),
         algebra_check_tree(language, sizeof language, 1, elsewhere, 0));
    same("check_tree, both", 14, algebra_check_tree(NULL, 0, 1, NULL, 0),
         algebra_check_tree(elsewhere, 0, 1, elsewhere, 0));
}

/* Faults in trees. */
static void faults(void)
{
    static const uint8_t no_name[] = { 1 }, leftover[] = { 0, 0 };
    same("locate, language", 14, locate(NULL, 0, tree, sizeof tree, 0), locate(elsewhere, 0, tree, sizeof tree, 0));
    same("locate, tree", 15, locate(language, sizeof language, NULL, 0, 0),
         locate(language, sizeof language, elsewhere, 0, 0));
    same("locate, both", 14, locate(NULL, 0, NULL, 0, 0), locate(elsewhere, 0, elsewhere, 0, 0));
    gives("locate", ALGEBRA_ACCEPTED, locate(language, sizeof language, tree, sizeof tree, 0));
    gives("a name that cannot be", ALGEBRA_ILLEGAL_TREE, locate(language, sizeof language, no_name, sizeof no_name, 0));
    gives("a byte behind the tree", ALGEBRA_ILLEGAL_TREE, locate(language, sizeof language, leftover, sizeof leftover, 1));
}

/* Faults in a tree 1.0 (2 1) of a token 1 to 9 of two bytes and 1.1 without arguments: each byte wrong, and each end too early. */
static void positions(void)
{
    static const uint8_t pair[] = { 0x11, 0, 5, 2, 0, 1, 0, 9, 0x12, 0, 4, 1, 0, 2, 1, 0x12, 0, 2, 1, 1 };
    static const uint8_t good[] = { 0, 0, 5, 1 }, above[] = { 0, 0, 10, 1 }, high[] = { 0, 1, 5, 1 };
    static const uint8_t name[] = { 2, 0, 5, 1 }, last[] = { 0, 0, 5, 2 }, more[] = { 0, 0, 5, 1, 1 };
    gives("a good tree", ALGEBRA_ACCEPTED, locate(pair, sizeof pair, good, sizeof good, 0));
    gives("no such name", ALGEBRA_ILLEGAL_TREE, locate(pair, sizeof pair, name, sizeof name, 0));
    gives("a token above its class", ALGEBRA_ILLEGAL_TREE, locate(pair, sizeof pair, above, sizeof above, 1));
    gives("a token by its first byte", ALGEBRA_ILLEGAL_TREE, locate(pair, sizeof pair, high, sizeof high, 1));
    gives("no such name within", ALGEBRA_ILLEGAL_TREE, locate(pair, sizeof pair, last, sizeof last, 3));
    gives("a byte too many", ALGEBRA_ILLEGAL_TREE, locate(pair, sizeof pair, more, sizeof more, 4));
    gives("an end before the token", ALGEBRA_ILLEGAL_TREE, locate(pair, sizeof pair, good, 1, 1));
    gives("an end within the token", ALGEBRA_ILLEGAL_TREE, locate(pair, sizeof pair, good, 2, 2));
    gives("an end before the last", ALGEBRA_ILLEGAL_TREE, locate(pair, sizeof pair, good, 3, 3));
}

/* Reductions. */
static void reductions(void)
{
    same("reduce, pack", 2, reduce(NULL, 0, workspace, WORKSPACE, output, OUTPUT),
         reduce(elsewhere, 0, workspace, WORKSPACE, output, OUTPUT));
    same("reduce, workspace", 9, reduce(pack, sizeof pack, NULL, 0, output, OUTPUT),
         reduce(pack, sizeof pack, no_bytes, 0, output, OUTPUT));
    same("reduce, output", 9, reduce(pack, sizeof pack, workspace, WORKSPACE, NULL, 0),
         reduce(pack, sizeof pack, workspace, WORKSPACE, no_bytes, 0));
    same("reduce, all", 2, reduce(NULL, 0, NULL, 0, NULL, 0),
         reduce(elsewhere, 0, no_bytes, 0, no_bytes, 0));
    count("reduce", reduce(pack, sizeof pack, workspace, WORKSPACE, output, OUTPUT) == 0);
    count("reduced bytes", memcmp(output, translation, sizeof translation) == 0);
}

/* Runs. */
static void runs(void)
{
    same("run, translation", 2, run(NULL, 0, tree, sizeof tree, output, OUTPUT),
         run(elsewhere, 0, tree, sizeof tree, output, OUTPUT));
    same("run, tree", 15, run(translation, sizeof translation, NULL, 0, output, OUTPUT),
         run(translation, sizeof translation, elsewhere, 0, output, OUTPUT));
    same("run, output", 17, run(translation, sizeof translation, tree, sizeof tree, NULL, 0),
         run(translation, sizeof translation, tree, sizeof tree, no_bytes, 0));
    same("run, all", 2, run(NULL, 0, NULL, 0, NULL, 0),
         run(elsewhere, 0, elsewhere, 0, no_bytes, 0));
    count("run", run(translation, sizeof translation, tree, sizeof tree, output, OUTPUT) == 0);
    gives("a run by another number", ALGEBRA_UNKNOWN_ROOT,
          run_by(1, translation, sizeof translation, tree, sizeof tree, output, OUTPUT));
}

/* Scores. */
static void scores(void)
{
    same("score, language", 18, score(NULL, 0, tree, sizeof tree, table, sizeof table),
         score(elsewhere, 0, tree, sizeof tree, table, sizeof table));
    same("score, tree", 15, score(language, sizeof language, NULL, 0, table, sizeof table),
         score(language, sizeof language, elsewhere, 0, table, sizeof table));
    same("score, table", 18, score(language, sizeof language, tree, sizeof tree, NULL, 0),
         score(language, sizeof language, tree, sizeof tree, elsewhere, 0));
    same("score, all", 14, score(NULL, 0, NULL, 0, NULL, 0), score(elsewhere, 0, elsewhere, 0, elsewhere, 0));
    gives("score", ALGEBRA_ACCEPTED, score(language, sizeof language, tree, sizeof tree, table, sizeof table));
}

/* Scores of loose plans. */
static void loose_scores(void)
{
    same("score_loose, language", 18, score_loose(NULL, 0, tree, sizeof tree, table, sizeof table),
         score_loose(elsewhere, 0, tree, sizeof tree, table, sizeof table));
    same("score_loose, plan", 15, score_loose(language, sizeof language, NULL, 0, table, sizeof table),
         score_loose(language, sizeof language, elsewhere, 0, table, sizeof table));
    same("score_loose, table", 18, score_loose(language, sizeof language, tree, sizeof tree, NULL, 0),
         score_loose(language, sizeof language, tree, sizeof tree, elsewhere, 0));
    same("score_loose, all", 14, score_loose(NULL, 0, NULL, 0, NULL, 0),
         score_loose(elsewhere, 0, elsewhere, 0, elsewhere, 0));
    gives("score_loose", ALGEBRA_ACCEPTED,
          score_loose(language, sizeof language, tree, sizeof tree, table, sizeof table));
}

/* Joined load tables. */
static void joins(void)
{
    same("join_table, translation", 2, join(NULL, 0, table, sizeof table, output, OUTPUT),
         join(elsewhere, 0, table, sizeof table, output, OUTPUT));
    same("join_table, table", 18, join(translation, sizeof translation, NULL, 0, output, OUTPUT),
         join(translation, sizeof translation, elsewhere, 0, output, OUTPUT));
    same("join_table, output", 17, join(translation, sizeof translation, table, sizeof table, NULL, 0),
         join(translation, sizeof translation, table, sizeof table, no_bytes, 0));
    same("join_table, all", 2, join(NULL, 0, NULL, 0, NULL, 0), join(elsewhere, 0, elsewhere, 0, no_bytes, 0));
    gives("join_table", ALGEBRA_ACCEPTED,
          join(translation, sizeof translation, table, sizeof table, output, OUTPUT));
    count("joined table", memcmp(output, table, sizeof table) == 0);
}

/* Exports or imports of an input, with the answer for an empty one. */
static void conversions(conversion *of, const uint8_t *input, size_t length, uint32_t empty, size_t due)
{
    same("xml, language", 14, convert(of, due, NULL, 0, input, length, output, OUTPUT),
         convert(of, due, elsewhere, 0, input, length, output, OUTPUT));
    same("xml, input", empty, convert(of, due, language, sizeof language, NULL, 0, output, OUTPUT),
         convert(of, due, language, sizeof language, elsewhere, 0, output, OUTPUT));
    same("xml, output", 17, convert(of, due, language, sizeof language, input, length, NULL, 0),
         convert(of, due, language, sizeof language, input, length, no_bytes, 0));
    same("xml, all", 14, convert(of, due, NULL, 0, NULL, 0, NULL, 0),
         convert(of, due, elsewhere, 0, elsewhere, 0, no_bytes, 0));
    gives("xml", ALGEBRA_ACCEPTED, convert(of, due, language, sizeof language, input, length, output, OUTPUT));
}

/* Trees as XML, and back. */
static void texts(void)
{
    conversions(algebra_export, tree, sizeof tree, ALGEBRA_ILLEGAL_TREE, sizeof text);
    count("exported text", memcmp(output, text, sizeof text) == 0);
    conversions(algebra_import, text, sizeof text, ALGEBRA_NOT_AN_EXPORT, sizeof tree);
    count("imported tree", memcmp(output, tree, sizeof tree) == 0);
}

/* Indexes. */
static void indexes(void)
{
    same("index, language", 14, build(NULL, 0, tree, sizeof tree, output, OUTPUT),
         build(elsewhere, 0, tree, sizeof tree, output, OUTPUT));
    same("index, tree", 15, build(language, sizeof language, NULL, 0, output, OUTPUT),
         build(language, sizeof language, elsewhere, 0, output, OUTPUT));
    same("index, output", 17, build(language, sizeof language, tree, sizeof tree, NULL, 0),
         build(language, sizeof language, tree, sizeof tree, no_bytes, 0));
    same("index, all", 14, build(NULL, 0, NULL, 0, NULL, 0), build(elsewhere, 0, elsewhere, 0, no_bytes, 0));
    gives("index", ALGEBRA_ACCEPTED, build(language, sizeof language, tree, sizeof tree, output, OUTPUT));
    count("the index", memcmp(output, entries, sizeof entries) == 0);
}

/* Lookups of blocks. */
static void blocks(void)
{
    same("block, language", 14, block(NULL, 0, tree, sizeof tree, entries, sizeof entries, tree, 0),
         block(elsewhere, 0, tree, sizeof tree, entries, sizeof entries, tree, 0));
    same("block, tree", 15, block(language, sizeof language, NULL, 0, entries, sizeof entries, tree, 0),
         block(language, sizeof language, elsewhere, 0, entries, sizeof entries, tree, 0));
    same("block, index", 22, block(language, sizeof language, tree, sizeof tree, NULL, 0, tree, 0),
         block(language, sizeof language, tree, sizeof tree, elsewhere, 0, tree, 0));
    same("block, path", 0, block(language, sizeof language, tree, sizeof tree, entries, sizeof entries, NULL, 0),
         block(language, sizeof language, tree, sizeof tree, entries, sizeof entries, elsewhere, 0));
    same("block, all", 14, block(NULL, 0, NULL, 0, NULL, 0, NULL, 0),
         block(elsewhere, 0, elsewhere, 0, elsewhere, 0, elsewhere, 0));
    gives("no such block", ALGEBRA_NO_BLOCK,
          block(language, sizeof language, tree, sizeof tree, entries, sizeof entries, elsewhere, sizeof elsewhere));
}

/* Nodes. */
static void nodes(void)
{
    same("node, language", 14, node(NULL, 0, tree, sizeof tree, entries, sizeof entries, tree, 0),
         node(elsewhere, 0, tree, sizeof tree, entries, sizeof entries, tree, 0));
    same("node, tree", 15, node(language, sizeof language, NULL, 0, entries, sizeof entries, tree, 0),
         node(language, sizeof language, elsewhere, 0, entries, sizeof entries, tree, 0));
    same("node, index", 22, node(language, sizeof language, tree, sizeof tree, NULL, 0, tree, 0),
         node(language, sizeof language, tree, sizeof tree, elsewhere, 0, tree, 0));
    same("node, path", 0, node(language, sizeof language, tree, sizeof tree, entries, sizeof entries, NULL, 0),
         node(language, sizeof language, tree, sizeof tree, entries, sizeof entries, elsewhere, 0));
    same("node, all", 14, node(NULL, 0, NULL, 0, NULL, 0, NULL, 0),
         node(elsewhere, 0, elsewhere, 0, elsewhere, 0, elsewhere, 0));
    gives("no such node", ALGEBRA_NO_BLOCK,
          node(language, sizeof language, tree, sizeof tree, entries, sizeof entries, elsewhere, sizeof elsewhere));
}

/* The widest node, 1.255 with as many arguments as there can be, all tokens; and its tokens. */
static void widest_node(void)
{
    static const uint8_t wide[] = { 0x11, 0, 5, 2, 0, 1, 0, 9, 0x12, 0, 10, 1, 255, 2, 2, 2, 2, 2, 2, 2, 2 };
    static const uint8_t plan[] = { 255, 0, 1, 0, 2, 0, 3, 0, 4, 0, 5, 0, 6, 0, 7, 0, 8 };
    static const uint8_t last[] = { ALGEBRA_ARGUMENTS }, more[] = { ALGEBRA_ARGUMENTS + 1 };
    uint64_t length;
    uint32_t kind, name, arguments;
    gives("its index", ALGEBRA_ACCEPTED, algebra_index(wide, sizeof wide, 1, plan, sizeof plan, output, OUTPUT, &length));
    gives("the widest node", ALGEBRA_ACCEPTED,
          algebra_node(wide, sizeof wide, 1, plan, sizeof plan, output, length, NULL, 0, &kind, &name, &arguments));
    count("its kind, name and arguments", kind == 1 && name == ALGEBRA_NO_NAME - 1 && arguments == ALGEBRA_ARGUMENTS);
    gives("its last token", ALGEBRA_ACCEPTED,
          algebra_node(wide, sizeof wide, 1, plan, sizeof plan, output, length, last, 1, &kind, &name, &arguments));
    count("that it is a token", kind == 2 && name == ALGEBRA_NO_NAME && arguments == 0);
    gives("one more than that", ALGEBRA_NO_BLOCK,
          algebra_node(wide, sizeof wide, 1, plan, sizeof plan, output, length, more, 1, &kind, &name, &arguments));
    count("that it is nothing", kind == 0 && name == 0 && arguments == 0);
}

/* Edits. */
static void edits(void)
{
    static const uint8_t no_kinds[] = { 0x27, 0, 0 };
    static uint8_t index[OUTPUT];
    struct edited whole = { tree, sizeof tree, entries, sizeof entries, card, sizeof card, tree, sizeof tree };
    struct edited no_tree = whole, no_tree_here = whole, no_index = whole, no_index_here = whole;
    struct edited no_card = whole, no_card_here = whole, no_block = whole, no_block_here = whole, hidden = whole;
    no_tree.tree = NULL, no_tree.tree_length = 0, no_tree_here.tree_length = 0;
    no_index.index = NULL, no_index.index_length = 0, no_index_here.index_length = 0;
    no_card.card = NULL, no_card.card_length = 0, no_card_here.card_length = 0;
    no_block.block = NULL, no_block.block_length = 0, no_block_here.block_length = 0;
    hidden.card = no_kinds, hidden.card_length = sizeof no_kinds;
    same("edit, language", 14, edit(NULL, 0, whole, output, OUTPUT, index, OUTPUT),
         edit(elsewhere, 0, whole, output, OUTPUT, index, OUTPUT));
    same("edit, tree", 15, edit(language, sizeof language, no_tree, output, OUTPUT, index, OUTPUT),
         edit(language, sizeof language, no_tree_here, output, OUTPUT, index, OUTPUT));
    same("edit, index", 22, edit(language, sizeof language, no_index, output, OUTPUT, index, OUTPUT),
         edit(language, sizeof language, no_index_here, output, OUTPUT, index, OUTPUT));
    same("edit, card", 2, edit(language, sizeof language, no_card, output, OUTPUT, index, OUTPUT),
         edit(language, sizeof language, no_card_here, output, OUTPUT, index, OUTPUT));
    gives("edit, hidden", ALGEBRA_HIDDEN, edit(language, sizeof language, hidden, output, OUTPUT, index, OUTPUT));
    same("edit, block", 15, edit(language, sizeof language, no_block, output, OUTPUT, index, OUTPUT),
         edit(language, sizeof language, no_block_here, output, OUTPUT, index, OUTPUT));
    same("edit, plan", 17, edit(language, sizeof language, whole, NULL, 0, index, OUTPUT),
         edit(language, sizeof language, whole, no_bytes, 0, index, OUTPUT));
    same("edit, index of the plan", 17, edit(language, sizeof language, whole, output, OUTPUT, NULL, 0),
         edit(language, sizeof language, whole, output, OUTPUT, no_bytes, 0));
    gives("edit", ALGEBRA_ACCEPTED, edit(language, sizeof language, whole, output, OUTPUT, index, OUTPUT));
    count("edited plan", memcmp(output, tree, sizeof tree) == 0 && memcmp(index, entries, sizeof entries) == 0);
}

/* Masks a tree of the tree's root kind; a refusal must store length 0. */
static uint32_t mask(const uint8_t *l, size_t l_length, const uint8_t *c, size_t c_length,
                     const uint8_t *t, size_t t_length, uint8_t *o, size_t o_length)
{
    uint64_t length = UINT64_MAX;
    uint32_t number = algebra_mask(l, l_length, 1, c, c_length, t, t_length, o, o_length, &length);
    count("the length of a masked plan", length == (number == 0 ? sizeof tree : 0));
    return number;
}

/* Masked plans. */
static void masks(void)
{
    static const uint8_t other[] = { 0x27, 0, 1, 2 };
    same("mask, language", 14, mask(NULL, 0, card, sizeof card, tree, sizeof tree, output, OUTPUT),
         mask(elsewhere, 0, card, sizeof card, tree, sizeof tree, output, OUTPUT));
    same("mask, card", 2, mask(language, sizeof language, NULL, 0, tree, sizeof tree, output, OUTPUT),
         mask(language, sizeof language, elsewhere, 0, tree, sizeof tree, output, OUTPUT));
    same("mask, tree", 15, mask(language, sizeof language, card, sizeof card, NULL, 0, output, OUTPUT),
         mask(language, sizeof language, card, sizeof card, elsewhere, 0, output, OUTPUT));
    same("mask, output", 17, mask(language, sizeof language, card, sizeof card, tree, sizeof tree, NULL, 0),
         mask(language, sizeof language, card, sizeof card, tree, sizeof tree, no_bytes, 0));
    same("mask, all", 2, mask(NULL, 0, NULL, 0, NULL, 0, NULL, 0), mask(elsewhere, 0, elsewhere, 0, elsewhere, 0, no_bytes, 0));
    gives("mask", ALGEBRA_ACCEPTED, mask(language, sizeof language, card, sizeof card, tree, sizeof tree, output, OUTPUT));
    count("a block that is seen", output[0] == tree[0]);
    gives("mask", ALGEBRA_ACCEPTED, mask(language, sizeof language, other, sizeof other, tree, sizeof tree, output, OUTPUT));
    count("a hidden block", output[0] == ALGEBRA_HIDDEN_BYTE);
}

/* Searches within some levels, for a tree of the tree's root kind; a refusal must store length 0. */
static uint32_t search(const uint8_t *t, size_t t_length, const uint8_t *n, size_t n_length, uint32_t limit,
                       uint8_t *w, size_t w_length, uint8_t *o, size_t o_length)
{
    uint64_t length = UINT64_MAX;
    uint32_t number = algebra_search(t, t_length, 1, n, n_length, limit, w, w_length, o, o_length, &length);
    count("the length of a source tree", length == (number == 0 ? sizeof tree : 0));
    return number;
}

/* Searches. */
static void searches(void)
{
    const uint8_t *t = translation;
    size_t n = sizeof translation;
    same("search, translation", 2, search(NULL, 0, tree, sizeof tree, 1, workspace, WORKSPACE, output, OUTPUT),
         search(elsewhere, 0, tree, sizeof tree, 1, workspace, WORKSPACE, output, OUTPUT));
    same("search, tree", 15, search(t, n, NULL, 0, 1, workspace, WORKSPACE, output, OUTPUT),
         search(t, n, elsewhere, 0, 1, workspace, WORKSPACE, output, OUTPUT));
    same("search, workspace", 0, search(t, n, tree, sizeof tree, 1, NULL, 0, output, OUTPUT),
         search(t, n, tree, sizeof tree, 1, no_bytes, 0, output, OUTPUT));
    same("search, output", 17, search(t, n, tree, sizeof tree, 1, workspace, WORKSPACE, NULL, 0),
         search(t, n, tree, sizeof tree, 1, workspace, WORKSPACE, no_bytes, 0));
    same("search, all", 2, search(NULL, 0, NULL, 0, 1, NULL, 0, NULL, 0),
         search(elsewhere, 0, elsewhere, 0, 1, no_bytes, 0, no_bytes, 0));
    gives("levels of a search", ALGEBRA_ACCEPTED,
          search(t, n, tree, sizeof tree, ALGEBRA_SEARCH_LEVELS, workspace, WORKSPACE, output, OUTPUT));
    gives("one more than that", ALGEBRA_LIMIT_OUT_OF_RANGE,
          search(t, n, tree, sizeof tree, ALGEBRA_SEARCH_LEVELS + 1, workspace, WORKSPACE, output, OUTPUT));
    gives("no level", ALGEBRA_LIMIT_OUT_OF_RANGE, search(t, n, tree, sizeof tree, 0, workspace, WORKSPACE, output, OUTPUT));
    count("source tree", memcmp(output, tree, sizeof tree) == 0);
}

/* The workspace of a search is zero after a search that was made, and as it was after any other. */
static void search_workspaces(void)
{
    uint8_t some[ALGEBRA_SEARCH_WORKSPACE * sizeof tree], zero[sizeof some], old[sizeof some];
    memset(zero, 0, sizeof zero);
    memset(old, MARK, sizeof old);
    memset(some, MARK, sizeof some);
    search(translation, sizeof translation, tree, sizeof tree, 0, some, sizeof some, output, OUTPUT);
    count("the workspace of no search", memcmp(some, old, sizeof some) == 0);
    search(translation, sizeof translation, tree, sizeof tree, 1, some, sizeof some, output, OUTPUT);
    count("the workspace of a search", memcmp(some, zero, sizeof some) == 0);
    memset(some, MARK, sizeof some);
    search(translation, sizeof translation, tree, sizeof tree, 1, some, sizeof some, NULL, 0);
    count("the workspace of one whose output is too short", memcmp(some, zero, sizeof some) == 0);
}

/* A file that is put together, and how long it is. */
static uint8_t built[ALGEBRA_PACK_BYTES + 1];
static size_t built_length;

/* Adds bytes to the file, so many times. */
static void add(const char *bytes, size_t length, size_t times)
{
    for (size_t i = 0; i < times; i++) {
        memcpy(built + built_length, bytes, length);
        built_length += length;
    }
}

/* Reduces the file. */
static uint32_t reduce_built(void)
{
    uint64_t length;
    return algebra_reduce(built, built_length, workspace, WORKSPACE, output, OUTPUT, &length);
}

/* A limit of bytes, on files of zeros, whose fields are all broken. */
static void lengths(void)
{
    memset(built, 0, sizeof built);
    gives("bytes of a language", ALGEBRA_BROKEN_FIELD, algebra_check_language(built, ALGEBRA_LANGUAGE_BYTES));
    gives("one more than that", ALGEBRA_TOO_LONG, algebra_check_language(built, ALGEBRA_LANGUAGE_BYTES + 1));
    gives("bytes of a translation", ALGEBRA_BROKEN_FIELD, algebra_check_translation(built, ALGEBRA_TRANSLATION_BYTES));
    gives("one more than that", ALGEBRA_TOO_LONG, algebra_check_translation(built, ALGEBRA_TRANSLATION_BYTES + 1));
    built_length = ALGEBRA_PACK_BYTES;
    gives("bytes of a pack", ALGEBRA_BROKEN_FIELD, reduce_built());
    built_length = ALGEBRA_PACK_BYTES + 1;
    gives("one more than that", ALGEBRA_TOO_LONG, reduce_built());
}

/* The least room to reduce in. */
static void rooms(void)
{
    gives("the workspace", ALGEBRA_BUFFERS_TOO_SHORT, reduce(pack, sizeof pack, workspace, WORKSPACE - 1, output, OUTPUT));
    gives("the output", ALGEBRA_BUFFERS_TOO_SHORT, reduce(pack, sizeof pack, workspace, WORKSPACE, output, OUTPUT - 1));
}

/* A tree of so many levels: 0.0 around 0.0, and 0.1 inside. */
static uint32_t tree_of(size_t levels)
{
    static const uint8_t chain[] = { 0x12, 0, 3, 0, 0, 0, 0x12, 0, 2, 0, 1 };
    built_length = 0;
    add("\0", 1, levels - 1);
    add("\1", 1, 1);
    return algebra_check_tree(chain, sizeof chain, 0, built, built_length);
}

/* Where a tree of one level too many is refused: where that level begins. */
static void deep_position(void)
{
    static const uint8_t chain[] = { 0x12, 0, 3, 0, 0, 0, 0x12, 0, 2, 0, 1 };
    uint64_t position = 0;
    memset(built, 0, ALGEBRA_TREE_LEVELS + 1);
    gives("the position of a level", ALGEBRA_TOO_DEEP,
          algebra_locate(chain, sizeof chain, 0, built, ALGEBRA_TREE_LEVELS + 1, &position));
    count("it is where the level begins", position == ALGEBRA_TREE_LEVELS);
    gives("a tree that ends there", ALGEBRA_TOO_DEEP,
          algebra_locate(chain, sizeof chain, 0, built, ALGEBRA_TREE_LEVELS, &position));
    count("it is the end", position == ALGEBRA_TREE_LEVELS);
}

/* A translation whose code has so many levels: 0.0 around 0.0, and the argument inside. */
static uint32_t code_of(size_t levels)
{
    built_length = 0;
    add("\x20\0\6\x12\0\3\0\0\0\x21\0\6\x12\0\3\0\0\0\x22\0\2\0\0\x23\0", 25, 1);
    built[built_length++] = (uint8_t)(2 + 2 * levels);
    add("\0\0", 2, 1);
    add("\1\0", 2, levels - 1);
    add("\3\1", 2, 1);
    return algebra_check_translation(built, built_length);
}

/* A term of so many levels: the identity of the empty language, without itself and so on. */
static uint32_t term_of(size_t levels)
{
    built_length = 0;
    add("\x30\0\0\x32\0", 5, 1);
    built[built_length++] = (uint8_t)(3 + 3 * (levels - 2));
    add("\x55", 1, 1);
    add("\x42\x40\0", 3, levels - 2);
    add("\x40\0", 2, 1);
    return reduce_built();
}

/* The levels of trees, codes and terms. */
static void levels(void)
{
    gives("levels of a tree", ALGEBRA_ACCEPTED, tree_of(ALGEBRA_TREE_LEVELS));
    gives("one more than that", ALGEBRA_TOO_DEEP, tree_of(ALGEBRA_TREE_LEVELS + 1));
    gives("levels of a code", ALGEBRA_ACCEPTED, code_of(ALGEBRA_CODE_LEVELS));
    gives("one more than that", ALGEBRA_ILLEGAL_CODE, code_of(ALGEBRA_CODE_LEVELS + 1));
    gives("levels of a term", ALGEBRA_ACCEPTED, term_of(ALGEBRA_TERM_LEVELS));
    gives("one more than that", ALGEBRA_ILLEGAL_TERM, term_of(ALGEBRA_TERM_LEVELS + 1));
}

/* Adds a tree in which each production has two arguments, down to so many levels: 0.0 (0 0), and 0.1 inside. */
static size_t full_tree(uint8_t *at, size_t levels)
{
    size_t left;
    at[0] = levels == 1;
    if (levels == 1)
        return 1;
    left = full_tree(at + 1, levels - 1);
    return 1 + left + full_tree(at + 1 + left, levels - 1);
}

/* The longest tree that has an index: 16 levels of two arguments each; one more byte is 0.2 (0) around it. */
static void indexed_lengths(void)
{
    static const uint8_t pairs[] = { 0x12, 0, 4, 0, 0, 0, 0, 0x12, 0, 2, 0, 1, 0x12, 0, 3, 0, 2, 0 };
    static uint8_t longest[1 + ALGEBRA_INDEXED_BYTES], index[ALGEBRA_ENTRY_BYTES * ALGEBRA_INDEXED_BYTES];
    uint64_t length;
    longest[0] = 2;
    count("the longest tree", full_tree(longest + 1, 16) == ALGEBRA_INDEXED_BYTES);
    gives("bytes of a tree that has an index", ALGEBRA_ACCEPTED,
          algebra_index(pairs, sizeof pairs, 0, longest + 1, ALGEBRA_INDEXED_BYTES, index, sizeof index, &length));
    count("bytes of its index", length == sizeof index);
    gives("one more than that", ALGEBRA_NOT_INDEXED,
          algebra_index(pairs, sizeof pairs, 0, longest, sizeof longest, index, sizeof index, &length));
}

/* A production of a kind, with so many arguments of that kind. */
static uint32_t production_of(uint8_t kind, uint8_t arguments)
{
    uint8_t field[] = { 0x12, 0, (uint8_t)(2 + arguments), kind, 0, kind, kind, kind, kind,
                        kind, kind, kind, kind, kind };
    return algebra_check_language(field, 5u + arguments);
}

/* A pack with so many languages and bodies, all empty, and a variable as its term. */
static uint32_t pack_of(size_t languages, size_t bodies, uint8_t variable)
{
    built_length = 0;
    add("\x30\0\0", 3, languages);
    add("\x31\0\0", 3, bodies);
    add("\x32\0\2\x51", 4, 1);
    built[built_length++] = variable;
    return reduce_built();
}

/* How many kinds, arguments, variables, languages and bodies there are. */
static void numbers(void)
{
    gives("kinds", ALGEBRA_ACCEPTED, production_of(ALGEBRA_KINDS - 1, 0));
    gives("one more than that", ALGEBRA_BROKEN_FIELD, production_of(ALGEBRA_KINDS, 0));
    gives("arguments", ALGEBRA_ACCEPTED, production_of(0, ALGEBRA_ARGUMENTS));
    gives("one more than that", ALGEBRA_BROKEN_FIELD, production_of(0, ALGEBRA_ARGUMENTS + 1));
    gives("variables", ALGEBRA_UNBOUND_VARIABLE, pack_of(0, 0, ALGEBRA_VARIABLES - 1));
    gives("one more than that", ALGEBRA_ILLEGAL_TERM, pack_of(0, 0, ALGEBRA_VARIABLES));
    gives("languages", ALGEBRA_UNBOUND_VARIABLE, pack_of(ALGEBRA_PACK_LANGUAGES, 0, 0));
    gives("one more than that", ALGEBRA_BROKEN_FIELD, pack_of(ALGEBRA_PACK_LANGUAGES + 1, 0, 0));
    gives("bodies", ALGEBRA_UNBOUND_VARIABLE, pack_of(0, ALGEBRA_PACK_BODIES, 0));
    gives("one more than that", ALGEBRA_BROKEN_FIELD, pack_of(0, ALGEBRA_PACK_BODIES + 1, 0));
}

/* Adds the mappings and the clauses of the language's identity, by number 0 and once more by another. */
static void add_body(uint8_t number)
{
    add("\x22\0\2\1\1\x28\0\3\1", 9, 1);
    built[built_length++] = number;
    add("\1\x23\0\4\1\0\1\0\x29\0\5\1\0", 13, 1);
    built[built_length++] = number;
    add("\1\0", 2, 1);
}

/* Runs a translation that has the number beside 0, by a number. */
static uint32_t run_with(uint8_t number, uint32_t by)
{
    built_length = 0;
    add("\x20\0\5\x12\0\2\1\0\x21\0\5\x12\0\2\1\0", 16, 1);
    add_body(number);
    return run_by(by, built, built_length, tree, sizeof tree, output, OUTPUT);
}

/* Joins a translation that has the number beside 0 with an identity. */
static uint32_t join_with(uint8_t number)
{
    built_length = 0;
    add("\x30\0\5\x12\0\2\1\0\x31\0\x1A", 11, 1);
    add_body(number);
    add("\x32\0\xA\x54\x55\x40\0\x50\x40\0\x40\0\0", 13, 1);
    return reduce_built();
}

/* Mapping numbers. */
static void mapping_numbers(void)
{
    gives("the highest number", ALGEBRA_ACCEPTED, run_with(ALGEBRA_MAPPING_NUMBERS - 1, ALGEBRA_MAPPING_NUMBERS - 1));
    gives("number 0 beside it", ALGEBRA_ACCEPTED, run_with(ALGEBRA_MAPPING_NUMBERS - 1, 0));
    gives("one below it", ALGEBRA_UNKNOWN_ROOT, run_with(ALGEBRA_MAPPING_NUMBERS - 1, ALGEBRA_MAPPING_NUMBERS - 2));
    gives("one above it", ALGEBRA_UNKNOWN_ROOT, run_with(ALGEBRA_MAPPING_NUMBERS - 1, ALGEBRA_MAPPING_NUMBERS));
    gives("one that would wrap", ALGEBRA_UNKNOWN_ROOT, run_with(1, ALGEBRA_MAPPING_NUMBERS + 1));
    gives("a table joined onto numbers", ALGEBRA_NUMBER_UNFIT,
          join(built, built_length, table, sizeof table, output, OUTPUT));
    gives("a search in numbers", ALGEBRA_NUMBER_UNFIT,
          search(built, built_length, tree, sizeof tree, 0, workspace, WORKSPACE, output, OUTPUT));
    gives("the highest number of a join", ALGEBRA_ACCEPTED, join_with(ALGEBRA_JOINED_NUMBERS - 1));
    gives("one more than that", ALGEBRA_NUMBER_UNFIT, join_with(ALGEBRA_JOINED_NUMBERS));
}

int main(void)
{
    checks();
    faults();
    positions();
    reductions();
    runs();
    scores();
    loose_scores();
    joins();
    texts();
    indexes();
    blocks();
    nodes();
    widest_node();
    edits();
    masks();
    searches();
    search_workspaces();
    lengths();
    indexed_lengths();
    rooms();
    levels();
    deep_position();
    numbers();
    mapping_numbers();
    count("nothing is written elsewhere", no_bytes[0] == MARK && elsewhere[0] == MARK);
    printf("%d passed, %d failed\n", passed, failed);
    return failed != 0;
}
