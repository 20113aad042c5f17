/* Asks the library about files that are written as text: two hexadecimal digits for each byte, `xN` behind a byte for N
 * bytes like it, and `#` for a comment up to the end of the line. The tests of the pages and of the examples use it.
 *
 *   ask language FILE                          ask translation FILE
 *   ask tree LANGUAGE ROOT TREE                ask reduce PACK [WORKSPACE-BYTES [OUTPUT-BYTES]]
 *   ask run TRANSLATION ROOT NUMBER TREE [OUTPUT-BYTES]
 *   ask score LANGUAGE ROOT TREE TABLE         ask loose LANGUAGE ROOT PLAN TABLE
 *   ask join TRANSLATION TABLE
 *   ask export LANGUAGE ROOT TREE              ask import LANGUAGE ROOT TEXT
 *   ask index LANGUAGE ROOT TREE               ask block LANGUAGE ROOT TREE PATH [INDEX]
 *   ask edit LANGUAGE ROOT TREE PATH BLOCK CARD [INDEX]
 *   ask mask LANGUAGE ROOT CARD TREE           ask search TRANSLATION ROOT TREE LEVELS [OUTPUT-BYTES]
 *   ask bytes FILE                             writes the bytes themselves
 *
 * Prints `accepted LENGTH` (or a score, or `LEAST to GREATEST` of a loose plan), the bytes of a result on a second line, and
 * the cost of a run, kind and start of a block or the index of an edited plan on a third; or `refused NUMBER`. The text of an
 * import is read, and that of an export printed, as it is. An INDEX that is not named is built, and a CARD that is `-` shows
 * every kind. */
#include "algebra.h"
#include <stdio.h>
#include <stdlib.h>
#include <string.h>

/* The most bytes of a file, and of an output unless told otherwise. */
enum { LONGEST = 1 << 20 };

/* The bytes of a file. */
struct bytes {
    uint8_t *at;
    size_t length;
};

/* Ends the program, which was asked what it cannot answer. */
static void give_up(const char *why, const char *what)
{
    fprintf(stderr, "ask: %s: %s\n", what, why);
    exit(2);
}

/* Memory, or the end of the program. */
static uint8_t *room_for(size_t length)
{
    uint8_t *room = calloc(length + 1, 1);
    if (room == NULL)
        give_up("no memory", "a buffer");
    return room;
}

/* Adds one byte so many times. */
static void repeat(struct bytes *bytes, uint8_t byte, size_t times, const char *name)
{
    if (times > LONGEST - bytes->length)
        give_up("too long", name);
    memset(bytes->at + bytes->length, byte, times);
    bytes->length += times;
}

/* Adds what one word says: a byte, or more of the byte before. */
static void add_word(struct bytes *bytes, const char *word, const char *name)
{
    char *end;
    unsigned long value = strtoul(word[0] == 'x' ? word + 1 : word, &end, word[0] == 'x' ? 10 : 16);
    if (*end != '\0' || (word[0] != 'x' && strlen(word) != 2) || (word[0] == 'x' && (bytes->length == 0 || value == 0)))
        give_up(word, name);
    if (word[0] == 'x')
        repeat(bytes, bytes->at[bytes->length - 1], value - 1, name);
    else
        repeat(bytes, (uint8_t)value, 1, name);
}

/* Adds the words of one line. */
static void add_line(struct bytes *bytes, char *line, const char *name)
{
    line[strcspn(line, "#")] = '\0';
    for (char *word = strtok(line, " \t\r\n"); word != NULL; word = strtok(NULL, " \t\r\n"))
        add_word(bytes, word, name);
}

/* Reads a file of text. */
static struct bytes load(const char *name)
{
    char line[1024];
    struct bytes bytes = { room_for(LONGEST), 0 };
    FILE *file = fopen(name, "r");
    if (file == NULL)
        give_up("it cannot be read", name);
    while (fgets(line, sizeof line, file) != NULL)
        add_line(&bytes, line, name);
    fclose(file);
    return bytes;
}

/* Reads a file as it is. */
static struct bytes load_text(const char *name)
{
    struct bytes bytes = { room_for(LONGEST), 0 };
    FILE *file = fopen(name, "rb");
    if (file == NULL)
        give_up("it cannot be read", name);
    bytes.length = fread(bytes.at, 1, LONGEST, file);
    fclose(file);
    return bytes;
}

/* Prints bytes on a line of their own, if there are any. */
static void put_bytes(const uint8_t *bytes, uint64_t length)
{
    for (uint64_t i = 0; i < length; i++)
        printf("%02X%c", bytes[i], i + 1 == length ? '\n' : ' ');
}

/* Prints the answer of an operation, and the bytes that it gave, if they are told. */
static void answer(uint32_t number, uint64_t length, const uint8_t *output)
{
    if (number != ALGEBRA_ACCEPTED)
        printf("refused %u\n", (unsigned)number);
    else
        printf("accepted %u\n", (unsigned)length);
    if (output != NULL)
        put_bytes(output, length);
}

/* The number in a word that may be missing. */
static size_t number_or(char *word, size_t otherwise)
{
    return word == NULL ? otherwise : strtoul(word, NULL, 10);
}

/* Reduces a pack. */
static void reduce(char **words)
{
    struct bytes pack = load(words[0]);
    size_t workspace = number_or(words[1], ALGEBRA_WORKSPACE_BYTES);
    size_t output = number_or(words[1] == NULL ? NULL : words[2], ALGEBRA_OUTPUT_BYTES);
    uint8_t *result = room_for(output);
    uint64_t length;
    uint32_t number = algebra_reduce(pack.at, pack.length, room_for(workspace), workspace, result, output, &length);
    answer(number, length, result);
}

/* Runs a translation. */
static void run(char **words)
{
    struct bytes translation = load(words[0]), tree = load(words[3]);
    size_t output = number_or(words[4], LONGEST);
    uint8_t *result = room_for(output);
    uint64_t length;
    uint32_t cost;
    uint32_t number = algebra_run(translation.at, translation.length, (uint32_t)number_or(words[1], 0),
                                  (uint32_t)number_or(words[2], 0), tree.at, tree.length, result, output, &length, &cost);
    answer(number, length, result);
    if (number == ALGEBRA_ACCEPTED)
        printf("cost %u\n", (unsigned)cost);
}

/* Scores a tree. */
static void score(char **words)
{
    struct bytes language = load(words[0]), tree = load(words[2]), table = load(words[3]);
    int64_t score;
    uint32_t number = algebra_score(language.at, language.length, (uint32_t)number_or(words[1], 0), tree.at, tree.length,
                                    table.at, table.length, &score);
    if (number == ALGEBRA_ACCEPTED)
        printf("accepted %ld\n", (long)score);
    else
        answer(number, 0, NULL);
}

/* Scores a loose plan. */
static void loose(char **words)
{
    struct bytes language = load(words[0]), plan = load(words[2]), table = load(words[3]);
    int64_t least, greatest;
    uint32_t number = algebra_score_loose(language.at, language.length, (uint32_t)number_or(words[1], 0), plan.at,
                                          plan.length, table.at, table.length, &least, &greatest);
    if (number == ALGEBRA_ACCEPTED)
        printf("accepted %ld to %ld\n", (long)least, (long)greatest);
    else
        answer(number, 0, NULL);
}

/* Joins a load table onto a translation. */
static void join(char **words)
{
    struct bytes translation = load(words[0]), table = load(words[1]);
    uint8_t *result = room_for(LONGEST);
    uint64_t length;
    uint32_t number = algebra_join_table(translation.at, translation.length, table.at, table.length, result, LONGEST,
                                         &length);
    answer(number, length, result);
}

/* Writes a tree as XML. */
static void export_tree(char **words)
{
    struct bytes language = load(words[0]), tree = load(words[2]);
    uint8_t *text = room_for(LONGEST);
    uint64_t length;
    uint32_t number = algebra_export(language.at, language.length, (uint32_t)number_or(words[1], 0), tree.at, tree.length,
                                     text, LONGEST, &length);
    answer(number, length, NULL);
    if (number == ALGEBRA_ACCEPTED)
        printf("%.*s\n", (int)length, (const char *)text);
}

/* Reads a tree from XML. */
static void import_tree(char **words)
{
    struct bytes language = load(words[0]), text = load_text(words[2]);
    uint8_t *tree = room_for(LONGEST);
    uint64_t length;
    uint32_t number = algebra_import(language.at, language.length, (uint32_t)number_or(words[1], 0), text.at, text.length,
                                     tree, LONGEST, &length);
    answer(number, length, tree);
}

/* The index of a tree, empty where it is refused. */
static struct bytes index_of(struct bytes language, uint32_t root, struct bytes tree)
{
    uint64_t length;
    struct bytes index = { room_for(LONGEST), 0 };
    uint32_t number = algebra_index(language.at, language.length, root, tree.at, tree.length, index.at, LONGEST, &length);
    index.length = number == ALGEBRA_ACCEPTED ? length : 0;
    return index;
}

/* Builds the index of a tree. */
static void index_tree(char **words)
{
    struct bytes language = load(words[0]), tree = load(words[2]);
    uint8_t *index = room_for(LONGEST);
    uint64_t length;
    uint32_t number = algebra_index(language.at, language.length, (uint32_t)number_or(words[1], 0), tree.at, tree.length,
                                    index, LONGEST, &length);
    answer(number, length, index);
}

/* Looks up a block. */
static void block(char **words)
{
    struct bytes language = load(words[0]), tree = load(words[2]), path = load(words[3]);
    uint32_t kind, root = (uint32_t)number_or(words[1], 0);
    struct bytes index = words[4] == NULL ? index_of(language, root, tree) : load(words[4]);
    uint64_t start, length;
    uint32_t number = algebra_block(language.at, language.length, root, tree.at, tree.length, index.at, index.length,
                                    path.at, path.length, &start, &length, &kind);
    answer(number, length, tree.at + start);
    if (number == ALGEBRA_ACCEPTED)
        printf("kind %u, start %u\n", (unsigned)kind, (unsigned)start);
}

/* The card that shows every kind. */
static struct bytes all_kinds(void)
{
    struct bytes card = { room_for(3 + ALGEBRA_KINDS), 0 };
    repeat(&card, 0x27, 1, "a card");
    repeat(&card, 0, 1, "a card");
    repeat(&card, ALGEBRA_KINDS, 1, "a card");
    for (uint8_t kind = 0; kind < ALGEBRA_KINDS; kind++)
        repeat(&card, kind, 1, "a card");
    return card;
}

/* Edits a plan. */
static void edit(char **words)
{
    struct bytes language = load(words[0]), tree = load(words[2]), path = load(words[3]), block = load(words[4]);
    struct bytes card = strcmp(words[5], "-") == 0 ? all_kinds() : load(words[5]);
    uint32_t root = (uint32_t)number_or(words[1], 0);
    struct bytes index = words[6] == NULL ? index_of(language, root, tree) : load(words[6]);
    uint8_t *plan = room_for(LONGEST), *plan_index = room_for(LONGEST);
    uint64_t length, index_length;
    uint32_t number = algebra_edit(language.at, language.length, root, tree.at, tree.length, index.at, index.length,
                                   path.at, path.length, card.at, card.length, block.at, block.length, plan, LONGEST,
                                   plan_index, LONGEST, &length, &index_length);
    answer(number, length, plan);
    put_bytes(plan_index, index_length);
}

/* Masks a plan. */
static void mask(char **words)
{
    struct bytes language = load(words[0]), card = load(words[2]), tree = load(words[3]);
    uint8_t *masked = room_for(LONGEST);
    uint64_t length;
    uint32_t number = algebra_mask(language.at, language.length, (uint32_t)number_or(words[1], 0), card.at, card.length,
                                   tree.at, tree.length, masked, LONGEST, &length);
    answer(number, length, masked);
}

/* Searches for a source tree. */
static void search(char **words)
{
    struct bytes translation = load(words[0]), tree = load(words[2]);
    size_t output = number_or(words[4], LONGEST), workspace = ALGEBRA_SEARCH_WORKSPACE * tree.length;
    uint8_t *source = room_for(output);
    uint64_t length;
    uint32_t number = algebra_search(translation.at, translation.length, (uint32_t)number_or(words[1], 0), tree.at,
                                     tree.length, (uint32_t)number_or(words[3], 0), room_for(workspace), workspace,
                                     source, output, &length);
    answer(number, length, source);
}

/* Checks a language. */
static void language(char **words)
{
    struct bytes file = load(words[0]);
    answer(algebra_check_language(file.at, file.length), 0, NULL);
}

/* Checks a translation. */
static void translation(char **words)
{
    struct bytes file = load(words[0]);
    answer(algebra_check_translation(file.at, file.length), 0, NULL);
}

/* Checks a tree. */
static void tree(char **words)
{
    struct bytes language = load(words[0]), tree = load(words[2]);
    uint32_t root = (uint32_t)number_or(words[1], 0);
    answer(algebra_check_tree(language.at, language.length, root, tree.at, tree.length), 0, NULL);
}

/* Writes the bytes of a file of text. */
static void write_bytes(char **words)
{
    struct bytes bytes = load(words[0]);
    fwrite(bytes.at, 1, bytes.length, stdout);
}

/* What each verb asks, and how many words it needs at least and takes at most. */
static const struct {
    const char *verb;
    void (*ask)(char **words);
    int least, most;
} verbs[] = {
    { "language", language, 1, 1 },
    { "translation", translation, 1, 1 },
    { "tree", tree, 3, 3 },
    { "reduce", reduce, 1, 3 },
    { "run", run, 4, 5 },
    { "score", score, 4, 4 },
    { "loose", loose, 4, 4 },
    { "join", join, 2, 2 },
    { "export", export_tree, 3, 3 },
    { "import", import_tree, 3, 3 },
    { "index", index_tree, 3, 3 },
    { "block", block, 4, 5 },
    { "edit", edit, 6, 7 },
    { "mask", mask, 4, 4 },
    { "search", search, 4, 5 },
    { "bytes", write_bytes, 1, 1 },
};

int main(int count, char **words)
{
    const char *verb = count > 1 ? words[1] : "";
    size_t i = 0, all = sizeof verbs / sizeof verbs[0];
    while (i < all && strcmp(verb, verbs[i].verb) != 0)
        i++;
    if (i == all || count - 2 < verbs[i].least || count - 2 > verbs[i].most)
        give_up("no such question", verb);
    verbs[i].ask(words + 2);
    return ferror(stdout) || fflush(stdout) != 0 ? 2 : 0;
}
