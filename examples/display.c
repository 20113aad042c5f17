/* A display in a boat, for the holder of a card: display LANGUAGE ROOT PLAN CARD [VERB]...
 *
 *   mask              the plan as the card shows it
 *   show PATH         the block at a path, such as 2.2.1, and what it is; `.` is the whole plan
 *   edit PATH FILE    puts the tree in a file in the place of the block at a path
 *
 * The index of the plan is built once, before the plan is shown, and each edit gives that of the new
 * plan. The plan is edited in memory alone: no file is written. Of a plan that is accepted nothing is
 * shown that the card hides, and neither is a length told, which is that of hidden blocks too.
 *
 * All memory that is needed is there from the start, since the header bounds it: nothing is
 * allocated. The status is 0 if all was accepted; 1 if something was refused, which is told with its
 * number and sentence and, for a tree that is not legal, with the byte where that shows; 2 for bad
 * usage or a file that cannot be read or is too long. */
#include <algebra.h>
#include <errno.h>
#include <inttypes.h>
#include <stdio.h>
#include <stdlib.h>
#include <string.h>

enum status { ACCEPTED = 0, REFUSED = 1, TROUBLE = 2 };

/* The language, the root, the plan and the card come first. The kinds of a card stand behind a tag and
 * a length. No path that leads to a block is longer than a tree is deep. */
enum {
    FILES = 4,
    HEAD_BYTES = 3,
    CARD_BYTES = HEAD_BYTES + ALGEBRA_KINDS,
    INDEX_BYTES = ALGEBRA_ENTRY_BYTES * ALGEBRA_INDEXED_BYTES,
    PATH_NUMBERS = ALGEBRA_TREE_LEVELS + 1
};

/* A plan with its index. */
struct plan {
    size_t length, index_length;
    uint8_t bytes[ALGEBRA_INDEXED_BYTES], index[INDEX_BYTES];
};

/* What the display has: the plan that it shows, and room for the next one. */
struct display {
    uint32_t root;
    size_t language_length, card_length, block_length;
    uint8_t language[ALGEBRA_LANGUAGE_BYTES], card[CARD_BYTES];
    uint8_t block[ALGEBRA_INDEXED_BYTES], masked[ALGEBRA_INDEXED_BYTES];
    struct plan plans[2], *plan, *next;
};

/* Argument numbers from the root down. */
struct path {
    size_t length;
    uint8_t numbers[PATH_NUMBERS];
};

/* What stands at a path. */
struct node {
    uint32_t kind, name, arguments;
};

/* Says on standard error what is wrong, and gives the status. */
static int trouble(const char *name, const char *what)
{
    fprintf(stderr, "display: %s: %s\n", name, what);
    return TROUBLE;
}

/* Prints a refusal, and gives the status. */
static int refuse(uint32_t answer)
{
    printf("refused %" PRIu32 ": %s\n", answer, algebra_sentence(answer));
    return REFUSED;
}

/* The same of a tree of a kind: tells too where it is not legal, or too deep, by itself. */
static int refuse_tree(const struct display *display, uint32_t kind, const uint8_t *tree, size_t length,
                       uint32_t answer)
{
    uint64_t position;
    uint32_t located = algebra_locate(display->language, display->language_length, kind, tree, length, &position);
    int status = refuse(answer);
    if (located == answer && (located == ALGEBRA_ILLEGAL_TREE || located == ALGEBRA_TOO_DEEP))
        printf("at byte %" PRIu64 " of %zu\n", position, length);
    return status;
}

/* Reads an open file to its end. */
static int load_from(FILE *file, const char *name, uint8_t *bytes, size_t room, size_t *length)
{
    *length = fread(bytes, 1, room, file);
    int more = fgetc(file) != EOF;
    if (ferror(file))
        return trouble(name, strerror(errno));
    return more ? trouble(name, "it is too long") : ACCEPTED;
}

/* Reads the file of that name whole, if there is room for it. */
static int load(const char *name, uint8_t *bytes, size_t room, size_t *length)
{
    FILE *file = fopen(name, "rb");
    if (file == NULL)
        return trouble(name, strerror(errno));
    int status = load_from(file, name, bytes, room, length);
    fclose(file);
    return status;
}

/* Reads a number of digits alone that is not above the greatest; where it ends, or null. */
static char *read_number(char *word, unsigned long greatest, unsigned long *number)
{
    char *end;
    if (word[0] < '0' || word[0] > '9')
        return NULL;
    errno = 0;
    *number = strtoul(word, &end, 10);
    return errno != 0 || *number > greatest ? NULL : end;
}

/* Reads a path: numbers with points between them, or a point alone. */
static int read_path(char *word, struct path *path)
{
    unsigned long number = 0;
    char *at = word;
    path->length = 0;
    if (strcmp(word, ".") == 0)
        return ACCEPTED;
    do {
        at = read_number(at, UINT8_MAX, &number);
        if (at == NULL || (*at != '.' && *at != '\0') || path->length == PATH_NUMBERS)
            return trouble(word, "it is not a path");
        path->numbers[path->length++] = (uint8_t)number;
    } while (*at++ == '.');
    return ACCEPTED;
}

/* Prints what the card shows of a tree of a kind. */
static int put_masked(struct display *display, uint32_t kind, const uint8_t *tree, size_t length)
{
    uint64_t masked_length;
    uint32_t answer = algebra_mask(display->language, display->language_length, kind, display->card,
                                   display->card_length, tree, length, display->masked, sizeof display->masked,
                                   &masked_length);
    if (answer != ALGEBRA_ACCEPTED)
        return refuse(answer);
    for (uint64_t i = 0; i < masked_length; i++)
        printf("%02X", display->masked[i]);
    printf("\n");
    return ACCEPTED;
}

/* The card, which was accepted, shows a kind. */
static int shows(const struct display *display, uint32_t kind)
{
    size_t kinds = display->card_length - HEAD_BYTES;
    return memchr(display->card + HEAD_BYTES, (int)kind, kinds) != NULL;
}

/* Goes along a path as far as the card shows: the node at its end, and how many arguments the one above it has. */
static uint32_t walk(const struct display *display, const struct path *path, struct node *node, uint32_t *beside)
{
    const struct plan *plan = display->plan;
    uint32_t answer = ALGEBRA_ACCEPTED;
    node->arguments = 0;
    for (size_t n = 0; n <= path->length && answer == ALGEBRA_ACCEPTED; n++) {
        *beside = node->arguments;
        answer = algebra_node(display->language, display->language_length, display->root, plan->bytes, plan->length,
                              plan->index, plan->index_length, path->numbers, n, &node->kind, &node->name,
                              &node->arguments);
        if (answer == ALGEBRA_ACCEPTED && !shows(display, node->kind))
            answer = ALGEBRA_HIDDEN;
    }
    return answer;
}

/* Prints what a node is, and which argument of how many. */
static void describe(const struct path *path, const struct node *node, uint32_t beside)
{
    if (path->length == 0)
        printf("the plan");
    else
        printf("argument %u of %" PRIu32, (unsigned)path->numbers[path->length - 1], beside);
    if (node->name == ALGEBRA_NO_NAME)
        printf(", a token of kind %" PRIu32 "\n", node->kind);
    else
        printf(", production %" PRIu32 ".%" PRIu32 ", arguments: %" PRIu32 "\n", node->kind, node->name,
               node->arguments);
}

/* The place of the block at a path. */
static uint32_t find(const struct display *display, const struct path *path, uint64_t *start, uint64_t *length,
                     uint32_t *kind)
{
    const struct plan *plan = display->plan;
    return algebra_block(display->language, display->language_length, display->root, plan->bytes, plan->length,
                         plan->index, plan->index_length, path->numbers, path->length, start, length, kind);
}

/* Shows the block at a path: what it is, and what the card shows of it. */
static int show(struct display *display, const struct path *path)
{
    struct node node;
    uint64_t start, length;
    uint32_t beside, kind, answer = walk(display, path, &node, &beside);
    if (answer == ALGEBRA_ACCEPTED)
        answer = find(display, path, &start, &length, &kind);
    if (answer != ALGEBRA_ACCEPTED)
        return refuse(answer);
    describe(path, &node, beside);
    return put_masked(display, kind, display->plan->bytes + start, (size_t)length);
}

/* Tells why an edit is refused. Where it is for the new block by itself, tells where in it. */
static int refuse_edit(const struct display *display, const struct path *path, uint32_t answer)
{
    uint64_t start, length;
    uint32_t kind;
    if (answer != ALGEBRA_ILLEGAL_TREE && answer != ALGEBRA_TOO_DEEP)
        return refuse(answer);
    if (find(display, path, &start, &length, &kind) != ALGEBRA_ACCEPTED)
        return refuse(answer);
    return refuse_tree(display, kind, display->block, display->block_length, answer);
}

/* Puts the new block in the place of the one at a path. The new plan and its index are then those that are shown. */
static int edit(struct display *display, const struct path *path)
{
    struct plan *plan = display->plan, *next = display->next;
    uint64_t length, index_length;
    uint32_t answer = algebra_edit(display->language, display->language_length, display->root, plan->bytes,
                                   plan->length, plan->index, plan->index_length, path->numbers, path->length,
                                   display->card, display->card_length, display->block, display->block_length,
                                   next->bytes, sizeof next->bytes, next->index, sizeof next->index, &length,
                                   &index_length);
    if (answer != ALGEBRA_ACCEPTED)
        return refuse_edit(display, path, answer);
    next->length = (size_t)length;
    next->index_length = (size_t)index_length;
    display->plan = next;
    display->next = plan;
    printf("accepted\n");
    return ACCEPTED;
}

/* Shows the whole plan, as far as the card does. */
static int show_plan(struct display *display)
{
    printf("mask: ");
    return put_masked(display, display->root, display->plan->bytes, display->plan->length);
}

/* Builds the index of the plan, then shows the plan, which tells whether the card is one. */
static int open_plan(struct display *display)
{
    struct plan *plan = display->plan;
    uint64_t length;
    uint32_t answer = algebra_index(display->language, display->language_length, display->root, plan->bytes,
                                    plan->length, plan->index, sizeof plan->index, &length);
    printf("index: ");
    if (answer != ALGEBRA_ACCEPTED)
        return refuse_tree(display, display->root, plan->bytes, plan->length, answer);
    plan->index_length = (size_t)length;
    printf("accepted\n");
    return show_plan(display);
}

/* Reads the files, and opens the plan. */
static int begin(struct display *display, char **words)
{
    unsigned long root;
    char *end = read_number(words[1], UINT32_MAX, &root);
    int status = end != NULL && *end == '\0' ? ACCEPTED : trouble(words[1], "it is not a root kind");
    display->plan = &display->plans[0];
    display->next = &display->plans[1];
    if (status == ACCEPTED)
        status = load(words[0], display->language, sizeof display->language, &display->language_length);
    if (status == ACCEPTED)
        status = load(words[2], display->plan->bytes, sizeof display->plan->bytes, &display->plan->length);
    if (status == ACCEPTED)
        status = load(words[3], display->card, sizeof display->card, &display->card_length);
    if (status != ACCEPTED)
        return status;
    display->root = (uint32_t)root;
    return open_plan(display);
}

/* How many words a verb takes, itself included; 0 if it is none. */
static int words_of(const char *verb)
{
    if (strcmp(verb, "mask") == 0)
        return 1;
    if (strcmp(verb, "show") == 0)
        return 2;
    return strcmp(verb, "edit") == 0 ? 3 : 0;
}

/* Does what a verb says with the words behind it. */
static int step(struct display *display, char **words, int taken)
{
    struct path path = { 0, { 0 } };
    int status = taken > 1 ? read_path(words[1], &path) : ACCEPTED;
    if (status == ACCEPTED && taken > 2)
        status = load(words[2], display->block, sizeof display->block, &display->block_length);
    if (status != ACCEPTED)
        return status;
    if (taken == 1)
        return show_plan(display);
    printf("%s %s: ", words[0], words[1]);
    return taken == 2 ? show(display, &path) : edit(display, &path);
}

/* Does what the verbs say, one after the other; the status is the worst of them, and trouble ends it. */
static int work(struct display *display, char **words, int count)
{
    int status = begin(display, words), taken;
    if (status != ACCEPTED)
        return status;
    for (int at = FILES; at < count && status != TROUBLE; at += taken) {
        taken = words_of(words[at]);
        if (taken == 0 || taken > count - at)
            return trouble(words[at], "it is not a verb with its words");
        int found = step(display, words + at, taken);
        status = found > status ? found : status;
    }
    return status;
}

int main(int count, char **words)
{
    static struct display display;
    if (count <= FILES) {
        fprintf(stderr, "usage: display LANGUAGE ROOT PLAN CARD [mask | show PATH | edit PATH FILE]...\n");
        return TROUBLE;
    }
    int status = work(&display, words + 1, count - 1);
    return fflush(stdout) != 0 ? trouble("standard output", strerror(errno)) : status;
}
