/* Checks a language, and a tree of it: check LANGUAGE-FILE ROOT-KIND TREE-FILE */
#include "algebra.h"
#include <stdio.h>
#include <stdlib.h>

enum { LONGEST = 1 << 24 };

/* Reads a file whole; a missing one counts as empty. */
static size_t load(const char *name, uint8_t *bytes)
{
    FILE *file = fopen(name, "rb");
    if (file == NULL)
        return 0;
    size_t length = fread(bytes, 1, LONGEST, file);
    fclose(file);
    return length;
}

/* Prints what an operation answered. */
static void answer(const char *what, uint32_t number)
{
    if (number == 0)
        printf("%s: accepted\n", what);
    else
        printf("%s: refused %u\n", what, number);
}

int main(int count, char **words)
{
    static uint8_t language[LONGEST], tree[LONGEST];
    if (count != 4) {
        fprintf(stderr, "usage: check LANGUAGE-FILE ROOT-KIND TREE-FILE\n");
        return 2;
    }
    size_t n = load(words[1], language);
    size_t m = load(words[3], tree);
    answer("language", algebra_check_language(language, n));
    answer("tree", algebra_check_tree(language, n, (uint32_t)strtoul(words[2], NULL, 10), tree, m));
    return 0;
}
