/* Runs a translation on a tree and keeps the result: run TRANSLATION ROOT TREE OUTPUT [NUMBER]
 *
 * NUMBER is that of the root's mapping by which the tree is run, 0 unless it is given.
 * Prints `accepted LENGTH` and, on a second line, `cost CLAUSES`, or `refused NUMBER`. The status
 * is 0 if accepted, and OUTPUT then holds the whole result; 1 if refused; 2 for bad usage, a file
 * that cannot be read or written, or too little memory. OUTPUT is as it was unless the result is
 * accepted and stands there whole. */
#define _POSIX_C_SOURCE 200809L
#include <algebra.h>
#include <errno.h>
#include <fcntl.h>
#include <inttypes.h>
#include <stdio.h>
#include <stdlib.h>
#include <string.h>
#include <sys/stat.h>
#include <unistd.h>

enum status { ACCEPTED = 0, REFUSED = 1, TROUBLE = 2 };

/* The first size of a buffer, the factor by which it grows, and the longest result that is kept. */
enum { FIRST_BYTES = 4096, GROWTH = 2, LONGEST_RESULT = 1 << 30 };

/* The number of an answer, and the cost of the run. */
struct answer {
    uint32_t number, cost;
};

/* Bytes in memory: so many are in use, and there is room for so many. */
struct buffer {
    uint8_t *bytes;
    size_t length, room;
};

/* Says on standard error what is wrong with a file, and gives the status. */
static int trouble(const char *name, const char *what)
{
    fprintf(stderr, "run: %s: %s\n", name, what);
    return TROUBLE;
}

/* Makes a buffer larger; 0 if there is no memory for it. */
static int grow(struct buffer *buffer)
{
    size_t room = buffer->room == 0 ? FIRST_BYTES : buffer->room * GROWTH;
    uint8_t *bytes = realloc(buffer->bytes, room);
    if (bytes == NULL)
        return 0;
    buffer->bytes = bytes;
    buffer->room = room;
    return 1;
}

/* Reads an open file to its end. */
static int load_from(FILE *file, const char *name, struct buffer *buffer)
{
    while (!feof(file) && !ferror(file)) {
        if (buffer->length == buffer->room && !grow(buffer))
            return trouble(name, "no memory for it");
        buffer->length += fread(buffer->bytes + buffer->length, 1, buffer->room - buffer->length, file);
    }
    return ferror(file) ? trouble(name, strerror(errno)) : ACCEPTED;
}

/* Reads the file of that name whole. */
static int load(const char *name, struct buffer *buffer)
{
    FILE *file = fopen(name, "rb");
    if (file == NULL)
        return trouble(name, strerror(errno));
    int status = load_from(file, name, buffer);
    fclose(file);
    return status;
}

/* Reads a root or a number: digits alone, and no more than fits. */
static int read_number(const char *word, uint32_t *number)
{
    size_t digits = strspn(word, "0123456789");
    errno = 0;
    unsigned long long value = strtoull(word, NULL, 10);
    if (digits == 0 || word[digits] != '\0')
        return trouble(word, "it is not a number");
    if (errno != 0 || value > UINT32_MAX)
        return trouble(word, "it is too large");
    *number = (uint32_t)value;
    return ACCEPTED;
}

/* Runs with a larger output each time, until the result fits or the answer is another one. */
static int run(const struct buffer *translation, uint32_t root, uint32_t by, const struct buffer *tree,
               struct buffer *result, struct answer *answer)
{
    uint64_t length;
    do {
        if (!grow(result))
            return trouble("the result", "no memory for it");
        answer->number = algebra_run(translation->bytes, translation->length, root, by, tree->bytes,
                                     tree->length, result->bytes, result->room, &length, &answer->cost);
    } while (answer->number == ALGEBRA_OUTPUT_TOO_SHORT && result->room < LONGEST_RESULT);
    result->length = (size_t)length;
    return answer->number == ALGEBRA_ACCEPTED ? ACCEPTED : REFUSED;
}

/* Writes all bytes to a new file; 0 if that fails. */
static int write_new(const char *name, const struct buffer *buffer)
{
    int descriptor = open(name, O_WRONLY | O_CREAT | O_EXCL, 0666);
    FILE *file = descriptor < 0 ? NULL : fdopen(descriptor, "wb");
    if (file == NULL)
        return 0;
    size_t written = fwrite(buffer->bytes, 1, buffer->length, file);
    return (fclose(file) == 0) & (written == buffer->length);
}

/* Puts the bytes in the place of a file, whole or not at all: beside it first, then renamed. */
static int keep(const char *name, const struct buffer *buffer)
{
    struct stat found;
    if (stat(name, &found) == 0 && !S_ISREG(found.st_mode))
        return trouble(name, "it is there and is no plain file");
    size_t room = strlen(name) + 32;
    char *beside = malloc(room);
    if (beside == NULL)
        return trouble(name, "no memory for it");
    snprintf(beside, room, "%s.%ld.new", name, (long)getpid());
    int status = ACCEPTED;
    if (!write_new(beside, buffer) || rename(beside, name) != 0) {
        status = trouble(name, strerror(errno));
        unlink(beside);
    }
    free(beside);
    return status;
}

/* Prints the answer. */
static int print(const struct answer *answer, size_t length)
{
    if (answer->number == ALGEBRA_ACCEPTED)
        printf("accepted %zu\ncost %" PRIu32 "\n", length, answer->cost);
    else
        printf("refused %" PRIu32 "\n", answer->number);
    if (fflush(stdout) != 0)
        return trouble("standard output", strerror(errno));
    return answer->number == ALGEBRA_ACCEPTED ? ACCEPTED : REFUSED;
}

/* Reads the inputs, runs, and keeps the result. */
static int work(char **words, struct buffer *inputs, struct buffer *result, struct answer *answer)
{
    uint32_t root, by = 0;
    int status = read_number(words[2], &root);
    if (status == ACCEPTED && words[5] != NULL)
        status = read_number(words[5], &by);
    if (status == ACCEPTED)
        status = load(words[1], &inputs[0]);
    if (status == ACCEPTED)
        status = load(words[3], &inputs[1]);
    if (status == ACCEPTED)
        status = run(&inputs[0], root, by, &inputs[1], result, answer);
    return status == ACCEPTED ? keep(words[4], result) : status;
}

int main(int count, char **words)
{
    struct buffer inputs[2] = { { NULL, 0, 0 }, { NULL, 0, 0 } }, result = { NULL, 0, 0 };
    struct answer answer = { ALGEBRA_ACCEPTED, 0 };
    if (count != 5 && count != 6) {
        fprintf(stderr, "usage: run TRANSLATION ROOT TREE OUTPUT [NUMBER]\n");
        return TROUBLE;
    }
    int status = work(words, inputs, &result, &answer);
    if (status != TROUBLE)
        status = print(&answer, result.length);
    free(inputs[0].bytes);
    free(inputs[1].bytes);
    free(result.bytes);
    return status;
}
