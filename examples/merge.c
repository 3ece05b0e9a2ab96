/* A small program that merges two edited copies of a table, to start from.
   Usage: merge ANCESTOR FIRST SECOND RESULT

   Two engineers have copied the table ANCESTOR, and each has edited a copy. Where they changed different chains, both
   edits stand in RESULT. Where they changed one chain differently, it is listed with every other such chain, and nothing
   is written. RESULT may be one of the three files; an editor that saves to it meanwhile is not waited for.
   Ends with 0; with 1 where the library refuses; with 2 where it is used wrongly, or something cannot be read or
   written. It is built by the line that `./mishtodran lib` prints, with examples/merge.c for program.c. */
#define _DEFAULT_SOURCE /* for fchmod and realpath */
#include "mishtodran.h"

#include <errno.h>
#include <stdio.h>
#include <stdlib.h>
#include <string.h>
#include <sys/stat.h>
#include <unistd.h>

enum { REFUSED = 1, FAILED = 2 };

/* A table and its used length. One byte more than the largest table, so that a longer file is refused and not cut. */
struct document {
    uint8_t bytes[MISHTODRAN_MOST_TABLE_BYTES + 1];
    size_t used;
};

/* Each record of a result is one of a copy, so every result fits in here. One that is too long for a table is then
   refused as a table, with 1, and not for want of room, with 24. */
struct result {
    uint8_t bytes[2 * MISHTODRAN_MOST_TABLE_BYTES];
    size_t used;
};

static void fail(const char *what, const char *why)
{
    fprintf(stderr, "merge: %s: %s\n", what, why);
    exit(FAILED);
}

static void flush_output(void)
{
    if (fflush(stdout) != 0 || ferror(stdout))
        fail("standard output", "it cannot be written");
}

static void refuse(const char *what, uint32_t refusal, const char *why)
{
    flush_output();
    fprintf(stderr, "merge: %s refused, %lu%s\n", what, (unsigned long)refusal, why);
    exit(REFUSED);
}

/* Answers are little-endian on every machine. */
static uint32_t get(const uint8_t *at)
{
    return at[0] | (uint32_t)at[1] << 8 | (uint32_t)at[2] << 16 | (uint32_t)at[3] << 24;
}

/* ---- The merge ---- */

/* Ends the program where the table is refused, and says at which byte it broke. */
static void check_table(const struct document *document, const char *path)
{
    uint8_t answer[MISHTODRAN_CHECK_BYTES];
    uint32_t refusal = mishtodran_check(document->bytes, document->used, answer, sizeof answer);
    if (refusal)
        refuse("check", refusal, "");
    if (get(answer) == 0)
        return;
    fprintf(stderr, "merge: %s: refused, %lu at byte %lu\n", path, (unsigned long)get(answer),
            (unsigned long)get(answer + 4));
    exit(REFUSED);
}

/* Lists every chain in conflict: asked with 0, then with each answer, the library gives them all. */
static void list_conflicts(const struct document *ancestor, const struct document *first, const struct document *second)
{
    uint32_t id = 0;
    do {
        uint8_t answer[MISHTODRAN_CONFLICT_BYTES];
        uint32_t refusal = mishtodran_conflict(ancestor->bytes, ancestor->used, first->bytes, first->used,
                                               second->bytes, second->used, id, answer, sizeof answer);
        if (refusal)
            refuse("conflict", refusal, "");
        id = get(answer);
        if (id != 0)
            printf("chain %lu is in conflict\n", (unsigned long)id);
    } while (id != 0);
}

/* The three tables have been accepted: what else is refused, is a conflict or the result. */
static void merge(const struct document *ancestor, const struct document *first, const struct document *second,
                  struct result *result)
{
    uint8_t answer[MISHTODRAN_MERGE_BYTES];
    uint32_t refusal = mishtodran_merge(ancestor->bytes, ancestor->used, first->bytes, first->used, second->bytes,
                                        second->used, result->bytes, sizeof result->bytes, answer, sizeof answer);
    if (refusal == MISHTODRAN_IN_CONFLICT) {
        list_conflicts(ancestor, first, second);
        refuse("merge", refusal, ": the copies have changed these chains differently");
    }
    if (refusal)
        refuse("result", refusal, ": both edits together are no table");
    result->used = get(answer);
}

/* ---- Files ---- */

static void read_table(struct document *document, const char *path)
{
    FILE *file = fopen(path, "rb");
    if (!file)
        fail(path, strerror(errno));
    document->used = fread(document->bytes, 1, sizeof document->bytes, file);
    if (ferror(file))
        fail(path, strerror(errno));
    fclose(file);
    check_table(document, path);
}

/* The file that a name leads to, or the name itself where there is none yet. */
static char *file_of(const char *name)
{
    char *path = realpath(name, NULL);
    if (!path && errno == ENOENT)
        path = strdup(name);
    if (!path)
        fail(name, strerror(errno));
    return path;
}

/* Who may read and write a new file in this one's place. */
static mode_t mode_of(const char *path)
{
    struct stat status;
    if (stat(path, &status) != 0) {
        mode_t masked = umask(0);
        umask(masked);
        return 0666 & ~masked;
    }
    if (!S_ISREG(status.st_mode))
        fail(path, "it is not a plain file");
    if (access(path, W_OK) != 0) /* a file that is renamed over it would not ask */
        fail(path, strerror(errno));
    return status.st_mode & 0777;
}

/* Writes a file beside, and renames it once it is on the disk: whoever reads finds what was there or the result, never a
   part. A file of that name is not this program's, and stays. */
static void write_result(const struct result *result, const char *path)
{
    mode_t mode = mode_of(path);
    char *name = malloc(strlen(path) + sizeof ".new");
    if (!name)
        fail(path, strerror(errno));
    FILE *file = fopen(strcat(strcpy(name, path), ".new"), "wbx");
    if (!file)
        fail(name, strerror(errno));
    if (fwrite(result->bytes, 1, result->used, file) != result->used || fflush(file) != 0 ||
        fchmod(fileno(file), mode) != 0 || fsync(fileno(file)) != 0 || fclose(file) != 0 || rename(name, path) != 0) {
        int why = errno;
        unlink(name);
        fail(name, strerror(why));
    }
    free(name);
}

int main(int count, char **words)
{
    if (mishtodran_version() != MISHTODRAN_VERSION)
        fail("library", "it is of another version than the header");
    if (count != 5)
        fail("usage", "merge ANCESTOR FIRST SECOND RESULT");
    static struct document ancestor, first, second;
    static struct result result;
    read_table(&ancestor, words[1]);
    read_table(&first, words[2]);
    read_table(&second, words[3]);
    merge(&ancestor, &first, &second, &result);
    char *path = file_of(words[4]);
    write_result(&result, path);
    free(path);
    printf("merged, the table has %lu bytes\n", (unsigned long)result.used);
    flush_output();
    return 0;
}
