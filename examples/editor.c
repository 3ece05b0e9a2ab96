/* A small editor of stored tables, to start from.
   Usage: editor TABLE ID

   Shows the figures of chain ID, asks for a new deadline, saves it to the file, and shows the figures again and the
   report of the whole table. Ends with 0; with 1 where the library refuses; with 2 where it is used wrongly, or
   something cannot be read or written. The bytes of a table are the library's: it reads them into rows, and writes them
   from rows. It is built by the line that `./mishtodran lib` prints, with examples/editor.c for program.c. */
#define _DEFAULT_SOURCE /* for flock and realpath */
#include "mishtodran.h"

#include <errno.h>
#include <fcntl.h>
#include <stdio.h>
#include <stdlib.h>
#include <string.h>
#include <sys/file.h>
#include <sys/stat.h>
#include <unistd.h>

enum { REFUSED = 1, FAILED = 2, RUN = 10 };

/* A table, its used length, and who may read and write its file. One byte more than the largest table, so that a longer
   file is refused and not cut. */
struct document {
    uint8_t bytes[MISHTODRAN_MOST_TABLE_BYTES + 1];
    size_t used;
    mode_t mode;
};

/* The chains of a table as rows. */
struct chains {
    struct mishtodran_row rows[MISHTODRAN_MOST_CHAINS];
    size_t count;
};

/* A chain's record, where it stands in its table. */
struct record {
    const uint8_t *bytes;
    size_t length;
};

static void fail(const char *what, const char *why)
{
    fprintf(stderr, "editor: %s: %s\n", what, why);
    exit(FAILED);
}

static void refuse(const char *what, uint32_t refusal)
{
    fflush(stdout);
    fprintf(stderr, "editor: %s refused, %lu%s\n", what, (unsigned long)refusal,
            refusal == MISHTODRAN_STALE_RECORD ? ": someone has changed the record meanwhile" : "");
    exit(REFUSED);
}

static void flush_output(void)
{
    if (fflush(stdout) != 0 || ferror(stdout))
        fail("standard output", "it cannot be written");
}

/* ---- Numbers ---- */

/* Answers are little-endian on every machine. */
static uint32_t get(const uint8_t *at)
{
    return at[0] | (uint32_t)at[1] << 8 | (uint32_t)at[2] << 16 | (uint32_t)at[3] << 24;
}

/* The number that digits alone stand for, from 1 to `most`; 0 for any other text. */
static uint32_t number_in(const char *text, uint32_t most)
{
    uint32_t number = 0;
    for (; *text >= '0' && *text <= '9' && number <= most; text++)
        number = 10 * number + (uint32_t)(*text - '0');
    return *text == '\0' && number <= most ? number : 0;
}

/* ---- What the user sees ---- */

/* Ends the program where the table has no such chain. */
static void show_figures(const struct document *document, uint32_t id)
{
    uint8_t answer[MISHTODRAN_LATENCY_BYTES];
    uint32_t refusal = mishtodran_latency(document->bytes, document->used, id, answer, sizeof answer);
    if (refusal == MISHTODRAN_NO_WINDOW || refusal == MISHTODRAN_NO_CLOSE)
        printf("latency refused, %lu\n", (unsigned long)refusal);
    else if (refusal)
        refuse("latency", refusal);
    else
        printf("chain %lu: K %lu, latency %lu, late %lu, margin %ld\n", (unsigned long)id,
               (unsigned long)get(answer), (unsigned long)get(answer + 4), (unsigned long)get(answer + 8),
               (long)(int32_t)get(answer + 12));

    refusal = mishtodran_misses(document->bytes, document->used, id, RUN, answer, sizeof answer);
    if (refusal)
        printf("misses refused, %lu\n", (unsigned long)refusal);
    else
        printf("misses in %d activations: at most %lu\n", RUN, (unsigned long)get(answer));
}

/* A text buffer that every report fits into, so that none is refused. */
static void show_report(const struct document *document)
{
    uint8_t text[MISHTODRAN_LONGEST_REPORT], answer[MISHTODRAN_REPORT_BYTES];
    uint32_t refusal = mishtodran_report(document->bytes, document->used, text, sizeof text, answer, sizeof answer);
    if (refusal)
        refuse("report", refusal);
    printf("%.*s", (int)get(answer), (const char *)text);
}

/* The deadline that the user types, or 0 for none. */
static uint32_t ask_deadline(uint32_t deadline)
{
    char line[32];
    printf("deadline %lu; type another, or nothing to leave it\n", (unsigned long)deadline);
    flush_output();
    if (!fgets(line, sizeof line, stdin)) {
        if (ferror(stdin))
            fail("standard input", strerror(errno));
        return 0;
    }
    size_t end = strcspn(line, "\n");
    if (end == 0)
        return 0;
    uint32_t typed = 0;
    if (end < sizeof line - 1) { /* else the line goes on */
        line[end] = '\0';
        typed = number_in(line, MISHTODRAN_MOST_TIME);
    }
    if (typed == 0)
        fail("deadline", "type 1 to 10000000, in digits");
    return typed;
}

/* ---- Rows and records ---- */

static void read_rows(const struct document *document, struct chains *chains)
{
    uint8_t answer[MISHTODRAN_READ_BYTES];
    uint32_t refusal = mishtodran_read(document->bytes, document->used, chains->rows, MISHTODRAN_MOST_CHAINS, answer,
                                       sizeof answer);
    if (refusal)
        refuse("read", refusal);
    chains->count = get(answer);
}

static void write_rows(const struct chains *chains, struct document *document)
{
    uint8_t answer[MISHTODRAN_WRITE_BYTES];
    uint32_t refusal = mishtodran_write(chains->rows, chains->count, document->bytes, sizeof document->bytes, answer,
                                        sizeof answer);
    if (refusal)
        refuse("write", refusal);
    document->used = get(answer);
}

/* The row of a chain that is there. */
static struct mishtodran_row *find_row(struct chains *chains, uint32_t id)
{
    struct mishtodran_row *row = chains->rows;
    while (row->id != id)
        row++;
    return row;
}

static struct record find_record(const struct document *document, uint32_t id)
{
    uint8_t answer[MISHTODRAN_RECORD_BYTES];
    uint32_t refusal = mishtodran_record(document->bytes, document->used, id, answer, sizeof answer);
    if (refusal)
        refuse("record", refusal);
    return (struct record){document->bytes + get(answer), get(answer + 4)};
}

/* Puts the record of the changed table in the place of the one that was seen. */
static void save_record(struct document *document, struct record seen, struct record changed)
{
    uint8_t answer[MISHTODRAN_SAVE_BYTES];
    uint32_t refusal = mishtodran_save(document->bytes, sizeof document->bytes, document->used, seen.bytes, seen.length,
                                       changed.bytes, changed.length, answer, sizeof answer);
    if (refusal)
        refuse("save", refusal);
    document->used = get(answer);
}

/* ---- Files ---- */

static char *name_beside(const char *path, const char *ending)
{
    char *name = malloc(strlen(path) + strlen(ending) + 1);
    if (!name)
        fail(path, strerror(errno));
    return strcat(strcpy(name, path), ending);
}

/* Ends the program where the table is refused, and says at which byte it broke. */
static void check_table(const struct document *document, const char *path)
{
    uint8_t answer[MISHTODRAN_CHECK_BYTES];
    uint32_t refusal = mishtodran_check(document->bytes, document->used, answer, sizeof answer);
    if (refusal)
        refuse("check", refusal);
    if (get(answer) == 0)
        return;
    fprintf(stderr, "editor: %s: refused, %lu at byte %lu\n", path, (unsigned long)get(answer),
            (unsigned long)get(answer + 4));
    exit(REFUSED);
}

static void read_table(struct document *document, const char *path)
{
    struct stat status;
    FILE *file = fopen(path, "rb");
    if (!file || fstat(fileno(file), &status) != 0)
        fail(path, strerror(errno));
    document->mode = status.st_mode & 0777;
    document->used = fread(document->bytes, 1, sizeof document->bytes, file);
    if (ferror(file))
        fail(path, strerror(errno));
    fclose(file);
    check_table(document, path);
}

/* Waits until no other editor saves this table, and keeps others from it until the lock is closed. The lock is on a
   file of its own, which stays: a save replaces the table's file, and a lock on that would go with the old one. It is
   flock's, which ends with the program, however that ends. */
static int lock(const char *path)
{
    char *name = name_beside(path, ".lock");
    int held = open(name, O_RDONLY | O_CREAT | O_CLOEXEC, 0666);
    if (held < 0 || flock(held, LOCK_EX) != 0)
        fail(name, strerror(errno));
    free(name);
    return held;
}

/* A new name is on the disk only once its folder is. */
static void sync_folder(const char *path)
{
    char *folder = name_beside(path, "");
    strrchr(folder, '/')[1] = '\0';
    int open_folder = open(folder, O_RDONLY | O_CLOEXEC);
    if (open_folder < 0 || fsync(open_folder) != 0)
        fail(folder, strerror(errno));
    close(open_folder);
    free(folder);
}

/* Writes a file beside the table's, and renames it once it is on the disk: whoever reads finds the old table or the new
   one, never a part. */
static void write_table(const struct document *document, const char *path)
{
    char *name = name_beside(path, ".new");
    unlink(name); /* what an editor left that was ended here */
    FILE *file = fopen(name, "wbx");
    if (!file)
        fail(name, strerror(errno));
    if (fwrite(document->bytes, 1, document->used, file) != document->used || fflush(file) != 0 ||
        fchmod(fileno(file), document->mode) != 0 || fsync(fileno(file)) != 0 || fclose(file) != 0 ||
        rename(name, path) != 0) {
        int why = errno;
        unlink(name);
        fail(name, strerror(why));
    }
    free(name);
    sync_folder(path);
}

static void edit(const char *path, uint32_t id)
{
    struct document seen, changed, document;
    struct chains chains;
    read_table(&seen, path);
    show_figures(&seen, id);
    read_rows(&seen, &chains);
    struct mishtodran_row *row = find_row(&chains, id);
    uint32_t typed = ask_deadline(row->deadline);
    if (typed == 0)
        return;
    row->deadline = typed;
    write_rows(&chains, &changed);
    if (access(path, W_OK) != 0) /* a file that is renamed over it would not ask */
        fail(path, strerror(errno));

    /* Others may have saved while the user looked at the figures. So the file is read again, and others wait meanwhile;
       where this very record is another now, the save is refused. */
    int held = lock(path);
    read_table(&document, path);
    save_record(&document, find_record(&seen, id), find_record(&changed, id));
    write_table(&document, path);
    close(held);

    printf("saved, the table has %lu bytes\n", (unsigned long)document.used);
    show_figures(&document, id);
    show_report(&document);
}

int main(int count, char **words)
{
    if (mishtodran_version() != MISHTODRAN_VERSION)
        fail("library", "it is of another version than the header");
    if (count != 3)
        fail("usage", "editor TABLE ID");
    uint32_t id = number_in(words[2], MISHTODRAN_MOST_ID);
    if (id == 0)
        fail("ID", "give 1 to 65535, in digits");
    /* Where TABLE is a link, the file that it leads to: all editors lock and replace that one. */
    char *path = realpath(words[1], NULL);
    if (!path)
        fail(words[1], strerror(errno));
    edit(path, id);
    free(path);
    flush_output();
    return 0;
}
