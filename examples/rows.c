/* A small program that turns rows into a stored table, and a table into rows, for scripts in any language.
   Usage: rows write    takes rows on standard input, and writes their table to standard output
          rows read     takes a table on standard input, and writes its rows to standard output

   A row is a line of decimal numbers with blanks between them:
     form id kind overload flag deadline gap listed tasks, then so many distances, then as many largest ones where the
     form is CG and the flag 1, then the priority and the cost of so many tasks
   with form 18499 for CH and 18243 for CG, the mark as a number, kind 0 for synchronous and 1 for asynchronous,
   overload 1 for an overload chain, `listed` the number of distances and `tasks` that of tasks. The flag of CH and the
   gap of CG count for nothing, and are 0 in what is read. The library makes the bytes and judges them; nothing is
   written of what it refuses.

   Ends with 0. With 1 where the library refuses, and then says on standard error
     refused N in row R: WHY     of rows: row R, counted from 1, is the first that may not stand after those before it;
                                 R is 0 where there is no row
     refused N at byte B: WHY    of a table: the field at fault begins there
   With 2 where it is used wrongly, a line is no row, a number is too large for its place in struct mishtodran_row, or
   something cannot be read or written. `./mishtodran table` builds it, and so does the line that `./mishtodran lib` prints,
   with examples/rows.c for program.c. */
#include "mishtodran.h"

#include <errno.h>
#include <inttypes.h>
#include <stdio.h>
#include <stdlib.h>
#include <string.h>

enum { REFUSED = 1, FAILED = 2 };

/* The header's sentences for what a table is refused with. */
static const char *const sentences[] = {
    [MISHTODRAN_TABLE_LENGTH] = "the table's length is 0, above 1,284 (1,748 for CG) or above its buffer",
    [MISHTODRAN_CUT_SHORT] = "bytes run out inside a record or before the end record",
    [MISHTODRAN_MARK] = "a mark is not one allowed there, or is of another form than the first",
    [MISHTODRAN_ID] = "an id is 0 or used earlier",
    [MISHTODRAN_KIND] = "a kind or overload byte is above 1",
    [MISHTODRAN_DEADLINE] = "a deadline is not 1 to 10,000,000",
    [MISHTODRAN_GAP] = "a gap is above 10,000,000",
    [MISHTODRAN_TASK_COUNT] = "a task count is not 1 to 16, or there are over 64 tasks so far",
    [MISHTODRAN_TASK] = "a priority is 0, or a cost is not 1 to 1,000,000",
    [MISHTODRAN_END] = "a 17th chain, no chain, a wrong end count, or bytes after the end",
    [MISHTODRAN_LIST_LENGTH] = "a list length is not 1 to 8",
    [MISHTODRAN_DISTANCE] = "a distance falls or exceeds 10,000,000",
    [MISHTODRAN_LAST_DISTANCE] = "the last distance is 0",
    [MISHTODRAN_GAP_TOO_SMALL] = "a gap other than 0 is too small for the distances",
    [MISHTODRAN_LARGEST] = "a flag is above 1, or a largest distance falls, is too large or too small",
};

static void fail(const char *what, const char *why)
{
    fprintf(stderr, "rows: %s: %s\n", what, why);
    exit(FAILED);
}

static void refuse(uint32_t refusal, const char *place, uint32_t at)
{
    const char *why = refusal < sizeof sentences / sizeof *sentences ? sentences[refusal] : NULL;
    fprintf(stderr, "refused %" PRIu32 " %s %" PRIu32 ": %s\n", refusal, place, at, why ? why : "see mishtodran.h");
    exit(REFUSED);
}

static void flush_output(void)
{
    if (fflush(stdout) != 0 || ferror(stdout))
        fail("standard output", "it cannot be written");
}

/* Answers are little-endian on every machine. */
static uint32_t get(const uint8_t *at)
{
    return at[0] | (uint32_t)at[1] << 8 | (uint32_t)at[2] << 16 | (uint32_t)at[3] << 24;
}

/* Whether a row has largest distances. */
static int knows_largest(const struct mishtodran_row *row)
{
    return row->form == MISHTODRAN_LARGEST_FORM && row->flag == 1;
}

/* ---- Rows to a table ---- */

static void malformed(size_t row, const char *what, const char *why)
{
    fprintf(stderr, "rows: row %zu: %s %s\n", row, what, why);
    exit(FAILED);
}

/* The next character of standard input, which stays there. */
static int look(void)
{
    int next = getchar();
    if (next == EOF && ferror(stdin))
        fail("standard input", strerror(errno));
    return next == EOF ? EOF : ungetc(next, stdin);
}

static int is_digit(int character)
{
    return character >= '0' && character <= '9';
}

static int is_blank(int character)
{
    return character == ' ' || character == '\t';
}

/* Skips blanks. Whether the line ends after them. */
static int ends_line(void)
{
    while (is_blank(look()))
        getchar();
    return look() == '\n' || look() == EOF;
}

/* The next number of a row, `most` at most. */
static uint64_t number(size_t row, const char *what, uint64_t most)
{
    uint64_t found = 0;
    if (ends_line())
        malformed(row, what, "is missing");
    if (!is_digit(look()))
        malformed(row, what, "is not a number");
    while (is_digit(look())) {
        unsigned digit = (unsigned)(getchar() - '0');
        if (found > (most - digit) / 10)
            malformed(row, what, "is too large");
        found = 10 * found + digit;
    }
    if (!is_blank(look()) && !ends_line())
        malformed(row, what, "is not a number");
    return found;
}

/* So many distances of a row. */
static void take_list(size_t row, const char *what, uint64_t count, uint32_t *list)
{
    for (uint64_t i = 0; i < count; i++) {
        uint32_t distance = (uint32_t)number(row, what, UINT32_MAX);
        if (i < MISHTODRAN_MOST_DISTANCES)
            list[i] = distance;
    }
}

/* The row of a line. Distances and tasks past the places of a row are read and left out: its counts are refused. */
static struct mishtodran_row row_of_line(size_t row)
{
    struct mishtodran_row found = {0};
    found.form = (uint16_t)number(row, "the form", UINT16_MAX);
    found.id = (uint16_t)number(row, "the id", UINT16_MAX);
    found.kind = (uint8_t)number(row, "the kind", UINT8_MAX);
    found.overload = (uint8_t)number(row, "the overload mark", UINT8_MAX);
    found.flag = (uint8_t)number(row, "the flag", UINT8_MAX);
    found.deadline = (uint32_t)number(row, "the deadline", UINT32_MAX);
    found.gap = (uint32_t)number(row, "the gap", UINT32_MAX);
    found.listed = number(row, "the number of distances", UINT64_MAX);
    found.tasks = number(row, "the number of tasks", UINT64_MAX);
    take_list(row, "a distance", found.listed, found.list);
    if (knows_largest(&found))
        take_list(row, "a largest distance", found.listed, found.largest);
    for (uint64_t i = 0; i < found.tasks; i++) {
        uint16_t priority = (uint16_t)number(row, "a priority", UINT16_MAX);
        uint32_t cost = (uint32_t)number(row, "a cost", UINT32_MAX);
        if (i < MISHTODRAN_MOST_TASKS) {
            found.priority[i] = priority;
            found.cost[i] = cost;
        }
    }
    if (!ends_line())
        malformed(row, "there are", "more numbers than its counts say");
    getchar();
    return found;
}

/* Of refused rows the first with which those up to it are refused: the first fault decides. 0 where there is no row. */
static uint32_t row_at_fault(const struct mishtodran_row *rows, uint32_t count)
{
    uint8_t table[MISHTODRAN_MOST_TABLE_BYTES], answer[MISHTODRAN_WRITE_BYTES];
    uint32_t row = count == 0 ? 0 : 1;
    while (row < count && mishtodran_write(rows, row, table, sizeof table, answer, sizeof answer) == 0)
        row++;
    return row;
}

/* One row more than the most of a table, so that too many are refused and not cut; later ones change nothing. */
static void write_table(void)
{
    static struct mishtodran_row rows[MISHTODRAN_MOST_CHAINS + 1];
    uint8_t table[MISHTODRAN_MOST_TABLE_BYTES], answer[MISHTODRAN_WRITE_BYTES];
    uint32_t kept = 0;
    for (size_t row = 1; look() != EOF; row++) {
        struct mishtodran_row found = row_of_line(row);
        if (kept < sizeof rows / sizeof *rows)
            rows[kept++] = found;
    }
    uint32_t refusal = mishtodran_write(rows, kept, table, sizeof table, answer, sizeof answer);
    if (refusal)
        refuse(refusal, "in row", row_at_fault(rows, kept));
    fwrite(table, 1, get(answer), stdout);
    flush_output();
}

/* ---- A table to rows ---- */

static void print_row(const struct mishtodran_row *row)
{
    printf("%" PRIu16 " %" PRIu16 " %" PRIu8 " %" PRIu8 " %" PRIu8, row->form, row->id, row->kind, row->overload,
           row->flag);
    printf(" %" PRIu32 " %" PRIu32 " %" PRIu64 " %" PRIu64, row->deadline, row->gap, row->listed, row->tasks);
    for (uint64_t i = 0; i < row->listed; i++)
        printf(" %" PRIu32, row->list[i]);
    for (uint64_t i = 0; i < row->listed && knows_largest(row); i++)
        printf(" %" PRIu32, row->largest[i]);
    for (uint64_t i = 0; i < row->tasks; i++)
        printf(" %" PRIu16 " %" PRIu32, row->priority[i], row->cost[i]);
    putchar('\n');
}

/* Ends the program with what the reader says of a refused table. */
static void refuse_table(const uint8_t *table, size_t used, uint32_t refusal)
{
    uint8_t answer[MISHTODRAN_CHECK_BYTES];
    if (mishtodran_check(table, used, answer, sizeof answer) != 0 || get(answer) != refusal)
        fail("library", "its entries do not agree");
    refuse(refusal, "at byte", get(answer + 4));
}

/* One byte more than the largest table, so that a longer one is refused and not cut. */
static void read_table(void)
{
    static struct mishtodran_row rows[MISHTODRAN_MOST_CHAINS];
    uint8_t table[MISHTODRAN_MOST_TABLE_BYTES + 1], answer[MISHTODRAN_READ_BYTES];
    size_t used = fread(table, 1, sizeof table, stdin);
    if (ferror(stdin))
        fail("standard input", strerror(errno));
    uint32_t refusal = mishtodran_read(table, used, rows, MISHTODRAN_MOST_CHAINS, answer, sizeof answer);
    if (refusal)
        refuse_table(table, used, refusal);
    for (uint32_t i = 0; i < get(answer); i++)
        print_row(&rows[i]);
    flush_output();
}

int main(int count, char **words)
{
    if (mishtodran_version() != MISHTODRAN_VERSION)
        fail("library", "it is of another version than the header");
    if (count == 2 && strcmp(words[1], "write") == 0)
        write_table();
    else if (count == 2 && strcmp(words[1], "read") == 0)
        read_table();
    else
        fail("usage", "rows write, or rows read");
    return 0;
}
