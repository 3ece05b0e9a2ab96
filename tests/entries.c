/* Replays packed cases (tests/pack_entries.py) through the entries of mishtodran.h.
   Usage: entries CASES

   Every slice lent to an entry, of bytes or of rows, stands against unreadable pages, in a first pass with its end and
   in a second with its start, and slices that are only read are write-protected: a step outside is caught and counts as
   a failure. Checked are the returned number, every byte of every slice afterwards, and some bytes beside it; and at
   the end how much stack the calls took. */
#define _GNU_SOURCE
#include "mishtodran.h"

#include <setjmp.h>
#include <signal.h>
#include <stdbool.h>
#include <stdio.h>
#include <stdlib.h>
#include <string.h>
#include <sys/mman.h>
#include <ucontext.h>

enum {
    PAGE = 65536, /* at least a page of any machine, also of one that emulates */
    BESIDE = 64,  /* bytes beside a slice that are checked too */
    FILLER = 0xA5
};

/* What is packed for the length of junk, and for a slice that is lent as in the case before. */
enum { JUNK = 65535, AS_BEFORE = 65534 };

enum {
    LATENCY,
    MISSES,
    SEGMENT,
    SAVE,
    REPORT,
    CHECK,
    MERGE,
    CONFLICT,
    READ,
    WRITE,
    RECORD,
    MISSES_PLAIN,
    MISSES_AT_MOST,
    TO_LARGEST,
    TO_GAP,
    SALVAGE
};
enum { TABLE, OLD, NEW, TEXT, ANSWER, SLICES };
/* What a merge, and the question for its conflicts, lend in these places, a write and a conversion in the last; what
   else a write lends, and what a read; what a salvage lends beside its table. */
enum { ANCESTOR = TABLE, FIRST = OLD, SECOND = NEW, BUFFER = TEXT };
enum { ROWS_TO_WRITE = TABLE, ROWS_TO_FILL = TEXT };
enum { INPUT = OLD, LIST = TEXT };

/* Bytes to lend, and what must stand in the first of them afterwards; the others stay. */
struct slice {
    const uint8_t *before, *after;
    size_t length, changed;
};

struct entry_case {
    unsigned entry;
    int name_length;
    const char *name;
    uint64_t number[3];
    uint32_t returns;
    struct slice slice[SLICES];
};

/* ---- The packed cases ---- */

static const uint8_t *packed, *packed_end;
static uint8_t junk[JUNK];

static const uint8_t *take(size_t length)
{
    if ((size_t)(packed_end - packed) < length) {
        puts("the packed cases end within a case");
        exit(2);
    }
    packed += length;
    return packed - length;
}

static uint64_t take_number(unsigned width)
{
    const uint8_t *at = take(width);
    uint64_t number = 0;
    for (unsigned i = 0; i < width; i++)
        number |= (uint64_t)at[i] << 8 * i;
    return number;
}

static void take_before(struct slice *slice)
{
    size_t length = take_number(2);
    slice->changed = 0;
    if (length == AS_BEFORE)
        return;
    slice->length = length == JUNK ? take_number(2) : length;
    slice->before = length == JUNK ? junk : take(length);
}

static void take_after(struct slice *slice)
{
    slice->changed = take_number(2);
    slice->after = take(slice->changed);
}

/* The next case, in the place of the one before. */
static void take_case(struct entry_case *given)
{
    given->entry = (unsigned)take_number(1);
    given->name_length = (int)take_number(1);
    given->name = (const char *)take((size_t)given->name_length);
    for (unsigned i = 0; i < 3; i++)
        given->number[i] = take_number(8);
    given->returns = (uint32_t)take_number(4);
    for (unsigned i = 0; i < SLICES; i++)
        take_before(&given->slice[i]);
    take_after(&given->slice[TABLE]);
    take_after(&given->slice[TEXT]);
    take_after(&given->slice[ANSWER]);
}

/* Puts packed bytes into `to`, each 0 as often as the byte after it says. How many there are then; 0 where they are too
   many, or a 0 is the last byte. */
static size_t expand(const uint8_t *from, size_t length, uint8_t *to, size_t room)
{
    size_t put = 0;
    for (size_t i = 0; i < length; i++) {
        uint8_t byte = from[i];
        size_t count = 1;
        if (byte == 0 && ++i < length)
            count = from[i];
        if (i == length || count > room - put)
            return 0;
        memset(to + put, byte, count);
        put += count;
    }
    return put;
}

static void load_cases(const char *path)
{
    FILE *file = fopen(path, "rb");
    static uint8_t bytes[16 << 20], expanded[64 << 20];
    size_t length = file ? fread(bytes, 1, sizeof bytes, file) : 0;
    size_t count = length < sizeof bytes ? expand(bytes, length, expanded, sizeof expanded) : 0;
    if (count == 0) {
        printf("%s: no cases could be read\n", path);
        exit(2);
    }
    fclose(file);
    packed = expanded;
    packed_end = expanded + count;
    for (unsigned i = 0; i < sizeof junk; i++)
        junk[i] = (uint8_t)(0x5A + 11 * i);
}

/* ---- Lending ---- */

/* One readable page between two unreadable ones, for each slice. */
static uint8_t *room[SLICES];

static void make_rooms(void)
{
    for (unsigned i = 0; i < SLICES; i++) {
        uint8_t *pages = mmap(NULL, 4 * PAGE, PROT_NONE, MAP_PRIVATE | MAP_ANONYMOUS, -1, 0);
        if (pages == MAP_FAILED) {
            puts("no memory to lend");
            exit(2);
        }
        room[i] = pages + 2 * PAGE - (uintptr_t)pages % PAGE;
    }
}

static void protect(unsigned which, int how)
{
    if (mprotect(room[which], PAGE, how) != 0) {
        puts("memory cannot be protected");
        exit(2);
    }
}

static bool writes_buffer(unsigned entry)
{
    return entry == MERGE || entry == WRITE || entry == TO_LARGEST || entry == TO_GAP;
}

/* An entry writes the answer; save, merge, write and a conversion their buffer, report its text, read its rows, and
   salvage its table and its list. */
static bool is_written(unsigned entry, unsigned which)
{
    return which == ANSWER || (entry == SAVE && which == TABLE) || (entry == REPORT && which == TEXT) ||
           (entry == READ && which == ROWS_TO_FILL) || (writes_buffer(entry) && which == BUFFER) ||
           (entry == SALVAGE && (which == TABLE || which == LIST));
}

/* Where a slice of this length stands: against the page after it, or against the page before it. */
static uint8_t *place(unsigned which, size_t length, bool at_end)
{
    return at_end ? room[which] + PAGE - length : room[which];
}

/* The checked bytes beside a slice, on its open side. */
static uint8_t *beside(unsigned which, size_t length, bool at_end)
{
    return at_end ? place(which, length, true) - BESIDE : room[which] + length;
}

static void lend(const struct entry_case *given, unsigned which, bool at_end)
{
    const struct slice *slice = &given->slice[which];
    protect(which, PROT_READ | PROT_WRITE);
    memset(beside(which, slice->length, at_end), FILLER, BESIDE);
    memcpy(place(which, slice->length, at_end), slice->before, slice->length);
    if (!is_written(given->entry, which))
        protect(which, PROT_READ);
}

/* The lent pointer; in the second pass an empty slice is a null pointer. */
static uint8_t *lent(const struct entry_case *given, unsigned which, bool at_end)
{
    size_t length = given->slice[which].length;
    return length == 0 && !at_end ? NULL : place(which, length, at_end);
}

/* Whether a byte is padding in a row that a read fills: it may be anything. */
static bool is_padding(const struct entry_case *given, unsigned which, size_t at)
{
    size_t row = at / sizeof(struct mishtodran_row), in_row = at % sizeof(struct mishtodran_row);
    return given->entry == READ && which == ROWS_TO_FILL && row < given->number[0] &&
           in_row >= offsetof(struct mishtodran_row, flag) + sizeof(uint8_t) &&
           in_row < offsetof(struct mishtodran_row, deadline);
}

static bool is_as_expected(const struct entry_case *given, unsigned which, bool at_end)
{
    const struct slice *slice = &given->slice[which];
    const uint8_t *side = beside(which, slice->length, at_end), *there = place(which, slice->length, at_end);
    for (unsigned i = 0; i < BESIDE; i++)
        if (side[i] != FILLER)
            return false;
    for (size_t i = 0; i < slice->length; i++)
        if (there[i] != (i < slice->changed ? slice->after : slice->before)[i] && !is_padding(given, which, i))
            return false;
    return true;
}

/* ---- Calling ---- */

static sigjmp_buf stepped_outside;

static void on_fault(int number)
{
    (void)number;
    siglongjmp(stepped_outside, 1);
}

static void catch_faults(void)
{
    struct sigaction action = {.sa_handler = on_fault};
    sigaction(SIGSEGV, &action, NULL);
    sigaction(SIGBUS, &action, NULL);
}

/* The stack that the cases run on. Painted before, it shows afterwards how deep below `call` anything was written. */
static uint8_t stack[1 << 20];
static const uint8_t *called_from;

static size_t stack_taken(void)
{
    const uint8_t *deepest = stack;
    while (*deepest == FILLER)
        deepest++;
    return (size_t)(called_from - deepest);
}

static uint32_t call_merge(const struct entry_case *given, bool at_end)
{
    const struct slice *slice = given->slice;
    uint8_t *ancestor = lent(given, ANCESTOR, at_end), *first = lent(given, FIRST, at_end);
    uint8_t *second = lent(given, SECOND, at_end), *answer = lent(given, ANSWER, at_end);
    size_t ancestor_len = slice[ANCESTOR].length, first_len = slice[FIRST].length, second_len = slice[SECOND].length;
    size_t answer_len = slice[ANSWER].length;
    if (given->entry == CONFLICT)
        return mishtodran_conflict(ancestor, ancestor_len, first, first_len, second, second_len,
                                   (uint32_t)given->number[0], answer, answer_len);
    return mishtodran_merge(ancestor, ancestor_len, first, first_len, second, second_len, lent(given, BUFFER, at_end),
                            slice[BUFFER].length, answer, answer_len);
}

/* Rows stand at multiples of their length from an end of a page, so they are aligned. */
static struct mishtodran_row *lent_rows(const struct entry_case *given, unsigned which, bool at_end)
{
    return (struct mishtodran_row *)(void *)lent(given, which, at_end);
}

static uint32_t call_with_rows(const struct entry_case *given, bool at_end)
{
    const struct slice *slice = given->slice;
    uint8_t *answer = lent(given, ANSWER, at_end);
    if (given->entry == READ)
        return mishtodran_read(lent(given, TABLE, at_end), slice[TABLE].length, lent_rows(given, ROWS_TO_FILL, at_end),
                               slice[ROWS_TO_FILL].length / sizeof(struct mishtodran_row), answer,
                               slice[ANSWER].length);
    return mishtodran_write(lent_rows(given, ROWS_TO_WRITE, at_end),
                            slice[ROWS_TO_WRITE].length / sizeof(struct mishtodran_row), lent(given, BUFFER, at_end),
                            slice[BUFFER].length, answer, slice[ANSWER].length);
}

/* Three entries that take the same. */
static uint32_t call_misses(const struct entry_case *given, bool at_end)
{
    const uint8_t *table = lent(given, TABLE, at_end);
    uint8_t *answer = lent(given, ANSWER, at_end);
    size_t table_len = given->slice[TABLE].length, answer_len = given->slice[ANSWER].length;
    uint32_t id = (uint32_t)given->number[0], k = (uint32_t)given->number[1];
    if (given->entry == MISSES_PLAIN)
        return mishtodran_misses_plain(table, table_len, id, k, answer, answer_len);
    if (given->entry == MISSES_AT_MOST)
        return mishtodran_misses_at_most(table, table_len, id, k, answer, answer_len);
    return mishtodran_misses(table, table_len, id, k, answer, answer_len);
}

static uint32_t call_conversion(const struct entry_case *given, bool at_end)
{
    const uint8_t *table = lent(given, TABLE, at_end);
    uint8_t *buffer = lent(given, BUFFER, at_end), *answer = lent(given, ANSWER, at_end);
    size_t table_len = given->slice[TABLE].length, buffer_len = given->slice[BUFFER].length;
    size_t answer_len = given->slice[ANSWER].length;
    if (given->entry == TO_GAP)
        return mishtodran_to_gap(table, table_len, buffer, buffer_len, answer, answer_len);
    return mishtodran_to_largest(table, table_len, buffer, buffer_len, answer, answer_len);
}

static uint32_t call_salvage(const struct entry_case *given, bool at_end)
{
    const struct slice *slice = given->slice;
    return mishtodran_salvage(lent(given, INPUT, at_end), slice[INPUT].length, lent(given, TABLE, at_end),
                              slice[TABLE].length, lent(given, LIST, at_end), slice[LIST].length,
                              lent(given, ANSWER, at_end), slice[ANSWER].length);
}

static uint32_t call(const struct entry_case *given, bool at_end)
{
    called_from = __builtin_frame_address(0);
    const struct slice *slice = given->slice;
    uint8_t *table = lent(given, TABLE, at_end);
    uint8_t *answer = lent(given, ANSWER, at_end);
    size_t table_len = slice[TABLE].length, answer_len = slice[ANSWER].length;
    const uint64_t *number = given->number;
    switch (given->entry) {
    case LATENCY:
        return mishtodran_latency(table, table_len, (uint32_t)number[0], answer, answer_len);
    case MISSES:
    case MISSES_PLAIN:
    case MISSES_AT_MOST:
        return call_misses(given, at_end);
    case SEGMENT:
        return mishtodran_segment(table, table_len, (uint32_t)number[0], (uint32_t)number[1], (uint32_t)number[2],
                                  answer, answer_len);
    case REPORT:
        return mishtodran_report(table, table_len, lent(given, TEXT, at_end), slice[TEXT].length, answer, answer_len);
    case CHECK:
        return mishtodran_check(table, table_len, answer, answer_len);
    case MERGE:
    case CONFLICT:
        return call_merge(given, at_end);
    case READ:
    case WRITE:
        return call_with_rows(given, at_end);
    case RECORD:
        return mishtodran_record(table, table_len, (uint32_t)number[0], answer, answer_len);
    case TO_LARGEST:
    case TO_GAP:
        return call_conversion(given, at_end);
    case SALVAGE:
        return call_salvage(given, at_end);
    default:
        return mishtodran_save(table, table_len, number[0], lent(given, OLD, at_end), slice[OLD].length,
                               lent(given, NEW, at_end), slice[NEW].length, answer, answer_len);
    }
}

static bool fails(const struct entry_case *given, const char *what)
{
    printf("%.*s: %s\n", given->name_length, given->name, what);
    return false;
}

static bool run(const struct entry_case *given, bool at_end)
{
    for (unsigned i = 0; i < SLICES; i++)
        lend(given, i, at_end);
    if (sigsetjmp(stepped_outside, 1))
        return fails(given, at_end ? "steps past a slice, or writes to one that is only read"
                                   : "steps before a slice, or writes to one that is only read");
    uint32_t returned = call(given, at_end);
    if (returned != given->returns) {
        char what[64];
        snprintf(what, sizeof what, "returns %lu, not %lu", (unsigned long)returned, (unsigned long)given->returns);
        return fails(given, what);
    }
    if (!is_as_expected(given, ANSWER, at_end))
        return fails(given, "the answer buffer is not as expected");
    if (!is_as_expected(given, TABLE, at_end))
        return fails(given, "the table, or the rows to write, are not as expected");
    if (!is_as_expected(given, TEXT, at_end))
        return fails(given, "the text, the buffer for a result, the rows to fill, or the list, are not as expected");
    if (!is_as_expected(given, OLD, at_end) || !is_as_expected(given, NEW, at_end))
        return fails(given, "a record, a copy, or the input, has changed");
    return true;
}

static unsigned cases, right;

static void run_cases(void)
{
    struct entry_case given = {0};
    while (packed < packed_end) {
        take_case(&given);
        cases++;
        if (run(&given, true) && run(&given, false))
            right++;
    }
}

static void run_on_painted_stack(void)
{
    static ucontext_t here, there;
    memset(stack, FILLER, sizeof stack);
    if (getcontext(&there) != 0) {
        puts("no stack of its own can be had");
        exit(2);
    }
    there.uc_stack.ss_sp = stack;
    there.uc_stack.ss_size = sizeof stack;
    there.uc_link = &here;
    makecontext(&there, run_cases, 0);
    swapcontext(&here, &there);
}

int main(int count, char **words)
{
    if (count != 2) {
        puts("usage: entries CASES");
        return 2;
    }
    load_cases(words[1]);
    make_rooms();
    catch_faults();
    run_on_painted_stack();
    printf("%u cases, %u as expected\n", cases, right);
    if (right != cases)
        return 1;
    printf("%zu of %d bytes of stack taken\n", stack_taken(), MISHTODRAN_STACK_BYTES);
    return stack_taken() < MISHTODRAN_STACK_BYTES ? 0 : 1;
}
