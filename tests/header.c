/* Holds the constants of mishtodran.h against the library: the version, the fields of the records in both forms, the
   limits, a table's numbers, those of a merge, of a conversion and of a salvage with its list, the layout of a row and
   the lengths of the answers.
   Tables and rows are made by the constants alone, and what the library says of each shows whether they are right.
   Usage: header */
#include "mishtodran.h"

#include <stdbool.h>
#include <stdio.h>
#include <string.h>

/* What the misses of chain 1 are refused with where its table is accepted and no largest distance is known. */
enum { ACCEPTED = MISHTODRAN_NO_GAP };

/* ---- Tables ---- */

/* The fields of a record follow one another, up to its end. */
#define FOLLOWS(field, next) \
    _Static_assert(MISHTODRAN_##next##_AT == MISHTODRAN_##field##_AT + MISHTODRAN_##field##_BYTES, #next)
FOLLOWS(CHAIN_MARK, CHAIN_ID);
FOLLOWS(CHAIN_ID, CHAIN_KIND);
FOLLOWS(CHAIN_KIND, CHAIN_OVERLOAD);
FOLLOWS(CHAIN_OVERLOAD, CHAIN_DEADLINE);
FOLLOWS(CHAIN_DEADLINE, CHAIN_GAP);
FOLLOWS(CHAIN_GAP, CHAIN_LISTED);
FOLLOWS(CHAIN_LISTED, CHAIN_TASKS);
FOLLOWS(CHAIN_TASKS, CHAIN_DISTANCES);
FOLLOWS(CHAIN_DEADLINE, CG_FLAG);
FOLLOWS(CG_FLAG, CG_LISTED);
FOLLOWS(CG_LISTED, CG_TASKS);
FOLLOWS(CG_TASKS, CG_DISTANCES);
FOLLOWS(TASK_MARK, TASK_PRIORITY);
FOLLOWS(TASK_PRIORITY, TASK_COST);
FOLLOWS(END_MARK, END_CHAINS);
FOLLOWS(STRETCH_OFFSET, STRETCH_LENGTH);
_Static_assert(MISHTODRAN_TASK_RECORD_BYTES == MISHTODRAN_TASK_COST_AT + MISHTODRAN_TASK_COST_BYTES, "task record");
_Static_assert(MISHTODRAN_END_RECORD_BYTES == MISHTODRAN_END_CHAINS_AT + MISHTODRAN_END_CHAINS_BYTES, "end record");
_Static_assert(MISHTODRAN_STRETCH_BYTES == MISHTODRAN_STRETCH_LENGTH_AT + MISHTODRAN_STRETCH_LENGTH_BYTES, "stretch");

/* An id and a priority may be all that their bytes hold. */
_Static_assert(MISHTODRAN_MOST_ID == (1 << 8 * MISHTODRAN_CHAIN_ID_BYTES) - 1, "id");
_Static_assert(MISHTODRAN_MOST_PRIORITY == (1 << 8 * MISHTODRAN_TASK_PRIORITY_BYTES) - 1, "priority");

/* A field of a row is as wide as that of its record, each place of one that has several, and a count is wider. */
#define ROW_BYTES(field) sizeof((struct mishtodran_row *)0)->field
_Static_assert(ROW_BYTES(form) == MISHTODRAN_CHAIN_MARK_BYTES, "form of a row");
_Static_assert(ROW_BYTES(id) == MISHTODRAN_CHAIN_ID_BYTES, "id of a row");
_Static_assert(ROW_BYTES(kind) == MISHTODRAN_CHAIN_KIND_BYTES, "kind of a row");
_Static_assert(ROW_BYTES(overload) == MISHTODRAN_CHAIN_OVERLOAD_BYTES, "overload of a row");
_Static_assert(ROW_BYTES(flag) == MISHTODRAN_CG_FLAG_BYTES, "flag of a row");
_Static_assert(ROW_BYTES(deadline) == MISHTODRAN_CHAIN_DEADLINE_BYTES, "deadline of a row");
_Static_assert(ROW_BYTES(gap) == MISHTODRAN_CHAIN_GAP_BYTES, "gap of a row");
_Static_assert(ROW_BYTES(listed) == 8 && ROW_BYTES(tasks) == 8, "counts of a row");
_Static_assert(ROW_BYTES(list) == MISHTODRAN_MOST_DISTANCES * MISHTODRAN_DISTANCE_BYTES, "list of a row");
_Static_assert(ROW_BYTES(largest) == ROW_BYTES(list), "largest list of a row");
_Static_assert(ROW_BYTES(priority) == MISHTODRAN_MOST_TASKS * MISHTODRAN_TASK_PRIORITY_BYTES, "priorities of a row");
_Static_assert(ROW_BYTES(cost) == MISHTODRAN_MOST_TASKS * MISHTODRAN_TASK_COST_BYTES, "costs of a row");

static void put(uint8_t *at, unsigned bytes, uint32_t value)
{
    for (unsigned i = 0; i < bytes; i++)
        at[i] = (uint8_t)(value >> 8 * i);
}

static void put_mark(uint8_t *at, const char *mark)
{
    at[0] = (uint8_t)mark[0];
    at[1] = (uint8_t)mark[1];
}

/* A task with each value as large as it may be. */
static void put_task(uint8_t *at)
{
    put_mark(at + MISHTODRAN_TASK_MARK_AT, "TK");
    put(at + MISHTODRAN_TASK_PRIORITY_AT, MISHTODRAN_TASK_PRIORITY_BYTES, MISHTODRAN_MOST_PRIORITY);
    put(at + MISHTODRAN_TASK_COST_AT, MISHTODRAN_TASK_COST_BYTES, MISHTODRAN_MOST_COST);
}

/* What a chain has: its form, the flag of "CG", and how many distances and tasks. */
struct shape {
    uint16_t form;
    uint8_t flag;
    unsigned listed, tasks;
};

static bool is_known(struct shape shape)
{
    return shape.form == MISHTODRAN_LARGEST_FORM && shape.flag == 1;
}

/* The fields in which the forms differ, of a chain without a gap. Gives back where the distances begin. */
static uint8_t *put_counts(uint8_t *at, struct shape shape)
{
    if (shape.form == MISHTODRAN_LARGEST_FORM) {
        put(at + MISHTODRAN_CG_FLAG_AT, MISHTODRAN_CG_FLAG_BYTES, shape.flag);
        put(at + MISHTODRAN_CG_LISTED_AT, MISHTODRAN_CG_LISTED_BYTES, shape.listed);
        put(at + MISHTODRAN_CG_TASKS_AT, MISHTODRAN_CG_TASKS_BYTES, shape.tasks);
        return at + MISHTODRAN_CG_DISTANCES_AT;
    }
    put(at + MISHTODRAN_CHAIN_GAP_AT, MISHTODRAN_CHAIN_GAP_BYTES, 0);
    put(at + MISHTODRAN_CHAIN_LISTED_AT, MISHTODRAN_CHAIN_LISTED_BYTES, shape.listed);
    put(at + MISHTODRAN_CHAIN_TASKS_AT, MISHTODRAN_CHAIN_TASKS_BYTES, shape.tasks);
    return at + MISHTODRAN_CHAIN_DISTANCES_AT;
}

/* A chain with each time as large as it may be, but no gap. Gives its end back. */
static uint8_t *put_chain(uint8_t *at, uint32_t id, struct shape shape)
{
    put(at + MISHTODRAN_CHAIN_MARK_AT, MISHTODRAN_CHAIN_MARK_BYTES, shape.form);
    put(at + MISHTODRAN_CHAIN_ID_AT, MISHTODRAN_CHAIN_ID_BYTES, id);
    put(at + MISHTODRAN_CHAIN_KIND_AT, MISHTODRAN_CHAIN_KIND_BYTES, 0);
    put(at + MISHTODRAN_CHAIN_OVERLOAD_AT, MISHTODRAN_CHAIN_OVERLOAD_BYTES, 0);
    put(at + MISHTODRAN_CHAIN_DEADLINE_AT, MISHTODRAN_CHAIN_DEADLINE_BYTES, MISHTODRAN_MOST_TIME);
    at = put_counts(at, shape);
    for (unsigned i = 0; i < shape.listed; i++, at += MISHTODRAN_DISTANCE_BYTES)
        put(at, MISHTODRAN_DISTANCE_BYTES, MISHTODRAN_MOST_TIME);
    for (unsigned i = 0; i < shape.listed && is_known(shape); i++, at += MISHTODRAN_DISTANCE_BYTES)
        put(at, MISHTODRAN_DISTANCE_BYTES, MISHTODRAN_MOST_LARGEST);
    for (unsigned i = 0; i < shape.tasks; i++, at += MISHTODRAN_TASK_RECORD_BYTES)
        put_task(at);
    return at;
}

static size_t put_table(uint8_t *table, unsigned chains, struct shape shape)
{
    uint8_t *at = table;
    for (unsigned i = 1; i <= chains; i++)
        at = put_chain(at, i, shape);
    put_mark(at + MISHTODRAN_END_MARK_AT, "EN");
    put(at + MISHTODRAN_END_CHAINS_AT, MISHTODRAN_END_CHAINS_BYTES, chains);
    return (size_t)(at - table) + MISHTODRAN_END_RECORD_BYTES;
}

/* The row of such a chain; what is not looked at stays. */
static void put_row(struct mishtodran_row *row, unsigned id, struct shape shape)
{
    row->form = shape.form;
    row->id = (uint16_t)id;
    row->kind = row->overload = 0;
    row->deadline = MISHTODRAN_MOST_TIME;
    if (shape.form == MISHTODRAN_GAP_FORM)
        row->gap = 0;
    else
        row->flag = shape.flag;
    row->listed = shape.listed;
    row->tasks = shape.tasks;
    for (unsigned i = 0; i < shape.listed; i++)
        row->list[i] = MISHTODRAN_MOST_TIME;
    for (unsigned i = 0; i < shape.listed && is_known(shape); i++)
        row->largest[i] = MISHTODRAN_MOST_LARGEST;
    for (unsigned i = 0; i < shape.tasks; i++) {
        row->priority[i] = MISHTODRAN_MOST_PRIORITY;
        row->cost[i] = MISHTODRAN_MOST_COST;
    }
}

/* The shortest chains: of "CH", of "CG", and of "CG" with a largest distance. */
static const struct shape gap_shape = {MISHTODRAN_GAP_FORM, 0, 1, 1};
static const struct shape largest_shape = {MISHTODRAN_LARGEST_FORM, 0, 1, 1};
static const struct shape known_shape = {MISHTODRAN_LARGEST_FORM, 1, 1, 1};

/* ---- Cases ---- */

static bool is_same(const char *what, unsigned long found, unsigned long wanted)
{
    if (found != wanted)
        printf("header: %s: %lu, not %lu\n", what, found, wanted);
    return found == wanted;
}

/* Whether the misses of chain 1 are refused with this number. */
static bool is_refused(const char *what, const uint8_t *table, size_t length, uint32_t k, uint32_t refusal)
{
    uint8_t answer[MISHTODRAN_MISSES_BYTES];
    return is_same(what, mishtodran_misses(table, length, 1, k, answer, sizeof answer), refusal);
}

/* Whether it is a table's number: the others leave the table accepted. */
static bool is_of_table(uint32_t refusal)
{
    return (refusal >= MISHTODRAN_TABLE_LENGTH && refusal <= MISHTODRAN_GAP) ||
           (refusal >= MISHTODRAN_TASK_COUNT && refusal <= MISHTODRAN_END) ||
           (refusal >= MISHTODRAN_LIST_LENGTH && refusal <= MISHTODRAN_GAP_TOO_SMALL) || refusal == MISHTODRAN_LARGEST;
}

static uint32_t get(const uint8_t *at)
{
    return at[0] | (uint32_t)at[1] << 8 | (uint32_t)at[2] << 16 | (uint32_t)at[3] << 24;
}

/* Whether a check gives this number and this offset; 0 and 0 where the number is not a table's. */
static bool is_placed(const char *what, const uint8_t *table, size_t length, uint32_t refusal, size_t at)
{
    uint8_t answer[MISHTODRAN_CHECK_BYTES];
    bool refused = is_of_table(refusal);
    return is_same(what, mishtodran_check(table, length, answer, sizeof answer), 0) &&
           is_same(what, get(answer), refused ? refusal : 0) && is_same(what, get(answer + 4), refused ? at : 0);
}

/* A value for a field in a table of one such chain. */
struct field_case {
    const struct shape *shape;
    const char *what;
    size_t at;
    unsigned bytes;
    uint32_t value, refusal;
};

#define CHAIN(field) &gap_shape, "chain " #field, MISHTODRAN_CHAIN_##field##_AT, MISHTODRAN_CHAIN_##field##_BYTES
#define DISTANCE &gap_shape, "distance", MISHTODRAN_CHAIN_DISTANCES_AT, MISHTODRAN_DISTANCE_BYTES
#define TASK_FROM (MISHTODRAN_CHAIN_DISTANCES_AT + MISHTODRAN_DISTANCE_BYTES)
#define TASK(field) \
    &gap_shape, "task " #field, TASK_FROM + MISHTODRAN_TASK_##field##_AT, MISHTODRAN_TASK_##field##_BYTES
#define END_FROM (TASK_FROM + MISHTODRAN_TASK_RECORD_BYTES)
#define END(field) &gap_shape, "end " #field, END_FROM + MISHTODRAN_END_##field##_AT, MISHTODRAN_END_##field##_BYTES
#define CG_AND_CHAIN(field) \
    &largest_shape, "CG " #field, MISHTODRAN_CHAIN_##field##_AT, MISHTODRAN_CHAIN_##field##_BYTES
#define CG(field) &largest_shape, "CG " #field, MISHTODRAN_CG_##field##_AT, MISHTODRAN_CG_##field##_BYTES
#define CG_DISTANCE &known_shape, "CG distance", MISHTODRAN_CG_DISTANCES_AT, MISHTODRAN_DISTANCE_BYTES
#define LARGEST_FROM (MISHTODRAN_CG_DISTANCES_AT + MISHTODRAN_DISTANCE_BYTES)
#define LARGEST &known_shape, "largest distance", LARGEST_FROM, MISHTODRAN_DISTANCE_BYTES
#define CG_TASK_FROM (LARGEST_FROM + MISHTODRAN_DISTANCE_BYTES)
#define CG_TASK(field) \
    &known_shape, "CG task " #field, CG_TASK_FROM + MISHTODRAN_TASK_##field##_AT, MISHTODRAN_TASK_##field##_BYTES

static const struct field_case field_cases[] = {
    {CHAIN(MARK), 0, MISHTODRAN_MARK},
    {CHAIN(ID), 0, MISHTODRAN_ID},
    {CHAIN(ID), MISHTODRAN_MOST_ID, MISHTODRAN_UNKNOWN_ID},
    {CHAIN(KIND), 1, ACCEPTED},
    {CHAIN(KIND), 2, MISHTODRAN_KIND},
    {CHAIN(OVERLOAD), 1, MISHTODRAN_OF_OVERLOAD},
    {CHAIN(OVERLOAD), 2, MISHTODRAN_KIND},
    {CHAIN(DEADLINE), 0, MISHTODRAN_DEADLINE},
    {CHAIN(DEADLINE), MISHTODRAN_MOST_TIME + 1, MISHTODRAN_DEADLINE},
    {CHAIN(GAP), MISHTODRAN_MOST_TIME, 0},
    {CHAIN(GAP), MISHTODRAN_MOST_TIME - 1, MISHTODRAN_GAP_TOO_SMALL},
    {CHAIN(GAP), MISHTODRAN_MOST_TIME + 1, MISHTODRAN_GAP},
    {CHAIN(LISTED), 0, MISHTODRAN_LIST_LENGTH},
    {CHAIN(LISTED), MISHTODRAN_MOST_DISTANCES + 1, MISHTODRAN_LIST_LENGTH},
    {CHAIN(TASKS), 0, MISHTODRAN_TASK_COUNT},
    {CHAIN(TASKS), MISHTODRAN_MOST_TASKS + 1, MISHTODRAN_TASK_COUNT},
    {DISTANCE, 0, MISHTODRAN_LAST_DISTANCE},
    {DISTANCE, MISHTODRAN_MOST_TIME + 1, MISHTODRAN_DISTANCE},
    {TASK(MARK), 0, MISHTODRAN_MARK},
    {TASK(PRIORITY), 0, MISHTODRAN_TASK},
    {TASK(COST), 0, MISHTODRAN_TASK},
    {TASK(COST), MISHTODRAN_MOST_COST + 1, MISHTODRAN_TASK},
    {END(MARK), 0, MISHTODRAN_MARK},
    {END(CHAINS), 2, MISHTODRAN_END},
    {CG_AND_CHAIN(MARK), 0, MISHTODRAN_MARK},
    {CG_AND_CHAIN(ID), 0, MISHTODRAN_ID},
    {CG_AND_CHAIN(KIND), 1, ACCEPTED},
    {CG_AND_CHAIN(KIND), 2, MISHTODRAN_KIND},
    {CG_AND_CHAIN(OVERLOAD), 2, MISHTODRAN_KIND},
    {CG_AND_CHAIN(DEADLINE), 0, MISHTODRAN_DEADLINE},
    {CG(FLAG), 0, ACCEPTED},
    {CG(FLAG), 2, MISHTODRAN_LARGEST},
    {CG(LISTED), 0, MISHTODRAN_LIST_LENGTH},
    {CG(LISTED), MISHTODRAN_MOST_DISTANCES + 1, MISHTODRAN_LIST_LENGTH},
    {CG(TASKS), 0, MISHTODRAN_TASK_COUNT},
    {CG(TASKS), MISHTODRAN_MOST_TASKS + 1, MISHTODRAN_TASK_COUNT},
    {CG_DISTANCE, 0, MISHTODRAN_LAST_DISTANCE},
    {CG_DISTANCE, MISHTODRAN_MOST_TIME + 1, MISHTODRAN_DISTANCE},
    {LARGEST, MISHTODRAN_MOST_LARGEST, 0},
    {LARGEST, MISHTODRAN_MOST_TIME, 0},
    {LARGEST, MISHTODRAN_MOST_TIME - 1, MISHTODRAN_LARGEST},
    {LARGEST, MISHTODRAN_MOST_LARGEST + 1, MISHTODRAN_LARGEST},
    {CG_TASK(MARK), 0, MISHTODRAN_MARK},
    {CG_TASK(PRIORITY), 0, MISHTODRAN_TASK},
    {CG_TASK(COST), MISHTODRAN_MOST_COST + 1, MISHTODRAN_TASK},
};

static bool fields_hold(void)
{
    bool right = true;
    for (size_t i = 0; i < sizeof field_cases / sizeof *field_cases; i++) {
        const struct field_case *field = &field_cases[i];
        uint8_t table[MISHTODRAN_MOST_TABLE_BYTES];
        size_t length = put_table(table, 1, *field->shape);
        put(table + field->at, field->bytes, field->value);
        right &= is_refused(field->what, table, length, 1, field->refusal);
        right &= is_placed(field->what, table, length, field->refusal, field->at);
    }
    return right;
}

/* Chains of one shape; the table's length, or 0 where the header has none for it. The longest chains cost so much that
   they have no window. */
struct count_case {
    const char *what;
    unsigned chains;
    struct shape shape;
    size_t length;
    uint32_t refusal;
};

enum {
    SHORTEST = MISHTODRAN_LEAST_CHAIN_RECORD_BYTES + MISHTODRAN_END_RECORD_BYTES,
    LONGEST_OF_ONE = MISHTODRAN_MOST_CHAIN_RECORD_BYTES + MISHTODRAN_END_RECORD_BYTES,
    LONGEST = MISHTODRAN_MOST_TABLE_BYTES,
    GAP_LONGEST = MISHTODRAN_MOST_GAP_TABLE_BYTES,
    WIDE = MISHTODRAN_MOST_ALL_TASKS / MISHTODRAN_MOST_TASKS,   /* chains of the most tasks */
    NARROW = MISHTODRAN_MOST_ALL_TASKS / MISHTODRAN_MOST_CHAINS /* tasks of the most chains */
};

_Static_assert(MISHTODRAN_MOST_ALL_TASKS == WIDE * MISHTODRAN_MOST_TASKS, "all tasks");

#define OF_GAP(listed, tasks) {MISHTODRAN_GAP_FORM, 0, listed, tasks}
#define OF_LARGEST(flag, listed, tasks) {MISHTODRAN_LARGEST_FORM, flag, listed, tasks}

static const struct count_case count_cases[] = {
    {"the shortest record", 1, OF_LARGEST(0, 1, 1), SHORTEST, ACCEPTED},
    {"the longest record", 1, OF_LARGEST(1, MISHTODRAN_MOST_DISTANCES, MISHTODRAN_MOST_TASKS), LONGEST_OF_ONE,
     MISHTODRAN_NO_WINDOW},
    {"the longest table", MISHTODRAN_MOST_CHAINS, OF_LARGEST(1, MISHTODRAN_MOST_DISTANCES, NARROW), LONGEST,
     MISHTODRAN_NO_WINDOW},
    {"the longest table of CH", MISHTODRAN_MOST_CHAINS, OF_GAP(MISHTODRAN_MOST_DISTANCES, NARROW), GAP_LONGEST,
     ACCEPTED},
    {"a chain too many", MISHTODRAN_MOST_CHAINS + 1, OF_GAP(1, 1), 0, MISHTODRAN_END},
    {"a chain of CG too many", MISHTODRAN_MOST_CHAINS + 1, OF_LARGEST(1, 1, 1), 0, MISHTODRAN_END},
    {"all tasks", WIDE, OF_GAP(1, MISHTODRAN_MOST_TASKS), 0, ACCEPTED},
    {"all tasks of CG", WIDE, OF_LARGEST(0, 1, MISHTODRAN_MOST_TASKS), 0, ACCEPTED},
    {"more tasks", WIDE + 1, OF_GAP(1, MISHTODRAN_MOST_TASKS), 0, MISHTODRAN_TASK_COUNT},
    {"more tasks of CG", WIDE + 1, OF_LARGEST(0, 1, MISHTODRAN_MOST_TASKS), 0, MISHTODRAN_TASK_COUNT},
};

static bool limits_hold(void)
{
    bool right = true;
    static uint8_t table[2 * MISHTODRAN_MOST_TABLE_BYTES];
    for (size_t i = 0; i < sizeof count_cases / sizeof *count_cases; i++) {
        const struct count_case *count = &count_cases[i];
        size_t length = put_table(table, count->chains, count->shape);
        right &= count->length == 0 || is_same(count->what, length, count->length);
        right &= is_refused(count->what, table, length, 1, count->refusal);
    }
    size_t length = put_table(table, 1, gap_shape);
    right &= is_refused("a byte too many", table, GAP_LONGEST + 1, 1, MISHTODRAN_TABLE_LENGTH);
    right &= is_refused("as many as a table has", table, GAP_LONGEST, 1, MISHTODRAN_END);
    right &= is_refused("the longest run", table, length, MISHTODRAN_MOST_RUN, ACCEPTED);
    right &= is_refused("a longer run", table, length, MISHTODRAN_MOST_RUN + 1, MISHTODRAN_RUN_LENGTH);
    put_table(table, 1, largest_shape);
    right &= is_refused("a byte of CG too many", table, LONGEST + 1, 1, MISHTODRAN_TABLE_LENGTH);
    return right & is_refused("as many as a table of CG has", table, LONGEST, 1, MISHTODRAN_END);
}

/* Whether the merge into so many bytes is refused with this number: the ancestor has chain 1 with one task, the copies
   with as many as these. */
static bool is_merged(const char *what, unsigned first_tasks, unsigned second_tasks, size_t room, uint32_t refusal)
{
    uint8_t ancestor[LONGEST_OF_ONE], first[LONGEST_OF_ONE], second[LONGEST_OF_ONE], buffer[LONGEST_OF_ONE];
    uint8_t answer[MISHTODRAN_MERGE_BYTES];
    struct shape one = largest_shape, other = largest_shape;
    one.tasks = first_tasks;
    other.tasks = second_tasks;
    size_t length = put_table(ancestor, 1, largest_shape);
    size_t first_length = put_table(first, 1, one), second_length = put_table(second, 1, other);
    return is_same(what, mishtodran_merge(ancestor, length, first, first_length, second, second_length, buffer, room,
                                          answer, sizeof answer), refusal);
}

/* Whether the merge of a copy in each form, with one chain each that the ancestor has not, is a mark's fault. */
static bool is_mixed(void)
{
    uint8_t ancestor[LONGEST_OF_ONE], first[LONGEST_OF_ONE], second[LONGEST_OF_ONE], buffer[LONGEST_OF_ONE];
    uint8_t answer[MISHTODRAN_MERGE_BYTES];
    size_t length = put_table(ancestor, 1, gap_shape), first_length = put_table(first, 1, gap_shape);
    size_t second_length = put_table(second, 1, largest_shape);
    put(first + MISHTODRAN_CHAIN_ID_AT, MISHTODRAN_CHAIN_ID_BYTES, 2);
    put(second + MISHTODRAN_CHAIN_ID_AT, MISHTODRAN_CHAIN_ID_BYTES, 3);
    return is_same("both forms", mishtodran_merge(ancestor, length, first, first_length, second, second_length, buffer,
                                                  sizeof buffer, answer, sizeof answer), MISHTODRAN_MARK);
}

static bool merges_hold(void)
{
    bool right = is_merged("a merge", 1, MISHTODRAN_MOST_TASKS, LONGEST_OF_ONE, 0);
    right &= is_merged("a merge without room", 1, 1, SHORTEST - 1, MISHTODRAN_BUFFER_TOO_SHORT);
    right &= is_merged("a conflict", 2, 3, LONGEST_OF_ONE, MISHTODRAN_IN_CONFLICT);
    return right & is_mixed();
}

/* Whether a full table of "CH" whose chains have the greatest gap becomes the longest one of "CG", and that the same
   bytes again. */
static bool conversions_hold(void)
{
    static const struct shape full = OF_GAP(MISHTODRAN_MOST_DISTANCES, NARROW);
    uint8_t table[GAP_LONGEST], back[GAP_LONGEST], largest[LONGEST], answer[MISHTODRAN_TO_LARGEST_BYTES];
    size_t length = put_table(table, MISHTODRAN_MOST_CHAINS, full), room = sizeof answer;
    size_t record = (length - MISHTODRAN_END_RECORD_BYTES) / MISHTODRAN_MOST_CHAINS;
    for (unsigned i = 0; i < MISHTODRAN_MOST_CHAINS; i++)
        put(table + i * record + MISHTODRAN_CHAIN_GAP_AT, MISHTODRAN_CHAIN_GAP_BYTES, MISHTODRAN_MOST_TIME);
    bool right = is_same("to CG", mishtodran_to_largest(table, length, largest, LONGEST, answer, room), 0) &&
                 is_same("to CG", get(answer), LONGEST) &&
                 is_same("to CH", mishtodran_to_gap(largest, LONGEST, back, length, answer, room), 0) &&
                 is_same("to CH", get(answer), length) &&
                 is_same("to CH", (unsigned long)memcmp(back, table, length), 0);
    right &= is_same("to CG without room", mishtodran_to_largest(table, length, largest, LONGEST - 1, answer, room),
                     MISHTODRAN_BUFFER_TOO_SHORT);
    right &= is_same("in the form asked", mishtodran_to_gap(table, length, back, length, answer, room),
                     MISHTODRAN_NO_FORM);
    length = put_table(largest, 1, known_shape);
    return right & is_same("a gap too large", mishtodran_to_gap(largest, length, back, sizeof back, answer, room),
                           MISHTODRAN_NO_FORM);
}

/* What a salvage writes. */
static uint8_t salvaged[LONGEST], skipped[MISHTODRAN_LONGEST_LIST];

/* Whether it is refused with this number, with so many bytes for the table and for the list. */
static bool is_not_salvaged(const char *what, const uint8_t *input, size_t length, size_t room, size_t list_room,
                            uint32_t refusal)
{
    uint8_t answer[MISHTODRAN_SALVAGE_BYTES];
    return is_same(what, mishtodran_salvage(input, length, salvaged, room, skipped, list_room, answer, sizeof answer),
                   refusal);
}

/* Whether it comes to a table and a list of these lengths, with just as many bytes for each. */
static bool is_salvaged(const char *what, const uint8_t *input, size_t length, size_t table, size_t list)
{
    uint8_t answer[MISHTODRAN_SALVAGE_BYTES];
    return is_same(what, mishtodran_salvage(input, length, salvaged, table, skipped, list, answer, sizeof answer), 0) &&
           is_same(what, get(answer), table) && is_same(what, get(answer + 4), list);
}

/* Whether this stretch of the list, from 0, is so long and begins there. */
static bool is_skipped(const char *what, unsigned number, size_t offset, size_t length)
{
    const uint8_t *stretch = skipped + number * MISHTODRAN_STRETCH_BYTES;
    return is_same(what, get(stretch + MISHTODRAN_STRETCH_OFFSET_AT), offset) &&
           is_same(what, get(stretch + MISHTODRAN_STRETCH_LENGTH_AT), length);
}

/* Whether as many chains as there can be, with a byte before each, make the longest list. */
static bool stretches_hold(void)
{
    uint8_t input[LONGEST], *at = input;
    for (unsigned i = 1; i <= MISHTODRAN_MOST_CHAINS; i++) {
        *at = 0;
        at = put_chain(at + 1, i, largest_shape);
    }
    size_t length = (size_t)(at - input), table = length - MISHTODRAN_MOST_CHAINS + MISHTODRAN_END_RECORD_BYTES;
    bool right = is_salvaged("the longest list", input, length, table, MISHTODRAN_LONGEST_LIST);
    for (unsigned i = 0; i < MISHTODRAN_MOST_CHAINS; i++)
        right &= is_skipped("the longest list", i, i * (MISHTODRAN_LEAST_CHAIN_RECORD_BYTES + 1), 1);
    return right & is_not_salvaged("a list without room", input, length, table, MISHTODRAN_LONGEST_LIST - 1,
                                   MISHTODRAN_BUFFER_TOO_SHORT);
}

/* Whether the longest table comes back, and of one of one chain its end record, and what follows it, is skipped. */
static bool salvages_hold(void)
{
    static const struct shape full = OF_LARGEST(1, MISHTODRAN_MOST_DISTANCES, NARROW);
    static uint8_t input[MISHTODRAN_MOST_INPUT_BYTES + 1];
    size_t longest_input = MISHTODRAN_MOST_INPUT_BYTES, list = MISHTODRAN_STRETCH_BYTES;
    bool right = is_not_salvaged("nothing", input, longest_input, 0, 0, MISHTODRAN_NOTHING_KEPT);
    right &= is_not_salvaged("a byte of input too many", input, longest_input + 1, 0, 0, MISHTODRAN_INPUT_TOO_LONG);
    size_t length = put_table(input, 1, gap_shape), kept = length - MISHTODRAN_END_RECORD_BYTES;
    right &= is_salvaged("a table", input, length, length, list) &&
             is_skipped("a table", 0, kept, MISHTODRAN_END_RECORD_BYTES);
    right &= is_salvaged("the longest input", input, longest_input, length, list) &&
             is_skipped("the longest input", 0, kept, longest_input - kept);
    length = put_table(input, MISHTODRAN_MOST_CHAINS, full);
    right &= is_salvaged("the longest table", input, length, LONGEST, 0) &&
             is_same("the longest table", (unsigned long)memcmp(salvaged, input, length), 0);
    right &= is_not_salvaged("a table without room", input, length, LONGEST - 1, 0, MISHTODRAN_BUFFER_TOO_SHORT);
    return right & stretches_hold();
}

/* Whether the lists of a row are those of the other one, with 0 in the places past its counts. */
static bool has_same_lists(const char *what, const struct mishtodran_row *found, const struct mishtodran_row *wanted)
{
    bool right = true;
    uint64_t known = wanted->form == MISHTODRAN_LARGEST_FORM && wanted->flag == 1 ? wanted->listed : 0;
    for (unsigned i = 0; i < MISHTODRAN_MOST_DISTANCES; i++) {
        right &= is_same(what, found->list[i], i < wanted->listed ? wanted->list[i] : 0);
        right &= is_same(what, found->largest[i], i < known ? wanted->largest[i] : 0);
    }
    for (unsigned i = 0; i < MISHTODRAN_MOST_TASKS; i++) {
        right &= is_same(what, found->priority[i], i < wanted->tasks ? wanted->priority[i] : 0);
        right &= is_same(what, found->cost[i], i < wanted->tasks ? wanted->cost[i] : 0);
    }
    return right;
}

/* Whether a row is the other one, with 0 in what a write does not look at. */
static bool is_same_row(const char *what, const struct mishtodran_row *found, const struct mishtodran_row *wanted)
{
    bool has_gap = wanted->form == MISHTODRAN_GAP_FORM;
    return is_same(what, found->form, wanted->form) && is_same(what, found->id, wanted->id) &&
           is_same(what, found->kind, wanted->kind) && is_same(what, found->overload, wanted->overload) &&
           is_same(what, found->flag, has_gap ? 0 : wanted->flag) && is_same(what, found->deadline, wanted->deadline) &&
           is_same(what, found->gap, has_gap ? wanted->gap : 0) && is_same(what, found->listed, wanted->listed) &&
           is_same(what, found->tasks, wanted->tasks) && has_same_lists(what, found, wanted);
}

/* Whether rows are written as this table and read back, or refused with its number. */
static bool is_written(const char *what, const struct mishtodran_row *rows, unsigned count, const uint8_t *table,
                       size_t length, uint32_t refusal)
{
    static struct mishtodran_row found[MISHTODRAN_MOST_CHAINS];
    static uint8_t buffer[MISHTODRAN_MOST_TABLE_BYTES];
    uint8_t answer[MISHTODRAN_WRITE_BYTES], read_answer[MISHTODRAN_READ_BYTES];
    uint32_t returned = mishtodran_write(rows, count, buffer, sizeof buffer, answer, sizeof answer);
    if (is_of_table(refusal))
        return is_same(what, returned, refusal);
    if (!is_same(what, returned, 0) || !is_same(what, get(answer), length) ||
        !is_same(what, (unsigned long)memcmp(buffer, table, length), 0) ||
        !is_same(what, mishtodran_read(buffer, length, found, count, read_answer, sizeof read_answer), 0) ||
        !is_same(what, get(read_answer), count))
        return false;
    bool right = true;
    for (unsigned i = 0; i < count; i++)
        right &= is_same_row(what, &found[i], &rows[i]);
    return right;
}

/* The records of a table stand where its constants say. */
static bool is_found(const char *what, const uint8_t *table, size_t length, unsigned count)
{
    uint8_t answer[MISHTODRAN_RECORD_BYTES];
    size_t record = (length - MISHTODRAN_END_RECORD_BYTES) / count;
    bool right = true;
    for (unsigned i = 0; i < count; i++)
        right &= is_same(what, mishtodran_record(table, length, i + 1, answer, sizeof answer), 0) &&
                 is_same(what, get(answer), i * record) && is_same(what, get(answer + 4), record);
    return right & is_same(what, mishtodran_record(table, length, count + 1, answer, sizeof answer),
                           MISHTODRAN_UNKNOWN_ID);
}

static bool rows_hold(void)
{
    bool right = true;
    static uint8_t table[2 * MISHTODRAN_MOST_TABLE_BYTES];
    static struct mishtodran_row rows[MISHTODRAN_MOST_CHAINS + 1];
    memset(rows, 0xA5, sizeof rows);
    for (size_t i = 0; i < sizeof count_cases / sizeof *count_cases; i++) {
        const struct count_case *count = &count_cases[i];
        size_t length = put_table(table, count->chains, count->shape);
        for (unsigned j = 0; j < count->chains; j++)
            put_row(&rows[j], j + 1, count->shape);
        right &= is_written(count->what, rows, count->chains, table, length, count->refusal);
        if (!is_of_table(count->refusal))
            right &= is_found(count->what, table, length, count->chains);
    }
    put_row(&rows[0], 1, gap_shape);
    put_row(&rows[1], 2, largest_shape);
    right &= is_written("rows of both forms", rows, 2, NULL, 0, MISHTODRAN_MARK);
    rows->listed = MISHTODRAN_MOST_DISTANCES + 1;
    right &= is_written("a distance too many", rows, 1, NULL, 0, MISHTODRAN_LIST_LENGTH);
    rows->listed = 1;
    rows->tasks = MISHTODRAN_MOST_TASKS + 1;
    right &= is_written("a task too many", rows, 1, NULL, 0, MISHTODRAN_TASK_COUNT);
    return right & is_written("no row", rows, 0, NULL, 0, MISHTODRAN_END);
}

/* An entry takes an answer buffer of its length, and none that is shorter. */
#define FITS(entry, call) \
    (length = MISHTODRAN_##entry##_BYTES, is_same(#entry, (call) == MISHTODRAN_ANSWER_TOO_SHORT, false)) && \
        (length = MISHTODRAN_##entry##_BYTES - 1, is_same(#entry, call, MISHTODRAN_ANSWER_TOO_SHORT))

static bool answers_hold(void)
{
    uint8_t table[MISHTODRAN_MOST_TABLE_BYTES], old[MISHTODRAN_LEAST_CHAIN_RECORD_BYTES];
    uint8_t answer[MISHTODRAN_LATENCY_BYTES], text[MISHTODRAN_LONGEST_REPORT], list[MISHTODRAN_LONGEST_LIST];
    struct mishtodran_row row;
    size_t used = put_table(table, 1, largest_shape), length;
    put_chain(old, 1, largest_shape);
    put_row(&row, 1, largest_shape);
    return FITS(CHECK, mishtodran_check(table, used, answer, length)) &&
           FITS(LATENCY, mishtodran_latency(table, used, 1, answer, length)) &&
           FITS(MISSES, mishtodran_misses(table, used, 1, 1, answer, length)) &&
           FITS(MISSES_PLAIN, mishtodran_misses_plain(table, used, 1, 1, answer, length)) &&
           FITS(MISSES_AT_MOST, mishtodran_misses_at_most(table, used, 1, 1, answer, length)) &&
           FITS(SEGMENT, mishtodran_segment(table, used, 1, 1, 1, answer, length)) &&
           FITS(SAVE, mishtodran_save(table, sizeof table, used, old, sizeof old, old, sizeof old, answer, length)) &&
           FITS(MERGE, mishtodran_merge(table, used, table, used, table, used, text, sizeof text, answer, length)) &&
           FITS(CONFLICT, mishtodran_conflict(table, used, table, used, table, used, 0, answer, length)) &&
           FITS(READ, mishtodran_read(table, used, &row, 1, answer, length)) &&
           FITS(WRITE, mishtodran_write(&row, 1, text, sizeof text, answer, length)) &&
           FITS(RECORD, mishtodran_record(table, used, 1, answer, length)) &&
           FITS(TO_LARGEST, mishtodran_to_largest(table, used, text, sizeof text, answer, length)) &&
           FITS(TO_GAP, mishtodran_to_gap(table, used, text, sizeof text, answer, length)) &&
           FITS(SALVAGE, mishtodran_salvage(table, used, text, sizeof text, list, sizeof list, answer, length)) &&
           FITS(REPORT, mishtodran_report(table, used, text, sizeof text, answer, length));
}

int main(void)
{
    bool version = is_same("version of the library", mishtodran_version(), MISHTODRAN_VERSION);
    bool fields = fields_hold(), limits = limits_hold(), merges = merges_hold(), rows = rows_hold();
    bool conversions = conversions_hold(), salvages = salvages_hold(), answers = answers_hold();
    if (!version || !fields || !limits || !merges || !rows || !conversions || !salvages || !answers)
        return 1;
    puts("the header's version, fields, limits, numbers, rows and answers are the library's");
    return 0;
}
