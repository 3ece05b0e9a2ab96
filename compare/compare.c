/* Holds the entries of mishtodran.h against the plain analyzer, on generated tables.
   Usage: compare SEED N

   Makes N tables from SEED, of both forms, and for each some to be merged, some rows to be written and some wrecks to be
   salvaged, asks both every question about them, and stops at the first difference, with the tables or the rows and the
   call. Latency and misses are asked of the plain one by the former rule of smallest distances too: none has grown. */
#include "../include/mishtodran.h"
#include "analyzer.h"
#include "generate.h"
#include "words.h"

#include <inttypes.h>
#include <signal.h>
#include <stdio.h>
#include <stdlib.h>
#include <string.h>

enum {
    LATENCY,
    MISSES,
    MISSES_PLAIN,
    MISSES_AT_MOST,
    SEGMENT,
    RECORD,
    CHECK,
    SAVE,
    MERGE,
    CONFLICT,
    READ,
    WRITE,
    TO_LARGEST,
    TO_GAP,
    SALVAGE,
    REPORT,
    ENTRIES
};
enum { LONGEST_RECORD = 4096, ANSWER_ROOM = 32, TEXT_ROOM = MISHTODRAN_LONGEST_REPORT + 32, NUMBERS = 37 };
enum { MERGE_ROOM = 2 * MISHTODRAN_MOST_TABLE_BYTES + 64 }; /* more than any merge takes */
enum { WRITE_ROOM = MISHTODRAN_MOST_TABLE_BYTES + 64, READ_ROOM = MISHTODRAN_MOST_CHAINS + 4 };
enum { SKIPPED_BYTES = 8, LIST_ROOM = MISHTODRAN_MOST_CHAINS * SKIPPED_BYTES + 16 }; /* more than any list takes */
enum { MANY_ARRIVALS = 1000000 };  /* of one chain in a window: too many to be counted one by one */
enum { MOST_PACKINGS = 100000 };   /* of a call that the engine which goes through every packing is asked */
enum { MOST_STEPS = 1000000 };     /* of the climbs to all windows of a table that is asked by the former rule too */

static const char *const entry_name[] = {"latency", "misses", "misses plain", "misses at most", "segment",
                                         "record",  "check",  "save",         "merge",          "conflict",
                                         "read",    "write",  "to largest",   "to gap",         "salvage",
                                         "report"};
static const size_t answer_bytes[] = {16, 4, 4, 4, 8, 8, 8};
static const char *const with_many[] = {"latency, over a million arrivals", "misses, over a million arrivals",
                                        "misses plain, over a million arrivals",
                                        "misses at most, over a million arrivals"};
static const char *const with_unadded[] = {"latency, a list that does not add up", "misses, a list that does not add up",
                                           "misses plain, a list that does not add up",
                                           "misses at most, a list that does not add up"};

/* What decides a merge: one of its tables, or all of them together where each is accepted. */
enum { ANCESTOR, FIRST, SECOND, TOGETHER, DECIDERS };
static const char *const decided_by[] = {"merge, by the ancestor", "merge, by the first copy",
                                         "merge, by the second copy", "merge, by all three"};

/* What an entry's numbers and answers come from, and how often that has been so. */
struct tally {
    const char *what;
    unsigned count;
    const char *const *name;
    uint64_t *met;
};

/* What the misses that are answered come from; and the capacity that is refused before the answer could be k. */
enum { NONE_LATE, NONE_BAD, BELOW_K, EXACTLY_K, ABOVE_K, WITHOUT_OVERLOAD, NO_OVERLOAD_CHAIN, CAPACITY_FIRST, GROUNDS };
static const char *const ground_name[] = {"no activation late",
                                          "late, no combination bad",
                                          "packing figure below k",
                                          "packing figure k",
                                          "packing figure above k",
                                          "k, a miss without overload",
                                          "k, a miss and no overload chain",
                                          "21 before a miss without overload"};

/* What the number that misses do not exceed comes from, and how it stands to them. */
enum { OF_NONE_LATE, AS_MISSES, ABOVE_MISSES, K_BY_USES, K_BY_EMPTY, K_WITHOUT_OVERLOAD, AT_MOST_GROUNDS };
static const char *const at_most_name[] = {"no activation late",
                                           "the misses themselves",
                                           "above the misses and below k",
                                           "k, and above the misses, by uses",
                                           "k, the empty set called bad though it is not",
                                           "k, a miss without overload"};

/* What a latency comes to by smallest distances that add up, beside the former rule: more than one of these may hold. */
enum { SMALLER_K, SMALLER_LATENCY, FEWER_LATE, FIGURE_FOR_16, FIGURE_FOR_17, LATENCY_OF_MANY, LATENCY_CHANGES };
static const char *const latency_change[] = {"a smaller K than by whole lists",
                                             "a smaller latency than by whole lists",
                                             "fewer late than by whole lists",
                                             "a figure, by whole lists 16",
                                             "a figure, by whole lists 17",
                                             "other than by whole lists, over a million arrivals"};

/* The same of misses, and of the number that they do not exceed. */
enum {
    MISSES_FOR_16,
    MISSES_FOR_17,
    MISSES_FOR_18,
    MISSES_FOR_19,
    MISSES_FOR_21,
    FEWER_MISSES,
    MISSES_OF_MANY,
    MISSES_CHANGES
};
static const char *const misses_change[] = {"a figure, by whole lists 16",
                                            "a figure, by whole lists 17",
                                            "a figure, by whole lists 18",
                                            "a figure, by whole lists 19",
                                            "a figure, by whole lists 21",
                                            "fewer than by whole lists",
                                            "other than by whole lists, over a million arrivals"};
enum { BOUND_BELOW, BOUND_ABOVE, BOUND_CHANGES };
static const char *const bound_change[] = {"below that by whole lists", "above that by whole lists"};

/* The lists of smallest distances in a table whose figures are answered: of one that does not add up its best step, which has
   the greatest distance for its length. */
enum { GOES_ON_AS_LISTED, ADDS_UP_AS_LISTED, BEST_STEP, LIST_GROUNDS = BEST_STEP + 8 };
static const char *const list_name[] = {"a list that goes on by whole lists", "a list that adds up, but not past its end",
                                        "one that does not, best step 1",     "one that does not, best step 2",
                                        "one that does not, best step 3",     "one that does not, best step 4",
                                        "one that does not, best step 5",     "one that does not, best step 6",
                                        "one that does not, best step 7",     "one that does not, best step 8"};

/* What a check comes to where it is the form that decides. Of a largest distance that is at fault, the only reason. */
enum {
    LONG_TABLE,
    TOO_LONG_FOR_GAPS,
    TOO_LONG,
    OTHER_FORM,
    OTHER_FORM_17TH,
    LARGEST_17TH,
    LARGEST_CUT,
    BAD_FLAG,
    LARGEST_TOO_FAR,
    LARGEST_FALLS,
    LARGEST_BELOW,
    CHECK_GROUNDS
};
static const char *const check_name[] = {"accepted, over 1,284 bytes",
                                         "1, over 1,284 bytes and not CG",
                                         "1, over 1,748 bytes",
                                         "3, another form than the first",
                                         "3, another form than the first, the 17th",
                                         "11, the 17th of CG",
                                         "2, the largest distances cut",
                                         "33, the flag",
                                         "33, a largest distance above 80,000,000",
                                         "33, a largest distance that falls",
                                         "33, a largest distance below the smallest"};

/* What a save comes to where the new record has another form than the old one, or is one of CG. */
enum { SAVED_OTHERWISE, BESIDE_OTHERS, TOO_LONG_OTHERWISE, NO_LIST_NO_TASK, SAVED_FLAG, LONG_SAVED, SAVE_GROUNDS };
static const char *const save_name[] = {"accepted, another form",
                                        "3, another form than the others",
                                        "1, another form, another limit",
                                        "28, a record of 13 bytes",
                                        "33, a flag above 1",
                                        "accepted, over 1,284 bytes"};

/* What a merge of accepted tables comes to where they have both forms. */
enum { BY_CONVERTED_FIRST, BY_CONVERTED_SECOND, BY_BOTH_CONVERTED, BOTH_FORMS, BOTH_FORMS_LONG, MERGE_GROUNDS };
static const char *const merge_name[] = {"accepted, the first copy converted",
                                         "accepted, the second copy converted",
                                         "accepted, both copies converted",
                                         "3, both forms in the result",
                                         "1, both forms in the result"};

/* What a write comes to where it is the form that decides. */
enum { LONG_WRITTEN, NEITHER_FIRST, NEITHER_FORM, ANOTHER_FORM, FORM_OF_17TH, WRITE_GROUNDS };
static const char *const write_name[] = {"accepted, over 1,284 bytes",
                                         "3, no form, the first row",
                                         "3, no form, a later row",
                                         "3, another form than the first",
                                         "3, the 17th row"};

/* What a conversion of an accepted table comes to: the first two are of to_largest, the others of to_gap. */
enum {
    LONGEST_MADE,
    HAS_LARGEST,
    HAS_GAPS,
    NO_MULTIPLES,
    GAP_TOO_GREAT,
    GREATEST_GAP,
    BOTH_FLAGS,
    CONVERT_GROUNDS
};
static const char *const convert_name[] = {"accepted, 1,748 bytes",
                                           "34, CG already",
                                           "34, CH already",
                                           "34, no multiples of a gap",
                                           "34, multiples of a gap above 10,000,000",
                                           "accepted, a gap of 10,000,000",
                                           "accepted, both flags"};

/* What a salvage comes to, and what was skipped in one that is accepted; more than one of these may hold. */
enum {
    SALVAGED_GAPS,
    SALVAGED_LARGEST,
    KEPT_FEWER,
    KEPT_16,
    KEPT_16_AND_REST,
    WHOLE_TABLE,
    NOTHING_SKIPPED,
    SKIPPED_BEFORE,
    SKIPPED_BETWEEN,
    SKIPPED_AFTER,
    LONGEST_SALVAGED,
    IN_ONE_OF_OTHER_FORM,
    IN_ONE_OF_USED_ID,
    IN_ONE_OF_MANY_TASKS,
    NO_ROOM_FOR_TABLE,
    NO_ROOM_FOR_LIST,
    NO_ROOM_AT_ALL,
    EMPTY_INPUT,
    NOTHING_KEPT,
    ONE_BYTE_TOO_LONG,
    SALVAGE_GROUNDS
};
static const char *const salvage_name[] = {"accepted, CH",
                                           "accepted, CG",
                                           "accepted, fewer than 16 records",
                                           "accepted, 16 records and no rest",
                                           "accepted, 16 records and a rest",
                                           "accepted, a table that is accepted itself",
                                           "accepted, nothing skipped",
                                           "accepted, skipped before the first record",
                                           "accepted, skipped between records",
                                           "accepted, skipped after the last record",
                                           "accepted, 4,096 bytes",
                                           "accepted, a record that starts in one of another form",
                                           "accepted, a record that starts in one whose id is used",
                                           "accepted, a record that starts in one with too many tasks",
                                           "24, no room for the table",
                                           "24, no room for the list",
                                           "24, no room for either",
                                           "36, an empty input",
                                           "36, bytes without a record",
                                           "35, 4,097 bytes"};

/* How often each entry has returned each number, how often with many arrivals in a window, and how often of an accepted table
   with a list that does not add up; how often the check has answered it of a table whose first mark is not CG, and of one
   whose is; how often a merge has returned it because of what; how often the engine that goes through every packing was left
   out because there are too many, and the former rule of smallest distances because by it climbs take too many steps. */
static uint64_t met[ENTRIES][NUMBERS];
static uint64_t met_with_many[ENTRIES][NUMBERS];
static uint64_t met_with_unadded[ENTRIES][NUMBERS];
static uint64_t answered[2][NUMBERS];
static uint64_t decided[DECIDERS][NUMBERS];
static uint64_t plain_left_out;
static uint64_t former_left_out;

static const char *const answered_of[] = {"answered by check, CG not first", "answered by check, CG first"};

static uint64_t ground_met[GROUNDS];
static uint64_t at_most_met[AT_MOST_GROUNDS];
static uint64_t latency_changed[LATENCY_CHANGES];
static uint64_t misses_changed[MISSES_CHANGES];
static uint64_t bound_changed[BOUND_CHANGES];
static uint64_t list_met[MISSES + 1][LIST_GROUNDS];
static uint64_t check_met[CHECK_GROUNDS];
static uint64_t save_met[SAVE_GROUNDS];
static uint64_t merge_met[MERGE_GROUNDS];
static uint64_t write_met[WRITE_GROUNDS];
static uint64_t convert_met[CONVERT_GROUNDS];
static uint64_t salvage_met[SALVAGE_GROUNDS];

static const struct tally tallies[] = {{"misses", GROUNDS, ground_name, ground_met},
                                       {"misses at most", AT_MOST_GROUNDS, at_most_name, at_most_met},
                                       {"latency", LATENCY_CHANGES, latency_change, latency_changed},
                                       {"misses", MISSES_CHANGES, misses_change, misses_changed},
                                       {"misses at most", BOUND_CHANGES, bound_change, bound_changed},
                                       {"latency", LIST_GROUNDS, list_name, list_met[LATENCY]},
                                       {"misses", LIST_GROUNDS, list_name, list_met[MISSES]},
                                       {"check", CHECK_GROUNDS, check_name, check_met},
                                       {"save", SAVE_GROUNDS, save_name, save_met},
                                       {"merge", MERGE_GROUNDS, merge_name, merge_met},
                                       {"write", WRITE_GROUNDS, write_name, write_met},
                                       {"conversion", CONVERT_GROUNDS, convert_name, convert_met},
                                       {"salvage", SALVAGE_GROUNDS, salvage_name, salvage_met}};

static void print_hex(const char *what, const uint8_t *bytes, size_t length)
{
    printf("%s, %zu bytes: ", what, length);
    for (size_t i = 0; i < length; i++)
        printf("%02x", bytes[i]);
    putchar('\n');
}

static void put32(uint8_t *at, uint64_t value)
{
    for (unsigned i = 0; i < 4; i++)
        at[i] = (uint8_t)(value >> 8 * i);
}

static uint32_t get32(const uint8_t *at)
{
    return at[0] | (uint32_t)at[1] << 8 | (uint32_t)at[2] << 16 | (uint32_t)at[3] << 24;
}

/* ---- Answers of both ---- */

struct outcome {
    uint32_t returned;
    uint8_t answer[ANSWER_ROOM]; /* the lent buffer and what follows it */
};

static struct outcome nothing_yet(void)
{
    struct outcome outcome = {0};
    for (unsigned i = 0; i < ANSWER_ROOM; i++)
        outcome.answer[i] = (uint8_t)(0x51 + 7 * i);
    return outcome;
}

static bool same(const struct outcome *one, const struct outcome *other)
{
    return one->returned == other->returned && memcmp(one->answer, other->answer, ANSWER_ROOM) == 0;
}

static void print_outcome(const char *whose, const struct outcome *outcome)
{
    printf("%s returns %" PRIu32 ", ", whose, outcome->returned);
    print_hex("answer buffer and beyond", outcome->answer, ANSWER_ROOM);
}

static void note(uint64_t counts[NUMBERS], uint32_t number)
{
    if (number < NUMBERS)
        counts[number]++;
}

/* Whether a table's first mark or a record's mark is CG. */
static bool is_largest(const uint8_t *bytes, size_t length)
{
    return length >= 2 && (bytes[0] | bytes[1] << 8) == MISHTODRAN_LARGEST_FORM;
}

/* ---- What a check comes to ---- */

/* The record that holds a byte of a table, where all before that are without fault. */
struct held {
    size_t at;
    unsigned place;
    struct parts parts;
};

static struct held record_that_holds(const struct generated *table, size_t byte)
{
    struct held held = {.parts = parts_of(table->bytes)};
    while (held.at + held.parts.end <= byte) {
        held.at += held.parts.end;
        held.place++;
        held.parts = parts_of(table->bytes + held.at);
    }
    return held;
}

/* Why a largest distance is at fault: the only reason, or none of them. */
static unsigned largest_ground(const uint8_t *record, const struct parts *parts, size_t at)
{
    uint32_t largest = get32(record + at);
    bool too_far = largest > MISHTODRAN_MOST_LARGEST;
    bool falls = at > parts->largest_at && largest < get32(record + at - 4);
    bool below = largest < get32(record + at - 4 * parts->listed);
    if (too_far + falls + below != 1)
        return CHECK_GROUNDS;
    return too_far ? LARGEST_TOO_FAR : falls ? LARGEST_FALLS : LARGEST_BELOW;
}

/* What a check comes to, by its number and the offset; CHECK_GROUNDS where it is nothing of the forms. */
static unsigned check_ground(const struct generated *table, uint32_t number, size_t at)
{
    if (number == 0)
        return table->length > MISHTODRAN_MOST_GAP_TABLE_BYTES ? LONG_TABLE : CHECK_GROUNDS;
    if (number == 1 && table->length > 0)
        return table->length > MISHTODRAN_MOST_TABLE_BYTES ? TOO_LONG : TOO_LONG_FOR_GAPS;
    if (number != 2 && number != 3 && number != 11 && number != 33)
        return CHECK_GROUNDS;
    struct held held = record_that_holds(table, at);
    const uint8_t *record = table->bytes + held.at;
    size_t in_record = at - held.at;
    if (number == 33)
        return in_record < held.parts.list_at ? BAD_FLAG : largest_ground(record, &held.parts, in_record);
    if (number == 2)
        return in_record >= held.parts.largest_at && in_record < held.parts.tasks_at ? LARGEST_CUT : CHECK_GROUNDS;
    if (in_record > 0 || record[0] != 'C' || (record[1] != 'H' && record[1] != 'G') || held.place == 0)
        return CHECK_GROUNDS;
    if (number == 11)
        return held.parts.flagged ? LARGEST_17TH : CHECK_GROUNDS;
    return held.place == 16 ? OTHER_FORM_17TH : OTHER_FORM;
}

static void note_check(const struct generated *table, uint32_t number, size_t at)
{
    unsigned ground = check_ground(table, number, at);
    note(answered[is_largest(table->bytes, table->length)], number);
    if (ground < CHECK_GROUNDS)
        check_met[ground]++;
}

/* ---- Queries ---- */

struct query {
    unsigned entry;
    uint32_t number[3]; /* id; id, k; chain, against, number; id; a check has none */
    size_t answer_len;
};

static uint32_t ask_proved(const struct generated *table, const struct query *query, uint8_t *answer)
{
    const uint32_t *number = query->number;
    switch (query->entry) {
    case LATENCY:
        return mishtodran_latency(table->bytes, table->length, number[0], answer, query->answer_len);
    case MISSES:
        return mishtodran_misses(table->bytes, table->length, number[0], number[1], answer, query->answer_len);
    case MISSES_PLAIN:
        return mishtodran_misses_plain(table->bytes, table->length, number[0], number[1], answer, query->answer_len);
    case MISSES_AT_MOST:
        return mishtodran_misses_at_most(table->bytes, table->length, number[0], number[1], answer, query->answer_len);
    case RECORD:
        return mishtodran_record(table->bytes, table->length, number[0], answer, query->answer_len);
    case CHECK:
        return mishtodran_check(table->bytes, table->length, answer, query->answer_len);
    default:
        return mishtodran_segment(table->bytes, table->length, number[0], number[1], number[2], answer,
                                  query->answer_len);
    }
}

static uint32_t ask_plain(const struct generated *table, const struct query *query, uint8_t *answer)
{
    const uint32_t *number = query->number;
    switch (query->entry) {
    case LATENCY:
        return plain_latency(table->bytes, table->length, number[0], answer, query->answer_len);
    case MISSES:
        return plain_misses(table->bytes, table->length, number[0], number[1], answer, query->answer_len);
    case MISSES_PLAIN:
        return plain_misses_plain(table->bytes, table->length, number[0], number[1], answer, query->answer_len);
    case MISSES_AT_MOST:
        return plain_misses_at_most(table->bytes, table->length, number[0], number[1], answer, query->answer_len);
    case RECORD:
        return plain_record(table->bytes, table->length, number[0], answer, query->answer_len);
    case CHECK:
        return plain_check(table->bytes, table->length, answer, query->answer_len);
    default:
        return plain_segment(table->bytes, table->length, number[0], number[1], number[2], answer, query->answer_len);
    }
}

static void stop_at_query(const struct generated *table, const struct query *query, const struct outcome *proved,
                          const struct outcome *plain, bool changed)
{
    printf("difference in %s(%" PRIu32 ", %" PRIu32 ", %" PRIu32 ") with %zu bytes for the answer%s\n",
           entry_name[query->entry], query->number[0], query->number[1], query->number[2], query->answer_len,
           changed ? ": the table was written to" : "");
    printf("family: %s %s\n", table->family, table->damage);
    print_outcome("mishtodran", proved);
    print_outcome("plain", plain);
    exit(1);
}

/* ---- The former rule of smallest distances ---- */

/* Whether the climbs of the table under way are few enough by the former rule for it to be asked so too. */
static bool former_is_asked;

static void look_at_former(const struct generated *table)
{
    plain_distances = BY_WHOLE_LISTS;
    former_is_asked = !plain_climbs_take(table->bytes, table->length, MOST_STEPS);
    plain_distances = BY_ALL_STEPS;
    former_left_out += !former_is_asked;
}

static struct outcome ask_former(const struct generated *table, const struct query *query)
{
    struct outcome former = nothing_yet();
    plain_distances = BY_WHOLE_LISTS;
    former.returned = ask_plain(table, query, former.answer);
    plain_distances = BY_ALL_STEPS;
    return former;
}

/* Whether smallest distances that add up keep what is asked of them: a figure stays one, and does not grow, and a margin does
   not shrink. Only the number that misses do not exceed may be any. */
static bool keeps_promise(const struct query *query, const struct outcome *former, const struct outcome *now)
{
    unsigned figures = query->entry == LATENCY ? 3 : query->entry == MISSES ? 1 : 0;
    if (former->returned != 0 || now->returned != 0)
        return former->returned != 0;
    for (unsigned i = 0; i < figures; i++)
        if (get32(now->answer + 4 * i) > get32(former->answer + 4 * i))
            return false;
    return query->entry != LATENCY || (int32_t)get32(now->answer + 12) >= (int32_t)get32(former->answer + 12);
}

static bool differs(const struct outcome *former, const struct outcome *now)
{
    return former->returned != 0 || memcmp(former->answer, now->answer, ANSWER_ROOM) != 0;
}

static void note_latency_change(const struct outcome *former, const struct outcome *now, bool many)
{
    for (unsigned i = SMALLER_K; i <= FEWER_LATE; i++)
        latency_changed[i] += former->returned == 0 && get32(now->answer + 4 * i) < get32(former->answer + 4 * i);
    latency_changed[FIGURE_FOR_16] += former->returned == 16;
    latency_changed[FIGURE_FOR_17] += former->returned == 17;
    latency_changed[LATENCY_OF_MANY] += many && differs(former, now);
}

static void note_misses_change(const struct outcome *former, const struct outcome *now, bool many)
{
    static const uint8_t numbers[] = {16, 17, 18, 19, 21};
    for (unsigned i = MISSES_FOR_16; i <= MISSES_FOR_21; i++)
        misses_changed[i] += former->returned == numbers[i];
    misses_changed[FEWER_MISSES] += former->returned == 0 && get32(now->answer) < get32(former->answer);
    misses_changed[MISSES_OF_MANY] += many && differs(former, now);
}

static void note_bound_change(const struct outcome *former, const struct outcome *now)
{
    bound_changed[BOUND_BELOW] += former->returned == 0 && get32(now->answer) < get32(former->answer);
    bound_changed[BOUND_ABOVE] += former->returned == 0 && get32(now->answer) > get32(former->answer);
}

/* Asks by the former rule too, and holds both against each other. */
static void hold_to_former(const struct generated *table, const struct query *query, const struct outcome *now)
{
    bool many = plain_most_arrivals > MANY_ARRIVALS;
    struct outcome former = ask_former(table, query);
    if (!keeps_promise(query, &former, now)) {
        printf("%s(%" PRIu32 ", %" PRIu32 ") has grown, or is refused where it was not\n", entry_name[query->entry],
               query->number[0], query->number[1]);
        printf("family: %s %s\n", table->family, table->damage);
        print_hex("table", table->bytes, table->length);
        print_outcome("by whole lists", &former);
        print_outcome("by all steps", now);
        exit(1);
    }
    if (now->returned != 0)
        return;
    if (query->entry == LATENCY)
        note_latency_change(&former, now, many);
    else if (query->entry == MISSES)
        note_misses_change(&former, now, many);
    else
        note_bound_change(&former, now);
}

/* ---- Lists that add up ---- */

/* Whether any two steps come to no more than both together, up to the list's end; and past it, where one is a whole list and
   the rest. */
static bool adds_up(const uint32_t *list, unsigned listed, bool past_end)
{
    for (unsigned one = 1; one <= listed; one++)
        for (unsigned other = 1; other <= one; other++) {
            unsigned both = one + other, rest = both - listed;
            if (both <= listed && list[one - 1] + list[other - 1] > list[both - 1])
                return false;
            if (past_end && both > listed && list[one - 1] + list[other - 1] > list[listed - 1] + list[rest - 1])
                return false;
        }
    return true;
}

static unsigned best_step(const uint32_t *list, unsigned listed)
{
    unsigned best = 1;
    for (unsigned step = 2; step <= listed; step++)
        if ((uint64_t)list[step - 1] * best > (uint64_t)list[best - 1] * step)
            best = step;
    return best;
}

static unsigned list_ground(const uint8_t *record)
{
    struct parts parts = parts_of(record);
    uint32_t list[8];
    for (unsigned i = 0; i < parts.listed; i++)
        list[i] = get32(record + parts.list_at + 4 * i);
    if (!adds_up(list, parts.listed, false))
        return BEST_STEP + best_step(list, parts.listed) - 1;
    return adds_up(list, parts.listed, true) ? GOES_ON_AS_LISTED : ADDS_UP_AS_LISTED;
}

/* What lists an accepted table has of which an entry returns this. */
static void note_lists(const struct generated *table, unsigned entry, uint32_t returned)
{
    unsigned grounds = 0;
    for (const uint8_t *at = table->bytes; at[0] == 'C'; at += parts_of(at).end)
        grounds |= 1u << list_ground(at);
    if (grounds >> BEST_STEP != 0)
        note(met_with_unadded[entry], returned);
    for (unsigned ground = 0; ground < LIST_GROUNDS && entry <= MISSES && returned == 0; ground++)
        list_met[entry][ground] += grounds >> ground & 1;
}

/* ---- Both sides ---- */

/* Asks both, and gives back what they return and answer. */
static struct outcome ask(const struct generated *table, struct query query)
{
    static struct generated lent;
    struct outcome proved = nothing_yet(), plain = nothing_yet();
    lent = *table;
    proved.returned = ask_proved(&lent, &query, proved.answer);
    plain_most_arrivals = 0;
    plain.returned = ask_plain(table, &query, plain.answer);
    bool changed = memcmp(lent.bytes, table->bytes, sizeof lent.bytes) != 0;
    if (changed || !same(&proved, &plain)) {
        print_hex("table", table->bytes, table->length);
        stop_at_query(table, &query, &proved, &plain, changed);
    }
    note(met[query.entry], proved.returned);
    if (plain_most_arrivals > MANY_ARRIVALS)
        note(met_with_many[query.entry], proved.returned);
    if (query.entry == CHECK && proved.returned == 0)
        note_check(table, get32(proved.answer), get32(proved.answer + 4));
    if (query.entry <= MISSES_AT_MOST && (proved.returned == 0 || (proved.returned >= 12 && proved.returned <= 21)))
        note_lists(table, query.entry, proved.returned);
    if (query.entry <= MISSES_AT_MOST && query.entry != MISSES_PLAIN && former_is_asked)
        hold_to_former(table, &query, &proved);
    return proved;
}

static uint32_t ask_whole(const struct generated *table, unsigned entry, uint32_t first, uint32_t second,
                          uint32_t third)
{
    return ask(table, (struct query){entry, {first, second, third}, answer_bytes[entry]}).returned;
}

/* ---- Misses ---- */

/* Whether an accepted table has an overload chain. */
static bool has_overload(const struct generated *table)
{
    for (const uint8_t *at = table->bytes; at[0] == 'C'; at += parts_of(at).end)
        if (at[5] == 1)
            return true;
    return false;
}

static uint32_t late_of(const struct generated *table, uint32_t id)
{
    uint8_t answer[16] = {0};
    plain_latency(table->bytes, table->length, id, answer, sizeof answer);
    return get32(answer + 8);
}

static uint64_t figure_of(const struct generated *table, uint32_t id, uint32_t k)
{
    uint64_t figure = 0;
    plain_figure(table->bytes, table->length, id, k, &figure);
    return figure;
}

/* What misses for k come from. Where they are k, the packing figure tells. */
static unsigned ground_of(const struct generated *table, uint32_t id, uint32_t k, uint32_t misses)
{
    if (misses == 0)
        return late_of(table, id) == 0 ? NONE_LATE : NONE_BAD;
    if (misses < k)
        return BELOW_K;
    uint64_t figure = figure_of(table, id, k);
    if (figure == PLAIN_NO_MOST)
        return has_overload(table) ? WITHOUT_OVERLOAD : NO_OVERLOAD_CHAIN;
    return figure == k ? EXACTLY_K : ABOVE_K;
}

static void stop_at_misses(const struct generated *table, const struct query *query, const struct outcome *exact,
                           const struct outcome *other)
{
    printf("%s(%" PRIu32 ", %" PRIu32 ") does not go with the misses\n", entry_name[query->entry], query->number[0],
           query->number[1]);
    printf("family: %s %s\n", table->family, table->damage);
    print_hex("table", table->bytes, table->length);
    print_outcome("misses", exact);
    print_outcome(entry_name[query->entry], other);
    exit(1);
}

/* Asks both for the misses through every packing, unless these are too many: they are the misses. */
static void ask_misses_plain(const struct generated *table, uint32_t id, uint32_t k, const struct outcome *exact)
{
    const struct query query = {MISSES_PLAIN, {id, k, 0}, answer_bytes[MISSES_PLAIN]};
    if (plain_packings_exceed(table->bytes, table->length, id, k, MOST_PACKINGS)) {
        plain_left_out++;
        return;
    }
    struct outcome found = ask(table, query);
    if (!same(&found, exact))
        stop_at_misses(table, &query, exact, &found);
}

/* What a number comes from that the misses do not exceed. Where it is k, the figure of the sieve tells. */
static unsigned at_most_ground(const struct generated *table, uint32_t id, uint32_t k, uint32_t misses,
                               uint32_t at_most)
{
    uint64_t figure = 0;
    if (late_of(table, id) == 0)
        return OF_NONE_LATE;
    plain_figure_at_most(table->bytes, table->length, id, k, &figure);
    if (figure == PLAIN_NO_MOST)
        return figure_of(table, id, k) == PLAIN_NO_MOST ? K_WITHOUT_OVERLOAD : K_BY_EMPTY;
    if (at_most == misses)
        return AS_MISSES;
    return at_most < k ? ABOVE_MISSES : K_BY_USES;
}

/* Asks both for a number that the misses do not exceed: it is refused as they are, and no smaller. */
static void ask_misses_at_most(const struct generated *table, uint32_t id, uint32_t k, const struct outcome *exact)
{
    const struct query query = {MISSES_AT_MOST, {id, k, 0}, answer_bytes[MISSES_AT_MOST]};
    struct outcome found = ask(table, query);
    uint32_t misses = get32(exact->answer), at_most = get32(found.answer);
    if (found.returned != exact->returned || (found.returned == 0 && (at_most < misses || at_most > k)))
        stop_at_misses(table, &query, exact, &found);
    if (found.returned == 0)
        at_most_met[at_most_ground(table, id, k, misses, at_most)]++;
}

/* The misses of both, 0 where they are refused; the other two entries that answer with misses go with them. Refused with
   21, the empty set is bad where there is no most for k = 1: then no capacity is above 2, since 19 comes before. */
static uint32_t ask_misses(const struct generated *table, uint32_t id, uint32_t k)
{
    struct outcome outcome = ask(table, (struct query){MISSES, {id, k, 0}, answer_bytes[MISSES]});
    uint32_t misses = outcome.returned == 0 ? get32(outcome.answer) : 0;
    if (outcome.returned == 0)
        ground_met[ground_of(table, id, k, misses)]++;
    if (outcome.returned == 21 && figure_of(table, id, 1) == PLAIN_NO_MOST)
        ground_met[CAPACITY_FIRST]++;
    ask_misses_plain(table, id, k, &outcome);
    ask_misses_at_most(table, id, k, &outcome);
    return misses;
}

/* For k; and where the misses are below it, for a run as long as they are, and for one less. */
static void ask_around(const struct generated *table, uint32_t id, uint32_t k)
{
    uint32_t misses = ask_misses(table, id, k);
    if (misses > 0 && misses < k)
        ask_misses(table, id, misses);
    if (misses > 1 && misses < k)
        ask_misses(table, id, misses - 1);
}

/* ---- The chains of a table ---- */

struct places {
    unsigned chains;
    uint32_t id[16];
    size_t at[16], length[16];
};

/* Where the records of an accepted table stand; no chain where it is refused. */
static struct places find_places(const struct generated *table)
{
    struct places places = {0};
    size_t at = 0;
    if (ask_whole(table, LATENCY, 0, 0, 0) != 12)
        return places;
    while (table->bytes[at] == 'C') {
        unsigned i = places.chains++;
        places.at[i] = at;
        places.length[i] = parts_of(table->bytes + at).end;
        places.id[i] = table->bytes[at + 2] | (uint32_t)table->bytes[at + 3] << 8;
        at += places.length[i];
    }
    return places;
}

/* ---- All questions about a table ---- */

static const uint32_t runs[] = {0, 1, 2, 3, 10, 11, 999, 1000, 1001};

static void ask_figures(struct source *source, const struct generated *table, const struct places *places)
{
    for (unsigned i = 0; i < places->chains; i++) {
        ask_whole(table, LATENCY, places->id[i], 0, 0);
        ask_whole(table, RECORD, places->id[i], 0, 0);
        for (unsigned r = 0; r < sizeof runs / sizeof runs[0]; r++)
            ask_around(table, places->id[i], runs[r]);
        ask_around(table, places->id[i], (uint32_t)draw(source, 1, one_in(source, 2) ? 50 : 1000));
    }
}

static void ask_segments(const struct generated *table, const struct places *places)
{
    for (unsigned a = 0; a < places->chains; a++)
        for (unsigned b = 0; b < places->chains; b++) {
            uint32_t number = 0;
            uint32_t returned;
            do
                returned = ask_whole(table, SEGMENT, places->id[a], places->id[b], number++);
            while (returned == 0 || number == 1);
            ask_whole(table, SEGMENT, places->id[a], places->id[b], UINT32_MAX);
            ask_whole(table, SEGMENT, places->id[a], places->id[b], 1u << 16 | 1);
        }
}

/* With answer buffers of other lengths: of the second of six ids for k = 10, or of the first where the packings are too
   many; and of any of them for k = 0. */
static void ask_with_lengths(struct source *source, const struct generated *table, unsigned entry,
                             const uint32_t ids[6])
{
    size_t whole = answer_bytes[entry];
    const size_t lengths[] = {0, whole - 1, whole + 1, ANSWER_ROOM};
    bool many = entry == MISSES_PLAIN && plain_packings_exceed(table->bytes, table->length, ids[1], 10, MOST_PACKINGS);
    for (unsigned i = 0; i < 4; i++) {
        ask(table, (struct query){entry, {ids[many ? 0 : 1], 10, 1}, lengths[i]});
        ask(table, (struct query){entry, {ids[draw(source, 0, 5)], 0, 0}, lengths[i]});
    }
}

/* Ids that are not there or almost, run lengths far outside, and answer buffers of other lengths. */
static void ask_oddly(struct source *source, const struct generated *table, const struct places *places)
{
    uint32_t known = places->chains ? places->id[draw(source, 0, places->chains - 1)] : 1;
    const uint32_t ids[] = {0, known, known + 65536, known ^ 1, 65535, UINT32_MAX};
    for (unsigned i = 0; i < 6; i++) {
        ask_whole(table, LATENCY, ids[i], 0, 0);
        ask_whole(table, RECORD, ids[i], 0, 0);
        ask_misses(table, ids[i], one_in(source, 2) ? 0 : 1001);
        ask_misses(table, ids[i], 1u << 16 | 10);
        ask_whole(table, SEGMENT, known, ids[i], (uint32_t)draw(source, 0, 1) * 99);
        ask_whole(table, SEGMENT, ids[i], known, (uint32_t)draw(source, 0, 1) * 99);
        ask_whole(table, SEGMENT, ids[i], ids[draw(source, 0, 5)], 1);
        ask_whole(table, SEGMENT, ids[i], ids[i], (uint32_t)draw(source, 0, 2));
    }
    for (unsigned entry = LATENCY; entry <= RECORD; entry++)
        ask_with_lengths(source, table, entry, ids);
}

/* With answer buffers too short, just long enough and longer. */
static void ask_checks(const struct generated *table)
{
    size_t whole = answer_bytes[CHECK];
    const size_t lengths[] = {0, 1, whole - 1, whole, whole + 1, ANSWER_ROOM};
    for (unsigned i = 0; i < sizeof lengths / sizeof lengths[0]; i++)
        ask(table, (struct query){.entry = CHECK, .answer_len = lengths[i]});
}

/* ---- Saves ---- */

struct record {
    uint8_t bytes[LONGEST_RECORD];
    size_t length;
};

struct buffer {
    uint8_t bytes[MOST_GENERATED + 64]; /* some bytes beyond are checked too */
    size_t length;
    uint64_t used;
};

static void stop_at_save(const struct buffer *before, const struct buffer *proved_after,
                         const struct buffer *plain_after, const struct record *old, const struct record *new,
                         size_t answer_len)
{
    printf("difference in save, %" PRIu64 " bytes used, %zu bytes for the answer\n", before->used, answer_len);
    print_hex("buffer", before->bytes, before->length);
    print_hex("old record", old->bytes, old->length);
    print_hex("new record", new->bytes, new->length);
    print_hex("buffer after mishtodran and beyond", proved_after->bytes, sizeof proved_after->bytes);
    print_hex("buffer after plain and beyond", plain_after->bytes, sizeof plain_after->bytes);
}

/* What a save into an accepted table comes to; SAVE_GROUNDS where it is nothing of the forms. */
static unsigned save_ground(const struct record *old, const struct record *new, uint32_t returned, uint64_t used)
{
    bool largest = is_largest(new->bytes, new->length);
    if (largest != is_largest(old->bytes, old->length)) {
        if (returned == 0)
            return SAVED_OTHERWISE;
        if (returned == 1 || returned == 3)
            return returned == 1 ? TOO_LONG_OTHERWISE : BESIDE_OTHERS;
    }
    if (returned == 28 && new->length == 13)
        return NO_LIST_NO_TASK;
    if (returned == 33 && new->bytes[10] > 1)
        return SAVED_FLAG;
    return returned == 0 && used > MISHTODRAN_MOST_GAP_TABLE_BYTES ? LONG_SAVED : SAVE_GROUNDS;
}

static void note_save(const struct buffer *before, const struct record *old, const struct record *new,
                      const struct outcome *outcome)
{
    uint8_t verdict[8];
    note(met[SAVE], outcome->returned);
    if (before->used > before->length)
        return;
    plain_check(before->bytes, before->used, verdict, sizeof verdict);
    unsigned ground = save_ground(old, new, outcome->returned, outcome->returned == 0 ? get32(outcome->answer) : 0);
    if (get32(verdict) == 0 && ground < SAVE_GROUNDS)
        save_met[ground]++;
}

/* Saves with both; where they accept, the buffer is changed. */
static uint32_t save(struct buffer *buffer, const struct record *old, const struct record *new, size_t answer_len)
{
    static struct buffer for_proved, for_plain;
    static struct record old_lent, new_lent;
    struct outcome proved = nothing_yet(), plain = nothing_yet();
    for_proved = *buffer;
    for_plain = *buffer;
    old_lent = *old;
    new_lent = *new;
    proved.returned = mishtodran_save(for_proved.bytes, buffer->length, buffer->used, old_lent.bytes, old->length,
                                      new_lent.bytes, new->length, proved.answer, answer_len);
    plain.returned = plain_save(for_plain.bytes, buffer->length, buffer->used, old->bytes, old->length, new->bytes,
                                new->length, plain.answer, answer_len);
    if (!same(&proved, &plain) || memcmp(for_proved.bytes, for_plain.bytes, sizeof for_plain.bytes) != 0 ||
        memcmp(old_lent.bytes, old->bytes, old->length) != 0 || memcmp(new_lent.bytes, new->bytes, new->length) != 0) {
        stop_at_save(buffer, &for_proved, &for_plain, old, new, answer_len);
        print_outcome("mishtodran", &proved);
        print_outcome("plain", &plain);
        exit(1);
    }
    note_save(buffer, old, new, &plain);
    if (plain.returned == 0) {
        *buffer = for_plain;
        buffer->used = get32(plain.answer);
    }
    return plain.returned;
}

/* Takes so many bytes out of a record, or puts as many in as a copy of those before them. */
static void take_out(struct record *record, size_t at, size_t count)
{
    memmove(record->bytes + at, record->bytes + at + count, record->length - at - count);
    record->length -= count;
}

static void put_in(struct record *record, size_t at, size_t count)
{
    memmove(record->bytes + at + count, record->bytes + at, record->length - at);
    memcpy(record->bytes + at, record->bytes + at - count, count);
    record->length += count;
}

/* One task or one distance more or less, in both lists where there are two. */
static void resize_record(struct source *source, struct record *record)
{
    struct parts parts = parts_of(record->bytes);
    bool two_lists = parts.largest_at < parts.tasks_at;
    switch (draw(source, 0, 3)) {
    case 0:
        put_in(record, parts.tasks_at + 8, 8);
        record->bytes[parts.task_count_at]++;
        break;
    case 1:
        take_out(record, parts.tasks_at, 8);
        record->bytes[parts.task_count_at]--;
        break;
    case 2:
        put_in(record, parts.tasks_at, 4);
        if (two_lists)
            put_in(record, parts.largest_at, 4);
        record->bytes[parts.list_length_at]++;
        break;
    default:
        take_out(record, parts.tasks_at - 4, 4);
        if (two_lists)
            take_out(record, parts.largest_at - 4, 4);
        record->bytes[parts.list_length_at]--;
    }
}

/* A record of the length that its own counts say, and if it is one of CG its flag, whatever they are. */
static void fill_counts(struct source *source, struct record *record)
{
    struct parts parts = parts_of(record->bytes);
    record->bytes[parts.list_length_at] = (uint8_t)(one_in(source, 2) ? 255 : draw(source, 0, 12));
    record->bytes[parts.task_count_at] = (uint8_t)(one_in(source, 2) ? 255 : draw(source, 0, 40));
    if (parts.flagged)
        record->bytes[10] = (uint8_t)draw(source, 0, 3);
    size_t length = parts_of(record->bytes).end;
    for (size_t i = record->length; i < length; i++)
        record->bytes[i] = record->bytes[i - 8];
    record->length = length;
}

/* Another flag, and largest distances, copied from the smallest ones, where it is 1 and none where it is not. */
static void set_flag(struct source *source, struct record *record)
{
    static const uint8_t flags[] = {0, 1, 2, 255};
    struct parts parts = parts_of(record->bytes);
    if (!parts.flagged)
        return;
    uint8_t flag = flags[draw(source, 0, 3)];
    if (flag != 1)
        take_out(record, parts.largest_at, parts.tasks_at - parts.largest_at);
    else if (parts.largest_at == parts.tasks_at)
        put_in(record, parts.tasks_at, 4 * parts.listed);
    record->bytes[10] = flag;
}

/* The stored record in the other form; one of CG that has no old form, without a gap. */
static void convert_record(struct record *record)
{
    uint8_t table[LONGEST_RECORD + 4], result[MISHTODRAN_MOST_TABLE_BYTES], answer[4];
    size_t length = record->length + 4;
    struct mishtodran_row row;
    memcpy(table, record->bytes, record->length);
    memcpy(table + record->length, "EN\1", 4);
    if (plain_to_largest(table, length, result, sizeof result, answer, sizeof answer) != 0 &&
        plain_to_gap(table, length, result, sizeof result, answer, sizeof answer) != 0) {
        plain_read(table, length, &row, 1, answer, sizeof answer);
        row.form = MISHTODRAN_GAP_FORM;
        plain_write(&row, 1, result, sizeof result, answer, sizeof answer);
    }
    record->length = get32(answer) - 4;
    memcpy(record->bytes, result, record->length);
}

/* A fixed part of CG alone, of a record of either form: no distance and no task. */
static void leave_fixed_part(struct record *record)
{
    record->bytes[1] = 'G';
    record->bytes[10] &= 1;
    record->bytes[11] = record->bytes[12] = 0;
    record->length = 13;
}

/* The new record, made from the one that is stored. */
static void change_record(struct source *source, struct record *record)
{
    if (one_in(source, 3))
        convert_record(record);
    switch (draw(source, 0, 11)) {
    case 0:
        break;
    case 1:
        put32(record->bytes + 6, draw(source, 1, 10000000));
        break;
    case 2:
    case 3:
        resize_record(source, record);
        break;
    case 4:
        record->bytes[2 + draw(source, 0, 1)] ^= (uint8_t)draw(source, 1, 255); /* another id */
        break;
    case 5:
        record->bytes[draw(source, 0, record->length - 1)] ^= (uint8_t)(1u << draw(source, 0, 7));
        break;
    case 6:
        record->length = draw(source, 0, record->length - 1);
        break;
    case 7:
        record->bytes[record->length++] = 0;
        break;
    case 8:
        fill_counts(source, record);
        break;
    case 9:
        set_flag(source, record);
        break;
    case 10:
        leave_fixed_part(record);
        break;
    default:
        put32(record->bytes + (one_in(source, 2) ? 6 : record->length - 4), draw(source, 0, 1) * UINT32_MAX);
    }
}

/* A new record that is longer or shorter than the stored one, of another id or without a chain's mark, or of which the
   result is refused. */
static void spoil_record(struct source *source, struct record *record)
{
    resize_record(source, record);
    struct parts parts = parts_of(record->bytes);
    switch (draw(source, 0, 10)) {
    case 0:
        record->bytes[2 + draw(source, 0, 1)] ^= (uint8_t)draw(source, 1, 255);
        break;
    case 1:
        record->bytes[draw(source, 0, 1)] ^= 1;
        break;
    case 2:
        record->bytes[4 + draw(source, 0, 1)] = 2;
        break;
    case 3:
        put32(record->bytes + 6, 0);
        break;
    case 4:
        put32(record->bytes + 10, UINT32_MAX); /* a gap, or a flag and both counts */
        break;
    case 5:
        put32(record->bytes + parts.list_at, UINT32_MAX); /* a distance, a task's mark and priority, or a cost */
        break;
    case 6:
        memset(record->bytes + parts.list_at, 0, 4 * parts.listed); /* all distances */
        break;
    case 7:
        if (!parts.flagged)
            put32(record->bytes + 10, 1); /* less than most lists ask for */
        break;
    case 8:
        record->bytes[record->length - 8] ^= 1;
        break;
    case 9:
        put32(record->bytes + parts.largest_at, UINT32_MAX); /* a largest distance, or a task's mark and priority */
        break;
    default:
        put32(record->bytes + record->length - 4, 0);
    }
}

/* The old record as an editor could offer it. */
static void make_stale(struct source *source, struct record *record)
{
    switch (draw(source, 0, 3)) {
    case 0:
        record->bytes[draw(source, 0, record->length - 1)] ^= (uint8_t)(1u << draw(source, 0, 7));
        break;
    case 1:
        record->length = draw(source, 0, record->length - 1);
        break;
    case 2:
        record->bytes[record->length++] = 'C';
        break;
    default:
        record->length = 0;
    }
}

/* A buffer with much room, with none, or with just too little for the result. */
static size_t buffer_length(struct source *source, size_t used, size_t result)
{
    size_t more = used > result ? used : result;
    switch (draw(source, 0, 3)) {
    case 0:
        return used;
    case 1:
        return more - 1;
    case 2:
        return more;
    default:
        return more + draw(source, 1, 64);
    }
}

static uint64_t other_used(struct source *source, size_t used)
{
    const uint64_t values[] = {0, used - 1, used + 1, used + (1ull << 32), 1285, 1749, UINT64_MAX};
    return values[draw(source, 0, 6)];
}

static void fill_buffer(struct source *source, struct buffer *buffer, const struct generated *table, size_t result)
{
    for (size_t i = 0; i < sizeof buffer->bytes; i++)
        buffer->bytes[i] = (uint8_t)(0x33 + 5 * i);
    memcpy(buffer->bytes, table->bytes, table->length);
    buffer->used = one_in(source, 12) ? other_used(source, table->length) : table->length;
    buffer->length = buffer_length(source, table->length, result);
    if (buffer->length > sizeof buffer->bytes - 32)
        buffer->length = sizeof buffer->bytes - 32;
}

/* A record of the table, often the first, whose mark decides on the length; of a refused table its first bytes. */
static struct record stored_record(struct source *source, const struct generated *table, const struct places *places)
{
    struct record record = {.length = 16};
    size_t at = 0;
    if (places->chains) {
        unsigned place = one_in(source, 2) ? 0 : (unsigned)draw(source, 0, places->chains - 1);
        at = places->at[place];
        record.length = places->length[place];
    }
    memcpy(record.bytes, table->bytes + at, record.length);
    return record;
}

static void save_somehow(struct source *source, const struct generated *table, const struct places *places)
{
    static struct buffer buffer;
    struct record old = stored_record(source, table, places);
    struct record new = old;
    if (places->chains > 0 && one_in(source, 4))
        spoil_record(source, &new);
    else if (places->chains > 0)
        change_record(source, &new);
    if (one_in(source, 6))
        make_stale(source, &old);
    fill_buffer(source, &buffer, table, table->length - old.length + new.length);
    size_t answer_len = one_in(source, 10) ? draw(source, 0, 9) : 4;
    if (save(&buffer, &old, &new, answer_len) != 0)
        return;
    save(&buffer, &old, &new, answer_len); /* stale now, unless nothing changed */
    save(&buffer, &new, &old, answer_len); /* back again */
}

/* ---- Merges ---- */

struct merged {
    struct outcome outcome;
    uint8_t buffer[MERGE_ROOM + 32]; /* the lent buffer and what follows it */
};

/* The tables under way, to be shown where a library crashes on them; NULL between merges. */
static const struct triple *merge_under_way;

static void print_triple(const struct triple *triple)
{
    static const char *const names[] = {"ancestor", "first copy", "second copy"};
    for (unsigned i = 0; i < 3; i++) {
        printf("%s, family: %s %s\n", names[i], triple->table[i].family, triple->table[i].damage);
        print_hex(names[i], triple->table[i].bytes, triple->table[i].length);
    }
}

static bool same_tables(const struct triple *one, const struct triple *other)
{
    for (unsigned i = 0; i < 3; i++)
        if (memcmp(one->table[i].bytes, other->table[i].bytes, MOST_GENERATED) != 0)
            return false;
    return true;
}

static void stop_at_merge(const struct triple *triple, const struct merged *proved, const struct merged *plain,
                          size_t room, size_t answer_len)
{
    printf("difference in merge, or a table was written to; %zu bytes for the result, %zu for the answer\n", room,
           answer_len);
    print_triple(triple);
    print_outcome("mishtodran", &proved->outcome);
    print_hex("its buffer and beyond", proved->buffer, sizeof proved->buffer);
    print_outcome("plain", &plain->outcome);
    print_hex("its buffer and beyond", plain->buffer, sizeof plain->buffer);
    exit(1);
}

/* Merges with both, and gives back what they return. */
static uint32_t merge(const struct triple *triple, size_t room, size_t answer_len)
{
    static struct triple lent;
    static struct merged proved, plain;
    const struct generated *table = triple->table;
    proved.outcome = nothing_yet();
    for (unsigned i = 0; i < sizeof proved.buffer; i++)
        proved.buffer[i] = (uint8_t)(0x33 + 5 * i);
    plain = proved;
    lent = *triple;
    proved.outcome.returned =
        mishtodran_merge(lent.table[0].bytes, lent.table[0].length, lent.table[1].bytes, lent.table[1].length,
                         lent.table[2].bytes, lent.table[2].length, proved.buffer, room, proved.outcome.answer,
                         answer_len);
    plain.outcome.returned =
        plain_merge(table[0].bytes, table[0].length, table[1].bytes, table[1].length, table[2].bytes, table[2].length,
                    plain.buffer, room, plain.outcome.answer, answer_len);
    if (!same(&proved.outcome, &plain.outcome) || !same_tables(&lent, triple) ||
        memcmp(proved.buffer, plain.buffer, sizeof plain.buffer) != 0)
        stop_at_merge(triple, &proved, &plain, room, answer_len);
    note(met[MERGE], plain.outcome.returned);
    return plain.outcome.returned;
}

static void stop_at_conflict(const struct triple *triple, const struct outcome *proved, const struct outcome *plain,
                             uint32_t above, size_t answer_len)
{
    printf("difference in conflict(%" PRIu32 "), or a table was written to; %zu bytes for the answer\n", above,
           answer_len);
    print_triple(triple);
    print_outcome("mishtodran", proved);
    print_outcome("plain", plain);
    exit(1);
}

/* The id that both answer; 0 where they refuse. */
static uint32_t conflict(const struct triple *triple, uint32_t above, size_t answer_len)
{
    static struct triple lent;
    const struct generated *table = triple->table;
    struct outcome proved = nothing_yet(), plain = nothing_yet();
    lent = *triple;
    proved.returned = mishtodran_conflict(lent.table[0].bytes, lent.table[0].length, lent.table[1].bytes,
                                          lent.table[1].length, lent.table[2].bytes, lent.table[2].length, above,
                                          proved.answer, answer_len);
    plain.returned = plain_conflict(table[0].bytes, table[0].length, table[1].bytes, table[1].length, table[2].bytes,
                                    table[2].length, above, plain.answer, answer_len);
    if (!same(&proved, &plain) || !same_tables(&lent, triple))
        stop_at_conflict(triple, &proved, &plain, above, answer_len);
    note(met[CONFLICT], plain.returned);
    return plain.returned ? 0 : get32(plain.answer);
}

/* All conflicts, then those above the number before the first, above one beyond any id, and above any number. */
static void ask_conflicts(struct source *source, const struct triple *triple)
{
    uint32_t first = conflict(triple, 0, 4);
    for (uint32_t above = first; above != 0;)
        above = conflict(triple, above, 4);
    conflict(triple, first - 1, 4);
    conflict(triple, first + 65536, 4);
    conflict(triple, (uint32_t)draw(source, 0, one_in(source, 2) ? 65535 : UINT32_MAX), draw(source, 0, 8));
}

static unsigned decider(const struct triple *triple)
{
    uint8_t answer[8];
    for (unsigned i = ANCESTOR; i <= SECOND; i++) {
        plain_check(triple->table[i].bytes, triple->table[i].length, answer, sizeof answer);
        if (get32(answer) != 0)
            return i;
    }
    return TOGETHER;
}

/* What a merge of accepted tables comes to; MERGE_GROUNDS where it is nothing of the forms. */
static unsigned merge_ground(const struct triple *triple, uint32_t returned)
{
    bool largest[3];
    for (unsigned i = 0; i < 3; i++)
        largest[i] = is_largest(triple->table[i].bytes, triple->table[i].length);
    bool in_first = largest[1] != largest[0], in_second = largest[2] != largest[0];
    if (returned == 3)
        return BOTH_FORMS;
    if (returned == 1 && in_first != in_second)
        return BOTH_FORMS_LONG;
    if (returned != 0 || (!in_first && !in_second))
        return MERGE_GROUNDS;
    return in_first && in_second ? BY_BOTH_CONVERTED : in_first ? BY_CONVERTED_FIRST : BY_CONVERTED_SECOND;
}

/* With the copies as they are: into the room given and into more than enough, and with an answer buffer of some length
   up to 8. */
static void compare_merge(struct source *source, const struct triple *triple)
{
    unsigned by = decider(triple);
    merge_under_way = triple;
    note(decided[by], merge(triple, triple->room, 4));
    uint32_t returned = merge(triple, MERGE_ROOM, 4);
    unsigned ground = merge_ground(triple, returned);
    note(decided[by], returned);
    if (by == TOGETHER && ground < MERGE_GROUNDS)
        merge_met[ground]++;
    merge(triple, triple->room, draw(source, 0, 8));
    ask_conflicts(source, triple);
    merge_under_way = NULL;
}

static void compare_both_ways(struct source *source, const struct triple *triple)
{
    struct triple swapped = *triple;
    swapped.table[1] = triple->table[2];
    swapped.table[2] = triple->table[1];
    compare_merge(source, triple);
    compare_merge(source, &swapped);
}

/* Tables made to be merged, then some of them spoiled, then one of them replaced by this table. */
static void merge_somehow(struct source *source, const struct generated *table)
{
    const struct triple made = generate_triple(source);
    compare_both_ways(source, &made);
    struct triple other = made;
    spoil_triple(source, &other);
    compare_both_ways(source, &other);
    other = made;
    other.table[draw(source, 0, 2)] = *table;
    compare_both_ways(source, &other);
}

/* ---- Rows, read and written ---- */

struct read {
    struct outcome outcome;
    struct mishtodran_row row[READ_ROOM]; /* the lent rows and what follows them */
};

struct written {
    struct outcome outcome;
    uint8_t buffer[WRITE_ROOM + 32]; /* the lent buffer and what follows it */
};

/* The rows under way, to be shown where a library crashes on them; NULL where none are. */
static const struct made_rows *rows_under_way;

static void print_row(const struct mishtodran_row *row)
{
    printf("form %04x, id %u, kind %u, overload %u, deadline %" PRIu32 ", gap %" PRIu32 ", flag %u, lists of %" PRIu64
           ":",
           row->form, row->id, row->kind, row->overload, row->deadline, row->gap, row->flag, row->listed);
    for (unsigned i = 0; i < MISHTODRAN_MOST_DISTANCES; i++)
        printf(" %" PRIu32 " to %" PRIu32, row->list[i], row->largest[i]);
    printf(", tasks, %" PRIu64 ":", row->tasks);
    for (unsigned i = 0; i < MISHTODRAN_MOST_TASKS; i++)
        printf(" %u/%" PRIu32, row->priority[i], row->cost[i]);
    putchar('\n');
}

static void print_rows(const char *what, const struct mishtodran_row *rows, size_t count)
{
    printf("%s, %zu:\n", what, count);
    for (size_t i = 0; i < count; i++)
        print_row(&rows[i]);
}

/* What a read is lent: something in every byte. */
static struct read nothing_read(void)
{
    struct read read = {.outcome = nothing_yet()};
    uint8_t *bytes = (uint8_t *)read.row;
    for (size_t i = 0; i < sizeof read.row; i++)
        bytes[i] = (uint8_t)(0x47 + 11 * i);
    return read;
}

static bool same_read(const struct read *one, const struct read *other)
{
    return same(&one->outcome, &other->outcome) && same_rows(one->row, other->row, READ_ROOM);
}

static void stop_at_read(const struct generated *table, const struct read *proved, const struct read *plain,
                         size_t row_count, size_t answer_len)
{
    printf("difference in read, or the table was written to; %zu rows, %zu bytes for the answer\n", row_count,
           answer_len);
    printf("family: %s %s\n", table->family, table->damage);
    print_hex("table", table->bytes, table->length);
    print_outcome("mishtodran", &proved->outcome);
    print_rows("its rows and beyond", proved->row, READ_ROOM);
    print_outcome("plain", &plain->outcome);
    print_rows("its rows and beyond", plain->row, READ_ROOM);
    exit(1);
}

/* Reads with both, and gives back what they give. */
static struct read read_rows(const struct generated *table, size_t row_count, size_t answer_len)
{
    static struct generated lent;
    struct read proved = nothing_read(), plain = proved;
    lent = *table;
    proved.outcome.returned =
        mishtodran_read(lent.bytes, lent.length, proved.row, row_count, proved.outcome.answer, answer_len);
    plain.outcome.returned =
        plain_read(table->bytes, table->length, plain.row, row_count, plain.outcome.answer, answer_len);
    if (!same_read(&proved, &plain) || memcmp(lent.bytes, table->bytes, sizeof lent.bytes) != 0)
        stop_at_read(table, &proved, &plain, row_count, answer_len);
    note(met[READ], plain.outcome.returned);
    return plain;
}

static struct written nothing_written(void)
{
    struct written written = {.outcome = nothing_yet()};
    for (size_t i = 0; i < sizeof written.buffer; i++)
        written.buffer[i] = (uint8_t)(0x33 + 5 * i);
    return written;
}

static bool same_written(const struct written *one, const struct written *other)
{
    return same(&one->outcome, &other->outcome) && memcmp(one->buffer, other->buffer, sizeof one->buffer) == 0;
}

/* What a write must come to, by the bytes of its rows: their number, then room, else these bytes. */
static struct written by_bytes(const struct made_rows *made, size_t room, size_t answer_len)
{
    struct written written = nothing_written();
    uint8_t verdict[8];
    plain_check(made->bytes.bytes, made->bytes.length, verdict, sizeof verdict);
    uint32_t number = answer_len < 4 ? 27 : get32(verdict);
    if (number == 0 && room < made->bytes.length)
        number = 24;
    written.outcome.returned = number;
    if (number == 0) {
        put32(written.outcome.answer, made->bytes.length);
        memcpy(written.buffer, made->bytes.bytes, made->bytes.length);
    }
    return written;
}

static void print_written(const char *whose, const struct written *written)
{
    print_outcome(whose, &written->outcome);
    print_hex("the buffer and beyond", written->buffer, sizeof written->buffer);
}

static void stop_at_write(const struct made_rows *made, const struct written *proved, const struct written *plain,
                          const struct written *expected, size_t room, size_t answer_len)
{
    printf("difference in write, or a row was written to; %zu bytes for the table, %zu for the answer\n", room,
           answer_len);
    printf("family: %s %s\n", made->bytes.family, made->bytes.damage);
    print_rows("rows", made->row, made->count);
    print_written("mishtodran", proved);
    print_written("plain", plain);
    print_written("a reader of the rows' bytes", expected);
    exit(1);
}

/* What a write comes to where it is the form that decides; else WRITE_GROUNDS. */
static unsigned write_ground(const struct made_rows *made, uint32_t returned)
{
    size_t at = 0;
    if (returned == 0)
        return made->bytes.length > MISHTODRAN_MOST_GAP_TABLE_BYTES ? LONG_WRITTEN : WRITE_GROUNDS;
    if (returned != 3)
        return WRITE_GROUNDS;
    while (at < made->count && made->row[at].form == made->row[0].form)
        at++;
    if (at == made->count)
        return NEITHER_FIRST;
    uint16_t form = made->row[at].form;
    if (at == 16)
        return FORM_OF_17TH;
    return form == MISHTODRAN_GAP_FORM || form == MISHTODRAN_LARGEST_FORM ? ANOTHER_FORM : NEITHER_FORM;
}

/* Writes with both, and gives back what they return. Both must do what the rows' bytes say. */
static uint32_t write_rows(const struct made_rows *made, size_t room, size_t answer_len)
{
    static struct mishtodran_row lent[MOST_ROWS];
    struct written proved = nothing_written(), plain = proved, expected = by_bytes(made, room, answer_len);
    memcpy(lent, made->row, sizeof lent);
    proved.outcome.returned =
        mishtodran_write(lent, made->count, proved.buffer, room, proved.outcome.answer, answer_len);
    plain.outcome.returned =
        plain_write(made->row, made->count, plain.buffer, room, plain.outcome.answer, answer_len);
    if (!same_written(&proved, &plain) || !same_written(&plain, &expected) ||
        memcmp(lent, made->row, sizeof lent) != 0)
        stop_at_write(made, &proved, &plain, &expected, room, answer_len);
    note(met[WRITE], plain.outcome.returned);
    unsigned ground = write_ground(made, plain.outcome.returned);
    if (ground < WRITE_GROUNDS)
        write_met[ground]++;
    return plain.outcome.returned;
}

/* Reads what was written: the same rows, and the others as they were. */
static void read_back(const struct made_rows *made, size_t row_count)
{
    struct read expected = nothing_read(), read = read_rows(&made->bytes, row_count, 4);
    put32(expected.outcome.answer, made->count);
    for (size_t i = 0; i < made->count; i++)
        expected.row[i] = without_rest(made->row[i]);
    if (same_read(&read, &expected))
        return;
    puts("what was written does not read back");
    print_rows("rows", made->row, made->count);
    print_outcome("both", &read.outcome);
    print_rows("the rows read and beyond", read.row, READ_ROOM);
    exit(1);
}

/* Into the room given and into just enough, and with an answer buffer of some length up to 8. */
static void write_somehow(struct source *source)
{
    const struct made_rows made = generate_rows(source);
    rows_under_way = &made;
    write_rows(&made, made.room, 4);
    write_rows(&made, made.room, draw(source, 0, 8));
    if (write_rows(&made, made.bytes.length, 4) == 0)
        read_back(&made, draw(source, made.count, READ_ROOM));
    rows_under_way = NULL;
}

/* Writes what was read of a table: the same bytes. */
static void write_back(const struct generated *table, const struct read *read)
{
    struct made_rows made = {.count = get32(read->outcome.answer), .bytes = *table};
    memcpy(made.row, read->row, sizeof read->row);
    rows_under_way = &made;
    write_rows(&made, table->length, 4);
    write_rows(&made, WRITE_ROOM, 4);
    rows_under_way = NULL;
}

/* Into as many rows as there are chains, more, fewer, and some; an answer too short comes before that. */
static void ask_reads(struct source *source, const struct generated *table, const struct places *places)
{
    struct read read = read_rows(table, places->chains, 4);
    if (read.outcome.returned == 0)
        write_back(table, &read);
    read_rows(table, READ_ROOM, draw(source, 4, ANSWER_ROOM));
    read_rows(table, places->chains ? places->chains - 1 : 0, 4);
    read_rows(table, draw(source, 0, READ_ROOM), draw(source, 0, 8));
}

/* ---- Conversions ---- */

typedef uint32_t conversion(const uint8_t *table, size_t table_len, uint8_t *buffer, size_t buffer_len, uint8_t *answer,
                            size_t answer_len);

static void stop_at_conversion(const struct generated *table, unsigned entry, size_t room, size_t answer_len)
{
    printf("difference in %s, or the table was written to; %zu bytes for the result, %zu for the answer\n",
           entry_name[entry], room, answer_len);
    printf("family: %s %s\n", table->family, table->damage);
    print_hex("table", table->bytes, table->length);
}

/* Converts with both, and gives back what they give. */
static struct written convert(const struct generated *table, unsigned entry, size_t room, size_t answer_len)
{
    static struct generated lent;
    conversion *by_proved = entry == TO_LARGEST ? mishtodran_to_largest : mishtodran_to_gap;
    conversion *by_plain = entry == TO_LARGEST ? plain_to_largest : plain_to_gap;
    struct written proved = nothing_written(), plain = proved;
    lent = *table;
    proved.outcome.returned =
        by_proved(lent.bytes, lent.length, proved.buffer, room, proved.outcome.answer, answer_len);
    plain.outcome.returned =
        by_plain(table->bytes, table->length, plain.buffer, room, plain.outcome.answer, answer_len);
    if (!same_written(&proved, &plain) || memcmp(lent.bytes, table->bytes, sizeof lent.bytes) != 0) {
        stop_at_conversion(table, entry, room, answer_len);
        print_written("mishtodran", &proved);
        print_written("plain", &plain);
        exit(1);
    }
    note(met[entry], plain.outcome.returned);
    return plain;
}

/* How the largest distances of an accepted table's chains stand to a gap: which flags there are, whether all are
   multiples of the first of their list, and the greatest of these. */
struct shapes {
    bool known, unknown, multiples;
    uint32_t greatest;
};

static struct shapes shapes_of(const struct generated *table)
{
    struct mishtodran_row row[MISHTODRAN_MOST_CHAINS];
    uint8_t answer[4] = {0};
    struct shapes shapes = {.multiples = true};
    plain_read(table->bytes, table->length, row, MISHTODRAN_MOST_CHAINS, answer, sizeof answer);
    for (unsigned i = 0; i < get32(answer); i++) {
        uint32_t gap = row[i].largest[0];
        for (unsigned n = 0; n < row[i].listed; n++)
            shapes.multiples &= row[i].largest[n] == gap * (n + 1);
        shapes.known |= row[i].flag == 1;
        shapes.unknown |= row[i].flag == 0;
        shapes.greatest = gap > shapes.greatest ? gap : shapes.greatest;
    }
    return shapes;
}

/* What a conversion of an accepted table comes to; CONVERT_GROUNDS where it is nothing that is looked for. */
static unsigned convert_ground(const struct generated *table, unsigned entry, const struct outcome *outcome)
{
    bool largest = is_largest(table->bytes, table->length);
    if (outcome->returned == 34 && largest == (entry == TO_LARGEST))
        return largest ? HAS_LARGEST : HAS_GAPS;
    if (outcome->returned == 0 && entry == TO_LARGEST)
        return get32(outcome->answer) == MISHTODRAN_MOST_TABLE_BYTES ? LONGEST_MADE : CONVERT_GROUNDS;
    if (outcome->returned != 0 && outcome->returned != 34)
        return CONVERT_GROUNDS;
    struct shapes shapes = shapes_of(table);
    if (outcome->returned == 34)
        return shapes.multiples ? GAP_TOO_GREAT : NO_MULTIPLES;
    if (shapes.greatest == MISHTODRAN_MOST_TIME)
        return GREATEST_GAP;
    return shapes.known && shapes.unknown ? BOTH_FLAGS : CONVERT_GROUNDS;
}

static void stop_at_converted(const struct generated *table, const struct generated *other, const char *what)
{
    printf("a converted table has another %s\n", what);
    printf("family: %s %s\n", table->family, table->damage);
    print_hex("table", table->bytes, table->length);
    print_hex("converted", other->bytes, other->length);
    exit(1);
}

/* Asks for the same figure of a table and of the converted one: it is the same, or refused alike. */
static void ask_of_both(const struct generated *table, const struct generated *other, unsigned entry, uint32_t id,
                        uint32_t k)
{
    const struct query query = {entry, {id, k, 0}, answer_bytes[entry]};
    struct outcome of_table = ask(table, query), of_other = ask(other, query);
    if (same(&of_table, &of_other))
        return;
    printf("%s(%" PRIu32 ", %" PRIu32 "):\n", entry_name[entry], id, k);
    print_outcome("of the table", &of_table);
    print_outcome("of the converted one", &of_other);
    stop_at_converted(table, other, "figure");
}

/* What was converted: back again it is the table that it was, and all figures are the same. */
static void compare_converted(struct source *source, const struct generated *table, const struct places *places,
                              unsigned entry, const struct written *written)
{
    struct generated other = {.length = get32(written->outcome.answer), .family = table->family, .damage = "converted"};
    memcpy(other.bytes, written->buffer, other.length);
    struct written back = convert(&other, entry == TO_LARGEST ? TO_GAP : TO_LARGEST, table->length, 4);
    if (back.outcome.returned != 0 || get32(back.outcome.answer) != table->length ||
        memcmp(back.buffer, table->bytes, table->length) != 0)
        stop_at_converted(table, &other, "table that it comes back to");
    ask_whole(&other, CHECK, 0, 0, 0);
    for (unsigned i = 0; i < places->chains; i++) {
        uint32_t k = (uint32_t)draw(source, 1, one_in(source, 2) ? 50 : 1000);
        ask_of_both(table, &other, LATENCY, places->id[i], 0);
        ask_of_both(table, &other, MISSES, places->id[i], 10);
        ask_of_both(table, &other, MISSES, places->id[i], k);
        ask_of_both(table, &other, MISSES_AT_MOST, places->id[i], k);
    }
}

/* Into more room than needed, into any, into just enough and less; an answer too short comes before that. */
static void ask_conversions(struct source *source, const struct generated *table, const struct places *places)
{
    for (unsigned entry = TO_LARGEST; entry <= TO_GAP; entry++) {
        struct written written = convert(table, entry, WRITE_ROOM, 4);
        unsigned ground = convert_ground(table, entry, &written.outcome);
        size_t length = get32(written.outcome.answer);
        convert(table, entry, draw(source, 0, WRITE_ROOM), draw(source, 0, 8));
        if (ground < CONVERT_GROUNDS)
            convert_met[ground]++;
        if (written.outcome.returned != 0)
            continue;
        convert(table, entry, length, draw(source, 4, ANSWER_ROOM));
        convert(table, entry, length - 1, 4);
        convert(table, entry, draw(source, 0, length - 1), draw(source, 0, 8));
        compare_converted(source, table, places, entry, &written);
    }
}

/* ---- Salvages ---- */

struct salvaged {
    struct outcome outcome;
    uint8_t table[WRITE_ROOM + 32], list[LIST_ROOM + 32]; /* the lent buffers and what follows them */
};

/* The lengths of the buffers that a salvage is lent. */
struct rooms {
    size_t table, list, answer;
};

static const struct rooms much_room = {WRITE_ROOM, LIST_ROOM, 8};

/* The wreck under way, to be shown where a library crashes on it; NULL where none is. */
static const struct wreck *wreck_under_way;

static struct salvaged nothing_salvaged(void)
{
    struct salvaged salvaged = {.outcome = nothing_yet()};
    for (size_t i = 0; i < sizeof salvaged.table; i++)
        salvaged.table[i] = (uint8_t)(0x33 + 5 * i);
    for (size_t i = 0; i < sizeof salvaged.list; i++)
        salvaged.list[i] = (uint8_t)(0x15 + 3 * i);
    return salvaged;
}

static bool same_salvaged(const struct salvaged *one, const struct salvaged *other)
{
    return same(&one->outcome, &other->outcome) && memcmp(one->table, other->table, sizeof one->table) == 0 &&
           memcmp(one->list, other->list, sizeof one->list) == 0;
}

static void print_wreck(const struct wreck *wreck)
{
    printf("family: %s %s\n", wreck->family, wreck->damage);
    print_hex("input", wreck->bytes, wreck->length);
}

static void print_salvaged(const char *whose, const struct salvaged *salvaged)
{
    print_outcome(whose, &salvaged->outcome);
    print_hex("the table's buffer and beyond", salvaged->table, sizeof salvaged->table);
    print_hex("the list's buffer and beyond", salvaged->list, sizeof salvaged->list);
}

static void stop_at_salvage(const struct wreck *wreck, const struct salvaged *proved, const struct salvaged *plain,
                            struct rooms rooms)
{
    printf("difference in salvage, or the input was written to; %zu bytes for the table, %zu for the list, %zu for the "
           "answer\n",
           rooms.table, rooms.list, rooms.answer);
    print_wreck(wreck);
    print_salvaged("mishtodran", proved);
    print_salvaged("plain", plain);
    exit(1);
}

/* Salvages with both, and gives back what they give. */
static struct salvaged salvage(const struct wreck *wreck, struct rooms rooms)
{
    static struct wreck lent;
    struct salvaged proved = nothing_salvaged(), plain = proved;
    lent = *wreck;
    proved.outcome.returned = mishtodran_salvage(lent.bytes, lent.length, proved.table, rooms.table, proved.list,
                                                 rooms.list, proved.outcome.answer, rooms.answer);
    plain.outcome.returned = plain_salvage(wreck->bytes, wreck->length, plain.table, rooms.table, plain.list,
                                           rooms.list, plain.outcome.answer, rooms.answer);
    if (!same_salvaged(&proved, &plain) || memcmp(lent.bytes, wreck->bytes, sizeof lent.bytes) != 0)
        stop_at_salvage(wreck, &proved, &plain, rooms);
    note(met[SALVAGE], plain.outcome.returned);
    return plain;
}

/* Where the kept records stand in the input, and where the walk ended. */
struct kept {
    unsigned count;
    size_t at[MISHTODRAN_MOST_CHAINS], length[MISHTODRAN_MOST_CHAINS], end;
    bool covers; /* kept and skipped stretches, with any rest after a 16th record, are the input, each byte once */
};

/* Goes over the stretch that is the next in the list where one starts at this byte, and gives back where it ends. */
static size_t after_skipped(const struct salvaged *salvaged, unsigned *stretch, size_t at)
{
    const uint8_t *next = salvaged->list + SKIPPED_BYTES * *stretch;
    if (SKIPPED_BYTES * *stretch == get32(salvaged->outcome.answer + 4) || get32(next) != at || get32(next + 4) == 0)
        return at;
    ++*stretch;
    return at + get32(next + 4);
}

/* Puts a salvage together again: each record of the table follows the one before it, or a stretch of the list. */
static struct kept find_kept(const struct wreck *wreck, const struct salvaged *salvaged)
{
    struct kept kept = {.covers = true};
    unsigned stretch = 0;
    size_t at = after_skipped(salvaged, &stretch, 0);
    for (const uint8_t *record = salvaged->table; record[0] == 'C'; record += parts_of(record).end) {
        unsigned i = kept.count++;
        kept.at[i] = at;
        kept.length[i] = parts_of(record).end;
        kept.covers &= at + kept.length[i] <= wreck->length && memcmp(wreck->bytes + at, record, kept.length[i]) == 0;
        at = after_skipped(salvaged, &stretch, at + kept.length[i]);
    }
    kept.end = at;
    kept.covers &= SKIPPED_BYTES * stretch == get32(salvaged->outcome.answer + 4);
    kept.covers &= kept.count == MISHTODRAN_MOST_CHAINS ? at <= wreck->length : at == wreck->length;
    return kept;
}

static bool is_accepted(const uint8_t *table, size_t length)
{
    uint8_t verdict[8];
    plain_check(table, length, verdict, sizeof verdict);
    return get32(verdict) == 0;
}

/* Whether a whole record that is good by itself starts here; then its length. */
static bool good_alone(const struct wreck *wreck, size_t at, size_t *length)
{
    uint8_t table[MISHTODRAN_MOST_CHAIN_RECORD_BYTES + 4];
    const uint8_t *record = wreck->bytes + at;
    if (wreck->length - at < MISHTODRAN_LEAST_CHAIN_RECORD_BYTES || record[0] != 'C')
        return false;
    *length = parts_of(record).end;
    if (*length > MISHTODRAN_MOST_CHAIN_RECORD_BYTES || *length > wreck->length - at)
        return false;
    memcpy(table, record, *length);
    memcpy(table + *length, "EN\1", 4);
    return is_accepted(table, *length + 4);
}

/* Why a record that is good by itself was not kept beside the first so many. */
static unsigned refused_beside(const struct wreck *wreck, size_t at, const struct kept *kept, unsigned count)
{
    const uint8_t *record = wreck->bytes + at;
    if (record[1] != wreck->bytes[kept->at[0] + 1])
        return IN_ONE_OF_OTHER_FORM;
    for (unsigned i = 0; i < count; i++)
        if (memcmp(record + 2, wreck->bytes + kept->at[i] + 2, 2) == 0)
            return IN_ONE_OF_USED_ID;
    return IN_ONE_OF_MANY_TASKS;
}

/* Notes each record that starts in one which was not kept beside those before it. */
static void note_nested(const struct wreck *wreck, const struct kept *kept)
{
    for (unsigned i = 1; i < kept->count; i++)
        for (size_t at = kept->at[i - 1] + kept->length[i - 1], length; at < kept->at[i]; at++)
            if (good_alone(wreck, at, &length) && at + length > kept->at[i])
                salvage_met[refused_beside(wreck, at, kept, i)]++;
}

/* Notes what was skipped: before the first record, between two, after the last. */
static void note_skipped(const struct salvaged *salvaged, const struct kept *kept)
{
    bool before = kept->at[0] > 0, after = kept->end > kept->at[kept->count - 1] + kept->length[kept->count - 1];
    unsigned stretches = get32(salvaged->outcome.answer + 4) / SKIPPED_BYTES;
    salvage_met[NOTHING_SKIPPED] += stretches == 0;
    salvage_met[SKIPPED_BEFORE] += before;
    salvage_met[SKIPPED_BETWEEN] += stretches > (unsigned)before + after;
    salvage_met[SKIPPED_AFTER] += after;
}

static void note_salvage(const struct wreck *wreck, const struct salvaged *salvaged, const struct kept *kept)
{
    bool full = kept->count == MISHTODRAN_MOST_CHAINS;
    salvage_met[is_largest(salvaged->table, 2) ? SALVAGED_LARGEST : SALVAGED_GAPS]++;
    salvage_met[full ? kept->end < wreck->length ? KEPT_16_AND_REST : KEPT_16 : KEPT_FEWER]++;
    salvage_met[WHOLE_TABLE] += is_accepted(wreck->bytes, wreck->length);
    salvage_met[LONGEST_SALVAGED] += wreck->length == MOST_SALVAGED;
    note_skipped(salvaged, kept);
    note_nested(wreck, kept);
}

static void stop_at_salvaged(const struct wreck *wreck, const struct salvaged *salvaged, const char *what)
{
    printf("what was salvaged %s\n", what);
    print_wreck(wreck);
    print_salvaged("both", salvaged);
    exit(1);
}

/* What a salvage of an accepted table of so many chains must come to: the table, and its end record skipped, unless the
   walk ends before that. */
static struct salvaged by_table(const struct generated *table, unsigned chains)
{
    struct salvaged salvaged = nothing_salvaged();
    bool walked_over_end = chains < MISHTODRAN_MOST_CHAINS;
    memcpy(salvaged.table, table->bytes, table->length);
    put32(salvaged.outcome.answer, table->length);
    put32(salvaged.outcome.answer + 4, walked_over_end ? SKIPPED_BYTES : 0);
    if (walked_over_end) {
        put32(salvaged.list, table->length - 4);
        put32(salvaged.list + 4, 4);
    }
    return salvaged;
}

/* What was salvaged: it and the list cover the input, it is accepted, and a salvage of it gives it back. Of an input that
   is accepted it is the input. */
static void compare_salvaged(const struct wreck *wreck, const struct salvaged *salvaged)
{
    struct generated table = {.length = get32(salvaged->outcome.answer), .family = "salvaged", .damage = ""};
    memcpy(table.bytes, salvaged->table, table.length);
    struct kept kept = find_kept(wreck, salvaged);
    if (!kept.covers)
        stop_at_salvaged(wreck, salvaged, "does not cover the input");
    note_salvage(wreck, salvaged, &kept);
    if (get32(ask(&table, (struct query){.entry = CHECK, .answer_len = answer_bytes[CHECK]}).answer) != 0)
        stop_at_salvaged(wreck, salvaged, "is refused");
    struct salvaged expected = by_table(&table, kept.count);
    struct wreck again = wreck_of(&table);
    struct salvaged found = salvage(&again, much_room);
    if (!same_salvaged(&found, &expected) ||
        (is_accepted(wreck->bytes, wreck->length) && !same_salvaged(salvaged, &expected)))
        stop_at_salvaged(wreck, salvaged, "does not come back");
}

static void note_refused(const struct wreck *wreck, uint32_t returned)
{
    salvage_met[EMPTY_INPUT] += returned == 36 && wreck->length == 0;
    salvage_met[NOTHING_KEPT] += returned == 36 && wreck->length > 0;
    salvage_met[ONE_BYTE_TOO_LONG] += returned == 35 && wreck->length == MOST_SALVAGED + 1;
}

/* Into just enough room for a result, and into less for the table; for the list, and for either, where it has bytes. */
static void salvage_closely(struct source *source, const struct wreck *wreck, const struct salvaged *salvaged)
{
    size_t table = get32(salvaged->outcome.answer), list = get32(salvaged->outcome.answer + 4);
    size_t less_table = one_in(source, 2) ? table - 1 : draw(source, 0, table - 1);
    salvage(wreck, (struct rooms){table, list, draw(source, 8, ANSWER_ROOM)});
    salvage_met[NO_ROOM_FOR_TABLE] += salvage(wreck, (struct rooms){less_table, LIST_ROOM, 8}).outcome.returned == 24;
    if (list == 0)
        return;
    size_t less_list = one_in(source, 2) ? list - 1 : draw(source, 0, list - 1);
    salvage_met[NO_ROOM_FOR_LIST] += salvage(wreck, (struct rooms){WRITE_ROOM, less_list, 8}).outcome.returned == 24;
    salvage_met[NO_ROOM_AT_ALL] += salvage(wreck, (struct rooms){less_table, less_list, 8}).outcome.returned == 24;
}

/* Into more room than needed and into any; an answer too short comes before that. */
static void compare_wreck(struct source *source, const struct wreck *wreck)
{
    wreck_under_way = wreck;
    struct salvaged salvaged = salvage(wreck, much_room);
    struct rooms any = {.table = draw(source, 0, WRITE_ROOM)};
    any.list = draw(source, 0, LIST_ROOM);
    any.answer = draw(source, 0, 16);
    salvage(wreck, any);
    if (salvaged.outcome.returned == 0) {
        compare_salvaged(wreck, &salvaged);
        salvage_closely(source, wreck, &salvaged);
    } else {
        note_refused(wreck, salvaged.outcome.returned);
    }
    wreck_under_way = NULL;
}

/* The table itself, and wrecks. */
static void salvage_somehow(struct source *source, const struct generated *table)
{
    struct wreck wreck = wreck_of(table);
    compare_wreck(source, &wreck);
    for (unsigned i = 0; i < 6; i++) {
        wreck = generate_wreck(source);
        compare_wreck(source, &wreck);
    }
}

/* ---- Reports ---- */

struct told {
    struct outcome outcome;
    uint8_t text[TEXT_ROOM]; /* the lent buffer and what follows it */
};

static void stop_at_report(const struct generated *table, const struct told *proved, const struct told *plain,
                           size_t text_len, size_t answer_len)
{
    printf("difference in report, or the table was written to; %zu bytes for the text, %zu for the answer\n", text_len,
           answer_len);
    printf("family: %s %s\n", table->family, table->damage);
    print_hex("table", table->bytes, table->length);
    print_outcome("mishtodran", &proved->outcome);
    print_hex("its text and beyond", proved->text, TEXT_ROOM);
    print_outcome("plain", &plain->outcome);
    print_hex("its text and beyond", plain->text, TEXT_ROOM);
    exit(1);
}

/* The text of both, and its length; 0 where it is refused. */
static size_t report(const struct generated *table, size_t text_len, size_t answer_len)
{
    static struct generated lent;
    struct told proved = {.outcome = nothing_yet()};
    for (unsigned i = 0; i < TEXT_ROOM; i++)
        proved.text[i] = (uint8_t)(0x21 + 3 * i);
    struct told plain = proved;
    lent = *table;
    proved.outcome.returned =
        mishtodran_report(lent.bytes, lent.length, proved.text, text_len, proved.outcome.answer, answer_len);
    plain.outcome.returned =
        plain_report(table->bytes, table->length, plain.text, text_len, plain.outcome.answer, answer_len);
    if (!same(&proved.outcome, &plain.outcome) || memcmp(proved.text, plain.text, TEXT_ROOM) != 0 ||
        memcmp(lent.bytes, table->bytes, sizeof lent.bytes) != 0)
        stop_at_report(table, &proved, &plain, text_len, answer_len);
    note(met[REPORT], plain.outcome.returned);
    return plain.outcome.returned ? 0 : get32(plain.outcome.answer);
}

/* Into a buffer of the longest text, of this one's length, and of less; an answer too short comes before that. */
static void ask_reports(struct source *source, const struct generated *table)
{
    size_t length = report(table, MISHTODRAN_LONGEST_REPORT, 4);
    report(table, length, draw(source, 4, ANSWER_ROOM));
    report(table, draw(source, 0, 3) ? length - 1 : draw(source, 0, length - 1), 4);
    report(table, length - draw(source, 0, 1), draw(source, 0, 3));
}

/* ---- All tables ---- */

/* Spoils an accepted table again and again: reading has many faults, and what a refused table is asked costs little. */
static void ask_spoiled(struct source *source, struct generated *table, const struct places *places)
{
    const struct generated accepted = *table;
    for (unsigned i = 0; i < 16; i++) {
        *table = accepted;
        spoil_together(source, table, places->chains);
        ask_whole(table, CHECK, 0, 0, 0);
        ask_whole(table, RECORD, places->id[0], 0, 0);
        ask_whole(table, LATENCY, places->id[0], 0, 0);
        ask_whole(table, SEGMENT, places->id[0], places->id[0], 1);
        ask_misses(table, places->id[0], 10);
        read_rows(table, draw(source, 0, READ_ROOM), 4);
        convert(table, TO_LARGEST, WRITE_ROOM, 4);
        convert(table, TO_GAP, WRITE_ROOM, 4);
        struct wreck wreck = wreck_of(table);
        compare_wreck(source, &wreck);
    }
}

/* The table is spoiled at the end. */
static void compare_table(struct source *source, struct generated *table)
{
    look_at_former(table);
    struct places places = find_places(table);
    ask_figures(source, table, &places);
    ask_segments(table, &places);
    ask_oddly(source, table, &places);
    ask_checks(table);
    ask_reads(source, table, &places);
    ask_conversions(source, table, &places);
    for (unsigned i = 0; i < 12; i++)
        save_somehow(source, table, &places);
    for (unsigned i = 0; i < 3; i++)
        merge_somehow(source, table);
    for (unsigned i = 0; i < 12; i++)
        write_somehow(source);
    salvage_somehow(source, table);
    ask_reports(source, table);
    if (places.chains > 0)
        ask_spoiled(source, table, &places);
}

/* The table under way, to be shown where a library crashes on it. */
static struct generated under_way;

static void on_crash(int number)
{
    printf("a crash, signal %d\n", number);
    print_hex("table", under_way.bytes, under_way.length);
    if (merge_under_way)
        print_triple(merge_under_way);
    if (rows_under_way)
        print_rows("rows", rows_under_way->row, rows_under_way->count);
    if (wreck_under_way)
        print_wreck(wreck_under_way);
    exit(1);
}

static void print_counts(const char *what, const uint64_t counts[NUMBERS])
{
    printf("%s:", what);
    for (unsigned i = 0; i < NUMBERS; i++)
        if (counts[i])
            printf(" %u x %" PRIu64 ",", i, counts[i]);
    puts(" calls");
}

/* Numbers that something can give. */
struct numbers {
    unsigned count;
    uint8_t number[16];
};

/* A table's numbers, and those of them that rows can have; those of a table whose first mark is not CG, and of one with
   CG first. */
static const struct numbers of_none = {0};
static const struct numbers of_table = {15, {1, 2, 3, 4, 5, 6, 7, 9, 10, 11, 28, 29, 30, 31, 33}};
static const struct numbers of_rows = {13, {3, 4, 5, 6, 7, 9, 10, 11, 28, 29, 30, 31, 33}};
static const struct numbers of_form[] = {{14, {1, 2, 3, 4, 5, 6, 7, 9, 10, 11, 28, 29, 30, 31}},
                                         {13, {1, 2, 3, 4, 5, 6, 9, 10, 11, 28, 29, 30, 33}}};
static const struct numbers of_many = {2, {0, 16}};
static const struct numbers of_latency = {4, {0, 12, 16, 17}}; /* of accepted tables */
static const struct numbers of_misses = {10, {0, 12, 13, 14, 15, 16, 17, 18, 19, 21}};
static const struct numbers of_merge = {7, {0, 1, 3, 9, 11, 24, 32}}; /* of accepted tables */

/* What each entry can give: a table's numbers, all of them or some, and its own. */
static const struct {
    const struct numbers *of_table;
    struct numbers own;
} given_by[ENTRIES] = {[LATENCY] = {&of_table, {5, {0, 12, 16, 17, 27}}},
                       [MISSES] = {&of_table, {11, {0, 12, 13, 14, 15, 16, 17, 18, 19, 21, 27}}},
                       [MISSES_PLAIN] = {&of_table, {11, {0, 12, 13, 14, 15, 16, 17, 18, 19, 21, 27}}},
                       [MISSES_AT_MOST] = {&of_table, {11, {0, 12, 13, 14, 15, 16, 17, 18, 19, 21, 27}}},
                       [SEGMENT] = {&of_table, {5, {0, 12, 25, 26, 27}}},
                       [RECORD] = {&of_table, {3, {0, 12, 27}}},
                       [CHECK] = {&of_none, {2, {0, 27}}},
                       [SAVE] = {&of_table, {5, {0, 22, 23, 24, 27}}},
                       [MERGE] = {&of_table, {4, {0, 24, 27, 32}}},
                       [CONFLICT] = {&of_table, {2, {0, 27}}},
                       [READ] = {&of_table, {3, {0, 24, 27}}},
                       [WRITE] = {&of_rows, {3, {0, 24, 27}}},
                       [TO_LARGEST] = {&of_table, {4, {0, 24, 27, 34}}},
                       [TO_GAP] = {&of_table, {4, {0, 24, 27, 34}}},
                       [SALVAGE] = {&of_none, {5, {0, 24, 27, 35, 36}}},
                       [REPORT] = {&of_none, {3, {0, 24, 27}}}};

/* Whether one of these numbers was never counted. */
static bool lacks(const char *what, const uint64_t counts[NUMBERS], const struct numbers *numbers)
{
    bool missing = false;
    for (unsigned i = 0; i < numbers->count; i++)
        if (counts[numbers->number[i]] == 0) {
            printf("%s: never %u\n", what, numbers->number[i]);
            missing = true;
        }
    return missing;
}

/* Whether an entry's numbers and answers have not come from all that they can come from. */
static bool lacks_ground(void)
{
    bool missing = false;
    for (size_t i = 0; i < sizeof tallies / sizeof tallies[0]; i++)
        for (unsigned ground = 0; ground < tallies[i].count; ground++)
            if (tallies[i].met[ground] == 0) {
                printf("%s: never '%s'\n", tallies[i].what, tallies[i].name[ground]);
                missing = true;
            }
    return missing;
}

/* Whether no latency, no misses or nothing like them with many arrivals were answered, or none refused; or of tables with a
   list that does not add up, not with each number. */
static bool lacks_figures(void)
{
    bool missing = false;
    for (unsigned entry = LATENCY; entry <= MISSES_AT_MOST; entry++) {
        missing |= lacks(with_many[entry], met_with_many[entry], &of_many);
        missing |= lacks(with_unadded[entry], met_with_unadded[entry], entry == LATENCY ? &of_latency : &of_misses);
    }
    return missing;
}

/* Whether an entry has not given a number that it can give, a check one of either form, or a merge one because of one
   table or of all three. */
static bool lacks_number(void)
{
    bool missing = false;
    for (unsigned entry = 0; entry < ENTRIES; entry++) {
        missing |= lacks(entry_name[entry], met[entry], given_by[entry].of_table);
        missing |= lacks(entry_name[entry], met[entry], &given_by[entry].own);
    }
    for (unsigned largest = 0; largest < 2; largest++)
        missing |= lacks(answered_of[largest], answered[largest], &of_form[largest]);
    for (unsigned by = ANCESTOR; by <= SECOND; by++)
        missing |= lacks(decided_by[by], decided[by], &of_table);
    return lacks(decided_by[TOGETHER], decided[TOGETHER], &of_merge) || missing;
}

static void print_met(void)
{
    for (unsigned entry = 0; entry < ENTRIES; entry++)
        print_counts(entry_name[entry], met[entry]);
    for (unsigned entry = LATENCY; entry <= MISSES_AT_MOST; entry++)
        print_counts(with_many[entry], met_with_many[entry]);
    for (unsigned entry = LATENCY; entry <= MISSES_AT_MOST; entry++)
        print_counts(with_unadded[entry], met_with_unadded[entry]);
    for (unsigned largest = 0; largest < 2; largest++)
        print_counts(answered_of[largest], answered[largest]);
    for (unsigned by = 0; by < DECIDERS; by++)
        print_counts(decided_by[by], decided[by]);
    for (size_t i = 0; i < sizeof tallies / sizeof tallies[0]; i++)
        for (unsigned ground = 0; ground < tallies[i].count; ground++)
            printf("%s, %s: %" PRIu64 " calls\n", tallies[i].what, tallies[i].name[ground], tallies[i].met[ground]);
    printf("misses plain, left out for over %d packings: %" PRIu64 " calls\n", MOST_PACKINGS, plain_left_out);
    printf("by whole lists, left out for over %d steps of climbs: %" PRIu64 " tables\n", MOST_STEPS, former_left_out);
}

int main(int count, char **words)
{
    if (count != 3) {
        fputs("compare: usage: compare SEED N\n", stderr);
        return 2;
    }
    struct source source = {number_given("compare", "SEED", words[1], 0, MOST_SEED)};
    uint64_t tables = number_given("compare", "N", words[2], 1, 1000000000);
    signal(SIGSEGV, on_crash);
    signal(SIGBUS, on_crash);
    for (uint64_t i = 0; i < tables; i++) {
        under_way = generate(&source);
        compare_table(&source, &under_way);
    }
    print_met();
    if (tables >= 1000 && (lacks_number() || lacks_figures() || lacks_ground()))
        return 1;
    printf("%" PRIu64 " tables, no difference\n", tables);
    if (fflush(stdout) != 0 || ferror(stdout)) {
        fputs("compare: standard output cannot be written\n", stderr);
        return 2;
    }
    return 0;
}
