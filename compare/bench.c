/* How long the entries of mishtodran.h and the plain analyzer take on the same calls, in one process.
   Usage: bench [SEED]

   A line for each case: microseconds a call, the best of several runs, and how many times as long the plain one takes. The
   plain one counts arrivals by walking; where that takes seconds, by bisection, and the line says so.
   Built with WITH_GLPK and packing_glpk.c, also what GLPK takes for the packing of the six-segment cases. */
#define _POSIX_C_SOURCE 200809L
#include "../include/mishtodran.h"
#include "analyzer.h"
#include "generate.h"
#include "packing.h"
#include "words.h"

#include <inttypes.h>
#include <stdio.h>
#include <stdlib.h>
#include <string.h>
#include <time.h>

enum {
    LATENCY,
    MISSES,
    MISSES_PLAIN,
    MISSES_AT_MOST,
    SEGMENT,
    RECORD,
    CHECK,
    SAVE,
    MERGE,
    CONFLICT,
    READ,
    WRITE,
    TO_LARGEST,
    TO_GAP,
    SALVAGE,
    REPORT
};
enum { MOST_CALLS = 512, MOST_TABLES = 64, ROUNDS = 200 };

static const double LEAST_SECONDS = 0.005; /* of one run: many short ones find a quiet moment */
static const double MOST_SECONDS = 3;      /* of all runs of a line, but for the first two */

/* A table, and its chains as rows; or a wreck, which has none. */
struct stored {
    uint8_t bytes[MOST_SALVAGED];
    size_t length;
    struct mishtodran_row row[MISHTODRAN_MOST_CHAINS];
    size_t rows;
};

/* What a call is lent: room for an answer, for a table or a report's text, for a list of what was skipped, and for
   rows. */
struct room {
    uint8_t answer[16];
    uint8_t bytes[MISHTODRAN_MOST_TABLE_BYTES];
    uint8_t list[8 * MISHTODRAN_MOST_CHAINS];
    struct mishtodran_row row[MISHTODRAN_MOST_CHAINS];
};

struct call {
    unsigned entry;
    struct stored *table; /* of a merge, the ancestor; its copies stand after it */
    uint32_t number[3];   /* id; id, k; chain, against, number; id; above; others have none */
};

struct bench_case {
    const char *name;
    unsigned calls;
    struct call call[MOST_CALLS];
};

/* ---- One call on either side ---- */

struct side {
    uint32_t (*latency)(const uint8_t *, size_t, uint32_t, uint8_t *, size_t);
    uint32_t (*misses)(const uint8_t *, size_t, uint32_t, uint32_t, uint8_t *, size_t);
    uint32_t (*misses_plain)(const uint8_t *, size_t, uint32_t, uint32_t, uint8_t *, size_t);
    uint32_t (*misses_at_most)(const uint8_t *, size_t, uint32_t, uint32_t, uint8_t *, size_t);
    uint32_t (*segment)(const uint8_t *, size_t, uint32_t, uint32_t, uint32_t, uint8_t *, size_t);
    uint32_t (*record)(const uint8_t *, size_t, uint32_t, uint8_t *, size_t);
    uint32_t (*check)(const uint8_t *, size_t, uint8_t *, size_t);
    uint32_t (*save)(uint8_t *, size_t, uint64_t, const uint8_t *, size_t, const uint8_t *, size_t, uint8_t *, size_t);
    uint32_t (*merge)(const uint8_t *, size_t, const uint8_t *, size_t, const uint8_t *, size_t, uint8_t *, size_t,
                      uint8_t *, size_t);
    uint32_t (*conflict)(const uint8_t *, size_t, const uint8_t *, size_t, const uint8_t *, size_t, uint32_t, uint8_t *,
                         size_t);
    uint32_t (*read)(const uint8_t *, size_t, struct mishtodran_row *, size_t, uint8_t *, size_t);
    uint32_t (*write)(const struct mishtodran_row *, size_t, uint8_t *, size_t, uint8_t *, size_t);
    uint32_t (*to_largest)(const uint8_t *, size_t, uint8_t *, size_t, uint8_t *, size_t);
    uint32_t (*to_gap)(const uint8_t *, size_t, uint8_t *, size_t, uint8_t *, size_t);
    uint32_t (*salvage)(const uint8_t *, size_t, uint8_t *, size_t, uint8_t *, size_t, uint8_t *, size_t);
    uint32_t (*report)(const uint8_t *, size_t, uint8_t *, size_t, uint8_t *, size_t);
};

static const struct side proved = {mishtodran_latency,        mishtodran_misses,   mishtodran_misses_plain,
                                   mishtodran_misses_at_most, mishtodran_segment,  mishtodran_record,
                                   mishtodran_check,          mishtodran_save,     mishtodran_merge,
                                   mishtodran_conflict,       mishtodran_read,     mishtodran_write,
                                   mishtodran_to_largest,     mishtodran_to_gap,   mishtodran_salvage,
                                   mishtodran_report};
static const struct side plain = {plain_latency,        plain_misses,  plain_misses_plain,
                                  plain_misses_at_most, plain_segment, plain_record,
                                  plain_check,          plain_save,    plain_merge,
                                  plain_conflict,       plain_read,    plain_write,
                                  plain_to_largest,     plain_to_gap,  plain_salvage,
                                  plain_report};

/* The deadline of a table's first chain becomes another, and then what it was. */
static uint32_t save_and_back(const struct side *side, const struct call *call, uint8_t *answer)
{
    struct stored *table = call->table;
    uint8_t old[256], new[256];
    size_t length = parts_of(table->bytes).end;
    memcpy(old, table->bytes, length);
    memcpy(new, old, length);
    new[6] ^= 1;
    side->save(table->bytes, sizeof table->bytes, table->length, old, length, new, length, answer, 4);
    return side->save(table->bytes, sizeof table->bytes, table->length, new, length, old, length, answer, 4);
}

static uint32_t merge(const struct side *side, const struct stored *ancestor, struct room *room)
{
    const struct stored *first = ancestor + 1, *second = ancestor + 2;
    return side->merge(ancestor->bytes, ancestor->length, first->bytes, first->length, second->bytes, second->length,
                       room->bytes, sizeof room->bytes, room->answer, 4);
}

static uint32_t conflict(const struct side *side, const struct stored *ancestor, uint32_t above, uint8_t *answer)
{
    const struct stored *first = ancestor + 1, *second = ancestor + 2;
    return side->conflict(ancestor->bytes, ancestor->length, first->bytes, first->length, second->bytes, second->length,
                          above, answer, 4);
}

static uint32_t run_call(const struct side *side, const struct call *call, struct room *room)
{
    const struct stored *table = call->table;
    const uint8_t *bytes = table->bytes;
    size_t length = table->length;
    uint8_t *answer = room->answer;
    switch (call->entry) {
    case LATENCY:
        return side->latency(bytes, length, call->number[0], answer, 16);
    case MISSES:
        return side->misses(bytes, length, call->number[0], call->number[1], answer, 4);
    case MISSES_PLAIN:
        return side->misses_plain(bytes, length, call->number[0], call->number[1], answer, 4);
    case MISSES_AT_MOST:
        return side->misses_at_most(bytes, length, call->number[0], call->number[1], answer, 4);
    case SEGMENT:
        return side->segment(bytes, length, call->number[0], call->number[1], call->number[2], answer, 8);
    case RECORD:
        return side->record(bytes, length, call->number[0], answer, 8);
    case CHECK:
        return side->check(bytes, length, answer, 8);
    case MERGE:
        return merge(side, table, room);
    case CONFLICT:
        return conflict(side, table, call->number[0], answer);
    case READ:
        return side->read(bytes, length, room->row, MISHTODRAN_MOST_CHAINS, answer, 4);
    case WRITE:
        return side->write(table->row, table->rows, room->bytes, sizeof room->bytes, answer, 4);
    case TO_LARGEST:
        return side->to_largest(bytes, length, room->bytes, sizeof room->bytes, answer, 4);
    case TO_GAP:
        return side->to_gap(bytes, length, room->bytes, sizeof room->bytes, answer, 4);
    case SALVAGE:
        return side->salvage(bytes, length, room->bytes, sizeof room->bytes, room->list, sizeof room->list, answer, 8);
    case REPORT:
        return side->report(bytes, length, room->bytes, MISHTODRAN_LONGEST_REPORT, answer, 4);
    default:
        return save_and_back(side, call, answer);
    }
}

/* ---- Timing ---- */

static double now(void)
{
    struct timespec time;
    clock_gettime(CLOCK_MONOTONIC, &time);
    return (double)time.tv_sec + (double)time.tv_nsec * 1e-9;
}

static double seconds_for(const struct side *side, const struct bench_case *what, unsigned long times)
{
    struct room room;
    double start = now();
    for (unsigned long i = 0; i < times; i++)
        for (unsigned n = 0; n < what->calls; n++)
            run_call(side, &what->call[n], &room);
    return now() - start;
}

/* How often all calls must be made to take long enough. */
static unsigned long times_needed(const struct side *side, const struct bench_case *what)
{
    unsigned long times = 1;
    double taken = seconds_for(side, what, times);
    while (taken < LEAST_SECONDS) {
        times *= taken < LEAST_SECONDS / 10 ? 10 : 2;
        taken = seconds_for(side, what, times);
    }
    return times;
}

static double least(double a, double b) { return a < b ? a : b; }

/* Whether both sides answer all calls alike. */
static bool agree(const struct bench_case *what)
{
    for (unsigned i = 0; i < what->calls; i++) {
        struct room one = {0}, other = {0};
        if (run_call(&proved, &what->call[i], &one) != run_call(&plain, &what->call[i], &other) ||
            memcmp(one.answer, other.answer, sizeof one.answer) != 0 ||
            memcmp(one.bytes, other.bytes, sizeof one.bytes) != 0 ||
            memcmp(one.list, other.list, sizeof one.list) != 0 || !same_rows(one.row, other.row, MISHTODRAN_MOST_CHAINS))
            return false;
    }
    return true;
}

/* Both in turn, so that neither has the quieter moments. Gives back the microseconds of one call to an entry of
   mishtodran.h. */
static double measure(const struct bench_case *what)
{
    unsigned long times[2] = {times_needed(&proved, what), times_needed(&plain, what)};
    double best[2] = {1e9, 1e9}; /* seconds a run */
    double start = now();
    for (unsigned i = 0; i < ROUNDS && (i == 0 || now() - start < MOST_SECONDS); i++) {
        best[0] = least(best[0], seconds_for(&proved, what, times[0]));
        best[1] = least(best[1], seconds_for(&plain, what, times[1]));
    }
    double by_proved = best[0] * 1e6 / (double)times[0] / what->calls;
    double by_plain = best[1] * 1e6 / (double)times[1] / what->calls;
    printf("%-44s %14.2f %14.2f %10.2f%s\n", what->name, by_proved, by_plain, by_plain / by_proved,
           agree(what) ? "" : "  the answers differ");
    fflush(stdout);
    return by_proved;
}

/* ---- Cases ---- */

static struct stored tables[MOST_TABLES];
static unsigned tables_used;

static struct stored *keep(struct made_table table)
{
    struct stored *stored = &tables[tables_used++];
    uint8_t answer[4];
    stored->length = encode(&table, stored->bytes);
    plain_read(stored->bytes, stored->length, stored->row, MISHTODRAN_MOST_CHAINS, answer, sizeof answer);
    stored->rows = table.chains;
    return stored;
}

/* The same table with one chain more in the count that ends it. */
static struct stored *keep_miscounted(const struct stored *table)
{
    struct stored *stored = &tables[tables_used++];
    *stored = *table;
    stored->bytes[stored->length - 2]++;
    return stored;
}

/* The same table, but for its last row: the last task costs nothing. */
static struct stored *keep_faulty_row(const struct stored *table)
{
    struct stored *stored = &tables[tables_used++];
    *stored = *table;
    struct mishtodran_row *last = &stored->row[stored->rows - 1];
    last->cost[last->tasks - 1] = 0;
    return stored;
}

static double measure_one(const char *name, unsigned entry, struct stored *table, uint32_t first, uint32_t second,
                          uint32_t third)
{
    static struct bench_case what;
    what = (struct bench_case){.name = name, .calls = 1};
    what.call[0] = (struct call){.entry = entry, .table = table, .number = {first, second, third}};
    return measure(&what);
}

/* Every chain of several tables. */
static void measure_all(const char *name, unsigned entry, struct stored *first, unsigned count, uint32_t k)
{
    static struct bench_case what;
    what = (struct bench_case){.name = name};
    for (unsigned t = 0; t < count; t++)
        for (const uint8_t *at = first[t].bytes; at[0] == 'C'; at += parts_of(at).end) {
            uint32_t id = at[2] | (uint32_t)at[3] << 8;
            what.call[what.calls++] = (struct call){.entry = entry, .table = &first[t], .number = {id, k, 0}};
        }
    measure(&what);
}

/* Several tables or wrecks, once each: a save, a salvage or a report. */
static void measure_tables(const char *name, unsigned entry, struct stored *first, unsigned count)
{
    static struct bench_case what;
    what = (struct bench_case){.name = name, .calls = count};
    for (unsigned t = 0; t < count; t++)
        what.call[t] = (struct call){.entry = entry, .table = &first[t]};
    measure(&what);
}

/* The sample, but for a deadline that its first chain misses without overload. */
static struct made_table late_sample(void)
{
    struct made_table table = sample_table();
    table.chain[0].deadline = 20;
    return table;
}

static void usual_cases(struct source *source)
{
    struct stored *sample = keep(sample_table());
    struct stored *study = keep(case_study());
    struct stored *full = keep(full_table(source));
    struct stored *miscounted = keep_miscounted(full);
    struct stored *late = keep(late_sample());
    measure_one("read the sample (140 bytes), refusal 12", LATENCY, sample, 0, 0, 0);
    measure_one("read a full table (1,284 bytes), refusal 12", LATENCY, full, 0, 0, 0);
    measure_one("check, sample", CHECK, sample, 0, 0, 0);
    measure_one("check, full table", CHECK, full, 0, 0, 0);
    measure_one("check, full table, wrong count at its end", CHECK, miscounted, 0, 0, 0);
    measure_one("latency, sample", LATENCY, sample, 1, 0, 0);
    measure_one("misses, sample, k 10", MISSES, sample, 1, 10, 0);
    measure_one("misses, sample, late without overload, k 10", MISSES, late, 1, 10, 0);
    measure_one("segment, sample", SEGMENT, sample, 3, 1, 2);
    measure_one("latency, case study", LATENCY, study, 2, 0, 0);
    measure_one("misses, case study, k 3", MISSES, study, 2, 3, 0);
    struct stored *random = &tables[tables_used];
    for (unsigned i = 0; i < 16; i++)
        keep(light_table(source, 16));
    struct stored *small = &tables[tables_used];
    for (unsigned i = 0; i < 8; i++)
        keep(light_table(source, 1));
    measure_all("latency, random tables of 16 chains", LATENCY, random, 16, 0);
    measure_all("misses, random tables of 16 chains, k 10", MISSES, random, 16, 10);
    measure_one("two saves, sample", SAVE, sample, 0, 0, 0);
    measure_one("two saves, full table", SAVE, full, 0, 0, 0);
    measure_tables("two saves, random tables of 1 chain", SAVE, small, 8);
    measure_tables("two saves, random tables of 16 chains", SAVE, random, 16);
    measure_one("report, sample", REPORT, sample, 0, 0, 0);
    measure_one("report, case study", REPORT, study, 0, 0, 0);
    measure_tables("report, random tables of 16 chains", REPORT, random, 16);
}

/* ---- Merges ---- */

/* A table, a copy of it with another deadline at one place, and one with another cost at another place. */
static struct stored *keep_edited(const struct made_table *table, unsigned place, unsigned other_place)
{
    struct stored *ancestor = keep(*table);
    struct made_table first = *table, second = *table;
    uint32_t *deadline = &first.chain[place].deadline, *cost = &second.chain[other_place].task[0].cost;
    *deadline = *deadline % MISHTODRAN_MOST_TIME + 1;
    *cost = *cost % MISHTODRAN_MOST_COST + 1;
    keep(first);
    keep(second);
    return ancestor;
}

static void merge_cases(struct source *source)
{
    tables_used = 0;
    struct made_table some = light_table(source, 8), full = full_table(source);
    struct stored *edited = keep_edited(&some, 2, 5);
    struct stored *full_edited = keep_edited(&full, 3, 12);
    struct stored *apart = keep_edited(&full, 12, 12);
    measure_one("merge, 8 chains, one changed in each copy", MERGE, edited, 0, 0, 0);
    measure_one("merge, full tables, one changed in each", MERGE, full_edited, 0, 0, 0);
    measure_one("merge, full tables, refusal 32", MERGE, apart, 0, 0, 0);
    measure_one("conflict, full tables", CONFLICT, apart, 0, 0, 0);
}

/* ---- Rows ---- */

static void row_cases(struct source *source)
{
    tables_used = 0;
    struct stored *sample = keep(sample_table());
    struct stored *full = keep(full_table(source));
    struct stored *faulty = keep_faulty_row(full);
    measure_one("write, sample", WRITE, sample, 0, 0, 0);
    measure_one("write, full table", WRITE, full, 0, 0, 0);
    measure_one("write, full table, fault in the last row", WRITE, faulty, 0, 0, 0);
    measure_one("read into rows, full table", READ, full, 0, 0, 0);
    measure_one("record, full table, the last chain", RECORD, full, full->row[full->rows - 1].id, 0, 0);
}

/* ---- Slow cases ---- */

/* K is 1,000 and the last window near the horizon; four free chains of this distance take half of the time. */
static struct made_table long_backlog(uint32_t distance, unsigned overload)
{
    struct made_table table = {0};
    struct made_chain *b = add_chain(&table, 30000 + distance * 3 / 5, 10000, 9700);
    add_task(b, 3, 2400);
    add_task(b, 3, 2420);
    for (unsigned i = 0; i < 4; i++)
        add_task(add_chain(&table, 1000, 0, distance), 5 + i, distance / 8);
    for (unsigned i = 0; i < overload; i++) {
        struct made_chain *chain = add_chain(&table, 1000, 0, 10000000);
        chain->overload = true;
        add_task(chain, 10, 4900 + 17 * i);
    }
    if (overload == 0)
        add_task(add_chain(&table, 1000, 0, 10000000), 10, 30000);
    return table;
}

/* Chains of cost 1 that leave a 240th of the time to one that needs 300. */
static struct made_table unit_costs(void)
{
    struct made_table table = {0};
    add_task(add_chain(&table, 1, 10000000, 10000000), 1, 300);
    for (unsigned i = 0; i < 15; i++)
        add_task(add_chain(&table, 1000, 0, i < 14 ? 15 : 16), 2 + i, 1);
    return table;
}

/* Six overload chains of one segment, with these costs and capacities; a set is bad above the threshold. */
struct shape {
    uint32_t cost[6], capacity[6], threshold;
};

/* A table of the shape, for a run of k and with so many activations at once. The gap is such that the run takes as long
   for each k. */
static struct made_table shaped(const struct shape *shape, uint32_t k, unsigned at_once)
{
    struct made_table table = {0};
    uint32_t all = at_once;
    for (unsigned i = 0; i < 6; i++)
        all += shape->cost[i];
    uint32_t gap = 5 * all * 999 / (k - 1);
    struct made_chain *b = add_chain(&table, at_once + shape->threshold, gap, 0);
    b->listed = at_once;
    b->distance[at_once - 1] = gap * at_once; /* those before it are 0 */
    add_task(b, 1, 1);
    uint32_t reach = (k - 1) * gap + all;
    for (unsigned i = 0; i < 6; i++) {
        uint32_t arrivals = shape->capacity[i] - 1;
        struct made_chain *chain = add_chain(&table, 1000, 0, (reach + arrivals - 1) / arrivals);
        chain->overload = true;
        add_task(chain, 2, shape->cost[i]);
    }
    return table;
}

#ifdef WITH_GLPK
/* The packing of a shape alone, by GLPK, beside the whole query that took so many microseconds. */
static void measure_glpk(const struct shape *shape, double query)
{
    bool bad[64] = {0};
    for (unsigned m = 1; m < 64; m++) {
        uint32_t cost = 0;
        for (unsigned i = 0; i < 6; i++)
            cost += m >> i & 1 ? shape->cost[i] : 0;
        bad[m] = cost > shape->threshold;
    }
    double best = 1e9;
    unsigned most = 0;
    for (unsigned i = 0; i < ROUNDS; i++) {
        double start = now();
        most = glpk_most_uses(bad, shape->capacity);
        best = least(best, now() - start);
    }
    printf("  its packing alone, by GLPK: %-16u %14s %14.2f %10.2f\n", most, "", best * 1e6, best * 1e6 / query);
}
#else
static void measure_glpk(const struct shape *shape, double query)
{
    (void)shape;
    (void)query;
}
#endif

static void shape_cases(void)
{
    static const struct shape shapes[] = {
        {{1, 1, 1, 1, 1, 1}, {40, 40, 40, 40, 40, 40}, 2},
        {{5, 5, 2, 3, 1, 5}, {37, 33, 37, 39, 37, 32}, 10},
        {{3, 4, 1, 2, 2, 3}, {39, 37, 35, 26, 21, 39}, 7},
        {{5, 1, 4, 1, 3, 1}, {37, 35, 36, 21, 29, 40}, 5},
        {{4, 5, 3, 4, 4, 4}, {26, 22, 36, 22, 39, 35}, 13},
        {{120, 887, 741, 462, 477, 289}, {35, 39, 31, 39, 39, 36}, 1712},
    };
    /* Shapes that are asked with a k below their most uses too. Of shape 5, 36 uses are found by using each combination in
       turn as often as it fits, and there are 45. */
    static const struct limited {
        unsigned shape;
        uint32_t k;
    } limited[] = {{1, 30}, {5, 30}, {6, 30}, {5, 40}};
    char name[64];
    tables_used = 0;
    for (unsigned i = 0; i < sizeof shapes / sizeof shapes[0]; i++) {
        snprintf(name, sizeof name, "misses, six segments, shape %u, k 1,000", i + 1);
        measure_glpk(&shapes[i], measure_one(name, MISSES, keep(shaped(&shapes[i], 1000, 1)), 1, 1000, 0));
    }
    for (unsigned i = 0; i < sizeof limited / sizeof limited[0]; i++) {
        unsigned shape = limited[i].shape;
        uint32_t k = limited[i].k;
        snprintf(name, sizeof name, "misses, six segments, shape %u, k %" PRIu32, shape, k);
        measure_one(name, MISSES, keep(shaped(&shapes[shape - 1], k, 1)), 1, k, 0);
    }
    measure_one("misses, six segments, shape 5, 8 late, k 10", MISSES, keep(shaped(&shapes[4], 10, 8)), 1, 10, 0);
}

static void slow_cases(void)
{
    tables_used = 0;
    struct stored *wide = keep(long_backlog(100000, 0));
    struct stored *narrow = keep(long_backlog(4000, 0));
    struct stored *overloaded = keep(long_backlog(100000, 6));
    struct stored *crowded = keep(long_backlog(20000, 6));
    struct stored *units = keep(unit_costs());
    measure_one("latency, K near 1,024, few arrivals", LATENCY, wide, 1, 0, 0);
    measure_one("latency, K near 1,024, many arrivals", LATENCY, narrow, 1, 0, 0);
    measure_one("misses, K near 1,024, six segments, few", MISSES, overloaded, 1, 10, 0);
    measure_one("misses, K near 1,024, six segments, many", MISSES, crowded, 1, 10, 0);
    measure_one("latency, unit costs, load near 1", LATENCY, units, 1, 0, 0);
    shape_cases();
}

/* ---- Misses a second way, and a number that they do not exceed ---- */

/* For k = 390 the sample's capacities are 40: no longer run has an answer. */
static void second_way_cases(struct source *source)
{
    tables_used = 0;
    struct stored *sample = keep(sample_table());
    struct stored *study = keep(case_study());
    struct stored *full = keep(full_table(source));
    struct stored *overloaded = keep(long_backlog(100000, 6));
    struct stored *crowded = keep(long_backlog(20000, 6));
    measure_one("at most, sample, k 10", MISSES_AT_MOST, sample, 1, 10, 0);
    measure_one("at most, case study, k 3", MISSES_AT_MOST, study, 2, 3, 0);
    measure_all("at most, full table, k 10", MISSES_AT_MOST, full, 1, 10);
    measure_one("at most, K near 1,024, six segments, few", MISSES_AT_MOST, overloaded, 1, 10, 0);
    measure_one("at most, K near 1,024, six segments, many", MISSES_AT_MOST, crowded, 1, 10, 0);
    measure_one("every packing, sample, k 10", MISSES_PLAIN, sample, 1, 10, 0);
    measure_one("every packing, case study, k 3", MISSES_PLAIN, study, 2, 3, 0);
    measure_one("every packing, sample, k 390", MISSES_PLAIN, sample, 1, 390, 0);
}

/* ---- Largest distances as a list ---- */

/* The same table, but for the last largest distance: it is no multiple of a gap. */
static struct made_table almost_by_gaps(struct made_table table)
{
    struct made_chain *last = &table.chain[table.chains - 1];
    last->largest[last->listed - 1]++;
    return table;
}

static void largest_cases(struct source *source)
{
    tables_used = 0;
    struct made_table made = full_table(source), made_of_largest = in_largest_form(made);
    struct stored *sample = keep(sample_table()), *sample_of_largest = keep(in_largest_form(sample_table()));
    struct stored *full = keep(made), *full_of_largest = keep(made_of_largest);
    struct stored *almost = keep(almost_by_gaps(made_of_largest));
    struct stored *edited = keep_edited(&made_of_largest, 3, 12);
    struct stored *random = &tables[tables_used];
    for (unsigned i = 0; i < 16; i++)
        keep(in_largest_form(light_table(source, 16)));
    measure_one("to largest, sample", TO_LARGEST, sample, 0, 0, 0);
    measure_one("to largest, full table", TO_LARGEST, full, 0, 0, 0);
    measure_one("to gap, sample", TO_GAP, sample_of_largest, 0, 0, 0);
    measure_one("to gap, full table (1,748 bytes)", TO_GAP, full_of_largest, 0, 0, 0);
    measure_one("to gap, full table, refusal 34", TO_GAP, almost, 0, 0, 0);
    measure_one("CG: check, sample (136 bytes)", CHECK, sample_of_largest, 0, 0, 0);
    measure_one("CG: check, full table", CHECK, full_of_largest, 0, 0, 0);
    measure_one("CG: latency, sample", LATENCY, sample_of_largest, 1, 0, 0);
    measure_one("CG: misses, sample, k 10", MISSES, sample_of_largest, 1, 10, 0);
    measure_all("CG: latency, random tables of 16 chains", LATENCY, random, 16, 0);
    measure_all("CG: misses, random tables of 16 chains, k 10", MISSES, random, 16, 10);
    measure_one("CG: two saves, full table", SAVE, full_of_largest, 0, 0, 0);
    measure_one("CG: merge, full tables, one changed in each", MERGE, edited, 0, 0, 0);
    measure_one("CG: write, sample", WRITE, sample_of_largest, 0, 0, 0);
    measure_one("CG: write, full table", WRITE, full_of_largest, 0, 0, 0);
    measure_one("CG: read into rows, full table", READ, full_of_largest, 0, 0, 0);
    measure_one("CG: report, sample", REPORT, sample_of_largest, 0, 0, 0);
}

/* ---- Salvages ---- */

static struct stored *keep_wreck(struct wreck wreck)
{
    struct stored *stored = &tables[tables_used++];
    stored->length = wreck.length;
    memcpy(stored->bytes, wreck.bytes, wreck.length);
    stored->rows = 0;
    return stored;
}

static struct wreck noise(struct source *source)
{
    struct wreck wreck = {0};
    while (wreck.length < MOST_SALVAGED)
        wreck.bytes[wreck.length++] = (uint8_t)draw(source, 0, 255);
    return wreck;
}

/* Full tables one after another, of which a byte is lost in about 40. */
static struct wreck wrecked_tables(struct source *source)
{
    struct wreck wreck = {0};
    uint8_t bytes[MOST_GENERATED];
    while (wreck.length < MOST_SALVAGED) {
        struct made_table table = full_table(source);
        add_bytes(&wreck, bytes, encode(&table, bytes));
    }
    wreck.length = MOST_SALVAGED;
    for (size_t at = draw(source, 1, 79); at < MOST_SALVAGED; at += draw(source, 1, 79))
        wreck.bytes[at] = (uint8_t)draw(source, 0, 255);
    return wreck;
}

/* The most records after which the walk goes on, as short as can be: every id that follows has 15 others to be held
   against. */
static struct wreck fifteen_records(void)
{
    struct made_table table = {0};
    struct wreck wreck = {0};
    uint8_t bytes[MOST_GENERATED];
    for (unsigned i = 0; i < 15; i++)
        add_task(add_chain(&table, 1, 0, 1), 1, 1);
    table = in_largest_form(table);
    add_bytes(&wreck, bytes, encode(&table, bytes) - 4);
    return wreck;
}

/* As many marks as there can be; each is an id too. */
static struct wreck marks_alone(struct wreck wreck)
{
    add_pattern(&wreck, (const uint8_t *)"CG", 2, MOST_SALVAGED - wreck.length);
    return wreck;
}

/* The same with marks and halves of them, in no order that a processor could foresee. */
static struct wreck marks_at_random(struct source *source)
{
    struct wreck wreck = fifteen_records();
    while (wreck.length < MOST_SALVAGED)
        add_bytes(&wreck, (const uint8_t *)"CG", draw(source, 1, 2));
    wreck.length = MOST_SALVAGED;
    return wreck;
}

/* Right fixed parts, each in the one before it, and so are both lists of each; no task follows. Ids aside, we know of no
   bytes of which more must be looked at. */
static struct wreck fixed_parts(struct wreck wreck)
{
    static const uint8_t pattern[] = {'C', 'G', 0, 1, 1, 1, 2};
    add_pattern(&wreck, pattern, sizeof pattern, MOST_SALVAGED - wreck.length);
    return wreck;
}

/* Records that are right up to their third task, each at the end of the one before it: its first task's priority is the next
   mark, its second task and that one's cost lie in the next fixed part, its third in the next distance. */
static struct wreck third_tasks(struct wreck wreck)
{
    static const uint8_t pattern[] = {'C', 'G', 119, 119, 0, 0, 'T', 'K', 5, 0, 0, 1, 15, 0, 'T', 'K', 0, 'T', 'K'};
    add_pattern(&wreck, pattern, sizeof pattern, MOST_SALVAGED - wreck.length);
    return wreck;
}

/* As many wrecks of a kind as there is room for, so that no processor remembers how each went. */
static void measure_wrecks(const char *name, struct wreck (*make)(struct source *source), struct source *source)
{
    tables_used = 0;
    while (tables_used < MOST_TABLES)
        keep_wreck(make(source));
    measure_tables(name, SALVAGE, tables, MOST_TABLES);
}

static void measure_wreck(const char *name, struct wreck wreck)
{
    tables_used = 0;
    measure_one(name, SALVAGE, keep_wreck(wreck), 0, 0, 0);
}

/* Marks alone, as many bytes of them. */
static void measure_salvage_growth(unsigned size)
{
    char name[64];
    struct wreck wreck = {0};
    wreck = marks_alone(wreck);
    wreck.length = size;
    snprintf(name, sizeof name, "salvage, marks alone, bytes: %u", size);
    measure_wreck(name, wreck);
}

static void salvage_cases(struct source *source)
{
    const struct wreck none = {0}, fifteen = fifteen_records();
    tables_used = 0;
    struct made_table made = full_table(source);
    measure_one("salvage, full table", SALVAGE, keep(made), 0, 0, 0);
    measure_one("salvage, CG: full table (1,748 bytes)", SALVAGE, keep(in_largest_form(made)), 0, 0, 0);
    measure_wrecks("salvage, 4,096 bytes of noise", noise, source);
    measure_wrecks("salvage, 4,096 bytes, wrecked tables", wrecked_tables, source);
    measure_wreck("salvage, fixed parts alone", fixed_parts(none));
    measure_wreck("salvage, 15 records, then fixed parts", fixed_parts(fifteen));
    measure_wreck("salvage, 15 records, then third tasks", third_tasks(fifteen));
    measure_wreck("salvage, marks alone", marks_alone(none));
    measure_wreck("salvage, 15 records, then marks", marks_alone(fifteen));
    measure_wrecks("salvage, 15 records, then marks at random", marks_at_random, source);
}

/* ---- Lists that do not add up ---- */

/* Seven and eight activations are known to lie apart, and fewer not. A rest of eights is as many sevens as it takes, so the
   greatest sums settle after 49 places. */
static void fill_late_settling(struct made_chain *chain, uint32_t seventh, uint32_t eighth)
{
    chain->listed = 8;
    memset(chain->distance, 0, sizeof chain->distance);
    chain->distance[6] = seventh;
    chain->distance[7] = eighth;
}

/* A load near 1 of five chains whose lists settle late, and overload that makes some activations late. */
static struct made_table late_settling(void)
{
    struct made_table table = {0};
    struct made_chain *b = add_chain(&table, 9500, 1000, 0);
    fill_late_settling(b, 6998, 8000);
    add_task(b, 1, 580);
    for (unsigned i = 0; i < 4; i++) {
        struct made_chain *chain = add_chain(&table, 1000, 0, 0);
        fill_late_settling(chain, 6998, 8000);
        add_task(chain, 2 + i, 100);
    }
    struct made_chain *overload = add_chain(&table, 1000, 0, 1000000);
    overload->overload = true;
    add_task(overload, 9, 4000);
    return table;
}

static void stepped_cases(struct source *source)
{
    tables_used = 0;
    struct stored *late = keep(late_settling());
    struct stored *random = &tables[tables_used];
    for (unsigned i = 0; i < 16; i++)
        keep(stepped_table(source, 16));
    measure_all("steps: latency, random, 16 chains", LATENCY, random, 16, 0);
    measure_all("steps: misses, random, 16 chains, k 10", MISSES, random, 16, 10);
    measure_tables("steps: report, random, 16 chains", REPORT, random, 16);
    measure_one("steps: latency, 49 places to settle", LATENCY, late, 1, 0, 0);
    measure_one("steps: misses, 49 places to settle, k 1,000", MISSES, late, 1, 1000, 0);
    measure_one("steps: report, 49 places to settle", REPORT, late, 0, 0, 0);
}

/* ---- Growth ---- */

/* So many chains with so many tasks and listed distances each; the first has the lowest priority. */
static struct made_table alike(unsigned chains, unsigned tasks, unsigned listed)
{
    struct made_table table = {0};
    for (unsigned i = 0; i < chains; i++) {
        struct made_chain *chain = add_chain(&table, 100000, 0, 2000);
        chain->listed = listed;
        for (unsigned n = 0; n < listed; n++)
            chain->distance[n] = 2000 * (n + 1);
        for (unsigned n = 0; n < tasks; n++)
            add_task(chain, 1 + i, 100 / tasks);
    }
    return table;
}

/* A backlog that closes at activation k. */
static struct made_table closing_at(uint32_t k)
{
    struct made_table table = {0};
    add_task(add_chain(&table, 1000000, 0, 1000), 1, 500);
    add_task(add_chain(&table, 1000000, 0, 10000000), 2, 500 * k);
    return table;
}

static void measure_growth(const char *what, unsigned size, struct made_table table)
{
    char name[64];
    snprintf(name, sizeof name, "latency, %s %u", what, size);
    tables_used = 0;
    measure_one(name, LATENCY, keep(table), 1, 0, 0);
}

static void growth_cases(void)
{
    static const unsigned activations[] = {1, 10, 100, 1000};
    for (unsigned n = 2; n <= 16; n *= 2)
        measure_growth("chains:", n, alike(n, 1, 1));
    for (unsigned n = 1; n <= 16; n *= 4)
        measure_growth("4 chains, tasks each:", n, alike(4, n, 1));
    for (unsigned n = 1; n <= 8; n *= 2)
        measure_growth("4 chains, distances each:", n, alike(4, 1, n));
    for (unsigned n = 0; n < 4; n++)
        measure_growth("K:", activations[n], closing_at(activations[n]));
    for (unsigned n = 512; n <= MOST_SALVAGED; n *= 2)
        measure_salvage_growth(n);
}

/* ---- Millions of arrivals ---- */

/* So many chains of cost 1 that come eight at once, or seven where a seventh distance is listed, and again after so long; below
   them a chain of two tasks of this cost, and above them an overload chain. The deadline is what the first chain needs without
   overload where it costs 1,900,000 and four chains come every 40. */
static struct made_table in_eights(unsigned chains, uint32_t seventh, uint32_t last, uint32_t cost)
{
    struct made_table table = {0};
    struct made_chain *b = add_chain(&table, 9500000, 10000000, 10000000);
    add_task(b, 1, cost);
    add_task(b, 1, cost);
    for (unsigned i = 0; i < chains; i++) {
        struct made_chain *chain = add_chain(&table, 1000, 0, 0);
        fill_late_settling(chain, seventh, last);
        add_task(chain, 2 + i, 1);
    }
    struct made_chain *overload = add_chain(&table, 1000, 0, 10000000);
    overload->overload = true;
    add_task(overload, 2 + chains, 8);
    return table;
}

static void bisected_cases(void)
{
    tables_used = 0;
    plain_counting = BISECTING;
    struct stored *ending_in_1 = keep(in_eights(14, 0, 1, 44000)); /* the last demand that is worked out is that of 9,957,448 */
    struct stored *many = keep(in_eights(4, 0, 40, 950000));
    struct stored *stepped = keep(in_eights(4, 34, 40, 950000));
    measure_one("latency, lists that end in 1, plain bisects", LATENCY, ending_in_1, 1, 0, 0);
    measure_one("misses, lists that end in 1, plain bisects", MISSES, ending_in_1, 1, 10, 0);
    measure_one("report, lists that end in 1, plain bisects", REPORT, ending_in_1, 0, 0, 0);
    measure_one("latency, millions of arrivals, plain bisects", LATENCY, many, 1, 0, 0);
    measure_one("misses, millions of arrivals, plain bisects", MISSES, many, 1, 10, 0);
    measure_one("report, millions of arrivals, plain bisects", REPORT, many, 0, 0, 0);
    measure_one("steps: latency, millions, plain bisects", LATENCY, stepped, 1, 0, 0);
    measure_one("steps: misses, millions, plain bisects", MISSES, stepped, 1, 10, 0);
    measure_one("steps: report, millions, plain bisects", REPORT, stepped, 0, 0, 0);
}

int main(int count, char **words)
{
    if (count > 2) {
        fputs("bench: usage: bench [SEED]\n", stderr);
        return 2;
    }
    struct source source = {count == 2 ? number_given("bench", "SEED", words[1], 0, MOST_SEED) : 1};
    plain_counting = WALKING;
    printf("%-44s %14s %14s %10s\n", "microseconds a call", "mishtodran", "plain", "ratio");
    usual_cases(&source);
    merge_cases(&source);
    row_cases(&source);
    slow_cases();
    second_way_cases(&source);
    largest_cases(&source);
    salvage_cases(&source);
    stepped_cases(&source);
    growth_cases();
    bisected_cases();
    return 0;
}
