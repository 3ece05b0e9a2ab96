/* The analyzer in plain C11. Section names are those of documents 01 and 02. */
#include "analyzer.h"

#include <assert.h>
#include <inttypes.h>
#include <stdbool.h>
#include <stdio.h>
#include <string.h>

enum {
    MOST_CHAINS = 16,
    MOST_TASKS = 16,
    MOST_TASKS_IN_ALL = 64,
    MOST_LISTED = 8,
    MOST_COST = 1000000,
    MOST_TIME = 10000000,    /* of a deadline, a gap, a smallest distance */
    MOST_LARGEST = 80000000, /* of a largest distance */
    HORIZON = 10000000,
    MOST_ACTIVATIONS = 1024,
    MOST_RUN = 1000,
    MOST_OVERLOAD_SEGMENTS = 6,
    MOST_CAPACITY = 40,
    MOST_BYTES = 1748,         /* of a table of either form */
    MOST_DAMAGED_BYTES = 4096, /* of what is salvaged */
    DISTANCE_BYTES = 4,
    TASK_BYTES = 8,
    END_BYTES = 4,
    GAP_FIXED_BYTES = 16,     /* of a record marked `CH` */
    LARGEST_FIXED_BYTES = 13, /* of one marked `CG` */
    LONGEST_RECORD = LARGEST_FIXED_BYTES + 2 * 255 * DISTANCE_BYTES + 255 * TASK_BYTES /* by what its counts can say */
};

struct task {
    uint32_t priority, cost;
};

enum {
    PLACES = 1280, /* more than there are activations up to K */
    FIRST_STRIDE = PLACES / 2,
    STRIDES = 20, /* the last of them takes longer than any window or sieve does */
    BESIDE = MOST_LISTED - 1,
    AROUND = BESIDE + 1 + BESIDE
};

/* The greatest sums of a place, of those before it, and of those after it, as far as a step may reach. */
struct around {
    uint64_t sum[AROUND];
};

/* What a query has worked out of a chain's smallest distances: the greatest sums of the first places, and around strides. */
struct places {
    unsigned known, strides;
    uint64_t sum[PLACES];
    struct around stride[STRIDES];
};

struct chain {
    const struct form *form;
    uint32_t id, deadline;
    uint32_t gap; /* of `CH`; 0 of `CG` */
    uint8_t flag; /* of `CG`; 0 of `CH` */
    bool asynchronous, overload;
    unsigned listed, tasks;
    uint32_t distance[MOST_LISTED], largest[MOST_LISTED]; /* the largest ones where the flag is 1 */
    struct task task[MOST_TASKS];
    size_t at, tasks_at, end; /* where the record, its tasks and what follows stand in the table */
    struct places *places; /* of a table that is asked for figures */
};

struct table {
    unsigned chains;
    struct chain chain[MOST_CHAINS];
};

/* ---- Stored table ---- */

/* Where a field stands in its record: a chain's fixed part, a task, the end. */
enum {
    ID_AT = 2,
    KIND_AT = 4,
    OVERLOAD_AT = 5,
    DEADLINE_AT = 6,
    GAP_AT = 10,  /* of `CH` */
    FLAG_AT = 10, /* of `CG` */
    PRIORITY_AT = 2,
    COST_AT = 4,
    CHAIN_COUNT_AT = 2
};

/* A form of chain records: its mark as a number, where the counts stand in the fixed part and how long that is, and how
   long a table may be whose first record has this form. */
struct form {
    uint16_t mark;
    unsigned list_length_at, task_count_at, fixed_bytes;
    size_t most_bytes;
};

static const struct form gap_form = {MISHTODRAN_GAP_FORM, 14, 15, GAP_FIXED_BYTES, 1284};
static const struct form largest_form = {MISHTODRAN_LARGEST_FORM, 11, 12, LARGEST_FIXED_BYTES, MOST_BYTES};

/* The first fault of a table: its number, and the offset of the field at fault. No fault is 0 and 0. */
struct fault {
    uint32_t number, at;
};

static struct fault fault_at(uint32_t number, size_t at) { return (struct fault){number, (uint32_t)at}; }

static struct fault no_fault(void) { return fault_at(0, 0); }

static uint32_t number16(const uint8_t *at) { return at[0] | (uint32_t)at[1] << 8; }

static uint32_t number32(const uint8_t *at) { return number16(at) | number16(at + 2) << 16; }

static void put16(uint8_t *at, uint32_t value)
{
    at[0] = (uint8_t)value;
    at[1] = (uint8_t)(value >> 8);
}

static void put32(uint8_t *at, uint32_t value)
{
    put16(at, value);
    put16(at + 2, value >> 16);
}

static void put_mark(uint8_t *at, const char *mark) { memcpy(at, mark, 2); }

static bool is_mark(const uint8_t *at, const char *mark) { return at[0] == mark[0] && at[1] == mark[1]; }

/* The form of a mark, or NULL where it is none of a chain record. */
static const struct form *form_of(uint32_t mark)
{
    if (mark == gap_form.mark)
        return &gap_form;
    return mark == largest_form.mark ? &largest_form : NULL;
}

/* The length of a record with this flag, 0 where its form has none, and these counts: flag 1 counts the list twice. */
static size_t record_length(const struct form *form, uint8_t flag, size_t listed, size_t tasks)
{
    return form->fixed_bytes + (flag == 1 ? 2 : 1) * DISTANCE_BYTES * listed + TASK_BYTES * tasks;
}

/* Whether the bytes from `at` hold `wanted` more. */
static bool there(size_t length, size_t at, size_t wanted) { return length - at >= wanted; }

static bool id_used(const struct table *table, uint32_t id)
{
    for (unsigned i = 0; i < table->chains; i++)
        if (table->chain[i].id == id)
            return true;
    return false;
}

static unsigned tasks_so_far(const struct table *table)
{
    unsigned sum = 0;
    for (unsigned i = 0; i < table->chains; i++)
        sum += table->chain[i].tasks;
    return sum;
}

/* The fields of the fixed part at chain->at, in their order; the flag is judged later. `table` holds the chains before
   it. */
static struct fault read_fixed_part(const uint8_t *bytes, const struct table *table, struct chain *chain)
{
    size_t at = chain->at;
    const uint8_t *fixed_part = bytes + at;
    chain->id = number16(fixed_part + ID_AT);
    if (chain->id == 0 || id_used(table, chain->id))
        return fault_at(4, at + ID_AT);
    if (fixed_part[KIND_AT] > 1)
        return fault_at(5, at + KIND_AT);
    if (fixed_part[OVERLOAD_AT] > 1)
        return fault_at(5, at + OVERLOAD_AT);
    chain->asynchronous = fixed_part[KIND_AT] == 1;
    chain->overload = fixed_part[OVERLOAD_AT] == 1;
    chain->deadline = number32(fixed_part + DEADLINE_AT);
    if (chain->deadline < 1 || chain->deadline > MOST_TIME)
        return fault_at(6, at + DEADLINE_AT);
    chain->gap = chain->form == &gap_form ? number32(fixed_part + GAP_AT) : 0;
    if (chain->gap > MOST_TIME)
        return fault_at(7, at + GAP_AT);
    chain->flag = chain->form == &largest_form ? fixed_part[FLAG_AT] : 0;
    chain->listed = fixed_part[chain->form->list_length_at];
    if (chain->listed < 1 || chain->listed > MOST_LISTED)
        return fault_at(28, at + chain->form->list_length_at);
    chain->tasks = fixed_part[chain->form->task_count_at];
    if (chain->tasks < 1 || chain->tasks > MOST_TASKS || tasks_so_far(table) + chain->tasks > MOST_TASKS_IN_ALL)
        return fault_at(9, at + chain->form->task_count_at);
    return no_fault();
}

/* The listed distances: distance[i] is that of i + 2 activations. All are held against the limit and the one before,
   then the last against 0, then all against the gap. */
static struct fault read_list(const uint8_t *bytes, size_t at, struct chain *chain)
{
    uint32_t before = 0;
    for (unsigned i = 0; i < chain->listed; i++) {
        uint32_t distance = number32(bytes + at + DISTANCE_BYTES * i);
        if (distance < before || distance > MOST_TIME)
            return fault_at(29, at + DISTANCE_BYTES * i);
        chain->distance[i] = before = distance;
    }
    if (before == 0)
        return fault_at(30, at + DISTANCE_BYTES * (chain->listed - 1));
    if (chain->gap == 0)
        return no_fault();
    for (unsigned i = 0; i < chain->listed; i++)
        if ((uint64_t)chain->gap * (i + 1) < chain->distance[i])
            return fault_at(31, chain->at + GAP_AT);
    return no_fault();
}

/* The largest distances, of as many activations each as the smallest ones. */
static struct fault read_largest(const uint8_t *bytes, size_t at, struct chain *chain)
{
    uint32_t before = 0;
    for (unsigned i = 0; i < chain->listed; i++) {
        uint32_t distance = number32(bytes + at + DISTANCE_BYTES * i);
        if (distance < before || distance > MOST_LARGEST || distance < chain->distance[i])
            return fault_at(33, at + DISTANCE_BYTES * i);
        chain->largest[i] = before = distance;
    }
    return no_fault();
}

/* The lists, from `at` on: the smallest distances, the flag and, where it says so, the largest ones. */
static struct fault read_lists(const uint8_t *bytes, size_t length, size_t at, struct chain *chain)
{
    size_t list_bytes = DISTANCE_BYTES * chain->listed;
    if (!there(length, at, list_bytes))
        return fault_at(2, length);
    struct fault fault = read_list(bytes, at, chain);
    if (fault.number)
        return fault;
    if (chain->flag > 1)
        return fault_at(33, chain->at + FLAG_AT);
    if (chain->flag == 0)
        return no_fault();
    if (!there(length, at + list_bytes, list_bytes))
        return fault_at(2, length);
    return read_largest(bytes, at + list_bytes, chain);
}

static struct fault read_task(const uint8_t *bytes, size_t length, size_t at, struct task *task)
{
    if (!there(length, at, 2))
        return fault_at(2, length);
    if (!is_mark(bytes + at, "TK"))
        return fault_at(3, at);
    if (!there(length, at, TASK_BYTES))
        return fault_at(2, length);
    task->priority = number16(bytes + at + PRIORITY_AT);
    if (task->priority == 0)
        return fault_at(10, at + PRIORITY_AT);
    task->cost = number32(bytes + at + COST_AT);
    if (task->cost < 1 || task->cost > MOST_COST)
        return fault_at(10, at + COST_AT);
    return no_fault();
}

/* The chain record at `at`, whose mark says this form. All records of a table have the form of its first. */
static struct fault read_chain(const uint8_t *bytes, size_t length, size_t at, const struct form *form,
                               struct table *table)
{
    if (table->chains > 0 && form != table->chain[0].form)
        return fault_at(3, at);
    if (table->chains == MOST_CHAINS)
        return fault_at(11, at);
    if (!there(length, at, form->fixed_bytes))
        return fault_at(2, length);
    struct chain *chain = &table->chain[table->chains];
    chain->form = form;
    chain->at = at;
    struct fault fault = read_fixed_part(bytes, table, chain);
    if (fault.number)
        return fault;
    fault = read_lists(bytes, length, at + form->fixed_bytes, chain);
    if (fault.number)
        return fault;
    at += record_length(form, chain->flag, chain->listed, 0);
    chain->tasks_at = at;
    for (unsigned i = 0; i < chain->tasks; i++) {
        fault = read_task(bytes, length, at, &chain->task[i]);
        if (fault.number)
            return fault;
        at += TASK_BYTES;
    }
    chain->end = at;
    table->chains++;
    return no_fault();
}

static struct fault read_end(const uint8_t *bytes, size_t length, size_t at, const struct table *table)
{
    if (!there(length, at, END_BYTES))
        return fault_at(2, length);
    if (table->chains == 0 || number16(bytes + at + CHAIN_COUNT_AT) != table->chains)
        return fault_at(11, at + CHAIN_COUNT_AT);
    if (at + END_BYTES != length)
        return fault_at(11, at + END_BYTES);
    return no_fault();
}

/* How long a table may be: its first mark decides, and no mark counts as `CH`. */
static size_t most_bytes(const uint8_t *bytes, size_t length)
{
    const struct form *form = length < 2 ? NULL : form_of(number16(bytes));
    return form ? form->most_bytes : gap_form.most_bytes;
}

/* The first fault of `length` bytes; where there is none, the table. */
static struct fault read_table(const uint8_t *bytes, size_t length, struct table *table)
{
    table->chains = 0;
    if (length == 0 || length > most_bytes(bytes, length))
        return fault_at(1, 0);
    size_t at = 0;
    for (;;) {
        if (!there(length, at, 2))
            return fault_at(2, length);
        if (is_mark(bytes + at, "EN"))
            return read_end(bytes, length, at, table);
        const struct form *form = form_of(number16(bytes + at));
        if (!form)
            return fault_at(3, at);
        struct fault fault = read_chain(bytes, length, at, form, table);
        if (fault.number)
            return fault;
        at = table->chain[table->chains - 1].end;
    }
}

static void write_end(uint8_t *at, size_t chains)
{
    put_mark(at, "EN");
    put16(at + CHAIN_COUNT_AT, (uint32_t)chains);
}

/* The chain of an id, or NULL. */
static const struct chain *find_chain(const struct table *table, uint32_t id)
{
    for (unsigned i = 0; i < table->chains; i++)
        if (table->chain[i].id == id)
            return &table->chain[i];
    return NULL;
}

/* ---- Arrivals ---- */

/* A table that is asked for figures. */
struct asked {
    struct table table;
    struct places places[MOST_CHAINS];
};

static struct fault read_to_ask(const uint8_t *bytes, size_t length, struct asked *asked)
{
    struct fault fault = read_table(bytes, length, &asked->table);
    for (unsigned i = 0; i < asked->table.chains; i++) {
        asked->table.chain[i].places = &asked->places[i];
        asked->places[i].known = asked->places[i].strides = 0;
    }
    return fault;
}

enum distances plain_distances = BY_ALL_STEPS;
enum counting plain_counting = BISECTING;
uint64_t plain_most_arrivals = 0;

/* The distance of n activations, for n from 1, by a list that goes on by whole lists. */
static inline uint64_t continued(const uint32_t *list, unsigned listed, uint64_t n)
{
    uint64_t whole_lists = (n - 1) / listed;
    uint64_t rest = (n - 1) % listed;
    uint64_t last = list[listed - 1];
    return whole_lists * last + (rest == 0 ? 0 : list[rest - 1]);
}

/* The greatest sum over all ways to write m as steps from 1 to the list's length, each costing its listed distance: over
   every first step, its distance and the greatest sum of what is left. */
static void work_out_next(const struct chain *chain, struct places *places)
{
    unsigned m = places->known++;
    unsigned longest = m < chain->listed ? m : chain->listed;
    uint64_t greatest = 0;
    for (unsigned step = 1; step <= longest; step++) {
        uint64_t sum = chain->distance[step - 1] + places->sum[m - step];
        if (sum > greatest)
            greatest = sum;
    }
    places->sum[m] = greatest;
}

/* The greatest sum of m, one of the first places. */
static inline uint64_t greatest_sum(const struct chain *chain, uint64_t m)
{
    while (chain->places->known <= m)
        work_out_next(chain, chain->places);
    return chain->places->sum[m];
}

/* The last n whose δ can be asked for by itself. */
static inline uint64_t last_asked(void) { return plain_distances == BY_WHOLE_LISTS ? UINT64_MAX : PLACES; }

/* δ(n), for n from 1. */
static inline uint64_t smallest_distance(const struct chain *chain, uint64_t n)
{
    assert(n <= last_asked());
    if (plain_distances == BY_WHOLE_LISTS)
        return continued(chain->distance, chain->listed, n);
    return greatest_sum(chain, n - 1);
}

/* Whether largest distances are known. */
static bool knows_largest(const struct chain *chain) { return chain->gap > 0 || chain->flag == 1; }

/* The largest distance of k activations, for k from 1, where it is known. */
static uint64_t largest_distance(const struct chain *chain, uint64_t k)
{
    return chain->form == &gap_form ? (k - 1) * chain->gap : continued(chain->largest, chain->listed, k);
}

/* ---- Arrivals, by walking ---- */

/* η(t), or `most` where it is larger, past the first places: the sum of each place from those before it. */
static uint64_t walk_on(const struct chain *chain, uint64_t t, uint64_t most)
{
    uint64_t n = PLACES, before[MOST_LISTED]; /* the sums of n - 1, n - 2, .. */
    for (unsigned i = 0; i < MOST_LISTED; i++)
        before[i] = greatest_sum(chain, PLACES - 1 - i);
    for (; n < most; n++) {
        uint64_t greatest = 0;
        for (unsigned i = 0; i < chain->listed; i++)
            if (chain->distance[i] + before[i] > greatest)
                greatest = chain->distance[i] + before[i];
        if (greatest >= t)
            break;
        memmove(before + 1, before, sizeof before - sizeof before[0]);
        before[0] = greatest;
    }
    return n;
}

/* η(t), or `most` where it is larger: the greatest n with δ(n) < t, found by walking. */
static uint64_t walk_up_to(const struct chain *chain, uint64_t t, uint64_t most)
{
    if (t == 0)
        return 0;
    uint64_t n = 1, end = most < last_asked() ? most : last_asked();
    while (n < end && smallest_distance(chain, n + 1) < t)
        n++;
    return n == end && end < most ? walk_on(chain, t, most) : n;
}

/* ---- Arrivals, by bisection ---- */

/* The steps of every way to write m + l meet one of any MOST_LISTED places that follow one another: up to there it is a way
   to write that place, and from there one to write the rest. So the greatest sum of m + l is the greatest of both together
   over the places up to m. `before` are the sums up to that of m, `after` those from that of l on. */
static inline uint64_t greatest_joined(const uint64_t *before, const uint64_t *after)
{
    uint64_t greatest = 0;
    for (int i = 0; i < MOST_LISTED; i++)
        if (before[-i] + after[i] > greatest)
            greatest = before[-i] + after[i];
    return greatest;
}

/* The greatest sums around m + l from those around m and around l: below m + l over the places up to m, from there on over
   those from m on. */
static struct around joined(const struct around *m, const struct around *l)
{
    struct around found;
    for (unsigned i = 0; i < BESIDE; i++)
        found.sum[i] = greatest_joined(&m->sum[BESIDE], &l->sum[i]);
    for (unsigned i = BESIDE; i < AROUND; i++)
        found.sum[i] = greatest_joined(&m->sum[AROUND - 1], &l->sum[i - BESIDE]);
    return found;
}

/* The first stride is one of the first places, each later one twice the one before. */
static void work_out_stride(const struct chain *chain, struct places *places)
{
    struct around *next = &places->stride[places->strides++];
    if (next > places->stride)
        *next = joined(next - 1, next - 1);
    else
        for (unsigned i = 0; i < AROUND; i++)
            next->sum[i] = greatest_sum(chain, FIRST_STRIDE - BESIDE + i);
}

/* The greatest sums around the first stride times so many twos. */
static const struct around *stride(const struct chain *chain, unsigned twos)
{
    assert(twos < STRIDES);
    while (chain->places->strides <= twos)
        work_out_stride(chain, chain->places);
    return &chain->places->stride[twos];
}

/* The greatest l below the first stride for which the sum of m + l is below t, which that of m is. The first places are worked
   out as far as that stride and what is around it. */
static uint64_t bisect_rest(const struct chain *chain, const struct around *m, uint64_t t)
{
    uint64_t within = 0, beyond = FIRST_STRIDE;
    while (beyond - within > 1) {
        uint64_t middle = within + (beyond - within) / 2;
        if (greatest_joined(&m->sum[BESIDE], &chain->places->sum[middle]) < t)
            within = middle;
        else
            beyond = middle;
    }
    return within;
}

/* η(t) where it is past the first places: the greatest n with δ(n) < t, found by strides of which each is half of the one
   before, and then within the first of them. */
static uint64_t bisect_on(const struct chain *chain, uint64_t t)
{
    unsigned twos = 0;
    while (stride(chain, twos + 1)->sum[BESIDE] < t)
        twos++;
    struct around reached = *stride(chain, twos);
    uint64_t m = (uint64_t)FIRST_STRIDE << twos;
    while (twos-- > 0) {
        const struct around *next = stride(chain, twos);
        if (greatest_joined(&reached.sum[BESIDE], &next->sum[BESIDE]) >= t)
            continue;
        reached = joined(&reached, next);
        m += (uint64_t)FIRST_STRIDE << twos;
    }
    return m + bisect_rest(chain, &reached, t) + 1;
}

/* The first of 2, 4, 8, .. with δ(n) ≥ t, or that is past the last that can be asked. */
static uint64_t first_beyond(const struct chain *chain, uint64_t t)
{
    uint64_t n = 2;
    while (n <= last_asked() && smallest_distance(chain, n) < t)
        n *= 2;
    return n;
}

/* η(t), for t from 1: the greatest n with δ(n) < t, found by bisection, since δ never falls. */
static uint64_t bisect(const struct chain *chain, uint64_t t)
{
    uint64_t beyond = first_beyond(chain, t), within = beyond / 2;
    if (beyond > last_asked())
        return bisect_on(chain, t);
    while (beyond - within > 1) {
        uint64_t middle = within + (beyond - within) / 2;
        if (smallest_distance(chain, middle) < t)
            within = middle;
        else
            beyond = middle;
    }
    return within;
}

/* η(t), or `most` where it is larger, by bisection. */
static uint64_t bisect_up_to(const struct chain *chain, uint64_t t, uint64_t most)
{
    bool more = t > 0 && most <= PLACES && smallest_distance(chain, most) < t;
    uint64_t n = t == 0 ? 0 : more ? most : bisect(chain, t);
    if (n > plain_most_arrivals)
        plain_most_arrivals = n;
    return n;
}

/* η(t), or `most` where it is larger, as `plain_counting` says. Inline, as `climb` is, so that what is measured walks at no
   other cost than this test. */
static inline uint64_t arrivals_up_to(const struct chain *chain, uint64_t t, uint64_t most)
{
    return plain_counting == WALKING ? walk_up_to(chain, t, most) : bisect_up_to(chain, t, most);
}

/* η(t). */
static uint64_t arrivals(const struct chain *chain, uint64_t t) { return arrivals_up_to(chain, t, UINT64_MAX); }

uint64_t plain_arrivals(const uint32_t *list, unsigned listed, uint64_t t)
{
    struct places places;
    struct chain chain = {.listed = listed, .places = &places};
    places.known = places.strides = 0;
    memcpy(chain.distance, list, listed * sizeof list[0]);
    return arrivals(&chain, t);
}

/* ---- Segments against chain b ---- */

/* Tasks `first` up to, not including, `end`. */
struct stretch {
    unsigned first, end;
};

struct active_segment {
    struct stretch tasks;
    unsigned segment; /* the segment of its chain that it is part of */
};

static uint32_t floor_of(const struct chain *b)
{
    uint32_t lowest = b->task[0].priority;
    for (unsigned i = 1; i < b->tasks; i++)
        if (b->task[i].priority < lowest)
            lowest = b->task[i].priority;
    return lowest;
}

static uint32_t tail_of(const struct chain *b) { return b->task[b->tasks - 1].priority; }

static uint64_t cost_of_stretch(const struct chain *chain, struct stretch stretch)
{
    uint64_t sum = 0;
    for (unsigned i = stretch.first; i < stretch.end; i++)
        sum += chain->task[i].cost;
    return sum;
}

static uint64_t cost_of_chain(const struct chain *chain)
{
    return cost_of_stretch(chain, (struct stretch){0, chain->tasks});
}

/* The first task from `from` on that lies below the floor, or the number of tasks. */
static unsigned first_below(const struct chain *a, unsigned from, uint32_t floor)
{
    while (from < a->tasks && a->task[from].priority >= floor)
        from++;
    return from;
}

static bool is_deferred(const struct chain *a, uint32_t floor) { return first_below(a, 0, floor) < a->tasks; }

static uint64_t first_segment_cost(const struct chain *a, uint32_t floor)
{
    return cost_of_stretch(a, (struct stretch){0, first_below(a, 0, floor)});
}

/* b's own tasks before the first one at its floor. */
static uint64_t own_first_part(const struct chain *b)
{
    return first_segment_cost(b, floor_of(b) + 1);
}

/* The longest stretches at or above the floor that end at a's last task; how many there are. */
static unsigned cut_stretches(const struct chain *a, uint32_t floor, struct stretch stretches[MOST_TASKS])
{
    unsigned count = 0;
    unsigned at = 0;
    while (at < a->tasks) {
        unsigned end = first_below(a, at, floor);
        if (end > at)
            stretches[count++] = (struct stretch){at, end};
        at = end + 1;
    }
    return count;
}

/* Whether the last stretch and the first one are the same segment, the last task being followed by the first. */
static bool last_meets_first(const struct chain *a, const struct stretch *stretches, unsigned count)
{
    return count > 1 && stretches[0].first == 0 && stretches[count - 1].end == a->tasks;
}

/* The cost of every segment of a; how many there are. */
static unsigned segment_costs(const struct chain *a, uint32_t floor, uint64_t costs[MOST_TASKS])
{
    struct stretch stretches[MOST_TASKS];
    unsigned count = cut_stretches(a, floor, stretches);
    for (unsigned i = 0; i < count; i++)
        costs[i] = cost_of_stretch(a, stretches[i]);
    if (last_meets_first(a, stretches, count)) {
        costs[0] += costs[count - 1];
        count--;
    }
    return count;
}

/* The active segments of a against b, in task order; how many there are. */
static unsigned cut_active_segments(const struct chain *a, const struct chain *b, struct active_segment cut[MOST_TASKS])
{
    struct stretch stretches[MOST_TASKS];
    unsigned count = 0;
    unsigned stretch_count = cut_stretches(a, floor_of(b), stretches);
    bool meet = last_meets_first(a, stretches, stretch_count);
    for (unsigned s = 0; s < stretch_count; s++) {
        unsigned segment = meet && s == stretch_count - 1 ? 0 : s;
        unsigned first = stretches[s].first;
        for (unsigned i = first + 1; i <= stretches[s].end; i++) {
            if (i < stretches[s].end && a->task[i].priority >= tail_of(b))
                continue;
            cut[count++] = (struct active_segment){{first, i}, segment};
            first = i;
        }
    }
    return count;
}

/* ---- Windows ---- */

/* What another chain brings to b's windows: this much with each arrival, and this much once. */
struct interference {
    const struct chain *chain;
    uint64_t each, once;
};

/* Everything b's windows are made of. */
struct load {
    const struct chain *b;
    uint64_t cost, own_first_part;
    unsigned count;
    struct interference other[MOST_CHAINS];
    uint64_t extra; /* a combination's cost */
};

struct figures {
    uint64_t K, latency, late, last_window;
};

static struct interference interference_of(const struct chain *a, const struct chain *b)
{
    uint32_t floor = floor_of(b);
    struct interference found = {a, 0, 0};
    if (!is_deferred(a, floor)) {
        found.each = cost_of_chain(a);
        return found;
    }
    uint64_t costs[MOST_TASKS];
    unsigned count = segment_costs(a, floor, costs);
    if (a->asynchronous)
        found.each = first_segment_cost(a, floor);
    for (unsigned i = 0; i < count; i++) {
        if (a->asynchronous)
            found.once += costs[i];
        else if (costs[i] > found.once)
            found.once = costs[i];
    }
    return found;
}

/* b's load by the other chains, with or without the overload chains. */
static struct load load_of(const struct table *table, const struct chain *b, bool with_overload)
{
    struct load load = {.b = b, .cost = cost_of_chain(b)};
    if (b->asynchronous)
        load.own_first_part = own_first_part(b);
    for (unsigned i = 0; i < table->chains; i++) {
        const struct chain *a = &table->chain[i];
        if (a != b && (with_overload || !a->overload))
            load.other[load.count++] = interference_of(a, b);
    }
    return load;
}

static uint64_t demand(const struct load *load, uint64_t q, uint64_t t)
{
    uint64_t sum = q * load->cost + load->extra;
    if (load->own_first_part > 0) {
        uint64_t arrived = arrivals(load->b, t);
        if (arrived > q)
            sum += (arrived - q) * load->own_first_part;
    }
    for (unsigned i = 0; i < load->count; i++) {
        const struct interference *other = &load->other[i];
        if (other->each > 0)
            sum += arrivals(other->chain, t) * other->each;
        sum += other->once;
    }
    return sum;
}

/* The least t in 1..horizon equal to its demand, or 0 where there is none, or it takes more steps than are left. Demand never
   falls as t grows, so climbing from 1 meets the least one first. */
static inline uint64_t climb(const struct load *load, uint64_t q, uint64_t *steps_left)
{
    uint64_t t = 1;
    for (; t <= HORIZON && *steps_left > 0; --*steps_left) {
        uint64_t needed = demand(load, q, t);
        if (needed == t)
            return t;
        t = needed;
    }
    return 0;
}

/* B(q), or 0 where there is none. */
static uint64_t window(const struct load *load, uint64_t q)
{
    uint64_t without_end = UINT64_MAX;
    return climb(load, q, &without_end);
}

static void count_window(struct figures *figures, const struct chain *b, uint64_t q, uint64_t length)
{
    uint64_t response = length - smallest_distance(b, q);
    if (response > figures->latency)
        figures->latency = response;
    if (response > b->deadline)
        figures->late++;
    figures->K = q;
    figures->last_window = length;
}

/* The windows of q = 1, 2, .. up to K: 0, 16 or 17. */
static uint32_t analyze(const struct table *table, const struct chain *b, struct figures *figures)
{
    struct load load = load_of(table, b, true);
    *figures = (struct figures){0};
    for (uint64_t q = 1; q <= MOST_ACTIVATIONS; q++) {
        uint64_t length = window(&load, q);
        if (length == 0)
            return 16;
        count_window(figures, b, q, length);
        if (length <= smallest_distance(b, q + 1))
            return 0;
    }
    return 17;
}

/* Takes from the steps that are left those of the climbs to b's windows. */
static void climb_all(const struct table *table, const struct chain *b, uint64_t *steps_left)
{
    struct load load = load_of(table, b, true);
    for (uint64_t q = 1; q <= MOST_ACTIVATIONS; q++) {
        uint64_t length = climb(&load, q, steps_left);
        if (length <= smallest_distance(b, q + 1))
            return;
    }
}

bool plain_climbs_take(const uint8_t *table, size_t table_len, uint64_t steps)
{
    struct asked asked;
    uint64_t steps_left = steps;
    if (read_to_ask(table, table_len, &asked).number)
        return false;
    for (unsigned i = 0; i < asked.table.chains; i++)
        climb_all(&asked.table, &asked.table.chain[i], &steps_left);
    return steps_left == 0;
}

/* ---- Misses ---- */

enum { MOST_COMBINATIONS = 1 << MOST_OVERLOAD_SEGMENTS };

/* One bit of a combination. */
struct overload_segment {
    const struct chain *chain;
    unsigned segment;
    uint64_t cost, capacity;
};

struct overload {
    unsigned count;
    struct overload_segment bit[MOST_OVERLOAD_SEGMENTS];
};

/* The active segments of the overload chains, in table order: 0 or 18. */
static uint32_t gather_overload(const struct table *table, const struct chain *b, struct overload *overload)
{
    overload->count = 0;
    for (unsigned i = 0; i < table->chains; i++) {
        const struct chain *a = &table->chain[i];
        struct active_segment cut[MOST_TASKS];
        if (!a->overload)
            continue;
        unsigned count = cut_active_segments(a, b, cut);
        for (unsigned n = 0; n < count; n++) {
            if (overload->count == MOST_OVERLOAD_SEGMENTS)
                return 18;
            overload->bit[overload->count++] =
                (struct overload_segment){a, cut[n].segment, cost_of_stretch(a, cut[n].tasks), 0};
        }
    }
    return 0;
}

/* Whether any overload chain may start more than once in the last window. */
static bool overload_starts_again(const struct table *table, uint64_t last_window)
{
    for (unsigned i = 0; i < table->chains; i++)
        if (table->chain[i].overload && arrivals_up_to(&table->chain[i], last_window, 2) > 1)
            return true;
    return false;
}

static bool holds(unsigned combination, unsigned bit) { return combination >> bit & 1; }

/* Active segments of one chain must all be from one of its segments. */
static bool is_allowed(const struct overload *overload, unsigned combination)
{
    for (unsigned i = 0; i < overload->count; i++)
        for (unsigned j = 0; j < i; j++)
            if (holds(combination, i) && holds(combination, j) && overload->bit[i].chain == overload->bit[j].chain &&
                overload->bit[i].segment != overload->bit[j].segment)
                return false;
    return true;
}

static uint64_t cost_of_combination(const struct overload *overload, unsigned combination)
{
    uint64_t sum = 0;
    for (unsigned i = 0; i < overload->count; i++)
        if (holds(combination, i))
            sum += overload->bit[i].cost;
    return sum;
}

/* Whether some q up to K misses the deadline under a combination. `load` is without the overload chains. */
static bool is_bad(struct load load, uint64_t K, uint64_t combination_cost)
{
    load.extra = combination_cost;
    for (uint64_t q = 1; q <= K; q++) {
        uint64_t length = window(&load, q);
        assert(length != 0); /* never longer than the window with every overload chain */
        if (length > smallest_distance(load.b, q) + load.b->deadline)
            return true;
    }
    return false;
}

/* Whether the sufficient test of document 000, section V.C, calls a combination bad: for some q up to K the demand at
   t = δ(q) + deadline is above t, which may lie above the horizon. `load` is without the overload chains. */
static bool is_called_bad(struct load load, uint64_t K, uint64_t combination_cost)
{
    load.extra = combination_cost;
    for (uint64_t q = 1; q <= K; q++) {
        uint64_t t = smallest_distance(load.b, q) + load.b->deadline;
        if (demand(&load, q, t) > t)
            return true;
    }
    return false;
}

/* One of the two tests. */
typedef bool bad_test(struct load load, uint64_t K, uint64_t combination_cost);

/* The combinations, among all that are allowed, that a test finds bad; how many there are. */
static unsigned gather_bad(const struct load *load, uint64_t K, const struct overload *overload, bad_test *test,
                           uint8_t bad[MOST_COMBINATIONS])
{
    unsigned count = 0;
    for (unsigned combination = 0; combination < 1u << overload->count; combination++)
        if (is_allowed(overload, combination) && test(*load, K, cost_of_combination(overload, combination)))
            bad[count++] = (uint8_t)combination;
    return count;
}

/* Capacities for a run that reaches this far; whether all are within 40. */
static bool set_capacities(struct overload *overload, uint64_t reach)
{
    for (unsigned i = 0; i < overload->count; i++) {
        overload->bit[i].capacity = arrivals_up_to(overload->bit[i].chain, reach, MOST_CAPACITY) + 1;
        if (overload->bit[i].capacity > MOST_CAPACITY)
            return false;
    }
    return true;
}

/* ---- The room of a packing ---- */

/* All of the capacities. */
static void give_all(const struct overload *overload, unsigned room[MOST_OVERLOAD_SEGMENTS])
{
    for (unsigned i = 0; i < MOST_OVERLOAD_SEGMENTS; i++)
        room[i] = i < overload->count ? (unsigned)overload->bit[i].capacity : 0;
}

/* How often a set can be used in the room that is left. */
static unsigned room_for(const unsigned *room, unsigned set)
{
    unsigned least = UINT32_MAX;
    for (unsigned i = 0; i < MOST_OVERLOAD_SEGMENTS; i++)
        if (holds(set, i) && room[i] < least)
            least = room[i];
    return least;
}

static void use(unsigned *room, unsigned set, unsigned times)
{
    for (unsigned i = 0; i < MOST_OVERLOAD_SEGMENTS; i++)
        if (holds(set, i))
            room[i] -= times;
}

static void give_back(unsigned *room, unsigned set, unsigned times)
{
    for (unsigned i = 0; i < MOST_OVERLOAD_SEGMENTS; i++)
        if (holds(set, i))
            room[i] += times;
}

/* ---- Every packing ---- */

/* The bad combinations, all of them, and how many packings may still be met. */
struct every_packing {
    const uint8_t *bad;
    unsigned count;
    unsigned room[MOST_OVERLOAD_SEGMENTS]; /* what is left of the capacities */
    unsigned best;
    uint64_t left;
};

/* Meets the packing that stands, of so many uses, then each that has more of the combinations from `from` on. */
static void meet_from(struct every_packing *every, unsigned from, unsigned uses)
{
    if (every->left == 0)
        return;
    every->left--;
    if (uses > every->best)
        every->best = uses;
    for (unsigned i = from; i < every->count; i++) {
        if (room_for(every->room, every->bad[i]) == 0)
            continue;
        use(every->room, every->bad[i], 1);
        meet_from(every, i, uses + 1);
        give_back(every->room, every->bad[i], 1);
    }
}

/* Meets every packing once, or so many of them where there are more. */
static struct every_packing meet_packings(const struct overload *overload, const uint8_t *bad, unsigned count,
                                          uint64_t most)
{
    struct every_packing every = {.bad = bad, .count = count, .left = most};
    give_all(overload, every.room);
    meet_from(&every, 0, 0);
    return every;
}

static unsigned most_uses_of_every(const struct overload *overload, const uint8_t *bad, unsigned count)
{
    return meet_packings(overload, bad, count, UINT64_MAX).best;
}

/* ---- The greatest packing ---- */

enum {
    MOST_SETS = 20, /* of six places, none inside another */
    WEIGHINGS = 1 << 2 * MOST_OVERLOAD_SEGMENTS
};

/* Each set from some point on weighs at least this much under these weights. */
struct cut {
    uint16_t weights, least;
};

struct packing {
    unsigned count; /* of sets */
    uint8_t set[MOST_SETS];
    unsigned room[MOST_OVERLOAD_SEGMENTS]; /* what is left of the capacities */
    unsigned best;
    unsigned cuts[MOST_SETS];
    struct cut cut[MOST_SETS][WEIGHINGS];
};

/* Only sets without a smaller one inside: a use of the larger can always be a use of the smaller instead. */
static void keep_smallest(const uint8_t *bad, unsigned count, struct packing *packing)
{
    for (unsigned i = 0; i < count; i++) {
        bool smallest = true;
        for (unsigned j = 0; j < count; j++)
            if (j != i && (bad[j] & bad[i]) == bad[j])
                smallest = false;
        if (smallest)
            packing->set[packing->count++] = bad[i];
    }
}

/* Weights of 0 to 3, two bits for each place. */
static unsigned weight_at(unsigned weights, unsigned place) { return weights >> 2 * place & 3; }

static unsigned weight_of_set(unsigned weights, unsigned set)
{
    unsigned sum = 0;
    for (unsigned i = 0; i < MOST_OVERLOAD_SEGMENTS; i++)
        if (holds(set, i))
            sum += weight_at(weights, i);
    return sum;
}

static unsigned weight_of_room(unsigned weights, const unsigned *room)
{
    unsigned sum = 0;
    for (unsigned i = 0; i < MOST_OVERLOAD_SEGMENTS; i++)
        sum += weight_at(weights, i) * room[i];
    return sum;
}

static unsigned weighed_places(unsigned weights)
{
    unsigned set = 0;
    for (unsigned i = 0; i < MOST_OVERLOAD_SEGMENTS; i++)
        if (weight_at(weights, i) > 0)
            set |= 1u << i;
    return set;
}

/* Notes these weights for every set from which on they say something and none of them could be lower. */
static void note_cuts(struct packing *packing, unsigned weights)
{
    unsigned least = UINT32_MAX;
    unsigned in_least = 0;
    for (unsigned from = packing->count; from-- > 0;) {
        unsigned weight = weight_of_set(weights, packing->set[from]);
        if (weight < least) {
            least = weight;
            in_least = 0;
        }
        if (weight == least)
            in_least |= packing->set[from];
        if (least > 0 && (weighed_places(weights) & ~in_least) == 0)
            packing->cut[from][packing->cuts[from]++] = (struct cut){(uint16_t)weights, (uint16_t)least};
    }
}

/* No more uses of the sets from `from` on fit than this: together they weigh no more than the room. */
static unsigned bound(const struct packing *packing, unsigned from)
{
    unsigned lowest = UINT32_MAX;
    for (unsigned i = 0; i < packing->cuts[from]; i++) {
        struct cut cut = packing->cut[from][i];
        unsigned most = weight_of_room(cut.weights, packing->room) / cut.least;
        if (most < lowest)
            lowest = most;
    }
    return lowest;
}

/* Depth first: each set as often as it fits, then once less, and so on. */
static void pack(struct packing *packing, unsigned from, unsigned uses)
{
    if (uses > packing->best)
        packing->best = uses;
    if (from == packing->count || uses + bound(packing, from) <= packing->best)
        return;
    unsigned set = packing->set[from];
    for (unsigned times = room_for(packing->room, set) + 1; times-- > 0;) {
        use(packing->room, set, times);
        pack(packing, from + 1, uses + times);
        give_back(packing->room, set, times);
    }
}

static unsigned most_uses(const struct overload *overload, const uint8_t *bad, unsigned count)
{
    struct packing packing;
    packing.count = packing.best = 0;
    memset(packing.cuts, 0, sizeof packing.cuts);
    keep_smallest(bad, count, &packing);
    give_all(overload, packing.room);
    for (unsigned weights = 1; weights < 1u << 2 * overload->count; weights++)
        note_cuts(&packing, weights);
    pack(&packing, 0, 0);
    return packing.best;
}

/* ---- The queries on a table ---- */

static uint32_t latency_of(const struct table *table, uint32_t id, const struct chain **b, struct figures *figures)
{
    *b = find_chain(table, id);
    if (!*b)
        return 12;
    return analyze(table, *b, figures);
}

/* What a miss query comes down to where nothing is refused. Without a late activation the rest is not looked at, and with
   the empty set bad no packing is. */
struct miss_case {
    uint64_t late;
    bool empty_is_bad;
    struct overload overload;
    unsigned count; /* of bad combinations */
    uint8_t bad[MOST_COMBINATIONS];
};

/* The case of a chain whose late activations are more than none. */
static uint32_t case_of_late(const struct table *table, const struct chain *b, uint32_t k,
                             const struct figures *figures, bad_test *test, struct miss_case *found)
{
    if (gather_overload(table, b, &found->overload))
        return 18;
    if (overload_starts_again(table, figures->last_window))
        return 19;
    if (!set_capacities(&found->overload, largest_distance(b, k) + figures->latency))
        return 21;
    struct load load = load_of(table, b, false);
    found->empty_is_bad = test(load, figures->K, 0);
    if (!found->empty_is_bad)
        found->count = gather_bad(&load, figures->K, &found->overload, test, found->bad);
    return 0;
}

/* The case of a query, its combinations tested in this way. */
static uint32_t case_of(const struct table *table, uint32_t id, uint32_t k, bad_test *test, struct miss_case *found)
{
    const struct chain *b = find_chain(table, id);
    if (!b)
        return 12;
    if (k < 1 || k > MOST_RUN)
        return 13;
    if (b->overload)
        return 14;
    if (!knows_largest(b))
        return 15;
    struct figures figures;
    uint32_t refusal = analyze(table, b, &figures);
    if (refusal)
        return refusal;
    found->late = figures.late;
    return found->late == 0 ? 0 : case_of_late(table, b, k, &figures, test, found);
}

/* A way to a count of misses: the test of a combination, and the engine that finds the most uses. */
struct way {
    bad_test *test;
    unsigned (*most_uses)(const struct overload *overload, const uint8_t *bad, unsigned count);
};

static const struct way by_windows = {is_bad, most_uses};
static const struct way by_every_packing = {is_bad, most_uses_of_every};
static const struct way by_sieve = {is_called_bad, most_uses};

/* The packing figure: 0 where nothing is late, no most where the empty set is bad. */
static uint32_t figure_of(const struct table *table, uint32_t id, uint32_t k, const struct way *way, uint64_t *figure)
{
    struct miss_case found;
    uint32_t refusal = case_of(table, id, k, way->test, &found);
    if (refusal)
        return refusal;
    if (found.late == 0)
        *figure = 0;
    else if (found.empty_is_bad)
        *figure = PLAIN_NO_MOST; /* it takes no room, so it can be used without end */
    else
        *figure = found.late * way->most_uses(&found.overload, found.bad, found.count);
    return 0;
}

/* The smaller of k and the packing figure. */
static uint32_t misses_of(const struct table *table, uint32_t id, uint32_t k, const struct way *way, uint32_t *misses)
{
    uint64_t figure;
    uint32_t refusal = figure_of(table, id, k, way, &figure);
    if (refusal)
        return refusal;
    *misses = figure < k ? (uint32_t)figure : k;
    return 0;
}

static uint32_t segment_of(const struct table *table, uint32_t chain, uint32_t against, uint32_t number,
                           size_t *offset, size_t *length)
{
    const struct chain *a = find_chain(table, chain);
    const struct chain *b = find_chain(table, against);
    if (!a || !b)
        return 12;
    if (a == b)
        return 25;
    struct active_segment cut[MOST_TASKS];
    unsigned count = cut_active_segments(a, b, cut);
    if (number < 1 || number > count)
        return 26;
    struct stretch tasks = cut[number - 1].tasks;
    *offset = a->tasks_at + TASK_BYTES * tasks.first;
    *length = TASK_BYTES * (tasks.end - tasks.first);
    return 0;
}

/* ---- Saving one record ---- */

/* The stored chain record that equals these bytes, or NULL. */
static const struct chain *find_record(const struct table *table, const uint8_t *bytes, const uint8_t *record,
                                       size_t record_len)
{
    for (unsigned i = 0; i < table->chains; i++) {
        const struct chain *chain = &table->chain[i];
        if (chain->end - chain->at == record_len && memcmp(bytes + chain->at, record, record_len) == 0)
            return chain;
    }
    return NULL;
}

/* Whether a new record is as long as its own mark, flag and counts say, and has the id that it must have. */
static bool may_replace(const uint8_t *record, size_t record_len, uint32_t id)
{
    const struct form *form = record_len < 2 ? NULL : form_of(number16(record));
    if (!form || record_len < form->fixed_bytes)
        return false;
    uint8_t flag = form == &largest_form ? record[FLAG_AT] : 0;
    size_t length = record_length(form, flag, record[form->list_length_at], record[form->task_count_at]);
    return record_len == length && number16(record + ID_AT) == id;
}

static uint32_t save(uint8_t *buffer, size_t buffer_len, uint64_t used, const uint8_t *old_record, size_t old_len,
                     const uint8_t *new_record, size_t new_len, size_t *new_used)
{
    struct table table;
    if (used > buffer_len)
        return 1;
    uint32_t refusal = read_table(buffer, (size_t)used, &table).number;
    if (refusal)
        return refusal;
    const struct chain *old = find_record(&table, buffer, old_record, old_len);
    if (!old)
        return 22;
    if (!may_replace(new_record, new_len, old->id))
        return 23;
    size_t rest = (size_t)used - old->end;
    size_t result_len = old->at + new_len + rest;
    if (result_len > buffer_len)
        return 24;
    uint8_t result[MOST_BYTES + LONGEST_RECORD];
    memcpy(result, buffer, old->at);
    memcpy(result + old->at, new_record, new_len);
    memcpy(result + old->at + new_len, buffer + old->end, rest);
    refusal = read_table(result, result_len, &table).number;
    if (refusal)
        return refusal;
    memcpy(buffer, result, result_len);
    if (result_len < used)
        memset(buffer + result_len, 0, (size_t)used - result_len);
    *new_used = result_len;
    return 0;
}

/* ---- Merge of two edited tables ---- */

enum { ANCESTOR, FIRST, SECOND, TABLES };

/* A table, or a part of one. */
struct lent {
    const uint8_t *bytes;
    size_t length;
};

/* The tables to be merged as they were lent, what was read of them, and all their ids in the order of a result: the
   ancestor's, the first copy's additions, then the second's that the first has not. */
struct merge {
    const struct lent *lent;
    struct table table[TABLES];
    unsigned ids;
    uint32_t id[TABLES * MOST_CHAINS];
};

/* The state of an id in a table: its record's bytes, or none where it is missing. */
static struct lent state_of(const struct merge *merge, unsigned table, uint32_t id)
{
    const struct chain *chain = find_chain(&merge->table[table], id);
    const uint8_t *bytes = merge->lent[table].bytes;
    return chain ? (struct lent){bytes + chain->at, chain->end - chain->at} : (struct lent){bytes, 0};
}

static bool same_state(const struct merge *merge, uint32_t id, unsigned one, unsigned other)
{
    struct lent in_one = state_of(merge, one, id), in_other = state_of(merge, other, id);
    return in_one.length == in_other.length && memcmp(in_one.bytes, in_other.bytes, in_one.length) == 0;
}

/* Whether an id was changed differently on both sides. */
static bool in_conflict(const struct merge *merge, uint32_t id)
{
    return !same_state(merge, id, FIRST, SECOND) && !same_state(merge, id, ANCESTOR, FIRST) &&
           !same_state(merge, id, ANCESTOR, SECOND);
}

/* The state of an id that is not in conflict: that of the side that changed. */
static struct lent merged_state(const struct merge *merge, uint32_t id)
{
    return state_of(merge, same_state(merge, id, ANCESTOR, FIRST) ? SECOND : FIRST, id);
}

static bool has_id(const struct merge *merge, uint32_t id)
{
    for (unsigned i = 0; i < merge->ids; i++)
        if (merge->id[i] == id)
            return true;
    return false;
}

/* The ids of a table that those before it have not. */
static void add_ids(struct merge *merge, const struct table *table)
{
    for (unsigned i = 0; i < table->chains; i++)
        if (!has_id(merge, table->chain[i].id))
            merge->id[merge->ids++] = table->chain[i].id;
}

/* Reads the three tables in their order; 0, or the number of the first that is refused. */
static uint32_t read_lent(const struct lent lent[TABLES], struct merge *merge)
{
    merge->lent = lent;
    merge->ids = 0;
    for (unsigned i = 0; i < TABLES; i++) {
        uint32_t refusal = read_table(lent[i].bytes, lent[i].length, &merge->table[i]).number;
        if (refusal)
            return refusal;
        add_ids(merge, &merge->table[i]);
    }
    return 0;
}

/* The smallest id greater than `above` that is in conflict, or 0. */
static uint32_t smallest_conflict(const struct merge *merge, uint32_t above)
{
    uint32_t smallest = 0;
    for (unsigned i = 0; i < merge->ids; i++) {
        uint32_t id = merge->id[i];
        if (id > above && (smallest == 0 || id < smallest) && in_conflict(merge, id))
            smallest = id;
    }
    return smallest;
}

/* Writes the result of a merge without conflicts, each record from one of the copies, and gives back its length. */
static size_t write_result(const struct merge *merge, uint8_t result[2 * MOST_BYTES])
{
    size_t length = 0;
    unsigned chains = 0;
    for (unsigned i = 0; i < merge->ids; i++) {
        struct lent state = merged_state(merge, merge->id[i]);
        memcpy(result + length, state.bytes, state.length);
        length += state.length;
        chains += state.length > 0;
    }
    write_end(result + length, chains);
    return length + END_BYTES;
}

static uint32_t merge_copies(const struct lent lent[TABLES], uint8_t *buffer, size_t buffer_len, size_t *used)
{
    struct merge merge;
    struct table table;
    uint8_t result[2 * MOST_BYTES];
    uint32_t refusal = read_lent(lent, &merge);
    if (refusal)
        return refusal;
    if (smallest_conflict(&merge, 0))
        return 32;
    *used = write_result(&merge, result);
    if (*used > buffer_len)
        return 24;
    refusal = read_table(result, *used, &table).number;
    if (!refusal)
        memcpy(buffer, result, *used);
    return refusal;
}

/* ---- A writer ---- */

/* A chain as a row, 0 in the places past its counts and in those that its form or its flag does not have. */
static void fill_row(const struct chain *chain, struct mishtodran_row *row)
{
    *row = (struct mishtodran_row){.form = chain->form->mark,
                                   .id = (uint16_t)chain->id,
                                   .kind = chain->asynchronous,
                                   .overload = chain->overload,
                                   .flag = chain->flag,
                                   .deadline = chain->deadline,
                                   .gap = chain->gap,
                                   .listed = chain->listed,
                                   .tasks = chain->tasks};
    memcpy(row->list, chain->distance, chain->listed * sizeof row->list[0]);
    if (chain->flag == 1)
        memcpy(row->largest, chain->largest, chain->listed * sizeof row->largest[0]);
    for (unsigned i = 0; i < chain->tasks; i++) {
        row->priority[i] = (uint16_t)chain->task[i].priority;
        row->cost[i] = chain->task[i].cost;
    }
}

static uint32_t read_rows(const uint8_t *bytes, size_t length, struct mishtodran_row *rows, size_t row_count,
                          unsigned *chains)
{
    struct table table;
    uint32_t refusal = read_table(bytes, length, &table).number;
    if (refusal)
        return refusal;
    if (row_count < table.chains)
        return 24;
    for (unsigned i = 0; i < table.chains; i++)
        fill_row(&table.chain[i], &rows[i]);
    *chains = table.chains;
    return 0;
}

/* The gap of a row of `CH`, and the flag of one of `CG`; 0 of the other. */
static uint32_t gap_of(const struct mishtodran_row *row) { return row->form == gap_form.mark ? row->gap : 0; }

static uint8_t flag_of(const struct mishtodran_row *row) { return row->form == largest_form.mark ? row->flag : 0; }

static bool id_used_earlier(const struct mishtodran_row *rows, size_t place)
{
    for (size_t i = 0; i < place; i++)
        if (rows[i].id == rows[place].id)
            return true;
    return false;
}

/* The number of the first fault in what would be the row's fixed part, or 0. The counts are 64 bits wide and judged
   before they are added up or used. */
static uint32_t judge_fixed_part(const struct mishtodran_row *rows, size_t place, uint64_t tasks_before)
{
    const struct mishtodran_row *row = &rows[place];
    if (row->id == 0 || id_used_earlier(rows, place))
        return 4;
    if (row->kind > 1 || row->overload > 1)
        return 5;
    if (row->deadline < 1 || row->deadline > MOST_TIME)
        return 6;
    if (gap_of(row) > MOST_TIME)
        return 7;
    if (row->listed < 1 || row->listed > MOST_LISTED)
        return 28;
    if (row->tasks < 1 || row->tasks > MOST_TASKS || tasks_before + row->tasks > MOST_TASKS_IN_ALL)
        return 9;
    return 0;
}

/* All distances are held against the limit and the one before; only then do the last one and the gap count. */
static uint32_t judge_list(const struct mishtodran_row *row)
{
    uint32_t before = 0, gap = gap_of(row);
    bool beyond_gap = false;
    for (unsigned i = 0; i < row->listed; i++) {
        uint32_t distance = row->list[i];
        if (distance < before || distance > MOST_TIME)
            return 29;
        beyond_gap |= (uint64_t)gap * (i + 1) < distance;
        before = distance;
    }
    if (before == 0)
        return 30;
    return gap != 0 && beyond_gap ? 31 : 0;
}

/* The flag, and with flag 1 the largest distances. */
static uint32_t judge_largest(const struct mishtodran_row *row)
{
    if (flag_of(row) != 1)
        return flag_of(row) == 0 ? 0 : 33;
    uint32_t before = 0;
    for (unsigned i = 0; i < row->listed; i++) {
        uint32_t distance = row->largest[i];
        if (distance < before || distance > MOST_LARGEST || distance < row->list[i])
            return 33;
        before = distance;
    }
    return 0;
}

static uint32_t judge_tasks(const struct mishtodran_row *row)
{
    for (unsigned i = 0; i < row->tasks; i++)
        if (row->priority[i] == 0 || row->cost[i] < 1 || row->cost[i] > MOST_COST)
            return 10;
    return 0;
}

/* The number of the first fault of the row at this place, where those before it have none; or 0. */
static uint32_t judge_row(const struct mishtodran_row *rows, size_t place, uint64_t tasks_before)
{
    const struct mishtodran_row *row = &rows[place];
    if (!form_of(row->form) || row->form != rows[0].form)
        return 3;
    if (place == MOST_CHAINS)
        return 11;
    uint32_t refusal = judge_fixed_part(rows, place, tasks_before);
    if (!refusal)
        refusal = judge_list(row);
    if (!refusal)
        refusal = judge_largest(row);
    return refusal ? refusal : judge_tasks(row);
}

/* The number of the first fault of rows, as their bytes would be read, or 0. */
static uint32_t judge_rows(const struct mishtodran_row *rows, size_t row_count)
{
    uint64_t tasks = 0;
    for (size_t i = 0; i < row_count; i++) {
        uint32_t refusal = judge_row(rows, i, tasks);
        if (refusal)
            return refusal;
        tasks += rows[i].tasks;
    }
    return row_count == 0 ? 11 : 0;
}

/* The length of the table of rows without fault. */
static size_t length_of_rows(const struct mishtodran_row *rows, size_t row_count)
{
    size_t length = END_BYTES;
    for (size_t i = 0; i < row_count; i++) {
        const struct mishtodran_row *row = &rows[i];
        length += record_length(form_of(row->form), flag_of(row), row->listed, row->tasks);
    }
    return length;
}

static void write_task(uint8_t *at, uint32_t priority, uint32_t cost)
{
    put_mark(at, "TK");
    put16(at + PRIORITY_AT, priority);
    put32(at + COST_AT, cost);
}

static void write_fixed_part(uint8_t *at, const struct mishtodran_row *row, const struct form *form)
{
    put16(at, form->mark);
    put16(at + ID_AT, row->id);
    at[KIND_AT] = row->kind;
    at[OVERLOAD_AT] = row->overload;
    put32(at + DEADLINE_AT, row->deadline);
    if (form == &gap_form)
        put32(at + GAP_AT, row->gap);
    else
        at[FLAG_AT] = row->flag;
    at[form->list_length_at] = (uint8_t)row->listed;
    at[form->task_count_at] = (uint8_t)row->tasks;
}

/* Writes a list, and gives back where it ends. */
static uint8_t *write_list(uint8_t *at, const uint32_t *list, uint64_t listed)
{
    for (unsigned i = 0; i < listed; i++, at += DISTANCE_BYTES)
        put32(at, list[i]);
    return at;
}

/* Writes the chain record of a row without fault, and gives back where it ends. */
static uint8_t *write_row(uint8_t *at, const struct mishtodran_row *row)
{
    const struct form *form = form_of(row->form);
    write_fixed_part(at, row, form);
    at = write_list(at + form->fixed_bytes, row->list, row->listed);
    if (flag_of(row) == 1)
        at = write_list(at, row->largest, row->listed);
    for (unsigned i = 0; i < row->tasks; i++, at += TASK_BYTES)
        write_task(at, row->priority[i], row->cost[i]);
    return at;
}

/* The table of rows without fault: 0 or 24. */
static uint32_t write_table(const struct mishtodran_row *rows, size_t row_count, uint8_t *buffer, size_t buffer_len,
                            size_t *used)
{
    *used = length_of_rows(rows, row_count);
    if (*used > buffer_len)
        return 24;
    for (size_t i = 0; i < row_count; i++)
        buffer = write_row(buffer, &rows[i]);
    write_end(buffer, row_count);
    return 0;
}

static uint32_t write_rows(const struct mishtodran_row *rows, size_t row_count, uint8_t *buffer, size_t buffer_len,
                           size_t *used)
{
    uint32_t refusal = judge_rows(rows, row_count);
    return refusal ? refusal : write_table(rows, row_count, buffer, buffer_len, used);
}

/* ---- Largest distances as a list ---- */

/* Makes a row of `CH` one of `CG`; whether it was one of `CH`. */
static bool row_to_largest(struct mishtodran_row *row)
{
    if (form_of(row->form) != &gap_form)
        return false;
    row->form = largest_form.mark;
    row->flag = row->gap > 0;
    for (unsigned i = 0; i < row->listed; i++)
        row->largest[i] = (i + 1) * row->gap;
    row->gap = 0;
    return true;
}

/* Makes a row of `CG` one of `CH`; whether it was one of `CG`, and its largest distances, where they are known, are
   1, 2, 3, .. times a gap that is allowed. */
static bool row_to_gap(struct mishtodran_row *row)
{
    if (form_of(row->form) != &largest_form)
        return false;
    uint32_t gap = row->largest[0]; /* 0 with flag 0, as all largest places of a row that was read */
    if (gap > MOST_TIME)
        return false;
    for (unsigned i = 0; i < row->listed; i++)
        if (row->largest[i] != (i + 1) * gap)
            return false;
    row->form = gap_form.mark;
    row->flag = 0;
    row->gap = gap;
    return true;
}

/* A table in the other form, row by row: its own number, 34 or 24. */
static uint32_t convert(struct lent table, bool (*row_to_other)(struct mishtodran_row *row), uint8_t *buffer,
                        size_t buffer_len, size_t *used)
{
    struct mishtodran_row rows[MOST_CHAINS];
    unsigned chains;
    uint32_t refusal = read_rows(table.bytes, table.length, rows, MOST_CHAINS, &chains);
    if (refusal)
        return refusal;
    for (unsigned i = 0; i < chains; i++)
        if (!row_to_other(&rows[i]))
            return 34;
    return write_table(rows, chains, buffer, buffer_len, used);
}

/* ---- Salvage a damaged table ---- */

/* Bytes of an input that were skipped. */
struct skipped {
    size_t at, length;
};

enum { SKIPPED_BYTES = 8 }; /* of each in the list */

/* What was kept of an input, and the longest skipped stretches: one before each record at most, and one after the last
   where there are fewer than 16. */
struct salvage {
    struct table kept;
    unsigned stretches;
    struct skipped skipped[MOST_CHAINS];
};

/* Keeps the chain record that starts here; whether a whole one does that is acceptable beside those kept so far. */
static bool keep_record(struct lent input, size_t at, struct table *kept)
{
    const struct form *form = there(input.length, at, 2) ? form_of(number16(input.bytes + at)) : NULL;
    return form && read_chain(input.bytes, input.length, at, form, kept).number == 0;
}

/* A walk from the first byte: on after a record that is kept, else on by one byte. */
static void keep_records(struct lent input, struct table *kept)
{
    kept->chains = 0;
    for (size_t at = 0; at < input.length && kept->chains < MOST_CHAINS;)
        at = keep_record(input, at, kept) ? kept->chain[kept->chains - 1].end : at + 1;
}

static void skip_up_to(struct salvage *salvage, size_t from, size_t to)
{
    if (from < to)
        salvage->skipped[salvage->stretches++] = (struct skipped){from, to - from};
}

/* The stretches between the records that were kept. After a 16th nothing was looked at, so nothing was skipped. */
static void list_skipped(struct salvage *salvage, size_t length)
{
    const struct table *kept = &salvage->kept;
    size_t at = 0;
    salvage->stretches = 0;
    for (unsigned i = 0; i < kept->chains; i++) {
        skip_up_to(salvage, at, kept->chain[i].at);
        at = kept->chain[i].end;
    }
    if (kept->chains < MOST_CHAINS)
        skip_up_to(salvage, at, length);
}

static uint32_t salvage_input(struct lent input, struct salvage *salvage)
{
    if (input.length > MOST_DAMAGED_BYTES)
        return 35;
    keep_records(input, &salvage->kept);
    if (salvage->kept.chains == 0)
        return 36;
    list_skipped(salvage, input.length);
    return 0;
}

/* The length of the table of these records. */
static size_t length_of_kept(const struct table *kept)
{
    size_t length = END_BYTES;
    for (unsigned i = 0; i < kept->chains; i++)
        length += kept->chain[i].end - kept->chain[i].at;
    return length;
}

/* Writes the kept records, as they stand in the input, and an end record. */
static void write_kept(const uint8_t *input, const struct table *kept, uint8_t *at)
{
    for (unsigned i = 0; i < kept->chains; i++) {
        const struct chain *chain = &kept->chain[i];
        memcpy(at, input + chain->at, chain->end - chain->at);
        at += chain->end - chain->at;
    }
    write_end(at, kept->chains);
}

static void write_skipped(const struct salvage *salvage, uint8_t *at)
{
    for (unsigned i = 0; i < salvage->stretches; i++, at += SKIPPED_BYTES) {
        put32(at, (uint32_t)salvage->skipped[i].at);
        put32(at + 4, (uint32_t)salvage->skipped[i].length);
    }
}

/* ---- The C editor ---- */

uint32_t plain_latency(const uint8_t *table, size_t table_len, uint32_t id, uint8_t *answer, size_t answer_len)
{
    struct asked asked;
    const struct chain *b;
    struct figures figures;
    if (answer_len < 16)
        return 27;
    uint32_t refusal = read_to_ask(table, table_len, &asked).number;
    if (!refusal)
        refusal = latency_of(&asked.table, id, &b, &figures);
    if (refusal)
        return refusal;
    put32(answer, (uint32_t)figures.K);
    put32(answer + 4, (uint32_t)figures.latency);
    put32(answer + 8, (uint32_t)figures.late);
    put32(answer + 12, b->deadline - (uint32_t)figures.latency);
    return 0;
}

static uint32_t answer_misses(struct lent table, uint32_t id, uint32_t k, const struct way *way, uint8_t *answer,
                              size_t answer_len)
{
    struct asked asked;
    uint32_t misses;
    if (answer_len < 4)
        return 27;
    uint32_t refusal = read_to_ask(table.bytes, table.length, &asked).number;
    if (!refusal)
        refusal = misses_of(&asked.table, id, k, way, &misses);
    if (!refusal)
        put32(answer, misses);
    return refusal;
}

uint32_t plain_misses(const uint8_t *table, size_t table_len, uint32_t id, uint32_t k, uint8_t *answer,
                      size_t answer_len)
{
    return answer_misses((struct lent){table, table_len}, id, k, &by_windows, answer, answer_len);
}

uint32_t plain_misses_plain(const uint8_t *table, size_t table_len, uint32_t id, uint32_t k, uint8_t *answer,
                            size_t answer_len)
{
    return answer_misses((struct lent){table, table_len}, id, k, &by_every_packing, answer, answer_len);
}

uint32_t plain_misses_at_most(const uint8_t *table, size_t table_len, uint32_t id, uint32_t k, uint8_t *answer,
                              size_t answer_len)
{
    return answer_misses((struct lent){table, table_len}, id, k, &by_sieve, answer, answer_len);
}

static uint32_t read_figure(struct lent table, uint32_t id, uint32_t k, const struct way *way, uint64_t *figure)
{
    struct asked asked;
    uint32_t refusal = read_to_ask(table.bytes, table.length, &asked).number;
    return refusal ? refusal : figure_of(&asked.table, id, k, way, figure);
}

uint32_t plain_figure(const uint8_t *table, size_t table_len, uint32_t id, uint32_t k, uint64_t *figure)
{
    return read_figure((struct lent){table, table_len}, id, k, &by_windows, figure);
}

uint32_t plain_figure_at_most(const uint8_t *table, size_t table_len, uint32_t id, uint32_t k, uint64_t *figure)
{
    return read_figure((struct lent){table, table_len}, id, k, &by_sieve, figure);
}

bool plain_packings_exceed(const uint8_t *table, size_t table_len, uint32_t id, uint32_t k, uint64_t limit)
{
    struct asked asked;
    struct miss_case found;
    if (read_to_ask(table, table_len, &asked).number || case_of(&asked.table, id, k, is_bad, &found) || found.late == 0 ||
        found.empty_is_bad)
        return false;
    return meet_packings(&found.overload, found.bad, found.count, limit + 1).left == 0;
}

uint32_t plain_segment(const uint8_t *table, size_t table_len, uint32_t chain, uint32_t against, uint32_t number,
                       uint8_t *answer, size_t answer_len)
{
    struct table read;
    size_t offset, length;
    if (answer_len < 8)
        return 27;
    uint32_t refusal = read_table(table, table_len, &read).number;
    if (!refusal)
        refusal = segment_of(&read, chain, against, number, &offset, &length);
    if (refusal)
        return refusal;
    put32(answer, (uint32_t)offset);
    put32(answer + 4, (uint32_t)length);
    return 0;
}

uint32_t plain_save(uint8_t *buffer, size_t buffer_len, uint64_t used, const uint8_t *old_record, size_t old_len,
                    const uint8_t *new_record, size_t new_len, uint8_t *answer, size_t answer_len)
{
    size_t new_used;
    if (answer_len < 4)
        return 27;
    uint32_t refusal = save(buffer, buffer_len, used, old_record, old_len, new_record, new_len, &new_used);
    if (!refusal)
        put32(answer, (uint32_t)new_used);
    return refusal;
}

uint32_t plain_merge(const uint8_t *ancestor, size_t ancestor_len, const uint8_t *first, size_t first_len,
                     const uint8_t *second, size_t second_len, uint8_t *buffer, size_t buffer_len, uint8_t *answer,
                     size_t answer_len)
{
    const struct lent lent[TABLES] = {{ancestor, ancestor_len}, {first, first_len}, {second, second_len}};
    size_t used;
    if (answer_len < 4)
        return 27;
    uint32_t refusal = merge_copies(lent, buffer, buffer_len, &used);
    if (!refusal)
        put32(answer, (uint32_t)used);
    return refusal;
}

uint32_t plain_conflict(const uint8_t *ancestor, size_t ancestor_len, const uint8_t *first, size_t first_len,
                        const uint8_t *second, size_t second_len, uint32_t above, uint8_t *answer, size_t answer_len)
{
    const struct lent lent[TABLES] = {{ancestor, ancestor_len}, {first, first_len}, {second, second_len}};
    struct merge merge;
    if (answer_len < 4)
        return 27;
    uint32_t refusal = read_lent(lent, &merge);
    if (!refusal)
        put32(answer, smallest_conflict(&merge, above));
    return refusal;
}

uint32_t plain_read(const uint8_t *table, size_t table_len, struct mishtodran_row *rows, size_t row_count,
                    uint8_t *answer, size_t answer_len)
{
    unsigned chains;
    if (answer_len < 4)
        return 27;
    uint32_t refusal = read_rows(table, table_len, rows, row_count, &chains);
    if (!refusal)
        put32(answer, chains);
    return refusal;
}

uint32_t plain_write(const struct mishtodran_row *rows, size_t row_count, uint8_t *buffer, size_t buffer_len,
                     uint8_t *answer, size_t answer_len)
{
    size_t used;
    if (answer_len < 4)
        return 27;
    uint32_t refusal = write_rows(rows, row_count, buffer, buffer_len, &used);
    if (!refusal)
        put32(answer, (uint32_t)used);
    return refusal;
}

static uint32_t answer_converted(struct lent table, bool (*row_to_other)(struct mishtodran_row *row), uint8_t *buffer,
                                 size_t buffer_len, uint8_t *answer, size_t answer_len)
{
    size_t used;
    if (answer_len < 4)
        return 27;
    uint32_t refusal = convert(table, row_to_other, buffer, buffer_len, &used);
    if (!refusal)
        put32(answer, (uint32_t)used);
    return refusal;
}

uint32_t plain_to_largest(const uint8_t *table, size_t table_len, uint8_t *buffer, size_t buffer_len, uint8_t *answer,
                          size_t answer_len)
{
    return answer_converted((struct lent){table, table_len}, row_to_largest, buffer, buffer_len, answer, answer_len);
}

uint32_t plain_to_gap(const uint8_t *table, size_t table_len, uint8_t *buffer, size_t buffer_len, uint8_t *answer,
                      size_t answer_len)
{
    return answer_converted((struct lent){table, table_len}, row_to_gap, buffer, buffer_len, answer, answer_len);
}

uint32_t plain_salvage(const uint8_t *input, size_t input_len, uint8_t *table, size_t table_len, uint8_t *list,
                       size_t list_len, uint8_t *answer, size_t answer_len)
{
    struct salvage salvage;
    if (answer_len < 8)
        return 27;
    uint32_t refusal = salvage_input((struct lent){input, input_len}, &salvage);
    if (refusal)
        return refusal;
    size_t table_used = length_of_kept(&salvage.kept), list_used = SKIPPED_BYTES * salvage.stretches;
    if (table_used > table_len || list_used > list_len)
        return 24;
    write_kept(input, &salvage.kept, table);
    write_skipped(&salvage, list);
    put32(answer, (uint32_t)table_used);
    put32(answer + 4, (uint32_t)list_used);
    return 0;
}

uint32_t plain_record(const uint8_t *table, size_t table_len, uint32_t id, uint8_t *answer, size_t answer_len)
{
    struct table read;
    if (answer_len < 8)
        return 27;
    uint32_t refusal = read_table(table, table_len, &read).number;
    if (refusal)
        return refusal;
    const struct chain *chain = find_chain(&read, id);
    if (!chain)
        return 12;
    put32(answer, (uint32_t)chain->at);
    put32(answer + 4, (uint32_t)(chain->end - chain->at));
    return 0;
}

uint32_t plain_check(const uint8_t *table, size_t table_len, uint8_t *answer, size_t answer_len)
{
    struct table read;
    if (answer_len < 8)
        return 27;
    struct fault fault = read_table(table, table_len, &read);
    put32(answer, fault.number);
    put32(answer + 4, fault.at);
    return 0;
}

/* ---- The report ---- */

enum { LONGEST_LINE = 128 };

struct text {
    char words[(1 + MOST_CHAINS) * LONGEST_LINE];
    size_t length;
};

static void say(struct text *text, const char *line)
{
    size_t length = strlen(line);
    memcpy(text->words + text->length, line, length);
    text->length += length;
}

static void report_chain(struct text *text, const struct table *table, uint32_t id)
{
    const struct chain *b;
    struct figures figures;
    char line[LONGEST_LINE];
    uint32_t refusal = latency_of(table, id, &b, &figures);
    if (refusal) {
        snprintf(line, sizeof line, "%" PRIu32 " r%" PRIu32 "\n", id, refusal);
        say(text, line);
        return;
    }
    uint32_t misses = 0;
    refusal = misses_of(table, id, 10, &by_windows, &misses);
    snprintf(line, sizeof line, "%" PRIu32 " %" PRIu64 " %" PRIu64 " %" PRIu64 " %" PRId64 " %s%" PRIu32 "\n", id,
             figures.K, figures.latency, figures.late, (int64_t)b->deadline - (int64_t)figures.latency,
             refusal ? "r" : "", refusal ? refusal : misses);
    say(text, line);
}

static void report_table(struct text *text, const uint8_t *table, size_t table_len)
{
    struct asked asked;
    struct fault fault = read_to_ask(table, table_len, &asked);
    if (fault.number) {
        char line[LONGEST_LINE];
        snprintf(line, sizeof line, "refused %" PRIu32 " %" PRIu32 "\n", fault.number, fault.at);
        say(text, line);
        return;
    }
    say(text, "chain K latency late margin miss10\n");
    for (unsigned i = 0; i < asked.table.chains; i++)
        report_chain(text, &asked.table, asked.table.chain[i].id);
}

uint32_t plain_report(const uint8_t *table, size_t table_len, uint8_t *text, size_t text_len, uint8_t *answer,
                      size_t answer_len)
{
    struct text report;
    if (answer_len < 4)
        return 27;
    report.length = 0;
    report_table(&report, table, table_len);
    if (report.length > text_len)
        return 24;
    memcpy(text, report.words, report.length);
    put32(answer, (uint32_t)report.length);
    return 0;
}
