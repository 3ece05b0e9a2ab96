/* The generator. What makes a table quick to work out is its families' own doing: either the processor is idle often
   enough for climbs to their windows to be short, or costs are high enough for the horizon to be few steps away. */
#include "generate.h"

#include "analyzer.h"

#include <string.h>

enum {
    LATEST = 10000000,   /* of deadlines, gaps, smallest distances and windows */
    FARTHEST = 80000000, /* of largest distances */
    DEAREST = 1000000,
    HIGHEST = 65535,
    MOST_IN_ALL = 64,
    MOST_STEPS = 100000 /* of the climbs to all windows of a damaged table, and of one that works off slowly */
};

/* ---- Numbers ---- */

static uint64_t next_number(struct source *source)
{
    uint64_t mixed = source->state += 0x9E3779B97F4A7C15u;
    mixed = (mixed ^ mixed >> 30) * 0xBF58476D1CE4E5B9u;
    mixed = (mixed ^ mixed >> 27) * 0x94D049BB133111EBu;
    return mixed ^ mixed >> 31;
}

uint64_t draw(struct source *source, uint64_t low, uint64_t high)
{
    return low >= high ? low : low + next_number(source) % (high - low + 1);
}

bool one_in(struct source *source, unsigned many) { return draw(source, 1, many) == 1; }

static uint32_t pick(struct source *source, const uint32_t *values, unsigned count)
{
    return values[draw(source, 0, count - 1)];
}

static uint32_t least(uint64_t a, uint64_t b) { return (uint32_t)(a < b ? a : b); }

/* ---- Tables to be stored ---- */

struct made_chain *add_chain(struct made_table *table, uint32_t deadline, uint32_t gap, uint32_t distance)
{
    struct made_chain *chain = &table->chain[table->chains++];
    *chain = (struct made_chain){
        .form = MISHTODRAN_GAP_FORM, .id = table->chains, .deadline = deadline, .gap = gap, .listed = 1};
    chain->distance[0] = distance;
    return chain;
}

void add_task(struct made_chain *chain, uint32_t priority, uint32_t cost)
{
    chain->task[chain->tasks++] = (struct made_task){priority, cost};
}

static uint8_t *put(uint8_t *at, uint64_t value, unsigned width)
{
    for (unsigned i = 0; i < width; i++)
        *at++ = (uint8_t)(value >> 8 * i);
    return at;
}

static uint32_t get(const uint8_t *at, unsigned width)
{
    uint32_t value = 0;
    for (unsigned i = 0; i < width; i++)
        value |= (uint32_t)at[i] << 8 * i;
    return value;
}

static uint8_t *put_mark(uint8_t *at, const char *mark)
{
    at[0] = (uint8_t)mark[0];
    at[1] = (uint8_t)mark[1];
    return at + 2;
}

static uint8_t *put_list(uint8_t *at, const uint32_t *list, unsigned listed)
{
    for (unsigned i = 0; i < listed; i++)
        at = put(at, list[i], 4);
    return at;
}

/* How many lists go with a form and a flag. */
static unsigned lists_of(uint16_t form, uint8_t flag) { return form == MISHTODRAN_LARGEST_FORM && flag == 1 ? 2 : 1; }

static uint8_t *put_chain(uint8_t *at, const struct made_chain *chain)
{
    at = put(at, chain->form, 2);
    at = put(at, chain->id, 2);
    at = put(at, chain->asynchronous, 1);
    at = put(at, chain->overload, 1);
    at = put(at, chain->deadline, 4);
    at = chain->form == MISHTODRAN_LARGEST_FORM ? put(at, chain->flag, 1) : put(at, chain->gap, 4);
    at = put(at, chain->listed, 1);
    at = put(at, chain->tasks, 1);
    at = put_list(at, chain->distance, chain->listed);
    if (lists_of(chain->form, chain->flag) == 2)
        at = put_list(at, chain->largest, chain->listed);
    for (unsigned i = 0; i < chain->tasks; i++)
        at = put(put(put_mark(at, "TK"), chain->task[i].priority, 2), chain->task[i].cost, 4);
    return at;
}

size_t encode(const struct made_table *table, uint8_t *bytes)
{
    uint8_t *at = bytes;
    for (unsigned i = 0; i < table->chains; i++)
        at = put_chain(at, &table->chain[i]);
    at = put(put_mark(at, "EN"), table->chains, 2);
    return (size_t)(at - bytes);
}

struct parts parts_of(const uint8_t *record)
{
    uint16_t form = (uint16_t)get(record, 2);
    struct parts parts = {.flagged = form == MISHTODRAN_LARGEST_FORM};
    parts.list_length_at = parts.flagged ? 11 : 14;
    parts.task_count_at = parts.list_length_at + 1;
    parts.listed = record[parts.list_length_at];
    parts.tasks = record[parts.task_count_at];
    parts.list_at = parts.task_count_at + 1;
    parts.largest_at = parts.list_at + 4 * parts.listed;
    parts.tasks_at = parts.list_at + 4 * parts.listed * lists_of(form, record[10]);
    parts.end = parts.tasks_at + 8 * parts.tasks;
    return parts;
}

static uint64_t cost_of(const struct made_chain *chain)
{
    uint64_t sum = 0;
    for (unsigned i = 0; i < chain->tasks; i++)
        sum += chain->task[i].cost;
    return sum;
}

/* ---- The parts of a chain ---- */

static void fill_tasks(struct source *source, struct made_chain *chain, unsigned count, uint32_t highest,
                       uint32_t dearest)
{
    for (unsigned i = 0; i < count; i++)
        add_task(chain, (uint32_t)draw(source, 1, highest), (uint32_t)draw(source, 1, dearest));
}

/* Tasks of one priority that cost this much together. */
static void split_cost(struct made_chain *chain, uint32_t priority, uint64_t cost)
{
    uint64_t count = (cost + DEAREST - 1) / DEAREST;
    for (; count > 0; count--) {
        add_task(chain, priority, (uint32_t)(cost / count));
        cost -= cost / count;
    }
}

static void sort(uint32_t *values, unsigned count)
{
    for (unsigned i = 1; i < count; i++)
        for (unsigned j = i; j > 0 && values[j] < values[j - 1]; j--) {
            uint32_t lower = values[j];
            values[j] = values[j - 1];
            values[j - 1] = lower;
        }
}

/* A list with this distance on average: even, in bursts, or uneven. */
static void fill_list(struct source *source, struct made_chain *chain, uint64_t mean)
{
    unsigned style = (unsigned)draw(source, 0, 3);
    if (mean < 1)
        mean = 1;
    if (mean > LATEST)
        mean = LATEST;
    chain->listed = style == 0 ? 1 : least(draw(source, 1, 8), LATEST / mean);
    uint32_t last = (uint32_t)mean * chain->listed;
    for (unsigned i = 0; i < chain->listed; i++) {
        if (style == 1)
            chain->distance[i] = (uint32_t)mean * (i + 1);
        else if (style == 2)
            chain->distance[i] = (uint32_t)draw(source, 0, last / 50);
        else
            chain->distance[i] = (uint32_t)draw(source, 0, last);
    }
    chain->distance[chain->listed - 1] = last;
    sort(chain->distance, chain->listed);
}

/* What the other steps of a list are beside the best one, which has the greatest distance for its length: anything below
   that, just below it, as little as may be, or so but for those from one on. With this one close to the best the greatest
   sums settle late: each rest takes another number of its steps. */
enum { ANY_LESS, JUST_LESS, FAR_LESS, LESS_BUT_ONE, LESSER };

struct steps {
    unsigned listed, best;
    uint32_t far; /* of the best */
    unsigned style, one;
};

/* The most that a step can be beside the best one. */
static uint32_t most_step(const struct steps *steps, unsigned step)
{
    return least((step * steps->far - 1) / steps->best, LATEST);
}

static void list_steps(struct source *source, struct made_chain *chain, const struct steps *steps)
{
    unsigned best = steps->best, one = steps->one;
    chain->listed = steps->listed;
    for (unsigned step = 1; step <= steps->listed; step++) {
        uint32_t distance = step < best ? 0 : steps->far, high = most_step(steps, step);
        bool from_one = step >= one && (one > best || step < best);
        if (steps->style == ANY_LESS)
            distance = (uint32_t)draw(source, distance, high);
        else if (steps->style == JUST_LESS)
            distance = (uint32_t)draw(source, high < distance + 2 ? distance : high - 2, high);
        else if (steps->style == LESS_BUT_ONE && from_one)
            distance = most_step(steps, one);
        chain->distance[step - 1] = step == best ? steps->far : distance;
    }
    sort(chain->distance, steps->listed);
}

/* A step beside the best one; mostly the next to it. */
static unsigned beside_best(struct source *source, unsigned listed, unsigned best)
{
    unsigned step = one_in(source, 2) ? (unsigned)draw(source, 1, listed) : best + 1;
    return step == best || step > listed ? (best == 1 ? 2 : best - 1) : step;
}

/* A list of at least two with this best step of this distance. */
static void fill_steps(struct source *source, struct made_chain *chain, unsigned listed, unsigned best, uint32_t far)
{
    struct steps steps = {.listed = listed, .best = best, .far = far, .style = (unsigned)draw(source, 0, LESSER - 1)};
    steps.one = beside_best(source, listed, best);
    list_steps(source, chain, &steps);
}

/* A list of eight, no more frequent than by this last distance, whose sums settle as late as can be: by sevens and eights, after
   48 places or 49. */
static void fill_settling_late(struct source *source, struct made_chain *chain, uint32_t last)
{
    unsigned best = (unsigned)draw(source, 7, 8);
    uint32_t far = (last * best + 7) / 8 * (uint32_t)draw(source, 1, 8);
    list_steps(source, chain, &(struct steps){8, best, least(far, LATEST), LESS_BUT_ONE, 15 - best});
}

/* A list with this distance on average that mostly does not add up. */
static void fill_stepped_list(struct source *source, struct made_chain *chain, uint64_t mean)
{
    mean = least(mean < 1 ? 1 : mean, LATEST / 2);
    unsigned listed = (unsigned)draw(source, 2, 8), best = (unsigned)draw(source, 1, least(listed, LATEST / mean));
    fill_steps(source, chain, listed, best, (uint32_t)mean * best);
}

/* The least gap that a list allows. */
static uint32_t least_gap(const struct made_chain *chain)
{
    uint32_t gap = 1;
    for (unsigned i = 0; i < chain->listed; i++) {
        uint32_t needed = (chain->distance[i] + i) / (i + 1);
        if (needed > gap)
            gap = needed;
    }
    return gap;
}

static void fill_gap(struct source *source, struct made_chain *chain)
{
    uint32_t gap = least_gap(chain);
    switch (draw(source, 0, 4)) {
    case 0:
        chain->gap = 0;
        break;
    case 1:
        chain->gap = gap;
        break;
    case 2:
        chain->gap = (uint32_t)draw(source, gap, LATEST);
        break;
    default:
        chain->gap = (uint32_t)draw(source, gap, least(gap * 3ull, LATEST));
    }
}

/* Gives a chain the form "CG", with so many times its gap. */
static void list_gap(struct made_chain *chain)
{
    chain->form = MISHTODRAN_LARGEST_FORM;
    chain->flag = chain->gap > 0;
    for (unsigned i = 0; i < 8; i++)
        chain->largest[i] = chain->gap * (i + 1);
}

struct made_table in_largest_form(struct made_table table)
{
    for (unsigned i = 0; i < table.chains; i++)
        list_gap(&table.chain[i]);
    return table;
}

/* Moves largest distances, where that must be, so that they stay within the limit, do not fall and do not lie below the
   smallest ones. */
static void allow_largest(struct made_chain *chain)
{
    uint32_t before = 0;
    for (unsigned i = 0; i < chain->listed; i++) {
        uint32_t *largest = &chain->largest[i];
        *largest = least(*largest, FARTHEST);
        if (*largest < chain->distance[i])
            *largest = chain->distance[i];
        if (*largest < before)
            *largest = before;
        before = *largest;
    }
}

/* What largest distances are in place of multiples of the gap. From INSIDE on: anything but for the last one, so that
   whole lists reach as far as before. */
enum {
    OF_GREATEST_GAP,
    OF_GAP_TOO_GREAT,
    AS_SMALLEST,
    ABOVE_SMALLEST,
    FAR_FROM_ONE_ON,
    ONE_BESIDE,
    LAST_LONGER,
    INSIDE,
    BENDS = INSIDE + 3
};

/* Largest distances that are no multiples of a gap, or almost, or of a gap that is the greatest or too great. */
static void bend_largest(struct source *source, struct made_chain *chain)
{
    unsigned bend = (unsigned)draw(source, 0, BENDS - 1);
    unsigned last = chain->listed - 1, place = (unsigned)draw(source, 0, last);
    uint32_t gap = chain->gap == 0 ? least_gap(chain) : chain->gap;
    if (bend <= OF_GAP_TOO_GREAT)
        gap = LATEST + bend;
    chain->flag = 1;
    for (unsigned i = 0; i <= last; i++) {
        chain->largest[i] = gap * (i + 1);
        if (bend == AS_SMALLEST || bend == ABOVE_SMALLEST)
            chain->largest[i] = chain->distance[i] + (uint32_t)draw(source, 0, bend == AS_SMALLEST ? 0 : 2);
        else if (bend == FAR_FROM_ONE_ON && i >= place)
            chain->largest[i] = FARTHEST;
        else if (bend >= INSIDE && i < last)
            chain->largest[i] = (uint32_t)draw(source, 0, gap * chain->listed);
    }
    if (bend == ONE_BESIDE)
        chain->largest[place] += 2 * (uint32_t)draw(source, 0, 1) - 1;
    if (bend == LAST_LONGER)
        chain->largest[last] += (uint32_t)draw(source, 0, chain->largest[last]);
    allow_largest(chain);
}

/* Largest distances by the gap, or otherwise; without a gap they are mostly not known. */
static void any_largest(struct source *source, struct made_chain *chain)
{
    list_gap(chain);
    if (one_in(source, chain->gap == 0 ? 4 : 2))
        bend_largest(source, chain);
}

/* Gives a table the form "CG": all chains by their gaps, all but one, or any of them. */
static void list_largest(struct source *source, struct made_table *table)
{
    unsigned style = (unsigned)draw(source, 0, 2), one = (unsigned)draw(source, 0, table->chains - 1u);
    *table = in_largest_form(*table);
    for (unsigned i = 0; i < table->chains; i++)
        if (style == 1 && i == one)
            bend_largest(source, &table->chain[i]);
        else if (style == 2)
            any_largest(source, &table->chain[i]);
}

/* Gives a chain the form that it has not. */
static void turn_form(struct made_chain *chain)
{
    if (chain->form == MISHTODRAN_GAP_FORM)
        list_gap(chain);
    else
        chain->form = MISHTODRAN_GAP_FORM;
}

/* Gives one chain another form than it has; of 17 the last. */
static void mix_forms(struct source *source, struct made_table *table)
{
    unsigned last = table->chains - 1;
    turn_form(&table->chain[last == 16 ? last : (unsigned)draw(source, 0, last)]);
}

/* Ids of which none comes twice: each is so far from the one before it, and 1 follows the greatest. */
struct ids {
    uint32_t first, step;
};

static uint32_t id_at(struct ids ids, unsigned place)
{
    return 1 + (uint32_t)((ids.first + (uint64_t)place * ids.step) % HIGHEST);
}

/* Ids in no order. */
static struct ids mixed_ids(struct source *source)
{
    uint32_t first = (uint32_t)draw(source, 0, HIGHEST - 1);
    uint32_t step = (uint32_t)draw(source, 1, HIGHEST - 1);
    while (step % 3 == 0 || step % 5 == 0 || step % 17 == 0 || step % 257 == 0) /* the primes of 65,535 */
        step = (uint32_t)draw(source, 1, HIGHEST - 1);
    return (struct ids){first, step};
}

static void mix_ids(struct source *source, struct made_table *table)
{
    struct ids ids = mixed_ids(source);
    for (unsigned i = 0; i < table->chains; i++)
        table->chain[i].id = id_at(ids, i);
}

/* ---- Deadlines that make a chain late, but not without overload ---- */

/* The latency of the chain at a place, or 0 where it is refused. */
static uint32_t latency_of(const struct made_table *table, unsigned place)
{
    uint8_t bytes[MOST_GENERATED], answer[16];
    size_t length = encode(table, bytes);
    if (plain_latency(bytes, length, table->chain[place].id, answer, sizeof answer) != 0)
        return 0;
    return answer[4] | (uint32_t)answer[5] << 8 | (uint32_t)answer[6] << 16 | (uint32_t)answer[7] << 24;
}

static uint32_t latency_without_overload(const struct made_table *table, unsigned place)
{
    struct made_table rest = {0};
    unsigned moved = 0;
    for (unsigned i = 0; i < table->chains; i++) {
        if (i == place)
            moved = rest.chains;
        if (!table->chain[i].overload || i == place)
            rest.chain[rest.chains++] = table->chain[i];
    }
    return latency_of(&rest, moved);
}

/* A deadline between the two latencies, now and then just outside. */
static void make_late(struct source *source, struct made_table *table, unsigned place)
{
    uint32_t high = latency_of(table, place);
    uint32_t low = latency_without_overload(table, place);
    if (high == 0 || low == 0)
        return;
    if (one_in(source, 12))
        low--;
    uint64_t deadline = draw(source, low, high - (one_in(source, 8) ? 0 : 1));
    table->chain[place].deadline = deadline < 1 ? 1 : least(deadline, LATEST);
}

/* ---- Tables of the documents ---- */

struct made_table sample_table(void)
{
    struct made_table table = {0};
    struct made_chain *chain = add_chain(&table, 40, 100, 100);
    add_task(chain, 5, 10);
    add_task(chain, 3, 10);
    chain = add_chain(&table, 100, 50, 50);
    add_task(chain, 9, 5);
    chain = add_chain(&table, 500, 0, 1000);
    chain->asynchronous = chain->overload = true;
    add_task(chain, 8, 6);
    add_task(chain, 1, 4);
    add_task(chain, 7, 10);
    chain = add_chain(&table, 300, 0, 1000);
    chain->overload = true;
    add_task(chain, 6, 12);
    return table;
}

/* Chains d, c, b and a, in this order. */
struct made_table case_study(void)
{
    static const struct made_task of_d[] = {{11, 38}, {10, 6}, {9, 27}, {5, 6}, {2, 38}};
    static const struct made_task of_c[] = {{8, 4}, {7, 6}, {1, 41}};
    static const struct made_task of_b[] = {{13, 10}, {12, 10}, {6, 10}};
    static const struct made_task of_a[] = {{4, 10}, {3, 10}};
    struct made_table table = {0};
    struct made_chain *chain = add_chain(&table, 200, 200, 200);
    for (unsigned i = 0; i < 5; i++)
        add_task(chain, of_d[i].priority, of_d[i].cost);
    chain = add_chain(&table, 200, 200, 200);
    for (unsigned i = 0; i < 3; i++)
        add_task(chain, of_c[i].priority, of_c[i].cost);
    chain = add_chain(&table, 600, 0, 600);
    chain->overload = true;
    for (unsigned i = 0; i < 3; i++)
        add_task(chain, of_b[i].priority, of_b[i].cost);
    chain = add_chain(&table, 700, 0, 700);
    chain->overload = true;
    for (unsigned i = 0; i < 2; i++)
        add_task(chain, of_a[i].priority, of_a[i].cost);
    return table;
}

struct made_table horizon_edge(void)
{
    struct made_table table = {0};
    split_cost(add_chain(&table, LATEST, LATEST, LATEST), 1, LATEST);
    return table;
}

/* ---- Families ---- */

/* How many tasks the next chain may take so that one is left for each of those after it. */
static unsigned tasks_for(struct source *source, unsigned left, unsigned chains_after)
{
    return (unsigned)draw(source, 1, least(16, left - chains_after));
}

typedef void list_filling(struct source *source, struct made_chain *chain, uint64_t mean);

/* Chains that keep the processor busy for less than nine tenths of the time, their lists filled in this way. */
static struct made_table light_by(struct source *source, unsigned chains, list_filling *fill)
{
    static const uint32_t priorities[] = {3, 6, 12, HIGHEST};
    static const uint32_t costs[] = {3, 20, 1000, 20000};
    struct made_table table = {0};
    uint32_t highest = pick(source, priorities, 4);
    uint32_t dearest = pick(source, costs, 4);
    uint64_t busy = draw(source, 20, 90); /* of a hundred */
    unsigned left = MOST_IN_ALL;
    for (unsigned i = 0; i < chains; i++) {
        struct made_chain *chain = add_chain(&table, 1, 0, 1);
        fill_tasks(source, chain, tasks_for(source, left, chains - 1 - i), highest, dearest);
        left -= chain->tasks;
        chain->asynchronous = one_in(source, 2);
        chain->overload = one_in(source, 4);
        uint64_t rare = chain->overload ? draw(source, 1, 30) : 1;
        fill(source, chain, cost_of(chain) * chains * 100 / busy * rare * draw(source, 10, 30) / 10);
        fill_gap(source, chain);
        chain->deadline = (uint32_t)draw(source, 1, least(cost_of(chain) * (1 + chains) * 2, LATEST));
    }
    mix_ids(source, &table);
    for (unsigned i = 0; i < chains; i++)
        if (one_in(source, 2))
            make_late(source, &table, i);
    return table;
}

struct made_table light_table(struct source *source, unsigned chains) { return light_by(source, chains, fill_list); }

struct made_table stepped_table(struct source *source, unsigned chains)
{
    return light_by(source, chains, fill_stepped_list);
}

struct made_table full_table(struct source *source)
{
    struct made_table table = {0};
    for (unsigned i = 0; i < 16; i++) {
        struct made_chain *chain = add_chain(&table, (uint32_t)draw(source, 1, 5000), 0, 1);
        fill_tasks(source, chain, 4, 20, 30);
        chain->asynchronous = one_in(source, 2);
        chain->overload = one_in(source, 5);
        chain->listed = 8;
        for (unsigned n = 0; n < 8; n++)
            chain->distance[n] = (uint32_t)draw(source, n * 2500, (n + 1) * 2500);
        chain->gap = least_gap(chain) + (uint32_t)draw(source, 0, 100);
    }
    mix_ids(source, &table);
    return table;
}

/* Chains that ask for more than there is: no window closes, or none does within the horizon. */
static struct made_table heavy_table(struct source *source)
{
    struct made_table table = {0};
    unsigned chains = (unsigned)draw(source, 1, 4);
    for (unsigned i = 0; i < chains; i++) {
        struct made_chain *chain = add_chain(&table, (uint32_t)draw(source, 1, LATEST), 0, 1);
        fill_tasks(source, chain, (unsigned)draw(source, 1, 5), 8, 40000);
        chain->asynchronous = one_in(source, 2);
        chain->overload = one_in(source, 4);
        uint64_t mean = cost_of(chain) * chains * draw(source, 20, 80) / 100;
        (one_in(source, 4) ? fill_stepped_list : fill_list)(source, chain, mean < 8000 ? 8000 : mean);
        fill_gap(source, chain);
    }
    return table;
}

/* A load of almost all the time, with few arrivals within the horizon. */
static struct made_table close_to_one(struct source *source)
{
    struct made_table table = {0};
    unsigned chains = (unsigned)draw(source, 1, 3);
    for (unsigned i = 0; i < chains; i++) {
        uint64_t mean = draw(source, 100000, 1500000);
        uint64_t cost = mean * draw(source, 950, 1005) / 1000 / chains;
        struct made_chain *chain = add_chain(&table, (uint32_t)draw(source, 1, 2 * mean), 0, 1);
        split_cost(chain, (uint32_t)draw(source, 1, 6), cost / 2 + 1);
        split_cost(chain, (uint32_t)draw(source, 1, 6), cost / 2 + 1);
        chain->asynchronous = one_in(source, 3);
        chain->overload = i > 0 && one_in(source, 3);
        (one_in(source, 4) ? fill_stepped_list : fill_list)(source, chain, mean);
        fill_gap(source, chain);
    }
    if (one_in(source, 2))
        make_late(source, &table, 0);
    return table;
}

/* A load that one chain works off slowly: K up to 1,024 and just past it. */
static struct made_table backlog(struct source *source)
{
    struct made_table table = {0};
    uint32_t cost = (uint32_t)draw(source, 1, 9700);
    uint32_t slack = (uint32_t)draw(source, 1, 20);
    uint64_t wanted = one_in(source, 2) ? draw(source, 1021, 1027) : draw(source, 1, 1300);
    uint64_t extra = slack * wanted + draw(source, 0, 2) - 1;
    struct made_chain *b = add_chain(&table, (uint32_t)draw(source, 1, cost + extra + 1), cost + slack, cost + slack);
    add_task(b, 5, cost);
    b->asynchronous = one_in(source, 2);
    if (!one_in(source, 3))
        fill_stepped_list(source, b, cost + slack);
    unsigned parts = (unsigned)draw(source, 1, 3);
    for (unsigned i = 0; i < parts && extra > 0; i++) {
        uint64_t part = i + 1 == parts ? extra : draw(source, 1, extra);
        struct made_chain *chain = add_chain(&table, 1000, 0, LATEST);
        split_cost(chain, (uint32_t)draw(source, 5, 9), part);
        if (one_in(source, 2))
            add_task(chain, 1, (uint32_t)draw(source, 1, 50));
        chain->overload = !one_in(source, 3);
        extra -= part;
    }
    if (one_in(source, 2))
        make_late(source, &table, 0);
    return table;
}

/* Windows that end at the horizon or a tick beside it, after the list has been gone through once or twice. */
static struct made_table horizon(struct source *source)
{
    struct made_table table = {0};
    bool twice = one_in(source, 2);
    uint64_t all = LATEST + draw(source, 0, 4) - 2;
    struct made_chain *b = add_chain(&table, (uint32_t)draw(source, 1, LATEST), 0, LATEST);
    b->listed = (unsigned)draw(source, 1, 8);
    for (unsigned i = 0; i < b->listed; i++)
        b->distance[i] = (uint32_t)draw(source, 0, 9);
    uint32_t last = LATEST - (uint32_t)(twice ? draw(source, 1000, 1000000) : draw(source, 0, 2));
    b->distance[b->listed - 1] = last;
    sort(b->distance, b->listed);
    b->gap = one_in(source, 2) ? least_gap(b) : 0;
    uint64_t activations = b->listed * (twice ? 2 : 1);
    uint64_t cost = draw(source, 1, (twice ? all - last - 100 : all / 2) / b->listed);
    split_cost(b, 4, cost);
    b->asynchronous = one_in(source, 2);
    struct made_chain *other = add_chain(&table, LATEST, 0, LATEST);
    split_cost(other, (uint32_t)draw(source, 4, 5), all - cost * activations);
    other->overload = one_in(source, 2);
    if (one_in(source, 2))
        add_task(other, 1, DEAREST); /* deferred, and so there once at whatever length */
    return table;
}

/* One window that ends at the horizon or a tick past it, the first, the second, the third or the last: a deferred chain
   comes once at whatever length. */
static struct made_table exact_horizon(struct source *source)
{
    struct made_table table = {0};
    static const uint32_t windows[] = {1, 2, 3, 1024};
    uint32_t activations = pick(source, windows, 4);
    uint64_t all = LATEST + draw(source, 0, 1);
    uint64_t cost = (all - draw(source, 10, 600)) / activations;
    struct made_chain *b = add_chain(&table, (uint32_t)draw(source, 1, LATEST), one_in(source, 2) ? LATEST : 0, LATEST);
    split_cost(b, 4, cost);
    b->asynchronous = one_in(source, 2);
    b->listed = activations == 1024 ? 1 : activations;
    for (unsigned i = 0; i < b->listed; i++)
        b->distance[i] = i;
    b->distance[b->listed - 1] = activations == 1024 ? (uint32_t)cost : LATEST;
    struct made_chain *other = add_chain(&table, LATEST, 0, LATEST);
    other->asynchronous = one_in(source, 2);
    other->overload = one_in(source, 2);
    if (other->asynchronous)
        add_task(other, 1, 1);
    split_cost(other, 6, all - cost * activations);
    if (!other->asynchronous)
        add_task(other, 1, 1);
    return table;
}

/* Values at the limits, in tables of the least and of the greatest size. */
static struct made_table at_limits(struct source *source)
{
    struct made_table table = {0};
    unsigned chains = one_in(source, 2) ? 1 : (unsigned)draw(source, 2, 4);
    for (unsigned i = 0; i < chains; i++) {
        struct made_chain *chain = add_chain(&table, one_in(source, 2) ? 1 : LATEST, 0, LATEST);
        unsigned tasks = one_in(source, 2) ? 16 : 1;
        for (unsigned n = 0; n < tasks; n++)
            add_task(chain, one_in(source, 2) ? 1 : HIGHEST, one_in(source, 2) ? 1 : DEAREST);
        chain->listed = one_in(source, 2) ? 8 : 1;
        for (unsigned n = 0; n < chain->listed; n++)
            chain->distance[n] = LATEST;
        if (one_in(source, 3))
            chain->distance[0] = chain->listed == 1 ? LATEST : 0;
        chain->gap = one_in(source, 2) ? LATEST : 0;
        chain->asynchronous = one_in(source, 2);
        chain->overload = one_in(source, 2);
    }
    if (one_in(source, 2))
        table.chain[0].id = HIGHEST;
    return table;
}

/* One chain too many, some tasks too many, or no chain. */
static struct made_table wrong_count(struct source *source)
{
    static const uint32_t counts[] = {0, 5, 17, 17, 17, 17};
    struct made_table table = {0};
    unsigned chains = pick(source, counts, 6);
    for (unsigned i = 0; i < chains; i++)
        fill_tasks(source, add_chain(&table, 10, 0, 1000), chains == 5 ? (unsigned)draw(source, 12, 16) : 1, 9, 9);
    return table;
}

/* Overload against which there is a floor of 3 and a tail of 5: a task of 7 goes on, of 4 cuts, of 2 ends a segment. */
static void fill_segments(struct source *source, struct made_chain *chain, unsigned segments, uint32_t dearest)
{
    if (one_in(source, 5))
        add_task(chain, 1, (uint32_t)draw(source, 1, dearest));
    for (unsigned i = 0; i < segments; i++) {
        bool first = i == 0 || one_in(source, 2);
        if (i > 0 && first)
            add_task(chain, 2, (uint32_t)draw(source, 1, dearest));
        add_task(chain, first && !one_in(source, 4) ? 7 : 4, (uint32_t)draw(source, 1, dearest));
        if (chain->tasks + 2 * (segments - i) <= 16 && one_in(source, 6))
            add_task(chain, 8, (uint32_t)draw(source, 1, dearest));
    }
    if (chain->tasks < 16 && one_in(source, 5))
        add_task(chain, 2, (uint32_t)draw(source, 1, dearest));
}

/* Distances of the overload chains that give capacities of 2 to 41 for some of the run lengths that are asked. */
static void spread_overload(struct source *source, struct made_table *table, uint64_t busy)
{
    static const uint32_t runs[] = {1, 2, 3, 10, 11, 999, 1000};
    uint64_t reach = (pick(source, runs, 7) - 1) * (uint64_t)table->chain[0].gap + busy;
    bool even = one_in(source, 2);
    uint64_t capacity = draw(source, 2, 41);
    for (unsigned i = 0; i < table->chains; i++) {
        struct made_chain *chain = &table->chain[i];
        if (!chain->overload)
            continue;
        if (!even)
            capacity = one_in(source, 2) ? draw(source, 36, 41) : draw(source, 2, 41);
        uint64_t distance = reach / (capacity - 1) + draw(source, 0, 1);
        if (distance < busy)
            distance = one_in(source, 10) ? busy * 8 / 10 + 1 : busy;
        chain->distance[0] = least(distance, LATEST);
        if (one_in(source, 6)) {
            chain->listed = 2;
            chain->distance[1] = least(chain->distance[0] * 2ull, LATEST);
        } else if (one_in(source, 4)) {
            fill_stepped_list(source, chain, chain->distance[0]);
        }
    }
}

/* Lets activations of b come together, as often as before on average, so that a combination makes several late. Gives back
   what there is to do at once besides the first of them. */
static uint64_t bring_together(struct source *source, struct made_chain *b)
{
    uint32_t apart = b->distance[0];
    b->listed = (unsigned)draw(source, 2, 8);
    for (unsigned i = 0; i < b->listed; i++)
        b->distance[i] = (uint32_t)draw(source, 0, cost_of(b));
    b->distance[b->listed - 1] = apart * b->listed;
    sort(b->distance, b->listed);
    if (one_in(source, 4))
        fill_steps(source, b, b->listed, b->listed, apart * b->listed);
    return (b->listed - 1) * cost_of(b);
}

struct made_table packing_table(struct source *source, unsigned segments)
{
    static const uint32_t costs[] = {5, 20, 1000};
    struct made_table table = {0};
    uint32_t dearest = pick(source, costs, 3);
    struct made_chain *b = add_chain(&table, 1, 0, 1);
    add_task(b, 3, (uint32_t)draw(source, 1, dearest));
    add_task(b, 5, (uint32_t)draw(source, 1, dearest));
    uint64_t busy = cost_of(b);
    while (segments > 0) {
        struct made_chain *chain = add_chain(&table, 1000, 0, 1);
        unsigned count = (unsigned)draw(source, 1, one_in(source, 2) ? 1 : segments);
        chain->overload = true;
        chain->asynchronous = one_in(source, 2);
        fill_segments(source, chain, count, dearest);
        busy += 2 * cost_of(chain);
        segments -= count;
    }
    b = &table.chain[0];
    b->distance[0] = b->gap = (uint32_t)draw(source, busy / 3 + 3 * cost_of(b), 2 * busy + 3 * cost_of(b));
    if (one_in(source, 3))
        busy += bring_together(source, b);
    spread_overload(source, &table, busy);
    if (one_in(source, 3)) {
        struct made_chain *other = add_chain(&table, 100, 0, 7 * (uint32_t)busy);
        fill_tasks(source, other, 2, 9, dearest);
    }
    make_late(source, &table, 0);
    return table;
}

/* A chain of cost 10 whose misses are refused, or k, for reasons that are drawn each apart, so that some hold together: 14
   to 17, too many active segments, overload that starts again, for long runs the capacity, and a miss without overload. */
static struct made_table refused_misses(struct source *source)
{
    struct made_table table = {0};
    bool always_late = one_in(source, 2), late = !one_in(source, 4);
    struct made_chain *b = add_chain(&table, always_late ? 9 : late ? 10 : 100, one_in(source, 8) ? 0 : 100, 100);
    add_task(b, 1, 5);
    add_task(b, 5, 5);
    b->overload = one_in(source, 10);
    if (one_in(source, 6))
        b->distance[0] = 9; /* the windows never close */
    bool starts_again = one_in(source, 2);
    struct made_chain *overload = add_chain(&table, 1000, 0, starts_again ? 15 : one_in(source, 2) ? 1000 : LATEST);
    overload->overload = true;
    unsigned segments = (unsigned)draw(source, 5, 8);
    for (unsigned i = 0; i < segments; i++)
        add_task(overload, 2, 1);
    if (one_in(source, 6))
        split_cost(add_chain(&table, 1000, 0, LATEST), 9, LATEST); /* no window is within the horizon */
    return table;
}

/* ---- Chains that come again between the end of a window and the deadline ---- */

/* Comes again this long after its first activation, and then not for a long time. */
static void come_again(struct made_chain *chain, uint64_t after, uint64_t far)
{
    chain->listed = 2;
    chain->distance[0] = least(after, LATEST);
    chain->distance[1] = least(after + far, LATEST);
}

/* A chain that brings the cost of its first task with each activation where b has a floor of 3: a free one, or a deferred
   one that is asynchronous. */
static void add_returning(struct source *source, struct made_table *table, uint32_t dearest)
{
    struct made_chain *chain = add_chain(table, 1000, 0, LATEST);
    bool deferred = one_in(source, 4);
    chain->asynchronous = deferred || one_in(source, 2);
    add_task(chain, 9, (uint32_t)draw(source, 1, one_in(source, 3) ? dearest : 5 * dearest));
    if (deferred)
        add_task(chain, 1, (uint32_t)draw(source, 1, dearest));
}

/* b with a floor of 3 and a tail of 5; if it is asynchronous, mostly with a first part. */
static void add_sieved(struct source *source, struct made_table *table, uint32_t dearest)
{
    struct made_chain *b = add_chain(table, 1, 0, LATEST);
    b->asynchronous = one_in(source, 2);
    if (!one_in(source, 4))
        add_task(b, 6, (uint32_t)draw(source, 1, 4 * dearest));
    add_task(b, 3, (uint32_t)draw(source, 1, dearest));
    add_task(b, 5, (uint32_t)draw(source, 1, dearest));
}

/* Overload of so few active segments that its packings are few. */
static void add_few_segments(struct source *source, struct made_table *table, uint32_t dearest)
{
    for (unsigned left = (unsigned)draw(source, one_in(source, 4) ? 1 : 2, 4); left > 0;) {
        struct made_chain *chain = add_chain(table, 1000, 0, LATEST);
        unsigned segments = (unsigned)draw(source, 1, one_in(source, 2) ? 1 : left);
        chain->overload = true;
        chain->asynchronous = one_in(source, 2);
        fill_segments(source, chain, segments, dearest);
        left -= segments;
    }
}

/* A deadline for the first chain: what it needs without overload where the others come again, and some of the overload more.
   There demand may be above it for a combination whose window ends before they do; and where it is shorter, for the empty
   one. Within the latencies with and without overload. */
static void sieve_deadline(struct source *source, struct made_table *table, uint64_t needed, uint64_t overload)
{
    uint32_t high = latency_of(table, 0), low = latency_without_overload(table, 0);
    if (high == 0 || low == 0)
        return;
    uint64_t deadline = needed + draw(source, 0, overload / 4);
    if (one_in(source, 3))
        deadline = draw(source, low, one_in(source, 3) ? high : needed);
    table->chain[0].deadline = deadline < high ? (uint32_t)deadline : high - (high > 1);
}

/* Three activations of b, and another chain that comes again where the third's deadline would end by the distance as it is
   listed, or a little later; by all steps that ends later still. */
static struct made_table sieved_later(struct source *source)
{
    static const uint32_t costs[] = {4, 20, 1000};
    struct made_table table = {0};
    uint32_t dearest = pick(source, costs, 3);
    add_sieved(source, &table, dearest);
    add_returning(source, &table, dearest);
    add_few_segments(source, &table, dearest);
    struct made_chain *b = &table.chain[0], *other = &table.chain[1];
    uint64_t without_overload = 3 * cost_of(b) + cost_of(other), second = draw(source, 2, cost_of(b));
    uint64_t third = draw(source, second, 2 * second - 1), again = without_overload + draw(source, 1, 2 * dearest);
    b->listed = 3;
    b->distance[0] = (uint32_t)second;
    b->distance[1] = (uint32_t)third;
    b->distance[2] = 500 * dearest;
    b->gap = least_gap(b);
    b->deadline = (uint32_t)(again - third - draw(source, 0, 2 * second - third - 1));
    come_again(other, again, 500 * dearest);
    return table;
}

/* Others, and now and then b itself, come again at about the time at which b's window ends with some of the overload. */
static struct made_table sieved(struct source *source)
{
    if (one_in(source, 4))
        return sieved_later(source);
    static const uint32_t costs[] = {4, 20, 1000};
    struct made_table table = {0};
    uint32_t dearest = pick(source, costs, 3), far = 500 * dearest;
    unsigned others = one_in(source, 6) ? 0 : (unsigned)draw(source, 1, 2);
    add_sieved(source, &table, dearest);
    for (unsigned i = 0; i < others; i++)
        add_returning(source, &table, dearest);
    add_few_segments(source, &table, dearest);
    struct made_chain *b = &table.chain[0];
    b->distance[0] = far;
    if (one_in(source, 5))
        bring_together(source, b);
    uint64_t window = latency_without_overload(&table, 0), overload = latency_of(&table, 0) - window, needed = window;
    for (unsigned i = 1; i <= others; i++) {
        come_again(&table.chain[i], window + draw(source, overload / 3, overload), far);
        needed += table.chain[i].task[0].cost;
    }
    if (b->listed == 1 && (others == 0 || one_in(source, 6))) {
        come_again(b, window + draw(source, 0, overload), far);
        needed += b->task[0].cost;
    }
    b->gap = one_in(source, 4) ? LATEST : least_gap(b);
    sieve_deadline(source, &table, needed, overload);
    return table;
}

/* An overload chain of this cost that comes once in a window. */
static void add_rare(struct made_table *table, uint64_t cost)
{
    struct made_chain *rare = add_chain(table, 1000, 0, LATEST);
    rare->overload = true;
    split_cost(rare, 9, cost);
}

/* Two activations of b, of which the second's deadline lies past the horizon, where another chain comes again; both windows
   end before it. */
static struct made_table past_horizon(struct source *source)
{
    struct made_table table = {0};
    uint64_t cost = draw(source, 1, 900), between = draw(source, 2000, 5000);
    uint32_t deadline = LATEST - (uint32_t)draw(source, cost + 1, between - 1);
    struct made_chain *b = add_chain(&table, deadline, 0, LATEST);
    b->listed = 2;
    b->distance[0] = (uint32_t)between;
    b->distance[1] = LATEST;
    b->asynchronous = one_in(source, 2);
    split_cost(b, 4, cost);
    b->gap = one_in(source, 4) ? LATEST : least_gap(b);
    uint64_t other = one_in(source, 6) ? draw(source, 1, 4000) : draw(source, 3000000, 5200000);
    split_cost(add_chain(&table, 1000, 0, LATEST - (uint32_t)draw(source, 0, 1)), 6, other);
    uint64_t overload = deadline - cost - other + draw(source, 1, LATEST - deadline - cost);
    uint64_t part = draw(source, overload / 4, overload / 2);
    add_rare(&table, part);
    add_rare(&table, overload - part);
    return table;
}

/* ---- Chains that come millions of times in a window ---- */

/* So many distances up to this last one: the others are 0, all alike, or any. Or steps of which the best is as long as its
   part of the last; of eight mostly such that the sums settle late. */
static void fill_short_list(struct source *source, struct made_chain *chain, unsigned listed, uint32_t last)
{
    unsigned best = (unsigned)draw(source, 1, listed);
    if (listed == 8 && !one_in(source, 3)) {
        fill_settling_late(source, chain, last);
        return;
    }
    if (listed > 1 && one_in(source, 3)) {
        fill_steps(source, chain, listed, best, (last * best + listed - 1) / listed);
        return;
    }
    bool alike = one_in(source, 2);
    uint32_t each = one_in(source, 2) ? 0 : (uint32_t)draw(source, 0, last);
    chain->listed = listed;
    for (unsigned i = 0; i < listed; i++)
        chain->distance[i] = alike ? each : (uint32_t)draw(source, 0, last);
    chain->distance[listed - 1] = last;
    sort(chain->distance, listed);
}

/* The last of so many distances with which so many chains of cost 1 leave at least a tenth of the time. */
static uint32_t leaving_time(struct source *source, unsigned chains, unsigned listed)
{
    uint32_t low = chains * listed * 10 / 9 + 1;
    return low + (uint32_t)draw(source, 0, one_in(source, 2) ? 2 : 30);
}

/* A chain of one task of cost 1 that interferes freely. */
static struct made_chain *add_frequent(struct source *source, struct made_table *table, unsigned listed, uint32_t last)
{
    struct made_chain *chain = add_chain(table, (uint32_t)draw(source, 1, 1000), 0, last);
    add_task(chain, 7, 1);
    chain->asynchronous = one_in(source, 2);
    fill_short_list(source, chain, listed, last);
    return chain;
}

/* Defers a chain below a floor of 4; against a tail of 5 it has so many active segments, of cost 1. Its low tasks cost so
   much that its own second window is past the horizon. */
static void defer(struct made_chain *chain, unsigned segments)
{
    chain->tasks = 0;
    for (unsigned i = 0; i < segments; i++)
        add_task(chain, 4, 1);
    split_cost(chain, 1, LATEST * 8 / 10);
}

/* A dear chain with a floor of 4 and a tail of 5. Some of its activations may come together; now and then they are frequent
   too, and each brings a first part. */
static void add_dear(struct source *source, struct made_table *table)
{
    struct made_chain *b = add_chain(table, (uint32_t)draw(source, 1, LATEST), LATEST, LATEST);
    bool often = one_in(source, 6);
    unsigned listed = one_in(source, 2) ? 1 : (unsigned)draw(source, 1, 8);
    fill_short_list(source, b, listed, often && one_in(source, 2) ? 1 : leaving_time(source, 2, listed));
    b->asynchronous = often || one_in(source, 2);
    if (often)
        add_task(b, 6, 1);
    else
        b->distance[listed - 1] = LATEST;
    split_cost(b, 4, draw(source, 400000, 4000000) / listed);
    add_task(b, 5, 1);
}

/* A dear chain below others that leave it some of the time; or below one whose list ends in 1, 2 or 3, which mostly leaves
   none. No climb takes many steps: what lies below a load of about 1 is dear. */
static struct made_table frequent(struct source *source)
{
    struct made_table table = {0};
    bool dense = one_in(source, 4);
    unsigned others = (unsigned)draw(source, 1, 3);
    add_dear(source, &table);
    if (dense)
        add_frequent(source, &table, (unsigned)draw(source, 1, 8), (uint32_t)draw(source, 1, 3));
    for (unsigned i = dense; i < others; i++) {
        unsigned listed = (unsigned)draw(source, 1, 8), segments = one_in(source, 2) ? 7 : (unsigned)draw(source, 1, 6);
        bool deferred = dense || one_in(source, 2);
        uint32_t last = leaving_time(source, others * (deferred ? segments : 1), listed);
        struct made_chain *chain = add_frequent(source, &table, listed, last);
        if (deferred)
            defer(chain, segments);
        chain->overload = one_in(source, 3);
    }
    if (one_in(source, 2))
        add_rare(&table, draw(source, 1, 1000000));
    if (!one_in(source, 4))
        make_late(source, &table, 0);
    return table;
}

/* δ(n), up to the horizon: the least time after which so many have come. */
static uint64_t distance_of(const struct made_chain *chain, uint64_t n)
{
    uint64_t low = 0, high = LATEST;
    while (low < high) {
        uint64_t middle = low + (high - low) / 2;
        if (plain_arrivals(chain->distance, chain->listed, middle + 1) >= n)
            high = middle;
        else
            low = middle + 1;
    }
    return low;
}

/* One of the first activations, where the greatest sums have not settled; or one near any time, now and then the horizon. */
static uint64_t any_activation(struct source *source, const struct made_chain *chain)
{
    if (one_in(source, 2))
        return one_in(source, 3) ? draw(source, 2, 40) : draw(source, 41, 60);
    uint64_t about = one_in(source, 4) ? LATEST : draw(source, LATEST / 100, LATEST);
    return plain_arrivals(chain->distance, chain->listed, about) - draw(source, 0, chain->listed);
}

/* What some chains of cost 1 that come together leave of the time before an activation, or a tick more or less: with so much
   to do besides, a window ends there, and would not if one arrival more or less were counted. */
static uint64_t left_before(struct source *source, const struct made_chain *chain, unsigned chains)
{
    uint64_t at = distance_of(chain, any_activation(source, chain));
    uint64_t done = plain_arrivals(chain->distance, chain->listed, at) * chains;
    return (at > done + 1 ? at - done : 2) + draw(source, 0, 2) - 1;
}

/* A window that ends where other chains come. */
static struct made_table at_arrivals(struct source *source)
{
    struct made_table table = {0};
    unsigned others = (unsigned)draw(source, 1, 3), listed = one_in(source, 2) ? 8 : (unsigned)draw(source, 1, 8);
    struct made_chain *b = add_chain(&table, (uint32_t)draw(source, 1, LATEST), LATEST, LATEST);
    struct made_chain *other = add_frequent(source, &table, listed, leaving_time(source, others, listed));
    for (unsigned i = 1; i < others; i++)
        memcpy(add_frequent(source, &table, listed, 1)->distance, other->distance, sizeof other->distance);
    uint64_t left = left_before(source, other, others);
    uint64_t rare = left > 1 && one_in(source, 2) ? draw(source, 1, left / 2) : 0;
    b->asynchronous = one_in(source, 2);
    split_cost(b, 5, left - rare);
    if (rare > 0) {
        add_rare(&table, rare);
        make_late(source, &table, 0);
    }
    return table;
}

/* ---- Chains whose lists do not add up ---- */

/* The latency of the chain at a place by the rule of whole lists, or 0 where it is refused. */
static uint32_t latency_by_whole_lists(const struct made_table *table, unsigned place)
{
    plain_distances = BY_WHOLE_LISTS;
    uint32_t latency = latency_of(table, place);
    plain_distances = BY_ALL_STEPS;
    return latency;
}

/* Overload of one active segment to eight, rare or not. */
static void add_stepped_overload(struct source *source, struct made_table *table, uint32_t dearest, uint64_t window)
{
    unsigned left = (unsigned)(one_in(source, 3) ? draw(source, 7, 8) : draw(source, 1, 4));
    while (left > 0) {
        struct made_chain *chain = add_chain(table, 1000, 0, LATEST);
        unsigned segments = (unsigned)draw(source, 1, left);
        chain->overload = true;
        chain->asynchronous = one_in(source, 2);
        fill_segments(source, chain, segments, dearest);
        if (!one_in(source, 3))
            fill_stepped_list(source, chain, draw(source, window / 2, 3 * window));
        left -= segments;
    }
}

/* A deadline that the first chain meets, and would not meet by whole lists; or one that it misses with overload alone. */
static void stepped_deadline(struct source *source, struct made_table *table)
{
    uint32_t met = latency_of(table, 0), missed = latency_by_whole_lists(table, 0);
    if (met == 0 || missed <= met || one_in(source, 3))
        make_late(source, table, 0);
    else
        table->chain[0].deadline = least(draw(source, met, missed - 1), LATEST);
}

/* Whether the climbs to all windows take long, by either rule. */
static bool takes_long(const struct made_table *table)
{
    uint8_t bytes[MOST_GENERATED];
    size_t length = encode(table, bytes);
    plain_distances = BY_WHOLE_LISTS;
    bool by_whole_lists = plain_climbs_take(bytes, length, MOST_STEPS);
    plain_distances = BY_ALL_STEPS;
    return by_whole_lists || plain_climbs_take(bytes, length, MOST_STEPS);
}

/* A chain that works off slowly what has come together, beside others and below overload. By whole lists all of them come more
   often. */
static struct made_table any_stepped(struct source *source)
{
    static const uint32_t costs[] = {4, 20, 1000};
    struct made_table table = {0};
    uint32_t dearest = pick(source, costs, 3);
    unsigned others = (unsigned)draw(source, 0, 2);
    add_sieved(source, &table, dearest);
    for (unsigned i = 1; i <= others; i++) {
        add_returning(source, &table, dearest);
        fill_stepped_list(source, &table.chain[i], cost_of(&table.chain[i]) * draw(source, 2 + others, 8));
    }
    struct made_chain *b = &table.chain[0];
    fill_stepped_list(source, b, cost_of(b) * draw(source, 11 + 10 * others, 40) / 10);
    b->gap = one_in(source, 4) ? LATEST : least_gap(b);
    add_stepped_overload(source, &table, dearest, cost_of(b) * (2 + others) + 10 * dearest);
    stepped_deadline(source, &table);
    return table;
}

/* Mostly one whose latency is greater by whole lists. */
static struct made_table stepped(struct source *source)
{
    struct made_table table = any_stepped(source);
    while (takes_long(&table) || (latency_by_whole_lists(&table, 0) <= latency_of(&table, 0) && !one_in(source, 4)))
        table = any_stepped(source);
    return table;
}

/* ---- Damage ---- */

static void flip_bit(struct source *source, struct generated *table)
{
    table->bytes[draw(source, 0, table->length - 1)] ^= (uint8_t)(1u << draw(source, 0, 7));
    table->damage = "a bit flipped";
}

static void replace_byte(struct source *source, struct generated *table)
{
    table->bytes[draw(source, 0, table->length - 1)] = (uint8_t)draw(source, 0, 255);
    table->damage = "a byte replaced";
}

static void cut(struct source *source, struct generated *table)
{
    size_t most = table->length - 1;
    table->length = draw(source, one_in(source, 3) && most > 8 ? most - 8 : 0, most);
    table->damage = "cut";
}

/* How long a table may be, by its first mark. */
static size_t limit_of(const struct generated *table)
{
    bool largest = table->length >= 2 && get(table->bytes, 2) == MISHTODRAN_LARGEST_FORM;
    return largest ? MISHTODRAN_MOST_TABLE_BYTES : MISHTODRAN_MOST_GAP_TABLE_BYTES;
}

static void append(struct source *source, struct generated *table)
{
    size_t limit = limit_of(table);
    size_t count = one_in(source, 4) ? limit + 1 - least(table->length, limit) : draw(source, 1, 20);
    for (; count > 0 && table->length < MOST_GENERATED; count--)
        table->bytes[table->length++] = (uint8_t)(one_in(source, 2) ? 0 : draw(source, 0, 255));
    table->damage = "appended to";
}

/* Another first mark, and a length about one of the limits or between them: the mark decides which of them holds. */
static void mark_anew(struct source *source, struct generated *table)
{
    static const char *const marks[] = {"CH", "CG", "XX", "GC", "EN"};
    static const uint32_t lengths[] = {1, 2, 1284, 1285, 1500, 1748, 1749};
    uint32_t length = pick(source, lengths, 7);
    put_mark(table->bytes, marks[draw(source, 0, 4)]);
    while (table->length < length)
        table->bytes[table->length++] = 0;
    if (!one_in(source, 4))
        table->length = length;
    table->damage = "marked anew";
}

/* A field of a stored table: where it is, its width and its greatest value (0: a mark). */
struct field {
    size_t at;
    unsigned width;
    uint32_t most;
};

static struct field field_of_record(struct source *source, const uint8_t *bytes, size_t at)
{
    static const struct field of_task[] = {{0, 2, 0}, {2, 2, HIGHEST}, {4, 4, DEAREST}};
    static const struct field gap = {10, 4, LATEST}, flag = {10, 1, 1};
    struct parts parts = parts_of(bytes + at);
    const struct field fixed[] = {{0, 2, 0},
                                  {2, 2, HIGHEST},
                                  {4, 1, 1},
                                  {5, 1, 1},
                                  {6, 4, LATEST},
                                  parts.flagged ? flag : gap,
                                  {parts.list_length_at, 1, 8},
                                  {parts.task_count_at, 1, 16}};
    struct field found;
    switch (draw(source, 0, 2)) {
    case 0:
        found = fixed[draw(source, 0, 7)];
        break;
    case 1:
        found.at = parts.list_at + 4 * draw(source, 0, (parts.tasks_at - parts.list_at) / 4 - 1);
        found.width = 4;
        found.most = found.at < parts.largest_at ? LATEST : FARTHEST;
        break;
    default:
        found = of_task[draw(source, 0, 2)];
        found.at += parts.tasks_at + 8 * draw(source, 0, parts.tasks - 1);
    }
    found.at += at;
    return found;
}

/* Where a record of a table stands that was made without damage. */
static size_t record_at(const struct generated *table, unsigned place)
{
    size_t at = 0;
    for (unsigned i = 0; i < place; i++)
        at += parts_of(table->bytes + at).end;
    return at;
}

static struct field any_field(struct source *source, const struct generated *table, unsigned chains)
{
    unsigned place = (unsigned)draw(source, 0, chains);
    size_t at = record_at(table, place);
    if (place < chains)
        return field_of_record(source, table->bytes, at);
    return one_in(source, 2) ? (struct field){at, 2, 0} : (struct field){at + 2, 2, chains};
}

static void set_field(struct source *source, struct generated *table, struct field field)
{
    static const char *const marks[] = {"CH", "TK", "EN", "ch", "CG", "HC"};
    const uint32_t values[] = {0, 1, field.most - 1, field.most, field.most + 1, UINT32_MAX};
    if (field.most == 0)
        put_mark(table->bytes + field.at, marks[draw(source, 0, 5)]);
    else
        put(table->bytes + field.at, one_in(source, 4) ? draw(source, 0, field.most) : pick(source, values, 6), field.width);
    table->damage = "a field set";
}

/* Two of at least two chains bear one id. */
static void repeat_id(struct source *source, struct generated *table, unsigned chains)
{
    unsigned later = (unsigned)draw(source, 1, chains - 1), earlier = (unsigned)draw(source, 0, later - 1);
    memcpy(table->bytes + record_at(table, later) + 2, table->bytes + record_at(table, earlier) + 2, 2);
    table->damage = "an id repeated";
}

/* An end inside the fixed part of the 17th chain or just after it. */
static void cut_last_of_17(struct source *source, struct generated *table)
{
    table->length = record_at(table, 16) + draw(source, 1, 18);
    table->damage = "cut in the last chain";
}

static void damage(struct source *source, struct generated *table, unsigned chains)
{
    if (chains == 17 && one_in(source, 2)) {
        cut_last_of_17(source, table);
        return;
    }
    switch (draw(source, 0, 12)) {
    case 0:
        flip_bit(source, table);
        break;
    case 1:
        replace_byte(source, table);
        break;
    case 2:
    case 3:
        cut(source, table);
        break;
    case 4:
        append(source, table);
        break;
    case 5:
        if (chains > 1)
            repeat_id(source, table, chains);
        break;
    case 6: {
        struct field one = any_field(source, table, chains), other = any_field(source, table, chains);
        set_field(source, table, one);
        set_field(source, table, other);
        if (one_in(source, 3))
            cut(source, table);
        break;
    }
    case 7:
        mark_anew(source, table);
        break;
    default:
        set_field(source, table, any_field(source, table, chains));
    }
}

/* ---- Faults that are close together in the order of reading ---- */

/* Where a chain record stands, and one of its tasks. */
struct layout {
    unsigned place; /* of the chain in its table */
    size_t at, task;
    struct parts parts;
    unsigned tasks_before; /* of the chains before it */
};

static struct layout layout_of(struct source *source, const struct generated *table, unsigned place)
{
    struct layout found = {.place = place, .at = record_at(table, place)};
    for (unsigned i = 0; i < place; i++)
        found.tasks_before += parts_of(table->bytes + record_at(table, i)).tasks;
    found.parts = parts_of(table->bytes + found.at);
    found.task = found.at + found.parts.tasks_at;
    if (one_in(source, 2))
        found.task += 8 * draw(source, 0, found.parts.tasks - 1);
    return found;
}

/* What is looked at of a chain record, in this order: whether its parts are there, and their values. The gap is one of
   "CH", the flag one of "CG", and the largest distances go with flag 1. */
enum {
    MARK_THERE,
    MARK,
    FIXED_PART_THERE,
    ID,
    KIND,
    OVERLOAD,
    DEADLINE,
    GAP,
    LIST_LENGTH,
    TASK_COUNT,
    LIST_THERE,
    DISTANCES,
    LAST_DISTANCE,
    GAP_TOO_SMALL,
    FLAG,
    LARGEST_THERE,
    LARGEST,
    TASK_MARK_THERE,
    TASK_MARK,
    TASK_THERE,
    PRIORITY,
    COST,
    NEXT_THERE,
    NEXT_MARK,
    STEPS
};

static bool has_step(uint16_t form, uint8_t flag, unsigned step)
{
    if (step == GAP || step == GAP_TOO_SMALL)
        return form == MISHTODRAN_GAP_FORM;
    if (step == FLAG)
        return form == MISHTODRAN_LARGEST_FORM;
    return lists_of(form, flag) == 2 || (step != LARGEST_THERE && step != LARGEST);
}

/* Where a table must end for something not to be there; what is looked at before it still is. */
static size_t end_before(struct source *source, const struct layout *record, unsigned step)
{
    const struct parts *parts = &record->parts;
    switch (step) {
    case MARK_THERE:
        return record->at + draw(source, 0, 1);
    case FIXED_PART_THERE:
        return record->at + draw(source, 2, parts->list_at - 1);
    case LIST_THERE:
        return record->at + parts->list_at + draw(source, 0, 4 * parts->listed - 1);
    case LARGEST_THERE:
        return record->at + parts->largest_at + draw(source, 0, 4 * parts->listed - 1);
    case TASK_MARK_THERE:
        return record->task + draw(source, 0, 1);
    case TASK_THERE:
        return record->task + draw(source, 2, 7);
    default:
        return record->task + 8 + draw(source, 0, 1);
    }
}

/* 0, or that of a chain before. */
static uint32_t wrong_id(struct source *source, const struct generated *table, const struct layout *record)
{
    if (record->place == 0 || one_in(source, 2))
        return 0;
    return get(table->bytes + record_at(table, (unsigned)draw(source, 0, record->place - 1)) + 2, 2);
}

/* Too many with the tasks before where that can be, or wrong by itself. */
static uint8_t wrong_task_count(struct source *source, unsigned tasks_before)
{
    if (tasks_before > 48 && one_in(source, 2))
        return (uint8_t)draw(source, MOST_IN_ALL + 1 - tasks_before, 16);
    return (uint8_t)(one_in(source, 2) ? 0 : draw(source, 17, 255));
}

/* One distance above the limit, or below the one before it; now and then two of them. */
static void spoil_distances(struct source *source, uint32_t *list, unsigned listed)
{
    for (unsigned count = one_in(source, 3) ? 2 : 1; count > 0; count--) {
        unsigned place = (unsigned)draw(source, 0, listed - 1);
        if (place == 0 || one_in(source, 2)) {
            list[place] = one_in(source, 2) ? LATEST + 1 : UINT32_MAX;
            continue;
        }
        if (list[place - 1] == 0)
            list[place - 1] = 1;
        list[place] = one_in(source, 2) ? 0 : list[place - 1] - 1;
    }
}

/* A last distance of 0, after what stands before it or with all others. */
static void spoil_last_distance(struct source *source, uint32_t *list, unsigned listed)
{
    unsigned from = one_in(source, 2) ? 0 : listed - 1;
    memset(list + from, 0, (listed - from) * sizeof list[0]);
}

/* A list that the gap just allows, but for one distance; gives back the gap. */
static uint32_t exceed_gap(struct source *source, uint32_t *list, unsigned listed)
{
    uint32_t gap = (uint32_t)draw(source, 1, one_in(source, 2) ? 9 : LATEST / 9);
    unsigned place = (unsigned)draw(source, 0, listed - 1);
    for (unsigned i = 0; i < listed; i++)
        list[i] = gap * (i + 1) + (i == place);
    return gap;
}

/* A chain's gap, smallest distances and largest ones. */
struct lists {
    uint32_t *gap, *list, *largest;
    unsigned listed;
};

/* One largest distance above the limit, below the one before it, or below the smallest one for its count: where it can
   be, by one and for this reason alone. */
static void spoil_largest(struct source *source, const struct lists *lists)
{
    unsigned place = (unsigned)draw(source, 0, lists->listed - 1);
    uint32_t smallest = lists->list[place], *largest = lists->largest;
    bool below_smallest = smallest > 0 && one_in(source, 2);
    if (one_in(source, 3) || (place == 0 && !below_smallest)) {
        largest[place] = one_in(source, 2) ? FARTHEST + 1 : UINT32_MAX;
    } else if (below_smallest) {
        memcpy(largest, lists->list, place * sizeof largest[0]);
        largest[place] = smallest - 1;
    } else {
        if (largest[place - 1] <= smallest)
            largest[place - 1] = smallest + 1;
        largest[place] = largest[place - 1] - 1;
    }
}

/* Makes a list wrong in one of its steps; where its gap is too small, the gap is another. */
static void spoil_list(struct source *source, const struct lists *lists, unsigned step)
{
    switch (step) {
    case DISTANCES:
        spoil_distances(source, lists->list, lists->listed);
        break;
    case LAST_DISTANCE:
        spoil_last_distance(source, lists->list, lists->listed);
        break;
    case GAP_TOO_SMALL:
        *lists->gap = exceed_gap(source, lists->list, lists->listed);
        break;
    default:
        for (unsigned count = one_in(source, 3) ? 2 : 1; count > 0; count--)
            spoil_largest(source, lists);
    }
}

/* The mark after a task, or the count after the last one. */
static void spoil_next(struct source *source, uint8_t *mark)
{
    if (mark[0] == 'E' && one_in(source, 2))
        put(mark + 2, 0, 2);
    else
        put_mark(mark, "XX");
}

static void spoil_fixed_part(struct source *source, struct generated *table, const struct layout *record, unsigned step)
{
    uint8_t *bytes = table->bytes + record->at;
    switch (step) {
    case ID:
        put(bytes + 2, wrong_id(source, table, record), 2);
        break;
    case KIND:
        bytes[4] = (uint8_t)draw(source, 2, 255);
        break;
    case OVERLOAD:
        bytes[5] = (uint8_t)draw(source, 2, 255);
        break;
    case DEADLINE:
        put(bytes + 6, one_in(source, 2) ? 0 : LATEST + 1, 4);
        break;
    case GAP:
        put(bytes + 10, LATEST + 1, 4);
        break;
    case FLAG:
        bytes[10] = (uint8_t)draw(source, 2, one_in(source, 2) ? 2 : 255);
        break;
    case LIST_LENGTH:
        bytes[record->parts.list_length_at] = (uint8_t)(one_in(source, 2) ? 0 : draw(source, 9, 255));
        break;
    default:
        bytes[record->parts.task_count_at] = wrong_task_count(source, record->tasks_before);
    }
}

static void get_list(const uint8_t *stored, uint32_t *list, unsigned listed)
{
    for (unsigned i = 0; i < listed; i++)
        list[i] = get(stored + 4 * i, 4);
}

static void spoil_stored_list(struct source *source, struct generated *table, const struct layout *record,
                              unsigned step)
{
    const struct parts *parts = &record->parts;
    uint8_t *stored = table->bytes + record->at;
    uint32_t gap = get(stored + 10, 4), list[8], largest[8];
    get_list(stored + parts->list_at, list, parts->listed);
    get_list(stored + parts->largest_at, largest, parts->listed);
    spoil_list(source, &(struct lists){&gap, list, largest, parts->listed}, step);
    put_list(stored + parts->list_at, list, parts->listed);
    if (step == GAP_TOO_SMALL)
        put(stored + 10, gap, 4);
    if (step == LARGEST)
        put_list(stored + parts->largest_at, largest, parts->listed);
}

static void spoil_task(struct source *source, uint8_t *task, unsigned step)
{
    static const char *const marks[] = {"CH", "CG", "EN", "XK", "TX"};
    switch (step) {
    case TASK_MARK:
        put_mark(task, marks[draw(source, 0, 4)]);
        break;
    case PRIORITY:
        put(task + 2, 0, 2);
        break;
    case COST:
        put(task + 4, one_in(source, 2) ? 0 : DEAREST + 1, 4);
        break;
    default:
        spoil_next(source, task + 8);
    }
}

/* Makes the value wrong that is looked at in this step. */
static void spoil_value(struct source *source, struct generated *table, const struct layout *record, unsigned step)
{
    const char *const marks[] = {"TK", "XX", "Ch", "cG", record->parts.flagged ? "CH" : "CG"};
    if (step == MARK)
        put_mark(table->bytes + record->at, marks[draw(source, 0, 4)]);
    else if (step < LIST_THERE || step == FLAG)
        spoil_fixed_part(source, table, record, step);
    else if (step < TASK_MARK_THERE)
        spoil_stored_list(source, table, record, step);
    else
        spoil_task(source, table->bytes + record->task, step);
}

static void spoil(struct source *source, struct generated *table, const struct layout *record, unsigned step)
{
    static const bool there[STEPS] = {[MARK_THERE] = true,    [FIXED_PART_THERE] = true, [LIST_THERE] = true,
                                      [LARGEST_THERE] = true, [TASK_MARK_THERE] = true,  [TASK_THERE] = true,
                                      [NEXT_THERE] = true};
    if (there[step])
        table->length = end_before(source, record, step);
    else
        spoil_value(source, table, record, step);
}

/* An end record after all chains or before the first, its count right, wrong, or wrong in its second byte. The table
   ends before it, in its mark or its count, with it, or later. */
static void spoil_end(struct source *source, struct generated *table, unsigned chains)
{
    static const uint8_t chain_0[] = {'C', 'H', 0, 0};
    if (one_in(source, 3))
        chains = 0;
    const uint32_t counts[] = {chains, chains, (uint32_t)draw(source, 0, 17), chains + 256};
    uint8_t *end = table->bytes + record_at(table, chains);
    uint8_t *after = put(put_mark(end, "EN"), pick(source, counts, 4), 2);
    memcpy(after, one_in(source, 2) ? chain_0 : (const uint8_t *)"XXXX", 4);
    table->length = (size_t)(end - table->bytes) + draw(source, 0, 8);
}

static unsigned listed_at(const struct generated *table, unsigned place)
{
    return parts_of(table->bytes + record_at(table, place)).listed;
}

/* The first chain that lists most distances. */
static unsigned longest_list(const struct generated *table, unsigned chains)
{
    unsigned found = 0;
    for (unsigned i = 1; i < chains; i++)
        if (listed_at(table, i) > listed_at(table, found))
            found = i;
    return found;
}

/* The first four steps from `first` on that go with a form and a flag, or fewer where there are no more; how many. */
static unsigned next_steps(uint16_t form, uint8_t flag, unsigned first, unsigned steps[4])
{
    unsigned count = 0;
    for (unsigned step = first; step < STEPS && count < 4; step++)
        if (has_step(form, flag, step))
            steps[count++] = step;
    return count;
}

/* A fault of a chain in this step or the next one that it has, and in some of the three after that; now and then the
   next chain's id is wrong too. */
static void spoil_chain(struct source *source, struct generated *table, unsigned chains, unsigned place, unsigned first)
{
    struct layout record = layout_of(source, table, place);
    const uint8_t *bytes = table->bytes + record.at;
    unsigned steps[4], count = next_steps((uint16_t)get(bytes, 2), bytes[10], first, steps);
    if (place + 1 < chains && one_in(source, 5))
        put(table->bytes + record_at(table, place + 1) + 2, 0, 2);
    for (unsigned i = count - 1; i > 0; i--)
        if (one_in(source, 2))
            spoil(source, table, &record, steps[i]);
    spoil(source, table, &record, steps[0]);
}

/* Of 17 chains only where the last begins; now and then the table is too long as well. */
void spoil_together(struct source *source, struct generated *table, unsigned chains)
{
    unsigned place = (unsigned)draw(source, 0, chains);
    if (chains == 17)
        spoil_chain(source, table, chains, 16, (unsigned)draw(source, 0, FIXED_PART_THERE));
    else if (place == chains)
        spoil_end(source, table, chains);
    else if (one_in(source, 3))
        spoil_chain(source, table, chains, longest_list(table, chains),
                    (unsigned)draw(source, LIST_THERE, LARGEST));
    else
        spoil_chain(source, table, chains, place, (unsigned)draw(source, 0, STEPS - 1));
    if (one_in(source, 12))
        for (size_t limit = limit_of(table); table->length <= limit;)
            table->bytes[table->length++] = 0;
    table->damage = "faults close together";
}

/* ---- Any table ---- */

static struct made_table documented(struct source *source)
{
    switch (draw(source, 0, 2)) {
    case 0:
        return sample_table();
    case 1:
        return case_study();
    default:
        return horizon_edge();
    }
}

static struct made_table some_light(struct source *source)
{
    return light_table(source, (unsigned)draw(source, 1, one_in(source, 3) ? 16 : 6));
}

static struct made_table some_stepped(struct source *source)
{
    return stepped_table(source, (unsigned)draw(source, 1, one_in(source, 3) ? 16 : 6));
}

static struct made_table some_packing(struct source *source)
{
    return packing_table(source, one_in(source, 2) ? 6 : (unsigned)draw(source, 1, 7));
}

struct family {
    const char *name;
    unsigned share; /* of a hundred tables */
    struct made_table (*make)(struct source *source);
};

static const struct family families[] = {
    {"of the documents", 2, documented}, {"light", 7, some_light},
    {"full", 6, full_table},             {"heavy", 4, heavy_table},
    {"close to one", 4, close_to_one},   {"backlog", 6, backlog},
    {"horizon", 5, horizon},             {"exact horizon", 3, exact_horizon},
    {"limits", 5, at_limits},            {"wrong count", 7, wrong_count},
    {"packing", 8, some_packing},        {"refused misses", 5, refused_misses},
    {"sieved", 10, sieved},              {"past the horizon", 2, past_horizon},
    {"frequent", 6, frequent},           {"at arrivals", 6, at_arrivals},
    {"light, stepped", 4, some_stepped}, {"stepped", 10, stepped},
};

static const struct family *any_family(struct source *source)
{
    const struct family *family = families;
    for (uint64_t turn = draw(source, 1, 100); turn > family->share; family++)
        turn -= family->share;
    return family;
}

static struct generated stored(const struct made_table *table, const char *family)
{
    struct generated found = {.family = family, .damage = ""};
    found.length = encode(table, found.bytes);
    return found;
}

struct generated generate(struct source *source)
{
    const struct family *family = any_family(source);
    struct made_table table = family->make(source);
    if (table.chains > 0 && one_in(source, 2))
        list_largest(source, &table);
    if (table.chains > 0 && one_in(source, table.chains < 16 ? 30 : 3))
        mix_forms(source, &table);
    struct generated found = stored(&table, family->name);
    if (one_in(source, table.chains == 17 ? 2 : 4)) {
        spoil_together(source, &found, table.chains);
    } else if (one_in(source, 3)) {
        damage(source, &found, table.chains);
        if (plain_climbs_take(found.bytes, found.length, MOST_STEPS))
            cut(source, &found);
    }
    return found;
}

/* ---- Tables to be merged ---- */

/* What a table has of an id: nothing, the chain as it was made, a change of it, or a change of that. */
enum { MISSING, MADE, CHANGED, CHANGED_AGAIN, VERSIONS };

/* What becomes of an id. The last four are conflicts. */
enum {
    KEPT,
    CHANGED_IN_FIRST,
    CHANGED_IN_SECOND,
    CHANGED_ALIKE,
    REMOVED_IN_FIRST,
    REMOVED_IN_SECOND,
    REMOVED_IN_BOTH,
    ADDED_IN_FIRST,
    ADDED_IN_SECOND,
    ADDED_ALIKE,
    CHANGED_APART,
    REMOVED_AND_CHANGED,
    CHANGED_AND_REMOVED,
    ADDED_APART,
    FATES
};

/* What the ancestor, the first copy and the second have of it then. */
static const uint8_t versions[FATES][3] = {
    [KEPT] = {MADE, MADE, MADE},
    [CHANGED_IN_FIRST] = {MADE, CHANGED, MADE},
    [CHANGED_IN_SECOND] = {MADE, MADE, CHANGED},
    [CHANGED_ALIKE] = {MADE, CHANGED, CHANGED},
    [REMOVED_IN_FIRST] = {MADE, MISSING, MADE},
    [REMOVED_IN_SECOND] = {MADE, MADE, MISSING},
    [REMOVED_IN_BOTH] = {MADE, MISSING, MISSING},
    [ADDED_IN_FIRST] = {MISSING, MADE, MISSING},
    [ADDED_IN_SECOND] = {MISSING, MISSING, MADE},
    [ADDED_ALIKE] = {MISSING, MADE, MADE},
    [CHANGED_APART] = {MADE, CHANGED, CHANGED_AGAIN},
    [REMOVED_AND_CHANGED] = {MADE, MISSING, CHANGED},
    [CHANGED_AND_REMOVED] = {MADE, CHANGED, MISSING},
    [ADDED_APART] = {MISSING, MADE, CHANGED},
};

/* Fates as a set of bits. */
enum {
    BY_FIRST = 1 << KEPT | 1 << CHANGED_IN_FIRST | 1 << REMOVED_IN_FIRST | 1 << ADDED_IN_FIRST,
    BY_SECOND = 1 << KEPT | 1 << CHANGED_IN_SECOND | 1 << REMOVED_IN_SECOND | 1 << ADDED_IN_SECOND,
    BY_BOTH = BY_FIRST | BY_SECOND | 1 << CHANGED_ALIKE | 1 << REMOVED_IN_BOTH | 1 << ADDED_ALIKE,
    ADDING = 1 << CHANGED_IN_FIRST | 1 << CHANGED_IN_SECOND | 1 << ADDED_IN_FIRST | 1 << ADDED_IN_SECOND,
    REMOVING = 1 << REMOVED_IN_FIRST | 1 << REMOVED_IN_SECOND | 1 << REMOVED_IN_BOTH,
    KEPT_OR_ADDED = 1 << KEPT | 1 << ADDED_IN_FIRST | 1 << ADDED_IN_SECOND,
    ALIKE = KEPT_OR_ADDED | 1 << CHANGED_ALIKE | 1 << REMOVED_IN_BOTH | 1 << ADDED_ALIKE,
    IN_CONFLICT = 1 << CHANGED_APART | 1 << REMOVED_AND_CHANGED | 1 << CHANGED_AND_REMOVED | 1 << ADDED_APART
};

struct range {
    unsigned low, high;
};

static unsigned draw_from(struct source *source, struct range range)
{
    return (unsigned)draw(source, range.low, range.high);
}

/* The copies that have another form than the ancestor, as a set of bits; and not said. */
enum { NEITHER, FIRST_COPY, SECOND_COPY, BOTH_COPIES, ANY_COPIES };

/* Which copies were converted, what may become of the chains, how many there are, and how many tasks and distances each
   has. To be converted is to be changed: beside a copy that is, most of what the other does is in conflict. */
struct story {
    const char *name;
    unsigned share; /* of a hundred triples */
    unsigned converted, fates;
    struct range chains, tasks, listed;
};

/* The seven from "many chains" on make results around the limits: 16 chains, 64 tasks, and as many bytes as the first
   mark allows; the last two make results of both forms. */
static const struct story stories[] = {
    {"nothing edited", 3, ANY_COPIES, 1 << KEPT, {1, 16}, {1, 4}, {1, 8}},
    {"first copy edited", 5, NEITHER, BY_FIRST, {1, 16}, {1, 4}, {1, 8}},
    {"second copy edited", 5, NEITHER, BY_SECOND, {1, 16}, {1, 4}, {1, 8}},
    {"both copies edited", 15, NEITHER, BY_BOTH, {2, 16}, {1, 4}, {1, 8}},
    {"few long chains edited", 6, NEITHER, BY_BOTH, {1, 5}, {1, 16}, {1, 8}},
    {"conflicts", 11, NEITHER, BY_BOTH | IN_CONFLICT, {1, 16}, {1, 4}, {1, 8}},
    {"conflicts alone", 4, ANY_COPIES, IN_CONFLICT, {2, 8}, {1, 8}, {1, 8}},
    {"all removed", 6, ANY_COPIES, REMOVING, {2, 8}, {1, 8}, {1, 8}},
    {"first copy converted", 4, FIRST_COPY, BY_FIRST, {1, 16}, {1, 4}, {1, 8}},
    {"second copy converted", 4, SECOND_COPY, BY_SECOND, {1, 16}, {1, 4}, {1, 8}},
    {"both copies converted", 4, BOTH_COPIES, ALIKE, {1, 16}, {1, 4}, {1, 8}},
    {"many chains", 6, NEITHER, ADDING, {16, 24}, {1, 3}, {1, 8}},
    {"many tasks", 6, NEITHER, ADDING, {5, 12}, {6, 16}, {1, 8}},
    {"many chains and tasks", 7, NEITHER, ADDING, {17, 19}, {3, 5}, {1, 4}},
    {"full records", 4, NEITHER, ADDING, {15, 17}, {3, 5}, {8, 8}},
    {"full records of few tasks", 4, NEITHER, ADDING, {16, 18}, {3, 4}, {8, 8}},
    {"additions of another form", 4, ANY_COPIES, KEPT_OR_ADDED, {2, 16}, {1, 4}, {1, 8}},
    {"full additions of another form", 2, ANY_COPIES, KEPT_OR_ADDED, {16, 28}, {3, 4}, {8, 8}},
};

static const struct story *any_story(struct source *source)
{
    const struct story *story = stories;
    for (uint64_t turn = draw(source, 1, 100); turn > story->share; story++)
        turn -= story->share;
    return story;
}

/* One of these fates; half of the chains or more are kept where that is one of them. */
static unsigned any_fate(struct source *source, unsigned fates)
{
    unsigned fate;
    if (fates >> KEPT & 1 && one_in(source, 2))
        return KEPT;
    do
        fate = (unsigned)draw(source, 0, FATES - 1);
    while (!(fates >> fate & 1));
    return fate;
}

/* Ids in no order; or small ones, up or down; or from the greatest on, up or down; or alike but for the second byte. */
static struct ids any_ids(struct source *source)
{
    static const struct ids close[] = {
        {0, 1}, {25, HIGHEST - 1}, {HIGHEST - 3, 1}, {HIGHEST - 1, HIGHEST - 1}, {6, 256}};
    return one_in(source, 2) ? mixed_ids(source) : close[draw(source, 0, 4)];
}

/* Any values that are allowed: a merge works no figures out. Where all lists are as long as they may be, the gap is
   known, so that the records are as long as they may be in either form. */
static struct made_chain any_chain(struct source *source, uint32_t id, struct range tasks, struct range listed)
{
    struct made_chain chain = {.form = MISHTODRAN_GAP_FORM, .id = id, .listed = draw_from(source, listed)};
    uint32_t latest = one_in(source, 2) ? 300 : LATEST;
    chain.asynchronous = one_in(source, 2);
    chain.overload = one_in(source, 2);
    chain.deadline = (uint32_t)draw(source, 1, latest);
    for (unsigned i = 0; i < chain.listed; i++)
        chain.distance[i] = (uint32_t)draw(source, 1, latest);
    sort(chain.distance, chain.listed);
    if (chain.listed > 1 && one_in(source, 4))
        chain.distance[0] = 0;
    fill_gap(source, &chain);
    if (listed.low == 8 && chain.gap == 0)
        chain.gap = least_gap(&chain);
    fill_tasks(source, &chain, draw_from(source, tasks), HIGHEST, DEAREST);
    return chain;
}

/* Another number from 1 to `most`, by one byte where that can be. */
static uint32_t another(struct source *source, uint32_t value, uint32_t most)
{
    unsigned place = (unsigned)draw(source, 0, 3);
    uint32_t other = value ^ (uint32_t)draw(source, 1, 255) << 8 * place;
    if (other >= 1 && other <= most)
        return other;
    other = (uint32_t)draw(source, 1, most - 1);
    return other < value ? other : other + 1;
}

/* One distance more, one less, or another one; where the gap or a largest distance is too small then, a larger one. */
static void change_list(struct source *source, struct made_chain *chain)
{
    unsigned last = chain->listed - 1;
    if (last < 7 && one_in(source, 2)) {
        chain->distance[last + 1] = (uint32_t)draw(source, chain->distance[last], LATEST);
        chain->listed++;
    } else if (last > 0 && one_in(source, 2)) {
        memmove(chain->distance, chain->distance + 1, last * sizeof chain->distance[0]);
        chain->listed--;
    } else {
        uint32_t *distance = &chain->distance[draw(source, 0, last)];
        *distance = another(source, *distance, LATEST);
        sort(chain->distance, chain->listed);
    }
    if (chain->gap > 0 && chain->gap < least_gap(chain))
        chain->gap = least_gap(chain);
    allow_largest(chain);
}

/* The flag, or with flag 1 a largest distance that is not the greatest. */
static void change_largest(struct source *source, struct made_chain *chain)
{
    unsigned place = (unsigned)draw(source, 0, chain->listed - 1);
    uint32_t *largest = &chain->largest[place];
    if (chain->flag == 1 && *largest < FARTHEST)
        *largest = (uint32_t)draw(source, *largest + 1, FARTHEST);
    else
        chain->flag = !chain->flag;
    allow_largest(chain);
}

static void change_gap(struct source *source, struct made_chain *chain)
{
    uint32_t low = least_gap(chain);
    if (chain->gap == LATEST)
        chain->gap = 0;
    else
        chain->gap = (uint32_t)draw(source, chain->gap < low ? low : chain->gap + 1, LATEST);
}

/* One task less or more. */
static void change_task_count(struct source *source, struct made_chain *chain)
{
    if (chain->tasks == 16 || (chain->tasks > 1 && one_in(source, 2)))
        chain->tasks--;
    else
        fill_tasks(source, chain, 1, HIGHEST, DEAREST);
}

/* The same chain with one thing changed. */
static struct made_chain changed(struct source *source, struct made_chain chain)
{
    struct made_task *task = &chain.task[draw(source, 0, chain.tasks - 1)];
    switch (draw(source, 0, 9)) {
    case 0:
        chain.asynchronous = !chain.asynchronous;
        break;
    case 1:
        chain.overload = !chain.overload;
        break;
    case 2:
    case 3:
        chain.deadline = another(source, chain.deadline, LATEST);
        break;
    case 4:
        if (chain.form == MISHTODRAN_LARGEST_FORM)
            change_largest(source, &chain);
        else
            change_gap(source, &chain);
        break;
    case 5:
        change_list(source, &chain);
        break;
    case 6:
        change_task_count(source, &chain);
        break;
    case 7:
        task->priority = another(source, task->priority, HIGHEST);
        break;
    default:
        task->cost = another(source, task->cost, DEAREST);
    }
    return chain;
}

/* Whether a table stays within its limits with this chain too. */
static bool has_room(const struct made_table *table, const struct made_chain *chain)
{
    unsigned tasks = chain->tasks;
    for (unsigned i = 0; i < table->chains; i++)
        tasks += table->chain[i].tasks;
    return table->chains < 16 && tasks <= MOST_IN_ALL;
}

static bool all_have_room(const struct made_table tables[3], const struct made_chain version[VERSIONS], unsigned fate)
{
    for (unsigned i = 0; i < 3; i++)
        if (versions[fate][i] != MISSING && !has_room(&tables[i], &version[versions[fate][i]]))
            return false;
    return true;
}

/* Whether two of the tables have the same of an id. */
static bool alike(const uint16_t forms[3], unsigned fate, unsigned one, unsigned other)
{
    const uint8_t *of = versions[fate];
    return of[one] == of[other] && (of[one] == MISSING || forms[one] == forms[other]);
}

/* Gives each table what it has of this chain, in its form, unless one of them is full; the bytes that a merge has of it
   then. Where the tables differ in form, the chain has a gap. */
static size_t add_fated(struct source *source, struct made_table tables[3], const uint16_t forms[3],
                        const struct made_chain *chain, unsigned fate)
{
    struct made_chain version[VERSIONS] = {[MADE] = *chain, [CHANGED] = changed(source, *chain)};
    version[CHANGED_AGAIN] = changed(source, version[CHANGED]);
    unsigned merged = alike(forms, fate, 0, 1) ? 2 : 1;
    uint8_t record[MISHTODRAN_MOST_CHAIN_RECORD_BYTES];
    size_t length = 0;
    if (!all_have_room(tables, version, fate))
        return 0;
    for (unsigned i = 0; i < 3; i++) {
        if (versions[fate][i] == MISSING)
            continue;
        struct made_chain *added = &tables[i].chain[tables[i].chains++];
        *added = version[versions[fate][i]];
        if (added->form != forms[i])
            list_gap(added);
        if (i == merged)
            length = (size_t)(put_chain(record, added) - record);
    }
    return length;
}

/* Exchanges records of a copy: none, two of them, or many. */
static void move_records(struct source *source, struct made_table *table)
{
    unsigned moves = one_in(source, 2) ? 0 : one_in(source, 2) ? 1 : table->chains;
    for (; moves > 0 && table->chains > 1; moves--) {
        struct made_chain *one = &table->chain[draw(source, 0, table->chains - 1)];
        struct made_chain *other = &table->chain[draw(source, 0, table->chains - 1)];
        struct made_chain moved = *one;
        *one = *other;
        *other = moved;
    }
}

/* No room for a result of this length, too little, just enough, or more. */
static size_t any_room(struct source *source, size_t length)
{
    switch (draw(source, 0, 5)) {
    case 0:
        return 0;
    case 1:
        return draw(source, 0, length - 1);
    case 2:
        return length - 1;
    case 3:
        return length + draw(source, 1, 64);
    default:
        return length;
    }
}

/* The forms of the three tables; whether all are "CG". */
static bool any_forms(struct source *source, unsigned converted, uint16_t forms[3])
{
    static const unsigned copy[] = {0, FIRST_COPY, SECOND_COPY};
    bool largest = one_in(source, 2);
    if (converted == ANY_COPIES)
        converted = (unsigned)draw(source, NEITHER, BOTH_COPIES);
    for (unsigned i = 0; i < 3; i++) {
        bool as_ancestor = (converted & copy[i]) == 0;
        forms[i] = largest == as_ancestor ? MISHTODRAN_LARGEST_FORM : MISHTODRAN_GAP_FORM;
    }
    return largest && converted == NEITHER;
}

/* Tables of a story; now and then the last chain is in conflict whatever the story. */
struct triple generate_triple(struct source *source)
{
    const struct story *story = any_story(source);
    struct made_table tables[3] = {0};
    uint16_t forms[3];
    bool all_largest = any_forms(source, story->converted, forms);
    struct ids ids = any_ids(source);
    unsigned chains = draw_from(source, story->chains);
    size_t length = 4; /* of the merge */
    for (unsigned i = 0; i < chains; i++) {
        struct made_chain chain = any_chain(source, id_at(ids, i), story->tasks, story->listed);
        if (all_largest)
            any_largest(source, &chain);
        unsigned fates = i + 1 == chains && one_in(source, 8) ? IN_CONFLICT : story->fates;
        length += add_fated(source, tables, forms, &chain, any_fate(source, fates));
    }
    struct triple found = {.table = {stored(&tables[0], story->name)}, .room = any_room(source, length)};
    for (unsigned i = 1; i < 3; i++) {
        move_records(source, &tables[i]);
        found.table[i] = stored(&tables[i], story->name);
    }
    return found;
}

void spoil_triple(struct source *source, struct triple *triple)
{
    unsigned some = (unsigned)draw(source, 1, 7);
    for (unsigned i = 0; i < 3; i++) {
        struct generated *table = &triple->table[i];
        if (some >> i & 1)
            spoil_together(source, table, get(table->bytes + table->length - 2, 2));
    }
}

/* ---- Rows to be written ---- */

bool same_rows(const struct mishtodran_row *one, const struct mishtodran_row *other, size_t count)
{
    for (; count > 0; count--, one++, other++)
        if (one->form != other->form || one->id != other->id || one->kind != other->kind ||
            one->overload != other->overload || one->flag != other->flag || one->deadline != other->deadline ||
            one->gap != other->gap || one->listed != other->listed || one->tasks != other->tasks ||
            memcmp(one->list, other->list, sizeof one->list) != 0 ||
            memcmp(one->largest, other->largest, sizeof one->largest) != 0 ||
            memcmp(one->priority, other->priority, sizeof one->priority) != 0 ||
            memcmp(one->cost, other->cost, sizeof one->cost) != 0)
            return false;
    return true;
}

struct mishtodran_row without_rest(struct mishtodran_row row)
{
    if (row.form == MISHTODRAN_LARGEST_FORM)
        row.gap = 0;
    else
        row.flag = 0;
    for (uint64_t i = 0; i < 8; i++) {
        if (i >= row.listed)
            row.list[i] = 0;
        if (i >= row.listed || row.flag == 0)
            row.largest[i] = 0;
    }
    for (uint64_t i = row.tasks; i < 16; i++) {
        row.priority[i] = 0;
        row.cost[i] = 0;
    }
    return row;
}

/* How many rows there are, and how many tasks and distances each has. */
struct batch {
    const char *name;
    unsigned share; /* of a hundred */
    struct range rows, tasks, listed;
};

/* Full rows make a table of 1,284 bytes or of 1,748. The last two may be over 64 tasks before the 17th row. */
static const struct batch batches[] = {
    {"no row", 2, {0, 0}, {1, 1}, {1, 1}},
    {"few rows", 28, {1, 4}, {1, 16}, {1, 8}},
    {"some rows", 30, {1, 16}, {1, 4}, {1, 8}},
    {"full rows", 10, {16, 16}, {4, 4}, {8, 8}},
    {"one row too many", 6, {17, 17}, {1, 4}, {1, 8}},
    {"many tasks", 12, {4, 6}, {12, 16}, {1, 8}},
    {"many rows", 12, {16, MOST_ROWS}, {1, 5}, {1, 8}},
};

static const struct batch *any_batch(struct source *source)
{
    const struct batch *batch = batches;
    for (uint64_t turn = draw(source, 1, 100); turn > batch->share; batch++)
        turn -= batch->share;
    return batch;
}

/* The least or the greatest deadline, priority, cost and list that are allowed. */
static void reach_limits(struct source *source, struct made_chain *chain)
{
    struct made_task *task = &chain->task[draw(source, 0, chain->tasks - 1)];
    bool longest = one_in(source, 2);
    chain->deadline = one_in(source, 2) ? 1 : LATEST;
    task->priority = one_in(source, 2) ? 1 : HIGHEST;
    task->cost = one_in(source, 2) ? 1 : DEAREST;
    for (unsigned i = 0; i < chain->listed; i++)
        chain->distance[i] = longest ? LATEST : 0;
    if (!longest)
        chain->distance[chain->listed - 1] = 1;
    chain->gap = one_in(source, 2) ? least_gap(chain) : one_in(source, 2) ? LATEST : 0;
}

/* The row of a chain. In the places that do not count stands 0, as after a read, or something else. */
static struct mishtodran_row row_of(struct source *source, const struct made_chain *chain)
{
    const uint32_t rests[] = {0, 1, UINT32_MAX, (uint32_t)draw(source, 0, UINT32_MAX)};
    const uint32_t rest = pick(source, rests, 4);
    const bool flagged = chain->form == MISHTODRAN_LARGEST_FORM;
    const unsigned largest = lists_of(chain->form, chain->flag) == 2 ? chain->listed : 0;
    struct mishtodran_row row = {.form = chain->form,
                                 .id = (uint16_t)chain->id,
                                 .kind = chain->asynchronous,
                                 .overload = chain->overload,
                                 .flag = flagged ? chain->flag : (uint8_t)rest,
                                 .deadline = chain->deadline,
                                 .gap = flagged ? rest : chain->gap,
                                 .listed = chain->listed,
                                 .tasks = chain->tasks};
    for (unsigned i = 0; i < 8; i++) {
        row.list[i] = i < chain->listed ? chain->distance[i] : rest;
        row.largest[i] = i < largest ? chain->largest[i] : rest;
    }
    for (unsigned i = 0; i < 16; i++) {
        row.priority[i] = (uint16_t)(i < chain->tasks ? chain->task[i].priority : rest);
        row.cost[i] = i < chain->tasks ? chain->task[i].cost : rest;
    }
    return row;
}

/* A count that is not 1 to `most`: close by, or any up to 64 bits, with the right one in its lowest bits or without. */
static uint64_t count_outside(struct source *source, uint64_t count, uint64_t most)
{
    static const unsigned widths[] = {8, 16, 31, 32, 63};
    const uint64_t values[] = {0,
                               most + 1,
                               draw(source, most + 1, 254),
                               255,
                               256,
                               (1ull << 32) + 1,
                               UINT64_MAX,
                               count + (1ull << widths[draw(source, 0, 4)])};
    return values[draw(source, 0, 7)];
}

static uint64_t wrong_tasks(struct source *source, const struct made_rows *made, unsigned place)
{
    uint64_t before = 0;
    for (unsigned i = 0; i < place; i++)
        before += made->row[i].tasks;
    if (before > 48 && before <= MOST_IN_ALL && one_in(source, 2))
        return draw(source, MOST_IN_ALL + 1 - before, 16);
    return count_outside(source, made->row[place].tasks, 16);
}

/* Another form than the row has: the other one, or neither, such as the marks of a task and of the end, and those of a
   chain the other way round. */
static uint16_t wrong_form(struct source *source, uint16_t form)
{
    const uint32_t neither[] = {0, 1, 0x4B54, 0x4E45, 0x4348, 0x4347, form ^ 1u << draw(source, 0, 15)};
    if (one_in(source, 2))
        return form == MISHTODRAN_GAP_FORM ? MISHTODRAN_LARGEST_FORM : MISHTODRAN_GAP_FORM;
    return (uint16_t)pick(source, neither, 7);
}

static void spoil_row_fields(struct source *source, struct made_rows *made, unsigned place, unsigned step)
{
    static const uint32_t deadlines[] = {0, LATEST + 1, UINT32_MAX};
    struct mishtodran_row *row = &made->row[place];
    switch (step) {
    case MARK:
        row->form = wrong_form(source, row->form);
        break;
    case FLAG:
        row->flag = (uint8_t)draw(source, 2, one_in(source, 2) ? 2 : 255);
        break;
    case ID:
        row->id = place == 0 || one_in(source, 2) ? 0 : made->row[draw(source, 0, place - 1)].id;
        break;
    case KIND:
        row->kind = (uint8_t)draw(source, 2, one_in(source, 2) ? 2 : 255);
        break;
    case OVERLOAD:
        row->overload = (uint8_t)draw(source, 2, one_in(source, 2) ? 2 : 255);
        break;
    case DEADLINE:
        row->deadline = pick(source, deadlines, 3);
        break;
    case GAP:
        row->gap = one_in(source, 2) ? LATEST + 1 : UINT32_MAX;
        break;
    case LIST_LENGTH:
        row->listed = count_outside(source, row->listed, 8);
        break;
    default:
        row->tasks = wrong_tasks(source, made, place);
    }
}

static void spoil_row_task(struct source *source, struct mishtodran_row *row, unsigned step)
{
    static const uint32_t costs[] = {0, DEAREST + 1, UINT32_MAX};
    unsigned task = (unsigned)draw(source, 0, row->tasks - 1);
    if (step == PRIORITY)
        row->priority[task] = 0;
    else
        row->cost[task] = pick(source, costs, 3);
}

/* Makes the value wrong that is looked at in this step. Its list or task takes a count that is right. */
static void spoil_row_value(struct source *source, struct made_rows *made, unsigned place, unsigned step)
{
    struct mishtodran_row *row = &made->row[place];
    if (step <= TASK_COUNT || step == FLAG)
        spoil_row_fields(source, made, place, step);
    else if (step <= LARGEST)
        spoil_list(source, &(struct lists){&row->gap, row->list, row->largest, (unsigned)row->listed}, step);
    else
        spoil_row_task(source, row, step);
}

/* The steps that a row has, in their order; how many. */
static unsigned steps_of_row(const struct mishtodran_row *row, uint8_t steps[STEPS])
{
    static const uint8_t all[] = {MARK,       ID,        KIND,          OVERLOAD,      DEADLINE, GAP,     LIST_LENGTH,
                                  TASK_COUNT, DISTANCES, LAST_DISTANCE, GAP_TOO_SMALL, FLAG,     LARGEST, PRIORITY,
                                  COST};
    unsigned count = 0;
    for (unsigned i = 0; i < sizeof all; i++)
        if (has_step(row->form, row->flag, all[i]))
            steps[count++] = all[i];
    return count;
}

/* A fault of a row, of a 17th often its form, and some of the three that are looked for after it; these go first, while
   the counts are right. */
static void spoil_row(struct source *source, struct made_rows *made, unsigned place)
{
    uint8_t steps[STEPS];
    unsigned last = steps_of_row(&made->row[place], steps) - 1, first = (unsigned)draw(source, 0, last);
    if (place == 16 && one_in(source, 2))
        first = 0;
    for (unsigned i = least(first + 3, last); i > first; i--)
        if (one_in(source, 2))
            spoil_row_value(source, made, place, steps[i]);
    spoil_row_value(source, made, place, steps[first]);
}

/* A row at fault, often the 17th where there is one, and now and then one after it. The later goes first: for its fault
   all counts before it are right. */
static void spoil_rows(struct source *source, struct made_rows *made)
{
    unsigned last = (unsigned)made->count - 1, place = (unsigned)draw(source, 0, last);
    if (last >= 16 && one_in(source, 2))
        place = 16;
    if (place < last && one_in(source, 3))
        spoil_row(source, made, (unsigned)draw(source, place + 1, last));
    spoil_row(source, made, place);
    made->bytes.damage = "spoiled";
}

/* The record that a row says, whatever it says. A form that is neither becomes a mark that is none, a count that no
   byte holds 255; what has no place is left out. */
static uint8_t *put_row(uint8_t *at, const struct mishtodran_row *row)
{
    bool flagged = row->form == MISHTODRAN_LARGEST_FORM;
    unsigned listed = least(row->listed, 8);
    at = flagged || row->form == MISHTODRAN_GAP_FORM ? put(at, row->form, 2) : put_mark(at, "XX");
    at = put(put(put(at, row->id, 2), row->kind, 1), row->overload, 1);
    at = put(at, row->deadline, 4);
    at = flagged ? put(at, row->flag, 1) : put(at, row->gap, 4);
    at = put(put(at, least(row->listed, 255), 1), least(row->tasks, 255), 1);
    at = put_list(at, row->list, listed);
    if (lists_of(row->form, row->flag) == 2)
        at = put_list(at, row->largest, listed);
    for (unsigned i = 0; i < row->tasks && i < 16; i++)
        at = put(put(put_mark(at, "TK"), row->priority[i], 2), row->cost[i], 4);
    return at;
}

/* The bytes of the rows, but no more than a table may have: the first fault, where there is one, is among them. */
static void encode_rows(struct made_rows *made)
{
    bool flagged = made->count > 0 && made->row[0].form == MISHTODRAN_LARGEST_FORM;
    size_t limit = flagged ? MISHTODRAN_MOST_TABLE_BYTES : MISHTODRAN_MOST_GAP_TABLE_BYTES;
    uint8_t *at = made->bytes.bytes;
    const uint8_t *end = at + limit;
    for (unsigned i = 0; i < made->count && at < end; i++)
        at = put_row(at, &made->row[i]);
    at = put(put_mark(at, "EN"), made->count, 2);
    made->bytes.length = (size_t)((at < end ? at : end) - made->bytes.bytes);
}

struct made_rows generate_rows(struct source *source)
{
    const struct batch *batch = any_batch(source);
    struct ids ids = any_ids(source);
    struct made_rows made = {.count = draw_from(source, batch->rows), .bytes = {.family = batch->name, .damage = ""}};
    bool largest = one_in(source, 2);
    for (unsigned i = 0; i < made.count; i++) {
        struct made_chain chain = any_chain(source, id_at(ids, i), batch->tasks, batch->listed);
        if (one_in(source, 4))
            reach_limits(source, &chain);
        if (largest)
            any_largest(source, &chain);
        made.row[i] = row_of(source, &chain);
    }
    if (made.count > 0 && one_in(source, 2))
        spoil_rows(source, &made);
    encode_rows(&made);
    made.room = any_room(source, made.bytes.length);
    return made;
}

/* ---- Wrecks to be salvaged ---- */

void add_bytes(struct wreck *wreck, const uint8_t *bytes, size_t count)
{
    count = least(count, MOST_WRECKED - wreck->length);
    memcpy(wreck->bytes + wreck->length, bytes, count);
    wreck->length += count;
}

void add_pattern(struct wreck *wreck, const uint8_t *pattern, size_t length, size_t count)
{
    for (; count > 0; count -= least(count, length))
        add_bytes(wreck, pattern, least(count, length));
}

struct wreck wreck_of(const struct generated *table)
{
    struct wreck wreck = {.family = table->family, .damage = table->damage};
    add_bytes(&wreck, table->bytes, table->length);
    return wreck;
}

/* What the records of a wreck are like, and how many were made. */
struct making {
    uint16_t form;
    struct ids ids;
    struct range tasks, listed;
    unsigned made;
};

static struct made_chain next_chain(struct source *source, struct making *making)
{
    struct made_chain chain = any_chain(source, id_at(making->ids, making->made++), making->tasks, making->listed);
    if (one_in(source, 6))
        reach_limits(source, &chain);
    if (making->form == MISHTODRAN_LARGEST_FORM)
        any_largest(source, &chain);
    return chain;
}

/* One of the ids that were made. */
static uint32_t made_id(struct source *source, const struct making *making)
{
    return id_at(making->ids, making->made == 0 ? 0 : (unsigned)draw(source, 0, making->made - 1));
}

static void add_record(struct wreck *wreck, const struct made_chain *chain)
{
    uint8_t record[MISHTODRAN_MOST_CHAIN_RECORD_BYTES];
    add_bytes(wreck, record, (size_t)(put_chain(record, chain) - record));
}

static void add_end(struct wreck *wreck, unsigned chains)
{
    uint8_t end[4];
    put(put_mark(end, "EN"), chains, 2);
    add_bytes(wreck, end, sizeof end);
}

static void add_records(struct source *source, struct wreck *wreck, struct making *making, unsigned count)
{
    for (; count > 0; count--) {
        struct made_chain chain = next_chain(source, making);
        add_record(wreck, &chain);
    }
}

/* Anything; or, again and again: a byte, marks, an end record, tasks that are distances too, or fixed parts, each in the
   one before it. */
static void add_stretch(struct source *source, struct wreck *wreck, size_t count)
{
    static const struct {
        uint8_t length, bytes[8];
    } patterns[] = {{1, {0}},
                    {1, "C"},
                    {2, "CG"},
                    {2, "CH"},
                    {6, "CHCGTK"},
                    {4, "EN\1"},
                    {4, "TK\5"},
                    {7, {'C', 'G', 0, 1, 1, 1, 2}}};
    unsigned which = (unsigned)draw(source, 0, 11);
    if (which < 8) {
        add_pattern(wreck, patterns[which].bytes, patterns[which].length, count);
        return;
    }
    for (; count > 0; count--)
        add_bytes(wreck, &(uint8_t){(uint8_t)draw(source, 0, 255)}, 1);
}

static size_t stretch_length(struct source *source) { return draw(source, 1, one_in(source, 3) ? 200 : 12); }

/* Lets a record start in another's last task: the mark is its priority, the id and the kind are its cost. */
static void add_overlapping(struct wreck *wreck, struct made_chain *outer, struct made_chain *inner)
{
    uint8_t record[MISHTODRAN_MOST_CHAIN_RECORD_BYTES];
    inner->overload = false;
    outer->task[outer->tasks - 1] = (struct made_task){inner->form, inner->id | (uint32_t)inner->asynchronous << 16};
    add_record(wreck, outer);
    add_bytes(wreck, record + 6, (size_t)(put_chain(record, inner) - record) - 6);
}

/* A record of the form "CG" whose largest distances hold another one, of one distance and one task, whole. */
static void add_swallowing(struct source *source, struct wreck *wreck, struct made_chain *outer)
{
    uint32_t id = (uint32_t)draw(source, 1, 100), deadline = (uint32_t)draw(source, id + 1, 150);
    const uint32_t largest[] = {id << 16 | MISHTODRAN_LARGEST_FORM, /* mark and id */
                                deadline << 16,                     /* kind, overload and deadline */
                                0x01000000,                         /* deadline, flag 0, one distance */
                                0x01000001,                         /* one task; the distance */
                                0x024B5400,                         /* the distance; "TK" and a priority */
                                0x03000001,                         /* the priority; a cost */
                                0x04000000,                         /* the cost */
                                0x04000000};
    outer->form = MISHTODRAN_LARGEST_FORM;
    outer->flag = 1;
    outer->listed = 8;
    memcpy(outer->largest, largest, sizeof largest);
    for (unsigned i = 0; i < 8; i++)
        outer->distance[i] = i + 1;
    add_record(wreck, outer);
}

/* A record with another in it. Mostly it is to be refused: for an id that was used, for its form, or for its tasks where
   there are many before it. */
static void add_nested(struct source *source, struct wreck *wreck, struct making *making)
{
    uint32_t used = made_id(source, making);
    struct made_chain outer = next_chain(source, making), inner = next_chain(source, making);
    switch (draw(source, 0, 4)) {
    case 0:
        break;
    case 1:
        turn_form(&outer);
        break;
    case 2:
        outer.id = used;
        break;
    default:
        fill_tasks(source, &outer, 16 - outer.tasks, HIGHEST, DEAREST);
        inner.tasks = 1;
    }
    if (one_in(source, 4))
        add_swallowing(source, wreck, &outer);
    else
        add_overlapping(wreck, &outer, &inner);
}

/* A part of a record: its start, its end, or the middle. */
static void add_part(struct source *source, struct wreck *wreck, struct making *making)
{
    uint8_t record[MISHTODRAN_MOST_CHAIN_RECORD_BYTES];
    struct made_chain chain = next_chain(source, making);
    size_t length = (size_t)(put_chain(record, &chain) - record);
    size_t from = one_in(source, 2) ? 0 : draw(source, 1, length - 1), to = draw(source, from, length);
    add_bytes(wreck, record + from, to - from);
}

/* A record whose id was used, or of another form, or both. */
static void add_unlike(struct source *source, struct wreck *wreck, struct making *making)
{
    uint32_t used = made_id(source, making);
    struct made_chain chain = next_chain(source, making);
    if (one_in(source, 2))
        turn_form(&chain);
    else
        chain.id = used;
    if (one_in(source, 4))
        chain.id = used;
    add_record(wreck, &chain);
}

static void add_piece(struct source *source, struct wreck *wreck, struct making *making)
{
    switch (draw(source, 0, 9)) {
    case 0:
        add_nested(source, wreck, making);
        break;
    case 1:
        add_part(source, wreck, making);
        break;
    case 2:
        add_unlike(source, wreck, making);
        break;
    case 3:
        add_end(wreck, making->made);
        break;
    case 4:
    case 5:
        add_stretch(source, wreck, stretch_length(source));
        break;
    default:
        add_records(source, wreck, making, 1);
    }
}

static void remove_bytes(struct wreck *wreck, size_t at, size_t count)
{
    memmove(wreck->bytes + at, wreck->bytes + at + count, wreck->length - at - count);
    wreck->length -= count;
}

/* Puts a stretch before the byte at `at`; what has no room any more falls off. */
static void insert_stretch(struct source *source, struct wreck *wreck, size_t at, size_t count)
{
    const struct wreck before = *wreck;
    wreck->length = at;
    add_stretch(source, wreck, count);
    add_bytes(wreck, before.bytes + at, before.length - at);
}

static void overwrite(struct source *source, struct wreck *wreck, size_t at, size_t count)
{
    size_t length = wreck->length;
    wreck->length = at;
    add_stretch(source, wreck, count);
    wreck->length = length;
}

/* Cuts a wreck that has bytes at either end, shifts what follows some byte, overwrites a stretch, or flips a bit. */
static void wreck_more(struct source *source, struct wreck *wreck)
{
    size_t at = draw(source, 0, wreck->length - 1), left = wreck->length - at, count = stretch_length(source);
    switch (draw(source, 0, 6)) {
    case 0:
        wreck->length = at;
        break;
    case 1:
        remove_bytes(wreck, 0, at);
        break;
    case 2:
        remove_bytes(wreck, at, least(count, left));
        break;
    case 3:
        insert_stretch(source, wreck, at, count);
        break;
    case 4:
    case 5:
        overwrite(source, wreck, at, least(count, left));
        break;
    default:
        wreck->bytes[at] ^= (uint8_t)(1u << draw(source, 0, 7));
    }
    wreck->damage = "wrecked";
}

/* Makes a wreck as long as may be, or about that: with a stretch after it, or before it, so that records stand at the
   very end. */
static void reach_length(struct source *source, struct wreck *wreck)
{
    size_t length = one_in(source, 2) ? MOST_SALVAGED : MOST_SALVAGED - 2 + draw(source, 0, 4);
    size_t missing = length - least(wreck->length, length);
    if (one_in(source, 2))
        add_stretch(source, wreck, missing);
    else
        insert_stretch(source, wreck, 0, missing);
    wreck->length = length;
    wreck->damage = "about as long as may be";
}

/* What a wreck was: so many tables one after another, each of so many records, then so many pieces. */
struct remains {
    const char *name;
    unsigned share; /* of a hundred */
    struct range tables, records, pieces, tasks, listed;
};

/* The four from "many records" on meet the limits of 16 records and 64 tasks. */
static const struct remains all_remains[] = {
    {"nothing", 1, {0, 0}, {0, 0}, {0, 0}, {1, 1}, {1, 1}},
    {"one table", 20, {1, 1}, {1, 15}, {0, 0}, {1, 4}, {1, 8}},
    {"full table", 6, {1, 1}, {16, 16}, {0, 0}, {4, 4}, {8, 8}},
    {"joined tables", 12, {2, 3}, {1, 7}, {0, 0}, {1, 4}, {1, 8}},
    {"few pieces", 12, {0, 0}, {0, 0}, {1, 4}, {1, 16}, {1, 8}},
    {"pieces", 14, {0, 0}, {0, 0}, {4, 16}, {1, 4}, {1, 8}},
    {"table and pieces", 8, {1, 1}, {1, 15}, {1, 6}, {1, 4}, {1, 8}},
    {"many records", 8, {1, 1}, {14, 18}, {0, 4}, {1, 3}, {1, 4}},
    {"many pieces", 6, {0, 0}, {0, 0}, {20, 50}, {1, 4}, {1, 3}},
    {"many tasks", 8, {1, 1}, {3, 5}, {1, 6}, {11, 16}, {1, 8}},
    {"joined many", 5, {2, 4}, {5, 16}, {0, 2}, {1, 5}, {1, 8}},
};

static const struct remains *any_remains(struct source *source)
{
    const struct remains *remains = all_remains;
    for (uint64_t turn = draw(source, 1, 100); turn > remains->share; remains++)
        turn -= remains->share;
    return remains;
}

/* A table that follows another has the same ids, another form, both or neither. */
static void add_tables(struct source *source, struct wreck *wreck, struct making *making, const struct remains *remains)
{
    for (unsigned i = draw_from(source, remains->tables); i > 0; i--) {
        unsigned count = draw_from(source, remains->records);
        add_records(source, wreck, making, count);
        if (!one_in(source, 8))
            add_end(wreck, count);
        if (one_in(source, 3))
            making->made = 0;
        if (one_in(source, 4))
            making->form ^= MISHTODRAN_GAP_FORM ^ MISHTODRAN_LARGEST_FORM;
    }
}

struct wreck generate_wreck(struct source *source)
{
    const struct remains *remains = any_remains(source);
    struct wreck wreck = {.family = remains->name, .damage = ""};
    uint16_t form = one_in(source, 2) ? MISHTODRAN_GAP_FORM : MISHTODRAN_LARGEST_FORM;
    struct making making = {
        .form = form, .ids = any_ids(source), .tasks = remains->tasks, .listed = remains->listed};
    add_tables(source, &wreck, &making, remains);
    for (unsigned i = draw_from(source, remains->pieces); i > 0; i--)
        add_piece(source, &wreck, &making);
    if (one_in(source, 2))
        for (unsigned i = (unsigned)draw(source, 1, 4); i > 0 && wreck.length > 0; i--)
            wreck_more(source, &wreck);
    if (one_in(source, 8))
        reach_length(source, &wreck);
    return wreck;
}
