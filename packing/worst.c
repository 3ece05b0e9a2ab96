/* Looks for the worst case of the packing engine: crates/packing/src/ written down once more, with counters.
 *
 *   cc -std=c11 -O2 -Wall -Wextra -o worst packing/worst.c compare/words.c
 *   ./worst crates/packing/src/weights.rt MODE SEED RUNS
 *
 * Run r of a seed is the same whatever RUNS is. MODE says what is drawn at random:
 *   table  what a table can give: active segments of chains and their segments, those of one chain in one combination all from one
 *          segment; bad are the combinations whose cost is above a threshold; capacities 1 to 40, the same for those of one chain
 *   wide   the same, and each active segment has a capacity of its own
 *   any    any flags, and capacities 1 to 255: no table can give these
 *   all    nothing: every family of combinations once, for the choice of weightings alone, as many as are worth it (SEED and RUNS
 *          are not used; it takes a quarter of an hour)
 *
 * In each run the greatest is looked for, and then the uses up to a number that is drawn too.
 * The greatest of each count is printed, with the smallest bad combinations (in octal) and the capacities where it was found first.
 * Where a packing is small its most uses are found by a plain search too: exit status 1 where the engine's differ. 2: it can't start. */
#include "../compare/words.h"

#include <stdint.h>
#include <stdio.h>
#include <stdlib.h>
#include <string.h>

enum { SEGMENTS = 6, COMBINATIONS = 1 << SEGMENTS, WEIGHTINGS = 975, CHOSEN = 150, HEAVIEST = 90, CAPACITY = 40, BYTE = 255 };

static uint8_t table[WEIGHTINGS * SEGMENTS];

/* ---- What is counted ---- */

enum { NODES, SEARCH, CHOICE, USED, ALL, COUNTS };
static const char *const names[COUNTS] = {"nodes of has_room", "weighings in the search", "weighings in the choice", "weightings chosen",
                                          "weighings in all"};
static unsigned long count[COUNTS];
static int weighing; /* SEARCH or CHOICE */

/* ---- The engine, function by function as in src/ ---- */

static unsigned kept[COMBINATIONS], kept_count;
static uint8_t shares[WEIGHTINGS * SEGMENTS];
static unsigned used, chosen_at_most = CHOSEN;

static unsigned has(unsigned m, unsigned i)
{
    return m >> i & 1;
}

static unsigned segments_of(unsigned m)
{
    unsigned segments = 0;
    for (unsigned i = 0; i < SEGMENTS; i++)
        segments += has(m, i);
    return segments;
}

static unsigned kept_part(unsigned m)
{
    unsigned j = 0;
    while (j < kept_count && (kept[j] & m) != kept[j])
        j++;
    return j;
}

static void minimal(const uint8_t *bad)
{
    kept_count = 0;
    for (unsigned m = 1; m < COMBINATIONS; m++)
        if (bad[m] == 1 && kept_part(m) == kept_count)
            kept[kept_count++] = m;
}

static unsigned weigh(unsigned v, const unsigned *amount)
{
    count[weighing]++;
    unsigned sum = 0;
    for (unsigned i = 0; i < SEGMENTS; i++)
        sum += shares[v * SEGMENTS + i] * amount[i];
    return sum;
}

static unsigned weigh_combination(unsigned v, unsigned m)
{
    unsigned bits[SEGMENTS];
    for (unsigned i = 0; i < SEGMENTS; i++)
        bits[i] = has(m, i);
    return weigh(v, bits);
}

static void ranks(unsigned all, unsigned *rank)
{
    unsigned held[SEGMENTS] = {0};
    for (unsigned m = 1; m <= all; m++)
        if ((m & all) == m && kept_part(m) < kept_count)
            for (unsigned i = 0; i < SEGMENTS; i++)
                held[i] += has(m, i);
    for (unsigned i = 0; i < SEGMENTS; i++) {
        rank[i] = 0;
        for (unsigned j = 0; j < SEGMENTS; j++)
            rank[i] += held[i] < held[j] || (held[i] == held[j] && j < i);
    }
}

static unsigned first_rows(unsigned all)
{
    static const unsigned rows[] = {0, 1, 3, 7, 19, 102, WEIGHTINGS};
    return rows[segments_of(all)];
}

static int worth(unsigned v)
{
    unsigned some = 0, least = HEAVIEST, equal = 0;
    for (unsigned i = 0; i < SEGMENTS; i++)
        some += shares[v * SEGMENTS + i] > 0;
    for (unsigned j = 0; j < kept_count; j++) {
        unsigned w = weigh_combination(v, kept[j]);
        if (w == 0)
            return 0;
        if (w < least) {
            least = w;
            equal = 1;
        } else if (w == least) {
            equal++;
        }
        if (some <= equal)
            return 1;
    }
    return 0;
}

static void choose(void)
{
    unsigned all = 0, rank[SEGMENTS];
    for (unsigned j = 0; j < kept_count; j++)
        all |= kept[j];
    ranks(all, rank);
    unsigned rows = first_rows(all);
    used = 0;
    weighing = CHOICE;
    for (unsigned v = 0; v < rows && used < chosen_at_most; v++) {
        for (unsigned i = 0; i < SEGMENTS; i++)
            shares[used * SEGMENTS + i] = table[v * SEGMENTS + rank[i]];
        used += worth(used);
    }
    count[USED] = used;
}

static unsigned lower(unsigned v, unsigned m, unsigned d)
{
    unsigned w = weigh_combination(v, m);
    return w < d ? w : d;
}

static unsigned floor_of(unsigned n, unsigned v, unsigned most, unsigned idle)
{
    unsigned d = most;
    for (unsigned j = 0; j < n; j++) {
        if (d <= idle)
            return 0;
        d = lower(v, kept[j], d);
    }
    return d;
}

static unsigned total(const unsigned *room)
{
    unsigned all = 0;
    for (unsigned i = 0; i < SEGMENTS; i++)
        all += room[i];
    return all;
}

static unsigned ceiling(const unsigned *room, unsigned limit)
{
    unsigned r = limit;
    for (unsigned v = 0; v < used && r > 0; v++) {
        unsigned all = weigh(v, room);
        unsigned d = floor_of(kept_count, v, HEAVIEST, all / r);
        if (d > 0 && all / d < r)
            r = all / d;
    }
    return r;
}

static unsigned idle(unsigned all, unsigned w, unsigned need, unsigned x)
{
    return need <= x || all < w * x ? w : (all - w * x) / (need - x);
}

static unsigned lower_choices(unsigned v, unsigned last, const unsigned *room, unsigned need, unsigned x)
{
    if (x == 0)
        return x;
    unsigned w = weigh_combination(v, kept[last]);
    unsigned all = weigh(v, room);
    unsigned d = floor_of(last, v, w, idle(all, w, need, x - 1));
    if (d == 0)
        return x;
    if (all < need * d)
        return 0;
    if (d == w)
        return x;
    unsigned y = (all - need * d) / (w - d) + 1;
    return y < x ? y : x;
}

static unsigned fitting(const unsigned *room, unsigned m, unsigned need)
{
    unsigned x = need;
    for (unsigned i = 0; i < SEGMENTS; i++)
        if (has(m, i) && room[i] < x)
            x = room[i];
    return x;
}

static unsigned choices(unsigned last, const unsigned *room, unsigned need)
{
    unsigned x = fitting(room, kept[last], need) + 1;
    for (unsigned v = 0; v < used; v++)
        x = lower_choices(v, last, room, need, x);
    return x;
}

static int has_room(unsigned n, const unsigned *room, unsigned need)
{
    count[NODES]++;
    if (need == 0)
        return 1;
    if (n == 0)
        return 0;
    unsigned last = n - 1;
    for (unsigned x = choices(last, room, need); x > 0; x--) {
        unsigned left[SEGMENTS];
        for (unsigned i = 0; i < SEGMENTS; i++)
            left[i] = room[i] - (x - 1) * has(kept[last], i);
        if (has_room(last, left, need - (x - 1)))
            return 1;
    }
    return 0;
}

static unsigned fullest(const unsigned *room, unsigned limit)
{
    choose();
    weighing = SEARCH;
    unsigned need = ceiling(room, limit);
    while (!has_room(kept_count, room, need))
        need--;
    count[ALL] = count[SEARCH] + count[CHOICE];
    return need;
}

static unsigned first_try(const unsigned *room, unsigned limit)
{
    unsigned left[SEGMENTS], found = 0;
    memcpy(left, room, sizeof left);
    for (unsigned n = kept_count; n-- > 0;) {
        unsigned uses = fitting(left, kept[n], limit - found);
        for (unsigned i = 0; i < SEGMENTS; i++)
            left[i] -= uses * has(kept[n], i);
        found += uses;
    }
    return found;
}

static unsigned uses_up_to(const uint8_t *bad, const unsigned *room, unsigned enough)
{
    memset(count, 0, sizeof count);
    minimal(bad);
    unsigned limit = enough < total(room) ? enough : total(room);
    return first_try(room, limit) == limit ? limit : fullest(room, limit);
}

static unsigned most_uses(const uint8_t *bad, const unsigned *room)
{
    memset(count, 0, sizeof count);
    minimal(bad);
    return fullest(room, total(room));
}

/* ---- The most uses by a plain search, for little room ---- */

static unsigned plain(unsigned n, const unsigned *room)
{
    if (n == 0)
        return 0;
    unsigned best = plain(n - 1, room), left[SEGMENTS];
    for (unsigned i = 0; i < SEGMENTS; i++) {
        if (room[i] < has(kept[n - 1], i))
            return best;
        left[i] = room[i] - has(kept[n - 1], i);
    }
    unsigned one = plain(n, left) + 1;
    return one > best ? one : best;
}

/* ---- What is drawn ---- */

static uint64_t state;

static unsigned draw(unsigned below)
{
    state += 0x9e3779b97f4a7c15;
    uint64_t z = state;
    z = (z ^ z >> 30) * 0xbf58476d1ce4e5b9;
    z = (z ^ z >> 27) * 0x94d049bb133111eb;
    return (unsigned)((z ^ z >> 31) >> 33) % below;
}

/* 1 to `most`: all the same, or close to each other, or far apart. */
static void draw_capacities(unsigned most, unsigned n, unsigned *capacity)
{
    unsigned spread[] = {1, 2, 3, 5, most};
    unsigned width = spread[draw(5)];
    unsigned base = 1 + draw(most - width + 1);
    for (unsigned i = 0; i < n; i++)
        capacity[i] = base + draw(width);
}

static void draw_table(int wide, uint8_t *bad, unsigned *room)
{
    static const unsigned dearest[] = {1, 2, 3, 4, 6, 10, 30, 1000};
    unsigned n = draw(4) ? SEGMENTS : 1 + draw(SEGMENTS);
    unsigned chains = 1 + draw(n), segments = 1 + draw(3), most = dearest[draw(8)];
    unsigned chain[SEGMENTS], segment[SEGMENTS], cost[SEGMENTS], capacity[SEGMENTS], sum[COMBINATIONS], allowed[COMBINATIONS], allowed_count = 0;
    for (unsigned i = 0; i < n; i++) {
        chain[i] = draw(chains);
        segment[i] = draw(segments);
        cost[i] = 1 + draw(most);
    }
    for (unsigned m = 1; m < 1u << n; m++) {
        int fine = 1;
        sum[m] = 0;
        for (unsigned i = 0; i < n; i++)
            for (unsigned j = 0; j < i; j++)
                fine &= !(has(m, i) && has(m, j) && chain[i] == chain[j] && segment[i] != segment[j]);
        for (unsigned i = 0; i < n; i++)
            sum[m] += has(m, i) * cost[i];
        if (fine)
            allowed[allowed_count++] = m;
    }
    unsigned threshold = sum[allowed[draw(allowed_count)]] - 1;
    for (unsigned j = 0; j < allowed_count; j++)
        bad[allowed[j]] = threshold < sum[allowed[j]];
    draw_capacities(CAPACITY, SEGMENTS, capacity);
    for (unsigned i = 0; i < n; i++)
        room[i] = capacity[wide ? i : chain[i]];
}

/* Combinations of some sizes, more or fewer of them. */
static void draw_any(uint8_t *bad, unsigned *room)
{
    unsigned sizes = 1 + draw(COMBINATIONS - 1), eighths = 1 + draw(8);
    for (unsigned m = 1; m < COMBINATIONS; m++)
        bad[m] = has(sizes, segments_of(m) - 1) && draw(8) < eighths;
    draw_capacities(BYTE, SEGMENTS, room);
}

/* ---- The greatest counts ---- */

static unsigned long worst[COUNTS];
static char where[COUNTS][1024];

static void note(const char *run, const unsigned *room)
{
    for (int c = 0; c < COUNTS; c++) {
        if (count[c] <= worst[c])
            continue;
        worst[c] = count[c];
        int at = snprintf(where[c], sizeof where[c], "%s bad", run);
        for (unsigned j = 0; j < kept_count; j++)
            at += snprintf(where[c] + at, sizeof where[c] - at, " %02o", kept[j]);
        at += snprintf(where[c] + at, sizeof where[c] - at, " capacities");
        for (unsigned i = 0; room && i < SEGMENTS; i++)
            at += snprintf(where[c] + at, sizeof where[c] - at, " %u", room[i]);
    }
}

static void report(void)
{
    for (int c = 0; c < COUNTS; c++)
        if (worst[c] > 0)
            printf("%s: %lu (%s)\n", names[c], worst[c], where[c]);
}

static int runs(const char *mode, uint64_t seed, unsigned long number)
{
    for (unsigned long run = 0; run < number; run++) {
        uint8_t bad[COMBINATIONS] = {0};
        unsigned room[SEGMENTS] = {0};
        state = (seed << 32 | 1) * 0xd1342543de82ef95 + run * 0x2545f4914f6cdd1d;
        if (!strcmp(mode, "any"))
            draw_any(bad, room);
        else
            draw_table(!strcmp(mode, "wide"), bad, room);
        unsigned most = most_uses(bad, room);
        char label[64];
        snprintf(label, sizeof label, "run %lu:", run);
        note(label, room);
        if (total(room) <= 2 * SEGMENTS && plain(kept_count, room) != most) {
            fprintf(stderr, "worst: run %lu: the engine says %u, a plain search %u\n", run, most, plain(kept_count, room));
            return 1;
        }
        unsigned enough = 1 + draw(most + 1);
        unsigned found = uses_up_to(bad, room, enough);
        snprintf(label, sizeof label, "run %lu, up to %u:", run, enough);
        note(label, room);
        if (found != (enough < most ? enough : most)) {
            fprintf(stderr, "worst: run %lu: the engine says %u up to %u, and %u in all\n", run, found, enough, most);
            return 1;
        }
    }
    return 0;
}

/* Every family that is closed upwards: each mask is bad if one within it is, and may be bad if not. */
static void families(unsigned m, uint8_t *bad, unsigned long *seen)
{
    if (m == COMBINATIONS) {
        memset(count, 0, sizeof count);
        minimal(bad);
        choose();
        note("family:", NULL);
        ++*seen;
        return;
    }
    int within = 0;
    for (unsigned i = 0; i < SEGMENTS; i++)
        within |= has(m, i) && bad[m & ~(1u << i)];
    for (bad[m] = (uint8_t)within;; bad[m]++) {
        families(m + 1, bad, seen);
        if (bad[m])
            break;
    }
    bad[m] = 0;
}

/* ---- The start ---- */

static int read_table(const char *path)
{
    FILE *file = fopen(path, "r");
    if (!file)
        return 0;
    static char text[1 << 16];
    size_t length = fread(text, 1, sizeof text - 1, file);
    fclose(file);
    text[length] = 0;
    const char *from = strstr(text, "*b\""), *end = from ? strchr(from + 3, '"') : NULL;
    if (!end)
        return 0;
    unsigned digits = 0;
    for (const char *at = from + 3; at < end; at++)
        if ('0' <= *at && *at <= '9') {
            if (digits == sizeof table)
                return 0;
            table[digits++] = (uint8_t)(*at - '0');
        }
    return digits == sizeof table;
}

int main(int arguments, char **argument)
{
    if (arguments != 5) {
        fprintf(stderr, "usage: worst crates/packing/src/weights.rt table|wide|any|all SEED RUNS\n");
        return 2;
    }
    const char *mode = argument[2];
    if (strcmp(mode, "table") && strcmp(mode, "wide") && strcmp(mode, "any") && strcmp(mode, "all")) {
        fprintf(stderr, "worst: no mode %s\n", mode);
        return 2;
    }
    uint64_t seed = number_given("worst", "SEED", argument[3], 0, MOST_SEED);
    uint64_t many = number_given("worst", "RUNS", argument[4], 1, 1000000000);
    if (!read_table(argument[1])) {
        fprintf(stderr, "worst: %s: no table of %d weightings\n", argument[1], WEIGHTINGS);
        return 2;
    }
    int failed = 0;
    if (!strcmp(mode, "all")) {
        uint8_t bad[COMBINATIONS] = {0};
        unsigned long seen = 0;
        chosen_at_most = WEIGHTINGS;
        families(1, bad, &seen);
        printf("%lu families\n", seen);
    } else {
        failed = runs(mode, seed, many);
    }
    report();
    return failed;
}
