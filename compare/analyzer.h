/* The analyzer once more, in plain C, written from documents 01 and 02 alone and sharing nothing with the proved one
   but the row that both take. It takes the straightforward way everywhere and is slow on hard tables. It is there to be
   compared with. */
#ifndef PLAIN_ANALYZER_H
#define PLAIN_ANALYZER_H

#include "../include/mishtodran.h"

#include <stdbool.h>
#include <stddef.h>
#include <stdint.h>

/* The entries of mishtodran.h under other names: 0, or the refusal number. */
uint32_t plain_latency(const uint8_t *table, size_t table_len, uint32_t id, uint8_t *answer, size_t answer_len);
uint32_t plain_misses(const uint8_t *table, size_t table_len, uint32_t id, uint32_t k, uint8_t *answer,
                      size_t answer_len);
uint32_t plain_misses_plain(const uint8_t *table, size_t table_len, uint32_t id, uint32_t k, uint8_t *answer,
                            size_t answer_len);
uint32_t plain_misses_at_most(const uint8_t *table, size_t table_len, uint32_t id, uint32_t k, uint8_t *answer,
                              size_t answer_len);
uint32_t plain_segment(const uint8_t *table, size_t table_len, uint32_t chain, uint32_t against, uint32_t number,
                       uint8_t *answer, size_t answer_len);
uint32_t plain_check(const uint8_t *table, size_t table_len, uint8_t *answer, size_t answer_len);
uint32_t plain_save(uint8_t *buffer, size_t buffer_len, uint64_t used, const uint8_t *old_record, size_t old_len,
                    const uint8_t *new_record, size_t new_len, uint8_t *answer, size_t answer_len);
uint32_t plain_merge(const uint8_t *ancestor, size_t ancestor_len, const uint8_t *first, size_t first_len,
                     const uint8_t *second, size_t second_len, uint8_t *buffer, size_t buffer_len, uint8_t *answer,
                     size_t answer_len);
uint32_t plain_conflict(const uint8_t *ancestor, size_t ancestor_len, const uint8_t *first, size_t first_len,
                        const uint8_t *second, size_t second_len, uint32_t above, uint8_t *answer, size_t answer_len);
uint32_t plain_read(const uint8_t *table, size_t table_len, struct mishtodran_row *rows, size_t row_count,
                    uint8_t *answer, size_t answer_len);
uint32_t plain_write(const struct mishtodran_row *rows, size_t row_count, uint8_t *buffer, size_t buffer_len,
                     uint8_t *answer, size_t answer_len);
uint32_t plain_to_largest(const uint8_t *table, size_t table_len, uint8_t *buffer, size_t buffer_len, uint8_t *answer,
                          size_t answer_len);
uint32_t plain_to_gap(const uint8_t *table, size_t table_len, uint8_t *buffer, size_t buffer_len, uint8_t *answer,
                      size_t answer_len);
uint32_t plain_salvage(const uint8_t *input, size_t input_len, uint8_t *table, size_t table_len, uint8_t *list,
                       size_t list_len, uint8_t *answer, size_t answer_len);
uint32_t plain_record(const uint8_t *table, size_t table_len, uint32_t id, uint8_t *answer, size_t answer_len);
uint32_t plain_report(const uint8_t *table, size_t table_len, uint8_t *text, size_t text_len, uint8_t *answer,
                      size_t answer_len);

/* How smallest distances go on: by the greatest sum over all steps unless this is set otherwise, to document 01's rule of
   whole lists, which request 9 replaces. That is there to be told apart from. */
enum distances { BY_ALL_STEPS, BY_WHOLE_LISTS };
extern enum distances plain_distances;

/* How arrivals are counted: by bisection unless this is set otherwise. Walking is there to be measured against. */
enum counting { BISECTING, WALKING };
extern enum counting plain_counting;

/* The most arrivals of one chain that were counted by bisection since this was last set. More than a capacity, 40, are
   counted in windows alone. */
extern uint64_t plain_most_arrivals;

/* η(t) of a list of smallest distances, for t up to twice the horizon. */
uint64_t plain_arrivals(const uint32_t *list, unsigned listed, uint64_t t);

/* Whether the climbs to the windows of all chains of a table take so many steps or more: demands that lie above the t whose
   they are. A refused table has no windows. */
bool plain_climbs_take(const uint8_t *table, size_t table_len, uint64_t steps);

/* What a miss query answers before k limits it: late times the most uses of any packing, 0 where nothing is late. Where
   the empty set is bad there is no most. Refused as the query is. The second is that of the sieve, with the combinations
   that it calls bad. */
#define PLAIN_NO_MOST UINT64_MAX
uint32_t plain_figure(const uint8_t *table, size_t table_len, uint32_t id, uint32_t k, uint64_t *figure);
uint32_t plain_figure_at_most(const uint8_t *table, size_t table_len, uint32_t id, uint32_t k, uint64_t *figure);

/* Whether an engine that goes through every packing of the bad combinations meets more than `limit`, which is below
   UINT64_MAX. It meets none where the query is refused, nothing is late or the empty set is bad. */
bool plain_packings_exceed(const uint8_t *table, size_t table_len, uint32_t id, uint32_t k, uint64_t limit);

#endif
