/* The entries of mishtodran.h by the plain analyzer: to try the C programs where the proved library is not at hand. */
#include "../include/mishtodran.h"
#include "analyzer.h"

uint32_t mishtodran_latency(const uint8_t *table, size_t table_len, uint32_t id, uint8_t *answer, size_t answer_len)
{
    return plain_latency(table, table_len, id, answer, answer_len);
}

uint32_t mishtodran_misses(const uint8_t *table, size_t table_len, uint32_t id, uint32_t k, uint8_t *answer,
                           size_t answer_len)
{
    return plain_misses(table, table_len, id, k, answer, answer_len);
}

uint32_t mishtodran_misses_plain(const uint8_t *table, size_t table_len, uint32_t id, uint32_t k, uint8_t *answer,
                                 size_t answer_len)
{
    return plain_misses_plain(table, table_len, id, k, answer, answer_len);
}

uint32_t mishtodran_misses_at_most(const uint8_t *table, size_t table_len, uint32_t id, uint32_t k, uint8_t *answer,
                                   size_t answer_len)
{
    return plain_misses_at_most(table, table_len, id, k, answer, answer_len);
}

uint32_t mishtodran_segment(const uint8_t *table, size_t table_len, uint32_t id, uint32_t against, uint32_t number,
                            uint8_t *answer, size_t answer_len)
{
    return plain_segment(table, table_len, id, against, number, answer, answer_len);
}

uint32_t mishtodran_check(const uint8_t *table, size_t table_len, uint8_t *answer, size_t answer_len)
{
    return plain_check(table, table_len, answer, answer_len);
}

uint32_t mishtodran_save(uint8_t *buffer, size_t buffer_len, uint64_t used, const uint8_t *old_record, size_t old_len,
                         const uint8_t *new_record, size_t new_len, uint8_t *answer, size_t answer_len)
{
    return plain_save(buffer, buffer_len, used, old_record, old_len, new_record, new_len, answer, answer_len);
}

uint32_t mishtodran_merge(const uint8_t *ancestor, size_t ancestor_len, const uint8_t *first, size_t first_len,
                          const uint8_t *second, size_t second_len, uint8_t *buffer, size_t buffer_len,
                          uint8_t *answer, size_t answer_len)
{
    return plain_merge(ancestor, ancestor_len, first, first_len, second, second_len, buffer, buffer_len, answer,
                       answer_len);
}

uint32_t mishtodran_conflict(const uint8_t *ancestor, size_t ancestor_len, const uint8_t *first, size_t first_len,
                             const uint8_t *second, size_t second_len, uint32_t above, uint8_t *answer,
                             size_t answer_len)
{
    return plain_conflict(ancestor, ancestor_len, first, first_len, second, second_len, above, answer, answer_len);
}

uint32_t mishtodran_read(const uint8_t *table, size_t table_len, struct mishtodran_row *rows, size_t row_count,
                         uint8_t *answer, size_t answer_len)
{
    return plain_read(table, table_len, rows, row_count, answer, answer_len);
}

uint32_t mishtodran_write(const struct mishtodran_row *rows, size_t row_count, uint8_t *buffer, size_t buffer_len,
                          uint8_t *answer, size_t answer_len)
{
    return plain_write(rows, row_count, buffer, buffer_len, answer, answer_len);
}

uint32_t mishtodran_record(const uint8_t *table, size_t table_len, uint32_t id, uint8_t *answer, size_t answer_len)
{
    return plain_record(table, table_len, id, answer, answer_len);
}

uint32_t mishtodran_to_largest(const uint8_t *table, size_t table_len, uint8_t *buffer, size_t buffer_len,
                               uint8_t *answer, size_t answer_len)
{
    return plain_to_largest(table, table_len, buffer, buffer_len, answer, answer_len);
}

uint32_t mishtodran_to_gap(const uint8_t *table, size_t table_len, uint8_t *buffer, size_t buffer_len, uint8_t *answer,
                           size_t answer_len)
{
    return plain_to_gap(table, table_len, buffer, buffer_len, answer, answer_len);
}

uint32_t mishtodran_salvage(const uint8_t *input, size_t input_len, uint8_t *table, size_t table_len, uint8_t *list,
                            size_t list_len, uint8_t *answer, size_t answer_len)
{
    return plain_salvage(input, input_len, table, table_len, list, list_len, answer, answer_len);
}

uint32_t mishtodran_report(const uint8_t *table, size_t table_len, uint8_t *text, size_t text_len, uint8_t *answer,
                           size_t answer_len)
{
    return plain_report(table, table_len, text, text_len, answer, answer_len);
}

uint32_t mishtodran_version(void)
{
    return MISHTODRAN_VERSION;
}
