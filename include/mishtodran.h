/* Mishtodran: latency and deadline misses of task chains, from a stored table.
 *
 * Every entry but the version returns 0 and writes its answer, or returns the number of a refusal (below) and writes
 * nothing. Answers are little-endian. Bytes of an answer buffer past the answer stay as they are, and so do those of a
 * text buffer past the text, those of a salvage's list past its end, and rows past those that a read fills.
 *
 * What the caller keeps:
 * - a pointer is good for the length that stands beside it, in bytes, or for as many rows as their count says; a null
 *   pointer with length or count 0 is fine;
 * - a slice that is written (answer, buffer, text, the rows of a read, the table and the list of a salvage) overlaps no
 *   other slice of the call.
 * Nothing else: any bytes may stand in a table, a record or the input of a salvage, any values in a row, and any number
 * is taken at its full width.
 *
 * Threads: entries have no state and keep nothing between calls. Any number of threads may call them at once, also on
 * one table or the same rows, as long as no call writes what another reads or writes.
 *
 * Stack: a call takes less than MISHTODRAN_STACK_BYTES. This is measured, not proved.
 *
 * Duration: every call ends; how soon is measured, not proved. On an x86-64 machine of 2 GHz, a check, a segment, a
 * record, a save or a conversion takes about a microsecond at most, a read, a write, a merge or its conflicts a few, a
 * salvage up to ten, and any call on an ordinary table less than a millisecond. The slowest tables that we know have
 * chains that take nearly all of the time, so that a window is climbed to in millions of steps: there a latency, misses
 * or their bound by mishtodran_misses_at_most take some tenths of a second, and a report, which asks for latency and
 * misses of every chain, may take seconds. An editor that must not stand still makes these calls in a thread of its
 * own. mishtodran_misses_plain is apart: it goes through every packing, and may take longer than anyone waits. No other
 * entry calls it.
 */
#ifndef MISHTODRAN_H
#define MISHTODRAN_H

#include <stddef.h>
#include <stdint.h>

#ifdef __cplusplus
extern "C" {
#endif

/* The version of this header; mishtodran_version gives that of the library. An editor compares them at its start: where
 * they differ, an answer, a refusal or an entry may. CHANGELOG.md says which. */
#define MISHTODRAN_VERSION 9

/* The limits. A table beyond one of them is refused, and so is a k, or the input of a salvage. */
enum {
    MISHTODRAN_MOST_TABLE_BYTES = 1748,       /* of a table that begins with "CG": every table fits into these */
    MISHTODRAN_MOST_GAP_TABLE_BYTES = 1284,   /* of any other */
    MISHTODRAN_LEAST_CHAIN_RECORD_BYTES = 25, /* "CG", flag 0, one distance and one task */
    MISHTODRAN_MOST_CHAIN_RECORD_BYTES = 205, /* "CG", flag 1, 8 distances and 16 tasks */
    MISHTODRAN_MOST_CHAINS = 16,
    MISHTODRAN_MOST_TASKS = 16,     /* of a chain */
    MISHTODRAN_MOST_ALL_TASKS = 64, /* of a table */
    MISHTODRAN_MOST_DISTANCES = 8,  /* smallest ones, and as many largest */
    MISHTODRAN_MOST_ID = 65535,
    MISHTODRAN_MOST_PRIORITY = 65535,
    MISHTODRAN_MOST_COST = 1000000,
    MISHTODRAN_MOST_TIME = 10000000,    /* a deadline, a gap, a smallest distance, a window */
    MISHTODRAN_MOST_LARGEST = 80000000, /* a largest distance */
    MISHTODRAN_MOST_RUN = 1000,         /* k */
    MISHTODRAN_MOST_INPUT_BYTES = 4096  /* of a salvage */
};

/* A stored table is its chain records, all of one form, "CH" or "CG", then an end record. Numbers in them are
 * little-endian. Of each field: the offset from its record's first byte, and the length. */

/* A chain record of the form "CH"; after its fixed part the distances, then the task records. */
enum {
    MISHTODRAN_CHAIN_MARK_AT = 0, /* "CH", or "CG" */
    MISHTODRAN_CHAIN_MARK_BYTES = 2,
    MISHTODRAN_CHAIN_ID_AT = 2,
    MISHTODRAN_CHAIN_ID_BYTES = 2,
    MISHTODRAN_CHAIN_KIND_AT = 4, /* 0 synchronous, 1 asynchronous */
    MISHTODRAN_CHAIN_KIND_BYTES = 1,
    MISHTODRAN_CHAIN_OVERLOAD_AT = 5, /* 0, or 1 for an overload chain */
    MISHTODRAN_CHAIN_OVERLOAD_BYTES = 1,
    MISHTODRAN_CHAIN_DEADLINE_AT = 6,
    MISHTODRAN_CHAIN_DEADLINE_BYTES = 4,
    MISHTODRAN_CHAIN_GAP_AT = 10, /* the largest gap, or 0 where none is known */
    MISHTODRAN_CHAIN_GAP_BYTES = 4,
    MISHTODRAN_CHAIN_LISTED_AT = 14, /* how many distances */
    MISHTODRAN_CHAIN_LISTED_BYTES = 1,
    MISHTODRAN_CHAIN_TASKS_AT = 15, /* how many tasks */
    MISHTODRAN_CHAIN_TASKS_BYTES = 1,
    MISHTODRAN_CHAIN_DISTANCES_AT = 16,
    MISHTODRAN_DISTANCE_BYTES = 4 /* of each */
};

/* A chain record of the form "CG". Up to the deadline it is as that of "CH"; after its fixed part come the smallest
 * distances, with flag 1 as many largest ones, four bytes each too, then the task records. */
enum {
    MISHTODRAN_CG_FLAG_AT = 10, /* 1 where the largest distances are known, else 0 */
    MISHTODRAN_CG_FLAG_BYTES = 1,
    MISHTODRAN_CG_LISTED_AT = 11, /* how many distances */
    MISHTODRAN_CG_LISTED_BYTES = 1,
    MISHTODRAN_CG_TASKS_AT = 12, /* how many tasks */
    MISHTODRAN_CG_TASKS_BYTES = 1,
    MISHTODRAN_CG_DISTANCES_AT = 13
};

/* A task record. */
enum {
    MISHTODRAN_TASK_MARK_AT = 0, /* "TK" */
    MISHTODRAN_TASK_MARK_BYTES = 2,
    MISHTODRAN_TASK_PRIORITY_AT = 2,
    MISHTODRAN_TASK_PRIORITY_BYTES = 2,
    MISHTODRAN_TASK_COST_AT = 4,
    MISHTODRAN_TASK_COST_BYTES = 4,
    MISHTODRAN_TASK_RECORD_BYTES = 8
};

/* The end record. */
enum {
    MISHTODRAN_END_MARK_AT = 0, /* "EN" */
    MISHTODRAN_END_MARK_BYTES = 2,
    MISHTODRAN_END_CHAINS_AT = 2, /* how many chains */
    MISHTODRAN_END_CHAINS_BYTES = 2,
    MISHTODRAN_END_RECORD_BYTES = 4
};

/* A stretch in the list that a salvage writes, which is a row of them; its numbers are little-endian too. */
enum {
    MISHTODRAN_STRETCH_OFFSET_AT = 0, /* of its first byte, from that of the input */
    MISHTODRAN_STRETCH_OFFSET_BYTES = 4,
    MISHTODRAN_STRETCH_LENGTH_AT = 4, /* how many bytes were skipped */
    MISHTODRAN_STRETCH_LENGTH_BYTES = 4,
    MISHTODRAN_STRETCH_BYTES = 8
};

/* The two forms of a chain record, each by its mark as a number. */
enum {
    MISHTODRAN_GAP_FORM = 0x4843,    /* "CH": the largest gap in four bytes */
    MISHTODRAN_LARGEST_FORM = 0x4743 /* "CG": a flag, and with flag 1 a list of largest distances */
};

/* A chain, decoded: what its record holds, as mishtodran_read gives it and mishtodran_write takes it. A place past its
 * count, the gap of "CG", the flag of "CH", and the largest distances of "CH" or with flag 0 are not looked at by a
 * write, and are 0 after a read. A byte of padding follows the flag: a write does not look at it either, and after a
 * read it may be anything. */
struct mishtodran_row {
    uint16_t form; /* MISHTODRAN_GAP_FORM or MISHTODRAN_LARGEST_FORM */
    uint16_t id;
    uint8_t kind;     /* 0 synchronous, 1 asynchronous */
    uint8_t overload; /* 0, or 1 for an overload chain */
    uint8_t flag;     /* of "CG": 1 where the largest distances are known, else 0 */
    uint32_t deadline;
    uint32_t gap;    /* of "CH": the largest gap, or 0 where none is known */
    uint64_t listed; /* how many distances count, and as many largest ones where they do */
    uint64_t tasks;  /* how many priorities and costs count */
    uint32_t list[MISHTODRAN_MOST_DISTANCES];    /* the smallest distances of 2, 3, .. activations, as typed */
    uint32_t largest[MISHTODRAN_MOST_DISTANCES]; /* of "CG" with flag 1: the largest ones */
    uint16_t priority[MISHTODRAN_MOST_TASKS];    /* of each task */
    uint32_t cost[MISHTODRAN_MOST_TASKS];        /* of each task */
};

/* The library was compiled for this layout. Before C11 and C++11 this is not checked. */
#if defined __cplusplus && __cplusplus >= 201103L
#define MISHTODRAN_LAYOUT(what) static_assert(what, "mishtodran_row is laid out differently")
#elif defined __STDC_VERSION__ && __STDC_VERSION__ >= 201112L
#define MISHTODRAN_LAYOUT(what) _Static_assert(what, "mishtodran_row is laid out differently")
#else
#define MISHTODRAN_LAYOUT(what) struct mishtodran_row
#endif
MISHTODRAN_LAYOUT(offsetof(struct mishtodran_row, form) == 0);
MISHTODRAN_LAYOUT(offsetof(struct mishtodran_row, id) == 2);
MISHTODRAN_LAYOUT(offsetof(struct mishtodran_row, kind) == 4);
MISHTODRAN_LAYOUT(offsetof(struct mishtodran_row, overload) == 5);
MISHTODRAN_LAYOUT(offsetof(struct mishtodran_row, flag) == 6);
MISHTODRAN_LAYOUT(offsetof(struct mishtodran_row, deadline) == 8);
MISHTODRAN_LAYOUT(offsetof(struct mishtodran_row, gap) == 12);
MISHTODRAN_LAYOUT(offsetof(struct mishtodran_row, listed) == 16);
MISHTODRAN_LAYOUT(offsetof(struct mishtodran_row, tasks) == 24);
MISHTODRAN_LAYOUT(offsetof(struct mishtodran_row, list) == 32);
MISHTODRAN_LAYOUT(offsetof(struct mishtodran_row, largest) == 64);
MISHTODRAN_LAYOUT(offsetof(struct mishtodran_row, priority) == 96);
MISHTODRAN_LAYOUT(offsetof(struct mishtodran_row, cost) == 128);
MISHTODRAN_LAYOUT(sizeof(struct mishtodran_row) == 192);
#undef MISHTODRAN_LAYOUT

/* Why an entry refuses. The numbers of the first group, 1 to 7, 9 to 11, 28 to 31 and 33, are what a table is refused
 * with: in what follows, a table's number. 7 and 31 are of the form "CH" alone, 33 of "CG". Rows that no table can have
 * get the number of their bytes. 8 and 20 are no longer given. */
enum mishtodran_refusal {
    /* The table */
    MISHTODRAN_TABLE_LENGTH = 1,       /* the table's length is 0, above 1,284 (1,748 for CG) or above its buffer */
    MISHTODRAN_CUT_SHORT = 2,          /* bytes run out inside a record or before the end record */
    MISHTODRAN_MARK = 3,               /* a mark is not one allowed there, or is of another form than the first */
    MISHTODRAN_ID = 4,                 /* an id is 0 or used earlier */
    MISHTODRAN_KIND = 5,               /* a kind or overload byte is above 1 */
    MISHTODRAN_DEADLINE = 6,           /* a deadline is not 1 to 10,000,000 */
    MISHTODRAN_GAP = 7,                /* a gap is above 10,000,000 */
    MISHTODRAN_TASK_COUNT = 9,         /* a task count is not 1 to 16, or there are over 64 tasks so far */
    MISHTODRAN_TASK = 10,              /* a priority is 0, or a cost is not 1 to 1,000,000 */
    MISHTODRAN_END = 11,               /* a 17th chain, no chain, a wrong end count, or bytes after the end */
    MISHTODRAN_LIST_LENGTH = 28,       /* a list length is not 1 to 8 */
    MISHTODRAN_DISTANCE = 29,          /* a distance falls or exceeds 10,000,000 */
    MISHTODRAN_LAST_DISTANCE = 30,     /* the last distance is 0 */
    MISHTODRAN_GAP_TOO_SMALL = 31,     /* a gap other than 0 is too small for the distances */
    MISHTODRAN_LARGEST = 33,           /* a flag is above 1, or a largest distance falls, is too large or too small */
    /* A chain's figures; 12 of a segment and of a record too */
    MISHTODRAN_UNKNOWN_ID = 12,        /* the id is not in the table */
    MISHTODRAN_RUN_LENGTH = 13,        /* k is not 1 to 1,000 */
    MISHTODRAN_OF_OVERLOAD = 14,       /* misses are asked of an overload chain */
    MISHTODRAN_NO_GAP = 15,            /* misses are asked of a chain with gap 0 or flag 0 */
    MISHTODRAN_NO_WINDOW = 16,         /* a window has no solution within 10,000,000 ticks */
    MISHTODRAN_NO_CLOSE = 17,          /* the windows do not close by activation 1,024 */
    MISHTODRAN_SEGMENTS = 18,          /* there are over 6 overload active segments */
    MISHTODRAN_STARTS_AGAIN = 19,      /* an overload chain may start more than once in the last window */
    MISHTODRAN_CAPACITY = 21,          /* an overload active segment's capacity is above 40 */
    /* A save; 24 in a merge, a write, a conversion, a salvage and a report too, and in a read of too few rows */
    MISHTODRAN_STALE_RECORD = 22,      /* the old record equals no stored chain record */
    MISHTODRAN_NEW_RECORD = 23,        /* the new record is not one whole chain record, or bears another id */
    MISHTODRAN_BUFFER_TOO_SHORT = 24,  /* the result, or the report's text, is longer than its buffer */
    /* A merge */
    MISHTODRAN_IN_CONFLICT = 32,       /* some id is changed differently on both sides */
    /* A conversion */
    MISHTODRAN_NO_FORM = 34,           /* some chain has no such form, or the table already has it */
    /* A salvage */
    MISHTODRAN_INPUT_TOO_LONG = 35,    /* the input is longer than 4,096 bytes */
    MISHTODRAN_NOTHING_KEPT = 36,      /* there is no chain record in the input that could be kept */
    /* A segment */
    MISHTODRAN_AGAINST_ITSELF = 25,    /* a segment of a chain against itself */
    MISHTODRAN_NO_SUCH_SEGMENT = 26,   /* there is no active segment of that number */
    /* Any entry but the version */
    MISHTODRAN_ANSWER_TOO_SHORT = 27   /* the answer buffer is too short */
};

/* Bytes that an answer buffer needs. */
enum {
    MISHTODRAN_CHECK_BYTES = 8,
    MISHTODRAN_LATENCY_BYTES = 16,
    MISHTODRAN_MISSES_BYTES = 4,
    MISHTODRAN_MISSES_PLAIN_BYTES = 4,
    MISHTODRAN_MISSES_AT_MOST_BYTES = 4,
    MISHTODRAN_SEGMENT_BYTES = 8,
    MISHTODRAN_SAVE_BYTES = 4,
    MISHTODRAN_MERGE_BYTES = 4,
    MISHTODRAN_CONFLICT_BYTES = 4,
    MISHTODRAN_READ_BYTES = 4,
    MISHTODRAN_WRITE_BYTES = 4,
    MISHTODRAN_RECORD_BYTES = 8,
    MISHTODRAN_TO_LARGEST_BYTES = 4,
    MISHTODRAN_TO_GAP_BYTES = 4,
    MISHTODRAN_SALVAGE_BYTES = 8,
    MISHTODRAN_REPORT_BYTES = 4
};

/* Bytes of a text buffer that every report fits into. */
enum { MISHTODRAN_LONGEST_REPORT = 1123 };

/* Bytes of a buffer that the list of every salvage fits into: 16 stretches. */
enum { MISHTODRAN_LONGEST_LIST = 128 };

/* Bytes of stack that every call fits into. */
enum { MISHTODRAN_STACK_BYTES = 16384 };

/* What the reader says of a table: 8 bytes of answer, four for each: a table's number, and the offset from the table's
 * first byte of the field at fault; both are 0 for an accepted table. A refused table is an answer as well: the entry
 * returns 0 for it too. The offset is where that field begins:
 * - 1: 0, of no field; the limit of the length goes by the first two bytes. 2: the table's length, which is past its
 *   last byte. 3: the mark, also that of a chain record which has not the first one's form, a 17th too;
 * - 4, 6, 7, 9 and 28: the id, deadline, gap, task count or list length;
 * - 5: the kind where that is above 1, else the overload byte. 10: the priority where that is 0, else the cost;
 * - 29: the first distance that is below the one before it or too large. 30: the last distance. 31: the gap;
 * - 33: the flag where that is above 1, else the first largest distance that is below the one before it, above
 *   MISHTODRAN_MOST_LARGEST or below the smallest distance of as many activations;
 * - 11: a 17th chain's mark; the end record's count; the first byte after the end record.
 * Refuses with 27 only. */
uint32_t mishtodran_check(const uint8_t *table, size_t table_len,
                          uint8_t *answer, size_t answer_len);

/* The latency of chain `id`: 16 bytes of answer, four for each figure: K (how many activations were looked at), the
 * latency, how many of the K are late, and the margin (deadline minus latency, two's complement).
 * Refuses with 27, then a table's number, 12, 16 or 17. */
uint32_t mishtodran_latency(const uint8_t *table, size_t table_len, uint32_t id,
                            uint8_t *answer, size_t answer_len);

/* A bound on the deadline misses of chain `id` among any `k` activations in a row: 4 bytes of answer. The bound never
 * exceeds k. It is k where a deadline is missed even without overload, and where overload can make k activations or
 * more late. Of largest distances this chain's alone are read; 15 is gap 0, or flag 0.
 * Refuses with 27, then a table's number, 12, 13, 14, 15, 16 or 17, 18, 19, 21. */
uint32_t mishtodran_misses(const uint8_t *table, size_t table_len, uint32_t id, uint32_t k,
                           uint8_t *answer, size_t answer_len);

/* The same bound as mishtodran_misses, found a second way: 4 bytes of answer. An engine goes through every packing of
 * the bad combinations of overload active segments, in a plain order and without leaving any out, and takes the most
 * uses that it meets. It may take very long where capacities are large: the packings grow with the product of the
 * numbers of uses. The sample has 16 of them for k = 10 and 194,481 for k = 390; six active segments that may be used
 * 40 times each have more than could ever be gone through. It is there to compare with where these are few.
 * Returns and answers what mishtodran_misses does, on every call: refuses with 27, then a table's number, 12, 13, 14,
 * 15, 16 or 17, 18, 19, 21. Refused, it is as quick. */
uint32_t mishtodran_misses_plain(const uint8_t *table, size_t table_len, uint32_t id, uint32_t k,
                                 uint8_t *answer, size_t answer_len);

/* At most so many misses: a number that the answer of mishtodran_misses to the same call does not exceed, 4 bytes of
 * answer. It may be larger, so it is to be shown as 'at most' and never as that answer. It comes from the sufficient
 * test of a published work: for each of the K activations, demand is worked out once, at the soonest that it can come
 * plus the deadline, and where it is above that the combination is called bad. A good combination may be called bad, a
 * bad one is never called good. The number never exceeds k. It is 0 where no activation is late, and k where the empty
 * combination is called bad, though no deadline may be missed without overload.
 * Refuses with 27, then a table's number, 12, 13, 14, 15, 16 or 17, 18, 19, 21: where mishtodran_misses does, with the
 * same number. */
uint32_t mishtodran_misses_at_most(const uint8_t *table, size_t table_len, uint32_t id, uint32_t k,
                                   uint8_t *answer, size_t answer_len);

/* Where active segment `number` (from 1) of chain `id` against chain `against` stands in the table: 8 bytes of
 * answer, its offset from the table's first byte and its length in bytes.
 * Refuses with 27, then a table's number, 12 for either id, 25, 26. */
uint32_t mishtodran_segment(const uint8_t *table, size_t table_len, uint32_t id, uint32_t against, uint32_t number,
                            uint8_t *answer, size_t answer_len);

/* Puts a new record in the place of an old one, in the table that stands in the first `used` bytes of a buffer: 4 bytes
 * of answer, the new used length. The old record is given as it was last seen, whole, so that a change made meanwhile
 * is never lost. Bytes between a shorter end and the former end become 0; bytes past both ends stay. A new record of
 * the other form is taken where it is the only one of its table, which then has that form and its limit.
 * Refuses with 27, then the table's number, 22, 23 where the new record has no chain record's mark, is not as long as
 * its own mark, counts and flag say, or bears another id, 24, the result's number; the buffer then stays as it was, and
 * mishtodran_check of its used bytes says whether a table's number was the table's own. */
uint32_t mishtodran_save(uint8_t *buffer, size_t buffer_len, uint64_t used,
                         const uint8_t *old_record, size_t old_len,
                         const uint8_t *new_record, size_t new_len,
                         uint8_t *answer, size_t answer_len);

/* Merges two edited copies of a table, given their common ancestor: 4 bytes of answer, the length of the result, which
 * stands at the start of the buffer; bytes past it stay. For each id, the result has what the two copies have where
 * they are alike, else what the one has that differs from the ancestor; that a record is missing counts as any other
 * difference, so what one side removed or added is removed or added. The ancestor's records that stay come first, in
 * its order, then those that the first copy added, in its order, then those that only the second did. Where a record
 * stands in its table is no difference; its form is one, so where one copy was converted and the other is as the
 * ancestor, the result is the converted one. MISHTODRAN_MOST_TABLE_BYTES of buffer hold every result that is accepted;
 * where these are too few, the result is no table.
 * Refuses with 27, then the ancestor's number, the first copy's, the second's; 32 where some id has three states, one
 * in each table, and mishtodran_conflict says which; 24; the result's number, which is 1, 3, 9 or 11, with 3 for
 * records of both forms. The buffer then stays as it was, and mishtodran_check of each table says whether a table's
 * number was its own. */
uint32_t mishtodran_merge(const uint8_t *ancestor, size_t ancestor_len,
                          const uint8_t *first, size_t first_len,
                          const uint8_t *second, size_t second_len,
                          uint8_t *buffer, size_t buffer_len,
                          uint8_t *answer, size_t answer_len);

/* The conflicts of that merge: 4 bytes of answer, the smallest id greater than `above` that is in conflict, 0 if there
 * is none. Asked with 0, then with each answer, it gives them all.
 * Refuses with 27, then the ancestor's number, the first copy's, the second's. */
uint32_t mishtodran_conflict(const uint8_t *ancestor, size_t ancestor_len,
                             const uint8_t *first, size_t first_len,
                             const uint8_t *second, size_t second_len, uint32_t above,
                             uint8_t *answer, size_t answer_len);

/* The chains of a table as rows, in its order: 4 bytes of answer, how many there are. They become the first of `rows`,
 * with 0 in the places past a count and in what their form has not; the rows after them stay. MISHTODRAN_MOST_CHAINS
 * rows are enough for every table.
 * Refuses with 27, then a table's number, then 24 where there are fewer rows than chains; every row then stays. */
uint32_t mishtodran_read(const uint8_t *table, size_t table_len,
                         struct mishtodran_row *rows, size_t row_count,
                         uint8_t *answer, size_t answer_len);

/* The table that has these rows, in their order, in a buffer: 4 bytes of answer, the table's length; it stands at the
 * start of the buffer, and bytes past it stay. What is written reads back as these rows, with 0 where a write does not
 * look, and the rows of a table give the same bytes again. MISHTODRAN_MOST_TABLE_BYTES of buffer hold every table.
 * Refuses with 27, then the table's number that the bytes of these rows would have, 3 to 7, 9 to 11, 28 to 31 or 33,
 * then with 24. The first fault decides, row by row, and within a row in the order in which its record is read: 3 is a
 * form that is neither or not the first row's, before anything else of that row; a 17th row is 11 where the 16 before
 * it are good; `listed` outside 1 to 8 is 28 and `tasks` outside 1 to 16 is 9, however large. No row at all is 11. */
uint32_t mishtodran_write(const struct mishtodran_row *rows, size_t row_count,
                          uint8_t *buffer, size_t buffer_len,
                          uint8_t *answer, size_t answer_len);

/* Where the record of chain `id` stands in the table: 8 bytes of answer, its offset from the table's first byte and its
 * length in bytes. These bytes are what mishtodran_save takes for a record, the old one or the new.
 * Refuses with 27, then a table's number, then 12. */
uint32_t mishtodran_record(const uint8_t *table, size_t table_len, uint32_t id,
                           uint8_t *answer, size_t answer_len);

/* A table of "CH" records as one of "CG" records, in a buffer of its own: 4 bytes of answer, the length of the result,
 * which stands at the start of the buffer; bytes past it stay. A gap other than 0 becomes flag 1 and 1, 2, 3, .. times
 * the gap, as many as there are distances; gap 0 becomes flag 0. Every latency and miss figure and refusal of every
 * chain stays; where a record or a segment stands may change. MISHTODRAN_MOST_TABLE_BYTES of buffer hold every
 * result.
 * Refuses with 27, then a table's number, then 34 where the table has "CG" records already, then 24. */
uint32_t mishtodran_to_largest(const uint8_t *table, size_t table_len,
                               uint8_t *buffer, size_t buffer_len,
                               uint8_t *answer, size_t answer_len);

/* And back: a table of "CG" records as one of "CH" records, 4 bytes of answer, the length of the result, as above.
 * Every latency and miss figure and refusal stays, and what mishtodran_to_largest has made becomes the bytes that it
 * was made of. MISHTODRAN_MOST_GAP_TABLE_BYTES of buffer hold every result.
 * Refuses with 27, then a table's number; 34 where the table has "CH" records already, or some chain has largest
 * distances that are not 1, 2, 3, .. times a gap of at most 10,000,000; then 24. */
uint32_t mishtodran_to_gap(const uint8_t *table, size_t table_len,
                           uint8_t *buffer, size_t buffer_len,
                           uint8_t *answer, size_t answer_len);

/* What can be kept of a damaged table, as a new table, and a list of what was skipped: 8 bytes of answer, the length of
 * the table and that of the list, four for each. Both stand at the start of their buffers; bytes past them stay. The
 * input is walked from its first byte. Where a whole chain record stands that can be accepted beside those kept so far,
 * it is kept, and the walk goes on after it; else it goes on by one byte. Accepted is a record that breaks no rule of
 * its own, has an id that no kept one bears, makes no more than 64 tasks with those kept, and has the form of the first
 * one kept. The walk stops at the 16th chain, or at the input's end. The table is the kept records, in order, and an
 * end record. The list has every longest stretch that was skipped, in order, with offset and length in the input
 * (MISHTODRAN_STRETCH_..). What follows a 16th chain is in no stretch; with fewer, all that follows the last one is the
 * last stretch, the end record included. So an accepted table comes back byte for byte. MISHTODRAN_MOST_TABLE_BYTES and
 * MISHTODRAN_LONGEST_LIST of buffer hold every result.
 * Refuses with 27, then 35, then 36, an empty input too, then 24 where the table or the list is longer than its buffer;
 * both buffers then stay as they were. */
uint32_t mishtodran_salvage(const uint8_t *input, size_t input_len,
                            uint8_t *table, size_t table_len,
                            uint8_t *list, size_t list_len,
                            uint8_t *answer, size_t answer_len);

/* The report of a table, as text: 4 bytes of answer, the text's length in bytes. The text is what `mishtodran report`
 * prints, a header and a line for each chain; it stands at the start of the text buffer, and no byte of 0 ends it. A
 * refused table has its text too, `refused`, its number and the offset of the field at fault.
 * Refuses with 27, then 24. */
uint32_t mishtodran_report(const uint8_t *table, size_t table_len,
                           uint8_t *text, size_t text_len,
                           uint8_t *answer, size_t answer_len);

/* The version of the library. Takes nothing and refuses nothing. */
uint32_t mishtodran_version(void);

#ifdef __cplusplus
}
#endif

#endif
