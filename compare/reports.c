/* Writes generated tables, and what the report program must print for each.
   Usage: reports SEED N FOLDER

   The tables are FOLDER/1.table and so on, their reports FOLDER/1.txt and so on. */
#include "../include/mishtodran.h"
#include "analyzer.h"
#include "generate.h"
#include "words.h"

#include <inttypes.h>
#include <stdio.h>
#include <stdlib.h>

static void write_file(const char *folder, uint64_t number, const char *ending, const void *bytes, size_t length)
{
    char path[4096];
    int longer = snprintf(path, sizeof path, "%s/%" PRIu64 ".%s", folder, number, ending) >= (int)sizeof path;
    FILE *file = longer ? NULL : fopen(path, "wb");
    if (!file || fwrite(bytes, 1, length, file) != length || fclose(file) != 0) {
        fprintf(stderr, "reports: %s cannot be written\n", path);
        exit(2);
    }
}

int main(int count, char **words)
{
    if (count != 4) {
        fputs("reports: usage: reports SEED N FOLDER\n", stderr);
        return 2;
    }
    struct source source = {number_given("reports", "SEED", words[1], 0, MOST_SEED)};
    uint64_t tables = number_given("reports", "N", words[2], 1, 10000);
    for (uint64_t i = 1; i <= tables; i++) {
        struct generated table = generate(&source);
        uint8_t text[MISHTODRAN_LONGEST_REPORT], answer[MISHTODRAN_REPORT_BYTES];
        if (plain_report(table.bytes, table.length, text, sizeof text, answer, sizeof answer) != 0) {
            fputs("reports: a report is longer than any may be\n", stderr);
            return 1;
        }
        write_file(words[3], i, "table", table.bytes, table.length);
        write_file(words[3], i, "txt", text, answer[0] | (size_t)answer[1] << 8);
    }
    return 0;
}
