/* What the library answers, as text, for the same answers by other languages. Each line of standard input is a case: MODE COLUMNS ROWS
 * FLAGS, as faxrows takes them, and the data in hexadecimal or -. The answer to a case is a line for the packed rows, one for the lists
 * of changes, one for each row read by itself, and one for the end:
 *
 *   packed STATUS ROWS BYTES_READ DAMAGED_ROWS MISSED_EOLS CUT_ROWS FAULT_START ADLER32_OF_THE_BITMAP
 *   changes STATUS ROWS BYTES_READ DAMAGED_ROWS MISSED_EOLS CUT_ROWS FAULT_START ADLER32_OF_THE_LISTS
 *   row LINE_START BYTES_READ DAMAGED_ROWS MISSED_EOLS CUT_ROWS DAMAGE IS_CUT ADLER32_OF_THE_CHANGES ADLER32_OF_THE_PACKED_ROW
 *   end STATUS ROWS LINE_START BYTES_READ DAMAGED_ROWS MISSED_EOLS CUT_ROWS
 */
#include <hayro_ccitt.h>
#include <inttypes.h>
#include <stdio.h>
#include <stdlib.h>
#include <string.h>

static uint32_t adler32(const void *bytes, size_t length)
{
    const uint8_t *byte = bytes;
    uint32_t sum = 1, sums = 0;
    for (size_t at = 0; at < length; at++) {
        sum = (sum + byte[at]) % 65521;
        sums = (sums + sum) % 65521;
    }
    return sums << 16 | sum;
}

static void *room(size_t count, size_t size)
{
    void *block = calloc(count ? count : 1, size);
    if (!block)
        exit(3);
    return block;
}

static void tell(const char *call, uint32_t status, const hayro_ccitt_outcome *told, uint32_t sum)
{
    printf("%s %" PRIu32 " %" PRIu64 " %" PRIu64 " %" PRIu64 " %" PRIu64 " %" PRIu64 " %" PRIu64 " %" PRIu32 "\n", call, status,
           told->rows, told->bytes_read, told->damaged_rows, told->missed_eols, told->cut_rows, told->fault_start, sum);
}

static void whole(const uint8_t *data, size_t length, const hayro_ccitt_settings *settings)
{
    size_t width = ((size_t)settings->columns + 7) / 8;
    hayro_ccitt_outcome told;
    hayro_ccitt_measure(data, length, settings, &told);
    size_t bytes = told.rows * width, numbers = told.rows + told.changes;
    uint8_t *bitmap = room(bytes, 1);
    uint32_t *lists = room(numbers, sizeof *lists);
    uint32_t status = hayro_ccitt_decode_packed(data, length, settings, bitmap, bytes, &told);
    tell("packed", status, &told, adler32(bitmap, bytes));
    status = hayro_ccitt_decode_changes(data, length, settings, lists, numbers, &told);
    tell("changes", status, &told, adler32(lists, numbers * sizeof *lists));
    free(bitmap);
    free(lists);
}

static void by_rows(const uint8_t *data, size_t length, const hayro_ccitt_settings *settings)
{
    size_t width = ((size_t)settings->columns + 7) / 8;
    uint32_t *changes = room(settings->columns, sizeof *changes);
    uint8_t *packed = room(width, 1);
    hayro_ccitt_reader lists = {0, 0, 0}, bitmaps = {0, 0, 0};
    hayro_ccitt_row row, same;
    uint32_t status = hayro_ccitt_open(data, length, settings, &lists) | hayro_ccitt_open(data, length, settings, &bitmaps);
    while (status == HAYRO_CCITT_OK) {
        status = hayro_ccitt_next_changes(data, length, &lists, changes, settings->columns, &row);
        uint32_t other = hayro_ccitt_next_packed(data, length, &bitmaps, packed, width, &same);
        if (other != status || memcmp(&row, &same, sizeof row) != 0)
            exit(4);
        if (status == HAYRO_CCITT_OK)
            printf("row %" PRIu64 " %" PRIu64 " %" PRIu64 " %" PRIu64 " %" PRIu64 " %" PRIu64 " %" PRIu64 " %" PRIu32 " %" PRIu32 "\n",
                   row.line_start, row.bytes_read, row.damaged_rows, row.missed_eols, row.cut_rows, row.damage, row.is_cut,
                   adler32(changes, row.changes * sizeof *changes), adler32(packed, width));
    }
    printf("end %" PRIu32 " %" PRIu64 " %" PRIu64 " %" PRIu64 " %" PRIu64 " %" PRIu64 " %" PRIu64 "\n", status, row.rows,
           row.line_start, row.bytes_read, row.damaged_rows, row.missed_eols, row.cut_rows);
    if (hayro_ccitt_close(&lists) != HAYRO_CCITT_OK || hayro_ccitt_close(&bitmaps) != HAYRO_CCITT_OK)
        exit(4);
    free(changes);
    free(packed);
}

static uint32_t number_of(const char *words, const char *word)
{
    return (uint32_t)((strstr(words, word) - words) / 3);
}

static void answer(const char *mode, const hayro_ccitt_settings *limits, const char *letters, const char *digits)
{
    size_t length = *digits == '-' ? 0 : strlen(digits) / 2;
    hayro_ccitt_settings settings = *limits;
    settings.encoding = number_of("g4 1d 2d", mode);
    settings.flags = 0;
    for (const char *letter = letters; *letter; letter++)
        if (*letter != '-')
            settings.flags |= 1u << (strchr("blasr", *letter) - "blasr");
    uint8_t *data = room(length, 1);
    for (size_t at = 0; at < length; at++) {
        const char pair[3] = {digits[2 * at], digits[2 * at + 1], 0};
        data[at] = (uint8_t)strtoul(pair, NULL, 16);
    }
    whole(data, length, &settings);
    by_rows(data, length, &settings);
    free(data);
}

int main(void)
{
    char *line = NULL;
    size_t size = 0;
    while (getline(&line, &size, stdin) > 0) {
        const char *mode = strtok(line, " \n");
        hayro_ccitt_settings settings = {0, 0, 0, 0, 0};
        settings.columns = (uint32_t)strtoul(strtok(NULL, " \n"), NULL, 10);
        settings.rows = (uint32_t)strtoul(strtok(NULL, " \n"), NULL, 10);
        const char *letters = strtok(NULL, " \n");
        answer(mode, &settings, letters, strtok(NULL, " \n"));
    }
    free(line);
    return 0;
}
