/* Decodes Group 4 data from a file, row by row, and writes the packed rows to standard output:
 *
 *   rows_to_pbm FILE COLUMNS > rows
 *
 * A row has (COLUMNS + 7) / 8 bytes, 1 for black. One row is in memory at a time, beside the data. */
#include <hayro_ccitt.h>
#include <stdio.h>
#include <stdlib.h>

static uint8_t data[1 << 24];

int main(int count, char **words)
{
    hayro_ccitt_settings settings = {0, 0, HAYRO_CCITT_GROUP_4, HAYRO_CCITT_END_OF_BLOCK, 0};
    hayro_ccitt_reader reader = {0, 0, 0};
    hayro_ccitt_row row;
    FILE *file = count == 3 ? fopen(words[1], "rb") : NULL;
    size_t length, width;
    uint8_t *packed;
    uint32_t status;
    if (!file)
        return 2;
    length = fread(data, 1, sizeof data, file);
    settings.columns = (uint32_t)strtoul(words[2], NULL, 10);
    width = (settings.columns + (size_t)7) / 8;
    packed = malloc(width + 1);
    if (fclose(file) != 0 || !packed)
        return 2;
    status = hayro_ccitt_open(data, length, &settings, &reader);
    while (status == HAYRO_CCITT_OK) {
        status = hayro_ccitt_next_packed(data, length, &reader, packed, width, &row);
        if (status == HAYRO_CCITT_OK && fwrite(packed, 1, width, stdout) != width)
            status = HAYRO_CCITT_NO_ROW + 1;
    }
    hayro_ccitt_close(&reader);
    free(packed);
    return status == HAYRO_CCITT_NO_ROW && fflush(stdout) == 0 ? 0 : 1;
}
