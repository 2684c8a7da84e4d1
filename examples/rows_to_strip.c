/* Encodes packed rows on standard input as Group 4, closed by EOFB, and writes the strip to standard output:
 *
 *   rows_to_strip COLUMNS < rows > strip
 *
 * A row has (COLUMNS + 7) / 8 bytes, 1 for black, as rows_to_pbm writes it. One row is in memory at a time, beside the strip. */
#include <fax_encode.h>
#include <stdio.h>
#include <stdlib.h>

/* Adds all rows, and finishes the strip. Returns the last status, with the bytes if it is FAX_ENCODE_OK. */
static uint32_t write_strip(fax_encode_writer *writer, uint8_t *row, size_t width, uint8_t **data, fax_encode_outcome *outcome)
{
    uint32_t status = FAX_ENCODE_OK;
    while (status == FAX_ENCODE_OK && fread(row, 1, width, stdin) == width)
        status = fax_encode_row_packed(writer, row, width);
    /* A call without room returns the number of bytes. */
    if (status == FAX_ENCODE_OK)
        status = fax_encode_finish(writer, NULL, 0, outcome);
    if (status == FAX_ENCODE_REFUSED && (*data = malloc(outcome->bytes)))
        status = fax_encode_finish(writer, *data, outcome->bytes, outcome);
    return status;
}

int main(int count, char **words)
{
    fax_encode_settings settings = {0, FAX_ENCODE_GROUP_4, FAX_ENCODE_END_OF_BLOCK, 0, 0};
    fax_encode_writer writer = {0, 0, 0, 0};
    fax_encode_outcome outcome = {0, 0};
    uint8_t *row, *data = NULL;
    uint32_t status;
    size_t width;
    int is_written;
    if (count != 2)
        return 2;
    settings.columns = (uint32_t)strtoul(words[1], NULL, 10);
    width = (settings.columns + (size_t)7) / 8;
    row = malloc(width + 1);
    status = row ? fax_encode_open(&settings, &writer) : FAX_ENCODE_OUT_OF_MEMORY;
    if (status == FAX_ENCODE_OK)
        status = write_strip(&writer, row, width, &data, &outcome);
    fax_encode_close(&writer);
    is_written = status == FAX_ENCODE_OK && !ferror(stdin) && fwrite(data, 1, outcome.bytes, stdout) == outcome.bytes
        && fflush(stdout) == 0;
    free(data);
    free(row);
    return is_written ? 0 : 1;
}
