/* One encoding of a bitmap of rows of alternate pixels, for callgrind to count its instructions:
 *
 *   measured_encoding ENCODING COLUMNS ROWS LETTERS
 *
 * ENCODING is 0 for Group 4 with EOFB, 1 for one-dimensional Group 3 with EOLs and RTC. LETTERS: m as faxpack's, w where each second
 * row is white, or -. It prints the status, the rows and the bytes. Callgrind is given --toggle-collect=measured. */
#include <stdio.h>
#include <stdlib.h>
#include <string.h>

#include <fax_encode.h>

static fax_encode_settings settings;
static fax_encode_outcome outcome;
static uint8_t *bitmap, *data;
static size_t length, room;

__attribute__((noinline)) static uint32_t measured(void)
{
    return fax_encode_bitmap(bitmap, length, &settings, data, room, &outcome);
}

int main(int count, char **words)
{
    if (count != 5)
        return 2;
    settings = (fax_encode_settings){strtoul(words[2], NULL, 10), strtoul(words[1], NULL, 10), FAX_ENCODE_END_OF_BLOCK, 0, 0};
    if (settings.encoding == FAX_ENCODE_GROUP_3_1D)
        settings.flags += FAX_ENCODE_END_OF_LINE;
    if (strchr(words[4], 'm'))
        settings.flags += FAX_ENCODE_SHORTEST;
    size_t width = ((size_t)settings.columns + 7) / 8;
    length = width * strtoul(words[3], NULL, 10);
    room = 8 * length + 64;
    bitmap = malloc(length);
    data = malloc(room);
    if (!bitmap || !data)
        return 3;
    memset(bitmap, 0x55, length);
    if (strchr(words[4], 'w'))
        for (size_t at = width; at < length; at += 2 * width)
            memset(bitmap + at, 0, width);
    uint32_t status = measured();
    printf("%u %lu %lu\n", status, (unsigned long)outcome.rows, (unsigned long)outcome.bytes);
    return 0;
}
