/* One encoding of a bitmap, for callgrind to count its instructions:
 *
 *   encode ENCODER ENCODING K COLUMNS BITMAP STRIP
 *
 * ENCODER is `ours`, `shortest`, which is ours with FAX_ENCODE_SHORTEST, or `tiff`. ENCODING is 0 for Group 4, 1 for
 * one-dimensional Group 3, 2 for two-dimensional, in which K is 2 or 4, as libtiff chooses for 100 and 200 lines an inch. The strip
 * is written to STRIP.
 * Callgrind is given --toggle-collect=measured. */
#include "../c/fax_encode.h"
#include <stdio.h>
#include <stdlib.h>
#include <string.h>
#include <tiffio.h>
#include <unistd.h>

static fax_encode_settings settings;
static fax_encode_outcome outcome;
static uint8_t *bitmap, *strip;
static size_t length, room;
static TIFF *tiff;

/* A file of one strip, whose encoding is set when the strip is written. */
static TIFF *tiff_to_write(char *name)
{
    int file = mkstemp(name);
    if (file < 0)
        exit(3);
    close(file);
    uint32_t rows = (uint32_t)(length / (((size_t)settings.columns + 7) / 8));
    TIFF *made = TIFFOpen(name, "w");
    TIFFSetField(made, TIFFTAG_IMAGEWIDTH, settings.columns);
    TIFFSetField(made, TIFFTAG_IMAGELENGTH, rows);
    TIFFSetField(made, TIFFTAG_ROWSPERSTRIP, rows);
    TIFFSetField(made, TIFFTAG_BITSPERSAMPLE, 1);
    TIFFSetField(made, TIFFTAG_PHOTOMETRIC, PHOTOMETRIC_MINISWHITE);
    TIFFSetField(made, TIFFTAG_COMPRESSION, settings.encoding ? COMPRESSION_CCITTFAX3 : COMPRESSION_CCITTFAX4);
    TIFFSetField(made, TIFFTAG_YRESOLUTION, 50.0 * settings.k);
    if (settings.encoding == FAX_ENCODE_GROUP_3_2D)
        TIFFSetField(made, TIFFTAG_GROUP3OPTIONS, GROUP3OPT_2DENCODING);
    return made;
}

__attribute__((noinline)) static void measured(int by_tiff)
{
    if (by_tiff ? TIFFWriteEncodedStrip(tiff, 0, bitmap, length) < 0
                : fax_encode_bitmap(bitmap, length, &settings, strip, room, &outcome) != FAX_ENCODE_OK)
        exit(4);
}

int main(int count, char **words)
{
    if (count != 7)
        return 2;
    int by_tiff = !strcmp(words[1], "tiff");
    uint32_t columns = strtoul(words[4], NULL, 10), encoding = strtoul(words[2], NULL, 10), k = strtoul(words[3], NULL, 10);
    settings = (fax_encode_settings){columns, encoding, FAX_ENCODE_END_OF_BLOCK, k, 0};
    if (settings.encoding != FAX_ENCODE_GROUP_4)
        settings.flags += FAX_ENCODE_END_OF_LINE;
    if (!strcmp(words[1], "shortest"))
        settings.flags += FAX_ENCODE_SHORTEST;
    FILE *file = fopen(words[5], "rb");
    if (!file || fseek(file, 0, SEEK_END))
        return 3;
    length = ftell(file);
    rewind(file);
    bitmap = malloc(length + 1);
    if (!bitmap || fread(bitmap, 1, length, file) != length)
        return 3;
    room = 16 * length + 64;
    strip = malloc(room);
    char name[] = "/tmp/strip-XXXXXX";
    if (by_tiff)
        tiff = tiff_to_write(name);
    measured(by_tiff);
    if (by_tiff) {
        TIFFClose(tiff);
        tiff = TIFFOpen(name, "r");
        outcome.bytes = TIFFReadRawStrip(tiff, 0, strip, room);
        TIFFClose(tiff);
        unlink(name);
    }
    file = fopen(words[6], "wb");
    return !file || fwrite(strip, 1, outcome.bytes, file) != outcome.bytes || fclose(file) ? 3 : 0;
}
