/* A strip decoded, or a bitmap encoded, by libtiff:
 *
 *   by_libtiff decode MODE COLUMNS ROWS FILE < strip > bitmap
 *   by_libtiff encode MODE COLUMNS ROWS FILE < bitmap > strip
 *
 * MODE is g4, 1d, 2d, or rle: lines of 1d without EOLs, aligned to bytes. After it may come a colon and letters: f for EOLs that
 * end at whole bytes, r for the lowest bit of each byte first, h for a high resolution, at which libtiff's K is 4, and not 2. FILE
 * is a name for a TIFF file of one strip. The status is 0 if libtiff reports neither an error nor a warning. */
#include <stdint.h>
#include <stdio.h>
#include <stdlib.h>
#include <string.h>
#include <tiffio.h>

static int told;

static void say(const char *module, const char *text, va_list words)
{
    fprintf(stderr, "%s: ", module);
    vfprintf(stderr, text, words);
    fputc('\n', stderr);
    told = 1;
}

static TIFF *opened(const char *name, const char *way)
{
    TIFF *tiff = TIFFOpen(name, way);
    if (!tiff)
        exit(3);
    return tiff;
}

int main(int count, char **words)
{
    if (count != 6)
        return 2;
    TIFFSetErrorHandler(say);
    TIFFSetWarningHandler(say);
    int decodes = !strcmp(words[1], "decode");
    const char *mode = words[2], *letters = strchr(mode, ':');
    uint32_t columns = strtoul(words[3], NULL, 10), rows = strtoul(words[4], NULL, 10);
    size_t size = ((size_t)columns + 7) / 8 * rows, room = 16 * size + (1 << 16);
    uint8_t *in = malloc(room), *out = calloc(1, room);
    if (!in || !out)
        return 3;
    size_t length = fread(in, 1, room, stdin);

    TIFF *tiff = opened(words[5], "w");
    TIFFSetField(tiff, TIFFTAG_IMAGEWIDTH, columns);
    TIFFSetField(tiff, TIFFTAG_IMAGELENGTH, rows);
    TIFFSetField(tiff, TIFFTAG_ROWSPERSTRIP, rows);
    TIFFSetField(tiff, TIFFTAG_BITSPERSAMPLE, 1);
    TIFFSetField(tiff, TIFFTAG_PHOTOMETRIC, PHOTOMETRIC_MINISWHITE);
    TIFFSetField(tiff, TIFFTAG_COMPRESSION,
                 *mode == 'g' ? COMPRESSION_CCITTFAX4 : *mode == 'r' ? COMPRESSION_CCITTRLE : COMPRESSION_CCITTFAX3);
    if (*mode == '1' || *mode == '2')
        TIFFSetField(tiff, TIFFTAG_GROUP3OPTIONS,
                     (*mode == '2' ? GROUP3OPT_2DENCODING : 0) | (letters && strchr(letters, 'f') ? GROUP3OPT_FILLBITS : 0));
    if (letters && strchr(letters, 'r'))
        TIFFSetField(tiff, TIFFTAG_FILLORDER, FILLORDER_LSB2MSB);
    if (letters && strchr(letters, 'h'))
        TIFFSetField(tiff, TIFFTAG_YRESOLUTION, 196.0);
    tmsize_t made = decodes ? TIFFWriteRawStrip(tiff, 0, in, length) : TIFFWriteEncodedStrip(tiff, 0, in, length);
    TIFFClose(tiff);

    tiff = opened(words[5], "r");
    if (made >= 0)
        made = decodes ? TIFFReadEncodedStrip(tiff, 0, out, size) : TIFFReadRawStrip(tiff, 0, out, room);
    TIFFClose(tiff);
    return made < 0 || fwrite(out, 1, made, stdout) != (size_t)made || told;
}
