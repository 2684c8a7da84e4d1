/* libtiff on a strip in memory: a TIFF file of one strip is written around the data, by libtiff itself, in a temporary file
 * that is deleted when the program ends. */
#include "../c/hayro_ccitt.h"
#include <stdlib.h>
#include <tiffio.h>
#include <unistd.h>

void *tiff_of_strip(const uint8_t *data, size_t length, const hayro_ccitt_settings *settings);
uint32_t tiff_decode_packed(void *tiff, uint8_t *bitmap, size_t length);

void *tiff_of_strip(const uint8_t *data, size_t length, const hayro_ccitt_settings *settings)
{
    char name[] = "/tmp/strip-XXXXXX";
    int file = mkstemp(name);
    if (file < 0)
        return NULL;
    close(file);
    TIFFSetWarningHandler(NULL);
    TIFF *tiff = TIFFOpen(name, "w");
    TIFFSetField(tiff, TIFFTAG_IMAGEWIDTH, settings->columns);
    TIFFSetField(tiff, TIFFTAG_IMAGELENGTH, settings->rows);
    TIFFSetField(tiff, TIFFTAG_ROWSPERSTRIP, settings->rows);
    TIFFSetField(tiff, TIFFTAG_BITSPERSAMPLE, 1);
    TIFFSetField(tiff, TIFFTAG_PHOTOMETRIC, PHOTOMETRIC_MINISWHITE);
    if (settings->encoding == HAYRO_CCITT_GROUP_4) {
        TIFFSetField(tiff, TIFFTAG_COMPRESSION, COMPRESSION_CCITTFAX4);
    } else {
        TIFFSetField(tiff, TIFFTAG_COMPRESSION, COMPRESSION_CCITTFAX3);
        TIFFSetField(tiff, TIFFTAG_GROUP3OPTIONS, settings->encoding == HAYRO_CCITT_GROUP_3_2D ? GROUP3OPT_2DENCODING : 0);
    }
    TIFFWriteRawStrip(tiff, 0, (void *)data, length);
    TIFFClose(tiff);
    tiff = TIFFOpen(name, "r");
    unlink(name);
    return tiff;
}

uint32_t tiff_decode_packed(void *tiff, uint8_t *bitmap, size_t length)
{
    return TIFFReadEncodedStrip(tiff, 0, bitmap, length) < 0;
}
