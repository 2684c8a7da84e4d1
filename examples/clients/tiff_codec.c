/* libtiff's codecs for compression 2, 3 and 4, whose strips and tiles are decoded by this library: after register_fax_codecs(),
 * TIFFReadEncodedStrip, TIFFReadEncodedTile and what calls them use it. Tags, and rows by TIFFReadScanline, stay libtiff's.
 *
 *   cc program.c tiff_codec.c -ILIBTIFF/libtiff -ltiff -lhayro_ccitt
 *
 * A codec reads the fields of TIFF, which libtiff's header tiffiop.h declares: LIBTIFF is the source of the libtiff that is linked,
 * configured. */
#include "tiffiop.h"
#include <hayro_ccitt.h>

static TIFFInitMethod libtiffs[5]; /* by the number of the compression */

static hayro_ccitt_settings settings_of(TIFF *tif)
{
    hayro_ccitt_settings settings = {0, 0, HAYRO_CCITT_GROUP_4, HAYRO_CCITT_END_OF_BLOCK, 0};
    uint32_t options = 0;
    settings.columns = isTiled(tif) ? tif->tif_dir.td_tilewidth : tif->tif_dir.td_imagewidth;
    if (tif->tif_dir.td_compression == COMPRESSION_CCITTRLE) {
        settings.encoding = HAYRO_CCITT_GROUP_3_1D;
        settings.flags = HAYRO_CCITT_ALIGNED_ROWS;
    } else if (tif->tif_dir.td_compression == COMPRESSION_CCITTFAX3) {
        TIFFGetField(tif, TIFFTAG_GROUP3OPTIONS, &options);
        settings.encoding = options & GROUP3OPT_2DENCODING ? HAYRO_CCITT_GROUP_3_2D : HAYRO_CCITT_GROUP_3_1D;
        settings.flags = 0;
    }
    if (tif->tif_dir.td_fillorder == FILLORDER_LSB2MSB)
        settings.flags |= HAYRO_CCITT_LOW_FIRST;
    return settings;
}

/* Decodes whole rows of a strip or tile. Rows that the data doesn't have are white. */
static int decode(TIFF *tif, uint8_t *bitmap, tmsize_t size, uint16_t sample)
{
    hayro_ccitt_settings settings = settings_of(tif);
    hayro_ccitt_outcome outcome;
    size_t width = ((size_t)settings.columns + 7) / 8;
    (void)sample;
    if (!width || (size_t)size % width) {
        TIFFErrorExtR(tif, "fax", "Fractional scanlines cannot be read");
        return -1;
    }
    settings.rows = (uint32_t)((size_t)size / width);
    memset(bitmap, 0, (size_t)size);
    uint32_t status = hayro_ccitt_decode_packed(tif->tif_rawcp, (size_t)tif->tif_rawcc, &settings, bitmap, (size_t)size, &outcome);
    if (status == HAYRO_CCITT_OUT_OF_MEMORY) {
        TIFFErrorExtR(tif, "fax", "Out of memory");
        return -1;
    }
    if (status != HAYRO_CCITT_OK || outcome.rows < settings.rows || outcome.damaged_rows || outcome.cut_rows || outcome.missed_eols)
        TIFFWarningExtR(tif, "fax", "Damaged data: %u of %u rows, %u of them repaired, %u cut", (unsigned)outcome.rows, settings.rows,
                        (unsigned)outcome.damaged_rows, (unsigned)outcome.cut_rows);
    tif->tif_rawcp += outcome.bytes_read;
    tif->tif_rawcc -= (tmsize_t)outcome.bytes_read;
    return 1;
}

static int init(TIFF *tif, int scheme)
{
    if (!libtiffs[scheme](tif, scheme))
        return 0;
    tif->tif_decodestrip = decode;
    tif->tif_decodetile = decode;
    return 1;
}

/* Registers the codecs. Returns 0 if libtiff can't. */
int register_fax_codecs(void)
{
    for (uint16_t scheme = COMPRESSION_CCITTRLE; scheme <= COMPRESSION_CCITTFAX4; scheme++) {
        libtiffs[scheme] = TIFFFindCODEC(scheme)->init;
        if (!TIFFRegisterCODEC(scheme, "proved fax", init))
            return 0;
    }
    return 1;
}
