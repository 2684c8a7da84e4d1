/* The MMR of jbig2dec: a program that is linked with this file before libjbig2dec.a has it in place of jbig2dec's own.
 *
 *   cc program.c jbig2_mmr.c -lhayro_ccitt libjbig2dec.a
 *
 * The two functions are those of jbig2dec's jbig2_mmr.c (0.19). An image has rows of `stride` bytes, 1 for black. */
#include <hayro_ccitt.h>
#include <jbig2.h>
#include <string.h>

int jbig2_decode_generic_mmr(Jbig2Ctx *, void *segment, const void *params, const uint8_t *data, size_t size, Jbig2Image *image);
int jbig2_decode_halftone_mmr(Jbig2Ctx *, const void *params, const uint8_t *data, size_t size, Jbig2Image *image, size_t *consumed);

/* Decodes the rows of an image. Returns the bytes consumed, with the EOFB if it is there (T.88 section 6.2.6); rows that the data doesn't
 * have are white. */
static size_t decode(const uint8_t *data, size_t size, Jbig2Image *image, int *failed)
{
    const hayro_ccitt_settings settings = {image->width, image->height, HAYRO_CCITT_GROUP_4, HAYRO_CCITT_END_OF_BLOCK, 0};
    hayro_ccitt_reader reader = {0, 0, 0};
    hayro_ccitt_row row = {0};
    uint32_t status = hayro_ccitt_open(data, size, &settings, &reader);
    memset(image->data, 0, (size_t)image->stride * image->height);
    for (uint32_t at = 0; status == HAYRO_CCITT_OK && at < image->height; at++)
        status = hayro_ccitt_next_packed(data, size, &reader, image->data + (size_t)at * image->stride, image->stride, &row);
    if (status == HAYRO_CCITT_OK)
        status = hayro_ccitt_next_packed(data, size, &reader, image->data, 0, &row); /* the end, and the bytes consumed */
    hayro_ccitt_close(&reader);
    *failed = status == HAYRO_CCITT_OUT_OF_MEMORY || status == HAYRO_CCITT_NOT_TAKEN;
    return row.bytes_read;
}

int jbig2_decode_generic_mmr(Jbig2Ctx *ctx, void *segment, const void *params, const uint8_t *data, size_t size, Jbig2Image *image)
{
    int failed;
    (void)ctx, (void)segment, (void)params;
    decode(data, size, image, &failed);
    return failed ? -1 : 0;
}

int jbig2_decode_halftone_mmr(Jbig2Ctx *ctx, const void *params, const uint8_t *data, size_t size, Jbig2Image *image, size_t *consumed)
{
    int failed;
    (void)ctx, (void)params;
    *consumed += decode(data, size, image, &failed);
    return failed ? -1 : 0;
}
