/* MuPDF's filter for CCITTFaxDecode, by this library: a program that is linked with this file before libmupdf.a has it in place of
 * MuPDF's own.
 *
 *   cc program.c mupdf_filter.c -lhayro_ccitt -lmupdf -lmupdf-third ..
 *
 * The chain's data is read whole, and rows are decoded one at a time. After a fault the image ends, and MuPDF shows the rest white. */
#include <hayro_ccitt.h>
#include <mupdf/fitz.h>

typedef struct {
    fz_buffer *data;
    hayro_ccitt_reader reader;
    size_t width;
    uint8_t row[]; /* the last row, which the stream lends */
} fax;

static int next_fax(fz_context *ctx, fz_stream *stream, size_t max)
{
    fax *state = stream->state;
    hayro_ccitt_row outcome;
    (void)max;
    uint32_t status =
        hayro_ccitt_next_packed(state->data->data, state->data->len, &state->reader, state->row, state->width, &outcome);
    if (status != HAYRO_CCITT_OK) {
        if (status == HAYRO_CCITT_OUT_OF_MEMORY)
            fz_throw(ctx, FZ_ERROR_MEMORY, "out of memory");
        if (status != HAYRO_CCITT_NO_ROW)
            fz_warn(ctx, "fault in the fax data after %d rows", (int)outcome.rows);
        return EOF;
    }
    stream->rp = state->row;
    stream->wp = state->row + state->width;
    stream->pos += (int64_t)state->width;
    return *stream->rp++;
}

static void drop_fax(fz_context *ctx, void *opaque)
{
    fax *state = opaque;
    hayro_ccitt_close(&state->reader);
    fz_drop_buffer(ctx, state->data);
    fz_free(ctx, state);
}

fz_stream *fz_open_faxd(fz_context *ctx, fz_stream *chain, int k, int end_of_line, int encoded_byte_align, int columns, int rows,
                        int end_of_block, int black_is_1)
{
    if (columns <= 0 || rows < 0)
        fz_throw(ctx, FZ_ERROR_GENERIC, "fax image of %d columns and %d rows", columns, rows);
    size_t width = ((size_t)columns + 7) / 8;
    hayro_ccitt_settings settings = {(uint32_t)columns, (uint32_t)rows, HAYRO_CCITT_GROUP_4, 0, 0};
    if (k >= 0)
        settings.encoding = k ? HAYRO_CCITT_GROUP_3_2D : HAYRO_CCITT_GROUP_3_1D;
    settings.flags = (end_of_block ? HAYRO_CCITT_END_OF_BLOCK : 0) | (end_of_line ? HAYRO_CCITT_END_OF_LINE : 0) |
                     (encoded_byte_align ? HAYRO_CCITT_ALIGNED_ROWS : 0) | (black_is_1 ? 0 : HAYRO_CCITT_BLACK_IS_0);
    fax *state = fz_calloc(ctx, 1, sizeof *state + width);
    fz_stream *stream = NULL;
    state->width = width;
    fz_try(ctx)
    {
        state->data = fz_read_all(ctx, chain, 0);
        if (hayro_ccitt_open(state->data->data, state->data->len, &settings, &state->reader) != HAYRO_CCITT_OK)
            fz_throw(ctx, FZ_ERROR_MEMORY, "no memory for a fax image");
        stream = fz_new_stream(ctx, state, next_fax, drop_fax);
    }
    fz_catch(ctx)
    {
        drop_fax(ctx, state);
        fz_rethrow(ctx);
    }
    return stream;
}
