/* The calls of the installed library. The proved calls accept no null pointers; these replace each pointer of length 0, which may
 * be null, and then call them. The Makefile renames the proved ones to proved_*, and links them with this file. It compiles as
 * C89 and as C++. */
#include "fax_encode.h"
#include "hayro_ccitt.h"

#ifdef __cplusplus
extern "C" {
#endif

uint32_t proved_hayro_ccitt_measure(const uint8_t *, size_t, const hayro_ccitt_settings *, hayro_ccitt_outcome *);
uint32_t proved_hayro_ccitt_decode_packed(const uint8_t *, size_t, const hayro_ccitt_settings *, uint8_t *, size_t,
                                          hayro_ccitt_outcome *);
uint32_t proved_hayro_ccitt_decode_changes(const uint8_t *, size_t, const hayro_ccitt_settings *, uint32_t *, size_t,
                                           hayro_ccitt_outcome *);
uint32_t proved_hayro_ccitt_open(const uint8_t *, size_t, const hayro_ccitt_settings *, hayro_ccitt_reader *);
uint32_t proved_hayro_ccitt_next_changes(const uint8_t *, size_t, hayro_ccitt_reader *, uint32_t *, size_t, hayro_ccitt_row *);
uint32_t proved_hayro_ccitt_next_packed(const uint8_t *, size_t, hayro_ccitt_reader *, uint8_t *, size_t, hayro_ccitt_row *);
uint32_t proved_hayro_ccitt_close(hayro_ccitt_reader *);
uint32_t proved_hayro_ccitt_feed_open(const hayro_ccitt_settings *, hayro_ccitt_row_feed *);
uint32_t proved_hayro_ccitt_feed(hayro_ccitt_row_feed *, const uint8_t *, size_t);
uint32_t proved_hayro_ccitt_feed_finish(hayro_ccitt_row_feed *);
uint32_t proved_hayro_ccitt_feed_next_changes(hayro_ccitt_row_feed *, uint32_t *, size_t, hayro_ccitt_row *);
uint32_t proved_hayro_ccitt_feed_next_packed(hayro_ccitt_row_feed *, uint8_t *, size_t, hayro_ccitt_row *);
uint32_t proved_hayro_ccitt_feed_rows_changes(hayro_ccitt_row_feed *, uint32_t *, size_t, size_t *, hayro_ccitt_row *);
uint32_t proved_hayro_ccitt_feed_rows_packed(hayro_ccitt_row_feed *, uint8_t *, size_t, size_t *, hayro_ccitt_row *);
uint32_t proved_hayro_ccitt_feed_unused(hayro_ccitt_row_feed *, uint8_t *, size_t, size_t *);
uint32_t proved_hayro_ccitt_feed_close(hayro_ccitt_row_feed *);
uint32_t proved_hayro_ccitt_check(const uint8_t *, size_t, const hayro_ccitt_settings *, uint32_t, uint32_t, hayro_ccitt_violation *);
uint32_t proved_fax_encode_bitmap(const uint8_t *, size_t, const fax_encode_settings *, uint8_t *, size_t, fax_encode_outcome *);
uint32_t proved_fax_encode_open(const fax_encode_settings *, fax_encode_writer *);
uint32_t proved_fax_encode_row_packed(fax_encode_writer *, const uint8_t *, size_t);
uint32_t proved_fax_encode_row_changes(fax_encode_writer *, const uint32_t *, size_t);
uint32_t proved_fax_encode_finish(fax_encode_writer *, uint8_t *, size_t, fax_encode_outcome *);
uint32_t proved_fax_encode_close(fax_encode_writer *);

#ifdef __cplusplus
}
#endif

/* What replaces a pointer of length 0, which may be null. None of its bytes are read or written, and no two pointers of a call
 * that may be written through are the same. */
static const uint8_t no_data = 0;
static const uint32_t no_changes = 0;
static uint8_t no_bytes;
static uint32_t no_numbers;

#define OR_NONE(pointer, length, none) ((length) ? (pointer) : &(none))

uint32_t hayro_ccitt_measure(const uint8_t *data, size_t data_length, const hayro_ccitt_settings *settings,
                             hayro_ccitt_outcome *outcome)
{
    return proved_hayro_ccitt_measure(OR_NONE(data, data_length, no_data), data_length, settings, outcome);
}

uint32_t hayro_ccitt_decode_packed(const uint8_t *data, size_t data_length, const hayro_ccitt_settings *settings,
                                   uint8_t *bitmap, size_t bitmap_length, hayro_ccitt_outcome *outcome)
{
    return proved_hayro_ccitt_decode_packed(OR_NONE(data, data_length, no_data), data_length, settings,
                                            OR_NONE(bitmap, bitmap_length, no_bytes), bitmap_length, outcome);
}

uint32_t hayro_ccitt_decode_changes(const uint8_t *data, size_t data_length, const hayro_ccitt_settings *settings,
                                    uint32_t *lists, size_t lists_length, hayro_ccitt_outcome *outcome)
{
    return proved_hayro_ccitt_decode_changes(OR_NONE(data, data_length, no_data), data_length, settings,
                                             OR_NONE(lists, lists_length, no_numbers), lists_length, outcome);
}

uint32_t hayro_ccitt_open(const uint8_t *data, size_t data_length, const hayro_ccitt_settings *settings,
                          hayro_ccitt_reader *reader)
{
    return proved_hayro_ccitt_open(OR_NONE(data, data_length, no_data), data_length, settings, reader);
}

uint32_t hayro_ccitt_next_changes(const uint8_t *data, size_t data_length, hayro_ccitt_reader *reader, uint32_t *changes,
                                  size_t changes_length, hayro_ccitt_row *row)
{
    return proved_hayro_ccitt_next_changes(OR_NONE(data, data_length, no_data), data_length, reader,
                                           OR_NONE(changes, changes_length, no_numbers), changes_length, row);
}

uint32_t hayro_ccitt_next_packed(const uint8_t *data, size_t data_length, hayro_ccitt_reader *reader, uint8_t *packed,
                                 size_t packed_length, hayro_ccitt_row *row)
{
    return proved_hayro_ccitt_next_packed(OR_NONE(data, data_length, no_data), data_length, reader,
                                          OR_NONE(packed, packed_length, no_bytes), packed_length, row);
}

uint32_t hayro_ccitt_close(hayro_ccitt_reader *reader)
{
    return proved_hayro_ccitt_close(reader);
}

uint32_t hayro_ccitt_feed_open(const hayro_ccitt_settings *settings, hayro_ccitt_row_feed *feed)
{
    return proved_hayro_ccitt_feed_open(settings, feed);
}

uint32_t hayro_ccitt_feed(hayro_ccitt_row_feed *feed, const uint8_t *bytes, size_t length)
{
    return proved_hayro_ccitt_feed(feed, OR_NONE(bytes, length, no_data), length);
}

uint32_t hayro_ccitt_feed_finish(hayro_ccitt_row_feed *feed)
{
    return proved_hayro_ccitt_feed_finish(feed);
}

uint32_t hayro_ccitt_feed_next_changes(hayro_ccitt_row_feed *feed, uint32_t *changes, size_t changes_length, hayro_ccitt_row *row)
{
    return proved_hayro_ccitt_feed_next_changes(feed, OR_NONE(changes, changes_length, no_numbers), changes_length, row);
}

uint32_t hayro_ccitt_feed_next_packed(hayro_ccitt_row_feed *feed, uint8_t *packed, size_t packed_length, hayro_ccitt_row *row)
{
    return proved_hayro_ccitt_feed_next_packed(feed, OR_NONE(packed, packed_length, no_bytes), packed_length, row);
}

uint32_t hayro_ccitt_feed_rows_changes(hayro_ccitt_row_feed *feed, uint32_t *lists, size_t lists_length, size_t *count,
                                       hayro_ccitt_row *row)
{
    return proved_hayro_ccitt_feed_rows_changes(feed, OR_NONE(lists, lists_length, no_numbers), lists_length, count, row);
}

uint32_t hayro_ccitt_feed_rows_packed(hayro_ccitt_row_feed *feed, uint8_t *bitmap, size_t bitmap_length, size_t *count,
                                      hayro_ccitt_row *row)
{
    return proved_hayro_ccitt_feed_rows_packed(feed, OR_NONE(bitmap, bitmap_length, no_bytes), bitmap_length, count, row);
}

uint32_t hayro_ccitt_feed_unused(hayro_ccitt_row_feed *feed, uint8_t *bytes, size_t length, size_t *count)
{
    return proved_hayro_ccitt_feed_unused(feed, OR_NONE(bytes, length, no_bytes), length, count);
}

uint32_t hayro_ccitt_feed_close(hayro_ccitt_row_feed *feed)
{
    return proved_hayro_ccitt_feed_close(feed);
}

uint32_t hayro_ccitt_check(const uint8_t *data, size_t data_length, const hayro_ccitt_settings *settings, uint32_t grade, uint32_t k,
                           hayro_ccitt_violation *violation)
{
    return proved_hayro_ccitt_check(OR_NONE(data, data_length, no_data), data_length, settings, grade, k, violation);
}

uint32_t fax_encode_bitmap(const uint8_t *bitmap, size_t bitmap_length, const fax_encode_settings *settings,
                           uint8_t *data, size_t data_length, fax_encode_outcome *outcome)
{
    return proved_fax_encode_bitmap(OR_NONE(bitmap, bitmap_length, no_data), bitmap_length, settings,
                                    OR_NONE(data, data_length, no_bytes), data_length, outcome);
}

uint32_t fax_encode_open(const fax_encode_settings *settings, fax_encode_writer *writer)
{
    return proved_fax_encode_open(settings, writer);
}

uint32_t fax_encode_row_packed(fax_encode_writer *writer, const uint8_t *row, size_t row_length)
{
    return proved_fax_encode_row_packed(writer, OR_NONE(row, row_length, no_data), row_length);
}

uint32_t fax_encode_row_changes(fax_encode_writer *writer, const uint32_t *changes, size_t changes_length)
{
    return proved_fax_encode_row_changes(writer, OR_NONE(changes, changes_length, no_changes), changes_length);
}

uint32_t fax_encode_finish(fax_encode_writer *writer, uint8_t *data, size_t data_length, fax_encode_outcome *outcome)
{
    return proved_fax_encode_finish(writer, OR_NONE(data, data_length, no_bytes), data_length, outcome);
}

uint32_t fax_encode_close(fax_encode_writer *writer)
{
    return proved_fax_encode_close(writer);
}
