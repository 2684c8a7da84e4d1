/* Encodes each case row by row, a line each on standard input: columns, encoding, flags and k, as fax_encode.h numbers them, and
   the bitmap in hexadecimal, `-` for none. The strip, or the status, must be that of fax_encode_bitmap; two writers run at a time,
   one by packed rows and one by changes, on blocks that are exactly as long as they have to be. The strip is refused first where
   there is one byte less room. Then every allocation is refused in turn. The last line counts cases, rows, bytes, cases that are
   not taken, and refused allocations. */
#include "guarded.h"

#include <fax_encode.h>

/* What stands where nothing is read or written. */
static const uint32_t no_changes[1];
static uint8_t no_bytes[1];

static unsigned long cases, rows_added, bytes_given, not_taken, refusals;

/* Adds a row of a bitmap by its changes. */
static uint32_t add_changes(fax_encode_writer *writer, const uint8_t *row, uint32_t columns) {
    uint32_t *changes = lend(4ULL * columns), count = 0;
    for (uint32_t place = 0, black = 0; place < columns; place++)
        if ((row[place / 8] >> (7 - place % 8) & 1u) != black) black ^= 1, changes[count++] = place;
    uint32_t *exact = lend(4ULL * count);
    copy(exact, changes, 4ULL * count);
    uint32_t status = fax_encode_row_changes(writer, exact, count);
    take_back(changes);
    take_back(exact);
    return status;
}

/* Adds a row of a bitmap, packed, from a block of its own. */
static uint32_t add_packed(fax_encode_writer *writer, const uint8_t *row, size_t width) {
    uint8_t *exact = lend(width);
    memcpy(exact, row, width);
    uint32_t status = fax_encode_row_packed(writer, exact, width);
    take_back(exact);
    return status;
}

/* Refuses what is no row of this width, and stays as it is. */
static void no_rows(fax_encode_writer *writer, uint32_t columns, size_t width) {
    uint8_t *shorter = lend(width - 1);
    const uint32_t wide[1] = {columns}, falling[2] = {0, 0};
    must(fax_encode_row_packed(writer, shorter, width - 1) == FAX_ENCODE_NOT_TAKEN, "a row that is too short");
    must(fax_encode_row_changes(writer, wide, 1) == FAX_ENCODE_NOT_TAKEN, "a change at the width");
    must(fax_encode_row_changes(writer, falling, 2) == FAX_ENCODE_NOT_TAKEN, "changes that don't ascend");
    take_back(shorter);
}

/* The strip of a writer must be these bytes: after a call without room, one with a byte less, and again. */
static void strip_is(fax_encode_writer *writer, const uint8_t *strip, const fax_encode_outcome *told) {
    fax_encode_outcome outcome = {7, 7};
    uint8_t *data = lend(told->bytes);
    must(fax_encode_finish(writer, no_bytes, 0, &outcome) == FAX_ENCODE_REFUSED, "no room at all");
    must(outcome.rows == told->rows && outcome.bytes == told->bytes, "how much room is needed");
    must(fax_encode_finish(writer, data, told->bytes - 1, &outcome) == FAX_ENCODE_REFUSED && outcome.bytes == told->bytes, "a byte less");
    for (int again = 0; again < 2; again++) {
        memset(data, 0xA5, told->bytes);
        must(fax_encode_finish(writer, data, told->bytes, &outcome) == FAX_ENCODE_OK, "finish");
        must(outcome.rows == told->rows && outcome.bytes == told->bytes && are_same(data, strip, told->bytes), "the bytes");
    }
    must(fax_encode_row_changes(writer, no_changes, 0) == FAX_ENCODE_NOT_TAKEN, "a row after the strip");
    take_back(data);
}

static void each_case(const uint8_t *bitmap, size_t length, const fax_encode_settings *settings) {
    fax_encode_writer first = {0, 0, 0, 0}, second = {0, 0, 0, 0};
    fax_encode_outcome told, outcome;
    size_t width = (settings->columns + 7ULL) / 8;
    uint8_t none = 0xA5;
    must(fax_encode_row_changes(&first, no_changes, 0) == FAX_ENCODE_NOT_TAKEN && fax_encode_row_packed(&first, &none, 1) == FAX_ENCODE_NOT_TAKEN, "a closed writer");
    must(fax_encode_finish(&first, &none, 1, &outcome) == FAX_ENCODE_NOT_TAKEN && !outcome.rows && !outcome.bytes && none == 0xA5, "a closed strip");
    must(fax_encode_close(&first) == FAX_ENCODE_NOT_TAKEN, "closed twice");
    uint32_t status = fax_encode_bitmap(bitmap, length, settings, no_bytes, 0, &told);
    if (fax_encode_open(settings, &first) == FAX_ENCODE_NOT_TAKEN) {
        must(status == FAX_ENCODE_NOT_TAKEN && !first.is_open && !first.strip && is_freed(), "settings");
        not_taken++;
        return;
    }
    must(fax_encode_open(settings, &first) == FAX_ENCODE_NOT_TAKEN && first.is_open, "open twice");
    must(fax_encode_open(settings, &second) == FAX_ENCODE_OK, "two at a time");
    if (status == FAX_ENCODE_NOT_TAKEN) {
        must(fax_encode_finish(&first, &none, 1, &outcome) == FAX_ENCODE_NOT_TAKEN && !outcome.bytes, "no rows");
        must(add_changes(&first, &none, 0) == FAX_ENCODE_OK && fax_encode_finish(&first, no_bytes, 0, &outcome) == FAX_ENCODE_REFUSED && outcome.rows == 1, "a row after all");
        must(fax_encode_close(&first) == FAX_ENCODE_OK && fax_encode_close(&second) == FAX_ENCODE_OK && is_freed(), "close without rows");
        not_taken++;
        return;
    }
    uint8_t *strip = lend(told.bytes);
    must(status == FAX_ENCODE_REFUSED && fax_encode_bitmap(bitmap, length, settings, strip, told.bytes, &outcome) == FAX_ENCODE_OK, "the bitmap");
    for (uint64_t index = 0; index < told.rows; index++) {
        no_rows(index % 2 ? &first : &second, settings->columns, width);
        must(add_packed(&first, bitmap + index * width, width) == FAX_ENCODE_OK, "a packed row");
        must(add_changes(&second, bitmap + index * width, settings->columns) == FAX_ENCODE_OK, "changes");
        rows_added++;
    }
    strip_is(&first, strip, &told);
    strip_is(&second, strip, &told);
    must(live > held && fax_encode_close(&first) == FAX_ENCODE_OK && fax_encode_close(&second) == FAX_ENCODE_OK, "close");
    must(fax_encode_close(&second) == FAX_ENCODE_NOT_TAKEN && is_freed(), "all is freed");
    /* Closed early, and twice. */
    for (uint64_t stop = 0; stop <= told.rows; stop += 1 + told.rows / 3) {
        must(fax_encode_open(settings, &first) == FAX_ENCODE_OK, "open to close early");
        for (uint64_t index = 0; index < stop; index++) must(add_packed(&first, bitmap + index * width, width) == FAX_ENCODE_OK, "a row before an early close");
        must(fax_encode_close(&first) == FAX_ENCODE_OK && is_freed(), "an early close");
        must(fax_encode_close(&first) == FAX_ENCODE_NOT_TAKEN && !first.is_open, "closed twice");
    }
    for (int is_packed = 0; is_packed < 2; is_packed++)
        for (refused_at = 1;; refused_at++) {
            asked = 0;
            uint8_t *data = lend(told.bytes);
            uint32_t last = fax_encode_open(settings, &first);
            must(last == FAX_ENCODE_OK || (last == FAX_ENCODE_OUT_OF_MEMORY && !first.is_open), "open without memory");
            for (uint64_t index = 0; index < told.rows && last == FAX_ENCODE_OK; index++)
                last = is_packed ? add_packed(&first, bitmap + index * width, width) : add_changes(&first, bitmap + index * width, settings->columns);
            if (last == FAX_ENCODE_OK) last = fax_encode_finish(&first, data, told.bytes, &outcome);
            int is_refused = asked >= refused_at;
            must(last == (is_refused ? FAX_ENCODE_OUT_OF_MEMORY : FAX_ENCODE_OK), "a refused allocation");
            must(is_refused || are_same(data, strip, told.bytes), "the bytes without a refusal");
            if (is_refused && first.is_open) {
                must(fax_encode_row_changes(&first, no_changes, 0) == FAX_ENCODE_OUT_OF_MEMORY, "a row after an allocation failed");
                must(fax_encode_finish(&first, data, told.bytes, &outcome) == FAX_ENCODE_OUT_OF_MEMORY && !outcome.bytes, "a strip after an allocation failed");
            }
            fax_encode_close(&first);
            must(is_freed(), "all is freed without memory");
            take_back(data);
            refusals += is_refused;
            if (!is_refused) break;
        }
    refused_at = 0;
    bytes_given += told.bytes;
    take_back(strip);
    cases++;
}

int main(void) {
    static char text[1 << 22];
    fax_encode_settings settings = {0, 0, 0, 0, 0};
    while (scanf("%u %u %u %u %4194303s", &settings.columns, &settings.encoding, &settings.flags, &settings.k, text) == 5) {
        size_t length;
        uint8_t *bitmap = lend_bytes(text, &length);
        held = live;
        each_case(bitmap, length, &settings);
        take_back(bitmap);
    }
    printf("%lu cases, %lu rows, %lu bytes, %lu not taken, %lu refused allocations\n", cases, rows_added, bytes_given, not_taken, refusals);
    return 0;
}
