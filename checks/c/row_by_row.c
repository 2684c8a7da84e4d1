/* Reads each case row by row, a line each on standard input: encoding, columns, rows, flags, as hayro_ccitt.h numbers them, and the
   data in hexadecimal, `-` for none. The rows, the status, the bytes read and the repaired rows must be those of
   hayro_ccitt_decode_changes; two readers run at a time, one a row ahead, on blocks that are exactly as long as they have to be.
   Each row is refused first where there is one number less room. Then every allocation is refused in turn. The last line counts
   cases, rows, refused rows and refused allocations. */
#include "guarded.h"

#include <hayro_ccitt.h>

static unsigned long cases, rows_read, rows_refused, refusals;

/* Compares the next row of a reader, packed or listed, with a list of its changes. */
static void next_is(hayro_ccitt_reader *reader, const uint8_t *data, size_t length, uint32_t columns, const uint32_t *list, uint64_t index,
                    int is_packed) {
    hayro_ccitt_row row;
    uint32_t count = list[0];
    size_t width = (columns + 7ULL) / 8;
    if (is_packed) {
        uint8_t *packed = lend(width);
        if (width > 0) {
            must(hayro_ccitt_next_packed(data, length, reader, packed, width - 1, &row) == HAYRO_CCITT_REFUSED, "packed refused");
            rows_refused++;
        }
        must(hayro_ccitt_next_packed(data, length, reader, packed, width, &row) == HAYRO_CCITT_OK, "packed");
        for (uint64_t place = 0, black = 0, k = 1; place < columns; place++) {
            while (k <= count && list[k] == place) black ^= 1, k++;
            must((packed[place / 8] >> (7 - place % 8) & 1) == black, "pixel");
        }
        take_back(packed);
    } else {
        uint32_t *changes = lend(4ULL * count);
        if (count > 0) {
            must(hayro_ccitt_next_changes(data, length, reader, changes, count - 1, &row) == HAYRO_CCITT_REFUSED, "changes refused");
            must(row.changes == count && row.rows == index + 1, "what a refused row needs");
            rows_refused++;
        }
        must(hayro_ccitt_next_changes(data, length, reader, changes, count, &row) == HAYRO_CCITT_OK, "changes");
        must(are_same(changes, list + 1, 4ULL * count), "the changes of a row");
        take_back(changes);
    }
    must(row.rows == index + 1 && row.changes == count, "what is told of a row");
    must(row.line_start <= 8 * length && row.bytes_read <= length && row.is_cut <= 1 && row.missed_eol <= 8 * length, "fields of a row");
    rows_read++;
}

static void each_case(const uint8_t *data, size_t length, const hayro_ccitt_settings *settings) {
    hayro_ccitt_outcome listed;
    hayro_ccitt_reader first = {0, 0, 0}, second = {0, 0, 0};
    hayro_ccitt_row row;
    uint32_t status = hayro_ccitt_measure(data, length, settings, &listed), none = 0, last;
    size_t numbers = listed.rows + listed.changes;
    uint32_t *lists = lend(4 * numbers);
    if (status == HAYRO_CCITT_NOT_TAKEN) {
        must(hayro_ccitt_open(data, length, settings, &first) == HAYRO_CCITT_NOT_TAKEN && !first.is_open, "settings");
        take_back(lists);
        return;
    }
    must(hayro_ccitt_decode_changes(data, length, settings, lists, numbers, &listed) == status, "the same twice");
    must(hayro_ccitt_next_changes(data, length, &first, &none, 1, &row) == HAYRO_CCITT_NOT_TAKEN && row.rows == 0, "closed");
    must(hayro_ccitt_close(&first) == HAYRO_CCITT_NOT_TAKEN, "closed twice");
    must(hayro_ccitt_open(data, length, settings, &first) == HAYRO_CCITT_OK, "open");
    must(hayro_ccitt_open(data, length, settings, &first) == HAYRO_CCITT_NOT_TAKEN, "open twice");
    must(hayro_ccitt_open(data, length, settings, &second) == HAYRO_CCITT_OK, "two at a time");
    const uint32_t *ahead = lists, *after = lists;
    for (uint64_t index = 0; index <= listed.rows; index++) {
        if (index < listed.rows) next_is(&first, data, length, settings->columns, ahead, index, index % 3 == 1), ahead += 1 + ahead[0];
        if (index > 0) next_is(&second, data, length, settings->columns, after, index - 1, index % 2), after += 1 + after[0];
    }
    for (int again = 0; again < 3; again++) {
        last = hayro_ccitt_next_changes(data, length, again % 2 ? &second : &first, &none, 0, &row);
        must(last == (status ? status : HAYRO_CCITT_NO_ROW), "the end");
        must(row.rows == listed.rows && row.damaged_rows == listed.damaged_rows && row.missed_eols == listed.missed_eols
             && row.cut_rows == listed.cut_rows, "what is told at the end");
        must(!status || row.line_start == listed.fault_start, "the fault");
        must(row.bytes_read == (status ? (listed.fault_start + 7) / 8 : listed.bytes_read), "the bytes up to the end, or to the fault");
    }
    must(live > held && hayro_ccitt_close(&first) == HAYRO_CCITT_OK && hayro_ccitt_close(&second) == HAYRO_CCITT_OK, "close");
    must(hayro_ccitt_close(&second) == HAYRO_CCITT_NOT_TAKEN && is_freed(), "all is freed");
    /* With other data the calls return, and write nothing else. */
    must(hayro_ccitt_open(data, length, settings, &first) == HAYRO_CCITT_OK, "open again");
    for (size_t k = 0; k < length + 2; k++) {
        uint8_t *other = lend(length - length / 2);
        for (size_t place = 0; place < length - length / 2; place++) other[place] = (uint8_t)(k * 37);
        must(hayro_ccitt_next_changes(other, length - length / 2, &first, lists, numbers, &row) <= HAYRO_CCITT_NO_ROW, "other data");
        take_back(other);
    }
    must(hayro_ccitt_close(&first) == HAYRO_CCITT_OK && is_freed(), "close after other data");
    /* Closed early, and twice. */
    for (uint64_t stop = 0; stop <= listed.rows; stop += 1 + listed.rows / 3) {
        must(hayro_ccitt_open(data, length, settings, &first) == HAYRO_CCITT_OK, "open to close early");
        for (uint64_t index = 0; index < stop; index++)
            must(hayro_ccitt_next_changes(data, length, &first, lists, numbers, &row) == HAYRO_CCITT_OK, "a row before an early close");
        must(hayro_ccitt_close(&first) == HAYRO_CCITT_OK && is_freed(), "an early close");
        must(hayro_ccitt_close(&first) == HAYRO_CCITT_NOT_TAKEN && !first.is_open, "closed twice");
    }
    for (refused_at = 1;; refused_at++) {
        asked = 0;
        uint32_t opened = hayro_ccitt_open(data, length, settings, &first);
        uint32_t *changes = lend(4ULL * (listed.changes + 1));
        uint64_t index = 0;
        last = opened;
        while (last == HAYRO_CCITT_OK && (last = hayro_ccitt_next_changes(data, length, &first, changes, listed.changes, &row)) == HAYRO_CCITT_OK) index++;
        int is_refused = asked >= refused_at;
        must(opened == HAYRO_CCITT_OK || (opened == HAYRO_CCITT_OUT_OF_MEMORY && !first.is_open), "open without memory");
        /* A decoder can do without the room for a window's changes. */
        if (last == HAYRO_CCITT_OUT_OF_MEMORY)
            must(is_refused && index <= listed.rows, "rows without memory");
        else
            must(index == listed.rows && last == (status ? status : HAYRO_CCITT_NO_ROW), "rows in spite of a refusal");
        hayro_ccitt_close(&first);
        must(is_freed(), "all is freed without memory");
        take_back(changes);
        refusals += is_refused;
        if (!is_refused) break;
    }
    refused_at = 0;
    take_back(lists);
    cases++;
}

int main(void) {
    static char text[1 << 22];
    hayro_ccitt_settings settings = {0, 0, 0, 0, 0};
    while (scanf("%u %u %u %u %4194303s", &settings.encoding, &settings.columns, &settings.rows, &settings.flags, text) == 5) {
        size_t length;
        uint8_t *data = lend_bytes(text, &length);
        held = live;
        each_case(data, length, &settings);
        take_back(data);
    }
    printf("%lu cases, %lu rows, %lu refused rows, %lu refused allocations\n", cases, rows_read, rows_refused, refusals);
    return 0;
}
