/* Decodes cases, a line each on standard input: encoding, columns, rows, flags, as hayro_ccitt.h numbers them, and the data in
   hexadecimal, `-` for none. Each call is made, on blocks that are exactly as long as they must be, so that a memory checker
   sees each access beyond. The rows are encoded again in each way. For each case a line is written: the status, the bytes read, and the
   lists. */
#include "guarded.h"

#include <fax_encode.h>
#include <hayro_ccitt.h>

static void each_encoding(const uint8_t *bitmap, size_t size, uint32_t columns) {
    static const uint32_t closed = FAX_ENCODE_END_OF_BLOCK, lined = FAX_ENCODE_END_OF_LINE;
    const uint32_t ways[][2] = {
        {FAX_ENCODE_GROUP_4, closed}, {FAX_ENCODE_GROUP_4, closed + FAX_ENCODE_ALIGNED_ROWS}, {FAX_ENCODE_GROUP_3_1D, closed + lined},
        {FAX_ENCODE_GROUP_3_1D, FAX_ENCODE_ALIGNED_ROWS}, {FAX_ENCODE_GROUP_3_2D, FAX_ENCODE_LOW_FIRST},
        {FAX_ENCODE_GROUP_3_2D, closed + lined + FAX_ENCODE_EOLS_END_AT_BYTES}};
    for (size_t way = 0; way < sizeof ways / sizeof ways[0]; way++) {
        fax_encode_settings settings = {columns, ways[way][0], ways[way][1], 4, 0};
        fax_encode_outcome wanted, encoded;
        uint8_t *none = lend(0);
        uint32_t status = fax_encode_bitmap(bitmap, size, &settings, none, 0, &wanted);
        take_back(none);
        if (columns == 0 || (size == 0 && way >= 2)) {
            if (status != FAX_ENCODE_NOT_TAKEN) exit(8);
            continue;
        }
        if (status != FAX_ENCODE_REFUSED) exit(9);
        uint8_t *data = lend(wanted.bytes);
        if (fax_encode_bitmap(bitmap, size, &settings, data, wanted.bytes, &encoded) != FAX_ENCODE_OK) exit(10);
        if (memcmp(&wanted, &encoded, sizeof wanted) != 0) exit(11);
        take_back(data);
    }
}

static void each_call(const uint8_t *data, size_t length, const hayro_ccitt_settings *settings) {
    hayro_ccitt_outcome measured, listed, packed;
    uint32_t status = hayro_ccitt_measure(data, length, settings, &measured);
    size_t numbers = measured.rows + measured.changes;
    uint32_t *lists = lend(4 * numbers);
    if (hayro_ccitt_decode_changes(data, length, settings, lists, numbers, &listed) != status) exit(3);
    if (memcmp(&measured, &listed, sizeof measured) != 0) exit(4);
    size_t size = (settings->columns + 7ULL) / 8 * measured.rows;
    if (size < 1 << 20) {
        uint8_t *bitmap = lend(size);
        if (hayro_ccitt_decode_packed(data, length, settings, bitmap, size, &packed) != status) exit(5);
        if (memcmp(&measured, &packed, sizeof measured) != 0) exit(6);
        each_encoding(bitmap, size, settings->columns);
        take_back(bitmap);
    }
    printf("%u %llu", status, (unsigned long long)measured.bytes_read);
    for (size_t k = 0; k < numbers; k++) printf(" %u", lists[k]);
    printf("\n");
    take_back(lists);
}

int main(void) {
    static char hex[1 << 16];
    hayro_ccitt_settings settings = {0, 0, 0, 0, 0};
    while (scanf("%u %u %u %u %65535s", &settings.encoding, &settings.columns, &settings.rows, &settings.flags, hex) == 5) {
        size_t length;
        uint8_t *data = lend_bytes(hex, &length);
        each_call(data, length, &settings);
        take_back(data);
    }
    return 0;
}
