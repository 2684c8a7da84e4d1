/* Makes each call on cases with known results, a line each on standard input. The library has to hold no block after any of them.

     d ENCODING COLUMNS ROWS FLAGS DATA STATUS ROWS CHANGES BYTES_READ COUNT NUMBER ..

   is data to decode: its status, what is told, and the lists. Each call is made with exactly enough room, with one byte or number more,
   with one less, and with none.

     p ENCODING COLUMNS ROWS FLAGS STRIDE DATA STATUS ROWS BITMAP

   is data to pack, and the bitmap, whose bytes between the rows are as they were lent: with exactly enough room, with more, with too
   little for each row; and by a reader, row by row. With settings that aren't taken every call says so, and writes nothing.

     e COLUMNS ENCODING FLAGS K STRIDE BITMAP STATUS ROWS DATA

   is a bitmap to encode: with exactly enough room, with nine bytes more, and with each smaller room; and by a writer, row by row. A
   writer takes no stride that a bitmap may not have.

     c ENCODING COLUMNS ROWS FLAGS DATA GRADE K STATUS PLACE RULE

   is data to check, and what is found: with the outcome exactly as long as it must be, strictly and not, and whatever the polarity.
   Bytes are in hexadecimal, `-` for none, and numbers as the headers have them. The last line counts calls. */
#include "guarded.h"

#include <fax_encode.h>
#include <hayro_ccitt.h>

static const char *const texts[] = HAYRO_CCITT_RULE_TEXTS;
static unsigned long calls;

/* Whether a call ended so, and the library holds no block. */
static void ended(uint32_t status, uint32_t wanted, const char *what) {
    must(status == wanted, what);
    must(is_freed(), "every block is freed");
    calls++;
}

static void told(const hayro_ccitt_outcome *outcome, uint32_t status, size_t length, uint64_t rows, uint64_t changes, uint64_t bytes_read) {
    must(outcome->rows == rows && outcome->changes == changes && outcome->bytes_read == bytes_read, "what is told");
    must(status >= 1 && status <= 5 ? outcome->fault_start <= 8 * length : outcome->fault_start == 0, "where the fault is");
}

typedef struct {
    size_t length, count;
    uint32_t status, columns;
    uint64_t rows, changes, bytes_read;
    const uint8_t *data;
    const uint32_t *lists;
    hayro_ccitt_settings settings;
} known;

/* The rows that fit into this many numbers, as many as are told, and how many numbers they take. */
static void listed_in(const known *it, size_t room, uint64_t *rows, uint64_t *changes, size_t *taken) {
    for (*rows = *changes = *taken = 0; *rows < it->rows && *taken + 1 + it->lists[*taken] <= room; ++*rows) {
        *changes += it->lists[*taken];
        *taken += 1 + it->lists[*taken];
    }
}

static void list_rows(const known *it, size_t room) {
    hayro_ccitt_outcome outcome;
    uint32_t *lists = lend(4 * room);
    uint64_t rows, changes;
    size_t taken;
    listed_in(it, room, &rows, &changes, &taken);
    uint32_t wanted = rows == it->rows ? it->status : HAYRO_CCITT_REFUSED;
    ended(hayro_ccitt_decode_changes(it->data, it->length, &it->settings, lists, room, &outcome), wanted, "the status of the lists");
    told(&outcome, wanted, it->length, rows, changes, rows == it->rows ? it->bytes_read : 0);
    must(are_same(lists, it->lists, 4 * taken), "the lists");
    must(is_untouched_after(lists, 4 * taken, 4 * room), "nothing is listed after the last row");
    take_back(lists);
}

/* Whether the rows of a bitmap are those of the lists. */
static int are_rows(const known *it, const uint8_t *packed, uint64_t rows) {
    const uint32_t *list = it->lists;
    size_t width = (it->columns + 7ULL) / 8;
    for (uint64_t row = 0; row < rows; row++, packed += width, list += 1 + list[0])
        for (uint64_t place = 0, black = 0, k = 1; place < 8 * width; place++) {
            while (k <= list[0] && list[k] == place) black ^= 1, k++;
            if ((packed[place / 8] >> (7 - place % 8) & 1) != (place < it->columns && black)) return 0;
        }
    return 1;
}

static void pack_rows(const known *it, size_t room) {
    hayro_ccitt_outcome outcome;
    size_t width = (it->columns + 7ULL) / 8, taken = 0;
    uint64_t rows = !width || width * it->rows <= room ? it->rows : room / width, changes = 0;
    uint8_t *bitmap = lend(room);
    for (uint64_t row = 0; row < rows; row++) changes += it->lists[taken], taken += 1 + it->lists[taken];
    uint32_t wanted = rows == it->rows ? it->status : HAYRO_CCITT_REFUSED;
    ended(hayro_ccitt_decode_packed(it->data, it->length, &it->settings, bitmap, room, &outcome), wanted, "the status of the bitmap");
    told(&outcome, wanted, it->length, rows, changes, rows == it->rows ? it->bytes_read : 0);
    must(!room || are_rows(it, bitmap, rows), "the bitmap");
    must(is_untouched_after(bitmap, width * rows, room), "nothing is written after the last row");
    take_back(bitmap);
}

static void decode(known *it) {
    hayro_ccitt_outcome outcome;
    size_t size = (it->columns + 7ULL) / 8 * it->rows;
    ended(hayro_ccitt_measure(it->data, it->length, &it->settings, &outcome), it->status, "the status");
    told(&outcome, it->status, it->length, it->rows, it->changes, it->bytes_read);
    list_rows(it, it->count);
    list_rows(it, it->count + 1);
    if (it->count > 0) list_rows(it, it->count - 1);
    if (it->count > 1) list_rows(it, 0);
    if (size >= 1 << 20) return;
    pack_rows(it, size);
    pack_rows(it, size + 1);
    if (size > 0) pack_rows(it, size - 1);
    if (size > 1) pack_rows(it, 0);
}

/* Packs rows into this many bytes: those that fit, without one byte between them or after the last. */
static void spread_rows(const known *it, const uint8_t *bitmap, size_t room) {
    hayro_ccitt_outcome outcome;
    size_t width = (it->columns + 7ULL) / 8, stride = it->settings.stride ? it->settings.stride : width, size = 0;
    uint64_t rows = 0;
    uint8_t *memory = lend(room);
    while (rows < it->rows && rows * stride + width <= room) size = rows++ * stride + width;
    uint32_t wanted = rows == it->rows ? it->status : HAYRO_CCITT_REFUSED;
    ended(hayro_ccitt_decode_packed(it->data, it->length, &it->settings, memory, room, &outcome), wanted, "the status of spread rows");
    must(outcome.rows == rows, "how many rows are spread");
    must(are_same(memory, bitmap, size), "the spread rows, and the bytes between them");
    must(is_untouched_after(memory, size, room), "nothing is written after the last spread row");
    take_back(memory);
}

/* Reads rows packed, each into exactly its own bytes. */
static void read_rows(const known *it, const uint8_t *bitmap) {
    size_t width = (it->columns + 7ULL) / 8, stride = it->settings.stride ? it->settings.stride : width;
    hayro_ccitt_reader reader = {0, 0, 0};
    hayro_ccitt_row row;
    must(hayro_ccitt_open(it->data, it->length, &it->settings, &reader) == HAYRO_CCITT_OK, "a reader of packed rows");
    for (uint64_t index = 0; index < it->rows; index++) {
        uint8_t *memory = lend(width);
        must(hayro_ccitt_next_packed(it->data, it->length, &reader, memory, width, &row) == HAYRO_CCITT_OK, "a packed row");
        must(are_same(memory, bitmap + index * stride, width), "the bytes of a packed row");
        take_back(memory);
    }
    uint32_t wanted = it->status ? it->status : HAYRO_CCITT_NO_ROW;
    must(hayro_ccitt_next_packed(it->data, it->length, &reader, NULL, 0, &row) == wanted, "the end of packed rows");
    ended(hayro_ccitt_close(&reader), HAYRO_CCITT_OK, "closed");
}

/* Settings that aren't taken: each call says so. */
static void refuse_settings(const known *it) {
    hayro_ccitt_outcome outcome;
    hayro_ccitt_reader reader = {0, 0, 0};
    hayro_ccitt_row_feed feed = {0, 0, 0};
    uint8_t *memory = lend(64);
    uint32_t *lists = lend(64);
    ended(hayro_ccitt_measure(it->data, it->length, &it->settings, &outcome), HAYRO_CCITT_NOT_TAKEN, "measured");
    ended(hayro_ccitt_decode_packed(it->data, it->length, &it->settings, memory, 64, &outcome), HAYRO_CCITT_NOT_TAKEN, "packed");
    ended(hayro_ccitt_decode_changes(it->data, it->length, &it->settings, lists, 16, &outcome), HAYRO_CCITT_NOT_TAKEN, "listed");
    ended(hayro_ccitt_open(it->data, it->length, &it->settings, &reader), HAYRO_CCITT_NOT_TAKEN, "opened");
    ended(hayro_ccitt_feed_open(&it->settings, &feed), HAYRO_CCITT_NOT_TAKEN, "a feed is opened");
    must(outcome.rows == 0 && !reader.is_open && !feed.is_open, "nothing is told");
    must(is_untouched_after(memory, 0, 64) && is_untouched_after(lists, 0, 64), "nothing is written");
    take_back(lists);
    take_back(memory);
}

static void spread(const known *it, const uint8_t *bitmap, size_t size) {
    if (it->status == HAYRO_CCITT_NOT_TAKEN) {
        refuse_settings(it);
        return;
    }
    spread_rows(it, bitmap, size);
    spread_rows(it, bitmap, size + 1);
    spread_rows(it, bitmap, size + it->settings.stride + 9);
    if (size > 0) spread_rows(it, bitmap, size - 1);
    if (size > 1) spread_rows(it, bitmap, size / 2);
    if (size > 2) spread_rows(it, bitmap, 0);
    read_rows(it, bitmap);
}

static void encode(const uint8_t *bitmap, size_t length, const fax_encode_settings *settings, uint32_t status, uint64_t rows, const uint8_t *strip,
                   size_t size) {
    for (size_t room = 0; room <= size + 9; room += room < size ? 1 : 9) {
        fax_encode_outcome outcome = {7, 7};
        uint8_t *data = lend(room);
        uint32_t wanted = status ? status : room < size ? FAX_ENCODE_REFUSED : FAX_ENCODE_OK;
        size_t written = wanted == FAX_ENCODE_OK ? size : 0;
        ended(fax_encode_bitmap(bitmap, length, settings, data, room, &outcome), wanted, "the status of the strip");
        must(outcome.rows == rows && outcome.bytes == size, "what is told of the strip");
        must(are_same(data, strip, written), "the strip");
        must(is_untouched_after(data, written, room), "nothing is written after the strip");
        take_back(data);
    }
}

/* Encodes rows one at a time, each from exactly its own bytes. */
static void encode_rows(const uint8_t *bitmap, const fax_encode_settings *settings, uint64_t rows, const uint8_t *strip, size_t size) {
    size_t width = (settings->columns + 7ULL) / 8, stride = settings->stride ? settings->stride : width;
    fax_encode_writer writer = {0, 0, 0, 0};
    fax_encode_outcome outcome = {7, 7};
    uint8_t *data = lend(size), *row = lend(width);
    must(fax_encode_open(settings, &writer) == FAX_ENCODE_OK, "a writer of packed rows");
    for (uint64_t index = 0; index < rows; index++) {
        memcpy(row, bitmap + index * stride, width);
        must(fax_encode_row_packed(&writer, row, width - 1) == FAX_ENCODE_NOT_TAKEN, "a packed row that is too short");
        must(fax_encode_row_packed(&writer, row, width) == FAX_ENCODE_OK, "a packed row is added");
    }
    must(fax_encode_finish(&writer, data, size, &outcome) == FAX_ENCODE_OK, "the strip of packed rows");
    must(outcome.rows == rows && outcome.bytes == size && are_same(data, strip, size), "the strip of packed rows is the bitmap's");
    ended(fax_encode_close(&writer), FAX_ENCODE_OK, "closed");
    take_back(row);
    take_back(data);
}

/* A stride that is less than a row is refused when a writer is opened too. */
static void refuse_stride(const fax_encode_settings *settings) {
    fax_encode_writer writer = {0, 0, 0, 0};
    if (!settings->stride || settings->stride >= (settings->columns + 7ULL) / 8) return;
    ended(fax_encode_open(settings, &writer), FAX_ENCODE_NOT_TAKEN, "a writer with a short stride");
    must(!writer.is_open, "a writer that isn't opened");
}

/* What a check finds, with more flags than those that are passed. */
static void check(const known *it, uint32_t more, uint32_t grade, uint32_t k, uint64_t place, uint64_t rule) {
    hayro_ccitt_violation *found = lend(sizeof *found);
    hayro_ccitt_settings settings = it->settings;
    settings.flags |= more;
    ended(hayro_ccitt_check(it->data, it->length, &settings, grade, k, found), it->status, "the status of the check");
    must(found->place == place && found->rule == rule, "the violation");
    must(found->rule < sizeof texts / sizeof *texts, "a rule that has a text");
    take_back(found);
}

/* The next number of a line. */
static uint64_t number(void) {
    char *word = strtok(NULL, " \n"), *end;
    must(word != NULL, "a number");
    uint64_t value = strtoull(word, &end, 10);
    must(*end == 0, "a number");
    return value;
}

static void decode_line(void) {
    known it = {0};
    it.settings.encoding = (uint32_t)number();
    it.columns = it.settings.columns = (uint32_t)number();
    it.settings.rows = (uint32_t)number();
    it.settings.flags = (uint32_t)number();
    uint8_t *data = lend_bytes(strtok(NULL, " \n"), &it.length);
    it.data = data;
    it.status = (uint32_t)number(), it.rows = number(), it.changes = number(), it.bytes_read = number(), it.count = number();
    uint32_t *lists = lend(4 * it.count);
    for (size_t k = 0; k < it.count; k++) lists[k] = (uint32_t)number();
    it.lists = lists;
    held = live;
    decode(&it);
    take_back(lists);
    take_back(data);
}

static void spread_line(void) {
    known it = {0};
    size_t size;
    it.settings.encoding = (uint32_t)number();
    it.columns = it.settings.columns = (uint32_t)number();
    it.settings.rows = (uint32_t)number();
    it.settings.flags = (uint32_t)number();
    it.settings.stride = (uint32_t)number();
    uint8_t *data = lend_bytes(strtok(NULL, " \n"), &it.length);
    it.data = data;
    it.status = (uint32_t)number(), it.rows = number();
    uint8_t *bitmap = lend_bytes(strtok(NULL, " \n"), &size);
    held = live;
    spread(&it, bitmap, size);
    take_back(bitmap);
    take_back(data);
}

static void encode_line(void) {
    fax_encode_settings settings;
    size_t length, size;
    settings.columns = (uint32_t)number(), settings.encoding = (uint32_t)number();
    settings.flags = (uint32_t)number(), settings.k = (uint32_t)number(), settings.stride = (uint32_t)number();
    uint8_t *bitmap = lend_bytes(strtok(NULL, " \n"), &length);
    uint32_t status = (uint32_t)number();
    uint64_t rows = number();
    uint8_t *strip = lend_bytes(strtok(NULL, " \n"), &size);
    held = live;
    encode(bitmap, length, &settings, status, rows, strip, size);
    if (status == FAX_ENCODE_OK && rows > 0) encode_rows(bitmap, &settings, rows, strip, size);
    if (status != FAX_ENCODE_OK) refuse_stride(&settings);
    take_back(strip);
    take_back(bitmap);
}

static void check_line(void) {
    known it = {0};
    it.settings.encoding = (uint32_t)number();
    it.settings.columns = (uint32_t)number();
    it.settings.rows = (uint32_t)number();
    it.settings.flags = (uint32_t)number();
    uint8_t *data = lend_bytes(strtok(NULL, " \n"), &it.length);
    it.data = data;
    uint32_t grade = (uint32_t)number(), k = (uint32_t)number();
    it.status = (uint32_t)number();
    uint64_t place = number(), rule = number();
    held = live;
    check(&it, 0, grade, k, place, rule);
    check(&it, HAYRO_CCITT_STRICT, grade, k, place, rule);
    check(&it, HAYRO_CCITT_BLACK_IS_0, grade, k, place, rule);
    take_back(data);
}

int main(void) {
    char *line = NULL;
    size_t room = 0;
    unsigned long lines = 0;
    while (getline(&line, &room, stdin) > 0) {
        char *kind = strtok(line, " \n");
        must(kind && strchr("dpec", *kind), "a line");
        if (*kind == 'd') decode_line();
        else if (*kind == 'p') spread_line();
        else if (*kind == 'c') check_line();
        else encode_line();
        lines++;
    }
    free(line);
    printf("%lu cases, %lu calls\n", lines, calls);
    return 0;
}
