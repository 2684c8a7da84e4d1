/* Encodes a page and decodes it again, for callgrind to count the instructions of each way, one after another:
 *
 *   measured_pages PAGE ENCODING COLUMNS ROWS WAYS [FILE]
 *
 * PAGE is `text`, a bitmap in FILE; `scan`, that page with specks; `halftone`, dots of eight sizes; `dither`, a gradient whose
 * error is spread; `blank`, nearly all white; `borders`, black at both edges; or `inverted`, whose modes are horizontal. ENCODING is
 * numbered as in hayro_ccitt.h. A strip is encoded and decoded as one of a TIFF: with a row limit, with EOLs in Group 3, with EOFB in
 * Group 4. It prints the number of changes. Callgrind is given --toggle-collect=measured and --dump-after=measured, and then writes a
 * file for each of the first WAYS ways, in their order. */
#include <fax_encode.h>
#include <hayro_ccitt.h>
#include <stdio.h>
#include <stdlib.h>
#include <string.h>

static hayro_ccitt_settings settings;
static fax_encode_settings encoded;
static uint8_t *bitmap, *again, *data;
static uint32_t *lists;
static size_t width, length, room, numbers;
static uint64_t changes;

static void must(int holds, const char *what)
{
    if (holds)
        return;
    fprintf(stderr, "not so: %s\n", what);
    exit(1);
}

static uint32_t encode_whole(void)
{
    fax_encode_outcome outcome;
    uint32_t status = fax_encode_bitmap(bitmap, width * settings.rows, &encoded, data, room, &outcome);
    length = outcome.bytes;
    return status;
}

static uint32_t encode_rows(int by_changes)
{
    fax_encode_writer writer = {0, 0, 0, 0};
    fax_encode_outcome outcome;
    const uint32_t *list = lists;
    uint32_t status = fax_encode_open(&encoded, &writer), row;
    for (row = 0; row < settings.rows && !status; row++, list += 1 + list[0])
        status = by_changes ? fax_encode_row_changes(&writer, list + 1, list[0]) : fax_encode_row_packed(&writer, bitmap + row * width, width);
    if (!status)
        status = fax_encode_finish(&writer, data, room, &outcome);
    must(outcome.bytes == length, "the strip of rows is that of the whole");
    fax_encode_close(&writer);
    return status;
}

static uint32_t read_rows(int by_changes)
{
    hayro_ccitt_reader reader = {0, 0, 0};
    hayro_ccitt_row row;
    uint32_t *list = lists, status = hayro_ccitt_open(data, length, &settings, &reader);
    uint8_t *packed = again;
    while (!status) {
        if (by_changes)
            status = hayro_ccitt_next_changes(data, length, &reader, list + 1, settings.columns, &row);
        else
            status = hayro_ccitt_next_packed(data, length, &reader, packed, width, &row);
        if (!status)
            list += 1 + row.changes, packed += width;
    }
    hayro_ccitt_close(&reader);
    return status == HAYRO_CCITT_NO_ROW && row.rows == settings.rows ? 0 : 1;
}

/* Reads the rows that are known, after those that were read. */
static uint32_t drain(hayro_ccitt_row_feed *feed, int by_changes, size_t *used, hayro_ccitt_row *row)
{
    size_t count, all = width * settings.rows, number;
    uint32_t status;
    do {
        if (!by_changes) {
            status = hayro_ccitt_feed_rows_packed(feed, again + *used, all - *used, &count, row);
            *used += count * width;
            continue;
        }
        status = hayro_ccitt_feed_rows_changes(feed, lists + *used, numbers - *used, &count, row);
        for (number = 0; number < count; number++)
            *used += 1 + lists[*used];
    } while (status == HAYRO_CCITT_OK);
    return status;
}

/* Feeds the data in pieces of so many bytes, and reads the rows after each. */
static uint32_t feed_rows(size_t each, int by_changes)
{
    hayro_ccitt_row_feed feed = {0, 0, 0};
    hayro_ccitt_row row;
    uint32_t status = hayro_ccitt_feed_open(&settings, &feed) ? HAYRO_CCITT_NO_ROW + 2 : HAYRO_CCITT_NEEDS_MORE;
    size_t fed = 0, used = 0;
    while (status == HAYRO_CCITT_NEEDS_MORE) {
        size_t size = length - fed < each ? length - fed : each;
        must((size ? hayro_ccitt_feed(&feed, data + fed, size) : hayro_ccitt_feed_finish(&feed)) == 0, "a piece is fed");
        fed += size;
        status = drain(&feed, by_changes, &used, &row);
    }
    hayro_ccitt_feed_close(&feed);
    return status == HAYRO_CCITT_NO_ROW && row.rows == settings.rows ? 0 : 1;
}

static uint32_t decode(int by_changes)
{
    hayro_ccitt_outcome outcome;
    if (by_changes)
        return hayro_ccitt_decode_changes(data, length, &settings, lists, numbers, &outcome);
    return hayro_ccitt_decode_packed(data, length, &settings, again, width * settings.rows, &outcome);
}

static uint32_t measure(void)
{
    hayro_ccitt_outcome outcome;
    uint32_t status = hayro_ccitt_measure(data, length, &settings, &outcome);
    changes = outcome.changes;
    return status;
}

/* In this order: encode, measure, packed, changes, rows packed, rows changes, encode rows packed, encode rows changes, lists of pieces,
 * bitmap of pieces, lists of single bytes. */
__attribute__((noinline)) static uint32_t measured(int way)
{
    switch (way) {
    case 0: return encode_whole();
    case 1: return measure();
    case 2: return decode(0);
    case 3: return decode(1);
    case 4: return read_rows(0);
    case 5: return read_rows(1);
    case 6: return encode_rows(0);
    case 7: return encode_rows(1);
    case 8: return feed_rows(4096, 1);
    case 9: return feed_rows(4096, 0);
    default: return feed_rows(1, 1);
    }
}

static void set(uint32_t row, uint32_t column, int is_black)
{
    uint8_t *byte = bitmap + row * width + column / 8, bit = (uint8_t)(128 >> column % 8);
    *byte = is_black ? *byte | bit : *byte & ~bit;
}

/* Flips one of some four hundred pixels, by a generator that is the same everywhere. */
static void speckle(void)
{
    uint32_t state = 1, row, column;
    for (row = 0; row < settings.rows; row++)
        for (column = 0; column < settings.columns; column++) {
            state = state * 1664525 + 1013904223;
            if (state >> 16 < 160)
                set(row, column, !(bitmap[row * width + column / 8] >> (7 - column % 8) & 1));
        }
}

/* Dots in cells of eight columns and rows, the larger the further right. */
static void dot(void)
{
    uint32_t row, column;
    for (row = 0; row < settings.rows; row++)
        for (column = 0; column < settings.columns; column++) {
            int x = (int)(column % 8) - 4, y = (int)(row % 8) - 4;
            set(row, column, x * x + y * y < (int)(24 * column / settings.columns));
        }
}

/* Borders of a scan, jagged on both sides: black up to the left edge in one row, up to the right one in the next. */
static void frame(void)
{
    uint32_t row, column;
    for (row = 0; row < settings.rows; row++)
        for (column = 0; column < 8; column++) {
            set(row, column, column >= row % 2 * 2);
            set(row, settings.columns - 8 + column, column < 6 + row % 2 * 2);
        }
}

/* Each row has the other colours of the one above, in runs of five, so that modes are horizontal but at the row's end. */
static void invert(void)
{
    uint32_t row, column;
    for (row = 0; row < settings.rows; row++)
        for (column = 0; column < settings.columns; column++)
            set(row, column, (column / 5 + row) % 2);
}

/* White but for a dot in each sixty-fourth row. */
static void blank(void)
{
    uint32_t row;
    for (row = 0; row < settings.rows; row += 64)
        set(row, 600, 1);
}

/* A gradient from white to black, its error spread to the right and below. */
static void spread(void)
{
    int *below = calloc(settings.columns + 2, sizeof *below);
    uint32_t row, column;
    must(below != NULL, "memory");
    for (row = 0; row < settings.rows; row++) {
        int error = 0;
        for (column = 0; column < settings.columns; column++) {
            int wanted = (int)(255 * column / settings.columns) + error / 2 + below[column + 1];
            int is_black = wanted > 127;
            error = wanted - 255 * is_black;
            set(row, column, is_black);
            below[column + 1] = error / 4;
            below[column] += error / 4;
        }
    }
    free(below);
}

int main(int count, char **words)
{
    int way;
    must(count >= 6, "the arguments");
    settings.encoding = encoded.encoding = (uint32_t)strtoul(words[2], NULL, 10);
    settings.columns = encoded.columns = (uint32_t)strtoul(words[3], NULL, 10);
    settings.rows = (uint32_t)strtoul(words[4], NULL, 10);
    settings.flags = encoded.flags = settings.encoding == HAYRO_CCITT_GROUP_4 ? HAYRO_CCITT_END_OF_BLOCK : HAYRO_CCITT_END_OF_LINE;
    encoded.k = 4;
    width = ((size_t)settings.columns + 7) / 8;
    room = 4 * width * settings.rows + 64;
    numbers = ((size_t)settings.columns + 1) * settings.rows;
    bitmap = calloc(settings.rows, width);
    again = calloc(settings.rows, width);
    data = malloc(room);
    lists = malloc(4 * numbers);
    must(bitmap && again && data && lists, "memory");
    if (count == 7) {
        FILE *file = fopen(words[6], "rb");
        must(file && fread(bitmap, width, settings.rows, file) == settings.rows, "the page's file");
        fclose(file);
    }
    if (!strcmp(words[1], "scan"))
        speckle();
    else if (!strcmp(words[1], "halftone"))
        dot();
    else if (!strcmp(words[1], "borders"))
        frame();
    else if (!strcmp(words[1], "inverted"))
        invert();
    else if (!strcmp(words[1], "blank"))
        blank();
    else if (!strcmp(words[1], "dither"))
        spread();
    for (way = 0; way < atoi(words[5]); way++) {
        must(measured(way) == 0, "the status");
        must(way != 2 && way != 4 && way != 9 ? 1 : !memcmp(bitmap, again, width * settings.rows), "the page comes back");
        if (way == 2 || way == 4)
            memset(again, 0, width * settings.rows);
    }
    printf("%lu\n", (unsigned long)changes);
    return 0;
}
