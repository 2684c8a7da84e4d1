/* Decodes the fax data of an inline image, in a PDF's content stream that comes in pieces, as a viewer's filter does:
 *
 *   inline_image_filter ROWS SIZE HEIGHT [NAME VALUE].. < content > rest
 *
 * The content on standard input begins after the image's `ID `, and is read in pieces of SIZE bytes. HEIGHT is the image's; NAME
 * VALUE are parameters of CCITTFaxDecode: /K -1 /Columns 1728 /BlackIs1 true. The packed rows are written to the file ROWS, and what
 * follows the image's data to standard output: white space, `EI`, and all after it, where the viewer goes on.
 *
 * The data ends where the height is reached, or without /EndOfBlock where /Rows is; EOFB or RTC may end it earlier, and belong to
 * it. It also ends at a fault, and, even if rows are missing, at an `EI` that is between white space and that text follows: so
 * damaged data ends there too. Other bytes between the data and `EI` are passed over. Of the data, only what belongs to rows that
 * aren't known yet is in memory.
 *
 * A line on standard error says how many bytes precede what follows the image, and how many rows it has. The status is 0 if the image has all rows, 1 if it hasn't, and 2 for wrong arguments, an allocation failure, or an error in reading
 * or writing. */
#include <hayro_ccitt.h>
#include <stdio.h>
#include <stdlib.h>
#include <string.h>

/* ---- The filter */

/* The parameters of CCITTFaxDecode by their names, with PDF's defaults. */
typedef struct {
    long k;
    uint32_t columns, rows;
    int black_is_1, encoded_byte_align, end_of_line, end_of_block;
} parameters;

static const parameters usual = {0, 1728, 0, 0, 0, 0, 1};

typedef struct {
    uint8_t *at;
    size_t length, room;
} bytes;

typedef struct {
    hayro_ccitt_row_feed feed;
    hayro_ccitt_row row;       /* of the last call */
    uint32_t status;           /* of the last call; how the data ended, once it has */
    uint32_t height;           /* the rows that the image has */
    int has_all;               /* whether all of them were read */
    uint64_t rows_end;         /* then, the bytes of the data up to there */
    uint8_t *packed;
    size_t width;
    void (*show)(void *context, const uint8_t *packed, size_t width);
    void *context;
    bytes waiting;             /* bytes that aren't fed yet, since `EI` may begin there */
    bytes rest;                /* bytes that follow the image's data, once it has ended */
    uint64_t taken;            /* the bytes of all pieces; once the image has ended, those that precede the rest */
    int has_ended, has_failed;
} inline_image;

/* What a call comes to: more is wanted; the image has ended, and the viewer goes on with `rest`; or an allocation failed. */
enum { WANTS_MORE, HAS_ENDED, CANNOT };

static int add(bytes *to, const uint8_t *more, size_t length)
{
    if (length > to->room - to->length) {
        size_t room = 2 * (to->length + length);
        uint8_t *at = realloc(to->at, room);
        if (!at)
            return 0;
        to->at = at;
        to->room = room;
    }
    if (length)
        memcpy(to->at + to->length, more, length);
    to->length += length;
    return 1;
}

static void drop_first(bytes *of, size_t count)
{
    of->length -= count;
    if (of->length)
        memmove(of->at, of->at + count, of->length);
}

static int is_white(uint8_t byte)
{
    return byte == 0 || byte == '\t' || byte == '\n' || byte == '\f' || byte == '\r' || byte == ' ';
}

/* Whether `EI` is there: white space follows, and then text, as operators are. */
enum answer { NO, YES, UNKNOWN };
enum { LOOKED_AT = 10 };
static enum answer is_ei(const bytes *in, size_t at, int is_last)
{
    for (size_t k = 0; k < LOOKED_AT; k++) {
        if (at + k >= in->length)
            return !is_last ? UNKNOWN : k >= 2 ? YES : NO;
        uint8_t byte = in->at[at + k];
        if (k < 2 ? byte != "EI"[k] : k == 2 ? !is_white(byte) : byte != '\n' && byte != '\r' && byte != '\t' && (byte < ' ' || byte > '~'))
            return NO;
    }
    return YES;
}

static size_t white_from(const bytes *in, size_t at)
{
    size_t end = at;
    while (end < in->length && is_white(in->at[end]))
        end++;
    return end - at;
}

/* Finds the first white space that `EI` follows, or that it may follow. */
static enum answer find_ei(const bytes *in, size_t *at, int is_last)
{
    enum answer found = NO;
    for (size_t white; found == NO && *at < in->length; *at += found == NO ? white + !white : 0) {
        white = white_from(in, *at);
        if (white)
            found = is_ei(in, *at + white, is_last);
    }
    return found;
}

/* Takes the bytes that were fed and aren't used as the first ones of the rest. */
static void keep_unused(inline_image *it)
{
    size_t count = 0;
    it->rest.length = 0;
    hayro_ccitt_feed_unused(&it->feed, NULL, 0, &count);
    if (count > it->rest.room) {
        free(it->rest.at);
        it->rest.at = malloc(count);
        it->rest.room = it->rest.at ? count : 0;
    }
    if (count && hayro_ccitt_feed_unused(&it->feed, it->rest.at, it->rest.room, &count) != HAYRO_CCITT_OK)
        it->has_failed = 1;
    else
        it->rest.length = count;
}

/* Ends the data. After all rows EOFB or RTC may have been read, which have at least 24 bits; what is shorter isn't read. */
static void end_data(inline_image *it)
{
    enum { LEAST = 3 };
    uint64_t block = it->row.bytes_read - it->rows_end;
    it->has_ended = 1;
    if (!it->has_all)
        keep_unused(it);
    else if (it->status == HAYRO_CCITT_NO_ROW && block >= LEAST && block <= it->rest.length)
        drop_first(&it->rest, (size_t)block);
}

/* Shows the rows that are known. */
static void show_rows(inline_image *it)
{
    do {
        it->status = hayro_ccitt_feed_next_packed(&it->feed, it->packed, it->width, &it->row);
        if (it->status == HAYRO_CCITT_OK)
            it->show(it->context, it->packed, it->width);
        if (it->status == HAYRO_CCITT_OK && it->row.rows == it->height) {
            it->has_all = 1;
            it->rows_end = it->row.bytes_read;
            keep_unused(it);
        }
    } while (it->status == HAYRO_CCITT_OK && !it->has_failed);
    if (it->status == HAYRO_CCITT_OUT_OF_MEMORY)
        it->has_failed = 1;
    else if (it->status != HAYRO_CCITT_NEEDS_MORE && !it->has_ended)
        end_data(it);
}

/* Feeds the first bytes that wait. */
static void feed_first(inline_image *it, size_t count)
{
    if (hayro_ccitt_feed(&it->feed, it->waiting.at, count) != HAYRO_CCITT_OK)
        it->has_failed = 1;
    else if (it->has_all && !add(&it->rest, it->waiting.at, count))
        it->has_failed = 1;
    drop_first(&it->waiting, count);
    if (!it->has_failed)
        show_rows(it);
}

static void finish_data(inline_image *it)
{
    hayro_ccitt_feed_finish(&it->feed);
    show_rows(it);
}

/* Ends the data before the last byte of white space that precedes `EI`: the others may be data. If rows are missing, what is left of
 * the data is none of the rest. */
static void end_at_ei(inline_image *it)
{
    feed_first(it, white_from(&it->waiting, 0) - 1);
    if (!it->has_ended && !it->has_failed)
        finish_data(it);
    if (!it->has_all)
        it->rest.length = 0;
}

/* Finds `EI` after the data. */
static int seek_ei(inline_image *it, int is_last)
{
    size_t at = 0;
    if (!add(&it->rest, it->waiting.at, it->waiting.length))
        return CANNOT;
    it->waiting.length = 0;
    enum answer found = is_ei(&it->rest, white_from(&it->rest, 0), is_last);
    if (found == NO) {
        found = find_ei(&it->rest, &at, is_last);
        drop_first(&it->rest, at);
    }
    if (found != YES && !is_last)
        return WANTS_MORE;
    it->taken -= it->rest.length;
    return HAS_ENDED;
}

static int go_on(inline_image *it, int is_last)
{
    if (!it->has_ended) {
        size_t at = 0;
        enum answer found = find_ei(&it->waiting, &at, is_last);
        feed_first(it, at);
        if (found == YES && !it->has_ended && !it->has_failed)
            end_at_ei(it);
        else if (is_last && !it->has_ended && !it->has_failed)
            finish_data(it);
    }
    return it->has_failed ? CANNOT : it->has_ended ? seek_ei(it, is_last) : WANTS_MORE;
}

/* Takes the piece of the content that comes next. After the image no more is taken. */
static int take_piece(inline_image *it, const uint8_t *piece, size_t length)
{
    it->taken += length;
    return add(&it->waiting, piece, length) ? go_on(it, 0) : CANNOT;
}

/* Ends the content. */
static int end_content(inline_image *it)
{
    return go_on(it, 1);
}

/* Opens an image of this height. Each row is shown as soon as it is known: packed, as PDF has it, 0 for black unless /BlackIs1. Returns
 * 0 if the parameters aren't valid, or an allocation failed. */
static int open_image(inline_image *it, const parameters *of, uint32_t height)
{
    hayro_ccitt_settings settings = {of->columns, 0, HAYRO_CCITT_GROUP_3_1D, 0, 0};
    settings.rows = of->end_of_block || !of->rows ? height : of->rows;
    if (of->k)
        settings.encoding = of->k < 0 ? HAYRO_CCITT_GROUP_4 : HAYRO_CCITT_GROUP_3_2D;
    settings.flags = (of->end_of_block ? HAYRO_CCITT_END_OF_BLOCK : 0u) | (of->end_of_line ? HAYRO_CCITT_END_OF_LINE : 0u)
        | (of->encoded_byte_align ? HAYRO_CCITT_ALIGNED_ROWS : 0u) | (of->black_is_1 ? 0u : HAYRO_CCITT_BLACK_IS_0);
    it->height = settings.rows;
    it->width = ((size_t)of->columns + 7) / 8;
    it->packed = malloc(it->width + 1);
    return it->height && of->columns && it->packed && hayro_ccitt_feed_open(&settings, &it->feed) == HAYRO_CCITT_OK;
}

static void close_image(inline_image *it)
{
    hayro_ccitt_feed_close(&it->feed);
    free(it->packed);
    free(it->waiting.at);
    free(it->rest.at);
}

/* ---- The program */

static void write_row(void *context, const uint8_t *packed, size_t width)
{
    fwrite(packed, 1, width, context); /* an error is seen when the file is closed */
}

static int read_number(const char *text, long least, long most, long *number)
{
    char *end;
    *number = strtol(text, &end, 10);
    return end != text && !*end && *number >= least && *number <= most;
}

static int read_parameter(const char *name, const char *value, parameters *into)
{
    long number = 0;
    int is_true = !strcmp(value, "true");
    int is_number = read_number(value, !strcmp(name, "/K") ? -0x7FFFFFFF : 0, 0x7FFFFFFF, &number);
    struct {
        const char *name;
        int *is_set;
    } known[] = {{"/BlackIs1", &into->black_is_1}, {"/EncodedByteAlign", &into->encoded_byte_align}, {"/EndOfLine", &into->end_of_line},
                 {"/EndOfBlock", &into->end_of_block}};
    for (size_t i = 0; i < sizeof known / sizeof *known; i++)
        if (!strcmp(name, known[i].name)) {
            *known[i].is_set = is_true;
            return is_true || !strcmp(value, "false");
        }
    if (!strcmp(name, "/K"))
        into->k = number;
    else if (!strcmp(name, "/Columns"))
        into->columns = (uint32_t)number;
    else if (!strcmp(name, "/Rows"))
        into->rows = (uint32_t)number;
    else
        return 0;
    return is_number;
}

static int read_words(int count, char **words, long *size, long *height, parameters *into)
{
    int is_read = count > 3 && count % 2 == 0 && read_number(words[2], 1, 1 << 20, size) && read_number(words[3], 1, 0x7FFFFFFF, height);
    *into = usual;
    for (int i = 4; is_read && i + 1 < count; i += 2)
        is_read = read_parameter(words[i], words[i + 1], into);
    return is_read;
}

/* Reads the image, writes what follows it, and copies the rest of standard input. Returns what the last call came to. */
static int filter(inline_image *it, size_t size)
{
    static uint8_t piece[1 << 20];
    int came = WANTS_MORE;
    size_t length = 1;
    while (came == WANTS_MORE && length) {
        length = fread(piece, 1, size, stdin);
        came = length ? take_piece(it, piece, length) : end_content(it);
    }
    if (came == HAS_ENDED && it->rest.length)
        fwrite(it->rest.at, 1, it->rest.length, stdout);
    while (came == HAS_ENDED && (length = fread(piece, 1, size, stdin)) > 0)
        fwrite(piece, 1, length, stdout);
    return came;
}

int main(int count, char **words)
{
    parameters of;
    long size, height;
    inline_image image = {.show = write_row};
    if (!read_words(count, words, &size, &height, &of)) {
        fprintf(stderr, "usage: inline_image_filter ROWS SIZE HEIGHT [NAME VALUE]..\n");
        return 2;
    }
    FILE *rows = fopen(words[1], "wb");
    image.context = rows;
    int came = rows && open_image(&image, &of, (uint32_t)height) ? filter(&image, (size_t)size) : CANNOT;
    int is_written = rows && !ferror(rows) && !ferror(stdin);
    is_written = rows && fclose(rows) == 0 && is_written && fflush(stdout) == 0 && !ferror(stdout);
    int is_whole = image.row.rows == image.height;
    if (came == CANNOT || !is_written)
        fprintf(stderr, "inline_image_filter: cannot go on\n");
    else
        fprintf(stderr, "%lu bytes, %lu of %lu rows\n", (unsigned long)image.taken, (unsigned long)image.row.rows, (unsigned long)image.height);
    close_image(&image);
    return came == CANNOT || !is_written ? 2 : !is_whole;
}
