/* hayro_ccitt.h: a decoder for CCITT fax images, ITU-T T.4 (Group 3) and T.6 (Group 4).
 *
 * A first program. It decodes two bytes of Group 4, one row of eight pixels, and prints the row's byte, 18: three white pixels,
 * two black, three white.
 *
 *   #include <hayro_ccitt.h>
 *   #include <stdio.h>
 *
 *   int main(void)
 *   {
 *       const uint8_t data[2] = {0x31, 0xC0};
 *       const hayro_ccitt_settings settings = {8, 1, HAYRO_CCITT_GROUP_4, 0, 0};
 *       hayro_ccitt_outcome outcome;
 *       uint8_t row = 0;
 *       uint32_t status = hayro_ccitt_decode_packed(data, sizeof data, &settings, &row, 1, &outcome);
 *       printf("%02X\n", (unsigned)row);
 *       return status == HAYRO_CCITT_OK ? 0 : 1;
 *   }
 *
 *   cc first.c $(pkg-config --cflags --libs hayro_ccitt)
 *
 * Pointers. Each pointer must be valid for its length, and not null; a pointer to data, a bitmap or lists may be null if its
 * length is 0. The memory that a call writes to must not overlap with its other arguments.
 *
 * Threads. Calls share no state, so several threads may call at the same time. Don't call from a signal handler, nor after fork
 * in the child of a process with threads.
 *
 * Memory. The library allocates by malloc, and frees all of it before a call returns, except what an open reader, feed or writer
 * holds. hayro_ccitt_heap.h says how a program gives it another allocator. */
#ifndef HAYRO_CCITT_H
#define HAYRO_CCITT_H

#include <stddef.h>
#include <stdint.h>

#ifdef __cplusplus
extern "C" {
#endif

/* The version of this header: MAJOR * 10000 + MINOR * 100 + PATCH, and as a text. */
#define HAYRO_CCITT_VERSION 900
#define HAYRO_CCITT_VERSION_TEXT "0.9.0"

/* How the data is encoded. */
enum {
    HAYRO_CCITT_GROUP_4 = 0,    /* every line is two-dimensional (T.6, MMR) */
    HAYRO_CCITT_GROUP_3_1D = 1, /* one-dimensional lines (T.4, MH) */
    HAYRO_CCITT_GROUP_3_2D = 2  /* a tag before each line says which kind it is (T.4, MR) */
};

/* Flags, to be added up. Settings with any other flag, or with another encoding, are invalid. HAYRO_CCITT_BLACK_IS_0 has no effect
 * on calls that don't pack rows, and `stride` none on those that pack one; they must be valid all the same. */
enum {
    HAYRO_CCITT_END_OF_BLOCK = 1, /* EOFB or RTC may end the data */
    HAYRO_CCITT_END_OF_LINE = 2,  /* an EOL precedes each line of Group 3 */
    HAYRO_CCITT_ALIGNED_ROWS = 4, /* each row is padded up to a whole byte */
    HAYRO_CCITT_STRICT = 8,       /* data that breaks a rule is an error, rather than repaired or cut */
    HAYRO_CCITT_LOW_FIRST = 16,   /* each byte's lowest bit comes first (TIFF's FillOrder 2), rather than its highest */
    HAYRO_CCITT_BLACK_IS_0 = 32   /* packed rows have 0 for black and 1 for white, rather than 1 and 0 */
};

typedef struct {
    uint32_t columns;  /* the width in pixels */
    uint32_t rows;     /* the largest number of rows that are decoded; 0: no limit */
    uint32_t encoding; /* one of the encodings above */
    uint32_t flags;    /* a sum of the flags above */
    uint32_t stride;   /* of a bitmap, the bytes from the start of a row to the start of the next one; 0: those of a row. Settings
                        * with fewer than those, (columns + 7) / 8, are invalid. */
} hayro_ccitt_settings;

/* What every call fills in, whatever it returns. */
typedef struct {
    uint64_t rows;         /* the number of rows that were decoded */
    uint64_t changes;      /* the number of their changes of colour, saturated at 2 ^ 64 - 1 */
    uint64_t bytes_read;   /* the bytes consumed, if the call returns HAYRO_CCITT_OK; else 0 */
    uint64_t damaged_rows; /* the number of rows among them whose line was damaged and repaired */
    uint64_t fault_start;  /* on an error, the offset in bits at which the line after these rows begins, or strict data lacks an
                            * EOL; else 0, and also if HAYRO_CCITT_OUT_OF_MEMORY came before the data was read */
    uint64_t missed_eols;  /* the number of rows among them, not repaired, after which other bits were passed up to the next EOL,
                            * or none was left */
    uint64_t cut_rows;     /* the number of rows among them, not repaired, in which a run was cut at the row's end, where strict
                            * data is in error */
} hayro_ccitt_outcome;

/* What a call returns. Unless it is HAYRO_CCITT_NOT_TAKEN, the outcome's rows were decoded: on an error, those before it. */
enum {
    HAYRO_CCITT_OK = 0,
    HAYRO_CCITT_UNEXPECTED_EOF = 1, /* the data ends inside a code word, or where a line must begin */
    HAYRO_CCITT_INVALID_CODE = 2,   /* the bits are no code word, or strict data breaks a rule */
    HAYRO_CCITT_OVERFLOW = 3,       /* a length or a position exceeds 32 bits, or a changing element lies left of a0 */
    HAYRO_CCITT_OUT_OF_MEMORY = 4,  /* an allocation failed */
    HAYRO_CCITT_REFUSED = 5,        /* there is no room for the next row, of which nothing is written */
    HAYRO_CCITT_NOT_TAKEN = 6,      /* the settings are invalid, or the data has 2 ^ 61 - 8 bytes or more; the outcome is zeros,
                                     * and nothing else is written */
    HAYRO_CCITT_NO_ROW = 7,         /* no row is left: only from the calls of a reader or feed */
    HAYRO_CCITT_NEEDS_MORE = 8,     /* more data is needed, or its end: only from those of a feed */
    HAYRO_CCITT_VIOLATION = 9       /* the data doesn't conform: only from hayro_ccitt_check */
};

/* Counts rows and their changes. It never returns HAYRO_CCITT_REFUSED. */
uint32_t hayro_ccitt_measure(const uint8_t *data, size_t data_length, const hayro_ccitt_settings *settings,
                             hayro_ccitt_outcome *outcome);

/* Packs rows into a bitmap, from the top. A row has (columns + 7) / 8 bytes: one bit a pixel, 1 for black, the leftmost pixel
 * in a byte's highest bit, and white up to the end of the last byte, which is 0, or 1 with HAYRO_CCITT_BLACK_IS_0. Each row begins
 * `stride` bytes after the one before. The bytes between them, and after the last row, keep their values; the last row needs only
 * its own bytes. */
uint32_t hayro_ccitt_decode_packed(const uint8_t *data, size_t data_length, const hayro_ccitt_settings *settings,
                                   uint8_t *bitmap, size_t bitmap_length, hayro_ccitt_outcome *outcome);

/* Lists rows: of each row the number of its changes, and then the changes, which are the positions of the pixels at which its
 * colour changes, ascending; each row starts white. All rows need rows + changes numbers. The numbers after the last row keep
 * their values. */
uint32_t hayro_ccitt_decode_changes(const uint8_t *data, size_t data_length, const hayro_ccitt_settings *settings,
                                    uint32_t *lists, size_t lists_length, hayro_ccitt_outcome *outcome);

/* Rows one at a time, in memory for two rows, however long the data is: open a reader, read rows until the status isn't
 * HAYRO_CCITT_OK, and close the reader. The rows, the last status and, at the end of the image, bytes_read are those of
 * hayro_ccitt_decode_changes, except that HAYRO_CCITT_NO_ROW says what HAYRO_CCITT_OK says there. examples/rows_to_pbm.c is a
 * program that does so.
 *
 * A reader doesn't keep the data: it is passed to each call again, and must be the data of hayro_ccitt_open. With other data the
 * rows are meaningless, but a call still returns, and reads and writes nothing else.
 *
 * Several readers may be open at a time. Each belongs to one thread at a time. A reader that isn't closed leaks its memory. */
typedef struct {
    void *reading;         /* the fields are the library's own: set all to zero before hayro_ccitt_open, change none after it, */
    void *dangling;        /* and don't copy an open reader */
    unsigned char is_open;
} hayro_ccitt_reader;

/* What the calls that read one row fill in, of the last row that was read; zeros after HAYRO_CCITT_NOT_TAKEN. */
typedef struct {
    uint64_t rows;         /* the number of rows read so far */
    uint64_t changes;      /* the number of changes of the last one */
    uint64_t line_start;   /* the offset in bits at which its line begins, after its EOL; after a fault, that of the line that
                            * couldn't be read, or the offset at which an EOL is missing */
    uint64_t bytes_read;   /* the bytes consumed so far, the last one rounded up; after HAYRO_CCITT_NO_ROW, those of the image;
                            * after a fault, those up to line_start */
    uint64_t damaged_rows; /* the number of rows read so far whose line was damaged and repaired */
    uint64_t damage;       /* the status of the fault of the last row if its line was damaged and repaired; else 0 */
    uint64_t missed_eols;  /* the number of rows read so far, not repaired, after which other bits were passed up to the next EOL, or
                            * none was left: of the last row it is known after the next call */
    uint64_t cut_rows;     /* the number of rows read so far, not repaired, in which a run was cut at the row's end */
    uint64_t is_cut;       /* 1 if the last row was not repaired and a run of it was cut, else 0 */
    uint64_t missed_eol;   /* the offset in bits at which the last call missed an EOL, after the row before; 0 if it missed none */
} hayro_ccitt_row;

/* Opens a reader before the first row. Unless it returns HAYRO_CCITT_OK, the reader stays as it is. HAYRO_CCITT_NOT_TAKEN also
 * means that the reader is open. */
uint32_t hayro_ccitt_open(const uint8_t *data, size_t data_length, const hayro_ccitt_settings *settings,
                          hayro_ccitt_reader *reader);

/* Reads the next row, and lists its changes; a row has at most `columns`. After HAYRO_CCITT_REFUSED the next call returns the
 * same row; `changes` of `row` says how many numbers it needs. HAYRO_CCITT_NOT_TAKEN also means that the reader isn't open. After
 * an error or HAYRO_CCITT_NO_ROW each further call returns the same. The numbers after the last change keep their values, and
 * all of them unless the call returns HAYRO_CCITT_OK. */
uint32_t hayro_ccitt_next_changes(const uint8_t *data, size_t data_length, hayro_ccitt_reader *reader, uint32_t *changes,
                                  size_t changes_length, hayro_ccitt_row *row);

/* The same, but packs the row, into (columns + 7) / 8 bytes as hayro_ccitt_decode_packed does; `stride` has no effect. The bytes
 * after them keep their values, and all of them unless the call returns HAYRO_CCITT_OK. */
uint32_t hayro_ccitt_next_packed(const uint8_t *data, size_t data_length, hayro_ccitt_reader *reader, uint8_t *packed,
                                 size_t packed_length, hayro_ccitt_row *row);

/* Closes a reader, and frees its memory. Returns HAYRO_CCITT_OK, or HAYRO_CCITT_NOT_TAKEN if it isn't open: then it does
 * nothing. */
uint32_t hayro_ccitt_close(hayro_ccitt_reader *reader);

/* Rows of data that comes in pieces, however it is cut, each as soon as no data that follows can change its line: open a feed,
 * feed the bytes as they come, and after each piece read rows until the status isn't HAYRO_CCITT_OK; after the last piece finish
 * the data, and read the rows that are left; close the feed. The rows, the last status and bytes_read are those of a reader of
 * all the data.
 *
 * A feed keeps a copy of the bytes that it still needs: those of a line that isn't whole, few of a gap between lines that isn't,
 * or all of it where its EOL is missing, however many these are, and what was fed but not read yet.
 *
 * Several feeds may be open at a time. Each belongs to one thread at a time. A feed that isn't closed leaks its memory. */
typedef struct {
    void *feeding;         /* the fields are the library's own: set all to zero before hayro_ccitt_feed_open, change none after it, */
    void *dangling;        /* and don't copy an open feed */
    unsigned char is_open;
} hayro_ccitt_row_feed;

/* Opens a feed to which nothing was fed. Unless it returns HAYRO_CCITT_OK, the feed stays as it is. HAYRO_CCITT_NOT_TAKEN means that
 * the settings are invalid or the feed is open. */
uint32_t hayro_ccitt_feed_open(const hayro_ccitt_settings *settings, hayro_ccitt_row_feed *feed);

/* Feeds the bytes that come next in the data. After HAYRO_CCITT_OUT_OF_MEMORY none of them is fed, and they can be fed again.
 * HAYRO_CCITT_OVERFLOW means that all bytes fed would be 2 ^ 61 - 8 or more, and HAYRO_CCITT_NOT_TAKEN that the feed isn't open or the
 * data is finished: none of them is fed either. */
uint32_t hayro_ccitt_feed(hayro_ccitt_row_feed *feed, const uint8_t *bytes, size_t length);

/* Finishes the data: no bytes follow those that were fed. Returns HAYRO_CCITT_OK, or HAYRO_CCITT_NOT_TAKEN if the feed isn't
 * open. */
uint32_t hayro_ccitt_feed_finish(hayro_ccitt_row_feed *feed);

/* Reads the next row as hayro_ccitt_next_changes does, if no data that follows can change it; else it returns
 * HAYRO_CCITT_NEEDS_MORE: feed more, or finish the data. After HAYRO_CCITT_OUT_OF_MEMORY nothing was read, and the call can be made
 * again. HAYRO_CCITT_NOT_TAKEN means that the feed isn't open. The offsets of `row` are counted from the first byte fed. */
uint32_t hayro_ccitt_feed_next_changes(hayro_ccitt_row_feed *feed, uint32_t *changes, size_t changes_length, hayro_ccitt_row *row);

/* The same, but packs the row as hayro_ccitt_next_packed does. */
uint32_t hayro_ccitt_feed_next_packed(hayro_ccitt_row_feed *feed, uint8_t *packed, size_t packed_length, hayro_ccitt_row *row);

/* The rows one after another, as calls of hayro_ccitt_feed_next_changes give them, but listed as hayro_ccitt_decode_changes does, until
 * there is no room for one more; `count` is how many. HAYRO_CCITT_OK means that one more was read, which `row` describes: it doesn't
 * fit after them, and the next call gives it first. After HAYRO_CCITT_NEEDS_MORE and the other statuses too `count` rows were
 * listed; it is 0 after HAYRO_CCITT_REFUSED, where there is no room for the first. Where room for many rows is passed, a row costs
 * less than by calls of its own. */
uint32_t hayro_ccitt_feed_rows_changes(hayro_ccitt_row_feed *feed, uint32_t *lists, size_t lists_length, size_t *count,
                                       hayro_ccitt_row *row);

/* The same, but packs the rows as hayro_ccitt_decode_packed does, `stride` bytes apart. */
uint32_t hayro_ccitt_feed_rows_packed(hayro_ccitt_row_feed *feed, uint8_t *bitmap, size_t bitmap_length, size_t *count,
                                      hayro_ccitt_row *row);

/* Copies the bytes that were fed and aren't consumed, and stores in `count` how many they are: after HAYRO_CCITT_NO_ROW, those after
 * the image. A byte of which a bit was read is consumed. After HAYRO_CCITT_NEEDS_MORE a gap waits for more data, and only the number of
 * its bits is kept: none is copied, whatever room there is. After HAYRO_CCITT_REFUSED there was no room for them, and none is copied.
 * The bytes after them keep their values. HAYRO_CCITT_NOT_TAKEN means that the feed isn't open; `count` is 0. The feed stays as it
 * is. */
uint32_t hayro_ccitt_feed_unused(hayro_ccitt_row_feed *feed, uint8_t *bytes, size_t length, size_t *count);

/* Closes a feed, and frees its memory. Returns HAYRO_CCITT_OK, or HAYRO_CCITT_NOT_TAKEN if it isn't open: then it does nothing. */
uint32_t hayro_ccitt_feed_close(hayro_ccitt_row_feed *feed);

/* What hayro_ccitt_check asks of data. */
enum {
    HAYRO_CCITT_READABLE = 0,    /* it begins with an encoding of a picture that every decoder must read back as its rows, closed as the
                                  * settings ask: by EOFB or RTC with HAYRO_CCITT_END_OF_BLOCK, or by as many rows as the limit. Any
                                  * make-up words, modes and kinds of line are taken, and what follows the picture is ignored. */
    HAYRO_CCITT_BY_PROCEDURE = 1 /* it is what the coding procedure writes for its rows (T.4, 4.1 and 4.2; T.6, 2), and fewer than eight
                                  * zeros: so its words and modes are those that T.4 and T.6 prescribe to an encoder */
};

/* The rules that data may break: what is expected at a place, or what mustn't be there. */
enum {
    HAYRO_CCITT_NO_RULE = 0,          /* none is broken */
    HAYRO_CCITT_RULE_MODE = 1,        /* a word of a mode is expected (T.4, 4.2.1.3) */
    HAYRO_CCITT_RULE_RUN = 2,         /* the words of a run are expected (T.4, 4.1.1) */
    HAYRO_CCITT_RULE_ROW_END = 3,     /* a run or a vertical mode ends beyond the row's end (T.4, 4.1.1 and 4.2.1.3) */
    HAYRO_CCITT_RULE_NO_PIXELS = 4,   /* a run or a vertical mode has no pixels (T.4, 4.1.1 and 4.2.1.3) */
    HAYRO_CCITT_RULE_COLUMNS = 5,     /* there are no columns */
    HAYRO_CCITT_RULE_EOL = 6,         /* an EOL is expected (T.4, 4.1.2) */
    HAYRO_CCITT_RULE_TAG = 7,         /* a tag is expected (T.4, 4.2.2) */
    HAYRO_CCITT_RULE_PADDING = 8,     /* zeros up to a whole byte are expected (T.4, 4.1.3) */
    HAYRO_CCITT_RULE_PASS_TO_END = 9, /* pass mode is used to the row's end (T.4, 4.2.1.3.2) */
    /* these only with HAYRO_CCITT_BY_PROCEDURE, in data that every decoder must read: */
    HAYRO_CCITT_RULE_PROCEDURE = 10,  /* the procedure writes the line here with other words of a run, or another mode (T.4, 4.1.1 and
                                       * 4.2.1.3; T.6, 2.2); the place is the first bit that differs */
    HAYRO_CCITT_RULE_KIND = 11,       /* a line is two-dimensional where K allows none (T.4, 4.2.1) */
    HAYRO_CCITT_RULE_FILL = 12,       /* fill is before the first EOL, or before an EOL of RTC but its first (T.4, 4.1.3 and 4.1.4) */
    HAYRO_CCITT_RULE_END = 13         /* EOFB or RTC is due, or the end of the data (T.4, 4.1.4; T.6, 2.4.1.1) */
};

/* The rules as texts, by their numbers: what an array of pointers to char is initialized with. */
#define HAYRO_CCITT_RULE_TEXTS                                                                                                 \
    {                                                                                                                          \
        "no rule is broken", "a mode is expected (T.4, 4.2.1.3)", "a run is expected (T.4, 4.1.1)",                            \
        "beyond the row's end (T.4, 4.1.1 and 4.2.1.3)", "no pixels (T.4, 4.1.1 and 4.2.1.3)", "no columns",                   \
        "an EOL is expected (T.4, 4.1.2)", "a tag is expected (T.4, 4.2.2)",                                                   \
        "zeros up to a whole byte are expected (T.4, 4.1.3)", "pass mode to the row's end (T.4, 4.2.1.3.2)",                   \
        "not what the coding procedure writes (T.4, 4.1.1 and 4.2.1.3; T.6, 2.2)",                                             \
        "a two-dimensional line where none may be (T.4, 4.2.1)", "fill where none may be (T.4, 4.1.3 and 4.1.4)",              \
        "not the end that the coding procedure writes (T.4, 4.1.4; T.6, 2.4.1.1)"                                              \
    }

/* What a check fills in, whatever it returns: zeros, unless it returns HAYRO_CCITT_VIOLATION. */
typedef struct {
    uint64_t place; /* the offset in bits of the word that breaks the rule, or at which what it asks for is missing */
    uint64_t rule;  /* one of the rules above */
} hayro_ccitt_violation;

/* Checks data: whether an encoder that wrote it kept the rules of T.4 and T.6. HAYRO_CCITT_OK says that it conforms in the grade, and
 * HAYRO_CCITT_VIOLATION that it doesn't, and where. `grade` is one of the two above; with HAYRO_CCITT_BY_PROCEDURE `k` is K of
 * two-dimensional Group 3, where at most K - 1 two-dimensional lines may follow a one-dimensional one (T.4, 4.2.1), or 0 for any number
 * of them; else it has no effect. HAYRO_CCITT_NOT_TAKEN also means that the grade is another. HAYRO_CCITT_STRICT has no effect.
 *
 * More is asked than of data that is decoded with HAYRO_CCITT_STRICT: some data that is decoded so without an error doesn't conform. */
uint32_t hayro_ccitt_check(const uint8_t *data, size_t data_length, const hayro_ccitt_settings *settings, uint32_t grade, uint32_t k,
                           hayro_ccitt_violation *violation);

#ifdef __cplusplus
}
#endif

#endif
