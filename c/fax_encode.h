/* fax_encode.h: an encoder for CCITT fax images, ITU-T T.4 (Group 3) and T.6 (Group 4). It is in the same library as the decoder
 * of hayro_ccitt.h, whose rules for pointers, threads and memory apply here too. */
#ifndef FAX_ENCODE_H
#define FAX_ENCODE_H

#include <stddef.h>
#include <stdint.h>

#ifdef __cplusplus
extern "C" {
#endif

/* How the lines are encoded: as hayro_ccitt.h numbers it. */
enum {
    FAX_ENCODE_GROUP_4 = 0,    /* every line is two-dimensional (T.6, MMR) */
    FAX_ENCODE_GROUP_3_1D = 1, /* one-dimensional lines (T.4, MH) */
    FAX_ENCODE_GROUP_3_2D = 2  /* a tag before each line says which kind it is (T.4, MR) */
};

/* Flags, to be added up: as hayro_ccitt.h numbers those of the same name but FAX_ENCODE_BLACK_IS_0, which is another number than
 * HAYRO_CCITT_BLACK_IS_0. It has no effect on calls that don't take packed rows, and `stride` none on calls but fax_encode_bitmap; they
 * must be valid all the same. The settings name no encoding with any other flag or encoding; with FAX_ENCODE_END_OF_LINE in Group 4;
 * with FAX_ENCODE_EOLS_END_AT_BYTES, or FAX_ENCODE_END_OF_BLOCK of Group 3, but no FAX_ENCODE_END_OF_LINE; and with
 * FAX_ENCODE_ALIGNED_ROWS and FAX_ENCODE_END_OF_LINE. */
enum {
    FAX_ENCODE_END_OF_BLOCK = 1,      /* EOFB follows the last line of Group 4, or RTC that of Group 3 */
    FAX_ENCODE_END_OF_LINE = 2,       /* an EOL precedes each line of Group 3 */
    FAX_ENCODE_ALIGNED_ROWS = 4,      /* each row is padded up to a whole byte */
    FAX_ENCODE_LOW_FIRST = 16,        /* each byte's lowest bit comes first (TIFF's FillOrder 2), rather than its highest */
    FAX_ENCODE_EOLS_END_AT_BYTES = 32, /* fill precedes EOLs, so that they end at whole bytes (TIFF's T4Options bit 2) */
    FAX_ENCODE_SHORTEST = 64,         /* lines have the fewest bits that encode them, rather than those of T.4's make-up words and
                                       * T.6's procedure; this library reads either as the same rows */
    FAX_ENCODE_BLACK_IS_0 = 128       /* packed rows have 0 for black and 1 for white, rather than 1 and 0 */
};

typedef struct {
    uint32_t columns;  /* the width in pixels, not 0 */
    uint32_t encoding; /* one of the encodings above */
    uint32_t flags;    /* a sum of the flags above */
    uint32_t k;        /* of FAX_ENCODE_GROUP_3_2D, not 0: at most k - 1 two-dimensional lines follow a one-dimensional one (T.4,
                        * 4.2.1); the other encodings ignore it */
    uint32_t stride;   /* of a bitmap, the bytes from the start of a row to the start of the next one; 0: those of a row. Settings
                        * with fewer than those, (columns + 7) / 8, aren't taken. */
} fax_encode_settings;

/* What fax_encode_bitmap and fax_encode_finish fill in, whatever they return: zeros unless it is FAX_ENCODE_OK or
 * FAX_ENCODE_REFUSED. */
typedef struct {
    uint64_t rows;  /* the number of rows of the picture */
    uint64_t bytes; /* the length of the encoded data in bytes */
} fax_encode_outcome;

/* What a call returns. Unless it is FAX_ENCODE_OK, the data keeps its values. */
enum {
    FAX_ENCODE_OK = 0,
    FAX_ENCODE_OUT_OF_MEMORY = 4, /* an allocation failed */
    FAX_ENCODE_REFUSED = 5,       /* there is no room for the number of bytes in the outcome */
    FAX_ENCODE_NOT_TAKEN = 6      /* the settings name no encoding, there are no columns, the stride is less than the bytes of a
                                   * row, the bitmap isn't whole rows, or it is empty: only Group 4 with FAX_ENCODE_END_OF_BLOCK has
                                   * a picture without rows. Calls of a writer say below what it means. */
};

/* Encodes a bitmap. A row of it has (columns + 7) / 8 bytes: one bit a pixel, 1 for black, or 0 with FAX_ENCODE_BLACK_IS_0, the
 * leftmost pixel in a byte's highest bit; bits after the last pixel are ignored. Each row begins `stride` bytes after the one before,
 * and the bytes between them are ignored. There are as many rows as begin and end within the bitmap: the last one needs only its own
 * bytes. A bitmap that ends inside a row isn't taken. The last encoded byte is padded with zeros, and the bytes after it keep their
 * values. A call with a data_length of 0 returns in outcome.bytes how much room is needed. */
uint32_t fax_encode_bitmap(const uint8_t *bitmap, size_t bitmap_length, const fax_encode_settings *settings,
                           uint8_t *data, size_t data_length, fax_encode_outcome *outcome);

/* Rows one at a time, in memory for two rows and the encoded data: open a writer, add rows, finish the strip, and close the
 * writer. The bytes are those of fax_encode_bitmap for a bitmap of the rows. examples/rows_to_strip.c is a program that does so.
 *
 * Several writers may be open at a time. Each belongs to one thread at a time. A writer that isn't closed leaks its memory. After
 * FAX_ENCODE_OUT_OF_MEMORY of a writer that is open, it returns that again until it is closed. */
typedef struct {
    void *strip;           /* the fields are the library's own: set all to zero before fax_encode_open, change none after it, */
    void *dangling;        /* and don't copy an open writer */
    unsigned char is_open;
    unsigned char black_is_0;
} fax_encode_writer;

/* Opens a writer before the first row. Unless it returns FAX_ENCODE_OK, the writer stays as it is. FAX_ENCODE_NOT_TAKEN means
 * that the settings name no encoding, there are no columns, the stride is less than the bytes of a row, or the writer is open. */
uint32_t fax_encode_open(const fax_encode_settings *settings, fax_encode_writer *writer);

/* Adds a row of (columns + 7) / 8 bytes, packed as in a bitmap, with 0 for black if the writer was opened with
 * FAX_ENCODE_BLACK_IS_0; more bytes are ignored. FAX_ENCODE_NOT_TAKEN means that there are
 * fewer, the strip is finished, or the writer isn't open; then nothing changes. */
uint32_t fax_encode_row_packed(fax_encode_writer *writer, const uint8_t *row, size_t row_length);

/* Adds a row, given by its changes: the positions of the pixels at which its colour changes, strictly ascending and below
 * `columns`; it starts white. FAX_ENCODE_NOT_TAKEN means that the changes aren't those of a row, the strip is finished, or the
 * writer isn't open; then nothing changes. */
uint32_t fax_encode_row_changes(fax_encode_writer *writer, const uint32_t *changes, size_t changes_length);

/* Finishes the strip, and writes it into `data`, whose bytes after it keep their values. No row can be added afterwards. After
 * FAX_ENCODE_REFUSED, as from a call with a data_length of 0, outcome.bytes is how much room is needed; each further call gives
 * the same bytes. FAX_ENCODE_NOT_TAKEN means that there are no rows, which only Group 4 with FAX_ENCODE_END_OF_BLOCK has a
 * picture of, or that the writer isn't open; then nothing changes. */
uint32_t fax_encode_finish(fax_encode_writer *writer, uint8_t *data, size_t data_length, fax_encode_outcome *outcome);

/* Closes a writer, and frees its memory. Returns FAX_ENCODE_OK, or FAX_ENCODE_NOT_TAKEN if it isn't open: then it does nothing. */
uint32_t fax_encode_close(fax_encode_writer *writer);

#ifdef __cplusplus
}
#endif

#endif
