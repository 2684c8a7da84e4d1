/* Encodes a PBM picture (P4) on standard input as a strip of fax data on standard output:
 *
 *   pbm_to_strip MODE FLAGS [K] < picture.pbm > strip
 *
 * MODE is g4, 1d or 2d. FLAGS is -, or letters, each once: b (EOFB or RTC follows the last line), l (an EOL precedes each
 * line), f (EOLs end at bytes), a (rows are aligned to bytes), r (each byte's lowest bit comes first), and s, which has no
 * effect. K is that of two-dimensional lines, 4 without it. The arguments are faxpack's. The status is 0 if the picture was
 * encoded, 1 if the input is no such picture, or has no rows or columns to encode, and 2 for wrong arguments, an allocation
 * failure, or an error in reading or writing. */
#include <fax_encode.h>
#include <ctype.h>
#include <stdio.h>
#include <stdlib.h>
#include <string.h>

/* Reads a number of the header, after white space and comments, and the one character after it. */
static int read_number(FILE *file, uint32_t *number)
{
    uint64_t value = 0;
    int digits = 0, c = getc(file);
    while (isspace(c) || c == '#') {
        if (c == '#')
            while (c != EOF && c != '\n')
                c = getc(file);
        c = getc(file);
    }
    for (; isdigit(c) && value <= UINT32_MAX; c = getc(file), digits++)
        value = 10 * value + (uint64_t)(c - '0');
    *number = (uint32_t)value;
    return digits && value <= UINT32_MAX && isspace(c);
}

/* Prints what went wrong. Returns the exit status. */
static int failed(const char *what, int status)
{
    fprintf(stderr, "pbm_to_strip: %s\n", what);
    return status;
}

/* Reads the picture's bitmap, whose rows have the encoder's form. Returns an exit status, with the bitmap if it is 0. */
static int read_picture(FILE *file, uint32_t *columns, uint8_t **bitmap, size_t *length)
{
    uint32_t rows;
    *bitmap = NULL;
    if (getc(file) != 'P' || getc(file) != '4' || !read_number(file, columns) || !read_number(file, &rows))
        return ferror(file) ? failed("cannot read", 2) : failed("no PBM picture", 1);
    size_t width = ((size_t)*columns + 7) / 8, room = 1 << 16, have = 0;
    if (rows > SIZE_MAX / 4 / (width + 1))
        return failed("out of memory", 2);
    *length = rows * width;
    /* Memory grows with what is read, whatever the header says. */
    uint8_t *bytes = malloc(room);
    while (bytes) {
        size_t wanted = *length < room ? *length : room;
        have += fread(bytes + have, 1, wanted - have, file);
        if (have < wanted) {
            free(bytes);
            return ferror(file) ? failed("cannot read", 2) : failed("the picture ends early", 1);
        }
        if (have == *length) {
            *bitmap = bytes;
            return 0;
        }
        uint8_t *more = realloc(bytes, room *= 2);
        if (!more)
            free(bytes);
        bytes = more;
    }
    return failed("out of memory", 2);
}

/* Reads all of a text as a number of 32 bits. */
static int read_k(const char *text, uint32_t *k)
{
    uint64_t value = 0;
    const char *digit = text;
    for (; *digit >= '0' && *digit <= '9' && value <= UINT32_MAX; digit++)
        value = 10 * value + (uint64_t)(*digit - '0');
    *k = (uint32_t)value;
    return digit != text && !*digit && value <= UINT32_MAX;
}

/* Returns the sum of the flags that letters name, each at most once; 0 for `-`. */
static int read_flags(const char *text, uint32_t *flags)
{
    static const char letters[] = "blasrf";
    const uint32_t strict = 8;
    *flags = 0;
    if (!strcmp(text, "-"))
        return 1;
    for (const char *flag = text; *flag; flag++) {
        const char *letter = strchr(letters, *flag);
        if (!letter || (*flags & 1u << (letter - letters)))
            return 0;
        *flags |= 1u << (letter - letters);
    }
    *flags &= ~strict;
    return *text != 0;
}

/* Reads the arguments, and has the library check that they name an encoding, of one white pixel. */
static int read_words(int count, char **words, fax_encode_settings *settings)
{
    static const char *const modes[] = {"g4", "1d", "2d"};
    static const uint8_t white = 0;
    fax_encode_outcome outcome;
    uint8_t none;
    *settings = (fax_encode_settings){1, 0, 0, 4, 0};
    while (settings->encoding < 3 && strcmp(words[0], modes[settings->encoding]))
        settings->encoding++;
    return read_flags(words[1], &settings->flags) && (count < 3 || read_k(words[2], &settings->k))
        && fax_encode_bitmap(&white, 1, settings, &none, 0, &outcome) != FAX_ENCODE_NOT_TAKEN;
}

static int encode(const uint8_t *bitmap, size_t length, const fax_encode_settings *settings)
{
    fax_encode_outcome outcome;
    uint8_t *data = NULL, none;
    /* A first call, without room, returns the number of bytes. */
    uint32_t returned = fax_encode_bitmap(bitmap, length, settings, &none, 0, &outcome);
    if (returned == FAX_ENCODE_REFUSED)
        data = malloc(outcome.bytes);
    if (data)
        returned = fax_encode_bitmap(bitmap, length, settings, data, outcome.bytes, &outcome);
    int status = returned == FAX_ENCODE_NOT_TAKEN ? failed("no rows or no columns", 1)
        : returned != FAX_ENCODE_OK ? failed("out of memory", 2)
        : fwrite(data, 1, outcome.bytes, stdout) != outcome.bytes || fflush(stdout) ? failed("cannot write", 2)
        : 0;
    free(data);
    return status;
}

int main(int count, char **words)
{
    fax_encode_settings settings;
    uint8_t *bitmap;
    size_t length;
    if (count < 3 || count > 4 || !read_words(count - 1, words + 1, &settings)) {
        fprintf(stderr, "usage: pbm_to_strip MODE FLAGS [K]\n");
        return 2;
    }
    int status = read_picture(stdin, &settings.columns, &bitmap, &length);
    if (status == 0)
        status = encode(bitmap, length, &settings);
    free(bitmap);
    return status;
}
