/* Decodes a strip of fax data on standard input to a PBM picture on standard output:
 *
 *   strip_to_pbm MODE COLUMNS ROWS FLAGS < strip > picture.pbm
 *
 * MODE is g4, 1d or 2d. ROWS is the largest number of rows, 0 for no limit. FLAGS is -, or letters, each once: b (EOFB or RTC may
 * end the data), l (an EOL precedes each line), a (rows are aligned to bytes), s (strict), r (each byte's lowest bit comes first).
 * The status is 0 if the data was decoded, 1 after a fault in the data, whose rows before the fault are written, and 2 for wrong
 * arguments, an allocation failure, or an error in reading or writing. */
#include <hayro_ccitt.h>
#include <stdio.h>
#include <stdlib.h>
#include <string.h>

/* Reads all of standard input. */
static uint8_t *read_all(size_t *length)
{
    size_t room = 1 << 16;
    uint8_t *data = malloc(room);
    *length = 0;
    while (data) {
        *length += fread(data + *length, 1, room - *length, stdin);
        if (*length < room)
            break;
        uint8_t *more = realloc(data, room *= 2);
        if (!more)
            free(data);
        data = more;
    }
    return data;
}

/* Reads all of a text as a number of 32 bits. */
static int read_number(const char *text, uint32_t *number)
{
    uint64_t value = 0;
    const char *digit = text;
    for (; *digit >= '0' && *digit <= '9' && value <= UINT32_MAX; digit++)
        value = 10 * value + (uint64_t)(*digit - '0');
    *number = (uint32_t)value;
    return digit != text && !*digit && value <= UINT32_MAX;
}

/* Returns the sum of the flags that letters name, each at most once; 0 for `-`. */
static int read_flags(const char *text, uint32_t *flags)
{
    static const char letters[] = "blasr";
    *flags = 0;
    if (!strcmp(text, "-"))
        return 1;
    for (const char *flag = text; *flag; flag++) {
        const char *letter = strchr(letters, *flag);
        if (!letter || (*flags & 1u << (letter - letters)))
            return 0;
        *flags |= 1u << (letter - letters);
    }
    return *text != 0;
}

static int read_words(char **words, hayro_ccitt_settings *settings)
{
    static const char *const modes[] = {"g4", "1d", "2d"};
    settings->encoding = 0;
    settings->stride = 0;
    while (settings->encoding < 3 && strcmp(words[0], modes[settings->encoding]))
        settings->encoding++;
    return settings->encoding < 3 && read_number(words[1], &settings->columns) && read_number(words[2], &settings->rows)
        && read_flags(words[3], &settings->flags);
}

static const char *const texts[] = {
    "ok", "unexpected end of the data", "invalid code", "overflow", "out of memory", "no room for a row", "too much data",
};

/* Prints what a call returned, unless it is OK. Returns the exit status. */
static int status_of(uint32_t returned)
{
    if (returned != HAYRO_CCITT_OK)
        fprintf(stderr, "strip_to_pbm: %s\n", texts[returned]);
    return returned == HAYRO_CCITT_OK ? 0 : returned < HAYRO_CCITT_OUT_OF_MEMORY ? 1 : 2;
}

static int cannot(const char *what)
{
    fprintf(stderr, "strip_to_pbm: cannot %s\n", what);
    return 2;
}

static int decode(const uint8_t *data, size_t length, const hayro_ccitt_settings *settings)
{
    hayro_ccitt_outcome outcome;
    /* The rows are counted first, so that the picture can be allocated. */
    uint32_t returned = hayro_ccitt_measure(data, length, settings, &outcome);
    if (returned >= HAYRO_CCITT_OUT_OF_MEMORY)
        return status_of(returned);
    size_t width = ((size_t)settings->columns + 7) / 8;
    uint8_t *bitmap = outcome.rows <= SIZE_MAX / (width + 1) ? malloc(outcome.rows * width + 1) : NULL;
    if (!bitmap)
        return status_of(HAYRO_CCITT_OUT_OF_MEMORY);

    returned = hayro_ccitt_decode_packed(data, length, settings, bitmap, outcome.rows * width, &outcome);
    size_t size = outcome.rows * width;
    int written = printf("P4\n%lu %lu\n", (unsigned long)settings->columns, (unsigned long)outcome.rows) > 0
        && fwrite(bitmap, 1, size, stdout) == size && fflush(stdout) == 0;
    free(bitmap);
    return written ? status_of(returned) : cannot("write");
}

int main(int count, char **words)
{
    hayro_ccitt_settings settings;
    size_t length;
    if (count != 5 || !read_words(words + 1, &settings)) {
        fprintf(stderr, "usage: strip_to_pbm MODE COLUMNS ROWS FLAGS\n");
        return 2;
    }
    uint8_t *data = read_all(&length);
    if (!data)
        return status_of(HAYRO_CCITT_OUT_OF_MEMORY);
    int status = ferror(stdin) ? cannot("read") : decode(data, length, &settings);
    free(data);
    return status;
}
