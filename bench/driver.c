/* One decoding of a strip, for callgrind to count its instructions, or many by each of several decoders in turn:
 *
 *   driver DECODER ENCODING COLUMNS ROWS FLAGS FILE
 *   driver DECODERS ENCODING COLUMNS ROWS FLAGS FILE MILLISECONDS
 *   driver DECODERS LIST
 *
 * DECODER is `rows`, `changes` or `packed` (this library), `tiff-packed` (with -DWITH_TIFF), `crate-rows` or `crate-packed` (with
 * -DWITH_CRATE); DECODERS are several, with commas between them. The first form prints the status, the rows, the changes if they are
 * counted, and a sum over the picture; callgrind is given --toggle-collect=measured. The second prints for each decoder the least
 * wall-clock time of a call, in nanoseconds: a virtual machine may count too little processor time. The third prints what the first
 * does for each strip of a list and each decoder in turn: each line of the file LIST has ENCODING COLUMNS ROWS FLAGS FILE. The
 * first strip is decoded twice, so that no call is linked while the others are counted; callgrind is given --dump-after=measured
 * too. */
#define _POSIX_C_SOURCE 199309L
#include "../c/hayro_ccitt.h"
#include <stdio.h>
#include <stdlib.h>
#include <string.h>
#include <time.h>

uint32_t crate_measure(const uint8_t *, size_t, const hayro_ccitt_settings *, hayro_ccitt_outcome *);
uint32_t crate_decode_packed(const uint8_t *, size_t, const hayro_ccitt_settings *, uint8_t *, size_t, hayro_ccitt_outcome *);
void *tiff_of_strip(const uint8_t *data, size_t length, const hayro_ccitt_settings *settings);
uint32_t tiff_decode_packed(void *tiff, uint8_t *bitmap, size_t length);

enum { MOST_LISTED = 1 << 22 };

static const char *decoder;
static uint8_t *data, *bitmap;
static uint32_t *lists;
static size_t length, room;
static hayro_ccitt_settings settings;
static hayro_ccitt_outcome outcome;
#ifdef WITH_TIFF
static void *tiff;
#endif

static int is(const char *name) { return !strcmp(decoder, name); }

__attribute__((noinline)) static uint32_t measured(void)
{
    if (is("rows"))
        return hayro_ccitt_measure(data, length, &settings, &outcome);
    if (is("changes"))
        return hayro_ccitt_decode_changes(data, length, &settings, lists, MOST_LISTED, &outcome);
    if (is("packed"))
        return hayro_ccitt_decode_packed(data, length, &settings, bitmap, room, &outcome);
#ifdef WITH_TIFF
    if (is("tiff-packed"))
        return tiff_decode_packed(tiff, bitmap, room);
#endif
#ifdef WITH_CRATE
    if (is("crate-rows"))
        return crate_measure(data, length, &settings, &outcome);
    if (is("crate-packed"))
        return crate_decode_packed(data, length, &settings, bitmap, room, &outcome);
#endif
    exit(4);
}

static uint8_t *contents(const char *name)
{
    FILE *file = fopen(name, "rb");
    if (!file || fseek(file, 0, SEEK_END))
        exit(3);
    length = ftell(file);
    rewind(file);
    uint8_t *bytes = malloc(length + 1);
    if (!bytes || fread(bytes, 1, length, file) != length)
        exit(3);
    fclose(file);
    return bytes;
}

static double time_now(void)
{
    struct timespec now;
    clock_gettime(CLOCK_MONOTONIC, &now);
    return now.tv_sec * 1e9 + now.tv_nsec;
}

enum { MOST = 8 };

/* Calls the decoders in turn until they have taken this time, and prints the least time of a call of each. */
static int race(char *names, double limit)
{
    const char *racing[MOST];
    double least[MOST];
    int count = 0;
    for (char *name = strtok(names, ","); name && count < MOST; name = strtok(NULL, ",")) {
        racing[count] = name;
        least[count++] = 1e18;
    }
    for (double begun = time_now(); time_now() - begun < limit;)
        for (int at = 0; at < count; at++) {
            decoder = racing[at];
            double start = time_now();
            measured();
            double took = time_now() - start;
            least[at] = took > 0 && took < least[at] ? took : least[at];
        }
    for (int at = 0; at < count; at++)
        printf("%.0f%c", least[at], at + 1 < count ? ' ' : '\n');
    return 0;
}

/* Takes up a strip: ENCODING COLUMNS ROWS FLAGS FILE. */
static void take_strip(char **words)
{
    settings = (hayro_ccitt_settings){strtoul(words[1], NULL, 10), strtoul(words[2], NULL, 10), strtoul(words[0], NULL, 10),
                                      strtoul(words[3], NULL, 10), 0};
    free(data);
    data = contents(words[4]);
}

/* Makes room for the bitmap, if the decoder writes one. */
static void take_decoder(const char *name)
{
    decoder = name;
    room = strstr(name, "packed") ? ((size_t)settings.columns + 7) / 8 * settings.rows : 0;
    free(bitmap);
    bitmap = calloc(1, room + 1);
}

static void decode_and_print(void)
{
    uint32_t status = measured();
    uint64_t sum = 0;
    for (size_t at = 0; at < room; at++)
        sum = sum * 31 + bitmap[at];
    printf("%u %lu %lu %016lx\n", status, (unsigned long)outcome.rows, (unsigned long)outcome.changes, (unsigned long)sum);
}

/* Decodes each strip of a list by each decoder in turn. */
static int decode_list(char *names, const char *list)
{
    char *decoders[MOST], line[4096], *words[5];
    int count = 0;
    for (char *name = strtok(names, ","); name && count < MOST; name = strtok(NULL, ","))
        decoders[count++] = name;
    FILE *file = fopen(list, "r");
    if (!file)
        return 3;
    for (int strip = 0; fgets(line, sizeof line, file); strip++) {
        for (int at = 0; at < 5; at++)
            if (!(words[at] = strtok(at ? NULL : line, " \n")))
                return 2;
        take_strip(words);
        for (int times = strip ? 1 : 2; times > 0; times--)
            for (int at = 0; at < count; at++) {
                take_decoder(decoders[at]);
                decode_and_print();
            }
    }
    fclose(file);
    return 0;
}

int main(int count, char **words)
{
    if (count != 3 && count != 7 && count != 8)
        return 2;
    lists = malloc(MOST_LISTED * sizeof *lists);
    if (count == 3)
        return decode_list(words[1], words[2]);
    take_strip(words + 2);
    take_decoder(words[1]);
#ifdef WITH_TIFF
    tiff = tiff_of_strip(data, length, &settings);
#endif
    if (count == 8)
        return race(words[1], strtod(words[7], NULL) * 1e6);
    decode_and_print();
    return 0;
}
