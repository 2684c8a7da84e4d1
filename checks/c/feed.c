/* Reads each case in pieces, a line each on standard input: encoding, columns, rows, flags, as hayro_ccitt.h numbers them, how much is
   tried (0, 1 or 2), and the data in hexadecimal, `-` for none. Whatever the pieces are, the rows, all that is told of each, and the
   end must be those of hayro_ccitt_open and hayro_ccitt_next_changes over the whole data, and the bytes that aren't used those after
   `bytes_read`. Rows are read one a call, and by calls that give as many as there is room for, packed ones at a stride that is the
   row's or greater. Of pieces and results each few are in blocks that are exactly as long as they have to be. Of 0, random pieces, single bytes and
   pieces of 4,096 bytes are tried; of 1 also two pieces, cut at each byte, and every allocation refused in turn; of 2 also each
   beginning of the data as data, and whether each row comes as soon as no data that follows can change it. The last line counts. */
#include "guarded.h"

#include <hayro_ccitt.h>

enum { MOST_ROWS = 1 << 18, MOST_NUMBERS = 1 << 22, MOST_BYTES = 1 << 21, MOST_COLUMNS = 1 << 16, PIECE = 4096, CUTS = 128, TRIES = 20000, MORE = 16,
       AT_ONCE = 5 };
/* each how many rows and pieces one is in a block of its own */
enum { FEW = 8 };

static unsigned long cases, walks, rows_fed, rows_at_once, rows_kept, rows_refused, refusals, reported_late, settled, unsettled;

static uint32_t random_number(void) {
    static uint32_t state = 1;
    state = state * 1664525 + 1013904223;
    return state >> 8;
}

/* ---- What is known: the rows and the end of data, as a reader reads them. */

static struct known {
    hayro_ccitt_row row;
    const uint32_t *changes;
} rows_known[MOST_ROWS];
static uint32_t numbers[MOST_NUMBERS];
static hayro_ccitt_row end_known;
static uint32_t end_status;
static size_t count_known;

static int is_known(const uint8_t *data, size_t length, const hayro_ccitt_settings *settings) {
    hayro_ccitt_reader reader = {0, 0, 0};
    hayro_ccitt_row row;
    uint32_t *next = numbers, status = hayro_ccitt_open(data, length, settings, &reader);
    count_known = 0;
    if (status == HAYRO_CCITT_NOT_TAKEN) return 0;
    while ((status = hayro_ccitt_next_changes(data, length, &reader, next, (size_t)(numbers + MOST_NUMBERS - next), &row)) == HAYRO_CCITT_OK) {
        must(count_known < MOST_ROWS, "room for rows");
        rows_known[count_known++] = (struct known){row, next};
        next += row.changes;
    }
    must(status != HAYRO_CCITT_REFUSED && status != HAYRO_CCITT_OUT_OF_MEMORY, "a reader has room");
    end_status = status;
    end_known = row;
    hayro_ccitt_close(&reader);
    return 1;
}

/* ---- Data in pieces. */

struct going {
    const uint8_t *data;
    size_t length, fed, taken;
    hayro_ccitt_settings settings;
    size_t width, stride; /* the bytes of a row, and from one to the next */
    size_t first, each;   /* the length of the first piece and of the others; 0: random ones, and some without bytes */
    unsigned idle;      /* after so many pieces rows are asked for: 1 is each */
    unsigned pieces;
    int is_finished, has_ended, can_refuse;
    hayro_ccitt_row_feed feed;
};

/* Whether a call was refused memory, as one may be; it is made again. */
static int is_refused(const struct going *it, uint32_t status) {
    if (status != HAYRO_CCITT_OUT_OF_MEMORY) return 0;
    must(it->can_refuse && asked >= refused_at, "memory is refused where it was");
    reported_late++;
    return 1;
}

static struct going begun(const uint8_t *data, size_t length, const hayro_ccitt_settings *settings, size_t first, size_t each) {
    size_t width = (settings->columns + 7ULL) / 8, more = walks % 3;
    struct going it = {data, length, 0, 0, *settings, width, width + more, first, each, 1, 0, 0, 0, refused_at > 0, {0, 0, 0}};
    it.settings.stride = more ? (uint32_t)it.stride : 0;
    uint32_t status = hayro_ccitt_feed_open(&it.settings, &it.feed);
    if (is_refused(&it, status)) {
        must(!it.feed.is_open, "a feed without memory isn't open");
        status = hayro_ccitt_feed_open(&it.settings, &it.feed);
    }
    must(status == HAYRO_CCITT_OK && it.feed.is_open, "open");
    return it;
}

/* The bytes that aren't used are those fed after the ones that were read. Of a gap that waits for more data they aren't kept. */
static void unused_is_after(struct going *it, uint64_t bytes_read) {
    size_t count = 7, left = it->fed - bytes_read;
    must(bytes_read <= it->fed, "what was read was fed");
    uint8_t *bytes = lend(left);
    uint32_t without_room = left == 0 ? HAYRO_CCITT_OK : hayro_ccitt_feed_unused(&it->feed, bytes, left - 1, &count);
    must(left == 0 || (count == left && is_untouched_after(bytes, 0, left)), "nothing is copied without room");
    uint32_t status = hayro_ccitt_feed_unused(&it->feed, bytes, left, &count);
    must(count == left, "how much is unused");
    if (status == HAYRO_CCITT_NEEDS_MORE) {
        must(left == 0 || without_room == status, "what isn't kept needs no room");
        must(!it->has_ended && is_untouched_after(bytes, 0, left), "what is unused is known at the end");
    } else {
        must(left == 0 || without_room == HAYRO_CCITT_REFUSED, "no room for what is unused");
        must(status == HAYRO_CCITT_OK && are_same(bytes, it->data + bytes_read, left), "the bytes that are unused");
    }
    take_back(bytes);
}

static void is_row(const struct known *it, const hayro_ccitt_row *row) {
    must(are_same(row, &it->row, sizeof *row), "what is told of a row");
}

static uint32_t next_changes(struct going *it, uint32_t *changes, size_t room, hayro_ccitt_row *row) {
    uint32_t status = hayro_ccitt_feed_next_changes(&it->feed, changes, room, row);
    return is_refused(it, status) ? hayro_ccitt_feed_next_changes(&it->feed, changes, room, row) : status;
}

static uint32_t next_packed(struct going *it, uint8_t *packed, size_t room, hayro_ccitt_row *row) {
    uint32_t status = hayro_ccitt_feed_next_packed(&it->feed, packed, room, row);
    return is_refused(it, status) ? hayro_ccitt_feed_next_packed(&it->feed, packed, room, row) : status;
}

/* A row that was refused comes again. */
static void is_refused_row(const struct going *it, const struct known *known, const hayro_ccitt_row *row) {
    must(row->rows == it->taken + 1 && row->changes == known->row.changes, "what a refused row needs");
    rows_refused++;
}

static uint32_t list_next(struct going *it, const struct known *known, hayro_ccitt_row *row) {
    static uint32_t spare[MOST_COLUMNS];
    int is_lent = it->taken % FEW == 0, was_refused = 0;
    uint32_t *changes = is_lent ? lend(4 * known->row.changes) : spare, status;
    if (known->row.changes > 0 && is_lent) {
        status = next_changes(it, changes, known->row.changes - 1, row);
        was_refused = status == HAYRO_CCITT_REFUSED;
        must(was_refused || status == HAYRO_CCITT_NEEDS_MORE, "no room for changes");
        if (was_refused) is_refused_row(it, known, row);
        must(is_untouched_after(changes, 0, 4 * known->row.changes), "nothing is listed without room");
    }
    status = next_changes(it, changes, known->row.changes, row);
    must(!was_refused || status == HAYRO_CCITT_OK, "a refused row comes again");
    if (status == HAYRO_CCITT_OK) must(are_same(changes, known->changes, 4 * known->row.changes), "the changes of a row");
    if (is_lent) take_back(changes);
    return status;
}

/* The pixels of a packed row, and white ones up to a whole byte. */
static void is_packed(const struct going *it, const struct known *known, const uint8_t *packed) {
    uint8_t other = it->settings.flags & HAYRO_CCITT_BLACK_IS_0 ? 0xFF : 0;
    for (uint64_t place = 0, black = 0, k = 0; place < 8 * it->width; place++) {
        if (place == it->settings.columns) black = 0, k = known->row.changes;
        while (k < known->row.changes && known->changes[k] == place) black ^= 1, k++;
        must(((packed[place / 8] ^ other) >> (7 - place % 8) & 1) == black, "pixel");
    }
}

static uint32_t pack_next(struct going *it, const struct known *known, hayro_ccitt_row *row) {
    size_t width = it->width;
    static uint8_t spare[MOST_COLUMNS / 8];
    int is_lent = it->taken % FEW == 1, was_refused = 0;
    uint8_t *packed = is_lent ? lend(width) : spare;
    uint32_t status;
    if (width > 0 && is_lent) {
        status = next_packed(it, packed, width - 1, row);
        was_refused = status == HAYRO_CCITT_REFUSED;
        must(was_refused || status == HAYRO_CCITT_NEEDS_MORE, "no room for a packed row");
        if (was_refused) is_refused_row(it, known, row);
        must(is_untouched_after(packed, 0, width), "nothing is packed without room");
    }
    status = next_packed(it, packed, width, row);
    must(!was_refused || status == HAYRO_CCITT_OK, "a refused row comes again, packed");
    if (status == HAYRO_CCITT_OK) is_packed(it, known, packed);
    if (is_lent) take_back(packed);
    return status;
}

/* ---- As many rows as there is room for. */

/* How many rows there is room for, and with how many bytes or numbers after them; the room of the first of these rows. */
struct room {
    size_t rows, after;
};

static struct room some_room(size_t most_after) {
    struct room room = {random_number() % (AT_ONCE + 1), 0};
    if (most_after > 0 && random_number() % 2) room.after = random_number() % (most_after + 1);
    return room;
}

/* What such a call says of rows that it gave: that there is no room for one more, which is kept; or what a call of one row says after
   them. */
static uint32_t are_given(struct going *it, size_t count, uint32_t status, const hayro_ccitt_row *row) {
    must(count <= count_known - it->taken, "no rows more, at once");
    it->taken += count;
    rows_at_once += count;
    rows_fed += count;
    if (status == HAYRO_CCITT_OK) {
        must(count > 0, "there is room for a row");
        must(it->taken < count_known, "a row that is kept is there");
        is_row(&rows_known[it->taken], row);
        rows_kept++;
    } else if (status == HAYRO_CCITT_REFUSED) {
        must(count == 0, "the first row is refused");
        is_refused_row(it, &rows_known[it->taken], row);
    }
    return is_refused(it, status) ? HAYRO_CCITT_OK : status;
}

static uint32_t pack_rows(struct going *it, hayro_ccitt_row *row) {
    size_t step = it->stride > 0 ? it->stride : 1, count = 7, from = it->taken, left = count_known - from;
    struct room room = some_room(it->width ? it->width - 1 : 0);
    /* after the last stride fewer bytes than a row needs, or only its own bytes */
    size_t size = room.rows == 0 ? room.after : room.after ? room.rows * step + room.after : (room.rows - 1) * step + it->width;
    uint8_t *bitmap = lend(size);
    uint32_t status = hayro_ccitt_feed_rows_packed(&it->feed, bitmap, size, &count, row);
    must(count <= left && (it->width == 0 || count <= room.rows), "as many rows as there is room for");
    for (size_t index = 0; index < count; index++) {
        size_t end = index * step + it->width, next = index + 1 < count ? (index + 1) * step : size;
        is_packed(it, &rows_known[from + index], bitmap + index * step);
        must(next <= end || is_untouched_after(bitmap, end, next), "the bytes after a row");
    }
    must(count > 0 || is_untouched_after(bitmap, 0, size), "nothing is packed without a row");
    must(status != HAYRO_CCITT_OK || count == room.rows, "all room is used");
    must(status != HAYRO_CCITT_REFUSED || room.rows == 0, "there is no room");
    take_back(bitmap);
    return are_given(it, count, status, row);
}

static uint32_t list_rows(struct going *it, hayro_ccitt_row *row) {
    size_t count = 7, place = 0, size = 0, from = it->taken, left = count_known - from;
    struct room room = some_room(AT_ONCE);
    for (size_t index = 0; index < room.rows && index < left; index++) size += 1 + rows_known[from + index].row.changes;
    size += room.after;
    uint32_t *lists = lend(4 * size);
    uint32_t status = hayro_ccitt_feed_rows_changes(&it->feed, lists, size, &count, row);
    must(count <= left, "as many rows as there are");
    for (size_t index = 0; index < count; index++) {
        const struct known *known = &rows_known[from + index];
        must(place < size && lists[place] == known->row.changes && place + 1 + lists[place] <= size, "how many changes a row has");
        must(are_same(lists + place + 1, known->changes, 4 * known->row.changes), "the changes of a listed row");
        place += 1 + lists[place];
    }
    must(is_untouched_after(lists, 4 * place, 4 * size), "the numbers after the last row");
    if (status == HAYRO_CCITT_OK || status == HAYRO_CCITT_REFUSED)
        must(place == size || (from + count < count_known && size - place < 1 + rows_known[from + count].row.changes), "all room is used");
    take_back(lists);
    return are_given(it, count, status, row);
}

/* After the end each call says the same, and no more is asked for. */
static void is_end(struct going *it, uint32_t status, const hayro_ccitt_row *row) {
    uint32_t none = 0;
    hayro_ccitt_row again;
    must(status == end_status && it->taken == count_known, "the end");
    must(are_same(row, &end_known, sizeof *row), "what is told at the end");
    for (int more = 0; more < 2; more++) {
        size_t count = 7;
        must(hayro_ccitt_feed_rows_changes(&it->feed, &none, 1, &count, &again) == status && count == 0 && none == 0, "the end again, of lists");
        must(are_same(&again, row, sizeof again), "what is told of it");
        count = 7;
        must(hayro_ccitt_feed_rows_packed(&it->feed, NULL, 0, &count, &again) == status && count == 0, "the end again, of a bitmap");
        must(are_same(&again, row, sizeof again), "what is told of it");
        must(next_changes(it, &none, 0, &again) == status && are_same(&again, row, sizeof again), "the end again");
        must(next_packed(it, NULL, 0, &again) == status && are_same(&again, row, sizeof again), "the end again, packed");
    }
    it->has_ended = 1;
}

/* Reads the rows that are settled. */
static void drain(struct going *it) {
    uint32_t none = 0, status = HAYRO_CCITT_OK;
    hayro_ccitt_row row;
    while (status == HAYRO_CCITT_OK) {
        const struct known *known = &rows_known[it->taken];
        unsigned way = random_number() % 4;
        if (way < 2) {
            status = way ? pack_rows(it, &row) : list_rows(it, &row);
            if (status == HAYRO_CCITT_OK || status == HAYRO_CCITT_REFUSED) {
                status = HAYRO_CCITT_OK;
                continue;
            }
        } else if (it->taken == count_known) status = next_changes(it, &none, 0, &row);
        else status = it->taken % 2 ? pack_next(it, known, &row) : list_next(it, known, &row);
        if (status == HAYRO_CCITT_OK) {
            must(it->taken < count_known, "no row more");
            is_row(known, &row);
            it->taken++;
            rows_fed++;
        } else if (status == HAYRO_CCITT_NEEDS_MORE) {
            must(!it->is_finished, "no more is needed of what is finished");
            must(!it->has_ended && row.rows == it->taken, "more is needed for the next row");
        } else {
            is_end(it, status, &row);
        }
        if (it->has_ended || it->pieces % FEW == 0) unused_is_after(it, row.bytes_read);
    }
}

static const uint8_t *copied(void *to, const uint8_t *from, size_t size) {
    copy(to, from, size);
    return to;
}

/* Feeds a piece, or finishes the data. Returns 0 if it was finished before. */
static int step(struct going *it) {
    size_t left = it->length - it->fed, size = it->pieces ? it->each : it->first;
    uint32_t status;
    if (it->is_finished) return 0;
    if (left == 0) {
        must(hayro_ccitt_feed_finish(&it->feed) == HAYRO_CCITT_OK && hayro_ccitt_feed_finish(&it->feed) == HAYRO_CCITT_OK, "finish");
        must(hayro_ccitt_feed(&it->feed, it->data, 0) == HAYRO_CCITT_NOT_TAKEN, "nothing is fed after that");
        it->is_finished = 1;
        drain(it);
        must(it->has_ended, "finished data has an end");
        return 1;
    }
    if (!it->each) size = random_number() % 4 ? random_number() % (1 + random_number() % 40) : random_number() % 3;
    size = size < left ? size : left;
    int is_lent = it->pieces % FEW == 0;
    const uint8_t *piece = is_lent ? copied(lend(size), it->data + it->fed, size) : it->data + it->fed;
    status = hayro_ccitt_feed(&it->feed, piece, size);
    if (is_refused(it, status)) status = hayro_ccitt_feed(&it->feed, piece, size);
    must(status == HAYRO_CCITT_OK, "feed");
    if (is_lent) take_back((void *)piece);
    it->fed += size;
    if (++it->pieces % it->idle == 0) drain(it);
    return 1;
}

static void ended(struct going *it) {
    must(hayro_ccitt_feed_close(&it->feed) == HAYRO_CCITT_OK && !it->feed.is_open, "close");
    must(hayro_ccitt_feed_close(&it->feed) == HAYRO_CCITT_NOT_TAKEN, "closed twice");
    walks++;
}

/* Feeds the whole data in such pieces. */
static void walk(const uint8_t *data, size_t length, const hayro_ccitt_settings *settings, size_t first, size_t each) {
    struct going it = begun(data, length, settings, first, each);
    drain(&it);
    while (step(&it));
    ended(&it);
    must(is_freed(), "all is freed");
}

/* Two at a time, one in random pieces, of which each third is waited for. */
static void two_at_a_time(const uint8_t *data, size_t length, const hayro_ccitt_settings *settings) {
    struct going one = begun(data, length, settings, 3, 0), other = begun(data, length, settings, PIECE, PIECE);
    one.idle = 3;
    while (step(&one) | step(&other));
    ended(&one);
    ended(&other);
    must(is_freed(), "all of both is freed");
}

/* What isn't open, and what is closed early. */
static void closed_and_early(const uint8_t *data, size_t length, const hayro_ccitt_settings *settings) {
    hayro_ccitt_row_feed feed = {0, 0, 0};
    hayro_ccitt_row row, zeros;
    uint32_t none = 0;
    size_t count;
    memset(&zeros, 0, sizeof zeros);
    for (int turn = 0; turn < 2; turn++) {
        must(hayro_ccitt_feed(&feed, data, length) == HAYRO_CCITT_NOT_TAKEN, "feed what isn't open");
        must(hayro_ccitt_feed_finish(&feed) == HAYRO_CCITT_NOT_TAKEN && hayro_ccitt_feed_close(&feed) == HAYRO_CCITT_NOT_TAKEN, "end what isn't open");
        count = 7;
        must(hayro_ccitt_feed_unused(&feed, NULL, 0, &count) == HAYRO_CCITT_NOT_TAKEN && count == 0, "what isn't open has no bytes");
        memset(&row, 7, sizeof row);
        must(hayro_ccitt_feed_next_changes(&feed, &none, 1, &row) == HAYRO_CCITT_NOT_TAKEN && are_same(&row, &zeros, sizeof row), "a row of what isn't open");
        memset(&row, 7, sizeof row);
        must(hayro_ccitt_feed_next_packed(&feed, NULL, 0, &row) == HAYRO_CCITT_NOT_TAKEN && are_same(&row, &zeros, sizeof row), "a packed row of what isn't open");
        memset(&row, 7, sizeof row);
        count = 7;
        must(hayro_ccitt_feed_rows_changes(&feed, &none, 1, &count, &row) == HAYRO_CCITT_NOT_TAKEN && count == 0 && none == 0, "rows of what isn't open");
        must(are_same(&row, &zeros, sizeof row), "nothing is told of them");
        memset(&row, 7, sizeof row);
        count = 7;
        must(hayro_ccitt_feed_rows_packed(&feed, NULL, 0, &count, &row) == HAYRO_CCITT_NOT_TAKEN && count == 0, "packed rows of what isn't open");
        must(are_same(&row, &zeros, sizeof row), "nothing is told of them");
        must(hayro_ccitt_feed_open(settings, &feed) == HAYRO_CCITT_OK && hayro_ccitt_feed_open(settings, &feed) == HAYRO_CCITT_NOT_TAKEN, "open twice");
        must(hayro_ccitt_feed(&feed, data, length / (size_t)(2 - turn)) == HAYRO_CCITT_OK, "feed");
        must(hayro_ccitt_feed_close(&feed) == HAYRO_CCITT_OK && is_freed(), "an early close");
    }
}

/* Refuses each allocation in turn: the call says so, and made again it does what it would have done. */
static void refused(const uint8_t *data, size_t length, const hayro_ccitt_settings *settings, size_t each) {
    for (refused_at = 1;; refused_at++) {
        asked = 0;
        walk(data, length, settings, each, each);
        if (asked < refused_at) break;
        refusals++;
    }
    refused_at = 0;
}

/* ---- As soon as no data that follows can change it. */

/* What a reader of some data reads after a number of rows. */
struct next {
    uint32_t status, changes[MORE * 64];
    hayro_ccitt_row row;
};

static void read_next(const uint8_t *data, size_t length, const hayro_ccitt_settings *settings, size_t before, struct next *next) {
    hayro_ccitt_reader reader = {0, 0, 0};
    memset(next, 0, sizeof *next);
    next->status = hayro_ccitt_open(data, length, settings, &reader);
    for (size_t row = 0; next->status == HAYRO_CCITT_OK && row <= before; row++)
        next->status = hayro_ccitt_next_changes(data, length, &reader, next->changes, sizeof next->changes / 4, &next->row);
    hayro_ccitt_close(&reader);
}

static int is_same_next(const struct next *one, const struct next *other) {
    return one->status == other->status && are_same(&one->row, &other->row, sizeof one->row)
        && (one->status != HAYRO_CCITT_OK || are_same(one->changes, other->changes, 4 * one->row.changes));
}

/* Writes bytes that may follow: none, zeros, ones, EOLs in either order of bits, and random ones. Returns how many. */
static size_t follow(uint8_t *to, unsigned number) {
    static const uint8_t eols[2][3] = {{0x00, 0x10, 0x01}, {0x00, 0x08, 0x80}};
    size_t length = number == 0 ? 0 : number < 8 ? MORE : random_number() % (MORE + 1);
    for (size_t k = 0; k < length; k++)
        to[k] = number < 8 ? (uint8_t)(number < 2 ? 0 : number < 3 ? 0xFF : k == 0 && number > 4 ? 1 << number : eols[number % 2][k % 3])
            : (uint8_t)(number % 3 && k > 0 ? number % 3 == 1 ? 0 : 0xFF : random_number());
    return length;
}

/* Feeds short data byte by byte. Whatever is tried to follow, the rows so far and the end stay as they are; and where more is needed,
   one of many tries changes what is next. */
static void as_soon_as(const uint8_t *data, size_t length, const hayro_ccitt_settings *settings) {
    static uint8_t whole[PIECE + MORE];
    static struct next first, other;
    struct going it = begun(data, length, settings, 1, 1);
    drain(&it);
    for (;;) {
        int is_open = !it.has_ended;
        size_t before = it.taken;
        copy(whole, data, it.fed);
        for (unsigned number = 0; number < 12 || (is_open && number < TRIES); number++) {
            size_t more = follow(whole + it.fed, number);
            read_next(whole, it.fed + more, settings, before, number == 0 ? &first : &other);
            if (is_open && number > 0 && !is_same_next(&first, &other)) is_open = 0, unsettled++;
            if (it.has_ended && number > 0) must(is_same_next(&first, &other), "what follows the end doesn't change it");
            if (it.has_ended && number == 0) must(first.status == end_status && are_same(&first.row, &end_known, sizeof first.row), "the end was settled");
            if (before > 0 && number < 12) {
                read_next(whole, it.fed + more, settings, before - 1, &other);
                must(other.status == HAYRO_CCITT_OK && are_same(&other.row, &rows_known[before - 1].row, sizeof other.row), "a row was settled");
                must(are_same(other.changes, rows_known[before - 1].changes, 4 * other.row.changes), "the changes of a row were settled");
                settled++;
            }
        }
        must(!is_open, "more is needed only where what follows changes what is next");
        if (it.fed == length) break;
        step(&it);
    }
    ended(&it);
}

static void each_case(const uint8_t *data, size_t length, const hayro_ccitt_settings *settings, unsigned depth) {
    if (!is_known(data, length, settings)) {
        hayro_ccitt_row_feed feed = {0, 0, 0};
        must(hayro_ccitt_feed_open(settings, &feed) == HAYRO_CCITT_NOT_TAKEN && !feed.is_open, "settings");
        return;
    }
    walk(data, length, settings, 1, 1);
    walk(data, length, settings, PIECE, PIECE);
    walk(data, length, settings, 1 + length / 3, 0);
    two_at_a_time(data, length, settings);
    if (depth > 0) {
        closed_and_early(data, length, settings);
        for (size_t cut = 1 + cases % (1 + length / CUTS); cut < length; cut += 1 + length / CUTS) walk(data, length, settings, cut, length);
        refused(data, length, settings, 5);
    }
    if (depth > 1) {
        as_soon_as(data, length, settings);
        for (size_t end = 0; end < length; end++) {
            must(is_known(data, end, settings), "settings of a beginning");
            walk(data, end, settings, 1, 1);
        }
    }
    cases++;
}

int main(void) {
    static char text[2 * MOST_BYTES + 1];
    hayro_ccitt_settings settings = {0, 0, 0, 0, 0};
    unsigned depth;
    while (scanf("%u %u %u %u %u %4194304s", &settings.encoding, &settings.columns, &settings.rows, &settings.flags, &depth, text) == 6) {
        size_t length;
        uint8_t *data = lend_bytes(text, &length);
        held = live;
        each_case(data, length, &settings, depth);
        take_back(data);
    }
    printf("%lu cases, %lu times in pieces, %lu rows, %lu of them at once, %lu kept and %lu refused; %lu refused allocations, of which %lu were told; "
           "%lu times a row stays, %lu times what is next doesn't\n",
           cases, walks, rows_fed, rows_at_once, rows_kept, rows_refused, refusals, reported_late, settled, unsettled);
    return 0;
}
