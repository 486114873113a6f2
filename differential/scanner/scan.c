/* A plain reader of Standard MIDI Files in C: one pass walks, checks and counts, another writes. */

#include <stddef.h>
#include <stdint.h>

typedef struct {
    uint32_t number;
    size_t sizes;
    size_t events;
} ScanPiece;

enum { MOST_BYTES = 67108864, MOST_EVENTS = 500000 };
enum { SOUND = 0, NO_DIVISION = 2, TOO_MANY = 3, BAD_WORD = 5, NO_SPACE = 8, TOO_LONG = 11, BROKEN = 12, NO_FORMAT = 13 };
enum { MTHD = 0x4D546864, MTRK = 0x4D54726B };
enum { END_OF_TRACK = 0x2F, TEMPO = 0x51, METER = 0x58, KEY = 0x59, SEQUENCER = 0x7F };

typedef const uint8_t *Bytes;

/* What the first pass finds. */
typedef struct {
    size_t tracks;
    size_t events;
    int bad_word;
} Found;

static uint32_t big16(Bytes at) {
    return (uint32_t)at[0] << 8 | at[1];
}

static uint32_t big32(Bytes at) {
    return big16(at) << 16 | big16(at + 2);
}

/* Data bytes of a channel message. */
static int data_bytes(uint8_t status) {
    return (status & 0xE0) == 0xC0 ? 1 : 2;
}

/* A number of one to four bytes before `end`: what stands behind it, or null. */
static inline Bytes checked_number(Bytes at, Bytes end, uint32_t *value) {
    uint32_t sum = 0;
    for (int bytes = 0; bytes < 4 && at < end; bytes++) {
        sum = sum << 7 | (*at & 127);
        if (*at++ < 128) {
            *value = sum;
            return at;
        }
    }
    return NULL;
}

/* The same where it is known to be there. */
static inline Bytes known_number(Bytes at, uint32_t *value) {
    uint32_t sum = *at & 127;
    while (*at++ > 127)
        sum = sum << 7 | (*at & 127);
    *value = sum;
    return at;
}

/* A length and that many bytes: what stands behind them, or null. */
static Bytes checked_block(Bytes at, Bytes end, Bytes *block) {
    uint32_t length;
    at = checked_number(at, end, &length);
    if (!at || length > (size_t)(end - at))
        return NULL;
    *block = at;
    return at + length;
}

/* A meta from its type on: what stands behind it, or null. An End of Track must be the last. */
static Bytes checked_meta(Bytes at, Bytes end, Found *found) {
    Bytes block, type = at;
    if (at == end || *type > 127)
        return NULL;
    at = checked_block(at + 1, end, &block);
    if (!at)
        return NULL;
    switch (*type) {
    case TEMPO:
        return at - block == 3 ? at : NULL;
    case METER:
        if (at - block != 4)
            return NULL;
        found->bad_word |= block[1] > 7;
        return at;
    case KEY:
        if (at - block != 2)
            return NULL;
        found->bad_word |= block[1] > 1;
        return at;
    case END_OF_TRACK:
        return at == block && at == end ? at : NULL;
    default:
        return at;
    }
}

/* Whether a track is sound; counts its events. */
static int check_track(Bytes at, Bytes end, Found *found) {
    size_t events = 0;
    uint8_t status = 0;
    Bytes block;
    uint32_t delta;
    for (;;) {
        at = checked_number(at, end, &delta);
        if (!at || at == end)
            return 0;
        events++;
        if (*at < 0xF0) {
            if (*at > 127)
                status = *at++;
            int count = data_bytes(status);
            if (!status || end - at < count || (at[0] | at[count - 1]) > 127)
                return 0;
            at += count;
            continue;
        }
        status = 0;
        if (*at == 0xFF) {
            int ends = at + 1 < end && at[1] == END_OF_TRACK;
            at = checked_meta(at + 1, end, found);
            if (at && ends) {
                found->tracks++;
                found->events += events;
                return 1;
            }
        } else {
            at = *at == 0xF0 || *at == 0xF7 ? checked_block(at + 1, end, &block) : NULL;
        }
        if (!at)
            return 0;
    }
}

/* The first pass: a number, or SOUND with what is found. */
static uint32_t check(Bytes bytes, size_t length, Found *found) {
    if (length > MOST_BYTES)
        return TOO_LONG;
    if (length < 14 || big32(bytes) != MTHD || big32(bytes + 4) < 6 || big32(bytes + 4) > length - 8)
        return BROKEN;
    uint32_t format = big16(bytes + 8);
    if (format > 1)
        return NO_FORMAT;
    Bytes at = bytes + 8 + big32(bytes + 4), end = bytes + length;
    while (at < end) {
        if (end - at < 8)
            return BROKEN;
        uint32_t id = big32(at), size = big32(at + 4);
        at += 8;
        if (id == MTHD || size > (size_t)(end - at))
            return BROKEN;
        if (id == MTRK && !check_track(at, at + size, found))
            return BROKEN;
        at += size;
    }
    if (found->tracks != big16(bytes + 10) || (format == 0 && found->tracks != 1))
        return BROKEN;
    if (big16(bytes + 12) == 0)
        return NO_DIVISION;
    if (found->events > MOST_EVENTS)
        return TOO_MANY;
    return found->bad_word ? BAD_WORD : SOUND;
}

static uint32_t word(uint32_t kind, uint32_t a, uint32_t b, uint32_t c) {
    return kind << 24 | a << 16 | b << 8 | c;
}

static int is_marker(Bytes block, uint32_t length) {
    return length == 7 && big32(block) == 0x41435244 && block[4] == '1';
}

static uint32_t meta_word(uint8_t type, Bytes block, uint32_t length) {
    switch (type) {
    case TEMPO:
        return word(2, block[0], block[1], block[2]);
    case METER:
        return word(3, block[0], block[1], 0);
    case KEY:
        return word(4, block[0], block[1], 0);
    case END_OF_TRACK:
        return word(6, 0, 0, 0);
    case SEQUENCER:
        return is_marker(block, length) ? word(5, block[5], block[6], 0) : 0;
    default:
        return 0;
    }
}

/* Writes the events of a sound track; how many there are. */
static size_t write_track(Bytes at, Bytes end, uint32_t *deltas, uint32_t *words) {
    size_t events = 0;
    uint8_t status = 0;
    uint32_t length;
    for (; at < end; events++) {
        at = known_number(at, &deltas[events]);
        if (*at < 0xF0) {
            if (*at > 127)
                status = *at++;
            int count = data_bytes(status);
            words[events] = word(status >> 4, status & 15, at[0], count == 2 ? at[1] : 0);
            at += count;
        } else if (*at == 0xFF) {
            Bytes block = known_number(at + 2, &length);
            words[events] = meta_word(at[1], block, length);
            at = block + length;
        } else {
            at = known_number(at + 1, &length);
            words[events] = word(1, 0, 0, 0);
            at += length;
        }
    }
    return events;
}

/* The second pass, over a file that is sound. */
static void write_piece(Bytes bytes, size_t length, uint32_t *sizes, uint32_t *deltas, uint32_t *words) {
    Bytes at = bytes + 8 + big32(bytes + 4), end = bytes + length;
    *sizes++ = big16(bytes + 12);
    *sizes++ = big16(bytes + 10);
    for (; at < end; at += 8 + big32(at + 4)) {
        if (big32(at) != MTRK)
            continue;
        size_t events = write_track(at + 8, at + 8 + big32(at + 4), deltas, words);
        deltas += events;
        words += events;
        *sizes++ = (uint32_t)events;
    }
}

ScanPiece scan_read_size(const uint8_t *bytes, size_t bytes_n) {
    Found found = {0};
    uint32_t number = check(bytes, bytes_n, &found);
    if (number)
        return (ScanPiece){number, 0, 0};
    return (ScanPiece){SOUND, found.tracks + 2, found.events};
}

ScanPiece scan_read(const uint8_t *bytes, size_t bytes_n, uint32_t *sizes, size_t sizes_n, uint32_t *deltas,
                    size_t deltas_n, uint32_t *words, size_t words_n) {
    ScanPiece piece = scan_read_size(bytes, bytes_n);
    if (piece.number)
        return piece;
    if (sizes_n < piece.sizes || deltas_n < piece.events || words_n < piece.events)
        return (ScanPiece){NO_SPACE, 0, 0};
    write_piece(bytes, bytes_n, sizes, deltas, words);
    return piece;
}
