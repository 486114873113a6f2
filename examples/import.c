/* Imports a piece and prints what the library gives of it: head, bars, each part's staff and automation, diagnostics.

     import        a small piece of two parts
     import FILE   the piece in FILE: a MIDI file, as examples/first.mid, or sizes, deltas and words in decimal, one
                   array a line, as examples/first.txt

   Leaves with status 1 where the piece is turned back. */
#include "acorde.h"
#include <inttypes.h>
#include <stdio.h>
#include <stdlib.h>
#include <string.h>

typedef struct {
    uint8_t *at;
    size_t n, room;
} Bytes;

typedef struct {
    uint32_t *at;
    size_t n, room;
} Numbers;

typedef struct {
    Numbers sizes, deltas, words;
} Piece;

/* The arguments with which every call on a piece begins. */
#define PIECE(x) (x)->sizes.at, (x)->sizes.n, (x)->deltas.at, (x)->deltas.n, (x)->words.at, (x)->words.n

/* ---- lending and refusals ---- */

/* An array of n elements. One more is asked for: a pointer is not null, also where n is 0. */
static void *lend(size_t n, size_t size) {
    void *array = calloc(n + 1, size);
    if (array == NULL) {
        fputs("no memory\n", stderr);
        exit(2);
    }
    return array;
}

/* Every answer's number is looked at before its other fields. */
static int refused(const char *call, uint32_t number) {
    static const char *const meanings[] = {"answered",
                                           "sizes disagree or are too large",
                                           "division 0",
                                           "too many events",
                                           "delta too large",
                                           "bad word",
                                           "no notes",
                                           "no such part",
                                           "too little space",
                                           "uneven",
                                           "out of range",
                                           "file too large",
                                           "no MIDI file, or a broken one",
                                           "format above 1"};
    if (number == ACORDE_OK)
        return 0;
    printf("%s: refused %" PRIu32 ", %s\n", call, number, number <= ACORDE_FORMAT ? meanings[number] : "?");
    return 1;
}

/* ---- the piece ---- */

/* Division 480, three tracks: changes, a violin, drums. */
static const uint32_t small_sizes[] = {480, 3, 5, 15, 5};

static const struct {
    uint32_t delta, word;
} small_events[] = {
    {0, ACORDE_TEMPO_WORD(500000)},
    {0, ACORDE_WORD(ACORDE_KIND_METER, 3, 2, 0)},
    {0, ACORDE_WORD(ACORDE_KIND_KEY, -1, 1, 0)},
    {1440, ACORDE_TEMPO_WORD(600000)},
    {100, ACORDE_WORD(ACORDE_KIND_METER, 4, 2, 0)}, /* within a bar: the next one takes it */

    {0, ACORDE_WORD(ACORDE_KIND_PROGRAM, 0, 40, 0)},
    {0, ACORDE_WORD(ACORDE_KIND_ON, 0, 62, 80)},
    {0, ACORDE_WORD(ACORDE_KIND_ON, 0, 69, 80)},
    {10, ACORDE_WORD(ACORDE_KIND_BEND, 0, 0, 72)},
    {710, ACORDE_WORD(ACORDE_KIND_OFF, 0, 62, 0)},
    {0, ACORDE_WORD(ACORDE_KIND_OFF, 0, 69, 0)},
    {0, ACORDE_WORD(ACORDE_KIND_ON, 0, 73, 80)},
    {0, ACORDE_WORD(ACORDE_KIND_ON, 0, 64, 80)}, /* ends before the other: a second voice */
    {720, ACORDE_WORD(ACORDE_KIND_OFF, 0, 64, 0)},
    {480, ACORDE_WORD(ACORDE_KIND_ON, 0, 73, 0)}, /* velocity 0: its end, in the next bar */
    {0, ACORDE_WORD(ACORDE_KIND_CONTROLLER, 0, 64, 127)},
    {0, ACORDE_WORD(ACORDE_KIND_ON, 0, 74, 80)},
    {480, ACORDE_WORD(ACORDE_KIND_SYSTEM, 0, 0, 0)},
    {1440, ACORDE_WORD(ACORDE_KIND_OFF, 0, 74, 0)},
    {0, ACORDE_WORD(ACORDE_KIND_END, 0, 0, 0)},

    {0, ACORDE_WORD(ACORDE_KIND_ON, 9, 36, 100)},
    {480, ACORDE_WORD(ACORDE_KIND_OFF, 9, 36, 0)},
    {0, ACORDE_WORD(ACORDE_KIND_OFF, 9, 42, 0)}, /* ends nothing */
    {960, ACORDE_WORD(ACORDE_KIND_ON, 9, 38, 100)}, /* never ended */
    {240, ACORDE_WORD(ACORDE_KIND_END, 0, 0, 0)},
};

/* The three arrays of a piece. */
static void lend_piece(Piece *x, size_t sizes, size_t events) {
    x->sizes.n = sizes;
    x->deltas.n = x->words.n = events;
    x->sizes.at = lend(sizes, sizeof(uint32_t));
    x->deltas.at = lend(events, sizeof(uint32_t));
    x->words.at = lend(events, sizeof(uint32_t));
}

static void small_piece(Piece *x) {
    lend_piece(x, sizeof small_sizes / sizeof small_sizes[0], sizeof small_events / sizeof small_events[0]);
    for (size_t i = 0; i < x->sizes.n; i++)
        x->sizes.at[i] = small_sizes[i];
    for (size_t i = 0; i < x->words.n; i++) {
        x->deltas.at[i] = small_events[i].delta;
        x->words.at[i] = small_events[i].word;
    }
}

static void append(Numbers *a, uint32_t number) {
    if (a->n == a->room) {
        uint32_t *more = lend(2 * a->room + 64, sizeof *more);
        for (size_t i = 0; i < a->n; i++)
            more[i] = a->at[i];
        free(a->at);
        a->at = more;
        a->room = 2 * a->room + 64;
    }
    a->at[a->n++] = number;
}

/* The next line of numbers, from byte i on. 0 where there is none, or it has anything else in it. */
static int read_line(const Bytes *b, size_t *i, Numbers *a) {
    uint64_t number = 0;
    int digits = 0;
    a->at = lend(0, sizeof *a->at); /* an empty line is an empty array */
    if (*i >= b->n)
        return 0;
    for (;;) {
        int c = *i < b->n ? b->at[*i] : '\n'; /* the last line may end with the text */
        ++*i;
        if (c >= '0' && c <= '9') {
            number = 10 * number + (uint64_t)(c - '0');
            digits = 1;
            if (number > UINT32_MAX)
                return 0;
            continue;
        }
        if (digits)
            append(a, (uint32_t)number);
        number = 0;
        digits = 0;
        if (c == '\n')
            return 1;
        if (c != ' ' && c != '\r')
            return 0;
    }
}

static int read_text(const Bytes *b, Piece *x) {
    size_t i = 0;
    if (read_line(b, &i, &x->sizes) && read_line(b, &i, &x->deltas) && read_line(b, &i, &x->words) && i >= b->n)
        return 1;
    return !refused("text", ACORDE_SIZES);
}

/* A MIDI file: the sizes are asked, just that is lent, then it is read. */
static int read_midi(const Bytes *b, Piece *x) {
    AcordePiece size = acorde_read_size(b->at, b->n), read;
    if (refused("acorde_read_size", size.number))
        return 0;
    lend_piece(x, size.sizes, size.events);
    read = acorde_read(b->at, b->n, x->sizes.at, x->sizes.n, x->deltas.at, x->deltas.n, x->words.at, x->words.n);
    return !refused("acorde_read", read.number);
}

/* All bytes of a file. */
static void read_bytes(const char *path, Bytes *b) {
    FILE *file = fopen(path, "rb");
    if (file == NULL) {
        perror(path);
        exit(2);
    }
    do {
        uint8_t *more = lend(2 * b->room + 4096, 1);
        if (b->n > 0)
            memcpy(more, b->at, b->n);
        free(b->at);
        b->at = more;
        b->room = 2 * b->room + 4096;
        b->n += fread(b->at + b->n, 1, b->room - b->n, file);
    } while (b->n == b->room);
    fclose(file);
}

static int read_piece(const char *path, Piece *x) {
    Bytes b = {NULL, 0, 0};
    int ok;
    read_bytes(path, &b);
    ok = b.n >= 4 && memcmp(b.at, "MThd", 4) == 0 ? read_midi(&b, x) : read_text(&b, x);
    free(b.at);
    return ok;
}

/* ---- head and bars ---- */

static int print_head(const Piece *x) {
    AcordeHead head = acorde_head(PIECE(x));
    if (refused("acorde_head", head.number))
        return 0;
    printf("tempo %" PRIu32 " meter %" PRIu32 "/%" PRIu32, head.tempo, head.upper, head.lower);
    if (head.has_key)
        printf(" key %" PRId32 " %s", head.fifths, head.minor ? "minor" : "major");
    putchar('\n');
    return 1;
}

static int print_bars(const Piece *x) {
    static uint64_t starts[ACORDE_MOST_BARS], marks[ACORDE_MOST_BARS];
    AcordeCount bars = acorde_bars(PIECE(x), starts, ACORDE_MOST_BARS, marks, ACORDE_MOST_BARS);
    if (refused("acorde_bars", bars.number))
        return 0;
    for (uint32_t bar = 0; bar < bars.count; bar++) {
        uint64_t mark = marks[bar];
        printf("bar %" PRIu32 " at %" PRIu64 " ticks %" PRIu32, bar + 1, starts[bar],
               ACORDE_BAR_TICKS(ACORDE_TICKS_PER_QUARTER(x->sizes.at[0]), mark));
        if (ACORDE_MARK_PRINTED(mark))
            printf(" meter %" PRIu32 "/%" PRIu32, ACORDE_MARK_UPPER(mark), ACORDE_MARK_LOWER(mark));
        if (ACORDE_MARK_TEMPO(mark) != 0)
            printf(" tempo %" PRIu32, ACORDE_MARK_TEMPO(mark));
        if (ACORDE_MARK_HAS_KEY(mark))
            printf(" key %" PRId32 " %s", ACORDE_MARK_FIFTHS(mark), ACORDE_MARK_MINOR(mark) ? "minor" : "major");
        putchar('\n');
    }
    return 1;
}

/* ---- a part ---- */

typedef struct {
    uint32_t *counts, *heads, *leftovers;
    uint64_t *keys;
    size_t bars, items;
} Staff;

static int print_item(const Staff *s, size_t item) {
    uint32_t head = s->heads[item];
    AcordeBeats length = acorde_beats(ACORDE_HEAD_CODE(head), ACORDE_HEAD_DOTS(head));
    if (refused("acorde_beats", length.number))
        return 0;
    printf(" %g", length.beats);
    if (ACORDE_HEAD_REST(head))
        printf(" rest");
    for (uint32_t key = 0; key <= ACORDE_LARGEST_KEY; key++)
        if (ACORDE_HAS_KEY(s->keys, item, key)) {
            AcordeSpelling as = acorde_spelling(key);
            if (refused("acorde_spelling", as.number))
                return 0;
            printf(" %c%s%d", "CDEFGAB"[as.step], as.alter > 0 ? "#" : "", (int)as.octave);
        }
    printf("%s%s%s\n", ACORDE_HEAD_UNPITCHED(head) ? " unpitched" : "", ACORDE_HEAD_TIE_IN(head) ? " tie-in" : "",
           ACORDE_HEAD_TIE_OUT(head) ? " tie-out" : "");
    return 1;
}

static int print_items(const Staff *s) {
    size_t item = 0;
    for (size_t bar = 0; bar < s->bars; bar++)
        for (size_t voice = 0; voice < ACORDE_VOICES; voice++)
            for (uint32_t left = s->counts[ACORDE_VOICES * bar + voice]; left > 0; left--, item++) {
                printf("  bar %zu voice %zu", bar + 1, voice);
                if (!print_item(s, item))
                    return 0;
            }
    return 1;
}

/* The ticks that no item took, if there are any. */
static void print_leftovers(const Staff *s) {
    uint64_t ticks = 0;
    for (size_t i = 0; i < ACORDE_VOICES * s->bars; i++)
        ticks += s->leftovers[i];
    if (ticks > 0)
        printf("  ticks left over %" PRIu64 "\n", ticks);
}

/* Engraves into lent arrays, and has the staff proof-read. */
static int print_staff(const Piece *x, uint32_t part, Staff *s, uint64_t *work, size_t work_n) {
    const size_t counts_n = ACORDE_VOICES * s->bars, heads_n = s->items, keys_n = 2 * s->items;
    AcordeStaff staff = acorde_engrave(PIECE(x), part, s->counts, counts_n, s->heads, heads_n, s->keys, keys_n,
                                       s->leftovers, counts_n, work, work_n);
    AcordeReading reading;
    if (refused("acorde_engrave", staff.number) || !print_items(s))
        return 0;
    print_leftovers(s);
    reading = acorde_proof_read(PIECE(x), part, s->counts, counts_n, s->heads, heads_n, s->keys, keys_n, work, work_n);
    if (reading.number == ACORDE_UNEVEN) { /* of this part no verdict can be had */
        puts("  not proof-read");
        return 1;
    }
    if (refused("acorde_proof_read", reading.number))
        return 0;
    puts(reading.right ? "  proof-read" : "  wrong");
    return reading.right == 1;
}

static int print_automation(const Piece *x, uint32_t part) {
    const size_t room = x->words.n;
    uint64_t *ticks = lend(room, sizeof *ticks);
    uint32_t *words = lend(room, sizeof *words);
    AcordeAutomation a = acorde_automation(PIECE(x), part, ticks, room, words, room);
    int ok = !refused("acorde_automation", a.number);
    if (ok)
        printf("  bends %zu controllers %zu programs %zu pressures %zu\n", a.bends, a.controllers, a.programs,
               a.pressures);
    for (size_t i = 0; i < a.bends; i++) /* bends come first */
        printf("  bend at %" PRIu64 " channel %" PRIu32 " by %" PRId32 "\n", ticks[i], ACORDE_WORD_A(words[i]),
               ACORDE_BEND_VALUE(words[i]));
    free(words);
    free(ticks);
    return ok;
}

static int print_part(const Piece *x, uint32_t part, uint64_t *work, size_t work_n) {
    AcordePartHead head = acorde_part_head(PIECE(x), part);
    AcordeStaff size = acorde_staff_size(PIECE(x), part, work, work_n);
    Staff s;
    int ok;
    if (refused("acorde_part_head", head.number) || refused("acorde_staff_size", size.number))
        return 0;
    printf("part %" PRIu32 " channel %" PRIu32 " program %" PRIu32 " bars %zu items %zu\n", part, head.channel,
           head.program, size.bars, size.items);
    s.bars = size.bars;
    s.items = size.items;
    s.counts = lend(ACORDE_VOICES * s.bars, sizeof *s.counts);
    s.heads = lend(s.items, sizeof *s.heads);
    s.keys = lend(2 * s.items, sizeof *s.keys);
    s.leftovers = lend(ACORDE_VOICES * s.bars, sizeof *s.leftovers);
    ok = print_staff(x, part, &s, work, work_n) && print_automation(x, part);
    free(s.leftovers);
    free(s.keys);
    free(s.heads);
    free(s.counts);
    return ok;
}

static int print_parts(const Piece *x, uint64_t *work, size_t work_n) {
    AcordeCount parts = acorde_part_count(PIECE(x));
    if (refused("acorde_part_count", parts.number))
        return 0;
    for (uint32_t part = 0; part < parts.count; part++)
        if (!print_part(x, part, work, work_n))
            return 0;
    return 1;
}

/* ---- diagnostics ---- */

static void print_diagnostic(uint64_t place, uint64_t detail) {
    printf("diagnostic %" PRIu32 " track %" PRIu32 " event %" PRIu32 " tick %" PRIu64, ACORDE_PLACE_CODE(place),
           ACORDE_PLACE_TRACK(place), ACORDE_PLACE_EVENT(place), ACORDE_DETAIL_TICK(detail));
    if (ACORDE_DETAIL_CHANNEL(detail) != ACORDE_ABSENT)
        printf(" channel %" PRIu32, ACORDE_DETAIL_CHANNEL(detail));
    if (ACORDE_DETAIL_KEY(detail) != ACORDE_ABSENT)
        printf(" key %" PRIu32, ACORDE_DETAIL_KEY(detail));
    putchar('\n');
}

static int print_diagnostics(const Piece *x, uint64_t *work, size_t work_n) {
    const size_t room = x->words.n + 1;
    uint64_t *places = lend(room, sizeof *places), *details = lend(room, sizeof *details);
    AcordeCount found = acorde_diagnostics(PIECE(x), places, room, details, room, work, work_n);
    int ok = !refused("acorde_diagnostics", found.number);
    for (uint32_t i = 0; i < found.count; i++) /* 0 beside a refusal */
        print_diagnostic(places[i], details[i]);
    free(details);
    free(places);
    return ok;
}

/* ---- */

/* N, the most note-ons above velocity 0 in one track, of a piece whose sizes are in order. */
static size_t most_notes(const uint32_t *sizes, const uint32_t *words) {
    size_t n, t, i, e, ons;
    for (n = t = i = 0; t < sizes[1]; t++, n = ons > n ? ons : n)
        for (ons = e = 0; e < sizes[2 + t]; e++, i++)
            ons += ACORDE_IS_ON(words[i]);
    return n;
}

static int import(const Piece *x) {
    uint64_t *work;
    size_t work_n;
    int ok;
    if (!print_head(x) || !print_bars(x))
        return 0;
    /* The head was answered, so the sizes are in order. One area serves all calls. */
    work_n = ACORDE_WORK(most_notes(x->sizes.at, x->words.at));
    work = lend(work_n, sizeof *work);
    ok = print_parts(x, work, work_n) && print_diagnostics(x, work, work_n);
    free(work);
    return ok;
}

int main(int argc, char **argv) {
    Piece x = {{NULL, 0, 0}, {NULL, 0, 0}, {NULL, 0, 0}};
    int ok = 1;
    if (argc < 2)
        small_piece(&x);
    else
        ok = read_piece(argv[1], &x);
    ok = ok && import(&x);
    free(x.words.at);
    free(x.deltas.at);
    free(x.sizes.at);
    return ok ? 0 : 1;
}
