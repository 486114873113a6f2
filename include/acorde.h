/* acorde.h: from a MIDI file, or the events of a recording, to bars of up to four voices, for C and C++.

   This file is the manual. It has, in this order: what is asked of a caller; what every call promises; how much to
   lend; times; the version; limits; refusals; the piece; its notes; the answers; a MIDI file, and the calls that read
   one; the calls on a piece, each under its contract. examples/first.c is a first program, examples/import.c one that
   makes every call.

   WHAT IS ASKED OF A CALLER

   An array passes as a pointer and a count of elements. The proofs assume of a C caller:
   - A pointer is valid for its count, aligned for its type and not null, also where the count is 0.
   - Outputs and work areas overlap neither each other nor the inputs. Inputs may overlap each other.
   - While a call runs, nothing else writes to its inputs, or reads or writes its outputs and its work area.
   Nothing else is assumed: any numbers in any arrays of any counts give an answer or a refusal.

   The archive is code for x86-64 Linux. It takes one function from elsewhere, memset, and has no data that is written
   to. A call needs less than 20 KiB of stack, one that reads a file less than 1 KiB (measured, not proved).

   WHAT EVERY CALL PROMISES

   - It ends, and allocates nothing. No state is kept: what it answers and writes follows from its arguments alone.
   - The field `number` is 0 (ACORDE_OK) where the call is answered, else the refusal's number. Beside a refusal every
     other field is 0, and no output has changed.
   - An output may be longer than needed: what is behind the elements that the call writes keeps its contents.
   - Inputs are never written to.
   - After every call all work_n elements of the work area are 0, also after a refusal. What it held before is of no
     account: it need not be zero, and one area serves all calls, one after another.
   - Calls may run at the same time if they share no output and no work area. They may share inputs.

   HOW MUCH TO LEND

     acorde_read          sizes, deltas, words  acorde_read_size tells: sizes, events and events elements. Without
                                                asking, 2 + bytes_n / 12, bytes_n / 2 and bytes_n / 2 suffice for
                                                every file; never are more than 2 + ACORDE_LARGEST_SIZE,
                                                ACORDE_MOST_EVENTS and ACORDE_MOST_EVENTS needed
     acorde_bars          starts, marks         ACORDE_MOST_BARS elements each suffice for every piece
     acorde_engrave       counts, heads, keys,  acorde_staff_size tells: 4 * bars, items, 2 * items and 4 * bars
                          leftovers             elements
     acorde_automation    ticks, out            as many elements each as the part's track has events suffice
     acorde_diagnostics   places, details       as many elements each as the piece has events, + 1, suffice
     all with a work area                       ACORDE_WORK(N) elements, N the most note-ons above velocity 0 in one
                                                track: the part's own, another part's, or one that is no part

   N need not be known: any number that is not smaller serves, and the piece's number of events never is. For the least
   area count the note-ons of each track and take the largest count. Once acorde_read has read the piece, or a call on
   it has given any number but ACORDE_SIZES (0 too), the arrays fit each other, and with size_t n, t, i, e, ons this
   makes n the N of the piece:

     for (n = t = i = 0; t < sizes[1]; t++, n = ons > n ? ons : n)
         for (ons = e = 0; e < sizes[2 + t]; e++, i++)
             ons += ACORDE_IS_ON(words[i]);

   TIME

   The two calls on a file take time in proportion to its bytes: acorde_read_size passes them once, acorde_read twice.
   On a desk machine that is up to 0.03 seconds for 500,000 events, and up to 0.3 seconds for the largest files.

   Each call on a piece admits and reads the whole piece again, whatever part it is asked for, and zeroes all of the
   work area that it is lent: the least area serves fastest, and one that is enough for every piece, 64 MB, takes
   longer to zero than a short piece to engrave. So an import of all parts, some calls for each, takes time in
   proportion to parts * events. Heads, counts, bars, automation and diagnostics take time in proportion to events,
   tracks and bars; sizes, staffs and proof-reading sort the part's notes too. One shape of piece takes longer:
   acorde_staff_size and acorde_engrave compare a note with the chords that begin where it begins and end elsewhere, so
   that n notes of one start and n different ends take n * n / 2 comparisons: 0.02 seconds for 5,000 such notes on a
   desk machine, 2 seconds for 50,000, up to a minute for the worst of all pieces. */
#ifndef ACORDE_H
#define ACORDE_H

#include <stddef.h>
#include <stdint.h>

#ifdef __cplusplus
extern "C" {
#endif

/* ---- Version ----------------------------------------------------------------------------------------------------- */

/* Of this header and of the archive built with it. MAJOR grows where a program for the version before may no longer be
   right, and so wherever an entry's arguments or a layout of bits change: C links a program that was compiled with
   another header, and says nothing. Compile with the header that came with the archive. MINOR grows where something is
   added. CHANGELOG.md has what changed. */
#define ACORDE_VERSION "2.0.3"
#define ACORDE_VERSION_MAJOR 2
#define ACORDE_VERSION_MINOR 0
#define ACORDE_VERSION_PATCH 3

/* ---- Limits ------------------------------------------------------------------------------------------------------ */

#define ACORDE_LARGEST_FILE 67108864   /* bytes of a MIDI file */
#define ACORDE_MOST_EVENTS 500000      /* in a piece */
#define ACORDE_LARGEST_SIZE 65535      /* of the division and of the number of tracks */
#define ACORDE_LARGEST_DELTA 268435455 /* every tick is below 2^47 */
#define ACORDE_LARGEST_POWER 7         /* of a meter's lower figure: 2^7 = 128 */
#define ACORDE_MOST_PARTS 32           /* later tracks with notes are no parts */
#define ACORDE_MOST_BARS 10000         /* what sounds after them is not written */
#define ACORDE_VOICES 4                /* in each bar of a staff */
#define ACORDE_LARGEST_STAFF_CODE 8    /* of a staff's written values, which have one dot at most */
#define ACORDE_LARGEST_CODE 9          /* for acorde_beats */
#define ACORDE_MOST_DOTS 3             /* for acorde_beats */
#define ACORDE_LARGEST_KEY 127         /* for acorde_spelling */

/* The elements that a work area needs at least, for n note-ons above velocity 0 in the track that has most of them. */
#define ACORDE_WORK(n) (16 * (size_t)(n) + 4096)

/* ---- Refusals ---------------------------------------------------------------------------------------------------- */

/* Each call lists the numbers that it can give in the order in which they are asked, and the first that applies is
   given: of a call on a piece, where it is 4, none of 1 to 3 applies. Only 4 and 5 are asked together: the first event
   that is bad in either way decides, 4 first. */
#define ACORDE_OK 0
#define ACORDE_SIZES 1      /* sizes_n is 0 or 1, or not 2 + the number of tracks, deltas_n or words_n is not the sum of
                               the event counts, or the division or the number of tracks is above ACORDE_LARGEST_SIZE */
#define ACORDE_DIVISION 2   /* the division is 0 */
#define ACORDE_EVENTS 3     /* more than ACORDE_MOST_EVENTS events */
#define ACORDE_DELTA 4      /* a delta above ACORDE_LARGEST_DELTA */
#define ACORDE_BAD_WORD 5   /* a word that the table of kinds does not have */
#define ACORDE_NO_NOTES 6   /* no track has a note-on above velocity 0 */
#define ACORDE_NO_PART 7    /* no part of that number */
#define ACORDE_SPACE 8      /* work_n below ACORDE_WORK(N), or an output shorter than what it would get */
#define ACORDE_UNEVEN 9     /* acorde_proof_read: no verdict can be given on a staff of this part */
#define ACORDE_RANGE 10     /* acorde_beats, acorde_spelling: an argument out of range */
#define ACORDE_FILE_SIZE 11 /* acorde_read_size, acorde_read: more than ACORDE_LARGEST_FILE bytes */
#define ACORDE_BAD_FILE 12  /* acorde_read_size, acorde_read: no MIDI file, or a broken one */
#define ACORDE_FORMAT 13    /* acorde_read_size, acorde_read: a MIDI file of a format above 1 */

/* ---- The piece --------------------------------------------------------------------------------------------------- */

/* A piece is three arrays, which every call on one takes first:

     sizes    2 + T elements: the division, the number of tracks T, then the number of events in each track
     deltas   one for each event, track after track: the ticks since the event before it in its track, or since tick 0
     words    one for each event: what it is

   The division is a MIDI file's field. With bit 15 set it is timecode, taken as 480 ticks per quarter; otherwise it is
   the ticks per quarter itself. An event's tick is the sum of its track's deltas through its own. T may be 0, and a
   track may have no events: both are admitted. Without notes there is number 6, but not for acorde_diagnostics.

   A word's bytes, from the top, are its kind, a, b and c. Bytes that the table does not name are 0.

     kind                          a (bits 16-23)      b (bits 8-15)       c (bits 0-7)
      0  another meta event
      1  a system event
      2  tempo                     bits 0-23: microseconds per quarter; 0 changes nothing
      3  meter                     upper figure        power 0-7 of the lower figure, which is 2^b
      4  key                       fifths, signed      minor 0 or 1
      5  marker                    base, any byte      spare, any byte
      6  end of track              it only adds its delta, and events may follow
      8  note off                  channel 0-15        key 0-127           velocity 0-127
      9  note on                   channel 0-15        key 0-127           velocity 0-127; 0 makes it a note off
     10  key pressure              channel 0-15        key 0-127           value 0-127
     11  controller                channel 0-15        number 0-127        value 0-127
     12  program                   channel 0-15        program 0-127
     13  channel pressure          channel 0-15        value 0-127
     14  bend                      channel 0-15        low 7 bits          high 7 bits; b + 128 * c - 8192

   Fifths are the key's sharps, below 0 its flats. Tempo, meter and key are read from the first track alone. Markers are
   explained at acorde_automation. */
#define ACORDE_KIND_META 0
#define ACORDE_KIND_SYSTEM 1
#define ACORDE_KIND_TEMPO 2
#define ACORDE_KIND_METER 3
#define ACORDE_KIND_KEY 4
#define ACORDE_KIND_MARKER 5
#define ACORDE_KIND_END 6
#define ACORDE_KIND_OFF 8
#define ACORDE_KIND_ON 9
#define ACORDE_KIND_KEY_PRESSURE 10
#define ACORDE_KIND_CONTROLLER 11
#define ACORDE_KIND_PROGRAM 12
#define ACORDE_KIND_PRESSURE 13
#define ACORDE_KIND_BEND 14

/* A word of four bytes, and a tempo's word. */
#define ACORDE_WORD(kind, a, b, c) \
    ((uint32_t)(kind) << 24 | ((uint32_t)(a) & 255) << 16 | ((uint32_t)(b) & 255) << 8 | ((uint32_t)(c) & 255))
#define ACORDE_TEMPO_WORD(microseconds) \
    ((uint32_t)ACORDE_KIND_TEMPO << 24 | ((uint32_t)(microseconds) & 16777215))

/* A word taken apart; the value of a bend, -8192 to 8191. */
#define ACORDE_WORD_KIND(w) ((uint32_t)(w) >> 24)
#define ACORDE_WORD_A(w) ((uint32_t)(w) >> 16 & 255)
#define ACORDE_WORD_B(w) ((uint32_t)(w) >> 8 & 255)
#define ACORDE_WORD_C(w) ((uint32_t)(w) & 255)
#define ACORDE_BEND_VALUE(w) ((int32_t)(ACORDE_WORD_B(w) + 128 * ACORDE_WORD_C(w)) - 8192)

/* 1 if a word is a note-on above velocity 0, else 0. */
#define ACORDE_IS_ON(w) (ACORDE_WORD_KIND(w) == ACORDE_KIND_ON && ACORDE_WORD_C(w) != 0)

/* The ticks per quarter of a division. */
#define ACORDE_TICKS_PER_QUARTER(division) ((uint32_t)(division) & 32768 ? 480 : (uint32_t)(division))

/* ---- Notes ------------------------------------------------------------------------------------------------------- */

/* What the calls mean by a note. Each track is taken by itself, in the order of its events:

   - A note-on above velocity 0 starts a note of its channel and key at its tick. Each such note-on gives just one note.
   - A note off, or a note-on of velocity 0, ends the oldest note of its channel and key that has not been ended. Where
     there is none it makes no note and changes nothing (diagnostic 4).
   - A note that nothing ends lasts to the track's last tick, that of its last event of any kind (diagnostic 5).
   - Every note lasts at least 1 tick: its end is at least its start + 1.
   - Nothing else ends a note, controllers 120 to 127 neither.

   Bars go by these starts and ends. Staffs and proof-reading go by snapped ones. Each part has a grid of its own for
   them, worked out from all its notes; p is the ticks per quarter, and / gives the whole part:

     sixteenth            q = p / 4, at least 1
     off the sixteenths   a note whose start % q is above t and below q - t, where t = q / 4
     grid                 g = p / 8, at least 1, if 10 * (notes off the sixteenths) is above the number of notes; else q
     snapped tick         (tick + g / 2) / g * g: the nearest multiple of g, the later one where two are as near
     snapped note         from its snapped start to its snapped end, but at least g long

   At 480 ticks per quarter q is 120 and t is 30: a start 31 to 89 ticks after a sixteenth is off. With one such note in
   10 the grid is 120, with one in 9 it is 60. On the grid of 120 tick 59 snaps to 0, tick 60 to 120. */

/* ---- Answers ----------------------------------------------------------------------------------------------------- */

typedef struct {
    uint32_t number;
    size_t sizes;  /* elements of the piece's sizes: 2 + its number of tracks */
    size_t events; /* elements of its deltas, and of its words */
} AcordePiece;

typedef struct {
    uint32_t number;
    uint32_t tempo;   /* quarters per minute, 1 to 999; 120 where there is none at tick 0 */
    uint32_t upper;   /* meter, 0 to 255; 4/4 where there is none at tick 0 */
    uint32_t lower;   /* 1, 2, 4, .. 128 */
    uint32_t has_key; /* 1, or 0: the key is absent, and fifths and minor are 0 */
    int32_t fifths;   /* -7 (seven flats) to 7 (seven sharps) */
    uint32_t minor;   /* 1 minor, 0 major */
} AcordeHead;

typedef struct {
    uint32_t number;
    uint32_t count; /* parts, bars or diagnostics */
} AcordeCount;

typedef struct {
    uint32_t number;
    uint32_t channel; /* 0 to 15 */
    uint32_t program; /* 0 to 127 */
} AcordePartHead;

typedef struct {
    uint32_t number;
    size_t bars;  /* of the piece, 1 to ACORDE_MOST_BARS */
    size_t items; /* of the part's staff; it may be 0 */
} AcordeStaff;

typedef struct {
    uint32_t number;
    uint32_t right; /* 1 yes, 0 no */
} AcordeReading;

typedef struct {
    uint32_t number;
    size_t bends;
    size_t controllers;
    size_t programs;
    size_t pressures; /* of keys and channels together */
} AcordeAutomation;

typedef struct {
    uint32_t number;
    double beats; /* quarters */
} AcordeBeats;

typedef struct {
    uint32_t number;
    uint32_t step;  /* 0 C, 1 D, 2 E, 3 F, 4 G, 5 A, 6 B */
    int32_t octave; /* -1 to 9 */
    int32_t alter;  /* 1 sharp, 0 natural */
} AcordeSpelling;

/* ---- A MIDI file ------------------------------------------------------------------------------------------------- */

/* The bytes of a Standard MIDI File 1.0, of format 0 or 1, are read as the three arrays of a piece, which the other
   calls take. Bytes are in hexadecimal here. From its first byte to its last a file is chunks: four bytes of type, four
   bytes of length, most significant first, and as many bytes as the length says. No padding is between chunks.

     header   The first chunk, and no other, has the type MThd. It has six bytes or more: format, number of tracks and
              division, two bytes each, most significant first. What a longer one has behind them is passed over.
     tracks   The chunks of type MTrk, in their order: as many as the header says. Format 0 has exactly one, format 1
              any number, even none.
     others   Chunks of any other type are passed over, wherever they stand behind the header and whatever is in them.

   A track is events up to its last byte. Each is its delta, then one of

     80 to EF   a channel message: its status, and one data byte for C0 to DF, two for the others. Behind another
                channel message an equal status may be left out: running status
     FF         a meta event: its type, a length, as many bytes
     F0, F7     a system event: a length, as many bytes, whatever they are; it need not end with F7

   - Deltas and lengths are numbers of one to four bytes: seven bits a byte, most significant first, bit 7 set on every
     byte but the last. They need not be the shortest: 80 80 05 is 5.
   - Data bytes and a meta event's type are below 80. No other status is an event: F1 to F6 and F8 to FE are refused,
     between the bytes of a message too.
   - Meta and system events end a running status, and no track begins with one.
   - A track has one End of Track, as its last event, and nothing behind it.
   - Tempo, meter, key and End of Track have exactly 3, 4, 2 and 0 bytes. All other meta events, and system events, may
     have any length. Meta events, but for End of Track, and system events may stand in any track and at any place.

   Each event gives one delta and one word, End of Track too:

     80 to EF   kinds 8 to 14: the status' high four bits; its low four are the channel. A note-on of velocity 0 stays
                kind 9
     FF 2F      kind 6, end of track
     FF 51      kind 2, tempo
     FF 58      kind 3, meter: its first two bytes; the other two are dropped
     FF 59      kind 4, key
     FF 7F      kind 5, marker, where the bytes are seven and begin with 41 43 52 44 31 (ACRD1): then base, spare; else
                kind 0
     other FF   kind 0
     F0, F7     kind 1, one word for each

   The division is the header's as it stands, timecode too.

   The numbers of both calls, in the order in which they are asked:

     11   the file has more than ACORDE_LARGEST_FILE bytes
     12   it does not begin with a whole header
     13   its format is above 1
     12   anything behind the header is not as it is said above, wherever it stands
     2    the division is 0
     3    there are more than ACORDE_MOST_EVENTS events
     5    a meter with a power above ACORDE_LARGEST_POWER, or a key with a minor above 1
     8    acorde_read alone: an output is shorter than what it would get; there is no work area

   Numbers 1 and 4 cannot come of a file (proved). Number 6 is not given: a file without notes is read.

   The other calls take arrays of exactly the piece's lengths. So hand them the `sizes` and `events` that were answered
   as sizes_n, deltas_n and words_n, not the room that was lent:

     AcordePiece x = acorde_read_size(bytes, bytes_n);
     .. where x.number is 0, x.sizes, x.events and x.events elements are lent ..
     x = acorde_read(bytes, bytes_n, sizes, x.sizes, deltas, x.events, words, x.events);
     head = acorde_head(sizes, x.sizes, deltas, x.events, words, x.events); */

/* The size of a file's piece. Nothing is written. Numbers 11, 12, 13, 12, 2, 3, 5. */
AcordePiece acorde_read_size(const uint8_t *bytes, size_t bytes_n);

/* A file's piece. Answers its size, as acorde_read_size does, and writes its sizes, deltas and words. Numbers 11, 12,
   13, 12, 2, 3, 5, 8. */
AcordePiece acorde_read(const uint8_t *bytes, size_t bytes_n, uint32_t *sizes, size_t sizes_n, uint32_t *deltas,
                        size_t deltas_n, uint32_t *words, size_t words_n);

/* ---- Heads and parts --------------------------------------------------------------------------------------------- */

/* The piece's head: of the first track the first tempo and the first meter at tick 0, and its very first key if that
   one is at tick 0. A tempo is the whole part of 60,000,000 / microseconds, modulo 65,536, then brought within 1 to
   999; fifths are brought within -7 to 7. Numbers 1 to 6. */
AcordeHead acorde_head(const uint32_t *sizes, size_t sizes_n, const uint32_t *deltas, size_t deltas_n,
                       const uint32_t *words, size_t words_n);

/* How many parts there are, 1 to ACORDE_MOST_PARTS. Parts are the first 32 tracks that have a note-on above velocity 0,
   in the order of the tracks, numbered from 0. Numbers 1 to 6. */
AcordeCount acorde_part_count(const uint32_t *sizes, size_t sizes_n, const uint32_t *deltas, size_t deltas_n,
                              const uint32_t *words, size_t words_n);

/* A part's head: channel and program of the first program change in its track, whatever its tick, else channel 0 and
   program 0. Numbers 1 to 7. */
AcordePartHead acorde_part_head(const uint32_t *sizes, size_t sizes_n, const uint32_t *deltas, size_t deltas_n,
                                const uint32_t *words, size_t words_n, uint32_t part);

/* ---- Bars -------------------------------------------------------------------------------------------------------- */

/* The bars, the same for all parts: answers how many, 1 to ACORDE_MOST_BARS, and writes as many elements to each of

     starts   the tick at which the bar starts; the first is 0
     marks    bits 0-7    upper figure of the meter in force
              bits 8-15   its lower figure
              bit  16     1 if the meter is printed: on the first bar, and where it differs from the bar before
              bits 17-26  tempo in quarters per minute, 0 if none is marked
              bits 27-31  fifths + 8, 0 if no key is marked
              bit  32     1 if the marked key is minor
              bits 33-63  0

   A bar goes by the last meter at or before its start, else by 4/4; its length is ACORDE_BAR_TICKS, and the next bar
   starts where it ends. Bars go on until one ends at or after the largest end of a note of all parts: the note's own
   end, not the snapped one. A tempo after tick 0, and a key at any tick, is marked only on a bar that starts at its
   tick; the last at that tick counts. Numbers 1 to 6 and 8; 8 here is for the outputs, there is no work area. */
AcordeCount acorde_bars(const uint32_t *sizes, size_t sizes_n, const uint32_t *deltas, size_t deltas_n,
                        const uint32_t *words, size_t words_n, uint64_t *starts, size_t starts_n, uint64_t *marks,
                        size_t marks_n);

/* A mark taken apart. ACORDE_MARK_FIFTHS and _MINOR are meant where ACORDE_MARK_HAS_KEY is 1. */
#define ACORDE_MARK_UPPER(m) ((uint32_t)(m) & 255)
#define ACORDE_MARK_LOWER(m) ((uint32_t)(m) >> 8 & 255)
#define ACORDE_MARK_PRINTED(m) ((uint32_t)(m) >> 16 & 1)
#define ACORDE_MARK_TEMPO(m) ((uint32_t)(m) >> 17 & 1023)
#define ACORDE_MARK_HAS_KEY(m) ((uint32_t)(m) >> 27 != 0)
#define ACORDE_MARK_FIFTHS(m) ((int32_t)((uint32_t)(m) >> 27) - 8)
#define ACORDE_MARK_MINOR(m) ((uint32_t)((uint64_t)(m) >> 32 & 1))

/* The length in ticks of a bar of mark m, p the ticks per quarter: 4 * p * upper / lower, whole part, at least 1. */
#define ACORDE_BAR_TICKS(p, m) \
    (4 * (uint32_t)(p) * ACORDE_MARK_UPPER(m) < ACORDE_MARK_LOWER(m) ? 1 : \
     4 * (uint32_t)(p) * ACORDE_MARK_UPPER(m) / ACORDE_MARK_LOWER(m))

/* ---- Staffs ------------------------------------------------------------------------------------------------------ */

/* The size of a part's staff: the bars of the piece and the items of the staff. Nothing is written but the work area.
   Numbers 1 to 8. */
AcordeStaff acorde_staff_size(const uint32_t *sizes, size_t sizes_n, const uint32_t *deltas, size_t deltas_n,
                              const uint32_t *words, size_t words_n, uint32_t part, uint64_t *work, size_t work_n);

/* A part's staff. Answers its size, as acorde_staff_size does, and writes

     counts      4 * bars elements: how many items voices 0 to 3 of the first bar have, then those of the next bar
     heads       one element an item, bar by bar, in a bar voice by voice, in a voice from the bar's start on
                 bits 0-3    code of the written value: 0 longa, 1 breve, 2 whole, 3 half, 4 quarter, 5 eighth,
                             6 16th, 7 32nd, 8 64th
                 bit  4      1 if it is dotted
                 bit  5      tie-in: 1 if it is not the first piece of its chord in the bar, or the chord began before
                 bit  6      tie-out: 1 if it is not the last piece of its chord in the bar, or the chord ends later
                 bit  7      1 if it is unpitched: the notes that made the chord were all on channel 9
                 bit  8      1 if it is a rest
                 bits 9-31   0
     keys        two elements an item: bit k of the first for key k, of the second for key 64 + k; a rest has no keys
     leftovers   4 * bars elements, in the order of the counts: the ticks of the voice in the bar that no item took

   The part's notes are snapped (Notes, above), and notes of equal snapped start and end are one chord. Chords are given
   to voices in the order of their starts, of equal starts the one whose highest key is higher first, of equal highest
   keys the one whose note of that key starts, then ends, earlier. A chord goes to the lowest voice that is free: it has
   no chord, or its last one ends at or before the new start. Where none is free, its keys, not its unpitched mark, go
   to the last chord of the lowest voice whose last chord has that start. Failing that, the voice that ends earliest,
   the lowest of several, is cut short at the new start and takes it. Chords are cut at bar lines, and into the longest
   written values that fit. In a bar in which a voice does not sound, voice 0 has rests and voices 1 to 3 have no items.

   A written value is a whole number of ticks: acorde_beats times the ticks per quarter. What none fits of a chord or a
   gap is dropped, so that a voice may end before its bar does: at 12 ticks per quarter the smallest value has 3 ticks,
   and of 5 ticks 2 are dropped. The leftovers tell how many were, chords and gaps of the voice in the bar together. For
   voice 0, and for each other voice with a chord that sounds in the bar, the lengths of its items and its leftover add
   up to ACORDE_BAR_TICKS, at any division (proved). Sounding decides, not the items: a voice may sound and have none,
   and then its leftover is the whole bar. Voices 1 to 3 have 0 where they do not sound. Of a part that
   acorde_proof_read does not turn back by number 9 all leftovers are 0 (proved).

   A note whose snapped start is at or after the end of the last bar is not written, since bars go to the notes' own
   ends: at 480 ticks per quarter in 4/4 a sole note from 1900 to 1920 makes one bar, snaps to 1920, and its staff is a
   rest. No diagnostic tells of it. A chord that ends after the last bar is cut there and keeps its tie-out.

   Numbers 1 to 8; 8 is for the work area and each of the four outputs, leftovers_n below 4 * bars too. */
AcordeStaff acorde_engrave(const uint32_t *sizes, size_t sizes_n, const uint32_t *deltas, size_t deltas_n,
                           const uint32_t *words, size_t words_n, uint32_t part, uint32_t *counts, size_t counts_n,
                           uint32_t *heads, size_t heads_n, uint64_t *keys, size_t keys_n, uint32_t *leftovers,
                           size_t leftovers_n, uint64_t *work, size_t work_n);

/* An item's head taken apart, and whether item i of a staff has a key. */
#define ACORDE_HEAD_CODE(h) ((uint32_t)(h) & 15)
#define ACORDE_HEAD_DOTS(h) ((uint32_t)(h) >> 4 & 1)
#define ACORDE_HEAD_TIE_IN(h) ((uint32_t)(h) >> 5 & 1)
#define ACORDE_HEAD_TIE_OUT(h) ((uint32_t)(h) >> 6 & 1)
#define ACORDE_HEAD_UNPITCHED(h) ((uint32_t)(h) >> 7 & 1)
#define ACORDE_HEAD_REST(h) ((uint32_t)(h) >> 8 & 1)
#define ACORDE_HAS_KEY(keys, i, key) ((uint32_t)((keys)[2 * (size_t)(i) + (key) / 64] >> (key) % 64 & 1))

/* ---- Proof-reading ----------------------------------------------------------------------------------------------- */

/* Whether a staff of a part is right. Counts, heads and keys are laid out as by acorde_engrave, and counts_n, heads_n
   and keys_n are exactly 4 * bars, items and 2 * items: longer arrays are malformed. Leftovers are not asked for. The
   staff may come from anyone, and have any lengths and contents. It is held against the piece's notes and bars, not
   against another engraving.

   Yes means all of this. The arrays fit: four counts for each bar of the piece, as many heads as the counts add up to,
   twice as many keys, and no head has a bit above 8. Every written value is one of staffs: code 0 to 8, a dot or none,
   a whole number of ticks. Voice 0, and each other voice that has items, fills its bar exactly. Rests have no keys,
   ties or unpitched mark; other items have a key. Within a voice each tie-out meets a tie-in and each tie-in a tie-out,
   at one tick, with equal keys and mark; only at the end of the last bar may a tie-out stay open. Tied items played
   back as one chord, each note whose snapped start is before the end of the last bar has its key in a chord of that
   start; each key of a chord is that of such a note, of the chord's start; and each chord ends at the snapped end of a
   note of its start, at the start of its voice's next chord, or at the end of the last bar. Anything else is no, and so
   is a malformed staff, which is no refusal.

   Every staff that acorde_engrave writes gets yes, if this call is not turned back (proved).

   Numbers 1 to 9. 9: the part's grid, or the length of a bar, is no multiple of the smallest written value, the ticks
   per quarter halved up to four times while they are even; there is no verdict then. A call that is turned back gives
   its number before it looks at the staff. */
AcordeReading acorde_proof_read(const uint32_t *sizes, size_t sizes_n, const uint32_t *deltas, size_t deltas_n,
                                const uint32_t *words, size_t words_n, uint32_t part, const uint32_t *counts,
                                size_t counts_n, const uint32_t *heads, size_t heads_n, const uint64_t *keys,
                                size_t keys_n, uint64_t *work, size_t work_n);

/* ---- Automation -------------------------------------------------------------------------------------------------- */

/* A part's automation: the bends, controllers, programs and pressures of its track. Answers the four counts and writes
   as many elements as they add up to, first all bends, then all controllers, programs and pressures, each in track
   order, to

     ticks   the event's tick at 480 per quarter: (tick * 480 + p / 2) / p, whole parts, p the ticks per quarter. Bars
             and diagnostics have the piece's own ticks.
     out     the event's word as it stands in the piece, of kind 14; 11; 12; 10 or 13

   Markers (kind 5) of the track say that a spare channel was added beside a base channel. The spare's automation is
   dropped where it equals the base's, event for event at the same ticks. A marker counts where both are 0 to 15 and
   differ; a spare with two bases, or a base that is also a spare, makes all of them void. Numbers 1 to 8; 8 here is for
   the outputs, there is no work area. */
AcordeAutomation acorde_automation(const uint32_t *sizes, size_t sizes_n, const uint32_t *deltas, size_t deltas_n,
                                   const uint32_t *words, size_t words_n, uint32_t part, uint64_t *ticks,
                                   size_t ticks_n, uint32_t *out, size_t out_n);

/* ---- Diagnostics ------------------------------------------------------------------------------------------------- */

/* What the import loses or mends: answers how many diagnostics there are and writes as many elements to each of

     places    bits 48-63  code
               bits 32-47  track, from 0 (a track of the piece, not a part)
               bits 0-31   event, from 0 in its track
     details   bits 16-63  tick of the event
               bits 8-15   channel, 255 (ACORDE_ABSENT) if absent
               bits 0-7    key, 255 if absent

     code                                                                channel   key
      1  the division is timecode; track, event and tick are 0           absent    absent
      2  a tempo or meter of the first track, after tick 0, that is
         at no multiple of the first meter's length                      absent    absent
      3  a system event                                                  absent    absent
      4  a note off that ends nothing                                    its own   absent
      5  a note on that nothing ends, at its start                       its own   its own

   Code 2 goes by the first meter of any tick, else 4/4, and by 4 * p * upper / lower, whole part; where that is 0 there
   is no code 2. The order is: code 1; code 2; code 3, track by track; then for each track code 4 in the order of its
   events, followed by code 5 by channel, key and event. A piece without notes is answered too. Numbers 1 to 5 and 8. */
AcordeCount acorde_diagnostics(const uint32_t *sizes, size_t sizes_n, const uint32_t *deltas, size_t deltas_n,
                               const uint32_t *words, size_t words_n, uint64_t *places, size_t places_n,
                               uint64_t *details, size_t details_n, uint64_t *work, size_t work_n);

#define ACORDE_FOUND_TIMECODE 1
#define ACORDE_FOUND_OFF_MEASURE 2
#define ACORDE_FOUND_SYSTEM 3
#define ACORDE_FOUND_OFF_WITHOUT_ON 4
#define ACORDE_FOUND_ON_WITHOUT_OFF 5
#define ACORDE_ABSENT 255

/* A place and a detail taken apart. */
#define ACORDE_PLACE_CODE(p) ((uint32_t)((uint64_t)(p) >> 48))
#define ACORDE_PLACE_TRACK(p) ((uint32_t)((uint64_t)(p) >> 32) & 65535)
#define ACORDE_PLACE_EVENT(p) ((uint32_t)(p))
#define ACORDE_DETAIL_TICK(d) ((uint64_t)(d) >> 16)
#define ACORDE_DETAIL_CHANNEL(d) ((uint32_t)(d) >> 8 & 255)
#define ACORDE_DETAIL_KEY(d) ((uint32_t)(d) & 255)

/* ---- Single values ----------------------------------------------------------------------------------------------- */

/* A written value's length in quarters, exactly: codes 0 to 8 as in a staff's heads and 9 for the 128th, 0 to 3 dots. A
   quarter is 1, a longa 16. Number 10 where the code is above ACORDE_LARGEST_CODE or dots above ACORDE_MOST_DOTS. */
AcordeBeats acorde_beats(uint32_t code, uint32_t dots);

/* A key spelled with sharps: 60 is C 4, 61 C sharp 4, 0 C -1, 127 G 9. Number 10 where the key is above
   ACORDE_LARGEST_KEY. */
AcordeSpelling acorde_spelling(uint32_t key);

#ifdef __cplusplus
}
#endif

#endif
