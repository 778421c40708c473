/* test FILES: tries what ferrysprig.h says of a call, and of the stack on the frames of those files: a line `ok WHAT` or `FAILED WHAT` for
   each, and exit status 0 only if all hold. */
#define _XOPEN_SOURCE 700 /* for ucontext.h */
#include "ferrysprig.h"
#include <stdio.h>
#include <string.h>
#include <ucontext.h>

enum {
    WIDTH = FERRYSPRIG_ROW_NUMBERS,
    ROOM = 5 * WIDTH, /* one row more than the example has */
    UNTOUCHED = 1000000 /* neither rows nor answers hold it */
};

static const uint8_t example[] = {0x0B, 0x77, 0x00, 0x00, 0xC0, 0x00}; /* fscod 3: refused after four rows */

static int32_t rows[ROOM];
static int32_t answer[FERRYSPRIG_ANSWER_NUMBERS];
static bool all_hold = true;

static void holds(const char *what, bool it_holds) {
    printf("%s %s\n", it_holds ? "ok" : "FAILED", what);
    all_hold = all_hold && it_holds;
}

static void mark(void) {
    for (int i = 0; i < ROOM; i++)
        rows[i] = UNTOUCHED;
    for (int i = 0; i < FERRYSPRIG_ANSWER_NUMBERS; i++)
        answer[i] = UNTOUCHED;
}

static bool untouched_from(int first) {
    for (int i = first; i < ROOM; i++)
        if (rows[i] != UNTOUCHED)
            return false;
    return true;
}

/* Whether the answer tells that this did not fit. */
static bool unfit(int32_t name, int32_t block) {
    return answer[FERRYSPRIG_ANSWER_NAME] == name && answer[FERRYSPRIG_ANSWER_BLOCK] == block;
}

/* Whether the answer is a refusal, with no summary. */
static bool refused_at(int32_t number, int32_t count, int32_t bit) {
    for (int i = FERRYSPRIG_ANSWER_SUMMARY; i <= FERRYSPRIG_ANSWER_COORDINATES_SENT; i++)
        if (answer[i] != 0)
            return false;
    for (int i = FERRYSPRIG_ANSWER_MANTISSA_BITS; i < FERRYSPRIG_ANSWER_NUMBERS; i++)
        if (answer[i] != 0)
            return false;
    return answer[FERRYSPRIG_ANSWER_REFUSAL] == number && answer[FERRYSPRIG_ANSWER_ROWS] == count && answer[FERRYSPRIG_ANSWER_BIT] == bit;
}

/* The same where nothing failed to fit, and numbers past the rows are untouched. */
static bool refused(int32_t number, int32_t count, int32_t bit) {
    return refused_at(number, count, bit) && unfit(0, -1) && untouched_from(WIDTH * count);
}

static void parse(size_t length, size_t place, size_t room) {
    mark();
    ferrysprig_parse(example, length, place, rows, room, answer);
}

static void try_calls(void) {
    mark();
    ferrysprig_parse(NULL, 0, 0, NULL, 0, answer);
    holds("nothing at all", refused(1, 0, 0));
    parse(5, 0, ROOM);
    holds("five bytes", refused(1, 0, 0));
    parse(6, 6, ROOM);
    holds("a place at the end", refused(1, 0, 0));
    parse(6, SIZE_MAX, ROOM);
    holds("a place far past the end", refused(1, 0, 0));
    parse(6, 0, ROOM);
    holds("the example", refused(3, 4, 40));
    const int32_t *third = &rows[2 * WIDTH];
    holds("its third row", third[FERRYSPRIG_ROW_NAME] == 3 && third[FERRYSPRIG_ROW_ROLE] == FERRYSPRIG_ROLE_FRAME_SIZE
              && third[FERRYSPRIG_ROW_PROGRAMME] == -1 && third[FERRYSPRIG_ROW_BLOCK] == -1 && third[FERRYSPRIG_ROW_INDEX] == -1
              && third[FERRYSPRIG_ROW_POSITION] == 32 && third[FERRYSPRIG_ROW_WIDTH] == 2 && third[FERRYSPRIG_ROW_VALUE] == 3
              && third[FERRYSPRIG_ROW_PART] == -1);
    parse(6, 0, 4 * WIDTH - 1);
    holds("one number too few for its fourth row", refused(7, 3, 34));
    parse(6, 0, WIDTH - 1);
    holds("one number too few for its first row", refused(7, 0, 0));
    parse(6, 0, 0);
    holds("no room", refused(7, 0, 0));
}

static int32_t room[FERRYSPRIG_MOST_ROWS * WIDTH];

/* Parses a frame of 128 bytes that begins so and goes on with zeros. */
static void parse_frame(const uint8_t *front, size_t length) {
    static uint8_t frame[128];
    memset(frame, 0, sizeof frame);
    memcpy(frame, front, length);
    mark();
    ferrysprig_parse(frame, sizeof frame, 0, room, sizeof room / sizeof *room, answer);
}

/* Whether the rows of a name and index in `room` are so many parts, in order, each of them with its number (of four bits) as value. */
static bool parts(int32_t name, int32_t index, int32_t count) {
    int32_t next = 0;
    for (int32_t i = 0; i < answer[FERRYSPRIG_ANSWER_ROWS]; i++) {
        const int32_t *row = &room[i * WIDTH];
        if (row[FERRYSPRIG_ROW_NAME] != name || row[FERRYSPRIG_ROW_INDEX] != index)
            continue;
        if (row[FERRYSPRIG_ROW_PART] != next || row[FERRYSPRIG_ROW_VALUE] != next % 16)
            return false;
        next++;
    }
    return next == count;
}

/* Whether these are the bits of the mantissas in block 0, by slot, and the other blocks have none. */
static bool mantissa_bits(const int32_t block_0[FERRYSPRIG_SLOTS]) {
    const int32_t *bits = &answer[FERRYSPRIG_ANSWER_MANTISSA_BITS];
    for (int i = FERRYSPRIG_SLOTS; i < 6 * FERRYSPRIG_SLOTS; i++)
        if (bits[i] != 0)
            return false;
    return memcmp(bits, block_0, FERRYSPRIG_SLOTS * sizeof *bits) == 0;
}

/* Frames of judge/corners.txt. */
static void try_frames(void) {
    const uint8_t plain[] = {0x0B, 0x77, 0x00, 0x00, 0x00, 0x40, 0x20, 0x00, 0x0B, 0x00, 0x1F, 0x3E, 0x7C, 0xF9, 0xF3, 0xE2, 0x00, 0x20};
    parse_frame(plain, sizeof plain);
    holds("an accepted frame", answer[FERRYSPRIG_ANSWER_REFUSAL] == 0 && answer[FERRYSPRIG_ANSWER_ROWS] == 95
              && answer[FERRYSPRIG_ANSWER_AUDIO_END] == 204 && unfit(0, -1));
    const uint8_t bands[] = {0x0B, 0x77, 0x00, 0x00, 0x00, 0x40, 0x40, 0x00, 0x00, 0xF0, 0x78, 0x00, 0x02, 0x00, 0x08, 0x91, 0x19, 0xA2,
        0x2A, 0xB3, 0x3B, 0xC4, 0x4C, 0xD5, 0x5D, 0xE6, 0x6E, 0xF7, 0x7F, 0x80, 0x08, 0xC0, 0x01, 0x12, 0x23, 0x34, 0x45, 0x56, 0x67, 0x78,
        0x89, 0x9A, 0xAB, 0xBC, 0xCD, 0xDE, 0xEF, 0xF0, 0x01, 0x19, 0xF8, 0x3E, 0x7C, 0xF9, 0xF3, 0xE7, 0xCF, 0x9F, 0x3E, 0x7C, 0xF9, 0xF3,
        0xE7, 0xCF, 0x9F, 0x3E, 0x7C, 0x0F, 0x9F, 0x3E, 0x01, 0xF3, 0xE7, 0xC4, 0x00, 0x40};
    parse_frame(bands, sizeof bands);
    holds("18 bands of coordinates", answer[FERRYSPRIG_ANSWER_REFUSAL] == 0 && parts(64, 0, 18) && parts(64, 1, 18) && parts(65, 0, 18)
              && parts(65, 1, 18));
    const uint8_t late[] = {0x0B, 0x77, 0x00, 0x00, 0x00, 0x40, 0xC0, 0x00, 0x00, 0x0F, 0x94, 0xE0, 0x04, 0x00, 0x80, 0x1F, 0xF8, 0x00,
        0xF8, 0x1F, 0x3E, 0x7C, 0xF9, 0xF3, 0xE7, 0xCF, 0x80, 0x7C, 0xF9, 0xF3, 0xE7, 0xCF, 0x9F, 0x3E, 0x01, 0xF3, 0xE7, 0xCF, 0x9F, 0x3E,
        0x7C, 0xF8, 0x07, 0xCF, 0x9F, 0x3E, 0x7C, 0xF8, 0x80, 0x08, 0x00, 0x00, 0x00, 0x00, 0x00, 0x00, 0x00, 0x00, 0x00, 0x03, 0xF5, 0x30,
        0x00, 0xC1, 0xF3, 0xE7, 0xCF, 0x9F, 0x3E, 0x7C, 0xF8};
    parse_frame(late, sizeof late);
    holds("a late channel without coordinates", answer[FERRYSPRIG_ANSWER_ROWS] == 256 && answer[FERRYSPRIG_ANSWER_COORDINATES_SENT] == 0);
    const uint8_t late_sent[] = {0x0B, 0x77, 0x00, 0x00, 0x00, 0x40, 0xC0, 0x00, 0x00, 0x0F, 0x94, 0xE0, 0x04, 0x00, 0x80, 0x1F, 0xF8, 0x00,
        0xF8, 0x1F, 0x3E, 0x7C, 0xF9, 0xF3, 0xE7, 0xCF, 0x80, 0x7C, 0xF9, 0xF3, 0xE7, 0xCF, 0x9F, 0x3E, 0x01, 0xF3, 0xE7, 0xCF, 0x9F, 0x3E,
        0x7C, 0xF8, 0x07, 0xCF, 0x9F, 0x3E, 0x7C, 0xF8, 0x80, 0x08, 0x00, 0x00, 0x00, 0x00, 0x00, 0x00, 0x00, 0x00, 0x00, 0x03, 0xF5, 0x31,
        0x00, 0x00, 0x30, 0x7C, 0xF9, 0xF3, 0xE7, 0xCF, 0x9F, 0x3E};
    parse_frame(late_sent, sizeof late_sent);
    holds("a late channel with them", answer[FERRYSPRIG_ANSWER_ROWS] == 259 && answer[FERRYSPRIG_ANSWER_COORDINATES_SENT] == 1);
    const uint8_t into_lfe[] = {0x0B, 0x77, 0x00, 0x00, 0x00, 0x40, 0x44, 0x00, 0x00, 0xF1, 0x01, 0x1F, 0xC1, 0xF0, 0x3E, 0x7C, 0xF9, 0xF3,
        0xE3, 0xFE, 0x70, 0x7C, 0xF9, 0xF0, 0x0F, 0x9F, 0x40, 0x04, 0x1F, 0xE1, 0xC3, 0x87, 0x80, 0x00, 0x00, 0x00, 0x00, 0x00, 0x00, 0x00,
        0x00, 0x00, 0x00, 0x00, 0x00, 0x00, 0x00, 0x00, 0x00, 0x04, 0x00, 0xE1, 0xC3, 0x87};
    const int32_t coupling_and_lfe[FERRYSPRIG_SLOTS] = {[0] = 85, [FERRYSPRIG_SLOT_COUPLING] = 20, [FERRYSPRIG_SLOT_LFE] = 10};
    parse_frame(into_lfe, sizeof into_lfe);
    holds("mantissa groups from a channel into coupling, and from there into LFE", answer[FERRYSPRIG_ANSWER_REFUSAL] == 0
              && mantissa_bits(coupling_and_lfe));
    const uint8_t members_alone[] = {0x0B, 0x77, 0x00, 0x00, 0x00, 0x40, 0x30, 0x00, 0x0B, 0x80, 0x0F, 0x9F, 0x3E, 0x7C, 0xF9, 0xF0, 0xBE,
        0xDF, 0x40, 0x04, 0x10, 0xE1, 0xC0, 0x00, 0x00, 0x00, 0x00, 0x00, 0x00, 0x00, 0x00, 0x00, 0x00, 0x00, 0x40, 0x0E, 0x1C};
    parse_frame(members_alone, sizeof members_alone);
    holds("LFE mantissas of the channel's last group alone", answer[FERRYSPRIG_ANSWER_REFUSAL] == 0
              && mantissa_bits((const int32_t[FERRYSPRIG_SLOTS]){85}));
    const uint8_t no_cplstre[] = {0x0B, 0x77, 0x00, 0x00, 0x00, 0x40, 0x20};
    parse_frame(no_cplstre, sizeof no_cplstre);
    holds("no cplstre in block 0", refused_at(8, 21, 69) && unfit(0, -1));
    const uint8_t no_rematstr[] = {0x0B, 0x77, 0x00, 0x00, 0x00, 0x40, 0x40, 0x00, 0x00, 0x80};
    parse_frame(no_rematstr, sizeof no_rematstr);
    holds("no rematstr in block 0", refused_at(21, 26, 75) && unfit(0, -1));
    const uint8_t no_baie[] = {0x0B, 0x77, 0x00, 0x00, 0x00, 0x40, 0x20, 0x00, 0x0B, 0x00, 0x1F, 0x3E, 0x7C, 0xF9, 0xF3, 0xE0};
    parse_frame(no_baie, sizeof no_baie);
    holds("no baie in block 0", refused_at(22, 33, 127) && unfit(0, -1));
    const uint8_t no_snroffste[] = {0x0B, 0x77, 0x00, 0x00, 0x00, 0x40, 0x20, 0x00, 0x0B, 0x00, 0x1F, 0x3E, 0x7C, 0xF9, 0xF3, 0xE2};
    parse_frame(no_snroffste, sizeof no_snroffste);
    holds("no snroffste in block 0", refused_at(23, 39, 139) && unfit(0, -1));
    const uint8_t no_block_5[] = {0x0B, 0x77, 0x00, 0x00, 0x00, 0x40, 0x20, 0x00, 0x0B, 0x24, 0x1F, 0x3E, 0x7C, 0xF9, 0xF3, 0xE7, 0xCF,
        0x9F, 0x10, 0x01, 0x00, 0x02, 0x64};
    parse_frame(no_block_5, sizeof no_block_5);
    holds("block 5 past the frame", refused_at(6, 90, 1024) && unfit(49, 5));
    const uint8_t skip[] = {0x0B, 0x77, 0x00, 0x00, 0x00, 0x40, 0x20, 0x00, 0x0B, 0x00, 0x1F, 0x3E, 0x7C, 0xF9, 0xF3, 0xE2, 0x00, 0x20,
        0x00, 0x7F, 0xE0};
    parse_frame(skip, sizeof skip);
    holds("a skip field past the frame", refused_at(6, 45, 163) && unfit(110, 0));
    const uint8_t mantissa[] = {0x0B, 0x77, 0x00, 0x00, 0x00, 0x40, 0x20, 0x00, 0x0B, 0x00, 0x1F, 0x3E, 0x7C, 0xF9, 0xF3, 0xE2, 0x00, 0x20,
        0x07, 0x00, 0x00, 0x00, 0x00, 0x00, 0x00, 0x7F, 0x0E};
    parse_frame(mantissa, sizeof mantissa);
    holds("block 5's mantissas past the frame", refused_at(6, 97, 1017) && unfit(111, 5));
}

/* Whether an answer about a header is these ten numbers, with the numbers past its rows, and past the answer, untouched. */
static bool header_is(const int32_t expected[FERRYSPRIG_HEADER_ANSWER_NUMBERS]) {
    return memcmp(answer, expected, FERRYSPRIG_HEADER_ANSWER_NUMBERS * sizeof *answer) == 0
        && answer[FERRYSPRIG_HEADER_ANSWER_NUMBERS] == UNTOUCHED && untouched_from(WIDTH * expected[FERRYSPRIG_HEADER_ANSWER_ROWS]);
}

/* Whether `blocks` refuses these ten numbers with 24 for the smallest frame, and touches no row. */
static bool not_taken(const uint8_t *frame, size_t place, size_t room_len, const int32_t *header) {
    mark();
    ferrysprig_blocks(frame, 128, place, rows, room_len, header, answer);
    return refused(24, 0, 0);
}

static void try_apart(void) {
    static const uint8_t frame[128] = {0x0B, 0x77, 0x00, 0x00, 0x00, 0x40, 0x20, 0x00, 0x0B, 0x00, 0x1F, 0x3E, 0x7C, 0xF9, 0xF3, 0xE2, 0x00,
        0x20};
    const int32_t whole[] = {0, 17, 65, 0, -1, 128, 8, 1, 0, 0};
    const int32_t of_example[] = {3, 4, 40, 0, -1, 0, 0, 0, 0, 0};
    const int32_t full[] = {7, 5, 45, 0, -1, 0, 0, 0, 0, 0};
    const int32_t nothing[] = {1, 0, 0, 0, -1, 0, 0, 0, 0, 0};
    static int32_t parsed[200 * WIDTH], in_turn[200 * WIDTH];
    int32_t header[FERRYSPRIG_HEADER_ANSWER_NUMBERS], of_parse[FERRYSPRIG_ANSWER_NUMBERS];
    mark();
    ferrysprig_header(NULL, 0, 0, NULL, 0, answer);
    holds("the header of nothing at all", header_is(nothing));
    mark();
    ferrysprig_header(example, sizeof example, 0, rows, ROOM, answer);
    holds("the header of the example", header_is(of_example));
    mark();
    ferrysprig_header(frame, sizeof frame, 0, rows, ROOM, answer);
    holds("a header without room", header_is(full));
    ferrysprig_header(frame, sizeof frame, 0, in_turn, sizeof in_turn / sizeof *in_turn, header);
    holds("a header", memcmp(header, whole, sizeof whole) == 0 && in_turn[16 * WIDTH + FERRYSPRIG_ROW_NAME] == 46
              && in_turn[17 * WIDTH] == 0);
    memset(in_turn, 0, sizeof in_turn);
    ferrysprig_parse(frame, sizeof frame, 0, parsed, sizeof parsed / sizeof *parsed, of_parse);
    ferrysprig_blocks(frame, sizeof frame, 0, in_turn, sizeof in_turn / sizeof *in_turn, header, answer);
    holds("the blocks after it", of_parse[FERRYSPRIG_ANSWER_REFUSAL] == 0 && of_parse[FERRYSPRIG_ANSWER_ROWS] == 95
              && memcmp(answer, of_parse, sizeof of_parse) == 0 && memcmp(parsed, in_turn, sizeof parsed) == 0);
    bool none_taken = true;
    for (int i = 0; i < FERRYSPRIG_HEADER_ANSWER_NUMBERS; i++) {
        header[i]++;
        none_taken = none_taken && not_taken(frame, 0, ROOM, header);
        header[i] = whole[i];
    }
    holds("another number among the ten", none_taken);
    holds("the header of another room, of a refusal, of another place", not_taken(frame, 0, ROOM, whole) && not_taken(frame, 0, ROOM, full)
              && not_taken(frame, 1, ROOM, whole) && not_taken(frame, SIZE_MAX, ROOM, nothing));
}

static void try_range_eq(void) {
    const uint8_t moved[] = {0xF0, 0xB7, 0x70, 0x0F}; /* the sync word, four bits on */
    holds("equal bits at other places", ferrysprig_range_eq(example, 6, 0, moved, 4, 4, 23));
    holds("a bit that differs", !ferrysprig_range_eq(example, 6, 0, moved, 4, 4, 25));
    holds("a range that ends at the end", ferrysprig_range_eq(moved, 4, 4, moved, 4, 4, 28));
    holds("a range that ends past it", !ferrysprig_range_eq(moved, 4, 4, moved, 4, 4, 29));
    holds("the second range alone ends past it", !ferrysprig_range_eq(moved, 4, 0, moved, 1, 0, 9));
    holds("no bits, at the end", ferrysprig_range_eq(moved, 4, 32, NULL, 0, 0, 0));
    holds("no bits, past the end", !ferrysprig_range_eq(moved, 4, 33, moved, 4, 0, 0));
    holds("more bits than can be counted", !ferrysprig_range_eq(moved, 4, 8, moved, 4, 8, SIZE_MAX));
}

/* Whether a value set so in three bytes 0xA5 is answered so, and leaves these three. */
static bool sets(size_t place, size_t position, size_t width, size_t value, uint8_t refusal, uint8_t a, uint8_t b, uint8_t c) {
    uint8_t capture[] = {0xA5, 0xA5, 0xA5, 0x77}; /* the last one is not lent */
    const uint8_t expected[] = {a, b, c, 0x77};
    return ferrysprig_set(capture, 3, place, position, width, value) == refusal && memcmp(capture, expected, sizeof capture) == 0;
}

/* The same with nothing written. */
static bool unset(size_t place, size_t position, size_t width, size_t value, uint8_t refusal) {
    return sets(place, position, width, value, refusal, 0xA5, 0xA5, 0xA5);
}

static void try_edits(void) {
    holds("a bit is set", sets(0, 1, 1, 1, 0, 0xE5, 0xA5, 0xA5));
    holds("a byte across two", sets(1, 4, 8, 0xB7, 0, 0xA5, 0xAB, 0x75));
    holds("16 bits across three", sets(0, 1, 16, 0x0B77, 0, 0x85, 0xBB, 0xA5));
    holds("the last 16 bits", sets(0, 8, 16, 0xFFFF, 0, 0xA5, 0xFF, 0xFF));
    holds("widths that are not 1 to 16", unset(0, 0, 0, 0, 57) && unset(0, 0, 17, 0, 57) && unset(9, 0, SIZE_MAX, 1, 57));
    holds("a bit past the end", unset(0, 9, 16, 0, 58) && unset(2, 8, 1, 0, 58) && unset(3, 0, 1, 2, 58));
    holds("bits that cannot be counted", unset((size_t)1 << 61, 0, 1, 1, 58) && unset(1, SIZE_MAX - 7, 1, 1, 58)
              && unset(0, SIZE_MAX, 1, 1, 58));
    holds("values too large", unset(0, 0, 1, 2, 59) && unset(0, 8, 16, 65536, 59) && unset(0, 0, 8, SIZE_MAX, 59));
    holds("nothing to set a value in", ferrysprig_set(NULL, 0, 0, 0, 1, 0) == 58);
    int listed = 0;
    for (size_t name = 0; name <= 1000; name++)
        listed += ferrysprig_editable(name);
    holds("39 names may be edited", listed == 39);
    holds("compr may, its flag and spans may not", ferrysprig_editable(14) && !ferrysprig_editable(13) && !ferrysprig_editable(48)
              && !ferrysprig_editable(110) && !ferrysprig_editable(111));
    holds("what is no name may not", !ferrysprig_editable(0) && !ferrysprig_editable(112) && !ferrysprig_editable(256 + 14)
              && !ferrysprig_editable(SIZE_MAX));
}

/* A frame of 128 bytes, acmod 1, dialnorm 0 at bit 52, with all checksums 0, between marks: one byte before it and two behind it. */
enum { BEHIND = 1 + FERRYSPRIG_LEAST_BYTES, SURROUNDED = BEHIND + 2 };
static uint8_t surrounded[SURROUNDED];
static int32_t level_changes[FERRYSPRIG_MOST_CHANGES * FERRYSPRIG_CHANGE_NUMBERS + 1];
static int32_t level_answer[FERRYSPRIG_LEVEL_ANSWER_NUMBERS + 1];

static void surround(void) {
    static const uint8_t front[] = {0x0B, 0x77, 0x00, 0x00, 0x00, 0x40, 0x20, 0x00, 0x0B, 0x00, 0x1F, 0x3E, 0x7C, 0xF9, 0xF3, 0xE2, 0x00,
        0x20};
    memset(surrounded, 0, sizeof surrounded);
    memcpy(&surrounded[1], front, sizeof front);
    surrounded[0] = surrounded[BEHIND] = surrounded[BEHIND + 1] = 0xA5;
}

/* Whether a correction of its first `length` bytes, marks too, is answered so, with these changes and nothing else touched. */
static bool corrects(size_t length, size_t place, size_t programme, size_t level, size_t numbers, int32_t refusal, int32_t count,
                     int32_t listed, const int32_t *expected) {
    static uint8_t before[SURROUNDED];
    memcpy(before, surrounded, sizeof before);
    for (size_t i = 0; i < sizeof level_changes / sizeof *level_changes; i++)
        level_changes[i] = UNTOUCHED;
    for (size_t i = 0; i < sizeof level_answer / sizeof *level_answer; i++)
        level_answer[i] = UNTOUCHED;
    ferrysprig_correct(surrounded, length, place, programme, level, room, numbers, level_changes, level_answer);
    bool same = listed == 0 || memcmp(level_changes, expected, (size_t)listed * FERRYSPRIG_CHANGE_NUMBERS * sizeof *expected) == 0;
    for (size_t i = (size_t)listed * FERRYSPRIG_CHANGE_NUMBERS; i < sizeof level_changes / sizeof *level_changes; i++)
        same = same && level_changes[i] == UNTOUCHED;
    /* The frame's bytes 2 and 3 have crc1, 6 and 7 dialnorm, the last three crcrsv and crc2. */
    for (size_t i = 0; i < sizeof before; i++) {
        bool may = listed > 0 && ((i >= 3 && i < 5) || (i >= 7 && i < 9) || (i >= BEHIND - 3 && i < BEHIND));
        same = same && (may || surrounded[i] == before[i]);
    }
    return same && level_answer[FERRYSPRIG_LEVEL_ANSWER_REFUSAL] == refusal && level_answer[FERRYSPRIG_LEVEL_ANSWER_ROWS] == count
        && level_answer[FERRYSPRIG_LEVEL_ANSWER_CHANGES] == listed && level_answer[FERRYSPRIG_LEVEL_ANSWER_NUMBERS] == UNTOUCHED;
}

/* The frame's 16 bits from a byte on. */
static int32_t word(size_t byte) {
    return surrounded[1 + byte] << 8 | surrounded[2 + byte];
}

static void try_levels(void) {
    enum { ROWS = 95 * WIDTH, CRC1 = 2, DIALNORM = 12 };
    const int32_t to_24[] = {CRC1, 0, 0xF7CA, DIALNORM, 0, 24};
    const int32_t flipped[] = {CRC1, 0, 0xF7CA, DIALNORM, 0, 24, FERRYSPRIG_NAME_CRCRSV, 0, 1, FERRYSPRIG_NAME_CRC2, 0, 0x8B72};
    const int32_t crc2[] = {FERRYSPRIG_NAME_CRC2, 0x1234, 0};
    surround();
    holds("a level of nothing at all", (ferrysprig_correct(NULL, 0, 0, 1, 24, NULL, 0, level_changes, level_answer), level_answer[0] == 1)
              && level_answer[1] == 0 && level_answer[2] == 0);
    holds("a place without a frame", corrects(SURROUNDED, 0, 1, 24, ROWS, 2, 1, 0, NULL));
    holds("a frame that is cut has no level", corrects(BEHIND - 1, 1, 1, 24, ROWS, 4, 4, 0, NULL));
    holds("a number of room too few for a level", corrects(SURROUNDED, 1, 1, 24, ROWS - 1, 7, 94, 0, NULL));
    holds("programmes that are not there", corrects(SURROUNDED, 1, 0, 24, ROWS, 50, 95, 0, NULL)
              && corrects(SURROUNDED, 1, 2, 0, ROWS, 50, 95, 0, NULL) && corrects(SURROUNDED, 1, SIZE_MAX, 24, ROWS, 50, 95, 0, NULL));
    holds("levels that are none", corrects(SURROUNDED, 1, 1, 0, ROWS, 51, 95, 0, NULL)
              && corrects(SURROUNDED, 1, 1, 32, ROWS, 51, 95, 0, NULL)
              && corrects(SURROUNDED, 1, 1, ((size_t)1 << 32) + 24, ROWS, 51, 95, 0, NULL));
    holds("a level is written", corrects(SURROUNDED, 1, 1, 24, ROWS, 0, 95, 2, to_24) && word(2) == 0xF7CA
              && word(6) == 0x2C00 && word(126) == 0);
    holds("a second time nothing changes", corrects(SURROUNDED, 1, 1, 24, ROWS, 0, 95, 0, NULL));
    surrounded[BEHIND - 2] = 0x12;
    surrounded[BEHIND - 1] = 0x34;
    holds("a wrong crc2 alone", corrects(BEHIND, 1, 1, 24, ROWS, 0, 95, 1, crc2) && word(126) == 0);
    surround();
    surrounded[1 + 123] = 0x01; /* this word before auxdatae makes crc2 the sync word */
    surrounded[1 + 124] = 0x3C;
    surrounded[1 + 125] = 0x90;
    holds("crcrsv is flipped", corrects(SURROUNDED, 1, 1, 24, ROWS, 0, 95, 4, flipped) && surrounded[1 + 125] == 0x91
              && word(126) == 0x8B72);
    holds("and stays so", corrects(SURROUNDED, 1, 1, 24, ROWS, 0, 95, 0, NULL));
}

/* Whether a section in three bytes, of which all but the first are 0, is answered so, with nothing written past the answer. */
static bool walks(uint8_t front, size_t at, size_t end, const char *hebap, size_t first, size_t past, size_t refusal, size_t last,
                  size_t tags) {
    const uint8_t data[] = {front, 0, 0};
    size_t told[FERRYSPRIG_AHT_ANSWER_NUMBERS + 1] = {UNTOUCHED, UNTOUCHED, UNTOUCHED, UNTOUCHED};
    ferrysprig_aht(data, sizeof data, at, end, (const uint8_t *)hebap, strlen(hebap), first, past, told);
    return told[FERRYSPRIG_AHT_ANSWER_REFUSAL] == refusal && told[FERRYSPRIG_AHT_ANSWER_END] == last
        && told[FERRYSPRIG_AHT_ANSWER_TAGS] == tags && told[FERRYSPRIG_AHT_ANSWER_NUMBERS] == UNTOUCHED;
}

/* Hebaps are characters here: \x8 has mantissas of 3 bits, \x1 a vector index of 2, \x14 (20) is too large. */
static void try_aht(void) {
    size_t told[FERRYSPRIG_AHT_ANSWER_NUMBERS] = {UNTOUCHED, UNTOUCHED, UNTOUCHED};
    ferrysprig_aht(NULL, 0, 0, 0, NULL, 0, 0, 0, told);
    holds("a section of nothing at all", told[0] == 6 && told[1] == 0 && told[2] == 0);
    holds("sections without bins", walks(0, 5, 24, "", 0, 0, 0, 7, 0) && walks(0, 5, 24, "\x8", 1, 0, 0, 7, 0)
              && walks(0, 5, 24, "\x14", SIZE_MAX, 1, 0, 7, 0));
    holds("six mantissas that end with the data", walks(0, 4, 24, "\x8", 0, 1, 0, 24, 0) && walks(0, 4, SIZE_MAX, "\x8", 0, 1, 0, 24, 0));
    holds("a bit past the given end, and past the data", walks(0, 4, 23, "\x8", 0, 1, 6, 0, 0)
              && walks(0, 5, SIZE_MAX, "\x8", 0, 1, 6, 0, 0));
    holds("gain 2 without and with a tag", walks(0x60, 0, 24, "\x8", 0, 1, 0, 15, 0) && walks(0x70, 0, 24, "\x8", 0, 1, 0, 17, 1));
    holds("gain 4 without and with a tag", walks(0xA0, 0, 24, "\x8", 0, 1, 0, 9, 0) && walks(0xB0, 0, 24, "\x8", 0, 1, 0, 12, 1));
    holds("composite gains 18 and 27", walks(0xE4, 0, 24, "\x8", 0, 1, 0, 13, 0) && walks(0xF6, 0, 24, "\x8", 0, 1, 25, 0, 0));
    holds("a wrong hebap in the range, and around it", walks(0, 0, 24, "\x14\x1\x14", 1, 3, 26, 0, 0)
              && walks(0, 0, 24, "\x14\x1\x14", 1, 2, 0, 4, 0));
    holds("an end bin that is not there", walks(0, 0, 24, "\x8", 0, 2, 27, 0, 0) && walks(0, 9, 0, "\x14", 9, SIZE_MAX, 27, 0, 0));
    holds("bits of a section that cannot be counted", walks(0, SIZE_MAX, SIZE_MAX, "\x8", 0, 1, 6, 0, 0)
              && walks(0, SIZE_MAX - 1, 24, "", 0, 0, 6, 0, 0));
}

static uint8_t out[FERRYSPRIG_BURST_BYTES + 1];

/* Whether an answer about a burst says so, with the output untouched. */
static bool burst_refused(int32_t number, int32_t count) {
    for (size_t i = 0; i < sizeof out; i++)
        if (out[i] != 0xA5)
            return false;
    return answer[FERRYSPRIG_BURST_ANSWER_REFUSAL] == number && answer[FERRYSPRIG_BURST_ANSWER_ROWS] == count
        && answer[FERRYSPRIG_BURST_ANSWER_WRITTEN] == 0 && answer[FERRYSPRIG_BURST_ANSWER_NUMBERS] == UNTOUCHED
        && untouched_from(WIDTH * count);
}

static void read_burst(const uint8_t *burst, size_t length) {
    mark();
    memset(out, 0xA5, sizeof out);
    ferrysprig_burst_read(burst, length, rows, ROOM, out, sizeof out, answer);
}

static void try_bursts(void) {
    static uint8_t burst[FERRYSPRIG_BURST_BYTES] = {0xF8, 0x72, 0x4E, 0x1F, 0x00, 0x01};
    memcpy(&burst[8], example, sizeof example);
    mark();
    memset(out, 0xA5, sizeof out);
    ferrysprig_burst_write(NULL, 0, 0, NULL, 0, NULL, 0, answer);
    holds("a burst of nothing at all", burst_refused(1, 0));
    mark();
    ferrysprig_burst_write(example, sizeof example, 0, rows, ROOM, out, sizeof out, answer);
    holds("a burst of the example", burst_refused(3, 4));
    read_burst(NULL, 0);
    holds("the frame of nothing at all", burst_refused(30, 0));
    read_burst(burst, sizeof burst - 1);
    holds("a burst too short", burst_refused(30, 0));
    read_burst(burst, sizeof burst);
    holds("a burst with the example", burst_refused(3, 4));
    burst[5] = 2;
    read_burst(burst, sizeof burst);
    holds("a burst of another data type", burst_refused(31, 0));
}

/* What a salvage is lent at most: two numbers more than four entries have, and a byte more than two of the frames. (One number more of the
   list, and more bytes of `out`, are not lent.) */
enum { LIST = 4 * FERRYSPRIG_ENTRY_NUMBERS + 2, FRAMES = 2 * FERRYSPRIG_LEAST_BYTES + 1 };
static size_t list[LIST + 1];
static size_t salvage_answer[FERRYSPRIG_SALVAGE_ANSWER_NUMBERS + 1];

/* Salvages the first bytes of a frame, a gap of three bytes, and the frame again, in these rooms. */
static void salvage(size_t length, size_t numbers, size_t listed, size_t bytes) {
    static const uint8_t front[] = {0x0B, 0x77, 0x00, 0x00, 0x00, 0x40, 0x20, 0x00, 0x0B, 0x00, 0x1F, 0x3E, 0x7C, 0xF9, 0xF3, 0xE2, 0x00,
        0x20};
    static uint8_t capture[2 * FERRYSPRIG_LEAST_BYTES + 3];
    memcpy(capture, front, sizeof front);
    memcpy(&capture[FERRYSPRIG_LEAST_BYTES + 3], front, sizeof front);
    for (size_t i = 0; i < sizeof list / sizeof *list; i++)
        list[i] = UNTOUCHED;
    for (size_t i = 0; i < sizeof salvage_answer / sizeof *salvage_answer; i++)
        salvage_answer[i] = UNTOUCHED;
    memset(out, 0xA5, sizeof out);
    ferrysprig_salvage(capture, length, room, numbers, list, listed, out, bytes, salvage_answer);
}

/* Whether the answer says so, the entries are the first of these three, and nothing behind them and the frames is touched. */
static bool salvaged(size_t refusal, size_t entries, size_t written) {
    static const size_t expected[][FERRYSPRIG_ENTRY_NUMBERS] = {
        {FERRYSPRIG_KIND_FRAME, 0, 128}, {FERRYSPRIG_KIND_GAP, 128, 3}, {FERRYSPRIG_KIND_FRAME, 131, 128}};
    size_t numbers = FERRYSPRIG_ENTRY_NUMBERS * entries;
    bool same = memcmp(list, expected, numbers * sizeof *list) == 0;
    for (size_t i = numbers; i < sizeof list / sizeof *list; i++)
        same = same && list[i] == UNTOUCHED;
    for (size_t i = 0; i < sizeof out; i++)
        same = same && (out[i] == 0xA5) == (i >= written);
    return same && salvage_answer[FERRYSPRIG_SALVAGE_ANSWER_REFUSAL] == refusal
        && salvage_answer[FERRYSPRIG_SALVAGE_ANSWER_ENTRIES] == entries && salvage_answer[FERRYSPRIG_SALVAGE_ANSWER_WRITTEN] == written
        && salvage_answer[FERRYSPRIG_SALVAGE_ANSWER_NUMBERS] == UNTOUCHED;
}

static void try_salvage(void) {
    enum { ALL = 2 * FERRYSPRIG_LEAST_BYTES + 3, ROWS = 95 * WIDTH, ENTRY = FERRYSPRIG_ENTRY_NUMBERS };
    memset(salvage_answer, 0xA5, sizeof salvage_answer);
    ferrysprig_salvage(NULL, 0, NULL, 0, NULL, 0, NULL, 0, salvage_answer);
    holds("the salvage of nothing at all", salvage_answer[0] == 0 && salvage_answer[1] == 0 && salvage_answer[2] == 0);
    salvage(0, ROWS, LIST, FRAMES);
    holds("an empty capture has no entry", salvaged(0, 0, 0));
    salvage(ALL, ROWS, LIST, FRAMES);
    holds("a frame, a gap and a frame", salvaged(0, 3, 256) && memcmp(out, &out[128], 128) == 0);
    salvage(128, ROWS, LIST, FRAMES);
    holds("a frame alone", salvaged(0, 1, 128));
    salvage(131, ROWS, LIST, FRAMES);
    holds("a gap at the end", salvaged(0, 2, 128));
    salvage(ALL, ROWS, 3 * ENTRY, 256);
    holds("rooms that just suffice", salvaged(0, 3, 256));
    salvage(ALL, ROWS - 1, LIST, FRAMES);
    holds("a number of room too few for the first frame", salvaged(37, 0, 0));
    salvage(131, ROWS, 2 * ENTRY - 1, FRAMES);
    holds("no entry for the last gap", salvaged(36, 1, 128));
    salvage(ALL, ROWS, ENTRY, FRAMES);
    holds("no entry for the gap before a frame", salvaged(36, 1, 128));
    salvage(ALL, ROWS, 3 * ENTRY - 1, FRAMES);
    holds("no entry for the frame behind it", salvaged(36, 2, 128));
    salvage(ALL, ROWS, 3 * ENTRY, 255);
    holds("a byte of output too few, the gap is entered", salvaged(35, 2, 128));
    salvage(ALL, ROWS, 0, 0);
    holds("neither entry nor output", salvaged(36, 0, 0));
    salvage(ALL, 0, 0, 0);
    holds("no room of any sort", salvaged(37, 0, 0));
    holds("entries that always suffice", FERRYSPRIG_MOST_ENTRIES(0) == 1 && FERRYSPRIG_MOST_ENTRIES(127) == 1
              && FERRYSPRIG_MOST_ENTRIES(128) == 3 && FERRYSPRIG_MOST_ENTRIES(258) == 5);
}

/* What an index is lent at most: one number more than three entries have. (One number more is not lent.) */
enum { INDEXED = FERRYSPRIG_INDEX_ENTRY_NUMBERS, INDEX = 3 * INDEXED + 1 };
static size_t lent_index[INDEX + 1];
static size_t index_answer[FERRYSPRIG_INDEX_ANSWER_NUMBERS + 1];

/* The index of the first bytes of a frame of dialnorm 1, three bytes, a frame of dialnorm 2, and one of dialnorm 3: extended, where entries
   are given, from the last of them. */
static const size_t indexed_frames[][INDEXED] = {{0, 128, 1, 1, 0}, {131, 128, 1, 2, 0}, {259, 128, 1, 3, 0}};

static void index_of(size_t length, size_t numbers, size_t index_numbers, size_t entries) {
    static const uint8_t front[] = {0x0B, 0x77, 0x00, 0x00, 0x00, 0x40, 0x20, 0x00, 0x0B, 0x00, 0x1F, 0x3E, 0x7C, 0xF9, 0xF3, 0xE2, 0x00,
        0x20};
    static uint8_t capture[3 * FERRYSPRIG_LEAST_BYTES + 3];
    for (int i = 0; i < 3; i++) {
        uint8_t *frame = &capture[indexed_frames[i][FERRYSPRIG_INDEX_ENTRY_PLACE]];
        memcpy(frame, front, sizeof front);
        /* dialnorm: bits 52 to 56, and the flag behind it is bit 57 */
        frame[6] = (uint8_t)(0x20 | (i + 1) >> 1);
        frame[7] = (uint8_t)(((i + 1) & 1) << 7);
    }
    for (size_t i = 0; i < sizeof lent_index / sizeof *lent_index; i++)
        lent_index[i] = UNTOUCHED;
    memcpy(lent_index, indexed_frames, (entries < 3 ? entries : 0) * sizeof *indexed_frames);
    for (size_t i = 0; i < sizeof index_answer / sizeof *index_answer; i++)
        index_answer[i] = UNTOUCHED;
    ferrysprig_index(capture, length, room, numbers, lent_index, index_numbers, entries, index_answer);
}

/* Whether the answer says so, and the index has these entries, the first of the frames, with nothing behind them touched. */
static bool indexed(size_t refusal, size_t entries) {
    size_t numbers = INDEXED * entries;
    bool same = memcmp(lent_index, indexed_frames, numbers * sizeof *lent_index) == 0;
    for (size_t i = numbers; i < sizeof lent_index / sizeof *lent_index; i++)
        same = same && lent_index[i] == UNTOUCHED;
    return same && index_answer[FERRYSPRIG_INDEX_ANSWER_REFUSAL] == refusal && index_answer[FERRYSPRIG_INDEX_ANSWER_ENTRIES] == entries
        && index_answer[FERRYSPRIG_INDEX_ANSWER_NUMBERS] == UNTOUCHED;
}

static void try_index(void) {
    enum { ALL = 3 * FERRYSPRIG_LEAST_BYTES + 3, ROWS = 95 * WIDTH };
    memset(index_answer, 0xA5, sizeof index_answer);
    ferrysprig_index(NULL, 0, NULL, 0, NULL, 0, 0, index_answer);
    holds("the index of nothing at all", index_answer[0] == 0 && index_answer[1] == 0);
    index_of(ALL, ROWS, INDEX, 0);
    holds("an index of three frames", indexed(0, 3));
    index_of(ALL - 1, ROWS, INDEX, 0);
    holds("a last frame that is not yet whole", indexed(0, 2));
    index_of(ALL, ROWS, INDEX, 2);
    holds("that index extended", indexed(0, 3));
    index_of(130, ROWS, INDEX, 0);
    holds("a frame and the beginning of a gap", indexed(0, 1));
    index_of(ALL, ROWS, 3 * INDEXED, 1);
    holds("rooms of an index that just suffice", indexed(0, 3));
    index_of(ALL, ROWS, 3 * INDEXED - 1, 1);
    holds("a number of the index too few", indexed(55, 1));
    index_of(ALL, ROWS - 1, INDEX, 0);
    holds("a number of room too few for the first place", indexed(37, 0));
    index_of(ALL, ROWS - 1, INDEX, 1);
    holds("and for the last entry", indexed(56, 1));
    index_of(127, ROWS, INDEX, 1);
    holds("a capture that is shorter than its index says", indexed(56, 1));
    index_of(ALL, ROWS, 2 * INDEXED - 1, 2);
    holds("more entries than the index has room for", index_answer[0] == 56 && index_answer[1] == 2);
    index_of(ALL, ROWS, INDEX, SIZE_MAX);
    holds("more entries than can be counted", index_answer[0] == 56 && index_answer[1] == SIZE_MAX && lent_index[0] == UNTOUCHED);
    holds("frames that always suffice", FERRYSPRIG_MOST_FRAMES(127) == 0 && FERRYSPRIG_MOST_FRAMES(128) == 1
              && FERRYSPRIG_MOST_FRAMES(256) == 2);
}

/* A frame within the profile, of 768 bytes with zeros behind these: words 384, bsid 8, acmod 2, dialnorm 1 (row 9, bit 54), 135 rows. The
   deltbaie of block b is row 62 + 14 b, at bit 224 + 15 b. */
static const uint8_t within[] = {0x0B, 0x77, 0x00, 0x00, 0x14, 0x40, 0x40, 0x20, 0x00, 0xA1, 0xE0, 0x00, 0x0F, 0x9F, 0x3E, 0x7C, 0xF9, 0xF0,
    0x0F, 0x9F, 0x3E, 0x7C, 0xF9, 0xF1, 0x00, 0x10};
static uint8_t contribution[900];
static int32_t profile_answer[FERRYSPRIG_PROFILE_ANSWER_NUMBERS + 1];

/* Puts a frame that begins so in front of zeros. */
static void contribute(const uint8_t *front, size_t length) {
    memset(contribution, 0, sizeof contribution);
    memcpy(contribution, front, length);
}

/* Whether the answer is this, nothing behind it is touched, and the room is as ferrysprig_parse leaves it. */
static bool profiled(size_t length, size_t place, size_t numbers, int32_t refusal, int32_t count, int32_t rule, int32_t row) {
    static int32_t parsed[sizeof room / sizeof *room];
    for (size_t i = 0; i < sizeof room / sizeof *room; i++)
        room[i] = parsed[i] = UNTOUCHED;
    for (size_t i = 0; i < sizeof profile_answer / sizeof *profile_answer; i++)
        profile_answer[i] = UNTOUCHED;
    ferrysprig_parse(contribution, length, place, parsed, numbers, answer);
    ferrysprig_profile(contribution, length, place, room, numbers, profile_answer);
    return memcmp(room, parsed, sizeof room) == 0 && profile_answer[FERRYSPRIG_PROFILE_ANSWER_REFUSAL] == refusal
        && profile_answer[FERRYSPRIG_PROFILE_ANSWER_ROWS] == count && profile_answer[FERRYSPRIG_PROFILE_ANSWER_RULE] == rule
        && profile_answer[FERRYSPRIG_PROFILE_ANSWER_ROW] == row && profile_answer[FERRYSPRIG_PROFILE_ANSWER_NUMBERS] == UNTOUCHED;
}

static void try_profile(void) {
    enum { ALL = sizeof contribution, ROWS = 200 * WIDTH, COUNT = 135 };
    const uint8_t mono[] = {0x0B, 0x77, 0x00, 0x00, 0x00, 0x40, 0x20, 0x00, 0x0B, 0x00, 0x1F, 0x3E, 0x7C, 0xF9, 0xF3, 0xE2, 0x00, 0x20};
    /* With deltbaie 1 in blocks 3 and 5 and dialnorm 0, too. */
    const uint8_t lfe[] = {0x0B, 0x77, 0x00, 0x00, 0x14, 0x40, 0x44, 0x00, 0x00, 0xA1, 0xF0, 0x00, 0x07, 0xCF, 0x9F, 0x3E, 0x7C, 0xF8,
        0x07, 0xCF, 0x9F, 0x3E, 0x7C, 0xF8, 0x07, 0xCF, 0xA0, 0x02, 0x00, 0x00, 0x00, 0x00, 0x00, 0x00, 0x00, 0x00, 0x00, 0x34, 0x00, 0x00,
        0x00, 0x03, 0x40};
    contribute(within, sizeof within);
    holds("a frame within the profile", profiled(ALL, 0, ROWS, 0, COUNT, 0, 0));
    holds("just enough of it, and of room", profiled(768, 0, COUNT * WIDTH, 0, COUNT, 0, 0));
    holds("a byte too few", profiled(767, 0, ROWS, 4, 4, 0, 0));
    holds("a number of room too few", profiled(ALL, 0, COUNT * WIDTH - 1, 7, COUNT - 1, 0, 0));
    holds("no sync word at the next byte", profiled(ALL, 1, ROWS, 2, 1, 0, 0));
    holds("a place far past the end of it", profiled(ALL, SIZE_MAX, ROWS, 1, 0, 0, 0));
    contribution[4] = 0x54; /* 834 bytes */
    holds("fscod 1", profiled(ALL, 0, ROWS, 0, COUNT, FERRYSPRIG_RULE_FSCOD, 2));
    contribution[4] = 0x13; /* 640 bytes */
    holds("words 320", profiled(ALL, 0, ROWS, 0, COUNT, FERRYSPRIG_RULE_WORDS, 3));
    contribution[5] = 0x38;
    holds("bsid 7 comes before them", profiled(ALL, 0, ROWS, 0, COUNT, FERRYSPRIG_RULE_BSID, 4));
    contribution[4] = 0x14;
    contribution[5] = 0x30;
    holds("bsid 6", profiled(ALL, 0, ROWS, 0, COUNT, 0, 0));
    contribution[7] = 0;
    holds("dialnorm 0", profiled(ALL, 0, ROWS, 0, COUNT, FERRYSPRIG_RULE_DIALNORM, 9));
    contribution[37] = 0x10; /* bit 299 */
    holds("deltbaie in block 5 comes before it", profiled(ALL, 0, ROWS, 0, COUNT + 2, FERRYSPRIG_RULE_DELTBAIE, 62 + 14 * 5));
    contribution[35] = 0x08; /* bit 284 */
    contribution[37] = 0x01; /* bit 303: block 4 has four bits more */
    holds("and in block 4 before that", profiled(ALL, 0, ROWS, 0, COUNT + 4, FERRYSPRIG_RULE_DELTBAIE, 62 + 14 * 4));
    holds("the row told is deltbaie's", room[(62 + 14 * 4) * WIDTH + FERRYSPRIG_ROW_NAME] == 97
              && room[(62 + 14 * 4) * WIDTH + FERRYSPRIG_ROW_BLOCK] == 4 && room[(62 + 14 * 4) * WIDTH + FERRYSPRIG_ROW_VALUE] == 1);
    contribute(lfe, sizeof lfe);
    holds("lfeon with acmod 2", profiled(ALL, 0, ROWS, 0, 150, FERRYSPRIG_RULE_LFEON, 8));
    contribute(mono, sizeof mono);
    holds("acmod 1", profiled(ALL, 0, ROWS, 0, 95, FERRYSPRIG_RULE_ACMOD, 6));
    memset(profile_answer, 0xA5, sizeof profile_answer);
    ferrysprig_profile(NULL, 0, 0, NULL, 0, profile_answer);
    holds("the profile of nothing at all", profile_answer[0] == 1 && profile_answer[1] == 0 && profile_answer[2] == 0 && profile_answer[3] == 0);
}

/* Whether a listing, packed or unpacked, is answered so in so many bytes of room, with nothing else touched. */
static bool listed(bool packs, const char *from, size_t length, size_t bytes, size_t refusal, const char *made, size_t written) {
    size_t told[FERRYSPRIG_PACK_ANSWER_NUMBERS + 1] = {UNTOUCHED, UNTOUCHED, UNTOUCHED};
    memset(out, 0xA5, sizeof out);
    if (packs)
        ferrysprig_pack((const uint8_t *)from, length, out, bytes, told);
    else
        ferrysprig_unpack((const uint8_t *)from, length, out, bytes, told);
    bool same = written == 0 || memcmp(out, made, written) == 0;
    for (size_t i = written; i < sizeof out; i++)
        same = same && out[i] == 0xA5;
    return same && told[FERRYSPRIG_PACK_ANSWER_REFUSAL] == refusal && told[FERRYSPRIG_PACK_ANSWER_WRITTEN] == written
        && told[FERRYSPRIG_PACK_ANSWER_NUMBERS] == UNTOUCHED;
}

/* Whether a text, and a packed form of so many bytes, are refused so, however much room there is. */
static bool unlisted(const char *text, size_t refusal) {
    return listed(true, text, strlen(text), sizeof out, refusal, "", 0) && listed(true, text, strlen(text), 0, refusal, "", 0);
}

static bool unpackable(const char *packed, size_t length, size_t refusal) {
    return listed(false, packed, length, sizeof out, refusal, "", 0) && listed(false, packed, length, 0, refusal, "", 0);
}

static void try_listings(void) {
    static const char text[] = "-1 0 1 126 127 128 16383 2147483646 2147483647\nrefused 7 1 16 0 -1\n";
    static const char packed[] = "\x02\x00\x01\x02\x7F\x80\x01\x81\x01\x80\x80\x01\xFF\xFF\xFF\xFF\x07\x80\x80\x80\x80\x08"
                                 "\x02\x08\x02\x11\x01\x00";
    enum { TEXT = sizeof text - 1, PACKED = sizeof packed - 1 };
    size_t told[FERRYSPRIG_PACK_ANSWER_NUMBERS] = {UNTOUCHED, UNTOUCHED};
    ferrysprig_pack(NULL, 0, NULL, 0, told);
    holds("a listing of nothing at all", told[0] == 43 && told[1] == 0);
    told[0] = told[1] = UNTOUCHED;
    ferrysprig_unpack(NULL, 0, NULL, 0, told);
    holds("a packed listing of nothing at all", told[0] == 43 && told[1] == 0);
    holds("a listing is packed", listed(true, text, TEXT, sizeof out, 0, packed, PACKED)
              && listed(true, text, TEXT, PACKED, 0, packed, PACKED));
    holds("and unpacked", listed(false, packed, PACKED, sizeof out, 0, text, TEXT) && listed(false, packed, PACKED, TEXT, 0, text, TEXT));
    holds("a byte of output too few for a listing", listed(true, text, TEXT, PACKED - 1, 45, "", 0)
              && listed(false, packed, PACKED, TEXT - 1, 45, "", 0));
    bool beginnings = true;
    for (size_t i = 0; i < TEXT; i++)
        beginnings = beginnings && listed(true, text, i, sizeof out, 43, "", 0);
    for (size_t i = 0; i < PACKED; i++)
        beginnings = beginnings && listed(false, packed, i, sizeof out, 43, "", 0);
    holds("every beginning of it", beginnings);
    holds("malformed lines", unlisted("audio 1 2 -0\n", 40) && unlisted("audio 1 2 03\n", 40) && unlisted("audio 1 2 +3\n", 40)
              && unlisted("audio 1  2 3\n", 40) && unlisted("refused 1 2 3\n", 40) && unlisted("1 2 3 4 5 6 7 8\n", 40)
              && unlisted("\n", 40));
    holds("numbers too large in a text", unlisted("audio 2147483648", 42) && unlisted("audio 99999999999999999999 x", 42));
    holds("text left over", unlisted("audio 1 2 3\n\n", 44));
    holds("needless groups", unpackable("\x80\x00", 2, 41) && unpackable("\x01\x01\xFF\x00", 4, 41)
              && unpackable("\x80\x80\x80\x80\x80\x80\x00", 7, 41));
    holds("numbers too large when packed", unpackable("\x81\x80\x80\x80\x08", 5, 42) && unpackable("\x80\x80\x80\x80\x80\x01", 6, 42));
    holds("wrong row counts and words", unpackable("\x00", 1, 46) && unpackable("\x01\x00", 2, 46) && unpackable("\x01\x03", 2, 46));
    holds("bytes left over", unpackable("\x01\x01\x01\x01\x01\x00", 6, 44));
}

static void try_texts(void) {
    static const char *const names[] = FERRYSPRIG_NAMES;
    static const char *const roles[] = FERRYSPRIG_ROLES;
    static const char *const meanings[] = FERRYSPRIG_MEANINGS;
    size_t last = sizeof names / sizeof *names - 1;
    holds("the first and the last name", strcmp(names[1], "syncword") == 0 && strcmp(names[last], "mantissas") == 0);
    holds("roles by their numbers", strcmp(roles[FERRYSPRIG_ROLE_FRAME_SIZE], "FrameSize") == 0
              && strcmp(roles[FERRYSPRIG_ROLE_MANTISSAS], "Mantissas") == 0);
    holds("meanings by their numbers", strcmp(meanings[0], "accepted") == 0 && strcmp(meanings[5], "bsid is above 8") == 0
              && strcmp(meanings[23], "block 0 has snroffste 0") == 0
              && strcmp(meanings[24], "the header answer does not fit the input") == 0 && strcmp(meanings[33], "a byte after the frame is not 0") == 0
              && strcmp(meanings[26], "a hebap is above 19") == 0 && strcmp(meanings[36], "no entry of the list is left") == 0
              && strcmp(meanings[40], "a line is malformed") == 0 && strcmp(meanings[45], "the output is too short for the listing") == 0
              && strcmp(meanings[51], "the level is not 1 to 31") == 0
              && strcmp(meanings[55], "the index has no room for a frame") == 0
              && strcmp(meanings[57], "the width is not 1 to 16") == 0);
    static const char *const rules[] = FERRYSPRIG_RULES;
    holds("rules by their numbers", sizeof rules / sizeof *rules == 8 && strcmp(rules[0], "within the profile") == 0
              && strcmp(rules[FERRYSPRIG_RULE_WORDS], "the frame has fewer than 384 words") == 0
              && strcmp(rules[FERRYSPRIG_RULE_DIALNORM], "dialnorm is 0") == 0);
    bool empty = meanings[29][0] == '\0' && meanings[38][0] == '\0' && meanings[39][0] == '\0';
    for (int i = 47; i < 55; i++)
        empty = empty && (meanings[i][0] == '\0') == (i < 50 || i > 52);
    holds("no meanings where there is no refusal", empty);
}

/* A stack for calls alone: what they used of it is no longer as it was. */
static uint8_t stack[4 * FERRYSPRIG_STACK_BYTES];
static uint8_t stream[65536];
static size_t stream_len;
static ucontext_t here, there;

/* What is called: the header of each frame of a stream and then its blocks; another level, the profile and the parse of each; each frame
   written as a burst and read; the stream salvaged, and its index made. (The deepest comes first: what binding takes is taken once.) And its
   bytes are walked over as if they were AHT sections, and a listing is packed and unpacked. */
static enum { APART, PARSES, BURSTS, SALVAGE, WAYS } way;

static void call(void) {
    static const uint8_t hebap[] = {8, 9, 1, 10, 11, 0, 12, 13, 7, 14, 15, 16, 17, 18, 19};
    static size_t section[FERRYSPRIG_AHT_ANSWER_NUMBERS];
    for (size_t at = 0; at < 100; at++)
        ferrysprig_aht(stream, stream_len, at, 8 * stream_len, hebap, sizeof hebap, 0, sizeof hebap, section);
    static const char text[] = "1 -1 2147483647 4 5 6 7 8 9\nrefused 7 1 16 0 -1\n";
    static uint8_t packed[sizeof text], unpacked[sizeof text];
    static size_t listing[FERRYSPRIG_PACK_ANSWER_NUMBERS];
    ferrysprig_pack((const uint8_t *)text, sizeof text - 1, packed, sizeof packed, listing);
    ferrysprig_unpack(packed, listing[FERRYSPRIG_PACK_ANSWER_WRITTEN], unpacked, sizeof unpacked, listing);
    static uint8_t back[FERRYSPRIG_MOST_BYTES];
    int32_t header[FERRYSPRIG_HEADER_ANSWER_NUMBERS];
    size_t place = 0, numbers = sizeof room / sizeof *room;
    if (way == SALVAGE) {
        static uint8_t frames[sizeof stream];
        static size_t entries[FERRYSPRIG_ENTRY_NUMBERS * FERRYSPRIG_MOST_ENTRIES(sizeof stream)];
        ferrysprig_salvage(stream, stream_len, room, numbers, entries, sizeof entries / sizeof *entries, frames, sizeof frames,
                           salvage_answer);
        static size_t index[FERRYSPRIG_INDEX_ENTRY_NUMBERS * FERRYSPRIG_MOST_FRAMES(sizeof stream)];
        ferrysprig_index(stream, stream_len, room, numbers, index, sizeof index / sizeof *index, 0, index_answer);
        return;
    }
    do {
        if (way == APART) {
            ferrysprig_header(stream, stream_len, place, room, numbers, header);
            ferrysprig_blocks(stream, stream_len, place, room, numbers, header, answer);
            place += (size_t)answer[FERRYSPRIG_ANSWER_BYTES];
        } else if (way == BURSTS) {
            ferrysprig_burst_write(stream, stream_len, place, room, numbers, out, sizeof out, answer);
            if (answer[FERRYSPRIG_BURST_ANSWER_REFUSAL] == 0)
                ferrysprig_burst_read(out, FERRYSPRIG_BURST_BYTES, room, numbers, back, sizeof back, answer);
            place += (size_t)answer[FERRYSPRIG_BURST_ANSWER_WRITTEN];
        } else {
            ferrysprig_correct(stream, stream_len, place, 1, 1 + place % 31, room, numbers, level_changes, level_answer);
            ferrysprig_profile(stream, stream_len, place, room, numbers, profile_answer);
            ferrysprig_parse(stream, stream_len, place, room, numbers, answer);
            place += (size_t)answer[FERRYSPRIG_ANSWER_BYTES];
        }
    } while (answer[FERRYSPRIG_ANSWER_REFUSAL] == 0);
}

static size_t stack_used(void) {
    memset(stack, 0xA5, sizeof stack);
    getcontext(&there);
    there.uc_stack.ss_sp = stack;
    there.uc_stack.ss_size = sizeof stack;
    there.uc_link = &here;
    makecontext(&there, call, 0);
    swapcontext(&here, &there);
    size_t unused = 0;
    while (unused < sizeof stack && stack[unused] == 0xA5)
        unused++;
    return sizeof stack - unused;
}

static void try_stack(int files, char **names) {
    size_t most = 0;
    bool all_read = files > 0;
    for (int i = 0; i < files; i++) {
        FILE *in = fopen(names[i], "rb");
        stream_len = in ? fread(stream, 1, sizeof stream, in) : 0;
        all_read = all_read && stream_len > 0;
        if (in)
            fclose(in);
        for (way = APART; way < WAYS; way++) {
            size_t used = stack_used();
            most = used > most ? used : most;
        }
    }
    holds("frames were read", all_read);
    printf("%zu bytes of stack were used\n", most);
    holds("the stack is enough, and less than twice what is needed", most <= FERRYSPRIG_STACK_BYTES && 2 * most > FERRYSPRIG_STACK_BYTES);
}

int main(int argc, char **argv) {
    try_calls();
    try_frames();
    try_apart();
    try_range_eq();
    try_edits();
    try_levels();
    try_aht();
    try_bursts();
    try_salvage();
    try_index();
    try_profile();
    try_listings();
    try_texts();
    try_stack(argc - 1, argv + 1);
    return all_hold ? 0 : 1;
}
