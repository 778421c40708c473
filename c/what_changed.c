/* what_changed OLD NEW: holds an edited .ac3 file against the one that it was made of, frame by frame, and prints which fields have other
   values and which spans, as the mantissas and what comes after the audio, have other bits. The exit status is 0 if all is the same, 1 if
   something changed, 2 if the program was called wrongly, could not read or could not print, if the files are not of one length or have
   bytes that are no frame. */
#include "files.h"

#include "ferrysprig.h"
#include <inttypes.h>
#include <string.h>

enum { SAME = 0, CHANGED = 1, TROUBLE = 2 };

/* A file, and the frame of it that is looked at. */
struct side {
    const char *name;
    const uint8_t *capture;
    size_t length;
    int32_t rows[FERRYSPRIG_MOST_ROWS * FERRYSPRIG_ROW_NUMBERS];
    int32_t answer[FERRYSPRIG_ANSWER_NUMBERS];
};

static const char *const names[] = FERRYSPRIG_NAMES;
static const char *const meanings[] = FERRYSPRIG_MEANINGS;

static int trouble(const char *what, const char *why) {
    fflush(stdout); /* what was found before is said first */
    fprintf(stderr, "what_changed: %s: %s\n", what, why);
    return TROUBLE;
}

static bool parsed(struct side *side, size_t place) {
    ferrysprig_parse(side->capture, side->length, place, side->rows, sizeof side->rows / sizeof *side->rows, side->answer);
    int32_t refusal = side->answer[FERRYSPRIG_ANSWER_REFUSAL];
    if (refusal != 0) {
        char where[200];
        snprintf(where, sizeof where, "no frame at byte %zu of %zu: refusal %" PRId32 ": %s", place, side->length, refusal,
                 meanings[refusal]);
        trouble(side->name, where);
    }
    return refusal == 0;
}

/* Whether two rows are one field, whatever its value. */
static bool one_field(const int32_t *old_row, const int32_t *new_row) {
    for (int i = 0; i < FERRYSPRIG_ROW_NUMBERS; i++)
        if (i != FERRYSPRIG_ROW_VALUE && old_row[i] != new_row[i])
            return false;
    return true;
}

/* Whether two frames have the same fields, whatever their values, and so one length. */
static bool one_layout(const struct side *old_side, const struct side *new_side) {
    const int32_t rows = old_side->answer[FERRYSPRIG_ANSWER_ROWS];
    bool same = new_side->answer[FERRYSPRIG_ANSWER_ROWS] == rows
        && new_side->answer[FERRYSPRIG_ANSWER_BYTES] == old_side->answer[FERRYSPRIG_ANSWER_BYTES];
    for (int32_t i = 0; same && i < rows * FERRYSPRIG_ROW_NUMBERS; i += FERRYSPRIG_ROW_NUMBERS)
        same = one_field(&old_side->rows[i], &new_side->rows[i]);
    return same;
}

/* Whether some bits of the frames are the same. */
static bool same_bits(const struct side *old_side, const struct side *new_side, size_t place, int32_t position, int32_t width) {
    size_t first = 8 * place + (size_t)position;
    return ferrysprig_range_eq(old_side->capture, old_side->length, first, new_side->capture, new_side->length, first, (size_t)width);
}

/* The begin of a line, or what parts two changes of a line. */
static void begin(size_t place, bool *begun) {
    if (*begun)
        printf(", ");
    else
        printf("frame at byte %zu: ", place);
    *begun = true;
}

/* Prints what changed in a frame, in a line. Whether anything did. */
static bool changed(const struct side *old_side, const struct side *new_side, size_t place) {
    bool begun = false;
    for (int32_t i = 0; i < old_side->answer[FERRYSPRIG_ANSWER_ROWS]; i++) {
        const int32_t *row = &old_side->rows[FERRYSPRIG_ROW_NUMBERS * i];
        int32_t old_value = row[FERRYSPRIG_ROW_VALUE], new_value = new_side->rows[FERRYSPRIG_ROW_NUMBERS * i + FERRYSPRIG_ROW_VALUE];
        if (same_bits(old_side, new_side, place, row[FERRYSPRIG_ROW_POSITION], row[FERRYSPRIG_ROW_WIDTH]))
            continue;
        begin(place, &begun);
        if (row[FERRYSPRIG_ROW_BLOCK] >= 0)
            printf("block %" PRId32 " ", row[FERRYSPRIG_ROW_BLOCK]);
        printf("%s", names[row[FERRYSPRIG_ROW_NAME]]);
        if (old_value == new_value)
            printf(": other bits"); /* a span, which has no value */
        else
            printf(row[FERRYSPRIG_ROW_ROLE] == FERRYSPRIG_ROLE_CRC1 ? " 0x%04x -> 0x%04x" : " %u -> %u", (unsigned)old_value,
                   (unsigned)new_value);
    }
    int32_t end = old_side->answer[FERRYSPRIG_ANSWER_AUDIO_END];
    if (!same_bits(old_side, new_side, place, end, 8 * old_side->answer[FERRYSPRIG_ANSWER_BYTES] - end)) {
        begin(place, &begun);
        printf("after the audio: other bits");
    }
    if (begun)
        printf("\n");
    return begun;
}

int main(int argc, char **argv) {
    static struct side sides[2];
    struct side *old_side = &sides[0], *new_side = &sides[1];

    if (argc != 3) {
        fprintf(stderr, "usage: what_changed OLD NEW\n");
        return TROUBLE;
    }
    for (int i = 0; i < 2; i++) {
        sides[i].name = argv[i + 1];
        sides[i].capture = read_whole(sides[i].name, &sides[i].length);
        if (!sides[i].capture)
            return trouble(sides[i].name, strerror(errno));
    }

    if (old_side->length != new_side->length)
        return trouble(new_side->name, "it is not as long as the old file");

    bool any = false;
    for (size_t place = 0; place < old_side->length; place += (size_t)old_side->answer[FERRYSPRIG_ANSWER_BYTES]) {
        if (!parsed(old_side, place) || !parsed(new_side, place))
            return TROUBLE;
        if (!one_layout(old_side, new_side)) {
            printf("frame at byte %zu: its fields are others, and what follows is not compared\n", place);
            any = true;
            break;
        }
        any = changed(old_side, new_side, place) || any;
    }
    if (fflush(stdout) != 0 || ferror(stdout))
        return trouble("standard output", strerror(errno));
    return any ? CHANGED : SAME;
}
