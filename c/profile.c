/* profile FILE: holds the frames of an .ac3 file against the contribution profile, and prints for each that it is within, or which rule it
   breaks first, by which field. The exit status is 0 if every byte of the file belonged to a frame within the profile, 1 if not, 2 if the
   program was called wrongly, could not read or could not print. */
#include "files.h"

#include "ferrysprig.h"
#include <inttypes.h>
#include <string.h>

enum { WITHIN = 0, NOT_WITHIN = 1, TROUBLE = 2 };

static const char *const names[] = FERRYSPRIG_NAMES;
static const char *const meanings[] = FERRYSPRIG_MEANINGS;
static const char *const rules[] = FERRYSPRIG_RULES;

static int said(const char *what, const char *why, int status) {
    fflush(stdout); /* what was found before is said first */
    fprintf(stderr, "profile: %s: %s\n", what, why);
    return status;
}

/* What the profile says of a frame, in a line. */
static void print(size_t place, const int32_t *answer, const int32_t *rows) {
    int32_t rule = answer[FERRYSPRIG_PROFILE_ANSWER_RULE], row = answer[FERRYSPRIG_PROFILE_ANSWER_ROW];
    const int32_t *field = &rows[row * FERRYSPRIG_ROW_NUMBERS];
    if (rule == 0)
        printf("frame at byte %zu: %s\n", place, rules[rule]);
    else
        printf("frame at byte %zu: rule %" PRId32 " is broken by row %" PRId32 ": %s (%s %" PRId32 " at bit %" PRId32 ")\n", place, rule,
               row, rules[rule], names[field[FERRYSPRIG_ROW_NAME]], field[FERRYSPRIG_ROW_VALUE], field[FERRYSPRIG_ROW_POSITION]);
}

int main(int argc, char **argv) {
    static int32_t rows[FERRYSPRIG_MOST_ROWS * FERRYSPRIG_ROW_NUMBERS];
    const size_t room = sizeof rows / sizeof *rows;
    int32_t answer[FERRYSPRIG_PROFILE_ANSWER_NUMBERS], header[FERRYSPRIG_HEADER_ANSWER_NUMBERS];

    if (argc != 2) {
        fprintf(stderr, "usage: profile FILE\n");
        return TROUBLE;
    }
    size_t length;
    const uint8_t *capture = read_whole(argv[1], &length);
    if (!capture)
        return said(argv[1], strerror(errno), TROUBLE);
    if (length == 0)
        return said(argv[1], "the file is empty", NOT_WITHIN);

    bool all_within = true;
    for (size_t place = 0; place < length; place += (size_t)header[FERRYSPRIG_HEADER_ANSWER_BYTES]) {
        ferrysprig_profile(capture, length, place, rows, room, answer);
        int32_t refusal = answer[FERRYSPRIG_PROFILE_ANSWER_REFUSAL];
        if (refusal != 0) {
            char where[200];
            snprintf(where, sizeof where, "no frame at byte %zu of %zu: refusal %" PRId32 ": %s", place, length, refusal,
                     meanings[refusal]);
            return said(argv[1], where, NOT_WITHIN);
        }
        print(place, answer, rows);
        all_within = all_within && answer[FERRYSPRIG_PROFILE_ANSWER_RULE] == 0;
        ferrysprig_header(capture, length, place, rows, room, header); /* the header alone tells how long the frame is */
    }
    if (fflush(stdout) != 0 || ferror(stdout))
        return said("standard output", strerror(errno), TROUBLE);
    return all_within ? WITHIN : NOT_WITHIN;
}
