/* set_field IN OUT NAME VALUE: writes a value into every field of a name in an .ac3 file, mends the checksums, writes the whole to a new
   file and prints how many fields were set. The name is one of those whose values never steer the rest of a frame (docs/NAMES.md), so
   nothing else moves. The exit status is 0 if every byte of the file belonged to a frame, and a field was written; 1 if not, and then no
   file is made; 2 if the program was called wrongly, could not read or could not write. */
#include "files.h"

#include "ferrysprig.h"
#include <inttypes.h>
#include <stdlib.h>
#include <string.h>

enum { DONE = 0, REFUSED = 1, TROUBLE = 2 };

static const char *const names[] = FERRYSPRIG_NAMES;
static const char *const meanings[] = FERRYSPRIG_MEANINGS;

static int32_t rows[FERRYSPRIG_MOST_ROWS * FERRYSPRIG_ROW_NUMBERS];
static const size_t room = sizeof rows / sizeof *rows;

static int said(const char *what, const char *why, int status) {
    fprintf(stderr, "set_field: %s: %s\n", what, why);
    return status;
}

/* A number of digits alone. */
static bool number(const char *text, size_t *value) {
    char *end;
    errno = 0;
    *value = strtoul(text, &end, 10);
    return text[0] >= '0' && text[0] <= '9' && *end == '\0' && errno == 0;
}

/* The number of a name whose values may be set, or 0. (crc1 follows from the rest, and is mended.) */
static size_t settable(const char *text) {
    for (size_t name = sizeof names / sizeof *names - 1; name > 0; name--)
        if (strcmp(names[name], text) == 0)
            return ferrysprig_editable(name) && strcmp(text, "crc1") != 0 ? name : 0;
    return 0;
}

/* Sets the fields of a frame, and tells how many they were and how long the frame is; the refusal, 0 for none. */
static int32_t set(uint8_t *capture, size_t length, size_t place, size_t name, size_t value, size_t *fields, size_t *bytes) {
    int32_t answer[FERRYSPRIG_ANSWER_NUMBERS], mended[FERRYSPRIG_LEVEL_ANSWER_NUMBERS];
    int32_t changes[FERRYSPRIG_MOST_CHANGES * FERRYSPRIG_CHANGE_NUMBERS];
    size_t level = 0;

    ferrysprig_parse(capture, length, place, rows, room, answer);
    if (answer[FERRYSPRIG_ANSWER_REFUSAL] != 0)
        return answer[FERRYSPRIG_ANSWER_REFUSAL];
    *bytes = (size_t)answer[FERRYSPRIG_ANSWER_BYTES];
    *fields = 0;
    for (int32_t i = 0; i < answer[FERRYSPRIG_ANSWER_ROWS]; i++) {
        int32_t *row = &rows[i * FERRYSPRIG_ROW_NUMBERS];
        if ((size_t)row[FERRYSPRIG_ROW_NAME] == name) {
            uint8_t refusal = ferrysprig_set(capture, length, place, (size_t)row[FERRYSPRIG_ROW_POSITION],
                                             (size_t)row[FERRYSPRIG_ROW_WIDTH], value);
            if (refusal != 0)
                return refusal;
            row[FERRYSPRIG_ROW_VALUE] = (int32_t)value; /* it fitted the width */
            ++*fields;
        }
        if (row[FERRYSPRIG_ROW_ROLE] == FERRYSPRIG_ROLE_DIALNORM && row[FERRYSPRIG_ROW_PROGRAMME] == 0)
            level = (size_t)row[FERRYSPRIG_ROW_VALUE];
    }
    /* To correct the level to what it is mends the checksums, and changes nothing else. */
    ferrysprig_correct(capture, length, place, 1, level, rows, room, changes, mended);
    return mended[FERRYSPRIG_LEVEL_ANSWER_REFUSAL];
}

int main(int argc, char **argv) {
    size_t value, length, fields, bytes, frames = 0, all = 0;

    if (argc != 5 || !number(argv[4], &value)) {
        fprintf(stderr, "usage: set_field IN OUT NAME VALUE\n");
        return TROUBLE;
    }
    size_t name = settable(argv[3]);
    if (name == 0)
        return said(argv[3], "this is no name of a field that may be set", TROUBLE);
    uint8_t *capture = read_whole(argv[1], &length);
    if (!capture)
        return said(argv[1], strerror(errno), TROUBLE);

    for (size_t place = 0; place < length; place += bytes, frames++) {
        int32_t refusal = set(capture, length, place, name, value, &fields, &bytes);
        if (refusal != 0) {
            char where[200];
            snprintf(where, sizeof where, "at byte %zu of %zu: refusal %" PRId32 ": %s", place, length, refusal, meanings[refusal]);
            return said(argv[1], where, REFUSED);
        }
        all += fields;
    }
    if (all == 0)
        return said(argv[1], "no frame has this field", REFUSED);

    FILE *out = make_new(argv[2]);
    if (!out || fwrite(capture, 1, length, out) != length || fclose(out) != 0)
        return said(argv[2], strerror(errno), TROUBLE);
    printf("frames: %zu; fields set: %zu\n", frames, all);
    if (fflush(stdout) != 0)
        return said("standard output", strerror(errno), TROUBLE);
    return DONE;
}
