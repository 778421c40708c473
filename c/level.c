/* level IN OUT PROGRAMME LEVEL: writes a dialogue level (1 to 31) of a programme, counted from 1, into every frame of an .ac3 file,
   mends the checksums, writes the whole to a new file and prints what changed in each frame. The exit status is 0 if every byte of the
   file belonged to a frame that was corrected, 1 if not, and then no file is made; 2 if the program was called wrongly, could not read
   or could not write. */
#include "files.h"

#include "ferrysprig.h"
#include <stdlib.h>
#include <string.h>

enum { DONE = 0, REFUSED = 1, TROUBLE = 2 };

static const char *const names[] = FERRYSPRIG_NAMES;
static const char *const meanings[] = FERRYSPRIG_MEANINGS;

static int said(const char *what, const char *why, int status) {
    fflush(stdout); /* what was corrected before is said first */
    fprintf(stderr, "level: %s: %s\n", what, why);
    return status;
}

/* A number of digits alone. */
static bool number(const char *text, size_t *value) {
    char *end;
    errno = 0;
    *value = strtoul(text, &end, 10);
    return text[0] >= '0' && text[0] <= '9' && *end == '\0' && errno == 0;
}

static const char *name_of(int32_t name) {
    return name == FERRYSPRIG_NAME_CRCRSV ? "crcrsv" : name == FERRYSPRIG_NAME_CRC2 ? "crc2" : names[name];
}

/* The changes of a frame in a line. */
static void print(size_t place, const int32_t *changes, int32_t count) {
    printf("frame at byte %zu:%s", place, count == 0 ? " no change" : "");
    for (int32_t i = 0; i < count; i++) {
        const int32_t *change = &changes[FERRYSPRIG_CHANGE_NUMBERS * i];
        const char *name = name_of(change[FERRYSPRIG_CHANGE_NAME]);
        bool checksum = strcmp(name, "crc1") == 0 || strcmp(name, "crc2") == 0;
        printf(checksum ? "%s %s 0x%04x -> 0x%04x" : "%s %s %u -> %u", i == 0 ? "" : ",", name, (unsigned)change[FERRYSPRIG_CHANGE_OLD],
               (unsigned)change[FERRYSPRIG_CHANGE_NEW]);
    }
    printf("\n");
}

int main(int argc, char **argv) {
    static int32_t rows[FERRYSPRIG_MOST_ROWS * FERRYSPRIG_ROW_NUMBERS];
    const size_t room = sizeof rows / sizeof *rows;
    int32_t changes[FERRYSPRIG_MOST_CHANGES * FERRYSPRIG_CHANGE_NUMBERS];
    int32_t answer[FERRYSPRIG_LEVEL_ANSWER_NUMBERS], header[FERRYSPRIG_HEADER_ANSWER_NUMBERS];
    size_t programme, level;

    if (argc != 5 || !number(argv[3], &programme) || !number(argv[4], &level)) {
        fprintf(stderr, "usage: level IN OUT PROGRAMME LEVEL\n");
        return TROUBLE;
    }
    size_t length;
    uint8_t *capture = read_whole(argv[1], &length);
    if (!capture)
        return said(argv[1], strerror(errno), TROUBLE);
    if (length == 0)
        return said(argv[1], "the file is empty", REFUSED);

    for (size_t place = 0; place < length; place += (size_t)header[FERRYSPRIG_HEADER_ANSWER_BYTES]) {
        ferrysprig_correct(capture, length, place, programme, level, rows, room, changes, answer);
        int32_t refusal = answer[FERRYSPRIG_LEVEL_ANSWER_REFUSAL];
        if (refusal != 0) {
            char where[200];
            snprintf(where, sizeof where, "at byte %zu of %zu: refusal %d: %s", place, length, (int)refusal, meanings[refusal]);
            return said(argv[1], where, REFUSED);
        }
        print(place, changes, answer[FERRYSPRIG_LEVEL_ANSWER_CHANGES]);
        ferrysprig_header(capture, length, place, rows, room, header); /* the header alone tells how long the frame is */
    }

    FILE *out = make_new(argv[2]);
    if (!out || fwrite(capture, 1, length, out) != length || fclose(out) != 0)
        return said(argv[2], strerror(errno), TROUBLE);
    if (fflush(stdout) != 0 || ferror(stdout))
        return said("standard output", strerror(errno), TROUBLE);
    return DONE;
}
