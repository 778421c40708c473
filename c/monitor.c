/* monitor FILE: watches the dialogue level of an .ac3 file. Each frame's header is read alone, which costs a small part of a parse; only
   where the level is not that of the frame before are the blocks read, too, and the frame's gain words printed with its level. The exit
   status is 0 if every byte of the file belonged to a frame, 1 if not, 2 if the program was called wrongly, could not read or could not
   print. */
#include "files.h"

#include "ferrysprig.h"
#include <inttypes.h>
#include <string.h>

enum { DONE = 0, REFUSED = 1, TROUBLE = 2 };

/* The levels of a frame's two programmes. */
enum { PROGRAMMES = 2, NO_LEVEL = -1 };

static const char *const names[] = FERRYSPRIG_NAMES;
static const char *const meanings[] = FERRYSPRIG_MEANINGS;

static int said(const char *what, const char *why, int status) {
    fflush(stdout); /* what was found before is said first */
    fprintf(stderr, "monitor: %s: %s\n", what, why);
    return status;
}

/* A refusal of the header or of the blocks, and at refusal 6 what did not fit. (That is never in the header, which always fits.) */
static int refused(const char *name, size_t place, size_t length, int32_t refusal, int32_t bit, int32_t unfit, int32_t block) {
    char what[50] = "", where[250];
    if (unfit != 0)
        snprintf(what, sizeof what, " (%s in block %" PRId32 ")", names[unfit], block);
    snprintf(where, sizeof where, "no frame at byte %zu of %zu: refusal %" PRId32 " at bit %" PRId32 ": %s%s", place, length, refusal, bit,
             meanings[refusal], what);
    return said(name, where, REFUSED);
}

/* The levels that a header's rows tell. */
static void read_levels(const int32_t *rows, int32_t count, int32_t levels[PROGRAMMES]) {
    levels[0] = levels[1] = NO_LEVEL;
    for (const int32_t *row = rows; row < rows + count * FERRYSPRIG_ROW_NUMBERS; row += FERRYSPRIG_ROW_NUMBERS)
        if (row[FERRYSPRIG_ROW_ROLE] == FERRYSPRIG_ROLE_DIALNORM)
            levels[row[FERRYSPRIG_ROW_PROGRAMME]] = row[FERRYSPRIG_ROW_VALUE];
}

/* The gain words of a frame, a line each. */
static void print_gains(const int32_t *rows, int32_t count) {
    for (const int32_t *row = rows; row < rows + count * FERRYSPRIG_ROW_NUMBERS; row += FERRYSPRIG_ROW_NUMBERS) {
        int32_t role = row[FERRYSPRIG_ROW_ROLE];
        if (role != FERRYSPRIG_ROLE_COMPR && role != FERRYSPRIG_ROLE_DYNRNG)
            continue;
        printf("  bit %" PRId32 ", width %" PRId32 ": ", row[FERRYSPRIG_ROW_POSITION], row[FERRYSPRIG_ROW_WIDTH]);
        if (role == FERRYSPRIG_ROLE_DYNRNG)
            printf("block %" PRId32 ", ", row[FERRYSPRIG_ROW_BLOCK]);
        printf("%s 0x%02x\n", names[row[FERRYSPRIG_ROW_NAME]], (unsigned)row[FERRYSPRIG_ROW_VALUE]);
    }
}

int main(int argc, char **argv) {
    static int32_t rows[FERRYSPRIG_MOST_ROWS * FERRYSPRIG_ROW_NUMBERS];
    const size_t room = sizeof rows / sizeof *rows;
    int32_t header[FERRYSPRIG_HEADER_ANSWER_NUMBERS], answer[FERRYSPRIG_ANSWER_NUMBERS];

    if (argc != 2) {
        fprintf(stderr, "usage: monitor FILE\n");
        return TROUBLE;
    }
    size_t length;
    const uint8_t *capture = read_whole(argv[1], &length);
    if (!capture)
        return said(argv[1], strerror(errno), TROUBLE);
    if (length == 0)
        return said(argv[1], "the file is empty", REFUSED);

    int32_t levels[PROGRAMMES], before[PROGRAMMES] = {NO_LEVEL, NO_LEVEL};
    size_t frames = 0, parsed = 0;
    for (size_t place = 0; place < length; place += (size_t)header[FERRYSPRIG_HEADER_ANSWER_BYTES], frames++) {
        ferrysprig_header(capture, length, place, rows, room, header);
        if (header[FERRYSPRIG_HEADER_ANSWER_REFUSAL] != 0)
            return refused(argv[1], place, length, header[FERRYSPRIG_HEADER_ANSWER_REFUSAL], header[FERRYSPRIG_HEADER_ANSWER_BIT],
                           header[FERRYSPRIG_HEADER_ANSWER_NAME], header[FERRYSPRIG_HEADER_ANSWER_BLOCK]);
        read_levels(rows, header[FERRYSPRIG_HEADER_ANSWER_ROWS], levels);
        if (memcmp(levels, before, sizeof levels) == 0)
            continue;
        memcpy(before, levels, sizeof levels);

        /* Were the capture written to in the meantime, so that the header is another one, this would give refusal 24. */
        ferrysprig_blocks(capture, length, place, rows, room, header, answer);
        if (answer[FERRYSPRIG_ANSWER_REFUSAL] != 0)
            return refused(argv[1], place, length, answer[FERRYSPRIG_ANSWER_REFUSAL], answer[FERRYSPRIG_ANSWER_BIT],
                           answer[FERRYSPRIG_ANSWER_NAME], answer[FERRYSPRIG_ANSWER_BLOCK]);
        parsed++;
        printf("frame at byte %zu: dialnorm %" PRId32, place, levels[0]);
        if (levels[1] != NO_LEVEL)
            printf(", dialnorm2 %" PRId32, levels[1]);
        printf("\n");
        print_gains(rows, answer[FERRYSPRIG_ANSWER_ROWS]);
    }
    printf("frames: %zu; blocks read of %zu\n", frames, parsed);
    if (fflush(stdout) != 0 || ferror(stdout))
        return said("standard output", strerror(errno), TROUBLE);
    return DONE;
}
