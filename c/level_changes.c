/* level_changes CAPTURE: prints where the dialogue level of a capture changes: the byte, the time by frames and their sample rate, the old
   and the new dialnorm. The exit status is 0 if the level never changes, 1 if it does, 2 if the program was called wrongly, could not read
   or could not print. */
#include "files.h"

#include "ferrysprig.h"
#include <stdlib.h>
#include <string.h>

enum { SAME = 0, CHANGES = 1, TROUBLE = 2 };

/* Parts of a second, so that a frame's 1,536 samples are a whole number of them at every sample rate. */
static const uint64_t second = 14112000;

static int trouble(const char *what, const char *why) {
    fprintf(stderr, "level_changes: %s: %s\n", what, why);
    return TROUBLE;
}

/* Prints a level; of a second programme that there is not, none. */
static void level(const size_t *entry, int at) {
    if (at == FERRYSPRIG_INDEX_ENTRY_DIALNORM2 && entry[FERRYSPRIG_INDEX_ENTRY_ACMOD] != 0)
        printf("none");
    else
        printf("%zu", entry[at]);
}

/* Whether a level of the frame is not that of the frame before it, which came so long after the capture's begin: printed, if so. */
static bool changed(const size_t *before, const size_t *entry, int at, const char *name, uint64_t time) {
    bool appears = at == FERRYSPRIG_INDEX_ENTRY_DIALNORM2
        && (before[FERRYSPRIG_INDEX_ENTRY_ACMOD] == 0) != (entry[FERRYSPRIG_INDEX_ENTRY_ACMOD] == 0);
    if (before[at] == entry[at] && !appears)
        return false;
    unsigned long seconds = (unsigned long)(time / second), thousandths = (unsigned long)(time % second * 1000 / second);
    printf("byte %zu, %lu:%02lu:%02lu.%03lu: %s ", entry[FERRYSPRIG_INDEX_ENTRY_PLACE], seconds / 3600, seconds / 60 % 60, seconds % 60,
           thousandths, name);
    level(before, at);
    printf(" to ");
    level(entry, at);
    printf("\n");
    return true;
}

int main(int argc, char **argv) {
    static int32_t rows[FERRYSPRIG_MOST_ROWS * FERRYSPRIG_ROW_NUMBERS];
    static const uint64_t rates[] = {48000, 44100, 32000}; /* by fscod */
    size_t answer[FERRYSPRIG_INDEX_ANSWER_NUMBERS];

    if (argc != 2) {
        fprintf(stderr, "usage: level_changes CAPTURE\n");
        return TROUBLE;
    }
    size_t length;
    const uint8_t *capture = read_whole(argv[1], &length);
    if (!capture)
        return trouble(argv[1], strerror(errno));

    /* Room for every frame that there could be; what no frame fills takes no memory. */
    size_t numbers = FERRYSPRIG_MOST_FRAMES(length) * FERRYSPRIG_INDEX_ENTRY_NUMBERS;
    size_t *index = (size_t *)calloc(numbers + 1, sizeof *index);
    if (!index)
        return trouble(argv[1], strerror(errno));
    ferrysprig_index(capture, length, rows, sizeof rows / sizeof *rows, index, numbers, 0, answer);

    bool changes = false;
    uint64_t time = 0;
    for (size_t i = 0; i < answer[FERRYSPRIG_INDEX_ANSWER_ENTRIES]; i++) {
        const size_t *entry = &index[FERRYSPRIG_INDEX_ENTRY_NUMBERS * i];
        if (i > 0) {
            const size_t *before = entry - FERRYSPRIG_INDEX_ENTRY_NUMBERS;
            changes = changed(before, entry, FERRYSPRIG_INDEX_ENTRY_DIALNORM, "dialnorm", time) || changes;
            changes = changed(before, entry, FERRYSPRIG_INDEX_ENTRY_DIALNORM2, "dialnorm2", time) || changes;
        }
        time += 1536 * (second / rates[capture[entry[FERRYSPRIG_INDEX_ENTRY_PLACE] + 4] >> 6]); /* fscod: the fifth byte's first two bits */
    }
    if (fflush(stdout) != 0 || ferror(stdout))
        return trouble("standard output", strerror(errno));
    return changes ? CHANGES : SAME;
}
