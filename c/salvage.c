/* salvage IN OUT: goes through a damaged capture, writes what is left of its frames to a new file, one after the other, and prints where
   frames and gaps are. The exit status is 0 if there was no gap, 1 if there was, 2 if the program was called wrongly, could not read or
   could not write. The rooms are small, however long the capture is: where one is full, the walk goes on from the end of the last entry. */
#include "files.h"

#include "ferrysprig.h"
#include <string.h>

enum { WHOLE = 0, DAMAGED = 1, TROUBLE = 2 };

static int trouble(const char *what, const char *why) {
    fprintf(stderr, "salvage: %s: %s\n", what, why);
    return TROUBLE;
}

int main(int argc, char **argv) {
    static int32_t rows[FERRYSPRIG_MOST_ROWS * FERRYSPRIG_ROW_NUMBERS];
    static size_t list[4 * FERRYSPRIG_ENTRY_NUMBERS];
    static uint8_t out[4 * FERRYSPRIG_MOST_BYTES];
    size_t answer[FERRYSPRIG_SALVAGE_ANSWER_NUMBERS];

    if (argc != 3) {
        fprintf(stderr, "usage: salvage IN OUT\n");
        return TROUBLE;
    }
    size_t length;
    const uint8_t *capture = read_whole(argv[1], &length);
    if (!capture)
        return trouble(argv[1], strerror(errno));
    FILE *frames = make_new(argv[2]);
    if (!frames)
        return trouble(argv[2], strerror(errno));

    bool gaps = false;
    size_t place = 0;
    do {
        const size_t begin = place;
        ferrysprig_salvage(capture + begin, length - begin, rows, sizeof rows / sizeof *rows, list, sizeof list / sizeof *list, out,
                           sizeof out, answer);
        for (size_t i = 0; i < answer[FERRYSPRIG_SALVAGE_ANSWER_ENTRIES]; i++) {
            const size_t *entry = &list[FERRYSPRIG_ENTRY_NUMBERS * i];
            bool gap = entry[FERRYSPRIG_ENTRY_KIND] == FERRYSPRIG_KIND_GAP;
            gaps = gaps || gap;
            place = begin + entry[FERRYSPRIG_ENTRY_PLACE]; /* counted from where the walk began */
            printf("%s at byte %zu, length %zu\n", gap ? "gap" : "frame", place, entry[FERRYSPRIG_ENTRY_LENGTH]);
            place += entry[FERRYSPRIG_ENTRY_LENGTH];
        }
        if (fwrite(out, 1, answer[FERRYSPRIG_SALVAGE_ANSWER_WRITTEN], frames) != answer[FERRYSPRIG_SALVAGE_ANSWER_WRITTEN])
            return trouble(argv[2], strerror(errno));
    } while (answer[FERRYSPRIG_SALVAGE_ANSWER_REFUSAL] != 0); /* 35 or 36, after an entry at least: the rooms hold any gap and frame */
    if (fclose(frames) != 0)
        return trouble(argv[2], strerror(errno));
    if (fflush(stdout) != 0 || ferror(stdout))
        return trouble("standard output", strerror(errno));
    return gaps ? DAMAGED : WHOLE;
}
