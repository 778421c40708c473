/* list [FILE]: lists one frame from a file or from standard input: the numbers of each row, and a last line, `audio ROWS BYTES AUDIO_END`
   or `refused NUMBER ROWS BIT NAME BLOCK`, which a message then explains. At most 3,840 bytes are read. The exit status is 0 if the frame
   was accepted, 1 if it was refused, 2 if the program was called wrongly, could not read or could not print. (The proved listing program,
   which tools/list runs, has room for fewer rows than some frames have; this one has room for every frame's.) */
#include "ferrysprig.h"
#include <errno.h>
#include <inttypes.h>
#include <stdio.h>
#include <string.h>

enum { ACCEPTED = 0, REFUSED = 1, TROUBLE = 2 };

static const char *const names[] = FERRYSPRIG_NAMES;
static const char *const meanings[] = FERRYSPRIG_MEANINGS;

static int said(const char *what, const char *why, int status) {
    fprintf(stderr, "list: %s: %s\n", what, why);
    return status;
}

static void print_row(const int32_t *row) {
    for (int i = 0; i < FERRYSPRIG_ROW_NUMBERS; i++)
        printf("%" PRId32 "%c", row[i], i < FERRYSPRIG_ROW_NUMBERS - 1 ? ' ' : '\n');
}

/* The last line: a word and some numbers of the answer. */
static void print_last(const char *word, const int32_t *answer, const int *places, size_t count) {
    printf("%s", word);
    for (size_t i = 0; i < count; i++)
        printf(" %" PRId32, answer[places[i]]);
    printf("\n");
}

/* What a refusal means, and at refusal 6 what did not fit. (That is never in the header, which always fits.) */
static int refused(const char *name, const int32_t *answer) {
    int32_t refusal = answer[FERRYSPRIG_ANSWER_REFUSAL];
    int32_t unfit = answer[FERRYSPRIG_ANSWER_NAME];
    if (unfit == 0)
        return said(name, meanings[refusal], REFUSED);
    fprintf(stderr, "list: %s: %s (%s in block %" PRId32 ")\n", name, meanings[refusal], names[unfit], answer[FERRYSPRIG_ANSWER_BLOCK]);
    return REFUSED;
}

int main(int argc, char **argv) {
    static uint8_t frame[FERRYSPRIG_MOST_BYTES];
    static int32_t rows[FERRYSPRIG_MOST_ROWS * FERRYSPRIG_ROW_NUMBERS];
    static const int of_audio[] = {FERRYSPRIG_ANSWER_ROWS, FERRYSPRIG_ANSWER_BYTES, FERRYSPRIG_ANSWER_AUDIO_END};
    static const int of_refused[] = {FERRYSPRIG_ANSWER_REFUSAL, FERRYSPRIG_ANSWER_ROWS, FERRYSPRIG_ANSWER_BIT, FERRYSPRIG_ANSWER_NAME,
                                     FERRYSPRIG_ANSWER_BLOCK};
    int32_t answer[FERRYSPRIG_ANSWER_NUMBERS];

    if (argc > 2) {
        fprintf(stderr, "usage: list [FILE]\n");
        return TROUBLE;
    }
    const char *name = argc == 2 ? argv[1] : "standard input";
    FILE *in = argc == 2 ? fopen(name, "rb") : stdin;
    if (!in)
        return said(name, strerror(errno), TROUBLE);
    size_t n = fread(frame, 1, sizeof frame, in);
    if (ferror(in))
        return said(name, strerror(errno), TROUBLE);

    ferrysprig_parse(frame, n, 0, rows, sizeof rows / sizeof *rows, answer);
    bool accepted = answer[FERRYSPRIG_ANSWER_REFUSAL] == 0;
    for (int32_t row = 0; row < answer[FERRYSPRIG_ANSWER_ROWS]; row++)
        print_row(&rows[row * FERRYSPRIG_ROW_NUMBERS]);
    if (accepted)
        print_last("audio", answer, of_audio, sizeof of_audio / sizeof *of_audio);
    else
        print_last("refused", answer, of_refused, sizeof of_refused / sizeof *of_refused);
    if (fflush(stdout) != 0)
        return said("standard output", strerror(errno), TROUBLE);
    if (n == 0)
        return said(name, "it is empty", REFUSED);
    return accepted ? ACCEPTED : refused(name, answer);
}
