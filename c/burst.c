/* burst write|read [FILE]: writes the first frame of a file, or of standard input, to standard output as one IEC 61937 burst, or the frame
   of a burst. The exit status is 0 if it was written, 1 if it was refused, 2 if the program was called wrongly, could not read or could not
   print. (A burst is all that is read: a byte more, and it is refused.) */
#include "ferrysprig.h"
#include <errno.h>
#include <stdio.h>
#include <string.h>

enum { DONE = 0, REFUSED = 1, TROUBLE = 2 };

static const char *const meanings[] = FERRYSPRIG_MEANINGS;

static int said(const char *what, const char *why, int status) {
    fprintf(stderr, "burst: %s: %s\n", what, why);
    return status;
}

int main(int argc, char **argv) {
    static uint8_t input[FERRYSPRIG_BURST_BYTES + 1]; /* one more, to notice that a burst is too long */
    static uint8_t out[FERRYSPRIG_BURST_BYTES];
    static int32_t rows[FERRYSPRIG_MOST_ROWS * FERRYSPRIG_ROW_NUMBERS];
    const size_t numbers = sizeof rows / sizeof *rows;
    int32_t answer[FERRYSPRIG_BURST_ANSWER_NUMBERS];

    bool writes = argc > 1 && strcmp(argv[1], "write") == 0;
    bool reads = argc > 1 && strcmp(argv[1], "read") == 0;
    if (argc > 3 || !(writes || reads)) {
        fprintf(stderr, "usage: burst write|read [FILE]\n");
        return TROUBLE;
    }
    const char *name = argc == 3 ? argv[2] : "standard input";
    FILE *in = argc == 3 ? fopen(name, "rb") : stdin;
    if (!in)
        return said(name, strerror(errno), TROUBLE);
    size_t n = fread(input, 1, sizeof input, in);
    if (ferror(in))
        return said(name, strerror(errno), TROUBLE);

    if (writes)
        ferrysprig_burst_write(input, n, 0, rows, numbers, out, sizeof out, answer);
    else
        ferrysprig_burst_read(input, n, rows, numbers, out, sizeof out, answer);
    int32_t refusal = answer[FERRYSPRIG_BURST_ANSWER_REFUSAL];
    if (refusal != 0)
        return said(name, meanings[refusal], REFUSED);
    size_t written = (size_t)answer[FERRYSPRIG_BURST_ANSWER_WRITTEN];
    if (fwrite(out, 1, written, stdout) != written || fflush(stdout) != 0)
        return said("standard output", strerror(errno), TROUBLE);
    return DONE;
}
