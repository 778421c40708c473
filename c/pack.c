/* pack pack|unpack [FILE]: writes the packed form of a listing's text, of a file or of standard input, to standard output, or the text of a
   packed listing. The exit status is 0 if it was written, 1 if the input is no listing, 2 if the program was called wrongly, could not
   read, could not print, or has too little room: the listing of any frame fits. */
#include "ferrysprig.h"
#include <errno.h>
#include <stdio.h>
#include <string.h>

enum { DONE = 0, REFUSED = 1, TROUBLE = 2 };

/* A row has nine numbers of at most ten digits, each with a space or a line feed behind it; a last line is shorter. */
enum { MOST_TEXT = (FERRYSPRIG_MOST_ROWS + 1) * FERRYSPRIG_ROW_NUMBERS * 11 };

static const char *const meanings[] = FERRYSPRIG_MEANINGS;

static int said(const char *what, const char *why, int status) {
    fprintf(stderr, "pack: %s: %s\n", what, why);
    return status;
}

int main(int argc, char **argv) {
    static uint8_t input[MOST_TEXT + 1]; /* one more, to notice that there is more */
    static uint8_t out[MOST_TEXT];
    size_t answer[FERRYSPRIG_PACK_ANSWER_NUMBERS];

    bool packs = argc > 1 && strcmp(argv[1], "pack") == 0;
    bool unpacks = argc > 1 && strcmp(argv[1], "unpack") == 0;
    if (argc > 3 || !(packs || unpacks)) {
        fprintf(stderr, "usage: pack pack|unpack [FILE]\n");
        return TROUBLE;
    }
    const char *name = argc == 3 ? argv[2] : "standard input";
    FILE *in = argc == 3 ? fopen(name, "rb") : stdin;
    if (!in)
        return said(name, strerror(errno), TROUBLE);
    size_t n = fread(input, 1, sizeof input, in);
    if (ferror(in))
        return said(name, strerror(errno), TROUBLE);
    if (n == sizeof input)
        return said(name, "longer than the listing of any frame", TROUBLE);

    if (packs)
        ferrysprig_pack(input, n, out, sizeof out, answer);
    else
        ferrysprig_unpack(input, n, out, sizeof out, answer);
    size_t refusal = answer[FERRYSPRIG_PACK_ANSWER_REFUSAL];
    if (refusal != 0)
        return said(name, meanings[refusal], refusal == 45 ? TROUBLE : REFUSED);
    size_t written = answer[FERRYSPRIG_PACK_ANSWER_WRITTEN];
    if (fwrite(out, 1, written, stdout) != written || fflush(stdout) != 0)
        return said("standard output", strerror(errno), TROUBLE);
    return DONE;
}
