/* aht FILE AT HEBAPS..: for whoever reads E-AC-3 and has come to AHT sections: walks over those that stand one after the other from bit AT
   of a file on, and prints where each ends and how many tags it has. A section is given by the hebaps of its bins, from bin 0 on, as
   8,0,12. The exit status is 0 if all were walked over, 1 if one was refused, 2 if the program was called wrongly, could not read or could
   not print. */
#include "files.h"

#include "ferrysprig.h"
#include <stdlib.h>
#include <string.h>

enum { DONE = 0, REFUSED = 1, TROUBLE = 2 };

enum { MOST_BINS = 256 }; /* a channel has 253 at most */

static int said(const char *what, const char *why, int status) {
    fflush(stdout); /* what was walked over before is said first */
    fprintf(stderr, "aht: %s: %s\n", what, why);
    return status;
}

/* What a refusal of a section means: 6 is not said as it is of a frame. */
static const char *meaning(size_t refusal) {
    static const char *const meanings[] = FERRYSPRIG_MEANINGS;
    return refusal == 6 ? "something would end past the given end or the data's end" : meanings[refusal];
}

/* A number at the begin of a text, of digits alone; and where it ends. */
static bool number(const char *text, const char **end, size_t *value) {
    char *after;
    errno = 0;
    *value = strtoul(text, &after, 10);
    *end = after;
    return text[0] >= '0' && text[0] <= '9' && errno == 0;
}

/* A list of hebaps, of which any byte is one: the walk refuses those that there are not. How many there are, or 0 if this is no list. */
static size_t hebaps(const char *text, uint8_t *hebap) {
    for (size_t count = 0; count < MOST_BINS; text++) {
        size_t value;
        if (!number(text, &text, &value) || value > UINT8_MAX)
            return 0;
        hebap[count++] = (uint8_t)value;
        if (*text != ',')
            return *text == '\0' ? count : 0;
    }
    return 0;
}

int main(int argc, char **argv) {
    uint8_t hebap[MOST_BINS];
    size_t answer[FERRYSPRIG_AHT_ANSWER_NUMBERS];
    const char *rest;
    size_t at;

    bool called = argc > 3 && number(argv[2], &rest, &at) && *rest == '\0';
    for (int i = 3; called && i < argc; i++)
        called = hebaps(argv[i], hebap) > 0;
    if (!called) {
        fprintf(stderr, "usage: aht FILE AT HEBAPS.. (as 8,0,12)\n");
        return TROUBLE;
    }
    size_t length;
    const uint8_t *data = read_whole(argv[1], &length);
    if (!data)
        return said(argv[1], strerror(errno), TROUBLE);

    for (int i = 3; i < argc; i++) {
        size_t bins = hebaps(argv[i], hebap);
        ferrysprig_aht(data, length, at, 8 * length, hebap, bins, 0, bins, answer);
        size_t refusal = answer[FERRYSPRIG_AHT_ANSWER_REFUSAL];
        if (refusal != 0) {
            char where[200];
            snprintf(where, sizeof where, "section at bit %zu: refusal %zu: %s", at, refusal, meaning(refusal));
            return said(argv[1], where, REFUSED);
        }
        size_t end = answer[FERRYSPRIG_AHT_ANSWER_END];
        printf("section at bit %zu: ends at bit %zu, tags %zu\n", at, end, answer[FERRYSPRIG_AHT_ANSWER_TAGS]);
        at = end; /* the next one begins there */
    }
    if (fflush(stdout) != 0 || ferror(stdout))
        return said("standard output", strerror(errno), TROUBLE);
    return DONE;
}
