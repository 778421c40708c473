/* Ferrysprig, the proved parser of AC-3 frames, for C and C++. Link target/staticlib/libferrysprig.a, which `tools/archive ferrysprig`
   writes (for x86-64 Linux). docs/FORMAT.md says more of what the numbers mean, docs/NAMES.md of the names, docs/PROMISES.md what is
   proved.

   The functions have no state: no heap, no globals, no files, no signals. Any number of threads may call them at once, each with its own
   `rows`, `list`, `index`, `out`, `changes` and `answer` (and `capture`, where it is written to). The archive needs memcpy, memmove and
   memset at most, and nothing else.

   An edit breaks the checksums: but for the sync word, crc1 guards the first five eighths of a frame and crc2 all of it. Whoever changes
   a field makes crc2 wrong, and crc1 too where the field stands that early, and a decoder may then drop the frame. ferrysprig_correct
   mends them with the level that it writes; the other functions neither check nor mend them. */
#ifndef FERRYSPRIG_H
#define FERRYSPRIG_H

#include <stdbool.h>
#include <stddef.h>
#include <stdint.h>

#ifdef __cplusplus
extern "C" {
#endif

/* Which header this is. */
#define FERRYSPRIG_VERSION "0.1.0"
#define FERRYSPRIG_VERSION_NUMBER 100 /* 10,000 times the first part, 100 times the second, and the third */

/* Bytes of stack that are enough for a call. (c/test.c measures it: the deepest call takes some 14,100, with what the loader takes
   where the program finds memcpy and the others at their first use, which differs by processor.) */
#define FERRYSPRIG_STACK_BYTES 20480

/* Bytes that no frame exceeds, and those that every frame has. */
#define FERRYSPRIG_MOST_BYTES 3840
#define FERRYSPRIG_LEAST_BYTES 128

/* Rows that no frame exceeds, which is proved, and some frames have so many. With room for them, refusal 7 is not given. Most frames have
   some hundreds. */
#define FERRYSPRIG_MOST_ROWS 4067

/* Rows that no header (syncinfo and bsi) exceeds, which is proved. With room for them, ferrysprig_header does not give refusal 7. */
#define FERRYSPRIG_MOST_HEADER_ROWS 44

/* The numbers of a row. Row i begins at number FERRYSPRIG_ROW_NUMBERS * i of the lent room. */
enum {
    FERRYSPRIG_ROW_NAME = 0,      /* 1 to 111, see FERRYSPRIG_NAMES */
    FERRYSPRIG_ROW_ROLE = 1,      /* FERRYSPRIG_ROLE_PLAIN and so on, below */
    FERRYSPRIG_ROW_PROGRAMME = 2, /* 0 or 1 for the five roles that speak of a programme, else -1 */
    FERRYSPRIG_ROW_BLOCK = 3,     /* 0 to 5, or -1 outside the blocks */
    FERRYSPRIG_ROW_INDEX = 4,     /* channel, band or slot, or -1 */
    FERRYSPRIG_ROW_POSITION = 5,  /* the first bit, counted from the frame's first, most significant bit of a byte first */
    FERRYSPRIG_ROW_WIDTH = 6,     /* in bits; at most 16, except for a span, which may have any, 0 included */
    FERRYSPRIG_ROW_VALUE = 7,     /* the bits as a number; 0 for a span */
    FERRYSPRIG_ROW_PART = 8       /* from 0: the band of cplcoexp and cplcomant, the group of cplexps, exps[ch] and lfeexps, the segment of
                                     a delta offset, length or ba (coupling's too); -1 for every other name */
};
#define FERRYSPRIG_ROW_NUMBERS 9

/* The slots of a block's mantissas: channels 0 to 4, and these two. */
enum {
    FERRYSPRIG_SLOT_COUPLING = 5,
    FERRYSPRIG_SLOT_LFE = 6
};
#define FERRYSPRIG_SLOTS 7

/* The numbers of an answer. From FERRYSPRIG_ANSWER_SUMMARY to FERRYSPRIG_ANSWER_COORDINATES_SENT, and from FERRYSPRIG_ANSWER_MANTISSA_BITS
   on, they are the summary of an accepted frame, and 0 on a refusal; yes is 1. */
enum {
    FERRYSPRIG_ANSWER_REFUSAL = 0,           /* 0: accepted; else 1 to 23, see FERRYSPRIG_MEANINGS */
    FERRYSPRIG_ANSWER_ROWS = 1,              /* how many rows were written, on a refusal too */
    FERRYSPRIG_ANSWER_BIT = 2,               /* the first bit not yet read; audio_end if accepted */
    FERRYSPRIG_ANSWER_SUMMARY = 3,           /* how many rows an accepted frame has: number 1 again */
    FERRYSPRIG_ANSWER_BYTES = 4,             /* the frame's length: the next frame starts so many bytes on */
    FERRYSPRIG_ANSWER_AUDIO_END = 5,         /* the first bit after the last block's mantissas: the frame's tail (auxiliary data, crc2) */
    FERRYSPRIG_ANSWER_BSID = 6,
    FERRYSPRIG_ANSWER_ACMOD = 7,
    FERRYSPRIG_ANSWER_LFEON = 8,
    FERRYSPRIG_ANSWER_FSCOD = 9,
    FERRYSPRIG_ANSWER_CPL_BLOCKS = 10,       /* how many blocks use coupling */
    FERRYSPRIG_ANSWER_BLOCK_STARTS = 11,     /* 11 to 16: the bits at which the six blocks start */
    FERRYSPRIG_ANSWER_MANTISSA_STARTS = 17,  /* 17 to 22: the bits at which their mantissas start */
    FERRYSPRIG_ANSWER_COORDINATES_SENT = 23, /* whether in every block each coupled channel has cplcoe 1, or had it in an earlier block
                                                while it was coupled; yes if no block uses coupling */
    FERRYSPRIG_ANSWER_NAME = 24,             /* at refusal 6 the name of the field, span or mantissas that did not fit the frame; else 0 */
    FERRYSPRIG_ANSWER_BLOCK = 25,            /* and its block, -1 in the header; else -1 */
    FERRYSPRIG_ANSWER_MANTISSA_BITS = 26     /* 26 to 67: number 26 + FERRYSPRIG_SLOTS * block + slot is how many bits that slot's mantissas
                                                take in that block. A group's are counted to the slot of its first member; a slot that is
                                                not in use has 0. The seven of a block sum to the width of its mantissas */
};
#define FERRYSPRIG_ANSWER_NUMBERS 68

/* The roles that rows have. (Numbers 3, 4 and 16 to 20 of the original's belong to the frame's tail and to E-AC-3.) */
enum {
    FERRYSPRIG_ROLE_PLAIN = 0,
    FERRYSPRIG_ROLE_SYNC = 1,
    FERRYSPRIG_ROLE_CRC1 = 2,
    FERRYSPRIG_ROLE_FRAME_SIZE = 5,    /* fscod, frmsizecod */
    FERRYSPRIG_ROLE_DIALNORM = 6,      /* of a programme, as the next four */
    FERRYSPRIG_ROLE_COMPR_EXISTS = 7,
    FERRYSPRIG_ROLE_COMPR = 8,
    FERRYSPRIG_ROLE_DYNRNG_EXISTS = 9,
    FERRYSPRIG_ROLE_DYNRNG = 10,
    FERRYSPRIG_ROLE_SKIPLE = 11,
    FERRYSPRIG_ROLE_SKIPL = 12,
    FERRYSPRIG_ROLE_SKIPFLD = 13,      /* a span */
    FERRYSPRIG_ROLE_ADDBSI = 14,       /* a span */
    FERRYSPRIG_ROLE_MANTISSAS = 15     /* a span */
};

/* The texts of three kinds of numbers, each by its number: static const char *const names[] = FERRYSPRIG_NAMES; */

/* The roles, as the original spells them. */
#define FERRYSPRIG_ROLES { \
    /*  0 */ "Plain", "Sync", "Crc1", "Crc2", "CrcRsv", "FrameSize", "Dialnorm", "ComprExists", "Compr", "DynrngExists", \
    /* 10 */ "Dynrng", "Skiple", "Skipl", "Skipfld", "Addbsi", "Mantissas", "AuxBits", "AuxDataL", "AuxDataE", "BlkStrtInfoE", \
    /* 20 */ "BlkStrtInfo" \
}

/* The names, as the original spells them. (There is no name 0.) */
#define FERRYSPRIG_NAMES { \
    /*   0 */ "", \
    /*   1 */ "syncword", "crc1", "fscod", "frmsizecod", "bsid", "bsmod", "acmod", "cmixlev", "surmixlev", "dsurmod", \
    /*  11 */ "lfeon", "dialnorm", "compre", "compr", "langcode", "langcod", "audprodie", "mixlevel", "roomtyp", "dialnorm2", \
    /*  21 */ "compr2e", "compr2", "langcod2e", "langcod2", "audprodi2e", "mixlevel2", "roomtyp2", "copyrightb", "origbs", "xbsi1e", \
    /*  31 */ "dmixmod", "ltrtcmixlev", "ltrtsurmixlev", "lorocmixlev", "lorosurmixlev", "xbsi2e", "dsurexmod", "dheadphonmod", "adconvtyp", "xbsi2", \
    /*  41 */ "encinfo", "timecod1e", "timecod1", "timecod2e", "timecod2", "addbsie", "addbsil", "addbsi", "blksw", "dithflag", \
    /*  51 */ "dynrnge", "dynrng", "dynrng2e", "dynrng2", "cplstre", "cplinu", "chincpl", "phsflginu", "cplbegf", "cplendf", \
    /*  61 */ "cplbndstrc", "cplcoe", "mstrcplco", "cplcoexp", "cplcomant", "phsflg", "rematstr", "rematflg", "cplexpstr", "chexpstr", \
    /*  71 */ "lfeexpstr", "chbwcod", "cplabsexp", "cplexps", "exps[ch][0]", "exps[ch]", "gainrng", "lfeexps[0]", "lfeexps", "baie", \
    /*  81 */ "sdcycod", "fdcycod", "sgaincod", "dbpbcod", "floorcod", "snroffste", "csnroffst", "cplfsnroffst", "cplfgaincod", "fsnroffst", \
    /*  91 */ "fgaincod", "lfefsnroffst", "lfefgaincod", "cplleake", "cplfleak", "cplsleak", "deltbaie", "cpldeltbae", "deltbae", "cpldeltnseg", \
    /* 101 */ "cpldeltoffst", "cpldeltlen", "cpldeltba", "deltnseg", "deltoffst", "deltlen", "deltba", "skiple", "skipl", "skipfld", \
    /* 111 */ "mantissas" \
}

/* What each refusal means: 1 to 23 of a frame, 24 of a header answer, 25 to 27 of an AHT section, 28 and 30 to 34 of a burst, 35 to 37 of a
   salvage, 40 to 46 of a listing, 50 to 52 of a level correction, 37, 55 and 56 of an index, 57 to 59 of a value to be set. (No others are
   given. The text of 6 is a frame's; ferrysprig_aht says what it means of a section.) */
#define FERRYSPRIG_MEANINGS { \
    /*  0 */ "accepted", \
    /*  1 */ "the input has fewer than 6 bytes", \
    /*  2 */ "the sync word is not 0x0B77", \
    /*  3 */ "fscod is 3, or frmsizecod is 38 or more", \
    /*  4 */ "the input is shorter than the frame", \
    /*  5 */ "bsid is above 8", \
    /*  6 */ "a field, span or mantissa would end past the frame", \
    /*  7 */ "no row is left", \
    /*  8 */ "block 0 has cplstre 0", \
    /*  9 */ "cplbegf is above cplendf + 2", \
    /* 10 */ "coupling with fewer than two channels", \
    /* 11 */ "chbwcod is above 60", \
    /* 12 */ "a channel's bandwidth was never sent", \
    /* 13 */ "coupling exponents are reused, but were never sent or stand for another range", \
    /* 14 */ "a channel's exponents are reused, but were never sent or have another end", \
    /* 15 */ "LFE exponents are reused, but were never sent", \
    /* 16 */ "a grouped exponent is above 124", \
    /* 17 */ "an exponent is outside 0 to 24 after a step", \
    /* 18 */ "cpldeltbae or deltbae is 0 in block 0", \
    /* 19 */ "cpldeltbae or deltbae is 3", \
    /* 20 */ "the coupling leak is needed, but was never sent", \
    /* 21 */ "block 0 has rematstr 0", \
    /* 22 */ "block 0 has baie 0", \
    /* 23 */ "block 0 has snroffste 0", \
    /* 24 */ "the header answer does not fit the input", \
    /* 25 */ "a composite gain is above 26", \
    /* 26 */ "a hebap is above 19", \
    /* 27 */ "the end bin is above the number of hebaps", \
    /* 28 */ "the output is too short", \
    /* 29 */ "", \
    /* 30 */ "the burst is not 6,144 bytes", \
    /* 31 */ "the first three words are wrong outside bits 8 to 10 of the third", \
    /* 32 */ "the fourth word is not the frame's length in bits", \
    /* 33 */ "a byte after the frame is not 0", \
    /* 34 */ "bits 8 to 10 of the third word are not the frame's bsmod", \
    /* 35 */ "the output has too little left for a frame", \
    /* 36 */ "no entry of the list is left", \
    /* 37 */ "the rows do not suffice for a place of the capture", \
    /* 38 */ "", "", \
    /* 40 */ "a line is malformed", \
    /* 41 */ "a packed number has a needless group", \
    /* 42 */ "a number does not fit 32 signed bits", \
    /* 43 */ "the input is only the beginning of a listing", \
    /* 44 */ "bytes are left over after the listing", \
    /* 45 */ "the output is too short for the listing", \
    /* 46 */ "the row count is -1, or neither 0 nor 1 stands for audio or refused", \
    /* 47 */ "", "", "", \
    /* 50 */ "the frame has no such programme", \
    /* 51 */ "the level is not 1 to 31", \
    /* 52 */ "the audio ends later than 18 bits before the frame's end", \
    /* 53 */ "", "", \
    /* 55 */ "the index has no room for a frame", \
    /* 56 */ "parsing at the last entry's place does not give that entry", \
    /* 57 */ "the width is not 1 to 16", \
    /* 58 */ "the field does not lie within the capture", \
    /* 59 */ "the value does not fit the width" \
}

/* Parses the frame at byte `place` of `capture` into the lent `rows`, and writes the answer's numbers.

   Any bytes, any place (past the end: refusal 1) and any room are answered. `rows_len` counts numbers, not rows: the room is rows_len /
   FERRYSPRIG_ROW_NUMBERS rows. Numbers past the rows written are not touched, on refusals too. The pointers are to as many elements as
   their lengths say (a pointer with length 0 is not looked at); `rows` and `answer` overlap nothing. Bytes after the frame are not looked
   at.

   The rows lie end to end from bit 0; those of an accepted frame end at audio_end. On a refusal the last row has the bad value at 2, 5, 8,
   11, 16 to 19 and 21 to 23. At 3 it is one of the last two, fscod and frmsizecod; at 9 both of them together, cplbegf and cplendf. At 10,
   12 to 15 and 20 the last row is not to blame, but what was sent, or never sent, before; at 1, 4, 6 and 7 input, frame or room end too
   early, and at 6 the answer's name and block say what did not fit. */
void ferrysprig_parse(const uint8_t *capture, size_t capture_len, size_t place, int32_t *rows, size_t rows_len,
                      int32_t answer[FERRYSPRIG_ANSWER_NUMBERS]);

/* Header and blocks apart: where only syncinfo and bsi are needed, the header is read alone; where more is, the blocks follow. */

/* The numbers of an answer about a header. From FERRYSPRIG_HEADER_ANSWER_BYTES on they are 0 on a refusal; yes is 1. */
enum {
    FERRYSPRIG_HEADER_ANSWER_REFUSAL = 0, /* 0: the header was read; else 1 to 5 or 7, see FERRYSPRIG_MEANINGS */
    FERRYSPRIG_HEADER_ANSWER_ROWS = 1,    /* how many rows were written, on a refusal too */
    FERRYSPRIG_HEADER_ANSWER_BIT = 2,     /* the first bit not yet read: where block 0 starts, if the header was read */
    FERRYSPRIG_HEADER_ANSWER_NAME = 3,    /* as in the answer about a frame: 0, since every header fits its frame */
    FERRYSPRIG_HEADER_ANSWER_BLOCK = 4,   /* and -1 */
    FERRYSPRIG_HEADER_ANSWER_BYTES = 5,   /* the frame's length: the next frame starts so many bytes on */
    FERRYSPRIG_HEADER_ANSWER_BSID = 6,
    FERRYSPRIG_HEADER_ANSWER_ACMOD = 7,
    FERRYSPRIG_HEADER_ANSWER_LFEON = 8,
    FERRYSPRIG_HEADER_ANSWER_FSCOD = 9
};
#define FERRYSPRIG_HEADER_ANSWER_NUMBERS 10

/* Reads the header of the frame at byte `place` of `capture`, through addbsi, into the lent `rows`: the rows that ferrysprig_parse writes
   first, in the same room, with the refusals that it gives as far as there. The frame must be whole (refusal 4), but what follows the
   header is not looked at. Everything else that is said of ferrysprig_parse holds here. */
void ferrysprig_header(const uint8_t *capture, size_t capture_len, size_t place, int32_t *rows, size_t rows_len,
                       int32_t answer[FERRYSPRIG_HEADER_ANSWER_NUMBERS]);

/* Does what ferrysprig_parse does, and answers the same, if `header` is what ferrysprig_header answers to the same capture, place and room,
   and is no refusal. It is not trusted: the header is read again, and where any of the ten numbers differs, or they are a refusal, the
   answer is refusal 24 with 0 rows, and no number of `rows` is touched. (The ten numbers are all that is compared: those of another input
   or room, if they are the same, are taken, and the header's rows are written afresh.) `rows` and `answer` overlap nothing. */
void ferrysprig_blocks(const uint8_t *capture, size_t capture_len, size_t place, int32_t *rows, size_t rows_len,
                       const int32_t header[FERRYSPRIG_HEADER_ANSWER_NUMBERS], int32_t answer[FERRYSPRIG_ANSWER_NUMBERS]);

/* Whether the n bits of x from bit a on are those of y from bit b on, most significant bit of a byte first. Where either range ends past
   its bytes, or at a bit that 64 bits cannot count, they are not: the answer is false. A range of no bits ends where it starts, so it
   equals another if both start at most at the ends. x and y may overlap or be the same. */
bool ferrysprig_range_eq(const uint8_t *x, size_t x_len, size_t a, const uint8_t *y, size_t y_len, size_t b, size_t n);

/* Whether the values of this name (its number) never steer the rest of a frame. There are 39 such names, those of the column "Free" of
   docs/NAMES.md; the flags that announce a value are not among them, nor are the spans. Any other number is no name, and the answer is
   false. For an accepted frame, other values of the same width in rows of these names alone give an accepted frame with the same answer and
   the same rows but for those values, which is proved; so do other bits inside spans and from audio_end on. */
bool ferrysprig_editable(size_t name);

/* Writes a value of `width` bits at bit `position` of what begins at byte `place` of `capture`, most significant bit first: for a row of
   the frame at that place, its position and width. Those bits are the value then, and all others are as they were. The answer is 0, or the
   first of these that holds, and then nothing is written (see FERRYSPRIG_MEANINGS): 57 if the width is not 1 to 16, 58 if 8 place +
   position + width is more than 8 capture_len (however large the numbers), 59 if the value is 2 to the width or more. That the row may be
   edited is not looked at, and no checksum is mended. */
uint8_t ferrysprig_set(uint8_t *capture, size_t capture_len, size_t place, size_t position, size_t width, size_t value);

/* Level correction: the dialogue level of a programme, written into the frame, with both checksums mended. */

/* The numbers of an answer about a level correction. */
enum {
    FERRYSPRIG_LEVEL_ANSWER_REFUSAL = 0, /* 0: done; 1 to 23: the frame's own; else 50 to 52, see FERRYSPRIG_MEANINGS */
    FERRYSPRIG_LEVEL_ANSWER_ROWS = 1,    /* how many rows were written by parsing, on a refusal too */
    FERRYSPRIG_LEVEL_ANSWER_CHANGES = 2  /* how many changes were written to the front of `changes`; 0 on a refusal */
};
#define FERRYSPRIG_LEVEL_ANSWER_NUMBERS 3

/* The numbers of a change. Change i begins at number FERRYSPRIG_CHANGE_NUMBERS * i of the list. */
enum {
    FERRYSPRIG_CHANGE_NAME = 0, /* 2 crc1, 12 dialnorm, 20 dialnorm2, as in FERRYSPRIG_NAMES, or one of the two below */
    FERRYSPRIG_CHANGE_OLD = 1,
    FERRYSPRIG_CHANGE_NEW = 2
};
#define FERRYSPRIG_CHANGE_NUMBERS 3

/* The names of what changes and is no row. */
enum {
    FERRYSPRIG_NAME_CRCRSV = 112, /* the bit before crc2 */
    FERRYSPRIG_NAME_CRC2 = 113    /* the frame's last 16 bits */
};

/* Changes that no correction exceeds: crc1, a level, crcrsv and crc2. */
#define FERRYSPRIG_MOST_CHANGES 4

/* Writes the level (1 to 31) of a programme, counted from 1, into the frame at byte `place` of `capture`, then crc1, then crc2; if crc2
   would be 0x0B77, crcrsv is flipped first. Both checksums are right then, no other bit is changed, and the fields whose values are
   others than before are listed, in frame order. The frame is parsed once, before the change, into the lent `rows`, with the refusals of
   ferrysprig_parse; then 50 is given if there is no such programme (2 is there only with acmod 0), 51 if the level is not 1 to 31, 52 if
   the audio ends later than 18 bits before the frame's end, in this order. On a refusal no byte is changed. Any input is answered;
   `capture`, `rows`, `changes` and `answer` overlap nothing. Numbers of `changes` past those listed are not touched. */
void ferrysprig_correct(uint8_t *capture, size_t capture_len, size_t place, size_t programme, size_t level, int32_t *rows, size_t rows_len,
                        int32_t changes[FERRYSPRIG_MOST_CHANGES * FERRYSPRIG_CHANGE_NUMBERS],
                        int32_t answer[FERRYSPRIG_LEVEL_ANSWER_NUMBERS]);

/* AHT sections of E-AC-3: where one ends. Under the adaptive hybrid transform the gain words, vector indices and mantissas of a channel
   stand together for all six blocks, bin by bin; docs/FORMAT.md has a section word by word. */

/* The numbers of an answer about an AHT section. */
enum {
    FERRYSPRIG_AHT_ANSWER_REFUSAL = 0, /* 0: done; else 6 or 25 to 27 */
    FERRYSPRIG_AHT_ANSWER_END = 1,     /* the first bit after the section; 0 on a refusal */
    FERRYSPRIG_AHT_ANSWER_TAGS = 2     /* how many GAQ tags it has; 0 on a refusal */
};
#define FERRYSPRIG_AHT_ANSWER_NUMBERS 3

/* Walks over the AHT section at bit `at` of `data`, of which nothing may stand from bit `end` on or past the data, for the bins from
   `first` on and before `past`; `hebap` has an entry for each bin from 0 on. A first bin at or past the end bin is an empty range, of which
   gaqmod alone is read. Any numbers and any bytes are answered; `answer` overlaps nothing. The refusals: 27 if `past` is above `hebap_len`,
   for an empty range too; after it the first that is met of 25 (a composite gain above 26), 26 (a hebap above 19) and 6 (something would
   end past `end` or the data's end).

   Mantissa values steer the length here: under gain 2 or 4 a mantissa whose first bit is 1 and whose others are 0 is a tag, and a large
   mantissa follows it. Whoever changes a mantissa may move the section's end and all that stands after it. So this alone is proved of bits:
   equal bits give equal ends and tags, whatever stands before and after them. */
void ferrysprig_aht(const uint8_t *data, size_t data_len, size_t at, size_t end, const uint8_t *hebap, size_t hebap_len, size_t first,
                    size_t past, size_t answer[FERRYSPRIG_AHT_ANSWER_NUMBERS]);

/* The contribution profile: the part of AC-3 that a carrier takes. */

/* The numbers of an answer about the profile. */
enum {
    FERRYSPRIG_PROFILE_ANSWER_REFUSAL = 0, /* 0: the frame was accepted; else 1 to 23: the frame's own, see FERRYSPRIG_MEANINGS */
    FERRYSPRIG_PROFILE_ANSWER_ROWS = 1,    /* how many rows were written by parsing, on a refusal too */
    FERRYSPRIG_PROFILE_ANSWER_RULE = 2,    /* the first broken rule, FERRYSPRIG_RULE_FSCOD and so on; 0: within, and on a refusal */
    FERRYSPRIG_PROFILE_ANSWER_ROW = 3      /* the row that breaks it, from 0; 0 where there is none */
};
#define FERRYSPRIG_PROFILE_ANSWER_NUMBERS 4

/* The rules, in their order. */
enum {
    FERRYSPRIG_RULE_FSCOD = 1,    /* fscod is 0 */
    FERRYSPRIG_RULE_ACMOD = 2,    /* acmod is 2 or 7 */
    FERRYSPRIG_RULE_BSID = 3,     /* bsid is 6 or 8 */
    FERRYSPRIG_RULE_WORDS = 4,    /* the frame has 384 words or more; the row is that of frmsizecod */
    FERRYSPRIG_RULE_LFEON = 5,    /* lfeon is 1 only with acmod 7 */
    FERRYSPRIG_RULE_DELTBAIE = 6, /* deltbaie is 0 in every block; the row is that of the first block where it is not */
    FERRYSPRIG_RULE_DIALNORM = 7  /* the first programme's dialnorm is not 0 */
};

/* What is wrong where a rule is broken, by its number. */
#define FERRYSPRIG_RULES { \
    /* 0 */ "within the profile", \
    /* 1 */ "fscod is not 0", \
    /* 2 */ "acmod is neither 2 nor 7", \
    /* 3 */ "bsid is neither 6 nor 8", \
    /* 4 */ "the frame has fewer than 384 words", \
    /* 5 */ "lfeon is 1, and acmod is not 7", \
    /* 6 */ "a block has deltbaie 1", \
    /* 7 */ "dialnorm is 0" \
}

/* Parses the frame at byte `place` of `capture` into the lent `rows`, as ferrysprig_parse does, and holds it against the profile. Of the
   rules that it breaks the first is told, with the row that breaks it; a frame is within exactly when it breaks none. Everything that is
   said of ferrysprig_parse holds here: any input is answered, and `rows` and `answer` overlap nothing. */
void ferrysprig_profile(const uint8_t *capture, size_t capture_len, size_t place, int32_t *rows, size_t rows_len,
                        int32_t answer[FERRYSPRIG_PROFILE_ANSWER_NUMBERS]);

/* IEC 61937 data bursts: a frame as 6,144 bytes, and back. docs/FORMAT.md has a burst word by word. */

/* The bytes of a burst. */
#define FERRYSPRIG_BURST_BYTES 6144

/* The numbers of an answer about a burst. */
enum {
    FERRYSPRIG_BURST_ANSWER_REFUSAL = 0, /* 0: done; 1 to 23: the frame's own; else 28 or 30 to 34, see FERRYSPRIG_MEANINGS */
    FERRYSPRIG_BURST_ANSWER_ROWS = 1,    /* how many rows were written by parsing, on a refusal too; 0 at 30 and 31, which come before it */
    FERRYSPRIG_BURST_ANSWER_WRITTEN = 2  /* how many bytes were written to the front of `out`; 0 on a refusal */
};
#define FERRYSPRIG_BURST_ANSWER_NUMBERS 3

/* Writes the frame at byte `place` of `capture` to the front of `out` as one burst, FERRYSPRIG_BURST_BYTES bytes. The frame is parsed into
   the lent `rows`, with the refusals of ferrysprig_parse; then 28 is given if `out` is shorter than a burst. Everything else that is said
   of ferrysprig_parse holds here: any input is answered, and `rows`, `out` and `answer` overlap nothing. Bytes of `out` past those written
   are not touched, and none is on a refusal. */
void ferrysprig_burst_write(const uint8_t *capture, size_t capture_len, size_t place, int32_t *rows, size_t rows_len, uint8_t *out,
                            size_t out_len, int32_t answer[FERRYSPRIG_BURST_ANSWER_NUMBERS]);

/* Writes the frame of `burst` to the front of `out`; FERRYSPRIG_MOST_BYTES are always enough. `burst_len` is that of the burst, so 6,144.
   The refusals are given in this order: 30, 31, those of parsing the bytes from byte 8 on into `rows`, 32, 33, 34, and 28 if `out` is
   shorter than the frame. Any input is answered; `rows`, `out` and `answer` overlap nothing. Bytes of `out` past those written are not
   touched, and none is on a refusal. */
void ferrysprig_burst_read(const uint8_t *burst, size_t burst_len, int32_t *rows, size_t rows_len, uint8_t *out, size_t out_len,
                           int32_t answer[FERRYSPRIG_BURST_ANSWER_NUMBERS]);

/* Salvage of a broken capture: what is left of its frames, and a list of frames and gaps. */

/* The numbers of an answer about a salvage. */
enum {
    FERRYSPRIG_SALVAGE_ANSWER_REFUSAL = 0, /* 0: the walk came to the capture's end; else 35 to 37, see FERRYSPRIG_MEANINGS */
    FERRYSPRIG_SALVAGE_ANSWER_ENTRIES = 1, /* how many entries were written to the front of `list`, on a refusal too */
    FERRYSPRIG_SALVAGE_ANSWER_WRITTEN = 2  /* how many bytes were written to the front of `out`, on a refusal too */
};
#define FERRYSPRIG_SALVAGE_ANSWER_NUMBERS 3

/* The numbers of an entry. Entry i begins at number FERRYSPRIG_ENTRY_NUMBERS * i of the list. */
enum {
    FERRYSPRIG_ENTRY_KIND = 0,  /* FERRYSPRIG_KIND_FRAME or FERRYSPRIG_KIND_GAP */
    FERRYSPRIG_ENTRY_PLACE = 1, /* the first byte, counted from the capture's first */
    FERRYSPRIG_ENTRY_LENGTH = 2 /* in bytes */
};
#define FERRYSPRIG_ENTRY_NUMBERS 3

enum {
    FERRYSPRIG_KIND_FRAME = 0, /* a frame that parsing accepts there; its bytes were written to `out` */
    FERRYSPRIG_KIND_GAP = 1    /* bytes at none of which parsing accepts a frame */
};

/* Entries that no list of a capture of so many bytes exceeds: no gap follows another. */
#define FERRYSPRIG_MOST_ENTRIES(bytes) (2 * ((bytes) / FERRYSPRIG_LEAST_BYTES) + 1)

/* Goes through `capture` from byte 0. Where parsing accepts a frame it is written to `out`, behind those before it, and listed; the walk
   goes on after it. Elsewhere the walk moves one byte. What lies between frames, and before and after them, is listed as gaps. So the
   entries lie end to end from byte 0 to the capture's end, two gaps never follow each other, and a capture without a gap comes out the
   same. An empty capture has no entry.

   The walk stops, with what it has written, at the first of these: 37 where parsing answers 7; 36 where the list has no entry left; 35
   where `out` has too little left for a frame. At one frame this is also their order, but the gap before it is entered first, and that may
   give 36. With room for FERRYSPRIG_MOST_ROWS rows 37 is not given; nor is 36 with FERRYSPRIG_MOST_ENTRIES(capture_len) entries, nor 35
   with as many bytes as the capture has. After 35 or 36 the walk can go on with the part of the capture from the end of the last entry.

   `rows_len`, `list_len` and `out_len` count numbers, numbers and bytes. Numbers of the list past the entries, and bytes of `out` past
   those written, are not touched, on refusals too. `rows` is left as the parses of all places, in order, leave it. Any input is answered;
   `rows`, `list`, `out` and `answer` overlap nothing, so a capture cannot be salvaged in place. A frame that is accepted need not be sound:
   what parsing does not look at (mantissas, checksums, the frame's tail) may be damaged. */
void ferrysprig_salvage(const uint8_t *capture, size_t capture_len, int32_t *rows, size_t rows_len, size_t *list, size_t list_len,
                        uint8_t *out, size_t out_len, size_t answer[FERRYSPRIG_SALVAGE_ANSWER_NUMBERS]);

/* Packed listings: the text that the listing program prints, in the binary form that a log collector takes, and back. A listing is any
   number of rows of nine numbers and a last line, `audio` with three numbers or `refused` with five; docs/FORMAT.md has both forms byte by
   byte. Going back returns the exact start, both ways, and every listing has one packed form, which is proved. */

/* The numbers of an answer about a packed listing. */
enum {
    FERRYSPRIG_PACK_ANSWER_REFUSAL = 0, /* 0: done; else 40 to 46, see FERRYSPRIG_MEANINGS */
    FERRYSPRIG_PACK_ANSWER_WRITTEN = 1  /* how many bytes were written to the front of `out`; 0 on a refusal */
};
#define FERRYSPRIG_PACK_ANSWER_NUMBERS 2

/* Writes the packed form of a listing to the front of `out`; as many bytes as the text has are always enough. All of `listing` is the text.
   The first refusal that is met in reading is given: 40 at a byte with which no listing goes on, 42 at the digit that makes a number greater
   than 2,147,483,647, 43 where the input ends too early, 44 at a byte after the last line; and 45, `out` is too short, only where there is no
   other. Any input is answered; `out` and `answer` overlap nothing. Bytes of `out` past those written are not touched, and none is on a
   refusal. */
void ferrysprig_pack(const uint8_t *listing, size_t listing_len, uint8_t *out, size_t out_len,
                     size_t answer[FERRYSPRIG_PACK_ANSWER_NUMBERS]);

/* Writes the text of a packed listing to the front of `out`; four times the bytes of `packed` are always enough. All of `packed` is the
   listing. The first refusal that is met in reading is given: 41 at a last group of 0 that is not a number's only one, 42 at the group that
   makes a number greater than 2,147,483,647, 43 where the input ends too early, 44 at a byte after the listing, 46 at the end of a row count
   of -1 or of a number for `audio` or `refused` that is neither 0 nor 1; and 45, `out` is too short, only where there is no other. Any input
   is answered; `out` and `answer` overlap nothing. Bytes of `out` past those written are not touched, and none is on a refusal. */
void ferrysprig_unpack(const uint8_t *packed, size_t packed_len, uint8_t *out, size_t out_len,
                       size_t answer[FERRYSPRIG_PACK_ANSWER_NUMBERS]);

/* An index beside a capture: its frames with their places and levels, extended as the capture grows. */

/* The numbers of an answer about an index. */
enum {
    FERRYSPRIG_INDEX_ANSWER_REFUSAL = 0, /* 0: made or extended; else 37, 55 or 56, see FERRYSPRIG_MEANINGS */
    FERRYSPRIG_INDEX_ANSWER_ENTRIES = 1  /* how many entries the index has; on a refusal those that were given */
};
#define FERRYSPRIG_INDEX_ANSWER_NUMBERS 2

/* The numbers of an entry of an index. Entry i begins at number FERRYSPRIG_INDEX_ENTRY_NUMBERS * i. */
enum {
    FERRYSPRIG_INDEX_ENTRY_PLACE = 0,     /* the frame's first byte, counted from the capture's first */
    FERRYSPRIG_INDEX_ENTRY_LENGTH = 1,    /* in bytes */
    FERRYSPRIG_INDEX_ENTRY_ACMOD = 2,
    FERRYSPRIG_INDEX_ENTRY_DIALNORM = 3,  /* of the first programme, or the only one */
    FERRYSPRIG_INDEX_ENTRY_DIALNORM2 = 4  /* of the second, which there is with acmod 0; else 0 */
};
#define FERRYSPRIG_INDEX_ENTRY_NUMBERS 5

/* Frames that no capture of so many bytes exceeds. */
#define FERRYSPRIG_MOST_FRAMES(bytes) ((bytes) / FERRYSPRIG_LEAST_BYTES)

/* Makes the index of `capture` (`entries` is 0), or extends the one whose `entries` stand at the front of `index`, after bytes were
   appended to its capture. The frames are those of ferrysprig_salvage's walk, from the end of the last entry on or from byte 0, before the
   first place where parsing answers 1 or 4: those two refusals alone can change when bytes come. With the same room for rows an index that
   was extended is the one that is made afresh, however the bytes came. To extend costs by what was appended: nothing before the last
   entry's place is looked at.

   The refusals are given in this order, and 37 anywhere in the walk comes before 55: 56 where parsing at the last entry's place does not
   give that entry, its five numbers (so the capture is another one), or answers 7, or where more entries are given than `index` has room
   for; 37 where parsing answers 7 at a place of the walk; 55 where `index` has no room for all. On a refusal no number of `index` is
   touched, and otherwise those of the new entries alone. With room for FERRYSPRIG_MOST_ROWS rows 37 is not given; nor is 55 with
   FERRYSPRIG_MOST_FRAMES of the bytes after the last entry.

   `rows_len` and `index_len` count numbers; the index has room for index_len / FERRYSPRIG_INDEX_ENTRY_NUMBERS entries. `rows` is left as the
   parses, at the last entry and then in the walk, leave it. Any input is answered; `rows`, `index` and `answer` overlap nothing. */
void ferrysprig_index(const uint8_t *capture, size_t capture_len, int32_t *rows, size_t rows_len, size_t *index, size_t index_len,
                      size_t entries, size_t answer[FERRYSPRIG_INDEX_ANSWER_NUMBERS]);

#ifdef __cplusplus
}
#endif

#endif
