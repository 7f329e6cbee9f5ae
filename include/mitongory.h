/*
 * Mitongory: exact search for a pattern of bits, some of which may be wild, in a text of packed bits, by five methods, or
 * for a set of patterns in one pass, a file format for lists of positions, and the marking of such lists against a key.
 *
 * These are the calls of the static library libmitongory.a for x86-64 Linux, which needs the C library and nothing else.
 * `make lib` builds it and `make install` installs it. A program is then built by
 *
 *     cc program.c $(pkg-config --cflags --libs mitongory)
 *
 * Example. It lists every occurrence with a list of two cells: a call goes on where the call before it stopped.
 *
 *     #include <stdio.h>
 *     #include <mitongory.h>
 *
 *     int main(void)
 *     {
 *         static const uint8_t text[] = {0xcb, 0x2c, 0xb2, 0xcb, 0x00}; // 33 bits: 110010 five times, then 110
 *         static const uint8_t pattern[] = {0xcb, 0x2c, 0xb0};          // 21 bits: 110010 three times, then 110
 *         static const uint8_t fixed[] = {255, 255, 255};               // no bit of the pattern is wild
 *         static uint64_t scratch[MITONGORY_SCRATCH_CELLS];
 *         uint64_t answer[MITONGORY_ANSWER_CELLS] = {0}, i;
 *         uint32_t list[2] = {0}, mark = 0, result;
 *
 *         do {
 *             result = mitongory_search(text, sizeof text, 33, pattern, sizeof pattern, fixed, sizeof fixed, 21,
 *                                       MITONGORY_HASH, mark, UINT32_MAX, list, 2, scratch, MITONGORY_SCRATCH_CELLS,
 *                                       answer, MITONGORY_ANSWER_CELLS);
 *             if (result != MITONGORY_OK) {
 *                 fprintf(stderr, "%s\n", mitongory_result_text(result));
 *                 return 1;
 *             }
 *             for (i = 0; i < answer[MITONGORY_OCCURRENCES]; i++)
 *                 printf("place %lu\n", (unsigned long)list[i]);
 *             mark = (uint32_t)answer[MITONGORY_MARK];
 *         } while (answer[MITONGORY_STOP] == MITONGORY_FULL);
 *         return 0;
 *     }
 *
 * It prints
 *
 *     place 0
 *     place 6
 *     place 12
 *
 * Results. Every call takes any numbers and buffers of any length, and returns 0 (MITONGORY_OK) or the number of a
 * refusal, the first in the order given at the call. A refused call changes nothing. An accepted call writes its answer
 * to the first cells of `answer` and leaves the others. What each call returns, and what every buffer holds afterwards, is
 * proved for every input (crates/capi/specs). These declarations are checked by no proof, only by tests.
 *
 * Buffers. A buffer is a pointer and then its length in elements (not in bytes). The caller sees to it that
 *   - a buffer of length k has k elements at the pointer, aligned for their type, readable, and writable where the
 *     pointer is not const, in at most 2^63 - 1 bytes;
 *   - every element is initialized, with any value: no call trusts what it finds in a buffer that it writes;
 *   - a buffer that is written (the pointer is not const) overlaps no other buffer of the same call; two that are only
 *     read may overlap or be the same;
 *   - nothing else, such as another thread or a signal handler, writes to a buffer, or reads one that is written, until
 *     the call returns.
 * With length 0 the pointer may be anything, NULL too: the library forms an address from a pointer only where an index is
 * below the length, so it reads and writes nothing there.
 * Nothing outside the buffers is read or written. No call keeps a pointer, allocates memory or has state of its own, so
 * calls on separate buffers may run at the same time.
 *
 * Bits. Bit p of a run of bytes is the bit of weight 2^(7 - p mod 8) in byte p div 8: the leftmost bit of a byte comes
 * first. Bits from the bit count on never matter. A place is a bit number, counted from 0.
 *
 * Patterns. A pattern of m bits is two runs of bytes, both packed so: `pattern` has the values of the bits, and `fixed` has
 * a 1 for each bit that is fixed and a 0 for each that is wild. A fixed bit agrees with its own value only, a wild bit with
 * 0 and with 1. The value that `pattern` has at a wild bit never matters. For a pattern without wild bits `fixed` is bytes
 * of 255. The patterns of a set lie one after the other in two such runs, each from the byte after the last one of the
 * pattern before it on: a pattern of m bits takes ceil(m / 8) bytes of both.
 */
#ifndef MITONGORY_H
#define MITONGORY_H

#include <stddef.h>
#include <stdint.h>

#ifdef __cplusplus
extern "C" {
#endif

/* The version of this header. */
#define MITONGORY_VERSION_MAJOR 0
#define MITONGORY_VERSION_MINOR 8
#define MITONGORY_VERSION_PATCH 0
#define MITONGORY_VERSION_NUMBER \
    (MITONGORY_VERSION_MAJOR * 10000 + MITONGORY_VERSION_MINOR * 100 + MITONGORY_VERSION_PATCH)
#define MITONGORY_VERSION "0.8.0"

/*
 * The version of the library, as a number. The name holds the version of the interface, so that a program that was
 * compiled for one interface links with no other.
 */
uint32_t mitongory_version_0_8(void);

static inline uint32_t mitongory_version(void)
{
    return mitongory_version_0_8();
}

#ifdef __GNUC__
/*
 * Every program refers to the function, also one that never asks for the version. (A linker that is told to drop unused
 * data, by --gc-sections, drops this reference too.)
 */
static uint32_t (*const mitongory_version_needed)(void) __attribute__((used)) = mitongory_version_0_8;
#endif

/*
 * The cells in `scratch` that are enough for a search by every method, whatever the pattern: the largest figure that
 * mitongory_scratch_cells tells. And the cells that a search, for a pattern or for a set, needs in `answer`.
 */
#define MITONGORY_SCRATCH_CELLS 4222
#define MITONGORY_ANSWER_CELLS 4

/* The most patterns of a set. */
#define MITONGORY_MOST_PATTERNS 64

/* The most sheets of a sitting, and the cells that it needs in `report` for each sheet, and in `answer`. */
#define MITONGORY_SHEETS 256
#define MITONGORY_SHEET_CELLS 3

/* The cells that a read of eight bits needs in `answer`. A call that is neither that nor a search nor a sitting needs one. */
#define MITONGORY_EIGHT_CELLS 2

/* What a call returns. 1 to 18 are the numbers of the requirements; 100 and 101 exist only in this interface. */
enum mitongory_result {
    MITONGORY_OK = 0,
    MITONGORY_TEXT_TOO_LONG = 1,         /* n above 2^30 */
    MITONGORY_TEXT_BYTES_MISSING = 2,    /* fewer text bytes than n bits take */
    MITONGORY_PATTERN_LENGTH = 3,        /* m is 0 or above 2048 */
    MITONGORY_PATTERN_BYTES_MISSING = 4, /* fewer pattern bytes than m bits take; a set's run ends before a pattern does */
    MITONGORY_PATTERN_UNFIT = 5,         /* m below 8 for hash and H, below 15 for skip, above 64 for tail */
    MITONGORY_BEYOND_END = 6,            /* mark above the number of places */
    MITONGORY_SCRATCH_TOO_SHORT = 7,     /* fewer cells than the method takes for m, see mitongory_scratch_cells */
    MITONGORY_LIST_NOT_RISING = 8,       /* a list of positions that does not rise strictly, or holds 2^30 or more */
    MITONGORY_TARGET_TOO_SHORT = 9,      /* fewer target bytes than the list's file has; fewer than three report cells a sheet */
    MITONGORY_FILE_ENDS_EARLY = 10,      /* the file ends early */
    MITONGORY_NUMBER_NOT_SHORTEST = 11,  /* a number of the file is not in the fewest groups */
    MITONGORY_NUMBER_TOO_LARGE = 12,     /* a number above 2^30, or a position of 2^30 or more */
    MITONGORY_BYTES_LEFT_OVER = 13,      /* bytes are left over after the list */
    MITONGORY_CELLS_MISSING = 14,        /* fewer cells than the file's count, and the file is good */
    MITONGORY_TOO_MANY_SHEETS = 15,      /* more than MITONGORY_SHEETS sheets */
    MITONGORY_COUNTS_DIFFER = 16,        /* the counts of the sheets do not add up to sheets_len */
    MITONGORY_FIXED_BYTES_MISSING = 17,  /* fewer bytes of `fixed` than m bits take; a set's `fixed` ends before a pattern does */
    MITONGORY_SET_SIZE = 18,             /* no patterns, or more than MITONGORY_MOST_PATTERNS */
    MITONGORY_UNKNOWN_METHOD = 100,      /* the method is none of enum mitongory_method */
    MITONGORY_ANSWER_CELLS_MISSING = 101 /* fewer answer cells than the call needs */
};

/* A sentence that says what a result means, for any number; never NULL. */
static inline const char *mitongory_result_text(uint32_t result)
{
    switch (result) {
    case MITONGORY_OK: return "The call was accepted.";
    case MITONGORY_TEXT_TOO_LONG: return "The text has more than 2^30 bits.";
    case MITONGORY_TEXT_BYTES_MISSING: return "The text has fewer bytes than its bits take.";
    case MITONGORY_PATTERN_LENGTH: return "The pattern has no bits, or more than 2048.";
    case MITONGORY_PATTERN_BYTES_MISSING: return "The pattern has fewer bytes than its bits take.";
    case MITONGORY_PATTERN_UNFIT:
        return "The pattern's length does not fit the method: hash and H need 8 bits or more, skip 15 or more, "
               "tail 64 or fewer.";
    case MITONGORY_BEYOND_END: return "The mark is above the number of places.";
    case MITONGORY_SCRATCH_TOO_SHORT: return "The scratch has fewer cells than the method takes for the pattern.";
    case MITONGORY_LIST_NOT_RISING: return "A list of positions does not rise strictly, or holds 2^30 or more.";
    case MITONGORY_TARGET_TOO_SHORT:
        return "The target has fewer bytes than the list's file, or the report fewer than three cells for each sheet.";
    case MITONGORY_FILE_ENDS_EARLY: return "The file ends early.";
    case MITONGORY_NUMBER_NOT_SHORTEST: return "A number of the file is not in the fewest groups.";
    case MITONGORY_NUMBER_TOO_LARGE: return "A number of the file is above 2^30, or a position is 2^30 or more.";
    case MITONGORY_BYTES_LEFT_OVER: return "Bytes are left over after the list.";
    case MITONGORY_CELLS_MISSING: return "There are fewer cells than the file's count.";
    case MITONGORY_TOO_MANY_SHEETS: return "There are more than 256 sheets.";
    case MITONGORY_COUNTS_DIFFER: return "The counts of the sheets do not add up to the number of their positions.";
    case MITONGORY_FIXED_BYTES_MISSING: return "The run of fixed bits has fewer bytes than the pattern's bits take.";
    case MITONGORY_SET_SIZE: return "There are no patterns, or more than 64.";
    case MITONGORY_UNKNOWN_METHOD: return "The method is none of the five.";
    case MITONGORY_ANSWER_CELLS_MISSING: return "There are fewer answer cells than the call needs.";
    default: return "No call returns this number.";
    }
}

/* The five methods of a search. They find the same places; their steps differ. */
enum mitongory_method {
    MITONGORY_PLAIN = 0,
    MITONGORY_HASH = 1, /* for patterns of 8 bits or more */
    MITONGORY_SKIP = 2, /* for patterns of 15 bits or more */
    MITONGORY_WIDE = 3,
    MITONGORY_TAIL = 4 /* for patterns of 64 bits or fewer */
};

/* The answer cells of an accepted search, for a pattern or for a set. */
enum mitongory_answer {
    MITONGORY_STEPS = 0,       /* steps made, at most the budget; a step that a full list cuts is not counted */
    MITONGORY_OCCURRENCES = 1, /* how many places, or pairs for a set, were written to the front of the list */
    MITONGORY_MARK = 2,        /* the first place that is not yet decided: where the next call goes on */
    MITONGORY_STOP = 3         /* one of enum mitongory_stop */
};

/* How an accepted search stopped. */
enum mitongory_stop {
    MITONGORY_DONE = 0, /* every place is decided */
    MITONGORY_FULL = 1, /* a further occurrence is at the mark, and the list had no free cell for it; for a set, too few */
    MITONGORY_SPENT = 2 /* the budget of steps is spent */
};

/* The report cells of a sheet, and the answer cells of a sitting that is accepted. */
enum mitongory_marks {
    MITONGORY_RIGHT = 0,          /* positions of the key that are on the sheet */
    MITONGORY_MISSED = 1,         /* positions of the key only */
    MITONGORY_FALSE_POSITIVES = 2 /* positions of the sheet only */
};

/*
 * Lists, from the mark on and rising, the occurrences of a pattern of m bits in the first n bits of `text`, as far as the
 * budget of steps and the cells of the list go. A first call has the mark 0; a later one goes on from
 * answer[MITONGORY_MARK]. An occurrence is a place from which m bits of the text, all before bit n, agree with the bits of
 * the pattern: a pattern all of whose bits are wild occurs at every place. Occurrences may overlap. No search makes more
 * than 2^30 steps, so a budget of UINT32_MAX is never spent.
 *
 * Where an occurrence finds no free cell, the step that came to it is cut short and not counted, and the call stops with
 * MITONGORY_FULL and the mark at that occurrence. The next call's step from there counts as usual, unless it is cut too. So
 * the steps of all calls of a search from mark 0 are together at most the last mark. A call can stop with MITONGORY_FULL
 * and no step made: it may have written places and moved the mark all the same. With no free cell and an occurrence at the
 * mark it stops so with the mark where it was, and going on with an empty list would never end. With a free cell and a
 * budget of one step or more a call moves the mark or is done.
 *
 *   text      packed bits, as `pattern` and `fixed`; there may be more bytes of each than the bit counts need, and what is
 *             in them never matters
 *   pattern   the values of the pattern's bits; any at a wild bit
 *   fixed     1 for a fixed bit of the pattern, 0 for a wild one; bytes of 255 for a pattern without wild bits
 *   method    one of enum mitongory_method
 *   list      any length; the places go to its front, and the other cells stay
 *   scratch   with any content, at least as many cells as mitongory_scratch_cells tells for the method and m;
 *             MITONGORY_SCRATCH_CELLS are always enough. After an accepted call the cells before that figure hold nothing of
 *             use, and those from it on stay. More cells than needed change no answer.
 *   answer    at least MITONGORY_ANSWER_CELLS cells: steps, occurrences, mark, stop
 *
 * Returns 0, or the first of 100, 101, 1, 2, 3, 4, 17, 5, 6, 7 that applies.
 */
uint32_t mitongory_search(const uint8_t *text, size_t text_len, uint64_t n,
                          const uint8_t *pattern, size_t pattern_len,
                          const uint8_t *fixed, size_t fixed_len, uint64_t m,
                          uint32_t method, uint32_t mark, uint32_t budget,
                          uint32_t *list, size_t list_len,
                          uint64_t *scratch, size_t scratch_len,
                          uint64_t *answer, size_t answer_len);

/*
 * Lists, from the mark on, the occurrences of 1 to MITONGORY_MOST_PATTERNS patterns in the first n bits of `text`, in one
 * pass, as far as the budget of steps and the cells of the list go. An occurrence is as for a search. It is listed as a
 * pair of its place and the pattern's number, counted from 0, which takes two cells, the place first. The pairs rise by
 * place, and at one place by number. Two patterns that are equal have the same places, each under its own number. Mark,
 * budget and the ways to stop are those of a search. A pattern of m bits has n - m + 1 places, or none where m is above n;
 * the set has as many as the one with the most of them, the shortest.
 *
 * A step decides one place for all patterns, and moves the mark by one. Where the occurrences of a place do not all find
 * free cells, none of them is written, the step is not counted, and the call stops with MITONGORY_FULL and the mark at that
 * place. So the steps of all calls from mark 0 are together at most the last mark. A list of two cells for each pattern
 * always has room for one place, so that a call with a budget of one step or more moves the mark or is done; with fewer
 * cells, going on may never end.
 *
 *   text       packed bits, as `patterns` and `fixed`; there may be more bytes of each than the bit counts need, and what
 *              is in them never matters
 *   patterns   the values of the bits of all patterns, each pattern from the byte after the one before it on
 *   fixed      1 for a fixed bit and 0 for a wild one, laid out as `patterns`
 *   counts     how many bits each pattern has; counts_len is the number of patterns
 *   list       any length; the pairs go to its front, and the other cells stay. An odd cell at its end is not used.
 *   answer     at least MITONGORY_ANSWER_CELLS cells: steps, occurrences (pairs), mark, stop
 *
 * No scratch is lent: each call makes its tables anew, in about 12 KiB of its stack.
 *
 * Returns 0, or the first that applies of 101, 1, 2, 18, then 3, 4, 17 for each pattern in turn, then 6. A pattern gets 4
 * or 17 where that run ends before the pattern's last byte. 6 is for a mark above the number of places of the set.
 */
uint32_t mitongory_search_set(const uint8_t *text, size_t text_len, uint64_t n,
                              const uint8_t *patterns, size_t patterns_len,
                              const uint8_t *fixed, size_t fixed_len,
                              const uint64_t *counts, size_t counts_len,
                              uint32_t mark, uint32_t budget,
                              uint32_t *list, size_t list_len,
                              uint64_t *answer, size_t answer_len);

/*
 * How many cells of scratch a search by the method takes for a pattern of m bits, whichever of them are wild. answer[0] is
 * that figure:
 *
 *   plain   16 * ceil((m + 7) / 8)
 *   hash    512
 *   skip    256 + m
 *   wide    2 * (63 + m)
 *   tail    2
 *
 * A search with the same method and m is never refused with 7 where `scratch` has so many cells or more, and never
 * accepted where it has fewer.
 *
 * Returns 0, or the first of 100, 101, 3, 5 that applies.
 */
uint32_t mitongory_scratch_cells(uint32_t method, uint64_t m, uint64_t *answer, size_t answer_len);

/*
 * The hash method's H(B) of a pattern of m bits for an eight-bit value B: the least d from 0 to m such that bit
 * m - 8 - d + j of the pattern agrees with bit j of B (bit 0 leftmost) for each j from 0 to 7 with m - 8 - d + j >= 0.
 * answer[0] is H(B). `pattern` and `fixed` are as for a search.
 *
 * Returns 0, or the first of 101, 3, 4, 17, 5 that applies.
 */
uint32_t mitongory_hash_value(const uint8_t *pattern, size_t pattern_len,
                              const uint8_t *fixed, size_t fixed_len, uint64_t m, uint8_t value,
                              uint64_t *answer, size_t answer_len);

/* The answer cells of an accepted read of eight bits. */
enum mitongory_eight {
    MITONGORY_BYTE = 0, /* the bits, the first one leftmost, and zeros for those that do not lie before n */
    MITONGORY_COUNT = 1 /* how many of them lie before n: the least of 8 and n - place, or 0 where place is n or more */
};

/*
 * The eight bits from bit number `place` on, of the first n bits of `text`: any bit number is accepted. Where the count is
 * 8, all of them lie inside. Bits from n on never show, whatever the bytes hold there.
 *
 * Returns 0, or the first of 101, 1, 2 that applies.
 */
uint32_t mitongory_eight_bits(const uint8_t *text, size_t text_len, uint64_t n, uint32_t place,
                              uint64_t *answer, size_t answer_len);

/*
 * How many bytes the file of a position list has. answer[0] is that count.
 *
 * Returns 0, or the first of 101, 8 that applies.
 */
uint32_t mitongory_list_size(const uint32_t *list, size_t list_len, uint64_t *answer, size_t answer_len);

/*
 * Writes the file of a position list to the front of `target`; the bytes after it stay. answer[0] is the file's byte count.
 *
 * Returns 0, or the first of 101, 8, 9 that applies.
 */
uint32_t mitongory_list_write(const uint32_t *list, size_t list_len, uint8_t *target, size_t target_len,
                              uint64_t *answer, size_t answer_len);

/*
 * Reads the position list of a whole file into the front of `cells`; the cells after it stay. answer[0] is the list's
 * count. Only what mitongory_list_write makes is accepted. The count and each position take a byte or more, so file_len - 1
 * cells are enough for every good file, and no cells for a file of one byte or none.
 *
 * Returns 0, or 101 first, or the first fault of the file from front to back, 10 to 13, or last 14 for a good file with a
 * count above cells_len. The fault of a bad file does not depend on the cells. So a call with no cells tells whether a file
 * is good: 14, or 0 for that of the empty list. The time grows with the file's bytes and not with its count.
 */
uint32_t mitongory_list_read(const uint8_t *file, size_t file_len, uint32_t *cells, size_t cells_len,
                             uint64_t *answer, size_t answer_len);

/*
 * Marks a sitting: up to MITONGORY_SHEETS sheets against one key. The key is a list of positions, and so is each sheet.
 * For each sheet in turn the report gets three cells, in the order of enum mitongory_marks: right, missed, false positives.
 * The answer gets their sums over all sheets. Right + missed is the key's length, and right + false positives the sheet's.
 * Where the key is the list of all occurrences of a pattern, right counts the occurrences that are on the sheet. With no
 * sheets the sums are 0, and the key is judged all the same.
 *
 *   key      positions below 2^30 that rise strictly
 *   sheets   the positions of all sheets, one sheet after the other; each sheet rises by itself, as the key does
 *   counts   how many positions each sheet has, 0 or more; their sum is sheets_len
 *   report   at least MITONGORY_SHEET_CELLS cells for each sheet; the cells after those stay
 *   answer   at least MITONGORY_SHEET_CELLS cells
 *
 * Returns 0, or the first of 101, 15, 16, 8, 9 that applies. A sum of counts that does not fit 64 bits gets 16 too.
 */
uint32_t mitongory_mark_sitting(const uint32_t *key, size_t key_len,
                                const uint32_t *sheets, size_t sheets_len,
                                const uint64_t *counts, size_t counts_len,
                                uint32_t *report, size_t report_len,
                                uint64_t *answer, size_t answer_len);

#ifdef __cplusplus
}
#endif

#endif
