/*
 * The library `outside` (target/staticlib/liboutside.a) for C and C++: every chain of kinship between two persons of a link file, and
 * every ring that leads back to one.
 *
 * Every function is total: any bytes, any numbers get an answer or a refusal, and no caller has to check anything beforehand.
 *
 * Slices. A slice is a pointer and its length in elements. Cells are 32-bit numbers aligned to 4 bytes; a file is bytes at any
 * address. An empty slice may come with any pointer, NULL too. Slices lent to one call do not overlap. Nothing is kept after a call.
 *
 * Question. Its eight numbers are eight arguments, always in this order: from, to (persons, counted from 0), hops (1 to 8), classes
 * (the sum of those that count: 1 parent, child or sibling, 2 spouse, 4 same person, 8 named together), meaning (1 the day of the
 * event, 2 the day of registration), first and last day (1 to 3652059), undated (1 if links without a day count, 0 if they are left
 * out). For chains from and to are two persons, for rings one: from and to are the same.
 *
 * Record. A chain is KIN_RECORD_CELLS cells: its hops, then hops + 1 persons, then zeros. So is a ring, which has its person first and
 * again at its end. An output has room for its length divided by ten, rounded down.
 *
 * Started. 0 is a fresh start, any other number is started. On a fresh start the bookmark isn't looked at, of whatever length.
 *
 * Held listing. KIN_HELD_CELLS lent cells: the eight numbers of the question, started, the record of the last chain handed over. It
 * lists chains; who lists rings keeps the record of the last one.
 * One that moved on has 1 in its started cell; otherwise that cell stays as it was. One stored before version 2, when a question had
 * no undated, has KIN_STORED_HELD_CELLS cells: the seven other numbers, started, the record. It is lent as it was stored, is read with
 * undated 1, never gets 20, and is moved on in its own cells.
 *
 * Refusal. A refusal is 2^63 + number * 2^32 + place. kin_refusal_words says what a number means; docs/REFUSALS.md also says what the
 * place tells and what to do. After a refusal every lent cell is as it came.
 *
 * Stack. Nothing is allocated, and what a call takes of the stack doesn't grow with the file or the listing. A thread that calls
 * should have at least 128 KB of it: the join takes some 48 KB, also where it refuses at once (docs/MEASUREMENTS.md has the figures).
 *
 * Threads. The library has no state of its own: any number of threads may call at once, each with an output, working cells and a held
 * listing of its own. Files and bookmarks are only read; the same one may be lent to all, if nobody changes it meanwhile. Who lends
 * the same output, working cells or held listing to two threads at once has a data race.
 *
 * Version. The first number rises when a program that used the version before has to be changed or an answer changes, the second when
 * something is added, the third otherwise.
 */
#ifndef KIN_H
#define KIN_H

#include <stddef.h>
#include <stdint.h>

#define KIN_VERSION "2.1.0"
#define KIN_VERSION_MAJOR 2
#define KIN_VERSION_MINOR 1
#define KIN_VERSION_PATCH 0

#ifdef __cplusplus
extern "C" {
#endif

enum {
    KIN_RECORD_CELLS = 10,
    KIN_HELD_CELLS = 19,
    /* Of one stored before version 2. */
    KIN_STORED_HELD_CELLS = 18,
    /* The most bytes a link file has; a reader that takes one byte more sees that a file is too long. */
    KIN_LONGEST_FILE = 53348
};

/*
 * Checks a file. Answers persons + links * 2^16 + feeds * 2^32, to be taken apart by kin_persons, kin_links and kin_feeds.
 * Refusals 1 to 9. Changes no lent cell.
 */
uint64_t kin_check(const uint8_t *file, size_t file_length);

/*
 * Answers the length in bytes of the row view, the part of the file that holds a person's links, 12 bytes each. It is 0 for a person
 * without links, for a person who isn't in the file and for a refused file; no refusal number comes with it, kin_check tells which.
 * Changes no lent cell.
 */
uint64_t kin_row(const uint8_t *file, size_t file_length, uint32_t person);

/*
 * Answers the fewest hops from a person to the question's To over admitted links, or hops + 1 if there is no way in at most hops.
 * Refusals 1 to 15 and 20; 10 with place 2 is the person. Changes no lent cell.
 */
uint64_t kin_fewest(const uint8_t *file, size_t file_length,
                    uint32_t from, uint32_t to, uint32_t hops, uint32_t classes,
                    uint32_t meaning, uint32_t first, uint32_t last, uint32_t undated,
                    uint32_t person);

/*
 * Lists the first chains after the bookmark, or from the beginning if started is 0, in dictionary order, as many as the output has
 * room for. Answers count + ended * 2^62, to be taken apart by kin_count and kin_ended: how many chains, and whether none follows.
 * Refusals 1 to 17 and 20. Changes the first 10 * count cells of the output and no other lent cell; on a refusal none.
 */
uint64_t kin_portion(const uint8_t *file, size_t file_length,
                     uint32_t from, uint32_t to, uint32_t hops, uint32_t classes,
                     uint32_t meaning, uint32_t first, uint32_t last, uint32_t undated,
                     uint32_t started, const uint32_t *bookmark, size_t bookmark_length,
                     uint32_t *output, size_t output_length);

/*
 * Lists the first rings of a person after the bookmark, or from the beginning if started is 0, in dictionary order, as many as the
 * output has room for. A ring is 2 to hops admitted hops from the person back to that person, all others different from it and from
 * each other; there is none in 1 hop. The person is both from and to. Answers as kin_portion does.
 * Refusals 1 to 10, 12 to 17, 20 and 21. Changes the first 10 * count cells of the output and no other lent cell; on a refusal none.
 */
uint64_t kin_rings(const uint8_t *file, size_t file_length,
                   uint32_t from, uint32_t to, uint32_t hops, uint32_t classes,
                   uint32_t meaning, uint32_t first, uint32_t last, uint32_t undated,
                   uint32_t started, const uint32_t *bookmark, size_t bookmark_length,
                   uint32_t *output, size_t output_length);

/*
 * Moves a held listing on by a portion. Answers and refuses as kin_portion does, a stored one as with undated 1. If it is lent
 * neither KIN_HELD_CELLS nor KIN_STORED_HELD_CELLS cells it answers 2^63, a refusal of number 0, before anything else is looked at.
 * Changes the first 10 * count cells of the output and, with chains written, the started cell (to 1) and the record (to the last
 * chain) of the held listing; with none written, and on a refusal, no lent cell.
 */
uint64_t kin_held(uint32_t *held, size_t held_length,
                  const uint8_t *file, size_t file_length,
                  uint32_t *output, size_t output_length);

/*
 * Lists by joining half chains, shorter chains first, in dictionary order among those of the same hops. Answers as kin_portion does.
 * Refusals 1 to 16, 18 and 20. Changes the first 10 * count cells of the output and as many working cells as the records of all half
 * chains take, also if there is no chain; on a refusal no lent cell.
 */
uint64_t kin_join(const uint8_t *file, size_t file_length,
                  uint32_t from, uint32_t to, uint32_t hops, uint32_t classes,
                  uint32_t meaning, uint32_t first, uint32_t last, uint32_t undated,
                  uint32_t *working, size_t working_length,
                  uint32_t *output, size_t output_length);

/* Any answer: whether it is a refusal, and if so its number and its place. */
static inline int kin_refused(uint64_t answer) { return (int)(answer >> 63); }
static inline uint32_t kin_refusal_number(uint64_t answer) { return (uint32_t)(answer >> 32) & 0x7fffffffu; }
static inline uint32_t kin_refusal_place(uint64_t answer) { return (uint32_t)answer; }

/* What a refusal number means, in the words of docs/REFUSALS.md, which has 0 to 21; empty for any other number. */
static inline const char *kin_refusal_words(uint32_t number) {
    static const char *const words[] = {
        "The held listing is neither of 19 cells nor, as one stored before, of 18.",
        "The file is shorter than 32 bytes, or it does not begin with the mark KLF1.",
        "A count in the file's header is outside its limits: 1 to 1,024 persons, 0 to 4,096 links, 0 to 16 feeds.",
        "An offset or the length in the file's header does not follow from the counts, or the length is not that of the bytes "
        "handed over.",
        "A feed's archive number is 0 or not above the one before it, or the feed's last byte is not 0.",
        "A feed's date meaning is neither 1, the day of the event, nor 2, the day of registration.",
        "The row table does not start at 0, falls somewhere, or does not end at the link count.",
        "A link's target is not in the file, is the row's own person or is not above the target before it in the row, or the "
        "link's feed index is not below the feed count, or its last byte is not 0.",
        "A link's kind is unknown: known are 1 to 5 and 16 to 31.",
        "A link's day is above 3,652,059, which is 31 December 9999.",
        "A person asked about is not in the file.",
        "From and To are the same person.",
        "The hops asked for are not 1 to 8.",
        "The classes asked for are not a sum of classes, 1 to 15.",
        "The date meaning asked for is neither 1, the day of the event, nor 2, the day of registration.",
        "The first day asked for is 0, the last day is above 3,652,059, or the first day is above the last.",
        "The output has fewer than ten cells, so there is no room for one chain or ring.",
        "The bookmark is not ten cells, or it is not the record of a chain or ring of this listing.",
        "The working cells hold fewer records than there are half chains.",
        "The program's input is shorter than 32 bytes, so there is no whole question in it.",
        "The number that says whether undated links count is neither 1, they count, nor 0, they are left out.",
        "From and To are different persons, and rings lead back to the same one."
    };
    return number < sizeof words / sizeof *words ? words[number] : "";
}

/* The answer of kin_check, if it is no refusal. */
static inline uint32_t kin_persons(uint64_t answer) { return (uint32_t)answer & 0xffffu; }
static inline uint32_t kin_links(uint64_t answer) { return (uint32_t)answer >> 16; }
static inline uint32_t kin_feeds(uint64_t answer) { return (uint32_t)(answer >> 32); }

/* The answer of kin_portion, kin_rings, kin_held or kin_join, if it is no refusal. */
static inline size_t kin_count(uint64_t answer) { return (size_t)(answer & 0x3fffffffffffffffu); }
static inline int kin_ended(uint64_t answer) { return (int)(answer >> 62 & 1); }

#ifdef __cplusplus
}
#endif

#endif
