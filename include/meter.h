/*
 * The traffic meter: SALSA Count-Min with sum merging over 32-bit FNV-1a. Link with libmeter_c.a.
 *
 * A meter is a lent memory with the depth d (rows, 1 to 8) and the width w (slots of a row, a power of two from 32 to 16,384) that
 * it was cleared with. The memory is exactly METER_SIZE(d, w) bytes long, of any alignment; it holds neither d nor w.
 *
 * There are two kinds of meter. One that meter_clear cleared counts amounts that only grow. One that meter_signed_clear cleared
 * counts amounts of either sign, in a Count Sketch: its calls are those with meter_signed_ in their names, and its d is odd. A
 * meter's kind, like its d and w, is what it was cleared as, and its memory does not hold it: a call of the other kind, like one
 * told another d or w, is no call on that meter.
 *
 * Every call ends, whatever is in the memory, the key and the words, and returns a number, one of enum meter_number. It writes
 * *place and *figure always. METER_ACCEPTED, 0, is acceptance. Any other number says why the call was refused; then the figure is
 * 0 and every lent byte and word is as before. So test every number: only of an accepted call the figure says anything.
 *
 * The first number that applies is returned, in this order: 1, 2, 12, 3 and 4 for the call's own d, w, lengths and key; then the
 * words, of which the first faulty one decides, by 8, 9 and 10, then in a feed's head by 1 and 2 and for a record's key length by
 * 4; then 5, 13, 11, 6 and 7. A number of any group that the call reads comes before a later one of every other. The place is an
 * index, from 0, into the lent words where a word is at fault, else 0; a missing word's index is the number of words lent.
 *
 * What the caller owes: a pointer points to as many bytes or words as the length beside it says, place and figure to one number
 * each and merges to four bytes. No pointer is null, also where the length is 0. Words are aligned for uint32_t, place and figure
 * for uint64_t. What a call may write overlaps nothing else that it is given. A memory or a list is used by one call at a time.
 */
#ifndef METER_H
#define METER_H

#include <stddef.h>
#include <stdint.h>

/* The largest w. */
#define METER_LARGEST_WIDTH 16384

/* The bytes of a meter's memory, and the most words that its image has; constants where d and w are. */
#define METER_SIZE(d, w) ((size_t)(d) * ((size_t)(w) + (size_t)(w) / 8))
#define METER_IMAGE_WORDS(d, w) ((size_t)(d) * (size_t)(w) + (size_t)(d) * (size_t)(w) / 32 + 2)

/* d and w in the figure of an accepted meter_feed_head. The head of an image is the same word. */
#define METER_HEAD_D(figure) ((size_t)((figure) & 15))
#define METER_HEAD_W(figure) ((size_t)1 << (((figure) >> 4) & 31))

/* A watch list is METER_WATCH_SIZE lent bytes, of any alignment. It has places for METER_WATCH_PLACES keys. Byte i is the length of
 * the key at place i, 0 from the first free place on; byte METER_WATCH_MARK is the mark, 0 or 1. The key at place i starts at byte
 * METER_WATCH_KEY(i), its estimate, eight bytes, lowest first, at METER_WATCH_ESTIMATE(i). */
#define METER_WATCH_PLACES 64
#define METER_WATCH_MARK 64
#define METER_WATCH_KEY(i) (65 + 64 * (size_t)(i))
#define METER_WATCH_ESTIMATE(i) (4161 + 8 * (size_t)(i))
#define METER_WATCH_SIZE 4673

#ifdef __cplusplus
extern "C" {
#endif

enum meter_number {
    /* The place is 0. The figure is the estimate, the widest level, the layout code, the payload of a feed's head or the count of
     * an image's words, written or read; else 0. */
    METER_ACCEPTED = 0,
    /* d is not 1 to 8. */
    METER_DEPTH = 1,
    /* w is not a power of two from 32 to 16,384. */
    METER_WIDTH = 2,
    /* A lent memory, the target's or the source's, has another length than d * w * 9 / 8, or a watch list another than 4,673. */
    METER_LENGTH = 3,
    /* The key length is not 1 to 64. */
    METER_KEY_LENGTH = 4,
    /* A merge byte of a group that the call reads is not one of the 26 valid ones; or a watch list breaks its layout: a key length
     * above 64, a length other than 0 after a 0, or a mark above 1. */
    METER_CONTENT = 5,
    /* An update, a union or a difference would make a counter of 64 bits overflow: 2^64 or more, in a signed meter a magnitude of
     * 2^63 or more. */
    METER_COUNTER_FULL = 6,
    /* The lent words are fewer than the image has. */
    METER_TOO_FEW_WORDS = 7,
    /* A word is missing, has a kind that is not due there, or follows an image's end. */
    METER_WORD = 8,
    /* A payload breaks a rule of its kind; or a layout code to unpack is 456,976 or more. */
    METER_PAYLOAD = 9,
    /* An image's head is sound but has another d or w than the call. */
    METER_OTHER_GEOMETRY = 10,
    /* The threshold is 0. Tested after 5 and before 6. */
    METER_ZERO_THRESHOLD = 11,
    /* d of a signed meter is even. Tested after 2 and before 3. */
    METER_EVEN_DEPTH = 12,
    /* A counter of a signed meter, in a group that the call reads, holds minus zero: its top bit and no other. Tested after 5 and
     * before 6. */
    METER_MINUS_ZERO = 13
};

/* A number in words. */
static inline const char *meter_text(uint32_t number) {
    switch (number) {
    case METER_ACCEPTED:
        return "accepted";
    case METER_DEPTH:
        return "the depth is not 1 to 8";
    case METER_WIDTH:
        return "the width is not a power of two from 32 to 16,384";
    case METER_LENGTH:
        return "a memory's length is not d * w * 9 / 8, or a watch list's not 4,673";
    case METER_KEY_LENGTH:
        return "the key length is not 1 to 64";
    case METER_CONTENT:
        return "a merge byte or a watch list is not valid";
    case METER_COUNTER_FULL:
        return "a counter of 64 bits would overflow";
    case METER_TOO_FEW_WORDS:
        return "the lent words are too few for the image";
    case METER_WORD:
        return "a word is missing, not due there, or follows the end";
    case METER_PAYLOAD:
        return "a payload breaks a rule of its kind";
    case METER_OTHER_GEOMETRY:
        return "an image or a source is of another depth or width";
    case METER_ZERO_THRESHOLD:
        return "the threshold is 0";
    case METER_EVEN_DEPTH:
        return "the depth of a signed meter is even";
    case METER_MINUS_ZERO:
        return "a counter of a signed meter holds minus zero";
    default:
        return "no number of this library";
    }
}

/* Sets every byte of the memory to 0, whatever it was. Gives 0 to 3. */
uint32_t meter_clear(size_t d, size_t w, uint8_t *memory, size_t memory_len, uint64_t *place, uint64_t *figure);

/* Adds an amount to the key's counter in each row, or in none. Gives 0 to 6. */
uint32_t meter_update(size_t d, size_t w, uint8_t *memory, size_t memory_len, const uint8_t *key, size_t key_len,
                      uint32_t amount, uint64_t *place, uint64_t *figure);

/* The figure is the least of the key's counters. Gives 0 to 5. */
uint32_t meter_estimate(size_t d, size_t w, const uint8_t *memory, size_t memory_len, const uint8_t *key, size_t key_len,
                        uint64_t *place, uint64_t *figure);

/* The figure is the largest level of any counter: 0, 1, 2, 3 for 8, 16, 32, 64 bits. Gives 0 to 3 and 5. */
uint32_t meter_widest(size_t d, size_t w, const uint8_t *memory, size_t memory_len, uint64_t *place, uint64_t *figure);

/* Adds a source meter of the same d and w into the memory. The source is only read. Gives 0 to 3, 5 and 6. */
uint32_t meter_unite(size_t d, size_t w, uint8_t *memory, size_t memory_len, const uint8_t *source, size_t source_len,
                     uint64_t *place, uint64_t *figure);

/* The figure is the layout code of four merge bytes, below 456,976. Gives 0 and 5. */
uint32_t meter_pack(uint8_t m0, uint8_t m1, uint8_t m2, uint8_t m3, uint64_t *place, uint64_t *figure);

/* Writes the four merge bytes of a layout code; four zeros when refused. Gives 0 and 9. */
uint32_t meter_unpack(uint32_t code, uint8_t *merges /* exactly 4 */, uint64_t *place, uint64_t *figure);

/* Writes the meter's image into the lent words; words past it stay. The figure is the count of its words. An image has at most
 * METER_IMAGE_WORDS(d, w) words. Gives 0 to 3, 5 and 7. */
uint32_t meter_image_write(size_t d, size_t w, const uint8_t *memory, size_t memory_len, uint32_t *words, size_t words_len,
                           uint64_t *place, uint64_t *figure);

/* Restores a meter from the words of its image: the lent words are exactly one image. The figure is their count. Gives 0 to 3
 * and 8 to 10. */
uint32_t meter_image_read(size_t d, size_t w, uint8_t *memory, size_t memory_len, const uint32_t *words, size_t words_len,
                          uint64_t *place, uint64_t *figure);

/* The head of a feed, the first of the lent words; no word after it is looked at. The figure of an accepted head is its payload:
 * d in the low four bits, log2 w in the next five (METER_HEAD_D, METER_HEAD_W). Gives 0, 1, 2, 8 and 9. */
uint32_t meter_feed_head(const uint32_t *words, size_t words_len, uint64_t *place, uint64_t *figure);

/* Carries out one record or the end of a feed, which starts at the first of the lent words; no word after it is looked at. Before
 * is how many words of the feed came before. The figure is the estimate for an asking record, else 0. An update record takes
 * 3 + n words and an asking record 1 + n, n being the key length divided by 3, rounded up; the end takes one. Gives 0 to 6, 8
 * and 9. */
uint32_t meter_feed_record(size_t d, size_t w, uint8_t *memory, size_t memory_len, uint64_t before, const uint32_t *words,
                           size_t words_len, uint64_t *place, uint64_t *figure);

/* How many words the record or the end takes that starts at the first of the lent words: where the next record starts. It gives no
 * number and writes nothing; of a record with a faulty word it says nothing. */
size_t meter_feed_taken(const uint32_t *words, size_t words_len);

/* Sets every byte of a watch list to 0, whatever it was: no key, no mark. Gives 0 and 3. */
uint32_t meter_watch_clear(uint8_t *list, size_t list_len, uint64_t *place, uint64_t *figure);

/* An update of the meter that the list takes note of, or no change of either. If the key is listed, its estimate becomes what the
 * update left in the memory, whatever the threshold. If it is not and that estimate is at or above the threshold, it joins the list
 * after all others; where no place is free it sets the mark instead, which stays until the list is cleared. Gives 0 to 6 and 11. */
uint32_t meter_watch_update(size_t d, size_t w, uint8_t *memory, size_t memory_len, uint8_t *list, size_t list_len,
                            const uint8_t *key, size_t key_len, uint32_t amount, uint64_t threshold, uint64_t *place,
                            uint64_t *figure);

/* Takes a key off a watch list; those after it move up by one place. Changes nothing where the key is not listed. Gives 0 and 3
 * to 5. */
uint32_t meter_watch_remove(uint8_t *list, size_t list_len, const uint8_t *key, size_t key_len, uint64_t *place, uint64_t *figure);

/* A signed meter has the memory of a meter with the same d and w, and d is 1, 3, 5 or 7. The top bit of a counter is its sign,
 * set for minus, and the others are its magnitude; 0 is plus. A key has a sign in each row. */

/* Sets every byte of a signed meter's memory to 0, whatever it was. Gives 0 to 3 and 12. */
uint32_t meter_signed_clear(size_t d, size_t w, uint8_t *memory, size_t memory_len, uint64_t *place, uint64_t *figure);

/* Adds an amount, times the key's sign in the row, to the key's counter in each row, or in none. Gives 0 to 6, 12 and 13. */
uint32_t meter_signed_update(size_t d, size_t w, uint8_t *memory, size_t memory_len, const uint8_t *key, size_t key_len,
                             int32_t amount, uint64_t *place, uint64_t *figure);

/* The figure is the median of the key's counters, each times the key's sign in its row. Gives 0 to 5, 12 and 13. */
uint32_t meter_signed_estimate(size_t d, size_t w, const uint8_t *memory, size_t memory_len, const uint8_t *key, size_t key_len,
                               uint64_t *place, int64_t *figure);

/* Adds a source, a signed meter of the same d and w, into the memory. The source is only read. Gives 0 to 3, 5, 6, 12 and 13. */
uint32_t meter_signed_unite(size_t d, size_t w, uint8_t *memory, size_t memory_len, const uint8_t *source, size_t source_len,
                            uint64_t *place, uint64_t *figure);

/* Takes a source, a signed meter of the same d and w, away from the memory; to take a meter away from itself, lend a copy. The
 * source is only read. Gives 0 to 3, 5, 6, 12 and 13. */
uint32_t meter_signed_subtract(size_t d, size_t w, uint8_t *memory, size_t memory_len, const uint8_t *source, size_t source_len,
                               uint64_t *place, uint64_t *figure);

#ifdef __cplusplus
}
#endif

#endif
