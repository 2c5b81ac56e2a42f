/* Rindthok: records of nine-track tape, copies of them from 800 to 6250, logs of what was corrected in them, and numbers
 * between head order and code order.
 *
 * Each call returns 0 for a delivery, or the number of a refusal, and stores the refusal's place
 * through `place`, or 0. Any lengths and any values may be passed: bad input is refused.
 * A refusal leaves every output as it was. A delivery writes its result at the front of the output
 * and nothing behind it. That, and all that is said of each call below, is proved of the library: the promise of
 * every call is `Called`, in crates/rindthok/specs, with the notice's three terms.
 *
 * Two orders. The drive counts physical tracks, 1 to 9, and the code algebraic tracks, 0 to 8. Writers and readers
 * know code order only. What comes from the drive is moved first, by the calls at the end: the words, and the
 * pointer maps as well. A map that is left in head order points at other tracks, and a damaged record may then be
 * delivered with false data, though every promise holds. So the maps of the two orders are two types, and a drive's
 * map that is handed to a reader does not compile.
 *
 * The caller passes valid pointers, each of which holds for the length beside it; what is written through one,
 * outputs and single numbers alike, overlaps nothing else that is passed. A pointer may be NULL where the length
 * beside it is 0. As an input it has no bytes, words, characters, maps or numbers, which is a record of empty data to
 * rindthok_write6250, is refused by 9 by rindthok_read_log, by 12 as a card, and by 1 everywhere else. As an output it has
 * no space, which is refused by 2, but for the maps of a log of no groups, which is refused by 9. A pointer with no length
 * beside it (`groups`, `size`, `counts`, `inverse`, `place` and the like) is never NULL.
 *
 * Places. 3: the lowest group with a stray word or map, the lowest stray character, or the lowest stray word of nine,
 * from 0; for a map by itself 0. 4 and 5: the lowest group, from 0, that has one of the two. 11: the lowest physical
 * track, from 1, whose number on the card is above 8 or stands on another track too. 1, 2, 6 to 10 and 12: 0. A backward
 * reading is turned forward first, so its places count from the record's beginning.
 *
 * Counts. `counts` tells a delivery's changes, or a log's marks, by track, in nine numbers: counts[a] is that of
 * algebraic track a, in code order and not in the head's. Where there is `changes`, it is their total. A refusal leaves
 * all nine as they were. The caller lends room for nine: a compiler need not see that an array is shorter.
 *
 * Stack, as measured on x86-64 from the call to the lowest byte touched: a read at 6250 takes 5,649 bytes, its log
 * 5,617, a log read back 88, a read at 800 at most 216, a copy of an 800 record at most 2,392, a write 120 at 6250 and
 * 64 at 800, a call between the orders 8, one by a card 144. Where the C library is bound lazily, the
 * first call of its memcpy or memset runs the linker on the same stack, which takes some thousands of bytes more; link
 * with -z now, or statically. The calls allocate nothing and keep no state, so any number of threads may make them.
 *
 * The programs beside the library end with status 0, always, unless a signal ends them: a script tells a refusal by
 * the first word of the output, and a failure by standard error.
 */
#ifndef RINDTHOK_H
#define RINDTHOK_H

#include <stddef.h>
#include <stdint.h>

#ifdef __cplusplus
extern "C" {
#endif

/* The refusals of document 01, "Where a call is turned down", and of document 02: 9 and 10 by request 2.1, 11
 * and 12 by request 2.4. */
enum rindthok_refusal {
    RINDTHOK_LENGTH = 1,          /* a length is outside the limits */
    RINDTHOK_SPACE = 2,           /* the output has too little space */
    RINDTHOK_STRAY_BITS = 3,      /* a word, character or map has a bit beyond its width */
    RINDTHOK_MANY_POINTED = 4,    /* three or more tracks of a group are pointed */
    RINDTHOK_NO_GROUP = 5,        /* no group of the code fits */
    RINDTHOK_PADDING = 6,         /* the padding is not as a writer leaves it */
    RINDTHOK_NO_RECORD = 7,       /* no written record fits */
    RINDTHOK_SEVERAL_RECORDS = 8, /* more than one written record fits */
    RINDTHOK_LOG_LENGTH = 9,      /* a log is not one of 1 to 586 groups, or its length does not suit them */
    RINDTHOK_LOG_CONTENT = 10,    /* a log has a spare bit, or a map of tracks that is 0 or above 511 */
    RINDTHOK_CARD_CONTENT = 11,   /* a card has a number above 8, or one that stands on two tracks */
    RINDTHOK_CARD_LENGTH = 12     /* a card does not have nine numbers */
};

/* A drive's pointer map, in head order: physical track p in bit p - 1. */
typedef struct rindthok_physical_map {
    uint16_t physical;
} rindthok_physical_map;

/* A map in code order, algebraic track i in bit i: the pointers that the readers take, the changed tracks of a log. */
typedef struct rindthok_algebraic_map {
    uint16_t algebraic;
} rindthok_algebraic_map;

/* An array of maps lies in memory as the numbers do. Older C compilers only warn where a pointer to another type, or a
 * number, is passed for a pointer, and take one map for the other; from here on they refuse it, as C++ and newer ones
 * do. An include between `diagnostic push` and `diagnostic pop` undoes this. */
#if !defined(__cplusplus) && (defined(__clang__) || (defined(__GNUC__) && __GNUC__ >= 5))
#pragma GCC diagnostic error "-Wincompatible-pointer-types"
#pragma GCC diagnostic error "-Wint-conversion"
#endif

/* Writes a 6250 record: 0 to 4101 bytes as groups of nine words in code order, tracks 0 to 8 of each, at the front of
 * `words`, and stores how many groups there are: one for each seven bytes, and one more. Track 8 records the
 * complement of the exclusive-or of the other eight, so that each nine-bit character has odd parity. Refusals: 1 if
 * there are more than 4101 bytes, 2 if the space is under nine words a group; `groups` is then as it was. */
uint16_t rindthok_write6250(const uint8_t *bytes, size_t byte_count, uint16_t *words, size_t word_space, size_t *groups, size_t *place);

/* Reads a 6250 record: nine words a group in code order, tracks 0 to 8, and a pointer map a group in code order too.
 * The one written record that fits is delivered: its data at the front of `output`, their length in `size`, in
 * `changes` how many words of the reading differ from it, and in `counts` how many of those each track has, algebraic
 * track a at index a; the sum is `changes`. An illegal word differs always, and a track that is pointed and right does
 * not. Backward, groups and maps come last first and each word's ten bits are reversed; the answer is that of the
 * forward reading, places and counts too. Refusals, from top to bottom: 1 if there are not nine words and one map for
 * each of 1 to 586 groups; 2 if the output has under 7 bytes a group, less 1; 3 if a word is above 1023 or a map above
 * 511; 4 if a group has three or more tracks pointed, by its map or by an illegal word, 5 if no group of the code fits
 * it, with the first such group as place; 6 if the padding is not as a writer leaves it. `size`, `changes`, all nine of
 * `counts` and `output` are then as they were.
 * Of a group that fits, the pointed tracks alone may differ, two at most; one track anywhere may with none pointed, and
 * with one that only its map points, its word being legal, since a drive may point at a healthy neighbour of the bad
 * track. Two wrong tracks whose words are legal, of which the map points at one only, are refused or taken for another
 * record, as two that nobody points at are.
 * A record whose track 8 has even parity, as it was written before document 02's request 2.2, reads with word 8 of
 * every group changed; with one more wrong track in a group it is refused or taken for another record. Exchange each
 * word 8 for the word of its byte's complement first. */
uint16_t rindthok_read6250_forward(const uint16_t *words, size_t word_count, const rindthok_algebraic_map *maps, size_t map_count, uint8_t *output, size_t output_space, size_t *size, size_t *changes, size_t counts[9], size_t *place);
uint16_t rindthok_read6250_backward(const uint16_t *words, size_t word_count, const rindthok_algebraic_map *maps, size_t map_count, uint8_t *output, size_t output_space, size_t *size, size_t *changes, size_t counts[9], size_t *place);

/* Writes the sense log of a 6250 reading, which is passed as to a reader; no data are written. A log is a bit map of
 * the groups, in forward order, group 0 in bit 0 of the first byte and spare bits zero; then, for each group whose
 * bit stands, two bytes, the low one first, with the map of the tracks whose words differ from the one written record
 * that fits, track i in bit i. A bit stands if that map is not zero; a track that is pointed and right is not in it.
 * The log stands at the front of `log`, and its length in `length`.
 * Refusals as a reader's, with the same places, but for 2: if the space is under a byte for every eight groups,
 * rounded up, and two bytes for every group. `length` and `log` are then as they were. */
uint16_t rindthok_log6250_forward(const uint16_t *words, size_t word_count, const rindthok_algebraic_map *maps, size_t map_count, uint8_t *log, size_t log_space, size_t *length, size_t *place);
uint16_t rindthok_log6250_backward(const uint16_t *words, size_t word_count, const rindthok_algebraic_map *maps, size_t map_count, uint8_t *log, size_t log_space, size_t *length, size_t *place);

/* Reads a log back with its group count: the map of the changed tracks of each group, in code order, at the front of
 * `maps`, and in `counts` the marks of each track, that is how many of these maps have its bit, algebraic track a at
 * index a. One set of changes has one log: what is read back, written again, gives the log, and a reading's own log
 * gives the reading's changes, and the counts that the reader tells.
 * Refusals, all with place 0, from top to bottom: 2 if the space is under one map a group, whatever their number; 9
 * if there are not 1 to 586 groups, or the length is not that of the bit map and two bytes for each of the groups'
 * bits that stand; 10 if a spare bit stands, or a map of tracks is 0 or above 511. `maps` and all nine of `counts` are
 * then as they were. */
uint16_t rindthok_read_log(size_t groups, const uint8_t *log, size_t log_length, rindthok_algebraic_map *maps, size_t map_space, size_t counts[9], size_t *place);

/* Writes an 800 record: 1 to 2048 bytes as characters of nine bits, then the check character and the
 * longitudinal character, at the front of `characters`, and stores how many there are: two more than bytes.
 * Refusals: 1 if there are not 1 to 2048 bytes, 2 if the space is short; `count` is then as it was. */
uint16_t rindthok_write800(const uint8_t *bytes, size_t byte_count, uint16_t *characters, size_t character_space, size_t *count, size_t *place);

/* Reads an 800 record. If exactly one written record differs from the reading in one track at most, it is
 * delivered: its data at the front of `output`, their length in `size`, in `track` the corrected track, 9 if
 * nothing differs, in `changes` how many characters differ, and in `counts` in how many of them each track does, algebraic
 * track a at index a. Only the corrected track's count can be above zero, and it is then `changes`. Backward, the
 * characters come last first; the answer is that of the forward reading, places and counts too. Refusals, from top to
 * bottom: 1 if there are not 3 to 2050 characters; 2 if the output has under two bytes less than there are characters;
 * 3 if a character is above 511; 7 if no written record fits; 8 if more than one does. All else, the nine counts among
 * it, is then as it was. */
uint16_t rindthok_read800_forward(const uint16_t *characters, size_t character_count, uint8_t *output, size_t output_space, size_t *size, size_t *track, size_t *changes, size_t counts[9], size_t *place);
uint16_t rindthok_read800_backward(const uint16_t *characters, size_t character_count, uint8_t *output, size_t output_space, size_t *size, size_t *track, size_t *changes, size_t counts[9], size_t *place);

/* Copies an 800 record onto a 6250 one: the record is read as by the calls above, forward or backward, and its data are
 * written as by rindthok_write6250, always forward, at the front of `words`. `size`, `track`, `changes` and `counts` are the
 * figures of the reading, and `groups` is the number of groups that are written: one for each seven bytes of data, and one
 * more.
 * What is written, read at 6250 either way with no pointer and space enough, is delivered with the data of the one 800
 * record that fits and with no change. Refusals as the 800 reader's, with the same places, but for 2: if `words` has under
 * nine words for each of those groups, where the data are two bytes fewer than there are characters. All else, the nine
 * counts among it, is then as it was. */
uint16_t rindthok_copy800_forward(const uint16_t *characters, size_t character_count, uint16_t *words, size_t word_space, size_t *size, size_t *track, size_t *changes, size_t counts[9], size_t *groups, size_t *place);
uint16_t rindthok_copy800_backward(const uint16_t *characters, size_t character_count, uint16_t *words, size_t word_space, size_t *size, size_t *track, size_t *changes, size_t counts[9], size_t *groups, size_t *place);

/* Nine words of ten bits from code order (algebraic track a at index a) to head order (physical track
 * p, 1 to 9, at index p - 1), by the standard card, 1 4 7 8 3 6 0 2 5, which is the order of document 000, note 11; and
 * back. The target has space for nine or more. Refusals: 1 if there are not nine words, 2 if the space is short, 3 if a
 * word is above 1023, with the index of the first such word as its place. */
uint16_t rindthok_words_to_physical(const uint16_t *source, size_t source_length, uint16_t *target, size_t target_length, size_t *place);
uint16_t rindthok_words_to_algebraic(const uint16_t *source, size_t source_length, uint16_t *target, size_t target_length, size_t *place);

/* A pointer map of nine bits from code order (algebraic track a in bit a) to head order (physical
 * track p in bit p - 1), by the standard card, and back. The map that is moved is passed as a number, as the drive's
 * register or the other type's field has it; what comes of it has the type of its order. Refusal: 3, with place 0, if
 * the map is above 511. */
uint16_t rindthok_map_to_physical(uint16_t map, rindthok_physical_map *moved, size_t *place);
uint16_t rindthok_map_to_algebraic(uint16_t map, rindthok_algebraic_map *moved, size_t *place);

/* The same by a wiring card, for a head that was rewired: nine numbers, 0 to 8, each once; card[p - 1] is the algebraic
 * track of physical track p. What is moved by a card is restored by moving it back by the same card, words and maps alike.
 * A good card need not be this head's: by another one words and maps go to other tracks, and nothing can tell. Words and
 * maps of one head go by one card. By the standard card these calls answer as those above do. The target is another array
 * than the source, here as above.
 * Refusals of words, from top to bottom: 12 if the card does not have nine numbers; 1; 2; 11 if a number is above 8 or
 * stands on two tracks, and its place is the lowest physical track, 1 to 9, that has such a number (of two equal numbers
 * the first one's track); 3. Of a map: 12, 11, 3. */
uint16_t rindthok_card_words_to_physical(const uint8_t *card, size_t card_length, const uint16_t *source, size_t source_length, uint16_t *target, size_t target_length, size_t *place);
uint16_t rindthok_card_words_to_algebraic(const uint8_t *card, size_t card_length, const uint16_t *source, size_t source_length, uint16_t *target, size_t target_length, size_t *place);
uint16_t rindthok_card_map_to_physical(const uint8_t *card, size_t card_length, uint16_t map, rindthok_physical_map *moved, size_t *place);
uint16_t rindthok_card_map_to_algebraic(const uint8_t *card, size_t card_length, uint16_t map, rindthok_algebraic_map *moved, size_t *place);

/* The inverse card: for algebraic tracks 0 to 8 the physical track less 1, so that inverse[a] is p - 1 where card[p - 1]
 * is a. Each good card has one, and is the inverse of its inverse. It is not needed to move back, for which the same card
 * is passed to the other call; the inverse card, passed to the other call, moves the first way once more. `inverse` is
 * another array than `card`. Refusals: 12, 11, with places as above; the nine numbers are then as they were. */
uint16_t rindthok_inverse_card(const uint8_t *card, size_t card_length, uint8_t inverse[9], size_t *place);

#ifdef __cplusplus
}
#endif

#endif
