/* From the drive to the data and to the log the right way: words and map are moved, the record is read, and what is read back
 * of its log is moved to the drive's order; then words and map are moved by a card, and the record is read and copied from 800.
 * Each macro names what is handed over in one place; with another there, of the wrong order, words for a card, maps or bytes for
 * a copy's characters and words, or smaller numbers for the counts, this must not compile. C and C++ alike. */
#include "rindthok.h"

#ifndef READ_WITH
#define READ_WITH maps
#endif
#ifndef READ_BACKWARD_WITH
#define READ_BACKWARD_WITH maps
#endif
#ifndef LOGGED_WITH
#define LOGGED_WITH maps
#endif
#ifndef LOGGED_BACKWARD_WITH
#define LOGGED_BACKWARD_WITH maps
#endif
#ifndef LOG_READ_TO
#define LOG_READ_TO marks
#endif
#ifndef READ_COUNTED_TO
#define READ_COUNTED_TO counts
#endif
#ifndef READ_BACKWARD_COUNTED_TO
#define READ_BACKWARD_COUNTED_TO counts
#endif
#ifndef LOG_COUNTED_TO
#define LOG_COUNTED_TO counts
#endif
#ifndef READ800_COUNTED_TO
#define READ800_COUNTED_TO counts
#endif
#ifndef READ800_BACKWARD_COUNTED_TO
#define READ800_BACKWARD_COUNTED_TO counts
#endif
#ifndef COPY_COUNTED_TO
#define COPY_COUNTED_TO counts
#endif
#ifndef COPY_BACKWARD_COUNTED_TO
#define COPY_BACKWARD_COUNTED_TO counts
#endif
#ifndef MOVED
#define MOVED drive_map.physical
#endif
#ifndef TO_ALGEBRAIC
#define TO_ALGEBRAIC maps
#endif
#ifndef TO_PHYSICAL
#define TO_PHYSICAL drive_maps
#endif
#ifndef WORDS_TO_PHYSICAL_BY
#define WORDS_TO_PHYSICAL_BY card
#endif
#ifndef WORDS_TO_ALGEBRAIC_BY
#define WORDS_TO_ALGEBRAIC_BY card
#endif
#ifndef MAP_TO_PHYSICAL_BY
#define MAP_TO_PHYSICAL_BY card
#endif
#ifndef MAP_TO_ALGEBRAIC_BY
#define MAP_TO_ALGEBRAIC_BY card
#endif
#ifndef CARD_MOVED_TO_ALGEBRAIC
#define CARD_MOVED_TO_ALGEBRAIC drive_map.physical
#endif
#ifndef CARD_MOVED_TO_PHYSICAL
#define CARD_MOVED_TO_PHYSICAL maps[0].algebraic
#endif
#ifndef CARD_TO_ALGEBRAIC
#define CARD_TO_ALGEBRAIC maps
#endif
#ifndef CARD_TO_PHYSICAL
#define CARD_TO_PHYSICAL drive_maps
#endif
#ifndef INVERTED
#define INVERTED card
#endif
#ifndef INVERSE_TO
#define INVERSE_TO inverse
#endif
#ifndef COPIED_FROM
#define COPIED_FROM characters
#endif
#ifndef COPIED_TO
#define COPIED_TO copy_forward
#endif
#ifndef COPIED_BACKWARD_FROM
#define COPIED_BACKWARD_FROM last_first
#endif
#ifndef COPIED_BACKWARD_TO
#define COPIED_BACKWARD_TO copy_backward
#endif

/* The types change no layout. */
typedef char physical_is_a_number[sizeof(rindthok_physical_map) == sizeof(uint16_t) ? 1 : -1];
typedef char algebraic_is_a_number[sizeof(rindthok_algebraic_map) == sizeof(uint16_t) ? 1 : -1];

static const uint8_t data[1] = {0x01}, card[9] = {1, 4, 7, 8, 3, 6, 0, 2, 5};
static const rindthok_physical_map drive_map = {(1 << 3) | (1 << 6)};
static uint16_t code[9], head[9], words[9], turned[9], by_card[9], numbers[1];
static uint16_t characters[3], last_first[3], copy_forward[9], copy_backward[9];
static rindthok_physical_map drive_maps[1];
static rindthok_algebraic_map maps[1], marks[1];
static uint8_t bytes[6], log_forward[3], log_backward[3], inverse[9];
static size_t groups, size, track, changes, length, place, counts[9];

/* Whether the counts tell that tracks 0 and 8 were changed so often, and no other track was; then they start again at 7. */
static int counted(size_t first, size_t last)
{
    int k, due = 1;

    for (k = 0; k < 9; k++) {
        if (counts[k] != (k == 0 ? first : k == 8 ? last : 0))
            due = 0;
        counts[k] = 7;
    }
    return due;
}

/* Reads what the drive gives, two tracks of it damaged; 0, or the step that went wrong. */
static int read_record(void)
{
    if (rindthok_write6250(data, 1, code, 9, &groups, &place) != 0)
        return 1;
    if (rindthok_words_to_physical(code, 9, head, 9, &place) != 0)
        return 2;
    head[3] = 825;
    head[6] = 825;
    if (rindthok_words_to_algebraic(head, 9, words, 9, &place) != 0)
        return 3;
    if (rindthok_map_to_algebraic(MOVED, TO_ALGEBRAIC, &place) != 0 || maps[0].algebraic != 257)
        return 4;
    if (rindthok_read6250_forward(words, 9, READ_WITH, 1, bytes, 6, &size, &changes, READ_COUNTED_TO, &place) != 0)
        return 5;
    return size == 1 && changes == 2 && counted(1, 1) && bytes[0] == data[0] ? 0 : 6;
}

/* The nine words of the group as they pass the head backward: the ten bits of each reversed. */
static void turn(void)
{
    int k, bit;

    for (k = 0; k < 9; k++)
        for (bit = 0; bit < 10; bit++)
            turned[k] = (uint16_t)(turned[k] << 1 | (words[k] >> bit & 1));
}

/* The log of one group in which tracks 0 and 8 were changed. */
static int is_due(const uint8_t *log)
{
    return length == 3 && log[0] == 1 && log[1] == 1 && log[2] == 1;
}

/* Writes the log of that reading, both ways, and moves what is read back of it to the drive's order. */
static int write_log(void)
{
    if (rindthok_log6250_forward(words, 9, LOGGED_WITH, 1, log_forward, 3, &length, &place) != 0 || !is_due(log_forward))
        return 7;
    turn();
    if (rindthok_read6250_backward(turned, 9, READ_BACKWARD_WITH, 1, bytes, 6, &size, &changes, READ_BACKWARD_COUNTED_TO, &place) != 0)
        return 8;
    if (changes != 2 || !counted(1, 1))
        return 24;
    if (rindthok_log6250_backward(turned, 9, LOGGED_BACKWARD_WITH, 1, log_backward, 3, &length, &place) != 0 || !is_due(log_backward))
        return 9;
    if (rindthok_read_log(1, log_backward, length, LOG_READ_TO, 1, LOG_COUNTED_TO, &place) != 0 || !counted(1, 1))
        return 10;
    if (rindthok_map_to_physical(marks[0].algebraic, TO_PHYSICAL, &place) != 0)
        return 11;
    return drive_maps[0].physical == drive_map.physical ? 0 : 12;
}

/* Whether the nine words that came are these. */
static int are_due(const uint16_t *came, const uint16_t *expected)
{
    int k;

    for (k = 0; k < 9; k++)
        if (came[k] != expected[k])
            return 0;
    return 1;
}

/* Moves the words and the drive's map by the standard card, as they were moved without one, and inverts it. */
static int move_by_card(void)
{
    int k;

    maps[0].algebraic = 0;
    drive_maps[0].physical = 0;
    if (rindthok_card_words_to_algebraic(WORDS_TO_ALGEBRAIC_BY, 9, head, 9, by_card, 9, &place) != 0 || !are_due(by_card, words))
        return 13;
    if (rindthok_card_words_to_physical(WORDS_TO_PHYSICAL_BY, 9, words, 9, by_card, 9, &place) != 0 || !are_due(by_card, head))
        return 14;
    if (rindthok_card_map_to_algebraic(MAP_TO_ALGEBRAIC_BY, 9, CARD_MOVED_TO_ALGEBRAIC, CARD_TO_ALGEBRAIC, &place) != 0)
        return 15;
    if (rindthok_card_map_to_physical(MAP_TO_PHYSICAL_BY, 9, CARD_MOVED_TO_PHYSICAL, CARD_TO_PHYSICAL, &place) != 0)
        return 16;
    if (maps[0].algebraic != 257 || drive_maps[0].physical != drive_map.physical)
        return 17;
    if (rindthok_inverse_card(INVERTED, 9, INVERSE_TO, &place) != 0)
        return 18;
    for (k = 0; k < 9; k++)
        if (inverse[card[k]] != k)
            return 19;
    return 0;
}

/* Writes the same data's record at 800 and makes track 8 of its byte's character wrong. */
static int write_at_800(void)
{
    int k;

    if (rindthok_write800(data, 1, characters, 3, &length, &place) != 0)
        return 20;
    characters[0] ^= 256;
    for (k = 0; k < 3; k++)
        last_first[k] = characters[2 - k];
    return 0;
}

/* Reads that record, both ways. */
static int read_at_800(void)
{
    if (rindthok_read800_forward(characters, 3, bytes, 1, &size, &track, &changes, READ800_COUNTED_TO, &place) != 0 || !counted(0, 1))
        return 25;
    if (rindthok_read800_backward(last_first, 3, bytes, 1, &size, &track, &changes, READ800_BACKWARD_COUNTED_TO, &place) != 0)
        return 26;
    return counted(0, 1) && track == 8 && changes == 1 ? 0 : 27;
}

/* Copies it, both ways, to the words that were written. */
static int copy_record(void)
{
    if (rindthok_copy800_forward(COPIED_FROM, 3, COPIED_TO, 9, &size, &track, &changes, COPY_COUNTED_TO, &groups, &place) != 0)
        return 21;
    if (!counted(0, 1))
        return 28;
    if (rindthok_copy800_backward(COPIED_BACKWARD_FROM, 3, COPIED_BACKWARD_TO, 9, &size, &track, &changes, COPY_BACKWARD_COUNTED_TO, &groups, &place) != 0)
        return 22;
    if (!counted(0, 1))
        return 29;
    return are_due(copy_forward, code) && are_due(copy_backward, code) ? 0 : 23;
}

int main(void)
{
    int step = read_record();

    (void)numbers;
    if (step == 0)
        step = write_log();
    if (step == 0)
        step = move_by_card();
    if (step == 0)
        step = write_at_800();
    if (step == 0)
        step = read_at_800();
    return step != 0 ? step : copy_record();
}
