/* What NULL with length 0 gets, as an input and as an output, of every call that takes lengths. C and C++ alike. */
#include <stdio.h>

#include "rindthok.h"

static int failed;
static size_t place;

/* Compares a status, and the place, which is 0 and starts again at 7. */
static void due(const char *what, uint16_t status, uint16_t expected)
{
    if (status != expected || place != 0) {
        printf("%s: %u %lu\n", what, (unsigned)status, (unsigned long)place);
        failed = 1;
    }
    place = 7;
}

/* Compares a figure, which starts at 7: a refusal leaves it. */
static void stored(const char *what, size_t figure, size_t expected)
{
    if (figure != expected) {
        printf("%s: stored %lu\n", what, (unsigned long)figure);
        failed = 1;
    }
}

/* The nine counts that a call is handed; they start at 10 to 18, and a refusal leaves them. */
static size_t counts[9];

static void lend_counts(void)
{
    int k;

    for (k = 0; k < 9; k++)
        counts[k] = 10 + (size_t)k;
}

static void kept_counts(const char *what)
{
    int k;

    for (k = 0; k < 9; k++)
        stored(what, counts[k], 10 + (size_t)k);
}

static void no_counts(const char *what)
{
    int k;

    for (k = 0; k < 9; k++)
        stored(what, counts[k], 0);
}

typedef uint16_t read6250(const uint16_t *, size_t, const rindthok_algebraic_map *, size_t, uint8_t *, size_t, size_t *,
                          size_t *, size_t[9], size_t *);
typedef uint16_t log6250(const uint16_t *, size_t, const rindthok_algebraic_map *, size_t, uint8_t *, size_t, size_t *,
                         size_t *);
typedef uint16_t read800(const uint16_t *, size_t, uint8_t *, size_t, size_t *, size_t *, size_t *, size_t[9], size_t *);
typedef uint16_t copy800(const uint16_t *, size_t, uint16_t *, size_t, size_t *, size_t *, size_t *, size_t[9], size_t *,
                         size_t *);
typedef uint16_t move(const uint16_t *, size_t, uint16_t *, size_t, size_t *);
typedef uint16_t card_move(const uint8_t *, size_t, const uint16_t *, size_t, uint16_t *, size_t, size_t *);

/* The standard card, and one that is refused by 11. */
static const uint8_t card[9] = {1, 4, 7, 8, 3, 6, 0, 2, 5}, bad_card[9] = {9};

static void write6250(uint16_t *words)
{
    size_t groups = 7;

    due("6250, no space", rindthok_write6250(NULL, 0, NULL, 0, &groups, &place), 2);
    stored("6250, no space", groups, 7);
    due("6250, no data", rindthok_write6250(NULL, 0, words, 9, &groups, &place), 0);
    stored("6250, no data", groups, 1);
    stored("6250, no data, P", words[8], 495);
}

static void reads6250(read6250 *read, const uint16_t *words)
{
    const rindthok_algebraic_map map[1] = {{0}};
    size_t size = 7, changes = 7;

    lend_counts();
    due("6250, nothing", read(NULL, 0, NULL, 0, NULL, 0, &size, &changes, counts, &place), 1);
    due("6250, no words", read(NULL, 0, map, 1, NULL, 0, &size, &changes, counts, &place), 1);
    due("6250, no map", read(words, 9, NULL, 0, NULL, 0, &size, &changes, counts, &place), 1);
    due("6250, no output", read(words, 9, map, 1, NULL, 0, &size, &changes, counts, &place), 2);
    stored("6250", size, 7);
    stored("6250", changes, 7);
    kept_counts("6250, counts");
}

static void logs6250(log6250 *log, const uint16_t *words)
{
    const rindthok_algebraic_map map[1] = {{0}};
    size_t length = 7;

    due("log, nothing", log(NULL, 0, NULL, 0, NULL, 0, &length, &place), 1);
    due("log, no words", log(NULL, 0, map, 1, NULL, 0, &length, &place), 1);
    due("log, no map", log(words, 9, NULL, 0, NULL, 0, &length, &place), 1);
    due("log, no space", log(words, 9, map, 1, NULL, 0, &length, &place), 2);
    stored("log", length, 7);
}

static void read_log(void)
{
    const uint8_t log[1] = {0};
    rindthok_algebraic_map maps[1] = {{7}};

    lend_counts();
    due("no groups, nothing", rindthok_read_log(0, NULL, 0, NULL, 0, counts, &place), 9);
    due("no groups, no log", rindthok_read_log(0, NULL, 0, maps, 1, counts, &place), 9);
    due("no log", rindthok_read_log(1, NULL, 0, maps, 1, counts, &place), 9);
    due("no space", rindthok_read_log(1, log, 1, NULL, 0, counts, &place), 2);
    due("no log, no space", rindthok_read_log(1, NULL, 0, NULL, 0, counts, &place), 2);
    due("no log, no space, too many groups", rindthok_read_log((size_t)-1, NULL, 0, NULL, 0, counts, &place), 2);
    stored("read log, refused", maps[0].algebraic, 7);
    kept_counts("read log, refused");
    due("a log without marks", rindthok_read_log(1, log, 1, maps, 1, counts, &place), 0);
    stored("a log without marks", maps[0].algebraic, 0);
    no_counts("a log without marks");
}

static void write800(void)
{
    const uint8_t byte[1] = {1};
    uint16_t characters[3] = {0};
    size_t count = 7;

    due("800, no data", rindthok_write800(NULL, 0, characters, 3, &count, &place), 1);
    due("800, no space", rindthok_write800(byte, 1, NULL, 0, &count, &place), 2);
    stored("800", count, 7);
}

static void reads800(read800 *read)
{
    const uint16_t characters[3] = {0};
    size_t size = 7, track = 7, changes = 7;

    lend_counts();
    due("800, nothing", read(NULL, 0, NULL, 0, &size, &track, &changes, counts, &place), 1);
    due("800, no output", read(characters, 3, NULL, 0, &size, &track, &changes, counts, &place), 2);
    stored("800", size, 7);
    stored("800", track, 7);
    stored("800", changes, 7);
    kept_counts("800, counts");
}

/* Copies the record of a byte 0, which is passed as it comes in the call's direction. */
static void copies800(copy800 *copy, const uint16_t *record)
{
    uint16_t words[9] = {7, 7, 7, 7, 7, 7, 7, 7, 7};
    size_t size = 7, track = 7, changes = 7, groups = 7;
    int k;

    lend_counts();
    due("copy, nothing", copy(NULL, 0, NULL, 0, &size, &track, &changes, counts, &groups, &place), 1);
    due("copy, no characters", copy(NULL, 0, words, 9, &size, &track, &changes, counts, &groups, &place), 1);
    due("copy, no words", copy(record, 3, NULL, 0, &size, &track, &changes, counts, &groups, &place), 2);
    stored("copy, refused", size, 7);
    stored("copy, refused", track, 7);
    stored("copy, refused", changes, 7);
    stored("copy, refused", groups, 7);
    kept_counts("copy, refused");
    for (k = 0; k < 9; k++)
        stored("copy, refused", words[k], 7);
    due("copy", copy(record, 3, words, 9, &size, &track, &changes, counts, &groups, &place), 0);
    stored("copy, size", size, 1);
    stored("copy, track", track, 9);
    stored("copy, changes", changes, 0);
    no_counts("copy, counts");
    stored("copy, groups", groups, 1);
}

static void moves(move *moved)
{
    uint16_t words[9] = {0};

    due("order, no words", moved(NULL, 0, words, 9, &place), 1);
    due("order, no target", moved(words, 9, NULL, 0, &place), 2);
}

/* A missing card is refused before anything else that is missing or bad, and a bad card after what is missing. */
static void card_moves(card_move *moved)
{
    const uint16_t words[9] = {0}, stray[1] = {1024};
    uint16_t target[9] = {7, 7, 7, 7, 7, 7, 7, 7, 7};
    int k;

    due("card, nothing", moved(NULL, 0, NULL, 0, NULL, 0, &place), 12);
    due("card, no card", moved(NULL, 0, words, 9, target, 9, &place), 12);
    due("card, no card, no words", moved(NULL, 0, NULL, 0, target, 9, &place), 12);
    due("card, no card, no target", moved(NULL, 0, words, 9, NULL, 0, &place), 12);
    due("card, no card, a stray word", moved(NULL, 0, stray, 1, target, 9, &place), 12);
    due("card, no words", moved(card, 9, NULL, 0, target, 9, &place), 1);
    due("card, no words, no target", moved(card, 9, NULL, 0, NULL, 0, &place), 1);
    due("card, no target", moved(card, 9, words, 9, NULL, 0, &place), 2);
    due("bad card, no words", moved(bad_card, 9, NULL, 0, target, 9, &place), 1);
    due("bad card, no target", moved(bad_card, 9, words, 9, NULL, 0, &place), 2);
    for (k = 0; k < 9; k++)
        stored("card, target", target[k], 7);
}

static void card_maps(void)
{
    rindthok_physical_map physical = {7};
    rindthok_algebraic_map algebraic = {7};

    due("map to physical, no card", rindthok_card_map_to_physical(NULL, 0, 1, &physical, &place), 12);
    due("stray map to physical, no card", rindthok_card_map_to_physical(NULL, 0, 512, &physical, &place), 12);
    stored("map to physical, no card", physical.physical, 7);
    due("map to algebraic, no card", rindthok_card_map_to_algebraic(NULL, 0, 1, &algebraic, &place), 12);
    due("stray map to algebraic, no card", rindthok_card_map_to_algebraic(NULL, 0, 512, &algebraic, &place), 12);
    stored("map to algebraic, no card", algebraic.algebraic, 7);
}

static void inverse_card(void)
{
    uint8_t inverse[9] = {7, 7, 7, 7, 7, 7, 7, 7, 7};
    int k;

    due("inverse, no card", rindthok_inverse_card(NULL, 0, inverse, &place), 12);
    for (k = 0; k < 9; k++)
        stored("inverse, no card", inverse[k], 7);
}

int main(void)
{
    const uint16_t record[3] = {256, 430, 174}, turned[3] = {174, 430, 256};
    uint16_t words[9] = {0};

    place = 7;
    write6250(words);
    reads6250(rindthok_read6250_forward, words);
    reads6250(rindthok_read6250_backward, words);
    logs6250(rindthok_log6250_forward, words);
    logs6250(rindthok_log6250_backward, words);
    read_log();
    write800();
    reads800(rindthok_read800_forward);
    reads800(rindthok_read800_backward);
    copies800(rindthok_copy800_forward, record);
    copies800(rindthok_copy800_backward, turned);
    moves(rindthok_words_to_physical);
    moves(rindthok_words_to_algebraic);
    card_moves(rindthok_card_words_to_physical);
    card_moves(rindthok_card_words_to_algebraic);
    card_maps();
    inverse_card();
    return failed;
}
