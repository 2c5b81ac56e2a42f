/* How much stack each call takes, on x86-64: from the call instruction to the lowest byte that is touched, on a stack that
 * was painted. It is painted in two colours by turns, so that a byte that is written in one of them shows in the other. */
#define _GNU_SOURCE
#include "rindthok.h"
#include <stdio.h>
#include <string.h>
#include <ucontext.h>

enum { STACK = 1 << 20, GROUPS = 586, WORDS = 9 * GROUPS, BYTES = 4101, BYTES800 = 2048, CHARACTERS = 2050 };

static unsigned char stack[STACK] __attribute__((aligned(64)));
static uint8_t bytes[BYTES], output[7 * GROUPS], log_bytes[3 * GROUPS], inverse[9];
static uint16_t words[WORDS], characters[CHARACTERS], turned[WORDS], nine[9];
static rindthok_algebraic_map maps[GROUPS];
enum { SIZES = 6 };
static const size_t sizes[SIZES] = {1, 80, 400, 500, BYTES800, BYTES};
static size_t byte_count, group_count, character_count, log_length, card_length, told[4], counts[9], place;
static const uint8_t *card;

/* What is called: the call that is measured, or what stands in for it and notes where the stack stands. */
static void (*volatile called)(void);
unsigned char *at_call;
extern void probe(void);
__asm__(".globl probe\nprobe:\n\tlea 8(%rsp), %rax\n\tmov %rax, at_call(%rip)\n\tret\n");

#define CALL(function) ((__typeof__(&function))called)
#define ANY(function) ((void (*)(void))function)

static void write6250(void) { CALL(rindthok_write6250)(bytes, byte_count, words, WORDS, told, &place); }
static void write800(void) { CALL(rindthok_write800)(bytes, byte_count, characters, CHARACTERS, told, &place); }
static void read6250(void) { CALL(rindthok_read6250_forward)(turned, 9 * group_count, maps, group_count, output, sizeof output, told, told + 1, counts, &place); }
static void log6250(void) { CALL(rindthok_log6250_forward)(turned, 9 * group_count, maps, group_count, output, sizeof output, told, &place); }
static void read_log(void) { CALL(rindthok_read_log)(group_count, log_bytes, log_length, maps, GROUPS, counts, &place); }
static void read800(void) { CALL(rindthok_read800_forward)(turned, character_count, output, sizeof output, told, told + 1, told + 2, counts, &place); }
static void copy800(void) { CALL(rindthok_copy800_forward)(turned, character_count, words, WORDS, told, told + 1, told + 2, counts, told + 3, &place); }
static void move_words(void) { CALL(rindthok_words_to_physical)(words, 9, nine, 9, &place); }
static void move_map(void) { CALL(rindthok_map_to_algebraic)(5, maps, &place); }
static void card_words(void) { CALL(rindthok_card_words_to_physical)(card, card_length, words, 9, nine, 9, &place); }
static void card_map(void) { CALL(rindthok_card_map_to_algebraic)(card, card_length, 5, maps, &place); }
static void inverse_card(void) { CALL(rindthok_inverse_card)(card, card_length, inverse, &place); }

/* Makes the call on the painted stack, and tells how many bytes below `at_call` it touched. */
static long touched(void (*call)(void), void (*function)(void), int colour) {
    ucontext_t here, there;
    long lowest = 0;
    memset(stack, colour, STACK);
    called = function;
    getcontext(&there);
    there.uc_stack.ss_sp = stack;
    there.uc_stack.ss_size = STACK;
    there.uc_link = &here;
    makecontext(&there, call, 0);
    swapcontext(&here, &there);
    while (stack[lowest] == colour)
        lowest++;
    return at_call - (stack + lowest);
}

static long most;

/* The most of two runs in each colour, of which the first does not count: in it the C library may set itself up. */
static void measure(void (*call)(void), void (*function)(void)) {
    int run;
    for (run = 0; run < 4; run++) {
        long bytes_touched;
        touched(call, probe, 0xa5);
        bytes_touched = touched(call, function, run % 2 ? 0xa5 : 0x5a);
        if (run > 1 && bytes_touched > most)
            most = bytes_touched;
    }
}

static void tell(const char *name) {
    printf("%-18s %ld\n", name, most);
    most = 0;
}

/* Data of up to so many bytes, written. */
static void writes(const char *name, size_t limit, void (*call)(void), void (*function)(void)) {
    size_t k;
    for (k = 0; k < SIZES && sizes[k] <= limit; k++) {
        byte_count = sizes[k];
        measure(call, function);
    }
    tell(name);
}

static uint16_t reversed(uint16_t word) {
    uint16_t result = 0;
    int k;
    for (k = 0; k < 10; k++)
        result = (uint16_t)(result << 1 | ((word >> k) & 1));
    return result;
}

/* The reading of a record of so many bytes at 6250: without error (0), with a wrong track and none (1), itself (2) or another one (3)
 * pointed, with two wrong and pointed (4), and to be refused (5). */
#define DAMAGES 6
static const uint16_t pointed[DAMAGES] = {0, 0, 16, 128, 17, 0};

static void damage_at_6250(size_t data, int backward, int damage) {
    size_t g, k;
    rindthok_write6250(bytes, data, words, WORDS, &group_count, &place);
    for (g = 0; g < group_count; g++) {
        maps[g].algebraic = pointed[damage];
        for (k = 0; k < 9; k++) {
            size_t from = backward ? group_count - 1 - g : g;
            int wrong = (damage > 0 && k == 4) || (damage > 3 && k == 0);
            uint16_t word = wrong ? 825 : words[9 * from + k];
            turned[9 * g + k] = backward ? reversed(word) : word;
        }
    }
}

/* The logs of readings of all lengths, read back: without a mark, with one or two in every group, and refused. */
static void read_logs(void) {
    int damage;
    size_t k;
    for (k = 0; k < SIZES; k++) {
        for (damage = 0; damage < DAMAGES - 1; damage++) {
            damage_at_6250(sizes[k], 0, damage);
            rindthok_log6250_forward(turned, 9 * group_count, maps, group_count, log_bytes, sizeof log_bytes, &log_length, &place);
            measure(read_log, ANY(rindthok_read_log));
            log_bytes[log_length - 1] = 2;
            measure(read_log, ANY(rindthok_read_log));
        }
    }
    tell("read log");
}

/* The reading of a record of so many bytes at 800: without error (0), with a wrong track (1), and to be refused (2). */
#define DAMAGES800 3

static void damage_at_800(size_t data, int backward, int damage) {
    size_t k;
    rindthok_write800(bytes, data, characters, CHARACTERS, &character_count, &place);
    for (k = 0; k < character_count; k++)
        turned[backward ? character_count - 1 - k : k] = characters[k];
    if (damage)
        turned[1] ^= 4;
    if (damage > 1)
        turned[2] ^= 8;
}

/* The readings at a density: of data of up to so many bytes, and of so many kinds, each made before it is read. */
struct density {
    size_t limit;
    int damages;
    void (*damage)(size_t, int, int);
};
static const struct density at6250 = {BYTES, DAMAGES, damage_at_6250}, at800 = {BYTES800, DAMAGES800, damage_at_800};

/* The readings at a density in one direction, as a call takes them. */
static void reads(const char *name, const struct density *density, int backward, void (*call)(void), void (*function)(void)) {
    size_t k;
    int damage;
    for (k = 0; k < SIZES && sizes[k] <= density->limit; k++) {
        for (damage = 0; damage < density->damages; damage++) {
            density->damage(sizes[k], backward, damage);
            measure(call, function);
        }
    }
    tell(name);
}

/* The calls by a card: by a good one, and refused by one that is short, one with a number above 8 and one with two equal. */
enum { CARDS = 4 };
static const uint8_t cards[CARDS][9] = {
    {1, 4, 7, 8, 3, 6, 0, 2, 5},
    {1, 4, 7, 8, 3, 6, 0, 2, 5},
    {1, 4, 7, 8, 255, 6, 0, 2, 5},
    {1, 4, 7, 8, 3, 6, 0, 2, 3},
};
static const size_t card_lengths[CARDS] = {9, 8, 9, 9};

static void wiring_cards(void) {
    int k;
    for (k = 0; k < CARDS; k++) {
        card = cards[k];
        card_length = card_lengths[k];
        measure(card_words, ANY(rindthok_card_words_to_physical));
        measure(card_words, ANY(rindthok_card_words_to_algebraic));
        measure(card_map, ANY(rindthok_card_map_to_physical));
        measure(card_map, ANY(rindthok_card_map_to_algebraic));
        measure(inverse_card, ANY(rindthok_inverse_card));
    }
    tell("wiring cards");
}

int main(void) {
    size_t k;
    for (k = 0; k < BYTES; k++)
        bytes[k] = (uint8_t)(k * 167 + k / 256);
    writes("write6250", BYTES, write6250, ANY(rindthok_write6250));
    reads("read6250 forward", &at6250, 0, read6250, ANY(rindthok_read6250_forward));
    reads("read6250 backward", &at6250, 1, read6250, ANY(rindthok_read6250_backward));
    reads("log6250 forward", &at6250, 0, log6250, ANY(rindthok_log6250_forward));
    reads("log6250 backward", &at6250, 1, log6250, ANY(rindthok_log6250_backward));
    read_logs();
    writes("write800", BYTES800, write800, ANY(rindthok_write800));
    reads("read800 forward", &at800, 0, read800, ANY(rindthok_read800_forward));
    reads("read800 backward", &at800, 1, read800, ANY(rindthok_read800_backward));
    reads("copy800 forward", &at800, 0, copy800, ANY(rindthok_copy800_forward));
    reads("copy800 backward", &at800, 1, copy800, ANY(rindthok_copy800_backward));
    measure(move_words, ANY(rindthok_words_to_physical));
    measure(move_words, ANY(rindthok_words_to_algebraic));
    measure(move_map, ANY(rindthok_map_to_physical));
    measure(move_map, ANY(rindthok_map_to_algebraic));
    tell("head order");
    wiring_cards();
    return fflush(stdout) == 0 ? 0 : 1;
}
