/* A record is written, damaged on its way through the head, and read back; and what cannot be read is
 * refused. Built and run by `make run`. */
#include <stdio.h>

#include "rindthok.h"

static void print_words(const char *what, const uint16_t *words)
{
    printf("%s", what);
    for (int i = 0; i < 9; i++)
        printf(" %u", (unsigned)words[i]);
    printf("\n");
}

static void read_and_print(const char *what, const uint16_t *words, rindthok_algebraic_map map)
{
    uint8_t bytes[6] = {0};
    size_t size = 0, changes = 0, counts[9] = {0}, place = 0;
    uint16_t status = rindthok_read6250_forward(words, 9, &map, 1, bytes, 6, &size, &changes, counts, &place);

    if (status == 0)
        printf("%s: delivered %zu byte, 0x%02x, %zu changed\n", what, size, bytes[0], changes);
    else
        printf("%s: refused %u %zu\n", what, (unsigned)status, place);
}

int main(void)
{
    const uint8_t bytes[1] = {0x01};
    /* two weak tracks, which the drive points at: physical 4 and 7, in bits 3 and 6, are algebraic 8 and 0 */
    const rindthok_physical_map drive = {(1 << 3) | (1 << 6)};
    const rindthok_algebraic_map none = {0}, another = {1 << 3};
    rindthok_algebraic_map map = {0};
    uint16_t code[9] = {0}, head[9] = {0}, back[9] = {0};
    size_t groups = 0, place = 0;

    if (rindthok_write6250(bytes, 1, code, 9, &groups, &place) != 0)
        return 1;
    printf("the byte 0x01 is written as %zu group\n", groups);
    print_words("code order:", code);
    if (rindthok_words_to_physical(code, 9, head, 9, &place) != 0)
        return 1;
    print_words("head order:", head);

    /* what the drive gives is moved before it is read, the words and the map */
    head[3] = 825;
    head[6] = 825;
    if (rindthok_words_to_algebraic(head, 9, back, 9, &place) != 0)
        return 1;
    if (rindthok_map_to_algebraic(drive.physical, &map, &place) != 0)
        return 1;
    print_words("two damaged:", back);
    read_and_print("with their pointers", back, map);
    read_and_print("with no pointer", back, none);
    back[8] = code[8];
    read_and_print("one damaged, with no pointer", back, none);
    read_and_print("one damaged, another pointed", back, another);
    return fflush(stdout) == 0 ? 0 : 1;
}
