/* Files what was corrected in a record: reads a forward 6250 reading as text, a line of nine words and, where the drive
 * pointed at tracks, their map for each group, and writes its log to standard output, after its group count and its
 * length, two bytes each, the low one first, as the report program takes it. Built and run by `make run`. */
#include <ctype.h>
#include <stdio.h>
#include <stdlib.h>
#include <string.h>

#include "rindthok.h"

/* Room for a group more than a record has, so that the library sees a reading that is too long. */
enum { GROUPS = 587, LOG = (GROUPS + 7) / 8 + 2 * GROUPS };

static uint16_t words[9 * GROUPS];
static rindthok_algebraic_map maps[GROUPS];

/* The numbers of a line, ten at most, and how many there are; or -1 if it has anything else. A number above 16 bits is
 * no word and no map: it is made one that is refused. */
static int read_numbers(const char *line, uint16_t *numbers)
{
    int count = 0;

    while (isspace((unsigned char)*line))
        line++;
    while (count < 10 && isdigit((unsigned char)*line)) {
        char *end;
        unsigned long number = strtoul(line, &end, 10);

        numbers[count++] = number > UINT16_MAX ? UINT16_MAX : (uint16_t)number;
        for (line = end; isspace((unsigned char)*line); line++)
            ;
    }
    return *line == '\0' ? count : -1;
}

/* Reads a line as the words and the map of a group, in code order: 1, 0 at the end of the input, or -1. */
static int read_group(size_t group)
{
    char line[256];
    uint16_t numbers[10] = {0};

    if (fgets(line, sizeof line, stdin) == NULL)
        return ferror(stdin) ? -1 : 0;
    if (strchr(line, '\n') == NULL && !feof(stdin))
        return -1;
    if (read_numbers(line, numbers) < 9)
        return -1;
    memcpy(&words[9 * group], numbers, 9 * sizeof numbers[0]);
    maps[group].algebraic = numbers[9];
    return 1;
}

static void put_number(size_t number)
{
    putchar((int)(number & 255));
    putchar((int)(number >> 8));
}

int main(void)
{
    uint8_t log[LOG];
    size_t groups = 0, length = 0, place = 0;
    uint16_t status;
    int came = 1;

    while (groups < GROUPS && (came = read_group(groups)) > 0)
        groups++;
    if (came < 0) {
        fprintf(stderr, "line %zu is no group\n", groups + 1);
        return 1;
    }
    status = rindthok_log6250_forward(words, 9 * groups, maps, groups, log, sizeof log, &length, &place);
    if (status != 0) {
        fprintf(stderr, "refused %u %zu\n", (unsigned)status, place);
        return 1;
    }
    put_number(groups);
    put_number(length);
    fwrite(log, 1, length, stdout);
    return fflush(stdout) == 0 && !ferror(stdout) ? 0 : 1;
}
