/* Prints a session of one kind of load for the bench: workloads KIND LINES
 *   idle     nothing closed
 *   typing   one key after another, eight scans down and eight up, read as it goes
 *   held     one key held down
 *   phantom  the most pairs of columns to look at that are no phantom, held down
 *   turning  the same 36 keys pressed and released every third scan
 *   swap     a key pressed, its panel swapped, its release read
 *   host     commands with their values and replies
 */
#include <stdio.h>
#include <stdlib.h>
#include <string.h>

enum { COLUMNS = 18, POSITIONS = 144 };

static void print_bytes(const unsigned char *bytes, int count)
{
    for (int i = 0; i < count; i++)
        printf("%02X", bytes[i]);
    putchar('\n');
}

/* Eighteen columns of two closed rows each, no two columns alike. */
static void crowd(unsigned char *scan)
{
    int column = 0;
    for (int a = 0; a < 8; a++)
        for (int b = a + 1; b < 8 && column < COLUMNS; b++)
            scan[column++] = (unsigned char)(1 << a | 1 << b);
}

static unsigned frame(unsigned byte)
{
    unsigned ones = 0;
    for (unsigned bit = byte; bit != 0; bit >>= 1)
        ones += bit & 1;
    return byte << 1 | (ones % 2 == 0 ? 0x200u : 0) | 0x400u;
}

static void scans(const char *kind, long lines)
{
    for (long i = 0; i < lines; i++) {
        unsigned char scan[COLUMNS] = {0};
        if (strcmp(kind, "typing") == 0 && i % 16 < 8)
            scan[i / 16 % 100 / 8] = (unsigned char)(1 << i / 16 % 100 % 8);
        if (strcmp(kind, "held") == 0)
            scan[2] = 0x20;
        if (strcmp(kind, "phantom") == 0 || (strcmp(kind, "turning") == 0 && i / 3 % 2 == 0))
            crowd(scan);
        print_bytes(scan, COLUMNS);
        if (strcmp(kind, "typing") == 0 && i % 8 == 4)
            fputs("\n\n\n", stdout);
        if (strcmp(kind, "turning") == 0)
            fputs("\n\n\n\n\n\n", stdout);
    }
}

static void swaps(long lines)
{
    unsigned char scan[COLUMNS] = {0}, map[POSITIONS] = {0};
    scan[2] = 0x20;
    for (int i = 0; i < 104; i++)
        map[i] = (unsigned char)(i + 1);
    for (long i = 0; i < lines; i += 6) {
        for (int j = 0; j < 3; j++)
            print_bytes(scan, COLUMNS);
        print_bytes(map, POSITIONS);
        fputs("\n\n", stdout);
    }
}

static void commands(long lines)
{
    static const unsigned bytes[] = {0xED, 0x02, 0xF3, 0x20, 0xF2, 0xEE, 0xF0, 0x02};
    for (long i = 0; i < lines; i += 2)
        printf("%03X\n\n", frame(bytes[i / 2 % 8]));
}

static int is_of_scans(const char *kind)
{
    static const char *const kinds[] = {"idle", "typing", "held", "phantom", "turning"};
    for (size_t i = 0; i < sizeof kinds / sizeof *kinds; i++)
        if (strcmp(kind, kinds[i]) == 0)
            return 1;
    return 0;
}

static int usage(void)
{
    fputs("usage: workloads idle|typing|held|phantom|turning|swap|host LINES\n", stderr);
    return 2;
}

int main(int count, char **words)
{
    if (count != 3)
        return usage();
    long lines = strtol(words[2], NULL, 10);
    if (strcmp(words[1], "swap") == 0)
        swaps(lines);
    else if (strcmp(words[1], "host") == 0)
        commands(lines);
    else if (is_of_scans(words[1]))
        scans(words[1], lines);
    else
        return usage();
    return 0;
}
