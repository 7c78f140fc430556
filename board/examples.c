/* The examples of keydock.h as a program: scripts/test cuts them out of the header's first comment, and what they
 * take from a board stands here. A is held, and the host sends EE at the second tick. */
#include <stdio.h>

#include "keydock.h"

static int ticks;

static int next_tick(void)
{
    return ticks++ < 5;
}

static void read_matrix(uint8_t *columns)
{
    for (int column = 0; column < KEYDOCK_SCAN_SIZE; column++)
        columns[column] = column == 3 ? 0x20 : 0;
}

static int receive(uint32_t *frame)
{
    *frame = keydock_pack_frame(0xEE);
    return ticks == 2;
}

static int host_is_ready(void)
{
    return 1;
}

static void send(uint16_t frame)
{
    printf("%03X\n", (unsigned)frame);
}

int main(void)
{
#include "examples"
    return 0;
}
