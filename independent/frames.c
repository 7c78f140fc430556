#include "frames.h"

#include <stdbool.h>

#include "refusals.h"

enum { FRAME_MAX = 0x7FF, PARITY = 0x200, STOP = 0x400 };

uint16_t pack_frame(uint8_t byte)
{
    unsigned folded = byte;
    folded ^= folded >> 4;
    folded ^= folded >> 2;
    folded ^= folded >> 1;
    bool ones_are_odd = folded & 1;
    return (uint16_t)(byte << 1 | (ones_are_odd ? 0 : PARITY) | STOP);
}

int unpack_frame(uint32_t frame)
{
    if (frame > FRAME_MAX)
        return -REFUSED_FRAME;
    uint8_t byte = (uint8_t)(frame >> 1);
    return pack_frame(byte) == frame ? byte : FRAME_BROKEN;
}
