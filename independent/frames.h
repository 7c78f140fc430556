/* The 11-bit frames of the wire, as numbers with the start bit lowest. */
#ifndef FRAMES_H
#define FRAMES_H

#include <stdint.h>

enum { FRAME_BROKEN = -256 };

/* Start bit 0, the byte with its lowest bit first, odd parity, stop bit 1. */
uint16_t pack_frame(uint8_t byte);

/* The byte of a sound frame, FRAME_BROKEN if start, parity or stop bit is
 * wrong, or -REFUSED_FRAME if the number has more than 11 bits. */
int unpack_frame(uint32_t frame);

#endif
