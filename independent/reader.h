/* Reads key bytes back, one at a time. */
#ifndef READER_H
#define READER_H

#include <stdint.h>

enum reader_event {
    READ_MORE,     /* the sequence is not finished */
    READ_PRESS,
    READ_RELEASE,
    READ_PAUSE,    /* PAUSE struck, in sets 1 and 2 */
    READ_WRAPPING, /* a shift sent around a key, or the end of Ctrl-Pause */
    READ_OVERRUN,
    READ_UNKNOWN
};

/* A state is what has been read of an unfinished sequence. */
enum reader_state {
    SEEN_NOTHING,
    SEEN_E0,
    SEEN_F0,
    SEEN_E0_F0,
    SEEN_E1,
    SEEN_E1_1D,
    SEEN_E1_1D_45,
    SEEN_E1_1D_45_E1,
    SEEN_E1_1D_45_E1_9D,
    SEEN_E1_14,
    SEEN_E1_14_77,
    SEEN_E1_14_77_E1,
    SEEN_E1_14_77_E1_F0,
    SEEN_E1_14_77_E1_F0_14,
    SEEN_E1_14_77_E1_F0_14_F0
};

/* Returns event + 256 * key + 65536 * next state; the key is 0 unless the
 * event is a press or release. Gives -REFUSED_RECORD if there is no such
 * state, else -REFUSED_ARGUMENT if there is no such set. */
int read_key_byte(unsigned set, unsigned state, uint8_t byte);

/* The same for presses alone: 256 * key + 65536 * next state, and the key is 0
 * unless one was pressed. The same refusals. */
int read_key_press(unsigned set, unsigned state, uint8_t byte);

#endif
