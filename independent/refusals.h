/* The numbers by which a call is refused. A refused call changes nothing. */
#ifndef REFUSALS_H
#define REFUSALS_H

enum {
    REFUSED_SCAN_LENGTH = 1,
    REFUSED_MAP_LENGTH = 2,
    REFUSED_MAP_ENTRY = 3,
    REFUSED_MAP_DOUBLE = 4,
    REFUSED_FRAME = 5,
    REFUSED_ROOM = 6,
    REFUSED_ARGUMENT = 7,
    REFUSED_LINE = 8,
    REFUSED_RECORD = 9
};

#endif
