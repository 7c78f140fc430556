#include "asking.h"

#include <stdbool.h>
#include <string.h>

#include "../include/keydock.h"
#include "../independent/lent.h"

/* The calls of the two docks differ in their names alone. */
#define BOTH(name, arguments)                                                             \
    static int32_t proved_##name(void *record, size_t size, const struct call *call)      \
    {                                                                                     \
        (void)call;                                                                       \
        return keydock_##name arguments;                                                  \
    }                                                                                     \
    static int32_t independent_##name(void *record, size_t size, const struct call *call) \
    {                                                                                     \
        (void)call;                                                                       \
        return lent_##name arguments;                                                     \
    }

BOTH(power_on, (record, size))
BOTH(scan, (record, size, call->bytes, call->length))
BOTH(swap, (record, size, call->bytes, call->length))
BOTH(frame, (record, size, call->frame))
BOTH(read, (record, size))
BOTH(indicators, (record, size))
BOTH(scanning, (record, size))

#define ROW(name) {#name, proved_##name, independent_##name}

const struct asking asking[CALL_KINDS] = {
    [POWER_ON] = ROW(power_on), [SCAN] = ROW(scan), [SWAP] = ROW(swap),
    [FRAME] = ROW(frame), [READ] = ROW(read), [INDICATORS] = ROW(indicators),
    [SCANNING] = ROW(scanning),
};

enum { FRAME_DIGITS = 3, SCAN_DIGITS = 2 * COLUMNS, MAP_DIGITS = 2 * POSITIONS };

/* The value of some digits, or -1 if they are not all digits. */
static int value_of(const char *text, size_t count)
{
    static const char digits[] = "0123456789ABCDEF";
    int value = 0;
    for (size_t i = 0; i < count; i++) {
        const char *digit = memchr(digits, text[i], 16);
        if (digit == NULL)
            return -1;
        value = 16 * value + (int)(digit - digits);
    }
    return value;
}

static bool read_bytes(const char *text, size_t count, uint8_t *bytes)
{
    for (size_t i = 0; i < count; i++) {
        int value = value_of(text + 2 * i, 2);
        if (value < 0)
            return false;
        bytes[i] = (uint8_t)value;
    }
    return true;
}

struct call call_of_line(const char *line, size_t length, uint8_t bytes[LINE_BYTES_MAX])
{
    struct call call = {.kind = READ, .bytes = bytes};

    if (length == 0)
        return call;
    if (length == FRAME_DIGITS && value_of(line, length) >= 0) {
        call.kind = FRAME;
        call.frame = (uint32_t)value_of(line, length);
        return call;
    }
    call.kind = length <= 2 * SCAN_DIGITS ? SCAN : SWAP;
    if ((length == SCAN_DIGITS || length == MAP_DIGITS) && read_bytes(line, length / 2, bytes)) {
        call.length = length / 2;
    } else {
        call.length = length < LINE_BYTES_MAX ? length : LINE_BYTES_MAX;
        memcpy(bytes, line, call.length);
    }
    return call;
}
