/* Makes one call of the C interface again and again, so that its instructions can be counted:
 *
 *     calls proved|independent|own NAME COUNT <LINES
 *
 * Each is called through a pointer, and `nothing` is called in the same way: what that takes is to
 * be taken off.
 *
 * A call on a record finds it each time as all lines but the last have left it, and passes what the
 * last line says: `line` is the call that this line is. Here `untouched` is what is to be taken off,
 * with the same lines. `own` is the independent dock on its own record, which it looks over too, but has
 * not to take out of bytes and put back.
 */
#include <stdbool.h>
#include <stdio.h>
#include <stdlib.h>
#include <string.h>

#include "../independent/codes.h"
#include "../independent/dock.h"
#include "../independent/frames.h"
#include "../independent/reader.h"
#include "asking.h"
#include "keydock.h"

/* Calls without a record. */

static uint8_t out[KEYDOCK_CODES_MAX];

static int nothing(void) { return 0; }

static int proved_letter(void)
{
    return keydock_key_codes(2, KEYDOCK_KEY_A, KEYDOCK_PRESS, KEYDOCK_TYPE_TYPEMATIC, 0, 0, out, sizeof out);
}

static int independent_letter(void) { return encode(2, KEYDOCK_KEY_A, PRESS, 0, 0, 0, out, sizeof out); }

static int proved_wrapped(void)
{
    return keydock_key_codes(2, KEYDOCK_KEY_UP, KEYDOCK_PRESS, KEYDOCK_TYPE_TYPEMATIC,
                             KEYDOCK_HELD_SHIFT_LEFT | KEYDOCK_HELD_SHIFT_RIGHT, 0, out, sizeof out);
}

static int independent_wrapped(void) { return encode(2, KEYDOCK_KEY_UP, PRESS, 0, MOD_SHIFT, 0, out, sizeof out); }

static int proved_byte(void) { return keydock_read_byte(2, KEYDOCK_STATE_START, 0x1C); }

static int independent_byte(void) { return read_key_byte(2, SEEN_NOTHING, 0x1C); }

static int proved_prefixed(void) { return keydock_read_byte(2, SEEN_E0, 0x75); }

static int independent_prefixed(void) { return read_key_byte(2, SEEN_E0, 0x75); }

static int proved_press(void) { return keydock_read_press(2, KEYDOCK_STATE_START, 0x1C); }

static int independent_press(void) { return read_key_press(2, SEEN_NOTHING, 0x1C); }

static int proved_pack(void) { return keydock_pack_frame(0xFA); }

static int independent_pack(void) { return pack_frame(0xFA); }

static int proved_unpack(void) { return keydock_unpack_frame(0x7F4); }

static int independent_unpack(void) { return unpack_frame(0x7F4); }

static const struct {
    const char *name;
    int (*proved)(void);
    int (*independent)(void);
} calls[] = {
    {"nothing", nothing, nothing},
    {"letter", proved_letter, independent_letter},
    {"wrapped", proved_wrapped, independent_wrapped},
    {"byte", proved_byte, independent_byte},
    {"prefixed", proved_prefixed, independent_prefixed},
    {"press", proved_press, independent_press},
    {"pack", proved_pack, independent_pack},
    {"unpack", proved_unpack, independent_unpack},
};

static unsigned repeat(int (*asked)(void), long count)
{
    unsigned sum = 0;
    while (count-- > 0)
        sum += (unsigned)asked();
    return sum;
}

/* Calls on a record. */

static uint8_t record[KEYDOCK_RECORD_SIZE], prepared[KEYDOCK_RECORD_SIZE];
static uint8_t passed[LINE_BYTES_MAX];
static struct call call = {.kind = POWER_ON};

static int32_t leave_untouched(void *lent, size_t size, const struct call *asked)
{
    (void)lent, (void)size, (void)asked;
    return 0;
}

static struct dock own, own_prepared;

static int32_t ask_own(void *dock, size_t size, const struct call *asked)
{
    (void)size;
    switch (asked->kind) {
    case SCAN:
        return dock_scan(dock, asked->bytes, asked->length);
    case SWAP:
        return dock_swap(dock, asked->bytes, asked->length);
    case FRAME:
        return dock_host_frame(dock, asked->frame);
    case READ:
        return dock_read(dock);
    default:
        dock_power_on(dock);
        return 0;
    }
}

/* A line's call is made when the next line comes, so that of the last is left. */
static void prepare_record(void)
{
    char *line = NULL;
    size_t room = 0;
    ssize_t length;

    while ((length = getline(&line, &room, stdin)) > 0) {
        asking[call.kind].proved(prepared, sizeof prepared, &call);
        ask_own(&own_prepared, sizeof own_prepared, &call);
        call = call_of_line(line, (size_t)length - 1, passed);
    }
    free(line);
}

static unsigned repeat_on_record(ask *asked, long count)
{
    unsigned sum = 0;
    while (count-- > 0) {
        memcpy(record, prepared, sizeof record);
        sum += (unsigned)asked(record, sizeof record, &call);
    }
    return sum;
}

static unsigned repeat_on_own(ask *asked, long count)
{
    unsigned sum = 0;
    while (count-- > 0) {
        own = own_prepared;
        sum += (unsigned)asked(&own, sizeof own, &call);
    }
    return sum;
}

static ask *call_on_record(bool of_proved, const char *name)
{
    if (strcmp(name, "untouched") == 0)
        return leave_untouched;
    if (strcmp(name, "line") == 0)
        name = asking[call.kind].name;
    for (size_t i = 0; i < CALL_KINDS; i++)
        if (strcmp(name, asking[i].name) == 0)
            return of_proved ? asking[i].proved : asking[i].independent;
    return NULL;
}

int main(int count, char **words)
{
    if (count == 4) {
        bool of_proved = strcmp(words[1], "proved") == 0;
        long times = strtol(words[3], NULL, 10);
        for (size_t i = 0; i < sizeof calls / sizeof *calls; i++)
            if (strcmp(words[2], calls[i].name) == 0) {
                printf("%u\n", repeat(of_proved ? calls[i].proved : calls[i].independent, times));
                return 0;
            }
        prepare_record();
        if (strcmp(words[1], "own") == 0) {
            printf("%u\n", repeat_on_own(strcmp(words[2], "line") == 0 ? ask_own : leave_untouched, times));
            return 0;
        }
        ask *asked = call_on_record(of_proved, words[2]);
        if (asked != NULL) {
            printf("%u\n", repeat_on_record(asked, times));
            return 0;
        }
    }
    fputs("usage: calls proved|independent|own NAME COUNT <LINES\n", stderr);
    return 2;
}
