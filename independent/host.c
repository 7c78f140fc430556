#include "frames.h"
#include "inside.h"
#include "keys.h"
#include "refusals.h"

enum {
    SET_INDICATORS = 0xED,
    ECHO = 0xEE,
    INVALID_1 = 0xEF,
    SELECT_SET = 0xF0,
    INVALID_2 = 0xF1,
    READ_ID = 0xF2,
    SET_RATE = 0xF3,
    ENABLE = 0xF4,
    DISABLE = 0xF5,
    SET_DEFAULT = 0xF6,
    ALL_TYPEMATIC = 0xF7, /* the next four in the order of the types */
    ALL_MAKE_BREAK = 0xF8,
    ALL_MAKE = 0xF9,
    ALL_TYPEMATIC_MAKE_BREAK = 0xFA,
    KEY_TYPEMATIC = 0xFB, /* the next three in the order of the types */
    KEY_MAKE_BREAK = 0xFC,
    KEY_MAKE = 0xFD,
    RESEND = 0xFE,
    RESET = 0xFF,
    FIRST_COMMAND = SET_INDICATORS
};

enum { ACKNOWLEDGE = 0xFA, SELF_TEST_PASSED = 0xAA };

/* In place of a set: the host asks which one is in use. */
enum { WHICH_SET = 0 };

bool takes_value(unsigned command)
{
    switch (command) {
    case SET_INDICATORS:
    case SELECT_SET:
    case SET_RATE:
    case KEY_TYPEMATIC:
    case KEY_MAKE_BREAK:
    case KEY_MAKE:
        return true;
    default:
        return false;
    }
}

static void reply(struct dock *dock, uint8_t byte)
{
    dock->replies[dock->reply_count++] = byte;
}

static void clear_queue(struct dock *dock)
{
    dock->queue_length = 0;
}

static void set_default(struct dock *dock)
{
    clear_queue(dock);
    dock->set = 2;
    dock->rate = DEFAULT_RATE;
    set_default_types(dock);
    dock->repeating = 0;
}

static void set_all_types(struct dock *dock, unsigned type)
{
    for (unsigned key = 0; key <= KEY_COUNT; key++)
        set_type(dock, key, type);
}

/* What a command does at once, before any value and any reply. */
static void obey(struct dock *dock, unsigned command)
{
    switch (command) {
    case SELECT_SET:
        clear_queue(dock);
        dock->rate = DEFAULT_RATE;
        dock->repeating = 0;
        break;
    case ENABLE:
        clear_queue(dock);
        dock->repeating = 0;
        dock->scanning = 1;
        break;
    case DISABLE:
        set_default(dock);
        dock->scanning = 0;
        break;
    case SET_DEFAULT:
        set_default(dock);
        break;
    case ALL_TYPEMATIC:
    case ALL_MAKE_BREAK:
    case ALL_MAKE:
    case ALL_TYPEMATIC_MAKE_BREAK:
        clear_queue(dock);
        set_all_types(dock, command - ALL_TYPEMATIC);
        break;
    case KEY_TYPEMATIC:
    case KEY_MAKE_BREAK:
    case KEY_MAKE:
        clear_queue(dock);
        break;
    case RESET:
        reset_all_but_map(dock);
        break;
    }
}

static void answer(struct dock *dock, unsigned command)
{
    switch (command) {
    case ECHO:
        reply(dock, ECHO);
        break;
    case INVALID_1:
    case INVALID_2:
        reply(dock, RESEND);
        break;
    case READ_ID:
        reply(dock, ACKNOWLEDGE);
        reply(dock, 0xAB);
        reply(dock, 0x83);
        break;
    case RESET:
        reply(dock, ACKNOWLEDGE);
        reply(dock, SELF_TEST_PASSED);
        break;
    default:
        reply(dock, ACKNOWLEDGE);
    }
}

static void take_command(struct dock *dock, uint8_t command)
{
    obey(dock, command);
    dock->waiting = takes_value(command) ? command : 0;
    answer(dock, command);
}

/* Gives the waiting command its value, if the value is right for it. */
static bool use_value(struct dock *dock, uint8_t value)
{
    unsigned key;

    switch (dock->waiting) {
    case SET_INDICATORS:
        if (value > 7)
            return false;
        dock->indicators = value;
        return true;
    case SELECT_SET:
        if (value > 3)
            return false;
        if (value != WHICH_SET)
            dock->set = value;
        return true;
    case SET_RATE:
        if (value > 0x7F)
            return false;
        dock->rate = value;
        return true;
    default:
        key = find_key(3, value);
        if (key == 0)
            return false;
        set_type(dock, key, dock->waiting - KEY_TYPEMATIC);
        return true;
    }
}

/* Answers a right value while its command still waits. */
static void answer_value(struct dock *dock, uint8_t value)
{
    reply(dock, ACKNOWLEDGE);
    if (dock->waiting == SELECT_SET && value == WHICH_SET)
        reply(dock, dock->set);
}

static void take_byte(struct dock *dock, uint8_t byte)
{
    if (byte == RESEND) {
        reply(dock, dock->resend);
    } else if (byte >= FIRST_COMMAND) {
        take_command(dock, byte);
    } else if (dock->waiting && use_value(dock, byte)) {
        answer_value(dock, byte);
        dock->waiting = 0;
    } else {
        reply(dock, RESEND);
    }
}

int dock_host_frame(struct dock *dock, uint32_t frame)
{
    if (!is_in_range(dock))
        return -REFUSED_RECORD;
    int byte = unpack_frame(frame);
    if (byte == -REFUSED_FRAME)
        return -REFUSED_FRAME;

    dock->reply_count = 0;
    if (byte == FRAME_BROKEN)
        reply(dock, RESEND);
    else
        take_byte(dock, (uint8_t)byte);
    continue_handover(dock);
    return 0;
}
