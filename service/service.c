/* The service program: shows what a key sends, packs and unpacks frames, and reads key
 * bytes back. It is all that a terminal needs of the dock's codes, over keydock.h.
 *
 *     service key SET KEY press|release|repeat [MODIFIER ..] [num] [type=0..3]
 *     service keys                 the number and name of each key
 *     service frame BYTE ..        bytes in hexadecimal
 *     service byte FRAME ..        frames in hexadecimal
 *     service read SET BYTE ..     key bytes in hexadecimal
 *
 * KEY is a number: names will not do, since those of some keys are numbers, too. MODIFIER is
 * one of lshift rshift lctrl rctrl lalt ralt. Exit status: 0, or 1 if something was refused,
 * or 2 if the words make no sense. */
#include <errno.h>
#include <stdio.h>
#include <stdlib.h>
#include <string.h>

#include "keydock.h"

static int usage(void)
{
    fputs("usage: service key SET KEY press|release|repeat [lshift|rshift|lctrl|rctrl|lalt|ralt|num|type=N ..]\n"
          "       service keys\n"
          "       service frame BYTE ..\n"
          "       service byte FRAME ..\n"
          "       service read SET BYTE ..\n",
          stderr);
    return 2;
}

/* A whole word as a number; one that is none, or too large, ends the program. */
static uint32_t number(const char *word, int base)
{
    char *end;
    errno = 0;
    unsigned long value = strtoul(word, &end, base);
    if (*word == '\0' || *word == '-' || *end != '\0' || errno != 0 || value > UINT32_MAX) {
        fprintf(stderr, "service: %s is no number that fits here\n", word);
        exit(2);
    }
    return (uint32_t)value;
}

static uint8_t byte_number(const char *word)
{
    uint32_t value = number(word, 16);
    if (value > 255) {
        fprintf(stderr, "service: %s is more than a byte\n", word);
        exit(2);
    }
    return (uint8_t)value;
}

static int refused(int32_t answer)
{
    const char *why = "";
    switch (answer) {
    case KEYDOCK_REFUSED_FRAME:
        why = "a frame number over 7FF";
        break;
    case KEYDOCK_REFUSED_OUTPUT:
        why = "an output under 8 bytes";
        break;
    case KEYDOCK_REFUSED_CHOICE:
        why = "a set, key, event, type, modifier or Num Lock out of its range";
        break;
    case KEYDOCK_REFUSED_STATE:
        why = "no such reader state";
        break;
    }
    printf("refused with %d: %s\n", -(int)answer, why);
    return 1;
}

/* The place of a word in a list of words, or the list's length. */
static uint32_t place(const char *word, const char *const *words, uint32_t count)
{
    uint32_t i = 0;
    while (i < count && strcmp(word, words[i]) != 0)
        i++;
    return i;
}

static int show_key(int count, char **words)
{
    static const char *const events[] = {"press", "release", "repeat"};
    static const char *const modifiers[] = {"lshift", "rshift", "lctrl", "rctrl", "lalt", "ralt"};
    if (count < 3)
        return usage();
    uint32_t set = number(words[0], 10);
    uint32_t key = number(words[1], 10);
    uint32_t event = place(words[2], events, 3);
    uint32_t held = 0, num_lock = 0, type = KEYDOCK_TYPE_TYPEMATIC;
    if (event == 3)
        return usage();
    for (int i = 3; i < count; i++) {
        uint32_t modifier = place(words[i], modifiers, 6);
        if (modifier < 6)
            held |= (uint32_t)1 << modifier;
        else if (strcmp(words[i], "num") == 0)
            num_lock = 1;
        else if (strncmp(words[i], "type=", 5) == 0)
            type = number(words[i] + 5, 10);
        else
            return usage();
    }
    uint8_t bytes[KEYDOCK_CODES_MAX];
    int32_t written = keydock_key_codes(set, key, event, type, held, num_lock, bytes, sizeof bytes);
    if (written < 0)
        return refused(written);
    for (int32_t i = 0; i < written; i++)
        printf(i == 0 ? "%02X" : " %02X", bytes[i]);
    puts(written == 0 ? "no bytes" : "");
    return 0;
}

/* Names as docs/RULES.md has them. */
static int show_keys(void)
{
    static const char *const names[KEYDOCK_KEYS + 1] = {
        [KEYDOCK_KEY_GRAVE] = "`", "1", "2", "3", "4", "5", "6", "7", "8", "9", "0", "-", "=", "BACKSPACE",
        [KEYDOCK_KEY_TAB] = "TAB", "Q", "W", "E", "R", "T", "Y", "U", "I", "O", "P", "[", "]", "\\",
        [KEYDOCK_KEY_CAPS] = "CAPS", "A", "S", "D", "F", "G", "H", "J", "K", "L", ";", "'", "ENTER",
        [KEYDOCK_KEY_SHIFT_LEFT] = "SHIFT_L", "Z", "X", "C", "V", "B", "N", "M", ",", ".", "/", "SHIFT_R",
        [KEYDOCK_KEY_CTRL_LEFT] = "CTRL_L", "ALT_L", "SPACE", "ALT_R", "CTRL_R",
        [KEYDOCK_KEY_INS] = "INS", "DEL", "HOME", "END", "PAGE-UP", "PAGE-DOWN",
        [KEYDOCK_KEY_UP] = "UP", "LEFT", "DOWN", "RIGHT",
        [KEYDOCK_KEY_NUM] = "NUM", "keypad /", "keypad *", "keypad -",
        [KEYDOCK_KEY_PAD_PLUS] = "keypad +", "keypad ENTER", "keypad DEL",
        [KEYDOCK_KEY_PAD_0] = "keypad 0", "keypad 1", "keypad 2", "keypad 3", "keypad 4",
        [KEYDOCK_KEY_PAD_5] = "keypad 5", "keypad 6", "keypad 7", "keypad 8", "keypad 9",
        [KEYDOCK_KEY_ESC] = "ESC", "F1", "F2", "F3", "F4", "F5", "F6", "F7", "F8", "F9", "F10", "F11", "F12",
        [KEYDOCK_KEY_PRINT] = "PRINT", "SCROLL", "PAUSE", "LWIN", "RWIN", "APP",
        [KEYDOCK_KEY_WWW_BACK] = "WWW-BACK", "WWW-FORWARD", "WWW-STOP", "WWW-REFRESH", "WWW-SEARCH",
        [KEYDOCK_KEY_WWW_FAVORITES] = "WWW-FAVORITES", "WEB/HOME",
        [KEYDOCK_KEY_MAIL] = "MAIL", "MUTE", "VOLUME-", "VOLUME+", "PLAY/PAUSE", "STOP", "PRE-TRACK",
        [KEYDOCK_KEY_NEXT_TRACK] = "NEXT-TRACK", "MEDIA-SELECT", "MY-COMPUTER", "CALCULATOR",
        [KEYDOCK_KEY_POWER] = "POWER", "SLEEP", "WAKE-UP"};
    for (int key = 1; key <= KEYDOCK_KEYS; key++)
        printf("%d %s\n", key, names[key]);
    return 0;
}

static int show_frames(int count, char **words)
{
    for (int i = 0; i < count; i++)
        printf("%03X\n", keydock_pack_frame(byte_number(words[i])));
    return 0;
}

static int show_bytes(int count, char **words)
{
    int status = 0;
    for (int i = 0; i < count; i++) {
        int32_t answer = keydock_unpack_frame(number(words[i], 16));
        if (answer == KEYDOCK_BROKEN_FRAME)
            puts("broken");
        else if (answer < 0)
            status = refused(answer);
        else
            printf("%02X\n", (unsigned)answer);
    }
    return status;
}

static int show_events(int count, char **words)
{
    static const char *const events[] = {"more", "press", "release", "pause", "wrapping", "overrun", "unknown"};
    if (count < 1)
        return usage();
    uint32_t set = number(words[0], 10);
    uint32_t state = KEYDOCK_STATE_START;
    for (int i = 1; i < count; i++) {
        uint8_t byte = byte_number(words[i]);
        int32_t answer = keydock_read_byte(set, state, byte);
        if (answer < 0)
            return refused(answer);
        printf("%02X %s", byte, events[KEYDOCK_FOUND_EVENT(answer)]);
        if (KEYDOCK_FOUND_KEY(answer) != 0)
            printf(" %u", KEYDOCK_FOUND_KEY(answer));
        putchar('\n');
        state = KEYDOCK_NEXT_STATE(answer);
    }
    return 0;
}

int main(int count, char **words)
{
    if (count == 2 && strcmp(words[1], "keys") == 0)
        return show_keys();
    if (count < 3)
        return usage();
    if (strcmp(words[1], "key") == 0)
        return show_key(count - 2, words + 2);
    if (strcmp(words[1], "frame") == 0)
        return show_frames(count - 2, words + 2);
    if (strcmp(words[1], "byte") == 0)
        return show_bytes(count - 2, words + 2);
    if (strcmp(words[1], "read") == 0)
        return show_events(count - 2, words + 2);
    return usage();
}
