/* keydock.h: a PS/2 keyboard dock, and the codes and frames of PS/2 keyboards.
 *
 *     cc program.c $(pkg-config --cflags --libs keydock)          (x86-64 Linux)
 *
 * A dock, whose record is lent to each call. The functions without keydock_ are the board's:
 *
 *     struct keydock dock;
 *     keydock_power_on(&dock, sizeof dock);
 *     while (next_tick()) {                                      // 240 a second
 *         uint8_t columns[KEYDOCK_SCAN_SIZE];
 *         uint32_t frame;
 *         read_matrix(columns);
 *         keydock_scan(&dock, sizeof dock, columns, sizeof columns);
 *         if (receive(&frame))                                   // a frame came from the host
 *             keydock_frame(&dock, sizeof dock, frame);
 *         if (host_is_ready()) {
 *             int32_t answer = keydock_read(&dock, sizeof dock);
 *             if (answer > 0)                                    // 0: nothing waits; below 0: refused
 *                 send(keydock_pack_frame(KEYDOCK_GIVEN_BYTE(answer)));
 *         }
 *     }
 *
 * What UP sends with the left SHIFT held, each byte with its frame:
 *
 *     uint8_t bytes[KEYDOCK_CODES_MAX];
 *     int32_t count = keydock_key_codes(2, KEYDOCK_KEY_UP, KEYDOCK_PRESS, KEYDOCK_TYPE_TYPEMATIC,
 *                                       KEYDOCK_HELD_SHIFT_LEFT, 0, bytes, sizeof bytes);
 *     for (int32_t i = 0; i < count; i++)
 *         printf("%02X as frame %03X\n", (unsigned)bytes[i], (unsigned)keydock_pack_frame(bytes[i]));
 *
 * And those bytes read back, one at a time:
 *
 *     uint32_t state = KEYDOCK_STATE_START;
 *     for (int32_t i = 0; i < count; i++) {
 *         int32_t answer = keydock_read_byte(2, state, bytes[i]);
 *         if (KEYDOCK_FOUND_EVENT(answer) == KEYDOCK_READ_PRESSED)
 *             printf("key %u was pressed\n", KEYDOCK_FOUND_KEY(answer));
 *         state = KEYDOCK_NEXT_STATE(answer);
 *     }
 *
 * Where a result is an int32_t, 0 or more is an answer. A refusal is negative: minus the
 * number that the dock's rules have for it. A refused call changes nothing.
 *
 * Every function of the library is proved to answer for every argument, and tested to answer as
 * said here. So any number may be passed, and any bytes: what is out of its range is refused. (A
 * negative number becomes a large one on its way to a uint32_t, and a number over 255 loses its
 * upper bits on its way to a uint8_t.) Two things no function can look at: whether memory that is
 * lent is there, as long as the argument behind it says, and whether two parts of it overlap. With
 * a length of 0 none has to be there, and NULL will do. A record must not overlap the scan or map
 * that is passed with it.
 *
 * Nothing is kept between calls and nothing is allocated. All functions may be called from
 * any number of threads at once, each record from one at a time.
 */
#ifndef KEYDOCK_H
#define KEYDOCK_H

#include <stddef.h>
#include <stdint.h>

#ifdef __cplusplus
extern "C" {
#endif

/* The version, as three numbers and as a string with dots between them. */
#define KEYDOCK_VERSION_MAJOR 1
#define KEYDOCK_VERSION_MINOR 2
#define KEYDOCK_VERSION_PATCH 0
#define KEYDOCK_VERSION KEYDOCK_DOTTED(KEYDOCK_VERSION_MAJOR, KEYDOCK_VERSION_MINOR, KEYDOCK_VERSION_PATCH)
#define KEYDOCK_DOTTED(major, minor, patch) KEYDOCK_QUOTED(major) "." KEYDOCK_QUOTED(minor) "." KEYDOCK_QUOTED(patch)
#define KEYDOCK_QUOTED(number) #number

/* Refusals, and the one answer that is negative and no refusal. Two of them share a number, as in the rules,
 * and no function gives both: a switch can have a case for one of the two alone. */
#define KEYDOCK_REFUSED_SCAN_LENGTH (-1) /* a scan that is not 18 bytes */
#define KEYDOCK_REFUSED_MAP_LENGTH (-2)  /* a map that is not 144 bytes */
#define KEYDOCK_REFUSED_MAP_ENTRY (-3)   /* a map entry over 125 */
#define KEYDOCK_REFUSED_MAP_DOUBLE (-4)  /* a key twice in the map */
#define KEYDOCK_REFUSED_FRAME (-5)       /* a frame number over 2047 */
#define KEYDOCK_REFUSED_OUTPUT (-6)      /* a lent output under 8 bytes */
#define KEYDOCK_REFUSED_CHOICE (-7)      /* a set, key, event, type, modifier or Num Lock choice out of its range */
#define KEYDOCK_REFUSED_RECORD (-9)      /* bytes that are no dock's record, of all functions that are lent one */
#define KEYDOCK_REFUSED_STATE (-9)       /* a reader state over 14, of keydock_read_byte and keydock_read_press */
#define KEYDOCK_BROKEN_FRAME (-256)      /* a frame with a wrong start, parity or stop bit */

/* ---- the dock ---- */

#define KEYDOCK_RECORD_SIZE 606 /* bytes in a record */
#define KEYDOCK_SCAN_SIZE 18    /* bytes in a scan: one for each column */
#define KEYDOCK_MAP_SIZE 144    /* bytes in a panel's map: one for each position */

/* The record of a dock: all that it knows. It may lie in any memory, and may be copied, stored and
 * loaded as any bytes may. What stands where in it is the library's own affair. Each call is also
 * given the record's size, sizeof (struct keydock), and refuses another, so that a program and a
 * library of different versions do not misread each other's records. */
struct keydock {
    uint8_t bytes[KEYDOCK_RECORD_SIZE];
};

/* Each function that is lent a record gives KEYDOCK_REFUSED_RECORD, before all else, if the bytes are
 * none: of another size, or, power-on excepted, with a part out of its range. All that power-on and the
 * calls leave is a record. */

/* Power-on, from any bytes of the right size: the plain map (key p + 1 at position p for the first 104 keys,
 * the last of them KEYDOCK_KEY_APP, and none behind them: it has no media key), set 2, nothing held, and AA
 * waits as a reply. 0. */
int32_t keydock_power_on(struct keydock *dock, size_t size);

/* One scan of the panel, to be made 240 times a second: byte c is column c, bit r of it row r, 1 for a
 * closed contact. A contact counts after three scans in a row that show it otherwise.
 * 0, or KEYDOCK_REFUSED_SCAN_LENGTH for a `length` that is not KEYDOCK_SCAN_SIZE. */
int32_t keydock_scan(struct keydock *dock, size_t size, const uint8_t *scan, size_t length);

/* Another panel was clipped on: byte 8 c + r of its map is the key at column c, row r, 0 for none. Keys
 * that were held on the old panel come up, and scans are not heard until their releases are queued.
 * 0, or a refusal: KEYDOCK_REFUSED_MAP_LENGTH, else _MAP_ENTRY, else _MAP_DOUBLE. */
int32_t keydock_swap(struct keydock *dock, size_t size, const uint8_t *map, size_t length);

/* A frame came from the host. A broken one is taken, too: the dock asks for it again. Any frame drops the
 * replies that still wait. While a command waits for its value no scan is counted.
 * 0, or KEYDOCK_REFUSED_FRAME for a number over KEYDOCK_FRAME_MAX. */
int32_t keydock_frame(struct keydock *dock, size_t size, uint32_t frame);

/* The next byte for the host, replies before key bytes, and its kind, in one number: 0 if nothing waits,
 * more than 0 if a byte was given. */
int32_t keydock_read(struct keydock *dock, size_t size);

/* What an answer of keydock_read holds that is 0 or more: one of the kinds, and the byte, which is 0 where
 * nothing was given. Of a refusal they make nonsense. */
enum { KEYDOCK_GAVE_NOTHING = 0, KEYDOCK_GAVE_REPLY = 1, KEYDOCK_GAVE_KEY_BYTE = 2 };
#define KEYDOCK_GIVEN_KIND(answer) ((unsigned)(answer) >> 8)
#define KEYDOCK_GIVEN_BYTE(answer) ((unsigned)(answer) & 255u)

/* The lamps that the host wants lit, added up. */
enum { KEYDOCK_LAMP_SCROLL = 1, KEYDOCK_LAMP_NUM = 2, KEYDOCK_LAMP_CAPS = 4 };
int32_t keydock_indicators(const struct keydock *dock, size_t size);

/* 1 while the host wants scans to be heard, 0 after F5. The dock takes care of it by itself: scans may go on.
 * It stays 1 while a command waits for its value, though no scan is counted then. */
int32_t keydock_scanning(const struct keydock *dock, size_t size);

/* ---- frames ---- */

#define KEYDOCK_FRAME_MAX 2047 /* a frame is eleven bits */

/* The frame of a byte: start bit 0 at bit 0, the byte from bit 1 on, odd parity at
 * bit 9, stop bit 1 at bit 10. FA gives 0x7F4. */
uint16_t keydock_pack_frame(uint8_t byte);

/* The byte in a frame, 0 to 255; KEYDOCK_BROKEN_FRAME if one of its start, parity
 * and stop bits is wrong; KEYDOCK_REFUSED_FRAME for a number over KEYDOCK_FRAME_MAX. */
int32_t keydock_unpack_frame(uint32_t frame);

/* ---- the codes of one key ---- */

#define KEYDOCK_CODES_MAX 8 /* no key sends more bytes at once */
#define KEYDOCK_KEYS 125    /* keys are numbered from 1 to this, row by row, and the media keys come last */

enum {
    KEYDOCK_KEY_GRAVE = 1, KEYDOCK_KEY_1, KEYDOCK_KEY_2, KEYDOCK_KEY_3, KEYDOCK_KEY_4, KEYDOCK_KEY_5,
    KEYDOCK_KEY_6, KEYDOCK_KEY_7, KEYDOCK_KEY_8, KEYDOCK_KEY_9, KEYDOCK_KEY_0, KEYDOCK_KEY_MINUS,
    KEYDOCK_KEY_EQUALS, KEYDOCK_KEY_BACKSPACE,
    KEYDOCK_KEY_TAB = 15, KEYDOCK_KEY_Q, KEYDOCK_KEY_W, KEYDOCK_KEY_E, KEYDOCK_KEY_R, KEYDOCK_KEY_T,
    KEYDOCK_KEY_Y, KEYDOCK_KEY_U, KEYDOCK_KEY_I, KEYDOCK_KEY_O, KEYDOCK_KEY_P, KEYDOCK_KEY_BRACKET_LEFT,
    KEYDOCK_KEY_BRACKET_RIGHT, KEYDOCK_KEY_BACKSLASH,
    KEYDOCK_KEY_CAPS = 29, KEYDOCK_KEY_A, KEYDOCK_KEY_S, KEYDOCK_KEY_D, KEYDOCK_KEY_F, KEYDOCK_KEY_G,
    KEYDOCK_KEY_H, KEYDOCK_KEY_J, KEYDOCK_KEY_K, KEYDOCK_KEY_L, KEYDOCK_KEY_SEMICOLON,
    KEYDOCK_KEY_APOSTROPHE, KEYDOCK_KEY_ENTER,
    KEYDOCK_KEY_SHIFT_LEFT = 42, KEYDOCK_KEY_Z, KEYDOCK_KEY_X, KEYDOCK_KEY_C, KEYDOCK_KEY_V,
    KEYDOCK_KEY_B, KEYDOCK_KEY_N, KEYDOCK_KEY_M, KEYDOCK_KEY_COMMA, KEYDOCK_KEY_DOT, KEYDOCK_KEY_SLASH,
    KEYDOCK_KEY_SHIFT_RIGHT,
    KEYDOCK_KEY_CTRL_LEFT = 54, KEYDOCK_KEY_ALT_LEFT, KEYDOCK_KEY_SPACE, KEYDOCK_KEY_ALT_RIGHT,
    KEYDOCK_KEY_CTRL_RIGHT,
    KEYDOCK_KEY_INS = 59, KEYDOCK_KEY_DEL, KEYDOCK_KEY_HOME, KEYDOCK_KEY_END, KEYDOCK_KEY_PAGE_UP,
    KEYDOCK_KEY_PAGE_DOWN, KEYDOCK_KEY_UP, KEYDOCK_KEY_LEFT, KEYDOCK_KEY_DOWN, KEYDOCK_KEY_RIGHT,
    KEYDOCK_KEY_NUM = 69, KEYDOCK_KEY_PAD_SLASH, KEYDOCK_KEY_PAD_STAR, KEYDOCK_KEY_PAD_MINUS,
    KEYDOCK_KEY_PAD_PLUS, KEYDOCK_KEY_PAD_ENTER, KEYDOCK_KEY_PAD_DEL,
    KEYDOCK_KEY_PAD_0 = 76, KEYDOCK_KEY_PAD_1, KEYDOCK_KEY_PAD_2, KEYDOCK_KEY_PAD_3, KEYDOCK_KEY_PAD_4,
    KEYDOCK_KEY_PAD_5, KEYDOCK_KEY_PAD_6, KEYDOCK_KEY_PAD_7, KEYDOCK_KEY_PAD_8, KEYDOCK_KEY_PAD_9,
    KEYDOCK_KEY_ESC = 86, KEYDOCK_KEY_F1, KEYDOCK_KEY_F2, KEYDOCK_KEY_F3, KEYDOCK_KEY_F4, KEYDOCK_KEY_F5,
    KEYDOCK_KEY_F6, KEYDOCK_KEY_F7, KEYDOCK_KEY_F8, KEYDOCK_KEY_F9, KEYDOCK_KEY_F10, KEYDOCK_KEY_F11,
    KEYDOCK_KEY_F12,
    KEYDOCK_KEY_PRINT = 99, KEYDOCK_KEY_SCROLL, KEYDOCK_KEY_PAUSE, KEYDOCK_KEY_WIN_LEFT,
    KEYDOCK_KEY_WIN_RIGHT, KEYDOCK_KEY_APP,
    /* From here on media keys, which have codes in sets 1 and 2 alone. */
    KEYDOCK_KEY_WWW_BACK = 105, KEYDOCK_KEY_WWW_FORWARD, KEYDOCK_KEY_WWW_STOP, KEYDOCK_KEY_WWW_REFRESH,
    KEYDOCK_KEY_WWW_SEARCH, KEYDOCK_KEY_WWW_FAVORITES, KEYDOCK_KEY_WEB_HOME,
    KEYDOCK_KEY_MAIL = 112, KEYDOCK_KEY_MUTE, KEYDOCK_KEY_VOLUME_DOWN, KEYDOCK_KEY_VOLUME_UP,
    KEYDOCK_KEY_PLAY_PAUSE, KEYDOCK_KEY_STOP, KEYDOCK_KEY_PRE_TRACK, KEYDOCK_KEY_NEXT_TRACK,
    KEYDOCK_KEY_MEDIA_SELECT, KEYDOCK_KEY_MY_COMPUTER, KEYDOCK_KEY_CALCULATOR,
    KEYDOCK_KEY_POWER = 123, KEYDOCK_KEY_SLEEP, KEYDOCK_KEY_WAKE_UP
};

/* The event of a key: what it does, as keydock_key_codes is asked. */
enum { KEYDOCK_PRESS = 0, KEYDOCK_RELEASE = 1, KEYDOCK_REPEAT = 2 };

/* A key's type says in set 3 whether it sends a release and whether it repeats; PAUSE never does. In sets 1
 * and 2, and of a media key in any set, it does not matter, but has to be one of these all the same. */
enum {
    KEYDOCK_TYPE_TYPEMATIC = 0,           /* repeats */
    KEYDOCK_TYPE_MAKE_BREAK = 1,          /* sends a release */
    KEYDOCK_TYPE_MAKE = 2,                /* neither */
    KEYDOCK_TYPE_TYPEMATIC_MAKE_BREAK = 3 /* both */
};

/* The modifier keys that are held, added up. They do not matter in set 3. These are bits and no
 * keys: as a key, the left SHIFT is KEYDOCK_KEY_SHIFT_LEFT. */
enum {
    KEYDOCK_HELD_SHIFT_LEFT = 1,
    KEYDOCK_HELD_SHIFT_RIGHT = 2,
    KEYDOCK_HELD_CTRL_LEFT = 4,
    KEYDOCK_HELD_CTRL_RIGHT = 8,
    KEYDOCK_HELD_ALT_LEFT = 16,
    KEYDOCK_HELD_ALT_RIGHT = 32
};

/* Writes to `out` what a key sends and gives the number of bytes, 0 to 8.
 *   set        1 to 3
 *   key        1 to 125
 *   event      KEYDOCK_PRESS, _RELEASE or _REPEAT
 *   type       KEYDOCK_TYPE_TYPEMATIC .. KEYDOCK_TYPE_TYPEMATIC_MAKE_BREAK
 *   modifiers  0 to 63: KEYDOCK_HELD_.. of those held at the event itself
 *   num_lock   0 off, 1 on
 *   out        `length` bytes that may be written
 *   length     8 or more, even if fewer bytes would do
 * Only the bytes counted by the answer are written, the others keep what they hold. A repeat has none where
 * it is not allowed: of PAUSE, and in set 3 of a type that does not repeat. A media key has no code in set 3:
 * no event of it has bytes there, whatever the type.
 * KEYDOCK_REFUSED_CHOICE for an argument out of its range, else KEYDOCK_REFUSED_OUTPUT for a
 * `length` under 8: then nothing is written. */
int32_t keydock_key_codes(uint32_t set, uint32_t key, uint32_t event, uint32_t type, uint32_t modifiers,
                          uint32_t num_lock, uint8_t *out, size_t length);

/* ---- reading key bytes back ----
 * as a terminal does it, once it has taken the replies to its commands out. It has nothing to do with
 * keydock_read, which is asked of a dock. */

#define KEYDOCK_STATE_START 0 /* the state to begin in: nothing of a sequence was read */
#define KEYDOCK_STATE_MAX 14

/* What keydock_read_byte finds. It is numbered apart from the events that keydock_key_codes is
 * asked, and is not to be passed to it: KEYDOCK_READ_PRESSED is 1, KEYDOCK_PRESS is 0. */
enum {
    KEYDOCK_READ_MORE = 0,     /* the sequence goes on */
    KEYDOCK_READ_PRESSED = 1,  /* a key was pressed, or repeats */
    KEYDOCK_READ_RELEASED = 2, /* a key was released */
    KEYDOCK_READ_PAUSE = 3,    /* PAUSE was struck (sets 1 and 2, where its release sends nothing) */
    KEYDOCK_READ_WRAPPING = 4, /* shift wrapping or the end of Ctrl-Pause: no key moved */
    KEYDOCK_READ_OVERRUN = 5,  /* the dock's queue was full: bytes are missing here */
    KEYDOCK_READ_UNKNOWN = 6   /* no code of this set */
};

/* Reads one key byte in a set, 1 to 3, and a state, 0 to 14. The answer holds three
 * numbers: KEYDOCK_FOUND_EVENT, KEYDOCK_FOUND_KEY (0 unless pressed or released) and
 * KEYDOCK_NEXT_STATE, the state for the next byte, which is KEYDOCK_STATE_START after every event
 * but KEYDOCK_READ_MORE. KEYDOCK_REFUSED_STATE for a state over KEYDOCK_STATE_MAX, else
 * KEYDOCK_REFUSED_CHOICE for another set; a refusal holds no event, key or state. */
int32_t keydock_read_byte(uint32_t set, uint32_t state, uint8_t byte);

/* The same for who wants presses alone: the answer holds KEYDOCK_FOUND_KEY, which is 0 unless a key was
 * pressed, and KEYDOCK_NEXT_STATE, and no event. In sets 1 and 2 PAUSE is struck and not pressed, so it is
 * not found, and neither is an overrun. The same refusals. */
int32_t keydock_read_press(uint32_t set, uint32_t state, uint8_t byte);

/* What an answer of these two holds that is 0 or more, the event in those of keydock_read_byte alone. Of a
 * refusal they make nonsense. */
#define KEYDOCK_FOUND_EVENT(answer) ((unsigned)(answer) & 255u)
#define KEYDOCK_FOUND_KEY(answer) ((unsigned)(answer) >> 8 & 255u)
#define KEYDOCK_NEXT_STATE(answer) ((unsigned)(answer) >> 16)

#ifdef __cplusplus
}
#endif

#endif
