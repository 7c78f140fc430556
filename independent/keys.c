#include "keys.h"

/* One row a key: number, make code in sets 1, 2 and 3, default set 3 type. */
#define KEYS(ROW)                                                       \
    ROW(  1,   0x29,   0x0E, 0x0E, TYPEMATIC)  /* ` */                  \
    ROW(  2,   0x02,   0x16, 0x16, TYPEMATIC)  /* 1 */                  \
    ROW(  3,   0x03,   0x1E, 0x1E, TYPEMATIC)  /* 2 */                  \
    ROW(  4,   0x04,   0x26, 0x26, TYPEMATIC)  /* 3 */                  \
    ROW(  5,   0x05,   0x25, 0x25, TYPEMATIC)  /* 4 */                  \
    ROW(  6,   0x06,   0x2E, 0x2E, TYPEMATIC)  /* 5 */                  \
    ROW(  7,   0x07,   0x36, 0x36, TYPEMATIC)  /* 6 */                  \
    ROW(  8,   0x08,   0x3D, 0x3D, TYPEMATIC)  /* 7 */                  \
    ROW(  9,   0x09,   0x3E, 0x3E, TYPEMATIC)  /* 8 */                  \
    ROW( 10,   0x0A,   0x46, 0x46, TYPEMATIC)  /* 9 */                  \
    ROW( 11,   0x0B,   0x45, 0x45, TYPEMATIC)  /* 0 */                  \
    ROW( 12,   0x0C,   0x4E, 0x4E, TYPEMATIC)  /* - */                  \
    ROW( 13,   0x0D,   0x55, 0x55, TYPEMATIC)  /* = */                  \
    ROW( 14,   0x0E,   0x66, 0x66, TYPEMATIC)  /* BACKSPACE */          \
    ROW( 15,   0x0F,   0x0D, 0x0D, TYPEMATIC)  /* TAB */                \
    ROW( 16,   0x10,   0x15, 0x15, TYPEMATIC)  /* Q */                  \
    ROW( 17,   0x11,   0x1D, 0x1D, TYPEMATIC)  /* W */                  \
    ROW( 18,   0x12,   0x24, 0x24, TYPEMATIC)  /* E */                  \
    ROW( 19,   0x13,   0x2D, 0x2D, TYPEMATIC)  /* R */                  \
    ROW( 20,   0x14,   0x2C, 0x2C, TYPEMATIC)  /* T */                  \
    ROW( 21,   0x15,   0x35, 0x35, TYPEMATIC)  /* Y */                  \
    ROW( 22,   0x16,   0x3C, 0x3C, TYPEMATIC)  /* U */                  \
    ROW( 23,   0x17,   0x43, 0x43, TYPEMATIC)  /* I */                  \
    ROW( 24,   0x18,   0x44, 0x44, TYPEMATIC)  /* O */                  \
    ROW( 25,   0x19,   0x4D, 0x4D, TYPEMATIC)  /* P */                  \
    ROW( 26,   0x1A,   0x54, 0x54, TYPEMATIC)  /* [ */                  \
    ROW( 27,   0x1B,   0x5B, 0x5B, TYPEMATIC)  /* ] */                  \
    ROW( 28,   0x2B,   0x5D, 0x5C, TYPEMATIC)  /* backslash */          \
    ROW( 29,   0x3A,   0x58, 0x14, MAKE_BREAK) /* CAPS */               \
    ROW( 30,   0x1E,   0x1C, 0x1C, TYPEMATIC)  /* A */                  \
    ROW( 31,   0x1F,   0x1B, 0x1B, TYPEMATIC)  /* S */                  \
    ROW( 32,   0x20,   0x23, 0x23, TYPEMATIC)  /* D */                  \
    ROW( 33,   0x21,   0x2B, 0x2B, TYPEMATIC)  /* F */                  \
    ROW( 34,   0x22,   0x34, 0x34, TYPEMATIC)  /* G */                  \
    ROW( 35,   0x23,   0x33, 0x33, TYPEMATIC)  /* H */                  \
    ROW( 36,   0x24,   0x3B, 0x3B, TYPEMATIC)  /* J */                  \
    ROW( 37,   0x25,   0x42, 0x42, TYPEMATIC)  /* K */                  \
    ROW( 38,   0x26,   0x4B, 0x4B, TYPEMATIC)  /* L */                  \
    ROW( 39,   0x27,   0x4C, 0x4C, TYPEMATIC)  /* ; */                  \
    ROW( 40,   0x28,   0x52, 0x52, TYPEMATIC)  /* ' */                  \
    ROW( 41,   0x1C,   0x5A, 0x5A, TYPEMATIC)  /* ENTER */              \
    ROW( 42,   0x2A,   0x12, 0x12, MAKE_BREAK) /* SHIFT_L */            \
    ROW( 43,   0x2C,   0x1A, 0x1A, TYPEMATIC)  /* Z */                  \
    ROW( 44,   0x2D,   0x22, 0x22, TYPEMATIC)  /* X */                  \
    ROW( 45,   0x2E,   0x21, 0x21, TYPEMATIC)  /* C */                  \
    ROW( 46,   0x2F,   0x2A, 0x2A, TYPEMATIC)  /* V */                  \
    ROW( 47,   0x30,   0x32, 0x32, TYPEMATIC)  /* B */                  \
    ROW( 48,   0x31,   0x31, 0x31, TYPEMATIC)  /* N */                  \
    ROW( 49,   0x32,   0x3A, 0x3A, TYPEMATIC)  /* M */                  \
    ROW( 50,   0x33,   0x41, 0x41, TYPEMATIC)  /* , */                  \
    ROW( 51,   0x34,   0x49, 0x49, TYPEMATIC)  /* . */                  \
    ROW( 52,   0x35,   0x4A, 0x4A, TYPEMATIC)  /* / */                  \
    ROW( 53,   0x36,   0x59, 0x59, MAKE_BREAK) /* SHIFT_R */            \
    ROW( 54,   0x1D,   0x14, 0x11, MAKE_BREAK) /* CTRL_L */             \
    ROW( 55,   0x38,   0x11, 0x19, MAKE_BREAK) /* ALT_L */              \
    ROW( 56,   0x39,   0x29, 0x29, TYPEMATIC)  /* SPACE */              \
    ROW( 57, 0xE038, 0xE011, 0x39, MAKE)       /* ALT_R */              \
    ROW( 58, 0xE01D, 0xE014, 0x58, MAKE)       /* CTRL_R */             \
    ROW( 59, 0xE052, 0xE070, 0x67, MAKE)       /* INS */                \
    ROW( 60, 0xE053, 0xE071, 0x64, TYPEMATIC)  /* DEL */                \
    ROW( 61, 0xE047, 0xE06C, 0x6E, MAKE)       /* HOME */               \
    ROW( 62, 0xE04F, 0xE069, 0x65, MAKE)       /* END */                \
    ROW( 63, 0xE049, 0xE07D, 0x6F, MAKE)       /* PAGE UP */            \
    ROW( 64, 0xE051, 0xE07A, 0x6D, MAKE)       /* PAGE DOWN */          \
    ROW( 65, 0xE048, 0xE075, 0x63, TYPEMATIC)  /* UP */                 \
    ROW( 66, 0xE04B, 0xE06B, 0x61, TYPEMATIC)  /* LEFT */               \
    ROW( 67, 0xE050, 0xE072, 0x60, TYPEMATIC)  /* DOWN */               \
    ROW( 68, 0xE04D, 0xE074, 0x6A, TYPEMATIC)  /* RIGHT */              \
    ROW( 69,   0x45,   0x77, 0x76, MAKE)       /* NUM */                \
    ROW( 70, 0xE035, 0xE04A, 0x77, MAKE)       /* keypad / */           \
    ROW( 71,   0x37,   0x7C, 0x7E, MAKE)       /* keypad * */           \
    ROW( 72,   0x4A,   0x7B, 0x84, MAKE)       /* keypad - */           \
    ROW( 73,   0x4E,   0x79, 0x7C, TYPEMATIC)  /* keypad + */           \
    ROW( 74, 0xE01C, 0xE05A, 0x79, MAKE)       /* keypad ENTER */       \
    ROW( 75,   0x53,   0x71, 0x71, MAKE)       /* keypad DEL */         \
    ROW( 76,   0x52,   0x70, 0x70, MAKE)       /* keypad 0 */           \
    ROW( 77,   0x4F,   0x69, 0x69, MAKE)       /* keypad 1 */           \
    ROW( 78,   0x50,   0x72, 0x72, MAKE)       /* keypad 2 */           \
    ROW( 79,   0x51,   0x7A, 0x7A, MAKE)       /* keypad 3 */           \
    ROW( 80,   0x4B,   0x6B, 0x6B, MAKE)       /* keypad 4 */           \
    ROW( 81,   0x4C,   0x73, 0x73, MAKE)       /* keypad 5 */           \
    ROW( 82,   0x4D,   0x74, 0x74, MAKE)       /* keypad 6 */           \
    ROW( 83,   0x47,   0x6C, 0x6C, MAKE)       /* keypad 7 */           \
    ROW( 84,   0x48,   0x75, 0x75, MAKE)       /* keypad 8 */           \
    ROW( 85,   0x49,   0x7D, 0x7D, MAKE)       /* keypad 9 */           \
    ROW( 86,   0x01,   0x76, 0x08, MAKE)       /* ESC */                \
    ROW( 87,   0x3B,   0x05, 0x07, MAKE)       /* F1 */                 \
    ROW( 88,   0x3C,   0x06, 0x0F, MAKE)       /* F2 */                 \
    ROW( 89,   0x3D,   0x04, 0x17, MAKE)       /* F3 */                 \
    ROW( 90,   0x3E,   0x0C, 0x1F, MAKE)       /* F4 */                 \
    ROW( 91,   0x3F,   0x03, 0x27, MAKE)       /* F5 */                 \
    ROW( 92,   0x40,   0x0B, 0x2F, MAKE)       /* F6 */                 \
    ROW( 93,   0x41,   0x83, 0x37, MAKE)       /* F7 */                 \
    ROW( 94,   0x42,   0x0A, 0x3F, MAKE)       /* F8 */                 \
    ROW( 95,   0x43,   0x01, 0x47, MAKE)       /* F9 */                 \
    ROW( 96,   0x44,   0x09, 0x4F, MAKE)       /* F10 */                \
    ROW( 97,   0x57,   0x78, 0x56, MAKE)       /* F11 */                \
    ROW( 98,   0x58,   0x07, 0x5E, MAKE)       /* F12 */                \
    ROW( 99, 0xE037, 0xE07C, 0x57, MAKE)       /* PRINT, not ALT */     \
    ROW(100,   0x46,   0x7E, 0x5F, MAKE)       /* SCROLL */             \
    ROW(101, 0xE046, 0xE07E, 0x62, MAKE)       /* PAUSE with CTRL */    \
    ROW(102, 0xE05B, 0xE01F, 0x8B, MAKE_BREAK) /* LWIN */               \
    ROW(103, 0xE05C, 0xE027, 0x8C, MAKE_BREAK) /* RWIN */               \
    ROW(104, 0xE05D, 0xE02F, 0x8D, MAKE_BREAK) /* APP */

/* Media keys have no code in set 3, and so no type that would tell. */
#define MEDIA_KEYS(ROW)                          \
    ROW(105, 0xE06A, 0xE038) /* WWW BACK */      \
    ROW(106, 0xE069, 0xE030) /* WWW FORWARD */   \
    ROW(107, 0xE068, 0xE028) /* WWW STOP */      \
    ROW(108, 0xE067, 0xE020) /* WWW REFRESH */   \
    ROW(109, 0xE065, 0xE010) /* WWW SEARCH */    \
    ROW(110, 0xE066, 0xE018) /* WWW FAVORITES */ \
    ROW(111, 0xE032, 0xE03A) /* WEB/HOME */      \
    ROW(112, 0xE06C, 0xE048) /* MAIL */          \
    ROW(113, 0xE020, 0xE023) /* MUTE */          \
    ROW(114, 0xE02E, 0xE021) /* VOLUME- */       \
    ROW(115, 0xE030, 0xE032) /* VOLUME+ */       \
    ROW(116, 0xE022, 0xE034) /* PLAY/PAUSE */    \
    ROW(117, 0xE024, 0xE03B) /* STOP */          \
    ROW(118, 0xE010, 0xE015) /* PRE TRACK */     \
    ROW(119, 0xE019, 0xE04D) /* NEXT TRACK */    \
    ROW(120, 0xE06D, 0xE050) /* MEDIA SELECT */  \
    ROW(121, 0xE06B, 0xE040) /* MY COMPUTER */   \
    ROW(122, 0xE021, 0xE02B) /* CALCULATOR */    \
    ROW(123, 0xE05E, 0xE037) /* POWER */         \
    ROW(124, 0xE05F, 0xE03F) /* SLEEP */         \
    ROW(125, 0xE063, 0xE05E) /* WAKE UP */

#define BY_KEY(key, set1, set2, set3, type) [key] = {{set1, set2, set3}, type},
#define BY_MEDIA_KEY(key, set1, set2) [key] = {{set1, set2, 0}, TYPEMATIC},

const struct key keys[KEY_COUNT + 1] = {KEYS(BY_KEY) MEDIA_KEYS(BY_MEDIA_KEY)};

const uint8_t pause_set1[6] = {0xE1, 0x1D, 0x45, 0xE1, 0x9D, 0xC5};
const uint8_t pause_set2[8] = {0xE1, 0x14, 0x77, 0xE1, 0xF0, 0x14, 0xF0, 0x77};

/* The same rows turned round: the upper half of each line is for prefixed
 * codes. -Woverride-init would point out two keys that share a code. */
#define INDEX(code) (((code) & 0xFF) + ((code) > 0xFF ? 256u : 0u))
#define BY_SET1(key, set1, set2, set3, type) [INDEX(set1)] = key,
#define BY_SET2(key, set1, set2, set3, type) [INDEX(set2)] = key,
#define BY_SET3(key, set1, set2, set3, type) [INDEX(set3)] = key,
#define MEDIA_BY_SET1(key, set1, set2) [INDEX(set1)] = key,
#define MEDIA_BY_SET2(key, set1, set2) [INDEX(set2)] = key,

static const uint8_t by_code[3][512] = {
    {KEYS(BY_SET1) MEDIA_KEYS(MEDIA_BY_SET1) [ALT_PRINT_SET1] = KEY_PRINT},
    {KEYS(BY_SET2) MEDIA_KEYS(MEDIA_BY_SET2) [ALT_PRINT_SET2] = KEY_PRINT},
    {KEYS(BY_SET3)},
};

unsigned find_key(unsigned set, unsigned code)
{
    return by_code[set - 1][INDEX(code)];
}
