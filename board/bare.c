/* A dock without a C library, as on a board that has none: this program brings its own start and the functions
 * that the library asks for (docs/BOARD.md lists them). It plays the limestone, then makes many calls of each
 * function, and prints how much stack each took at most: every function is called on a painted stack of its
 * own, and the lowest byte that is no paint any more tells. Exit status: 0, or 1 if the dock sent something
 * wrong or a stack was too small to tell. */
#include "keydock.h"

/* ---- what the library asks for ---- */

void *memcpy(void *to, const void *from, size_t count)
{
    uint8_t *out = to;
    const uint8_t *in = from;
    while (count-- > 0)
        *out++ = *in++;
    return to;
}

void *memset(void *to, int byte, size_t count)
{
    uint8_t *out = to;
    while (count-- > 0)
        *out++ = (uint8_t)byte;
    return to;
}

/* ---- what a program asks of Linux ---- */

int run(void);

/* The stack is a multiple of 16 before the call, as C wants it. */
__asm__(".globl _start\n"
        "_start:\n"
        "    xorl %ebp, %ebp\n"
        "    andq $-16, %rsp\n"
        "    call run\n"
        "    movl %eax, %edi\n"
        "    movl $60, %eax\n" /* exit */
        "    syscall\n");

static void print(const char *text)
{
    size_t count = 0;
    while (text[count] != '\0')
        count++;
    long written = 1; /* write, to standard output */
    __asm__ volatile("syscall" : "+a"(written) : "D"(1), "S"(text), "d"(count) : "rcx", "r11", "memory");
}

static void print_number(size_t number)
{
    char digits[24];
    char *first = digits + sizeof digits - 1;
    *first = '\0';
    do
        *--first = (char)('0' + number % 10);
    while ((number /= 10) > 0);
    print(first);
}

/* ---- the calls, each with what stands here ---- */

static struct keydock dock;
static uint8_t columns[KEYDOCK_SCAN_SIZE];
static uint8_t map[KEYDOCK_MAP_SIZE];
static uint8_t codes[KEYDOCK_CODES_MAX];
static uint32_t number; /* a frame, or the choices of a call without a record */

static int32_t power_on(void) { return keydock_power_on(&dock, sizeof dock); }
static int32_t scan(void) { return keydock_scan(&dock, sizeof dock, columns, sizeof columns); }
static int32_t swap(void) { return keydock_swap(&dock, sizeof dock, map, sizeof map); }
static int32_t frame(void) { return keydock_frame(&dock, sizeof dock, number); }
static int32_t read(void) { return keydock_read(&dock, sizeof dock); }
static int32_t indicators(void) { return keydock_indicators(&dock, sizeof dock); }
static int32_t scanning(void) { return keydock_scanning(&dock, sizeof dock); }
static int32_t pack_frame(void) { return keydock_pack_frame((uint8_t)number); }
static int32_t unpack_frame(void) { return keydock_unpack_frame(number); }
static int32_t read_byte(void) { return keydock_read_byte(number >> 12 & 3, number >> 8 & 15, (uint8_t)number); }
static int32_t read_press(void) { return keydock_read_press(number >> 12 & 3, number >> 8 & 15, (uint8_t)number); }
static int32_t key_codes(void)
{
    return keydock_key_codes(number & 3, number >> 2 & 127, number >> 9 & 3, number >> 11 & 3, number >> 13 & 63,
                             number >> 19 & 1, codes, sizeof codes);
}

enum { POWER_ON, SCAN, SWAP, FRAME, READ, INDICATORS, SCANNING, PACK_FRAME, UNPACK_FRAME, KEY_CODES, READ_BYTE, READ_PRESS, CALLS };

static const struct {
    const char *name;
    int32_t (*make)(void);
} calls[CALLS] = {
    [POWER_ON] = {"keydock_power_on", power_on},
    [SCAN] = {"keydock_scan", scan},
    [SWAP] = {"keydock_swap", swap},
    [FRAME] = {"keydock_frame", frame},
    [READ] = {"keydock_read", read},
    [INDICATORS] = {"keydock_indicators", indicators},
    [SCANNING] = {"keydock_scanning", scanning},
    [PACK_FRAME] = {"keydock_pack_frame", pack_frame},
    [UNPACK_FRAME] = {"keydock_unpack_frame", unpack_frame},
    [KEY_CODES] = {"keydock_key_codes", key_codes},
    [READ_BYTE] = {"keydock_read_byte", read_byte},
    [READ_PRESS] = {"keydock_read_press", read_press},
};

/* ---- a painted stack for each ---- */

enum { STACK = 16384, PAINT = 0xA5 };

static uint8_t stacks[CALLS][STACK] __attribute__((aligned(16)));

static int32_t call(int which)
{
    int32_t answer;
    __asm__ volatile("movq %%rsp, %%rbx\n\t"
                     "movq %[top], %%rsp\n\t"
                     "call *%[make]\n\t"
                     "movq %%rbx, %%rsp"
                     : "=a"(answer)
                     : [top] "r"(stacks[which] + STACK), [make] "r"(calls[which].make)
                     : "rbx", "rcx", "rdx", "rsi", "rdi", "r8", "r9", "r10", "r11", "xmm0", "xmm1", "xmm2", "xmm3", "xmm4",
                       "xmm5", "xmm6", "xmm7", "xmm8", "xmm9", "xmm10", "xmm11", "xmm12", "xmm13", "xmm14", "xmm15",
                       "memory", "cc");
    return answer;
}

/* A stack is used in words of 8 bytes. */
static size_t stack_taken(int which)
{
    size_t untouched = 0;
    while (untouched < STACK && stacks[which][untouched] == PAINT)
        untouched++;
    return STACK - untouched / 8 * 8;
}

/* ---- the limestone ---- */

static int wrong;

static void clear(uint8_t *bytes, size_t count)
{
    memset(bytes, 0, count);
}

/* The next byte that the dock gives; 256 for none. */
static void gives(uint32_t byte)
{
    int32_t answer = call(READ);
    wrong |= byte == 256 ? answer != 0 : answer <= 0 || KEYDOCK_GIVEN_BYTE(answer) != byte;
}

static void scans(int count)
{
    while (count-- > 0)
        wrong |= call(SCAN) != 0;
}

/* The 2, key 3, is held while its panel is pulled off; the new one has key A at position 0 and no other. */
static void limestone(void)
{
    wrong |= call(POWER_ON) != 0;
    gives(0xAA);
    columns[0] = 4;
    scans(3);
    gives(0x1E);
    clear(map, sizeof map);
    map[0] = KEYDOCK_KEY_A;
    wrong |= call(SWAP) != 0;
    clear(columns, sizeof columns);
    scans(200);
    gives(0xF0);
    gives(0x1E);
    gives(256);
    columns[0] = 1;
    scans(3);
    gives(0x1C);
    gives(256);
}

/* ---- many calls ---- */

static uint32_t chance(void)
{
    static uint64_t state = 1;
    state = state * UINT64_C(6364136223846793005) + UINT64_C(1442695040888963407);
    return (uint32_t)(state >> 32);
}

/* 41 contacts, the most of which no two columns share a pair, or 41 others, some of either, or none. */
static void some_contacts(void)
{
    static const uint8_t crowds[2][KEYDOCK_SCAN_SIZE] = {
        {0x34, 0x68, 0xC2, 0x45, 0x1A, 0x03, 0x09, 0x11, 0x21, 0x81, 0x06, 0x22, 0x0C, 0x84, 0x88, 0x50, 0x90, 0xA0},
        {0x81, 0x13, 0x18, 0x90, 0xC0, 0x84, 0x42, 0x06, 0x0A, 0x48, 0x50, 0x44, 0x82, 0x61, 0x34, 0xA8, 0x22, 0x0D}};
    uint32_t some = chance();
    for (size_t column = 0; column < sizeof columns; column++)
        columns[column] = (uint8_t)(some & 3 ? crowds[some >> 2 & 1][column] & (some & 1 ? chance() : 255) : 0);
}

/* Keys on the first positions, or on the last, or on none; now and then a map that is refused. */
static void some_map(void)
{
    uint32_t some = chance();
    clear(map, sizeof map);
    for (unsigned key = 1; key <= (some & 3 ? KEYDOCK_KEYS : 0); key++)
        map[some & 4 ? key - 1 : sizeof map - key] = (uint8_t)key;
    if ((some & 56) == 0)
        map[some >> 8 & 127] = (uint8_t)(some >> 16);
}

/* Any number as a frame, one that is too large, or that of a command or of a value. */
static void some_frame(void)
{
    uint32_t some = chance();
    number = some & 7 ? keydock_pack_frame((uint8_t)(some & 8 ? 0xED + (some >> 8) % 19 : some >> 8 & 7)) : some >> 8 & 4095;
}

static void many_calls(void)
{
    call(POWER_ON);
    for (int i = 0; i < 3000; i++) {
        uint32_t some = chance();
        some_contacts();
        for (uint32_t times = some & 3; times > 0; times--)
            call(SCAN);
        if ((some & 0x700) == 0) {
            some_map();
            call(SWAP);
        }
        if ((some & 0x3000) == 0) {
            some_frame();
            call(FRAME);
        }
        for (uint32_t times = some >> 16 & 15; times > 0; times--)
            call(READ);
        number = chance();
        for (int which = INDICATORS; which < CALLS; which++)
            call(which);
    }
    dock.bytes[0] = 255;
    for (int which = 0; which < CALLS; which++)
        wrong |= call(which == POWER_ON ? READ : which) >= 0 && which < PACK_FRAME;
}

int run(void)
{
    memset(stacks, PAINT, sizeof stacks);
    limestone();
    many_calls();
    for (int which = 0; which < CALLS; which++) {
        size_t taken = stack_taken(which);
        wrong |= taken > STACK - 256;
        print(calls[which].name);
        print(" ");
        print_number(taken);
        print("\n");
    }
    print(wrong ? "something is wrong\n" : "");
    return wrong;
}
