/* A stand-in for the hardware: what happens to the dock is read from standard input, one event a line, and
 * what it does is printed.
 *
 *     close COLUMN ROW     a contact closes: column 0 to 17, row 0 to 7
 *     open COLUMN ROW      it opens
 *     panel plain          another panel is clipped on, with no contact closed
 *     panel POSITION=KEY ..
 *                          the same, with these keys and no others: position 0 to 143, which is 8 x column + row
 *     host BYTE            the host sends a byte, in hexadecimal
 *     frame FRAME          the host sends a frame, in hexadecimal: a broken one, for instance
 *     busy                 the host holds the clock low: nothing can be sent to it
 *     ready                it lets it go
 *     interrupt            it will hold it low in the middle of the next frame
 *     glitch PLACE BYTE    a byte of the record is disturbed: place 0 to 605, byte in hexadecimal
 *     wait TICKS           time goes by, 240 ticks a second; no other event takes any
 *     say WORDS            the words are printed
 *
 * What stands behind # is a remark. Printed are, behind the number of ticks so far,
 *
 *     3 frame 438 1C       a frame that went to the host, and its byte
 *     9 lamps num caps     those that are lit now
 *     9 fault ..           what is wrong
 *
 * Exit status: 0, or 1 with a message if a line makes no sense, or 2 if the program was given words. */
#include <errno.h>
#include <stdio.h>
#include <stdlib.h>
#include <string.h>

#include "hardware.h"

enum { COLUMNS = KEYDOCK_SCAN_SIZE, ROWS = 8, POSITIONS = KEYDOCK_MAP_SIZE };

static struct keydock record;

static struct {
    uint8_t contacts[COLUMNS];
    uint8_t map[POSITIONS];
    int changed;    /* a panel was clipped on, and nobody has asked yet */
    int asks;       /* the host asks to send this frame */
    uint32_t frame;
    int busy;       /* the host holds the clock low */
    int interrupts; /* it will, in the middle of the next frame */
} outside;

static unsigned long line_number;
static unsigned long ticks;      /* so far */
static unsigned long ticks_left; /* of the last wait */

/* ---- the words of a line ---- */

static void wrong(const char *what)
{
    fflush(stdout);
    fprintf(stderr, "board: line %lu: %s\n", line_number, what);
    exit(1);
}

/* The next word of the line, or NULL. */
static char *next_word(void)
{
    return strtok(NULL, " \t\r\n");
}

/* A word that is a number up to a limit, and nothing else; `what` is said of one that is not. */
static unsigned long number(const char *word, int base, unsigned long limit, const char *what)
{
    static const char digits[] = "0123456789ABCDEFabcdef";
    char *end;
    if (word == NULL || *word == '\0' || word[strspn(word, digits)] != '\0')
        wrong(what);
    errno = 0;
    unsigned long value = strtoul(word, &end, base);
    if (*end != '\0' || errno != 0 || value > limit)
        wrong(what);
    return value;
}

/* ---- the events ---- */

static void turn_contact(int closed)
{
    static const char what[] = "a column, 0 to 17, and a row, 0 to 7, are wanted";
    unsigned long column = number(next_word(), 10, COLUMNS - 1, what);
    unsigned mask = 1u << number(next_word(), 10, ROWS - 1, what);
    outside.contacts[column] = (uint8_t)(closed ? outside.contacts[column] | mask : outside.contacts[column] & ~mask);
}

static void close_contact(void)
{
    turn_contact(1);
}

static void open_contact(void)
{
    turn_contact(0);
}

/* APP is the last key of the plain map: the media keys, which come behind it, are on other panels alone. */
static void plain_map(void)
{
    for (int position = 0; position < POSITIONS; position++)
        outside.map[position] = (uint8_t)(position < KEYDOCK_KEY_APP ? position + 1 : 0);
}

/* Keys up to 255 are let through, as a panel's memory might hold them. */
static void clip_on(void)
{
    static const char what[] = "a panel is plain, or POSITION=KEY .. with positions 0 to 143 and keys 0 to 255";
    char *word = next_word();
    if (word == NULL)
        wrong(what);
    memset(outside.map, 0, sizeof outside.map);
    memset(outside.contacts, 0, sizeof outside.contacts);
    outside.changed = 1;
    if (strcmp(word, "plain") == 0) {
        plain_map();
        return;
    }
    for (; word != NULL; word = next_word()) {
        char *key = strchr(word, '=');
        if (key == NULL)
            wrong(what);
        *key = '\0';
        outside.map[number(word, 10, POSITIONS - 1, what)] = (uint8_t)number(key + 1, 10, 255, what);
    }
}

static void ask_to_send(uint32_t frame)
{
    if (outside.asks)
        wrong("the host's last frame has not been taken yet: wait for it");
    outside.asks = 1;
    outside.frame = frame;
}

static void host_byte(void)
{
    ask_to_send(keydock_pack_frame((uint8_t)number(next_word(), 16, 0xFF, "a byte is wanted, 00 to FF")));
}

static void host_frame(void)
{
    ask_to_send((uint32_t)number(next_word(), 16, 0xFFFF, "a frame is wanted, 000 to 7FF; up to FFFF to have it refused"));
}

static void host_is_busy(void)
{
    outside.busy = 1;
}

static void host_is_ready(void)
{
    outside.busy = 0;
}

static void host_interrupts(void)
{
    outside.interrupts = 1;
}

static void disturb(void)
{
    static const char what[] = "a place, 0 to 605, and a byte, 00 to FF, are wanted";
    unsigned long place = number(next_word(), 10, KEYDOCK_RECORD_SIZE - 1, what);
    record.bytes[place] = (uint8_t)number(next_word(), 16, 0xFF, what);
}

static void let_time_go_by(void)
{
    ticks_left = number(next_word(), 10, 1000000000, "a number of ticks is wanted, up to 1000000000");
}

static void say(void)
{
    char *words = strtok(NULL, "\r\n");
    puts(words == NULL ? "" : words);
}

static void happen(const char *word)
{
    static const struct {
        const char *word;
        void (*happen)(void);
    } events[] = {
        {"close", close_contact}, {"open", open_contact}, {"panel", clip_on}, {"host", host_byte},
        {"frame", host_frame}, {"busy", host_is_busy}, {"ready", host_is_ready}, {"interrupt", host_interrupts},
        {"glitch", disturb}, {"wait", let_time_go_by}, {"say", say}};
    for (size_t i = 0; i < sizeof events / sizeof events[0]; i++)
        if (strcmp(word, events[i].word) == 0) {
            events[i].happen();
            if (next_word() != NULL)
                wrong("there is a word too many");
            return;
        }
    wrong("it begins with none of close open panel host frame busy ready interrupt glitch wait say");
}

/* Lets one line happen; 0 at the end of the input. */
static int next_line(void)
{
    static char *line;
    static size_t room;
    ssize_t length = getline(&line, &room, stdin);
    if (length < 0)
        return 0;
    line_number++;
    if (strlen(line) != (size_t)length)
        wrong("it has a byte 00 in it");
    line[strcspn(line, "#")] = '\0';
    char *word = strtok(line, " \t\r\n");
    if (word != NULL)
        happen(word);
    return 1;
}

/* ---- what the loop asks of the hardware ---- */

int hardware_tick(void)
{
    while (ticks_left == 0)
        if (!next_line())
            return 0;
    ticks_left--;
    ticks++;
    return 1;
}

void hardware_read_matrix(uint8_t columns[KEYDOCK_SCAN_SIZE])
{
    memcpy(columns, outside.contacts, sizeof outside.contacts);
}

int hardware_panel_changed(void)
{
    int changed = outside.changed;
    outside.changed = 0;
    return changed;
}

void hardware_read_map(uint8_t map[KEYDOCK_MAP_SIZE])
{
    memcpy(map, outside.map, sizeof outside.map);
}

int hardware_receive(uint32_t *frame)
{
    if (!outside.asks)
        return 0;
    outside.asks = 0;
    *frame = outside.frame;
    return 1;
}

int hardware_host_ready(void)
{
    return !outside.busy;
}

int hardware_send(uint16_t frame)
{
    int whole = !outside.interrupts;
    outside.interrupts = 0;
    printf("%lu frame %03X %02X%s\n", ticks, (unsigned)frame, (unsigned)keydock_unpack_frame(frame),
           whole ? "" : " interrupted");
    return whole;
}

void hardware_light(int32_t lamps)
{
    printf("%lu lamps%s%s%s%s\n", ticks, lamps & KEYDOCK_LAMP_SCROLL ? " scroll" : "",
           lamps & KEYDOCK_LAMP_NUM ? " num" : "", lamps & KEYDOCK_LAMP_CAPS ? " caps" : "", lamps == 0 ? " none" : "");
}

void hardware_fault(const char *what)
{
    printf("%lu fault %s\n", ticks, what);
}

static int usage(void)
{
    fputs("usage: board <EVENTS\n"
          "a line of EVENTS is one of\n"
          "    close COLUMN ROW    open COLUMN ROW    panel plain    panel POSITION=KEY ..\n"
          "    host BYTE    frame FRAME    busy    ready    interrupt\n"
          "    glitch PLACE BYTE    wait TICKS    say WORDS    # REMARK\n",
          stderr);
    return 2;
}

int main(int count, char **words)
{
    (void)words;
    if (count > 1)
        return usage();
    setvbuf(stdout, NULL, _IOLBF, 0); /* who types the events sees at once what they do */
    plain_map();
    run_dock(&record);
    if (ferror(stdin) || ferror(stdout) || fflush(stdout) != 0) {
        fputs("board: the events cannot be read, or what happens cannot be written\n", stderr);
        return 1;
    }
    return 0;
}
