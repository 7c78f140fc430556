/* The bench: lines in, answers out, on one dock.
 *
 * 36 hexadecimal digits are a scan, 3 a host frame, 288 a map to swap to, and
 * an empty line is a read. A read prints the frame given, or 000; a refused
 * line prints ! and the number of the refusal. */
#include <errno.h>
#include <signal.h>
#include <stdbool.h>
#include <stdlib.h>
#include <string.h>
#include <unistd.h>

#include "dock.h"
#include "frames.h"
#include "refusals.h"

enum {
    FRAME_DIGITS = 3,
    SCAN_DIGITS = 2 * COLUMNS,
    MAP_DIGITS = 2 * POSITIONS,
    ANSWER_MAX = 4
};

static char input[1 << 16];
static char output[1 << 16];
static size_t output_length;

static void flush_output(void)
{
    size_t written = 0;
    while (written < output_length) {
        ssize_t count = write(STDOUT_FILENO, output + written, output_length - written);
        if (count >= 0)
            written += (size_t)count;
        else if (errno != EINTR)
            exit(errno == EPIPE ? EXIT_SUCCESS : EXIT_FAILURE);
    }
    output_length = 0;
}

static void print(const char *text, size_t length)
{
    if (output_length > sizeof output - ANSWER_MAX)
        flush_output();
    memcpy(output + output_length, text, length);
    output_length += length;
}

static void print_refusal(int number)
{
    char text[] = {'!', (char)('0' + number), '\n'};
    print(text, sizeof text);
}

static void print_frame(unsigned frame)
{
    static const char digits[] = "0123456789ABCDEF";
    char text[] = {digits[frame >> 8 & 15], digits[frame >> 4 & 15], digits[frame & 15], '\n'};
    print(text, sizeof text);
}

/* The value of an upper-case hexadecimal digit, or -1. */
static int digit_value(char digit)
{
    if (digit >= '0' && digit <= '9')
        return digit - '0';
    if (digit >= 'A' && digit <= 'F')
        return digit - 'A' + 10;
    return -1;
}

static bool parse_bytes(const char *digits, size_t count, uint8_t *bytes)
{
    for (size_t i = 0; i < count; i++) {
        int high = digit_value(digits[2 * i]);
        int low = digit_value(digits[2 * i + 1]);
        if (high < 0 || low < 0)
            return false;
        bytes[i] = (uint8_t)(high << 4 | low);
    }
    return true;
}

static bool parse_frame(const char *digits, uint32_t *frame)
{
    int high = digit_value(digits[0]);
    int middle = digit_value(digits[1]);
    int low = digit_value(digits[2]);
    if (high < 0 || middle < 0 || low < 0)
        return false;
    *frame = (uint32_t)(high << 8 | middle << 4 | low);
    return true;
}

static int run_read(struct dock *dock)
{
    int given = dock_read(dock);
    if (given >= 0)
        print_frame(given == GAVE_NOTHING ? 0 : pack_frame((uint8_t)given));
    return given;
}

static int run_call(struct dock *dock, const char *line, size_t length)
{
    uint8_t bytes[POSITIONS];
    uint32_t frame;

    switch (length) {
    case 0:
        return run_read(dock);
    case FRAME_DIGITS:
        if (parse_frame(line, &frame))
            return dock_host_frame(dock, frame);
        break;
    case SCAN_DIGITS:
        if (parse_bytes(line, COLUMNS, bytes))
            return dock_scan(dock, bytes, COLUMNS);
        break;
    case MAP_DIGITS:
        if (parse_bytes(line, POSITIONS, bytes))
            return dock_swap(dock, bytes, POSITIONS);
        break;
    }
    return -REFUSED_LINE;
}

static void run_line(struct dock *dock, const char *line, size_t length)
{
    int result = run_call(dock, line, length);
    if (result < 0)
        print_refusal(-result);
}

/* Runs the whole lines among the first length characters of the input, moves
 * the rest to the front and returns its length. Of a line that is too long
 * already, just enough is kept to show it. */
static size_t run_input(struct dock *dock, size_t length)
{
    const char *line = input;
    const char *end = input + length;
    const char *newline;

    while ((newline = memchr(line, '\n', (size_t)(end - line))) != NULL) {
        run_line(dock, line, (size_t)(newline - line));
        line = newline + 1;
    }
    size_t rest = (size_t)(end - line);
    if (rest > MAP_DIGITS + 1)
        rest = MAP_DIGITS + 1;
    memmove(input, line, rest);
    return rest;
}

int main(void)
{
    struct dock dock;
    size_t kept = 0;
    ssize_t count;

    signal(SIGPIPE, SIG_IGN);
    dock_power_on(&dock);
    while ((count = read(STDIN_FILENO, input + kept, sizeof input - kept)) != 0) {
        if (count < 0 && errno == EINTR)
            continue;
        if (count < 0)
            return EXIT_FAILURE;
        kept = run_input(&dock, kept + (size_t)count);
        flush_output();
    }
    if (kept > 0)
        run_line(&dock, input, kept);
    flush_output();
    return EXIT_SUCCESS;
}
