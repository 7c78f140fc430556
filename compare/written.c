/* A call from C writes back only the end of the record (docs/RECORD.md, "As bytes"). The bytes that a call leaves are put into a page that
 * may only be read, the others behind it into one that may be written, and the call is made. A swap changes the map, so with its first byte
 * in such a page it has to be caught: that shows that the page is one. */
#define _DEFAULT_SOURCE /* MAP_ANONYMOUS */

#include <setjmp.h>
#include <signal.h>
#include <stdio.h>
#include <string.h>
#include <sys/mman.h>
#include <unistd.h>

#include "keydock.h"

enum { SCAN_BYTES = 18, MAP_BYTES = 144, NO_FRAME = 0x800, BROKEN = 0, ECHO = 0x7DC, ALL_TYPES = 0x5EE };

/* Where the part begins that a call can change. */
enum { FROM_TYPES = 144, FROM_CONTACTS = 270, FROM_HELD = 432, NOTHING = KEYDOCK_RECORD_SIZE };

static struct keydock *dock;
static const uint8_t scan[SCAN_BYTES] = {0, 0, 0, 0x20}, map[MAP_BYTES] = {1};

static int32_t scanned(void) { return keydock_scan(dock, sizeof *dock, scan, sizeof scan); }
static int32_t scanned_short(void) { return keydock_scan(dock, sizeof *dock, scan, sizeof scan - 1); }
static int32_t echo(void) { return keydock_frame(dock, sizeof *dock, ECHO); }
static int32_t all_types(void) { return keydock_frame(dock, sizeof *dock, ALL_TYPES); }
static int32_t broken(void) { return keydock_frame(dock, sizeof *dock, BROKEN); }
static int32_t no_frame(void) { return keydock_frame(dock, sizeof *dock, NO_FRAME); }
static int32_t read_reply(void) { return keydock_read(dock, sizeof *dock); }
static int32_t lamps(void) { return keydock_indicators(dock, sizeof *dock); }
static int32_t is_scanning(void) { return keydock_scanning(dock, sizeof *dock); }
static int32_t of_another_size(void) { return keydock_read(dock, sizeof *dock - 1); }
static int32_t swapped(void) { return keydock_swap(dock, sizeof *dock, map, sizeof map); }

static const struct {
    const char *name;
    int32_t (*call)(void);
    size_t left; /* so many bytes at the front are left */
    int32_t answer;
} calls[] = {
    {"scan", scanned, FROM_CONTACTS, 0},
    {"scan of 17 bytes", scanned_short, FROM_CONTACTS, -1},
    {"frame EE", echo, FROM_TYPES, 0},
    {"frame F7", all_types, FROM_TYPES, 0},
    {"broken frame", broken, FROM_TYPES, 0},
    {"frame over 2047", no_frame, FROM_TYPES, -5},
    {"read", read_reply, FROM_HELD, 0x1AA},
    {"indicators", lamps, NOTHING, 0},
    {"scanning", is_scanning, NOTHING, 1},
    {"read of no record", of_another_size, NOTHING, -9},
};

static sigjmp_buf caught;

static void catch (int signal) { siglongjmp(caught, signal); }

/* Makes a call on a record that has just woken up, with so many bytes at its front in a page that may only be read: 1 if a write was caught. */
static int writes_there(int32_t (*call)(void), size_t left, int32_t *answer)
{
    size_t page = (size_t)sysconf(_SC_PAGESIZE);
    uint8_t *pages = mmap(NULL, 2 * page, PROT_READ | PROT_WRITE, MAP_PRIVATE | MAP_ANONYMOUS, -1, 0);
    if (pages == MAP_FAILED) {
        perror("mmap");
        return 1;
    }
    dock = (struct keydock *)(pages + page - left);
    keydock_power_on(dock, sizeof *dock);
    mprotect(pages, page, PROT_READ);
    int written = sigsetjmp(caught, 1);
    if (written == 0)
        *answer = call();
    munmap(pages, 2 * page);
    return written != 0;
}

int main(void)
{
    struct sigaction action = {.sa_handler = catch};
    int32_t answer = 0;
    int faults = 0;

    sigaction(SIGSEGV, &action, NULL);
    sigaction(SIGBUS, &action, NULL);
    for (size_t i = 0; i < sizeof calls / sizeof *calls; i++)
        if (writes_there(calls[i].call, calls[i].left, &answer)) {
            printf("%s writes to the %zu bytes that it leaves\n", calls[i].name, calls[i].left);
            faults++;
        } else if (answer != calls[i].answer) {
            printf("%s answers %d and not %d\n", calls[i].name, (int)answer, (int)calls[i].answer);
            faults++;
        }
    if (!writes_there(swapped, 1, &answer)) {
        puts("a swap that writes the map was not caught");
        faults++;
    }
    printf("%d faults\n", faults);
    return faults != 0;
}
