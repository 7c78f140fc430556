/* The main loop of a dock, over keydock.h: the part to copy onto a board. What touches pins is in hardware.h,
 * and docs/BOARD.md is the guide. Every answer of the library is looked at. */
#include "hardware.h"

struct board {
    struct keydock *dock;
    int map_taken;  /* has the dock been told the map of the panel that is on? */
    int32_t unsent; /* what a read gave and the host has not got whole, 0 for none */
    int32_t lamps;  /* those that are lit */
};

/* The size of the record is refused only by a library that belongs to another header. */
static int wake_up(struct board *board)
{
    if (keydock_power_on(board->dock, sizeof *board->dock) < 0) {
        hardware_fault("this library is not the header's");
        return 0;
    }
    board->map_taken = 0;
    board->unsent = 0;
    return 1;
}

/* Was the call accepted? If not, it has changed nothing, and here is what a dock does about it. */
static int accepted(struct board *board, int32_t answer)
{
    switch (answer) {
    case KEYDOCK_REFUSED_RECORD:
        hardware_fault("the record was damaged: the dock wakes up anew");
        wake_up(board);
        break;
    case KEYDOCK_REFUSED_MAP_ENTRY:
        hardware_fault("the panel's map has a key that there is not: the map before it stays");
        break;
    case KEYDOCK_REFUSED_MAP_DOUBLE:
        hardware_fault("the panel's map has a key twice: the map before it stays");
        break;
    case KEYDOCK_REFUSED_FRAME:
        hardware_fault("a bug: hardware_receive gave more than eleven bits");
        break;
    case KEYDOCK_REFUSED_SCAN_LENGTH:
    case KEYDOCK_REFUSED_MAP_LENGTH:
        hardware_fault("a bug: a scan or map of a wrong length");
        break;
    }
    return answer >= 0;
}

/* A dock that has just woken up has the plain map, so it is told that of the panel then, too. */
static void take_panel(struct board *board)
{
    uint8_t map[KEYDOCK_MAP_SIZE];
    if (hardware_panel_changed())
        board->map_taken = 0;
    if (board->map_taken)
        return;
    hardware_read_map(map);
    board->map_taken = 1;
    accepted(board, keydock_swap(board->dock, sizeof *board->dock, map, sizeof map));
}

static void take_scan(struct board *board)
{
    uint8_t columns[KEYDOCK_SCAN_SIZE];
    hardware_read_matrix(columns);
    accepted(board, keydock_scan(board->dock, sizeof *board->dock, columns, sizeof columns));
}

/* Is what the host has not got whole out of date, now that it has sent a frame? A reply always, as the
 * replies that wait are. A key byte, if the host's byte clears the queue that it came from (F0, F4 to FD,
 * FF), or if the dock gives it again by itself (FE). */
static int out_of_date(int32_t unsent, uint32_t frame)
{
    int32_t byte = keydock_unpack_frame(frame);
    return KEYDOCK_GIVEN_KIND(unsent) == KEYDOCK_GAVE_REPLY || byte == 0xF0 || byte >= 0xF4;
}

static void take_frame(struct board *board)
{
    uint32_t frame;
    if (!hardware_receive(&frame))
        return;
    if (accepted(board, keydock_frame(board->dock, sizeof *board->dock, frame)) && out_of_date(board->unsent, frame))
        board->unsent = 0;
}

/* No byte is read before the host is ready for it: FE asks for the byte that was read last, and has to mean
 * the one that the host got last. */
static void send_next(struct board *board)
{
    if (!hardware_host_ready())
        return;
    if (board->unsent == 0) {
        int32_t answer = keydock_read(board->dock, sizeof *board->dock);
        if (!accepted(board, answer) || answer == 0)
            return;
        board->unsent = answer;
    }
    if (hardware_send(keydock_pack_frame(KEYDOCK_GIVEN_BYTE(board->unsent))))
        board->unsent = 0;
}

static void show_lamps(struct board *board)
{
    int32_t lamps = keydock_indicators(board->dock, sizeof *board->dock);
    if (!accepted(board, lamps) || lamps == board->lamps)
        return;
    hardware_light(lamps);
    board->lamps = lamps;
}

void run_dock(struct keydock *dock)
{
    struct board board = {dock, 0, 0, 0};
    if (!wake_up(&board))
        return;
    while (hardware_tick()) {
        take_panel(&board);
        take_scan(&board);
        take_frame(&board);
        send_next(&board);
        show_lamps(&board);
    }
}
