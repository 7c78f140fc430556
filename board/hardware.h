/* What the loop in board.c asks of the hardware. A board brings its own of each of these functions; standin.c
 * has them for a machine without any. None of them may make a call on the record: the loop makes them all. */
#ifndef HARDWARE_H
#define HARDWARE_H

#include "keydock.h"

/* Waits for the next tick, of which 240 make a second, and gives 1. A tick that was missed is not made up
 * for. 0 ends the loop: a board has no use for it. */
int hardware_tick(void);

/* The contacts as they are now: byte c is column c, bit r of it row r, 1 for a closed one. All are open while
 * no panel is on. Nothing is smoothed here: the dock itself waits for three scans that agree. */
void hardware_read_matrix(uint8_t columns[KEYDOCK_SCAN_SIZE]);

/* 1 if a panel was clipped on since the last call, whatever was on before, else 0. */
int hardware_panel_changed(void);

/* The map of the panel that is on, out of the panel's own memory: byte 8 c + r is the key at column c, row r,
 * 0 for none. What was misread is found out by the dock as far as it can be. */
void hardware_read_map(uint8_t map[KEYDOCK_MAP_SIZE]);

/* If the host asks to send, clocks its frame in, acknowledges it and gives 1: *frame has the eleven bits as
 * they came, the start bit lowest, right or wrong. Else 0, and *frame is left alone. */
int hardware_receive(uint32_t *frame);

/* 1 if both lines are idle, so that a frame may be sent, else 0. */
int hardware_host_ready(void);

/* Sends a frame, bit 0 first, and gives 1; 0 if the host held the clock low before the last bit, so that it
 * has not got the frame. Eleven bits take about a millisecond. */
int hardware_send(uint16_t frame);

/* Lights these lamps and no others: KEYDOCK_LAMP_.. added up. All are dark when the loop begins. */
void hardware_light(int32_t lamps);

/* Something is wrong that somebody should know of: a line for a log, or a red lamp. */
void hardware_fault(const char *what);

/* The loop, in board.c. A board's main gets pins and clock going, then calls it with the memory for the
 * record, whatever is in it. */
void run_dock(struct keydock *dock);

#endif
