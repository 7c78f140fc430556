/* What generated sessions are made of: a line, or a few that belong together.
 *
 * Lines are printed at once. When only the session's last line is left, no
 * other is printed: that one is a case of its own. */
#ifndef LINES_H
#define LINES_H

#include "drawn.h"

void begin_session(uint64_t seed, unsigned long lines);
bool session_goes_on(void); /* more than the last line is to come */
void put_last_line(void);   /* often without its newline */

/* The terminal's reads. After a scan or a host byte it reads by itself, as
 * eagerly as this says. */
extern unsigned reads_percent;
void reads(unsigned count);

/* The panel's contacts. They change in silence: only a scan shows them. A
 * position is where a key is on this panel, or anywhere if it is not there.
 * Special keys have forms or types of their own, and go by their place in a
 * list. */
unsigned position_of(unsigned key);
unsigned some_special(void);
unsigned position_of_special(unsigned which);
unsigned some_modifier_position(void);
unsigned some_media_position(void);
unsigned some_position(void);
void set_contact(unsigned position, bool closed);
void move_some_contact(void);
void close_many(unsigned count);  /* one in a column at most, so that no rectangle arises */
void close_coded(unsigned count); /* the same, of so many keys with a code in set 3 */
void open_all(void);

/* Scans: of the contacts as they are, and of others. */
void scans(unsigned count);
void lift_all(void);            /* of none closed, so many that it counts */
void bounce(unsigned position); /* one or two that show a contact wrongly */
void phantom(unsigned count);   /* with a whole rectangle closed */
void noisy_scan(void);          /* every contact at random, mostly a phantom */

/* Another panel. */
void swap(void);
void swap_to_full(void); /* with all keys, media keys among them */
void swap_refused(void); /* its map has a number that is no key's, or a key twice */

/* Host bytes. */
void host(unsigned byte);
void host_pair(unsigned command, unsigned value);
unsigned some_rate(void);
void choose_set(void);
void ask_which_set(void);         /* 00 behind F0, or where it asks nothing */
void set_type_of(unsigned which); /* of a special key, in set 3 */
void set_type_of_none(void);      /* of code 00, which no key has */
void some_host_bytes(void);       /* a command and what may follow it, right or wrong */
void broken_frame(void);

/* A line that is not in the bench's language. */
void malformed_line(void);

#endif
