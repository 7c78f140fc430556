/* Prints a random session of bench input: sessions SEED LINES
 *
 * The same seed and number of lines give the same session on every machine.
 * A session passes through moods, each a stretch of lines with one purpose,
 * and prefers some moods to others, so that few sessions are alike. Here are
 * the moods; what they are made of is in lines.h. */
#include <stdio.h>
#include <stdlib.h>

#include "lines.h"

static void refused_or_broken(void)
{
    for (unsigned i = between(1, 4); i > 0; i--) {
        unsigned kind = below(4);
        if (kind == 0)
            swap_refused();
        else if (kind == 1)
            malformed_line();
        else
            broken_frame();
        if (chance(reads_percent))
            reads(between(1, 2));
    }
}

static void type_keys(void)
{
    for (unsigned i = between(1, 6); i > 0; i--) {
        unsigned position = some_position();
        set_contact(position, true);
        if (chance(25))
            set_contact(some_position(), true);
        if (chance(20))
            bounce(position);
        scans(chance(15) ? between(1, 2) : between(3, 6));
        if (chance(20))
            bounce(position);
        set_contact(position, false);
        scans(chance(15) ? between(1, 2) : between(3, 5));
        if (chance(15))
            lift_all();
    }
}

/* Forms change between a press and its release. */
static void play_chords(void)
{
    if (chance(40))
        host_pair(0xED, below(8));
    for (unsigned i = below(4); i > 0; i--)
        set_contact(some_modifier_position(), true);
    if (chance(70))
        scans(3);
    for (unsigned i = between(1, 3); i > 0; i--) {
        unsigned position = position_of_special(some_special());
        unsigned modifier = some_modifier_position();
        set_contact(position, true);
        scans(3);
        if (chance(50))
            set_contact(modifier, chance(50));
        if (chance(30))
            host_pair(0xED, below(4));
        if (chance(50))
            scans(3);
        set_contact(position, false);
        scans(3);
    }
    if (chance(60))
        lift_all();
}

static void interrupt_hold(void)
{
    switch (below(8)) {
    case 0:
        phantom(between(1, 12));
        break;
    case 1:
        host_pair(0xF3, some_rate());
        break;
    case 2:
        set_type_of(some_special());
        break;
    case 3:
        host(between(0xF7, 0xFA));
        break;
    case 4: /* the clock stands still while the command waits */
        host(0xED);
        scans(between(1, 40));
        host(below(8));
        break;
    case 5:
        bounce(some_position());
        break;
    case 6:
        host(chance(50) ? 0xFE : 0xEE);
        break;
    default:
        broken_frame();
    }
}

/* Nothing held, nothing waiting, and a rate that does not take all day. */
static void get_ready(void)
{
    host(0xF4);
    host_pair(0xF3, some_rate());
    lift_all();
    reads(between(2, 8));
}

static void hold_key(void)
{
    static const unsigned lengths[] = {30, 64, 80, 80, 100, 130, 170, 250};
    static const unsigned eagerness[] = {5, 40, 70, 70};
    if (chance(30))
        choose_set();
    if (chance(75))
        get_ready();
    reads_percent = eagerness[below(LENGTH(eagerness))];

    unsigned other = some_position();
    if (chance(50)) {
        set_contact(other, true);
        scans(3);
    }
    unsigned position = chance(50) ? some_position() : position_of(between(1, KEY_COUNT));
    set_contact(position, true);
    for (unsigned i = lengths[below(LENGTH(lengths))]; i > 0; i--) {
        scans(1);
        if (chance(4))
            set_contact(other, false);
        if (chance(2))
            interrupt_hold();
        if (chance(1))
            move_some_contact();
    }
    if (chance(50))
        reads(between(1, 6));
    set_contact(position, false);
    scans(3);
}

/* A key that repeats in set 3 until its type is changed, perhaps back again. */
static void change_type_of_held_key(unsigned which)
{
    unsigned position = position_of_special(which);

    host(chance(50) ? 0xF7 : 0xFA);
    set_contact(position, true);
    scans(between(3, 70));
    if (chance(70))
        set_type_of(which);
    else
        host(between(0xF7, 0xFA));
    scans(between(1, 60));
    if (chance(40))
        host(0xF7);
    scans(between(1, 30));
    set_contact(position, false);
    scans(3);
}

static void set_types(void)
{
    if (chance(80))
        host_pair(0xF0, 3);
    if (chance(60))
        get_ready();
    for (unsigned i = between(1, 3); i > 0; i--) {
        unsigned which = some_special();
        unsigned position = position_of_special(which);
        if (chance(30)) {
            change_type_of_held_key(which);
            continue;
        }
        if (chance(40))
            host(between(0xF7, 0xFA));
        else
            set_type_of(which);
        set_contact(position, true);
        scans(chance(70) ? between(3, 6) : between(63, 80));
        if (chance(40))
            set_type_of(which);
        set_contact(position, false);
        scans(3);
    }
}

static void storm(void)
{
    for (unsigned i = between(1, 15); i > 0; i--) {
        some_host_bytes();
        if (chance(20))
            scans(between(1, 3));
        if (chance(15))
            broken_frame();
    }
    if (chance(60))
        host(0xF4);
}

/* The question which set is in use, in each set, with keys held, and while so
 * many come up with their panel that one queue cannot hold their releases. */
static void ask_for_sets(void)
{
    for (unsigned i = between(2, 6); i > 0; i--) {
        if (chance(60))
            choose_set();
        if (chance(40)) {
            move_some_contact();
            scans(3);
        }
        if (chance(20)) {
            close_many(30);
            scans(3);
            swap();
        }
        ask_which_set();
    }
    if (chance(60))
        host(0xF4);
}

/* Keys held with nothing read, up to an overrun. */
static void flood(void)
{
    if (chance(40))
        choose_set();
    reads_percent = chance(80) ? 0 : 5;
    for (unsigned i = between(1, 4); i > 0; i--) {
        close_many(between(2, 14));
        if (chance(40))
            set_contact(some_position(), true);
        scans(3);
        if (chance(50))
            lift_all();
    }
    if (chance(70))
        reads(between(1, 20));
}

static void during_handover(void)
{
    static const uint8_t clearing[] = {0xF0, 0xF4, 0xF5, 0xF6, 0xF7, 0xF8, 0xF9, 0xFA, 0xFB, 0xFC};
    switch (below(8)) {
    case 0:
    case 1:
        reads(between(1, 5));
        break;
    case 2:
        scans(between(1, 5));
        break;
    case 3:
        host_pair(0xED, below(4));
        break;
    case 4:
        host(chance(50) ? clearing[below(LENGTH(clearing))] : 0xFE);
        break;
    case 5:
        refused_or_broken();
        break;
    case 6:
        if (chance(30))
            host(0xFF);
        break;
    default:
        swap();
    }
}

static void swap_panels(void)
{
    if (chance(60)) {
        reads_percent = chance(80) ? 0 : 10;
        close_many(between(1, 13));
        if (chance(50))
            set_contact(some_modifier_position(), true);
        scans(between(3, 5));
    }
    if (chance(30))
        set_contact(some_position(), true);
    if (chance(30))
        scans(between(1, 3));
    swap();
    if (chance(50))
        open_all();
    for (unsigned i = below(8); i > 0; i--)
        during_handover();
    if (chance(60))
        reads(between(5, 25));
    scans(between(1, 6));
}

/* A key repeats while its panel is taken away; then long nothing. */
static void wash_panel(void)
{
    get_ready();
    unsigned position = some_position();
    set_contact(position, true);
    scans(between(3, 75));
    swap();
    if (chance(70))
        set_contact(position, false);
    reads(between(4, 12));
    reads_percent = 30;
    scans(between(20, 70));
}

/* Pressed in one set and released in another; no modifier changes its code. */
static void type_media_key(void)
{
    unsigned position = some_media_position();
    unsigned modifier = some_modifier_position();

    if (chance(40))
        host_pair(0xED, below(8));
    if (chance(50))
        set_contact(modifier, true);
    set_contact(position, true);
    scans(between(3, 5));
    if (chance(50))
        choose_set();
    if (chance(30))
        host(between(0xF7, 0xFA));
    set_contact(position, false);
    scans(between(3, 5));
    set_contact(modifier, false);
    reads(below(8));
}

/* It ends the other key's repeat in every set, and repeats itself in two. */
static void press_media_key_over_repeat(void)
{
    unsigned position = some_media_position();
    unsigned other = position_of(between(1, KEY_COUNT));

    choose_set();
    if (chance(50))
        host(0xF7);
    get_ready();
    reads_percent = 70;
    set_contact(other, true);
    scans(between(3, 75));
    set_contact(position, true);
    scans(between(3, 85));
    set_contact(chance(50) ? other : position, false);
    scans(between(3, 20));
    open_all();
    scans(3);
}

/* In set 3 it sends nothing, which fits into a full queue too. No key sends a
 * release here, so that the queue can be filled to its last place. */
static void press_media_key_at_full_queue(void)
{
    reads_percent = 0;
    host_pair(0xF0, 3);
    host(0xF7);
    lift_all();
    close_coded(12);
    scans(3);
    lift_all();
    close_coded(between(3, 5));
    scans(3);
    set_contact(some_media_position(), true);
    scans(between(3, 5));
    if (chance(40)) {
        swap_to_full();
        scans(between(3, 5));
    }
    reads(between(8, 20));
}

/* Perhaps in another set than they were pressed in. A second swap would show
 * which of them the first has left behind. */
static void swap_with_media_keys_held(void)
{
    for (unsigned i = between(1, 3); i > 0; i--)
        set_contact(some_media_position(), true);
    scans(between(3, 5));
    if (chance(60))
        choose_set();
    swap();
    if (chance(80))
        open_all();
    reads(below(10));
    if (chance(60)) {
        choose_set();
        swap_to_full();
        reads(below(6));
    }
}

static void use_media_keys(void)
{
    static void (*const scenes[])(void) = {
        type_media_key, type_media_key, press_media_key_over_repeat, press_media_key_at_full_queue,
        swap_with_media_keys_held
    };
    host(0xF4);
    for (unsigned i = between(2, 5); i > 0; i--) {
        if (chance(70))
            swap_to_full();
        if (chance(60))
            choose_set();
        if (chance(25)) {
            set_type_of_none();
            if (chance(85))
                set_type_of(some_special());
        }
        scenes[below(LENGTH(scenes))]();
    }
}

static void stop_and_start(void)
{
    host(0xF5);
    if (chance(50))
        choose_set();
    for (unsigned i = between(1, 3); i > 0; i--) {
        if (chance(60))
            move_some_contact();
        scans(between(1, 4));
        if (chance(20))
            swap();
    }
    if (chance(70))
        host(0xF4);
    scans(between(1, 4));
}

static void rattle(void)
{
    for (unsigned i = between(3, 20); i > 0; i--) {
        if (chance(40))
            move_some_contact();
        if (chance(15))
            phantom(between(1, 3));
        scans(1);
    }
}

static void noise(void)
{
    for (unsigned i = between(1, 6); i > 0; i--)
        noisy_scan();
}

static void rest(void)
{
    lift_all();
    reads(between(1, 24));
}

static void choose_mood(void)
{
    static void (*const moods[])(void) = {
        type_keys, play_chords, hold_key, hold_key, set_types, choose_set, choose_set, ask_for_sets,
        ask_for_sets, storm, flood, flood, swap_panels, swap_panels, wash_panel, use_media_keys,
        use_media_keys, stop_and_start, rattle, noise, refused_or_broken, rest
    };
    static const unsigned eagerness[] = {0, 10, 50, 100};
    static unsigned weights[LENGTH(moods)];
    static unsigned total;

    while (total == 0)
        for (size_t i = 0; i < LENGTH(moods); i++)
            total += weights[i] = chance(50) ? between(1, 3) : between(0, 10);

    unsigned drawn = below(total);
    size_t mood = 0;
    while (drawn >= weights[mood])
        drawn -= weights[mood++];
    reads_percent = eagerness[below(LENGTH(eagerness))];
    if (chance(15))
        host(0xF4);
    if (chance(15))
        refused_or_broken();
    moods[mood]();
}

int main(int argc, char **argv)
{
    if (argc != 3) {
        fputs("usage: sessions SEED LINES\n", stderr);
        return EXIT_FAILURE;
    }
    begin_session(strtoull(argv[1], NULL, 10), strtoul(argv[2], NULL, 10));
    while (session_goes_on())
        choose_mood();
    put_last_line();
    return EXIT_SUCCESS;
}
