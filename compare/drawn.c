#include "drawn.h"

/* Chance: splitmix64. */

static uint64_t random_state;

void begin_drawing(uint64_t seed)
{
    random_state = seed;
}

uint64_t random_bits(void)
{
    uint64_t z = random_state += UINT64_C(0x9E3779B97F4A7C15);
    z = (z ^ z >> 30) * UINT64_C(0xBF58476D1CE4E5B9);
    z = (z ^ z >> 27) * UINT64_C(0x94D049BB133111EB);
    return z ^ z >> 31;
}

unsigned below(unsigned bound)
{
    return (unsigned)(random_bits() % bound);
}

unsigned between(unsigned low, unsigned high)
{
    return low + below(high - low + 1);
}

bool chance(unsigned percent)
{
    return below(100) < percent;
}

/* Maps. */

static void make_map(uint8_t map[POSITIONS], unsigned keys_on_it)
{
    for (unsigned i = 0; i < POSITIONS; i++)
        map[i] = i < keys_on_it ? (uint8_t)(i + 1) : 0;
}

void make_plain_map(uint8_t map[POSITIONS])
{
    make_map(map, KEY_APP);
}

void make_full_map(uint8_t map[POSITIONS])
{
    make_map(map, KEY_COUNT);
}

static void shuffle(uint8_t *bytes, unsigned count)
{
    for (unsigned i = count; i > 1; i--) {
        unsigned other = below(i);
        uint8_t kept = bytes[i - 1];
        bytes[i - 1] = bytes[other];
        bytes[other] = kept;
    }
}

void draw_full_map(uint8_t map[POSITIONS])
{
    make_full_map(map);
    if (chance(60))
        shuffle(map, POSITIONS);
}

/* With media keys among the others or without; the last kind has media keys
 * alone, or none at all. */
void draw_map(uint8_t map[POSITIONS])
{
    unsigned kind = below(10);
    unsigned keys_on_it = chance(50) ? KEY_COUNT : KEY_APP;
    make_map(map, keys_on_it);
    if (kind >= 3)
        shuffle(map, kind < 7 ? POSITIONS : keys_on_it);
    if (kind == 8)
        for (unsigned i = 0; i < POSITIONS; i++)
            map[i] = chance(70) ? 0 : map[i];
    if (kind == 9)
        for (unsigned i = 0; i < POSITIONS; i++)
            map[i] = map[i] > KEY_APP ? map[i] : 0;
}

void draw_wrong_map(uint8_t map[POSITIONS])
{
    unsigned faults = between(1, 3);

    draw_map(map);
    if (faults & 1) {
        unsigned place = chance(30) ? POSITIONS - 1 : below(POSITIONS);
        map[place] = chance(40) ? KEY_COUNT + 1 : (uint8_t)between(KEY_COUNT + 1, 255);
    }
    if (faults & 2) {
        unsigned place = below(POSITIONS - 1);
        unsigned other = chance(30) ? POSITIONS - 1 : between(place + 1, POSITIONS - 1);
        map[place] = map[other] = (uint8_t)between(1, KEY_COUNT);
    }
}

unsigned draw_media_key(void)
{
    return between(KEY_APP + 1, KEY_COUNT);
}

/* Host bytes. */

unsigned frame_of(unsigned byte)
{
    unsigned ones = 0;
    for (unsigned bit = 0; bit < 8; bit++)
        ones += byte >> bit & 1;
    unsigned parity = ones % 2 == 0 ? 0x200 : 0;
    return byte << 1 | parity | 0x400;
}

unsigned draw_valued_command(void)
{
    static const uint8_t commands[] = {0xED, 0xF0, 0xF3, 0xFB, 0xFC, 0xFD};
    return commands[below(LENGTH(commands))];
}
