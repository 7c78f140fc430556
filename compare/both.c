#include "both.h"

#include <fcntl.h>
#include <signal.h>
#include <stdarg.h>
#include <stdio.h>
#include <stdlib.h>
#include <string.h>
#include <sys/mman.h>
#include <unistd.h>

#include "../include/keydock.h"
#include "../independent/reader.h"

enum { GUARD = 64, ALIGNMENTS = 16, MEMORY = GUARD + ALIGNMENTS + sizeof(union record) + GUARD, GUARD_BYTE = 0xA5 };

/* Bytes that are lent, and the memory around them. No memory is behind that. */
struct loan {
    uint8_t *memory;
    uint8_t *bytes;
    size_t size;
};

struct side {
    const char *name;
    struct loan record, passed;
    int32_t answer;
};

static struct side proved = {.name = "proved"}, independent = {.name = "independent"};

/* The call at hand, if it is one on a record. */
static const union record *record;
static size_t size;
static struct call call;

static const char *kind_of_cases, *first_word, *second_word;
static unsigned long first_number, second_number;
static unsigned long calls, calls_before; /* before those of this kind */
bool bytes_are_fixed;

void name_case(unsigned long first, unsigned long second)
{
    first_number = first;
    second_number = second;
}

void end_cases(void)
{
    printf("passed %s: %lu calls\n", kind_of_cases, calls - calls_before);
}

/* Differences. */

static void print_bytes(const char *what, const uint8_t *bytes, size_t count)
{
    printf("%s:", what);
    for (size_t i = 0; i < count; i++)
        printf(" %02X", (unsigned)bytes[i]);
    putchar('\n');
}

static void print_call(void)
{
    print_bytes("the record", record->bytes, size);
    print_bytes("passed beside it", call.bytes, call.length);
}

static void fail(const char *why, ...)
{
    va_list rest;

    printf("FAILED %s, %s %lu, %s %lu: ", kind_of_cases, first_word, first_number, second_word, second_number);
    if (record != NULL)
        printf("%s ", asking[call.kind].name);
    if (record != NULL && call.kind == FRAME)
        printf("%lX ", (unsigned long)call.frame);
    va_start(rest, why);
    vprintf(why, rest);
    va_end(rest);
    putchar('\n');
    if (record != NULL)
        print_call();
    fflush(stdout);
    _exit(EXIT_FAILURE);
}

/* It is too late for anything else, so what a signal may not do is risked. */
static void fail_at_signal(int number)
{
    fail("ends with signal %d", number);
}

static const char *part_at(size_t place)
{
#define PART(name) {#name, offsetof(struct lent_record, name)}
    static const struct { const char *name; size_t place; } parts[] = {
        PART(map), PART(types), PART(closed), PART(counts), PART(held), PART(queue), PART(queue_length),
        PART(repeating), PART(countdown), PART(set), PART(rate), PART(indicators), PART(replies),
        PART(reply_count), PART(scanning), PART(waiting), PART(handover), PART(resend)};
    size_t i = sizeof parts / sizeof *parts - 1;
    while (parts[i].place > place)
        i--;
    return parts[i].name;
}

/* Lent memory. */

/* Two pages, the second of which cannot even be read. */
static uint8_t *memory_at_an_end(void)
{
    size_t page = (size_t)sysconf(_SC_PAGESIZE);
    int zeros = open("/dev/zero", O_RDWR);
    uint8_t *pages = mmap(NULL, 2 * page, PROT_READ | PROT_WRITE, MAP_PRIVATE, zeros, 0);

    if (pages == MAP_FAILED || mprotect(pages + page, page, PROT_NONE) != 0)
        fail("there is no memory to lend");
    close(zeros);
    return pages + page - MEMORY;
}

static void prepare_memory(void)
{
    struct loan *const loans[] = {&proved.record, &proved.passed, &independent.record, &independent.passed};
    for (size_t i = 0; i < sizeof loans / sizeof *loans; i++) {
        loans[i]->memory = loans[i]->bytes = memory_at_an_end();
        loans[i]->size = MEMORY;
    }
    signal(SIGSEGV, fail_at_signal);
    signal(SIGBUS, fail_at_signal);
}

void begin_cases(const char *kind, const char *first, const char *second)
{
    kind_of_cases = kind;
    first_word = first;
    second_word = second;
    calls_before = calls;
    name_case(0, 0);
    if (proved.record.memory == NULL)
        prepare_memory();
}

/* At every alignment by turns, and between them at the very end of the memory. Only what was lent
 * before is no guard yet. */
static void lend(struct loan *loan, const uint8_t *bytes, size_t count, unsigned long turn)
{
    memset(loan->bytes, GUARD_BYTE, loan->size);
    loan->bytes = loan->memory + (turn % 4 == 0 ? MEMORY - count : GUARD + turn / 4 % ALIGNMENTS);
    loan->size = count;
    if (count > 0)
        memcpy(loan->bytes, bytes, count);
}

static bool all_guards(const uint8_t *from, const uint8_t *to)
{
    static uint8_t guards[MEMORY];
    if (guards[0] != GUARD_BYTE)
        memset(guards, GUARD_BYTE, sizeof guards);
    return memcmp(from, guards, (size_t)(to - from)) == 0;
}

static bool is_guarded(const struct loan *loan)
{
    return all_guards(loan->memory, loan->bytes) &&
           all_guards(loan->bytes + loan->size, loan->memory + MEMORY);
}

static bool is_as_before(const struct loan *loan, const uint8_t *bytes)
{
    return loan->size == 0 || memcmp(loan->bytes, bytes, loan->size) == 0;
}

/* Whether the parts that such a call does not change are as they were. */
static bool leaves_its_parts(const uint8_t *bytes)
{
    static const size_t changes_from[CALL_KINDS] = {
        [SCAN] = offsetof(struct lent_record, closed), [FRAME] = offsetof(struct lent_record, types),
        [READ] = offsetof(struct lent_record, held), [INDICATORS] = sizeof(struct lent_record),
        [SCANNING] = sizeof(struct lent_record)};
    size_t types = offsetof(struct lent_record, types);

    if (call.kind == SWAP)
        return memcmp(bytes + types, record->bytes + types, sizeof record->parts.types) == 0;
    return memcmp(bytes, record->bytes, changes_from[call.kind]) == 0;
}

/* What a side did to memory that it was not to touch, or NULL. */
static const char *trespass(const struct side *side)
{
    if (!is_guarded(&side->record))
        return "writes around the record";
    if (!is_guarded(&side->passed))
        return "writes around the scan or map";
    if (!is_as_before(&side->passed, call.bytes))
        return "changes the scan or map";
    if (side->answer < 0 && !is_as_before(&side->record, record->bytes))
        return "is refused, and changes the record";
    if (side->answer >= 0 && !leaves_its_parts(side->record.bytes))
        return "changes a part that such a call leaves alone";
    return NULL;
}

static void watch(const struct side *side)
{
    const char *what = trespass(side);
    if (what != NULL)
        fail("by the %s dock %s", side->name, what);
}

static void ask_side(struct side *side, ask *asked)
{
    struct call lent = call;

    lend(&side->record, record->bytes, size, calls);
    lend(&side->passed, call.bytes, call.length, calls / 3);
    lent.bytes = side->passed.bytes;
    side->answer = asked(side->record.bytes, size, &lent);
}

/* Records. */

/* Of all bytes that mean the same, those that calls since power-on give. */
static void settle(struct lent_record *settled)
{
    for (unsigned key = 0; key <= KEY_COUNT; key++)
        settled->types[key] = settled->types[key] > TYPEMATIC_MAKE_BREAK ? MAKE : settled->types[key];
    for (unsigned key = 0; key < sizeof settled->held; key++)
        settled->held[key] = settled->held[key] != 0 && key >= 1 && key <= KEY_COUNT;
    for (unsigned position = 0; position < POSITIONS; position++)
        settled->counts[position] = settled->counts[position] > 2 ? 2 : settled->counts[position];
    if (settled->repeating == 0)
        settled->countdown = 0;
}

static void compare_records(void)
{
    union record one, other;
    size_t place = 0;

    if (memcmp(proved.record.bytes, independent.record.bytes, size) == 0)
        return;
    memcpy(one.bytes, proved.record.bytes, size);
    memcpy(other.bytes, independent.record.bytes, size);
    if (!bytes_are_fixed && call.kind != POWER_ON && size == sizeof one.parts) {
        settle(&one.parts);
        settle(&other.parts);
    }
    while (place < size && one.bytes[place] == other.bytes[place])
        place++;
    if (place < size)
        fail("byte %zu (%s) becomes %02X, and %02X by the independent dock", place, part_at(place),
             (unsigned)one.bytes[place], (unsigned)other.bytes[place]);
}

/* Answers. */

enum { REFUSALS = 10, ANSWERS = 8, PRESS_READ = CALL_KINDS };
static unsigned long refused[CALL_KINDS + 1][REFUSALS], answered[CALL_KINDS + 1][ANSWERS];

static void count_answer(unsigned kind, int32_t answer)
{
    calls++;
    if (answer < 0)
        refused[kind][-answer]++;
    else if (kind == READ)
        answered[kind][KEYDOCK_GIVEN_KIND(answer)]++;
    else if (kind == PRESS_READ)
        answered[kind][KEYDOCK_FOUND_KEY(answer) != 0]++;
    else
        answered[kind][answer]++;
}

void call_both_of_size(const union record *lent, size_t size_lent, struct call made)
{
    record = lent;
    size = size_lent;
    call = made;
    ask_side(&proved, asking[call.kind].proved);
    ask_side(&independent, asking[call.kind].independent);
    watch(&proved);
    watch(&independent);
    if (proved.answer != independent.answer)
        fail("answers %ld, and %ld by the independent dock", (long)proved.answer, (long)independent.answer);
    compare_records();
    count_answer(call.kind, proved.answer);
}

void call_both(const union record *lent, struct call made)
{
    call_both_of_size(lent, sizeof lent->parts, made);
}

void step_both(union record *stepped, struct call made)
{
    call_both(stepped, made);
    memcpy(stepped->bytes, proved.record.bytes, sizeof stepped->parts);
}

void read_press_by_both(uint32_t set, uint32_t state, uint8_t byte)
{
    int32_t answer = keydock_read_press(set, state, byte);
    int32_t other = read_key_press(set, state, byte);

    record = NULL;
    name_case(set, state);
    if (answer != other)
        fail("byte %02X gives %ld, and %ld by the independent reader", (unsigned)byte, (long)answer, (long)other);
    count_answer(PRESS_READ, answer);
}

static void print_answers_of(unsigned kind, const char *name)
{
    static const char *const given[] = {"nothing", "a reply", "a key byte"};
    static const char *const found[] = {"no key", "a key"};

    printf("%-11s", name);
    for (unsigned i = 0; i < ANSWERS; i++)
        if (answered[kind][i] > 0 && (kind == READ || kind == PRESS_READ))
            printf("  %s: %lu", kind == READ ? given[i] : found[i], answered[kind][i]);
        else if (answered[kind][i] > 0)
            printf("  %u: %lu", i, answered[kind][i]);
    for (unsigned i = 0; i < REFUSALS; i++)
        if (refused[kind][i] > 0)
            printf("  refused with %u: %lu", i, refused[kind][i]);
    putchar('\n');
}

void print_answers(void)
{
    for (unsigned kind = 0; kind < CALL_KINDS; kind++)
        print_answers_of(kind, asking[kind].name);
    print_answers_of(PRESS_READ, "read_press");
    printf("%lu calls, none differs\n", calls);
}
