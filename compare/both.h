/* Calls made of both docks, each on its own copy of the same bytes. Answers and records have to be the
 * same. All memory that is lent is looked at after the call: what was passed beside the record, and
 * all around both, is to be as it was; so is the whole record after a refusal, and else those of its
 * parts that such a call does not change. The first difference is printed and ends the program. */
#ifndef BOTH_H
#define BOTH_H

#include <stdbool.h>

#include "../independent/lent.h"
#include "asking.h"

/* What is lent as a record: one, or bytes that are none, up to twice as many. */
union record {
    uint8_t bytes[2 * sizeof(struct lent_record)];
    struct lent_record parts;
};

/* Cases of one kind. Two numbers tell each from the others, and two words say what they are. */
void begin_cases(const char *kind, const char *first_word, const char *second_word);
void name_case(unsigned long first, unsigned long second);
void end_cases(void);

/* A record that calls since power-on have made is the same in all its bytes. Another may have flags,
 * types and counts that mean the same, and there only the meaning is compared. */
extern bool bytes_are_fixed;

/* Calls both docks, on a record of its right size or of another one. The record stays as it is:
 * step_both makes it what they leave. */
void call_both(const union record *record, struct call call);
void call_both_of_size(const union record *record, size_t size, struct call call);
void step_both(union record *record, struct call call);

/* The same for the reader of presses, which needs no record. */
void read_press_by_both(uint32_t set, uint32_t state, uint8_t byte);

/* How many calls there were, and how many of each answer. */
void print_answers(void);

#endif
