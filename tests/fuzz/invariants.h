/* What holds of every question to the library, whatever it is. */
#ifndef INVARIANTS_H
#define INVARIANTS_H

#include "asking.h"

/* Asks the question, and others that follow from it, and sees that the answers are as they must be; `must` says where one is
 * not. Gives the number. */
uint32_t check(const struct question *q);

/* Checks the question of the words behind `again` that a violation printed. Whether they are one. */
int check_again(int count, char **words);

/* What checks of one kind take from the others: whether an answer has these octets; and the number that limits give to a value that
 * the type has without them, by its canonical text. */
int same_octets(const struct answer *a, const uint8_t *octets, size_t length);
uint32_t limited_number(const struct anafzir_limits *l, const char *text);

/* Prints one line: how many questions had an answer of each number. */
void print_counts(const unsigned long long counts[8]);

#endif
