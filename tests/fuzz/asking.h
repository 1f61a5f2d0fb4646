/* One call of the library between pages that fault, and what is seen of it by itself. */
#ifndef ASKING_H
#define ASKING_H

#include "anafzir.h"

enum work { PER, UNPER, DER, UNDER, WORK_COUNT };

/* The most octets of a type, an input or a room. */
enum { LONGEST = 32768 };

/* Which of the three buffers lie at the start of their memory, and not at its end: bits of `places`. */
enum { TYPE_AT_START = 1, INPUT_AT_START = 2, ROOM_AT_START = 4, EVERY_PLACE = 7 };

/* How a call is made: with one or the other marks in memory, and with NULL for buffers of no octets. */
enum manner { MARKED, MARKED_OTHERWISE, WITH_NULLS };

/* Where no number of a question is known. */
enum { UNKNOWN = 8 };

/* What an entry point is asked. */
struct question {
    enum work work;
    struct anafzir_limits limits;
    const uint8_t *type;
    size_t type_length;
    const uint8_t *input;
    size_t input_length;
    size_t room_length;
    unsigned places;
    /* The number that it is known to have, limits aside: 0 where the type has the input; or UNKNOWN. */
    uint32_t known;
};

/* What comes back, with the octets of the result. */
struct answer {
    struct anafzir_outcome outcome;
    uint8_t octets[ANAFZIR_ROOM];
};

/* The name of a work, whether it takes octets and gives a text, whether it is one of PER, the work that goes the other way, and
 * the one of the other encoding. */
const char *name_of(enum work work);
int decodes(enum work work);
int in_per(enum work work);
enum work back_from(enum work work);
enum work other_than(enum work work);

/* One call. It sees that the outcome is possible and that the call changed nothing but the octets that it reports. */
void ask(const struct question *q, enum manner manner, struct answer *a);

/* One call in a room that is enough, in another work and on other octets. */
void ask_other(const struct question *q, enum work work, const uint8_t *input, size_t length, struct answer *a);

/* One call for its result, which an input is made of. */
void ask_for_input(const struct question *q, struct answer *a);

/* How many calls were made. */
unsigned long long calls_made(void);

/* Says which question the next calls belong to, or none. The time that they have starts again now and then. */
void begin(const struct question *q);

/* Says what the next calls are for. */
void next_step(const char *what);

/* Where this does not hold, prints what is violated and the words that run the question again, and aborts. */
void must(int holds, const char *what);

#endif
