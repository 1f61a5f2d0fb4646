/* What wrong libraries are made of: a call, which a fault may change before it is made, and the library behind it. */
#ifndef FAULTS_H
#define FAULTS_H

#include "asking.h"

typedef struct anafzir_outcome outcome;

struct call {
    enum work work;
    const uint8_t *type;
    size_t type_length;
    struct anafzir_limits limits;
    const uint8_t *input;
    size_t input_length;
    uint8_t *room;
    size_t room_length;
};

/* The call as the library answers it; with other octets as its input; and in a room of its own. */
outcome real(const struct call *c);
outcome real_on(struct call c, const uint8_t *input, size_t length);
outcome real_aside(struct call c, uint8_t octets[ANAFZIR_ROOM]);

/* A refusal. */
outcome refused(uint32_t number);

/* The faults of years and of lists (#103). */
outcome neighbours_compared(struct call *c);
outcome first_compared(struct call *c);
outcome seventh_list_ignored(struct call *c);
outcome last_list_ignored(struct call *c);
outcome three_lists_refused(struct call *c);
outcome six_lists_refused(struct call *c);
outcome order_of_lists(struct call *c);
outcome mixed_lists_taken(struct call *c);
outcome two_before_equal(struct call *c);
outcome two_before_limits(struct call *c);
outcome l7_as_l6(struct call *c);
outcome l66_as_l6(struct call *c);
outcome leading_0_taken(struct call *c);
outcome ten_digits_5(struct call *c);
outcome l9_to_32_bits(struct call *c);
outcome l9_ends_early(struct call *c);
outcome other_length_3(struct call *c);
outcome other_length_in_bits_3(struct call *c);
outcome five_before_four(struct call *c);
outcome leap_years_by_16_bits(struct call *c);
outcome four_octets_always(struct call *c);
outcome limits_of_five_digits(struct call *c);

#endif
