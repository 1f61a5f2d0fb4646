/* Codes each text given under a type: its octets in PER and in DER, and the texts that these octets give again. Without any
 * words it codes a duration, whose canonical text is another: P1D. */
#include <inttypes.h>
#include <stdio.h>
#include <string.h>

#include "anafzir.h"

/* Enough for every result. */
enum { ROOM = 136 };

static void print_octets(const char *name, struct anafzir_outcome o, const uint8_t *room)
{
    if (o.number != ANAFZIR_DONE) {
        printf("  %s: refused, %" PRIu32 "\n", name, o.number);
        return;
    }
    printf("  %s: ", name);
    for (size_t i = 0; i < o.length; i++)
        printf("%02X", room[i]);
    printf(o.bits == 0 ? "\n" : ", %" PRIu32 " bits\n", o.bits);
}

/* What an encoder has written is never refused by its decoder. */
static void print_text(const char *name, struct anafzir_outcome o, const uint8_t *room)
{
    printf("  canonical text from %s: %.*s\n", name, (int)o.length, (const char *)room);
}

static void code(const char *type, const char *text)
{
    const struct anafzir_limits no_limits = {0};
    const uint8_t *name = (const uint8_t *)type, *input = (const uint8_t *)text;
    size_t name_length = strlen(type), input_length = strlen(text);
    uint8_t per[ROOM], der[ROOM], back[ROOM];
    printf("%s\n", text);

    struct anafzir_outcome o = anafzir_per_encode(name, name_length, no_limits, input, input_length, per, ROOM);
    print_octets("PER", o, per);
    if (o.number == ANAFZIR_DONE)
        print_text("PER", anafzir_per_decode(name, name_length, no_limits, per, o.length, back, ROOM), back);

    o = anafzir_der_encode(name, name_length, no_limits, input, input_length, der, ROOM);
    print_octets("DER", o, der);
    if (o.number == ANAFZIR_DONE)
        print_text("DER", anafzir_der_decode(name, name_length, no_limits, der, o.length, back, ROOM), back);
}

int main(int count, char **words)
{
    if (count < 2)
        code("DURATION", "P0Y0M1D");
    for (int i = 2; i < count; i++)
        code(words[1], words[i]);
    return 0;
}
