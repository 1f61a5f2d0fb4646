/* Replies to the lines of reference/coding_lines.py through the archive: reads them from standard input and writes for each
 * the number and, after 0, the bit count and the octets in hex or the text. It also sees that a call changes nothing of the
 * room but what it reports, and writes `room changed` where one does. */
#include "calls.h"

static const struct work *work_of(int octet)
{
    for (size_t i = 0; i < WORK_COUNT; i++)
        if (WORKS[i].letter == octet)
            return WORKS + i;
    return NULL;
}

static int room_length(int octet)
{
    if ('a' <= octet && octet <= 'z')
        return octet - 'a';
    if ('A' <= octet && octet <= 'Z')
        return octet - 'A' + 26;
    return octet == '*' ? 64 : -1;
}

static int hex_number(int octet)
{
    const char *digits = "0123456789abcdef";
    if ('A' <= octet && octet <= 'F')
        octet += 'a' - 'A';
    const char *found = octet == 0 ? NULL : strchr(digits, octet);
    return found == NULL ? -1 : (int)(found - digits);
}

/* The octets of hex, in place; their count, or -1. */
static long unhex(uint8_t *text, size_t length)
{
    if (length % 2 != 0)
        return -1;
    for (size_t i = 0; i < length / 2; i++) {
        int high = hex_number(text[2 * i]), low = hex_number(text[2 * i + 1]);
        if (high < 0 || low < 0)
            return -1;
        text[i] = (uint8_t)(high * 16 + low);
    }
    return (long)(length / 2);
}

/* One call, and its reply. */
static void call(const struct work *work, const struct question *q, size_t length)
{
    struct answer a;
    if (!ask(work, q, length, &a)) {
        printf("room changed\n");
        return;
    }
    printf("%" PRIu32, a.outcome.number);
    if (a.outcome.number == 0) {
        printf(" %" PRIu32 " ", a.outcome.bits);
        for (size_t i = 0; i < a.outcome.length; i++)
            printf(work->decodes ? "%c" : "%02X", a.room[i]);
    }
    putchar('\n');
}

static void reply(uint8_t *line, size_t length)
{
    uint8_t *second = length < 4 || line[3] != ';' ? NULL : memchr(line + 4, ';', length - 4);
    const struct work *work = second == NULL ? NULL : work_of(line[0]);
    if (work == NULL || line[1] < '0' || '9' < line[1] || room_length(line[2]) < 0) {
        printf("?\n");
        return;
    }
    size_t room = (size_t)room_length(line[2]), type_length = (size_t)(second - line) - 4;
    uint8_t *input = second + 1;
    long input_length = (long)(length - type_length - 5);
    if (work->decodes)
        input_length = unhex(input, (size_t)input_length);
    if (input_length < 0) {
        printf("?\n");
        return;
    }
    struct question q = {MENU[line[1] - '0'], line + 4, type_length, input, (size_t)input_length};
    call(work, &q, room);
}

/* Counts have no place in any type: 1, whatever else is wrong, and the room as it was. */
static void counts(void)
{
    const char *types[] = {"DATE", "DURATION", "DATE|DATE", "", "Basic=Date Date=Y Year=Basic|Basic=Date Date=Y Year=L5",
                           "Basic=Date Date=Y Year=L9|Basic=Date Date=Y Year=L5|Basic=Date Date=Y Year=L6"};
    for (size_t i = 0; i < WORK_COUNT; i++)
        for (size_t k = 0; k < sizeof types / sizeof *types; k++)
            for (uint32_t count = 1; count != 0; count *= 2) {
                struct anafzir_limits limits = {0, 0, 0, 0, count, 0, 0};
                struct question q = {limits, (const uint8_t *)types[k], strlen(types[k]), (const uint8_t *)"2006-06-13", 10};
                struct answer a;
                if (!ask(WORKS + i, &q, 2, &a) || a.outcome.number != 1) {
                    fprintf(stderr, "counts %" PRIu32 " under \"%s\" give %" PRIu32 "\n", count, types[k], a.outcome.number);
                    exit(1);
                }
            }
}

int main(void)
{
    counts();
    each_line(reply);
    return 0;
}
