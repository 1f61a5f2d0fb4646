/* anafzir: dates, times and durations of ASN.1 as unaligned PER or DER and back, a line of output for each input. The manual
 * page, man/anafzir.1, says what it promises. It is in C because programs in Rattle had no exit
 * status when it was written.
 *
 * Results are kept in a buffer, which is written out when it is full, before each read, before each message and at the end.
 * A failed read or write ends the program where it happens. */
#define _POSIX_C_SOURCE 200809L
#include <errno.h>
#include <inttypes.h>
#include <poll.h>
#include <stdarg.h>
#include <stdbool.h>
#include <stdint.h>
#include <stdio.h>
#include <stdlib.h>
#include <string.h>
#include <unistd.h>

#include "anafzir.h"

/* The exit status. */
enum { ALL_DONE = 0, SOME_REFUSED = 1, FAILED = 2 };

/* How many octets are read and written at a time, the most that a line of output takes, and the most of a message. */
enum { CHUNK = 65536, LONGEST_REPLY = 2 * ANAFZIR_ROOM + 16, LONGEST_MESSAGE = 256 };

static const char VERSION[] = "anafzir " ANAFZIR_VERSION "\n";

static const char HELP[] =
    "Usage: anafzir WORK TYPE [OPTION..] [--] [TEXT..|-]\n"
    "Turns the text of ASN.1 dates, times and durations into unaligned PER or DER, and back.\n"
    "\n"
    "WORK is one of\n"
    "  per      from text to PER, in hex\n"
    "  unper    from PER in hex to the canonical text\n"
    "  der      from text to DER, in hex\n"
    "  under    from DER in hex to the canonical text\n"
    "TYPE is DATE, TIME-OF-DAY, DATE-TIME or DURATION, or settings such as\n"
    "  'Basic=Time Time=HMSF3 Local-or-UTC=LD'\n"
    "Without a TEXT, or where it is -, the inputs are the lines of standard input.\n"
    "\n"
    "  --from YEAR  no years before this one\n"
    "  --to YEAR    no years after this one\n"
    "  --no-24      no hour 24\n"
    "  --bits       behind each result, how many bits it has in PER\n"
    "  --explain    a sentence for each refusal\n"
    "  --help       prints this, and --version the version\n"
    "\n"
    "Each input gives one line, which is empty where it is refused.\n"
    "Exit status: 0 all inputs have a result, 1 some were refused, 2 wrong use, or a read or a write failed.\n";

typedef struct anafzir_outcome conversion(const uint8_t *type, size_t type_length, struct anafzir_limits limits,
                                          const uint8_t *input, size_t input_length, uint8_t *room, size_t room_length);

struct work {
    const char *name;
    conversion *convert;
    /* Whether it takes hex and gives a text, or the other way round. */
    bool decodes;
};

static const struct work WORKS[] = {
    {"per", anafzir_per_encode, false}, {"unper", anafzir_per_decode, true},
    {"der", anafzir_der_encode, false}, {"under", anafzir_der_decode, true},
};

enum option { FROM, TO, NO_24, BITS, EXPLAIN, OPTION_COUNT };

static const struct { const char *name; bool has_year; } OPTIONS[OPTION_COUNT] = {
    {"--from", true}, {"--to", true}, {"--no-24", false}, {"--bits", false}, {"--explain", false},
};

/* What the command line asks for, and how far it is done. */
struct run {
    const struct work *work;
    const char *type;
    size_t type_length;
    struct anafzir_limits limits;
    /* The year of an option, or its name where it has none; NULL where it is not given. */
    const char *given[OPTION_COUNT];
    /* The texts, with NULL behind the last. */
    char **texts;
    /* What an input is called, how many there were, and whether one was refused. */
    const char *source;
    uintmax_t inputs;
    bool refused;
};

/* Results that are not written yet. */
static uint8_t results[CHUNK];
static size_t results_length;

/* After a call on a descriptor that failed: whether to make it again. Where nothing can be moved now, it waits. */
static bool may_try_again(int descriptor, short event)
{
    struct pollfd awaited = {descriptor, event, 0};
    if (errno == EINTR)
        return true;
    return errno == EAGAIN && (poll(&awaited, 1, -1) >= 0 || errno == EINTR);
}

/* Whether all octets are written. If not, errno says why, and is 0 where a write took nothing. */
static bool write_all(int descriptor, const void *octets, size_t length)
{
    const uint8_t *next = octets, *end = next + length;
    while (next < end) {
        errno = 0;
        ssize_t taken = write(descriptor, next, (size_t)(end - next));
        if (taken > 0)
            next += taken;
        else if (!may_try_again(descriptor, POLLOUT))
            return false;
    }
    return true;
}

/* Writes a message to standard error. Where that fails there is nobody left to tell, and the status says enough. */
static void say(const char *format, ...)
{
    char message[LONGEST_MESSAGE];
    va_list values;
    va_start(values, format);
    int length = vsnprintf(message, sizeof message, format, values);
    va_end(values);
    if (length > 0)
        (void)write_all(STDERR_FILENO, message, (size_t)length < sizeof message ? (size_t)length : sizeof message - 1);
}

/* Ends the program after a read or a write that failed. */
static void fail(const char *what)
{
    say("anafzir: %s: %s\n", what, errno != 0 ? strerror(errno) : "nothing was taken");
    exit(FAILED);
}

/* Whether a word may be shown: it is short and has no octet that could mean something to a terminal. */
static bool is_plain(const char *word)
{
    size_t length = strlen(word), i = 0;
    while (i < length && word[i] >= ' ' && word[i] <= '~')
        i++;
    return i == length && length <= 64;
}

/* Ends the program because of how it was called. The option, where there is one, is shown. */
static void refuse_use(const char *problem, const char *option)
{
    bool shown = option != NULL && is_plain(option);
    say("anafzir: %s%s%s\nTry 'anafzir --help'.\n", problem, shown ? ": " : "", shown ? option : "");
    exit(FAILED);
}

static void write_results(void)
{
    if (!write_all(STDOUT_FILENO, results, results_length))
        fail("standard output");
    results_length = 0;
}

/* The last thing that a program without a failure does: some errors are only told by close. */
static int finish(int status)
{
    write_results();
    if (close(STDOUT_FILENO) != 0 && errno != EINTR)
        fail("standard output");
    return status;
}

static void put_hex(const uint8_t *octets, size_t length)
{
    for (size_t i = 0; i < length; i++) {
        results[results_length++] = (uint8_t)"0123456789ABCDEF"[octets[i] >> 4];
        results[results_length++] = (uint8_t)"0123456789ABCDEF"[octets[i] & 15];
    }
}

static void put_octets(const void *octets, size_t length)
{
    memcpy(results + results_length, octets, length);
    results_length += length;
}

/* The value of a hex digit, or 16. */
static unsigned hex_value(uint8_t digit)
{
    if (digit >= '0' && digit <= '9')
        return digit - '0';
    if (digit >= 'A' && digit <= 'F')
        return digit - 'A' + 10;
    return digit >= 'a' && digit <= 'f' ? digit - 'a' + 10u : 16;
}

/* Puts the octets that pairs of hex digits stand for in the place of the digits. Whether it was pairs of hex digits. */
static bool decode_hex(uint8_t *digits, size_t *length)
{
    if (*length % 2 != 0)
        return false;
    for (size_t i = 0; i < *length; i += 2) {
        unsigned high = hex_value(digits[i]), low = hex_value(digits[i + 1]);
        if (high > 15 || low > 15)
            return false;
        digits[i / 2] = (uint8_t)(high << 4 | low);
    }
    *length /= 2;
    return true;
}

/* Says why the last input is refused, behind the results before it, and gives it an empty line. */
static void refuse_input(struct run *run, const char *reason, const char *sentence)
{
    write_results();
    say("anafzir: %s %ju: refused, %s%s%s\n", run->source, run->inputs, reason, sentence ? ": " : "", sentence ? sentence : "");
    run->refused = true;
    put_octets("\n", 1);
}

static void put_result(const struct run *run, struct anafzir_outcome outcome, const uint8_t *room)
{
    char bits[16] = "";
    if (run->work->decodes)
        put_octets(room, outcome.length);
    else
        put_hex(room, outcome.length);
    if (run->given[BITS])
        snprintf(bits, sizeof bits, " %" PRIu32, outcome.bits);
    put_octets(bits, strlen(bits));
    put_octets("\n", 1);
}

/* Answers one input. Where it is hex, its octets take its place. */
static void answer(struct run *run, uint8_t *input, size_t length)
{
    uint8_t room[ANAFZIR_ROOM];
    char number[16];
    run->inputs++;
    if (CHUNK - results_length < LONGEST_REPLY)
        write_results();
    if (run->work->decodes && !decode_hex(input, &length)) {
        refuse_input(run, "not pairs of hex digits", NULL);
        return;
    }
    struct anafzir_outcome outcome = run->work->convert((const uint8_t *)run->type, run->type_length, run->limits, input, length,
                                                        room, sizeof room);
    if (outcome.number == ANAFZIR_DONE) {
        put_result(run, outcome, room);
        return;
    }
    snprintf(number, sizeof number, "%" PRIu32, outcome.number);
    refuse_input(run, number, run->given[EXPLAIN] ? anafzir_message(outcome.number) : NULL);
}

static void answer_texts(struct run *run)
{
    for (char **text = run->texts; *text != NULL; text++)
        answer(run, (uint8_t *)*text, strlen(*text));
}

/* Input that is read and not answered, in memory of so many octets. */
struct input {
    uint8_t *octets;
    size_t length;
    size_t size;
};

/* Sees to it that there is memory for the next read. */
static void make_place(struct input *input)
{
    if (input->size - input->length >= CHUNK)
        return;
    size_t size = 2 * (input->size + CHUNK);
    uint8_t *octets = size > input->size ? realloc(input->octets, size) : NULL;
    if (octets == NULL) {
        errno = ENOMEM;
        fail("standard input");
    }
    input->octets = octets;
    input->size = size;
}

/* Reads once, when the results so far are written. False at the end of the input. */
static bool read_some(struct input *input)
{
    ssize_t got;
    write_results();
    make_place(input);
    do {
        got = read(STDIN_FILENO, input->octets + input->length, CHUNK);
    } while (got < 0 && may_try_again(STDIN_FILENO, POLLIN));
    if (got < 0)
        fail("standard input");
    input->length += (size_t)got;
    return got > 0;
}

/* Answers the lines that end in the input, of which so many octets are known to have no newline. What is left of the input
 * moves to the front. */
static void answer_whole_lines(struct run *run, struct input *input, size_t known)
{
    uint8_t *line = input->octets, *end = input->octets + input->length;
    uint8_t *newline = memchr(line + known, '\n', input->length - known);
    if (newline == NULL)
        return;
    while (newline != NULL) {
        answer(run, line, (size_t)(newline - line));
        line = newline + 1;
        newline = memchr(line, '\n', (size_t)(end - line));
    }
    input->length = (size_t)(end - line);
    memmove(input->octets, line, input->length);
}

/* Answers each line of standard input; the last one may lack its newline. */
static void answer_lines(struct run *run)
{
    struct input input = {NULL, 0, 0};
    size_t known = 0;
    while (read_some(&input)) {
        answer_whole_lines(run, &input, known);
        known = input.length;
    }
    if (input.length > 0)
        answer(run, input.octets, input.length);
    free(input.octets);
}

/* The year in the word that an option has. strtoll stops at its own ends, which are no years of 32 bits. */
static int32_t read_year(const char *word, const char *option)
{
    const char *digits = word + (*word == '-' || *word == '+');
    long long year = strtoll(word, NULL, 10);
    if (*digits == '\0' || digits[strspn(digits, "0123456789")] != '\0' || year < INT32_MIN || year > INT32_MAX)
        refuse_use("no year of 32 bits", option);
    return (int32_t)year;
}

/* The option that a word is, with or without a year behind it. */
static enum option find_option(const char *word)
{
    int option = 0;
    size_t length = strcspn(word, "=");
    while (option < OPTION_COUNT && (strncmp(word, OPTIONS[option].name, length) != 0 || OPTIONS[option].name[length] != '\0'))
        option++;
    if (option == OPTION_COUNT || (word[length] == '=' && !OPTIONS[option].has_year))
        refuse_use("unknown option", word);
    return (enum option)option;
}

/* Takes an option, and its year where it has one. The words that follow. */
static char **take_option(struct run *run, char **words)
{
    const char *word = *words++;
    enum option option = find_option(word);
    const char *name = OPTIONS[option].name, *equals = strchr(word, '=');
    if (run->given[option] != NULL)
        refuse_use("an option twice", name);
    if (equals != NULL || !OPTIONS[option].has_year) {
        run->given[option] = equals != NULL ? equals + 1 : name;
        return words;
    }
    if (*words == NULL)
        refuse_use("no year", name);
    run->given[option] = *words;
    return words + 1;
}

/* Takes the options out of the words behind the work. The others move together; they are the type and the texts. */
static void read_words(struct run *run, char **words)
{
    char **kept = words;
    bool options = true;
    run->texts = words;
    while (*words != NULL) {
        if (!options || strncmp(*words, "--", 2) != 0)
            *kept++ = *words++;
        else if (strcmp(*words, "--") != 0)
            words = take_option(run, words);
        else {
            options = false;
            words++;
        }
    }
    *kept = NULL;
    if (*run->texts == NULL)
        refuse_use("there is no type", NULL);
    run->type = *run->texts++;
    run->type_length = strlen(run->type);
}

static void read_limits(struct run *run)
{
    const char *from = run->given[FROM], *to = run->given[TO];
    run->limits.years = from != NULL || to != NULL;
    run->limits.lowest = from != NULL ? read_year(from, "--from") : INT32_MIN;
    run->limits.highest = to != NULL ? read_year(to, "--to") : INT32_MAX;
    run->limits.no_hour_24 = run->given[NO_24] != NULL;
}

static const struct work *find_work(const char *name)
{
    for (size_t i = 0; i < sizeof WORKS / sizeof WORKS[0]; i++)
        if (strcmp(name, WORKS[i].name) == 0)
            return &WORKS[i];
    refuse_use("the first word is not per, unper, der or under", NULL);
    return NULL;
}

/* Whether the inputs are the lines of standard input. */
static bool asks_for_lines(const struct run *run)
{
    size_t count = 0, dashes = 0;
    for (; run->texts[count] != NULL; count++)
        dashes += strcmp(run->texts[count], "-") == 0;
    if (dashes > 0 && count > 1)
        refuse_use("- is standard input, and stands beside other texts", NULL);
    return count == dashes;
}

int main(int count, char **words)
{
    struct run run = {0};
    if (count < 2)
        refuse_use("there is no work", NULL);
    if (count == 2 && strcmp(words[1], "--help") == 0) {
        put_octets(HELP, sizeof HELP - 1);
        return finish(ALL_DONE);
    }
    if (count == 2 && strcmp(words[1], "--version") == 0) {
        put_octets(VERSION, sizeof VERSION - 1);
        return finish(ALL_DONE);
    }
    run.work = find_work(words[1]);
    read_words(&run, words + 2);
    read_limits(&run);
    if (asks_for_lines(&run)) {
        run.source = "line";
        answer_lines(&run);
    } else {
        run.source = "argument";
        answer_texts(&run);
    }
    return finish(run.refused ? SOME_REFUSED : ALL_DONE);
}
