/* A type, an input and a room each lie in memory of their own, between two pages that fault when they are touched: flush against
 * the page behind or the page before. The octets on the other side are marked, and so is the room. MAP_ANONYMOUS, which is not
 * in POSIX.1-2008, is why _DEFAULT_SOURCE is set. */
#define _DEFAULT_SOURCE
#include "asking.h"

#include <inttypes.h>
#include <signal.h>
#include <stdio.h>
#include <stdlib.h>
#include <string.h>
#include <sys/mman.h>
#include <sys/time.h>
#include <unistd.h>

/* Octets of a memory between its two pages, and the marked ones of it beside a buffer. */
enum { MEMORY = 65536, MARGIN = 64 };

/* So many questions together have so many seconds of the processor. */
#ifndef PATIENCE
#define PATIENCE 60
#endif
enum { TURNS = 4096 };

typedef struct anafzir_outcome (*coder)(const uint8_t *, size_t, struct anafzir_limits, const uint8_t *, size_t, uint8_t *,
                                        size_t);

static const struct {
    const char *name;
    coder code;
    enum work back, other;
} WORKS[WORK_COUNT] = {
    [PER] = {"per", anafzir_per_encode, UNPER, DER},
    [UNPER] = {"unper", anafzir_per_decode, PER, UNDER},
    [DER] = {"der", anafzir_der_encode, UNDER, PER},
    [UNDER] = {"under", anafzir_der_decode, DER, UNPER},
};

static uint8_t *type_memory, *input_memory, *room_memory;

/* What memory holds before a call, in two ways that differ in every octet. */
static uint8_t marks[2][MEMORY];

/* What is being asked, for the words that a violation prints. */
static const struct question *asked;
static const char *step = "";
static unsigned long long calls;

/* The signals that a call must not cause, and what looked for them before. */
static const int SIGNALS[] = {SIGSEGV, SIGBUS, SIGILL, SIGFPE};

enum { SIGNAL_COUNT = sizeof SIGNALS / sizeof *SIGNALS };

static struct sigaction before[SIGNAL_COUNT];

const char *name_of(enum work work)
{
    return WORKS[work].name;
}

int decodes(enum work work)
{
    return work == UNPER || work == UNDER;
}

int in_per(enum work work)
{
    return work == PER || work == UNPER;
}

enum work back_from(enum work work)
{
    return WORKS[work].back;
}

enum work other_than(enum work work)
{
    return WORKS[work].other;
}

unsigned long long calls_made(void)
{
    return calls;
}

void next_step(const char *what)
{
    step = what;
}

/* Octets in hex; none are a dash. */
static void print_hex(const uint8_t *octets, size_t count)
{
    if (count == 0)
        fprintf(stderr, "-");
    for (size_t i = 0; i < count; i++)
        fprintf(stderr, "%02X", octets[i]);
}

/* The words that run the question again. */
static void print_asked(const struct question *q)
{
    const struct anafzir_limits *l = &q->limits;
    fprintf(stderr, "again %s %" PRIu32 ",%" PRId32 ",%" PRId32 ",%" PRIu32 ",%" PRIu32 ",%" PRIu32 ",%" PRIu32 " ",
            name_of(q->work), l->years, l->lowest, l->highest, l->no_hour_24, l->counts, l->lowest_count, l->highest_count);
    print_hex(q->type, q->type_length);
    fprintf(stderr, " ");
    print_hex(q->input, q->input_length);
    fprintf(stderr, " %zu %u %" PRIu32 "\n", q->room_length, q->places, q->known);
}

static void print_violation(const char *what)
{
    fflush(stdout);
    fprintf(stderr, "violated: %s (%s)\n", what, step);
    if (asked != NULL)
        print_asked(asked);
}

void must(int holds, const char *what)
{
    if (holds)
        return;
    print_violation(what);
    abort();
}

/* Says what faulted, and then lets the fault come again for what looked for it before. */
static void on_fault(int number)
{
    int memory = number == SIGSEGV || number == SIGBUS;
    print_violation(memory ? "a call touches its own octets alone" : "a call returns");
    for (int i = 0; i < SIGNAL_COUNT; i++)
        sigaction(SIGNALS[i], before + i, NULL);
}

static void on_time(int number)
{
    (void)number;
    must(0, "a call returns");
}

static void catch_signals(void)
{
    struct sigaction fault, time;
    memset(&fault, 0, sizeof fault);
    memset(&time, 0, sizeof time);
    fault.sa_handler = on_fault;
    time.sa_handler = on_time;
    for (int i = 0; i < SIGNAL_COUNT; i++)
        sigaction(SIGNALS[i], &fault, before + i);
    sigaction(SIGVTALRM, &time, NULL);
}

/* Memory between two pages that fault. */
static uint8_t *make_memory(void)
{
    size_t page = (size_t)sysconf(_SC_PAGESIZE);
    uint8_t *start = mmap(NULL, MEMORY + 2 * page, PROT_READ | PROT_WRITE, MAP_PRIVATE | MAP_ANONYMOUS, -1, 0);
    if (start == MAP_FAILED || MEMORY % page != 0 || mprotect(start, page, PROT_NONE) != 0 ||
        mprotect(start + page + MEMORY, page, PROT_NONE) != 0) {
        perror("memory between two pages that fault");
        exit(2);
    }
    return start + page;
}

static void set_up(void)
{
    for (size_t i = 0; i < MEMORY; i++) {
        marks[0][i] = (uint8_t)(0xA5 ^ (i * 7) ^ (i >> 8));
        marks[1][i] = (uint8_t)~marks[0][i];
    }
    type_memory = make_memory();
    input_memory = make_memory();
    room_memory = make_memory();
    catch_signals();
}

void begin(const struct question *q)
{
    static unsigned turn;
    static const struct itimerval clock = {{0, 0}, {PATIENCE, 0}};
    if (room_memory == NULL)
        set_up();
    if (turn++ % TURNS == 0)
        setitimer(ITIMER_VIRTUAL, &clock, NULL);
    asked = q;
}

/* Where a buffer starts in its memory, and where it and the marked octets beside it do. */
static size_t start_of(size_t length, int at_start)
{
    return at_start ? 0 : MEMORY - length;
}

static size_t window_of(size_t length, int at_start)
{
    return at_start ? 0 : MEMORY - length - MARGIN;
}

/* A buffer in its memory, with octets in it where they are given, and marks otherwise. */
static uint8_t *lend(uint8_t *memory, const uint8_t *octets, size_t length, int at_start, const uint8_t *mark)
{
    size_t window = window_of(length, at_start), start = start_of(length, at_start);
    memcpy(memory + window, mark + window, length + MARGIN);
    if (octets != NULL && length > 0)
        memcpy(memory + start, octets, length);
    return memory + start;
}

/* Whether the marks of a buffer are as they were, but for so many octets at its front. */
static int kept(const uint8_t *memory, size_t length, size_t front, int at_start, const uint8_t *mark)
{
    size_t window = window_of(length, at_start), start = start_of(length, at_start);
    size_t end = window + length + MARGIN;
    return memcmp(memory + window, mark + window, start - window) == 0 &&
           memcmp(memory + start + front, mark + start + front, end - start - front) == 0;
}

/* Whether a buffer has the octets that were put into it, and the marks beside it are as they were. */
static int kept_whole(const uint8_t *memory, const uint8_t *octets, size_t length, int at_start, const uint8_t *mark)
{
    return kept(memory, length, length, at_start, mark) &&
           (length == 0 || memcmp(memory + start_of(length, at_start), octets, length) == 0);
}

/* What an outcome says by itself. */
static void check_outcome(const struct question *q, const struct anafzir_outcome *o)
{
    must(o->number <= 7, "the number is 0 to 7");
    must(decodes(q->work) || o->number != 6, "encoding never gives 6");
    must(o->number == 0 || (o->length == 0 && o->bits == 0), "a refusal has length 0 and no bits");
    must(o->number != 0 || o->length > 0, "a result has octets");
    must(o->length <= q->room_length, "the result lies in the room");
    must(o->length <= ANAFZIR_ROOM, "no result is longer than ANAFZIR_ROOM");
    must(in_per(q->work) || o->bits == 0, "DER reports no bits");
    size_t encoding = decodes(q->work) ? q->input_length : o->length;
    if (in_per(q->work) && o->number == 0)
        must((o->bits + (uint64_t)7) / 8 == encoding, "the bits take the encoding's octets");
}

/* The bits of an encoding that are behind the last one that is reported. */
static void check_filling(const struct answer *a)
{
    unsigned filling = (8 - a->outcome.bits % 8) % 8;
    must((a->octets[a->outcome.length - 1] & ((1u << filling) - 1)) == 0, "the filling is zero bits");
}

void ask(const struct question *q, enum manner manner, struct answer *a)
{
    const uint8_t *mark = marks[manner == MARKED_OTHERWISE];
    int nulls = manner == WITH_NULLS, type_at_start = (q->places & TYPE_AT_START) != 0;
    int input_at_start = (q->places & INPUT_AT_START) != 0, room_at_start = (q->places & ROOM_AT_START) != 0;
    uint8_t *type = lend(type_memory, q->type, q->type_length, type_at_start, mark);
    uint8_t *input = lend(input_memory, q->input, q->input_length, input_at_start, mark);
    uint8_t *room = lend(room_memory, NULL, q->room_length, room_at_start, mark);
    calls++;
    a->outcome = WORKS[q->work].code(nulls && q->type_length == 0 ? NULL : type, q->type_length, q->limits,
                                     nulls && q->input_length == 0 ? NULL : input, q->input_length,
                                     nulls && q->room_length == 0 ? NULL : room, q->room_length);
    check_outcome(q, &a->outcome);
    must(kept(room_memory, q->room_length, a->outcome.length, room_at_start, mark),
         a->outcome.number == 0 ? "the rest of the room is as it was" : "a refusal leaves the room as it was");
    must(kept_whole(type_memory, q->type, q->type_length, type_at_start, mark), "the type is as it was");
    must(kept_whole(input_memory, q->input, q->input_length, input_at_start, mark), "the input is as it was");
    if (a->outcome.length > 0)
        memcpy(a->octets, room, a->outcome.length);
    if (q->work == PER && a->outcome.number == 0)
        check_filling(a);
}

void ask_other(const struct question *q, enum work work, const uint8_t *input, size_t length, struct answer *a)
{
    struct question other = *q;
    other.work = work;
    other.input = input;
    other.input_length = length;
    other.room_length = ANAFZIR_ROOM;
    ask(&other, MARKED, a);
}

void ask_for_input(const struct question *q, struct answer *a)
{
    begin(q);
    next_step("an input is made");
    ask(q, MARKED, a);
    begin(NULL);
}
