/* A library for LD_PRELOAD that makes the C library's read() and write() fail, for tests of programs.
 *
 * FAULTY_READ says what becomes of read() on descriptor 0, FAULTY_WRITE of write() on descriptor 1, and FAULTY_CLOSE of
 * close() on descriptor 1, which is closed in any case. Each is a list of words with commas between them. Successive calls
 * take the words by turns, and the first follows the last again; where the last word ends in `*`, it stays for ever.
 *
 *     ok       the plain call
 *     short    at most one octet is moved
 *     few      at most 7 octets are moved
 *     zero     returns 0: nothing is written, or the input has ended
 *     intr     fails with EINTR, and nothing is moved
 *     again    fails with EAGAIN
 *     eio      fails with EIO
 *     nospace  fails with ENOSPC
 *
 * A call is plain without the variable or where it is empty, on other descriptors, and where no octet is asked for. A word
 * that is none of these ends the program with status 99 and a message.
 *
 *     cc -shared -fPIC -o faulty.so tests/c/faulty_io.c -ldl
 */
#define _GNU_SOURCE
#include <dlfcn.h>
#include <errno.h>
#include <stdint.h>
#include <stdio.h>
#include <stdlib.h>
#include <string.h>
#include <unistd.h>

struct fault {
    const char *word;
    /* What errno is where the call fails, or 0. */
    int error;
    /* Where it does not fail: it moves at most so many octets. */
    size_t most;
};

static const struct fault FAULTS[] = {
    {"ok", 0, SIZE_MAX}, {"short", 0, 1}, {"few", 0, 7}, {"zero", 0, 0},
    {"intr", EINTR, 0}, {"again", EAGAIN, 0}, {"eio", EIO, 0}, {"nospace", ENOSPC, 0},
};

/* A variable's list, and the word that is next; NULL before the first call. */
struct list {
    const char *variable;
    const char *words;
    const char *next;
};

static struct list reads = {"FAULTY_READ", NULL, NULL};
static struct list writes = {"FAULTY_WRITE", NULL, NULL};
static struct list closes = {"FAULTY_CLOSE", NULL, NULL};

static void give_up(const char *variable)
{
    fprintf(stderr, "faulty_io: %s has a word that is none\n", variable);
    _exit(99);
}

static const struct fault *find_fault(const char *word, size_t length)
{
    for (size_t i = 0; i < sizeof FAULTS / sizeof FAULTS[0]; i++)
        if (strlen(FAULTS[i].word) == length && memcmp(FAULTS[i].word, word, length) == 0)
            return &FAULTS[i];
    return NULL;
}

static void read_variable(struct list *list)
{
    const char *value = getenv(list->variable);
    list->words = value == NULL || *value == '\0' ? "ok" : value;
    list->next = list->words;
}

/* The fault of this call; the list moves on to the next word. */
static const struct fault *take_word(struct list *list)
{
    if (list->words == NULL)
        read_variable(list);
    const char *word = list->next;
    size_t length = strcspn(word, ",");
    int last = word[length] == '\0';
    int stays = last && length > 0 && word[length - 1] == '*';
    const struct fault *fault = find_fault(word, stays ? length - 1 : length);
    if (fault == NULL)
        give_up(list->variable);
    if (!stays)
        list->next = last ? list->words : word + length + 1;
    return fault;
}

/* How many octets the call may move; or -1 where it fails, with errno set. */
static ssize_t octets_to_move(struct list *list, size_t length)
{
    const struct fault *fault = take_word(list);
    if (fault->error != 0) {
        errno = fault->error;
        return -1;
    }
    return (ssize_t)(length < fault->most ? length : fault->most);
}

ssize_t read(int descriptor, void *room, size_t length)
{
    static ssize_t (*plain)(int, void *, size_t);
    if (plain == NULL)
        *(void **)&plain = dlsym(RTLD_NEXT, "read");
    if (descriptor != STDIN_FILENO || length == 0)
        return plain(descriptor, room, length);
    ssize_t most = octets_to_move(&reads, length);
    return most <= 0 ? most : plain(descriptor, room, (size_t)most);
}

ssize_t write(int descriptor, const void *octets, size_t length)
{
    static ssize_t (*plain)(int, const void *, size_t);
    if (plain == NULL)
        *(void **)&plain = dlsym(RTLD_NEXT, "write");
    if (descriptor != STDOUT_FILENO || length == 0)
        return plain(descriptor, octets, length);
    ssize_t most = octets_to_move(&writes, length);
    return most <= 0 ? most : plain(descriptor, octets, (size_t)most);
}

int close(int descriptor)
{
    static int (*plain)(int);
    if (plain == NULL)
        *(void **)&plain = dlsym(RTLD_NEXT, "close");
    int closed = plain(descriptor);
    if (descriptor != STDOUT_FILENO || closed != 0)
        return closed;
    return octets_to_move(&closes, 0) < 0 ? -1 : 0;
}
