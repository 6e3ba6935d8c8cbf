/* Preloaded before a program, it runs the program again and again in one process: each time on words, files and a
 * standard input that are held in memory.
 *
 * A request comes on the process's own standard input: `struct request`, and then its texts, each with a zero
 * behind it: the words, the standard input, the name and the octets of each file. The answer goes to the process's
 * own standard output: `struct answer`, and both texts that were printed. */
#define _GNU_SOURCE
#include <dlfcn.h>
#include <errno.h>
#include <malloc.h>
#include <setjmp.h>
#include <stdint.h>
#include <stdlib.h>
#include <string.h>
#include <sys/param.h>
#include <sys/syscall.h>
#include <time.h>
#include <unistd.h>

/* A run that takes longer, in seconds, is one without an end. */
enum { MOST_SECONDS = 60, FIRST_DESCRIPTOR = 1000, MOST_TEXTS = 98, MOST_WORDS = 64, MOST_OCTETS = 1 << 26 };

struct text {
    char *octets;
    size_t length, at;
};

/* The most octets that a read gives and a write takes, the octets of the log behind which a read is noted, how many
 * texts there are, and the length of each. */
static struct request {
    uint64_t piece, watched, count, lengths[MOST_TEXTS];
} asked;

/* The status of a run, the most octets of memory that it held at once, those that it held at its end, microseconds,
 * of the first read of the log behind the watched octets whether there was one, how many octets were given and printed
 * before it, and the lengths of both texts. */
static struct answer {
    int64_t status;
    uint64_t most, held, spent, is_noted, given, before, printed, reported;
} answer;

static char octets_of[MOST_OCTETS], printed[MOST_OCTETS], reported[MOST_OCTETS];
static struct text texts[MOST_TEXTS], *const input = &texts[1];
static char *arguments[MOST_WORDS + 2];

void *__libc_realloc(void *, size_t);
void __libc_free(void *);

static void *resized(void *old, size_t size)
{
    size_t before = malloc_usable_size(old);
    void *place = __libc_realloc(old, size);
    answer.held += malloc_usable_size(place) - (place ? before : 0);
    answer.most = MAX(answer.most, answer.held);
    return place;
}

void *malloc(size_t size)
{
    return resized(NULL, size);
}

void *realloc(void *old, size_t size)
{
    return resized(old, size);
}

void free(void *place)
{
    answer.held -= malloc_usable_size(place);
    __libc_free(place);
}

int open(const char *path, int flags, ...)
{
    for (uint64_t at = 2; at < asked.count; at += 2)
        if (!strcmp(texts[at].octets, path)) {
            texts[at + 1].at = 0;
            return FIRST_DESCRIPTOR + at;
        }
    errno = ENOENT;
    return -1;
}

ssize_t read(int descriptor, void *octets, size_t length)
{
    struct text *name = descriptor < FIRST_DESCRIPTOR ? NULL : &texts[descriptor - FIRST_DESCRIPTOR];
    struct text *from = name ? name + 1 : input;
    if (name && !answer.is_noted && !strcmp(name->octets, "log.csv") && from->at >= asked.watched) {
        answer.is_noted = 1;
        answer.given = from->at;
        answer.before = answer.printed;
    }
    size_t count = MIN(MIN(length, asked.piece), from->length - from->at);
    memcpy(octets, from->octets + from->at, count);
    from->at += count;
    return count;
}

ssize_t write(int descriptor, const void *octets, size_t length)
{
    uint64_t *end = descriptor == 1 ? &answer.printed : &answer.reported;
    if (length > MOST_OCTETS - *end)
        abort();
    length = MIN(length, asked.piece);
    memcpy((descriptor == 1 ? printed : reported) + *end, octets, length);
    *end += length;
    return length;
}

int close(int descriptor)
{
    return 0;
}

/* Reads a part of a request, or writes one of an answer. Ends the process where nobody asks or listens further. */
static void carry(long call, int descriptor, void *octets, size_t length)
{
    for (char *at = octets; length;) {
        ssize_t count = syscall(call, descriptor, at, length);
        if (count <= 0)
            _exit(0);
        at += count;
        length -= count;
    }
}

/* Takes a request. Returns how many arguments there are. */
static int take(void)
{
    int count = 1;
    char *from = octets_of;
    carry(SYS_read, 0, &asked, sizeof asked);
    for (uint64_t at = 0; at < asked.count; from += asked.lengths[at++] + 1) {
        if (asked.lengths[at] >= (uint64_t)(octets_of + MOST_OCTETS - from))
            abort();
        texts[at] = (struct text){from, asked.lengths[at], 0};
        carry(SYS_read, 0, from, asked.lengths[at] + 1);
    }
    for (char *word = texts[0].octets; (word = strtok(word, " ")) && count < MOST_WORDS; word = NULL)
        arguments[count++] = word;
    arguments[count] = arguments[count + 1] = NULL;
    return count;
}

typedef int main_function(int, char **, char **);
typedef int start_function(main_function *, int, char **, void *, void *, void *, void *);

static main_function *program;
static jmp_buf back;

static int run(int count, char **arguments, char **means)
{
    clock_t begun = clock();
    answer = (struct answer){0};
    alarm(MOST_SECONDS);
    answer.status = program(count, arguments, means);
    alarm(0);
    answer.spent = clock() - begun;
    longjmp(back, 1);
}

/* Starts the program for each request anew, as some of its functions are called before `main`, with the arguments. */
int __libc_start_main(main_function *main, int count, char **own, void *first, void *last, void *unload, void *stack)
{
    start_function *const start = (start_function *)dlsym(RTLD_NEXT, "__libc_start_main");
    program = main;
    arguments[0] = own[0];
    for (;;) {
        if (!setjmp(back))
            start(run, take(), arguments, first, NULL, NULL, stack);
        carry(SYS_write, 1, &answer, sizeof answer);
        carry(SYS_write, 1, printed, answer.printed);
        carry(SYS_write, 1, reported, answer.reported);
    }
}
