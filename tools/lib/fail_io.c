/* Preloaded before a program: makes a call of `open`, `read`, `write` or `close` fail, and records every such call.
 *
 *   FAIL_IO   CALL NUMBER KIND [on]: the call with this number, counted from 1 among the calls of its name, fails.
 *             KIND is
 *               a number of errno    the call fails with this error
 *               none                 the call takes 0 octets, or what is read ends there
 *               short                the call gives or takes 1 octet
 *               shrink               the file that is read is cut where the reading stands
 *             With `on` each later call of that name fails in the same way.
 *   EACH_CHILD   a file of such lines, in the order in which the program makes the calls: each call fails in a child
 *             (tools/lib/children.h)
 *   REPORT_IO   a file that gets a line for each call: CALL DESCRIPTOR RESULT PATH. PATH is that of the opened file,
 *             or `-`.
 */
#define _GNU_SOURCE
#include "children.h"
#include <stdarg.h>
#include <string.h>

enum { OPEN, READ, WRITE, CLOSE, CALLS };
enum { NONE = -1, SHORT = -2, SHRINK = -3 };
enum { DESCRIPTORS = 64, PATH_ROOM = 256, REPORT_ROOM = 1 << 22 };

static const char *const names[CALLS] = {"open", "read", "write", "close"};
static long counts[CALLS];
static int failing_call = CALLS, kind, goes_on;
static long failing_number;
static char paths[DESCRIPTORS][PATH_ROOM];
static char has_ended[DESCRIPTORS];
static char reported[REPORT_ROOM];
static size_t reported_length;

static int kind_of(const char *word)
{
    if (!strcmp(word, "none"))
        return NONE;
    if (!strcmp(word, "short"))
        return SHORT;
    return strcmp(word, "shrink") ? atoi(word) : SHRINK;
}

/* Takes an order, of which there may be none. */
static void take(const char *order)
{
    char call[8], word[16], on[4];
    int words = order ? sscanf(order, "%7s %ld %15s%*1[ ]%3[on]", call, &failing_number, word, on) : 0;
    failing_call = CALLS;
    if (words < 3)
        return;
    for (failing_call = 0; failing_call < CALLS && strcmp(names[failing_call], call); failing_call++)
        ;
    kind = kind_of(word);
    goes_on = words == 4;
}

__attribute__((constructor)) static void set_out(void)
{
    set_out_children();
    take(line_of_a_child() ? line_of_a_child() : getenv("FAIL_IO"));
}

static int is_ordered(int call)
{
    return call == failing_call && (counts[call] == failing_number || (goes_on && counts[call] > failing_number));
}

/* Whether the call fails: in the program, where there are lines of children, only ever in a child. */
static int fails(int call)
{
    counts[call]++;
    if (is_child || !line_of_a_child())
        return is_ordered(call);
    while (call == failing_call && counts[call] == failing_number) {
        if (is_in_a_child())
            return 1;
        take(line_of_a_child());
    }
    return 0;
}

static const char *path_of(int descriptor)
{
    return descriptor >= 3 && descriptor < DESCRIPTORS && paths[descriptor][0] ? paths[descriptor] : "-";
}

static long report(int call, int descriptor, long result)
{
    int room = (int)(REPORT_ROOM - reported_length), kept = errno;
    int length = snprintf(
        reported + reported_length, room, "%s %d %ld %s\n", names[call], descriptor, result, path_of(descriptor));
    if (length >= room)
        abort();
    reported_length += length;
    errno = kept;
    return result;
}

static long failed(int call, int descriptor)
{
    errno = kind;
    return report(call, descriptor, -1);
}

int open(const char *path, int flags, ...)
{
    va_list rest;
    va_start(rest, flags);
    int mode = flags & O_CREAT ? va_arg(rest, int) : 0;
    va_end(rest);
    if (fails(OPEN))
        return (int)failed(OPEN, -1);
    int descriptor = syscall(SYS_openat, AT_FDCWD, path, flags, mode);
    if (descriptor >= 0 && descriptor < DESCRIPTORS)
        has_ended[descriptor] = 0;
    if (descriptor >= 0 && descriptor < DESCRIPTORS)
        snprintf(paths[descriptor], PATH_ROOM, "%s", path);
    return report(OPEN, descriptor, descriptor);
}

static void cut_at_the_reading(int descriptor)
{
    char name[32];
    snprintf(name, sizeof name, "/proc/self/fd/%d", descriptor);
    if (truncate(name, lseek(descriptor, 0, SEEK_CUR)))
        abort();
}

ssize_t read(int descriptor, void *octets, size_t length)
{
    if (fails(READ)) {
        if (kind > 0)
            return failed(READ, descriptor);
        if (kind == SHRINK)
            cut_at_the_reading(descriptor);
        if (kind == NONE && descriptor >= 0 && descriptor < DESCRIPTORS)
            has_ended[descriptor] = 1;
        length = kind == SHORT && length ? 1 : length;
    }
    if (descriptor >= 0 && descriptor < DESCRIPTORS && has_ended[descriptor])
        return report(READ, descriptor, 0);
    return report(READ, descriptor, syscall(SYS_read, descriptor, octets, length));
}

ssize_t write(int descriptor, const void *octets, size_t length)
{
    if (fails(WRITE)) {
        if (kind > 0)
            return failed(WRITE, descriptor);
        length = kind == NONE ? 0 : kind == SHORT && length ? 1 : length;
    }
    return report(WRITE, descriptor, syscall(SYS_write, descriptor, octets, length));
}

int close(int descriptor)
{
    int is_failing = fails(CLOSE);
    long result = syscall(SYS_close, descriptor);
    return is_failing ? failed(CLOSE, descriptor) : report(CLOSE, descriptor, result);
}

__attribute__((destructor)) static void report_all(void)
{
    const char *path = getenv("REPORT_IO");
    int file = path ? (int)syscall(SYS_openat, AT_FDCWD, path, O_WRONLY | O_CREAT | O_TRUNC, 0600) : -1;
    if (file >= 0 && syscall(SYS_write, file, reported, reported_length) != (long)reported_length)
        abort();
}
