/* For a library that is preloaded before a program of one thread: runs the rest of the program in a child as well, which
 * goes another way from here on, and writes what the child came to. The program itself waits, finds its open files as
 * they were, and goes on. So many ways are tried in one run.
 *
 *   EACH_CHILD    a file with a line for each child, in the order in which they are forked. The library says what a
 *                 line means
 *   ENDED_CHILD   the file that gets of each child a line STATUS ENDED OUTPUT ERROR, and behind it what stands on
 *                 standard output and on standard error. STATUS is that of waitpid, ENDED whether the child came to its
 *                 end by itself, and the last two are numbers of octets
 *
 * Standard input, output and error have to be files, and the last two open for reading too. Once the child of the last
 * line has ended, the program ends with status 0. */
#include <errno.h>
#include <fcntl.h>
#include <stdio.h>
#include <stdlib.h>
#include <sys/mman.h>
#include <sys/stat.h>
#include <sys/syscall.h>
#include <sys/wait.h>
#include <unistd.h>

enum { INHERITED = 64, RESULTS = 200, PIECE = 1 << 16 };

/* The lines that are left. */
static char *lines, *lines_end;
static int is_child;
/* Whether the child came to its end, which it shares with the program. */
static volatile int *came_to_its_end;

static void require(int holds)
{
    if (!holds)
        abort();
}

/* The first of the lines that are left, or NULL. */
static const char *line_of_a_child(void)
{
    return lines < lines_end ? lines : NULL;
}

/* Reads the lines, where the environment names them. A library may stand in for `open` and the like: so the calls here
 * are the system's. */
static void set_out_children(void)
{
    const char *each = getenv("EACH_CHILD"), *ended = getenv("ENDED_CHILD");
    struct stat status;
    if (!each || !ended)
        return;
    int file = syscall(SYS_openat, AT_FDCWD, each, O_RDONLY, 0);
    int results = syscall(SYS_openat, AT_FDCWD, ended, O_WRONLY | O_CREAT | O_APPEND, 0600);
    require(file >= 0 && results >= 0 && !fstat(file, &status) && dup3(results, RESULTS, O_CLOEXEC) == RESULTS);
    /* The octet behind the lines is 0. */
    lines = mmap(NULL, status.st_size + 1, PROT_READ | PROT_WRITE, MAP_PRIVATE | MAP_ANONYMOUS, -1, 0);
    came_to_its_end = mmap(NULL, sizeof *came_to_its_end, PROT_READ | PROT_WRITE, MAP_SHARED | MAP_ANONYMOUS, -1, 0);
    require(lines != MAP_FAILED && (void *)came_to_its_end != MAP_FAILED);
    require(pread(file, lines, status.st_size, 0) == status.st_size);
    lines_end = lines + status.st_size;
    require(!syscall(SYS_close, file) && !syscall(SYS_close, results));
}

static void put_octets(const char *octets, long length)
{
    while (length > 0) {
        long count = syscall(SYS_write, RESULTS, octets, length);
        require(count > 0);
        octets += count;
        length -= count;
    }
}

/* Copies the first octets of an output to the results. */
static void put_output(int descriptor, off_t length)
{
    static char octets[PIECE];
    for (off_t at = 0; at < length;) {
        ssize_t count = pread(descriptor, octets, length - at < PIECE ? length - at : PIECE, at);
        require(count > 0);
        put_octets(octets, count);
        at += count;
    }
}

static void put_child(int status)
{
    char line[128];
    off_t output = lseek(1, 0, SEEK_END), error = lseek(2, 0, SEEK_END);
    int length = snprintf(
        line, sizeof line, "%d %d %ld %ld\n", status, *came_to_its_end, (long)output, (long)error);
    put_octets(line, length);
    put_output(1, output);
    put_output(2, error);
}

/* Whether this process is the child of the first line that is left. */
static int is_in_a_child(void)
{
    off_t places[INHERITED];
    int status;
    for (int it = 0; it < INHERITED; it++)
        places[it] = lseek(it, 0, SEEK_CUR);
    *came_to_its_end = 0;
    pid_t child = fork();
    require(child >= 0);
    is_child = child == 0;
    if (is_child)
        return 1;
    while (waitpid(child, &status, 0) < 0)
        require(errno == EINTR);
    put_child(status);
    require(!ftruncate(1, places[1]) && !ftruncate(2, places[2]));
    for (int it = 0; it < INHERITED; it++)
        if (places[it] >= 0)
            lseek(it, places[it], SEEK_SET);
    while (*lines++ != '\n')
        ;
    if (!line_of_a_child())
        _exit(0);
    return 0;
}

__attribute__((destructor)) static void end_child(void)
{
    if (is_child)
        *came_to_its_end = 1;
}
