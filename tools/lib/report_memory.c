/* Preloaded before a program: at its end, writes the most kilobytes of memory that it had in use into the file that
 * REPORT_MEMORY names. */
#include <stdio.h>
#include <stdlib.h>
#include <string.h>

static long most_kilobytes(void)
{
    FILE *status = fopen("/proc/self/status", "r");
    char line[256];
    long most = -1;
    while (status && fgets(line, sizeof line, status))
        if (!strncmp(line, "VmHWM:", 6))
            most = atol(line + 6);
    if (status)
        fclose(status);
    return most;
}

__attribute__((destructor)) static void report(void)
{
    const char *path = getenv("REPORT_MEMORY");
    long most = most_kilobytes();
    FILE *file = path ? fopen(path, "w") : NULL;
    if (file) {
        fprintf(file, "%ld\n", most);
        fclose(file);
    }
}
