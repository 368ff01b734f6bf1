/*
 * Linked into a draft whose places are counted (scripts/draft --places): at its end it writes the numbers of those that
 * were reached, a line for each, into the file that PLACES names.
 *
 * Where REFUSED names a file, the program runs over it once for each of its allocations, which is refused there, and
 * the places of all these runs are written. A run that a signal ends is told on standard error.
 */
#include <fcntl.h>
#include <stdint.h>
#include <stdio.h>
#include <stdlib.h>
#include <sys/mman.h>
#include <sys/wait.h>
#include <unistd.h>

#include "../refuse.d/allocations.h"

#define MOST_PLACES 65536

/* What all runs share: whether the refused allocation was asked for, and the places that were reached. */
struct shared { uint8_t is_refused, places[MOST_PLACES]; };

static struct shared *shared;
static long allocations, refused;

/* What each place calls. */
void zre_hit(uint32_t place)
{
    if (place < MOST_PLACES)
        shared->places[place] = 1;
}

static int is_refused(void)
{
    if (refused == 0 || ++allocations != refused)
        return 0;
    shared->is_refused = 1;
    return 1;
}

static void write_places(void)
{
    const char *name = getenv("PLACES");
    FILE *file = name ? fopen(name, "w") : NULL;
    for (int place = 0; file && place < MOST_PLACES; place++)
        if (shared->places[place])
            fprintf(file, "%d\n", place);
    if (file)
        fclose(file);
}

/* A run over the file where this allocation is refused; in the run itself it is the program that goes on. */
static int goes_on(const char *name, long which)
{
    int status;
    pid_t child = fork();
    if (child == 0) {
        dup2(open(name, O_RDONLY), 0);
        dup2(open("/dev/null", O_WRONLY), 1);
        refused = which;
        return 1;
    }
    if (child > 0 && waitpid(child, &status, 0) == child && WIFSIGNALED(status))
        fprintf(stderr, "a run ends by signal %d where allocation %ld is refused\n", WTERMSIG(status), which);
    return 0;
}

__attribute__((constructor)) static void begin(void)
{
    const char *name = getenv("REFUSED");
    shared = mmap(NULL, sizeof *shared, PROT_READ | PROT_WRITE, MAP_SHARED | MAP_ANONYMOUS, -1, 0);
    if (shared == MAP_FAILED)
        abort();
    for (long which = 1; name != NULL; which++) {
        shared->is_refused = 0;
        if (goes_on(name, which))
            return;
        if (shared->is_refused)
            continue;
        write_places();
        _exit(0);
    }
}

__attribute__((destructor)) static void end(void)
{
    if (refused == 0)
        write_places();
    refused = 0;
}
