/* launch SECONDS INPUT PROGRAM WORDS...
 *
 * Runs a program with its input from a file and its output to nothing, and prints what it used: microseconds of
 * processor time (user and system), kilobytes of peak resident memory, and its exit status, or -1 where a signal ended
 * it, such as the one that comes after so many seconds.
 *
 * The peak that the system tells of a process is at least that of the process that it was forked from. So a small
 * program starts it, and not the script, whose interpreter has more memory than what is measured. */
#include <fcntl.h>
#include <stdio.h>
#include <stdlib.h>
#include <sys/resource.h>
#include <sys/time.h>
#include <sys/types.h>
#include <sys/wait.h>
#include <unistd.h>

static void run (const char *seconds, const char *input, char **words)
{
    int in = open (input, O_RDONLY);
    int out = open ("/dev/null", O_WRONLY);
    if (in < 0 || out < 0 || dup2 (in, 0) < 0 || dup2 (out, 1) < 0)
        _exit (126);
    alarm ((unsigned) atoi (seconds));
    execv (words[0], words);
    _exit (127);
}

static long microseconds (struct timeval time)
{
    return time.tv_sec * 1000000L + time.tv_usec;
}

int main (int count, char **words)
{
    if (count < 4)
        return 2;
    pid_t child = fork ();
    if (child < 0)
        return 1;
    if (child == 0)
        run (words[1], words[2], words + 3);
    int status;
    struct rusage used;
    if (wait4 (child, &status, 0, &used) < 0)
        return 1;
    printf ("%ld %ld %d\n", microseconds (used.ru_utime) + microseconds (used.ru_stime), used.ru_maxrss,
            WIFEXITED (status) ? WEXITSTATUS (status) : -1);
    return 0;
}
