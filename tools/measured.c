/* Runs a program and says what it took. tools/speed builds it into a folder of its own:

     measured IN OUT PROGRAM WORD..     runs PROGRAM with IN as its standard input and OUT as its standard output

   It prints three numbers: the status as wait() gives it, the processor time in microseconds, and the greatest memory in KiB. The
   host counts as a process's greatest memory that of the process it was forked from, too, so a large one (an interpreter) can't
   measure a small program itself. */
#include <fcntl.h>
#include <stdio.h>
#include <sys/resource.h>
#include <sys/wait.h>
#include <unistd.h>

static long microseconds(struct timeval t) { return t.tv_sec * 1000000L + t.tv_usec; }

int main(int count, char **words)
{
    if (count < 4)
        return 2;
    pid_t child = fork();
    if (child == 0) {
        int in = open(words[1], O_RDONLY), out = open(words[2], O_WRONLY | O_CREAT | O_TRUNC, 0644);
        if (in < 0 || out < 0 || dup2(in, 0) < 0 || dup2(out, 1) < 0)
            _exit(126);
        execv(words[3], words + 3);
        _exit(127);
    }
    int status;
    struct rusage usage;
    if (child < 0 || wait4(child, &status, 0, &usage) != child)
        return 1;
    printf("%d %ld %ld\n", status, microseconds(usage.ru_utime) + microseconds(usage.ru_stime), usage.ru_maxrss);
    return 0;
}
