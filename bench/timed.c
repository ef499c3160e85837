/* timed SECONDS PROGRAM: runs the program, with a limit on its processor time, and writes to standard error how it ended (its status, or less
 * than zero), microseconds of processor time, and the peak of its memory in kibibytes. What the program writes there is dropped. A process
 * takes over the peak of the one that started it, so a small one stands between run.py and the program. */
#include <fcntl.h>
#include <stdio.h>
#include <stdlib.h>
#include <sys/resource.h>
#include <sys/wait.h>
#include <unistd.h>

int main(int count, char **words)
{
    if (count != 3)
        return 2;
    pid_t child = fork();
    if (child < 0)
        return 3;
    if (child == 0) {
        rlim_t seconds = atoi(words[1]);
        setrlimit(RLIMIT_CPU, &(struct rlimit){ seconds, seconds });
        dup2(open("/dev/null", O_WRONLY), STDERR_FILENO);
        execl(words[2], words[2], (char *)NULL);
        _exit(127);
    }
    int status;
    struct rusage used;
    if (wait4(child, &status, 0, &used) < 0)
        return 3;
    long long microseconds = (used.ru_utime.tv_sec + used.ru_stime.tv_sec) * 1000000LL + used.ru_utime.tv_usec + used.ru_stime.tv_usec;
    fprintf(stderr, "%d %lld %ld\n", WIFEXITED(status) ? WEXITSTATUS(status) : -1, microseconds, used.ru_maxrss);
    return 0;
}
