/* A plain C program of the script language of the Geometric WorkBench: plain [--stop] [FILE] */
#include "output.h"
#include "script.h"
#include <fcntl.h>
#include <signal.h>
#include <stdio.h>
#include <unistd.h>

int main(int count, char **words)
{
    const char *path = NULL;
    bool stop = false;
    for (int i = 1; i < count; i++) {
        if (strcmp(words[i], "--stop") == 0 && !stop) {
            stop = true;
        } else if (words[i][0] != '-' && !path) {
            path = words[i];
        } else {
            fprintf(stderr, "Usage: plain [--stop] [FILE]\n");
            return 2;
        }
    }
    signal(SIGPIPE, SIG_IGN);
    int file = path ? open(path, O_RDONLY) : STDIN_FILENO;
    if (file < 0)
        fail("cannot open the script");
    enum run_end end = run_script(file, stop);
    flush_output();
    if (end == READ_FAULT)
        fail("read fault");
    if (end == TOO_LONG)
        fail("script too long");
    return any_bad;
}
