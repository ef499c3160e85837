/* The script: lines in, replies out. */
#ifndef SCRIPT_H
#define SCRIPT_H

#include <stdbool.h>

enum run_end { RUN_ENDED, READ_FAULT, TOO_LONG };

/* Answers the lines of an open file; ends after the first refusal or fault where `stop` says so. */
enum run_end run_script(int file, bool stop);

#endif
