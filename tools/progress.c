/* for fileno and isatty */
#define _POSIX_C_SOURCE 200809L
#include "progress.h"

#include <stdio.h>
#include <time.h>
#include <unistd.h>

/* What is done, when it began and was last shown, in seconds, and whether it is
 * shown at all. */
static const char *what;
static time_t begun, shown;
static int shows;

void progress_begin(const char *work)
{
    what = work;
    begun = shown = time(NULL);
    shows = 0;
}

void progress_at(size_t done, size_t all)
{
    time_t now = time(NULL);
    if (now - begun < 2 || now == shown || !isatty(fileno(stderr)))
        return;
    fprintf(stderr, "\rdlm: %s: %zu of %zu", what, done, all);
    fflush(stderr);
    shown = now;
    shows = 1;
}

void progress_end(void)
{
    if (shows)
        fprintf(stderr, "\r%70s\r", "");
    shows = 0;
}
