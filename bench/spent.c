/* spent FIELDS PROGRAM..: the processor time of a whole process on the fields, in nanoseconds: the least of some runs. */
#define _DEFAULT_SOURCE
#include <fcntl.h>
#include <stdio.h>
#include <sys/resource.h>
#include <sys/wait.h>
#include <unistd.h>

enum { RUNS = 200 };

static void become(const char *fields, char **program)
{
    int from = open(fields, O_RDONLY), to = open("/dev/null", O_WRONLY);
    if (from < 0 || to < 0 || dup2(from, 0) < 0 || dup2(to, 1) < 0)
        _exit(127);
    execv(program[0], program);
    _exit(127);
}

static double nanoseconds(struct timeval t)
{
    return 1e9 * (double)t.tv_sec + 1e3 * (double)t.tv_usec;
}

int main(int words, char **word)
{
    double best = 0;
    for (int run = 0; words > 2 && run < RUNS; run++) {
        struct rusage used;
        int status;
        pid_t child = fork();
        if (child == 0)
            become(word[1], word + 2);
        if (child < 0 || wait4(child, &status, 0, &used) != child || status != 0) {
            fprintf(stderr, "spent: %s did not run\n", word[2]);
            return 1;
        }
        double each = nanoseconds(used.ru_utime) + nanoseconds(used.ru_stime);
        if (!run || each < best)
            best = each;
    }
    printf("%.0f\n", best);
    return 0;
}
