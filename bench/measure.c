// Runs a command and prints to standard error its duration in microseconds, its peak memory in KiB and its processor time in microseconds.
#include <stdio.h>
#include <sys/resource.h>
#include <sys/wait.h>
#include <time.h>
#include <unistd.h>

static long micros_of(struct timeval time) { return time.tv_sec * 1000000L + time.tv_usec; }

int main(int argc, char **argv) {
    struct timespec begin, end;
    struct rusage used;
    int status;
    if (argc < 2) return 1;
    clock_gettime(CLOCK_MONOTONIC, &begin);
    pid_t child = vfork();
    if (child == 0) {
        execv(argv[1], argv + 1);
        _exit(127);
    }
    if (child < 0 || wait4(child, &status, 0, &used) != child) return 1;
    clock_gettime(CLOCK_MONOTONIC, &end);
    long micros = (end.tv_sec - begin.tv_sec) * 1000000L + (end.tv_nsec - begin.tv_nsec) / 1000;
    fprintf(stderr, "%ld %ld %ld\n", micros, used.ru_maxrss, micros_of(used.ru_utime) + micros_of(used.ru_stime));
    return WIFEXITED(status) ? WEXITSTATUS(status) : 1;
}
