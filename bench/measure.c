// measure COMMAND..: runs the command, and prints on standard error the processor time that it took in seconds, its
// own and the system's for it, and its greatest memory in KiB.
#include <stdio.h>
#include <sys/resource.h>
#include <sys/wait.h>
#include <unistd.h>

static double seconds(struct timeval t) { return t.tv_sec + t.tv_usec / 1e6; }

int main(int argc, char **argv) {
    struct rusage use;
    int status;
    if (argc < 2) return 2;
    pid_t child = vfork();
    if (child == 0) { execvp(argv[1], argv + 1); _exit(127); }
    wait4(child, &status, 0, &use);
    fprintf(stderr, "%.6f %ld\n", seconds(use.ru_utime) + seconds(use.ru_stime), use.ru_maxrss);
    return WIFEXITED(status) ? WEXITSTATUS(status) : 128;
}
