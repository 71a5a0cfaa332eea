/* Runs a command without its output, and prints the most memory that it held, in kilobytes. */
#include <stdio.h>
#include <stdlib.h>
#include <sys/resource.h>
#include <sys/wait.h>
#include <unistd.h>

int main(int argc, char **argv) {
    if (argc < 2) return 2;
    pid_t child = fork();
    if (child < 0) return 2;
    if (!child) {
        if (!freopen("/dev/null", "w", stdout)) _exit(2);
        execv(argv[1], argv + 1);
        _exit(2);
    }
    int status;
    struct rusage usage;
    if (wait4(child, &status, 0, &usage) < 0 || status) return 1;
    printf("%ld\n", usage.ru_maxrss);
    return 0;
}
