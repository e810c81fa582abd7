/* measure KILOBYTES MILLISECONDS COMMAND..: starts the command up to 20 times, until it has taken less than that of memory and time. Exit status
 * 0 where it has; what it took is printed. (The least of several, for a machine may have other work.) */
#define _DEFAULT_SOURCE /* wait4 */
#include <fcntl.h>
#include <stdio.h>
#include <stdlib.h>
#include <sys/resource.h>
#include <sys/types.h>
#include <sys/wait.h>
#include <time.h>
#include <unistd.h>

int main(int count, char **words) {
    if (count < 4) return 2;
    const long most_memory = atol(words[1]);
    const double most_time = atof(words[2]);
    double least = 1e9;
    long memory = 0;
    for (int run = 0; run < 20; run++) {
        struct timespec start, end;
        struct rusage used;
        int status = 0;
        clock_gettime(CLOCK_MONOTONIC, &start);
        const pid_t child = fork();
        if (child == 0) {
            dup2(open("/dev/null", O_RDWR), 1);
            execv(words[3], words + 3);
            _exit(127);
        }
        if (wait4(child, &status, 0, &used) != child || status != 0) return 2;
        clock_gettime(CLOCK_MONOTONIC, &end);
        const double took = 1e3 * (double)(end.tv_sec - start.tv_sec) + 1e-6 * (double)(end.tv_nsec - start.tv_nsec);
        if (took < least) least = took;
        memory = used.ru_maxrss;
        if (memory >= most_memory) break;
        if (took < most_time) break;
    }
    printf("%ld kB, %.1f ms\n", memory, least);
    return memory < most_memory && least < most_time ? 0 : 1;
}
