/* In the place of read and write, for a program that is started with this: of three calls on its standard input or output one is interrupted
 * by a signal, and the others move at most seven bytes. */
typedef long ssize_t;
typedef unsigned long size_t;

long syscall(long number, ...);
int *__errno_location(void);

enum { READ = 0, WRITE = 1, INTERRUPTED = 4, STANDARD_OUTPUT = 1 };

static int turn;

static long slowly(long call, int fd, const void *at, size_t count) {
    if (fd > STANDARD_OUTPUT) return syscall(call, fd, at, count);
    turn = (turn + 1) % 3;
    if (turn == 1) {
        *__errno_location() = INTERRUPTED;
        return -1;
    }
    return syscall(call, fd, at, count > 7 ? 7 : count);
}

ssize_t read(int fd, void *at, size_t count) { return slowly(READ, fd, at, count); }
ssize_t write(int fd, const void *at, size_t count) { return slowly(WRITE, fd, at, count); }
