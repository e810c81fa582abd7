/* What the examples, the client and its tests need of the C library's headers, for x86-64 Linux. The kit has a compiler, a linker and a C
 * library, and no header: tests/kit.sh puts this one in the place of each that is included. Elsewhere it is of no use. */
#ifndef KIT_H
#define KIT_H

typedef unsigned char uint8_t;
typedef unsigned short uint16_t;
typedef unsigned uint32_t, mode_t, uid_t, gid_t;
typedef unsigned long uint64_t, size_t, dev_t, ino_t;
typedef long ssize_t, off_t, time_t;
#define UINT8_MAX 255
#define UINT32_MAX 4294967295u
#define SIZE_MAX 18446744073709551615ul
#define NULL ((void *)0)

/* errno.h, fcntl.h, signal.h */
int *__errno_location(void);
#define errno (*__errno_location())
enum { ENOENT = 2, EINTR = 4, EWOULDBLOCK = 11, EACCES = 13, EISDIR = 21 };
enum { O_RDONLY = 0, O_WRONLY = 1, O_RDWR = 2, O_CREAT = 0100, O_EXCL = 0200, O_APPEND = 02000, O_NONBLOCK = 04000 };
enum { O_DIRECTORY = 0200000, O_NOFOLLOW = 0400000, O_CLOEXEC = 02000000 };
int open(const char *name, int how, ...);
struct sigaction {
    void (*sa_handler)(int signal);
    unsigned long sa_mask[16];
    int sa_flags;
    void (*sa_restorer)(void);
};
enum { SIGBUS = 7 };
int sigaction(int signal, const struct sigaction *action, struct sigaction *before);

/* stdio.h */
typedef struct file FILE;
extern FILE *stdin, *stdout, *stderr;
enum { EOF = -1 };
int printf(const char *format, ...), fprintf(FILE *to, const char *format, ...), snprintf(char *to, size_t size, const char *format, ...);
int fputs(const char *text, FILE *to), getchar(void), ungetc(int letter, FILE *from), ferror(FILE *file), fflush(FILE *file);
int rename(const char *from, const char *to);

/* stdlib.h, string.h, time.h */
void *malloc(size_t length), *realloc(void *bytes, size_t length), free(void *bytes), exit(int status) __attribute__((noreturn));
void qsort(void *bytes, size_t count, size_t size, int (*compare)(const void *left, const void *right));
char *realpath(const char *name, char *to), *getenv(const char *name);
int atoi(const char *text);
char *strrchr(const char *text, int letter), *strchr(const char *text, int letter), *strerror(int number);
int strcmp(const char *left, const char *right), strncmp(const char *left, const char *right, size_t length);
int memcmp(const void *left, const void *right, size_t length);
void *memset(void *bytes, int byte, size_t length), *memcpy(void *to, const void *from, size_t length);
unsigned sleep(unsigned seconds);
void *memchr(const void *bytes, int byte, size_t length);
size_t strlen(const char *text), strspn(const char *text, const char *letters);
struct tm {
    int tm_sec, tm_min, tm_hour, tm_mday, tm_mon, tm_year, more[5];
    const char *zone;
};
time_t time(time_t *now);
struct tm *gmtime(const time_t *now);
size_t strftime(char *to, size_t size, const char *format, const struct tm *time);

/* sys/file.h, sys/mman.h */
enum { LOCK_EX = 2, LOCK_NB = 4, PROT_READ = 1, PROT_WRITE = 2, MAP_PRIVATE = 2 };
#define MAP_FAILED ((void *)-1L)
int flock(int file, int how), munmap(void *bytes, size_t length);
void *mmap(void *at, size_t length, int rights, int flags, int file, off_t from);

/* sys/stat.h, unistd.h */
struct stat {
    dev_t st_dev;
    ino_t st_ino;
    unsigned long st_nlink;
    mode_t st_mode;
    uid_t st_uid;
    gid_t st_gid;
    unsigned between[3];
    off_t st_size;
    long behind[11];
};
#define S_ISREG(mode) (((mode) & 0170000) == 0100000)
enum { W_OK = 2, STDIN_FILENO = 0, STDOUT_FILENO = 1, STDERR_FILENO = 2 };
int stat(const char *name, struct stat *about), lstat(const char *name, struct stat *about), fstat(int file, struct stat *about);
int fchmod(int file, mode_t mode), fchown(int file, uid_t owner, gid_t group), ftruncate(int file, off_t length);
mode_t umask(mode_t mask);
uid_t geteuid(void);
gid_t getegid(void);
ssize_t read(int file, void *bytes, size_t length), write(int file, const void *bytes, size_t length);
int close(int file), fsync(int file), unlink(const char *name), access(const char *name, int how), isatty(int file);
void _exit(int status) __attribute__((noreturn));

#endif
