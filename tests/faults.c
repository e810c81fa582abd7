/* What can happen to the client between two of its steps, without a change of its source: the linker puts these in the place of the calls of
 * the system (--wrap). FAULT says what happens:
 *
 *   kill N   the program is killed in the place of its Nth call
 *   fail N   the Nth call fails, as on a broken disk; FAULT_CALL names a call that is counted alone
 *   slow     of three reads and writes one is interrupted by a signal, and the others move at most seven bytes; the first two locks are interrupted
 *   nap      each write moves at most 16,000 bytes, and takes a second
 *   version N  the archive says that it is of this version
 *   cut      a file is cut to nothing by another program, just after it was mapped
 *   log      each call is named on standard error
 *
 * Where a call fails its name stands on standard error before what the program says. */
#include <errno.h>
#include <stdio.h>
#include <stdlib.h>
#include <string.h>
#include <unistd.h>

int raise(int signal);
enum { KILL = 9, BROKEN = 5 /* EIO */, CREATES = 0100, WRITES_FROM_NOTHING = 01001 /* O_WRONLY | O_TRUNC */, LONGEST = 7 };

static int is_fault(const char *wanted) {
    const char *fault = getenv("FAULT");
    return fault != NULL && strncmp(fault, wanted, strlen(wanted)) == 0;
}

/* Whether this call fails. */
static int fails(const char *call) {
    static int calls;
    const char *fault = getenv("FAULT"), *counted = getenv("FAULT_CALL");
    if (fault == NULL || is_fault("slow") || is_fault("nap") || is_fault("cut") || is_fault("version ")) return 0;
    if (is_fault("log")) fprintf(stderr, "%s\n", call);
    if (is_fault("log") || (counted != NULL && strcmp(counted, call) != 0) || ++calls != atoi(fault + strlen("kill "))) return 0;
    if (is_fault("kill")) raise(KILL);
    fprintf(stderr, "fault: %s\n", call);
    errno = BROKEN;
    return 1;
}

static int is_interrupted(void) {
    static int turn;
    if (!is_fault("slow")) return 0;
    turn = (turn + 1) % 3;
    errno = EINTR;
    return turn == 1;
}

static size_t shortened(size_t length) {
    const size_t longest = is_fault("slow") ? LONGEST : is_fault("nap") ? 16000 : length;
    return length < longest ? length : longest;
}

#define WRAPPED(answer, call, failed, parameters, arguments) \
    answer __real_##call parameters; \
    answer __wrap_##call parameters; \
    answer __wrap_##call parameters { return fails(#call) ? failed : __real_##call arguments; }

WRAPPED(int, fsync, -1, (int file), (file))
WRAPPED(int, rename, -1, (const char *from, const char *to), (from, to))
WRAPPED(int, fchmod, -1, (int file, unsigned mode), (file, mode))
WRAPPED(int, fchown, -1, (int file, unsigned owner, unsigned group), (file, owner, group))
WRAPPED(int, ftruncate, -1, (int file, long length), (file, length))
WRAPPED(int, unlink, -1, (const char *name), (name))

unsigned __real_rinchovek_version(void);
unsigned __wrap_rinchovek_version(void);
unsigned __wrap_rinchovek_version(void) { return is_fault("version ") ? (unsigned)atoi(getenv("FAULT") + strlen("version ")) : __real_rinchovek_version(); }

int __real_open(const char *name, int how, ...);
void *__real_mmap(void *at, size_t length, int rights, int flags, int file, long from);
void *__wrap_mmap(void *at, size_t length, int rights, int flags, int file, long from);
void *__wrap_mmap(void *at, size_t length, int rights, int flags, int file, long from) {
    char name[64];
    if (fails("mmap")) return (void *)-1L;
    void *mapped = __real_mmap(at, length, rights, flags, file, from);
    snprintf(name, sizeof name, "/proc/self/fd/%d", file);
    if (is_fault("cut")) __real_open(name, WRITES_FROM_NOTHING);
    return mapped;
}

int __wrap_open(const char *name, int how, unsigned mode);
int __wrap_open(const char *name, int how, unsigned mode) { return fails("open") ? -1 : __real_open(name, how, how & CREATES ? mode : 0); }

int __real_flock(int file, int how);
int __wrap_flock(int file, int how);
int __wrap_flock(int file, int how) {
    static int calls;
    errno = EINTR;
    return (is_fault("slow") && ++calls <= 2) || fails("flock") ? -1 : __real_flock(file, how);
}

ssize_t __real_read(int file, void *bytes, size_t length);
ssize_t __wrap_read(int file, void *bytes, size_t length);
ssize_t __wrap_read(int file, void *bytes, size_t length) { return is_interrupted() || fails("read") ? -1 : __real_read(file, bytes, shortened(length)); }

ssize_t __real_write(int file, const void *bytes, size_t length);
ssize_t __wrap_write(int file, const void *bytes, size_t length);
ssize_t __wrap_write(int file, const void *bytes, size_t length) {
    if (is_fault("nap")) sleep(1);
    return is_interrupted() || fails("write") ? -1 : __real_write(file, bytes, shortened(length));
}
