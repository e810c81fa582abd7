/* Files: read, named, locked, and replaced whole.
 *
 * A file that is only read is mapped, so that no more of it is brought into memory than is looked at. A file is written under another name
 * beside the old one, brought to the disk, and only then renamed: whoever looks finds the old bytes or the new ones, whole, also after a full
 * disk, a kill or a power cut. What is refused, or can't be written, leaves the file as it was, its time stamp too.
 *
 * Who changes a file holds its lock from before it is read until after it is renamed. The lock is on a file of its own, NAME.lock, since the
 * file itself is another one after each renaming; it stays there, empty, and the system takes the lock from a process that dies. */
#define _XOPEN_SOURCE 700 /* realpath, O_NOFOLLOW */
#define _DEFAULT_SOURCE   /* flock */
#include "client.h"

#include <errno.h>
#include <fcntl.h>
#include <signal.h>
#include <stdio.h>
#include <stdlib.h>
#include <string.h>
#include <sys/file.h>
#include <sys/mman.h>
#include <sys/stat.h>
#include <unistd.h>

static const char lock_ending[] = ".lock", unfinished_ending[] = ".unfinished";

/* What has to be undone where the program stops: the other name of a file that is being written, and what a journal got for it. */
static char *unfinished;
static struct {
    int is_on, file;
    off_t length; /* that it had before */
    const char *name;
    char *path; /* of a new one, else NULL */
} appended;

void undo_unfinished(void) {
    if (unfinished != NULL) unlink(unfinished);
    if (appended.path != NULL) unlink(appended.path);
    else if (appended.is_on && ftruncate(appended.file, appended.length) == 0) fsync(appended.file);
}

void *room_for(void *before, size_t length) {
    void *room = realloc(before, length > 0 ? length : 1);
    if (room == NULL) fail("the memory", "is too small");
    return room;
}

static char *joined(const char *left, const char *between, const char *right) {
    const size_t length = strlen(left) + strlen(between) + strlen(right) + 1;
    char *whole = room_for(NULL, length);
    snprintf(whole, length, "%s%s%s", left, between, right);
    return whole;
}

static int is_same(const struct stat *left, const struct stat *right) {
    return left->st_dev == right->st_dev && left->st_ino == right->st_ino;
}

int is_stream(const char *name) { return strcmp(name, "-") == 0; }

/* ---- reading */

/* Another program that cuts a file short while it is mapped takes bytes away that were there: there is nothing to go on with. */
static void end_at_lost_bytes(int signal) {
    static const char said[] = "rinchovek: a file got shorter while it was read\n";
    (void)signal;
    if (unfinished != NULL) unlink(unfinished);
    if (write(STDERR_FILENO, said, sizeof said - 1) < 0) _exit(FAILED);
    _exit(FAILED);
}

static int is_mapped(struct bytes *file, int from, off_t size) {
    struct sigaction action;
    if (size <= 0 || (uint64_t)size > SIZE_MAX) return 0;
    uint8_t *at = mmap(NULL, (size_t)size, PROT_READ | PROT_WRITE, MAP_PRIVATE, from, 0); /* what is written there is ours alone */
    if (at == MAP_FAILED) return 0;
    memset(&action, 0, sizeof action);
    action.sa_handler = end_at_lost_bytes;
    sigaction(SIGBUS, &action, NULL);
    file->at = at;
    file->length = (size_t)size;
    file->is_mapped = 1;
    return 1;
}

/* All bytes of what can't be mapped; of what is too long for any sheet or DDS file a byte too many, which is refused just so. */
static struct bytes read_all(const char *name, int from) {
    const size_t most = (size_t)RINCHOVEK_LARGEST_SIDE * RINCHOVEK_LARGEST_SIDE + RINCHOVEK_DDS_HEADER_BYTES + 1;
    size_t room = 65536;
    struct bytes file = {room_for(NULL, room), 0, 0};
    while (file.length < most) {
        if (file.length == room) file.at = room_for(file.at, room = 2 * room < most ? 2 * room : most);
        const ssize_t count = read(from, file.at + file.length, room - file.length);
        if (count == 0) break;
        if (count < 0 && errno != EINTR) fail_by_system(name, "can't be read");
        if (count > 0) file.length += (size_t)count;
    }
    return file;
}

struct bytes read_file(const char *name) {
    if (is_stream(name)) return read_all(shown_name(name), STDIN_FILENO);
    struct bytes file = {NULL, 0, 0};
    struct stat about;
    const int from = open(name, O_RDONLY | O_CLOEXEC);
    if (from < 0 || fstat(from, &about) != 0) fail_by_system(name, "can't be read");
    if (!S_ISREG(about.st_mode) || !is_mapped(&file, from, about.st_size)) file = read_all(name, from);
    close(from);
    return file;
}

void release(struct bytes file) {
    if (file.is_mapped) munmap(file.at, file.length);
    else free(file.at);
}

/* ---- names */

const char *shown_name(const char *name) { return is_stream(name) ? "standard input" : name; }

void refuse_same(const char *read, const char *written) {
    struct stat input, output;
    if (is_stream(written) || stat(written, &output) != 0) return; /* what is wrong with it is said where it is opened */
    if ((is_stream(read) ? fstat(STDIN_FILENO, &input) : stat(read, &input)) != 0 || !is_same(&input, &output)) return;
    fail(written, "can't be written: it is what is read");
}

/* The path without links of the file that a name leads to, be it there or not. */
static char *path_of(const char *name) {
    struct stat about;
    char *path = realpath(name, NULL);
    if (path != NULL) return path;
    if (errno != ENOENT) fail_by_system(name, "can't be written");
    if (lstat(name, &about) == 0) fail(name, "can't be written: it is a link that leads nowhere");
    const char *slash = strrchr(name, '/');
    const char *last = slash != NULL ? slash + 1 : name;
    char *above = joined(slash == NULL ? "." : slash == name ? "/" : name, "", "");
    if (slash != NULL && slash != name) above[slash - name] = '\0';
    char *folder = *last != '\0' ? realpath(above, NULL) : NULL;
    if (folder == NULL) fail_by_system(name, "can't be written");
    path = joined(folder, strcmp(folder, "/") == 0 ? "" : "/", last);
    free(folder);
    free(above);
    return path;
}

static int ends_in(const char *name, const char *ending) {
    const size_t length = strlen(name), wanted = strlen(ending);
    return length >= wanted && strcmp(name + length - wanted, ending) == 0;
}

/* What stands at the path, if anything does: a plain file that may be written, and none that the program itself was given open. */
static int is_there(const char *name, const char *path, struct stat *about) {
    struct stat open_already;
    if (ends_in(path, lock_ending) || ends_in(path, unfinished_ending))
        fail(name, "can't be written: .lock and .unfinished end the names of what stands beside a file");
    if (stat(path, about) != 0) {
        if (errno != ENOENT) fail_by_system(name, "can't be written");
        return 0;
    }
    if (!S_ISREG(about->st_mode)) fail(name, "can't be written: it is no plain file");
    for (int stream = STDIN_FILENO; stream <= STDERR_FILENO; stream++)
        if (fstat(stream, &open_already) == 0 && is_same(about, &open_already))
            fail(name, "can't be written: it is the program's standard input, output or error; - writes to standard output");
    if (access(path, W_OK) != 0) fail_by_system(name, "can't be written");
    return 1;
}

/* ---- locks */

static int open_lock(const char *name, const char *lock, mode_t mode) {
    const int flags = O_CLOEXEC | O_NOFOLLOW | O_NONBLOCK;
    const mode_t mask = umask(0); /* who may write the file may lock it */
    int file = open(lock, O_RDWR | O_CREAT | flags, mode);
    umask(mask);
    if (file < 0 && errno == EACCES) { /* what may not be written can be locked all the same, where it is there */
        file = open(lock, O_RDONLY | flags);
        if (file < 0 && errno == ENOENT) errno = EACCES;
    }
    if (file < 0) fail_by_system(name, "can't be locked");
    return file;
}

static void wait_for(const char *name, int file) {
    if (flock(file, LOCK_EX | LOCK_NB) == 0) return;
    if (errno == EWOULDBLOCK && isatty(STDERR_FILENO)) fprintf(stderr, "rinchovek: %s is being changed by another command; waiting for it\n", name);
    while (flock(file, LOCK_EX) != 0)
        if (errno != EINTR) fail_by_system(name, "can't be locked");
}

/* Waits for the lock of the file at this path, and answers it open: it is held until the file is closed. */
static int locked(const char *name, const char *path, const struct stat *about) {
    struct stat taken, standing;
    char *lock = joined(path, lock_ending, "");
    for (;;) {
        const int file = open_lock(name, lock, about->st_mode & 0666);
        wait_for(name, file);
        if (fstat(file, &taken) != 0 || !S_ISREG(taken.st_mode)) fail(name, "can't be locked: its lock is no plain file");
        if (stat(lock, &standing) == 0 && is_same(&taken, &standing)) {
            /* the second of a group must be able to lock it too; where that can't be had, writing the file itself says so */
            if (taken.st_uid == geteuid() && taken.st_gid != about->st_gid && fchown(file, (uid_t)-1, about->st_gid) != 0) errno = 0;
            free(lock);
            return file;
        }
        close(file); /* somebody has taken this one away meanwhile */
    }
}

/* ---- writing */

struct output aim(const char *name, int may_own) {
    struct output to = {.name = name, .file = STDOUT_FILENO, .lock = -1, .may_own = may_own};
    if (is_stream(name)) {
        to.name = "standard output";
        if (isatty(STDOUT_FILENO)) fail(to.name, "is a terminal, and no text would be written to it");
        return to;
    }
    struct stat about;
    const mode_t mask = umask(0);
    umask(mask);
    for (;;) {
        to.target = path_of(name);
        memset(&about, 0, sizeof about);
        if (!is_there(name, to.target, &about)) {
            about.st_mode = 0666 & ~mask;
            about.st_gid = getegid();
        }
        to.lock = locked(name, to.target, &about);
        /* what was waited for may have changed links, and the file */
        char *now = path_of(name);
        const int is_still = strcmp(now, to.target) == 0;
        free(now);
        if (is_still) break;
        close(to.lock);
        free(to.target);
    }
    to.is_new = !is_there(name, to.target, &about);
    to.mode = to.is_new ? 0666 & ~mask : about.st_mode & 07777;
    to.owner = about.st_uid;
    to.group = about.st_gid;
    return to;
}

struct output aim_at_present(const char *name, int may_own) {
    struct stat about;
    if (is_stream(name)) fail("-", "can't be corrected: only what stands in a file can be");
    if (stat(name, &about) != 0) fail_by_system(name, "can't be read");
    return aim(name, may_own);
}

/* The new file gets owner, group and permissions of the old one, or there is no new file. */
static void keep_owner(const struct output *to) {
    struct stat about;
    if (fstat(to->file, &about) != 0) fail_by_system(to->name, "can't be written");
    if (!to->is_new && (about.st_uid != to->owner || about.st_gid != to->group) && fchown(to->file, to->owner, to->group) != 0) {
        if (!to->may_own && about.st_uid != to->owner)
            fail(to->name, "can't be written: it would get another owner, which --own allows; its group and permissions are kept then too");
        if (fchown(to->file, (uid_t)-1, to->group) != 0) fail(to->name, "can't be written: it would lose its group");
    }
    if (fchmod(to->file, to->mode) != 0) fail_by_system(to->name, "can't be written");
}

void start_file(struct output *to) {
    if (to->target == NULL) return;
    char *beside = joined(to->target, unfinished_ending, "");
    if (unlink(beside) != 0 && errno != ENOENT) fail_by_system(to->name, "can't be written"); /* what a kill has left, for the lock is ours */
    to->file = open(beside, O_WRONLY | O_CREAT | O_EXCL | O_CLOEXEC, 0600);
    if (to->file < 0) fail_by_system(to->name, "can't be written");
    unfinished = beside;
    keep_owner(to);
}

static void put_all(const char *name, int file, const uint8_t *bytes, size_t length) {
    const size_t piece = (size_t)1 << 22;
    for (size_t done = 0; done < length;) {
        const ssize_t count = write(file, bytes + done, length - done < piece ? length - done : piece);
        if (count < 0 && errno != EINTR) fail_by_system(name, "can't be written");
        if (count > 0) done += (size_t)count;
        show_progress("written", done, length);
    }
}

void put(const struct output *to, const void *bytes, size_t length) { put_all(to->name, to->file, bytes, length); }

/* Brings the folder of a path to the disk, and with it a name there. */
static void settle_folder(const char *name, const char *path) {
    char *above = joined(path, "", "");
    char *slash = strrchr(above, '/'); /* there is one: the path is a whole one */
    slash[1] = '\0';
    const int folder = open(above, O_RDONLY | O_DIRECTORY | O_CLOEXEC);
    if (folder < 0 || fsync(folder) != 0) fail_by_system(name, "is written, and may not be on the disk yet");
    close(folder);
    free(above);
}

void settle_file(struct output *to) {
    if (to->target == NULL) return;
    if (fsync(to->file) != 0 || close(to->file) != 0) fail_by_system(to->name, "can't be written");
}

void name_file(struct output *to) {
    if (to->target == NULL) return;
    if (rename(unfinished, to->target) != 0) fail_by_system(to->name, "can't be written");
    free(unfinished);
    unfinished = NULL;
    appended.is_on = 0; /* what the journal says has happened */
    appended.path = NULL;
    settle_folder(to->name, to->target);
    close(to->lock);
    free(to->target);
}

/* ---- journals, which grow at their end */

/* Opens it, and waits for its lock, which is on the journal itself, since it is never renamed. */
static int open_locked(const char *name, const char *path, const struct output *beside, struct stat *about) {
    const mode_t mask = umask(0);
    const int file = open(path, O_RDWR | O_CREAT | O_APPEND | O_CLOEXEC | O_NOFOLLOW | O_NONBLOCK, beside->mode & 0666);
    umask(mask);
    if (file < 0) fail_by_system(name, "can't be written");
    wait_for(name, file);
    if (fstat(file, about) != 0) fail_by_system(name, "can't be written");
    return file;
}

int open_appended(const char *name, const struct output *beside) {
    struct stat about, standing, sheet;
    if (is_stream(name)) fail("-", "can't be a journal: only a file can be");
    for (;;) {
        char *path = path_of(name);
        const int was_there = is_there(name, path, &about);
        if (was_there && stat(beside->target, &sheet) == 0 && is_same(&about, &sheet)) fail(name, "can't be the journal: it is the sheet");
        const int file = open_locked(name, path, beside, &about);
        if (stat(path, &standing) == 0 && is_same(&about, &standing)) {
            appended.name = name;
            appended.file = file;
            if (about.st_size > 0) free(path);
            else appended.path = path; /* it is new, and goes where nothing comes of it */
            if (!was_there && about.st_gid != beside->group && fchown(file, (uid_t)-1, beside->group) != 0) errno = 0; /* then it has our own group */
            return file;
        }
        close(file); /* somebody has taken this one away meanwhile */
        free(path);
    }
}

void append(int file, size_t length, const char *text, size_t text_length) {
    appended.length = (off_t)length;
    if (ftruncate(file, appended.length) != 0) fail_by_system(appended.name, "can't be written"); /* a line that a kill has cut off */
    appended.is_on = 1;
    put_all(appended.name, file, (const uint8_t *)text, text_length);
    if (fsync(file) != 0) fail_by_system(appended.name, "can't be written");
    if (appended.path != NULL) settle_folder(appended.name, appended.path);
}

void write_file(struct output *to, struct bytes file) {
    start_file(to);
    put(to, file.at, file.length);
    settle_file(to);
    name_file(to);
}
