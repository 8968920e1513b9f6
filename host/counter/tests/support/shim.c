/* Preloaded into a program: it logs each step on the files of an edit, in their order and with their bytes,
 * and lets one of them fail, tear, wait or end the program. Only tests use it (support/shim.rs).
 *
 * SHIM_IN       the name of the program that is watched; in any other it does nothing
 * SHIM_RECORD   the path of a record that is opened by its own name
 * SHIM_LOG      where the log goes: a file that is appended to, or a pipe that somebody reads
 * SHIM_BARE     the log has no bytes
 * SHIM_READS    it has the reads too
 * SHIM_KINDS    the kinds of steps that are counted, "wsfcrut" if it is not there
 * SHIM_FILES    the files whose steps are counted, all if it is not there
 * SHIM_AT       the number of the step that something happens at, from 1 on
 * SHIM_DO       what: "fail N" fails with errno N and does nothing; "half N" does half of a write, or all of
 *               another step, and fails; "from N" fails it and all later ones; "short" does half of a read or
 *               a write and says so; "kill" ends the program before the step, "torn" in the midst of a write;
 *               "parent" ends the counter that started it, "both" them both; "wait" writes to the pipe SHIM_WAIT
 *               and goes on once nobody reads that any more
 *
 * Kinds: w write, s sync of a file, f sync of a folder, c create, r rename, u unlink, t set the length,
 * o open, l lock, x ask for a file by its name, m owner and mode, n link, R read; and never counted: a an answer
 * on standard output, b the begin and e the end of the program, ? what writes and is not known here.
 * Files: i image, j journal, r record, c clip (or whatever is read alone), f folder, o other. */

#define _GNU_SOURCE
#include <dlfcn.h>
#include <errno.h>
#include <fcntl.h>
#include <limits.h>
#include <poll.h>
#include <pthread.h>
#include <signal.h>
#include <stdarg.h>
#include <stdint.h>
#include <stdio.h>
#include <stdlib.h>
#include <string.h>
#include <sys/stat.h>
#include <sys/syscall.h>
#include <sys/uio.h>
#include <unistd.h>

#define FILES 1024

static int watched, bare, reads, log_fd = -1;
static unsigned char on_of[FILES];
static unsigned long at, counted;
static char act[32], kinds[32] = "wsfcrut", files[32];
static int act_errno;
static pthread_mutex_t lock = PTHREAD_MUTEX_INITIALIZER;

static void *real(const char *name)
{
    return dlsym(RTLD_NEXT, name);
}

#define REAL(type, name, ...)                                   \
    static type (*real_##name)(__VA_ARGS__);                    \
    if (!real_##name)                                           \
        real_##name = (type (*)(__VA_ARGS__))real(#name)

/* ---- the log */

struct head {
    unsigned char what, on, failed, none;
    uint32_t process;
    uint64_t at, folder, number, len, kept;
};

static void put(const void *bytes, size_t len)
{
    const char *next = bytes;
    while (len > 0) {
        long done = syscall(SYS_write, log_fd, next, len);
        if (done < 0 && errno == EINTR)
            continue;
        if (done <= 0)
            return;
        next += done;
        len -= (size_t)done;
    }
}

static void note(int what, int on, int failed, uint64_t where, uint64_t folder, uint64_t number,
    const void *bytes, size_t len)
{
    int saved = errno;
    struct head head = { (unsigned char)what, (unsigned char)on, (unsigned char)failed, 0,
        (uint32_t)getpid(), where, folder, number, len, bytes && !bare ? len : 0 };
    if (log_fd >= 0) {
        put(&head, sizeof head);
        if (head.kept)
            put(bytes, len);
    }
    errno = saved;
}

/* ---- which file */

static int ends(const char *text, const char *end)
{
    size_t len = strlen(text), of = strlen(end);
    return len >= of && strcmp(text + len - of, end) == 0;
}

static const char *last(const char *path)
{
    const char *slash = strrchr(path, '/');
    return slash ? slash + 1 : path;
}

static int on_path(const char *path)
{
    const char *record = getenv("SHIM_RECORD");
    if (ends(path, ".counter-journal"))
        return 'j';
    if (strncmp(last(path), "counter-record.", 15) == 0 || (record && strcmp(path, record) == 0))
        return 'r';
    return 0;
}

static int on_opened(const char *path, int fd, int flags)
{
    struct stat told;
    int on = on_path(path);
    if (fstat(fd, &told) != 0)
        return 'o';
    if (S_ISDIR(told.st_mode))
        return 'f';
    if (!S_ISREG(told.st_mode))
        return 0;
    if (on)
        return on;
    return (flags & O_ACCMODE) == O_RDONLY ? 'c' : 'i';
}

static int on_fd(int fd)
{
    return fd >= 0 && fd < FILES ? on_of[fd] : 0;
}

static uint64_t number_of(int fd)
{
    struct stat told;
    return fstat(fd, &told) == 0 ? told.st_ino : 0;
}

/* The folder that holds the name. */
static uint64_t folder_of(int folder, const char *path)
{
    char name[PATH_MAX];
    struct stat told;
    const char *slash = strrchr(path, '/');
    size_t len = slash ? (size_t)(slash - path) : 0;
    if (len >= sizeof name)
        return 0;
    memcpy(name, path, len);
    name[len] = 0;
    if (!slash)
        strcpy(name, ".");
    else if (len == 0)
        strcpy(name, "/");
    return fstatat(folder, name, &told, 0) == 0 ? told.st_ino : 0;
}

/* ---- what happens at a step */

enum turn { GO, FAIL, HALF, SHORT, TORN };

/* Whoever waits for this step reads the pipe; once the other end is closed, this goes on. */
static void wait_here(void)
{
    const char *path = getenv("SHIM_WAIT");
    struct pollfd end = { .fd = path ? (int)syscall(SYS_openat, AT_FDCWD, path, O_WRONLY) : -1 };
    if (end.fd < 0)
        return;
    syscall(SYS_write, end.fd, "", 1);
    while (poll(&end, 1, -1) < 0 && errno == EINTR) {
    }
    syscall(SYS_close, end.fd);
}

/* The program that started this one, and no other: whoever tests may have started it. */
static void end_parent(void)
{
    char path[PATH_MAX], name[64];
    ssize_t len;
    snprintf(name, sizeof name, "/proc/%d/exe", (int)getppid());
    len = readlink(name, path, sizeof path - 1);
    if (len < 0)
        return;
    path[len] = 0;
    if (strcmp(last(path), "counter") == 0)
        kill(getppid(), SIGKILL);
}

static enum turn turn_of(int what, int on)
{
    if (!at || !strchr(kinds, what) || (*files && !strchr(files, on)))
        return GO;
    counted++;
    if (strcmp(act, "from") == 0 && counted >= at) {
        errno = act_errno;
        return FAIL;
    }
    if (counted != at)
        return GO;
    if (strcmp(act, "fail") == 0 || strcmp(act, "half") == 0) {
        errno = act_errno;
        return act[0] == 'f' ? FAIL : HALF;
    }
    if (strcmp(act, "short") == 0)
        return SHORT;
    if (strcmp(act, "torn") == 0 && what == 'w')
        return TORN;
    if (strcmp(act, "wait") == 0)
        wait_here();
    if (strcmp(act, "parent") == 0 || strcmp(act, "both") == 0)
        end_parent();
    if (strcmp(act, "both") == 0 || strcmp(act, "kill") == 0 || strcmp(act, "torn") == 0)
        kill(getpid(), SIGKILL);
    return GO;
}

static void __attribute__((constructor)) begin(void)
{
    char path[PATH_MAX];
    const char *in = getenv("SHIM_IN"), *text;
    ssize_t len = readlink("/proc/self/exe", path, sizeof path - 1);
    if (len < 0 || !in)
        return;
    path[len] = 0;
    watched = strcmp(last(path), in) == 0;
    if (!watched)
        return;
    bare = getenv("SHIM_BARE") != NULL;
    reads = getenv("SHIM_READS") != NULL;
    if ((text = getenv("SHIM_LOG")))
        log_fd = (int)syscall(SYS_openat, AT_FDCWD, text, O_WRONLY | O_APPEND | O_CREAT | O_CLOEXEC, 0666);
    if (log_fd >= 0 && log_fd < 3)
        log_fd = (int)syscall(SYS_fcntl, log_fd, F_DUPFD_CLOEXEC, 100);
    if ((text = getenv("SHIM_KINDS")))
        snprintf(kinds, sizeof kinds, "%s", text);
    if ((text = getenv("SHIM_FILES")))
        snprintf(files, sizeof files, "%s", text);
    if ((text = getenv("SHIM_AT")))
        at = strtoul(text, NULL, 10);
    if ((text = getenv("SHIM_DO")))
        sscanf(text, "%31s %d", act, &act_errno);
    note('b', 0, 0, 0, 0, 0, NULL, 0);
}

static void __attribute__((destructor)) end(void)
{
    if (watched)
        note('e', 0, 0, counted, 0, 0, NULL, 0);
}

#define BEGIN() pthread_mutex_lock(&lock)
#define END(value)                      \
    do {                                \
        int end_errno = errno;          \
        pthread_mutex_unlock(&lock);    \
        errno = end_errno;              \
        return value;                   \
    } while (0)

/* A step that is done or not: with HALF it is done, and fails all the same. */
#define STEP(what, on, where, folder, number, call)                             \
    do {                                                                        \
        enum turn turn;                                                         \
        int done = -1, step_errno;                                              \
        uint64_t of_file = (number);                                            \
        BEGIN();                                                                \
        turn = turn_of(what, on);                                               \
        step_errno = errno;                                                     \
        if (turn != FAIL)                                                       \
            done = (call);                                                      \
        note(what, on, done < 0, where, folder, of_file, NULL, 0);              \
        if (turn == FAIL || turn == HALF) {                                     \
            errno = step_errno;                                                 \
            END(-1);                                                            \
        }                                                                       \
        END(done);                                                              \
    } while (0)

/* ---- names */

static int opened(int folder, const char *path, int flags, mode_t mode)
{
    REAL(int, openat64, int, const char *, int, ...);
    struct stat told;
    int fd = -1, on, made, what, saved;
    enum turn turn;
    if (!watched)
        return real_openat64(folder, path, flags, mode);
    made = (flags & O_CREAT) && fstatat(folder, path, &told, AT_SYMLINK_NOFOLLOW) != 0;
    what = made ? 'c' : 'o';
    BEGIN();
    on = on_path(path);
    /* What is read alone is opened by libraries too. */
    turn = GO;
    if (made || on || (flags & O_ACCMODE) != O_RDONLY)
        turn = turn_of(what, on ? on : 'i');
    saved = errno;
    if (turn != FAIL)
        fd = real_openat64(folder, path, flags, mode);
    if (fd >= 0 && fd < FILES) {
        on_of[fd] = (unsigned char)(on = on_opened(path, fd, flags));
        if ((flags & O_TRUNC) && !made)
            note('t', on, 0, 0, 0, number_of(fd), NULL, 0);
    }
    note(what, on ? on : 'o', fd < 0, (uint64_t)(flags & O_ACCMODE), folder_of(folder, path),
        fd < 0 ? 0 : number_of(fd), path, strlen(path));
    if (turn == FAIL || turn == HALF) {
        if (fd >= 0)
            close(fd);
        errno = saved;
        END(-1);
    }
    END(fd);
}

#define MODE(flags)                                     \
    mode_t mode = 0;                                    \
    if ((flags) & (O_CREAT | O_TMPFILE)) {              \
        va_list rest;                                   \
        va_start(rest, flags);                          \
        mode = (mode_t)va_arg(rest, unsigned);          \
        va_end(rest);                                   \
    }

int open(const char *path, int flags, ...)
{
    MODE(flags)
    return opened(AT_FDCWD, path, flags, mode);
}

int open64(const char *path, int flags, ...)
{
    MODE(flags)
    return opened(AT_FDCWD, path, flags, mode);
}

int openat(int folder, const char *path, int flags, ...)
{
    MODE(flags)
    return opened(folder, path, flags, mode);
}

int openat64(int folder, const char *path, int flags, ...)
{
    MODE(flags)
    return opened(folder, path, flags, mode);
}

int creat(const char *path, mode_t mode)
{
    return opened(AT_FDCWD, path, O_CREAT | O_WRONLY | O_TRUNC, mode);
}

int close(int fd)
{
    REAL(int, close, int);
    if (watched && fd >= 0 && fd < FILES)
        on_of[fd] = 0;
    return real_close(fd);
}

static void same(int from, int to)
{
    if (watched && from >= 0 && from < FILES && to >= 0 && to < FILES)
        on_of[to] = on_of[from];
}

int dup(int fd)
{
    REAL(int, dup, int);
    int made = real_dup(fd);
    same(fd, made);
    return made;
}

int dup2(int fd, int to)
{
    REAL(int, dup2, int, int);
    int made = real_dup2(fd, to);
    same(fd, made);
    return made;
}

int dup3(int fd, int to, int flags)
{
    REAL(int, dup3, int, int, int);
    int made = real_dup3(fd, to, flags);
    same(fd, made);
    return made;
}

static int control(int fd, int command, long rest)
{
    REAL(int, fcntl64, int, int, ...);
    int made = real_fcntl64(fd, command, rest);
    if (command == F_DUPFD || command == F_DUPFD_CLOEXEC)
        same(fd, made);
    return made;
}

#define REST(command)                   \
    va_list list;                       \
    va_start(list, command);            \
    long rest = va_arg(list, long);     \
    va_end(list);

int fcntl(int fd, int command, ...)
{
    REST(command)
    return control(fd, command, rest);
}

int fcntl64(int fd, int command, ...)
{
    REST(command)
    return control(fd, command, rest);
}

/* The number of the file that has the name. */
static uint64_t named(int folder, const char *path)
{
    struct stat told;
    return fstatat(folder, path, &told, AT_SYMLINK_NOFOLLOW) == 0 ? told.st_ino : 0;
}

static int renamed(int from_folder, const char *from, int to_folder, const char *to, unsigned flags)
{
    REAL(int, renameat2, int, const char *, int, const char *, unsigned);
    int on;
    if (!watched)
        return real_renameat2(from_folder, from, to_folder, to, flags);
    on = on_path(from);
    STEP('r', on ? on : 'o', 0, folder_of(to_folder, to), named(from_folder, from),
        real_renameat2(from_folder, from, to_folder, to, flags));
}

int rename(const char *from, const char *to)
{
    return renamed(AT_FDCWD, from, AT_FDCWD, to, 0);
}

int renameat(int from_folder, const char *from, int to_folder, const char *to)
{
    return renamed(from_folder, from, to_folder, to, 0);
}

int renameat2(int from_folder, const char *from, int to_folder, const char *to, unsigned flags)
{
    return renamed(from_folder, from, to_folder, to, flags);
}

static int linked(int from_folder, const char *from, int to_folder, const char *to, int flags)
{
    REAL(int, linkat, int, const char *, int, const char *, int);
    int on;
    if (!watched)
        return real_linkat(from_folder, from, to_folder, to, flags);
    on = on_path(to);
    STEP('n', on ? on : 'o', 0, folder_of(to_folder, to), named(from_folder, from),
        real_linkat(from_folder, from, to_folder, to, flags));
}

int link(const char *from, const char *to)
{
    return linked(AT_FDCWD, from, AT_FDCWD, to, 0);
}

int linkat(int from_folder, const char *from, int to_folder, const char *to, int flags)
{
    return linked(from_folder, from, to_folder, to, flags);
}

static int unlinked(int folder, const char *path, int flags)
{
    REAL(int, unlinkat, int, const char *, int);
    int on;
    if (!watched)
        return real_unlinkat(folder, path, flags);
    on = on_path(path);
    STEP('u', on ? on : 'o', 0, folder_of(folder, path), named(folder, path),
        real_unlinkat(folder, path, flags));
}

int unlink(const char *path)
{
    return unlinked(AT_FDCWD, path, 0);
}

int unlinkat(int folder, const char *path, int flags)
{
    return unlinked(folder, path, flags);
}

int statx(int folder, const char *path, int flags, unsigned mask, struct statx *told)
{
    REAL(int, statx, int, const char *, int, unsigned, struct statx *);
    int on;
    /* Rust asks about no file at all whether the call is there; C's header says that nobody does. */
    const char *volatile asked = path;
    if (!watched || !asked || !*asked || !(on = on_path(asked)))
        return real_statx(folder, path, flags, mask, told);
    STEP('x', on, 0, 0, 0, real_statx(folder, path, flags, mask, told));
}

/* ---- bytes */

static ssize_t moved(int is_write, int fd, const struct iovec *parts, int n, off64_t where, int has_place)
{
    REAL(ssize_t, pwritev64, int, const struct iovec *, int, off64_t);
    REAL(ssize_t, preadv64, int, const struct iovec *, int, off64_t);
    REAL(ssize_t, writev, int, const struct iovec *, int);
    REAL(ssize_t, readv, int, const struct iovec *, int);
    int on = watched ? on_fd(fd) : 0, what = is_write ? 'w' : 'R', k, saved;
    size_t len = 0;
    struct iovec some[64];
    ssize_t done;
    enum turn turn;
    if (watched && is_write && fd == 1 && log_fd >= 0) {
        BEGIN();
        for (k = 0; k < n; k++)
            note('a', 0, 0, 0, 0, 0, parts[k].iov_base, parts[k].iov_len);
        END(real_writev(fd, parts, n));
    }
    if (!on || n > 64) {
        if (has_place)
            return is_write ? real_pwritev64(fd, parts, n, where) : real_preadv64(fd, parts, n, where);
        return is_write ? real_writev(fd, parts, n) : real_readv(fd, parts, n);
    }
    BEGIN();
    turn = turn_of(what, on);
    saved = errno;
    for (k = 0; k < n; k++) {
        some[k] = parts[k];
        len += parts[k].iov_len;
    }
    if (turn == FAIL) {
        note(what, on, 1, (uint64_t)where, 0, number_of(fd), NULL, len);
        errno = saved;
        END(-1);
    }
    if (turn == HALF || turn == TORN || (turn == SHORT && len > 1)) {
        size_t left = len / 2;
        for (k = 0; k < n; k++) {
            if (some[k].iov_len > left)
                some[k].iov_len = left;
            left -= some[k].iov_len;
        }
    }
    if (!has_place)
        where = lseek64(fd, 0, SEEK_CUR);
    if (has_place)
        done = is_write ? real_pwritev64(fd, some, n, where) : real_preadv64(fd, some, n, where);
    else
        done = is_write ? real_writev(fd, some, n) : real_readv(fd, some, n);
    if (is_write || reads) {
        size_t left = done > 0 ? (size_t)done : 0;
        uint64_t place = (uint64_t)where;
        if (done < 0)
            note(what, on, 1, place, 0, number_of(fd), NULL, len);
        for (k = 0; k < n && left > 0; k++) {
            size_t part = some[k].iov_len < left ? some[k].iov_len : left;
            note(what, on, 0, place, 0, number_of(fd), is_write ? some[k].iov_base : NULL, part);
            place += part;
            left -= part;
        }
    }
    if (turn == TORN)
        kill(getpid(), SIGKILL);
    if (turn == HALF) {
        errno = saved;
        END(-1);
    }
    END(done);
}

ssize_t write(int fd, const void *bytes, size_t len)
{
    struct iovec part = { (void *)bytes, len };
    return moved(1, fd, &part, 1, 0, 0);
}

ssize_t __write(int fd, const void *bytes, size_t len)
{
    struct iovec part = { (void *)bytes, len };
    return moved(1, fd, &part, 1, 0, 0);
}

ssize_t writev(int fd, const struct iovec *parts, int n)
{
    return moved(1, fd, parts, n, 0, 0);
}

ssize_t pwrite(int fd, const void *bytes, size_t len, off_t where)
{
    struct iovec part = { (void *)bytes, len };
    return moved(1, fd, &part, 1, where, 1);
}

ssize_t pwrite64(int fd, const void *bytes, size_t len, off64_t where)
{
    struct iovec part = { (void *)bytes, len };
    return moved(1, fd, &part, 1, where, 1);
}

ssize_t pwritev(int fd, const struct iovec *parts, int n, off_t where)
{
    return moved(1, fd, parts, n, where, 1);
}

ssize_t pwritev64(int fd, const struct iovec *parts, int n, off64_t where)
{
    return moved(1, fd, parts, n, where, 1);
}

ssize_t read(int fd, void *bytes, size_t len)
{
    struct iovec part = { bytes, len };
    return moved(0, fd, &part, 1, 0, 0);
}

ssize_t readv(int fd, const struct iovec *parts, int n)
{
    return moved(0, fd, parts, n, 0, 0);
}

ssize_t pread(int fd, void *bytes, size_t len, off_t where)
{
    struct iovec part = { bytes, len };
    return moved(0, fd, &part, 1, where, 1);
}

ssize_t pread64(int fd, void *bytes, size_t len, off64_t where)
{
    struct iovec part = { bytes, len };
    return moved(0, fd, &part, 1, where, 1);
}

/* What writes without passing bytes is told, and a test that meets it fails. */
ssize_t copy_file_range(int from, off64_t *from_at, int to, off64_t *to_at, size_t len, unsigned flags)
{
    REAL(ssize_t, copy_file_range, int, off64_t *, int, off64_t *, size_t, unsigned);
    if (watched && on_fd(to))
        note('?', on_fd(to), 0, 0, 0, number_of(to), NULL, len);
    return real_copy_file_range(from, from_at, to, to_at, len, flags);
}

ssize_t sendfile64(int to, int from, off64_t *from_at, size_t len)
{
    REAL(ssize_t, sendfile64, int, int, off64_t *, size_t);
    if (watched && on_fd(to))
        note('?', on_fd(to), 0, 0, 0, number_of(to), NULL, len);
    return real_sendfile64(to, from, from_at, len);
}

int ftruncate64(int fd, off64_t len)
{
    REAL(int, ftruncate64, int, off64_t);
    int on = watched ? on_fd(fd) : 0;
    if (!on)
        return real_ftruncate64(fd, len);
    STEP('t', on, (uint64_t)len, 0, number_of(fd), real_ftruncate64(fd, len));
}

int ftruncate(int fd, off_t len)
{
    return ftruncate64(fd, len);
}

int fallocate64(int fd, int mode, off64_t where, off64_t len)
{
    REAL(int, fallocate64, int, int, off64_t, off64_t);
    if (watched && on_fd(fd))
        note('?', on_fd(fd), 0, (uint64_t)where, 0, number_of(fd), NULL, (size_t)len);
    return real_fallocate64(fd, mode, where, len);
}

int fallocate(int fd, int mode, off_t where, off_t len)
{
    return fallocate64(fd, mode, where, len);
}

/* ---- the disk */

static int synced(int fd, int (*call)(int))
{
    int on = watched ? on_fd(fd) : 0;
    if (!on)
        return call(fd);
    STEP(on == 'f' ? 'f' : 's', on, 0, on == 'f' ? number_of(fd) : 0, number_of(fd), call(fd));
}

int fsync(int fd)
{
    REAL(int, fsync, int);
    return synced(fd, real_fsync);
}

int fdatasync(int fd)
{
    REAL(int, fdatasync, int);
    return synced(fd, real_fdatasync);
}

int flock(int fd, int how)
{
    REAL(int, flock, int, int);
    int on = watched ? on_fd(fd) : 0;
    if (!on)
        return real_flock(fd, how);
    STEP('l', on, 0, 0, number_of(fd), real_flock(fd, how));
}

int fchmod(int fd, mode_t mode)
{
    REAL(int, fchmod, int, mode_t);
    int on = watched ? on_fd(fd) : 0;
    if (!on)
        return real_fchmod(fd, mode);
    STEP('m', on, 0, 0, number_of(fd), real_fchmod(fd, mode));
}

int fchown(int fd, uid_t user, gid_t group)
{
    REAL(int, fchown, int, uid_t, gid_t);
    int on = watched ? on_fd(fd) : 0;
    if (!on)
        return real_fchown(fd, user, group);
    STEP('m', on, 0, 0, number_of(fd), real_fchown(fd, user, group));
}
