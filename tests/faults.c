/* Refuses memory, and lets reads and writes fail, in a program that runs with this library in LD_PRELOAD. tests/faults.py builds
   and uses it.

   FAULTS in the environment is "SORT N FD". The first time that a fault is met, a byte goes to the open file FD. SORT is
     memory       request N for memory is refused
     memory-from  request N and all behind it are refused
     read-E       read N fails, where E is EIO or EINTR
     write-E      write N fails, where E is EIO, EINTR or ENOSPC
     short        each read and write moves at most N bytes
     sync-E       from sync N on all fail, where E is EIO, ENOSPC, EDQUOT or EINVAL
     close-E      close N fails, when the file is closed
     link-E       each link fails, as on a file system that has none
     made         new file N is there already, since another run has made it right before
     log          a letter for each call goes to FD: f and d for a sync of a file and of a folder, l, r and u for link, rename and unlink,
                  p for what is printed on standard output
     slow         each link, rename and unlink waits for up to N milliseconds, before and after it
   Reads of files 0 to 2 and writes to file 2 are let alone. */

#define _GNU_SOURCE
#include <errno.h>
#include <fcntl.h>
#include <stdarg.h>
#include <stdio.h>
#include <stdlib.h>
#include <string.h>
#include <sys/stat.h>
#include <sys/syscall.h>
#include <sys/types.h>
#include <sys/uio.h>
#include <time.h>
#include <unistd.h>

void *__libc_malloc(size_t);
void *__libc_calloc(size_t, size_t);
void *__libc_realloc(void *, size_t);
void *__libc_memalign(size_t, size_t);

static char sort[32] = "";
static unsigned long number, requests, reads, writes, syncs, closes, news;
static int seen_file = -1, is_memory, is_from, is_short, is_slow, is_log, is_made, read_error, write_error, sync_error, close_error, link_error;

static int error_of(const char *name) {
  if (strcmp(name, "EIO") == 0) return EIO;
  if (strcmp(name, "EINTR") == 0) return EINTR;
  if (strcmp(name, "EINVAL") == 0) return EINVAL;
  if (strcmp(name, "EDQUOT") == 0) return EDQUOT;
  if (strcmp(name, "EPERM") == 0) return EPERM;
  return ENOSPC;
}

/* The error that the sort names behind these letters, or none. */
static int error_behind(const char *start) {
  size_t length = strlen(start);
  return strncmp(sort, start, length) == 0 ? error_of(sort + length) : 0;
}

__attribute__((constructor)) static void begin(void) {
  const char *words = getenv("FAULTS");
  if (words == NULL || sscanf(words, "%31s %lu %d", sort, &number, &seen_file) != 3) return;
  is_from = strcmp(sort, "memory-from") == 0;
  is_short = strcmp(sort, "short") == 0;
  is_slow = strcmp(sort, "slow") == 0;
  is_log = strcmp(sort, "log") == 0;
  is_made = strcmp(sort, "made") == 0;
  read_error = error_behind("read-");
  write_error = error_behind("write-");
  sync_error = error_behind("sync-");
  close_error = error_behind("close-");
  link_error = error_behind("link-");
  is_memory = is_from || strcmp(sort, "memory") == 0;
}

static void see(void) {
  if (seen_file >= 0) syscall(SYS_write, seen_file, "x", 1);
  seen_file = -1;
}

/* Notes a call. */
static void note(const char *letter) {
  if (is_log) syscall(SYS_write, seen_file, letter, 1);
}

/* Whether this request for memory is to be refused. */
static int refused(void) {
  if (!is_memory) return 0;
  requests++;
  if (requests != number && !(is_from && requests > number)) return 0;
  see();
  errno = ENOMEM;
  return 1;
}

void *malloc(size_t size) { return refused() ? NULL : __libc_malloc(size); }

void *calloc(size_t count, size_t size) { return refused() ? NULL : __libc_calloc(count, size); }

void *realloc(void *old, size_t size) { return refused() ? NULL : __libc_realloc(old, size); }

void *aligned_alloc(size_t align, size_t size) { return refused() ? NULL : __libc_memalign(align, size); }

void *memalign(size_t align, size_t size) { return refused() ? NULL : __libc_memalign(align, size); }

int posix_memalign(void **place, size_t align, size_t size) {
  if (refused()) return ENOMEM;
  void *found = __libc_memalign(align, size);
  if (found == NULL) return ENOMEM;
  *place = found;
  return 0;
}

/* Whether this call is the one that fails. */
static int fails(int error, unsigned long *calls) {
  if (error == 0 || ++*calls != number) return 0;
  see();
  errno = error;
  return 1;
}

static size_t moved(size_t length) {
  if (!is_short || length <= number) return length;
  see();
  return number;
}

ssize_t read(int file, void *to, size_t length) {
  if (file < 3) return syscall(SYS_read, file, to, length);
  return fails(read_error, &reads) ? -1 : syscall(SYS_read, file, to, moved(length));
}

ssize_t pread(int file, void *to, size_t length, off_t at) {
  return fails(read_error, &reads) ? -1 : syscall(SYS_pread64, file, to, moved(length), at);
}

ssize_t readv(int file, const struct iovec *parts, int count) {
  if (file >= 3 && fails(read_error, &reads)) return -1;
  if (is_short && count > 0) return syscall(SYS_read, file, parts[0].iov_base, moved(parts[0].iov_len));
  return syscall(SYS_readv, file, parts, count);
}

ssize_t write(int file, const void *from, size_t length) {
  if (file == 2) return syscall(SYS_write, file, from, length);
  if (file == 1) note("p");
  return fails(write_error, &writes) ? -1 : syscall(SYS_write, file, from, moved(length));
}

ssize_t __write(int file, const void *from, size_t length) { return write(file, from, length); }

ssize_t writev(int file, const struct iovec *parts, int count) {
  if (file != 2 && fails(write_error, &writes)) return -1;
  if (is_short && file != 2 && count > 0) return syscall(SYS_write, file, parts[0].iov_base, moved(parts[0].iov_len));
  return syscall(SYS_writev, file, parts, count);
}

int open(const char *path, int flags, ...) {
  va_list rest;
  va_start(rest, flags);
  mode_t mode = flags & O_CREAT ? va_arg(rest, mode_t) : 0;
  va_end(rest);
  if (is_made && (flags & O_EXCL) && ++news == number) {
    see();
    syscall(SYS_close, syscall(SYS_openat, AT_FDCWD, path, O_WRONLY | O_CREAT, 0644));
  }
  return syscall(SYS_openat, AT_FDCWD, path, flags, mode);
}

int fsync(int file) {
  struct stat seen;
  note(fstat(file, &seen) == 0 && S_ISDIR(seen.st_mode) ? "d" : "f");
  if (sync_error == 0 || ++syncs < number) return syscall(SYS_fsync, file);
  see();
  errno = sync_error;
  return -1;
}

int close(int file) {
  int closed = syscall(SYS_close, file);
  if (close_error == 0 || ++closes != number) return closed;
  see();
  errno = close_error;
  return -1;
}

/* Waits for a time that hangs on the process and on the clock. */
static void wait_some(void) {
  if (!is_slow) return;
  see();
  struct timespec now;
  clock_gettime(CLOCK_MONOTONIC, &now);
  unsigned long span = ((unsigned long)now.tv_nsec / 1000 * 7919 + (unsigned long)getpid() * 104729) % (number * 1000 + 1);
  struct timespec wait = {0, (long)span * 1000};
  nanosleep(&wait, NULL);
}

/* What a call answers, with a wait before it and one after it. */
#define SLOWLY(call)     \
  wait_some();           \
  int done = (call);     \
  int error = errno;     \
  wait_some();           \
  errno = error;         \
  return done

int link(const char *from, const char *to) {
  note("l");
  if (link_error != 0) {
    see();
    errno = link_error;
    return -1;
  }
  SLOWLY((int)syscall(SYS_linkat, AT_FDCWD, from, AT_FDCWD, to, 0));
}

int rename(const char *from, const char *to) {
  note("r");
  SLOWLY((int)syscall(SYS_renameat2, AT_FDCWD, from, AT_FDCWD, to, 0));
}

int unlink(const char *path) {
  note("u");
  SLOWLY((int)syscall(SYS_unlinkat, AT_FDCWD, path, 0));
}
