/* Stands in front of the C library's read, write and fsync, and fails as EDGES_SHIM says: in one way, or, where a read or a
 * write breaks behind so many bytes, at the fsync too. Only the standard streams and what is stored are touched. */
#include <errno.h>
#include <stdio.h>
#include <stdlib.h>
#include <string.h>
#include <sys/syscall.h>
#include <unistd.h>

/* What went through one of the three, and how it is asked that it breaks behind so many bytes, or NULL. */
struct stream {
    size_t calls;
    size_t moved;
    const char *broken;
};

static struct stream input = {.broken = "read %zu"};
static struct stream output = {.broken = "write %zu"};
static struct stream messages = {.broken = NULL};

static int asked(const char *failure)
{
    const char *words = getenv("EDGES_SHIM");
    return words != NULL && strstr(words, failure) != NULL;
}

/* Whether a stream is to break, and behind how many bytes. */
static int breaks(const struct stream *stream, size_t *whole)
{
    const char *words = getenv("EDGES_SHIM");
    return words != NULL && stream->broken != NULL && sscanf(words, stream->broken, whole) == 1;
}

static size_t least(size_t a, size_t b)
{
    return a < b ? a : b;
}

/* The error that a call fails with; or 0, and then the count is what the call may move. */
static int hindered(struct stream *stream, size_t *count)
{
    size_t whole;
    if (asked("hostile")) {
        *count = least(*count, 7);
        return stream->calls++ % 2 == 0 ? EINTR : 0;
    }
    if (asked("single"))
        *count = least(*count, 1);
    if (breaks(stream, &whole)) {
        *count = least(*count, whole - stream->moved);
        return stream->moved == whole ? EIO : 0;
    }
    return 0;
}

/* One call of the kernel, by its number. */
static ssize_t move(struct stream *stream, long call, int file, void *bytes, size_t count)
{
    int error = hindered(stream, &count);
    if (error != 0) {
        errno = error;
        return -1;
    }
    ssize_t moved = syscall(call, file, bytes, count);
    stream->moved += moved > 0 ? (size_t)moved : 0;
    return moved;
}

ssize_t read(int file, void *bytes, size_t count)
{
    return file == STDIN_FILENO ? move(&input, SYS_read, file, bytes, count)
                                : syscall(SYS_read, file, bytes, count);
}

ssize_t write(int file, const void *bytes, size_t count)
{
    if (file == STDOUT_FILENO)
        return move(&output, SYS_write, file, (void *)bytes, count);
    if (file == STDERR_FILENO)
        return move(&messages, SYS_write, file, (void *)bytes, count);
    return syscall(SYS_write, file, bytes, count);
}

/* A network file system may tell only when it stores a file that bytes were lost. */
int fsync(int file)
{
    if (asked("fsync")) {
        errno = EIO;
        return -1;
    }
    return (int)syscall(SYS_fsync, file);
}
