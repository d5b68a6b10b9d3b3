#include "bytes.h"

#include <errno.h>
#include <fcntl.h>
#include <poll.h>
#include <string.h>
#include <unistd.h>

#include "say.h"

static bool is_written;

bool is_standard(const char *file)
{
    return file == NULL || strcmp(file, "-") == 0;
}

const char *name_of(const char *file)
{
    return is_standard(file) ? "standard input" : file;
}

int open_input(const char *file)
{
    int descriptor;

    if (is_standard(file)) {
        return STDIN_FILENO;
    }
    descriptor = open(file, O_RDONLY | O_CLOEXEC);
    if (descriptor == -1) {
        give_up_errno(file);
    }
    return descriptor;
}

void close_input(int descriptor)
{
    if (descriptor != STDIN_FILENO) {
        close(descriptor);
    }
}

/* After a call that failed: whether to try again, after a wait where the descriptor is one that does not wait. */
static bool try_again(int descriptor, short event)
{
    struct pollfd wait = {descriptor, event, 0};

    if (errno == EAGAIN) {
        return poll(&wait, 1, -1) != -1 || errno == EINTR;
    }
    return errno == EINTR;
}

size_t read_some(int descriptor, const char *name, void *bytes, size_t room)
{
    for (;;) {
        ssize_t got = read(descriptor, bytes, room);

        if (got >= 0) {
            return (size_t)got;
        }
        if (!try_again(descriptor, POLLIN)) {
            give_up_errno(name);
        }
    }
}

size_t read_all(int descriptor, const char *name, void *bytes, size_t room)
{
    size_t done = 0;

    while (done < room) {
        size_t got = read_some(descriptor, name, (char *)bytes + done, room - done);

        if (got == 0) {
            break;
        }
        done += got;
    }
    return done;
}

void write_all(const void *bytes, size_t length)
{
    size_t done = 0;

    while (done < length) {
        ssize_t put = write(STDOUT_FILENO, (const char *)bytes + done, length - done);

        if (put >= 0) {
            done += (size_t)put;
        } else if (!try_again(STDOUT_FILENO, POLLOUT)) {
            give_up_errno("standard output");
        }
    }
    is_written = is_written || length > 0;
}

void close_output(void)
{
    if (is_written && close(STDOUT_FILENO) == -1) {
        give_up_errno("standard output");
    }
}

void hold_standard_descriptors(void)
{
    int descriptor;

    for (descriptor = STDIN_FILENO; descriptor <= STDERR_FILENO; descriptor++) {
        if (fcntl(descriptor, F_GETFD) == -1
            && open("/dev/null", descriptor == STDIN_FILENO ? O_WRONLY : O_RDONLY) != descriptor) {
            give_up_errno("/dev/null");
        }
    }
}
