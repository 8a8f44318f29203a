#define _XOPEN_SOURCE 700

#include "output.h"

#include <errno.h>
#include <fcntl.h>
#include <stdio.h>
#include <stdlib.h>
#include <string.h>
#include <sys/ioctl.h>
#include <sys/stat.h>
#include <unistd.h>

#include "bytes.h"
#include "input.h"
#include "say.h"

static bool names_standard(const char *path)
{
    return path == NULL || strcmp(path, "-") == 0;
}

/* Writes to a stream that is open, and closes it or, for standard output, flushes it. */
static bool put(FILE *file, const void *data, size_t len)
{
    bool good = fwrite(data, 1, len, file) == len;
    good = (file == stdout ? fflush(file) : fclose(file)) == 0 && good;
    return good;
}

/* The rights that a new file gets. */
static mode_t usual_mode(void)
{
    mode_t mask = umask(0);
    umask(mask);
    return 0666 & ~mask;
}

/* Writes to a temporary name in the same folder, then takes the file's name in one step. */
static bool replace(const char *path, mode_t mode, const void *data, size_t len)
{
    struct bytes name = bytes_new();
    bool good = false;
    int handle;
    bytes_addf(&name, "%s.XXXXXX", path);
    handle = mkstemp((char *)name.at);
    if (handle >= 0) {
        FILE *file = fchmod(handle, mode) == 0 ? fdopen(handle, "wb") : NULL;
        if (file == NULL)
            close(handle);
        good = file != NULL && put(file, data, len) && rename((char *)name.at, path) == 0;
        if (!good) {
            int reason = errno;
            unlink((char *)name.at);
            errno = reason;
        }
    }
    bytes_free(&name);
    return good;
}

/* Why a regular file that is there is left alone, or null; for the superuser too, whom no rights stop. */
static const char *why_left(const char *path, const struct stat *there)
{
    if (input_was(there->st_dev, there->st_ino))
        return "it is one of the inputs, which would be lost; give another name";
    if ((there->st_mode & 0222) == 0)
        return "it is there and is read-only; give another name, or make it writable";
    return access(path, W_OK) == 0 ? NULL : strerror(errno);
}

/* A file that is there keeps its rights and is found through links; a device or pipe is written as it is. */
static const char *write_file(const char *path, const void *data, size_t len)
{
    const char *reason;
    struct stat there;
    char *real;
    bool good;
    if (stat(path, &there) != 0 && lstat(path, &there) == 0)
        return "it is a link that leads nowhere; give another name";
    if (stat(path, &there) != 0)
        return replace(path, usual_mode(), data, len) ? NULL : strerror(errno);
    if (!S_ISREG(there.st_mode)) {
        FILE *file = fopen(path, "wb");
        return file != NULL && put(file, data, len) ? NULL : strerror(errno);
    }
    reason = why_left(path, &there);
    if (reason != NULL)
        return reason;
    real = realpath(path, NULL);
    good = real != NULL && replace(real, there.st_mode & 0777, data, len);
    reason = good ? NULL : strerror(errno);
    free(real);
    return reason;
}

bool output_write(const char *path, const void *data, size_t len)
{
    const char *reason;
    errno = 0;
    if (names_standard(path))
        reason = put(stdout, data, len) ? NULL : strerror(errno);
    else
        reason = write_file(path, data, len);
    if (reason != NULL)
        say("%s: %s", names_standard(path) ? "standard output" : path, reason);
    return reason == NULL;
}

/* Whether an output is a terminal, under whichever name. */
static bool is_terminal(const char *path)
{
    struct stat there;
    int handle;
    bool terminal;
    if (names_standard(path))
        return isatty(STDOUT_FILENO);
    if (stat(path, &there) != 0 || !S_ISCHR(there.st_mode))
        return false;
    handle = open(path, O_WRONLY | O_NOCTTY | O_NONBLOCK);
    terminal = handle >= 0 && isatty(handle);
    if (handle >= 0)
        close(handle);
    return terminal;
}

bool output_bytes(const char *path, const void *data, size_t len)
{
    if (is_terminal(path)) {
        say("%s is a terminal, and these are bytes, not text; send them to a file or on to a program",
            names_standard(path) ? "standard output" : path);
        return false;
    }
    return output_write(path, data, len);
}

bool output_is_standard(const char *path)
{
    struct stat there, out;
    if (strcmp(path, "-") == 0)
        return true;
    if (stat(path, &there) != 0 || fstat(STDOUT_FILENO, &out) != 0 || there.st_dev != out.st_dev
        || there.st_ino != out.st_ino)
        return false;
    return !S_ISCHR(out.st_mode) || isatty(STDOUT_FILENO);
}

unsigned output_width(void)
{
    enum { USUAL = 96, LEAST = 40, MOST = 400 };
    const char *columns = getenv("COLUMNS");
    struct winsize size;
    uint32_t width = USUAL;
    if (isatty(STDOUT_FILENO) && ioctl(STDOUT_FILENO, TIOCGWINSZ, &size) == 0 && size.ws_col > 0)
        width = size.ws_col;
    else if (columns == NULL || !number_of(span_of(columns), &width))
        width = USUAL;
    return width < LEAST ? LEAST : width > MOST ? MOST : width;
}
