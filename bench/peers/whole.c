/* Reads a file as standard input, whole, into memory that it allocates once, and writes it to standard output: the least that a filter
 * can do which judges a block before it writes any of it. */
#include <stdlib.h>
#include <sys/stat.h>
#include <unistd.h>

int main(void)
{
    struct stat found;
    if (fstat(STDIN_FILENO, &found) != 0)
        return 1;
    size_t length = (size_t)found.st_size, at = 0;
    char *bytes = malloc(length + 1);
    if (bytes == NULL)
        return 1;
    ssize_t count;
    while (at < length && (count = read(STDIN_FILENO, bytes + at, length - at)) > 0)
        at += (size_t)count;
    size_t written = 0;
    while (written < at && (count = write(STDOUT_FILENO, bytes + written, at - written)) > 0)
        written += (size_t)count;
    return written == length ? 0 : 1;
}
