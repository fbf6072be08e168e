/* Copies COUNT records of SIZE bytes from a file to another one: a read and a write for each record. */
#include <fcntl.h>
#include <stdio.h>
#include <stdlib.h>
#include <unistd.h>

static int stop(const char *what)
{
    perror(what);
    return 1;
}

int main(int argc, char **argv)
{
    if (argc != 5) {
        fputs("usage: loop INPUT OUTPUT SIZE COUNT\n", stderr);
        return 1;
    }
    size_t size = strtoul(argv[3], NULL, 10);
    unsigned long count = strtoul(argv[4], NULL, 10);
    char *record = malloc(size);
    int input = open(argv[1], O_RDONLY);
    int output = open(argv[2], O_WRONLY | O_CREAT | O_TRUNC, 0666);
    if (record == NULL || input < 0 || output < 0)
        return stop("loop");
    for (; count > 0; count--) {
        for (size_t at = 0; at < size;) {
            ssize_t n = read(input, record + at, size - at);
            if (n <= 0)
                return stop("read");
            at += n;
        }
        for (size_t at = 0; at < size;) {
            ssize_t n = write(output, record + at, size - at);
            if (n <= 0)
                return stop("write");
            at += n;
        }
    }
    return close(output) == 0 ? 0 : stop("close");
}
