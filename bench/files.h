/* For the benchmarks: the files that they are given. */
#include <stdint.h>
#include <stdio.h>
#include <string.h>

/* How many bytes of a file were put into the buffer; -1, and a message, where it can't be opened. */
static long bytes_of(const char *path, uint8_t *buffer, size_t room)
{
    FILE *file = fopen(path, "rb");
    if (file == NULL) {
        perror(path);
        return -1;
    }
    size_t length = fread(buffer, 1, room, file);
    fclose(file);
    return (long)length;
}

/* A file's name without its folder. */
static const char *name_of(const char *path)
{
    const char *slash = strrchr(path, '/');
    return slash ? slash + 1 : path;
}
