#include "files.h"

#include <errno.h>
#include <stdio.h>
#include <stdlib.h>
#include <string.h>

enum { CANNOT = 2, FIRST_ROOM = 65536 };

static void fail(const char *path, const char *what)
{
    fprintf(stderr, "%s %s: %s\n", path, what, strerror(errno));
    exit(CANNOT);
}

const char *only_argument(int argc, char **argv)
{
    if (argc != 2) {
        fprintf(stderr, "usage: %s FILE\n", argv[0]);
        exit(CANNOT);
    }
    return argv[1];
}

struct bytes read_file(const char *path)
{
    struct bytes file = {NULL, 0};
    size_t room = 0;
    FILE *stream = fopen(path, "rb");
    if (stream == NULL) fail(path, "cannot be read");
    do {
        if (file.length == room) {
            room = room == 0 ? FIRST_ROOM : 2 * room;
            file.at = realloc(file.at, room);
            if (file.at == NULL) fail(path, "cannot be held in memory");
        }
        file.length += fread(file.at + file.length, 1, room - file.length, stream);
        if (ferror(stream)) fail(path, "cannot be read");
    } while (!feof(stream));
    fclose(stream);
    return file;
}

void write_file(const char *path, const uint8_t *bytes, size_t length)
{
    FILE *stream = fopen(path, "wb");
    if (stream == NULL) fail(path, "cannot be written");
    if (fwrite(bytes, 1, length, stream) != length) fail(path, "cannot be written");
    if (fclose(stream) != 0) fail(path, "cannot be written");
}

void finish_output(void)
{
    if (fflush(stdout) != 0 || ferror(stdout)) fail("standard output", "cannot be written");
}
