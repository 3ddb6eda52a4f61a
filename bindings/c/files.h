/* Files read and written whole. What goes wrong is said on standard error and ends the program with status 2. */
#ifndef FILES_H
#define FILES_H

#include <stddef.h>
#include <stdint.h>

struct bytes {
    uint8_t *at;
    size_t length;
};

/* The one argument of a program that takes one, the name of a file. */
const char *only_argument(int argc, char **argv);

/* A file of any length. */
struct bytes read_file(const char *path);

void write_file(const char *path, const uint8_t *bytes, size_t length);

/* Has standard output written out, before a program ends. */
void finish_output(void);

#endif
