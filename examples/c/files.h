/* files.h: reads whole files, for the examples. */
#ifndef FILES_H
#define FILES_H

#include <stdint.h>
#include <stdio.h>
#include <stdlib.h>

/* Returns the bytes of a file and writes their number, or ends the program. The bytes are to be freed. */
static uint8_t *read_file(const char *path, size_t *length) {
    FILE *file = fopen(path, "rb");
    size_t capacity = 4096, used = 0;
    uint8_t *bytes = malloc(capacity);
    if (file == NULL) {
        perror(path);
        exit(4);
    }
    while (bytes != NULL) {
        used += fread(bytes + used, 1, capacity - used, file);
        if (used < capacity) {
            break;
        }
        capacity *= 2;
        uint8_t *more = realloc(bytes, capacity);
        if (more == NULL) {
            free(bytes);
        }
        bytes = more;
    }
    if (bytes == NULL) {
        fprintf(stderr, "%s: out of memory\n", path);
        exit(5);
    }
    if (ferror(file)) {
        perror(path);
        exit(4);
    }
    fclose(file);
    *length = used;
    return bytes;
}

#endif
