/* What the examples do with files, each of them whole. It comes before any other header, since it asks for POSIX. */
#ifndef FILES_H
#define FILES_H

#ifndef _POSIX_C_SOURCE
#define _POSIX_C_SOURCE 200809L /* for mmap and fdopen */
#endif
#include <errno.h>
#include <fcntl.h>
#include <stddef.h>
#include <stdint.h>
#include <stdio.h>
#include <sys/mman.h>
#include <sys/stat.h>
#include <unistd.h>

/* The bytes of an open file. What is written to them stays with this program. */
static inline uint8_t *mapped(int file, size_t *length) {
    static uint8_t nothing[1]; /* an empty file cannot be mapped */
    struct stat status;
    if (fstat(file, &status) != 0)
        return NULL;
    if (!S_ISREG(status.st_mode)) {
        errno = S_ISDIR(status.st_mode) ? EISDIR : ENOTSUP; /* a pipe has no length to map */
        return NULL;
    }
    *length = (size_t)status.st_size;
    if (*length == 0)
        return nothing;
    void *bytes = mmap(NULL, *length, PROT_READ | PROT_WRITE, MAP_PRIVATE, file, 0);
    return bytes == MAP_FAILED ? NULL : (uint8_t *)bytes;
}

/* The bytes of a file, by its name; or NULL, and errno says why. */
static inline uint8_t *read_whole(const char *name, size_t *length) {
    int file = open(name, O_RDONLY);
    if (file < 0)
        return NULL;
    uint8_t *bytes = mapped(file, length);
    int why = errno;
    close(file); /* what is mapped stays */
    errno = why;
    return bytes;
}

/* A new file to be written to; or NULL, and errno says why. No file is written over. */
static inline FILE *make_new(const char *name) {
    int made = open(name, O_WRONLY | O_CREAT | O_EXCL, 0666);
    return made < 0 ? NULL : fdopen(made, "wb");
}

#endif
