/* What the examples share: the bytes of a file, and refusals in words. */
#ifndef COMMON_H
#define COMMON_H

#include <fcntl.h>
#include <inttypes.h>
#include <stdio.h>
#include <sys/mman.h>
#include <sys/stat.h>
#include <unistd.h>

#include "hodsplinter.h"

/* The refusals of docs/FORMAT.md that opening, lookup, a batch and a comparison give. */
static const char *const why[] = {
    "", "the file has fewer than 96 bytes", "no ITSF file: its tag or one of its GUIDs differs", "the version or the length of the file header",
    "the place or the length of a section, or the content start", "the file is not as long as it says",
    "no directory header: its tag, version, length or GUID differs", "a number of the directory header", "no tag of a chunk",
    "the number of entries or the length of the tail", "an entry, or the entries do not fill their space", "a quick word", "the names do not rise",
    "the chain of the listing chunks", "the tree of the index chunks", "a name has 1 to 1,024 bytes", "the trail needs 5 places",
    "the record does not fit the bytes", [22] = "a name is cut off, its length is no ENCINT, or there is too little room for the answers"};

/* A refusal is its number and 256 times its place, a chunk for 8 to 12. */
static void refused(const char *what, uint64_t answer) {
    unsigned number = (unsigned)(answer & 255);
    printf("%s: refused, %u", what, number);
    if (number >= 8 && number <= 12) printf(" at chunk %" PRIu64, answer >> 8);
    printf(": %s\n", number < sizeof why / sizeof *why && why[number] ? why[number] : "?");
}

/* The bytes of a file, mapped: only the pages that are read come into memory. They must not change while the library is at work. */
static const uint8_t *map(const char *path, size_t *len) {
    static const uint8_t none[1];
    struct stat about;
    const void *bytes = MAP_FAILED;
    int f = open(path, O_RDONLY);
    if (f < 0) return NULL;
    if (fstat(f, &about) == 0) {
        *len = (size_t)about.st_size;
        /* nothing can be mapped of an empty file; the library wants a pointer all the same */
        bytes = *len ? mmap(NULL, *len, PROT_READ, MAP_PRIVATE, f, 0) : none;
    }
    close(f);
    return bytes == MAP_FAILED ? NULL : bytes;
}

static void unmap(const uint8_t *bytes, size_t len) {
    if (len) munmap((void *)bytes, len);
}

#endif
