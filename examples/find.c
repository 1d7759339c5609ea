/* Looks names up in a book: find BOOK NAME...

   A line a name: the numbers of its entry, or that it is absent, with the chunks that were opened on the way and how many comparisons it took; or why it was refused.
   The exit status is 0 if every name was found, 1 if not, 2 if there is no book. */
#define _POSIX_C_SOURCE 200809L

#include <string.h>

#include "common.h"

/* Where in a record the numbers stand that are used here. */
enum { COUNT = 4, DEPTH = 6, CONTENT = 10 };

/* Where in the answer of a lookup its two counts stand, found or absent. */
enum { CHUNKS = 0, COMPARISONS = 6 };

/* One name; true if it was found. */
static int find(const uint8_t *book, size_t len, const uint64_t record[HODS_RECORD], const char *name) {
    uint32_t trail[5];
    uint64_t entry[HODS_LOOKUP];
    uint64_t answer = hods_lookup(book, len, record, (const uint8_t *)name, strlen(name), trail, 5, entry);
    if (answer != 0 && answer != 255) {
        refused(name, answer);
        return 0;
    }
    if (answer == 255) {
        printf("%s: absent", name);
    } else {
        uint64_t section = entry[3], offset = entry[4], length = entry[5];
        /* the name as the book has it may differ in case from the one asked for */
        printf("%s: ", name);
        fwrite(book + entry[1], 1, (size_t)entry[2], stdout);
        printf(" at %" PRIu64 ", section %" PRIu64 ", offset %" PRIu64 ", length %" PRIu64, entry[1], section, offset, length);
        /* section 0 is not compressed: its bytes can be used where they are */
        if (section == 0 && length > 0 && hods_part(book, len, record[CONTENT] + offset, length) == length)
            printf(", bytes at %" PRIu64, record[CONTENT] + offset);
    }
    printf(", chunks");
    for (uint64_t i = 0; i < entry[CHUNKS]; i++) printf(" %" PRIu32, trail[i]);
    printf(", %" PRIu64 " comparison%s\n", entry[COMPARISONS], entry[COMPARISONS] == 1 ? "" : "s");
    return answer == 0;
}

int main(int argc, char **argv) {
    if (argc < 2) {
        fprintf(stderr, "usage: find BOOK NAME...\n");
        return 2;
    }
    size_t len;
    const uint8_t *book = map(argv[1], &len);
    if (!book) {
        perror(argv[1]);
        return 2;
    }
    /* Opening checks the whole directory once; from then on, with this record, no good name is refused. */
    uint64_t record[HODS_RECORD];
    uint64_t answer = hods_open(book, len, record);
    if (answer != 0) {
        refused(argv[1], answer);
        unmap(book, len);
        return 2;
    }
    printf("%s: a book of %" PRIu64 " chunks, depth %" PRIu64 "\n", argv[1], record[COUNT], record[DEPTH]);
    int status = 0;
    for (int i = 2; i < argc; i++)
        if (!find(book, len, record, argv[i])) status = 1;
    unmap(book, len);
    return status;
}
