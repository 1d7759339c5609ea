/* Two issues of a book side by side: compare BOOK OTHER

   A line is printed for each difference, in the order of the names: - and a name that is only in the first book, + and one that is only in the second, ~ and one
   that is in both with another section, offset or length, as the first book has it. The last line has the totals. The exit status is 0 if there is no
   difference, 1 if there is one, 2 if there is no answer. */
#define _POSIX_C_SOURCE 200809L

#include "common.h"

/* The kinds of a difference, and where in it the two entries stand, the place of the name first and its length next. */
enum { ONLY_FIRST = 1, ONLY_SECOND = 2, CHANGED = 3, FIRST = 1, SECOND = 8 };

/* A book that was opened. */
struct book {
    const char *path;
    const uint8_t *bytes;
    size_t len;
    uint64_t record[HODS_RECORD];
};

/* Maps and opens a book; false, and said why, if there is none. */
static int open_book(struct book *book, const char *path) {
    book->path = path;
    book->bytes = map(path, &book->len);
    if (!book->bytes) {
        perror(path);
        return 0;
    }
    uint64_t answer = hods_open(book->bytes, book->len, book->record);
    if (answer == 0) return 1;
    refused(path, answer);
    unmap(book->bytes, book->len);
    return 0;
}

/* One difference: its sign and the name as stored. */
static void tell(const struct book *one, const struct book *two, const uint64_t difference[15]) {
    static const char signs[] = {[ONLY_FIRST] = '-', [ONLY_SECOND] = '+', [CHANGED] = '~'};
    int second = difference[0] == ONLY_SECOND;
    const uint64_t *entry = difference + (second ? SECOND : FIRST);
    printf("%c ", signs[difference[0]]);
    fwrite((second ? two : one)->bytes + entry[0], 1, (size_t)entry[1], stdout);
    printf("\n");
}

/* Goes over both books and tells the differences, then the totals; the exit status. */
static int compare(const struct book *one, const struct book *two) {
    uint64_t cursor[14], difference[15], totals[4], answer;
    int status = 0;
    hods_compare_start(one->record, two->record, cursor);
    while ((answer = hods_compare_step(one->bytes, one->len, one->record, two->bytes, two->len, two->record, cursor, difference, totals)) == 0) {
        tell(one, two, difference);
        status = 1;
    }
    /* books that open are not refused, unless their bytes changed since; above the refusal stands which of them it is */
    if (answer != 255) {
        refused(answer >> 40 == 1 ? one->path : two->path, answer);
        return 2;
    }
    printf("%" PRIu64 " only in the first, %" PRIu64 " only in the second, %" PRIu64 " the same, %" PRIu64 " changed\n", totals[0], totals[1], totals[2], totals[3]);
    return status;
}

int main(int argc, char **argv) {
    if (argc != 3) {
        fprintf(stderr, "usage: compare BOOK OTHER\n");
        return 2;
    }
    struct book one, two;
    int status = 2;
    if (!open_book(&one, argv[1])) return status;
    if (open_book(&two, argv[2])) {
        status = compare(&one, &two);
        unmap(two.bytes, two.len);
    }
    unmap(one.bytes, one.len);
    /* differences that nobody got are none */
    if (fflush(stdout) != 0) {
        perror("standard output");
        status = 2;
    }
    return status;
}
