/* Looks a day's names up in a book, all in one call: batch BOOK NAMES

   NAMES is a file with a name a line; a line ends with LF or CR LF, the last one also with the file. A line is printed for each name, in their order: the
   numbers of its entry, or that it is absent, or why it was refused. The exit status is 0 if every name was found, 1 if not, 2 if there are no answers. */
#define _POSIX_C_SOURCE 200809L

#include <stdlib.h>
#include <string.h>
#include <sys/types.h>

#include "common.h"

/* The bytes of an answer, and where in it the four numbers stand. */
enum { ANSWER = 32, STATUS = 0, SECTION = 8, OFFSET = 16, LENGTH = 24 };

/* Names as hods_batch takes them, one behind another, each an ENCINT of its length and its bytes. */
struct names {
    uint8_t *bytes;
    size_t len, room, count;
};

/* Makes room for so many bytes more; false if there is no memory for them. */
static int grow(struct names *names, size_t more) {
    if (more <= names->room - names->len) return 1;
    if (more > SIZE_MAX / 2 - names->len) return 0;
    size_t room = 2 * (names->len + more);
    uint8_t *bytes = realloc(names->bytes, room);
    if (!bytes) return 0;
    names->bytes = bytes;
    names->room = room;
    return 1;
}

/* Puts a name behind the others. Its length has at most nine groups of seven bits; the highest comes first, and bit 7 is set in all but the last. */
static int add(struct names *names, const char *name, size_t len) {
    uint8_t groups[9];
    size_t n = 0;
    if (len > SIZE_MAX - sizeof groups || !grow(names, len + sizeof groups)) return 0;
    groups[n++] = len & 127;
    for (size_t rest = len >> 7; rest > 0; rest >>= 7) groups[n++] = 128 | (rest & 127);
    while (n > 0) names->bytes[names->len++] = groups[--n];
    memcpy(names->bytes + names->len, name, len);
    names->len += len;
    names->count++;
    return 1;
}

/* The names in a file; false if it cannot be read or there is no memory. */
static int read_names(struct names *names, const char *path) {
    FILE *file = fopen(path, "rb");
    char *line = NULL;
    size_t room = 0;
    ssize_t len;
    /* the library wants a pointer also where there are no names */
    int good = file && grow(names, 1);
    while (good && (len = getline(&line, &room, file)) > 0) {
        /* a CR in front of LF belongs to the end of the line: left in the name it would make each name absent */
        if (line[len - 1] == '\n' && --len > 0 && line[len - 1] == '\r') len--;
        good = add(names, line, (size_t)len);
    }
    good = good && feof(file);
    if (!good) perror(path);
    free(line);
    if (file && fclose(file) != 0) good = 0;
    return good;
}

/* The length of the name at this place; the place moves to its first byte. */
static size_t length_at(const uint8_t **at) {
    size_t len = 0;
    while (**at & 128) len = len << 7 | (*(*at)++ & 127);
    return len << 7 | *(*at)++;
}

/* A number of 64 bits, its lowest byte first. */
static uint64_t number(const uint8_t *at) {
    uint64_t n = 0;
    for (int i = 7; i >= 0; i--) n = n << 8 | at[i];
    return n;
}

/* One answer; true if the name was found. */
static int tell(const uint8_t *name, size_t len, const uint8_t *answer) {
    uint64_t status = number(answer + STATUS);
    fwrite(name, 1, len, stdout);
    if (status == 0)
        printf(": found, section %" PRIu64 ", offset %" PRIu64 ", length %" PRIu64 "\n", number(answer + SECTION), number(answer + OFFSET), number(answer + LENGTH));
    else if (status == 255)
        printf(": absent\n");
    else
        refused("", status);
    return status == 0;
}

/* Asks for all names at once and tells the answers; the exit status. */
static int ask(const char *path, const struct names *names) {
    size_t len = 0;
    int status = 0;
    const uint8_t *book = map(path, &len), *at = names->bytes;
    uint8_t *answers = calloc(names->count ? names->count : 1, ANSWER);
    uint64_t refusal = 0;
    if (!book || !answers) {
        perror(path);
        status = 2;
    } else if ((refusal = hods_batch(book, len, names->bytes, names->len, answers, names->count * ANSWER)) != 0) {
        refused(path, refusal);
        status = 2;
    } else {
        for (size_t i = 0; i < names->count; i++) {
            size_t size = length_at(&at);
            if (!tell(at, size, answers + i * ANSWER)) status = 1;
            at += size;
        }
    }
    free(answers);
    if (book) unmap(book, len);
    return status;
}

int main(int argc, char **argv) {
    if (argc != 3) {
        fprintf(stderr, "usage: batch BOOK NAMES\n");
        return 2;
    }
    struct names names = {NULL, 0, 0, 0};
    int status = read_names(&names, argv[2]) ? ask(argv[1], &names) : 2;
    free(names.bytes);
    /* answers that nobody got are none */
    if (fflush(stdout) != 0) {
        perror("standard output");
        status = 2;
    }
    return status;
}
