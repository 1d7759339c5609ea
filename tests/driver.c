/* Asks the library what its standard input says, a line a question, and answers a line each: driver FILE.
     o                               open: the code, and the record for 0
     l RECORD PLACES HEXNAME         lookup with a record and a trail of so many places, all 77 before: the code, seven numbers all 88 before, the trail
     f RECORD HEXNAME                lookup in an opened book, with a record: the code, five numbers all 88 before
     c RECORD HEXNAME                scan with a record: the code, five numbers all 88 before
     m ROOM HEXNAMES                 batch of names with their lengths into so many bytes: the code, in hexadecimal these bytes and 64 behind them, all 77 before
     s RECORD CHUNK ENTRY            step: the code, the cursor, five numbers all 88 before
     p RECORD CHUNK NUMBERS          page into so many numbers, all 77 before: the code, two numbers all 88 before, a sum over the numbers
     b PLACE LENGTH                  part: its length
     n HEXNAME HEXNAME               order of two names: its number
   A name or names of no bytes are written as a dash. */
#define _POSIX_C_SOURCE 200809L

#include <inttypes.h>
#include <stdint.h>
#include <stdio.h>
#include <stdlib.h>
#include <string.h>

#include "../include/hodsplinter.h"

/* Bytes behind the room of a batch. */
enum { BEHIND = 64 };

static char *line, *rest;
static size_t line_room;

static uint64_t number(void) { return strtoull(rest, &rest, 10); }

static void show(const uint64_t *n, size_t count) {
    for (size_t i = 0; i < count; i++) printf(" %" PRIu64, n[i]);
}

/* So many bytes, or the program ends. */
static void *taken(size_t n) {
    void *bytes = malloc(n ? n : 1);
    if (!bytes) exit(2);
    return bytes;
}

/* The next bytes of the line, in memory of just their number: what watches memory then sees a read behind them. */
static uint8_t *bytes_in(size_t *n) {
    static const char digits[] = "0123456789abcdef";
    rest += strspn(rest, " ");
    *n = strspn(rest, digits) / 2;
    uint8_t *bytes = taken(*n);
    for (size_t i = 0; i < *n; i++, rest += 2) bytes[i] = (uint8_t)(16 * (strchr(digits, rest[0]) - digits) + (strchr(digits, rest[1]) - digits));
    rest += *rest == '-';
    return bytes;
}

static uint8_t *file;
static size_t len;
static uint64_t record[HODS_RECORD];

static void ask_open(void) {
    for (int i = 0; i < HODS_RECORD; i++) record[i] = 88;
    printf("%" PRIu64, hods_open(file, len, record));
    show(record, HODS_RECORD);
}

static void ask_lookup(void) {
    uint32_t trail[16];
    uint64_t answer[HODS_LOOKUP];
    size_t places = (size_t)number(), n;
    for (int i = 0; i < 16; i++) trail[i] = 77;
    for (int i = 0; i < HODS_LOOKUP; i++) answer[i] = 88;
    uint8_t *name = bytes_in(&n);
    printf("%" PRIu64, hods_lookup(file, len, record, name, n, trail, places, answer));
    show(answer, HODS_LOOKUP);
    for (size_t i = 0; i < places; i++) printf(" %" PRIu32, trail[i]);
    free(name);
}

typedef uint64_t search(const uint8_t *, size_t, const uint64_t *, const uint8_t *, size_t, uint64_t *);

/* The two searches without a trail. */
static void ask_search(search *asked) {
    uint64_t answer[5] = {88, 88, 88, 88, 88};
    size_t n;
    uint8_t *name = bytes_in(&n);
    printf("%" PRIu64, asked(file, len, record, name, n, answer));
    show(answer, 5);
    free(name);
}

static void ask_batch(void) {
    size_t places = (size_t)number(), n;
    uint8_t *names = bytes_in(&n), *answers = taken(places + BEHIND);
    memset(answers, 77, places + BEHIND);
    printf("%" PRIu64 " ", hods_batch(file, len, names, n, answers, places));
    for (size_t i = 0; i < places + BEHIND; i++) printf("%02x", answers[i]);
    free(answers);
    free(names);
}

static void ask_step(void) {
    uint64_t cursor[2], entry[5] = {88, 88, 88, 88, 88};
    cursor[0] = number();
    cursor[1] = number();
    printf("%" PRIu64, hods_step(file, len, record, cursor, entry));
    show(cursor, 2);
    show(entry, 5);
}

static void ask_page(void) {
    static uint64_t out[4200];
    uint64_t next[2] = {88, 88}, chunk = number(), sum = 0;
    size_t places = (size_t)number();
    for (int i = 0; i < 4200; i++) out[i] = 77;
    printf("%" PRIu64, hods_chunk_page(file, len, record, chunk, out, places, next));
    show(next, 2);
    for (size_t i = 0; i < 4200; i++) sum = sum * 31 + out[i];
    printf(" %" PRIu64, sum);
}

static void ask_part(void) {
    uint64_t place = number(), n = number();
    printf("%" PRIu64, hods_part(file, len, place, n));
}

static void ask_order(void) {
    size_t a_len, b_len;
    uint8_t *a = bytes_in(&a_len), *b = bytes_in(&b_len);
    printf("%" PRIu64, hods_name_order(a, a_len, b, b_len));
    free(b);
    free(a);
}

int main(int argc, char **argv) {
    FILE *f = argc == 2 ? fopen(argv[1], "rb") : NULL;
    if (!f) return 2;
    fseek(f, 0, SEEK_END);
    len = (size_t)ftell(f);
    rewind(f);
    file = malloc(len ? len : 1);
    if (!file || fread(file, 1, len, f) != len) return 2;
    while (getline(&line, &line_room, stdin) > 0) {
        rest = line + 1;
        if (strchr("lfcsp", line[0]))
            for (int i = 0; i < HODS_RECORD; i++) record[i] = number();
        if (line[0] == 'o') ask_open();
        if (line[0] == 'l') ask_lookup();
        if (line[0] == 'f') ask_search(hods_lookup_opened);
        if (line[0] == 'c') ask_search(hods_scan);
        if (line[0] == 'm') ask_batch();
        if (line[0] == 's') ask_step();
        if (line[0] == 'p') ask_page();
        if (line[0] == 'b') ask_part();
        if (line[0] == 'n') ask_order();
        printf("\n");
    }
    free(line);
    free(file);
    return 0;
}
