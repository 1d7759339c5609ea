/* Has heads written for the cases on its standard input, and answers each on its standard output. All numbers have 64 bits, in the machine's order.
     a case      length of the entries, density, time, language, content length, length of the output, whether to read the book back, then the entries
     its answer  the code, length[0] (88 before), how many other bytes changed that must stay, what became of reading back; for code 0 the head follows
   The entries end where a page begins that nobody may read. The output is filled with a pattern, and so are 4,096 bytes on either side.
   Reading back opens the head with a content of that pattern behind it and lists it: 1 if the entries are those given, else 2; 0 if not asked for. */
#define _DEFAULT_SOURCE
#include <stdint.h>
#include <stdio.h>
#include <stdlib.h>
#include <string.h>
#include <sys/mman.h>
#include <unistd.h>

#include "../include/hodsplinter.h"

enum { ROOM = 1 << 25, SIDE = 4096 };

static uint8_t pattern(size_t i) { return (uint8_t)(i * 167 + (i >> 8) * 31 + 90); }

/* Memory that ends at a page without access. */
static uint8_t *fenced(size_t size) {
    size_t page = (size_t)sysconf(_SC_PAGESIZE);
    uint8_t *at = mmap(NULL, size + page, PROT_READ | PROT_WRITE, MAP_PRIVATE | MAP_ANONYMOUS, -1, 0);
    if (at == MAP_FAILED || mprotect(at + size, page, PROT_NONE)) exit(2);
    return at + size;
}

static void get(void *to, size_t size) {
    if (fread(to, 1, size, stdin) != size) exit(2);
}

static void put(const void *from, size_t size) {
    if (fwrite(from, 1, size, stdout) != size) exit(2);
}

static size_t encint(uint8_t *to, uint64_t value) {
    size_t size = 1;
    for (uint64_t v = value >> 7; v; v >>= 7) size++;
    for (size_t i = 0; i < size; i++) to[i] = (uint8_t)(value >> 7 * (size - 1 - i) & 0x7F) | (i + 1 < size ? 0x80 : 0);
    return size;
}

/* Whether these bytes, with so much content behind them, open as a book that lists these entries and no others. */
static int reads_back(const uint8_t *head, size_t head_len, size_t content, const uint8_t *entries, size_t len) {
    static uint64_t page[4070];
    size_t size = head_len + content, at = 0;
    uint64_t record[HODS_RECORD] = {0}, next[2];
    uint8_t *book = malloc(size);
    if (!book) exit(2);
    memcpy(book, head, head_len);
    for (size_t i = head_len; i < size; i++) book[i] = pattern(i);
    int good = hods_open(book, size, record) == 0;
    for (uint64_t chunk = record[8]; good && chunk != 0xFFFFFFFFu; chunk = next[1]) {
        good = hods_chunk_page(book, size, record, chunk, page, 4070, next) == 0;
        for (uint64_t i = 0; good && i < next[0]; i++) {
            const uint64_t *told = page + 5 * i;
            uint8_t entry[2048];
            size_t n = encint(entry, told[1]);
            memcpy(entry + n, book + told[0], told[1]);
            n += told[1];
            for (int k = 2; k < 5; k++) n += encint(entry + n, told[k]);
            good = n <= len - at && memcmp(entry, entries + at, n) == 0;
            at += n;
        }
    }
    free(book);
    return good && at == len;
}

int main(void) {
    uint8_t *end = fenced(ROOM), *kept = malloc(ROOM), *around = malloc(ROOM + 2 * SIDE);
    uint64_t asked[7];
    if (!kept || !around) return 2;
    while (fread(asked, sizeof asked[0], 7, stdin) == 7) {
        size_t len = asked[0], out_len = asked[5], whole = out_len + 2 * SIDE;
        if (len > ROOM || out_len > ROOM) return 2;
        uint8_t *entries = end - len, *out = around + SIDE;
        get(entries, len);
        memcpy(kept, entries, len);
        for (size_t i = 0; i < whole; i++) around[i] = pattern(i);
        uint64_t told[4] = {0, 88, 0, 0};
        told[0] = hods_write_head(entries, len, (uint32_t)asked[1], (uint32_t)asked[2], (uint32_t)asked[3], asked[4], out, out_len, &told[1]);
        size_t head_len = told[0] ? 0 : told[1];
        if (head_len > out_len) return 3;
        for (size_t i = 0; i < whole; i++) told[2] += (i < SIDE || i >= SIDE + head_len) && around[i] != pattern(i);
        for (size_t i = 0; i < len; i++) told[2] += entries[i] != kept[i];
        if (asked[6] && !told[0]) told[3] = reads_back(out, head_len, asked[4], entries, len) ? 1 : 2;
        put(told, sizeof told);
        put(out, head_len);
        fflush(stdout);
    }
    return 0;
}
