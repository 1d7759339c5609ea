/* Measures libmspack. Its mspack_system is given the mapped bytes of the book, so that reading is a copy from memory; open_path has its own system, which reads
   the file through stdio. Its open reads every listing chunk into a list of names, its fast_open only the headers; a lookup after it keeps each chunk it has read. */
#include "bench.h"

#include <mspack.h>

/* a file of the system below: how far it is read */
struct memory { size_t at; };

static struct mspack_file *m_open(struct mspack_system *self, const char *path, int mode) {
    (void)self, (void)path, (void)mode;
    return calloc(1, sizeof(struct memory));
}

static void m_close(struct mspack_file *f) { free(f); }

static int m_read(struct mspack_file *f, void *to, int bytes) {
    struct memory *m = (struct memory *)f;
    size_t left = book_len - m->at, n = (size_t)bytes < left ? (size_t)bytes : left;
    memcpy(to, book + m->at, n);
    m->at += n;
    return (int)n;
}

static int m_write(struct mspack_file *f, void *from, int bytes) {
    (void)f, (void)from, (void)bytes;
    return -1;
}

static int m_seek(struct mspack_file *f, off_t offset, int mode) {
    struct memory *m = (struct memory *)f;
    off_t at = offset + (mode == MSPACK_SYS_SEEK_START ? 0 : mode == MSPACK_SYS_SEEK_CUR ? (off_t)m->at : (off_t)book_len);
    if (at < 0 || at > (off_t)book_len) return 1;
    m->at = (size_t)at;
    return 0;
}

static off_t m_tell(struct mspack_file *f) { return (off_t)((struct memory *)f)->at; }
static void m_message(struct mspack_file *f, const char *format, ...) { (void)f, (void)format; }
static void *m_alloc(struct mspack_system *self, size_t bytes) { (void)self; return malloc(bytes); }
static void m_copy(void *from, void *to, size_t bytes) { memcpy(to, from, bytes); }

static struct mspack_system from_memory = {m_open, m_close, m_read, m_write, m_seek, m_tell, m_message, m_alloc, free, m_copy, NULL};
static struct mschm_decompressor *chmd, *by_path;
static struct mschmd_header *quick;

static void ready(void) {
    chmd = mspack_create_chm_decompressor(&from_memory);
    by_path = mspack_create_chm_decompressor(NULL);
    quick = chmd ? chmd->fast_open(chmd, book_path) : NULL;
    if (!quick || !by_path) fail("refused");
}

static void open_with(struct mschm_decompressor *d) {
    struct mschmd_header *c = d->open(d, book_path);
    if (!c) fail("refused");
    kept += c->num_chunks;
    d->close(d, c);
}

void measure_open(void) { open_with(chmd); }
void measure_open_path(void) { open_with(by_path); }

void measure_find_hit(void) {
    struct mschmd_file f;
    for (size_t i = 0; i < there_count; i++) {
        if (chmd->fast_find(chmd, quick, there[i].text, &f, sizeof f) || !f.section) fail("not found");
        kept += (uint64_t)f.offset;
    }
}

void measure_find_miss(void) {
    struct mschmd_file f;
    for (size_t i = 0; i < missing_count; i++)
        if (chmd->fast_find(chmd, quick, missing[i].text, &f, sizeof f) || f.section) fail("found");
}

/* Of each entry: its length, its offset and the last byte of its name. The list comes with open. */
void measure_list(void) {
    struct mschmd_header *c = chmd->open(chmd, book_path);
    uint64_t sum = 0;
    if (!c) fail("refused");
    for (struct mschmd_file *f = c->files; f; f = f->next) sum += (uint64_t)f->offset + (uint64_t)f->length + (uint8_t)f->filename[strlen(f->filename) - 1];
    kept += sum;
    chmd->close(chmd, c);
}

int main(int argc, char **argv) {
    static const struct measure all[] = {
        {"open", measure_open}, {"open_path", measure_open_path}, {"find_hit", measure_find_hit}, {"find_miss", measure_find_miss}, {"list", measure_list}};
    return measured(argc, argv, "libmspack", all, sizeof all / sizeof *all, ready);
}
