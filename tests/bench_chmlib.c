/* Measures chmlib. It opens by path and reads a chunk with pread each time it needs one; the file is in the system's cache. */
#include "bench.h"

#include <chm_lib.h>

static struct chmFile *h;

static void ready(void) {
    h = chm_open(book_path);
    if (!h) fail("refused");
}

void measure_open_path(void) {
    struct chmFile *other = chm_open(book_path);
    if (!other) fail("refused");
    chm_close(other);
}

void measure_find_hit(void) {
    struct chmUnitInfo ui;
    for (size_t i = 0; i < there_count; i++) {
        if (chm_resolve_object(h, there[i].text, &ui) != CHM_RESOLVE_SUCCESS) fail("not found");
        kept += ui.start;
    }
}

void measure_find_miss(void) {
    struct chmUnitInfo ui;
    for (size_t i = 0; i < missing_count; i++)
        if (chm_resolve_object(h, missing[i].text, &ui) == CHM_RESOLVE_SUCCESS) fail("found");
}

/* Of each entry: its length, its offset and the last byte of its name. */
static int met(struct chmFile *file, struct chmUnitInfo *ui, void *sum) {
    (void)file;
    *(uint64_t *)sum += ui->start + ui->length + (uint8_t)ui->path[strlen(ui->path) - 1];
    return CHM_ENUMERATOR_CONTINUE;
}

void measure_list(void) {
    uint64_t sum = 0;
    if (!chm_enumerate(h, CHM_ENUMERATE_ALL, met, &sum)) fail("not listed");
    kept += sum;
}

int main(int argc, char **argv) {
    static const struct measure all[] = {{"open_path", measure_open_path}, {"find_hit", measure_find_hit}, {"find_miss", measure_find_miss}, {"list", measure_list}};
    return measured(argc, argv, "chmlib", all, sizeof all / sizeof *all, ready);
}
