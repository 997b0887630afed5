// selectors FILE: prints the selectors of a Mach-O file, a line each: of every class, metaclass, protocol and category, in the order of the listing.
// Of a universal file it takes the arm64 part, else the first 64-bit one. Each function gives 0, or the number of the question that refused
// (docs/QUESTIONS.md). Status 0: all were printed; 1: refused; 2: usage, or the system.
#define _GNU_SOURCE
#include "../include/objclist_file.h"
#include <fcntl.h>
#include <stdio.h>
#include <stdlib.h>
#include <sys/mman.h>
#include <sys/stat.h>

// What every call is lent, once the image is open.
static struct {
    struct objclist_bytes file;
    uint64_t *segments, *sections, *rebases, *binds, *ledger;
    uint32_t *index;
    const uint8_t *info;
    size_t segments_len, rebases_len, binds_len, index_len, info_len, ledger_len;
} image;
#define LENT                                                                                                                              \
    &image.file, 1, image.segments, image.segments_len, image.sections, OBJCLIST_SECTION_WORDS, image.info, image.info_len, image.rebases, \
        image.rebases_len, image.binds, image.binds_len, image.index, image.index_len

static _Noreturn void fails(const char *what) {
    perror(what);
    exit(2);
}

// Zeroed memory; pages that are never touched cost nothing. A byte more, here and for the file: no mapping has 0 bytes, no pointer is null.
static void *zeroed(uint64_t count, size_t width) {
    void *at = mmap(NULL, count * width + 1, PROT_READ | PROT_WRITE, MAP_PRIVATE | MAP_ANONYMOUS | MAP_NORESERVE, -1, 0);
    if (at == MAP_FAILED)
        fails("memory");
    return at;
}

// Opens an image, which is a thin file or a part of a universal one. The tables are lent as long as any image may need, then cut to what it has.
static uint64_t open_image(const uint8_t *bytes, size_t size) {
    struct objclist_sizes most = objclist_sizes(size);
    image.rebases = zeroed(most.rebases, sizeof *image.rebases);
    image.binds = zeroed(most.binds, sizeof *image.binds);
    struct objclist_counts counts = objclist_tables(bytes, size, image.rebases, most.rebases, image.binds, most.binds);
    if (counts.status != OBJCLIST_OK)
        return counts.number;
    image.rebases_len = OBJCLIST_REBASE_WORDS * counts.rebases;
    image.binds_len = OBJCLIST_BIND_WORDS * counts.binds;
    image.index_len = OBJCLIST_INDEX_HEADS + counts.rebases + counts.binds;
    image.index = zeroed(image.index_len, sizeof *image.index);
    image.segments = zeroed(most.segments, sizeof *image.segments);
    image.sections = zeroed(most.sections, sizeof *image.sections);
    struct objclist_file_told told = objclist_open_file(bytes, size, image.segments, most.segments, image.sections, most.sections,
        image.rebases, image.rebases_len, image.binds, image.binds_len, image.index, image.index_len);
    if (told.status.kind != OBJCLIST_FOUND)
        return told.status.code;
    image.file = (struct objclist_bytes){bytes, size};
    image.segments_len = OBJCLIST_SEGMENT_WORDS * told.segments;
    image.info = bytes + told.info_at;
    image.info_len = told.info_len;
    image.ledger = zeroed(most.ledger, sizeof *image.ledger);
    image.ledger_len = most.ledger;
    return 0;
}

// The selectors of a list, some rows a call. An entry that has no selector is a row too, of kind OBJCLIST_ROW_SKIPPED.
static uint64_t selectors(uint64_t list) {
    struct objclist_row rows[16];
    struct objclist_row_walk walk = {.list = list, .kind = OBJCLIST_METHODS};
    for (;;) {
        struct objclist_rows_told told = objclist_rows(LENT, walk, (uint64_t *)rows, 16 * OBJCLIST_ROW_WORDS);
        for (uint64_t i = 0; i < told.rows; i++)
            if (rows[i].kind == OBJCLIST_ROW_METHOD) {
                fwrite(image.file.bytes + rows[i].name.offset, 1, rows[i].name.len, stdout);
                putchar('\n');
            }
        if (told.status.kind == OBJCLIST_REFUSED)
            return told.status.code;
        if (told.status.kind != OBJCLIST_MORE)
            return 0;
        walk = told.walk;
    }
}

static uint64_t selectors_of(const uint64_t *lists, size_t n) {
    for (size_t i = 0; i < n; i++) {
        uint64_t refused = selectors(lists[i]);
        if (refused)
            return refused;
    }
    return 0;
}

// A walk ends: each step takes a slot, or the metaclass that waited. A slot without a record that can be read has no line in the listing.
static uint64_t classes(void) {
    struct objclist_class_step step = {0};
    for (;;) {
        step = objclist_next_class(LENT, step.walk, image.ledger, image.ledger_len);
        if (step.told.status.kind == OBJCLIST_REFUSED)
            return step.told.status.code;
        if (step.told.status.kind == OBJCLIST_FINISHED)
            return 0;
        if (step.told.status.kind != OBJCLIST_FOUND)
            continue;
        struct objclist_class_ro_told data = objclist_class_ro(LENT, 0, step.told.cls);
        if (data.status.kind == OBJCLIST_REFUSED)
            return data.status.code;
        uint64_t refused = data.status.kind == OBJCLIST_FOUND ? selectors(data.ro.methods) : 0;
        if (refused)
            return refused;
    }
}

static uint64_t protocols(void) {
    struct objclist_protocol_step step = {0};
    for (;;) {
        step = objclist_next_protocol(LENT, step.walk);
        if (step.told.status.kind == OBJCLIST_REFUSED)
            return step.told.status.code;
        if (step.told.status.kind == OBJCLIST_FINISHED)
            return 0;
        if (step.told.status.kind != OBJCLIST_FOUND)
            continue;
        struct objclist_protocol p = step.told.protocol;
        uint64_t lists[] = {p.instance_methods, p.class_methods, p.optional_instance_methods, p.optional_class_methods};
        uint64_t refused = selectors_of(lists, 4);
        if (refused)
            return refused;
    }
}

static uint64_t categories(void) {
    struct objclist_category_step step = {0};
    for (;;) {
        step = objclist_next_category(LENT, step.walk, image.ledger, image.ledger_len);
        if (step.told.status.kind == OBJCLIST_REFUSED)
            return step.told.status.code;
        if (step.told.status.kind == OBJCLIST_FINISHED)
            return 0;
        if (step.told.status.kind != OBJCLIST_FOUND)
            continue;
        uint64_t lists[] = {step.told.category.instance_methods, step.told.category.class_methods};
        uint64_t refused = selectors_of(lists, 2);
        if (refused)
            return refused;
    }
}

static uint64_t print_all(const uint8_t *bytes, size_t size) {
    uint64_t refused = open_image(bytes, size);
    if (!refused)
        refused = classes();
    if (!refused)
        refused = protocols();
    if (!refused)
        refused = categories();
    return refused;
}

static int refused_by(const char *path, uint64_t number) {
    fprintf(stderr, "%s: refused %u\n", path, (unsigned)number);
    return 1;
}

int main(int argc, char **argv) {
    if (argc != 2) {
        fprintf(stderr, "usage: selectors FILE\n");
        return 2;
    }
    const char *path = argv[1];
    struct stat st;
    int fd = open(path, O_RDONLY);
    if (fd < 0 || fstat(fd, &st) != 0)
        fails(path);
    size_t size = (size_t)st.st_size;
    const uint8_t *file = mmap(NULL, size + 1, PROT_READ, MAP_PRIVATE, fd, 0);
    if (file == MAP_FAILED)
        fails(path);
    struct objclist_part part = objclist_part(file, size);
    if (part.status == OBJCLIST_REFUSED)
        return refused_by(path, part.number);
    if (part.status == OBJCLIST_ABSENT) {
        fprintf(stderr, "%s: no 64-bit part\n", path);
        return 1;
    }
    uint64_t refused = print_all(file + part.offset, part.size);
    if (fflush(stdout) != 0 || ferror(stdout))
        fails("standard output");
    return refused ? refused_by(path, refused) : 0;
}
