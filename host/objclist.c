// Lists the Objective-C classes, protocols and categories of a Mach-O file:
//     objclist [--arch NAME] [--frames FIRST LAST --slides FIRST LAST] FILE
// What is read of the file, and the listing, are the library's (include/objclist_file.h). This file maps, lends, and says refusals in words.
// Status 0: the whole listing was written; 1: the file was refused; 2: usage, or the system; 3: a write failed.
#include <errno.h>
#include <fcntl.h>
#include <stdio.h>
#include <stdlib.h>
#include <string.h>
#include <sys/mman.h>
#include <sys/stat.h>
#include <unistd.h>

#include "../include/objclist_file.h"

enum { LISTED = 0, REFUSED = 1, SYSTEM = 2, UNWRITTEN = 3 };

static int fails(const char *path, const char *what) {
    fprintf(stderr, "%s: %s\n", path, what);
    return SYSTEM;
}

// Zeroed memory: pages that are never touched cost nothing. What is lent ends at a page that cannot be touched.
static void *lend(uint64_t count, size_t width) {
    size_t page = (size_t)sysconf(_SC_PAGESIZE), size = (size_t)count * width, all = (size + page - 1) / page * page;
    uint8_t *at = mmap(NULL, all + page, PROT_READ | PROT_WRITE, MAP_PRIVATE | MAP_ANONYMOUS | MAP_NORESERVE, -1, 0);
    if (at == MAP_FAILED || mprotect(at + all, page, PROT_NONE) != 0) {
        fprintf(stderr, "objclist: no memory: %s\n", strerror(errno));
        exit(SYSTEM);
    }
    return at + all - size;
}

struct lent {
    struct objclist_sizes n;
    uint64_t *segments, *sections, *rebases, *binds, *ledger;
    uint32_t *index;
    uint8_t *out;
};

static struct lent lend_for(uint64_t size) {
    struct objclist_sizes n = objclist_sizes(size);
    return (struct lent){
        .n = n,
        .segments = lend(n.segments, 8),
        .sections = lend(n.sections, 8),
        .rebases = lend(n.rebases, 8),
        .binds = lend(n.binds, 8),
        .ledger = lend(n.ledger, 8),
        .index = lend(n.index, 4),
        .out = lend(OBJCLIST_PIECE, 1),
    };
}

#ifndef NO_MAIN
static const char *const questions[] = {
    [1] = "Is the file, or the part of a universal one, at most 4,294,967,295 bytes long?",
    [2] = "Has it at most 64 segments?",
    [3] = "Is each section of Objective-C data at most as long as the file?",
    [4] = "Is the image info at least 8 bytes long? A file without Objective-C has none.",
    [5] = "Has it at most 16,777,215 rebases?",
    [6] = "Has it at most 16,777,215 binds?",
    [7] = "Is each bind's name inside the file?",
    [8] = "Has the index a word for each of the 2 x 4,096 chains, each rebase and each bind?",
    [9] = "Is each record number in a chain of the index below the one before it?",
    [10] = "Is a walk's cursor at most its count?",
    [11] = "Has the ledger a word for each full slot of the two lists walked?",
    [14] = "Is each bind's name UTF-8?",
    [15] = "Is there a header of 32 bytes with the magic 0xFEEDFACF, that of a 64-bit little-endian Mach-O file?",
    [16] = "Does each load command lie in the stated size of the commands and in the file, and a segment command have room for its sections? Of a "
           "universal file: do the table of parts and the part lie in the file?",
    [18] = "Is a slice lent for each file number?",
    [19] = "Is all fixup data of a form that is read, and inside its range and the file? arm64e pointers and imports with addends are not read.",
    [20] = "Does each slot that is rebased or bound lie in its page or segment and in the file, and has each ordinal an import?",
    [23] = "Is neither range's first end above its last?",
    [25] = "Is the file of a kind that is read, and whole: an executable, a dylib, a bundle or a dynamic linker; not an object file (.o), a stub or "
           "debug symbols; not out of a shared cache; not encrypted; bound by no relocations, and by at most one command; with each segment's part "
           "of the file, and each stream of bind opcodes, in the file?",
};

struct arch {
    const char *name;
    uint64_t cputype, cpusubtype;
};
static const struct arch archs[] = {
    {"arm64", 0x100000c, 0}, {"arm64e", 0x100000c, 2}, {"x86_64", 0x1000007, 3}, {"x86_64h", 0x1000007, 8},
    {"arm64_32", 0x200000c, 1}, {"armv7", 12, 9}, {"armv7s", 12, 11}, {"i386", 7, 3}, {"ppc", 18, 0},
};
enum { ARCHS = sizeof archs / sizeof *archs };

static int unwritten(const char *path) {
    fprintf(stderr, "%s: the listing could not be written: %s\n", path, strerror(errno));
    return UNWRITTEN;
}

static int says(const char *path, uint64_t number) {
    const char *what = number < sizeof questions / sizeof *questions ? questions[number] : NULL;
    fprintf(stderr, "%s: refused %u: %s\n", path, (unsigned)number, what ? what : "(docs/QUESTIONS.md)");
    return REFUSED;
}

// A refusal before there is a listing: the line that a refused listing has.
static int refuse(int fd, const char *path, uint64_t number) {
    if (dprintf(fd, "refused %u\n", (unsigned)number) < 0)
        return unwritten(path);
    return says(path, number);
}

// The ends of the ranges of frames and slides; these mark nothing.
struct ranges {
    uint64_t first_frame, last_frame, first_slide, last_slide;
};
static const struct ranges unmarked = {0, 0, 1, 1};

// Builds the tables of an image and writes its listing.
static int list(int fd, const char *path, const uint8_t *image, size_t size, struct ranges r, struct lent l) {
    struct objclist_counts c = objclist_tables(image, size, l.rebases, l.n.rebases, l.binds, l.n.binds);
    if (c.status != OBJCLIST_OK)
        return refuse(fd, path, c.number);
    struct objclist_wrote w = objclist_write(fd, r.first_frame, r.last_frame, r.first_slide, r.last_slide, image, size, l.segments,
        l.n.segments, l.sections, l.n.sections, l.rebases, 2 * c.rebases, l.binds, 4 * c.binds, l.index, 8192 + c.rebases + c.binds, l.ledger,
        l.n.ledger, l.out);
    if (w.status == OBJCLIST_FAILED)
        return unwritten(path);
    return w.status == OBJCLIST_OK ? LISTED : says(path, w.number);
}

static void print_arch(uint64_t cputype, uint64_t cpusubtype) {
    for (size_t k = 0; k < ARCHS; k++)
        if (archs[k].cputype == cputype && archs[k].cpusubtype == cpusubtype % 0x1000000) {
            fprintf(stderr, " %s", archs[k].name);
            return;
        }
    fprintf(stderr, " cputype 0x%llx subtype 0x%llx", (unsigned long long)cputype, (unsigned long long)cpusubtype);
}

static int no_part(const char *path, const uint8_t *file, size_t size) {
    fprintf(stderr, "%s: no such part; it has", path);
    struct objclist_part p;
    for (uint64_t i = 0; p = objclist_part_at(file, size, i), p.status == OBJCLIST_OK; i++)
        print_arch(p.cputype, p.cpusubtype);
    fprintf(stderr, "\n");
    return REFUSED;
}

static int usage(void) {
    fprintf(stderr, "usage: list [--arch NAME] [--frames FIRST LAST --slides FIRST LAST] FILE (ends in hex; NAME is one of");
    for (size_t k = 0; k < ARCHS; k++)
        fprintf(stderr, " %s", archs[k].name);
    fprintf(stderr, ")\n");
    return SYSTEM;
}

static int ends(char **argv, uint64_t *first, uint64_t *last) {
    char *end, *other;
    errno = 0;
    *first = strtoull(argv[1], &end, 16);
    *last = strtoull(argv[2], &other, 16);
    return errno == 0 && argv[1][0] != '-' && argv[2][0] != '-' && end != argv[1] && other != argv[2] && *end == 0 && *other == 0;
}

int main(int argc, char **argv) {
    const struct arch *arch = NULL;
    struct ranges r = {0, 0, 0, 0};
    int framed = 0, slid = 0;
    for (argv++, argc--; argc > 1; ) {
        int took = 0;
        if (strcmp(argv[0], "--arch") == 0)
            for (size_t k = 0; k < ARCHS; k++)
                if (strcmp(argv[1], archs[k].name) == 0)
                    arch = &archs[k], took = 2;
        if (argc > 2 && strcmp(argv[0], "--frames") == 0 && ends(argv, &r.first_frame, &r.last_frame))
            framed = 1, took = 3;
        if (argc > 2 && strcmp(argv[0], "--slides") == 0 && ends(argv, &r.first_slide, &r.last_slide))
            slid = 1, took = 3;
        if (took == 0)
            return usage();
        argv += took, argc -= took;
    }
    if (argc != 1 || framed != slid)
        return usage();
    const char *path = argv[0];
    struct stat st;
    int fd = open(path, O_RDONLY);
    if (fd < 0 || fstat(fd, &st) != 0)
        return fails(path, strerror(errno));
    if (!S_ISREG(st.st_mode))
        return fails(path, "not a file");
    size_t size = (size_t)st.st_size;
    const uint8_t *file = size == 0 ? lend(0, 1) : mmap(NULL, size, PROT_READ, MAP_PRIVATE, fd, 0);
    if (file == MAP_FAILED)
        return fails(path, strerror(errno));
    struct objclist_part p = arch ? objclist_part_of(file, size, arch->cputype, arch->cpusubtype) : objclist_part(file, size);
    if (p.status == OBJCLIST_REFUSED)
        return refuse(STDOUT_FILENO, path, p.number);
    if (p.status == OBJCLIST_ABSENT)
        return no_part(path, file, size);
    return list(STDOUT_FILENO, path, file + p.offset, p.size, framed ? r : unmarked, lend_for(p.size));
}
#endif
