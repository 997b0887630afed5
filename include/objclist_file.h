// A Mach-O file, thin or universal: its parts, its tables, and its listing. Of the same archive as objclist.h, and what that says of slices
// holds here.
#ifndef OBJCLIST_FILE_H
#define OBJCLIST_FILE_H
#include "objclist.h"

#ifdef __cplusplus
extern "C" {
#endif

// The status of an answer: one of these, OBJCLIST_REFUSED with the number of the question that says no, or, of a part, OBJCLIST_ABSENT.
enum { OBJCLIST_OK = OBJCLIST_FOUND, OBJCLIST_FAILED = 3 };

// A part of a universal file, which is the image: `size` bytes from `offset` on. A thin file is one part.
struct objclist_part {
    uint64_t status, number, cputype, cpusubtype, offset, size;
};

// The arm64 part, without one the first 64-bit part; the part of an architecture of machine.h (a cpusubtype of 0xffffffff is any); part i, in
// table order, ABSENT past the last.
struct objclist_part objclist_part(const uint8_t *file, size_t file_len);
struct objclist_part objclist_part_of(const uint8_t *file, size_t file_len, uint64_t cputype, uint64_t cpusubtype);
struct objclist_part objclist_part_at(const uint8_t *file, size_t file_len, uint64_t i);

// The elements to lend for an image of n bytes: as many as no question refuses. The index has elements of 4 bytes, the others of 8.
struct objclist_sizes {
    uint64_t segments, sections, rebases, binds, index, ledger;
};
struct objclist_sizes objclist_sizes(uint64_t n);

// The rebases (2 words each) and binds (4 words each) of an image, from its chained fixups or its bind opcodes. With a number nothing is written.
struct objclist_counts {
    uint64_t status, number, rebases, binds;
};
struct objclist_counts objclist_tables(const uint8_t *file, size_t file_len, uint64_t *rebases, size_t rebases_len, uint64_t *binds,
    size_t binds_len);

// Writes the listing of an image to a file descriptor, or `refused` and the number. Lent are the words of the rebases and the binds that
// objclist_tables counted, and the rest as objclist_sizes says; of the index as many words as there are rebases and binds, and 8,192, are used.
// A method's mark is for frames and slides in the two ranges (README.md); frames 0 to 0 and slides 1 to 1 mark nothing. FAILED: a write failed.
struct objclist_wrote {
    uint64_t status, number;
};
enum { OBJCLIST_PIECE = 65536 };
struct objclist_wrote objclist_write(int32_t fd, uint64_t first_frame, uint64_t last_frame, uint64_t first_slide, uint64_t last_slide,
    const uint8_t *file, size_t file_len, uint64_t *segments, size_t segments_len, uint64_t *sections, size_t sections_len,
    const uint64_t *rebases, size_t rebases_len, const uint64_t *binds, size_t binds_len, uint32_t *index, size_t index_len, uint64_t *ledger,
    size_t ledger_len, uint8_t out[OBJCLIST_PIECE]);

#ifdef __cplusplus
}
#endif
#endif
