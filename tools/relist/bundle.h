// A bundle's parts (README.md, "Bundles"), as the calls of include/objclist.h are lent them.
#ifndef BUNDLE_H
#define BUNDLE_H
#include "../../include/objclist.h"
#include <stdlib.h>

struct bundle {
    struct objclist_bytes files[4];
    const uint64_t *segments, *sections, *rebases, *binds, *ends;
    const uint8_t *info;
    size_t segments_len, rebases_len, binds_len, index_len, ledger_len;
    uint32_t *index;
    uint64_t *ledger;
};

#define LENT(b)                                                                                                                            \
    (b)->files, 4, (b)->segments, (b)->segments_len, (b)->sections, OBJCLIST_SECTION_WORDS, (b)->info, 8, (b)->rebases, (b)->rebases_len, \
        (b)->binds, (b)->binds_len, (b)->index, (b)->index_len

static size_t slots_of(const uint64_t *sections, int i) {
    return sections[3 * i] ? (size_t)(sections[3 * i + 2] / 8) : 0;
}

// The parts of a bundle of n bytes, which begin at a multiple of 8. 0, or 13 where the bytes are not as many as the counts say.
static int bundle_parts(const uint64_t *words, size_t n, struct bundle *b) {
    if (n > 32768 || n < 96)
        return 13;
    size_t at = 96, sizes[7] = {40, 16, 32, 1, 1, 1, 1}, all = 96 + 120;
    for (int i = 0; i < 7; i++) {
        if (words[i] > 32768)
            return 13;
        all += sizes[i] * words[i];
    }
    if (all != n)
        return 13;
    const uint8_t *bytes = (const uint8_t *)words;
    b->ends = words + 7;
    b->info = bytes + 88;
    b->segments = words + 12;
    b->segments_len = OBJCLIST_SEGMENT_WORDS * words[0];
    b->sections = b->segments + b->segments_len;
    b->rebases = b->sections + OBJCLIST_SECTION_WORDS;
    b->rebases_len = OBJCLIST_REBASE_WORDS * words[1];
    b->binds = b->rebases + b->rebases_len;
    b->binds_len = OBJCLIST_BIND_WORDS * words[2];
    at = (size_t)((const uint8_t *)(b->binds + b->binds_len) - bytes);
    for (int i = 0; i < 4; i++) {
        b->files[i].bytes = bytes + at;
        b->files[i].len = words[3 + i];
        at += words[3 + i];
    }
    return 0;
}

// An index for opening; 0 where there is no memory.
static int bundle_index(struct bundle *b) {
    b->index_len = OBJCLIST_INDEX_HEADS + b->rebases_len / OBJCLIST_REBASE_WORDS + b->binds_len / OBJCLIST_BIND_WORDS;
    b->index = calloc(b->index_len, sizeof *b->index);
    return b->index != NULL;
}

// A ledger for the longer of the two pairs of sections, whose words opening has accepted; 0 where there is no memory.
static int bundle_ledger(struct bundle *b) {
    size_t classes = slots_of(b->sections, 0) + slots_of(b->sections, 1), categories = slots_of(b->sections, 2) + slots_of(b->sections, 3);
    b->ledger_len = classes > categories ? classes : categories;
    b->ledger = calloc(b->ledger_len + 1, sizeof *b->ledger);
    return b->ledger != NULL;
}
#endif
