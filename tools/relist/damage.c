// damage ROUNDS SEED <CASES: damaged copies of stored bundles through every call of include/objclist.h, with states, addresses, ledgers and indexes of
// any content; each lent slice ends at a page that cannot be read or written. Says what was answered, and what should not have been.
#define _GNU_SOURCE
#include "../../include/objclist.h"
#include <stdio.h>
#include <stdlib.h>
#include <string.h>
#include <sys/mman.h>

enum { ARENA = 1 << 18, ARENAS = 14, MOST = 2000 };
static uint8_t *arenas[ARENAS], *bundles[MOST];
static uint64_t lengths[MOST], seed, calls, given, kinds[8], numbers[64];

static uint64_t any(void) {
    seed ^= seed << 13;
    seed ^= seed >> 7;
    return seed ^= seed << 17;
}

// A word near one that is tested somewhere.
static uint64_t edge(void) {
    uint64_t words[] = {0, any() % 4, any() % 64, ~0ull - any() % 3, any() % (1ull << 33), any()};
    return words[any() % 6];
}

// n bytes before the page after arena i.
static void *lend(int i, const void *from, size_t n) {
    uint8_t *to = arenas[i] + ARENA - n;
    if (from != NULL)
        memcpy(to, from, n);
    return to;
}

static void wrong(const char *what) {
    printf("wrong: %s\n", what);
    exit(1);
}

static uint64_t heard(struct objclist_status s) {
    calls++;
    kinds[s.kind & 7]++;
    if (s.kind == OBJCLIST_REFUSED)
        numbers[s.code & 63]++;
    return s.kind;
}

static const struct objclist_bytes *files;
static uint64_t *segments, *sections, *rebases, *binds, *ledger;
static uint8_t *info;
static uint32_t *words;
static size_t files_n, segments_n, sections_n, rebases_n, binds_n, words_n, ledger_n;
#define LENT files, files_n, segments, segments_n, sections, sections_n, info, 8, rebases, rebases_n, binds, binds_n, words, words_n

// Some calls for rows, of a list and from any state.
static void rows(uint64_t list) {
    struct objclist_row_walk walk = {list, any() % 8 ? any() % 4 : edge(), any() % 2 ? 0 : edge(), edge()};
    for (int i = 0; i < 3; i++) {
        size_t n = any() % 100;
        uint64_t *table = lend(12, NULL, 8 * n);
        memset(table, 0xA5, 8 * n);
        struct objclist_rows_told told = objclist_rows(LENT, walk, table, n);
        uint64_t kind = heard(told.status);
        given += told.rows;
        if (told.rows > n / OBJCLIST_ROW_WORDS || (kind == OBJCLIST_MORE && told.rows != n / OBJCLIST_ROW_WORDS))
            wrong("as many rows as there is room for");
        for (size_t w = OBJCLIST_ROW_WORDS * told.rows; w < n; w++)
            if (table[w] != 0xA5A5A5A5A5A5A5A5ull)
                wrong("words past the rows are written");
        walk = told.walk;
    }
}

static void classes(void) {
    struct objclist_walk zero = {0}, wild = {edge(), edge(), edge(), edge(), edge()}, walk = any() % 2 ? zero : wild;
    for (int i = 0; i < 40; i++) {
        struct objclist_class_step step = objclist_next_class(LENT, walk, ledger, ledger_n);
        uint64_t kind = heard(step.told.status);
        if (kind == OBJCLIST_REFUSED && memcmp(&walk, &step.walk, sizeof walk) != 0)
            wrong("a refused step changes the state");
        if (kind == OBJCLIST_REFUSED || kind == OBJCLIST_FINISHED)
            return;
        walk = step.walk;
        if (kind != OBJCLIST_FOUND)
            continue;
        struct objclist_class_ro_told ro = objclist_class_ro(LENT, any() % 2, step.told.cls);
        heard(ro.status);
        heard(objclist_superclass_name(LENT, any() % 2, step.told.cls).status);
        rows(ro.ro.methods), rows(ro.ro.ivars), rows(ro.ro.properties), rows(ro.ro.protocols);
    }
}

static void others(void) {
    struct objclist_walk walk = {edge(), edge(), edge(), edge(), edge()};
    struct objclist_class cls = {edge(), edge(), edge(), edge(), edge()};
    struct objclist_category category = {edge(), {edge(), edge(), edge()}, edge(), edge(), edge(), edge(), edge(), edge()};
    heard(objclist_next_protocol(LENT, walk).told.status);
    heard(objclist_next_category(LENT, walk, ledger, ledger_n).told.status);
    heard(objclist_class(LENT, edge(), edge(), edge()).status);
    heard(objclist_class_ro(LENT, edge(), cls).status);
    heard(objclist_class_name(LENT, edge(), edge()).status);
    heard(objclist_superclass_name(LENT, edge(), cls).status);
    heard(objclist_protocol(LENT, edge(), edge()).status);
    heard(objclist_category(LENT, edge(), edge()).status);
    heard(objclist_category_class_name(LENT, edge(), category).status);
    rows(edge());
}

// Lends a bundle's parts, some of them a word short.
static int lent(const uint8_t *bundle, uint64_t n) {
    static struct objclist_bytes pairs[4];
    uint64_t counts[7], size = 216, widths[7] = {40, 16, 32, 1, 1, 1, 1};
    if (n < size)
        return 0;
    memcpy(counts, bundle, sizeof counts);
    for (int i = 0; i < 7; size += counts[i] * widths[i], i++)
        if (counts[i] > 32768)
            return 0;
    if (size != n)
        return 0;
    const uint8_t *at = bundle + 96;
    segments_n = 5 * counts[0] - (counts[0] > 0 && any() % 16 == 0);
    sections_n = any() % 32 ? 15 : 14;
    rebases_n = 2 * counts[1] - (counts[1] > 0 && any() % 16 == 0);
    binds_n = 4 * counts[2];
    words_n = OBJCLIST_INDEX_HEADS + counts[1] + counts[2] - (any() % 32 == 0);
    ledger_n = any() % 2 ? any() % 64 : 4096;
    segments = lend(0, at, 8 * segments_n);
    sections = lend(1, at += 40 * counts[0], 8 * sections_n);
    rebases = lend(2, at += 120, 8 * rebases_n);
    binds = lend(3, at += 16 * counts[1], 8 * binds_n);
    at += 32 * counts[2];
    for (int i = 0; i < 4; at += counts[3 + i], i++)
        pairs[i] = (struct objclist_bytes){lend(4 + i, at, counts[3 + i]), counts[3 + i]};
    files_n = any() % 8 ? 4 : any() % 5;
    files = lend(8, pairs, files_n * sizeof *pairs);
    info = lend(9, bundle + 88, 8);
    words = lend(10, NULL, 4 * words_n);
    ledger = lend(11, NULL, 8 * ledger_n);
    return 1;
}

static void put(uint64_t *table, size_t n) {
    if (n > 0)
        table[any() % n] = edge();
}

static void round_of(const uint8_t *bundle, uint64_t n) {
    if (!lent(bundle, n))
        return;
    for (uint64_t i = any() % 8; i > 0; i--) {
        put(segments, any() % 4 ? 0 : segments_n), put(sections, any() % 4 ? 0 : sections_n);
        put(rebases, any() % 4 ? 0 : rebases_n), put(binds, any() % 4 ? 0 : binds_n);
        if (files_n > 0 && files[0].len > 0)
            ((uint8_t *)files[0].bytes)[any() % files[0].len] = (uint8_t)any();
    }
    memset(words, any() % 2 ? 0xA5 : 0, 4 * words_n);
    for (size_t i = 0; i < ledger_n; i++)
        ledger[i] = any() % 2 ? edge() : 0;
    if (any() % 3)
        heard(objclist_open(LENT).status);
    else
        words[any() % words_n] = (uint32_t)any();
    classes();
    others();
}

int main(int argc, char **argv) {
    uint64_t cases, skip;
    if (argc != 3 || fread(&cases, 8, 1, stdin) != 1 || cases > MOST)
        return 2;
    seed = strtoull(argv[2], NULL, 10) * 2654435761u + 1;
    for (int i = 0; i < ARENAS; i++) {
        arenas[i] = mmap(NULL, ARENA + 4096, PROT_READ | PROT_WRITE, MAP_PRIVATE | MAP_ANONYMOUS, -1, 0);
        if (arenas[i] == MAP_FAILED || mprotect(arenas[i] + ARENA, 4096, PROT_NONE) != 0)
            return 2;
    }
    for (uint64_t i = 0; i < cases; i++) {
        static char title[4096];
        if (fread(&skip, 8, 1, stdin) != 1 || skip > sizeof title || fread(title, 1, skip, stdin) != skip || fread(&lengths[i], 8, 1, stdin) != 1)
            return 2;
        bundles[i] = malloc(lengths[i] + 1);
        if (bundles[i] == NULL || fread(bundles[i], 1, lengths[i], stdin) != lengths[i])
            return 2;
    }
    for (uint64_t rounds = strtoull(argv[1], NULL, 10); rounds > 0; rounds--) {
        uint64_t i = any() % cases;
        round_of(bundles[i], lengths[i]);
    }
    printf("damage: %lu calls, %lu rows; found %lu, refused %lu, absent %lu, dropped %lu, finished %lu, more %lu; numbers", (unsigned long)calls,
        (unsigned long)given, (unsigned long)kinds[0], (unsigned long)kinds[1], (unsigned long)kinds[2], (unsigned long)kinds[4],
        (unsigned long)kinds[5], (unsigned long)kinds[6]);
    for (int k = 0; k < 64; k++)
        if (numbers[k] > 0)
            printf(" %d", k);
    putchar('\n');
}
