// relist ROOM <CASES: the listings of stored bundles (crates/replay/data/cases), printed through the calls of include/objclist.h alone, as the program
// `replay` prints them, ROOM rows a call. What the calls do not give is printed as none was known: marks as 0.
#include "bundle.h"
#include <stdio.h>
#include <string.h>

static struct bundle image;
static uint64_t old, records, settled, room, refusal;
static struct objclist_row *table;

static void text(struct objclist_text t) {
    printf(" %lx:", (unsigned long)t.len);
    fwrite(image.files[t.file].bytes + t.offset, 1, t.len, stdout);
}

static void number(uint64_t n) { printf(" %lx", (unsigned long)n); }

static void number_or_none(uint64_t here, uint64_t n) {
    if (here)
        number(n);
    else
        printf(" -");
}

static void name(struct objclist_name_told told) {
    if (told.status.kind == OBJCLIST_FOUND)
        text(told.name);
    else
        printf(" -");
    if (told.status.kind == OBJCLIST_REFUSED)
        refusal = told.status.code;
}

static void row(struct objclist_row *r, uint64_t list) {
    static const char letters[] = "mvpq";
    settled += r->kind == OBJCLIST_ROW_SKIPPED ? r->has_number : r->kind != OBJCLIST_ROW_NAME;
    if (r->kind == OBJCLIST_ROW_SKIPPED)
        return;
    putchar(letters[r->kind]);
    number(list);
    text(r->name);
    if (r->kind != OBJCLIST_ROW_NAME)
        text(r->types);
    if (r->kind == OBJCLIST_ROW_METHOD) {
        number_or_none(r->has_number, r->number);
        number(r->form);
        number(0);
    }
    if (r->kind == OBJCLIST_ROW_IVAR) {
        number_or_none(r->has_number, r->number);
        number(r->form);
        number_or_none(r->has_alignment, r->log2_alignment);
        number_or_none(r->aligned != OBJCLIST_ALIGNED_UNKNOWN, r->aligned);
    }
    putchar('\n');
}

static void rows(uint64_t list, uint64_t kind, uint64_t which) {
    struct objclist_row_walk walk = {list, kind, 0, old};
    for (;;) {
        memset(table, 0xA5, room * sizeof *table);
        struct objclist_rows_told told = objclist_rows(LENT(&image), walk, (uint64_t *)table, room * OBJCLIST_ROW_WORDS);
        for (uint64_t i = 0; i < told.rows; i++)
            row(table + i, which);
        walk = told.walk;
        if (told.status.kind == OBJCLIST_REFUSED)
            refusal = told.status.code;
        if (told.status.kind != OBJCLIST_MORE)
            return;
    }
}

static void class_lists(struct objclist_class cls) {
    struct objclist_class_ro_told told = objclist_class_ro(LENT(&image), old, cls);
    struct objclist_class_ro ro = told.ro;
    if (told.status.kind != OBJCLIST_FOUND)
        return;
    printf("R %lx %lx %lx %lx", (unsigned long)ro.address, (unsigned long)ro.flags, (unsigned long)ro.instance_start, (unsigned long)ro.instance_size);
    text(ro.name);
    putchar('\n');
    rows(ro.methods, OBJCLIST_METHODS, 0);
    rows(ro.ivars, OBJCLIST_IVARS, 1);
    rows(ro.properties, OBJCLIST_PROPERTIES, 2);
    rows(ro.protocols, OBJCLIST_PROTOCOL_NAMES, 3);
}

static void class_line(struct objclist_class c) {
    struct objclist_class_told again = objclist_class(LENT(&image), old, c.address, c.is_meta);
    if (memcmp(&again.cls, &c, sizeof c) != 0)
        printf("the class is another when it is decoded by its address\n");
    records++;
    putchar(c.is_meta ? 'M' : 'C');
    number(c.address), number(c.isa), number(c.superclass_address), number(c.bits);
    name(objclist_superclass_name(LENT(&image), old, c));
    putchar('\n');
    class_lists(c);
}

static void protocol_line(struct objclist_protocol p) {
    struct objclist_protocol_told again = objclist_protocol(LENT(&image), old, p.address);
    if (memcmp(&again.protocol, &p, sizeof p) != 0)
        printf("the protocol is another when it is decoded by its address\n");
    records++;
    printf("P %lx %lx %lx", (unsigned long)p.address, (unsigned long)p.size, (unsigned long)p.flags);
    text(p.name);
    putchar('\n');
    rows(p.instance_methods, OBJCLIST_METHODS, 0);
    rows(p.class_methods, OBJCLIST_METHODS, 1);
    rows(p.optional_instance_methods, OBJCLIST_METHODS, 2);
    rows(p.optional_class_methods, OBJCLIST_METHODS, 3);
    rows(p.instance_properties, OBJCLIST_PROPERTIES, 4);
    rows(p.class_properties, OBJCLIST_PROPERTIES, 5);
    rows(p.protocols, OBJCLIST_PROTOCOL_NAMES, 6);
}

static void category_line(struct objclist_category k) {
    struct objclist_category_told again = objclist_category(LENT(&image), old, k.address);
    if (memcmp(&again.category, &k, sizeof k) != 0)
        printf("the category is another when it is decoded by its address\n");
    records++;
    printf("K %lx %lx", (unsigned long)k.address, (unsigned long)k.class_address);
    text(k.name);
    name(objclist_category_class_name(LENT(&image), old, k));
    putchar('\n');
    rows(k.instance_methods, OBJCLIST_METHODS, 0);
    rows(k.class_methods, OBJCLIST_METHODS, 1);
    rows(k.protocols, OBJCLIST_PROTOCOL_NAMES, 2);
    rows(k.instance_properties, OBJCLIST_PROPERTIES, 3);
    rows(k.class_properties, OBJCLIST_PROPERTIES, 4);
}

// Whether a walk goes on after a step.
static int goes_on(struct objclist_status s) {
    if (s.kind == OBJCLIST_REFUSED)
        refusal = s.code;
    return s.kind != OBJCLIST_REFUSED && s.kind != OBJCLIST_FINISHED;
}

static void sections(void) {
    struct objclist_class_step c = {.walk = {.old_reading = old}};
    do {
        c = objclist_next_class(LENT(&image), c.walk, image.ledger, image.ledger_len);
        if (c.told.status.kind == OBJCLIST_FOUND)
            class_line(c.told.cls);
    } while (goes_on(c.told.status));
    struct objclist_protocol_step p = {.walk = {.old_reading = old}};
    do {
        p = objclist_next_protocol(LENT(&image), p.walk);
        if (p.told.status.kind == OBJCLIST_FOUND)
            protocol_line(p.told.protocol);
    } while (goes_on(p.told.status));
    struct objclist_category_step k = {.walk = {.old_reading = old}};
    do {
        k = objclist_next_category(LENT(&image), k.walk, image.ledger, image.ledger_len);
        if (k.told.status.kind == OBJCLIST_FOUND)
            category_line(k.told.category);
    } while (goes_on(k.told.status));
}

static void listing(void) {
    memset(image.index, 0xA5, image.index_len * sizeof *image.index);
    struct objclist_info info = objclist_open(LENT(&image));
    if (info.status.kind == OBJCLIST_REFUSED) {
        printf("refused %d\n", (int)info.status.code);
        return;
    }
    if (image.ends[0] > image.ends[1] || image.ends[2] > image.ends[3]) {
        printf("refused 23\n");
        return;
    }
    printf("I %lx %lx %d\n", (unsigned long)info.version, (unsigned long)info.flags, old == 0);
    records = settled = refusal = 0;
    if (!bundle_ledger(&image))
        exit(1);
    sections();
    free(image.ledger);
    printf("E %lx %lx\n", (unsigned long)records, (unsigned long)settled);
    if (refusal)
        printf("question %d refused after opening\n", (int)refusal);
}

// The next title or bundle of the file, which is shorter than the buffer.
static size_t part(void *to, size_t size) {
    uint64_t n;
    if (fread(&n, sizeof n, 1, stdin) != 1 || n > size || fread(to, 1, n, stdin) != n) {
        printf("the file ends before\n");
        exit(1);
    }
    return n;
}

int main(int argc, char **argv) {
    static uint64_t words[65536], title[512];
    uint64_t cases;
    room = argc == 2 ? strtoull(argv[1], NULL, 10) : 1;
    table = malloc(room * sizeof *table);
    if (table == NULL || fread(&cases, sizeof cases, 1, stdin) != 1)
        return 1;
    for (; cases > 0; cases--) {
        printf("# %.*s\n", (int)part(title, sizeof title), (char *)title);
        size_t n = part(words, sizeof words);
        int not = bundle_parts(words, n, &image);
        if (!not && !bundle_index(&image))
            return 1;
        for (int pass = 0; pass < 2; pass++) {
            old = pass == 0;
            if (not)
                printf("refused %d\n", not);
            else
                listing();
        }
        if (!not)
            free(image.index);
    }
}
