// damage SEED COPIES FILE..: each file cut at each of its lengths, and COPIES copies in all with bytes changed, through the library. Each copy ends
// at a page that cannot be touched, and so does all that is lent: a read or a write outside faults. Everything must give a listing or a number;
// says how often each number came, 0 for a listing and 255 for no part.
#define NO_MAIN
#include "objclist.c"

static uint64_t state;
static uint64_t next(void) {
    state ^= state << 13, state ^= state >> 7, state ^= state << 17;
    return state;
}

static const uint64_t odd[] = {0, 1, 0xff, 0x7fffffff, 0xffffffff, 0x8000000000000000, 0xffffffffffffffff, 0x100000000, 0x80000034, 0x80000022};

// Bytes, words of 4 or 8, or a word of one place put at another; two thirds of them in the first 4 KiB, where the load commands are.
static void change(uint8_t *at, size_t size) {
    for (uint64_t n = 1 + next() % 6; n > 0; n--) {
        size_t room = next() % 3 && size > 4096 ? 4096 : size, to = next() % room;
        uint64_t word = next() % 2 ? odd[next() % 10] : next() >> next() % 64;
        size_t width = next() % 3 == 0 ? 1 : next() % 2 ? 4 : 8;
        if (next() % 4 == 0 && size >= 8)
            memcpy(&word, at + next() % (size - 7), 8);
        if (width > 1)
            to = to / 4 * 4;
        memcpy(at + to, &word, width < size - to ? width : size - to);
    }
}

static uint64_t met[256];
static int sink;

// The part of one file, its tables and its listing.
static void try(const uint8_t *file, size_t size, struct lent l) {
    struct objclist_part p = objclist_part(file, size);
    if (p.status != OBJCLIST_OK) {
        met[p.status == OBJCLIST_REFUSED ? p.number : 255]++;
        return;
    }
    struct objclist_sizes n = objclist_sizes(p.size);
    l.ledger += l.n.ledger - n.ledger;
    struct objclist_counts c = objclist_tables(file + p.offset, p.size, l.rebases, l.n.rebases, l.binds, l.n.binds);
    if (c.status != OBJCLIST_OK) {
        met[c.number]++;
        return;
    }
    size_t index = 8192 + c.rebases + c.binds, rebases = 2 * c.rebases, binds = 4 * c.binds;
    memmove(l.rebases + l.n.rebases - rebases, l.rebases, 8 * rebases);
    memmove(l.binds + l.n.binds - binds, l.binds, 8 * binds);
    struct objclist_wrote w = objclist_write(sink, 0x1000, 0x2000, 0, 0x1000, file + p.offset, p.size, l.segments, l.n.segments, l.sections,
        l.n.sections, l.rebases + l.n.rebases - rebases, rebases, l.binds + l.n.binds - binds, binds, l.index + l.n.index - index, index, l.ledger,
        n.ledger, l.out);
    if (w.status == OBJCLIST_FAILED)
        exit(fails("damage", "a write failed"));
    met[w.number]++;
}

static void tell(const char *path, const char *what) {
    fprintf(stderr, "%s %s:", path, what);
    for (int k = 0; k < 256; k++)
        if (met[k])
            fprintf(stderr, " %d:%lu", k, (unsigned long)met[k]), met[k] = 0;
    fprintf(stderr, "\n");
}

int main(int argc, char **argv) {
    if (argc < 4)
        return fails("usage", "damage SEED COPIES FILE..");
    state = strtoull(argv[1], NULL, 10) * 2 + 1;
    uint64_t copies = strtoull(argv[2], NULL, 10) / (uint64_t)(argc - 3);
    sink = open("/dev/null", O_WRONLY);
    for (char **path = argv + 3; *path; path++) {
        struct stat st;
        int fd = open(*path, O_RDONLY);
        if (fd < 0 || fstat(fd, &st) != 0 || st.st_size == 0)
            return fails(*path, "cannot be read");
        size_t size = (size_t)st.st_size;
        uint8_t *file = mmap(NULL, size, PROT_READ, MAP_PRIVATE, fd, 0), *copy = lend(size, 1);
        struct lent l = lend_for(size);
        for (size_t n = 0; n < size; n++) {
            memcpy(copy + size - n, file, n);
            try(copy + size - n, n, l);
        }
        tell(*path, "cut");
        for (uint64_t n = copies; n > 0; n--) {
            memcpy(copy, file, size);
            change(copy, size);
            try(copy, size, l);
        }
        tell(*path, "changed");
    }
    return 0;
}
