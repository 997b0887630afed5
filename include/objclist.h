// The C face of the library: target/staticlib/libface.a (host/build.sh), for C and C++ on x86-64 Linux.
//
// Everything is lent, nothing is kept or allocated. A slice is a pointer and a number of elements; the pointer is never null, also where the
// number is 0, and is aligned for its elements. A slice that is written overlaps no other. No call reads or writes outside what it is lent,
// whatever the bytes, lengths, states and addresses: each is proved to give what its definition in crates/face/specs says, for all of them.
#ifndef OBJCLIST_H
#define OBJCLIST_H
#include <stddef.h>
#include <stdint.h>

#ifdef __cplusplus
extern "C" {
#endif

// One file of the image, as README's `files`: of an image in one file, that one.
struct objclist_bytes {
    const uint8_t *bytes;
    size_t len;
};

// What every call lends, alike: the files (the first four count); segments, 5 words each; sections, 15 words; the payload of
// __objc_imageinfo; rebases, 2 words each; binds, 4 words each; and the index, 8,192 words and one for each rebase and bind, as
// objclist_open left it. README, "Bundles", says what the words are.
#define OBJCLIST_IMAGE                                                                                                                   \
    const struct objclist_bytes *files, size_t files_len, const uint64_t *segments, size_t segments_len, const uint64_t *sections,      \
        size_t sections_len, const uint8_t *info, size_t info_len, const uint64_t *rebases, size_t rebases_len, const uint64_t *binds,  \
        size_t binds_len, const uint32_t *index, size_t index_len
enum {
    OBJCLIST_SEGMENT_WORDS = 5,
    OBJCLIST_SECTION_WORDS = 15,
    OBJCLIST_REBASE_WORDS = 2,
    OBJCLIST_BIND_WORDS = 4,
    OBJCLIST_INDEX_HEADS = 8192
};

// What an answer says first. Where it is not OBJCLIST_FOUND, the record or text beside it is all 0.
enum {
    OBJCLIST_FOUND = 0,    // a record or a text
    OBJCLIST_REFUSED = 1,  // `code` is the number of the question that says no (docs/QUESTIONS.md); the state comes back as given
    OBJCLIST_ABSENT = 2,   // `code` is the reason
    OBJCLIST_DROPPED = 4,  // a slot of 0, or an address met before: no absence
    OBJCLIST_FINISHED = 5, // nothing is left
    OBJCLIST_MORE = 6      // the lent words are full
};

// The reasons of an absence.
enum {
    OBJCLIST_NULL_ADDRESS = 1,   // an address is 0
    OBJCLIST_UNMAPPED = 2,       // the lookup of a string's address is absent
    OBJCLIST_PAST_END = 3,       // a string's offset lies above its file's length
    OBJCLIST_UNTERMINATED = 4,   // no zero byte ends a string before its file's end
    OBJCLIST_NOT_UTF8 = 5,       // `at` is the offset in the string of the first byte that no well-formed text can continue, or its length
                                 // where it ends inside a character
    OBJCLIST_NO_DATA = 6,        // the pick of a class's data word is absent
    OBJCLIST_UNRESOLVED = 7,     // a name, selector or types slot does not resolve
    OBJCLIST_UNREADABLE = 8,     // bytes of a record, row, list header or number cannot be read
    OBJCLIST_FIELD_OVERFLOW = 9, // a field address is over 64 bits
    OBJCLIST_NO_RECORD = 10,     // no rebase or bind names the slot
    OBJCLIST_ODD_LIST = 11,      // a list at an odd address
    OBJCLIST_SHORT_ENTRY = 12,   // a list's entry size is below the least
    OBJCLIST_MALFORMED = 13      // of no call here
};

struct objclist_status {
    uint64_t kind, code, at;
};

// A text: `len` bytes of files[file] from `offset` on.
struct objclist_text {
    uint64_t file, offset, len;
};

// Opening: asks the questions 1 to 8, 14 and 18 of all that is lent and writes the index; with a number it stays as it was.
struct objclist_info {
    struct objclist_status status;
    uint64_t version, flags;
};
struct objclist_info objclist_open(const struct objclist_bytes *files, size_t files_len, const uint64_t *segments, size_t segments_len,
    const uint64_t *sections, size_t sections_len, const uint8_t *info, size_t info_len, const uint64_t *rebases, size_t rebases_len,
    const uint64_t *binds, size_t binds_len, uint32_t *index, size_t index_len);

// Opening a Mach-O file of one image, with rebases and binds lent: asks 15 and 16 too, fills segments (320 words) and sections by loader.h
// and writes the index; with a number all three stay as they were. Later calls are lent 5 words for each of `segments` segments, and as
// info the `info_len` bytes of the file from `info_at` on.
enum { OBJCLIST_SEGMENT_TABLE_WORDS = 64 * OBJCLIST_SEGMENT_WORDS };
struct objclist_file_told {
    struct objclist_status status;
    uint64_t segments, version, flags, info_at, info_len;
};
struct objclist_file_told objclist_open_file(const uint8_t *file, size_t file_len, uint64_t *segments, size_t segments_len,
    uint64_t *sections, size_t sections_len, const uint64_t *rebases, size_t rebases_len, const uint64_t *binds, size_t binds_len,
    uint32_t *index, size_t index_len);

// Records. Fields that end in _address, and the lists, are addresses; 0 is none.
struct objclist_class {
    uint64_t address, isa, superclass_address, bits, is_meta;
};
struct objclist_class_ro {
    uint64_t address, flags, instance_start, instance_size;
    struct objclist_text name;
    uint64_t ivar_layout_address, methods, protocols, ivars, weak_ivar_layout_address, properties;
};
struct objclist_protocol {
    uint64_t address;
    struct objclist_text name;
    uint64_t protocols, instance_methods, class_methods, optional_instance_methods, optional_class_methods, instance_properties,
        class_properties, size, flags;
};
struct objclist_category {
    uint64_t address;
    struct objclist_text name;
    uint64_t class_address, instance_methods, class_methods, protocols, instance_properties, class_properties;
};

// A record decoded: found, absent or refused.
struct objclist_class_told {
    struct objclist_status status;
    struct objclist_class cls;
};
struct objclist_class_ro_told {
    struct objclist_status status;
    struct objclist_class_ro ro;
};
struct objclist_protocol_told {
    struct objclist_status status;
    struct objclist_protocol protocol;
};
struct objclist_category_told {
    struct objclist_status status;
    struct objclist_category category;
};
struct objclist_name_told {
    struct objclist_status status;
    struct objclist_text name;
};

// `old_reading`, here and in states: 0 reads texts under the new reading, anything else under the old one (README, "What it prints").
// `is_meta`, 0 or not, says as what a class is asked for.
struct objclist_class_told objclist_class(OBJCLIST_IMAGE, uint64_t old_reading, uint64_t address, uint64_t is_meta);
struct objclist_class_ro_told objclist_class_ro(OBJCLIST_IMAGE, uint64_t old_reading, struct objclist_class cls);
struct objclist_name_told objclist_class_name(OBJCLIST_IMAGE, uint64_t old_reading, uint64_t address);
struct objclist_name_told objclist_superclass_name(OBJCLIST_IMAGE, uint64_t old_reading, struct objclist_class cls);
struct objclist_protocol_told objclist_protocol(OBJCLIST_IMAGE, uint64_t old_reading, uint64_t address);
struct objclist_category_told objclist_category(OBJCLIST_IMAGE, uint64_t old_reading, uint64_t address);
struct objclist_name_told objclist_category_class_name(OBJCLIST_IMAGE, uint64_t old_reading, struct objclist_category category);

// Walks over the section lists, a slot a step. A walk begins with a state of 0, but for old_reading; each step is given the state that
// the last handed back. The ledger has a word for each slot of the two class (or category) sections together and holds, between steps,
// the addresses met; a walk has its own. A class's metaclass follows it. A step that is refused leaves state and ledger as they were, a state
// that no step handed back is answered by the definition too, with 10 where its slot or ledger words cannot be.
// Over categories `waiting` is not looked at, over protocols `used` and `highest` neither: they come back as 0.
struct objclist_walk {
    uint64_t slot, used, highest, waiting, old_reading;
};
struct objclist_class_step {
    struct objclist_class_told told;
    struct objclist_walk walk;
};
struct objclist_category_step {
    struct objclist_category_told told;
    struct objclist_walk walk;
};
struct objclist_protocol_step {
    struct objclist_protocol_told told;
    struct objclist_walk walk;
};
struct objclist_class_step objclist_next_class(OBJCLIST_IMAGE, struct objclist_walk walk, uint64_t *ledger, size_t ledger_len);
struct objclist_category_step objclist_next_category(OBJCLIST_IMAGE, struct objclist_walk walk, uint64_t *ledger, size_t ledger_len);
struct objclist_protocol_step objclist_next_protocol(OBJCLIST_IMAGE, struct objclist_walk walk);

// The rows of a list, from a state whose cursor is 0 on, as many a call as the lent words hold (15 each; words past the rows given stay).
// A call is that many steps of the walk, asks the questions once, and ends early where the list does:
// MORE, there was no room for a further step; FINISHED, the list's end; ABSENT, there is no list, and why; REFUSED, a question's number (10 too
// for a kind that is none of these and a cursor that is past the list). Rows given before that stay, `rows` says how many, and `walk` is
// the state after them.
enum { OBJCLIST_METHODS = 0, OBJCLIST_IVARS = 1, OBJCLIST_PROPERTIES = 2, OBJCLIST_PROTOCOL_NAMES = 3 };
struct objclist_row_walk {
    uint64_t list, kind, cursor, old_reading;
};
struct objclist_rows_told {
    struct objclist_status status;
    uint64_t rows;
    struct objclist_row_walk walk;
};
struct objclist_rows_told objclist_rows(OBJCLIST_IMAGE, struct objclist_row_walk walk, uint64_t *rows, size_t rows_len);

// A row. What it has not is 0.
enum { OBJCLIST_ROW_METHOD = 0, OBJCLIST_ROW_IVAR = 1, OBJCLIST_ROW_PROPERTY = 2, OBJCLIST_ROW_NAME = 3, OBJCLIST_ROW_SKIPPED = 4 };
enum { OBJCLIST_FORM_LEGACY = 0, OBJCLIST_FORM_SMALL_INDIRECT = 1, OBJCLIST_FORM_SMALL_DIRECT = 2 };
enum { OBJCLIST_ALIGNED_NO = 0, OBJCLIST_ALIGNED_YES = 1, OBJCLIST_ALIGNED_UNKNOWN = 2 };
struct objclist_row {
    uint64_t kind;
    uint64_t code, at;          // of an entry that is skipped: the reason, as in a status
    struct objclist_text name;  // selector or name
    struct objclist_text types; // types of a method, type of an ivar, attributes of a property
    uint64_t has_number, number; // implementation of a method, offset of an ivar, index of a skipped entry; not of a protocol slot, whose
                                 // index is the cursor before the call and the row's place in it
    uint64_t form;               // form of a method, size of an ivar
    uint64_t has_alignment, log2_alignment, aligned; // of an ivar
};
enum { OBJCLIST_ROW_WORDS = sizeof(struct objclist_row) / sizeof(uint64_t) };

#ifdef __cplusplus
}
#endif
#endif
