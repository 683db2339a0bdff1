/*
 * key_index: in-memory indices that map shortened keys to lists of values.
 *
 * A store that keeps its records in a log inserts the position of each record under the record's key. The index keeps the first
 * eight bytes of the key and the position. It returns the positions of the records that may match a key, and the store compares
 * the full keys. Keys that agree in their first eight bytes share one list; a shorter key counts as if zeros stood behind it. An index
 * of the kind KEY_INDEX_SEEDED keeps eight bytes of a hash of the whole key instead. For keys that are inserted once, by position, and
 * pruned from the front there is another type, key_index_immutable: see "Immutable indices" below.
 *
 *     key_index index = KEY_INDEX_NONE;
 *     if (key_index_new(&index, KEY_INDEX_UNORDERED) != KEY_INDEX_OK) ..
 *     key_index_insert(&index, "apple", 5, 17);
 *     uint64_t positions[4];
 *     size_t count;
 *     key_index_get(&index, "apple", 5, positions, 4, &count);      count is 1, positions[0] is 17
 *     key_index_free(&index);
 *
 * Link libkey_index.a, which `./build library` makes. It is for x86-64 Linux and processors of x86-64-v2, and uses the program's malloc,
 * realloc and free, and no other library. Header and library are of one version: the header refers to a name that the library of its
 * version alone exports, such as key_index_c_version_0_1_0.
 *
 * WHAT A CALLER OWES
 *
 * The functions below test each argument that they can, and answer KEY_INDEX_BAD_ARGUMENT, with nothing done, for:
 *   - a null pointer to an index, to a key or a buffer whose length is not 0, or to a place for an answer;
 *   - an index, a reader or a range that was not made (`at` is null), or to a call that makes one, one that was;
 *   - a kind that is none of those below, or a call for a neighbour of an index without an order;
 *   - a position that is below the start of an immutable index, or indexed;
 *   - partitions that an index has not, or a range that is of another kind, or for partitions that have values;
 *   - a length that no block of memory has.
 * They cannot test the following. Where it does not hold, what happens is undefined:
 *   1. A key_index was set to KEY_INDEX_NONE, or one of the other types to its own .._NONE, and since then only these functions wrote to
 *      it. It may be moved, as by an assignment, if the old place is not used any more. A copy of one is not another index. The member of
 *      a key_index_immutable is not passed as a key_index, nor that of its reader as another's.
 *   2. Any number of calls that take an index or a reader as const, and so only read it, may run at once, on any threads; each other call
 *      is alone with what it gets. What a thread did with an index, a reader or a range comes before what another thread does with it, by a
 *      lock, a thread's start or join, or what orders memory as they do. Two readers of an index need nothing of that: each is by itself.
 *   3. A pointer to a key leads to as many bytes as its length says, one to numbers to as many, aligned as their type is; a buffer for
 *      answers was set before (to anything). Neither overlaps the other, the key_index or a place for an answer. While the call runs, no
 *      other thread writes to any of these, nor reads a buffer or a place for an answer.
 *   4. malloc, realloc and free come from one allocator, for all threads that call, and align a block to each power of two up to 16 that
 *      divides its size.
 *   5. No call is made from a signal handler, nor in the child of a fork of a process with threads.
 * The functions whose names begin with key_index_c_ test nothing: they are for this header and for declarations in other languages. Each
 * of them takes the index out of its key_index and puts it back, so it writes there even if it only reads the index: reads that run at once
 * need a copy of the key_index each, such as the functions below make. So it is with a reader and a range.
 */
#ifndef KEY_INDEX_H
#define KEY_INDEX_H

#if !defined(__x86_64__) || !defined(__LP64__) || !defined(__linux__)
#error "key_index is for x86-64 Linux with a size_t of 64 bits"
#endif

#include <stdbool.h>
#include <stddef.h>
#include <stdint.h>

#define KEY_INDEX_VERSION "0.1.0"
#define KEY_INDEX_VERSION_NUMBER 100 /* 10000 for each major version, 100 for each minor one */

#ifdef __cplusplus
extern "C" {
#endif

/* An index, or none. */
typedef struct key_index {
    void *at;
} key_index;

#define KEY_INDEX_NONE { NULL }

/* An immutable index, or none: keys by position. */
typedef struct key_index_immutable {
    key_index index;
} key_index_immutable;

#define KEY_INDEX_IMMUTABLE_NONE { KEY_INDEX_NONE }

/* A reader of an index that is shared, or none: see "Readers" below. */
typedef struct key_index_reader {
    void *at;
} key_index_reader;

#define KEY_INDEX_READER_NONE { NULL }

typedef struct key_index_immutable_reader {
    key_index_reader reader;
} key_index_immutable_reader;

#define KEY_INDEX_IMMUTABLE_READER_NONE { KEY_INDEX_READER_NONE }

/* Some partitions of an index, apart from it, or none: see "Ranges" below. */
typedef struct key_index_range {
    void *at;
} key_index_range;

#define KEY_INDEX_RANGE_NONE { NULL }

/* What a call answers. After any but KEY_INDEX_OK index and range hold what they held, but for key_index_insert_many and its like for a
 * range, and nothing was written but `count` and `cycled`. */
typedef enum key_index_status {
    KEY_INDEX_OK = 0,
    KEY_INDEX_MEMORY = 1,       /* an allocation failed */
    KEY_INDEX_FULL = 2,         /* the index holds SIZE_MAX values */
    KEY_INDEX_TOO_FAR = 3,      /* a position is SIZE_MAX or more past the start of an immutable index */
    KEY_INDEX_BAD_ARGUMENT = 4, /* see above */
    KEY_INDEX_SHARED = 5        /* the index has other readers */
} key_index_status;

typedef enum key_index_kind {
    KEY_INDEX_UNORDERED = 0, /* a hashed map: the fastest look-ups */
    KEY_INDEX_ORDERED = 1,   /* a tree, with the next and the previous key */
    KEY_INDEX_SEEDED = 2,    /* a hashed map by a SHA-256 of whole keys and a secret seed: for keys that an attacker picks */
    /* The first byte of a key, or the first two, pick a partition, and the eight bytes behind them are the index key there: hashed, or
     * ordered in sorted arrays and trees. An ordered one puts a new value behind those of its key, so the oldest comes first. All 256
     * or 65,536 partitions take their place when the index is made: 18 KiB and 4.5 MiB, ordered 16 KiB and 4 MiB. */
    KEY_INDEX_UNORDERED_BY_ONE = 3,
    KEY_INDEX_UNORDERED_BY_TWO = 4,
    KEY_INDEX_ORDERED_BY_ONE = 5,
    KEY_INDEX_ORDERED_BY_TWO = 6
} key_index_kind;

/* What the library exports. */
struct key_index_found {
    size_t count;
    uint64_t first;
};
struct key_index_neighbour {
    size_t count;
    uint32_t status;
    bool cycled;
};
struct key_index_many {
    size_t count;
    uint32_t status;
};
struct key_index_counts {
    size_t keys;
    size_t items;
    uint64_t pruned;
};
struct key_index_position_counts {
    size_t items;
    uint64_t start;
    uint64_t pruned;
};
enum { KEY_INDEX_NEXT, KEY_INDEX_PREV, KEY_INDEX_FIRST, KEY_INDEX_LAST };
enum { KEY_INDEX_IMMUTABLE_PLAIN = 7, KEY_INDEX_IMMUTABLE_SEEDED = 8 };
uint32_t key_index_c_new(key_index *index, uint32_t kind, uint64_t seed);
uint32_t key_index_c_new_immutable(key_index *index, uint32_t kind, uint64_t seed, uint64_t start, size_t capacity);
void key_index_c_free(key_index *index);
uint32_t key_index_c_insert(key_index *index, const uint8_t *key, size_t key_len, uint64_t value);
struct key_index_many key_index_c_insert_many(key_index *index, const uint8_t *keys, size_t keys_len, const size_t *ends,
                                              size_t ends_len, const uint64_t *values, size_t values_len);
size_t key_index_c_get(key_index *index, const uint8_t *key, size_t key_len, uint64_t *values, size_t room);
struct key_index_many key_index_c_get_many(key_index *index, const uint8_t *keys, size_t keys_len, const size_t *ends, size_t ends_len,
                                           uint64_t *values, size_t room, size_t *stops, size_t stops_len);
struct key_index_found key_index_c_find(key_index *index, const uint8_t *key, size_t key_len);
uint32_t key_index_c_remove(key_index *index, const uint8_t *key, size_t key_len);
bool key_index_c_remove_value(key_index *index, const uint8_t *key, size_t key_len, uint64_t value);
bool key_index_c_replace_value(key_index *index, const uint8_t *key, size_t key_len, uint64_t value, uint64_t with);
uint32_t key_index_c_keep(key_index *index, const uint8_t *key, size_t key_len, const uint8_t *mask, size_t mask_len);
struct key_index_counts key_index_c_counts(key_index *index);
struct key_index_neighbour key_index_c_neighbour(key_index *index, uint32_t which, const uint8_t *key, size_t key_len, uint64_t *values,
                                                 size_t room);
uint32_t key_index_c_insert_at(key_index *index, const uint8_t *key, size_t key_len, uint64_t position);
size_t key_index_c_positions(key_index *index, const uint8_t *key, size_t key_len, uint64_t *positions, size_t room);
bool key_index_c_is_indexed(key_index *index, uint64_t position);
void key_index_c_prune(key_index *index, uint64_t start);
struct key_index_position_counts key_index_c_position_counts(key_index *index);
uint32_t key_index_c_share(key_index *index, key_index_reader *reader);
uint32_t key_index_c_unshare(key_index_reader *reader, key_index *index);
uint32_t key_index_c_reader_clone(key_index_reader *reader, key_index_reader *clone);
void key_index_c_reader_free(key_index_reader *reader);
size_t key_index_c_reader_get(key_index_reader *reader, const uint8_t *key, size_t key_len, uint64_t *values, size_t room);
struct key_index_many key_index_c_reader_get_many(key_index_reader *reader, const uint8_t *keys, size_t keys_len, const size_t *ends,
                                                  size_t ends_len, uint64_t *values, size_t room, size_t *stops, size_t stops_len);
struct key_index_found key_index_c_reader_find(key_index_reader *reader, const uint8_t *key, size_t key_len);
struct key_index_counts key_index_c_reader_counts(key_index_reader *reader);
struct key_index_neighbour key_index_c_reader_neighbour(key_index_reader *reader, uint32_t which, const uint8_t *key, size_t key_len,
                                                        uint64_t *values, size_t room);
size_t key_index_c_reader_positions(key_index_reader *reader, const uint8_t *key, size_t key_len, uint64_t *positions, size_t room);
bool key_index_c_reader_is_indexed(key_index_reader *reader, uint64_t position);
struct key_index_position_counts key_index_c_reader_position_counts(key_index_reader *reader);
uint32_t key_index_c_range(key_index *index, key_index_range *range, size_t first, size_t count);
struct key_index_many key_index_c_range_insert_many(key_index_range *range, const uint8_t *keys, size_t keys_len, const size_t *ends,
                                                    size_t ends_len, const uint64_t *values, size_t values_len);
uint32_t key_index_c_install(key_index *index, key_index_range *range);
void key_index_c_range_free(key_index_range *range);
extern const uint8_t key_index_c_version_0_1_0; /* 1 */

/* Whether an index can be made there. This needs the library of this version. */
static inline bool key_index_is_none(const key_index *index) {
    return index != NULL && index->at == NULL && key_index_c_version_0_1_0 != 0;
}
/* Whether an index or a reader was made, and a key and a buffer can be passed. A pointer that is null has to have the length 0. */
static inline bool key_index_is_made(const key_index *index) {
    return index != NULL && index->at != NULL;
}
static inline bool key_index_reader_is_made(const key_index_reader *reader) {
    return reader != NULL && reader->at != NULL;
}
static inline bool key_index_are_passed(const void *key, size_t key_len, const uint64_t *values, size_t room) {
    return (key != NULL || key_len == 0) && key_len <= PTRDIFF_MAX && (values != NULL || room == 0) && room <= PTRDIFF_MAX / sizeof *values;
}
static inline bool key_index_takes(const key_index *index, const void *key, size_t key_len, const uint64_t *values, size_t room) {
    return key_index_is_made(index) && key_index_are_passed(key, key_len, values, room);
}
static inline bool key_index_reader_takes(const key_index_reader *reader, const void *key, size_t key_len, const uint64_t *values,
                                          size_t room) {
    return key_index_reader_is_made(reader) && key_index_are_passed(key, key_len, values, room);
}
/* No bytes are read or written there. */
static inline const uint8_t *key_index_bytes(const void *key) {
    return key != NULL ? (const uint8_t *)key : (const uint8_t *)"";
}
static inline uint64_t *key_index_room(uint64_t *values, uint64_t *other) {
    return values != NULL ? values : other;
}

/* Makes an index of a kind with no values. KEY_INDEX_MEMORY. Only KEY_INDEX_SEEDED takes the seed: draw it at random at each start, and
 * keep it secret. */
static inline key_index_status key_index_new_seeded(key_index *index, key_index_kind kind, uint64_t seed) {
    uint32_t status;
    if (!key_index_is_none(index)) return KEY_INDEX_BAD_ARGUMENT;
    status = key_index_c_new(index, (uint32_t)kind, seed);
    if (status != KEY_INDEX_OK) index->at = NULL;
    return (key_index_status)status;
}
/* The same of a kind that takes no seed. */
static inline key_index_status key_index_new(key_index *index, key_index_kind kind) {
    return kind == KEY_INDEX_SEEDED ? KEY_INDEX_BAD_ARGUMENT : key_index_new_seeded(index, kind, 0);
}

/* Frees an index, which is KEY_INDEX_NONE then. Of null, or of none, it does nothing. */
static inline void key_index_free(key_index *index) {
    if (!key_index_is_made(index)) return;
    key_index_c_free(index);
    index->at = NULL;
}

/* Inserts a value in front of those of its key, or behind them in an ordered index in partitions. KEY_INDEX_MEMORY, KEY_INDEX_FULL. */
static inline key_index_status key_index_insert(key_index *index, const void *key, size_t key_len, uint64_t value) {
    if (!key_index_takes(index, key, key_len, NULL, 0)) return KEY_INDEX_BAD_ARGUMENT;
    return (key_index_status)key_index_c_insert(index, key_index_bytes(key), key_len, value);
}

/* Inserts `n` values in turn, each as key_index_insert does. The keys stand behind one another from `keys` on, and the one of the
 * number i ends in front of keys[ends[i]], so the ends must not fall. `count` is how many were inserted. KEY_INDEX_MEMORY and
 * KEY_INDEX_FULL: as many as `count` says were, and the next one was refused. KEY_INDEX_BAD_ARGUMENT: none. */
static inline key_index_status key_index_insert_many(key_index *index, const void *keys, const size_t *ends, const uint64_t *values,
                                                     size_t n, size_t *count) {
    struct key_index_many told;
    if (count == NULL || !key_index_is_made(index)) return KEY_INDEX_BAD_ARGUMENT;
    *count = 0;
    if (n == 0) return KEY_INDEX_OK;
    if (ends == NULL || values == NULL || n > PTRDIFF_MAX / sizeof *values ||
        !key_index_takes(index, keys, ends[n - 1], NULL, 0)) return KEY_INDEX_BAD_ARGUMENT;
    told = key_index_c_insert_many(index, key_index_bytes(keys), ends[n - 1], ends, n, values, n);
    *count = told.count;
    return (key_index_status)told.status;
}

/* Makes an index of a kind that holds `n` values, as key_index_insert_many inserts them into a new one. Only KEY_INDEX_SEEDED takes the
 * seed. KEY_INDEX_MEMORY, KEY_INDEX_BAD_ARGUMENT: `index` is what it was. */
static inline key_index_status key_index_build(key_index *index, key_index_kind kind, uint64_t seed, const void *keys,
                                               const size_t *ends, const uint64_t *values, size_t n) {
    size_t count = 0;
    key_index_status status = key_index_new_seeded(index, kind, seed);
    if (status != KEY_INDEX_OK) return status;
    status = key_index_insert_many(index, keys, ends, values, n, &count);
    if (status != KEY_INDEX_OK) key_index_free(index);
    return status;
}

/* Writes the values of a key to `values`, in list order, as many as there is room for, and to `count` how many the key has. If
 * that is more than `room`, ask again with more room. */
static inline key_index_status key_index_get(const key_index *index, const void *key, size_t key_len, uint64_t *values, size_t room,
                                             size_t *count) {
    key_index copy;
    struct key_index_found found;
    if (count == NULL || !key_index_takes(index, key, key_len, values, room)) return KEY_INDEX_BAD_ARGUMENT;
    copy = *index;
    found = key_index_c_find(&copy, key_index_bytes(key), key_len);
    if (found.count > 0 && room > 0) values[0] = found.first;
    if (found.count > 1 && room > 1) key_index_c_get(&copy, key_index_bytes(key), key_len, values, room);
    *count = found.count;
    return KEY_INDEX_OK;
}

/* The same of `n` keys, which stand behind one another as for key_index_insert_many: the values of the key of the number i are written
 * behind those of the keys before it, and end in front of values[stops[i]]. `count` is how many values they have in all, as far as
 * SIZE_MAX goes. KEY_INDEX_BAD_ARGUMENT: nothing was written. */
static inline key_index_status key_index_get_many(const key_index *index, const void *keys, const size_t *ends, size_t n,
                                                  uint64_t *values, size_t room, size_t *stops, size_t *count) {
    uint64_t none = 0;
    key_index copy;
    struct key_index_many told;
    if (count == NULL || !key_index_is_made(index)) return KEY_INDEX_BAD_ARGUMENT;
    *count = 0;
    if (n == 0) return KEY_INDEX_OK;
    if (ends == NULL || stops == NULL || n > PTRDIFF_MAX / sizeof *values ||
        !key_index_takes(index, keys, ends[n - 1], values, room)) return KEY_INDEX_BAD_ARGUMENT;
    copy = *index;
    told = key_index_c_get_many(&copy, key_index_bytes(keys), ends[n - 1], ends, n, key_index_room(values, &none), room, stops, n);
    *count = told.count;
    return (key_index_status)told.status;
}

/* Tells whether a key has a value. */
static inline key_index_status key_index_contains(const key_index *index, const void *key, size_t key_len, bool *held) {
    key_index copy;
    if (held == NULL || !key_index_takes(index, key, key_len, NULL, 0)) return KEY_INDEX_BAD_ARGUMENT;
    copy = *index;
    *held = key_index_c_find(&copy, key_index_bytes(key), key_len).count > 0;
    return KEY_INDEX_OK;
}

/* Removes a key with all its values. KEY_INDEX_MEMORY, of an ordered index in partitions alone. */
static inline key_index_status key_index_remove(key_index *index, const void *key, size_t key_len) {
    if (!key_index_takes(index, key, key_len, NULL, 0)) return KEY_INDEX_BAD_ARGUMENT;
    return (key_index_status)key_index_c_remove(index, key_index_bytes(key), key_len);
}

/* Removes the first value of a key that equals `value`, and tells whether there was one. It takes no memory. */
static inline key_index_status key_index_remove_value(key_index *index, const void *key, size_t key_len, uint64_t value,
                                                      bool *found) {
    if (found == NULL || !key_index_takes(index, key, key_len, NULL, 0)) return KEY_INDEX_BAD_ARGUMENT;
    *found = key_index_c_remove_value(index, key_index_bytes(key), key_len, value);
    return KEY_INDEX_OK;
}

/* Puts `with` in the place of the first value of a key that equals `value`, and tells whether there was one. It takes no memory. */
static inline key_index_status key_index_replace_value(key_index *index, const void *key, size_t key_len, uint64_t value,
                                                       uint64_t with, bool *found) {
    if (found == NULL || !key_index_takes(index, key, key_len, NULL, 0)) return KEY_INDEX_BAD_ARGUMENT;
    *found = key_index_c_replace_value(index, key_index_bytes(key), key_len, value, with);
    return KEY_INDEX_OK;
}

/* Keeps those values of a key whose byte of `mask` is not 0, in their order, and removes the others. KEY_INDEX_MEMORY, of an ordered
 * index in partitions alone. KEY_INDEX_BAD_ARGUMENT where the mask has not as many bytes as the key has values. */
static inline key_index_status key_index_keep(key_index *index, const void *key, size_t key_len, const uint8_t *mask, size_t mask_len) {
    if (!key_index_takes(index, key, key_len, NULL, 0) || (mask == NULL && mask_len != 0) || mask_len > PTRDIFF_MAX)
        return KEY_INDEX_BAD_ARGUMENT;
    return (key_index_status)key_index_c_keep(index, key_index_bytes(key), key_len, key_index_bytes(mask), mask_len);
}

/* What the three calls below make. */
static inline struct key_index_counts key_index_counts_of(const key_index *index) {
    const struct key_index_counts none = {0, 0, 0};
    key_index copy;
    if (!key_index_is_made(index)) return none;
    copy = *index;
    return key_index_c_counts(&copy);
}

/* How many keys there are, how many values, and how many were ever removed (that count stops at UINT64_MAX). 0 of none. */
static inline size_t key_index_keys(const key_index *index) {
    return key_index_counts_of(index).keys;
}
static inline size_t key_index_items(const key_index *index) {
    return key_index_counts_of(index).items;
}
static inline uint64_t key_index_pruned(const key_index *index) {
    return key_index_counts_of(index).pruned;
}

/* What the four calls below make, by KEY_INDEX_NEXT and its sisters. */
static inline key_index_status key_index_neighbour_of(const key_index *index, uint32_t which, const void *key, size_t key_len,
                                                      uint64_t *values, size_t room, size_t *count, bool *cycled) {
    uint64_t none = 0;
    key_index copy;
    struct key_index_neighbour told;
    if (count == NULL || cycled == NULL || !key_index_takes(index, key, key_len, values, room)) return KEY_INDEX_BAD_ARGUMENT;
    copy = *index;
    told = key_index_c_neighbour(&copy, which, key_index_bytes(key), key_len, key_index_room(values, &none), room);
    *count = told.count;
    *cycled = told.cycled;
    return (key_index_status)told.status;
}

/* The values of the least shortened key that is greater than that of the key; of the first one, with `cycled` true, if there is none.
 * They are written as key_index_get writes them. `count` is 0 only if the index holds no value. */
static inline key_index_status key_index_next(const key_index *index, const void *key, size_t key_len, uint64_t *values, size_t room,
                                              size_t *count, bool *cycled) {
    return key_index_neighbour_of(index, KEY_INDEX_NEXT, key, key_len, values, room, count, cycled);
}

/* The same below the key: the greatest shortened key that is less, or the last one with `cycled` true. */
static inline key_index_status key_index_prev(const key_index *index, const void *key, size_t key_len, uint64_t *values, size_t room,
                                              size_t *count, bool *cycled) {
    return key_index_neighbour_of(index, KEY_INDEX_PREV, key, key_len, values, room, count, cycled);
}

/* The values of the least shortened key, and of the greatest. */
static inline key_index_status key_index_first(const key_index *index, uint64_t *values, size_t room, size_t *count) {
    bool cycled = false;
    return key_index_neighbour_of(index, KEY_INDEX_FIRST, NULL, 0, values, room, count, &cycled);
}
static inline key_index_status key_index_last(const key_index *index, uint64_t *values, size_t room, size_t *count) {
    bool cycled = false;
    return key_index_neighbour_of(index, KEY_INDEX_LAST, NULL, 0, values, room, count, &cycled);
}

/* Immutable indices
 *
 * Each key is inserted once, at a position of its own, as a record's is in a log that only grows; positions come mostly in order, and
 * are removed from the front alone. The index keeps the first eight bytes of each key, in one row of memory by position, and so holds
 * no list: ask for a key, and it answers the positions of all keys with the same first eight bytes, in no particular order.
 *
 * Keys whose eighth byte is always the same are found slowly, since a search begins where the low bits of the index key select: for keys
 * shorter than eight bytes, and for those that an attacker picks, take a seeded one, which keeps eight bytes of a hash of the whole key. */

/* What the two calls below make. */
static inline key_index_status key_index_new_immutable_of(key_index_immutable *index, uint32_t kind, uint64_t seed, uint64_t start,
                                                          size_t capacity) {
    uint32_t status;
    if (index == NULL || !key_index_is_none(&index->index)) return KEY_INDEX_BAD_ARGUMENT;
    status = key_index_c_new_immutable(&index->index, kind, seed, start, capacity);
    if (status != KEY_INDEX_OK) index->index.at = NULL;
    return (key_index_status)status;
}

/* Makes an index with no positions, whose first one is `start`, and with room for `capacity` insertions in order. KEY_INDEX_MEMORY. */
static inline key_index_status key_index_immutable_new(key_index_immutable *index, uint64_t start, size_t capacity) {
    return key_index_new_immutable_of(index, KEY_INDEX_IMMUTABLE_PLAIN, 0, start, capacity);
}
/* The same by hashes. Draw the seed at random at each start, and keep it secret. */
static inline key_index_status key_index_immutable_new_seeded(key_index_immutable *index, uint64_t seed, uint64_t start,
                                                              size_t capacity) {
    return key_index_new_immutable_of(index, KEY_INDEX_IMMUTABLE_SEEDED, seed, start, capacity);
}

/* Frees an index, which is KEY_INDEX_IMMUTABLE_NONE then. Of null, or of none, it does nothing. */
static inline void key_index_immutable_free(key_index_immutable *index) {
    if (index != NULL) key_index_free(&index->index);
}

/* Indexes a key at a position. KEY_INDEX_BAD_ARGUMENT where the position is below the start, or indexed. KEY_INDEX_TOO_FAR where it is
 * SIZE_MAX or more past the start. KEY_INDEX_MEMORY: the positions between take room, 8 bytes each. */
static inline key_index_status key_index_immutable_insert(key_index_immutable *index, const void *key, size_t key_len,
                                                          uint64_t position) {
    if (index == NULL || !key_index_takes(&index->index, key, key_len, NULL, 0)) return KEY_INDEX_BAD_ARGUMENT;
    return (key_index_status)key_index_c_insert_at(&index->index, key_index_bytes(key), key_len, position);
}

/* Writes the positions of a key to `positions`, each once and in no particular order, as many as there is room for, and to `count` how
 * many the key has. If that is more than `room`, ask again with more room. */
static inline key_index_status key_index_immutable_get(const key_index_immutable *index, const void *key, size_t key_len,
                                                       uint64_t *positions, size_t room, size_t *count) {
    uint64_t none = 0;
    key_index copy;
    if (index == NULL || count == NULL || !key_index_takes(&index->index, key, key_len, positions, room)) return KEY_INDEX_BAD_ARGUMENT;
    copy = index->index;
    *count = key_index_c_positions(&copy, key_index_bytes(key), key_len, key_index_room(positions, &none), room);
    return KEY_INDEX_OK;
}

/* Whether a position is indexed. false of none. */
static inline bool key_index_immutable_is_indexed(const key_index_immutable *index, uint64_t position) {
    key_index copy;
    if (index == NULL || !key_index_is_made(&index->index)) return false;
    copy = index->index;
    return key_index_c_is_indexed(&copy, position);
}

/* Removes every position below `start`, which is the start from then on; one that was passed changes nothing. It takes no memory. */
static inline key_index_status key_index_immutable_prune(key_index_immutable *index, uint64_t start) {
    if (index == NULL || !key_index_is_made(&index->index)) return KEY_INDEX_BAD_ARGUMENT;
    key_index_c_prune(&index->index, start);
    return KEY_INDEX_OK;
}

/* What the three calls below make. */
static inline struct key_index_position_counts key_index_position_counts_of(const key_index_immutable *index) {
    const struct key_index_position_counts none = {0, 0, 0};
    key_index copy;
    if (index == NULL || !key_index_is_made(&index->index)) return none;
    copy = index->index;
    return key_index_c_position_counts(&copy);
}

/* How many positions are indexed, where the index starts, and how many were ever pruned (that count stops at UINT64_MAX). 0 of none. */
static inline size_t key_index_immutable_items(const key_index_immutable *index) {
    return key_index_position_counts_of(index).items;
}
static inline uint64_t key_index_immutable_start(const key_index_immutable *index) {
    return key_index_position_counts_of(index).start;
}
static inline uint64_t key_index_immutable_pruned(const key_index_immutable *index) {
    return key_index_position_counts_of(index).pruned;
}

/* Readers
 *
 * An index that is shared stays as it is, and is read by its readers, on any threads. Each reader is by itself: one thread may free its own
 * while another one reads, and with the last reader the index is freed. The only one left can give the index back, to be changed. */

/* Shares an index, which goes into a first reader; `index` is KEY_INDEX_NONE then. KEY_INDEX_MEMORY: both are what they were. */
static inline key_index_status key_index_share(key_index *index, key_index_reader *reader) {
    uint32_t status;
    if (!key_index_is_made(index) || reader == NULL || reader->at != NULL) return KEY_INDEX_BAD_ARGUMENT;
    status = key_index_c_share(index, reader);
    if (status == KEY_INDEX_OK) index->at = NULL;
    else reader->at = NULL;
    return (key_index_status)status;
}

/* Gives the index back, if this is its only reader, which is KEY_INDEX_READER_NONE then. KEY_INDEX_SHARED: there are others, and both are
 * what they were. It takes no memory. */
static inline key_index_status key_index_unshare(key_index_reader *reader, key_index *index) {
    uint32_t status;
    if (!key_index_reader_is_made(reader) || index == NULL || index->at != NULL) return KEY_INDEX_BAD_ARGUMENT;
    status = key_index_c_unshare(reader, index);
    if (status == KEY_INDEX_OK) reader->at = NULL;
    else index->at = NULL;
    return (key_index_status)status;
}

/* Makes one more reader of an index. KEY_INDEX_MEMORY. */
static inline key_index_status key_index_reader_clone(const key_index_reader *reader, key_index_reader *clone) {
    key_index_reader copy;
    uint32_t status;
    if (!key_index_reader_is_made(reader) || clone == NULL || clone->at != NULL) return KEY_INDEX_BAD_ARGUMENT;
    copy = *reader;
    status = key_index_c_reader_clone(&copy, clone);
    if (status != KEY_INDEX_OK) clone->at = NULL;
    return (key_index_status)status;
}

/* Frees a reader, which is KEY_INDEX_READER_NONE then, and with the last one the index. Of null, or of none, it does nothing. */
static inline void key_index_reader_free(key_index_reader *reader) {
    if (!key_index_reader_is_made(reader)) return;
    key_index_c_reader_free(reader);
    reader->at = NULL;
}

/* The following read as the functions of an index do whose names they have. */
static inline key_index_status key_index_reader_get(const key_index_reader *reader, const void *key, size_t key_len, uint64_t *values,
                                                    size_t room, size_t *count) {
    key_index_reader copy;
    struct key_index_found found;
    if (count == NULL || !key_index_reader_takes(reader, key, key_len, values, room)) return KEY_INDEX_BAD_ARGUMENT;
    copy = *reader;
    found = key_index_c_reader_find(&copy, key_index_bytes(key), key_len);
    if (found.count > 0 && room > 0) values[0] = found.first;
    if (found.count > 1 && room > 1) key_index_c_reader_get(&copy, key_index_bytes(key), key_len, values, room);
    *count = found.count;
    return KEY_INDEX_OK;
}
static inline key_index_status key_index_reader_get_many(const key_index_reader *reader, const void *keys, const size_t *ends, size_t n,
                                                         uint64_t *values, size_t room, size_t *stops, size_t *count) {
    uint64_t none = 0;
    key_index_reader copy;
    struct key_index_many told;
    if (count == NULL || !key_index_reader_is_made(reader)) return KEY_INDEX_BAD_ARGUMENT;
    *count = 0;
    if (n == 0) return KEY_INDEX_OK;
    if (ends == NULL || stops == NULL || n > PTRDIFF_MAX / sizeof *values ||
        !key_index_reader_takes(reader, keys, ends[n - 1], values, room)) return KEY_INDEX_BAD_ARGUMENT;
    copy = *reader;
    told = key_index_c_reader_get_many(&copy, key_index_bytes(keys), ends[n - 1], ends, n, key_index_room(values, &none), room, stops, n);
    *count = told.count;
    return (key_index_status)told.status;
}
static inline key_index_status key_index_reader_contains(const key_index_reader *reader, const void *key, size_t key_len, bool *held) {
    key_index_reader copy;
    if (held == NULL || !key_index_reader_takes(reader, key, key_len, NULL, 0)) return KEY_INDEX_BAD_ARGUMENT;
    copy = *reader;
    *held = key_index_c_reader_find(&copy, key_index_bytes(key), key_len).count > 0;
    return KEY_INDEX_OK;
}
static inline struct key_index_counts key_index_reader_counts_of(const key_index_reader *reader) {
    const struct key_index_counts none = {0, 0, 0};
    key_index_reader copy;
    if (!key_index_reader_is_made(reader)) return none;
    copy = *reader;
    return key_index_c_reader_counts(&copy);
}
static inline size_t key_index_reader_keys(const key_index_reader *reader) {
    return key_index_reader_counts_of(reader).keys;
}
static inline size_t key_index_reader_items(const key_index_reader *reader) {
    return key_index_reader_counts_of(reader).items;
}
static inline uint64_t key_index_reader_pruned(const key_index_reader *reader) {
    return key_index_reader_counts_of(reader).pruned;
}
static inline key_index_status key_index_reader_neighbour_of(const key_index_reader *reader, uint32_t which, const void *key,
                                                             size_t key_len, uint64_t *values, size_t room, size_t *count,
                                                             bool *cycled) {
    uint64_t none = 0;
    key_index_reader copy;
    struct key_index_neighbour told;
    if (count == NULL || cycled == NULL || !key_index_reader_takes(reader, key, key_len, values, room)) return KEY_INDEX_BAD_ARGUMENT;
    copy = *reader;
    told = key_index_c_reader_neighbour(&copy, which, key_index_bytes(key), key_len, key_index_room(values, &none), room);
    *count = told.count;
    *cycled = told.cycled;
    return (key_index_status)told.status;
}
static inline key_index_status key_index_reader_next(const key_index_reader *reader, const void *key, size_t key_len, uint64_t *values,
                                                     size_t room, size_t *count, bool *cycled) {
    return key_index_reader_neighbour_of(reader, KEY_INDEX_NEXT, key, key_len, values, room, count, cycled);
}
static inline key_index_status key_index_reader_prev(const key_index_reader *reader, const void *key, size_t key_len, uint64_t *values,
                                                     size_t room, size_t *count, bool *cycled) {
    return key_index_reader_neighbour_of(reader, KEY_INDEX_PREV, key, key_len, values, room, count, cycled);
}
static inline key_index_status key_index_reader_first(const key_index_reader *reader, uint64_t *values, size_t room, size_t *count) {
    bool cycled = false;
    return key_index_reader_neighbour_of(reader, KEY_INDEX_FIRST, NULL, 0, values, room, count, &cycled);
}
static inline key_index_status key_index_reader_last(const key_index_reader *reader, uint64_t *values, size_t room, size_t *count) {
    bool cycled = false;
    return key_index_reader_neighbour_of(reader, KEY_INDEX_LAST, NULL, 0, values, room, count, &cycled);
}

/* The same for an immutable index. */
static inline key_index_status key_index_immutable_share(key_index_immutable *index, key_index_immutable_reader *reader) {
    return index != NULL && reader != NULL ? key_index_share(&index->index, &reader->reader) : KEY_INDEX_BAD_ARGUMENT;
}
static inline key_index_status key_index_immutable_unshare(key_index_immutable_reader *reader, key_index_immutable *index) {
    return index != NULL && reader != NULL ? key_index_unshare(&reader->reader, &index->index) : KEY_INDEX_BAD_ARGUMENT;
}
static inline key_index_status key_index_immutable_reader_clone(const key_index_immutable_reader *reader,
                                                                key_index_immutable_reader *clone) {
    return reader != NULL && clone != NULL ? key_index_reader_clone(&reader->reader, &clone->reader) : KEY_INDEX_BAD_ARGUMENT;
}
static inline void key_index_immutable_reader_free(key_index_immutable_reader *reader) {
    if (reader != NULL) key_index_reader_free(&reader->reader);
}
static inline key_index_status key_index_immutable_reader_get(const key_index_immutable_reader *reader, const void *key, size_t key_len,
                                                              uint64_t *positions, size_t room, size_t *count) {
    uint64_t none = 0;
    key_index_reader copy;
    if (reader == NULL || count == NULL || !key_index_reader_takes(&reader->reader, key, key_len, positions, room))
        return KEY_INDEX_BAD_ARGUMENT;
    copy = reader->reader;
    *count = key_index_c_reader_positions(&copy, key_index_bytes(key), key_len, key_index_room(positions, &none), room);
    return KEY_INDEX_OK;
}
static inline bool key_index_immutable_reader_is_indexed(const key_index_immutable_reader *reader, uint64_t position) {
    key_index_reader copy;
    if (reader == NULL || !key_index_reader_is_made(&reader->reader)) return false;
    copy = reader->reader;
    return key_index_c_reader_is_indexed(&copy, position);
}
static inline struct key_index_position_counts key_index_immutable_reader_counts_of(const key_index_immutable_reader *reader) {
    const struct key_index_position_counts none = {0, 0, 0};
    key_index_reader copy;
    if (reader == NULL || !key_index_reader_is_made(&reader->reader)) return none;
    copy = reader->reader;
    return key_index_c_reader_position_counts(&copy);
}
static inline size_t key_index_immutable_reader_items(const key_index_immutable_reader *reader) {
    return key_index_immutable_reader_counts_of(reader).items;
}
static inline uint64_t key_index_immutable_reader_start(const key_index_immutable_reader *reader) {
    return key_index_immutable_reader_counts_of(reader).start;
}
static inline uint64_t key_index_immutable_reader_pruned(const key_index_immutable_reader *reader) {
    return key_index_immutable_reader_counts_of(reader).pruned;
}

/* Ranges
 *
 * Threads can fill an index in partitions at once, each of them a range: some neighbouring partitions, apart from the index. Every thread
 * goes through all records, and inserts those of its range. Then the ranges are installed in the index, one after another. */

/* Makes a range with no values for `count` partitions of an index from the number `first` on. Their number is the first byte of a key, or
 * the first byte times 256 plus the second, so there are 256 or 65,536. KEY_INDEX_MEMORY. */
static inline key_index_status key_index_range_new(const key_index *index, key_index_range *range, size_t first, size_t count) {
    key_index copy;
    uint32_t status;
    if (!key_index_is_made(index) || range == NULL || range->at != NULL) return KEY_INDEX_BAD_ARGUMENT;
    copy = *index;
    status = key_index_c_range(&copy, range, first, count);
    if (status != KEY_INDEX_OK) range->at = NULL;
    return (key_index_status)status;
}

/* Goes through `n` values as key_index_insert_many does, and inserts those whose keys are of the range's partitions. `count` is how many
 * it went through. KEY_INDEX_MEMORY and KEY_INDEX_FULL: as many as `count` says, and the next one was refused. KEY_INDEX_BAD_ARGUMENT:
 * none. */
static inline key_index_status key_index_range_insert_many(key_index_range *range, const void *keys, const size_t *ends,
                                                           const uint64_t *values, size_t n, size_t *count) {
    struct key_index_many told;
    if (count == NULL || range == NULL || range->at == NULL) return KEY_INDEX_BAD_ARGUMENT;
    *count = 0;
    if (n == 0) return KEY_INDEX_OK;
    if (ends == NULL || values == NULL || n > PTRDIFF_MAX / sizeof *values || !key_index_are_passed(keys, ends[n - 1], NULL, 0))
        return KEY_INDEX_BAD_ARGUMENT;
    told = key_index_c_range_insert_many(range, key_index_bytes(keys), ends[n - 1], ends, n, values, n);
    *count = told.count;
    return (key_index_status)told.status;
}

/* Installs a range in an index of its kind that has no value in these partitions: what it holds is in the index, and the range is
 * KEY_INDEX_RANGE_NONE then. KEY_INDEX_FULL. It takes no memory. */
static inline key_index_status key_index_install(key_index *index, key_index_range *range) {
    uint32_t status;
    if (!key_index_is_made(index) || range == NULL || range->at == NULL) return KEY_INDEX_BAD_ARGUMENT;
    status = key_index_c_install(index, range);
    if (status == KEY_INDEX_OK) range->at = NULL;
    return (key_index_status)status;
}

/* Frees a range, which is KEY_INDEX_RANGE_NONE then. Of null, or of none, it does nothing. */
static inline void key_index_range_free(key_index_range *range) {
    if (range == NULL || range->at == NULL) return;
    key_index_c_range_free(range);
    range->at = NULL;
}

#ifdef __cplusplus
}
#endif

#endif
