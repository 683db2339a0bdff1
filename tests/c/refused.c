/* Refuses each allocation in turn, linked with --wrap for malloc, realloc and free. Behind each call the index has to hold what a list
 * beside it does: a refused insertion answers KEY_INDEX_MEMORY and changes nothing. At the end no block may be left, and a free has to
 * free at least one. The names by which the library allocates are this program's too, which it never calls. */
#include "key_index.h"

#include <stdio.h>
#include <stdlib.h>
#include <string.h>

void *__real_malloc(size_t size);
void *__real_realloc(void *old, size_t size);
void __real_free(void *block);

/* Each so many-th allocation is refused. */
#ifndef STEP
#define STEP 1
#endif
static long blocks, allocations, refused;

static bool refuses(void) { return ++allocations == refused; }

void *__wrap_malloc(size_t size) {
    void *block = refuses() ? NULL : __real_malloc(size);
    blocks += block != NULL;
    return block;
}

void *__wrap_realloc(void *old, size_t size) {
    void *block = refuses() ? NULL : __real_realloc(old, size);
    blocks += block != NULL && old == NULL;
    return block;
}

void __wrap_free(void *block) {
    blocks -= block != NULL;
    __real_free(block);
}

void rattle_alloc(void) { abort(); }
void rattle_realloc(void) { abort(); }
void rattle_dealloc(void) { abort(); }

#define CHECK(what) \
    do { \
        if (!(what)) { \
            printf("%s:%d: kind %d, allocation %ld refused: %s\n", __FILE__, __LINE__, (int)kind, refused, #what); \
            exit(1); \
        } \
    } while (0)

enum { KEYS = 40, CALLS = 400, ROOM = 64 };
static uint64_t lists[KEYS][2 * CALLS];
static size_t lens[KEYS];

/* The index holds the lists, asked one by one and all at once. */
static void holds(key_index *index, key_index_kind kind) {
    static uint8_t all[8 * KEYS];
    static uint64_t values_of_all[4 * CALLS];
    size_t ends[KEYS], stops[KEYS];
    size_t keys = 0, items = 0, count, i;
    for (i = 0; i < KEYS; i++) {
        uint8_t key[8] = {0, 0, 0, 0, 0, 0, 0, (uint8_t)i};
        uint64_t values[ROOM];
        size_t room = i % 2 ? ROOM : 2, shown = lens[i] < room ? lens[i] : room;
        CHECK(key_index_get(index, key, sizeof key, values, room, &count) == KEY_INDEX_OK && count == lens[i]);
        CHECK(memcmp(values, lists[i], shown * sizeof *values) == 0);
        all[8 * i + 7] = (uint8_t)i;
        ends[i] = 8 * i + 8;
        keys += lens[i] != 0;
        items += lens[i];
    }
    CHECK(key_index_get_many(index, all, ends, KEYS, values_of_all, 4 * CALLS, stops, &count) == KEY_INDEX_OK && count == items);
    for (i = 0, count = 0; i < KEYS; count = stops[i++]) {
        CHECK(stops[i] == count + lens[i]);
        CHECK(memcmp(&values_of_all[count], lists[i], lens[i] * sizeof **lists) == 0);
    }
    CHECK(key_index_keys(index) == keys && key_index_items(index) == items);
}

/* A list with one value more: in front, or behind those of an ordered index in partitions. */
static void put(key_index_kind kind, size_t at, uint64_t value) {
    bool behind = kind == KEY_INDEX_ORDERED_BY_ONE || kind == KEY_INDEX_ORDERED_BY_TWO;
    if (!behind) memmove(&lists[at][1], lists[at], lens[at] * sizeof value);
    lists[at][behind ? lens[at] : 0] = value;
    lens[at]++;
}

/* A session of calls. Returns whether an allocation was refused. */
static bool session(key_index_kind kind) {
    key_index index = KEY_INDEX_NONE;
    key_index_status status = key_index_new_seeded(&index, kind, 7);
    uint64_t random = 88172645463325252u;
    int i;
    memset(lens, 0, sizeof lens);
    if (status != KEY_INDEX_OK) CHECK(status == KEY_INDEX_MEMORY && index.at == NULL && allocations >= refused && blocks == 0);
    if (status != KEY_INDEX_OK) return true;
    for (i = 0; i < CALLS; i++) {
        uint8_t key[8] = {0};
        size_t at;
        long before = allocations;
        bool found;
        random ^= random << 13, random ^= random >> 7, random ^= random << 17;
        at = (size_t)(random >> 20) % KEYS;
        key[7] = (uint8_t)at;
        if (random % 8 == 0) {
            CHECK(key_index_remove(&index, key, sizeof key) == KEY_INDEX_OK);
            lens[at] = 0;
        } else if (random % 8 == 1) {
            uint64_t value = lens[at] != 0 ? lists[at][lens[at] / 2] : 7;
            CHECK(key_index_remove_value(&index, key, sizeof key, value, &found) == KEY_INDEX_OK && found == (lens[at] != 0));
            if (found) memmove(&lists[at][lens[at] / 2], &lists[at][lens[at] / 2 + 1], (lens[at] - lens[at] / 2 - 1) * sizeof value);
            lens[at] -= found;
        } else if (random % 8 == 3) {
            uint8_t mask[2 * CALLS];
            size_t kept = 0, place;
            for (place = 0; place < lens[at]; place++) {
                mask[place] = (uint8_t)(random >> place % 48 & 1);
                if (mask[place]) lists[at][kept++] = lists[at][place];
            }
            CHECK(key_index_keep(&index, key, sizeof key, mask, lens[at]) == KEY_INDEX_OK);
            CHECK(key_index_keep(&index, key, sizeof key, mask, kept + 1) == KEY_INDEX_BAD_ARGUMENT);
            lens[at] = kept;
        } else if (random % 8 == 2) {
            /* two values of one key: one of them, none or both */
            uint8_t keys[16] = {0};
            size_t ends[2] = {8, 16}, count = 0, taken;
            uint64_t values[2] = {(uint64_t)i, (uint64_t)i + 500};
            keys[7] = keys[15] = (uint8_t)at;
            status = key_index_insert_many(&index, keys, ends, values, 2, &count);
            CHECK(status == (before < refused && refused <= allocations ? KEY_INDEX_MEMORY : KEY_INDEX_OK));
            CHECK(status == KEY_INDEX_OK ? count == 2 : count < 2);
            for (taken = 0; taken < count; taken++) put(kind, at, values[taken]);
        } else {
            status = key_index_insert(&index, key, sizeof key, (uint64_t)i + 1000);
            CHECK(status == (before < refused && refused <= allocations ? KEY_INDEX_MEMORY : KEY_INDEX_OK));
            if (status == KEY_INDEX_OK) put(kind, at, (uint64_t)i + 1000);
        }
        holds(&index, kind);
    }
    CHECK(blocks > 0);
    key_index_free(&index);
    CHECK(blocks == 0 && index.at == NULL);
    return allocations >= refused;
}

/* A build of twice as many values as keys: the index holds all, or there is none. */
static bool build(key_index_kind kind) {
    static uint8_t keys[16 * KEYS];
    key_index index = KEY_INDEX_NONE;
    key_index_status status;
    uint64_t values[2 * KEYS];
    size_t ends[2 * KEYS], i;
    memset(lens, 0, sizeof lens);
    for (i = 0; i < 2 * KEYS; i++) {
        size_t at = i * 7 % KEYS;
        keys[8 * i + 7] = (uint8_t)at;
        ends[i] = 8 * i + 8;
        values[i] = i + 1000;
        put(kind, at, values[i]);
    }
    status = key_index_build(&index, kind, 7, keys, ends, values, 2 * KEYS);
    CHECK(status == (refused <= allocations ? KEY_INDEX_MEMORY : KEY_INDEX_OK));
    if (status == KEY_INDEX_OK) holds(&index, kind);
    CHECK((status == KEY_INDEX_OK) == (index.at != NULL) && (status == KEY_INDEX_OK || blocks == 0));
    key_index_free(&index);
    CHECK(blocks == 0);
    return status != KEY_INDEX_OK;
}

/* An index that is shared, with three readers: a refused call changes nothing, and leaves the index or the reader for the next try. */
static bool share(key_index_kind kind) {
    key_index index = KEY_INDEX_NONE;
    key_index_reader readers[3] = {KEY_INDEX_READER_NONE, KEY_INDEX_READER_NONE, KEY_INDEX_READER_NONE};
    key_index_status status;
    const long number = refused;
    uint8_t key[8] = {0};
    uint64_t value;
    size_t count;
    int i;
    memset(lens, 0, sizeof lens);
    refused = -1;
    CHECK(key_index_new_seeded(&index, kind, 7) == KEY_INDEX_OK);
    for (i = 0; i < KEYS; i++) {
        key[7] = (uint8_t)i;
        CHECK(key_index_insert(&index, key, sizeof key, (uint64_t)i) == KEY_INDEX_OK);
        put(kind, (size_t)i, (uint64_t)i);
    }
    allocations = 0;
    refused = number;
    for (i = 0; i < 3;) {
        long before = allocations;
        status = i == 0 ? key_index_share(&index, &readers[0]) : key_index_reader_clone(&readers[i - 1], &readers[i]);
        CHECK(status == (before < refused && refused <= allocations ? KEY_INDEX_MEMORY : KEY_INDEX_OK));
        CHECK((status == KEY_INDEX_OK) == (readers[i].at != NULL) && (index.at != NULL) == (readers[0].at == NULL));
        if (index.at != NULL) holds(&index, kind);
        i += status == KEY_INDEX_OK;
    }
    for (i = 0; i < 3; i++) {
        long before = allocations, held = blocks;
        CHECK(key_index_reader_get(&readers[i], key, sizeof key, &value, 1, &count) == KEY_INDEX_OK && count == 1 && value == KEYS - 1);
        status = key_index_unshare(&readers[i], &index);
        CHECK(status == (i < 2 ? KEY_INDEX_SHARED : KEY_INDEX_OK) && (index.at != NULL) == (i == 2) && (readers[i].at == NULL) == (i == 2));
        key_index_reader_free(&readers[i]);
        CHECK(readers[i].at == NULL && allocations == before && blocks < held);
    }
    holds(&index, kind);
    key_index_free(&index);
    CHECK(blocks == 0);
    return allocations >= refused;
}

/* A range of some partitions, which takes in what it covers: behind a refused call it goes on with the next try. To install it takes no
 * memory. */
static bool range(key_index_kind kind) {
    static uint8_t keys[16 * KEYS];
    const size_t by = kind == KEY_INDEX_UNORDERED_BY_ONE || kind == KEY_INDEX_ORDERED_BY_ONE ? 1 : 256;
    key_index index = KEY_INDEX_NONE;
    key_index_range made = KEY_INDEX_RANGE_NONE;
    key_index_status status;
    uint64_t values[2 * KEYS];
    size_t ends[2 * KEYS], gone = 0, count = 0, i;
    const long number = refused;
    long before;
    memset(lens, 0, sizeof lens);
    refused = -1;
    CHECK(key_index_new(&index, kind) == KEY_INDEX_OK);
    /* only the keys whose first byte is 0 are of the range, and of those lists */
    for (i = 0; i < 2 * KEYS; i++) {
        size_t at = i * 7 % KEYS;
        memset(&keys[8 * i], 0, 8);
        keys[8 * i] = i % 3 == 0;
        keys[8 * i + 7] = (uint8_t)at;
        ends[i] = 8 * i + 8;
        values[i] = i + 1000;
        if (i % 3 != 0) put(kind, at, values[i]);
    }
    allocations = 0;
    refused = number;
    do {
        before = allocations;
        status = key_index_range_new(&index, &made, 0, by);
        CHECK(status == (before < refused && refused <= allocations ? KEY_INDEX_MEMORY : KEY_INDEX_OK));
        CHECK((status == KEY_INDEX_OK) == (made.at != NULL));
    } while (status != KEY_INDEX_OK);
    while (gone < 2 * KEYS) {
        size_t left[2 * KEYS];
        for (i = gone; i < 2 * KEYS; i++) left[i] = ends[i] - 8 * gone;
        before = allocations;
        status = key_index_range_insert_many(&made, &keys[8 * gone], &left[gone], &values[gone], 2 * KEYS - gone, &count);
        CHECK(status == (before < refused && refused <= allocations ? KEY_INDEX_MEMORY : KEY_INDEX_OK));
        gone += count;
        CHECK(status == KEY_INDEX_OK ? gone == 2 * KEYS : gone < 2 * KEYS && gone % 3 != 0);
    }
    before = allocations;
    CHECK(key_index_install(&index, &made) == KEY_INDEX_OK && made.at == NULL && allocations == before);
    holds(&index, kind);
    key_index_free(&index);
    CHECK(blocks == 0);
    return allocations >= refused;
}

/* A session of an immutable index: keys by position, of which those below the start are gone. */
static bool immutable_session(bool seeded) {
    enum { PLACES = 300, FIRST = 1000 };
    static uint8_t keys[PLACES]; /* 0 where a position is not indexed */
    const int kind = seeded ? KEY_INDEX_IMMUTABLE_SEEDED : KEY_INDEX_IMMUTABLE_PLAIN;
    key_index_immutable index = KEY_INDEX_IMMUTABLE_NONE;
    key_index_status status = seeded ? key_index_immutable_new_seeded(&index, 7, FIRST, 3) : key_index_immutable_new(&index, FIRST, 3);
    uint64_t random = 88172645463325252u, start = 0, pruned = 0;
    int i;
    memset(keys, 0, sizeof keys);
    if (status != KEY_INDEX_OK) CHECK(status == KEY_INDEX_MEMORY && index.index.at == NULL && allocations >= refused && blocks == 0);
    if (status != KEY_INDEX_OK) return true;
    for (i = 0; i < PLACES; i++) {
        uint64_t found[PLACES], at, items = 0;
        uint8_t key[8] = {0}, asked[8] = {0};
        size_t count, room = i % 2 ? PLACES : 2, place, many = 0;
        long before = allocations;
        random ^= random << 13, random ^= random >> 7, random ^= random << 17;
        at = random % 4 ? (uint64_t)i : random / 4 % PLACES;
        key[0] = (uint8_t)(1 + (random >> 20) % 9);
        asked[0] = (uint8_t)(1 + (random >> 30) % 9);
        status = key_index_immutable_insert(&index, key, sizeof key, FIRST + at);
        if (at < start || keys[at] != 0) CHECK(status == KEY_INDEX_BAD_ARGUMENT && allocations == before);
        else CHECK(status == (before < refused && refused <= allocations ? KEY_INDEX_MEMORY : KEY_INDEX_OK));
        if (status == KEY_INDEX_OK) keys[at] = key[0];
        if (random % 32 == 0) {
            uint64_t bound = random / 32 % (uint64_t)(i + 1);
            before = allocations;
            CHECK(key_index_immutable_prune(&index, FIRST + bound) == KEY_INDEX_OK && allocations == before);
            for (; start < bound; start++) pruned += keys[start] != 0, keys[start] = 0;
        }
        CHECK(key_index_immutable_get(&index, asked, sizeof asked, found, room, &count) == KEY_INDEX_OK);
        for (place = 0; place < PLACES; place++) {
            CHECK(key_index_immutable_is_indexed(&index, FIRST + place) == (keys[place] != 0));
            items += keys[place] != 0;
            many += keys[place] == asked[0];
        }
        CHECK(count == many);
        for (place = 0; place < count && place < room; place++) {
            CHECK(found[place] - FIRST < PLACES && keys[found[place] - FIRST] == asked[0]);
            for (at = 0; at < place; at++) CHECK(found[at] != found[place]);
        }
        CHECK(key_index_immutable_items(&index) == items && key_index_immutable_start(&index) == FIRST + start);
        CHECK(key_index_immutable_pruned(&index) == pruned);
    }
    CHECK(pruned > 0 && blocks > 0);
    key_index_immutable_free(&index);
    CHECK(blocks == 0 && index.index.at == NULL);
    return allocations >= refused;
}

int main(void) {
    int kind;
    for (kind = KEY_INDEX_UNORDERED; kind <= KEY_INDEX_ORDERED_BY_TWO; kind++) {
        for (refused = 1;; refused += STEP) {
            allocations = 0;
            if (!session((key_index_kind)kind)) break;
        }
        if (refused < 10) return 1;
        for (refused = 1;; refused += STEP) {
            allocations = 0;
            if (!build((key_index_kind)kind)) break;
        }
        if (refused < 10) return 1;
        for (refused = 1; share((key_index_kind)kind);) refused += STEP;
        if (refused < 4) return 1;
        if (kind < KEY_INDEX_UNORDERED_BY_ONE) continue;
        for (refused = 1; range((key_index_kind)kind);) refused += STEP;
        if (refused < 4) return 1;
    }
    for (kind = 0; kind < 2; kind++) {
        for (refused = 1;; refused += STEP) {
            allocations = 0;
            if (!immutable_session(kind == 1)) break;
        }
        if (refused < 10) return 1;
    }
    return 0;
}
