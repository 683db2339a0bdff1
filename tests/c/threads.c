/* Threads that call for one index, each answer beside lists: reads at once, reads and changes under a lock, an index that goes from thread
 * to thread, readers of one that is shared, and ranges. With RACE 1 two threads find a key by one key_index, with no copy, and with RACE 2
 * one inserts while the other one reads: where the library has checks of races, they have to report it. */
#define _GNU_SOURCE
#include "key_index.h"

#include <pthread.h>
#include <stdio.h>
#include <stdlib.h>
#include <string.h>

#define CHECK(what) \
    do { \
        if (!(what)) { \
            fprintf(stderr, "%s:%d: %s\n", __FILE__, __LINE__, #what); \
            exit(1); \
        } \
    } while (0)

#ifndef CALLS
#define CALLS 5000
#endif
#ifndef RACE
#define RACE 0
#endif

enum { THREADS = 8, KEYS = 600, ROOM = 8, POSITIONS = 3000 };

/* What the threads share: an index with what it holds, and where it is while it goes about. */
static struct {
    key_index index;
    key_index_kind kind;
    size_t lens[KEYS];
    uint64_t lists[KEYS][ROOM], pruned, last;
    key_index_reader reader;
    pthread_rwlock_t lock;
    pthread_mutex_t mutex;
    pthread_cond_t moved;
    size_t turn;
} shared;

static uint64_t next(uint64_t *random) {
    *random ^= *random << 13, *random ^= *random >> 7, *random ^= *random << 17;
    return *random >> 20;
}

static void start(void *(*run)(void *)) {
    pthread_t threads[THREADS];
    static size_t numbers[THREADS];
    size_t i;
    for (i = 0; i < THREADS; i++) {
        numbers[i] = i;
        CHECK(pthread_create(&threads[i], NULL, run, &numbers[i]) == 0);
    }
    for (i = 0; i < THREADS; i++) CHECK(pthread_join(threads[i], NULL) == 0);
}

/* The key of a number: keys are in the order of the numbers, and their first byte, or two, picks a partition. */
static const uint8_t *key_of(size_t at, uint8_t key[8]) {
    memset(key, 0, 8);
    key[0] = (uint8_t)(at >> 8), key[1] = (uint8_t)at;
    return key;
}

static bool is_ordered(key_index_kind kind) {
    return kind == KEY_INDEX_ORDERED || kind >= KEY_INDEX_ORDERED_BY_ONE;
}

/* The values that a call wrote are those of a key. */
static void are_of(size_t at, const uint64_t values[ROOM], size_t count) {
    CHECK(count == shared.lens[at] && memcmp(values, shared.lists[at], count * sizeof *values) == 0);
}

/* The nearest key with a value, from a number on, up or down, and around the end. KEYS if there is none. */
static size_t nearest(size_t at, bool up, bool *cycled) {
    size_t i;
    for (i = 1; i <= KEYS; i++) {
        size_t other = (at + (up ? i : 2 * KEYS - i)) % KEYS;
        if (shared.lens[other] == 0) continue;
        *cycled = up ? other <= at : other >= at;
        return other;
    }
    return KEYS;
}

/* Calls of the index, or of a reader, if there is one. */
#define ASK(call, ...) (reader != NULL ? key_index_reader_##call(reader, __VA_ARGS__) : key_index_##call(&shared.index, __VA_ARGS__))
#define TELL(call) (reader != NULL ? key_index_reader_##call(reader) : key_index_##call(&shared.index))

/* Asks for a random key, for it with two others, for its neighbours, and sometimes for the counts. */
static void read_some(const key_index_reader *reader, uint64_t *random) {
    uint8_t key[8], keys[24];
    uint64_t values[3 * ROOM];
    size_t at = next(random) % KEYS, ends[3] = {8, 16, 24}, stops[3], count = 0, i, many[3], neighbour;
    bool told, cycled = false, wanted = false;
    CHECK(ASK(get, key_of(at, key), 8, values, ROOM, &count) == KEY_INDEX_OK);
    are_of(at, values, count);
    CHECK(ASK(contains, key, 8, &told) == KEY_INDEX_OK && told == (count > 0));
    for (i = 0; i < 3; i++) key_of(many[i] = next(random) % KEYS, &keys[8 * i]);
    CHECK(ASK(get_many, keys, ends, 3, values, 3 * ROOM, stops, &count) == KEY_INDEX_OK && count == stops[2]);
    for (i = 0; i < 3; i++) are_of(many[i], &values[i == 0 ? 0 : stops[i - 1]], stops[i] - (i == 0 ? 0 : stops[i - 1]));
    if (is_ordered(shared.kind)) {
        neighbour = nearest(at, true, &wanted);
        CHECK(ASK(next, key, 8, values, ROOM, &count, &cycled) == KEY_INDEX_OK && cycled == wanted);
        are_of(neighbour, values, count);
        neighbour = nearest(at, false, &wanted);
        CHECK(ASK(prev, key, 8, values, ROOM, &count, &cycled) == KEY_INDEX_OK && cycled == wanted);
        are_of(neighbour, values, count);
        CHECK(ASK(first, values, ROOM, &count) == KEY_INDEX_OK);
        are_of(nearest(KEYS - 1, true, &wanted), values, count);
        CHECK(ASK(last, values, ROOM, &count) == KEY_INDEX_OK);
        are_of(nearest(0, false, &wanted), values, count);
    }
    if (next(random) % 64 == 0) {
        size_t held = 0, items = 0;
        for (i = 0; i < KEYS; i++) held += shared.lens[i] != 0, items += shared.lens[i];
        CHECK(TELL(keys) == held && TELL(items) == items && TELL(pruned) == shared.pruned);
    }
}

/* Inserts a value under a random key, or removes one, or all. The first keys are let alone. */
static void change_some(key_index *index, uint64_t *random) {
    uint64_t choice = next(random) % 8;
    size_t at = 2 + next(random) % (KEYS - 2), *len = &shared.lens[at];
    bool behind = shared.kind == KEY_INDEX_ORDERED_BY_ONE || shared.kind == KEY_INDEX_ORDERED_BY_TWO, found;
    uint64_t *list = shared.lists[at];
    uint8_t key[8];
    key_of(at, key);
    if (*len == ROOM || choice == 0) {
        CHECK(key_index_remove(index, key, 8) == KEY_INDEX_OK);
        shared.pruned += *len;
        *len = 0;
    } else if (choice == 1 && *len > 0) {
        CHECK(key_index_remove_value(index, key, 8, list[*len - 1], &found) == KEY_INDEX_OK && found);
        shared.pruned++;
        --*len;
    } else {
        CHECK(key_index_insert(index, key, 8, ++shared.last) == KEY_INDEX_OK);
        if (!behind) memmove(&list[1], list, *len * sizeof *list);
        list[behind ? *len : 0] = shared.last;
        ++*len;
    }
}

/* Makes an index of a kind, with two keys, and changes it. */
static void make(key_index_kind kind) {
    uint64_t random = 88172645463325252u;
    uint8_t key[8];
    size_t i;
    shared.kind = kind;
    shared.pruned = 0;
    memset(shared.lens, 0, sizeof shared.lens);
    CHECK(key_index_new_seeded(&shared.index, kind, 7) == KEY_INDEX_OK);
    for (i = 0; i < 2; i++) {
        CHECK(key_index_insert(&shared.index, key_of(i, key), 8, i) == KEY_INDEX_OK);
        shared.lists[i][0] = i;
        shared.lens[i] = 1;
    }
    for (i = 0; i < 2 * KEYS; i++) change_some(&shared.index, &random);
}

static void *reads(void *number) {
    uint64_t random = 88172645463325252u + *(size_t *)number;
    size_t i;
    for (i = 0; i < CALLS; i++) read_some(NULL, &random);
    return NULL;
}

/* The first thread changes it, the others read. */
static void *reads_or_changes(void *number) {
    uint64_t random = 88172645463325252u + *(size_t *)number;
    size_t i;
    for (i = 0; i < CALLS; i++) {
        CHECK((*(size_t *)number == 0 ? pthread_rwlock_wrlock : pthread_rwlock_rdlock)(&shared.lock) == 0);
        if (*(size_t *)number == 0) change_some(&shared.index, &random);
        else read_some(NULL, &random);
        CHECK(pthread_rwlock_unlock(&shared.lock) == 0);
    }
    return NULL;
}

/* Each in its turn takes the index, changes it, and hands it on. */
static void *takes_turns(void *number) {
    uint64_t random = 88172645463325252u + *(size_t *)number;
    size_t i, j;
    for (i = 0; i < CALLS / 10; i++) {
        key_index mine;
        const key_index none = KEY_INDEX_NONE;
        CHECK(pthread_mutex_lock(&shared.mutex) == 0);
        while (shared.turn % THREADS != *(size_t *)number) CHECK(pthread_cond_wait(&shared.moved, &shared.mutex) == 0);
        mine = shared.index;
        shared.index = none;
        CHECK(pthread_mutex_unlock(&shared.mutex) == 0);
        for (j = 0; j < 10; j++) change_some(&mine, &random);
        CHECK(pthread_mutex_lock(&shared.mutex) == 0);
        shared.index = mine;
        shared.turn++;
        CHECK(pthread_cond_broadcast(&shared.moved) == 0 && pthread_mutex_unlock(&shared.mutex) == 0);
    }
    return NULL;
}

/* By a reader of its own, which it makes of the first one, and sometimes again; and by the first one. */
static void *reads_by_a_reader(void *number) {
    const key_index_reader none = KEY_INDEX_READER_NONE;
    uint64_t random = 88172645463325252u + *(size_t *)number;
    key_index_reader mine = none, other = none;
    size_t i;
    CHECK(key_index_reader_clone(&shared.reader, &mine) == KEY_INDEX_OK);
    for (i = 0; i < CALLS / 2; i++) {
        read_some(&mine, &random);
        read_some(&shared.reader, &random);
        if (next(&random) % 8 == 0) {
            key_index index = KEY_INDEX_NONE;
            CHECK(key_index_reader_clone(&mine, &other) == KEY_INDEX_OK);
            CHECK(key_index_unshare(&mine, &index) == KEY_INDEX_SHARED && index.at == NULL && mine.at != NULL);
            key_index_reader_free(&mine);
            CHECK(mine.at == NULL);
            mine = other;
            other = none;
        }
    }
    key_index_reader_free(&mine);
    return NULL;
}

static void share(void) {
    CHECK(key_index_share(&shared.index, &shared.reader) == KEY_INDEX_OK && shared.index.at == NULL);
    start(reads_by_a_reader);
    CHECK(key_index_unshare(&shared.reader, &shared.index) == KEY_INDEX_OK && shared.reader.at == NULL);
}

/* Records, and the ranges of an index in partitions by one byte and by two, which the threads fill from all of them: some have no partition,
 * some no record. */
enum { RECORDS = KEYS * ROOM / 2 };
static uint8_t keys_of_records[8 * RECORDS];
static size_t ends_of_records[RECORDS];
static uint64_t values_of_records[RECORDS];
static const size_t bounds_by_one[THREADS + 1] = {0, 1, 2, 2, 3, 100, 101, 200, 256};
static const size_t bounds_by_two[THREADS + 1] = {0, 100, 300, 300, 301, 599, 600, 40000, 65536};
static key_index_range ranges[THREADS];

static const size_t *bounds_of(key_index_kind kind) {
    return kind == KEY_INDEX_UNORDERED_BY_ONE || kind == KEY_INDEX_ORDERED_BY_ONE ? bounds_by_one : bounds_by_two;
}

static void *fills(void *number) {
    size_t at = *(size_t *)number, count;
    const size_t *bounds = &bounds_of(shared.kind)[at];
    CHECK(key_index_range_new(&shared.index, &ranges[at], bounds[0], bounds[1] - bounds[0]) == KEY_INDEX_OK);
    CHECK(key_index_range_insert_many(&ranges[at], keys_of_records, ends_of_records, values_of_records, RECORDS, &count) == KEY_INDEX_OK &&
          count == RECORDS);
    return NULL;
}

static void fill_in_ranges(key_index_kind kind) {
    const key_index_range none = KEY_INDEX_RANGE_NONE;
    key_index other = KEY_INDEX_NONE;
    key_index_range overlapping = none;
    uint64_t random = 88172645463325252u;
    size_t i, count, partitions = bounds_of(kind)[THREADS];
    bool behind = kind == KEY_INDEX_ORDERED_BY_ONE || kind == KEY_INDEX_ORDERED_BY_TWO;
    shared.kind = kind;
    shared.pruned = 0;
    memset(shared.lens, 0, sizeof shared.lens);
    for (i = 0; i < RECORDS; i++) {
        size_t at = next(&random) % KEYS;
        while (shared.lens[at] == ROOM) at = (at + 1) % KEYS;
        key_of(at, &keys_of_records[8 * i]);
        ends_of_records[i] = 8 * i + 8;
        values_of_records[i] = i;
        if (!behind) memmove(&shared.lists[at][1], shared.lists[at], shared.lens[at] * sizeof **shared.lists);
        shared.lists[at][behind ? shared.lens[at] : 0] = i;
        shared.lens[at]++;
    }
    CHECK(key_index_new(&shared.index, kind) == KEY_INDEX_OK);
    start(fills);
    CHECK(key_index_range_new(&shared.index, &overlapping, 0, partitions + 1) == KEY_INDEX_BAD_ARGUMENT && overlapping.at == NULL);
    CHECK(key_index_range_new(&shared.index, &overlapping, partitions + 1, 0) == KEY_INDEX_BAD_ARGUMENT && overlapping.at == NULL);
    CHECK(key_index_range_new(&shared.index, &overlapping, 2, partitions - 2) == KEY_INDEX_OK);
    CHECK(key_index_range_insert_many(&overlapping, keys_of_records, ends_of_records, values_of_records, 1, &count) == KEY_INDEX_OK);
    CHECK(key_index_new(&other, kind == KEY_INDEX_ORDERED_BY_ONE ? KEY_INDEX_ORDERED_BY_TWO : KEY_INDEX_ORDERED_BY_ONE) == KEY_INDEX_OK);
    for (i = 0; i < THREADS; i++) {
        CHECK(key_index_install(&other, &ranges[i]) == KEY_INDEX_BAD_ARGUMENT && ranges[i].at != NULL && key_index_items(&other) == 0);
        CHECK(key_index_install(&shared.index, &ranges[i]) == KEY_INDEX_OK && ranges[i].at == NULL);
        CHECK(key_index_install(&shared.index, &ranges[i]) == KEY_INDEX_BAD_ARGUMENT);
    }
    CHECK(key_index_items(&shared.index) == RECORDS);
    CHECK(key_index_install(&shared.index, &overlapping) == KEY_INDEX_BAD_ARGUMENT && overlapping.at != NULL);
    CHECK(key_index_items(&shared.index) == RECORDS);
    key_index_range_free(&overlapping);
    CHECK(overlapping.at == NULL);
    key_index_free(&other);
    start(reads);
    key_index_free(&shared.index);
}

/* Keys by position: the one of a position is that of its number modulo KEYS. */
static key_index_immutable positions;
static key_index_immutable_reader reader_of_positions;

#undef ASK
#define ASK(call, ...) \
    (reader != NULL ? key_index_immutable_reader_##call(reader, __VA_ARGS__) : key_index_immutable_##call(&positions, __VA_ARGS__))
#undef TELL
#define TELL(call) (reader != NULL ? key_index_immutable_reader_##call(reader) : key_index_immutable_##call(&positions))

static void read_some_positions(const key_index_immutable_reader *reader, uint64_t *random) {
    uint64_t found[ROOM], sum = 0;
    uint8_t key[8];
    size_t at = next(random) % KEYS, count = 0, i;
    CHECK(ASK(get, key_of(at, key), 8, found, ROOM, &count) == KEY_INDEX_OK && count == POSITIONS / KEYS);
    for (i = 0; i < count; i++) sum += found[i];
    CHECK(sum == count * at + KEYS * (count * (count - 1) / 2));
    CHECK(ASK(is_indexed, at) && !ASK(is_indexed, POSITIONS + at));
    CHECK(TELL(items) == POSITIONS && TELL(start) == 0 && TELL(pruned) == 0);
}

static void *reads_positions(void *number) {
    uint64_t random = 88172645463325252u + *(size_t *)number;
    size_t i;
    for (i = 0; i < CALLS; i++) read_some_positions(NULL, &random);
    return NULL;
}

static void *reads_positions_by_a_reader(void *number) {
    uint64_t random = 88172645463325252u + *(size_t *)number;
    key_index_immutable_reader mine = KEY_INDEX_IMMUTABLE_READER_NONE;
    key_index_immutable index = KEY_INDEX_IMMUTABLE_NONE;
    size_t i;
    CHECK(key_index_immutable_reader_clone(&reader_of_positions, &mine) == KEY_INDEX_OK);
    for (i = 0; i < CALLS / 2; i++) {
        read_some_positions(&mine, &random);
        read_some_positions(&reader_of_positions, &random);
    }
    CHECK(key_index_immutable_unshare(&mine, &index) == KEY_INDEX_SHARED);
    key_index_immutable_reader_free(&mine);
    return NULL;
}

static void read_positions(bool seeded) {
    const key_index_immutable none = KEY_INDEX_IMMUTABLE_NONE;
    uint8_t key[8];
    size_t i;
    positions = none;
    CHECK((seeded ? key_index_immutable_new_seeded(&positions, 7, 0, 0) : key_index_immutable_new(&positions, 0, 0)) == KEY_INDEX_OK);
    for (i = 0; i < POSITIONS; i++) CHECK(key_index_immutable_insert(&positions, key_of(i % KEYS, key), 8, i) == KEY_INDEX_OK);
    start(reads_positions);
    CHECK(key_index_immutable_share(&positions, &reader_of_positions) == KEY_INDEX_OK);
    start(reads_positions_by_a_reader);
    CHECK(key_index_immutable_unshare(&reader_of_positions, &positions) == KEY_INDEX_OK);
    CHECK(key_index_immutable_prune(&positions, POSITIONS - 1) == KEY_INDEX_OK && key_index_immutable_items(&positions) == 1);
    key_index_immutable_free(&positions);
}

/* What no caller may do. */
static void *races(void *number) {
    uint64_t values[ROOM];
    uint8_t key[8];
    size_t count;
    key_of(0, key);
    if (RACE == 1) key_index_c_find(&shared.index, key, 8);
    else if (*(size_t *)number == 0) key_index_insert(&shared.index, key, 8, 1);
    else key_index_get(&shared.index, key, 8, values, ROOM, &count);
    return NULL;
}

int main(void) {
    pthread_rwlockattr_t writer_first;
    int kind;
    CHECK(pthread_rwlockattr_init(&writer_first) == 0);
    CHECK(pthread_rwlockattr_setkind_np(&writer_first, PTHREAD_RWLOCK_PREFER_WRITER_NONRECURSIVE_NP) == 0);
    CHECK(pthread_rwlock_init(&shared.lock, &writer_first) == 0);
    CHECK(pthread_mutex_init(&shared.mutex, NULL) == 0 && pthread_cond_init(&shared.moved, NULL) == 0);
    for (kind = KEY_INDEX_UNORDERED; kind <= KEY_INDEX_ORDERED_BY_TWO; kind++) {
        make((key_index_kind)kind);
        if (RACE) start(races);
        else {
            start(reads);
            start(reads_or_changes);
            start(takes_turns);
            share();
            start(reads_or_changes);
        }
        key_index_free(&shared.index);
        if (RACE) return 0;
    }
    for (kind = KEY_INDEX_UNORDERED_BY_ONE; kind <= KEY_INDEX_ORDERED_BY_TWO; kind++) fill_in_ranges((key_index_kind)kind);
    read_positions(false);
    read_positions(true);
    return 0;
}
