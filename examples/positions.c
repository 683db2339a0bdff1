/* Positions of records under their keys: what each call answers is tested. */
#include "key_index.h"

#include <stdio.h>
#include <stdlib.h>

#define CHECK(what) \
    do { \
        if (!(what)) { \
            fprintf(stderr, "%s:%d: %s\n", __FILE__, __LINE__, #what); \
            exit(1); \
        } \
    } while (0)

/* An index that two readers have, which may be on threads of their own. */
static void readers(void) {
    key_index index = KEY_INDEX_NONE;
    key_index_reader reader = KEY_INDEX_READER_NONE, other = KEY_INDEX_READER_NONE;
    const size_t ends[2] = {5, 11};
    uint64_t values[2] = {1, 2};
    size_t stops[2] = {0, 0}, count = 0;
    bool told = false;

    CHECK(key_index_build(&index, KEY_INDEX_ORDERED, 0, "applecherry", ends, values, 2) == KEY_INDEX_OK);
    CHECK(key_index_share(&index, &reader) == KEY_INDEX_OK && index.at == NULL);
    CHECK(key_index_share(&index, &reader) == KEY_INDEX_BAD_ARGUMENT);
    CHECK(key_index_reader_clone(&reader, &other) == KEY_INDEX_OK);
    CHECK(key_index_reader_clone(&reader, &other) == KEY_INDEX_BAD_ARGUMENT);
    CHECK(key_index_reader_get(&other, "cherry", 6, values, 2, &count) == KEY_INDEX_OK && count == 1 && values[0] == 2);
    CHECK(key_index_reader_contains(&other, "banana", 6, &told) == KEY_INDEX_OK && !told);
    CHECK(key_index_reader_get_many(&other, "applecherry", ends, 2, values, 2, stops, &count) == KEY_INDEX_OK && stops[1] == 2);
    CHECK(key_index_reader_next(&other, "banana", 6, values, 2, &count, &told) == KEY_INDEX_OK && values[0] == 2 && !told);
    CHECK(key_index_reader_prev(&other, "banana", 6, values, 2, &count, &told) == KEY_INDEX_OK && values[0] == 1 && !told);
    CHECK(key_index_reader_first(&other, values, 2, &count) == KEY_INDEX_OK && count == 1 && values[0] == 1);
    CHECK(key_index_reader_last(&other, values, 2, &count) == KEY_INDEX_OK && count == 1 && values[0] == 2);
    CHECK(key_index_reader_keys(&other) == 2 && key_index_reader_items(&other) == 2 && key_index_reader_pruned(&other) == 0);
    CHECK(key_index_unshare(&reader, &index) == KEY_INDEX_SHARED && index.at == NULL);
    key_index_reader_free(&other);
    CHECK(key_index_reader_get(&other, "cherry", 6, values, 2, &count) == KEY_INDEX_BAD_ARGUMENT && key_index_reader_keys(&other) == 0);
    CHECK(key_index_unshare(&reader, &index) == KEY_INDEX_OK && reader.at == NULL);
    CHECK(key_index_insert(&index, "plum", 4, 3) == KEY_INDEX_OK && key_index_items(&index) == 3);
    CHECK(key_index_share(&index, &reader) == KEY_INDEX_OK);
    key_index_reader_free(&reader);
}

/* An index in partitions that is filled in two ranges, which may be on threads of their own. */
static void ranges(void) {
    key_index index = KEY_INDEX_NONE, other = KEY_INDEX_NONE;
    key_index_range low = KEY_INDEX_RANGE_NONE, high = KEY_INDEX_RANGE_NONE;
    const size_t ends[2] = {5, 9}, falling[2] = {5, 4};
    const uint64_t values[2] = {1, 2};
    uint64_t found = 0;
    size_t count = 0;

    CHECK(key_index_new(&index, KEY_INDEX_ORDERED_BY_ONE) == KEY_INDEX_OK && key_index_new(&other, KEY_INDEX_ORDERED) == KEY_INDEX_OK);
    CHECK(key_index_range_new(&other, &low, 0, 1) == KEY_INDEX_BAD_ARGUMENT);
    CHECK(key_index_range_new(&index, &low, 0, 257) == KEY_INDEX_BAD_ARGUMENT && low.at == NULL);
    CHECK(key_index_range_new(&index, &low, 0, 'h') == KEY_INDEX_OK);
    CHECK(key_index_range_new(&index, &high, 'h', 256 - 'h') == KEY_INDEX_OK);
    CHECK(key_index_range_insert_many(&low, "appleplum", falling, values, 2, &count) == KEY_INDEX_BAD_ARGUMENT && count == 0);
    CHECK(key_index_range_insert_many(&low, "appleplum", ends, values, 2, &count) == KEY_INDEX_OK && count == 2);
    CHECK(key_index_range_insert_many(&high, "appleplum", ends, values, 2, &count) == KEY_INDEX_OK && count == 2);
    CHECK(key_index_install(&other, &high) == KEY_INDEX_BAD_ARGUMENT && high.at != NULL);
    CHECK(key_index_install(&index, &high) == KEY_INDEX_OK && high.at == NULL);
    CHECK(key_index_get(&index, "plum", 4, &found, 1, &count) == KEY_INDEX_OK && count == 1 && found == 2);
    CHECK(key_index_insert(&index, "banana", 6, 3) == KEY_INDEX_OK);
    CHECK(key_index_install(&index, &low) == KEY_INDEX_BAD_ARGUMENT && low.at != NULL && key_index_items(&index) == 2);
    CHECK(key_index_remove(&index, "banana", 6) == KEY_INDEX_OK && key_index_install(&index, &low) == KEY_INDEX_OK);
    CHECK(key_index_get(&index, "apple", 5, &found, 1, &count) == KEY_INDEX_OK && count == 1 && found == 1);
    CHECK(key_index_range_new(&index, &low, 0, 1) == KEY_INDEX_OK);
    key_index_range_free(&low);
    CHECK(low.at == NULL && key_index_range_insert_many(&low, "appleplum", ends, values, 2, &count) == KEY_INDEX_BAD_ARGUMENT);
    key_index_free(&index);
    key_index_free(&other);
}

/* A log whose first record is at position 100. */
static void log_of_records(void) {
    key_index_immutable log = KEY_INDEX_IMMUTABLE_NONE;
    key_index_immutable_reader reader = KEY_INDEX_IMMUTABLE_READER_NONE, other = KEY_INDEX_IMMUTABLE_READER_NONE;
    uint64_t positions[2] = {0, 0};
    size_t count = 0;

    CHECK(key_index_immutable_new(&log, 100, 3) == KEY_INDEX_OK);
    CHECK(key_index_immutable_new(&log, 100, 3) == KEY_INDEX_BAD_ARGUMENT);
    CHECK(key_index_immutable_insert(&log, "cherry stone", 12, 100) == KEY_INDEX_OK);
    CHECK(key_index_immutable_insert(&log, "apple pie", 9, 101) == KEY_INDEX_OK);
    CHECK(key_index_immutable_insert(&log, "cherry syrup", 12, 107) == KEY_INDEX_OK);
    CHECK(key_index_immutable_insert(&log, "plum", 4, 101) == KEY_INDEX_BAD_ARGUMENT);
    CHECK(key_index_immutable_insert(&log, "plum", 4, 99) == KEY_INDEX_BAD_ARGUMENT);
    CHECK(key_index_immutable_get(&log, "cherry s", 8, positions, 2, &count) == KEY_INDEX_OK);
    CHECK(count == 2 && positions[0] + positions[1] == 207 && positions[0] != positions[1]);
    CHECK(key_index_immutable_is_indexed(&log, 101) && !key_index_immutable_is_indexed(&log, 102));
    CHECK(key_index_immutable_prune(&log, 101) == KEY_INDEX_OK);
    CHECK(key_index_immutable_get(&log, "cherry stone", 12, positions, 2, &count) == KEY_INDEX_OK && count == 1);
    CHECK(positions[0] == 107 && key_index_immutable_items(&log) == 2);
    CHECK(key_index_immutable_start(&log) == 101 && key_index_immutable_pruned(&log) == 1);
    CHECK(key_index_immutable_get(&log, NULL, 1, positions, 2, &count) == KEY_INDEX_BAD_ARGUMENT);
    CHECK(key_index_immutable_share(&log, &reader) == KEY_INDEX_OK && key_index_immutable_reader_clone(&reader, &other) == KEY_INDEX_OK);
    CHECK(key_index_immutable_reader_get(&other, "cherry s", 8, positions, 2, &count) == KEY_INDEX_OK && count == 1);
    CHECK(positions[0] == 107 && key_index_immutable_reader_is_indexed(&other, 107) && key_index_immutable_reader_items(&other) == 2);
    CHECK(key_index_immutable_reader_start(&other) == 101 && key_index_immutable_reader_pruned(&other) == 1);
    CHECK(key_index_immutable_unshare(&other, &log) == KEY_INDEX_SHARED);
    key_index_immutable_reader_free(&reader);
    CHECK(key_index_immutable_unshare(&other, &log) == KEY_INDEX_OK && !key_index_immutable_reader_is_indexed(&other, 107));
    key_index_immutable_free(&log);
    CHECK(!key_index_immutable_is_indexed(&log, 101) && key_index_immutable_items(&log) == 0);

    /* from the first position on, where the last one is too far past it */
    CHECK(key_index_immutable_new_seeded(&log, 7, 0, 0) == KEY_INDEX_OK);
    CHECK(key_index_immutable_insert(&log, "plum", 4, UINT64_MAX) == KEY_INDEX_TOO_FAR);
    CHECK(key_index_immutable_insert(&log, "plum", 4, 0) == KEY_INDEX_OK);
    CHECK(key_index_immutable_get(&log, "plum\0", 5, positions, 2, &count) == KEY_INDEX_OK && count == 0);
    key_index_immutable_free(&log);
}

int main(void) {
    key_index index = KEY_INDEX_NONE;
    uint64_t values[2] = {0, 0};
    const uint64_t many[2] = {6, 7};
    const size_t ends[2] = {4, 10}, falling[2] = {4, 3}, asked[3] = {5, 9, 15};
    const uint8_t mask[2] = {0, 1};
    size_t stops[3] = {0, 0, 0}, count = 0;
    bool told = false;

    CHECK(key_index_new(&index, KEY_INDEX_ORDERED) == KEY_INDEX_OK);
    CHECK(key_index_insert(&index, "apple", 5, 1) == KEY_INDEX_OK);
    CHECK(key_index_insert(&index, "cherry stone", 12, 2) == KEY_INDEX_OK);
    /* the same first eight bytes, so the same list */
    CHECK(key_index_insert(&index, "cherry syrup", 12, 3) == KEY_INDEX_OK);
    CHECK(key_index_insert(&index, "cherry s", 8, 4) == KEY_INDEX_OK);
    CHECK(key_index_get(&index, "cherry stem", 11, values, 2, &count) == KEY_INDEX_OK);
    CHECK(count == 3 && values[0] == 4 && values[1] == 3);
    CHECK(key_index_next(&index, "banana", 6, values, 2, &count, &told) == KEY_INDEX_OK);
    CHECK(count == 3 && values[0] == 4 && !told);
    CHECK(key_index_next(&index, "plum", 4, values, 2, &count, &told) == KEY_INDEX_OK && count == 1 && values[0] == 1 && told);
    CHECK(key_index_remove_value(&index, "cherry stone", 12, 3, &told) == KEY_INDEX_OK && told);
    CHECK(key_index_replace_value(&index, "cherry stone", 12, 2, 5, &told) == KEY_INDEX_OK && told);
    CHECK(key_index_get(&index, "cherry stone", 12, values, 2, &count) == KEY_INDEX_OK && count == 2 && values[1] == 5);
    CHECK(key_index_remove(&index, "cherry stone", 12) == KEY_INDEX_OK);
    CHECK(key_index_contains(&index, "cherry stone", 12, &told) == KEY_INDEX_OK && !told);
    CHECK(key_index_insert_many(&index, "figsgrapes", ends, many, 2, &count) == KEY_INDEX_OK);
    CHECK(count == 2 && key_index_get(&index, "grapes", 6, values, 2, &count) == KEY_INDEX_OK && count == 1 && values[0] == 7);
    CHECK(key_index_insert_many(&index, "figs", falling, many, 2, &count) == KEY_INDEX_BAD_ARGUMENT && count == 0);
    CHECK(key_index_get_many(&index, "applefigsgrapes", asked, 3, values, 2, stops, &count) == KEY_INDEX_OK);
    CHECK(count == 3 && values[0] == 1 && values[1] == 6 && stops[0] == 1 && stops[1] == 2 && stops[2] == 3);
    CHECK(key_index_get_many(&index, "figs", falling, 2, values, 2, stops, &count) == KEY_INDEX_BAD_ARGUMENT && stops[1] == 2);
    CHECK(key_index_insert(&index, "figs", 4, 8) == KEY_INDEX_OK);
    CHECK(key_index_keep(&index, "figs", 4, mask, 1) == KEY_INDEX_BAD_ARGUMENT);
    CHECK(key_index_keep(&index, "figs", 4, mask, 2) == KEY_INDEX_OK);
    CHECK(key_index_get(&index, "figs", 4, values, 2, &count) == KEY_INDEX_OK && count == 1 && values[0] == 6);
    CHECK(key_index_get(&index, NULL, 1, values, 2, &count) == KEY_INDEX_BAD_ARGUMENT);
    printf("keys %zu items %zu pruned %llu\n", key_index_keys(&index), key_index_items(&index),
           (unsigned long long)key_index_pruned(&index));
    key_index_free(&index);
    CHECK(key_index_build(&index, KEY_INDEX_ORDERED_BY_ONE, 0, "figs", falling, many, 2) == KEY_INDEX_BAD_ARGUMENT && index.at == NULL);
    CHECK(key_index_build(&index, KEY_INDEX_ORDERED_BY_ONE, 0, "figsgrapes", ends, many, 2) == KEY_INDEX_OK);
    CHECK(key_index_build(&index, KEY_INDEX_ORDERED, 0, "figsgrapes", ends, many, 2) == KEY_INDEX_BAD_ARGUMENT);
    CHECK(key_index_last(&index, values, 2, &count) == KEY_INDEX_OK && count == 1 && values[0] == 7 && key_index_items(&index) == 2);
    key_index_free(&index);
    readers();
    ranges();
    log_of_records();
    return 0;
}
