/* A key of three bytes that is passed as one of four: where the library has checks of addresses, they have to report it. */
#include "key_index.h"

#include <stdlib.h>
#include <string.h>

int main(void) {
    key_index index = KEY_INDEX_NONE;
    char *key = (char *)malloc(3);
    if (key == NULL || key_index_new(&index, KEY_INDEX_ORDERED) != KEY_INDEX_OK) return 2;
    memcpy(key, "fig", 3);
    if (key_index_insert(&index, key, 4, 1) != KEY_INDEX_OK) return 2;
    key_index_free(&index);
    free(key);
    return 0;
}
