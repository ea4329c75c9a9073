/* The functions of bekwidas_toml.h. Each tests its pointers and lengths and calls the proved function of the same name (crate `bekwidas_toml`). */
#include "bekwidas_toml.h"

/* The functions that the crate exports. A slice is a pointer, never NULL, and a length. */
int32_t bekr_toml_settings(uint32_t side, const uint8_t *text, size_t length, bek_settings *settings, uint8_t *said, size_t size, size_t *needed);
int32_t bekr_toml_address(uint32_t side, uint32_t is_remote, uint32_t channel, const uint8_t *text, size_t length, uint8_t *address, size_t size,
                          size_t *needed);

/* The pointer of an empty buffer. */
static uint8_t none[1];

#define IS_ROW(octets, length) ((octets) != NULL || (length) == 0)
#define ROW(octets) ((octets) != NULL ? (uint8_t *)(octets) : none)
#define TEXT(octets) ((octets) != NULL ? (const uint8_t *)(octets) : none)

int bek_toml_settings(bek_settings *settings, uint32_t side, const char *text, size_t length, char *said, size_t size) {
    size_t needed = 0, room = size > 0 ? size - 1 : 0; /* the last octet is for the zero */
    int result;
    if (settings == NULL || !IS_ROW(text, length) || !IS_ROW(said, size)) return BEK_ERR_NULL;
    if (length > PTRDIFF_MAX || size > PTRDIFF_MAX) return BEK_ERR_LENGTH;
    result = bekr_toml_settings(side, TEXT(text), length, settings, ROW(said), room, &needed);
    if (size > 0) said[result != BEK_ERR_NO_SETTINGS ? 0 : needed < room ? needed : room] = 0;
    return result;
}

int bek_toml_address(uint32_t side, uint32_t which, uint32_t channel, const char *text, size_t length, char *address, size_t size) {
    size_t needed = 0, room = size > 0 ? size - 1 : 0;
    int result;
    if (!IS_ROW(text, length) || address == NULL) return BEK_ERR_NULL;
    if (length > PTRDIFF_MAX || size > PTRDIFF_MAX) return BEK_ERR_LENGTH;
    result = bekr_toml_address(side, which, channel, TEXT(text), length, ROW(address), room, &needed);
    if (result == BEK_OK && size == 0) return BEK_ERR_TOO_SMALL;
    if (result == BEK_OK) address[needed] = 0;
    return result;
}
