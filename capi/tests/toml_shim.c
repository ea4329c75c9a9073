/* Tests each function of bekwidas_toml.c over a stub of the proved function below it: it passes every argument on unchanged, returns every result
 * unchanged, tests each NULL and each length, and ends each text with a zero inside its buffer. */
#include "../bekwidas_toml.c"

#include <stdio.h>
#include <stdlib.h>
#include <string.h>

static void must_at(int holds, int line, const char *what) {
    if (holds) return;
    fprintf(stderr, "toml_shim: line %d: %s\n", line, what);
    exit(1);
}
#define must(holds) must_at((holds) != 0, __LINE__, #holds)

static int calls;
static int32_t result;
static const char *says = "";
static uint32_t got_side, got_which, got_channel;
static const void *got_text, *got_settings;
static size_t got_length;

/* Writes the text, truncated to the room. Only BEK_ERR_NO_SETTINGS has a text. */
int32_t bekr_toml_settings(uint32_t side, const uint8_t *text, size_t length, bek_settings *settings, uint8_t *said, size_t size, size_t *needed) {
    size_t n = strlen(says) < size ? strlen(says) : size;
    calls++;
    got_side = side, got_text = text, got_length = length, got_settings = settings;
    must(text != NULL && said != NULL);
    if (result == BEK_ERR_NO_SETTINGS) {
        memcpy(said, says, n);
        *needed = strlen(says);
    }
    return result;
}

/* Writes the address if there is room for it. */
int32_t bekr_toml_address(uint32_t side, uint32_t is_remote, uint32_t channel, const uint8_t *text, size_t length, uint8_t *address, size_t size,
                          size_t *needed) {
    calls++;
    got_side = side, got_which = is_remote, got_channel = channel, got_text = text, got_length = length;
    must(text != NULL && address != NULL);
    if (result != BEK_OK) return result;
    *needed = strlen(says);
    if (*needed > size) return BEK_ERR_TOO_SMALL;
    memcpy(address, says, *needed);
    return BEK_OK;
}

static void of_settings(int32_t is) {
    static const char *const texts[] = {"", "a", "id: wrong", "a long sentence about a key of a settings file"};
    static bek_settings settings;
    char said[80], room[80];
    size_t size, k, kept, whole;
    result = is;
    memset(room, '#', sizeof room);
    for (k = 0; k < 4; k++)
        for (size = 0; size < 60; size++) {
            says = texts[k];
            whole = is == BEK_ERR_NO_SETTINGS ? strlen(says) : 0;
            kept = size == 0 ? 0 : whole < size - 1 ? whole : size - 1;
            memset(said, '#', sizeof said);
            must(bek_toml_settings(&settings, 7, "text", 4, said, size) == is);
            must(got_side == 7 && memcmp(got_text, "text", 4) == 0 && got_length == 4 && got_settings == &settings);
            must(memcmp(said, says, kept) == 0 && (size == 0 || said[kept] == 0));
            must(memcmp(said + (size == 0 ? 0 : kept + 1), room, sizeof said - kept - 1) == 0);
        }
    must(bek_toml_settings(&settings, 1, NULL, 0, NULL, 0) == is && got_length == 0);
    must(bek_toml_settings(&settings, 1, "text", PTRDIFF_MAX, said, PTRDIFF_MAX) == is && got_length == PTRDIFF_MAX);
}

static void of_address(int32_t is) {
    static const char *const texts[] = {"", "127.0.0.1:46101", "[2001:db8::7]:46101"};
    char address[40], room[40];
    size_t size, k, whole;
    result = is;
    memset(room, '#', sizeof room);
    for (k = 0; k < 3; k++)
        for (size = 0; size < 30; size++) {
            says = texts[k];
            whole = strlen(says);
            memset(address, '#', sizeof address);
            if (is == BEK_OK && size < whole + 1) {
                must(bek_toml_address(1, 2, 3, "text", 4, address, size) == BEK_ERR_TOO_SMALL);
                must(memcmp(address, room, sizeof address) == 0);
                continue;
            }
            must(bek_toml_address(1, 2, 3, "text", 4, address, size) == is);
            must(got_side == 1 && got_which == 2 && got_channel == 3 && memcmp(got_text, "text", 4) == 0 && got_length == 4);
            if (is == BEK_OK) must(strcmp(address, says) == 0 && memcmp(address + whole + 1, room, sizeof address - whole - 1) == 0);
            else must(memcmp(address, room, sizeof address) == 0);
        }
    must(bek_toml_address(1, 2, 3, NULL, 0, address, sizeof address) == is && got_length == 0);
    must(bek_toml_address(1, 2, 3, "text", PTRDIFF_MAX, address, PTRDIFF_MAX) == is && got_length == PTRDIFF_MAX);
}

static void refuses(void) {
    static bek_settings settings;
    char said[4];
    size_t long_ = (size_t)PTRDIFF_MAX + 1;
    int was = calls;
    must(bek_toml_settings(NULL, 1, "t", 1, said, 4) == BEK_ERR_NULL);
    must(bek_toml_settings(&settings, 1, NULL, 1, said, 4) == BEK_ERR_NULL);
    must(bek_toml_settings(&settings, 1, "t", 1, NULL, 4) == BEK_ERR_NULL);
    must(bek_toml_settings(&settings, 1, "t", long_, said, 4) == BEK_ERR_LENGTH);
    must(bek_toml_settings(&settings, 1, "t", 1, said, long_) == BEK_ERR_LENGTH);
    must(bek_toml_address(1, 0, 1, NULL, 1, said, 4) == BEK_ERR_NULL);
    must(bek_toml_address(1, 0, 1, "t", 1, NULL, 0) == BEK_ERR_NULL);
    must(bek_toml_address(1, 0, 1, "t", long_, said, 4) == BEK_ERR_LENGTH);
    must(bek_toml_address(1, 0, 1, "t", 1, said, long_) == BEK_ERR_LENGTH);
    must(calls == was);
}

int main(void) {
    static const int32_t results[] = {BEK_OK, BEK_NOTHING, BEK_ERR_BAD_SETTINGS, BEK_ERR_NO_SETTINGS, BEK_ERR_NO_MEMORY};
    size_t k;
    for (k = 0; k < sizeof results / sizeof *results; k++) {
        of_settings(results[k]);
        of_address(results[k]);
    }
    refuses();
    puts("toml_shim: each line");
    return 0;
}
