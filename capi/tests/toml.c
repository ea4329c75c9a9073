/* Tests settings files: an end is opened with the values of the file, each refusal has its code, and damaged texts end in one of them.
 *     toml IL_FILE FE_FILE */
#include "bekwidas_toml.h"

#include <stdio.h>
#include <stdlib.h>
#include <string.h>

static char text[1 << 16], damaged[1 << 16];

static void must(int holds, const char *what) {
    if (holds) return;
    fprintf(stderr, "not so: %s\n", what);
    exit(1);
}

static size_t read_file(const char *path) {
    FILE *file = fopen(path, "rb");
    size_t length;
    must(file != NULL, path);
    length = fread(text, 1, sizeof text, file);
    fclose(file);
    return length;
}

/* Returns the result for a text, and tests that the settings are unchanged if it is refused. */
static int answer_to(const char *octets, size_t length, uint32_t side, char *said, size_t size) {
    bek_settings before, after;
    int answer;
    must(bek_settings_init(&before, sizeof before) == BEK_OK, "settings");
    before.telegram_room = 31;
    after = before;
    answer = bek_toml_settings(&after, side, octets, length, said, size);
    must(after.telegram_room == 31 && after.datagram_room == before.datagram_room, "the rooms stay");
    if (answer != BEK_OK) must(memcmp(&before, &after, sizeof before) == 0, "a refusal changes nothing");
    return answer;
}

static void of_ends(const char *il_file, const char *fe_file) {
    bek_settings il, fe;
    bek_end end = BEK_END_INIT;
    char said[80];
    size_t length = read_file(il_file);
    must(bek_settings_init(&il, sizeof il) == BEK_OK, "settings");
    il.first_sn = 4711;
    must(bek_toml_settings(&il, BEK_INTERLOCKING, text, length, said, sizeof said) == BEK_OK && said[0] == 0, "the file of an interlocking");
    must(il.side == BEK_INTERLOCKING && strcmp(il.name, "IL1") == 0 && strcmp(il.peer_name, "FE1") == 0, "its names");
    must(il.first_sn == 4711, "a first sequence number that the file has drawn stays");
    must(il.size == sizeof il && il.channels == 2 && il.version_count == 1, "its size, channels and version");
    must(bek_open(&end, &il, 0) == BEK_OK, "an end is opened with it");
    bek_free(&end);
    length = read_file(fe_file);
    must(bek_settings_init(&fe, sizeof fe) == BEK_OK, "settings");
    must(bek_toml_settings(&fe, BEK_FIELD_ELEMENT, text, length, said, sizeof said) == BEK_OK, "the file of a field element");
    must(fe.id == il.peer_id && fe.peer_id == il.id, "each is the other's peer");
    must(bek_open(&end, &fe, 0) == BEK_OK, "an end is opened with it");
    bek_free(&end);
}

static void refusals(const char *il_file) {
    size_t length = read_file(il_file), place;
    char said[200], cut[6], address[40], none[1];
    bek_settings settings;
    must(bek_settings_init(&settings, sizeof settings) == BEK_OK, "settings");
    must(bek_toml_settings(NULL, 1, text, length, said, sizeof said) == BEK_ERR_NULL, "no settings");
    must(bek_toml_settings(&settings, 1, NULL, 1, said, sizeof said) == BEK_ERR_NULL, "no text");
    must(bek_toml_settings(&settings, 1, text, length, NULL, 1) == BEK_ERR_NULL, "no room to say it");
    must(bek_toml_settings(&settings, 1, text, (size_t)-1, said, sizeof said) == BEK_ERR_LENGTH, "a length");
    must(bek_toml_settings(&settings, 3, text, length, said, sizeof said) == BEK_ERR_BAD_SETTINGS, "a side");
    must(bek_toml_settings(&settings, 1, text, length, NULL, 0) == BEK_OK, "nothing to say");
    must(answer_to("id = 1\nid = 2\n", 14, 1, said, sizeof said) == BEK_ERR_NO_SETTINGS && strcmp(said, "line 2: not valid TOML") == 0, "the line");
    must(answer_to("id = true\n", 10, 2, said, sizeof said) == BEK_ERR_NO_SETTINGS, "a key");
    must(strcmp(said, "id: expected 0 to 4294967295, found another value") == 0, "what is wrong with a key");
    must(answer_to("id = true\n", 10, 2, cut, sizeof cut) == BEK_ERR_NO_SETTINGS && strcmp(cut, "id: e") == 0, "cut to its room");
    must(answer_to(NULL, 0, 1, said, sizeof said) == BEK_ERR_NO_SETTINGS, "an empty text");
    must(answer_to("id = \"\xff\"\n", 9, 1, said, sizeof said) == BEK_ERR_NO_SETTINGS && strcmp(said, "not valid UTF-8") == 0, "no text");
    must(bek_toml_address(1, BEK_LOCAL, 2, text, length, address, sizeof address) == BEK_OK && strcmp(address, "127.0.0.1:46102") == 0, "local");
    must(bek_toml_address(1, BEK_REMOTE, 1, text, length, address, 16) == BEK_OK && strcmp(address, "127.0.0.1:46201") == 0, "just enough room");
    must(bek_toml_address(1, BEK_REMOTE, 1, text, length, address, 15) == BEK_ERR_TOO_SMALL, "too little room");
    must(bek_toml_address(1, BEK_REMOTE, 1, text, length, none, 0) == BEK_ERR_TOO_SMALL, "no room");
    must(bek_toml_address(1, BEK_LOCAL, 0, text, length, address, sizeof address) == BEK_NOTHING, "no channel 0");
    must(bek_toml_address(1, BEK_LOCAL, 3, text, length, address, sizeof address) == BEK_NOTHING, "no third channel");
    must(bek_toml_address(2, BEK_LOCAL, 1, "x", 1, address, sizeof address) == BEK_ERR_NO_SETTINGS, "an address of no file");
    for (place = 0; place < length; place++) {
        must(answer_to(text, place, 1, said, sizeof said) != BEK_ERR_NO_MEMORY, "a prefix of the file");
        memcpy(damaged, text, length);
        damaged[place] ^= (char)(1 + place % 255);
        answer_to(damaged, length, 1, said, sizeof said);
        must(strlen(said) < sizeof said, "a damaged file");
    }
}

int main(int count, char **words) {
    must(count == 3, "usage: toml IL_FILE FE_FILE");
    of_ends(words[1], words[2]);
    refusals(words[1]);
    return 0;
}
