/* Opens an end with the settings of a file, and prints the addresses of its channels:
 *     cc from_toml.c $(pkg-config --cflags --libs bekwidas_toml bekwidas) && ./a.out il.toml */
#include "bekwidas_toml.h"

#include <stdio.h>
#include <time.h>

int main(int count, char **words) {
    static char text[1 << 16]; /* the octets of a settings file */
    char said[200], local[64], remote[64];
    bek_end end = BEK_END_INIT;
    bek_settings settings;
    uint32_t channel;
    size_t length;
    int answer;
    FILE *file = count == 2 ? fopen(words[1], "rb") : NULL;

    if (file == NULL) {
        fprintf(stderr, "usage: from_toml FILE\n");
        return 2;
    }
    length = fread(text, 1, sizeof text, file);
    fclose(file);

    if (bek_settings_init(&settings, sizeof settings) != BEK_OK) return 1;
    settings.first_sn = (uint32_t)time(NULL); /* for a file with first_sn = "random"; udp.h draws a better one */
    answer = bek_toml_settings(&settings, BEK_INTERLOCKING, text, length, said, sizeof said);
    if (answer == BEK_ERR_NO_SETTINGS) {
        fprintf(stderr, "%s: %s\n", words[1], said);
        return 1;
    }
    if (answer != BEK_OK || bek_open(&end, &settings, 0) != BEK_OK) return 1;
    printf("%s opens a connection to %s\n", settings.name, settings.peer_name);
    for (channel = 1; channel <= settings.channels; channel++) {
        if (bek_toml_address(BEK_INTERLOCKING, BEK_LOCAL, channel, text, length, local, sizeof local) != BEK_OK) return 1;
        if (bek_toml_address(BEK_INTERLOCKING, BEK_REMOTE, channel, text, length, remote, sizeof remote) != BEK_OK) return 1;
        printf("channel %u: from %s to %s\n", (unsigned)channel, local, remote);
    }
    bek_free(&end);
    return 0;
}
