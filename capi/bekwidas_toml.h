/* Settings files (TOML) for programs with bekwidas.h: they are read by the same proved code as those of `rasta il` and `rasta fe`. It is a library of its
 * own; link it only if you need it:
 *
 *     cc il.c $(pkg-config --cflags --libs bekwidas_toml bekwidas)
 *
 * examples/il.toml has all keys of a file. Its `puts` are for the program `rasta`, and are ignored here. Each function reads the whole text, allocates for
 * that, and frees everything. The rules for pointers, lengths and threads are those of bekwidas.h.
 */
#ifndef BEKWIDAS_TOML_H
#define BEKWIDAS_TOML_H

#include "bekwidas.h"

#ifdef __cplusplus
extern "C" {
#endif

/* The text is not a settings file of this side. bek_fault_text knows it, too. */
#define BEK_ERR_NO_SETTINGS (-19)

/* Which addresses: the own ones (key `local`), or those of the peer (key `remote`). */
enum { BEK_LOCAL = 0, BEK_REMOTE = 1 };

/* Reads the text of a settings file for one side (BEK_INTERLOCKING or BEK_FIELD_ELEMENT) into settings. bek_open then opens an end with exactly what
 * the file says. telegram_room and datagram_room stay unchanged, and if the file says `first_sn = "random"`, first_sn does, too: call bek_settings_init
 * before, and draw first_sn.
 *
 * BEK_OK; or the first that holds, and the settings are unchanged: BEK_ERR_NULL, BEK_ERR_LENGTH, BEK_ERR_BAD_SETTINGS (the side is neither),
 * BEK_ERR_NO_SETTINGS, BEK_ERR_NO_MEMORY. With BEK_ERR_NO_SETTINGS, `said` says what is wrong, in ASCII, cut to `size` octets with a zero at the end:
 * the key, the values that it can have and the one found, or the line that is not valid TOML. With any other result it is empty. `said` may
 * be NULL if `size` is 0. */
BEK_MUST_USE int bek_toml_settings(bek_settings *settings, uint32_t side, const char *text, size_t length, char *said, size_t size);

/* Writes the address of a channel (numbered from 1) as the file has it, such as "127.0.0.1:46101" or "[::1]:46101", with a zero at the end.
 *
 * BEK_OK; BEK_NOTHING if there is no such channel; or the first that holds, and nothing is written: BEK_ERR_NULL, BEK_ERR_LENGTH,
 * BEK_ERR_BAD_SETTINGS, BEK_ERR_NO_SETTINGS, BEK_ERR_NO_MEMORY, BEK_ERR_TOO_SMALL. */
BEK_MUST_USE int bek_toml_address(uint32_t side, uint32_t which, uint32_t channel, const char *text, size_t length, char *address, size_t size);

#ifdef __cplusplus
}
#endif

#endif
