/* Refuses each allocation of an opening in turn: the result is BEK_ERR_NO_MEMORY, no memory stays allocated, and with memory the end opens. */
#include "bekwidas.h"

#include <stdio.h>
#include <string.h>

extern void *__libc_malloc(size_t);
extern void __libc_free(void *);
static long left = -1, held, calls;

void *malloc(size_t size) {
    calls++;
    if (left == 0) return NULL;
    if (left > 0) left--;
    held++;
    return __libc_malloc(size);
}

void free(void *octets) {
    if (octets != NULL) held--;
    __libc_free(octets);
}

int main(void) {
    bek_end end = BEK_END_INIT;
    bek_settings s;
    long before, n;
    int answer;
    if (bek_settings_init(&s, sizeof s) != BEK_OK) return 1;
    s.side = BEK_FIELD_ELEMENT;
    s.id = 2;
    s.peer_id = 1;
    s.protocol = 1;
    s.version_count = 1;
    s.versions[0] = 1;
    strcpy(s.name, "FE1");
    strcpy(s.peer_name, "IL1");
    before = held;
    for (n = 0; n < 100; n++) {
        left = n;
        answer = bek_open(&end, &s, 0);
        left = -1;
        if (answer == BEK_OK) break;
        if (answer != BEK_ERR_NO_MEMORY || held != before) return 1;
    }
    bek_free(&end);
    if (n == 0 || n == 100 || held != before) return 1;
    printf("%ld allocations at opening, each refused in turn\n", n);
    return 0;
}
