/* A store rebuilt from a journal, called from C through include/register.h. Exits with the line of the first wrong
 * answer, or 0. */
#include "register.h"

#define WORDS REGISTER_WORDS(4, 8, 16)
#define CHECK(what) do { if (!(what)) return __LINE__; } while (0)

static uint32_t store[WORDS], again[WORDS];

static const uint32_t journal[8 * REGISTER_ENTRY_WORDS] = {
    REGISTER_ENTRY_START, 4, 2, 8, 16, 9,
    REGISTER_ENTRY_SET, 1, 3, 25, 9, 9,
    REGISTER_ENTRY_UPDATE, 2, 3, 26, 9, 9,
    REGISTER_ENTRY_SET, 2, 3, 27, 9, 9, /* refused: it stands */
    REGISTER_ENTRY_CLEAR, 3, 3, 9, 9, 9,
    REGISTER_ENTRY_ADVANCE, 4, 9, 9, 9, 9,
    REGISTER_ENTRY_END, 0, 0, 0, 0, 0,
    REGISTER_ENTRY_ADVANCE, 5, 0, 0, 0, 0 /* behind the end */
};

static int same(void) {
    size_t i;
    for (i = 0; i < WORDS; i++) CHECK(store[i] == again[i]);
    return 0;
}

int main(void) {
    uint64_t answer[3] = {9, 9, 9}; /* the third is not the call's */
    CHECK(register_words(4, 2, 8, 16) == WORDS && register_words(3, 2, 8, 16) == 0);
    CHECK(register_start(store, WORDS, 4, 2, 8, 16) == 0 && register_set(store, WORDS, 1, 3, 25) == 0);
    CHECK(register_update(store, WORDS, 2, 3, 26) == 0 && register_clear(store, WORDS, 3, 3) == 0);
    CHECK(register_advance(store, WORDS, 4) == 0);
    register_replay(again, WORDS, journal, sizeof journal / sizeof *journal, answer);
    CHECK(answer[0] == 6 && answer[1] == 5 && answer[2] == 9);
    CHECK(same() == 0);
    register_replay(again, WORDS, journal, REGISTER_ENTRY_WORDS - 1, answer);
    CHECK(answer[0] == 0 && answer[1] == 0 && answer[2] == 9);
    CHECK(same() == 0);
    return 0;
}
