/* The printed case of document 01, called from C through include/register.h. Exits with the line of the first wrong
 * answer, or 0. */
#include "register.h"

#define WORDS REGISTER_WORDS(4, 8, 16)
#define CHECK(what) do { if (!(what)) return __LINE__; } while (0)

static uint32_t store[WORDS], rows[48], list[8], answer[REGISTER_ANSWER_WORDS];

static uint32_t look_back(uint32_t second) {
    return register_look_back(store, WORDS, second, rows, 48, list, 8, answer);
}

static uint32_t window(uint32_t first, uint32_t last) {
    return register_window(store, WORDS, first, last, rows, 48, answer);
}

/* Whether row i has these words. */
static int row(int i, uint32_t tag, int32_t reading, uint32_t since) {
    return REGISTER_TAG_OF(rows, i) == tag && REGISTER_READING_OF(rows, i) == reading
        && REGISTER_SINCE_OF(rows, i) == since;
}

static int change(void) {
    CHECK(WORDS == 4624 && register_start(store, 4623, 4, 2, 8, 16) == REGISTER_SHORT_STORE);
    CHECK(register_start(store, WORDS, 3, 2, 8, 16) == REGISTER_SETTINGS);
    CHECK(register_start(store, WORDS, 4, 2, 8, 16) == REGISTER_ACCEPTED);
    CHECK(look_back(0) == 0 && answer[REGISTER_ROWS] == 0 && answer[REGISTER_PAGES] == 0);
    CHECK(register_set(store, WORDS, 1, 1, 25) == 0);
    CHECK(register_set(store, WORDS, 2, 2, (uint32_t)-25) == 0);
    CHECK(register_set(store, WORDS, 3, 3, 5) == 0);
    CHECK(register_set(store, WORDS, 4, 4, 140) == 0);
    CHECK(register_set(store, WORDS, 5, 5, 0) == 0);
    CHECK(register_clear(store, WORDS, 6, 2) == 0);
    CHECK(register_clear(store, WORDS, 7, 3) == 0);
    CHECK(register_clear(store, WORDS, 8, 1) == 0);
    return 0;
}

static int look(void) {
    CHECK(look_back(7) == 0);
    CHECK(answer[REGISTER_ROWS] == 3 && answer[REGISTER_PAGES] == 1 && answer[REGISTER_BLOCKS] == 2);
    CHECK(answer[REGISTER_PAGE0] == 0 && answer[REGISTER_PAGE1] == REGISTER_OPEN && answer[REGISTER_PAGE2] == REGISTER_OPEN);
    CHECK(rows[0] == 5 && rows[1] == 0 && rows[2] == 5 && rows[3] == 1 && rows[4] == 25 && rows[5] == 1);
    CHECK(row(0, 5, 0, 5) && row(1, 1, 25, 1) && row(2, 4, 140, 4));
    CHECK(list[0] == 2 && list[1] == 1);
    CHECK(look_back(3) == 0 && answer[REGISTER_ROWS] == 3 && answer[REGISTER_BLOCKS] == 1 && list[0] == 1);
    CHECK(row(0, 1, 25, 1) && row(1, 2, -25, 2) && row(2, 3, 5, 3));
    CHECK(look_back(8) == 0 && answer[REGISTER_ROWS] == 2 && row(0, 5, 0, 5));
    CHECK(row(1, 4, 140, 4)); /* since 4, though its record was copied at 8 */
    CHECK(look_back(0) == 0 && answer[REGISTER_ROWS] == 0 && answer[REGISTER_BLOCKS] == 0);
    CHECK(look_back(9) == REGISTER_LATE);
    return 0;
}

static int cross(void) {
    CHECK(window(5, 7) == 0 && answer[REGISTER_ROWS] == 5 && row(0, 1, 25, 1) && row(1, 2, -25, 2));
    CHECK(row(2, 3, 5, 3) && row(3, 4, 140, 4) && row(4, 5, 0, 5));
    CHECK(window(7, 8) == 0 && answer[REGISTER_ROWS] == 3 && row(0, 1, 25, 1) && row(1, 4, 140, 4) && row(2, 5, 0, 5));
    rows[6] = 77;
    CHECK(window(8, 8) == 0 && answer[REGISTER_ROWS] == 2 && row(0, 4, 140, 4) && row(1, 5, 0, 5) && rows[6] == 77);
    CHECK(window(0, 0) == 0 && answer[REGISTER_ROWS] == 0);
    answer[REGISTER_ROWS] = 88;
    CHECK(window(REGISTER_OPEN, 3) == REGISTER_TIME_OPEN && window(3, REGISTER_OPEN) == REGISTER_TIME_OPEN);
    CHECK(window(9, 8) == REGISTER_REVERSED && window(8, 9) == REGISTER_LATE);
    CHECK(register_window(store, WORDS, 5, 7, rows, 47, answer) == REGISTER_SHORT_BUFFER);
    CHECK(answer[REGISTER_ROWS] == 88 && rows[0] == 4 && rows[6] == 77);
    return 0;
}

static int turned_away(void) {
    CHECK(register_set(store, WORDS, 7, 6, 0) == REGISTER_EARLY);
    CHECK(register_set(store, WORDS, 8, 16, 0) == REGISTER_TAG);
    CHECK(register_set(store, WORDS, 8, 5, 0) == REGISTER_STANDING);
    CHECK(register_update(store, WORDS, 8, 1, 0) == REGISTER_NOT_STANDING);
    CHECK(register_advance(store, WORDS, REGISTER_OPEN) == REGISTER_TIME_OPEN);
    CHECK(register_advance(store, 15, 9) == REGISTER_SHORT_HEAD);
    CHECK(register_look_back(store, WORDS, 8, rows, 47, list, 8, answer) == REGISTER_SHORT_BUFFER);
    CHECK(register_set(store, WORDS, 8, 15, 0) == REGISTER_ACCEPTED);
    CHECK(register_update(store, WORDS, 9, 15, 7) == REGISTER_ACCEPTED);
    CHECK(register_advance(store, WORDS, 10) == REGISTER_ACCEPTED);
    return 0;
}

/* A row whose tag, reading and since are no two alike. */
static int told_apart(void) {
    CHECK(look_back(10) == 0 && answer[REGISTER_ROWS] == 3 && row(2, 15, 7, 9));
    CHECK(rows[6] == 15 && rows[7] == 7 && rows[8] == 9);
    return 0;
}

int main(void) {
    int line = change();
    if (line == 0) line = look();
    if (line == 0) line = cross();
    if (line == 0) line = turned_away();
    if (line == 0) line = told_apart();
    return line;
}
