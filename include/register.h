/* register.h - the look-back register of a rope tension monitor, proved: the calls of libregister.a, and their manual.
 *
 * A register keeps conditions (a tag with a reading in daN: a tension outside its band, a sheave off, a gauge in
 * doubt) as they are set, cleared and given new readings. A look-back tells what stood at any past second and since
 * when; it lists at most twice as many blocks as were open then. A window tells what stood at some second of a span,
 * such as a closure. The code is written in Rattle, and a checker has proved that each call answers and writes what its
 * definition says for every content of the lent words, honest or not. It renders document 01, with requests 1 and 2 of
 * document 02 (since, windows); docs/LAYOUT.md has the words of a store.
 *
 * AN EXAMPLE. It prints `tag 3: -25 daN since 10`: what stood at second 11 of tag 3, set at 10 and cleared at 12.
 *
 *     #include <stdio.h>
 *     #include "register.h"
 *
 *     static uint32_t store[REGISTER_WORDS(4, 8, 16)];
 *     static uint32_t rows[REGISTER_ROW_WORDS(16)], list[REGISTER_LIST_WORDS(8)];
 *
 *     int main(void) {
 *         const size_t words = REGISTER_WORDS(4, 8, 16);
 *         uint32_t answer[REGISTER_ANSWER_WORDS], i, refusal;
 *         refusal = register_start(store, words, 4, 2, 8, 16);
 *         if (!refusal) refusal = register_set(store, words, 10, 3, (uint32_t)-25);
 *         if (!refusal) refusal = register_clear(store, words, 12, 3);
 *         if (!refusal) refusal = register_look_back(store, words, 11, rows, REGISTER_ROW_WORDS(16),
 *                                                    list, REGISTER_LIST_WORDS(8), answer);
 *         if (refusal) {
 *             fprintf(stderr, "refusal %u: %s\n", (unsigned)refusal, register_refusal_text(refusal));
 *             return 1;
 *         }
 *         for (i = 0; i < answer[REGISTER_ROWS]; i++)
 *             printf("tag %u: %ld daN since %lu\n", (unsigned)REGISTER_TAG_OF(rows, i),
 *                    (long)REGISTER_READING_OF(rows, i), (unsigned long)REGISTER_SINCE_OF(rows, i));
 *         return 0;
 *     }
 *
 * BUILDING. `tools/archive` makes target/staticlib/libregister.a. Compile include/register_refusal.c with your
 * program (only register_refusal_text is in it) and link the archive, which needs nothing but memset:
 *
 *     cc -I include example.c include/register_refusal.c target/staticlib/libregister.a
 *
 * THE STORE. A register lives in 32-bit words that the caller lends, from their first on; nothing is kept elsewhere and
 * nothing is allocated. So a store may be copied, saved word for word, mapped from a file, and used again by the next
 * call: there is no opening and no closing. Words beyond its layout are never touched.
 *
 * VERSIONS. A store belongs to one version of the library; only 0.3 and 0.4 have the same stores, and 0.4 adds
 * register_window. Before 0.3.0 a record had no word for since: a store of such a version is shorter, and its records
 * lie elsewhere, but its head has the same mark. In its own length it is refused with REGISTER_SHORT_STORE; with words
 * to spare it may be taken for one of this version, and is misread then. A library before 0.3.0 takes a store of this
 * version for its own: no refusal need tell, it misreads it, and a change spoils it.
 * A store is carried over by its whole journal, from the first start on, which is the same in all versions (a copy of
 * the store with the rest of the journal will not do). Leave out the entries that were refused then: a start that found
 * its store too short might now be accepted. Lend the words that the largest start left needs now, and replay: all must
 * be accepted. README.md, "Versions", has more, also for those who have no whole journal.
 * A row had two words before 0.3.0 and has three now. Compile programs anew. Where one has a row buffer's length as a
 * number, use REGISTER_ROW_WORDS: one of 2D words is refused with REGISTER_SHORT_BUFFER. Where one finds its rows itself
 * (rows[2 * i]), use REGISTER_TAG_OF, REGISTER_READING_OF and REGISTER_SINCE_OF.
 *
 * WHAT IS ASSUMED OF A CALLER, as Rust's borrows give it:
 *  - each pointer is aligned and not null, also where its number of words is 0, and has that many words behind it;
 *  - store, rows, list, journal and answer do not overlap;
 *  - nothing else writes the lent words, or reads those that the call writes, until it returns;
 *  - there is stack: a look-back's visits nest up to B - 1 deep on crafted words, some 55 bytes each on x86-64 (0.3 MB
 *    for B = 4096); a window takes some 17 KB, for an array of 4096 words; the other calls take less than 1 KB.
 *
 * THREADS. There are no globals and no locks. Calls on different stores have nothing to do with one another. On one
 * store, look-backs and windows may run side by side, each with buffers of its own, as long as nothing writes the
 * store; a start, a change, a clock move or a replay must have it alone.
 *
 * RESULTS. Each of the seven calls gives 0 if it was accepted, else the number of the first refusal that applies
 * (enum register_result): they are tested in the order of their numbers, but 14 comes right after 5. A refused call
 * leaves all words as they were, except that refusal 12 of a look-back fills rows and list, whole, with zeros, and that
 * of a window its rows. There is no other error: every call ends, and answers for all arguments. */
#ifndef REGISTER_H
#define REGISTER_H

#include <stddef.h>
#include <stdint.h>

#ifdef __cplusplus
extern "C" {
#endif

/* The version of this header. Before 1.0 a new minor version may rename or change things. */
#define REGISTER_VERSION_MAJOR 0
#define REGISTER_VERSION_MINOR 4
#define REGISTER_VERSION_PATCH 0
#define REGISTER_VERSION "0.4.0"

/* ---- Settings and lengths ---------------------------------------------------------------------------------------- */

/* Limits of the settings. q is at least 1 and at most b / 2. */
#define REGISTER_LEAST_BLOCK 2   /* b, records in a block */
#define REGISTER_MOST_BLOCK 64
#define REGISTER_LEAST_USEFUL 1  /* q, below which a block that is judged closes */
#define REGISTER_LEAST_BLOCKS 1  /* B, blocks in a store */
#define REGISTER_MOST_BLOCKS 4096
#define REGISTER_LEAST_TAGS 1    /* D; tags are 0 to D - 1 */
#define REGISTER_MOST_TAGS 4096

/* An end not yet known; no second. Seconds are 0 to 4294967294. */
#define REGISTER_OPEN UINT32_C(4294967295)

/* Words of a store with these settings (head, index, directory, blocks), for arrays; settings within their limits give
 * 1,351,968 at most. register_words tells the same, and tests the settings. */
#define REGISTER_WORDS(block, blocks, tags) \
    ((size_t)16 + 4096 + 256 + 16 + (size_t)(tags) + (size_t)(blocks) * (8 + 5 * (size_t)(block)))

/* Words of a row: tag, reading, since. */
#define REGISTER_WORDS_PER_ROW 3

/* Words that the row buffer of a look-back or window must have, and a look-back's list. */
#define REGISTER_ROW_WORDS(tags) (REGISTER_WORDS_PER_ROW * (size_t)(tags))
#define REGISTER_LIST_WORDS(blocks) ((size_t)(blocks))

/* Tag, reading and since of row i, counted from 0, in a row buffer after a look-back or window. Since is the second of
 * the set or new reading that the row's reading came with, however often the register has copied its record. A monitor
 * that sends the same reading again each minute by register_update makes since the last minute: if since is to tell for
 * how long, send a new reading only when it changed. */
#define REGISTER_TAG_OF(rows, i) ((rows)[REGISTER_WORDS_PER_ROW * (size_t)(i)])
#define REGISTER_READING_OF(rows, i) ((int32_t)(rows)[REGISTER_WORDS_PER_ROW * (size_t)(i) + 1])
#define REGISTER_SINCE_OF(rows, i) ((rows)[REGISTER_WORDS_PER_ROW * (size_t)(i) + 2])

/* Words of a store with these settings; 0 where register_start would refuse the settings. */
size_t register_words(uint32_t block, uint32_t useful, uint32_t blocks, uint32_t tags);

/* ---- Results ----------------------------------------------------------------------------------------------------- */

/* Each refusal: when it comes, and what to do. Which call may get which is said at the call. */
enum register_result {
    REGISTER_ACCEPTED = 0,

    /* Settings outside their limits. Mend them; register_words tells beforehand. */
    REGISTER_SETTINGS = 1,

    /* The store has fewer than 16 words, so not even a head. Lend all of it. */
    REGISTER_SHORT_HEAD = 2,

    /* The head has another mark than 7001, settings outside limits, N above B, clock OPEN, one of its last six words
     * not zero, or a fill not 1 to b (not 0, for N = 0): the store was never started, or something else wrote it.
     * Start it, or take an older copy, of this version. */
    REGISTER_HEAD = 3,

    /* The store is shorter than its layout. Lend REGISTER_WORDS words; see VERSIONS if they were enough before. */
    REGISTER_SHORT_STORE = 4,

    /* The time is OPEN, which is no second; of a window either of the two. */
    REGISTER_TIME_OPEN = 5,

    /* A change or clock move is earlier than the clock. The past is not changed: pass the clock or a later second. */
    REGISTER_EARLY = 6,

    /* A look-back, or the last second of a window, is later than the clock, of which nothing is known yet. Move the
     * clock first. */
    REGISTER_LATE = 7,

    /* The tag is D or more. */
    REGISTER_TAG = 8,

    /* A set of a tag that stands. Give it a new reading, or clear it first. */
    REGISTER_STANDING = 9,

    /* A clear or new reading of a tag that does not stand. Set it. */
    REGISTER_NOT_STANDING = 10,

    /* The row buffer has fewer than REGISTER_ROW_WORDS words, or the list fewer than REGISTER_LIST_WORDS; see VERSIONS
     * if they were enough before. */
    REGISTER_SHORT_BUFFER = 11,

    /* A link, place or tag that the call needs is unsound: something else wrote the store. It is proved that this never
     * comes after calls alone. Take an older copy, of this version, or rebuild the store from a journal. */
    REGISTER_UNSOUND = 12,

    /* The change would open a block, and N = B. Keep this store for look-backs and windows, and start another, or a
     * larger one: README.md, "When blocks run out". */
    REGISTER_OUT_OF_BLOCKS = 13,

    /* The last second of a window is before its first. Tested right after 5. */
    REGISTER_REVERSED = 14
};

/* A result in plain words, "accepted" for 0; never null. In register_refusal.c, not in the archive. */
const char *register_refusal_text(uint32_t result);

/* ---- Changes ----------------------------------------------------------------------------------------------------- */

/* Begins a new history: b records in a block, q, B blocks and D tags, within the limits above. Fills the layout with
 * zeros, then the head; the clock is 0. Refusals 1, 2, 4. */
uint32_t register_start(uint32_t *store, size_t words, uint32_t block, uint32_t useful, uint32_t blocks, uint32_t tags);

/* Sets a tag, 0 to D - 1, with a reading in daN; a negative reading v is passed as 4294967296 + v, C's (uint32_t)v.
 * The second becomes the clock, as in each accepted change; several changes may share one. It is also the condition's
 * since. Refusals 2 to 6, 8, 9, 12, 13. */
uint32_t register_set(uint32_t *store, size_t words, uint32_t second, uint32_t tag, uint32_t reading);

/* Clears a tag that stands; one that is set and cleared within a second never shows.
 * Refusals 2 to 6, 8, 10, 12, 13 (a clear may close a block, whose records are then placed again). */
uint32_t register_clear(uint32_t *store, size_t words, uint32_t second, uint32_t tag);

/* Gives a standing tag a new reading: a clear and a set at the same second. Its since becomes this second, also if the
 * reading is equal. Refusals 2 to 6, 8, 10, 12, 13. */
uint32_t register_update(uint32_t *store, size_t words, uint32_t second, uint32_t tag, uint32_t reading);

/* Moves the clock. Refusals 2 to 6. */
uint32_t register_advance(uint32_t *store, size_t words, uint32_t second);

/* ---- The look-back ----------------------------------------------------------------------------------------------- */

/* The words of a look-back's answer. A page is counted from 0 in its level, REGISTER_OPEN if none was passed. */
enum register_answer {
    REGISTER_ROWS = 0,   /* rows given */
    REGISTER_PAGES = 1,  /* index pages read */
    REGISTER_BLOCKS = 2, /* blocks listed */
    REGISTER_PAGE0 = 3,  /* page passed on level 0, the lowest */
    REGISTER_PAGE1 = 4,
    REGISTER_PAGE2 = 5,
    REGISTER_ANSWER_WORDS = 6
};

/* What stood at a second up to the clock; at the clock, the state so far. rows gets tag, reading and since of each row,
 * list the numbers, from 1, of the blocks listed, answer the six words above; words after these keep their contents,
 * and a refusal leaves answer as it was. The store is only read. Refusals 2 to 5, 7, 11, 12. */
uint32_t register_look_back(const uint32_t *store, size_t words, uint32_t second, uint32_t *rows, size_t rows_words,
                            uint32_t *list, size_t list_words, uint32_t answer[REGISTER_ANSWER_WORDS]);

/* ---- A window ---------------------------------------------------------------------------------------------------- */

/* What stood at some second from first to last, both included: a closure, a shift, a day. last may be the clock, but
 * not after it (refusal 7): the window is not cut there. rows gets each tag that stood then, once, in ascending order,
 * with the reading and since of its latest standing there, three words a row (REGISTER_TAG_OF and the others above). A
 * row does not tell whether the tag still stood at last, nor when it ended; since may lie before first. answer, one
 * word in an array of its own, gets the number of rows; of a longer array the first word does, and the others are left.
 * rows must have REGISTER_ROW_WORDS(D) words, also if few rows come; those after the rows keep their contents. A
 * condition that was set and cleared within a second never shows. With first = last a store that calls alone wrote
 * gives what a look-back gives, in the order of tags. The store is only read: the heads of all blocks opened so far,
 * and the blocks opened by last and not closed by first. Of several records of a tag that stood in the window, in these
 * blocks, the latest is the one with the greatest from, then the greatest place.
 * Refusals, in this order: 2, 3, 4, 5 (either second is OPEN), 14 (last is before first), 7 (last is after the clock),
 * 11 (the row buffer), 12 (in these blocks a record that stood in the window has a tag of D or more: something else
 * wrote the store). Each leaves answer as it was; 12 fills rows, whole, with zeros, the others leave them too. */
uint32_t register_window(const uint32_t *store, size_t words, uint32_t first, uint32_t last, uint32_t *rows,
                         size_t rows_words, uint32_t answer[1]);

/* ---- A journal, from which a store is rebuilt -------------------------------------------------------------------- */

/* A journal is a run of words, six an entry: its kind and five numbers, of which a kind uses the first ones and the
 * others are not looked at. Any other kind ends the journal, so that a tail of zeros is no entry, and so does an entry
 * that is cut short. Look-backs and windows are not in it: they leave the store as it is. */
enum register_entry {
    REGISTER_ENTRY_END = 0,
    REGISTER_ENTRY_START = 1,   /* b, q, B, D */
    REGISTER_ENTRY_SET = 2,     /* second, tag, reading */
    REGISTER_ENTRY_CLEAR = 3,   /* second, tag */
    REGISTER_ENTRY_UPDATE = 4,  /* second, tag, new reading */
    REGISTER_ENTRY_ADVANCE = 5, /* second */
    REGISTER_ENTRY_WORDS = 6
};

/* Makes the calls of a journal, one after another, on a store of any contents; a refused one changes nothing. answer[0]
 * gets the number of entries read, which is less than the journal has if an unknown kind ended it, answer[1] the number
 * of those that were accepted. Both are 64 bits wide: a journal may have more entries than 32 bits count. There
 * is no refusal: a journal of refused calls is read to its end, and leaves the store as it was.
 * examples/mapped.c shows how a journal is kept so that no acknowledged change is lost. */
void register_replay(uint32_t *store, size_t words, const uint32_t *journal, size_t journal_words, uint64_t answer[2]);

#ifdef __cplusplus
}
#endif

#endif
