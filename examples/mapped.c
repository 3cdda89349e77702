/* A register in a file: the store is mapped into memory, a journal lies beside it, and no acknowledged change is lost.
 *
 *     ./mapped FOLDER      keeps FOLDER/store and FOLDER/journal; commands on standard input (examples/README.md)
 *
 * Each change goes through four steps. If the program or the machine stops, then after the next start:
 *
 *     1. its entry is appended to the journal    in 1 or 2: the change is there, or nothing of it is
 *     2. the journal is synced to the disk       from here on: the change is there
 *     3. the call is made on the mapped store    the same: whatever the file has, it is rebuilt
 *     4. the answer is printed                   so what was acknowledged is there
 *
 * A start rebuilds the store from the journal, whatever words the mapped file has: the system writes its pages back
 * when and in which order it likes, and a stop in the middle of a call leaves half of it. Rebuilt is what was there:
 * what a call answers and writes depends on the store's words and its arguments alone (that is proved), so the same
 * calls in the same order leave the same words. A refused call stays in the journal, and is refused again.
 *
 * For Linux. Words are written as the machine has them: take the files to one with the same order of bytes. */
#define _DEFAULT_SOURCE /* flock, fdatasync */
#include <fcntl.h>
#include <stdio.h>
#include <stdlib.h>
#include <string.h>
#include <sys/file.h>
#include <sys/mman.h>
#include <sys/stat.h>
#include <unistd.h>
#include "register.h"

enum { BLOCK = 8, USEFUL = 2, BLOCKS = 512, TAGS = 64 };
#define WORDS REGISTER_WORDS(BLOCK, BLOCKS, TAGS)
#define SPACES " \t\r\n"
#define ENTRY_BYTES (REGISTER_ENTRY_WORDS * sizeof(uint32_t))

/* Ends the program in the middle of what it does. That is always allowed: the next start treats it like a kill. */
static void stop(const char *why) {
    fprintf(stderr, "mapped: %s\n", why);
    exit(1);
}

/* The same if the system has turned a call away. */
static void failed(const char *what) {
    perror(what);
    exit(1);
}

static void *map(int file, size_t bytes, int protection) {
    void *address = mmap(NULL, bytes, protection, MAP_SHARED, file, 0);
    if (address == MAP_FAILED) failed("mmap");
    return address;
}

/* ---- The journal ------------------------------------------------------------------------------------------------- */

/* What the program puts into the sixth word of an entry, which no kind uses and no replay looks at: a check of the
 * five others (FNV-1a). A stopped machine may have written one sector of an entry and not the next, or its length and
 * none of its bytes: then the check is wrong. (Kind 0 ends a journal, but not every torn entry begins with a 0.) */
static uint32_t check_of(const uint32_t *entry) {
    uint32_t check = 2166136261u;
    for (int i = 0; i < 5; i++) check = (check ^ entry[i]) * 16777619u;
    return check;
}

/* Steps 1 and 2. After a failed write or sync nobody knows what is on the disk, so the program does not go on. */
static void append(int journal, uint32_t *entry) {
    entry[5] = check_of(entry);
    if (write(journal, entry, ENTRY_BYTES) != (ssize_t)ENTRY_BYTES) failed("journal: the entry was not written");
    if (fdatasync(journal) != 0) failed("journal: the entry was not synced");
}

/* Whole entries from the beginning of the journal on. */
static size_t whole_entries(const uint32_t *words, size_t bytes) {
    size_t entries = 0;
    while ((entries + 1) * ENTRY_BYTES <= bytes && words[5] == check_of(words)) {
        words += REGISTER_ENTRY_WORDS;
        entries++;
    }
    return entries;
}

/* Cuts off an entry that was not finished, so that the next is appended at a multiple of six words; how many are left.
 * An entry is synced before the next is begun, so only the last can be unfinished, and that was never acknowledged. If
 * more than one lies behind the whole ones, the journal was damaged otherwise: nothing is cut, the program stops.
 * The sync is also for a last entry that is whole, but was killed before its own sync: from now on it is shown. */
static size_t cut_tail(int journal) {
    struct stat file;
    if (fstat(journal, &file) != 0) failed("journal");
    size_t bytes = (size_t)file.st_size, entries = 0;
    if (bytes > 0) {
        void *words = map(journal, bytes, PROT_READ);
        entries = whole_entries(words, bytes);
        munmap(words, bytes);
    }
    if (bytes > (entries + 1) * ENTRY_BYTES) stop("the journal is damaged before its last entry; nothing is cut");
    if (ftruncate(journal, (off_t)(entries * ENTRY_BYTES)) != 0 || fdatasync(journal) != 0) failed("journal: not cut");
    return entries;
}

/* Makes the journal's calls on the store, whose words may be any: the first entry, a start, fills them anew. */
static void rebuild(uint32_t *store, int journal) {
    uint32_t start[REGISTER_ENTRY_WORDS] = {REGISTER_ENTRY_START, BLOCK, USEFUL, BLOCKS, TAGS, 0};
    uint64_t answer[2];
    size_t entries = cut_tail(journal);
    if (entries == 0) {
        append(journal, start);
        entries = 1;
    }
    uint32_t *words = map(journal, entries * ENTRY_BYTES, PROT_READ);
    if (memcmp(words, start, 5 * sizeof *start) != 0) stop("the journal was begun with other settings");
    register_replay(store, WORDS, words, entries * REGISTER_ENTRY_WORDS, answer);
    munmap(words, entries * ENTRY_BYTES);
    if (answer[0] != entries) stop("the journal has entries of a kind that this program does not know");
    printf("rebuilt: %lu entries, %lu accepted\n", (unsigned long)answer[0], (unsigned long)answer[1]);
    fflush(stdout);
}

/* ---- The commands ------------------------------------------------------------------------------------------------ */

static uint32_t call(uint32_t *store, const uint32_t *entry) {
    switch (entry[0]) {
    case REGISTER_ENTRY_SET: return register_set(store, WORDS, entry[1], entry[2], entry[3]);
    case REGISTER_ENTRY_CLEAR: return register_clear(store, WORDS, entry[1], entry[2]);
    case REGISTER_ENTRY_UPDATE: return register_update(store, WORDS, entry[1], entry[2], entry[3]);
    default: return register_advance(store, WORDS, entry[1]);
    }
}

static uint32_t change(uint32_t *store, int journal, uint32_t *entry) {
    append(journal, entry);                  /* steps 1 and 2 */
    uint32_t refusal = call(store, entry);   /* step 3 */
    if (refusal == 0) puts("ok");            /* step 4 ends with the flush in `answer` */
    return refusal;
}

static uint32_t rows[REGISTER_ROW_WORDS(TAGS)], list[REGISTER_LIST_WORDS(BLOCKS)];

static void print_rows(uint32_t count) {
    for (uint32_t i = 0; i < count; i++)
        printf("tag %lu: %ld daN since %lu\n", (unsigned long)REGISTER_TAG_OF(rows, i),
               (long)REGISTER_READING_OF(rows, i), (unsigned long)REGISTER_SINCE_OF(rows, i));
}

static uint32_t look(const uint32_t *store, uint32_t second) {
    uint32_t told[REGISTER_ANSWER_WORDS];
    uint32_t refusal = register_look_back(store, WORDS, second, rows, REGISTER_ROW_WORDS(TAGS),
                                          list, REGISTER_LIST_WORDS(BLOCKS), told);
    if (refusal != 0) return refusal;
    printf("stood at %lu: %lu\n", (unsigned long)second, (unsigned long)told[REGISTER_ROWS]);
    print_rows(told[REGISTER_ROWS]);
    return 0;
}

static uint32_t window(const uint32_t *store, uint32_t first, uint32_t last) {
    uint32_t told[1];
    uint32_t refusal = register_window(store, WORDS, first, last, rows, REGISTER_ROW_WORDS(TAGS), told);
    if (refusal != 0) return refusal;
    printf("stood from %lu to %lu: %lu\n", (unsigned long)first, (unsigned long)last, (unsigned long)told[0]);
    print_rows(told[0]);
    return 0;
}

/* Look-backs and windows are no entries of a journal; here they have kinds that no entry has. */
enum { LOOK = 101, WINDOW = 102 };
static const struct command {
    const char *name;
    uint32_t kind;
    int numbers;
} commands[] = {
    {"set", REGISTER_ENTRY_SET, 3},         {"clear", REGISTER_ENTRY_CLEAR, 2}, {"update", REGISTER_ENTRY_UPDATE, 3},
    {"advance", REGISTER_ENTRY_ADVANCE, 1}, {"look", LOOK, 1},                  {"window", WINDOW, 2},
};

/* The next number of the line: the third of a command is a reading, which may be negative, the others may not. */
static int number(int which, uint32_t *word) {
    const char *text = strtok(NULL, SPACES);
    char *end = NULL;
    long long value = text ? strtoll(text, &end, 10) : 0;
    long long least = which == 3 ? INT32_MIN : 0, most = which == 3 ? INT32_MAX : UINT32_MAX;
    *word = (uint32_t)value;
    return text && end != text && *end == 0 && least <= value && value <= most;
}

/* Kind and numbers of a command; 0 if the line is none. */
static int parse(char *line, uint32_t *entry) {
    const char *name = strtok(line, SPACES);
    const struct command *command = commands, *last = commands + sizeof commands / sizeof *commands;
    while (command < last && (!name || strcmp(name, command->name) != 0)) command++;
    if (command == last) return 0;
    entry[0] = command->kind;
    for (int i = 1; i <= command->numbers; i++)
        if (!number(i, &entry[i])) return 0;
    return strtok(NULL, SPACES) == NULL;
}

static uint32_t make(uint32_t *store, int journal, uint32_t *entry) {
    switch (entry[0]) {
    case LOOK: return look(store, entry[1]);
    case WINDOW: return window(store, entry[1], entry[2]);
    default: return change(store, journal, entry);
    }
}

/* Refusals 3 and 12 never come after calls alone (that is proved): then something else wrote the mapped file, and what
 * the call answered is no answer. The next start rebuilds the store, with this change if it is one. */
static void answer(uint32_t *store, int journal, char *line) {
    uint32_t entry[REGISTER_ENTRY_WORDS] = {0}, refusal = 0;
    if (!parse(line, entry)) puts("no command; there are: set SECOND TAG READING, clear SECOND TAG, "
                                  "update SECOND TAG READING, advance SECOND, look SECOND, window FIRST LAST");
    else refusal = make(store, journal, entry);
    if (refusal == REGISTER_HEAD || refusal == REGISTER_UNSOUND) stop("something else wrote the store; start again");
    if (refusal != 0) printf("refused: %s (refusal %lu)\n", register_refusal_text(refusal), (unsigned long)refusal);
    if (fflush(stdout) != 0) failed("standard output");
}

/* The lock keeps a second program off: while a call runs, nothing else may write the store. The sync of the folder is
 * for the names of the two files, which are on the disk only then. */
int main(int argc, char **argv) {
    if (argc != 2) stop("usage: mapped FOLDER");
    int folder = open(argv[1], O_RDONLY | O_DIRECTORY);
    if (folder < 0) failed(argv[1]);
    int journal = openat(folder, "journal", O_RDWR | O_APPEND | O_CREAT, 0666);
    int file = openat(folder, "store", O_RDWR | O_CREAT, 0666);
    if (journal < 0 || file < 0 || flock(journal, LOCK_EX | LOCK_NB) != 0) failed("journal or store");
    if (ftruncate(file, (off_t)(WORDS * sizeof(uint32_t))) != 0 || fsync(folder) != 0) failed("store or folder");
    uint32_t *store = map(file, WORDS * sizeof(uint32_t), PROT_READ | PROT_WRITE);
    rebuild(store, journal);
    char *line = NULL;
    size_t room = 0;
    ssize_t length;
    while ((length = getline(&line, &room, stdin)) > 0 && line[length - 1] == '\n') /* a last line may be cut short */
        answer(store, journal, line);
    if (msync(store, WORDS * sizeof(uint32_t), MS_SYNC) != 0) failed("store");
    return 0;
}
