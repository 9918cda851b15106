/* Calls every function that include/kin.h declares, on the six-person file, which comes on standard input. It is C and C++. */
#include <stdio.h>
#include <string.h>

#include "kin.h"

/* The customer's question Q: from 0 to 5, 4 hops, all classes, days of events, all days; as stored before, and with undated. */
#define STORED_Q 0, 5, 4, 15, 1, 1, 3652059
#define Q STORED_Q, 1

/* The same from day 700001 on: of the three chains those two are left that begin with an undated link. Undated is to follow. */
#define LATE 0, 5, 4, 15, 1, 700001, 3652059

/* The rings of person 2 in at most five hops. */
#define R 2, 2, 5, 15, 1, 1, 3652059, 1

enum { UNTOUCHED = 77777 };

static const uint32_t FIRST[KIN_RECORD_CELLS] = {3, 0, 1, 3, 5};
static const uint32_t SECOND[KIN_RECORD_CELLS] = {4, 0, 2, 1, 3, 5};
static const uint32_t THIRD[KIN_RECORD_CELLS] = {3, 0, 2, 3, 5};

static const uint32_t RINGS[4][KIN_RECORD_CELLS] = {{3, 2, 1, 3, 2}, {5, 2, 1, 3, 5, 0, 2}, {2, 2, 3, 2}, {4, 2, 3, 5, 0, 2}};

static uint8_t file[KIN_LONGEST_FILE + 1];
static size_t length;
static int faults = 0;

static void expect(const char *words, uint64_t told, uint64_t right) {
    if (told != right) {
        printf("%s: told %llx, right is %llx\n", words, (unsigned long long)told, (unsigned long long)right);
        faults++;
    }
}

static void expect_refused(const char *words, uint64_t answer, uint32_t number, uint32_t place) {
    expect(words, (uint64_t)kin_refused(answer), 1);
    expect(words, kin_refusal_number(answer), number);
    expect(words, kin_refusal_place(answer), place);
}

static void expect_listed(const char *words, uint64_t answer, size_t count, int ended) {
    expect(words, (uint64_t)kin_refused(answer), 0);
    expect(words, kin_count(answer), count);
    expect(words, (uint64_t)kin_ended(answer), (uint64_t)ended);
}

static void expect_record(const char *words, const uint32_t *cells, const uint32_t *record) {
    expect(words, (uint64_t)(memcmp(cells, record, sizeof FIRST) != 0), 0);
}

static void set_untouched(uint32_t *cells, size_t count) {
    for (size_t cell = 0; cell < count; cell++) cells[cell] = UNTOUCHED;
}

static void expect_untouched(const char *words, const uint32_t *cells, size_t count) {
    for (size_t cell = 0; cell < count; cell++) expect(words, cells[cell], UNTOUCHED);
}

static void test_check(void) {
    uint64_t answer = kin_check(file, length);
    expect("check", (uint64_t)kin_refused(answer), 0);
    expect("persons", kin_persons(answer), 6);
    expect("links", kin_links(answer), 10);
    expect("feeds", kin_feeds(answer), 2);
    expect_refused("187 bytes", kin_check(file, 187), 3, 0);
    expect_refused("no bytes", kin_check(NULL, 0), 1, 0);
    file[38] = 3;
    expect_refused("feed 1 means 3", kin_check(file, length), 5, 1);
    file[38] = 2;
}

static void test_row_and_fewest(void) {
    expect("row of 1", kin_row(file, length, 1), 24);
    expect("row of 6", kin_row(file, length, 6), 0);
    expect("fewest from 0", kin_fewest(file, length, Q, 0), 3);
    expect("fewest in one hop", kin_fewest(file, length, 0, 5, 1, 15, 1, 1, 3652059, 1, 0), 2);
    expect_refused("fewest from 6", kin_fewest(file, length, Q, 6), 10, 2);
}

static void test_portion(void) {
    uint32_t output[29], next[20];
    set_untouched(output, 29);
    set_untouched(next, 20);
    expect_listed("room 2", kin_portion(file, length, Q, 0, NULL, 0, output, 29), 2, 0);
    expect_record("first", output, FIRST);
    expect_record("second", output + KIN_RECORD_CELLS, SECOND);
    expect_untouched("behind the portion", output + 20, 9);
    expect_refused("bookmark of nine cells", kin_portion(file, length, Q, 1, output, 9, next, 20), 17, 0);
    expect_untouched("refused", next, 20);
    expect_listed("after the second", kin_portion(file, length, Q, 1, SECOND, KIN_RECORD_CELLS, next, 20), 1, 1);
    expect_record("third", next, THIRD);
}

static void test_rings(void) {
    uint32_t output[40], next[20];
    set_untouched(output, 40);
    set_untouched(next, 20);
    expect_listed("rings, room 3", kin_rings(file, length, R, 0, NULL, 0, output, 39), 3, 0);
    for (size_t ring = 0; ring < 3; ring++) expect_record("ring", output + ring * KIN_RECORD_CELLS, RINGS[ring]);
    expect_untouched("behind the rings", output + 30, 10);
    expect_listed("rings, room 4", kin_rings(file, length, R, 0, NULL, 0, output, 40), 4, 1);
    expect_listed("after the third", kin_rings(file, length, R, 1, RINGS[2], KIN_RECORD_CELLS, next, 20), 1, 1);
    expect_record("fourth", next, RINGS[3]);
    expect_untouched("behind the fourth", next + KIN_RECORD_CELLS, 10);
    expect_listed("after the fourth", kin_rings(file, length, R, 1, RINGS[3], KIN_RECORD_CELLS, output, 39), 0, 1);
    expect_listed("in one hop", kin_rings(file, length, 2, 2, 1, 15, 1, 1, 3652059, 1, 0, NULL, 0, output, 39), 0, 1);
    expect_listed("undated left out", kin_rings(file, length, 2, 2, 5, 15, 1, 1, 3652059, 0, 0, NULL, 0, output, 39), 2, 1);
}

static void test_refused_rings(void) {
    uint32_t output[20];
    set_untouched(output, 20);
    expect_refused("187 bytes", kin_rings(file, 187, Q, 0, NULL, 0, output, 9), 3, 0);
    expect_refused("from 6", kin_rings(file, length, 6, 7, 0, 15, 1, 1, 3652059, 1, 0, NULL, 0, output, 20), 10, 0);
    expect_refused("to 6", kin_rings(file, length, 2, 6, 0, 15, 1, 1, 3652059, 1, 0, NULL, 0, output, 20), 10, 1);
    expect_refused("two persons", kin_rings(file, length, 2, 3, 0, 15, 1, 1, 3652059, 1, 0, NULL, 0, output, 20), 21, 0);
    expect_refused("no hops", kin_rings(file, length, 2, 2, 0, 0, 1, 1, 3652059, 1, 0, NULL, 0, output, 20), 12, 0);
    expect_refused("undated 2", kin_rings(file, length, 2, 2, 5, 15, 1, 1, 3652059, 2, 1, NULL, 0, output, 9), 20, 0);
    expect_refused("nine output cells", kin_rings(file, length, R, 1, NULL, 0, output, 9), 16, 0);
    expect_refused("bookmark of nine cells", kin_rings(file, length, R, 1, RINGS[0], 9, output, 20), 17, 0);
    expect_refused("bookmark that is a chain", kin_rings(file, length, R, 1, FIRST, KIN_RECORD_CELLS, output, 20), 17, 0);
    expect_untouched("refused rings", output, 20);
}

static void test_undated(void) {
    uint32_t working[50], output[30];
    expect_listed("undated links count", kin_portion(file, length, LATE, 1, 0, NULL, 0, output, 30), 2, 1);
    expect_record("undated links count", output, SECOND);
    expect_record("undated links count", output + KIN_RECORD_CELLS, THIRD);
    expect("undated links count", kin_fewest(file, length, LATE, 1, 0), 3);
    set_untouched(working, 50);
    set_untouched(output, 30);
    expect_listed("undated links left out", kin_portion(file, length, LATE, 0, 0, NULL, 0, output, 30), 0, 1);
    expect("undated links left out", kin_fewest(file, length, LATE, 0, 0), 5);
    expect_listed("undated links left out", kin_join(file, length, LATE, 0, working, 50, output, 30), 0, 1);
    expect("half chains all the same", working[1], 5);
    set_untouched(working, 50);
    expect_refused("undated 2", kin_fewest(file, length, LATE, 2, 0), 20, 0);
    expect_refused("undated 2", kin_portion(file, length, LATE, 2, 0, NULL, 0, output, 30), 20, 0);
    expect_refused("undated 2", kin_join(file, length, LATE, 2, working, 50, output, 30), 20, 0);
    expect_untouched("undated 2", working, 50);
    expect_untouched("undated 2", output, 30);
}

static void test_held(void) {
    uint32_t held[KIN_HELD_CELLS] = {Q, 0}, output[30];
    set_untouched(output, 30);
    held[7] = 2;
    expect_refused("held, undated 2", kin_held(held, KIN_HELD_CELLS, file, length, output, 30), 20, 0);
    expect_untouched("held, undated 2", output, 30);
    expect("as it was", held[7], 2);
    held[7] = 1;
    expect_listed("held", kin_held(held, KIN_HELD_CELLS, file, length, output, 30), 3, 1);
    expect("undated", held[7], 1);
    expect("started", held[8], 1);
    expect_record("kept", held + 9, THIRD);
    expect_listed("held, over", kin_held(held, KIN_HELD_CELLS, file, length, output, 30), 0, 1);
}

static void test_held_of_another_size(void) {
    static const size_t sizes[] = {0, 17, 20};
    for (size_t size = 0; size < sizeof sizes / sizeof *sizes; size++) {
        uint32_t held[20] = {Q, 0}, output[30];
        set_untouched(output, 30);
        expect("another size", kin_held(held, sizes[size], file, length, output, 30), (uint64_t)1 << 63);
        expect("not started", held[8], 0);
        expect_untouched("another size", output, 30);
    }
}

/* One stored before goes on as one of today does, in its own cells; the cell behind them is nobody's. */
static void test_stored_held(void) {
    static const uint32_t *const chains[] = {FIRST, SECOND, THIRD};
    uint32_t stored[KIN_STORED_HELD_CELLS + 1] = {STORED_Q, 0}, held[KIN_HELD_CELLS] = {Q, 0}, output[10], others[10];
    stored[KIN_STORED_HELD_CELLS] = UNTOUCHED;
    for (int chain = 0; chain < 3; chain++) {
        uint64_t answer = kin_held(stored, KIN_STORED_HELD_CELLS, file, length, output, 10);
        expect_listed("stored", answer, 1, chain == 2);
        expect_record("stored", output, chains[chain]);
        expect("stored, as today's", answer, kin_held(held, KIN_HELD_CELLS, file, length, others, 10));
        expect_record("stored, as today's", output, others);
        expect("stored, its question", (uint64_t)memcmp(stored, held, 7 * sizeof *held), 0);
        expect("stored, started", stored[7], 1);
        expect_record("stored, kept", stored + 8, held + 9);
    }
    expect_listed("stored, over", kin_held(stored, KIN_STORED_HELD_CELLS, file, length, output, 10), 0, 1);
    expect_untouched("behind the stored one", stored + KIN_STORED_HELD_CELLS, 1);
}

static void test_join(void) {
    uint32_t working[50], output[30];
    set_untouched(working, 50);
    set_untouched(output, 30);
    expect_refused("49 working cells", kin_join(file, length, Q, working, 49, output, 30), 18, 0);
    expect_untouched("49 working cells", working, 50);
    expect_untouched("49 working cells", output, 30);
    expect_listed("join", kin_join(file, length, Q, working, 50, output, 30), 3, 1);
    expect_record("longest last", output + 20, SECOND);
    expect("first half chain", working[0], 0);
    expect("first half chain", working[1], 5);
}

/* That the words are those of docs/REFUSALS.md, line by line, is asked of what refusal_words.c prints. */
static void test_refusal_words(void) {
    expect("no words for 22", (uint64_t)*kin_refusal_words(22), 0);
    expect("no words for the highest number", (uint64_t)*kin_refusal_words(UINT32_MAX), 0);
}

static void test_version(void) {
    char version[40];
    snprintf(version, sizeof version, "%d.%d.%d", KIN_VERSION_MAJOR, KIN_VERSION_MINOR, KIN_VERSION_PATCH);
    expect("the version in numbers and in words", (uint64_t)(strcmp(version, KIN_VERSION) != 0), 0);
}

int main(void) {
    length = fread(file, 1, sizeof file, stdin);
    test_check();
    test_row_and_fewest();
    test_portion();
    test_rings();
    test_refused_rings();
    test_undated();
    test_held();
    test_held_of_another_size();
    test_stored_held();
    test_join();
    test_refusal_words();
    test_version();
    return faults != 0;
}
