/* Prints every ring of person 2 in at most four hops in the link file on standard input: from that person back to that person. */
#include <inttypes.h>
#include <stdio.h>
#include <string.h>

#include "kin.h"

/* Room for two rings a portion. A real desk lends more: every portion checks the file again. */
enum { ROOM = 2 };

static void print_ring(const uint32_t *record) {
    printf("%" PRIu32 ":", record[0]);
    for (uint32_t person = 0; person <= record[0]; person++) {
        printf(" %" PRIu32, record[1 + person]);
    }
    printf("\n");
}

static void print_refusal(uint32_t number, uint32_t place) {
    printf("refused %" PRIu32 " at %" PRIu32 ": %s\n", number, place, kin_refusal_words(number));
}

int main(void) {
    static uint8_t file[KIN_LONGEST_FILE + 1];
    size_t length = fread(file, 1, sizeof file, stdin);

    /* The bookmark has cells of its own: slices lent to one call do not overlap. Not started, it isn't looked at. */
    uint32_t started = 0, bookmark[KIN_RECORD_CELLS] = {0};
    uint32_t output[ROOM * KIN_RECORD_CELLS];
    size_t rings = 0;
    uint64_t answer;
    do {
        /* From and to, the same person, hops, all classes, days of events, first and last day, undated links too. */
        answer = kin_rings(file, length, 2, 2, 4, 15, 1, 1, 3652059, 1,
                           started, bookmark, KIN_RECORD_CELLS, output, ROOM * KIN_RECORD_CELLS);
        if (kin_refused(answer)) {
            print_refusal(kin_refusal_number(answer), kin_refusal_place(answer));
            return 1;
        }
        for (size_t ring = 0; ring < kin_count(answer); ring++, started = 1) {
            memcpy(bookmark, output + ring * KIN_RECORD_CELLS, sizeof bookmark);
            print_ring(bookmark);
        }
        rings += kin_count(answer);
    } while (!kin_ended(answer));
    printf("end %zu\n", rings);
    return 0;
}
