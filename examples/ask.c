/* Prints every chain from person 0 to person 5 in at most four hops in the link file on standard input, as the program chains does. */
#include <inttypes.h>
#include <stdio.h>

#include "kin.h"

/* Room for two chains a portion. A real desk lends more: every portion checks the file again. */
enum { ROOM = 2 };

static void print_chain(const uint32_t *record) {
    printf("%" PRIu32 ":", record[0]);
    for (uint32_t person = 0; person <= record[0]; person++) {
        printf(" %" PRIu32, record[1 + person]);
    }
    printf("\n");
}

static void print_refusal(uint32_t number, uint32_t place) {
    printf("refused %" PRIu32 " at %" PRIu32 ": %s\n", number, place, kin_refusal_words(number));
}

int main(void) {
    static uint8_t file[KIN_LONGEST_FILE + 1];
    size_t length = fread(file, 1, sizeof file, stdin);

    /* From, to, hops, all classes, days of events, first and last day, undated links too; not started: the record isn't looked at. */
    uint32_t held[KIN_HELD_CELLS] = {0, 5, 4, 15, 1, 1, 3652059, 1, 0};
    uint32_t output[ROOM * KIN_RECORD_CELLS];
    size_t chains = 0;
    uint64_t answer;
    do {
        answer = kin_held(held, KIN_HELD_CELLS, file, length, output, ROOM * KIN_RECORD_CELLS);
        if (kin_refused(answer)) {
            print_refusal(kin_refusal_number(answer), kin_refusal_place(answer));
            return 1;
        }
        for (size_t chain = 0; chain < kin_count(answer); chain++) {
            print_chain(output + chain * KIN_RECORD_CELLS);
        }
        chains += kin_count(answer);
    } while (!kin_ended(answer));
    printf("end %zu\n", chains);
    return 0;
}
