/* Prints what include/kin.h says of every refusal, one a line: the number, and the words. Numbers without words are left out. */
#include <inttypes.h>
#include <stdio.h>

#include "kin.h"

int main(void) {
    for (uint32_t number = 0; number < 1000; number++) {
        const char *words = kin_refusal_words(number);
        if (*words) printf("%" PRIu32 " %s\n", number, words);
    }
    return 0;
}
