/*
 * call_cost IMAGE CALL TIMES: makes a call of the library again and again, with
 * the areas that sv/dulimoven_pkg.sv hands over, and prints the sum of the
 * answers. tests/simulator_test takes the time of it, beside that of the same
 * loop in tests/simulator_tb.sv. C11.
 */
#include "dulimoven.h"

#include <inttypes.h>
#include <stdio.h>
#include <stdlib.h>
#include <string.h>

static uint32_t image[DULIMOVEN_MOST_IMAGE_WORDS];
static uint64_t cards[DULIMOVEN_MOST_CARD_WORDS];
static uint32_t chain[DULIMOVEN_MOST_CHAIN_WORDS];

int main(int count, char **arguments)
{
    /* how sequence 2 of examples/setup.image comes to set the unit */
    const uint64_t sequence = 2, fact = 1;
    FILE *file = count == 4 ? fopen(arguments[1], "rb") : NULL;
    uint64_t total = 0;
    size_t words;
    long times;
    if (file == NULL)
        return 1;
    words = fread(image, sizeof image[0], DULIMOVEN_MOST_IMAGE_WORDS, file);
    fclose(file);
    for (times = atol(arguments[3]); times > 0; times--)
        if (strcmp(arguments[2], "check") == 0)
            total += dulimoven_check(image, words);
        else if (strcmp(arguments[2], "cards") == 0)
            total += dulimoven_cards(image, words, cards,
                                     DULIMOVEN_MOST_CARD_WORDS);
        else
            total += dulimoven_chain(image, words, sequence, DULIMOVEN_LAST_SET,
                                     fact, chain, DULIMOVEN_MOST_CHAIN_WORDS);
    printf("%" PRIu64 "\n", total);
    return 0;
}
