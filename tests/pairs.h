/* The pairs of formats that a house table covers, source and destination, as a table has them, and how many gains its entries have. */
#ifndef PAIRS_H
#define PAIRS_H

#include "mixer.h"

enum { PAIRS = 24, NUMBERS = 2 * PAIRS, GAINS = 1021 };

static const uint32_t covered[NUMBERS] = {
    2, 0, 2, 1,                         /* LCR */
    3, 0, 3, 1, 3, 2, 3, 4, 3, 6,       /* 5.1 */
    4, 0, 4, 1, 4, 2, 4, 3, 4, 5,       /* 7.1 */
    5, 0, 5, 1, 5, 2, 5, 3, 5, 4, 5, 6, /* 5.1.4 */
    6, 0, 6, 1, 6, 2, 6, 3, 6, 4, 6, 5, /* 7.1.4 */
};

#endif
