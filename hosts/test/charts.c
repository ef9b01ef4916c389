/* Charts that need no file. */
#include "test.h"

const struct chart two_states = {
    .length = 32,
    .bytes = {3, 1, 0, 0, 0, 0, 0, 0, 1, 0, 0, 0, 0, 0, 0, 0, 1, 0, 0, 0, 0, 0, 0, 0, 2, 1, 6, 1, 2, 0, 0, 0},
};

/* The last state lies six levels deep, so all six flat rows of it and the last signal are taken up. */
const struct chart six_levels = {
    .length = 15 * 8,
    .bytes = {
        3, 1, 10, 0,  0, 0,  0, 0, /* top */
        1, 0, 11, 12, 2, 0,  0, 0, /* state 1 */
        1, 1, 21, 22, 3, 0,  0, 0,
        1, 2, 31, 32, 4, 0,  0, 0,
        1, 3, 41, 42, 5, 0,  0, 0,
        1, 4, 51, 52, 8, 0,  0, 0, /* state 5, which leads on to 8 */
        1, 1, 61, 62, 0, 0,  0, 0,
        1, 1, 71, 72, 0, 0,  0, 0,
        1, 5, 81, 82, 0, 0,  0, 0, /* state 8 */
        2, 1, 31, 0,  0, 19, 8, 0, /* the rows, with the flags 8 to 4, and 1 */
        2, 2, 31, 0,  0, 29, 7, 0,
        2, 3, 31, 0,  0, 39, 6, 0,
        2, 4, 31, 1,  6, 49, 5, 0,
        2, 5, 31, 0,  0, 59, 4, 0,
        2, 8, 31, 1,  8, 89, 1, 0,
    },
};
