/*
 * Calls the gateway for document 01's cases 1, 3 and 4, and prints the three rates of statics Z, their ranges at
 * P 1,030,000, and the band. The evening of Z has 120 seconds, Autochange yes and two moves; UseEXTERNAL is no. It uses
 * nedrubal.h and the C library:
 *
 *     cc example.c $(pkg-config --cflags --libs nedrubal)
 */
#include <nedrubal.h>
#include <inttypes.h>
#include <stdio.h>
#include <stdlib.h>

static struct nedrubal_statics statics_z(void) {
    struct nedrubal_statics z = nedrubal_unset_statics();
    z.lot = 10;
    z.h = 100;
    z.q = 300;
    z.aup = 1000;
    z.adown = 500;
    z.wait = 5;
    z.rh1 = 2;
    z.rh2 = 5;
    z.rh3 = 8;
    z.liq = 50;
    z.min1 = 500;
    z.min2 = 700;
    z.min3 = 900;
    z.smax = 4000;
    z.xpr = 200;
    z.shift = 25;
    z.pchmax = 2000;
    z.pclmax = 2000;
    z.w = 1000;
    z.u = 60;
    z.monitoring = 1;
    z.ewma = 1;
    z.uevening = 120;
    z.autochange = 1;
    z.eveningmax = 2;
    z.useexternal = 0;
    return z;
}

/* The figure; a refusal ends the program. */
static int64_t figure(int64_t answer) {
    if (answer >= 0)
        return answer;
    fputs(answer == NEDRUBAL_REFUSED_STATIC ? "a static is out of its range, order or step\n"
                                            : "a value is out of its range or off the grid\n",
          stderr);
    exit(1);
}

int main(void) {
    const struct nedrubal_statics z = statics_z();
    const int64_t p = 1030000;
    int64_t rate[3];
    for (int level = 0; level < 3; level++)
        rate[level] = figure(nedrubal_level_rate(700, 0, level + 1, &z));
    printf("%" PRId64 " %" PRId64 " %" PRId64 "\n", rate[0], rate[1], rate[2]);
    for (int level = 0; level < 3; level++)
        printf("%" PRId64 " ", figure(nedrubal_range_limit(p, rate[level], NEDRUBAL_UPPER, &z)));
    for (int level = 0; level < 3; level++)
        printf("%" PRId64 "%c", figure(nedrubal_range_limit(p, rate[level], NEDRUBAL_LOWER, &z)),
               level == 2 ? '\n' : ' ');
    printf("%" PRId64 " ", figure(nedrubal_band_limit(p, rate[0], 0, 0, 0, NEDRUBAL_LOWER, &z)));
    printf("%" PRId64 "\n", figure(nedrubal_band_limit(p, rate[0], 0, 0, 0, NEDRUBAL_UPPER, &z)));
    return 0;
}
