/*
 * The clearing house's rate rules and limit rules, for C: one figure a call, from plain numbers. example.c is a whole
 * program; in short:
 *
 *     struct nedrubal_statics z = nedrubal_unset_statics();
 *     z.lot = 10;
 *     z.h = 100;                                        ... each of the 26, by its name
 *     rate = nedrubal_level_rate(700, 0, 1, &z);        ... the rate, or less than 0: refused
 *
 * Every number and every answer is a signed 64-bit integer. A call answers 0 or more, the figure, or less than 0, minus
 * the refusal number:
 *
 *     NEDRUBAL_REFUSED_STATIC   -4   a static is out of its range, order or step: looked at before all else
 *     NEDRUBAL_REFUSED_VALUE    -6   another value is out of its range, off the price grid, or (tentative) no multiple
 *                                    of h
 *
 * 0 is a figure. Any value may be given, negative or extreme: what no range holds is refused, and no input is wrapped,
 * cut or clamped.
 *
 * Units. A price and a limit: ten-thousandths of a rouble (1,000,000 is 100 roubles). A rate and a repo rate: basis
 * points (10,000 is 100 per cent). The price grid follows the lot: a price and a limit are multiples of 100 for lot 1,
 * of 10 for lots 2..10, of 1 for lots 11..100.
 *
 * Threads. A call is pure: the same numbers give the same answer. It reads its numbers and the statics that it is
 * pointed to, keeps no state, writes to no memory but its own stack, takes no lock and always returns. So any number
 * of threads may call at once, with the same statics too, as long as no thread writes to those meanwhile.
 *
 * What it needs. This header: C99 or C++11, or later, <stdint.h>, and `memset` of <string.h>. The archive,
 * libnedrubal.a, for x86-64 Linux or for aarch64 Linux: `memcpy` of the C library at most, and nothing else. It fits
 * into programs and into shared libraries.
 *
 * Versions. The archive has each call under a name of its own, which carries the version and the number of statics. So
 * an object links with the archive of the version whose header it was compiled with, and with no other: compile anew
 * for each version.
 *
 *     Within a major version these stay: every name of this header but the archive's own, the units, the numbers of the
 *     refusals and sides, and the order of a call's own numbers. So a source that compiles goes on compiling.
 *     With any version these may change: the archive's own names, and the places of the fields in the struct. Name each
 *     field that you set.
 *     A static more is a new major version. In a source that begins with nedrubal_unset_statics() and does not know the
 *     new field, the field is unset, and every call is refused (-4) until the source sets it.
 *
 * The figures are those of documents 01 and 02; CHANGELOG.md says what a version changes in them.
 */
#ifndef NEDRUBAL_H
#define NEDRUBAL_H

#include <stdint.h>
#include <string.h>

#define NEDRUBAL_VERSION "1.0.0"
#define NEDRUBAL_VERSION_MAJOR 1
#define NEDRUBAL_VERSION_MINOR 0
#define NEDRUBAL_VERSION_PATCH 0

#define NEDRUBAL_REFUSED_STATIC (-4)
#define NEDRUBAL_REFUSED_VALUE (-6)

/* The sides of a range and of a band. */
#define NEDRUBAL_UPPER 0
#define NEDRUBAL_LOWER 1

#ifdef __cplusplus
extern "C" {
#endif

/*
 * The statics of a security: the name in document 01 where it differs, the unit, the range. A flag is 0 for no, 1 for
 * yes. The last four are the evening session's (document 02, W-210; clauses 17.4 and 17.5 of the methodology) and that
 * of external prices (W-211; clause 6.1): no figure here depends on them, but each is judged.
 */
struct nedrubal_statics {
    int64_t lot;         /*                    pieces            1..100 */
    int64_t h;           /*  step              basis points      1..1,000 */
    int64_t q;           /*  multiplier        hundredths        100..1,000 */
    int64_t aup;         /*  a_up              ten-thousandths   0..10,000 */
    int64_t adown;       /*  a_down            ten-thousandths   0..10,000 */
    int64_t wait;        /*  wait n            trading days      1..250 */
    int64_t rh1;         /*  rh_1              days              1..5 */
    int64_t rh2;         /*  rh_2              days              rh1..30 */
    int64_t rh3;         /*  rh_3              days              rh2..30 */
    int64_t liq;         /*                    basis points      0..500 */
    int64_t min1;        /*  S_1_min           basis points      0..min2, a multiple of h */
    int64_t min2;        /*  S_2_min           basis points      min1..min3, a multiple of h */
    int64_t min3;        /*  S_3_min           basis points      min2..smax, a multiple of h */
    int64_t smax;        /*  S_max             basis points      min3..10,000, a multiple of h */
    int64_t xpr;         /*  x_pr              hundredths        50..1,000 */
    int64_t shift;       /*                    hundredths        1..100 */
    int64_t pchmax;      /*  PcH_max           basis points      0..10,000 */
    int64_t pclmax;      /*  PcL_max           basis points      0..10,000 */
    int64_t w;           /*                    ten-thousandths   0..5,000 */
    int64_t u;           /*                    seconds           1..3,600 */
    int64_t monitoring;  /*  Monitoring        flag              0..1 */
    int64_t ewma;        /*  isEWMA            flag              0..1 */
    int64_t uevening;    /*  u_evening         seconds           1..3,600 */
    int64_t autochange;  /*  Autochange        flag              0..1 */
    int64_t eveningmax;  /*  evening maximum   moves             0..10 */
    int64_t useexternal; /*  UseEXTERNAL       flag              0..1 */
};

/*
 * Statics of which none is set: each is -1, which no range holds. Begin with these, and a static that you forget is
 * refused. (A field that an initialiser leaves out is 0, which many a range holds.)
 */
static inline struct nedrubal_statics nedrubal_unset_statics(void) {
    struct nedrubal_statics unset;
    memset(&unset, 0xff, sizeof unset);
    return unset;
}

/*
 * What the archive has: the calls under its own names, with every number by its place. Do not use these: all numbers
 * are of one type, so no compiler sees that two have changed places. The calls that follow hand each on by its name.
 */
#define NEDRUBAL_EXPORTED(call) call##_v1_0_0_statics26
#define NEDRUBAL_TAKEN \
    int64_t lot, int64_t h, int64_t q, int64_t aup, int64_t adown, int64_t wait, int64_t rh1, int64_t rh2, \
    int64_t rh3, int64_t liq, int64_t min1, int64_t min2, int64_t min3, int64_t smax, int64_t xpr, int64_t shift, \
    int64_t pchmax, int64_t pclmax, int64_t w, int64_t u, int64_t monitoring, int64_t ewma, int64_t uevening, \
    int64_t autochange, int64_t eveningmax, int64_t useexternal
#define NEDRUBAL_HANDED(z) \
    (z)->lot, (z)->h, (z)->q, (z)->aup, (z)->adown, (z)->wait, (z)->rh1, (z)->rh2, (z)->rh3, (z)->liq, (z)->min1, \
    (z)->min2, (z)->min3, (z)->smax, (z)->xpr, (z)->shift, (z)->pchmax, (z)->pclmax, (z)->w, (z)->u, \
    (z)->monitoring, (z)->ewma, (z)->uevening, (z)->autochange, (z)->eveningmax, (z)->useexternal
int64_t NEDRUBAL_EXPORTED(nedrubal_level_rate)(int64_t tentative, int64_t m, int64_t level, NEDRUBAL_TAKEN);
int64_t NEDRUBAL_EXPORTED(nedrubal_range_limit)(int64_t p, int64_t rate, int64_t side, NEDRUBAL_TAKEN);
int64_t NEDRUBAL_EXPORTED(nedrubal_band_limit)(int64_t p, int64_t s1, int64_t k, int64_t repo, int64_t c, int64_t side,
                                               NEDRUBAL_TAKEN);

/*
 * The rate of a level, in basis points, 0..smax. With ewma 0 it is the level's least rate.
 *
 *     tentative    the tentative rate, in basis points: a multiple of h, from 0 to the least one at or above 100,000;
 *                  it may be above smax, and the rate is then smax
 *     m            non-trading days ahead: 0..10
 *     level        1, 2 or 3
 */
static inline int64_t nedrubal_level_rate(int64_t tentative, int64_t m, int64_t level,
                                          const struct nedrubal_statics *statics) {
    return NEDRUBAL_EXPORTED(nedrubal_level_rate)(tentative, m, level, NEDRUBAL_HANDED(statics));
}

/*
 * A fresh range limit, p raised or lowered by a rate and rounded half up to the grid, 0..2 * 10^10.
 *
 *     p            the evaluation: 1..10^10, on the grid
 *     rate         0..10,000
 *     side         NEDRUBAL_UPPER or NEDRUBAL_LOWER
 */
static inline int64_t nedrubal_range_limit(int64_t p, int64_t rate, int64_t side,
                                           const struct nedrubal_statics *statics) {
    return NEDRUBAL_EXPORTED(nedrubal_range_limit)(p, rate, side, NEDRUBAL_HANDED(statics));
}

/*
 * A band limit of one side, rounded inward to the grid, the upper down and the lower up, 0..2 * 10^10. With monitoring
 * 0 it is p raised by pchmax or lowered by pclmax; s1, k, repo and c must be in range all the same.
 *
 *     p            the evaluation: 1..10^10, on the grid
 *     s1           the rate of level 1: 0..10,000
 *     k            the term's days: 0..30
 *     repo         that side's repo rate: -9,999..9,999
 *     c            the moves of that side since the evaluation: 0..50
 *     side         NEDRUBAL_UPPER or NEDRUBAL_LOWER
 */
static inline int64_t nedrubal_band_limit(int64_t p, int64_t s1, int64_t k, int64_t repo, int64_t c, int64_t side,
                                          const struct nedrubal_statics *statics) {
    return NEDRUBAL_EXPORTED(nedrubal_band_limit)(p, s1, k, repo, c, side, NEDRUBAL_HANDED(statics));
}

#undef NEDRUBAL_EXPORTED
#undef NEDRUBAL_TAKEN
#undef NEDRUBAL_HANDED

#ifdef __cplusplus
}
#endif

#endif
