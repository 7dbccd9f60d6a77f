/*
 * Tries what nedrubal.h says besides the figures: its macros; that each static is refused while it is unset; and that
 * calls are pure, so that eight threads at once are answered as one thread alone. It prints what it tried, and ends
 * with status 1 at the first thing that is not so.
 */
#define _POSIX_C_SOURCE 200809L
#include <nedrubal.h>
#include <inttypes.h>
#include <pthread.h>
#include <stdio.h>
#include <stdlib.h>
#include <string.h>

enum { THREADS = 8, CALLS = 3000, ROUNDS = 10, STATICS = sizeof(struct nedrubal_statics) / sizeof(int64_t) };

enum verb { RATE, RANGE, BAND, VERBS };

struct call {
    enum verb verb;
    int64_t own[6];
    struct nedrubal_statics statics;
};

/* Document 01's statics Z, as example.c has them. */
static const struct nedrubal_statics Z = {
    .lot = 10, .h = 100, .q = 300, .aup = 1000, .adown = 500, .wait = 5, .rh1 = 2, .rh2 = 5, .rh3 = 8, .liq = 50,
    .min1 = 500, .min2 = 700, .min3 = 900, .smax = 4000, .xpr = 200, .shift = 25, .pchmax = 2000, .pclmax = 2000,
    .w = 1000, .u = 60, .monitoring = 1, .ewma = 1, .uevening = 120, .autochange = 1, .eveningmax = 2,
    .useexternal = 0,
};

/* Document 01's cases 1, 3 and 4: what each call is handed besides the statics. */
static const int64_t CASE[VERBS][6] = {
    [RATE] = {700, 0, 1},
    [RANGE] = {1030000, 800, NEDRUBAL_UPPER},
    [BAND] = {1030000, 800, 0, 0, 0, NEDRUBAL_LOWER},
};

static void must(int is_so, const char *what) {
    if (is_so)
        return;
    fprintf(stderr, "trial: it is not so: %s\n", what);
    exit(1);
}

static int64_t answer_to(const struct call *call) {
    const int64_t *own = call->own;
    switch (call->verb) {
    case RATE:
        return nedrubal_level_rate(own[0], own[1], own[2], &call->statics);
    case RANGE:
        return nedrubal_range_limit(own[0], own[1], own[2], &call->statics);
    default:
        return nedrubal_band_limit(own[0], own[1], own[2], own[3], own[4], own[5], &call->statics);
    }
}

/* The fields of the struct, one behind the other. */
static void unset(struct nedrubal_statics *statics, int field) {
    const struct nedrubal_statics none = nedrubal_unset_statics();
    const size_t at = (size_t)field * sizeof(int64_t);
    memcpy((char *)statics + at, (const char *)&none + at, sizeof(int64_t));
}

static void try_macros(void) {
    char version[64];
    snprintf(version, sizeof version, "%d.%d.%d", NEDRUBAL_VERSION_MAJOR, NEDRUBAL_VERSION_MINOR,
             NEDRUBAL_VERSION_PATCH);
    must(strcmp(version, NEDRUBAL_VERSION) == 0, "the version's three numbers are the version");
}

/* A static is looked at before all else: a call that has a wrong value besides is refused for the static. */
static void try_refusals(void) {
    for (int verb = 0; verb < VERBS; verb++) {
        struct call call = {.verb = (enum verb)verb, .statics = Z};
        memcpy(call.own, CASE[verb], sizeof call.own);
        must(answer_to(&call) > 0, "document 01's case is answered");
        struct call wrong = call;
        wrong.own[0] = -100;
        must(answer_to(&wrong) == NEDRUBAL_REFUSED_VALUE, "a value below its range is refused as a value");
        for (int field = 0; field < STATICS; field++) {
            call.statics = wrong.statics = Z;
            unset(&call.statics, field);
            unset(&wrong.statics, field);
            must(answer_to(&call) == NEDRUBAL_REFUSED_STATIC, "an unset static is refused");
            must(answer_to(&wrong) == NEDRUBAL_REFUSED_STATIC, "an unset static is refused before a value is");
        }
    }
}

static uint64_t drawn(uint64_t *state, uint64_t below) {
    *state = *state * 6364136223846793005u + 1442695040888963407u;
    return (*state >> 33) % below;
}

/* A call with numbers about the ranges, most of them inside; one in sixteen has a static unset. */
static struct call call_of(uint64_t *state) {
    static const int64_t lots[] = {1, 10, 100};
    struct call call = {.verb = (enum verb)drawn(state, VERBS), .statics = Z};
    int64_t *own = call.own;
    call.statics.lot = lots[drawn(state, 3)];
    call.statics.liq = (int64_t)drawn(state, 501);
    call.statics.xpr = 50 + (int64_t)drawn(state, 951);
    call.statics.monitoring = (int64_t)drawn(state, 2);
    call.statics.ewma = drawn(state, 8) != 0;
    if (drawn(state, 16) == 0)
        unset(&call.statics, (int)drawn(state, STATICS));
    if (call.verb == RATE) {
        own[0] = 100 * (int64_t)drawn(state, 1050);
        own[1] = (int64_t)drawn(state, 12);
        own[2] = 1 + (int64_t)drawn(state, 3);
        return call;
    }
    own[0] = 100 * (1 + (int64_t)drawn(state, 100000000));
    own[1] = (int64_t)drawn(state, 10500);
    if (call.verb == RANGE) {
        own[2] = (int64_t)drawn(state, 2);
        return call;
    }
    own[2] = (int64_t)drawn(state, 32);
    own[3] = (int64_t)drawn(state, 19999) - 9999;
    own[4] = (int64_t)drawn(state, 52);
    own[5] = (int64_t)drawn(state, 2);
    return call;
}

/* What one thread asks and what it has to be told. */
static struct asked {
    struct call call[CALLS];
    int64_t alone[CALLS];
    int others;
} asked[THREADS];

static pthread_barrier_t all_ready;

static void *ask(void *of) {
    struct asked *mine = of;
    pthread_barrier_wait(&all_ready);
    for (int round = 0; round < ROUNDS; round++)
        for (int k = 0; k < CALLS; k++)
            mine->others += answer_to(&mine->call[k]) != mine->alone[k];
    return NULL;
}

static void try_threads(void) {
    pthread_t thread[THREADS];
    int figures = 0, statics = 0, values = 0;
    for (int t = 0; t < THREADS; t++) {
        uint64_t state = (uint64_t)t + 1;
        for (int k = 0; k < CALLS; k++) {
            asked[t].call[k] = call_of(&state);
            asked[t].alone[k] = answer_to(&asked[t].call[k]);
            figures += asked[t].alone[k] > 0;
            statics += asked[t].alone[k] == NEDRUBAL_REFUSED_STATIC;
            values += asked[t].alone[k] == NEDRUBAL_REFUSED_VALUE;
        }
    }
    must(figures > THREADS * CALLS / 2 && statics > THREADS && values > THREADS, "the threads ask for all there is");
    must(pthread_barrier_init(&all_ready, NULL, THREADS) == 0, "there is a barrier");
    for (int t = 0; t < THREADS; t++)
        must(pthread_create(&thread[t], NULL, ask, &asked[t]) == 0, "there are eight threads");
    for (int t = 0; t < THREADS; t++) {
        must(pthread_join(thread[t], NULL) == 0, "a thread ends");
        must(asked[t].others == 0, "a thread among eight is answered as one alone");
    }
    printf("trial: %d threads at once, %d calls each: answered as one alone\n", THREADS, ROUNDS * CALLS);
}

int main(void) {
    try_macros();
    try_refusals();
    printf("trial: version %s; each of %d statics is refused while it is unset\n", NEDRUBAL_VERSION, STATICS);
    try_threads();
    return fflush(stdout) != 0;
}
