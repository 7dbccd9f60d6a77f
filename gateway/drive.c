/*
 * Calls the gateway as a customer's program does: one call a line on standard input, one figure a line on standard
 * output.
 *
 *     rate   TENTATIVE M LEVEL       STATICS
 *     range  P RATE SIDE             STATICS
 *     band   P S1 K REPO C SIDE      STATICS
 *
 * STATICS are the fields of struct nedrubal_statics, in the order of nedrubal.h. Words are split by space, tab or
 * carriage return; a number is an optional '-' and one or more digits, and fits 64 bits. A line of no words is skipped.
 * Any other line that is no call prints `bad` and its number, counted from 1. A line is read byte by byte and never
 * held whole, so it may be of any length; the last one may lack its end.
 */
#include <nedrubal.h>
#include <inttypes.h>
#include <stdbool.h>
#include <stdio.h>
#include <string.h>

enum {
    STATICS = sizeof(struct nedrubal_statics) / sizeof(int64_t),
    OWN_MOST = 6,
    NUMBERS_MOST = OWN_MOST + STATICS,
    VERB_MOST = 5
};

/* The word that is being read, as a number: gathered below zero, where the least one has room. */
struct word {
    bool begun, minus, digits;
    int64_t below_zero;
};

/* What is read of a line so far. It is bad as soon as no rest can make it a call. */
struct line {
    bool verb_read, bad;
    int letters;
    char verb[VERB_MOST + 1];
    int numbers;
    int64_t number[NUMBERS_MOST];
    struct word word;
};

static void take_letter(struct line *line, char letter) {
    if (letter == '\0' || line->letters == VERB_MOST)
        line->bad = true;
    else
        line->verb[line->letters++] = letter;
}

static void take_digit(struct line *line, char byte) {
    struct word *word = &line->word;
    int digit = byte - '0';
    if (byte == '-' && !word->begun) {
        word->minus = true;
    } else if (digit < 0 || digit > 9 || word->below_zero < (INT64_MIN + digit) / 10) {
        line->bad = true;
    } else {
        word->digits = true;
        word->below_zero = word->below_zero * 10 - digit;
    }
}

static void take(struct line *line, char byte) {
    if (line->verb_read)
        take_digit(line, byte);
    else
        take_letter(line, byte);
    line->word.begun = true;
}

static void end_number(struct line *line) {
    const struct word *word = &line->word;
    if (!word->digits || line->numbers == NUMBERS_MOST || (!word->minus && word->below_zero == INT64_MIN))
        line->bad = true;
    else
        line->number[line->numbers++] = word->minus ? word->below_zero : -word->below_zero;
}

static void end_word(struct line *line) {
    if (!line->word.begun)
        return;
    if (line->verb_read)
        end_number(line);
    line->verb_read = true;
    line->word = (struct word){0};
}

static struct nedrubal_statics statics_of(const int64_t *number) {
    struct nedrubal_statics statics;
    memcpy(&statics, number, sizeof statics);
    return statics;
}

/* Whether the line is a call, and its answer. */
static bool answered(const struct line *line, int64_t *answer) {
    const int64_t *n = line->number;
    int own = line->numbers - STATICS;
    if (line->bad || own < 0)
        return false;
    const struct nedrubal_statics statics = statics_of(n + own);
    if (own == 3 && strcmp(line->verb, "rate") == 0)
        *answer = nedrubal_level_rate(n[0], n[1], n[2], &statics);
    else if (own == 3 && strcmp(line->verb, "range") == 0)
        *answer = nedrubal_range_limit(n[0], n[1], n[2], &statics);
    else if (own == 6 && strcmp(line->verb, "band") == 0)
        *answer = nedrubal_band_limit(n[0], n[1], n[2], n[3], n[4], n[5], &statics);
    else
        return false;
    return true;
}

static void end_line(struct line *line, uint64_t count) {
    int64_t answer;
    end_word(line);
    if (line->verb_read) {
        if (answered(line, &answer))
            printf("%" PRId64 "\n", answer);
        else
            printf("bad %" PRIu64 "\n", count);
    }
    *line = (struct line){0};
}

int main(void) {
    struct line line = {0};
    uint64_t count = 1;
    int byte;
    while ((byte = getchar()) != EOF) {
        if (byte == '\n')
            end_line(&line, count++);
        else if (byte == ' ' || byte == '\t' || byte == '\r')
            end_word(&line);
        else
            take(&line, (char)byte);
    }
    end_line(&line, count);
    return ferror(stdin) || fflush(stdout) != 0;
}
