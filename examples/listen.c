/* A member's reader of the desk's messages in C, written from docs/BROADCAST.md alone.
 *
 *     cc -std=c11 -O2 -o listen examples/listen.c && ./listen [--whole] <MESSAGES
 *
 * prints a line for each message of standard input, as the program `listen` does. Status 1 says that a message was
 * refused or, with --whole, that the input is not one whole stream; status 2, that it cannot be read or written. It
 * takes any C11 with 64-bit numbers, on machines of either byte order, and no library but C's own. */
#include <inttypes.h>
#include <stdbool.h>
#include <stdio.h>
#include <string.h>

enum { LENGTH_BYTES = 4, KIND_BYTES = 2, LENGTH_LEAST = 2, LENGTH_MOST = 4096, FIELDS_MOST = 27 };
enum { STATICS = 1, BEGIN = 6, END = 7, KINDS = 8 };
enum { MESSAGE_CUT = 21, LENGTH_WRONG = 22, OUT_OF_RANGE = 23, NOT_WHOLE = 25 };

/* A field: its bytes and its range. A count stands before fields that follow one another and are alike; it is 0 behind
 * the last field of a kind. */
struct field {
    int count;
    unsigned bytes;
    int64_t least, most;
};
#define ID 1, 4, 1, 1000000000
#define DAY 1, 4, 0, 1000000
#define PRICE(count) count, 8, 0, 2020000000000
#define PARTS(count) count, 4, 0, 10000 /* ten-thousandths, and basis points */
#define FLAGS(count) count, 1, 0, 1
#define SECONDS 1, 4, 1, 3600
#define TERM {1, 4, 0, 30}, {2, 4, -9999, 9999}, {PRICE(2)}

static const struct kind {
    const char *word;
    struct field fields[21];
} kinds[KINDS + 1] = {
    [STATICS] = {"statics", {{ID}, {1, 4, 1, 100}, {1, 4, 1, 1000}, {1, 4, 100, 1000}, {PARTS(2)}, {1, 4, 1, 250},
                             {1, 4, 1, 5}, {2, 4, 1, 30}, {1, 4, 0, 500}, {PARTS(4)}, {1, 4, 50, 1000},
                             {1, 4, 1, 100}, {PARTS(2)}, {1, 4, 0, 5000}, {SECONDS}, {FLAGS(2)}, {SECONDS},
                             {FLAGS(1)}, {1, 4, 0, 10}, {FLAGS(1)}}},
    [2] = {"rates", {{ID}, {DAY}, {1, 8, 1, 10000000000}, {1, 8, 0, 1000000}, {1, 4, 0, 100999}, {1, 4, 0, 250},
                     {PARTS(3)}, {PRICE(6)}}},
    [3] = {"bands", {{ID}, {DAY}, TERM, TERM, TERM}},
    [4] = {"move", {{ID}, {1, 4, 0, 1}, {1, 4, 0, 50}, {PRICE(6)}}},
    [5] = {"reasons", {{ID}, {DAY}, {1, 1, 0, 4}, {1, 1, 0, 3}, {1, 1, 0, 2}, {1, 1, 0, 4}, {3, 1, 0, 3}}},
    [BEGIN] = {"begin", {{1, 4, 1, 1}}},
    [END] = {"end", {{1, 8, 0, INT64_MAX}, {1, 4, 0, UINT32_MAX}}},
    [8] = {"session", {{ID}, {DAY}}},
};
/* Places among the fields of kind 1: H, RH1 to RH3, and MIN1 to SMAX; and SUM among those of kind 7. */
enum { H = 2, RH1 = 7, RH3 = 9, MIN1 = 11, SMAX = 14, SUM = 1 };

static uint64_t number(const unsigned char *bytes, unsigned count) {
    uint64_t value = 0;
    while (count-- > 0) value = value << 8 | bytes[count];
    return value;
}

/* A number of so many bytes in two's complement. */
static int64_t below_or_above_zero(uint64_t value, unsigned bytes) {
    uint64_t sign = (uint64_t)1 << (8 * bytes - 1);
    return value & sign ? -(int64_t)(sign - 1 - (value ^ sign)) - 1 : (int64_t)value;
}

static uint32_t sum_on(uint32_t sum, const unsigned char *bytes, size_t count) {
    sum = ~sum;
    for (size_t at = 0; at < count; at++) {
        sum ^= bytes[at];
        for (int bit = 0; bit < 8; bit++) sum = sum >> 1 ^ (sum & 1 ? UINT32_C(0xedb88320) : 0);
    }
    return ~sum;
}

static bool is_ordered(const int64_t *fields, int first, int last) {
    while (first < last && fields[first] <= fields[first + 1]) first++;
    return first == last;
}

/* Kind 1 has orders and multiples besides its ranges. */
static bool are_sound(const int64_t *fields) {
    bool are_multiples = true;
    for (int at = MIN1; at <= SMAX; at++) are_multiples = are_multiples && fields[at] % fields[H] == 0;
    return are_multiples && is_ordered(fields, RH1, RH3) && is_ordered(fields, MIN1, SMAX);
}

/* Reads the fields of a kind: how many there are, or the number of a refusal with a minus before it. */
static int read_fields(int kind, const unsigned char *bytes, uint64_t length, int64_t *fields) {
    uint64_t at = KIND_BYTES;
    int count = 0;
    bool is_in_range = true;
    for (const struct field *field = kinds[kind].fields; field->count > 0; field++) {
        for (int again = 0; again < field->count; again++, count++, at += field->bytes) {
            if (at + field->bytes > length) return -LENGTH_WRONG;
            uint64_t value = number(bytes + at, field->bytes);
            bool is_sum = kind == END && count == SUM;
            fields[count] = is_sum ? (int64_t)value : below_or_above_zero(value, field->bytes);
            is_in_range = is_in_range && field->least <= fields[count] && fields[count] <= field->most;
        }
    }
    if (at != length) return -LENGTH_WRONG;
    return is_in_range && (kind != STATICS || are_sound(fields)) ? count : -OUT_OF_RANGE;
}

/* The stream that is open: its messages, 0 where none is, and the sum of their bytes. */
struct stream {
    int64_t messages;
    uint32_t sum;
};

static void print_unended(const struct stream *open) {
    if (open->messages > 0) printf("unended %" PRId64 "\n", open->messages);
}

/* Reads a message and prints its line: its kind, 0 where the input has ended, or a refusal's number with a minus. */
static int listen(struct stream *open, uint64_t *offset) {
    unsigned char bytes[LENGTH_BYTES + LENGTH_MOST];
    size_t head = fread(bytes, 1, LENGTH_BYTES, stdin);
    if (head == 0) return 0;
    if (head < LENGTH_BYTES) return -MESSAGE_CUT;
    uint64_t length = number(bytes, LENGTH_BYTES);
    if (length < LENGTH_LEAST || length > LENGTH_MOST) return -LENGTH_WRONG;
    if (fread(bytes + LENGTH_BYTES, 1, length, stdin) < length) return -MESSAGE_CUT;
    int kind = (int)number(bytes + LENGTH_BYTES, KIND_BYTES);
    bool is_known = kind >= 1 && kind <= KINDS;
    int64_t fields[FIELDS_MOST];
    int count = is_known ? read_fields(kind, bytes + LENGTH_BYTES, length, fields) : 0;
    if (count < 0) return count;
    if (kind == END && (open->messages == 0 || fields[0] != open->messages || fields[SUM] != open->sum))
        return -NOT_WHOLE;

    if (kind == BEGIN) {
        print_unended(open);
        *open = (struct stream){0, 0};
    }
    if (is_known) fputs(kinds[kind].word, stdout);
    for (int at = 0; at < count; at++) printf(" %" PRId64, fields[at]);
    if (!is_known) printf("unknown %d %" PRIu64, kind, length);
    putchar('\n');
    if (kind == END) {
        *open = (struct stream){0, 0};
    } else if (kind == BEGIN || open->messages > 0) {
        open->messages++;
        open->sum = sum_on(open->sum, bytes, LENGTH_BYTES + length);
    }
    *offset += LENGTH_BYTES + length;
    return is_known ? kind : KINDS + 1;
}

int main(int argc, char **argv) {
    bool asks_whole = argc == 2 && strcmp(argv[1], "--whole") == 0;
    if (argc > 1 && !asks_whole) {
        fputs("usage: listen [--whole] <MESSAGES\n", stderr);
        return 2;
    }
    struct stream open = {0, 0};
    uint64_t offset = 0, begins = 0, ends = 0;
    int first = 0, last = 0, kind;
    while ((kind = listen(&open, &offset)) > 0) {
        first = first == 0 ? kind : first;
        last = kind;
        begins += kind == BEGIN;
        ends += kind == END;
    }
    if (ferror(stdin)) return 2;
    if (kind < 0) printf("refused %d %" PRIu64 "\n", -kind, offset);
    else print_unended(&open);
    if (fflush(stdout) != 0 || ferror(stdout)) return 2;
    bool is_whole = kind == 0 && first == BEGIN && last == END && begins == 1 && ends == 1;
    if (asks_whole && !is_whole) fputs("listen: not one whole stream\n", stderr);
    return kind < 0 || (asks_whole && !is_whole);
}
