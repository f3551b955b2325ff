/* Hostile bytes: sources, feeds, commands and images, each from a seed, a kind and a number, so that any of them can be made again. */
#include "generator.h"
#include <stdio.h>
#include <string.h>

#define COUNT_OF(list) (sizeof(list) / sizeof((list)[0]))
#define PICK(numbers, list) ((list)[below(numbers, COUNT_OF(list))])

/* Each operator of the language once, which cases.py takes from examples/operators.agc, and some that are none. */
static const char *const OPERATORS[] = {
#include "operators.h"
    "EDRUPT", "CYR", "OCTAL", "COUNT", "2DEC", "FROB"};
static const char *const NAMES[] = {"X", "Y", "SUM", "LOOP", "START", "TABLE", "A", "Q", "+5", "-3", "12D", "NAME.OF8", "ABCDEFGHI", "#", ""};
static const char *const OPERANDS[] = {
    "X", "Y", "SUM", "LOOP", "START", "TABLE", "A", "Q", "+5", "-3", "12D", "NAME.OF8", "ABCDEFGHI", "#", "", "0", "5", "7", "10", "44", "100", "377", "1400",
    "4000", "5777", "10000", "77777", "100000", "-0", "+1", "12D", "16384D", "0.5", "-.25", "99999999999999999999"};
static const char *const OFFSETS[] = {"", "", "+1", "-2D", "X"};
static const char *const FOURTHS[] = {"", "", "", "MORE"};
static const char *const COUNTERS[] = {"TIME1", "TIME2", "TIME3", "TIME4", "TIME5", "TIME6", "CDUX", "CDUY", "CDUZ", "OPTY", "OPTX", "PIPAX", "PIPAY", "PIPAZ", "INLINK", "CHAN", "RUPT", "FROB"};
static const char *const SEQUENCES[] = {"PINC", "MINC", "DINC", "PCDU", "MCDU", "SHINC", "SHANC", "015", "00021", "3", "0", "11", "99999"};
static const char *const SOUND_INPUTS[] = {
    "TIME1 PINC", "TIME2 PINC", "TIME3 PINC", "TIME4 PINC", "TIME5 PINC", "TIME6 DINC", "CDUX PCDU", "CDUY MCDU", "OPTX PCDU", "PIPAX PINC", "PIPAZ MINC",
    "INLINK SHINC", "INLINK SHANC", "CHAN 15 21", "CHAN 016 77777", "CHAN 7 100", "CHAN 0 1", "RUPT 1", "RUPT 5", "RUPT 10"};
static const char *const PERIODS[] = {"0", "1", "3", "2560", "999999999", "1234567890"};
static const char *const DIVISORS[] = {"0", "1", "3", "999999999"};
static const char *const TIMES[] = {"1", "4", "600", "999999999"};
static const char *const COMMANDS[] = {"step", "run", "back", "goto", "seek", "break", "clear", "regs", "mem", "chan", "last", "sym", "changed", "tail", "add", "quit", "breaks", "echo", "help", "why", "where", "find", "inputs"};
/* (Of step and run none asks for so many steps that a call is slow; others may ask for any.) */
static const char *const WORDS[] = {"at", "word", "chan", "exec", "change", "0", "1", "4", "17", "100", "4000", "02,4001", "43,0017", "SUM", "START", "-1", "TIME1", "PINC", "#", "2,0", "02,4005", "E3,1400", "E0,0024", "A", "Z", "+3", "+1777",
    "xxxxxxxxxxxxxxxxxxxxxxxxxxxxxxxxxxxxxxxxxxxxxxxxxxxxxxxxxxxxxxxxxxxxxx", "999999999999999", "1099511627775", "9999999999999999"};
enum { LARGE_WORDS = 3 };
static const char *const SOUND_COMMANDS[] = {
    "step 1", "step 7", "step 90", "run 3", "run 50", "run 400", "back 1", "back 30", "goto 0", "goto 5", "goto 60", "seek", "break at 4001", "break at FIVE",
    "break word 5 4002", "break chan 10 12", "break chan 10 2 7", "break exec FIVE", "break change 25", "break change CH10", "clear", "clear 1", "breaks", "echo # 1", "help", "help mem", "regs", "regs all", "why", "why 25", "why SUM 40", "why A 3", "why CH010", "why SUM +1", "trace 0", "trace 5", "trace 60", "where", "find S", "find ", "over 40", "over 3", "out 40", "out 5", "inputs", "mem 0 40", "mem 02,4000 9", "mem E3,1400 +2", "mem A", "last L", "break at 02,4001", "break word SUM +1 3", "mem 0", "mem FIVE", "mem 25", "chan 10", "last 0", "last 25", "sym START", "sym FIVE", "changed 0",
    "changed 3", "tail", "add 50 TIME1 PINC", "add 900 CHAN 15 21", "add 3000 RUPT 4", ""};
/* Lines that a source of flight programs may have alone; X begins a label of its own. */
static const char *const FLIGHT_LINES[] = {
    "+3\tOCT\t5", " -1 DEC -5", "+12D", "\tCOUNT*\t$$/EXEC", " COUNT 05 05 05", "\tBNKSUM\t05", " SUBRO", "\tMEMORY\t120000 - 167777", "X\tEQUALS", "X =\t# here",
    "\tBANK", " BLOCK", "\tOCTAL\t37777", "\tGENADR\t5777", " REMADR 4003 -3", "\t1DNADR\t0", "\t6DNADR\t3700 +77", "\tDNCHAN\t777",
    "\tOCT\t-20000", " 2OCT 1234567012", " VN 0633", " 2DEC -.1", " 2DEC 1738090 B-29", " DEC 1.0 E4 B-14", " DEC +1 B-14", " -CADR 4000", " -2CADR 4000", "\tBBCON\t5777", " -CCS 0", " -6DNADR 154",
    " TC 10000", " CA 12000 +5", " TCF 77777 -1", " EBANK= 1400 # of any length", "X EQUALS 10000", " DXCH 100 # -1"};
static const char ALPHABET[] = "\n\n\n\t    ##++--,.$=00112233445566778899ABCDEIKLNORSTUXacdeghkmnr";
static const char *const INSERTED[] = {"\n", "\r\n", "\t", "#", "\377", "0", "7",
    "xxxxxxxxxxxxxxxxxxxxxxxxxxxxxxxxxxxxxxxxxxxxxxxxxxxxxxxxxxxxxxxxxxxxxxxxxxxxxxxxxxxxxxxxxxxxxxxxxxxxxxxxxxxxxxxxxxxxxxxxxxxxxxxxxxxx"};

struct numbers {
    uint64_t state;
};

/* A text under way. What does not fit is left out. */
struct made {
    unsigned char *bytes;
    size_t length;
};

/* The next number of splitmix64. */
static uint64_t next(struct numbers *numbers)
{
    uint64_t z = numbers->state += 0x9E3779B97F4A7C15u;
    z = (z ^ z >> 30) * 0xBF58476D1CE4E5B9u;
    z = (z ^ z >> 27) * 0x94D049BB133111EBu;
    return z ^ z >> 31;
}

static size_t below(struct numbers *numbers, size_t most)
{
    return (size_t)((next(numbers) >> 32) * most >> 32);
}

static int percent(struct numbers *numbers, unsigned chance)
{
    return below(numbers, 100) < chance;
}

static void put_bytes(struct made *made, const void *bytes, size_t length)
{
    if (length > MOST_BYTES - made->length) length = MOST_BYTES - made->length;
    memcpy(made->bytes + made->length, bytes, length);
    made->length += length;
}

static void put(struct made *made, const char *text)
{
    put_bytes(made, text, strlen(text));
}

static void put_number(struct made *made, const char *form, unsigned long long number)
{
    char text[32];
    snprintf(text, sizeof text, form, number);
    put(made, text);
}

static void put_random(struct numbers *numbers, struct made *made, size_t length)
{
    for (size_t at = 0; at < length; at += 8) {
        uint64_t eight = next(numbers);
        put_bytes(made, &eight, length - at < 8 ? length - at : 8);
    }
}

static void source_line(struct numbers *numbers, struct made *made)
{
    size_t fields = below(numbers, 5);
    if (percent(numbers, 40)) put(made, PICK(numbers, NAMES));
    for (size_t field = 0; field < fields; field++) {
        put(made, "\t");
        put(made, field == 0 ? PICK(numbers, OPERATORS) : field == 1 ? PICK(numbers, OPERANDS) : field == 2 ? PICK(numbers, OFFSETS) : PICK(numbers, FOURTHS));
    }
    if (percent(numbers, 33)) put(made, "  # said");
}

static void feed_line(struct numbers *numbers, struct made *made, long *cycle)
{
    size_t sequences = below(numbers, 3);
    *cycle += (long)below(numbers, 41) - 1;
    if (percent(numbers, 15)) {
        put_number(made, "EVERY %llu ", below(numbers, 50));
        put(made, PICK(numbers, PERIODS));
        put(made, " ");
        put(made, PICK(numbers, DIVISORS));
        put(made, " ");
        put(made, PICK(numbers, TIMES));
    } else if (percent(numbers, 10)) {
        put(made, percent(numbers, 50) ? "999999999999999" : "9999999999999999");
    } else {
        put_number(made, "%lld", (unsigned long long)*cycle);
    }
    put(made, " ");
    put(made, PICK(numbers, COUNTERS));
    while (sequences-- > 0) {
        put(made, " ");
        put(made, PICK(numbers, SEQUENCES));
    }
}

static void command_line(struct numbers *numbers, struct made *made)
{
    static const size_t counts[] = {0, 0, 1, 1, 2, 3};
    size_t command = below(numbers, COUNT_OF(COMMANDS)), words = PICK(numbers, counts);
    put(made, COMMANDS[command]);
    while (words-- > 0) {
        put(made, " ");
        put(made, WORDS[below(numbers, COUNT_OF(WORDS) - (command < 2 ? LARGE_WORDS : 0))]);
    }
}

/* A line that is taken: a word of a source, an input of a feed, a command. */
static void sound_line(struct numbers *numbers, struct made *made, enum kind kind, long *cycle)
{
    if (kind == SOURCE) {
        put_number(made, " OCT %llo", below(numbers, 0100000));
    } else if (kind == FEED) {
        *cycle += (long)below(numbers, 40);
        if (percent(numbers, made->length > 0 && made->bytes[0] == 'E' ? 90 : 10)) {
            put_number(made, "EVERY %llu", below(numbers, 500));
            put_number(made, " %llu", 1 + below(numbers, 3000));
            put_number(made, " %llu", 1 + below(numbers, 5));
            put_number(made, " %llu ", 1 + below(numbers, 1000));
        } else {
            put_number(made, "%llu ", (unsigned long long)*cycle);
        }
        put(made, PICK(numbers, SOUND_INPUTS));
    } else {
        put(made, PICK(numbers, SOUND_COMMANDS));
    }
}

/* A line of a source of flight programs, with a label that no earlier line has. */
static void flight_line(struct numbers *numbers, struct made *made)
{
    const char *line = PICK(numbers, FLIGHT_LINES);
    if (*line == 'X') {
        put_number(made, "X%llo", made->length);
        line++;
    }
    put(made, line);
}

/* Words of version 1 or 2 of the image, the same in each quarter of a bank. */
static void put_image(struct numbers *numbers, struct made *made)
{
    unsigned char some[512];
    int has_parity = percent(numbers, 50);
    struct made part = {some, 0};
    put_random(numbers, &part, sizeof some);
    for (size_t at = 1; at < sizeof some; at += 2) {
        some[at] &= 0xFE;
        if (has_parity && !__builtin_parity(some[at - 1] ^ some[at])) some[at] |= 1;
    }
    for (size_t at = 0; at < IMAGE_BYTES; at += sizeof some) put_bytes(made, some, sizeof some);
}

/* A made text: of any lines, or of lines that are taken; in half of such sources some by --flight alone. Lines end as other systems have them, now and then, and the last may be open. */
static void put_made(struct numbers *numbers, struct made *made, enum kind kind, int is_sound)
{
    if (kind == IMAGE) {
        put_image(numbers, made);
        return;
    }
    const char *end = percent(numbers, 2) ? "\r\n" : "\n";
    size_t lines = below(numbers, kind == SOURCE ? 30 : 25);
    long cycle = 0;
    int is_flight = kind == SOURCE && is_sound && percent(numbers, 50);
    if (kind == SOURCE && (is_sound || percent(numbers, 70))) {
        put(made, " SETLOC 4000");
        put(made, end);
    }
    for (size_t line = 0; line < lines; line++) {
        if (line > 0) put(made, end);
        if (is_flight && percent(numbers, 30)) flight_line(numbers, made);
        else if (is_sound) sound_line(numbers, made, kind, &cycle);
        else if (kind == SOURCE) source_line(numbers, made);
        else if (kind == FEED) feed_line(numbers, made, &cycle);
        else command_line(numbers, made);
    }
    if (percent(numbers, 67)) put(made, end);
}

/* Puts bytes in at a place; what no longer fits falls off the end. */
static void insert(struct made *made, size_t at, const void *bytes, size_t length)
{
    size_t rest = made->length - at;
    if (length > MOST_BYTES - at) return;
    if (rest > MOST_BYTES - at - length) rest = MOST_BYTES - at - length;
    memmove(made->bytes + at + length, made->bytes + at, rest);
    memcpy(made->bytes + at, bytes, length);
    made->length = at + length + rest;
}

/* Where a line begins near some place, and how long it is with its line feed. */
static size_t some_line(struct numbers *numbers, const struct made *made, size_t *length)
{
    size_t start = below(numbers, made->length + 1), end;
    while (start > 0 && made->bytes[start - 1] != '\n') start--;
    for (end = start; end < made->length && made->bytes[end] != '\n'; end++) {
    }
    *length = end - start + (end < made->length);
    return start;
}

/* Doubles a line, cuts one out, or puts a copy of one at another's place. */
static void change_lines(struct numbers *numbers, struct made *made)
{
    unsigned char line[4096];
    size_t length, other_length, start = some_line(numbers, made, &length), other = some_line(numbers, made, &other_length);
    int way = (int)below(numbers, 3);
    if (length > sizeof line) length = sizeof line;
    memcpy(line, made->bytes + start, length);
    if (way == 0) {
        insert(made, start, line, length);
        return;
    }
    memmove(made->bytes + other, made->bytes + other + other_length, made->length - other - other_length);
    made->length -= other_length;
    if (way == 1) insert(made, other, line, length);
}

/* A byte that texts may have, or any. */
static unsigned char some_byte(struct numbers *numbers)
{
    return percent(numbers, 60) ? (unsigned char)ALPHABET[below(numbers, sizeof ALPHABET - 1)] : (unsigned char)next(numbers);
}

/* Changes a text one to three times: a byte changed, the end cut off, a byte put on, some bytes put in, or a line doubled, cut out or put elsewhere. */
static void change(struct numbers *numbers, struct made *made)
{
    for (size_t times = 1 + below(numbers, 3); times > 0; times--) {
        switch (below(numbers, 7)) {
        case 0:
            if (made->length > 0) made->bytes[below(numbers, made->length)] = some_byte(numbers);
            break;
        case 1:
            made->length = below(numbers, made->length + 1);
            break;
        case 2: {
            unsigned char byte = some_byte(numbers);
            put_bytes(made, &byte, 1);
            break;
        }
        case 3: {
            const char *text = PICK(numbers, INSERTED);
            insert(made, below(numbers, made->length + 1), text, strlen(text));
            break;
        }
        case 4:
            insert(made, below(numbers, made->length + 1), "", 1);
            break;
        default:
            change_lines(numbers, made);
        }
    }
}

/* Puts words of an image at other places of it, so that each word stays one of its version. */
static void change_words(struct numbers *numbers, struct made *made)
{
    for (size_t times = 1 + below(numbers, 64); times > 0 && made->length > 1; times--) {
        size_t to = below(numbers, made->length / 2), from = below(numbers, made->length / 2);
        memcpy(made->bytes + 2 * to, made->bytes + 2 * from, 2);
    }
}

/* Numbers that depend on all of a seed, a kind and a number. */
static struct numbers numbers_of(const char *seed, enum kind kind, uint64_t number)
{
    struct numbers numbers = {0xCBF29CE484222325u};
    for (; *seed; seed++) numbers.state = (numbers.state ^ (unsigned char)*seed) * 0x100000001B3u;
    numbers.state = next(&numbers) ^ (uint64_t)kind;
    numbers.state = next(&numbers) ^ number;
    numbers.state = next(&numbers);
    return numbers;
}

/* The commands that go on without an end where they take no number of steps, and come to none. */
static const char *const ENDLESS[] = {"on", "over", "out"};

/* Gives a number of steps to each of these that has none. */
static void bound_each_on(struct made *made)
{
    int begins = 1;
    for (size_t at = 0; at < made->length; at++) {
        unsigned char byte = made->bytes[at];
        for (size_t it = 0; begins && it < sizeof ENDLESS / sizeof *ENDLESS; it++) {
            size_t next = at + strlen(ENDLESS[it]);
            if (next > made->length || memcmp(made->bytes + at, ENDLESS[it], next - at) != 0) continue;
            size_t end = next;
            while (next < made->length && (made->bytes[next] == ' ' || made->bytes[next] == '\t')) next++;
            if (next == made->length || made->bytes[next] < '0' || made->bytes[next] > '9') insert(made, end, " 40 ", 4);
        }
        begins = byte == '\n' || (begins && (byte == ' ' || byte == '\t'));
    }
}

size_t make_case(const char *seed, int kind, uint64_t number, const struct text *sound, size_t sounds, unsigned char *into)
{
    struct numbers numbers = numbers_of(seed, (enum kind)kind, number);
    struct made made = {into, 0};
    size_t way = below(&numbers, 8);
    if (way == 0) {
        put_random(&numbers, &made, below(&numbers, kind == IMAGE && percent(&numbers, 10) ? IMAGE_BYTES + 9 : 400));
    } else if (way == 1 && kind != IMAGE) {
        for (size_t left = below(&numbers, 300); left > 0; left--) put_bytes(&made, &ALPHABET[below(&numbers, sizeof ALPHABET - 1)], 1);
    } else if (way < 4 && sounds > 0) {
        const struct text *text = &sound[below(&numbers, sounds)];
        put_bytes(&made, text->bytes, text->length);
    } else {
        put_made(&numbers, &made, (enum kind)kind, way >= 6);
    }
    if (kind == IMAGE && percent(&numbers, 50)) change_words(&numbers, &made);
    else if (way % 2 == 1 || way == 2) change(&numbers, &made);
    if (kind == COMMAND_LINES) bound_each_on(&made);
    return made.length;
}

size_t make_twin(const char *seed, int kind, uint64_t number, unsigned char *bytes, size_t length)
{
    struct numbers numbers = numbers_of(seed, (enum kind)kind, ~number);
    struct made made = {bytes, length};
    size_t way = below(&numbers, 4);
    if (way == 0) change(&numbers, &made);
    else if (way < 3) change_words(&numbers, &made);
    return made.length;
}
