/* A plain reader of feeds, unverified, beside which reading a feed is measured: it keeps the inputs in a table, checks the form
   that agcws checks, and tells the first line with a fault as agcws does.
   cc -O2 -o feed feed.c && ./feed FEED */
#include "fields.h"
#include <stdbool.h>
#include <stdint.h>
#include <stdio.h>
#include <stdlib.h>
#include <string.h>

enum { MOST_INPUTS = 65536 };
enum { PINC = 1, MINC = 2, DINC = 4, PCDU = 8, MCDU = 16, SHINC = 32, SHANC = 64 };

struct name { const char *text; unsigned value; }; /* a counter takes some sequences, a sequence is one of them */
struct input { uint64_t cycle; enum { CHANNEL, REQUEST, PULSE } kind; unsigned first, second; };

static const struct name counters[] = {
    {"TIME1", PINC}, {"TIME2", PINC}, {"TIME3", PINC}, {"TIME4", PINC}, {"TIME5", PINC},
    {"TIME6", DINC}, {"CDUX", PCDU | MCDU}, {"CDUY", PCDU | MCDU}, {"CDUZ", PCDU | MCDU}, {"OPTY", PCDU | MCDU},
    {"OPTX", PCDU | MCDU}, {"PIPAX", PINC | MINC}, {"PIPAY", PINC | MINC}, {"PIPAZ", PINC | MINC}, {"INLINK", SHINC | SHANC},
};
static const struct name sequences[] = {
    {"PINC", PINC}, {"MINC", MINC}, {"DINC", DINC}, {"PCDU", PCDU}, {"MCDU", MCDU}, {"SHINC", SHINC}, {"SHANC", SHANC},
};

static char feed[MOST_BYTES + 1];
static struct input inputs[MOST_INPUTS];
static unsigned input_count;

static void refuse(unsigned number, unsigned line) {
    fprintf(stderr, line ? "agcws: E%u LINE %u\n" : "agcws: E%u\n", number, line);
    exit(1);
}

static bool is(struct field field, const char *text) {
    return strlen(text) == field.length && memcmp(text, field.text, field.length) == 0;
}

static int find(const struct name *names, unsigned count, struct field field) {
    for (unsigned i = 0; i < count; i++)
        if (is(field, names[i].text)) return i;
    return -1;
}

/* 1 to `most` digits of a base: their number, else -1 */
static int64_t digits(struct field field, unsigned base, unsigned most) {
    int64_t number = 0;
    if (field.length == 0 || field.length > most) return -1;
    for (unsigned i = 0; i < field.length; i++) {
        unsigned digit = (unsigned char)field.text[i] - '0';
        if (digit >= base) return -1;
        number = number * base + digit;
    }
    return number;
}

/* the input of a name and its arguments; answers the number of a fault, or 0 */
static unsigned read_input(struct field name, struct field first, struct field second, struct input *input) {
    if (second.length) {
        int64_t channel = digits(first, 8, 5), word = digits(second, 8, 5);
        if (!is(name, "CHAN") || channel < 0 || channel > 0777 || channel == 1 || channel == 2) return 30;
        if (word < 0 || word > 077777) return 30;
        input->kind = CHANNEL, input->first = channel, input->second = word;
    } else if (is(name, "RUPT")) {
        int64_t request = digits(first, 10, 2);
        if (request < 1 || request > 10) return 30;
        input->kind = REQUEST, input->first = request;
    } else {
        int counter = find(counters, sizeof counters / sizeof *counters, name);
        int sequence = find(sequences, sizeof sequences / sizeof *sequences, first);
        if (counter < 0 || sequence < 0) return 30;
        if (!(counters[counter].value & sequences[sequence].value)) return 33;
        input->kind = PULSE, input->first = counter, input->second = sequence;
    }
    return 0;
}

static bool is_text(const char *text, const char *end) {
    for (const char *at = text; at < end; at++)
        if (*at != '\t' && (*at < ' ' || *at > '~')) return false;
    return end - text <= LINE_BYTES;
}

static void read_line(const char *text, const char *end, unsigned line) {
    if (!is_text(text, end)) refuse(30, line);
    const char *comment = memchr(text, '#', end - text), *at = text;
    if (comment) end = comment;
    struct field cycle = next_field(&at, end), name = next_field(&at, end), first = next_field(&at, end);
    struct field second = next_field(&at, end), more = next_field(&at, end);
    if (cycle.length == 0) return;
    struct input input = {0};
    int64_t number = digits(cycle, 10, 15);
    if (number < 0 || first.length == 0 || more.length) refuse(30, line);
    input.cycle = number;
    unsigned fault = read_input(name, first, second, &input);
    if (fault) refuse(fault, line);
    if (input_count && input.cycle < inputs[input_count - 1].cycle) refuse(31, line);
    if (input_count == MOST_INPUTS) refuse(32, 0);
    inputs[input_count++] = input;
}

int main(int count, char **words) {
    if (count != 2) return 2;
    FILE *file = fopen(words[1], "rb");
    if (!file) return 3;
    size_t length = fread(feed, 1, sizeof feed, file);
    if (length > MOST_BYTES) refuse(34, 0);
    unsigned line = 0;
    for (const char *text = feed, *end = feed + length, *stop; text < end; text = stop + 1) {
        stop = memchr(text, '\n', end - text);
        if (!stop) stop = end;
        read_line(text, stop, ++line);
    }
    return 0;
}
