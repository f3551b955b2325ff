/* A plain assembler in two passes with a hash table, unverified, beside which `agcws asm` is measured: it knows the operators
   that the measured source uses, checks what agcws checks of them (a fault is told by its line alone), and writes the same
   rope image and the same listing.
   cc -O2 -o assemble assemble.c && ./assemble SRC ROPE >LISTING */
#include "fields.h"
#include <stdbool.h>
#include <stdint.h>
#include <stdio.h>
#include <stdlib.h>
#include <string.h>

enum { MOST_LINES = 65536, SLOTS = 1 << 18 };
enum kind { NUM, ERASABLE, FIXED };
enum takes { SETLOC, BANK, ERASE, EQUALS, EBANK, OCT, DEC, FAR, PLAIN, NEXT, ADDRESS, PAIR, FIXED_ADDRESS, PLACE, COMPLETE };
enum extracode { NO, YES, EITHER };
enum shows { NOTHING, THE_PLACE, WORD, WORDS };

struct line { struct field label, operator, operand, offset; bool more; };
struct value { enum kind kind; unsigned bank, number; };
struct symbol { struct field name; struct value value; };
struct operator { const char *name; enum takes takes; unsigned code, size; enum extracode extracode; };
struct operand { enum { NUMBER, NAMED, HERE } kind; struct field name; int number, shift; };
struct request {
    unsigned line, eb;
    struct value place;
    const struct operator *operator;
    struct operand operand;
    bool extends;
};
struct mark { enum shows shows; struct value place; };

static const struct operator operators[] = {
    {"SETLOC", SETLOC, 0, 0, NO}, {"BANK", BANK, 0, 0, NO}, {"ERASE", ERASE, 0, 0, NO}, {"EQUALS", EQUALS, 0, 0, NO},
    {"EBANK=", EBANK, 0, 0, NO}, {"OCT", OCT, 0, 0, NO}, {"DEC", DEC, 0, 0, NO}, {"ADRES", ADDRESS, 0, 010000, NO},
    {"ECADR", PLACE, 0, 0, NO}, {"CADR", COMPLETE, 0, 0, NO}, {"2CADR", FAR, 0, 0, NO}, {"TC", ADDRESS, 0, 010000, NO},
    {"CCS", ADDRESS, 010000, 02000, NO}, {"TCF", FIXED_ADDRESS, 010000, 010000, NO}, {"INCR", ADDRESS, 024000, 02000, NO},
    {"CA", ADDRESS, 030000, 010000, NO}, {"CS", ADDRESS, 040000, 010000, NO}, {"INDEX", ADDRESS, 050000, 02000, EITHER},
    {"DXCH", PAIR, 052000, 02000, NO}, {"TS", ADDRESS, 054000, 02000, NO}, {"XCH", ADDRESS, 056000, 02000, NO},
    {"AD", ADDRESS, 060000, 010000, NO}, {"MASK", ADDRESS, 070000, 010000, NO}, {"DCA", PAIR, 030000, 010000, YES},
    {"MP", ADDRESS, 070000, 010000, YES}, {"EXTEND", PLAIN, 6, 0, NO}, {"NOOP", NEXT, 010000, 010000, NO},
};

static char source[MOST_BYTES + 1];
static struct symbol symbols[MOST_LINES];
static unsigned symbol_count, slots[SLOTS]; /* a slot holds the number of a symbol, counted from 1 */
static struct request requests[MOST_LINES];
static unsigned request_count, line_count, ends[044], eb;
static struct mark marks[MOST_LINES];
static uint16_t rope[044][02000];
static bool taken[044][02000], extends;
static struct value location = {FIXED, 2, 0};

static void refuse(unsigned line) {
    fprintf(stderr, "assemble: line %u\n", line);
    exit(1);
}

static struct line take_apart(const char *text, const char *end) {
    struct line line = {0};
    const char *comment = memchr(text, '#', end - text), *at = text;
    if (comment) end = comment;
    if (at < end && !is_blank(*at)) line.label = next_field(&at, end);
    line.operator = next_field(&at, end), line.operand = next_field(&at, end), line.offset = next_field(&at, end);
    line.more = next_field(&at, end).length > 0;
    return line;
}

/* digits of a base: their number, 0100000 where it is above 077777, -1 where they are no digits */
static int digits(struct field field, unsigned base) {
    unsigned number = 0;
    if (field.length == 0) return -1;
    for (unsigned i = 0; i < field.length; i++) {
        unsigned digit = (unsigned char)field.text[i] - '0';
        if (digit >= base) return -1;
        number = number * base + digit;
        if (number > 077777) number = 0100000;
    }
    return number;
}

static bool is_decimal(struct field field) { return field.length && field.text[field.length - 1] == 'D'; }
static struct field without_last(struct field field) { return (struct field){field.text, field.length - 1}; }
static struct field without_first(struct field field) { return (struct field){field.text + 1, field.length - 1}; }
static bool is_signed(struct field field) { return field.length && (*field.text == '+' || *field.text == '-'); }
static int number_in(struct field field) { return is_decimal(field) ? digits(without_last(field), 10) : digits(field, 8); }

static bool is_name(struct field field) {
    if (field.length == 0 || field.length > 8 || is_signed(field) || memchr(field.text, '$', field.length)) return false;
    return digits(is_decimal(field) ? without_last(field) : field, 10) < 0;
}

static bool is_same(struct field left, struct field right) {
    return left.length == right.length && memcmp(left.text, right.text, left.length) == 0;
}

/* the slot of a name: that which holds its symbol, or the free one where it would stand */
static unsigned *slot_of(struct field name) {
    uint32_t hash = 2166136261u;
    for (unsigned i = 0; i < name.length; i++) hash = (hash ^ (unsigned char)name.text[i]) * 16777619u;
    unsigned k = hash % SLOTS;
    while (slots[k] && !is_same(symbols[slots[k] - 1].name, name)) k = (k + 1) % SLOTS;
    return &slots[k];
}

static void define(struct field name, struct value value) {
    if (name.length == 0) return;
    symbols[symbol_count++] = (struct symbol){name, value};
    *slot_of(name) = symbol_count;
}

static const struct operator *operator_of(struct field name) {
    for (unsigned i = 0; i < sizeof operators / sizeof *operators; i++)
        if (strlen(operators[i].name) == name.length && !memcmp(operators[i].name, name.text, name.length)) return &operators[i];
    return NULL;
}

static int shift_in(struct field field, unsigned line) {
    int number = is_signed(field) ? number_in(without_first(field)) : -1;
    if (number < 0) refuse(line);
    return *field.text == '-' ? -number : number;
}

static struct operand operand_of(struct line fields, unsigned line) {
    struct operand operand = {0};
    if (fields.more || fields.operand.length == 0) refuse(line);
    if (fields.offset.length == 0 && is_signed(fields.operand)) {
        operand.kind = HERE, operand.shift = shift_in(fields.operand, line);
        return operand;
    }
    if (is_name(fields.operand)) operand.kind = NAMED, operand.name = fields.operand;
    else if ((operand.number = number_in(fields.operand)) < 0) refuse(line);
    if (fields.offset.length) operand.shift = shift_in(fields.offset, line);
    return operand;
}

static struct value value_of(struct operand operand, struct value here, unsigned line) {
    static const int most[] = {077777, 03777, 01777};
    struct value value = {NUM, 0, operand.number};
    if (operand.kind == HERE) value = here;
    if (operand.kind == NAMED) {
        unsigned symbol = *slot_of(operand.name);
        if (symbol == 0) refuse(line);
        value = symbols[symbol - 1].value;
    }
    int number = (int)value.number + operand.shift;
    if (number < 0 || number > most[value.kind]) refuse(line);
    value.number = number;
    return value;
}

/* the place that a value names: of a number the erasable place, or that in bank 2 or 3 */
static struct value place_of(struct value value, unsigned line) {
    if (value.kind != NUM) return value;
    if (value.number > 07777) refuse(line);
    if (value.number < 04000) return (struct value){ERASABLE, 0, value.number};
    return (struct value){FIXED, value.number / 02000, value.number % 02000};
}

static struct value kind_of_place(enum kind kind, struct value value, unsigned line) {
    struct value place = place_of(value, line);
    if (place.kind != kind) refuse(line);
    return place;
}

static unsigned address_of(struct value value, unsigned line) {
    if (value.kind == NUM && value.number > 07777) refuse(line);
    if (value.kind == ERASABLE && value.number >= 01400) return 01400 + value.number % 0400;
    if (value.kind == FIXED) return (value.bank == 2 ? 04000 : value.bank == 3 ? 06000 : 02000) + value.number;
    return value.number;
}

static unsigned fb_of(struct value place) { return place.bank < 040 ? place.bank : place.bank - 010; }

/* DEC: a sign or none, and a whole number to 16383 */
static unsigned decimal_word(struct field field, unsigned line) {
    int number = digits(is_signed(field) ? without_first(field) : field, 10);
    if (number < 0 || number > 16383) refuse(line);
    return *field.text == '-' ? 077777 - number : number;
}

static void ask(unsigned line, const struct operator *operator, struct line fields, struct mark *mark) {
    unsigned width = operator->takes == FAR ? 2 : 1;
    struct operand operand = {0};
    if (location.kind != FIXED || location.number + width > 02000) refuse(line);
    for (unsigned i = 0; i < width; i++) {
        if (taken[location.bank][location.number + i]) refuse(line);
        taken[location.bank][location.number + i] = true;
    }
    if (operator->takes == PLAIN || operator->takes == NEXT) {
        if (fields.operand.length) refuse(line);
        operand.kind = HERE, operand.shift = 1;
    } else if (operator->takes == OCT || operator->takes == DEC) {
        if (fields.offset.length) refuse(line);
        operand.number = operator->takes == OCT ? digits(fields.operand, 8) : (int)decimal_word(fields.operand, line);
        if (operand.number < 0 || operand.number > 077777) refuse(line);
    } else operand = operand_of(fields, line);
    requests[request_count++] = (struct request){line, eb, location, operator, operand, extends};
    *mark = (struct mark){width == 2 ? WORDS : WORD, location};
    define(fields.label, location);
    location.number += width;
    if (ends[location.bank] < location.number) ends[location.bank] = location.number;
    extends = (operator->takes == PLAIN && operator->code == 6) || (extends && operator->extracode == EITHER);
}

static void erase(unsigned line, struct line fields, struct mark *mark) {
    int count = fields.operand.length ? shift_in(fields.operand, line) : 0;
    if (fields.offset.length || count < 0 || location.kind != ERASABLE || location.number + count + 1 > 04000) refuse(line);
    *mark = (struct mark){THE_PLACE, location};
    define(fields.label, location);
    location.number += count + 1;
}

static void lay_out(unsigned line, struct line fields, struct mark *mark) {
    const struct operator *operator = fields.operator.length ? operator_of(fields.operator) : NULL;
    if (fields.label.length && (!is_name(fields.label) || *slot_of(fields.label))) refuse(line);
    if (fields.operator.length == 0) {
        if (fields.label.length == 0) return;
        if (location.number > (location.kind == FIXED ? 01777u : 03777u)) refuse(line);
        *mark = (struct mark){THE_PLACE, location};
        define(fields.label, location);
        return;
    }
    if (!operator) refuse(line);
    bool is_labelled = fields.label.length > 0, labels = operator->takes == EQUALS;
    if (operator->takes <= EBANK && operator->takes != ERASE && is_labelled != labels) refuse(line);
    switch (operator->takes) {
    case SETLOC: location = place_of(value_of(operand_of(fields, line), location, line), line); break;
    case BANK: {
        int bank = fields.offset.length ? -1 : number_in(fields.operand);
        if (bank < 0 || bank >= 044) refuse(line);
        location = (struct value){FIXED, bank, ends[bank]};
        break;
    }
    case EQUALS: define(fields.label, value_of(operand_of(fields, line), location, line)); break;
    case EBANK: eb = kind_of_place(ERASABLE, value_of(operand_of(fields, line), location, line), line).number / 0400; break;
    case ERASE: erase(line, fields, mark); break;
    default: ask(line, operator, fields, mark);
    }
}

static unsigned field_of(const struct request *request, struct value value) {
    unsigned size = request->operator->extracode == EITHER && request->extends ? 010000 : request->operator->size, address;
    switch (request->operator->takes) {
    case PLACE: return kind_of_place(ERASABLE, value, request->line).number;
    case COMPLETE:
        value = kind_of_place(FIXED, value, request->line);
        return fb_of(value) * 02000 + value.number;
    default: address = address_of(value, request->line);
    }
    bool is_fixed = request->operator->takes == FIXED_ADDRESS || request->operator->takes == NEXT;
    if (address >= size || (is_fixed && address < 02000)) refuse(request->line);
    return request->operator->takes == PAIR ? (address + 1) % size : address;
}

static void make_words(const struct request *request) {
    const struct operator *operator = request->operator;
    uint16_t *word = &rope[request->place.bank][request->place.number];
    struct value value = {0};
    if (operator->extracode != EITHER && request->extends != (operator->extracode == YES)) refuse(request->line);
    if (operator->takes == PLAIN) *word = operator->code;
    else if (operator->takes == OCT || operator->takes == DEC) *word = request->operand.number;
    else {
        value = value_of(request->operand, request->place, request->line);
        if (operator->takes != FAR) *word = operator->code + field_of(request, value);
        else {
            value = kind_of_place(FIXED, value, request->line);
            word[0] = address_of(value, request->line);
            word[1] = fb_of(value) * 02000 + (value.bank >= 040 ? 0100 : 0) + request->eb;
        }
    }
}

static bool is_text(const char *text, const char *end) {
    for (const char *at = text; at < end; at++)
        if (*at != '\t' && (*at < ' ' || *at > '~')) return false;
    return end - text <= LINE_BYTES;
}

static const char *line_end(const char *text, const char *end) {
    const char *feed = memchr(text, '\n', end - text);
    return feed ? feed : end;
}

static void write_image(const char *path) {
    FILE *image = fopen(path, "wb");
    if (!image) exit(3);
    for (unsigned entry = 0; entry < 044; entry++)
        for (unsigned offset = 0; offset < 02000; offset++) {
            unsigned word = rope[entry < 4 ? entry ^ 2 : entry][offset], spelled = 2 * word | !__builtin_parity(word);
            putc(spelled >> 8, image), putc(spelled & 0377, image);
        }
    if (fclose(image)) exit(3);
}

static void list_place(struct value place) {
    if (place.kind == FIXED) printf("%02o,%04o ", place.bank, address_of(place, 0));
    else printf("E%o,%04o ", place.number / 0400, address_of(place, 0));
}

static void list_line(unsigned line, const char *text, const char *end) {
    struct value place = marks[line - 1].place;
    printf("%5u ", line);
    if (marks[line - 1].shows == NOTHING) printf("%13s", "");
    else list_place(place);
    if (marks[line - 1].shows == THE_PLACE) printf("%5s", "");
    if (marks[line - 1].shows >= WORD) printf("%05o", rope[place.bank][place.number]);
    if (end > text) fputs("  ", stdout);
    fwrite(text, 1, end - text, stdout);
    putchar('\n');
    if (marks[line - 1].shows != WORDS) return;
    place.number++;
    printf("%5u ", line);
    list_place(place);
    printf("%05o\n", rope[place.bank][place.number]);
}

static void list_symbols(void) {
    printf("SYMBOLS %u\n", symbol_count);
    for (unsigned i = 0; i < symbol_count; i++) {
        struct value value = symbols[i].value;
        printf("%-8.*s ", (int)symbols[i].name.length, symbols[i].name.text);
        if (value.kind == NUM) printf("NUM %05o\n", value.number);
        else if (value.kind == ERASABLE) printf("ERASABLE %04o\n", value.number);
        else printf("FIXED %02o,%04o\n", value.bank, value.number);
    }
}

int main(int count, char **words) {
    if (count != 3) return 2;
    FILE *file = fopen(words[1], "rb");
    if (!file) return 3;
    size_t length = fread(source, 1, sizeof source, file);
    if (length > MOST_BYTES) return 1;
    const char *end = source + length, *text, *stop;
    for (text = source; text < end; text = stop + 1) {
        stop = line_end(text, end);
        if (line_count++ >= MOST_LINES || !is_text(text, stop)) refuse(line_count);
        lay_out(line_count, take_apart(text, stop), &marks[line_count - 1]);
    }
    for (unsigned i = 0; i < request_count; i++) make_words(&requests[i]);
    write_image(words[2]);
    unsigned line = 1;
    for (text = source; text < end; text = stop + 1) {
        stop = line_end(text, end);
        list_line(line++, text, stop);
    }
    list_symbols();
    return 0;
}
