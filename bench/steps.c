/* A machine written by hand for speed, without a proof, beside which steps and channel lines are measured. It is a plain exact step: every
   instruction, one step a call, no decoding ahead. Memory holds what is read (words of 16 bits, A and Q whole, the bank registers among
   them), a page table leads from an address to its place, one jump on the word's six high bits finds the instruction, and requests
   are bits. It runs a rope image from the start without inputs, and prints each channel line by stdio; the cycles, A and Z at the end go to
   standard error.
   cc -O2 -o steps steps.c && ./steps ROPE 200000000 */
#include <stdbool.h>
#include <stdint.h>
#include <stdio.h>
#include <stdlib.h>

enum { A, L, Q, EB, FB, Z, BB, ZERO, ZRUPT = 015, BRUPT = 017, CYR = 020, SR, CYL, EDOP };
enum { ERASABLE = 04000, BANK = 02000, BANKS = 050, PLUS_ONE = 1, MINUS_ONE = 0177776 };

static uint16_t memory[ERASABLE + BANKS * BANK]; /* what is read at each place; banks 044 to 047 stay zero */
static uint16_t *page[16];                       /* the places of each 0400 addresses */
static uint16_t channels[01000];
static bool extra, inhibit = true, inside, waits_sum, waits_word;
static uint16_t sum, word_waiting;
static unsigned requests; /* bit k stands for request k */
static uint64_t cycles, meter;

static inline uint16_t extend(uint16_t w) { return w | (w & 040000) << 1; }
static inline uint16_t correct(uint16_t x) { return (x & 037777) | (x & 0100000) >> 1; }
static inline uint16_t add(uint16_t x, uint16_t y) {
    uint32_t total = (uint32_t)x + y;
    return (uint16_t)(total + (total >> 16));
}
static inline int overflow(uint16_t x) { return x >> 14 == 1 ? 1 : x >> 14 == 2 ? -1 : 0; }
static inline uint16_t direction(int over) { return over > 0 ? PLUS_ONE : over < 0 ? MINUS_ONE : 0; }
static inline bool is_zero(uint16_t x) { return x == 0 || x == 0177777; }
static inline int value(uint16_t w) { return w & 040000 ? -(int)(w ^ 077777) : (int)w; }

static void select_banks(void) {
    unsigned fb = memory[FB] >> 10 & 037;
    if (fb >= 030 && (channels[7] & 0100)) fb += 010;
    page[3] = memory + (memory[EB] >> 8) * 0400;
    for (int i = 0; i < 4; i++) page[4 + i] = memory + ERASABLE + fb * BANK + i * 0400;
}

static void set_banks(uint16_t eb, uint16_t fb) {
    memory[EB] = eb << 8;
    memory[FB] = extend(fb << 10);
    memory[BB] = extend(fb << 10 | eb);
    select_banks();
}

static inline unsigned place(unsigned k) { return (unsigned)(page[k >> 8] - memory) + (k & 0377); }

static void put_special(unsigned p, uint16_t x) {
    uint16_t w = correct(x), eb = memory[EB] >> 8, fb = memory[FB] >> 10 & 037;
    switch (p) {
    case A: case Q: memory[p] = x; break;
    case EB: set_banks(w >> 8 & 7, fb); break;
    case FB: set_banks(eb, w >> 10); break;
    case Z: memory[Z] = w & 07777; break;
    case BB: set_banks(w & 7, w >> 10); break;
    case ZERO: break;
    case CYR: memory[CYR] = extend(w >> 1 | (w & 1) << 14); break;
    case SR: memory[SR] = extend(w >> 1 | (w & 040000)); break;
    case CYL: memory[CYL] = extend((w << 1 & 077777) | w >> 14); break;
    case EDOP: memory[EDOP] = w >> 7 & 0177; break;
    default: memory[p] = extend(w);
    }
}

static inline void put(unsigned p, uint16_t x) {
    if (p > EDOP) memory[p] = extend(correct(x));
    else put_special(p, x);
}

static inline void edit(unsigned p, uint16_t x) {
    if (p - CYR <= EDOP - CYR) put_special(p, x);
}

/* what is read at a place; a word at an editing cell is stored back */
static inline uint16_t take(unsigned p) {
    uint16_t x = memory[p];
    edit(p, x);
    return x;
}

static uint16_t channel(unsigned n) { return n == L || n == Q ? memory[n] : extend(channels[n]); }

static void set_channel(unsigned n, uint16_t x) {
    if (n == L || n == Q) put_special(n, x);
    else if (n == 7) channels[7] = correct(x) & 0160, select_banks();
    else {
        channels[n] = correct(x);
        printf("%llu CH %03o %05o\n", (unsigned long long)cycles, n, channels[n]);
    }
}

static void transfer_to_storage(unsigned p) {
    uint16_t a = memory[A];
    int over = overflow(a);
    if (over == 0) {
        put(p, a);
        return;
    }
    if (p != A) put(p, extend(correct(a)));
    if (p != A) memory[A] = direction(over);
    if (p != Z) memory[Z] = (memory[Z] + 1) & 07777;
}

static void double_add(unsigned high, unsigned low) {
    uint16_t s = add(memory[L], memory[low]);
    uint16_t h = add(add(memory[A], memory[high]), direction(overflow(s)));
    if (high == A) {
        memory[L] = extend(correct(s));
        memory[A] = h;
        return;
    }
    put(low, extend(correct(s)));
    put(high, extend(correct(h)));
    memory[L] = 0;
    memory[A] = direction(overflow(h));
}

static void exchange(unsigned cell, unsigned p) {
    uint16_t x = memory[p], y = memory[cell];
    put(cell, x);
    put(p, y);
}

static void multiply(uint16_t a, uint16_t k) {
    uint32_t product = (uint32_t)abs(value(a)) * (uint32_t)abs(value(k));
    uint16_t high = product >> 14, low = product & 037777;
    if (product != 0 && ((a ^ k) & 040000)) high ^= 077777, low ^= 077777;
    memory[A] = extend(high);
    memory[L] = extend(low);
}

static void divide(uint16_t a, uint16_t l, uint16_t k) {
    long dividend = (long)value(a) * 16384 + value(l);
    bool minus = dividend < 0 || (dividend == 0 && (a & 040000));
    uint32_t size = labs(dividend), divisor = abs(value(k));
    uint16_t sign = minus != ((k & 040000) != 0) ? 077777 : 0;
    if (size < (uint64_t)divisor << 14) {
        memory[A] = extend((uint16_t)(size / divisor) ^ sign);
        memory[L] = extend((uint16_t)(size % divisor) ^ (minus ? 077777 : 0));
    } else
        memory[A] = extend(037777 ^ sign);
}

static void enter(void) {
    unsigned k = (unsigned)__builtin_ctz(requests);
    memory[BRUPT] = extend(correct(memory[place(memory[Z])]));
    memory[ZRUPT] = (memory[Z] + 1) & 07777;
    memory[Z] = 04000 + 4 * k;
    inside = true;
    requests &= ~(1u << k);
    cycles += 3;
}

static void basic(uint16_t word) {
    unsigned k = word & 07777, p, q;
    uint16_t x;
    switch (word >> 9) {
    case 000: case 001: case 002: case 003: case 004: case 005: case 006: case 007:
        cycles += 1;
        if (word == 3) inhibit = false;
        else if (word == 4) inhibit = true;
        else if (word == 6) extra = true;
        else {
            if (k != Q) memory[Q] = memory[Z];
            memory[Z] = k;
        }
        break;
    case 010: case 011:
        x = take(place(k & 01777));
        memory[A] = x == 0 || x == 0177777 ? 0 : x & 0100000 ? (uint16_t)(0177776 - x) : (uint16_t)(x - 1);
        memory[Z] = (memory[Z] + (x == 0 ? 1 : x == 0177777 ? 3 : x & 0100000 ? 2 : 0)) & 07777;
        cycles += 2;
        break;
    case 012: case 013: case 014: case 015: case 016: case 017: memory[Z] = k; cycles += 1; break;
    case 020: case 021:
        p = place((k - 1) & 01777), q = place(k & 01777);
        double_add(p, q);
        cycles += 3;
        break;
    case 022: case 023: exchange(L, place(k & 01777)); cycles += 2; break;
    case 024: case 025: p = place(k & 01777); put(p, add(memory[p], PLUS_ONE)); cycles += 2; break;
    case 026: case 027:
        p = place(k & 01777), x = add(memory[A], memory[p]);
        put(p, extend(correct(x)));
        memory[A] = x;
        cycles += 2;
        break;
    case 030: case 031: case 032: case 033: case 034: case 035: case 036: case 037:
        memory[A] = x = memory[p = place(k)];
        edit(p, x);
        cycles += 2;
        break;
    case 040: case 041: case 042: case 043: case 044: case 045: case 046: case 047:
        x = memory[p = place(k)];
        memory[A] = ~x;
        edit(p, x);
        cycles += 2;
        break;
    case 050: case 051:
        cycles += 2;
        if (word == 050017) {
            word_waiting = correct(memory[BRUPT]);
            waits_word = true;
            memory[Z] = memory[ZRUPT] & 07777;
            inside = false;
        } else
            sum = take(place(k & 01777)), waits_sum = true;
        break;
    case 052: case 053:
        p = place((k - 1) & 01777), q = place(k & 01777);
        exchange(L, q);
        exchange(A, p);
        cycles += 3;
        break;
    case 054: case 055: transfer_to_storage(place(k & 01777)); cycles += 2; break;
    case 056: case 057: exchange(A, place(k & 01777)); cycles += 2; break;
    case 060: case 061: case 062: case 063: case 064: case 065: case 066: case 067:
        x = memory[p = place(k)];
        memory[A] = add(memory[A], x);
        edit(p, x);
        cycles += 2;
        break;
    default:
        x = memory[p = place(k)];
        memory[A] = p == A || p == Q ? memory[A] & x : extend(correct(memory[A]) & correct(x));
        edit(p, x);
        cycles += 2;
    }
}

static void extracode(uint16_t word) {
    unsigned k = word & 07777, n = word & 0777, p, q;
    uint16_t x, y;
    switch (word >> 9) {
    case 000: memory[A] = channel(n); cycles += 2; break;
    case 001: cycles += 2; set_channel(n, memory[A]); break;
    case 002: case 003: case 004: case 005: case 006:
        cycles += 2;
        x = n == Q ? memory[A] : correct(memory[A]), y = n == Q ? memory[Q] : correct(channel(n));
        x = word >> 9 <= 3 ? x & y : word >> 9 == 6 ? x ^ y : x | y;
        memory[A] = n == Q ? x : extend(x);
        if (word >> 9 == 3 || word >> 9 == 5) set_channel(n, memory[A]);
        break;
    case 007: cycles += 3; break;
    case 010: case 011:
        x = memory[p = place(k & 01777)];
        divide(correct(memory[A]), correct(memory[L]), correct(x));
        edit(p, x);
        cycles += 6;
        break;
    case 012: case 013: case 014: case 015: case 016: case 017:
        if (is_zero(memory[A])) memory[Z] = k, cycles += 1;
        else cycles += 2;
        break;
    case 020: case 021:
        x = memory[p = place(k & 01777)];
        y = (correct(memory[A]) - correct(x)) & 077777;
        memory[A] = extend(y & 040000 ? y - 1 : y);
        edit(p, x);
        cycles += 2;
        break;
    case 022: case 023: exchange(Q, place(k & 01777)); cycles += 2; break;
    case 024: case 025:
        p = place(k & 01777), x = memory[p];
        put(p, add(x, x & 0100000 ? MINUS_ONE : PLUS_ONE));
        cycles += 2;
        break;
    case 026: case 027:
        p = place(k & 01777), x = memory[p];
        if (!is_zero(x)) put(p, add(x, x & 0100000 ? PLUS_ONE : MINUS_ONE));
        cycles += 2;
        break;
    case 030: case 031: case 032: case 033: case 034: case 035: case 036: case 037:
    case 040: case 041: case 042: case 043: case 044: case 045: case 046: case 047:
        p = place((k - 1) & 07777), q = place(k);
        x = memory[p], y = memory[q];
        memory[A] = word & 040000 ? ~x : x;
        memory[L] = extend(correct(word & 040000 ? ~y : y));
        edit(q, y);
        edit(p, x);
        cycles += 3;
        break;
    case 050: case 051: case 052: case 053: case 054: case 055: case 056: case 057:
        sum = take(place(k)), waits_sum = true, extra = true;
        cycles += 2;
        break;
    case 060: case 061:
        x = memory[p = place(k & 01777)];
        memory[A] = add(memory[A], ~x);
        edit(p, x);
        cycles += 2;
        break;
    case 062: case 063: case 064: case 065: case 066: case 067:
        if (is_zero(memory[A]) || memory[A] & 0100000) memory[Z] = k, cycles += 1;
        else cycles += 2;
        break;
    default:
        x = memory[p = place(k)];
        multiply(correct(memory[A]), correct(x));
        edit(p, x);
        cycles += 3;
    }
}

static inline void step(void) {
    meter += 1;
    if (requests != 0 && !inhibit && !inside && !extra && overflow(memory[A]) == 0 && !waits_sum && !waits_word) {
        enter();
        return;
    }
    uint16_t word;
    if (waits_word) word = word_waiting, waits_word = false;
    else {
        word = correct(memory[place(memory[Z])]);
        memory[Z] = (memory[Z] + 1) & 07777;
    }
    if (waits_sum) word = correct(add(extend(word), sum)), waits_sum = false;
    if (extra) {
        extra = false;
        extracode(word);
    } else
        basic(word);
}

static void load(const char *path) {
    static uint8_t image[044 * BANK * 2];
    FILE *in = fopen(path, "rb");
    if (!in || fread(image, 1, sizeof image, in) != sizeof image) exit(3);
    fclose(in);
    for (unsigned i = 0; i < 044; i++) {
        unsigned bank = i < 2 ? i + 2 : i < 4 ? i - 2 : i;
        for (unsigned offset = 0; offset < BANK; offset++) {
            const uint8_t *bytes = image + 2 * (i * BANK + offset);
            memory[ERASABLE + bank * BANK + offset] = extend((uint16_t)((bytes[0] << 8 | bytes[1]) >> 1));
        }
    }
}

int main(int count, char **arguments) {
    if (count != 3) return 2;
    load(arguments[1]);
    for (int i = 0; i < 16; i++)
        page[i] = i < 3 ? memory + i * 0400 : memory + ERASABLE + (i < 12 ? 2 : 3) * BANK + (i % 4) * 0400;
    memory[Z] = 04000;
    select_banks();
    for (uint64_t left = strtoull(arguments[2], 0, 10); left > 0; left--) step();
    fprintf(stderr, "%llu cycles, A %06o, Z %04o\n", (unsigned long long)cycles, memory[A], memory[Z]);
    return fflush(stdout) != 0;
}
