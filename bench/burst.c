/* The machine of steps.c, many steps at once: beside it bursts are measured. Each word of fixed memory is decoded once, when the rope is
   loaded, into an operation with the way to its operand. The loop holds A, Z and the cycles in locals, goes on from EXTEND and INDEX to the
   next word, and makes what it has no operation for by the functions of steps.c. It takes no inputs, so no interrupt is ever asked for.
   cc -O2 -o burst burst.c && ./burst ROPE 200000000 */
#define main steps_main
#include "steps.c"
#undef main

/* an erasable place below the window, the erasable window, the fixed window, fixed memory, and a register or a place that edits */
#define WAYS(OP) OP##_PLAIN, OP##_WINDOW, OP##_SWITCHED, OP##_FIXED, OP##_SPECIAL
enum { TC_OP, RELINT_OP, INHINT_OP, EXTEND_OP, TCF_OP, BZF_OP, BZMF_OP, WAYS(CA), WAYS(CS), WAYS(AD), WAYS(MASK), WAYS(CCS), WAYS(INCR), WAYS(TS), WAYS(XCH), INDEX_OP, BASIC_OP, EXTRA_OP };
typedef struct { uint8_t basic, extra; uint16_t word; } Slot;
static Slot table[ERASABLE + BANKS * BANK];

static unsigned way(unsigned op, unsigned k) { return op + (k < 024 ? 4 : k < 01400 ? 0 : k < 02000 ? 1 : k < 04000 ? 2 : 3); }

static unsigned basic_op(uint16_t w) {
    unsigned k = w & 07777, first = w >> 9;
    if (first < 010) return w == 3 ? RELINT_OP : w == 4 ? INHINT_OP : w == 6 ? EXTEND_OP : TC_OP;
    if (first < 012) return way(CCS_PLAIN, k & 01777);
    if (first < 020) return TCF_OP;
    if (first >= 024 && first < 026) return way(INCR_PLAIN, k & 01777);
    if (first >= 030 && first < 040) return way(CA_PLAIN, k);
    if (first >= 040 && first < 050) return way(CS_PLAIN, k);
    if (first >= 050 && first < 052) return w == 050017 ? BASIC_OP : INDEX_OP;
    if (first >= 054 && first < 056) return way(TS_PLAIN, k & 01777);
    if (first >= 056 && first < 060) return way(XCH_PLAIN, k & 01777);
    if (first >= 070) return way(MASK_PLAIN, k);
    return first >= 060 ? way(AD_PLAIN, k) : BASIC_OP;
}

static unsigned extra_op(uint16_t w) {
    unsigned first = w >> 9;
    return first >= 012 && first < 020 ? BZF_OP : first >= 062 && first < 070 ? BZMF_OP : EXTRA_OP;
}

static Slot decoded(uint16_t w) { return (Slot){basic_op(w), extra_op(w), w}; }

#define SAVE (memory[A] = a, memory[Z] = z, cycles = cy)
#define BACK (a = memory[A], z = memory[Z], cy = cycles, fixed = (unsigned)(page[4] - memory))
#define FETCH do { \
        if (z >= 04000) s = table[z + 2048]; \
        else if (z >= 02000) s = table[fixed + z - 02000]; \
        else { SAVE; s = decoded(correct(memory[place(z)])); } \
        z = (z + 1) & 07777; \
    } while (0)
/* what reads: x at place p */
#define READS(OP, EFFECT) \
    case OP##_PLAIN: { unsigned p = s.word & 07777; uint16_t x = memory[p]; EFFECT; cy += 2; } break; \
    case OP##_SWITCHED: { unsigned p = CYR - 1; uint16_t x = memory[fixed + (s.word & 01777)]; (void)p; EFFECT; cy += 2; } break; \
    case OP##_FIXED: { unsigned p = CYR - 1; uint16_t x = memory[(s.word & 07777) + 2048]; (void)p; EFFECT; cy += 2; } break; \
    case OP##_WINDOW: case OP##_SPECIAL: { \
        SAVE; \
        unsigned p = place(s.word & 07777); \
        uint16_t x = memory[p]; \
        EFFECT; \
        cy += 2; \
        SAVE; \
        edit(p, x); \
        BACK; \
    } break;
/* what writes at place p by itself, and elsewhere by a function of steps.c */
#define WRITES(OP, EFFECT, CALL) \
    case OP##_PLAIN: { unsigned p = s.word & 01777; EFFECT; cy += 2; } break; \
    case OP##_WINDOW: case OP##_SPECIAL: { unsigned p = place(s.word & 01777); SAVE; CALL; BACK; cy += 2; } break;
#define COUNT do { \
        a = x == 0 || x == 0177777 ? 0 : x & 0100000 ? (uint16_t)(0177776 - x) : (uint16_t)(x - 1); \
        z = (z + (x == 0 ? 1 : x == 0177777 ? 3 : x & 0100000 ? 2 : 0)) & 07777; \
    } while (0)

static void burst(uint64_t left) {
    uint64_t cy, made = left;
    uint16_t a, z;
    unsigned fixed, op;
    Slot s;
    BACK;
    while (left > 0) {
        if (requests || waits_sum || waits_word || extra) {
            SAVE, step(), meter--, BACK, left--;
            continue;
        }
        left--;
        FETCH;
        op = s.basic;
    again:
        switch (op) {
        case TC_OP:
            if ((s.word & 07777) != Q) memory[Q] = z;
            z = s.word & 07777, cy += 1;
            break;
        case RELINT_OP: inhibit = false, cy += 1; break;
        case INHINT_OP: inhibit = true, cy += 1; break;
        case EXTEND_OP:
            cy += 1;
            if (left == 0) { extra = true; break; }
            left--;
            FETCH;
            op = s.extra;
            goto again;
        case TCF_OP: z = s.word & 07777, cy += 1; break;
        case BZF_OP:
            if (is_zero(a)) z = s.word & 07777, cy += 1;
            else cy += 2;
            break;
        case BZMF_OP:
            if (is_zero(a) || a & 0100000) z = s.word & 07777, cy += 1;
            else cy += 2;
            break;
        READS(CA, a = x)
        READS(CS, a = ~x)
        READS(AD, a = add(a, x))
        READS(MASK, a = p == A || p == Q ? a & x : extend(correct(a) & correct(x)))
        WRITES(CCS, uint16_t x = memory[p]; COUNT, uint16_t x = take(p); BACK; COUNT; SAVE)
        WRITES(INCR, memory[p] = extend(correct(add(memory[p], PLUS_ONE))), put(p, add(memory[p], PLUS_ONE)))
        WRITES(TS, int over = overflow(a); memory[p] = extend(correct(a)); if (over) { a = direction(over); z = (z + 1) & 07777; }, transfer_to_storage(p))
        WRITES(XCH, uint16_t x = memory[p]; memory[p] = extend(correct(a)); a = x, exchange(A, p))
        case INDEX_OP:
            SAVE, sum = take(place(s.word & 01777)), BACK, cy += 2;
            if (left == 0) { waits_sum = true; break; }
            left--;
            FETCH;
            s = decoded(correct(add(extend(s.word), sum)));
            op = s.basic;
            goto again;
        case BASIC_OP: SAVE, basic(s.word), BACK; break;
        case EXTRA_OP: SAVE, extra = false, extracode(s.word), BACK; break;
        default: __builtin_unreachable();
        }
    }
    SAVE;
    meter += made;
}

int main(int count, char **arguments) {
    if (count != 3) return 2;
    load(arguments[1]);
    for (unsigned i = ERASABLE; i < ERASABLE + BANKS * BANK; i++) table[i] = decoded(correct(memory[i]));
    for (int i = 0; i < 16; i++)
        page[i] = i < 3 ? memory + i * 0400 : memory + ERASABLE + (i < 12 ? 2 : 3) * BANK + (i % 4) * 0400;
    memory[Z] = 04000;
    select_banks();
    burst(strtoull(arguments[2], 0, 10));
    fprintf(stderr, "%llu cycles, A %06o, Z %04o\n", (unsigned long long)cycles, memory[A], memory[Z]);
    return fflush(stdout) != 0;
}
