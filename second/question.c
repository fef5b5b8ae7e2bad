/* Questions for the highest vector: registers of any density or of one or two bits, wrong bases and lengths. */
#include "question.h"

#include "sweep.h"

#include <string.h>

enum { ROWS = 8 };

static const uint32_t registers[2] = {GG_VIRR, GG_VISR};

uint32_t question_register(struct random *r)
{
    return registers[random_below(r, 2)];
}

uint32_t question_wrong_base(struct random *r)
{
    static const uint32_t edges[] = {
        0,           GG_VTPR,     0x180,        GG_VIRR - 1,       GG_VIRR + 1,          GG_VIRR + 16,
        GG_VISR - 1, GG_VISR + 1, GG_VISR + 16, 0x10000 + GG_VIRR, 0x80000000 + GG_VIRR, 0xFFFFFFFF,
    };
    uint32_t any = (uint32_t)random_next(r);
    if (random_one_in(r, 4) && any != GG_VIRR && any != GG_VISR)
        return any;
    return edges[any % (sizeof edges / sizeof edges[0])];
}

/* How a register's words are filled: one vector in all, at most one bit in each, about half, every bit. */
enum { ONE, FEW, MANY, ALL, DENSITIES };

static uint32_t any_word(struct random *r, unsigned density)
{
    uint32_t bits = (uint32_t)random_next(r);
    switch (density) {
    case FEW:
        return random_one_in(r, 2) ? UINT32_C(1) << bits % 32 : 0;
    case MANY:
        return bits;
    case ALL:
        return UINT32_MAX;
    default:
        return 0;
    }
}

/* Fills the lowest words of a register, from none to all of them, so that its highest vector lies anywhere. */
static void any_register(struct random *r, struct trial *t, uint32_t base)
{
    unsigned density = random_below(r, DENSITIES), filled = random_below(r, ROWS + 1);
    for (unsigned row = 0; row < ROWS; row++)
        trial_put_word(t, base + 16 * row, row < filled ? any_word(r, density) : 0);
    if (density == ONE && filled > 0)
        trial_put_vector(t, base, random_below(r, 32 * filled), true);
}

/* Half of the pages hold one byte all around the registers' words, since the bytes between them don't count. */
void question_any(struct random *r, struct trial *t)
{
    generate_state(r, t);
    if (random_one_in(r, 2))
        memset(trial_page(t), random_one_in(r, 2) ? 0xFF : (int)random_below(r, 256), GG_PAGE_LENGTH);
    any_register(r, t, GG_VIRR);
    any_register(r, t, GG_VISR);
    trial_set_question(t, random_one_in(r, 8) ? question_wrong_base(r) : question_register(r));
    if (random_one_in(r, 8))
        generate_page_length(r, t);
    if (random_one_in(r, 64))
        trial_set_nulls(t, NULL_PAGE);
}

/* What lies around an empty register: zeros, FFH in every other byte of the page, the other register full. */
enum { ZEROS, FFS, OTHER_FULL, SURROUNDINGS };

static void ask_empty(struct trial *t, uint32_t base, unsigned around)
{
    uint32_t other = base == GG_VIRR ? GG_VISR : GG_VIRR;
    trial_fresh(t);
    trial_set_question(t, base);
    if (around == FFS)
        memset(trial_page(t), 0xFF, GG_PAGE_LENGTH);
    for (unsigned row = 0; row < ROWS; row++) {
        trial_put_word(t, base + 16 * row, 0);
        if (around == OTHER_FULL)
            trial_put_word(t, other + 16 * row, UINT32_MAX);
    }
}

void question_bit(struct random *r, uint64_t index, struct trial *t)
{
    (void)r;
    uint32_t vector = digit(&index, 257), base = registers[digit(&index, 2)];
    ask_empty(t, base, digit(&index, SURROUNDINGS));
    if (vector < 256)
        trial_put_vector(t, base, vector, true);
}

/* The pairs of words are counted by the higher one: word 1 has one word below it, word 2 two, word 7 seven. */
void question_pair(struct random *r, uint64_t index, struct trial *t)
{
    uint32_t lower = digit(&index, 28), higher = 1, base = registers[digit(&index, 2)];
    uint32_t lower_bit = digit(&index, 32), higher_bit = digit(&index, 32);
    for (; lower >= higher; higher++)
        lower -= higher;
    ask_empty(t, base, random_below(r, SURROUNDINGS));
    trial_put_vector(t, base, 32 * lower + lower_bit, true);
    trial_put_vector(t, base, 32 * higher + higher_bit, true);
}

void question_base(struct random *r, uint64_t index, struct trial *t)
{
    size_t page_len = page_lengths[digit(&index, PAGE_LENGTHS)];
    generate_state(r, t);
    trial_set_page_length(t, page_len);
    if (index < GG_PAGE_LENGTH) {
        trial_set_question(t, (uint32_t)index);
        return;
    }
    index -= GG_PAGE_LENGTH;
    uint32_t base = registers[digit(&index, 2)];
    trial_set_question(t, base ^ one_bit(&index));
}
