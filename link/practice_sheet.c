/* A practice sheet of document 02, R-2: written from a number, made a form, and its tree unfolded from that. */
#include <stdio.h>
#include "ewerflint.h"

/* One state, which is final; a, h and f may all have it. */
static const uint8_t automaton[20] = {
    0x01, 0x01,
    0x00, 0x00, 0xFF, 0xFF, 0xFF, 0xFF,
    0x01, 0x00, 0x00, 0xFF, 0xFF, 0xFF,
    0x02, 0x00, 0x00, 0x00, 0xFF, 0xFF,
};

static const uint8_t alphabet[EWF_PRACTICE_TERMINALS] = EWF_PRACTICE_ALPHABET;

/* The first x, how many rules are drawn, and room for the tree. */
enum { FIRST = 0, DRAWN = 3, ROOM = 16 };

static int refused(const char *call, uint8_t refusal)
{
    if (refusal != EWF_NOT_REFUSED) {
        printf("%s: refused %u\n", call, (unsigned)refusal);
    }
    return refusal != EWF_NOT_REFUSED;
}

static void print(const char *name, const uint8_t *bytes, size_t length)
{
    printf("%s:", name);
    for (size_t i = 0; i < length; i++) {
        printf(" %02x", (unsigned)bytes[i]);
    }
    printf("\n");
}

static int unfold(const uint8_t *form, size_t length)
{
    static uint64_t counts[EWF_COUNTS(EWF_MOST_ASKED_NUMBERS)];
    uint8_t tree[ROOM];
    size_t nodes = 0;

    if (refused("unfold", ewf_unfold(alphabet, sizeof alphabet, form, length, counts, EWF_COUNTS(EWF_RULES(form)), tree, sizeof tree, &nodes))) {
        return 1;
    }
    print("tree", tree, nodes);
    return 0;
}

int main(void)
{
    static uint8_t sheet[EWF_LONGEST_SHEET];
    static uint8_t form[EWF_MOST_ASKED_BYTES];
    size_t length = 0;
    size_t written = 0;

    if (refused("practice", ewf_practice(FIRST, DRAWN, automaton, sizeof automaton, sheet, sizeof sheet, &length))) {
        return 1;
    }
    print("sheet", sheet, length);
    if (refused("make form", ewf_make_form(sheet, length, form, sizeof form, &written))) {
        return 1;
    }
    return unfold(form, written);
}
