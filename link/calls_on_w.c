/* The calls on the sheet W of document 01: how much its mark asks for, its mark, the mask by the blackboard method, its form, and from the form the mask,
 * the size, each label and the tree; a transition more, to whose automaton the relations are carried over; then a call with the alphabet of another lesson. */
#include <inttypes.h>
#include <stdio.h>
#include "ewerflint.h"

static const uint8_t W[58] = {
    0x0C, 0x00, 0x03, 0x00, 0x0F, 0x00, 0x11, 0x00, 0x20, 0x00, 0x1A, 0x00,
    0x00, 0x02, 0x01,
    0x01, 0x03, 0x02, 0x02, 0x80,
    0x02, 0x04, 0x01, 0x40, 0x81, 0x80,
    0x00, 0x04, 0x41, 0x00, 0x40, 0x00,
    0x02, 0x01,
    0x00, 0x00, 0xFF, 0xFF, 0xFF, 0xFF,
    0x02, 0x01, 0x00, 0xFF, 0xFF, 0xFF,
    0x02, 0x00, 0x01, 0xFF, 0xFF, 0xFF,
    0x01, 0x00, 0x00, 0x00, 0xFF, 0xFF,
};

/* Where W's alphabet and automaton lie, how many rules it has, room for its tree, and the candidate that W is marked for. */
enum { ALPHABET = 12, TERMINALS = 3, AUTOMATON = 32, RULES = 3, ROOM = 16, CANDIDATE = 2 };

/* What is lent: the first elements of these. */
static uint8_t form[EWF_MOST_ASKED_BYTES];
static uint64_t relations[EWF_MOST_ASKED_NUMBERS];
static uint64_t counts[EWF_COUNTS(EWF_MOST_ASKED_NUMBERS)];

static const uint8_t *const alphabet = W + ALPHABET;
static const uint8_t *const automaton = W + AUTOMATON;

static int refused(const char *call, uint8_t refusal)
{
    if (refusal != EWF_NOT_REFUSED) {
        printf("%s: refused %u\n", call, (unsigned)refusal);
    }
    return refusal != EWF_NOT_REFUSED;
}

/* Marks W in just the room that it asks for. */
static int mark_sheet(size_t form_bytes, size_t numbers)
{
    uint32_t tally[EWF_TALLY_COUNTS] = {0};
    uint8_t verdict = 0;
    uint8_t mask = 0;

    if (refused("mark", ewf_mark(W, sizeof W, form, form_bytes, relations, numbers, CANDIDATE, tally, EWF_TALLY_COUNTS, &verdict, &mask))) {
        return 1;
    }
    printf("mark: %s %u, tally of candidate %d: %" PRIu32 " %" PRIu32 " %" PRIu32 "\n", verdict == 1 ? "accepted" : "declined", (unsigned)mask, CANDIDATE,
           tally[EWF_ACCEPTED(CANDIDATE)], tally[EWF_DECLINED(CANDIDATE)], tally[EWF_TURNED_AWAY(CANDIDATE)]);
    return 0;
}

/* Prints what W's rules 0, h(h(y1)), and 1, f(h(h(y2)), y1), answer for states at their parameters. */
static int blackboard(void)
{
    static uint8_t table[EWF_TABLES(RULES)];
    uint8_t mask = 0;

    if (refused("blackboard", ewf_blackboard(W, sizeof W, table, sizeof table, &mask))) {
        return 1;
    }
    printf("blackboard: %u, rule 0 from 0: %u, from 1: %u, rule 1 from 0 and 0: %u, from 0 and 1: %u\n", (unsigned)mask,
           (unsigned)table[EWF_TABLE_BYTE(0, 0, 0, 0, 0)], (unsigned)table[EWF_TABLE_BYTE(0, 1, 0, 0, 0)],
           (unsigned)table[EWF_TABLE_BYTE(1, 0, 0, 0, 0)], (unsigned)table[EWF_TABLE_BYTE(1, 0, 1, 0, 0)]);
    return 0;
}

static int evaluate(size_t length)
{
    uint8_t mask = 0;

    if (refused("evaluate", ewf_evaluate(alphabet, TERMINALS, automaton, sizeof W - AUTOMATON, form, length, relations, EWF_RELATIONS(EWF_RULES(form)), &mask))) {
        return 1;
    }
    printf("mask: %u\n", (unsigned)mask);
    return 0;
}

/* Adds the transition f(0, 0) to 1: the relations that evaluation left are carried over to the longer automaton. */
static int add_transition(size_t length)
{
    static const uint8_t transition[EWF_TRANSITION_LENGTH] = {1, 1, 0, 0, 0xFF, 0xFF};
    uint8_t mask = 0;

    if (refused("add transition", ewf_add_transition(alphabet, TERMINALS, form, length, automaton, sizeof W - AUTOMATON, transition, sizeof transition, relations,
                                                     EWF_RELATIONS(EWF_RULES(form)), &mask))) {
        return 1;
    }
    printf("mask with a transition more: %u\n", (unsigned)mask);
    return 0;
}

static int print_labels(size_t length)
{
    size_t asked = EWF_COUNTS(EWF_RULES(form));
    uint64_t size = 0;

    if (refused("size", ewf_size(alphabet, TERMINALS, form, length, counts, asked, &size))) {
        return 1;
    }
    printf("size: %" PRIu64 "\nlabels:", size);
    for (uint64_t position = 0; position < size; position++) {
        uint8_t terminal = 0;

        if (refused("label", ewf_label(alphabet, TERMINALS, form, length, position, counts, asked, &terminal))) {
            return 1;
        }
        printf(" %u", (unsigned)terminal);
    }
    printf("\n");
    return 0;
}

static int unfold(size_t length)
{
    uint8_t tree[ROOM];
    size_t nodes = 0;

    if (refused("unfold", ewf_unfold(alphabet, TERMINALS, form, length, counts, EWF_COUNTS(EWF_RULES(form)), tree, sizeof tree, &nodes))) {
        return 1;
    }
    printf("tree:");
    for (size_t i = 0; i < nodes; i++) {
        printf(" %u", (unsigned)tree[i]);
    }
    printf("\n");
    return 0;
}

/* The alphabet of another lesson, in which f and h have each other's rank, is refused. */
static int give_other_alphabet(size_t length)
{
    static const uint8_t other[TERMINALS] = {0, 1, 2};
    uint64_t size = 0;
    uint8_t refusal = ewf_size(other, TERMINALS, form, length, counts, EWF_COUNTS(EWF_RULES(form)), &size);

    printf("size with another alphabet: refused %u\n", (unsigned)refusal);
    return refusal != EWF_OTHER_ALPHABET;
}

int main(void)
{
    size_t form_bytes = 0;
    size_t numbers = 0;
    size_t length = 0;

    if (refused("room", ewf_room(W, sizeof W, &form_bytes, &numbers))) {
        return 1;
    }
    printf("room: %zu bytes, %zu numbers\n", form_bytes, numbers);
    if (mark_sheet(form_bytes, numbers) || blackboard() || refused("make form", ewf_make_form(W, sizeof W, form, form_bytes, &length))) {
        return 1;
    }
    printf("form: %zu rules, %zu terminals, %zu bytes\n", EWF_RULES(form), EWF_TERMINALS(form), length);
    return evaluate(length) || add_transition(length) || print_labels(length) || unfold(length) || give_other_alphabet(length);
}
