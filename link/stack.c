/* What each call takes of the stack on the inputs that make it go deepest, beyond what an empty thread takes: a line for each call.
 * A thread gets a stack that was painted before; what the thread has written over was taken. */
#define _DEFAULT_SOURCE
#include <pthread.h>
#include <stdio.h>
#include <stdlib.h>
#include <string.h>
#include <sys/mman.h>
#include "ewerflint.h"

enum { STACK = 4 << 20, PAINT = 0xA5, LEAF = 0, ONE = 1, TWO = 2, FOUR = 3, TERMINALS = 4, FORM_LENGTH = EWF_FORM_LENGTH(TERMINALS, EWF_MOST_RULES) };

static const uint8_t alphabet[TERMINALS] = {0, 1, 2, 4};

/* One state, which is final, and a transition for each terminal. */
static const uint8_t automaton[2 + 6 * TERMINALS] = {
    1, 1,
    LEAF, 0, 0xFF, 0xFF, 0xFF, 0xFF,
    ONE, 0, 0, 0xFF, 0xFF, 0xFF,
    TWO, 0, 0, 0, 0xFF, 0xFF,
    FOUR, 0, 0, 0, 0, 0,
};

static uint8_t form[FORM_LENGTH];
static uint64_t numbers[EWF_MOST_COUNTS];
static uint8_t tree[EWF_MOST_WALKED];
static uint8_t masks[EWF_MOST_WALKED];
static uint8_t sheet[EWF_LONGEST_SHEET];
static size_t sheet_length;
static uint8_t written[EWF_MOST_ASKED_BYTES];
static uint32_t tally[EWF_TALLY_COUNTS];
static uint8_t table[EWF_MOST_TABLES];

static void require(uint8_t refusal)
{
    if (refusal != EWF_NOT_REFUSED) {
        fprintf(stderr, "refused %u\n", (unsigned)refusal);
        exit(1);
    }
}

/* The form with the most rules, each of which is a node over the rule below it: unfolding goes a level deeper at each. */
static void make_deep_form(void)
{
    memset(form, 0xFF, sizeof form);
    form[0] = EWF_MOST_RULES % 256;
    form[1] = EWF_MOST_RULES / 256;
    form[2] = (EWF_MOST_RULES - 1) % 256;
    form[3] = (EWF_MOST_RULES - 1) / 256;
    form[4] = TERMINALS;
    memcpy(EWF_ALPHABET(form), alphabet, TERMINALS);
    for (size_t i = 0; i < EWF_MOST_RULES; i++) {
        uint8_t *rule = form + EWF_FORM_LENGTH(TERMINALS, i);

        rule[0] = 0;
        rule[1] = i == 0 ? LEAF : ONE;
        rule[2] = 0;
        rule[3] = 0;
        if (i > 0) {
            rule[4] = (i - 1) % 256;
            rule[5] = (i - 1) / 256;
        }
    }
}

/* A sheet whose rule 0 has four parameters, the open children of its terminals of rank 4 being the last ones, one below the other. Rule 1 calls it with
 * one argument that is open, so that each of these terminals has one open child and is contracted with what stands there; and it drops its second
 * parameter, so that the rules are cleaned. */
static void make_deep_sheet(void)
{
    static const uint8_t rules[] = {
        4, 20, ONE, FOUR, LEAF, LEAF, ONE, 0x80, ONE, FOUR, LEAF, LEAF, ONE, 0x81, ONE, FOUR, LEAF, LEAF, ONE, 0x82, ONE, 0x83,
        2, 5, 0x40, LEAF, LEAF, LEAF, 0x80,
        0, 3, 0x41, LEAF, LEAF,
    };
    static const size_t contents = 12;
    size_t lengths[3] = {sizeof alphabet, sizeof rules, sizeof automaton};
    const uint8_t *bodies[3] = {alphabet, rules, automaton};
    size_t at = contents;

    for (int i = 0; i < 3; i++) {
        sheet[4 * i] = at % 256;
        sheet[4 * i + 1] = at / 256;
        sheet[4 * i + 2] = lengths[i] % 256;
        sheet[4 * i + 3] = lengths[i] / 256;
        memcpy(sheet + at, bodies[i], lengths[i]);
        at += lengths[i];
    }
    sheet_length = at;
}

static void *empty(void *unused)
{
    return unused;
}

static void *room(void *unused)
{
    size_t form_bytes;
    size_t count;

    require(ewf_room(sheet, sheet_length, &form_bytes, &count));
    return unused;
}

static void *make(void *unused)
{
    size_t length;

    require(ewf_make_form(sheet, sheet_length, written, sizeof written, &length));
    return unused;
}

static void *mark(void *unused)
{
    uint8_t verdict;
    uint8_t mask;

    require(ewf_mark(sheet, sheet_length, written, sizeof written, numbers, EWF_MOST_ASKED_NUMBERS, 0, tally, EWF_TALLY_COUNTS, &verdict, &mask));
    return unused;
}

static void *blackboard(void *unused)
{
    uint8_t mask;

    require(ewf_blackboard(sheet, sheet_length, table, sizeof table, &mask));
    return unused;
}

static void *evaluate(void *unused)
{
    uint8_t mask;

    require(ewf_evaluate(alphabet, TERMINALS, automaton, sizeof automaton, form, sizeof form, numbers, EWF_MOST_RULES, &mask));
    return unused;
}

/* The automaton without its last transition, which is added. */
static void *add_transition(void *unused)
{
    const size_t old = sizeof automaton - EWF_TRANSITION_LENGTH;
    uint8_t mask;

    require(ewf_add_transition(alphabet, TERMINALS, form, sizeof form, automaton, old, automaton + old, EWF_TRANSITION_LENGTH, numbers, EWF_MOST_RULES, &mask));
    return unused;
}

static void *size(void *unused)
{
    uint64_t nodes;

    require(ewf_size(alphabet, TERMINALS, form, sizeof form, numbers, EWF_MOST_COUNTS, &nodes));
    return unused;
}

static void *label(void *unused)
{
    uint8_t terminal;

    require(ewf_label(alphabet, TERMINALS, form, sizeof form, EWF_MOST_RULES - 1, numbers, EWF_MOST_COUNTS, &terminal));
    return unused;
}

static void *unfold(void *unused)
{
    size_t nodes;

    require(ewf_unfold(alphabet, TERMINALS, form, sizeof form, numbers, EWF_MOST_COUNTS, tree, sizeof tree, &nodes));
    return unused;
}

static void *read_rule(void *unused)
{
    uint16_t rule[EWF_RULE_NUMBERS];

    require(ewf_read_rule(alphabet, TERMINALS, form, sizeof form, EWF_MOST_RULES - 1, rule, EWF_RULE_NUMBERS));
    return unused;
}

/* The whole slice is one node over the other, down to a leaf. */
static void *walk_chain(void *unused)
{
    uint8_t mask;

    memset(tree, ONE, sizeof tree);
    tree[sizeof tree - 1] = LEAF;
    require(ewf_walk(alphabet, TERMINALS, automaton, sizeof automaton, tree, sizeof tree, masks, sizeof masks, &mask));
    return unused;
}

/* Nodes with two children, one below the other as last children, each with a leaf before it. */
static void *walk_comb(void *unused)
{
    size_t length = EWF_MOST_WALKED - 1;
    uint8_t mask;

    for (size_t i = 0; i < length; i++) {
        tree[i] = i % 2 == 0 && i + 1 < length ? TWO : LEAF;
    }
    require(ewf_walk(alphabet, TERMINALS, automaton, sizeof automaton, tree, length, masks, sizeof masks, &mask));
    return unused;
}

static void *wrap(void *unused)
{
    static const uint8_t leaf[1] = {LEAF};
    static uint8_t wrapped[EWF_LONGEST_SHEET];
    size_t length;

    require(ewf_wrap(alphabet, TERMINALS, leaf, sizeof leaf, automaton, sizeof automaton, wrapped, sizeof wrapped, &length));
    return unused;
}

static void *practice(void *unused)
{
    static const uint8_t bare[2] = {0x01, 0x00};
    static uint8_t sheet[EWF_LONGEST_SHEET];
    size_t length;

    require(ewf_practice(0, EWF_MOST_DRAWN, bare, sizeof bare, sheet, sizeof sheet, &length));
    return unused;
}

/* How many bytes of a painted stack a thread writes over. */
static size_t taken(void *(*call)(void *))
{
    uint8_t *stack = mmap(NULL, STACK, PROT_READ | PROT_WRITE, MAP_PRIVATE | MAP_ANONYMOUS, -1, 0);
    pthread_attr_t attributes;
    pthread_t thread;
    size_t kept = 0;

    if (stack == MAP_FAILED) {
        exit(1);
    }
    memset(stack, PAINT, STACK);
    pthread_attr_init(&attributes);
    pthread_attr_setstack(&attributes, stack, STACK);
    if (pthread_create(&thread, &attributes, call, NULL) != 0) {
        exit(1);
    }
    pthread_join(thread, NULL);
    while (kept < STACK && stack[kept] == PAINT) {
        kept++;
    }
    munmap(stack, STACK);
    return STACK - kept;
}

int main(void)
{
    static const struct {
        const char *name;
        void *(*call)(void *);
    } calls[] = {
        {"room", room}, {"make form", make}, {"mark", mark}, {"blackboard", blackboard}, {"evaluate", evaluate},
        {"add transition", add_transition}, {"size", size}, {"label", label}, {"unfold", unfold}, {"read rule", read_rule},
        {"walk, chain", walk_chain}, {"walk, comb", walk_comb}, {"wrap", wrap}, {"practice", practice},
    };
    size_t nothing = taken(empty);

    make_deep_form();
    make_deep_sheet();
    for (size_t i = 0; i < sizeof calls / sizeof calls[0]; i++) {
        printf("%s: %zu\n", calls[i].name, taken(calls[i].call) - nothing);
    }
    return 0;
}
