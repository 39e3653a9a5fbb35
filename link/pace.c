/* Even pace (document 02, R-4): the library runs the same instructions for every rule of kind 3, which composes two relations, and for every rule of kind 2,
 * which applies a relation to a set of states, whatever bits these have. The processor stops after each instruction of the library, by the trap flag of
 * x86-64, and Linux hands each stop to a handler. What runs between storing one entry of the lent relations and storing the next is noted: how many
 * instructions, and where each of them stands. */
#define _GNU_SOURCE
#include <inttypes.h>
#include <signal.h>
#include <stdio.h>
#include <stdlib.h>
#include <string.h>
#include <ucontext.h>
#include <x86intrin.h>
#include "ewerflint.h"

/* Each round has an automaton of its own, and a form in which each of POOL relations meets each of them and each of POOL sets of states. No automaton has
 * more than 96 transitions, the limit that R-9 sets, counting the one that is added. */
enum { ROUNDS = 9, POOL = 18, STATES = 8, LEAVES = 4, UNARY = 7, TERMINALS = LEAVES + UNARY, MOST_TRANSITIONS = 96 };

/* The kinds of a form's rules: a node, a node with an open place, B(C) and B(C(y)). */
enum { WHOLE, PIERCED, FILLED, COMPOSED, KINDS };

/* The relations of the pool. The first are those of the unary terminals. The shifted ones are FEW_DRAWN and MANY_DRAWN in turn, composed again and again with
 * EACH_TO_NEXT on one side or the other, which keeps the number of pairs and changes their states. EACH_TWO_ON, EACH_FOUR_ON and IDENTITY are EACH_TO_NEXT
 * two, four and eight times in a row. EVERY_PAIR is FROM_0_TO_ALL around ALL_TO_0. */
enum {
    NO_PAIR, ONE_PAIR, ALL_TO_0, FROM_0_TO_ALL, EACH_TO_NEXT, FEW_DRAWN, MANY_DRAWN,
    FIRST_SHIFTED, EACH_TWO_ON = POOL - 4, EACH_FOUR_ON, IDENTITY, EVERY_PAIR
};

/* The sets of states of the pool. The first are those of the leaves, and the others are ONE_STATE and SOME_STATES in turn, shifted by EACH_TO_NEXT. */
enum { NO_STATE, EVERY_STATE, ONE_STATE, SOME_STATES };

enum { UNUSED = 0xFFFF, TRAP_FLAG = 0x100 };

/* What the lent relations hold beforehand: an entry is stored where it is another number. */
static const uint64_t filling = 0xA5C3A5C3A5C3A5C3;
static const uint8_t alphabet[TERMINALS] = {0, 0, 0, 0, 1, 1, 1, 1, 1, 1, 1};
static uint8_t automaton[2 + 6 * MOST_TRANSITIONS];
static size_t automaton_length;
static uint8_t form[EWF_LONGEST_FORM];
static size_t rules;
static size_t contexts[POOL]; /* the rules of the pool's relations */
static size_t trees[POOL];    /* the rules of the pool's sets of states */
static uint64_t relations[EWF_MOST_RULES];

/* A sheet whose form has three rules of kind 3 in a row, and three of kind 2: rule 0 is h(y1), rules 1 to 3 each call the one before twice, and the start
 * calls rule 3 three times on a. */
static const uint8_t sheet[] = {
    0x0C, 0x00, 0x02, 0x00, 0x0E, 0x00, 0x19, 0x00, 0x27, 0x00, 0x14, 0x00,
    0x00, 0x01,
    0x01, 0x02, 0x01, 0x80, 0x01, 0x03, 0x40, 0x40, 0x80, 0x01, 0x03, 0x41, 0x41, 0x80, 0x01, 0x03, 0x42, 0x42, 0x80, 0x00, 0x04, 0x43, 0x43, 0x43, 0x00,
    0x02, 0x01, 0x00, 0x00, 0xFF, 0xFF, 0xFF, 0xFF, 0x01, 0x01, 0x00, 0xFF, 0xFF, 0xFF, 0x01, 0x00, 0x01, 0xFF, 0xFF, 0xFF,
};

/* The rules whose entries a call stores, in order, and which rules depend on the terminal of the transition that is added. */
static size_t order[EWF_MOST_RULES];
static size_t asked;
static uint8_t dependent[EWF_MOST_RULES];

/* What was run for an entry: how many instructions, and a number made of their addresses in turn. */
struct pace {
    uint64_t instructions;
    uint64_t path;
};

/* What the handler of single steps writes. */
static volatile struct pace running;
static volatile struct pace paces[EWF_MOST_RULES];
static volatile size_t stored;

/* The pace of each kind in evaluation and marking, behind it the pace of each kind where a transition is added, and how many rules had it. In the latter a
 * rule is tested for whether it depends on the terminal before its entry is made, and the test ends at the first slot that does: so a kind has two paces. */
enum { ADDING = KINDS, PACES = ADDING + 2 * KINDS };

static struct pace even[PACES];
static size_t tested[PACES];

static void require(int holds, const char *what)
{
    if (!holds) {
        fprintf(stderr, "pace: %s\n", what);
        exit(1);
    }
}

static uint64_t drawn(uint64_t below)
{
    static uint64_t x = 20130101;

    x = x * 6364136223846793005 + 1442695040888963407;
    return (x >> 33) % below;
}

/* A transition of a leaf, or of a unary terminal from a state of its child. */
static void add_transition(uint8_t terminal, uint8_t target, uint8_t child)
{
    const uint8_t transition[6] = {terminal, target, child, 0xFF, 0xFF, 0xFF};

    require(automaton_length + 6 <= sizeof automaton, "too many transitions");
    for (int i = 0; i < 6; i++) {
        automaton[automaton_length++] = transition[i];
    }
}

/* Gives a unary terminal pairs of states, which may come twice. */
static void add_drawn_pairs(uint8_t terminal, int pairs)
{
    for (int i = 0; i < pairs; i++) {
        uint8_t pair = (uint8_t)drawn(STATES * STATES);

        add_transition(terminal, pair % STATES, pair / STATES);
    }
}

/* Leaves and unary terminals with the states and the relations that are named above. */
static void make_automaton(void)
{
    automaton[0] = STATES;
    automaton[1] = 1;
    automaton_length = 2;
    add_transition(ONE_STATE, (uint8_t)drawn(STATES), 0xFF);
    for (uint8_t q = 0; q < STATES; q++) {
        add_transition(EVERY_STATE, q, 0xFF);
        if (drawn(2) == 0) {
            add_transition(SOME_STATES, q, 0xFF);
        }
        add_transition(LEAVES + ALL_TO_0, 0, q);
        add_transition(LEAVES + FROM_0_TO_ALL, q, 0);
        add_transition(LEAVES + EACH_TO_NEXT, (q + 1) % STATES, q);
    }
    add_drawn_pairs(LEAVES + ONE_PAIR, 1);
    add_drawn_pairs(LEAVES + FEW_DRAWN, 10);
    add_drawn_pairs(LEAVES + MANY_DRAWN, 43);
}

static uint8_t *rule_at(size_t number)
{
    return form + EWF_FORM_LENGTH(EWF_TERMINALS(form), number);
}

static size_t add_rule(uint8_t kind, uint8_t terminal, uint8_t hole, size_t slot0, size_t slot1)
{
    uint8_t *rule = rule_at(rules);

    rule[0] = kind;
    rule[1] = terminal;
    rule[2] = hole;
    rule[3] = 0;
    rule[4] = (uint8_t)slot0;
    rule[5] = (uint8_t)(slot0 >> 8);
    rule[6] = (uint8_t)slot1;
    rule[7] = (uint8_t)(slot1 >> 8);
    rule[8] = rule[9] = rule[10] = rule[11] = 0xFF;
    return rules++;
}

/* B(C) or B(C(y)). */
static size_t add_chain(uint8_t kind, size_t outer, size_t inner)
{
    return add_rule(kind, 0xFF, 0, outer, inner);
}

static void add_terminals(void)
{
    for (uint8_t i = 0; i < TERMINALS; i++) {
        if (i < LEAVES) {
            trees[i] = add_rule(WHOLE, i, 0, UNUSED, UNUSED);
        } else {
            contexts[i - LEAVES] = add_rule(PIERCED, i, 1, UNUSED, UNUSED);
        }
    }
}

static void add_composed_relations(void)
{
    for (size_t i = FIRST_SHIFTED; i < EACH_TWO_ON; i++) {
        contexts[i] = drawn(2) == 0 ? add_chain(COMPOSED, contexts[EACH_TO_NEXT], contexts[i - 2])
                                    : add_chain(COMPOSED, contexts[i - 2], contexts[EACH_TO_NEXT]);
    }
    contexts[EACH_TWO_ON] = add_chain(COMPOSED, contexts[EACH_TO_NEXT], contexts[EACH_TO_NEXT]);
    contexts[EACH_FOUR_ON] = add_chain(COMPOSED, contexts[EACH_TWO_ON], contexts[EACH_TWO_ON]);
    contexts[IDENTITY] = add_chain(COMPOSED, contexts[EACH_FOUR_ON], contexts[EACH_FOUR_ON]);
    contexts[EVERY_PAIR] = add_chain(COMPOSED, contexts[FROM_0_TO_ALL], contexts[ALL_TO_0]);
}

static void add_shifted_sets(void)
{
    for (size_t i = LEAVES; i < POOL; i++) {
        trees[i] = add_chain(FILLED, contexts[EACH_TO_NEXT], trees[i - 2]);
    }
}

/* Each relation of the pool around each of the inner rules. */
static void add_meetings(uint8_t kind, const size_t inner[POOL])
{
    for (size_t i = 0; i < POOL * POOL; i++) {
        add_chain(kind, contexts[i / POOL], inner[i % POOL]);
    }
}

/* The rules of the terminals, then all of kind 3, then all of kind 2, so that nearly all of these follow a rule of their own kind. */
static void make_form(void)
{
    form[4] = TERMINALS;
    memcpy(EWF_ALPHABET(form), alphabet, sizeof alphabet);
    rules = 0;
    add_terminals();
    add_composed_relations();
    add_meetings(COMPOSED, contexts);
    add_shifted_sets();
    add_meetings(FILLED, trees);
    form[0] = (uint8_t)rules;
    form[1] = (uint8_t)(rules >> 8);
    form[2] = form[3] = 0;
}

/* Runs after each instruction while the trap flag is set. Where the next entry was stored, what ran since the one before was stored is its pace; so what runs
 * after a store counts for the next entry. */
static void on_single_step(int signal, siginfo_t *info, void *interrupted)
{
    const ucontext_t *machine = interrupted;
    const volatile uint64_t *entries = relations;

    (void)signal;
    (void)info;
    running.instructions++;
    running.path = (running.path ^ (uint64_t)machine->uc_mcontext.gregs[REG_RIP]) * 0x100000001B3;
    if (stored < asked && entries[order[stored]] != filling) {
        paces[stored] = running;
        stored++;
        running.instructions = 0;
        running.path = 0;
    }
}

/* Asks for the entry of a rule to be stored. */
static void ask_for(size_t number)
{
    relations[number] = filling;
    order[asked++] = number;
}

static void ask_for_all(void)
{
    asked = 0;
    for (size_t i = 0; i < EWF_MOST_RULES; i++) {
        ask_for(i);
    }
}

static void start_single_steps(void)
{
    stored = 0;
    running.instructions = 0;
    running.path = 0;
    __writeeflags(__readeflags() | TRAP_FLAG);
}

static void end_single_steps(void)
{
    __writeeflags(__readeflags() & ~(uint64_t)TRAP_FLAG);
}

static void evaluate_in_single_steps(void)
{
    uint8_t mask;
    uint8_t refusal;

    ask_for_all();
    start_single_steps();
    refusal = ewf_evaluate(alphabet, sizeof alphabet, automaton, automaton_length, form, EWF_FORM_LENGTH(TERMINALS, rules), relations, EWF_MOST_RULES, &mask);
    end_single_steps();
    require(refusal == EWF_NOT_REFUSED, "evaluation is refused");
    require(relations[contexts[NO_PAIR]] == 0, "no pair is to be one of the relations");
    require(__builtin_popcountll(relations[contexts[ONE_PAIR]]) == 1, "one pair is to be one of the relations");
    require(relations[contexts[IDENTITY]] == 0x8040201008040201, "the identity is to be one of the relations");
    require(relations[contexts[EVERY_PAIR]] == UINT64_MAX, "every pair is to be one of the relations");
}

static void mark_in_single_steps(void)
{
    uint32_t tally[EWF_TALLY_COUNTS] = {0};
    uint8_t verdict;
    uint8_t mask;
    uint8_t refusal;

    ask_for_all();
    start_single_steps();
    refusal = ewf_mark(sheet, sizeof sheet, form, sizeof form, relations, EWF_MOST_RULES, 0, tally, EWF_TALLY_COUNTS, &verdict, &mask);
    end_single_steps();
    require(refusal == EWF_NOT_REFUSED, "marking is refused");
}

static size_t slot_of(const uint8_t *rule, int slot)
{
    return rule[4 + 2 * slot] + 256u * rule[5 + 2 * slot];
}

static int slot_depends(const uint8_t *rule, int slot)
{
    return slot_of(rule, slot) != UNUSED && dependent[slot_of(rule, slot)];
}

/* Asks for the entries of the rules that depend on a terminal; those of the others stay as evaluation left them. */
static void ask_for_dependent(uint8_t terminal)
{
    asked = 0;
    for (size_t i = 0; i < rules; i++) {
        const uint8_t *rule = rule_at(i);

        dependent[i] = (rule[0] <= PIERCED && rule[1] == terminal) || slot_depends(rule, 0) || slot_depends(rule, 1);
        if (dependent[i]) {
            ask_for(i);
        }
    }
}

/* Adds a pair of states to the relation that most others are composed with. */
static void add_in_single_steps(void)
{
    const uint8_t transition[EWF_TRANSITION_LENGTH] = {LEAVES + EACH_TO_NEXT, (uint8_t)drawn(STATES), (uint8_t)drawn(STATES), 0xFF, 0xFF, 0xFF};
    uint8_t mask;
    uint8_t refusal;

    ask_for_dependent(transition[0]);
    start_single_steps();
    refusal = ewf_add_transition(alphabet, sizeof alphabet, form, EWF_FORM_LENGTH(TERMINALS, rules), automaton, automaton_length, transition, sizeof transition,
                                 relations, EWF_MOST_RULES, &mask);
    end_single_steps();
    require(refusal == EWF_NOT_REFUSED, "adding a transition is refused");
}

/* Holds a rule to the pace of the rules before it that have the same one. */
static void require_pace(const uint8_t *rule, size_t which, uint64_t instructions, uint64_t path)
{
    struct pace *pace = &even[which];

    if (tested[which]++ == 0) {
        *pace = (struct pace){instructions, path};
    }
    if (instructions != pace->instructions || path != pace->path) {
        fprintf(stderr, "pace: kind %u, %" PRIx64 " and %" PRIx64 ": %" PRIu64 " instructions%s, %" PRIu64 " for those before\n", rule[0],
                relations[slot_of(rule, 0)], relations[slot_of(rule, 1)], instructions,
                instructions == pace->instructions ? " on another path" : "", pace->instructions);
        exit(1);
    }
}

/* Every rule of kind 2 or 3 that follows one of its own kind, whose entry was stored too, has the same pace. What is run for another rule depends on the kind
 * of the rule before it too. */
static void require_even(size_t expected, int adding)
{
    require(stored == expected, "not every entry was seen to be stored; does the machine stop after each instruction?");
    for (size_t i = 1; i < stored; i++) {
        const uint8_t *rule = rule_at(order[i]);
        const size_t which = adding ? (size_t)(ADDING + 2 * rule[0] + slot_depends(rule, 0)) : rule[0];

        if (rule[0] >= FILLED && order[i] == order[i - 1] + 1 && rule[0] == *rule_at(order[i - 1])) {
            require_pace(rule, which, paces[i].instructions, paces[i].path);
        }
    }
}

/* How many rules of a kind were tested where a transition is added, where the test of the first slot decided and where that of the second did. */
static size_t tested_adding(int kind)
{
    require(tested[ADDING + 2 * kind] > 1 && tested[ADDING + 2 * kind + 1] > 1, "adding a transition redid no two entries in a row");
    return tested[ADDING + 2 * kind] + tested[ADDING + 2 * kind + 1];
}

int main(void)
{
    struct sigaction single_step = {.sa_sigaction = on_single_step, .sa_flags = SA_SIGINFO};
    size_t composed;
    size_t applied;

    require(sigaction(SIGTRAP, &single_step, NULL) == 0, "no handler for single steps");
    for (int round = 0; round < ROUNDS; round++) {
        make_automaton();
        make_form();
        evaluate_in_single_steps();
        require_even(rules, 0);
        add_in_single_steps();
        require_even(asked, 1);
    }
    require(even[COMPOSED].instructions >= 16, "an entry is not made where it is stored: composing reads the table sixteen times");
    require(even[FILLED].instructions >= 8, "an entry is not made where it is stored: applying joins eight rows");
    composed = tested[COMPOSED];
    applied = tested[FILLED];
    mark_in_single_steps();
    require_even(EWF_RULES(form), 0);
    require(tested[COMPOSED] > composed && tested[FILLED] > applied, "marking composed or applied no two relations in a row");
    printf("pace: %zu relations were composed in %" PRIu64 " instructions each, %zu applied in %" PRIu64 ", and marking runs the same\n", composed,
           even[COMPOSED].instructions, applied, even[FILLED].instructions);
    printf("pace: where transitions were added, %zu were composed again and %zu applied again, in as many instructions each\n", tested_adding(COMPOSED),
           tested_adding(FILLED));
    return 0;
}
