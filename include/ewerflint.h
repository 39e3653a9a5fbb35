/* Ewerflint: the calls for C, on x86-64. Link libcapi.a, which needs nothing but memcpy and memset.
 *
 * Answers. Each function returns 0, or the number of its refusal (enum ewf_refusal); what is tested first is named first. Results go
 * through pointers. A refusal leaves every slice and every result as it was, save that ewf_mark counts refusals 1 to 16 in its tally.
 *
 * Slices. A slice is a pointer and a length in elements. The bytes may be anything: nothing is asked of them, and every length is allowed.
 * No pointer is null, also where the length is 0, and each is aligned for its type. What a call may write, slices and results, overlaps
 * nothing else that the call is given; what it only reads may overlap. Elements behind those that a call writes are kept.
 *
 * Lengths. T is the number of terminals of an alphabet: a sheet's alphabet is its first body, T bytes. R is the number of rules of a form,
 * which EWF_RULES reads from its bytes. What form making and marking ask for depends on the sheet: 5 + T + 12 times the sum in bytes for
 * the form, and for marking as many numbers as the sum, which counts 2 for each terminal node of the sheet as written and 4 n - 3 for each
 * call of a rule of rank n above 0, rules that are never called and dropped arguments included. ewf_room tells both. No form that is made
 * has more rules than the sum, and most have fewer; the form's own R is what the calls on it ask for. A caller that does not want to ask
 * lends what is enough for every sheet: EWF_MOST_ASKED_BYTES and EWF_MOST_ASKED_NUMBERS. The blackboard method asks for EWF_TABLES(K) bytes,
 * where K is the number of rules of the sheet; EWF_MOST_TABLES is enough for every sheet.
 *
 * Memory of marking, beside the stack: what is lent for form and relations. 12,197 bytes are enough for every sheet (7,333 bytes and 608
 * numbers of 8 bytes), where 16 rules for each node took up to 40,997 (24,613 and 2,048); W takes 348 (212 and 17), where it took 3,528,
 * and billions of samples/ takes 1,668 (1,004 and 83), where it took 38,728.
 *
 * Alphabets. A form carries the alphabet that it is over, behind the rule count and the start: a byte for T, and a byte for the rank of
 * each terminal. EWF_TERMINALS and EWF_ALPHABET read it. A form that is made carries the sheet's alphabet. Each call on a form is given an
 * alphabet too, and is refused (28) where that is not the form's own, to the last rank, also of terminals that the form does not use.
 *
 * Threads and memory. A call keeps nothing behind: no state, no pointer, no heap. Calls may run at the same time on several threads,
 * where none writes what another one is given.
 *
 * Stack. The most bytes that each call was seen to take, on the inputs of link/stack.c, which go deepest; link/stack measures them anew.
 *   ewf_room 277            ewf_make_form 8,080     ewf_mark 9,280       ewf_evaluate 1,288     ewf_size 152     ewf_label 32,984
 *   ewf_read_rule 104       ewf_unfold 229,432      ewf_walk 328,828     ewf_wrap 248           ewf_practice 200 ewf_blackboard 3,752
 *   ewf_add_transition 4,888
 * Unfolding takes 96 bytes for each level of a form's rules, the walk 80 for each level of its tree. No other call goes deeper with
 * what it is given, save making and marking, which take less on smaller sheets.
 *
 * Pace. Where ewf_evaluate, ewf_mark and ewf_add_transition compose two relations (rules of kind 3), or apply one to a set of states (rules
 * of kind 2), they run the same instructions whatever bits these have; link/pace tests this. How long matching a node with transitions
 * takes (kinds 0 and 1) depends on the automaton and on the states of the node's children. */
#ifndef EWERFLINT_H
#define EWERFLINT_H

#include <stddef.h>
#include <stdint.h>

#ifdef __cplusplus
extern "C" {
#endif

/* The refusals of documents 01 and 02, by number. 12 is retired and never given. */
enum ewf_refusal {
    EWF_NOT_REFUSED = 0,
    EWF_SHEET_LENGTH = 1,      /* a sheet under 12 or over 1,832 bytes */
    EWF_CONTENTS = 2,          /* the table of contents does not join */
    EWF_TERMINAL_COUNT = 3,    /* no terminal, or over 32 */
    EWF_TERMINAL_RANK = 4,     /* a terminal's rank over 4 */
    EWF_RULES_END = 5,         /* no rules, or they do not end at a rule's end */
    EWF_RULE_COUNT = 6,        /* over 64 rules */
    EWF_NODE_COUNT = 7,        /* over 128 right-side nodes */
    EWF_RULE_RANK = 8,         /* a rule's rank over 4 */
    EWF_NODE_NAME = 9,         /* a node names nothing */
    EWF_RIGHT_SIDE = 10,       /* the nodes of a rule are not one whole tree */
    EWF_PARAMETER = 11,        /* a parameter occurs a second time */
    EWF_START_RANK = 13,       /* the last rule has parameters */
    EWF_AUTOMATON_LENGTH = 14, /* an automaton under 2 bytes, a cut transition, or over 255 of them, one that is to be added included */
    EWF_STATES = 15,           /* the states or the final states are out of range */
    EWF_TRANSITION = 16,       /* a transition names something that does not exist */
    EWF_FORM_SHORT = 17,       /* the slice for the form is too short */
    EWF_FORM = 18,             /* the bytes are no form that is valid for the alphabet in its head */
    EWF_WORK_SHORT = 19,       /* a slice to work in is too short */
    EWF_TREE_SHORT = 20,       /* the slice for the tree is too short */
    EWF_NO_PLACE = 21,         /* the position is not below the size, or the rule's number not below R */
    EWF_TREE_LONG = 22,        /* a tree is too long */
    EWF_TREE = 23,             /* the bytes are not one tree over the alphabet */
    EWF_SHEET_SHORT = 24,      /* the slice for the sheet is too short */
    EWF_TALLY_FULL = 25,       /* some count of the candidate is 4,294,967,295 */
    EWF_CANDIDATE = 26,        /* the number of a candidate is over 15 */
    EWF_DRAWN_RULES = 27,      /* no rule of a practice sheet is to be drawn, or over 20 */
    EWF_OTHER_ALPHABET = 28,   /* the alphabet given is not the one in the form's head */
    EWF_NEW_TRANSITION = 29    /* a transition that is to be added is not 6 bytes, or names something that does not exist */
};

/* The lengths that calls ask for, in elements, by T, R and K. */
#define EWF_FORM_LENGTH(T, R) (5 + (size_t)(T) + 12 * (size_t)(R))     /* the bytes of a form of T terminals and R rules */
#define EWF_RELATIONS(R) ((size_t)(R))                 /* the numbers that evaluation and adding a transition ask for */
#define EWF_TRANSITION_LENGTH 6                        /* the bytes of a transition */
#define EWF_COUNTS(R) (2 * (size_t)(R))                /* the numbers that size, label and unfolding ask for */
#define EWF_TABLE_LENGTH 4096                          /* the bytes of a rule's table, by the blackboard method */
#define EWF_TABLES(K) (EWF_TABLE_LENGTH * (size_t)(K)) /* the bytes that the blackboard method asks for, for a sheet of K rules */
#define EWF_RULE_NUMBERS 7                             /* the numbers of a rule that is read */
#define EWF_CANDIDATES 16                              /* the candidates of a tally, from 0 to 15 */
#define EWF_TALLY_COUNTS (3 * EWF_CANDIDATES)          /* the counts of a tally: accepted, declined, turned away of each */

/* Where the counts of a candidate stand in a tally. */
#define EWF_ACCEPTED(candidate) (3 * (size_t)(candidate))
#define EWF_DECLINED(candidate) (3 * (size_t)(candidate) + 1)
#define EWF_TURNED_AWAY(candidate) (3 * (size_t)(candidate) + 2)

/* Where the byte of rule k stands for the states p1 to p4 at its parameters; 0 for each parameter that the rule does not have. */
#define EWF_TABLE_BYTE(k, p1, p2, p3, p4) (EWF_TABLES(k) + (size_t)(p1) + 8 * (size_t)(p2) + 64 * (size_t)(p3) + 512 * (size_t)(p4))

/* R, T and the alphabet of a form that was made, or that some call did not refuse. */
#define EWF_RULES(form) ((size_t)(form)[0] + 256 * (size_t)(form)[1])
#define EWF_TERMINALS(form) ((size_t)(form)[4])
#define EWF_ALPHABET(form) ((form) + 5)

/* The largest of each. */
#define EWF_LONGEST_SHEET 1832
#define EWF_MOST_TRANSITIONS 255                       /* the transitions of an automaton */
#define EWF_MOST_SHEET_RULES 64                        /* K of a sheet */
#define EWF_MOST_TABLES EWF_TABLES(EWF_MOST_SHEET_RULES)     /* 262,144 bytes, for the blackboard method */
#define EWF_MOST_NODES 128                             /* the right-side nodes of a sheet, and the nodes of a tree that is wrapped */
#define EWF_MOST_TERMINALS 32                          /* T of an alphabet */
#define EWF_MOST_RULES 2048                            /* R of a form */
#define EWF_LONGEST_FORM EWF_FORM_LENGTH(EWF_MOST_TERMINALS, EWF_MOST_RULES)
#define EWF_MOST_COUNTS EWF_COUNTS(EWF_MOST_RULES)
#define EWF_MOST_ASKED_NUMBERS 608                     /* the numbers that marking asks for, and the rules of a form that is made */
#define EWF_MOST_ASKED_BYTES EWF_FORM_LENGTH(EWF_MOST_TERMINALS, EWF_MOST_ASKED_NUMBERS)     /* for form making and marking */
#define EWF_MOST_WALKED 4096                           /* the nodes of a tree that is walked */
#define EWF_MOST_DRAWN 20                              /* the rules of a practice sheet that are drawn */

/* The alphabet of practice sheets: terminals 0, 1 and 2 are a, h and f, of the ranks 0, 1 and 2. */
#define EWF_PRACTICE_TERMINALS 3
#define EWF_PRACTICE_ALPHABET {0, 1, 2}

/* How much form making and marking ask for: bytes for the form, and numbers for marking. With one less they are refused, by 17 or by 19.
 * Refused by 1 to 16 (the sheet). */
uint8_t ewf_room(const uint8_t *sheet, size_t sheet_length,
                 size_t *form_bytes, size_t *numbers);

/* The one-hole form of a sheet, and its length.
 * form: as many bytes as ewf_room tells, EWF_MOST_ASKED_BYTES at most.
 * Refused by 1 to 16 (the sheet), 17. */
uint8_t ewf_make_form(const uint8_t *sheet, size_t sheet_length,
                      uint8_t *form, size_t form_length,
                      size_t *written);

/* The blackboard method, straight on a sheet: for each rule, whether there is a run for every choice of states at its parameters and root;
 * and the mask of the states that runs on the sheet's tree end in, which is the first byte of the last rule's table, and the same as of the
 * sheet's form.
 * table: EWF_TABLES(K) bytes for a sheet of K rules, EWF_MOST_TABLES at most; afterwards rule k has the EWF_TABLE_LENGTH bytes from
 * EWF_TABLES(k) on. Byte p1 + 8 p2 + 64 p3 + 512 p4 of these, which EWF_TABLE_BYTE finds, is for the runs on what the rule derives that
 * enter at its parameters in the states p1 to p4: bit q is set exactly where one of them ends in q. A parameter that is absent from what
 * the rule derives is free: whichever of the automaton's states it is given, the byte is the same. Bytes are 0 where one of the four is
 * no state of the automaton, or is above 0 for a parameter that the rule does not have. Later bytes of the slice are kept.
 * Refused by 1 to 16 (the sheet), 19 (table); each leaves table and mask as they were. */
uint8_t ewf_blackboard(const uint8_t *sheet, size_t sheet_length,
                       uint8_t *table, size_t table_length,
                       uint8_t *mask);

/* The mask of the states that runs on the form's tree end in: bit q for state q.
 * relations: EWF_RELATIONS(R) numbers; afterwards number i is the relation of rule i.
 * Refused by 3, 4 (the alphabet), 14, 15, 16 (the automaton), 18, 28, 19. */
uint8_t ewf_evaluate(const uint8_t *alphabet, size_t alphabet_length,
                     const uint8_t *automaton, size_t automaton_length,
                     const uint8_t *form, size_t form_length,
                     uint64_t *relations, size_t relations_length,
                     uint8_t *mask);

/* The relations of an automaton carried over to the longer one that has a transition more, and the mask by them: bits 0 to 7 of the start's
 * number as it is afterwards.
 * automaton: the old one, with fewer than EWF_MOST_TRANSITIONS transitions; the longer one is its bytes with those of the transition behind
 * them. transition: EWF_TRANSITION_LENGTH bytes, its states among those of the old automaton.
 * relations: EWF_RELATIONS(R) numbers. Number i is redone exactly where rule i, or one that it calls directly or through others, is of kind
 * 0 or 1 with the transition's terminal, from the numbers of lower rules as they are by then; every other number is kept. Where the numbers
 * were those that ewf_evaluate leaves for the old automaton, they are afterwards those that it leaves for the longer one, the mask is the
 * same as well, and no bit of a number is lost. The slice may hold anything else too.
 * Refused by 3, 4 (the alphabet), 14, 15, 16 (the old automaton; 14 also where it is full), 29 (the transition), 18, 28, 19; each leaves
 * relations and mask as they were. */
uint8_t ewf_add_transition(const uint8_t *alphabet, size_t alphabet_length,
                           const uint8_t *form, size_t form_length,
                           const uint8_t *automaton, size_t automaton_length,
                           const uint8_t *transition, size_t transition_length,
                           uint64_t *relations, size_t relations_length,
                           uint8_t *mask);

/* The form's tree in preorder, and how many nodes it has.
 * counts: EWF_COUNTS(R) numbers; tree: as many bytes as the tree has nodes, which ewf_size tells.
 * Refused by 3, 4, 18, 28, 19 (counts), 20 (tree). */
uint8_t ewf_unfold(const uint8_t *alphabet, size_t alphabet_length,
                   const uint8_t *form, size_t form_length,
                   uint64_t *counts, size_t counts_length,
                   uint8_t *tree, size_t tree_length,
                   size_t *length);

/* How many nodes the form's tree has; UINT64_MAX represents "over", a size of 2^64 - 1 or more.
 * counts: EWF_COUNTS(R) numbers; afterwards numbers 2 i and 2 i + 1 are the nodes of rule i, and those before its open place.
 * Refused by 3, 4, 18, 28, 19. */
uint8_t ewf_size(const uint8_t *alphabet, size_t alphabet_length,
                 const uint8_t *form, size_t form_length,
                 uint64_t *counts, size_t counts_length,
                 uint64_t *size);

/* The terminal at a preorder position, the root being 0.
 * counts: EWF_COUNTS(R) numbers.
 * Refused by 3, 4, 18, 28, 19, 21. */
uint8_t ewf_label(const uint8_t *alphabet, size_t alphabet_length,
                  const uint8_t *form, size_t form_length,
                  uint64_t position,
                  uint64_t *counts, size_t counts_length,
                  uint8_t *terminal);

/* The rule of a number: kind, terminal, hole and four slots.
 * rule: EWF_RULE_NUMBERS numbers.
 * Refused by 3, 4, 18, 28, 19, 21. */
uint8_t ewf_read_rule(const uint8_t *alphabet, size_t alphabet_length,
                      const uint8_t *form, size_t form_length,
                      size_t number,
                      uint16_t *rule, size_t rule_length);

/* The mask of the states that runs on a preorder tree end in.
 * tree: at most EWF_MOST_WALKED bytes; masks: a byte for each of them; afterwards byte i is the mask of the subtree at position i.
 * Refused by 3, 4, 14, 15, 16, 22, 23 (the tree), 19. */
uint8_t ewf_walk(const uint8_t *alphabet, size_t alphabet_length,
                 const uint8_t *automaton, size_t automaton_length,
                 const uint8_t *tree, size_t tree_length,
                 uint8_t *masks, size_t masks_length,
                 uint8_t *mask);

/* A sheet of one rule whose tree is the tree given, and its length.
 * tree: at most EWF_MOST_NODES bytes; sheet: EWF_LONGEST_SHEET bytes are enough.
 * Refused by 3, 4, 22, 23 (the tree), 14, 15, 16, 24. */
uint8_t ewf_wrap(const uint8_t *alphabet, size_t alphabet_length,
                 const uint8_t *tree, size_t tree_length,
                 const uint8_t *automaton, size_t automaton_length,
                 uint8_t *sheet, size_t sheet_length,
                 size_t *length);

/* The practice sheet of a first x and m, and its length: rule 0 is h(y1), rules 1 to m are drawn from the first x on, and the last rule is
 * rule m called on a. The same numbers and the same automaton give the same sheet everywhere, and it passes 1 to 16.
 * m: 1 to EWF_MOST_DRAWN; automaton: over EWF_PRACTICE_ALPHABET; sheet: EWF_LONGEST_SHEET bytes are enough.
 * Refused by 27 (m), 14, 15, 16, 24. */
uint8_t ewf_practice(uint32_t first, size_t m,
                     const uint8_t *automaton, size_t automaton_length,
                     uint8_t *sheet, size_t sheet_length,
                     size_t *length);

/* Marks a sheet of a candidate: verdict 1 accepted, 0 declined, and the mask. It ends as form making and evaluation leave form and
 * relations.
 * form, relations: as many bytes and numbers as ewf_room tells, EWF_MOST_ASKED_BYTES and EWF_MOST_ASKED_NUMBERS at most; candidate: below
 * EWF_CANDIDATES;
 * tally: EWF_TALLY_COUNTS counts, of which that of the candidate and the answer goes up by one: accepted, declined, turned away (1 to 16).
 * The counts of other candidates are neither looked at nor changed.
 * Refused by 19 (a tally that is too short, before all else), 26 (the candidate), 25 (its counts), 1 to 16 (the sheet), 17,
 * 19 (relations). */
uint8_t ewf_mark(const uint8_t *sheet, size_t sheet_length,
                 uint8_t *form, size_t form_length,
                 uint64_t *relations, size_t relations_length,
                 size_t candidate,
                 uint32_t *tally, size_t tally_length,
                 uint8_t *verdict, uint8_t *mask);

#ifdef __cplusplus
}
#endif

#endif
