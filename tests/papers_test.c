/*
 * The worked examples of source documents 000 and 001, and of 003 the one with
 * an empty method that has a condition, each with its place in the paper: the
 * sets that the text prints are columns of a card, by the card call and by the
 * second engine. Where the text says why a fact is missing from an "always"
 * column, a chain names that method.
 *
 * The figures are not in the text. Actions and methods that it leaves open are
 * chosen here to fit all that it says of them.
 *
 * In the papers' terms a step is an action (prec, add, del), a sequence a
 * compound task, an alternative a method. prec and poss-prec are "always
 * needed" and "may need", poss-eff+ and poss-eff- "may set" and "may clear",
 * eff+ and eff- "always set" and "always cleared", all of the relaxed kind. No
 * paper has "always stands"; it is document 02's, worked out from the last
 * action of each refinement that has the fact in prec, add or del: the fact is
 * in where each refinement has one, and never in its del. Nor has a paper the
 * five columns after it, which are document 02's too, and not the second
 * engine's: some refinement first adds the fact, has it in no prec or add, has
 * it in no add or del, has it last in a del, has it nowhere.
 *
 * C11 and C++17. Prints a line for what does not hold, then a count; the exit
 * status is 0 where all holds.
 */
#include "dulimoven.h"
#include "image.h"
#include "second/second.h"

#include <inttypes.h>
#include <stdio.h>

static unsigned ran;
static unsigned failed;

/* The library under test, and the cards of both engines. */
static struct image image;
static uint32_t actions, compounds;
static uint64_t cards[DULIMOVEN_MOST_CARD_WORDS];
static uint64_t second[DULIMOVEN_MOST_CARD_WORDS];

/* Fact f_n of a paper is fact n. Fact 0 is none of them. */
#define FACT(n) (UINT64_C(1) << (n))
static const uint64_t none = 0;

static void domain(uint32_t facts, uint32_t all_actions, uint32_t all_compounds)
{
    image_begin(&image, facts, all_actions, all_compounds);
    actions = compounds = 0;
}

/* No paper's example has a fact above 63. */
static void facts(uint32_t kind, uint64_t column)
{
    uint32_t f;
    for (f = 0; f < WORD_FACTS; f++)
        if (column & FACT(f))
            image_put(&image, kind, f);
}

/* The next action, of a1, a2 .. */
static void action(uint64_t prec, uint64_t add, uint64_t del)
{
    image_put(&image, KIND_STEP, actions++);
    facts(KIND_NEEDS, prec);
    facts(KIND_SETS, add);
    facts(KIND_CLEARS, del);
}

/* The next compound task, of c1, c2 .. */
static void compound(void) { image_put(&image, KIND_SEQUENCE, compounds++); }

/*
 * A method of it, by its tasks: "a1 c2" is action a1 and then task c2, "f1" a
 * check of fact f1.
 */
static void method(const char *tasks)
{
    image_put(&image, KIND_ALTERNATIVE, 0);
    for (; *tasks != '\0'; tasks++) {
        if (*tasks == 'a')
            image_put(&image, KIND_STEP_ENTRY, (uint32_t)(tasks[1] - '1'));
        if (*tasks == 'c')
            image_put(&image, KIND_SEQUENCE_ENTRY, (uint32_t)(tasks[1] - '1'));
        if (*tasks == 'f')
            image_put(&image, KIND_CHECK, (uint32_t)(tasks[1] - '0'));
    }
}

/* The library is whole: both engines fill its cards. */
static void fill(const char *name)
{
    image_end(&image);
    ran += 2;
    if (dulimoven_cards(image.words, image.length, cards,
                        DULIMOVEN_MOST_CARD_WORDS) != compounds) {
        failed++;
        printf("%s: the card call refuses it\n", name);
    }
    if (second_cards(image.words, image.length, second,
                     DULIMOVEN_MOST_CARD_WORDS) != compounds) {
        failed++;
        printf("%s: the second engine refuses it\n", name);
    }
}

/* A card as it is to be, with the numbers in the order of documents 01 and
 * 02. */
struct card {
    uint64_t flags, always_needed, may_need, may_set, may_clear, always_set,
        always_cleared, always_stands, may_first_set, may_first_untouched,
        may_last_untouched, may_end_cleared, may_end_unmentioned;
};

/* A run exists, none is empty, and so many facts can change. */
static uint64_t flags(uint64_t changeable)
{
    return DULIMOVEN_FLAG_RUN | changeable << DULIMOVEN_FLAG_COUNT_SHIFT;
}

/* The flags, or a column: its first word, and no fact in the other three. */
static void number_is(const char *name, const char *engine,
                      const uint64_t *card, int part, uint64_t expected)
{
    const uint64_t *word = part == DULIMOVEN_FLAGS
                               ? card
                               : dulimoven_column(card, part);
    ran++;
    if (word[0] == expected &&
        (part == DULIMOVEN_FLAGS || (word[1] | word[2] | word[3]) == 0))
        return;
    failed++;
    printf("%s, %s, number %d: %" PRIx64 ", and not %" PRIx64
           ", or a fact above 63\n",
           name, engine, part + 1, word[0], expected);
}

static void engine_card_is(const char *name, const char *engine,
                           const uint64_t *card, const struct card *expected)
{
    number_is(name, engine, card, DULIMOVEN_FLAGS, expected->flags);
    number_is(name, engine, card, DULIMOVEN_ALWAYS_NEEDED,
              expected->always_needed);
    number_is(name, engine, card, DULIMOVEN_MAY_NEED, expected->may_need);
    number_is(name, engine, card, DULIMOVEN_MAY_SET, expected->may_set);
    number_is(name, engine, card, DULIMOVEN_MAY_CLEAR, expected->may_clear);
    number_is(name, engine, card, DULIMOVEN_ALWAYS_SET, expected->always_set);
    number_is(name, engine, card, DULIMOVEN_ALWAYS_CLEARED,
              expected->always_cleared);
    number_is(name, engine, card, DULIMOVEN_ALWAYS_STANDS,
              expected->always_stands);
}

/* The columns that the second engine does not have. */
static void last_columns_are(const char *name, const uint64_t *card,
                             const struct card *expected)
{
    const char *engine = "the card call";
    number_is(name, engine, card, DULIMOVEN_MAY_FIRST_SET,
              expected->may_first_set);
    number_is(name, engine, card, DULIMOVEN_MAY_FIRST_UNTOUCHED,
              expected->may_first_untouched);
    number_is(name, engine, card, DULIMOVEN_MAY_LAST_UNTOUCHED,
              expected->may_last_untouched);
    number_is(name, engine, card, DULIMOVEN_MAY_END_CLEARED,
              expected->may_end_cleared);
    number_is(name, engine, card, DULIMOVEN_MAY_END_UNMENTIONED,
              expected->may_end_unmentioned);
}

/* The card of compound task number c, counted from 1. */
static void card_is(const char *name, uint32_t c, struct card expected)
{
    size_t at = (size_t)DULIMOVEN_CARD_WORDS * (c - 1);
    engine_card_is(name, "the card call", cards + at, &expected);
    engine_card_is(name, "the second engine", second + at, &expected);
    last_columns_are(name, cards + at, &expected);
}

/*
 * The method of compound task number c by which a fact is left untouched, on
 * the side of question 2 or 5; methods are counted from 0.
 */
static void untouched_by(const char *name, uint32_t c, uint32_t question,
                         uint32_t fact, uint32_t expected)
{
    uint32_t link[DULIMOVEN_LINK_WORDS] = {0, 0};
    uint64_t links = dulimoven_chain(image.words, image.length, c - 1, question,
                                     fact, link, DULIMOVEN_LINK_WORDS);
    ran++;
    if (links == 1 && link[0] == choice_word(c - 1, expected) &&
        link[1] == word_of(KIND_UNTOUCHED, 0))
        return;
    failed++;
    printf("%s: f%" PRIu32 " is not left untouched by method %" PRIu32 "\n",
           name, fact, expected);
}

/*
 * 000, after the relaxation, the first remark: "consider a compound task c with
 * only one method (c, <{f}, {f}, {}>). Here f is contained in eff+(c) but it is
 * also needed to execute c."
 *
 * So f is in eff+ and prec, and with them in poss-eff+ and poss-prec; nothing
 * deletes it, so it stands. One fact can change. Fact 0 is nowhere, here and in
 * all that follow.
 */
static void needed_and_added(void)
{
    struct card c = {flags(1), FACT(1), FACT(1), FACT(1),
                     none,     FACT(1), none,    FACT(1),
                     none,     FACT(0), FACT(0), none,
                     FACT(0)};
    domain(2, 1, 1);
    action(FACT(1), FACT(1), none);
    compound();
    method("a1");
    fill("000, first remark");
    card_is("000, first remark", 1, c);
}

/*
 * 000, after the relaxation, the second remark: "if c does not have an
 * executable refinement .. the relaxed versions may contain facts. This can be
 * seen, e.g., if c has only one method containing only the two actions
 * ({}, {}, {f1}) and ({f1}, {f2}, {}), which are ordered as given. Here,
 * eff+(c) = {f2} but this sequence of tasks is never executable."
 *
 * f2 is in poss-eff+ with that. f1 is deleted, and never added: it is in eff-
 * and poss-eff-. It is needed, and no action before adds it: by Definition 6 of
 * 001 it is in prec, and in poss-prec. Two facts can change. The second action
 * is the last that has f1, in prec, or f2: both are in "always stands", which
 * says nothing here, since nothing executes. f2 is first added, and f1 first
 * needed.
 */
static void never_executable(void)
{
    struct card c = {flags(2), FACT(1), FACT(1), FACT(2),
                     FACT(1),  FACT(2), FACT(1), FACT(1) | FACT(2),
                     FACT(2),  FACT(0), FACT(0), none,
                     FACT(0)};
    domain(3, 2, 1);
    action(none, none, FACT(1));
    action(FACT(1), FACT(2), none);
    compound();
    method("a1 a2");
    fill("000, second remark");
    card_is("000, second remark", 1, c);
}

/*
 * 001, Figures 1 and 2. What the text says of them:
 *
 *   c1 "has two refinements (using either m1 or m2) with two primitive tasks
 *   each"; "executing <a1, a2> .. in the state s = {f1, f2} results in the
 *   state {f2, f3, f4}"; "f3, f4, f6 and f7 are possible positive effects of
 *   c1, f1, f2, and f5 are possible negative effects. Since only f3 is added by
 *   both refinements, it is the only guaranteed effect"; the precondition of c1
 *   "would be f2".
 *
 *   c2 "has three refinements <a1, a2, a5>, <a3, a4, a5>, and <a6>";
 *   "<a3, a4, a5> will never be executable since a3 deletes f5, the
 *   precondition of a5"; exactly, eff+(c2) = {f4} and poss-eff+(c2) =
 *   {f3, f4, f6}; relaxed, eff+(c2) = {} and poss-eff+(c2) = {f3, f4, f6, f7};
 *   "The set of (relaxed) preconditions of c2 is empty because of m4."
 *
 * The actions below fit that. <a1, a2> in {f1, f2}: a1 gives {f2, f3}, a2 then
 * {f2, f3, f4}. m1 needs f1 and f2, m2 needs f2. m1 adds f3 and f4 and deletes
 * f1, m2 adds f3, f6 and f7 and deletes f2 and f5. Of c2, <a1, a2, a5> and <a6>
 * alone are executable: both add f4, the first f3 and f6 too, and neither f7.
 * <a3, a4, a5> does not add f4, and a6 adds nothing else.
 *
 * The rest of the cards. a1 needs f1, a2 and a3 need f2, and no action before
 * adds these: poss-prec(c1) = {f1, f2}. a5 needs f5, which a3 deletes and does
 * not add: poss-prec(c2) = {f1, f2, f5}. a5 and a6 add nothing that m1 or m2
 * deletes, and delete nothing: poss-eff-(c2) = poss-eff-(c1), and eff- is empty
 * for both, since m1 and m2 delete no fact in common. So 7 facts can change.
 * After m1 stand f2, f3 and f4, after m2 f3, f6 and f7: f3 after both. <a6> has
 * f4 alone, which is not in <a3, a4, a5>: of c2 none always stands.
 *
 * m1 first adds f3 and f4, m2 f3, f6 and f7; m1 has f0, f5, f6 and f7 nowhere,
 * m2 f0, f1 and f4. m2 deletes f5 and never needs or adds it, so f5 is left on
 * the first side by both; m1 needs f2 and never adds or deletes it. Last
 * deleted: f1 by a1, f5 by a3, f2 by a4. c2 leaves each fact: <a6> all but f4,
 * <a3, a4, a5> f4. After a3's deletion a5 has f5 again, in prec, so that f5 is
 * last deleted in no refinement of c2.
 */
static void figures_1_and_2(void)
{
    uint64_t plus = FACT(3) | FACT(4) | FACT(6) | FACT(7);
    uint64_t minus = FACT(1) | FACT(2) | FACT(5);
    uint64_t all = FACT(8) - 1;
    uint64_t unnamed = all & ~(FACT(2) | FACT(3));
    struct card c1 = {flags(7), FACT(2), FACT(1) | FACT(2), plus,
                      minus,    FACT(3), none,              FACT(3),
                      plus,     unnamed, all & ~FACT(3),    minus,
                      unnamed};
    struct card c2 = {flags(7), none, FACT(1) | FACT(2) | FACT(5), plus,
                      minus,    none, none,                        none,
                      plus,     all,  all, FACT(1) | FACT(2),
                      all};
    domain(8, 6, 2);
    action(FACT(1), FACT(3), FACT(1));
    action(FACT(2), FACT(4), none);
    action(FACT(2), FACT(6), FACT(5));
    action(none, FACT(3) | FACT(7), FACT(2));
    action(FACT(5), FACT(6), none);
    action(none, FACT(4), none);
    compound(); /* c1: m1, m2 */
    method("a1 a2");
    method("a3 a4");
    compound(); /* c2: m3, m4 */
    method("c1 a5");
    method("a6");
    fill("001, Figures 1 and 2");
    card_is("001, Figure 1, c1", 1, c1);
    card_is("001, Figure 2, c2", 2, c2);
    /* f4 is not guaranteed: m2 does not add it, and <a3, a4, a5> of m3 not */
    untouched_by("001, Figure 1, c1", 1, DULIMOVEN_LAST_UNTOUCHED, 4, 1);
    untouched_by("001, Figure 2, c2", 2, DULIMOVEN_LAST_UNTOUCHED, 4, 0);
    /* "because of m4" */
    untouched_by("001, Figure 2, c2", 2, DULIMOVEN_FIRST_UNTOUCHED, 2, 1);
}

/*
 * 001, section 3.3.1 with Figure 3. What the text says of it:
 *
 *   "poss-eff+(c) = {f1, f2, f3}, poss-eff-(c) = {f2}, eff+(c) = {f3}, and
 *   eff-(c) = {}"; c has the methods m1 and m2; "tn7 can be reached from
 *   compound task c1 and does also contain c1 again"; "Only the primitive task
 *   in tn1 adds (or deletes) f1", and "c can be refined into an empty task
 *   network using m2" in the domain restricted to f1; "the rightmost task in
 *   tn2 is primitive", so that for f2 c5 is removed, "making tn3 no longer
 *   reachable", and f2 is possible positive and negative "as it can be
 *   decomposed into tn2 or tn4"; for f3 "We remove c5 in tn2 and in tn5 we
 *   remove the leftmost (primitive) task since c1 does not admit an empty
 *   refinement", an action of tn2 adds f3, no task network that is left deletes
 *   it, and "c does not admit an empty refinement".
 *
 * The domain below fits that: c is compound task 6 with m1 = <c3, c4> and
 * m2 = tn5; a1 to a6 are the actions of tn1 to tn6. a3 and a5 delete what is
 * cut off. No action has a precondition, so that what always stands is eff+.
 *
 * The refinements are <a1, a3, a2>, <a1, a4> and <a5, a6>. The first adds f1,
 * f2 and f3, the second deletes f2 last and does not add it, and the third has
 * neither f1 nor f2.
 */
static void figure_3(void)
{
    uint64_t plus = FACT(1) | FACT(2) | FACT(3);
    uint64_t left = FACT(0) | FACT(1) | FACT(2);
    struct card c = {flags(3), none,    none, plus,
                     FACT(2),  FACT(3), none, FACT(3),
                     plus,     left,    left, FACT(2),
                     left};
    domain(4, 6, 6);
    action(none, FACT(1), none);
    action(none, FACT(2) | FACT(3), none);
    action(none, none, FACT(2) | FACT(3));
    action(none, FACT(3), FACT(2));
    action(none, none, FACT(3));
    action(none, FACT(3), none);
    compound(); /* c1: tn6, tn7 */
    method("a6 c2");
    method("c2 c1");
    compound(); /* c2 */
    method("");
    compound(); /* c3: tn1 */
    method("a1");
    compound(); /* c4: tn2, tn4 */
    method("c5 a2");
    method("a4");
    compound(); /* c5: tn3 */
    method("a3");
    compound(); /* c: m1, m2 with tn5 */
    method("c3 c4");
    method("a5 c1 c2");
    fill("001, Figure 3");
    card_is("001, Figure 3, c", 6, c);
    /* "using m2" */
    untouched_by("001, Figure 3, c", 6, DULIMOVEN_LAST_UNTOUCHED, 1, 1);
}

/*
 * 001, Appendix A.1, Figure 10a: "The fact f1 is included in eff+(c1) because
 * f1 holds after the execution of both a1 and a2, and it is not a mandatory
 * precondition. However, f1 is not actually added by a1 .. This is accurately
 * reflected in the relaxed version, where f1 is not in eff+(c1)."
 *
 * The two methods are <a1> and <a2>: f1 holds after a1, which does not add it,
 * since a1 needs it; a2 adds it. So f1 is in poss-eff+ and poss-prec, and by a2
 * not in prec. That it "holds after the execution of both" is what "always
 * stands" says. a2 first adds it, and a1 leaves it on the last side.
 */
static void figure_10a(void)
{
    struct card c1 = {flags(1), none,    FACT(1),           FACT(1),
                      none,     none,    none,              FACT(1),
                      FACT(1),  FACT(0), FACT(0) | FACT(1), none,
                      FACT(0)};
    domain(2, 2, 1);
    action(FACT(1), none, none);
    action(none, FACT(1), none);
    compound();
    method("a1");
    method("a2");
    fill("001, Figure 10a");
    card_is("001, Figure 10a, c1", 1, c1);
    untouched_by("001, Figure 10a, c1", 1, DULIMOVEN_LAST_UNTOUCHED, 1, 0);
}

/*
 * 001, Appendix A.1, Figure 10b: "a method containing two primitive tasks ..
 * The fact f1 is required as a precondition for a1 and is additionally added by
 * a3. .. In the relaxed version, however, f1 is considered an effect, i.e.,
 * f1 in eff+(m3)."
 *
 * m3 = <a1, a3> is the one method of a task here, and a3 is its second action:
 * f1 is in eff+ and prec, and with them in poss-eff+ and poss-prec. Nothing
 * deletes it, so it stands.
 */
static void figure_10b(void)
{
    struct card m3 = {flags(1), FACT(1), FACT(1), FACT(1),
                      none,     FACT(1), none,    FACT(1),
                      none,     FACT(0), FACT(0), none,
                      FACT(0)};
    domain(2, 2, 1);
    action(FACT(1), none, none);
    action(none, FACT(1), none);
    compound();
    method("a1 a2");
    fill("001, Figure 10b");
    card_is("001, Figure 10b, m3", 1, m3);
}

/*
 * 003, Equations 1 to 3: Get-To(V, L) -> drive(V, L0, L), and
 * Get-To(V, L) -> Get-To(V, L0), drive(V, L0, L). "What if the vehicle is
 * already in the desired location? Then one can create an empty method
 * decomposing task Get-To into nothing and checking the location:
 * Get-To(V, L) -> e [before(at(V, L), Get-To(V, L))]".
 *
 * One vehicle and two places, f1 at(V, L1) and f2 at(V, L2): a1 drives from L1
 * to L2, which needs f1, adds f2 and deletes f1, and a2 drives back. c1 is
 * Get-To(V, L2), c2 is Get-To(V, L1).
 *
 * A refinement of c1 is the check of f2, or ends with a1. So f2 is in poss-eff+
 * and f1 in poss-eff-, and by the check neither in eff+ or eff-; f2 is there
 * after either, and always stands. poss-prec has f2 by the check, and f1 by
 * <a1>; <a1> adds f2 before any action needs it, and the check leaves f1: prec
 * is empty. The check has no step, so the refinement counts as empty. <a1>
 * first adds f2, <a2, a1> first adds f1, and f2 is in each refinement; f1 is
 * not in the check, and a1 deletes it last; the check adds and deletes nothing.
 * Of c2 the same holds with f1 and f2 exchanged.
 */
static void get_to(void)
{
    uint64_t both = FACT(1) | FACT(2);
    uint64_t empty = flags(2) | DULIMOVEN_FLAG_EMPTY_RUN;
    uint64_t all = FACT(0) | both;
    uint64_t not_1 = FACT(0) | FACT(2);
    uint64_t not_2 = FACT(0) | FACT(1);
    struct card c1 = {empty, none, both,    FACT(2), FACT(1), none, none,
                      FACT(2), both, not_2, all,     FACT(1), not_2};
    struct card c2 = {empty, none, both,    FACT(1), FACT(2), none, none,
                      FACT(1), both, not_1, all,     FACT(2), not_1};
    domain(3, 2, 2);
    action(FACT(1), FACT(2), FACT(1));
    action(FACT(2), FACT(1), FACT(2));
    compound();
    method("a1");
    method("c2 a1");
    method("f2");
    compound();
    method("a2");
    method("c1 a2");
    method("f1");
    fill("003, Equations 1 to 3");
    card_is("003, Get-To(V, L2)", 1, c1);
    card_is("003, Get-To(V, L1)", 2, c2);
    /* not guaranteed: "What if the vehicle is already in the desired location?"
     */
    untouched_by("003, Get-To(V, L2)", 1, DULIMOVEN_LAST_UNTOUCHED, 2, 2);
    untouched_by("003, Get-To(V, L1)", 2, DULIMOVEN_LAST_UNTOUCHED, 1, 2);
}

int main(void)
{
    needed_and_added();
    never_executable();
    figures_1_and_2();
    figure_3();
    figure_10a();
    figure_10b();
    get_to();
    printf("papers_test: %u checks, %u failed\n", ran, failed);
    return failed == 0 ? 0 : 1;
}
