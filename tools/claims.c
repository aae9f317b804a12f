#include "claims.h"

#include <stdio.h>

int claim_holds(const struct loaded *loaded, const struct claim *claim)
{
    if (claim->always)
        return is_always(loaded, claim->sequence, claim->verb, claim->fact);
    return mark_of(loaded, claim->sequence, claim->verb, claim->fact) ==
           ON_NO_RUN;
}

enum outcome claim_rival(const struct loaded *loaded, const struct claim *claim)
{
    return claim->always ? rival_of(loaded, claim->sequence, claim->verb,
                                    claim->fact)
                         : verb_rules[claim->verb].outcome;
}

/* The run that a failed claim overlooks, line by line. */
static void tell_reason(const struct loaded *loaded, struct asker *asker,
                        const struct claim *claim)
{
    enum outcome outcome = claim_rival(loaded, claim);
    struct reason reason;
    struct text line = {0};
    size_t i;
    find_reason(asker, claim->sequence, outcome, claim->fact, &reason);
    fprintf(stderr, "    a run %s:\n", outcome_text(outcome));
    for (i = 0; i < reason.count; i++) {
        text_clear(&line);
        put_line(&line, loaded, &reason, &reason.lines[i], "it");
        fprintf(stderr, "      %s\n", text_string(&line));
    }
    text_free(&line);
}

static void tell_endless(const struct loaded *loaded, const struct claim *claim)
{
    struct text why = {0};
    put_endless(&why, loaded, claim->sequence);
    fprintf(stderr, "    it has no run: %s\n", text_string(&why));
    text_free(&why);
}

static void tell(const struct loaded *loaded, struct asker *asker,
                 const struct claim *claim)
{
    const struct named *fact = &loaded->library.fact[claim->fact];
    struct position at = source_position(&loaded->source, claim->at);
    const struct verb_rule *rule = &verb_rules[claim->verb];
    const char *sequence = loaded->library.sequence[claim->sequence].named.name;
    fprintf(stderr, "%s:%zu:%zu: claim fails: ", loaded->source.name, at.line,
            at.column);
    if (claim->verb == VERB_STANDS)
        fprintf(stderr, "%s does not always stand after %s", fact->name,
                sequence);
    else if (claim->always)
        fprintf(stderr, "%s does not always %s %s", sequence, rule->infinitive,
                fact->name);
    else
        fprintf(stderr, "%s %s %s %s", sequence,
                is_always(loaded, claim->sequence, claim->verb, claim->fact)
                    ? "always"
                    : "sometimes",
                rule->does, fact->name);
    if (fact->note != NULL)
        fprintf(stderr, " (%s)", fact->note);
    fprintf(stderr, "\n");
    source_show(&loaded->source, claim->at);
    if (dulimoven_has_run(card_of(loaded, claim->sequence)))
        tell_reason(loaded, asker, claim);
    else
        tell_endless(loaded, claim);
}

int hold_claims(const struct loaded *loaded)
{
    struct asker *asker = asker_new(loaded);
    size_t count = loaded->library.claims, failed = 0, i;
    for (i = 0; i < count; i++)
        if (!claim_holds(loaded, &loaded->library.claim[i])) {
            failed++;
            tell(loaded, asker, &loaded->library.claim[i]);
        }
    asker_free(asker);
    printf("%s: ", loaded->source.name);
    if (count == 0)
        printf("no claim\n");
    else
        printf("%zu claim%s, %zu failed\n", count, count == 1 ? "" : "s",
               failed);
    return failed == 0;
}
