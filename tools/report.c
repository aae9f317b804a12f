/*
 * The page. It is HTML that is well-formed XML too, has no script, and refers
 * to nothing outside itself. Marks do not rest on colour: each has a sign of
 * its own.
 */
#include "report.h"

#include "claims.h"

#include <inttypes.h>

/*
 * How much a page names. It is written with the first of these settings under
 * which it is small enough: how many names a list has, and how many groups of
 * facts a verb has in a card.
 */
static const struct setting {
    size_t names, groups;
} settings[] = {{24, 256}, {12, 24}, {8, 8}, {3, 3}, {1, 1}, {0, 0}};

enum { SETTINGS = sizeof settings / sizeof settings[0] };

/* Up to so many findings have their reasons in full. */
enum { MOST_FINDINGS = 250 };

/* Of a reason so many lines are shown, and so many claims that hold, and that
 * fail. */
enum { SHOWN_LINES = 14, SHOWN_CLAIMS = 250 };

/* The matrix has three columns for a fact where it is not larger than so many
 * cells, and otherwise one; facts side by side in one table. */
enum { MOST_CELLS = 2048, WIDE_FACTS = 6, NARROW_FACTS = 32 };

struct page {
    struct text *text;
    const struct findings *findings;
    const struct loaded *loaded;
    const struct library *library;
    struct setting setting;
};

int shows_reasons(const struct findings *findings)
{
    return findings->count <= MOST_FINDINGS;
}

/* ---- pieces */

static void put_escaped(struct text *text, const char *string)
{
    for (; *string != 0; string++) {
        switch (*string) {
        case '<':
            text_put(text, "&lt;");
            break;
        case '>':
            text_put(text, "&gt;");
            break;
        case '&':
            text_put(text, "&amp;");
            break;
        case '"':
            text_put(text, "&quot;");
            break;
        default:
            text_format(text, "%c", *string);
        }
    }
}

/* A note between two pieces of a page, or nothing. */
static void put_note(struct text *text, const char *before, const char *note,
                     const char *after)
{
    if (note == NULL)
        return;
    text_put(text, before);
    put_escaped(text, note);
    text_put(text, after);
}

static void put_sequence(const struct page *page, size_t sequence)
{
    text_format(page->text, "<a href=\"#q%zu\">%s</a>", sequence,
                page->library->sequence[sequence].named.name);
}

/* How many names a list has so far, those that are left out among them. */
struct list {
    size_t count;
};

/* Whether the next name is to be written; a comma comes before it. */
static int list_next(const struct page *page, struct list *list)
{
    list->count++;
    if (list->count > page->setting.names)
        return 0;
    if (list->count > 1)
        text_put(page->text, ", ");
    return 1;
}

static void list_end(const struct page *page, const struct list *list,
                     const char *none, const char *what)
{
    size_t left = list->count > page->setting.names
                      ? list->count - page->setting.names
                      : 0;
    if (list->count == 0)
        text_put(page->text, none);
    if (left > 0)
        text_format(page->text, "%s%zu %s%s",
                    page->setting.names == 0 ? "" : " and ", left,
                    page->setting.names == 0 ? "" : "more ", what);
}

/* ---- the head of the page */

static const char style[] =
    "body{font:15px/1.45 system-ui,'DejaVu Sans',sans-serif;color:#1b2330;"
    "max-width:1180px;margin:24px auto;padding:0 20px}\n"
    "h1{font-size:23px;margin:0}h2{font-size:17px;margin:30px 0 10px}\n"
    "p{margin:6px 0}.quiet{color:#566274}\n"
    "code,pre{font:13px/1.5 'DejaVu Sans Mono',monospace}\n"
    "table{border-collapse:collapse;margin:10px 0}\n"
    "th,td{border:1px solid #c3cbd6;padding:3px 9px;text-align:left;"
    "vertical-align:top}\n"
    "thead th{background:#eff2f6}\n"
    "th small{display:block;font-weight:normal;color:#566274}\n"
    ".m td{text-align:center;padding:2px 5px}.m th{white-space:nowrap}\n"
    ".m tbody th{font-weight:normal}\n"
    ".m tr+tr>th{font-size:12px;font-weight:normal;padding:2px 5px}\n"
    ".m tbody tr>th{font-size:inherit;padding:2px 9px}\n"
    ".m thead th small{white-space:normal;max-width:180px}\n"
    ".n td,.n tr>th,.n tbody tr>th{padding:1px 4px;font-size:12px}\n"
    ".n thead span{writing-mode:vertical-rl}\n"
    ".e,.m td.e{background:#cfe3f7}.s,.m td.s{background:#ffe2ad}\n"
    ".m td.r{text-align:left;white-space:nowrap}\n"
    "b.e,b.s,.k{font-weight:600;padding:0 4px;border-radius:2px}\n"
    ".k{border:1px solid #c3cbd6;margin-right:8px;font-weight:normal}\n"
    ".c{border:1px solid #c3cbd6;border-radius:5px;padding:10px 14px;"
    "margin:12px 0}\n"
    ".c h3{font-size:15px;margin:0}.c h3 span{font-weight:normal;"
    "color:#566274}\n"
    ".w{border-left:4px solid #c77700;margin:8px 0;padding-left:10px}\n"
    ".w pre{margin:2px 0;white-space:pre-wrap}\n"
    "ul{margin:6px 0;padding-left:20px}li{margin:2px 0}\n"
    "@page{size:landscape;margin:12mm}\n"
    "@media print{body{font-size:11px;margin:0;max-width:none;padding:0}\n"
    "code,pre{font-size:10px}a{color:inherit;text-decoration:none}\n"
    ".c,.w,tr{break-inside:avoid}h2,h3{break-after:avoid}\n"
    "*{print-color-adjust:exact;-webkit-print-color-adjust:exact}}\n";

static void put_head(const struct page *page)
{
    const struct library *library = page->library;
    const char *name = library->name == NULL ? "a library" : library->name;
    text_format(page->text,
                "<!DOCTYPE html>\n"
                "<html xmlns=\"http://www.w3.org/1999/xhtml\" lang=\"en\">\n"
                "<head><meta charset=\"utf-8\"/>\n"
                "<meta name=\"viewport\" content=\"width=device-width\"/>\n"
                "<title>Sequence cards: %s</title>\n"
                "<style>\n%s</style></head>\n"
                "<body>\n<h1>Sequence cards: %s</h1>\n<p class=\"quiet\">",
                name, style, name);
    put_note(page->text, "", library->note, " · ");
    text_format(page->text,
                "image of %zu words, sum word <code>%08" PRIx32 "</code> · "
                "%zu fact%s, %zu step%s, %zu sequence%s · every mark is about "
                "<b>all</b> finite runs</p>\n",
                page->loaded->image.length, sum_word(page->loaded),
                library->facts, library->facts == 1 ? "" : "s", library->steps,
                library->steps == 1 ? "" : "s", library->sequences,
                library->sequences == 1 ? "" : "s");
}

/* ---- the matrix */

static const char *const signs[] = {"·", "◐", "●"};
static const char *const classes[] = {"", " class=\"s\"", " class=\"e\""};

/* Whether the matrix has one column for a fact, with letters for its marks. */
static int is_narrow(const struct page *page)
{
    return page->library->facts * page->library->sequences > MOST_CELLS;
}

static void put_legend(const struct page *page)
{
    int narrow = is_narrow(page);
    text_format(page->text,
                "<p><span class=\"k e\">%s on every run</span>"
                "<span class=\"k s\">%s on some runs only</span>"
                "<span class=\"k\">· on no run</span>%s</p>\n",
                narrow ? "N S C" : "●", narrow ? "n s c" : "◐",
                narrow ? "N and n stand for needs, S and s for sets, C and c "
                         "for clears."
                       : "");
    text_put(page->text,
             "<p class=\"quiet\">A run <b>needs</b> a fact where a step or a "
             "check needs it before any step sets it; it <b>sets</b> or "
             "<b>clears</b> a fact where the last step that does either does "
             "that.</p>\n");
}

/* The heads of a table's columns. */
static void put_columns(const struct page *page, size_t first, size_t last)
{
    const char *rows = is_narrow(page) ? "" : " rowspan=\"2\"";
    size_t fact;
    text_format(page->text, "<thead><tr><th%s>Sequence</th><th%s>Runs</th>",
                rows, rows);
    for (fact = first; fact < last; fact++) {
        const struct named *named = &page->library->fact[fact];
        if (is_narrow(page)) {
            text_format(page->text, "<th><span>%s</span></th>", named->name);
            continue;
        }
        text_format(page->text, "<th colspan=\"3\">%s", named->name);
        put_note(page->text, "<small>", named->note, "</small>");
        text_put(page->text, "</th>");
    }
    if (!is_narrow(page)) {
        text_put(page->text, "</tr>\n<tr>");
        for (fact = first; fact < last; fact++)
            text_put(page->text, "<th>needs</th><th>sets</th><th>clears</th>");
    }
    text_put(page->text, "</tr></thead>\n<tbody>\n");
}

/* Which runs a sequence has. */
static const char *runs_of(const struct page *page, size_t sequence)
{
    const uint64_t *card = card_of(page->loaded, sequence);
    return !dulimoven_has_run(card)        ? "<b>no run</b>"
           : dulimoven_has_empty_run(card) ? "may be empty"
                                           : "never empty";
}

/* The marks of a fact in one cell. */
static void put_letters(const struct page *page, size_t sequence, size_t fact)
{
    static const char *const letters[VERB_STANDS][3] = {
        {"", "n", "N"}, {"", "s", "S"}, {"", "c", "C"}};
    enum mark most = ON_NO_RUN, marks[VERB_STANDS];
    int verb;
    for (verb = 0; verb < VERB_STANDS; verb++) {
        marks[verb] = mark_of(page->loaded, sequence, (enum verb)verb, fact);
        if (marks[verb] > most)
            most = marks[verb];
    }
    text_format(page->text, "<td>%s", most == ON_NO_RUN ? "·" : "");
    for (verb = 0; verb < VERB_STANDS; verb++)
        text_put(page->text, letters[verb][marks[verb]]);
    text_put(page->text, "</td>");
}

static void put_row(const struct page *page, size_t sequence, size_t first,
                    size_t last)
{
    size_t fact;
    int verb;
    text_put(page->text, "<tr><th>");
    put_sequence(page, sequence);
    text_format(page->text, "</th><td class=\"r\">%s</td>",
                runs_of(page, sequence));
    for (fact = first; fact < last; fact++) {
        if (is_narrow(page)) {
            put_letters(page, sequence, fact);
            continue;
        }
        for (verb = 0; verb < VERB_STANDS; verb++) {
            enum mark mark =
                mark_of(page->loaded, sequence, (enum verb)verb, fact);
            text_format(page->text, "<td%s>%s</td>", classes[mark],
                        signs[mark]);
        }
    }
    text_put(page->text, "</tr>\n");
}

static void put_matrix(const struct page *page)
{
    size_t wide = is_narrow(page) ? NARROW_FACTS : WIDE_FACTS, first, sequence;
    text_put(page->text,
             "<h2>What each sequence needs, and what it leaves</h2>\n");
    put_legend(page);
    if (page->library->sequences == 0)
        text_put(page->text, "<p>The library has no sequence.</p>\n");
    for (first = 0; first < page->library->facts; first += wide) {
        size_t last = first + wide;
        if (last > page->library->facts)
            last = page->library->facts;
        if (page->library->sequences == 0)
            break;
        text_format(page->text, "<table class=\"m%s\">\n",
                    is_narrow(page) ? " n" : "");
        put_columns(page, first, last);
        for (sequence = 0; sequence < page->library->sequences; sequence++)
            put_row(page, sequence, first, last);
        text_put(page->text, "</tbody></table>\n");
    }
}

/* ---- reasons and claims */

/* The lines of a reason. Of many the first are shown, and the last, which is
 * the cause. */
static void put_lines(const struct page *page, const struct reason *reason)
{
    size_t hidden =
        reason->count > SHOWN_LINES ? reason->count - SHOWN_LINES : 0;
    size_t i;
    for (i = 0; i < reason->count; i++) {
        if (hidden > 0 && i == SHOWN_LINES - 1) {
            text_format(page->text, "\n   .. %zu lines more ..", hidden);
            i += hidden;
        }
        text_put(page->text, "\n   ");
        put_line(page->text, page->loaded, reason, &reason->lines[i], "it");
    }
    text_put(page->text, "</pre>\n");
}

/* Why a claim fails. */
static void put_failure(const struct page *page, const struct claim *claim)
{
    struct reason reason;
    text_put(page->text, "<div class=\"w\"><pre>");
    if (dulimoven_has_run(card_of(page->loaded, claim->sequence))) {
        find_reason(page->findings->asker, claim->sequence,
                    claim_rival(page->loaded, claim), claim->fact, &reason);
        text_format(page->text, "a run %s:", outcome_text(reason.outcome));
        put_lines(page, &reason);
    } else {
        text_put(page->text, "it has no run: ");
        put_endless(page->text, page->loaded, claim->sequence);
        text_put(page->text, "</pre>\n");
    }
    text_put(page->text, "</div>\n");
}

/* The claims that hold, or those that fail with their reasons. */
static void put_claims_that(const struct page *page, int hold)
{
    const struct library *library = page->library;
    size_t count = 0, i;
    for (i = 0; i < library->claims; i++) {
        const struct claim *claim = &library->claim[i];
        if (claim_holds(page->loaded, claim) != hold ||
            count++ >= SHOWN_CLAIMS)
            continue;
        text_format(page->text, "<p>%s ", hold ? "✓" : "✗");
        put_sequence(page, claim->sequence);
        text_format(page->text, " %s %s %s: <b>%s</b></p>\n",
                    claim->always ? "always" : "never",
                    verb_rules[claim->verb].does,
                    library->fact[claim->fact].name,
                    hold ? "holds" : "fails");
        if (!hold)
            put_failure(page, claim);
    }
    if (count > SHOWN_CLAIMS)
        text_format(page->text, "<p>.. %zu claims that %s in all</p>\n", count,
                    hold ? "hold" : "fail");
}

static void put_claims(const struct page *page)
{
    if (page->library->claims == 0)
        return;
    text_put(page->text, "<h2>What its author claims</h2>\n");
    put_claims_that(page, 0);
    put_claims_that(page, 1);
}

/* ---- cards */

void put_numbers(struct text *text, const struct loaded *loaded,
                 size_t sequence, const char *between)
{
    const uint64_t *card = card_of(loaded, sequence);
    int column, word;
    text_format(text, "%" PRIx64, card[DULIMOVEN_FLAGS]);
    for (column = 1; column <= DULIMOVEN_COLUMNS; column++) {
        const uint64_t *words = dulimoven_column(card, column);
        for (word = DULIMOVEN_COLUMN_WORDS - 1; word > 0 && words[word] == 0;)
            word--;
        text_format(text, "%s%" PRIx64, between, words[word]);
        while (word > 0)
            text_format(text, "%016" PRIx64, words[--word]);
    }
}

/* "needs nothing", or the facts of an "always" column. */
static void put_always(const struct page *page, size_t sequence, enum verb verb,
                       const char *before, const char *after)
{
    struct list list = {0};
    size_t fact;
    text_put(page->text, before);
    for (fact = 0; fact < page->library->facts; fact++)
        if (is_always(page->loaded, sequence, verb, fact) &&
            list_next(page, &list))
            text_format(page->text, "<b class=\"e\">%s</b>",
                        page->library->fact[fact].name);
    list_end(page, &list, "nothing", "facts");
    text_put(page->text, after);
}

/* How a run does what a finding says, or how one does not. */
static void put_reason(const struct page *page, const struct finding *finding,
                       int does)
{
    struct reason reason;
    finding_reason(page->findings, finding, does, &reason);
    if (does)
        text_put(page->text, "<pre>a run where it does:");
    else
        text_format(page->text, "<pre>a run where it does not, which %s:",
                    outcome_text(reason.outcome));
    put_lines(page, &reason);
}

/* The findings of a card, each with both reasons. */
static void put_findings(const struct page *page, const struct finding *finding,
                         const struct finding *end)
{
    static const char *const verbs[] = {"needs", "leaves set",
                                        "leaves cleared"};
    for (; finding < end; finding++) {
        text_format(page->text,
                    "<div class=\"w\">On <b>some runs only</b> it %s "
                    "<b class=\"s\">%s</b>\n",
                    verbs[finding->verb],
                    page->library->fact[finding->fact].name);
        put_reason(page, finding, 1);
        put_reason(page, finding, 0);
        text_put(page->text, "</div>\n");
    }
}

/* The number of an alternative in its sequence. */
static uint32_t number_of(const struct page *page, uint32_t alternative)
{
    uint32_t owner = page->findings->owner[alternative];
    return alternative -
           (uint32_t)page->library->sequence[owner].alternatives.begin;
}

/* A link to a cause. */
static void put_cause_link(const struct page *page, const struct cause *cause)
{
    text_format(page->text, "<a href=\"#a%u\">", cause->alternative);
    put_alternative(page->text, page->loaded,
                    page->findings->owner[cause->alternative],
                    number_of(page, cause->alternative));
    text_put(page->text, "</a>");
}

/* Whether two findings of a card have the same verb and the same cause of a run
 * where it does not, and whether they have both causes in common. */
static int same_does_not(const struct finding *one, const struct finding *other)
{
    return one->verb == other->verb &&
           one->does_not.alternative == other->does_not.alternative;
}

static int same_causes(const struct finding *one, const struct finding *other)
{
    return same_does_not(one, other) &&
           one->does.alternative == other->does.alternative;
}

/* The first finding from `begin` on that is the same as one by a test. */
static const struct finding *first_same(
    const struct finding *begin, const struct finding *finding,
    int (*same)(const struct finding *, const struct finding *))
{
    while (!same(begin, finding))
        begin++;
    return begin;
}

/* The facts that have their causes in common, and what causes a run where it
 * does. */
static void put_facts_by(const struct page *page, const struct finding *finding,
                         const struct finding *end)
{
    const struct finding *other;
    struct list list = {0};
    for (other = finding; other < end; other++)
        if (same_causes(other, finding) && list_next(page, &list))
            text_format(page->text, "<b class=\"s\">%s</b>",
                        page->library->fact[other->fact].name);
    list_end(page, &list, "", "facts");
    text_put(page->text, " by ");
    put_cause_link(page, &finding->does);
}

/* The findings that have a verb and the cause of a run where it does not in
 * common, by the cause of a run where it does. */
static void put_group(const struct page *page, const struct finding *begin,
                      const struct finding *end)
{
    const struct finding *finding;
    size_t groups = 0, left = 0;
    text_format(page->text, "<li>sometimes %s, and not by ",
                verb_rules[begin->verb].does);
    put_cause_link(page, &begin->does_not);
    for (finding = begin; finding < end; finding++) {
        if (!same_does_not(finding, begin))
            continue;
        left++;
        if (first_same(begin, finding, same_causes) < finding ||
            groups >= page->setting.groups)
            continue;
        text_put(page->text, groups++ == 0 ? ": " : "; ");
        put_facts_by(page, finding, end);
    }
    if (groups >= page->setting.groups)
        text_format(page->text, "%s %zu facts in all",
                    groups == 0 ? ":" : "; ..", left);
    text_put(page->text, "</li>\n");
}

/* The findings of a card by their causes. */
static void put_groups(const struct page *page, const struct finding *begin,
                       const struct finding *end)
{
    const struct finding *finding;
    size_t groups = 0;
    text_put(page->text, "<ul>\n");
    for (finding = begin; finding < end; finding++)
        if (first_same(begin, finding, same_does_not) == finding &&
            (groups++ < page->setting.groups || groups == 1))
            put_group(page, finding, end);
    if (groups > page->setting.groups && groups > 1)
        text_format(page->text, "<li>.. %zu causes in all</li>\n", groups);
    text_put(page->text, "</ul>\n");
}

static void put_card(const struct page *page, size_t sequence,
                     const struct finding *begin, const struct finding *end)
{
    const struct named *named = &page->library->sequence[sequence].named;
    text_format(page->text,
                "<div class=\"c\" id=\"q%zu\"><h3>%s <span>sequence %zu",
                sequence, named->name, sequence);
    if (page->library->facts <= 64) {
        text_put(page->text, " · card <code>");
        put_numbers(page->text, page->loaded, sequence, " ");
        text_put(page->text, "</code>");
    }
    text_put(page->text, "</span></h3>\n");
    put_note(page->text, "<p class=\"quiet\">", named->note, "</p>\n");
    if (!dulimoven_has_run(card_of(page->loaded, sequence))) {
        text_put(page->text, "<p>It has <b>no run</b>: ");
        put_endless(page->text, page->loaded, (uint32_t)sequence);
        text_put(page->text, ".</p></div>\n");
        return;
    }
    put_always(page, sequence, VERB_NEEDS, "<p>On <b>every run</b> it needs ",
               "; ");
    put_always(page, sequence, VERB_SETS, "leaves set ", "; ");
    put_always(page, sequence, VERB_CLEARS, "leaves cleared ", ". ");
    put_always(page, sequence, VERB_STANDS,
               "Standing after every run that executes: ", ".</p>\n");
    if (begin == end) {
        text_put(page->text, "</div>\n");
        return;
    }
    if (shows_reasons(page->findings))
        put_findings(page, begin, end);
    else
        put_groups(page, begin, end);
    text_put(page->text, "</div>\n");
}

static void put_cards(const struct page *page)
{
    const struct finding *begin = page->findings->finding, *end;
    const struct finding *last = begin + page->findings->count;
    size_t sequence;
    text_put(page->text, "<h2>Cards</h2>\n");
    for (sequence = 0; sequence < page->library->sequences; sequence++) {
        for (end = begin; end < last && end->sequence == sequence;)
            end++;
        put_card(page, sequence, begin, end);
        begin = end;
    }
}

/* ---- causes */

/* What an alternative does by itself with the facts of some effects, and in
 * which sequences that shows. */
static void put_effects(const struct page *page, const struct effect *begin,
                        const struct effect *end)
{
    struct list facts = {0}, sequences = {0};
    char seen[DULIMOVEN_MOST_SEQUENCES] = {0};
    const struct effect *effect;
    struct line line;
    size_t sequence;
    line.kind = begin->cause.kind;
    line.sequence = page->findings->owner[begin->cause.alternative];
    line.alternative = number_of(page, begin->cause.alternative);
    line.position = begin->cause.position;
    text_put(page->text, "<li>");
    put_deed(page->text, page->loaded, begin->cause.outcome, &line);
    for (effect = begin; effect < end; effect++) {
        seen[effect->sequence] = 1;
        if ((effect == begin || effect->fact != effect[-1].fact) &&
            list_next(page, &facts))
            text_put(page->text, page->library->fact[effect->fact].name);
    }
    list_end(page, &facts, "", "facts");
    text_put(page->text, "; it shows in ");
    for (sequence = 0; sequence < page->library->sequences; sequence++)
        if (seen[sequence] && list_next(page, &sequences))
            put_sequence(page, sequence);
    list_end(page, &sequences, "", "sequences");
    text_put(page->text, "</li>\n");
}

/* An alternative, and what it is the cause of. Answers where the effects of the
 * next one begin. */
static const struct effect *put_cause(const struct page *page,
                                      const struct effect *begin,
                                      const struct effect *last)
{
    uint32_t alternative = begin->cause.alternative;
    const struct range *entries =
        &page->library->alternative[alternative].entries;
    const struct effect *end;
    text_format(page->text, "<div class=\"c\" id=\"a%u\"><h3>", alternative);
    put_alternative(page->text, page->loaded,
                    page->findings->owner[alternative],
                    number_of(page, alternative));
    text_format(page->text, "%s</h3><ul>\n",
                entries->begin == entries->end ? ", which is empty" : "");
    while (begin < last && begin->cause.alternative == alternative) {
        for (end = begin;
             end < last && same_cause(&end->cause, &begin->cause);)
            end++;
        put_effects(page, begin, end);
        begin = end;
    }
    text_put(page->text, "</ul></div>\n");
    return begin;
}

static void put_causes(const struct page *page)
{
    const struct effect *effect = page->findings->effect;
    const struct effect *last = effect + 2 * page->findings->count;
    if (shows_reasons(page->findings))
        return;
    text_put(page->text,
             "<h2>Alternatives that cause this</h2>\n"
             "<p>Behind each \"some runs only\" stand two alternatives: one by "
             "which a run does it, and one by which a run does not. Here is "
             "what each of them does by itself, and in the cards of which "
             "sequences that shows.</p>\n");
    while (effect < last)
        effect = put_cause(page, effect, last);
}

/* ---- facts, and what has no run */

/* The steps that need, set or clear a fact. */
static void put_users(const struct page *page, size_t fact, uint32_t kind)
{
    struct list list = {0};
    size_t step, i;
    text_put(page->text, "<td>");
    for (step = 0; step < page->library->steps; step++) {
        const struct range *uses = &page->library->step[step].uses;
        for (i = uses->begin; i < uses->end; i++)
            if (page->library->use[i].kind == kind &&
                page->library->use[i].fact == fact && list_next(page, &list))
                text_put(page->text, page->library->step[step].named.name);
    }
    list_end(page, &list, "", "steps");
    text_put(page->text, "</td>");
}

/* The sequences that check a fact. */
static void put_checkers(const struct page *page, size_t fact)
{
    struct list list = {0};
    size_t sequence, i, j;
    text_put(page->text, "<td>");
    for (sequence = 0; sequence < page->library->sequences; sequence++) {
        const struct range *own = &page->library->sequence[sequence]
                                       .alternatives;
        int checks = 0;
        for (i = own->begin; i < own->end; i++) {
            const struct range *entries =
                &page->library->alternative[i].entries;
            for (j = entries->begin; j < entries->end; j++)
                checks |= page->library->entry[j].kind ==
                              DULIMOVEN_KIND_CHECK &&
                          page->library->entry[j].number == fact;
        }
        if (checks && list_next(page, &list))
            put_sequence(page, sequence);
    }
    list_end(page, &list, "", "sequences");
    text_put(page->text, "</td>");
}

static void put_facts(const struct page *page)
{
    size_t fact;
    text_put(page->text,
             "<h2>Facts</h2>\n<table><thead><tr><th>Number</th><th>Name</th>"
             "<th>Meaning</th><th>Set by step</th><th>Cleared by</th>"
             "<th>Needed by</th><th>Checked in</th></tr></thead>\n<tbody>\n");
    for (fact = 0; fact < page->library->facts; fact++) {
        const struct named *named = &page->library->fact[fact];
        text_format(page->text, "<tr><td>%zu</td><td>%s</td><td>", fact,
                    named->name);
        put_note(page->text, "", named->note, "");
        text_put(page->text, "</td>");
        put_users(page, fact, DULIMOVEN_KIND_SETS);
        put_users(page, fact, DULIMOVEN_KIND_CLEARS);
        put_users(page, fact, DULIMOVEN_KIND_NEEDS);
        put_checkers(page, fact);
        text_put(page->text, "</tr>\n");
    }
    text_put(page->text, "</tbody></table>\n");
}

static void put_without_run(const struct page *page)
{
    struct list list = {0};
    size_t sequence;
    text_put(page->text, "<h2>Sequences without a run</h2>\n<p>");
    for (sequence = 0; sequence < page->library->sequences; sequence++)
        if (!dulimoven_has_run(card_of(page->loaded, sequence)) &&
            list_next(page, &list))
            put_sequence(page, sequence);
    list_end(page, &list, "None: every sequence has a run.", "sequences");
    text_put(page->text, "</p>\n");
}

static void put_page(const struct page *page)
{
    put_head(page);
    put_matrix(page);
    put_claims(page);
    put_cards(page);
    put_causes(page);
    put_facts(page);
    put_without_run(page);
    text_put(page->text, "</body>\n</html>\n");
}

void write_page(struct text *text, const struct findings *findings)
{
    struct page page;
    int i;
    page.text = text;
    page.findings = findings;
    page.loaded = findings->loaded;
    page.library = &findings->loaded->library;
    for (i = 0; i < SETTINGS; i++) {
        page.setting = settings[i];
        text_clear(text);
        put_page(&page);
        if (text->length < MOST_PAGE)
            return;
    }
}
