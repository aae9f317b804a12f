/*
 * The report: one self-contained page for the readers of the cards, and the
 * same content as JSON (docs/TEXT.md has its fields).
 */
#ifndef DLM_REPORT_H
#define DLM_REPORT_H

#include "findings.h"

/*
 * Writes the page: a matrix of sequences and facts, the cards with a reason for
 * each "some runs only", the facts, and the sequences without a run. Of a large
 * library the reasons are grouped by their causes, and the page stays under
 * MOST_PAGE bytes.
 */
enum { MOST_PAGE = 2000000 };
void write_page(struct text *page, const struct findings *findings);

void write_json(struct text *data, const struct findings *findings);

/* Whether the reasons are shown in full, and not by their causes alone. */
int shows_reasons(const struct findings *findings);

/* The numbers of a card as the printing program has them. */
void put_numbers(struct text *text, const struct loaded *loaded,
                 size_t sequence, const char *between);

#endif
