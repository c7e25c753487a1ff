/* "A book is sound when": one pass over the rows, then one over the accounts. */
#include <string.h>

#include "model_book.h"

#define MOST_SLOTS ((size_t)2 * TOLL_LEDGER_MOST_ROWS)

/* What the rows of one account come to. */
struct sums {
    int64_t used, unused;             /* of its sources */
    int64_t settled, unsettled, held; /* of its debits; held: what is unsettled of held ones */
    int64_t returned;                 /* returned checks */
};

struct check {
    const struct row *rows;
    size_t used, count; /* rows, accounts */
    int64_t today, length;
    int slot_bits;                       /* slots: a power of two, at least twice the rows used */
    struct sums sums[TOLL_LEDGER_MOST_ACCOUNTS];
    uint8_t fees[TOLL_LEDGER_MOST_ROWS]; /* how many fees name each row */
    uint32_t passages[MOST_SLOTS];       /* a hash set: 0, or a passage number */
};

bool lengths_fit(size_t header_words, size_t accounts_words, size_t journal_words)
{
    const size_t count = accounts_words / TOLL_LEDGER_ACCOUNT_WORDS;
    const size_t room = journal_words / TOLL_LEDGER_ROW_WORDS;
    return header_words == TOLL_LEDGER_HEADER_WORDS &&
           accounts_words % TOLL_LEDGER_ACCOUNT_WORDS == 0 && count >= 1 &&
           count <= TOLL_LEDGER_MOST_ACCOUNTS && journal_words % TOLL_LEDGER_ROW_WORDS == 0 &&
           room >= 1 && room <= TOLL_LEDGER_MOST_ROWS;
}

bool rates_fit(const int64_t *rates)
{
    for (int i = 0; i < RATES; i++)
        if (!within(1, rates[i], MOST_AMOUNT))
            return false;
    return true;
}

bool schedule_fits(int64_t day, const int64_t *schedule)
{
    if (!within(1, day, TOLL_LEDGER_DAYS) || !within(1, schedule[0], MOST_STAGE_DAYS))
        return false;
    for (int i = 1; i < 1 + FEES; i++)
        if (!within(0, schedule[i], MOST_FEE))
            return false;
    return rates_fit(schedule + 1 + FEES);
}

/* "At most 400 holidays, strictly rising, each 1 to 36,525." */
bool holidays_fit(const int64_t *holidays, size_t count)
{
    if (count > TOLL_LEDGER_MOST_HOLIDAYS)
        return false;
    for (size_t i = 0; i < count; i++)
        if (!within(1, holidays[i], TOLL_LEDGER_DAYS) || (i > 0 && holidays[i] <= holidays[i - 1]))
            return false;
    return true;
}

static bool all_zero(const void *from, const void *end)
{
    int64_t any = 0;
    for (const int64_t *word = from; word < (const int64_t *)end; word++)
        any |= *word;
    return any == 0;
}

/* "A sound book has its lists in strictly rising order of day"; "unused ones last and all 0". */
static bool lists_fit(const struct header *h)
{
    const struct rate_list *list = h->later, *end = h->later + LATER_LISTS;
    int64_t before = h->first_day;
    if (!within(1, before, TOLL_LEDGER_DAYS))
        return false;
    for (; list < end && list->first_day != 0; before = list++->first_day)
        if (!within(before + 1, list->first_day, TOLL_LEDGER_DAYS) || !rates_fit(list->rates))
            return false;
    return all_zero(list, end);
}

/* "Passage numbers differ": puts the number into the set, false where it is there. */
static inline bool new_passage(struct check *c, uint32_t passage)
{
    const uint32_t last = (UINT32_C(1) << c->slot_bits) - 1;
    uint32_t slot = passage * UINT32_C(2654435769) >> (32 - c->slot_bits);
    for (; c->passages[slot] != 0; slot = (slot + 1) & last)
        if (c->passages[slot] == passage)
            return false;
    c->passages[slot] = passage;
    return true;
}

/* The due day and the hold of a toll, of which so much is unsettled. */
static inline bool days_fit(const struct check *c, const struct row *r, int64_t left)
{
    if (!within(1, r->due, c->today + c->length))
        return false;
    if (r->dispute == TOLL_LEDGER_DISPUTE_HELD)
        return r->hold >= 1 && within(c->today - HOLD_DAYS + 1, r->hold, c->today) && left > 0 &&
               r->due <= r->hold + c->length && (r->mark == LAST_STAGE || r->due > r->hold);
    return r->hold == 0 && (r->due > c->today || left == 0 || r->mark == LAST_STAGE);
}

static inline void add_source(struct sums *s, const struct row *r)
{
    s->used += r->settled;
    s->unused += left_of(r);
}

static inline void add_debit(struct sums *s, const struct row *r)
{
    s->settled += r->settled;
    s->unsettled += left_of(r);
}

static inline bool toll_fits(struct check *c, const struct row *r, struct sums *s)
{
    if (!within(1, r->amount, MOST_AMOUNT) || !within(0, r->settled, r->amount) ||
        !within(0, r->mark, LAST_STAGE) || !within(0, r->dispute, TOLL_LEDGER_DISPUTE_UPHELD) ||
        !within(1, r->reference, MOST_PASSAGE) || !days_fit(c, r, left_of(r)) ||
        !new_passage(c, (uint32_t)r->reference))
        return false;
    add_debit(s, r);
    if (r->dispute == TOLL_LEDGER_DISPUTE_HELD)
        s->held += left_of(r);
    return true;
}

static inline bool no_toll_words(const struct row *r)
{
    return (r->due | r->dispute | r->hold) == 0;
}

static inline bool payment_fits(const struct row *r, struct sums *s)
{
    if (!within(1, r->amount, MOST_AMOUNT) || !within(0, r->settled, r->amount) ||
        !within(TOLL_LEDGER_METHOD_CARD, r->mark, TOLL_LEDGER_METHOD_CHECK_RETURNED) ||
        !no_toll_words(r) || r->reference != 0)
        return false;
    add_source(s, r);
    s->returned += r->mark == TOLL_LEDGER_METHOD_CHECK_RETURNED;
    return true;
}

/* The earlier row of the same account that row r names, or NULL. */
static const struct row *named_by(const struct check *c, const struct row *r)
{
    if (!within(1, r->reference, r - c->rows))
        return NULL;
    const struct row *named = &c->rows[r->reference - 1];
    return named->account == r->account ? named : NULL;
}

static bool fee_fits(struct check *c, const struct row *r, struct sums *s)
{
    const struct row *named = named_by(c, r);
    if (named == NULL || r->amount > MOST_FEE)
        return false;
    add_debit(s, r);
    if (named->kind == TOLL_LEDGER_KIND_PAYMENT)
        return true;
    if (is_held_toll(named))
        s->held += left_of(r);
    return named->kind == TOLL_LEDGER_KIND_TOLL && ++c->fees[r->reference - 1] < named->mark;
}

static bool reversal_fits(const struct check *c, const struct row *r, struct sums *s)
{
    const struct row *named = named_by(c, r);
    if (named == NULL || named->kind != TOLL_LEDGER_KIND_PAYMENT || r->amount > MOST_AMOUNT)
        return false;
    add_debit(s, r);
    return true;
}

static bool credit_fits(const struct check *c, const struct row *r, struct sums *s)
{
    const struct row *named = named_by(c, r);
    if (named == NULL || named->kind != TOLL_LEDGER_KIND_TOLL || r->amount > MOST_CREDIT)
        return false;
    add_source(s, r);
    return true;
}

static bool refund_fits(const struct row *r, struct sums *s)
{
    if (r->amount > MOST_REFUND || left_of(r) > 0 || r->reference != 0)
        return false;
    add_debit(s, r);
    return true;
}

/* A row of kind 2, 3, 5 or 6. */
static inline bool other_fits(struct check *c, const struct row *r, struct sums *s)
{
    if (r->amount < 1 || !within(0, r->settled, r->amount) || r->mark != 0 || !no_toll_words(r))
        return false;
    switch (r->kind) {
    case TOLL_LEDGER_KIND_FEE:
        return fee_fits(c, r, s);
    case TOLL_LEDGER_KIND_REVERSAL:
        return reversal_fits(c, r, s);
    case TOLL_LEDGER_KIND_CREDIT:
        return credit_fits(c, r, s);
    case TOLL_LEDGER_KIND_REFUND:
        return refund_fits(r, s);
    default:
        return false;
    }
}

static inline bool row_fits(struct check *c, const struct row *r)
{
    if (!within(1, r->account, (int64_t)c->count) || !within(1, r->day, c->today))
        return false;
    struct sums *s = &c->sums[r->account - 1];
    if (r->kind == TOLL_LEDGER_KIND_TOLL)
        return toll_fits(c, r, s);
    if (r->kind == TOLL_LEDGER_KIND_PAYMENT)
        return payment_fits(r, s);
    return other_fits(c, r, s);
}

/* "Request day is 0 in state 1, in 2 and 3 from 1 to today"; an unused account is all 0. */
static bool state_fits(const struct account *x, int64_t today)
{
    switch (x->state) {
    case TOLL_LEDGER_STATE_UNUSED:
        return (x->request_day | x->returned | x->threshold | x->topup | x->declines |
                x->last_decline | x->reserve | x->successor) == 0;
    case TOLL_LEDGER_STATE_OPEN:
        return x->request_day == 0;
    case TOLL_LEDGER_STATE_PENDING:
    case TOLL_LEDGER_STATE_CLOSED:
        return within(1, x->request_day, today);
    default:
        return false;
    }
}

static bool topup_fits(const struct account *x, int64_t today)
{
    return within(0, x->threshold, MOST_AMOUNT) && within(0, x->topup, MOST_AMOUNT) &&
           within(0, x->declines, LAST_DECLINE - 1) && within(0, x->last_decline, today) &&
           (x->declines == 0) == (x->last_decline == 0) && within(0, x->reserve, RESERVE_ADDED) &&
           (x->topup != 0 || (x->threshold == 0 && x->declines == 0 && x->reserve == 0));
}

/* "The account's new word is 0 or another used account's number." */
static bool successor_fits(const struct book *b, const struct account *x)
{
    const struct account *s = account_of(b, x->successor);
    return x->successor == 0 || (s != NULL && s != x && s->state != TOLL_LEDGER_STATE_UNUSED);
}

/* "Used sources = settled debits, no unused source beside an unsettled unheld debit, and in state 3
 * nothing unused or unsettled." An unused account has no rows, since each row has an amount. */
static inline bool sums_fit(const struct account *x, const struct sums *s)
{
    return x->returned == s->returned && s->used == s->settled &&
           (s->unused == 0 || s->unsettled == s->held) &&
           (x->state != TOLL_LEDGER_STATE_CLOSED || (s->unused | s->unsettled) == 0) &&
           (x->state != TOLL_LEDGER_STATE_UNUSED || (s->settled | s->unused | s->unsettled) == 0);
}

static inline bool rows_fit(struct check *c)
{
    for (const struct row *r = c->rows, *end = r + c->used; r < end; r++)
        if (!row_fits(c, r))
            return false;
    return true;
}

static bool accounts_fit(const struct book *b, const struct sums *sums)
{
    for (size_t i = 0; i < b->count; i++) {
        const struct account *x = &b->accounts[i];
        if (!state_fits(x, b->header->day) || !topup_fits(x, b->header->day) ||
            !successor_fits(b, x) || !sums_fit(x, &sums[i]))
            return false;
    }
    return true;
}

bool is_sound(const struct book *b)
{
    const struct header *h = b->header;
    if (!schedule_fits(h->day, &h->length) || !lists_fit(h) ||
        !holidays_fit(b->holidays, b->holiday_count) ||
        !within(0, h->used, (int64_t)b->room) ||
        !all_zero(b->rows + h->used, b->rows + b->room)) /* "later rows are all 0" */
        return false;
    struct check c;
    c.rows = b->rows;
    c.used = rows_used(b);
    c.count = b->count;
    c.today = h->day;
    c.length = h->length;
    c.slot_bits = 1;
    while ((size_t)1 << c.slot_bits < 2 * c.used)
        c.slot_bits++;
    memset(c.passages, 0, ((size_t)1 << c.slot_bits) * sizeof c.passages[0]);
    memset(c.fees, 0, c.used * sizeof c.fees[0]);
    memset(c.sums, 0, b->count * sizeof c.sums[0]);
    return rows_fit(&c) && accounts_fit(b, c.sums);
}
