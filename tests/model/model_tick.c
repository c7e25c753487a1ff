/* Event 9, the day tick: one pass plans it, so that a refusal leaves the book unchanged. */
#include <stddef.h>
#include <string.h>

#include "model_book.h"

#define NUMBERS (TOLL_LEDGER_MOST_ACCOUNTS + 1) /* of accounts, with 0 */

struct plan {
    int64_t today;    /* the new day */
    bool is_business; /* accounts may close */
    int64_t unused[NUMBERS], unsettled[NUMBERS];
    bool stays_held[NUMBERS]; /* the account has a toll whose hold goes on */
    bool closes[NUMBERS];
    bool freed[NUMBERS];   /* a hold of the account's tolls ends, and it has unused money */
    size_t ending, rising; /* holds that end, tolls that rise: so many rows, from 0, stand below */
    size_t fees, refunds;  /* rows that the tick adds */
    bool over_ceiling;
    uint16_t ending_rows[TOLL_LEDGER_MOST_ROWS], rising_rows[TOLL_LEDGER_MOST_ROWS]; /* not cleared */
};

static bool hold_ends(const struct row *r, int64_t today)
{
    return is_held_toll(r) && r->hold + HOLD_DAYS == today;
}

/* "Each unheld unsettled toll under stage 4 due today." */
static bool rises(const struct row *r, int64_t today)
{
    return r->kind == TOLL_LEDGER_KIND_TOLL && r->due == today &&
           r->dispute != TOLL_LEDGER_DISPUTE_HELD && r->mark < LAST_STAGE && left_of(r) > 0;
}

/* The fee of a stage, 0 below the first that has one. */
static int64_t fee_of_stage(const struct book *b, int64_t stage)
{
    return stage < FIRST_FEE_STAGE ? 0 : b->header->fees[stage - FIRST_FEE_STAGE];
}

/* "Days other than Saturday, Sunday and listed ones; day 1 is a Saturday." */
static bool is_business_day(const struct book *b, int64_t day)
{
    enum { SATURDAY, SUNDAY };
    const int64_t weekday = (day - 1) % WEEK_DAYS;
    if (weekday == SATURDAY || weekday == SUNDAY)
        return false;
    for (size_t i = 0; i < b->holiday_count; i++)
        if (b->holidays[i] == day)
            return false;
    return true;
}

/* A toll that the tick frees is due after today, and an account with a rising toll has no unused
 * money: what rises can be told before holds end and settlement runs. Of a row of which nothing is left
 * nothing is planned. */
static void plan_row(const struct book *b, struct plan *p, size_t i)
{
    const struct row *r = &b->rows[i];
    if (left_of(r) == 0)
        return;
    if (is_source(r)) {
        p->unused[r->account] += left_of(r);
        return;
    }
    p->unsettled[r->account] += left_of(r);
    if (hold_ends(r, p->today))
        p->ending_rows[p->ending++] = (uint16_t)i;
    else if (is_held_toll(r))
        p->stays_held[r->account] = true;
    else if (rises(r, p->today)) {
        p->rising_rows[p->rising++] = (uint16_t)i;
        p->fees += fee_of_stage(b, r->mark + 1) > 0;
    }
}

/* "Closes on the first business day that is at least request + 15 and finds no unsettled debit", held
 * ones counted: once holds have ended and settlement has run, money covers all that is unsettled. */
static void plan_account(const struct book *b, struct plan *p, size_t n)
{
    const struct account *x = &b->accounts[n - 1];
    if (x->state != TOLL_LEDGER_STATE_PENDING || !p->is_business ||
        p->today < x->request_day + CLOSING_DAYS || p->stays_held[n] ||
        p->unsettled[n] > p->unused[n])
        return;
    p->closes[n] = true;
    p->refunds += p->unused[n] > p->unsettled[n];
    p->over_ceiling |= p->unused[n] - p->unsettled[n] > MOST_REFUND;
}

static void plan_tick(struct plan *p, const struct book *b)
{
    const size_t used = rows_used(b);
    memset(p, 0, offsetof(struct plan, ending_rows));
    p->today = b->header->day + 1;
    p->is_business = is_business_day(b, p->today);
    for (size_t i = 0; i < used; i++)
        plan_row(b, p, i);
    for (size_t n = 1; n <= b->count; n++)
        plan_account(b, p, n);
}

/* "Holds begun 30 days ago end as by verdict 0." Of a sound book's accounts settlement concerns but those
 * that a hold's end leaves with unused money beside a debit. */
static void end_holds(const struct book *b, struct plan *p)
{
    for (size_t i = 0; i < p->ending; i++) {
        struct row *r = &b->rows[p->ending_rows[i]];
        r->dispute = TOLL_LEDGER_DISPUTE_ENDED;
        r->due += p->today - r->hold;
        r->hold = 0;
        p->freed[r->account] = p->unused[r->account] > 0;
    }
    for (size_t n = 1; p->ending > 0 && n <= b->count; n++)
        if (p->freed[n])
            settle(b, (int64_t)n, 0, 0);
}

/* "In row order, rises a stage, its due day by L, and from stage 2 a nonzero fee row naming it is
 * added." */
static void raise_tolls(const struct book *b, const struct plan *p)
{
    for (size_t i = 0; i < p->rising; i++) {
        struct row *r = &b->rows[p->rising_rows[i]];
        r->mark++;
        r->due += b->header->length;
        const int64_t fee = fee_of_stage(b, r->mark);
        if (fee > 0)
            add_row(b, (struct row){.kind = TOLL_LEDGER_KIND_FEE,
                                    .account = r->account,
                                    .amount = fee,
                                    .reference = p->rising_rows[i] + 1});
    }
}

/* "Closes, any unused money leaving as one refund row." */
static void close_account(const struct book *b, const struct plan *p, size_t n)
{
    const int64_t refund = p->unused[n] - p->unsettled[n];
    b->accounts[n - 1].state = TOLL_LEDGER_STATE_CLOSED;
    if (refund > 0)
        add_row(b, (struct row){.kind = TOLL_LEDGER_KIND_REFUND,
                                .account = (int64_t)n,
                                .amount = refund,
                                .settled = refund});
}

static void close_accounts(const struct book *b, const struct plan *p)
{
    const size_t used = p->refunds > 0 ? rows_used(b) : 0;
    for (size_t i = 0; i < used; i++)
        if (is_source(&b->rows[i]) && p->closes[b->rows[i].account])
            b->rows[i].settled = b->rows[i].amount;
    for (size_t n = 1; n <= b->count; n++)
        if (p->closes[n])
            close_account(b, p, n);
}

struct answer tick(const struct book *b)
{
    if (b->header->day == TOLL_LEDGER_DAYS)
        return refused(TOLL_LEDGER_LAST_DAY);
    struct plan p;
    plan_tick(&p, b);
    if (!has_room(b, p.fees + p.refunds))
        return refused(TOLL_LEDGER_FULL);
    if (p.over_ceiling)
        return refused(TOLL_LEDGER_CEILING);
    const int64_t before = b->header->used;
    b->header->day = p.today;
    end_holds(b, &p);
    raise_tolls(b, &p);
    close_accounts(b, &p);
    struct answer answer = posted(b, before);
    answer.raised = (int64_t)p.rising;
    return answer;
}
