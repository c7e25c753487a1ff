/* Events 1 to 8 and 10 to 12, and settlement. */
#include "model_book.h"

int64_t balance_of(const struct book *b, int64_t account)
{
    const size_t used = rows_used(b);
    int64_t balance = 0;
    for (size_t i = 0; i < used; i++) {
        const struct row *r = &b->rows[i];
        if (r->account == account)
            balance += is_source(r) ? r->amount : -r->amount;
    }
    return balance;
}

/* "The balance plus the unsettled part of held tolls and their fees." */
static int64_t balance_and_held(const struct book *b, int64_t account)
{
    const size_t used = rows_used(b);
    int64_t sum = 0;
    for (size_t i = 0; i < used; i++) {
        const struct row *r = &b->rows[i];
        if (r->account != account)
            continue;
        sum += is_source(r) ? r->amount : -r->amount;
        if (is_held(b, r))
            sum += left_of(r);
    }
    return sum;
}

/* "Due when open, amount above 0, last decline not today", and not low through held debts alone. */
bool is_topup_due(const struct book *b, int64_t account)
{
    const struct account *x = &b->accounts[account - 1];
    return x->state == TOLL_LEDGER_STATE_OPEN && x->topup > 0 &&
           x->last_decline != b->header->day && balance_and_held(b, account) <= x->threshold;
}

/* "The unsettled part of unheld tolls and fees of the account, in row order, and stop as soon as the
 * sum exceeds 25,000." */
struct debtor debtor_of(const struct book *b, int64_t account)
{
    struct debtor d = {0};
    while (d.rows < b->header->used && d.debt <= TOLL_LEDGER_HEAVY_DEBT) {
        const struct row *r = &b->rows[d.rows++];
        if (r->account != account)
            continue;
        const bool counts = r->kind == TOLL_LEDGER_KIND_TOLL || r->kind == TOLL_LEDGER_KIND_FEE;
        if (counts && !is_held(b, r))
            d.debt += left_of(r);
    }
    return d;
}

/* The account's first unused source from row i on, counted from 0; the rows used where none is. */
static size_t next_source(const struct book *b, int64_t account, size_t i)
{
    const size_t used = rows_used(b);
    while (i < used && !(b->rows[i].account == account && is_source(&b->rows[i]) &&
                         left_of(&b->rows[i]) > 0))
        i++;
    return i;
}

/* Pays a debit from the account's unused sources from row s on; gives the first that has something
 * left. */
static size_t pay(const struct book *b, struct row *debit, size_t s)
{
    const size_t used = rows_used(b);
    while (s < used && left_of(debit) > 0) {
        struct row *source = &b->rows[s];
        const int64_t part = lesser(left_of(source), left_of(debit));
        source->settled += part;
        debit->settled += part;
        if (left_of(source) == 0)
            s = next_source(b, debit->account, s + 1);
    }
    return s;
}

/* "Pays the account's unheld tolls in row order, then unheld fees and reversals in row order", from
 * "unused sources in row order", "until either side is spent": debits from row d on, sources from row s
 * on. A sound book has no unused source beside an unsettled unheld debit, so an event that adds a row
 * settles from there on its side. */
void settle(const struct book *b, int64_t account, size_t d, size_t s)
{
    const size_t used = rows_used(b);
    size_t others = used; /* the first fee or reversal that may be paid */
    for (s = next_source(b, account, s); s < used && d < used; d++) {
        struct row *r = &b->rows[d];
        if (r->account != account || !is_payable(b, r))
            continue;
        if (r->kind == TOLL_LEDGER_KIND_TOLL)
            s = pay(b, r, s);
        else if (others == used)
            others = d;
    }
    for (d = others; s < used && d < used; d++)
        if (b->rows[d].account == account && is_payable(b, &b->rows[d]))
            s = pay(b, &b->rows[d], s);
}

/* The rate list that event 10 brings. */
static struct rate_list list_in(const event *e)
{
    return (struct rate_list){.first_day = e->a, .rates = {e->b, e->c, e->d, e->e, e->f, e->g}};
}

/* "Words not named are 0, else the event is malformed." */
static bool is_well_formed(const event *e)
{
    const bool toll_form = e->f == 0 && e->g == 0; /* names a to e at most */
    const bool short_form = toll_form && e->c == 0 && e->d == 0 && e->e == 0; /* a and b at most */
    switch (e->kind) {
    case TOLL_LEDGER_EVENT_OPEN:
        return within(0, e->a, MOST_AMOUNT) && within(0, e->b, MOST_AMOUNT) &&
               (e->b != 0 || e->a == 0) && short_form;
    case TOLL_LEDGER_EVENT_TOLL:
        return within(1, e->a, MOST_PASSAGE) && within(1, e->b, TOLL_LEDGER_DAYS) &&
               within(1, e->c, MOST_AXLES) && within(0, e->d, MOST_HEIGHT) &&
               within(TOLL_LEDGER_MODE_TAG, e->e, TOLL_LEDGER_MODE_PLATE) && toll_form;
    case TOLL_LEDGER_EVENT_PAYMENT:
        return within(1, e->a, MOST_AMOUNT) &&
               within(TOLL_LEDGER_METHOD_CARD, e->b, TOLL_LEDGER_METHOD_CHECK) && short_form;
    case TOLL_LEDGER_EVENT_RETURNED_CHECK:
        return within(0, e->b, MOST_BANK_CHARGE) && short_form;
    case TOLL_LEDGER_EVENT_DISPUTE:
        return e->b == 0 && short_form;
    case TOLL_LEDGER_EVENT_DECISION:
        return within(0, e->b, VERDICT_UPHELD) && short_form;
    case TOLL_LEDGER_EVENT_TOPUP_RESULT:
        return e->a == 0 && within(0, e->b, TOPUP_PAID) && short_form;
    case TOLL_LEDGER_EVENT_CLOSE_REQUEST:
        return e->a == 0 && e->b == 0 && short_form;
    case TOLL_LEDGER_EVENT_TICK:
        return e->account == 0 && e->a == 0 && e->b == 0 && short_form;
    case TOLL_LEDGER_EVENT_RATE_LIST:
        return e->account == 0 && within(1, e->a, TOLL_LEDGER_DAYS) && rates_fit(list_in(e).rates);
    case TOLL_LEDGER_EVENT_RESERVE:
        return within(0, e->a, RESERVE_ADDED) && e->b == 0 && short_form;
    case TOLL_LEDGER_EVENT_SUCCESSOR: /* a is looked up */
        return e->b == 0 && short_form;
    default:
        return false;
    }
}

static struct answer open_account(const struct book *b, struct account *x, const event *e)
{
    if (x->state != TOLL_LEDGER_STATE_UNUSED)
        return refused(TOLL_LEDGER_TAKEN);
    x->state = TOLL_LEDGER_STATE_OPEN;
    x->threshold = e->a;
    x->topup = e->b;
    return posted(b, b->header->used);
}

/* "1 for up to 2 axles and at most 90 inches; 2 for 2 axles above 90, for 3 and for 4 axles; 3 for 5
 * or more"; none for one axle above 90. */
static int64_t class_of(int64_t axles, int64_t height)
{
    if (axles >= LEAST_AXLES_3)
        return CLASS_3;
    if (axles >= LEAST_AXLES_2)
        return CLASS_2;
    if (height <= MOST_HEIGHT_1)
        return CLASS_1;
    return axles == TWO_AXLES ? CLASS_2 : NO_CLASS;
}

static bool has_passage(const struct book *b, int64_t passage)
{
    const size_t used = rows_used(b);
    for (size_t i = 0; i < used; i++)
        if (b->rows[i].reference == passage && b->rows[i].kind == TOLL_LEDGER_KIND_TOLL)
            return true;
    return false;
}

static int64_t toll_refusal(const struct book *b, const event *e)
{
    if (class_of(e->c, e->d) == NO_CLASS)
        return TOLL_LEDGER_UNCLASSED;
    if (!within(b->header->day - LATEST_PASSAGE_DAYS, e->b, b->header->day))
        return TOLL_LEDGER_MISDATED;
    if (has_passage(b, e->a))
        return TOLL_LEDGER_DUPLICATE;
    return has_room(b, 1) ? TOLL_LEDGER_POSTED : TOLL_LEDGER_FULL;
}

/* "The list in force on its passage day"; "the first list covers every earlier day". */
static int64_t rate_of(const struct header *h, const event *e)
{
    const int64_t *rates = h->rates;
    for (size_t i = 0; i < LATER_LISTS && within(1, h->later[i].first_day, e->b); i++)
        rates = h->later[i].rates;
    return rates[MODES * (class_of(e->c, e->d) - CLASS_1) + e->e - TOLL_LEDGER_MODE_TAG];
}

/* "A successor that is open or pending" of a closed account, and no further one; 0 where there is
 * none. */
static int64_t heir_of(const struct book *b, const struct account *x)
{
    const struct account *s = account_of(b, x->successor);
    const bool takes = s != NULL && (s->state == TOLL_LEDGER_STATE_OPEN || s->state == TOLL_LEDGER_STATE_PENDING);
    return x->state == TOLL_LEDGER_STATE_CLOSED && takes ? x->successor : 0;
}

/* "Row: rate, stage 0, due today + L", of the account named or of its successor. */
static struct answer post_toll(const struct book *b, int64_t account, const event *e)
{
    const struct header *h = b->header;
    const int64_t before = h->used, number = toll_refusal(b, e);
    if (number != TOLL_LEDGER_POSTED)
        return refused(number);
    add_row(b, (struct row){.kind = TOLL_LEDGER_KIND_TOLL,
                            .account = account,
                            .amount = rate_of(h, e),
                            .due = h->day + h->length,
                            .reference = e->a});
    settle(b, account, (size_t)before, 0);
    return posted(b, before);
}

static struct answer add_payment(const struct book *b, int64_t account, int64_t amount,
                                 int64_t method)
{
    const int64_t before = b->header->used;
    add_row(b, (struct row){.kind = TOLL_LEDGER_KIND_PAYMENT,
                            .account = account,
                            .amount = amount,
                            .mark = method});
    settle(b, account, 0, (size_t)before);
    return posted(b, before);
}

static struct answer post_payment(const struct book *b, const struct account *x, const event *e)
{
    if (e->b == TOLL_LEDGER_METHOD_CHECK && x->returned >= BARRING_RETURNS)
        return refused(TOLL_LEDGER_BARRED);
    if (!has_room(b, 1))
        return refused(TOLL_LEDGER_FULL);
    return add_payment(b, e->account, e->a, e->b);
}

/* The row that the event names, or NULL: "no such row, other kind or account". */
static struct row *row_named(const struct book *b, const event *e, int64_t kind)
{
    struct row *r = row_of(b, e->a);
    return r != NULL && r->kind == kind && r->account == e->account ? r : NULL;
}

/* "Adds a reversal of the amount, then a fee of charge + 500; mark becomes 4, the count rises; a
 * closed account becomes pending with its old request day." */
static struct answer return_check(const struct book *b, struct account *x, const event *e)
{
    struct row *payment = row_named(b, e, TOLL_LEDGER_KIND_PAYMENT);
    const int64_t before = b->header->used;
    if (payment == NULL)
        return refused(TOLL_LEDGER_NO_ROW);
    if (payment->mark != TOLL_LEDGER_METHOD_CHECK)
        return refused(TOLL_LEDGER_UNTIMELY);
    if (!has_room(b, RETURN_ROWS))
        return refused(TOLL_LEDGER_FULL);
    payment->mark = TOLL_LEDGER_METHOD_CHECK_RETURNED;
    x->returned++;
    if (x->state == TOLL_LEDGER_STATE_CLOSED)
        x->state = TOLL_LEDGER_STATE_PENDING;
    add_row(b, (struct row){.kind = TOLL_LEDGER_KIND_REVERSAL,
                            .account = e->account,
                            .amount = payment->amount,
                            .reference = e->a});
    add_row(b, (struct row){.kind = TOLL_LEDGER_KIND_FEE,
                            .account = e->account,
                            .amount = e->b + RETURN_FEE,
                            .reference = e->a});
    settle(b, e->account, (size_t)before, 0);
    return posted(b, before);
}

/* "Hold starts today." No money moves: what was unheld and is held was unsettled. */
static struct answer dispute(const struct book *b, const event *e)
{
    struct row *toll = row_named(b, e, TOLL_LEDGER_KIND_TOLL);
    if (toll == NULL)
        return refused(TOLL_LEDGER_NO_ROW);
    if (left_of(toll) == 0 || toll->dispute != TOLL_LEDGER_DISPUTE_NEVER)
        return refused(TOLL_LEDGER_UNTIMELY);
    toll->dispute = TOLL_LEDGER_DISPUTE_HELD;
    toll->hold = b->header->day;
    return posted(b, b->header->used);
}

/* "A credit of the toll plus all its fees settles what is unsettled of exactly these; the rest of
 * the credit is unused." */
static void uphold(const struct book *b, struct row *toll, int64_t number)
{
    int64_t amount = toll->amount, covered = left_of(toll);
    toll->settled = toll->amount;
    const size_t used = rows_used(b);
    for (size_t i = (size_t)number; i < used; i++) {
        struct row *r = &b->rows[i];
        if (r->reference == number && r->kind == TOLL_LEDGER_KIND_FEE) {
            amount += r->amount;
            covered += left_of(r);
            r->settled = r->amount;
        }
    }
    add_row(b, (struct row){.kind = TOLL_LEDGER_KIND_CREDIT,
                            .account = toll->account,
                            .amount = amount,
                            .settled = covered,
                            .reference = number});
}

/* "0: dispute 2, due moves by today - hold start. 1: dispute 3, and a credit." */
static struct answer decide(const struct book *b, const event *e)
{
    struct row *toll = row_named(b, e, TOLL_LEDGER_KIND_TOLL);
    const int64_t before = b->header->used;
    if (toll == NULL)
        return refused(TOLL_LEDGER_NO_ROW);
    if (toll->dispute != TOLL_LEDGER_DISPUTE_HELD)
        return refused(TOLL_LEDGER_UNTIMELY);
    if (e->b == VERDICT_UPHELD && !has_room(b, 1))
        return refused(TOLL_LEDGER_FULL);
    if (e->b == VERDICT_UPHELD)
        uphold(b, toll, e->a);
    else
        toll->due += b->header->day - toll->hold;
    toll->dispute = e->b == VERDICT_UPHELD ? TOLL_LEDGER_DISPUTE_UPHELD : TOLL_LEDGER_DISPUTE_ENDED;
    toll->hold = 0;
    settle(b, e->account, 0, 0);
    return posted(b, before);
}

/* "Declined: count up, last decline today; the third clears all four words"; "a reserve that is
 * declined removes both methods". */
static struct answer decline(const struct book *b, struct account *x)
{
    struct answer answer = posted(b, b->header->used);
    x->declines++;
    x->last_decline = b->header->day;
    if (x->declines == LAST_DECLINE) {
        x->threshold = x->topup = x->declines = x->last_decline = x->reserve = 0;
        answer.removed = 1;
    }
    return answer;
}

static struct answer topup_result(const struct book *b, struct account *x, const event *e)
{
    if (!is_topup_due(b, e->account))
        return refused(TOLL_LEDGER_UNTIMELY);
    if (e->b == TOPUP_DECLINED)
        return decline(b, x);
    if (!has_room(b, 1))
        return refused(TOLL_LEDGER_FULL);
    if (x->declines == LAST_DECLINE - 1) /* "the next result concerns the reserve" */
        x->reserve = 0;                  /* it takes the primary's place */
    x->declines = x->last_decline = 0;
    return add_payment(b, e->account, x->topup, TOLL_LEDGER_METHOD_CARD);
}

/* Without a primary 11; "16 for adding one that exists or removing one that doesn't". */
static struct answer change_reserve(const struct book *b, struct account *x, const event *e)
{
    if (x->topup == 0)
        return refused(TOLL_LEDGER_UNTIMELY);
    if (x->reserve == e->a)
        return refused(TOLL_LEDGER_RESERVE);
    x->reserve = e->a;
    return posted(b, b->header->used);
}

/* "Event 12 names, for a closed account, a successor"; "18 where the account isn't closed, or the
 * successor is itself, unused or outside the table". */
static struct answer name_successor(const struct book *b, struct account *x, const event *e)
{
    const struct account *s = account_of(b, e->a);
    if (x->state != TOLL_LEDGER_STATE_CLOSED || s == NULL || s == x ||
        s->state == TOLL_LEDGER_STATE_UNUSED)
        return refused(TOLL_LEDGER_SUCCESSOR);
    x->successor = e->a;
    return posted(b, b->header->used);
}

static struct answer request_close(const struct book *b, struct account *x)
{
    if (x->state == TOLL_LEDGER_STATE_PENDING)
        return refused(TOLL_LEDGER_UNTIMELY);
    x->state = TOLL_LEDGER_STATE_PENDING;
    x->request_day = b->header->day;
    return posted(b, b->header->used);
}

/* Adds a rate list; "15 for a first day not after the last list's, or for a ninth list". */
static struct answer add_list(const struct book *b, const event *e)
{
    struct header *h = b->header;
    int64_t last = h->first_day;
    size_t used = 0; /* later lists */
    for (; used < LATER_LISTS && h->later[used].first_day != 0; used++)
        last = h->later[used].first_day;
    if (used == LATER_LISTS || e->a <= last)
        return refused(TOLL_LEDGER_LIST);
    h->later[used] = list_in(e);
    return posted(b, h->used);
}

/* "Closed: events 2, 3, 7, 8 on state 3", and event 11. */
static bool needs_open(int64_t kind)
{
    return kind == TOLL_LEDGER_EVENT_TOLL || kind == TOLL_LEDGER_EVENT_PAYMENT ||
           kind == TOLL_LEDGER_EVENT_TOPUP_RESULT || kind == TOLL_LEDGER_EVENT_CLOSE_REQUEST ||
           kind == TOLL_LEDGER_EVENT_RESERVE;
}

struct answer post(const struct book *b, const event *e)
{
    if (!is_well_formed(e))
        return refused(TOLL_LEDGER_MALFORMED);
    if (e->kind == TOLL_LEDGER_EVENT_TICK)
        return tick(b);
    if (e->kind == TOLL_LEDGER_EVENT_RATE_LIST)
        return add_list(b, e);
    struct account *x = account_of(b, e->account);
    if (x == NULL || (x->state == TOLL_LEDGER_STATE_UNUSED && e->kind != TOLL_LEDGER_EVENT_OPEN))
        return refused(TOLL_LEDGER_UNKNOWN);
    const int64_t heir = e->kind == TOLL_LEDGER_EVENT_TOLL ? heir_of(b, x) : 0;
    if (x->state == TOLL_LEDGER_STATE_CLOSED && heir == 0 && needs_open(e->kind))
        return refused(TOLL_LEDGER_CLOSED);
    switch (e->kind) {
    case TOLL_LEDGER_EVENT_OPEN:
        return open_account(b, x, e);
    case TOLL_LEDGER_EVENT_TOLL:
        return post_toll(b, heir == 0 ? e->account : heir, e);
    case TOLL_LEDGER_EVENT_PAYMENT:
        return post_payment(b, x, e);
    case TOLL_LEDGER_EVENT_RETURNED_CHECK:
        return return_check(b, x, e);
    case TOLL_LEDGER_EVENT_DISPUTE:
        return dispute(b, e);
    case TOLL_LEDGER_EVENT_DECISION:
        return decide(b, e);
    case TOLL_LEDGER_EVENT_TOPUP_RESULT:
        return topup_result(b, x, e);
    case TOLL_LEDGER_EVENT_RESERVE:
        return change_reserve(b, x, e);
    case TOLL_LEDGER_EVENT_SUCCESSOR:
        return name_successor(b, x, e);
    default:
        return request_close(b, x);
    }
}
