#include "books.h"

#include <stdio.h>
#include <stdlib.h>
#include <string.h>

#include "model.h"

const struct library ours = {toll_ledger_open, toll_ledger_event, toll_ledger_batch,
                             toll_ledger_balance, toll_ledger_topup_due, toll_ledger_debtor};
const struct library plain = {model_open, model_event, model_batch,
                              model_balance, model_topup_due, model_debtor};

const int64_t no_holidays[1] = {0};

void must(bool so, const char *what)
{
    if (so)
        return;
    fprintf(stderr, "bench: not so: %s\n", what);
    exit(1);
}

/* xorshift64* */
static uint64_t random_word(struct host *host)
{
    host->state ^= host->state >> 12;
    host->state ^= host->state << 25;
    host->state ^= host->state >> 27;
    return host->state * UINT64_C(2685821657736338717);
}

int64_t draw(struct host *host, int64_t least, int64_t most)
{
    return least + (int64_t)((random_word(host) >> 11) % (uint64_t)(most - least + 1));
}

bool once_in(struct host *host, int64_t n)
{
    return draw(host, 1, n) == 1;
}

struct book book_of(struct tables *t)
{
    return (struct book){.header = (struct header *)t->header,
                         .accounts = (struct account *)t->accounts,
                         .rows = (struct row *)t->journal,
                         .holidays = no_holidays,
                         .count = t->accounts_words / TOLL_LEDGER_ACCOUNT_WORDS,
                         .room = t->journal_words / TOLL_LEDGER_ROW_WORDS};
}

void shape(struct tables *t, size_t accounts, size_t rows)
{
    memset(t, 0xA5, sizeof *t);
    t->header_words = TOLL_LEDGER_HEADER_WORDS;
    t->accounts_words = accounts * TOLL_LEDGER_ACCOUNT_WORDS;
    t->journal_words = rows * TOLL_LEDGER_ROW_WORDS;
}

void copy_tables(struct tables *to, const struct tables *from)
{
    to->header_words = from->header_words;
    to->accounts_words = from->accounts_words;
    to->journal_words = from->journal_words;
    memcpy(to->header, from->header, sizeof to->header);
    memcpy(to->accounts, from->accounts, from->accounts_words * sizeof(int64_t));
    memcpy(to->journal, from->journal, from->journal_words * sizeof(int64_t));
}

bool is_live(const struct book *b, int64_t account)
{
    return within(TOLL_LEDGER_STATE_OPEN, b->accounts[account - 1].state, TOLL_LEDGER_STATE_PENDING);
}

/* An account that is open or pending, where a few draws find one. */
static int64_t live_account(struct host *host, const struct book *b)
{
    int64_t n = draw(host, 1, (int64_t)b->count);
    for (int tries = 0; tries < 20; tries++) {
        if (is_live(b, n))
            return n;
        n = draw(host, 1, (int64_t)b->count);
    }
    return n;
}

event toll_for(struct host *host, const struct book *b, int64_t account)
{
    static const int64_t axles[] = {1, 2, 2, 2, 2, 3, 4, 5, 6};
    const int64_t today = b->header->day;
    event e = {.kind = TOLL_LEDGER_EVENT_TOLL, .account = account};
    host->passage++;
    e.a = host->passage * 48271 % 999999937 + 1; /* each once before any comes again */
    e.b = today - draw(host, 0, lesser(today - 1, 4));
    e.c = axles[draw(host, 0, 8)];
    e.d = draw(host, 50, e.c == 1 ? MOST_HEIGHT_1 : 120);
    e.e = draw(host, TOLL_LEDGER_MODE_TAG, TOLL_LEDGER_MODE_PLATE);
    return e;
}

/* Mostly what the account owes or a part of it, now and then more. */
event payment_for(struct host *host, const struct book *b, int64_t account)
{
    const int64_t owed = -balance_of(b, account), some = draw(host, 1, 2500);
    return (event){.kind = TOLL_LEDGER_EVENT_PAYMENT,
                   .account = account,
                   .a = owed > 0 && !once_in(host, 6) ? lesser(owed, some) : some,
                   .b = draw(host, TOLL_LEDGER_METHOD_CARD, TOLL_LEDGER_METHOD_CHECK)};
}

static bool fits_event(const struct row *r, int64_t kind)
{
    switch (kind) {
    case TOLL_LEDGER_EVENT_RETURNED_CHECK:
        return r->kind == TOLL_LEDGER_KIND_PAYMENT && r->mark == TOLL_LEDGER_METHOD_CHECK;
    case TOLL_LEDGER_EVENT_DISPUTE:
        return r->kind == TOLL_LEDGER_KIND_TOLL &&
               r->dispute == TOLL_LEDGER_DISPUTE_NEVER && left_of(r) > 0;
    default:
        return is_held_toll(r);
    }
}

/* An event on a row that fits it, searched from any row on; a toll where none fits. */
static event event_on_row(struct host *host, const struct book *b, int64_t kind, int64_t word)
{
    const int64_t used = b->header->used;
    const int64_t start = used == 0 ? 0 : draw(host, 0, used - 1);
    for (int64_t i = 0; i < used; i++) {
        const int64_t n = (start + i) % used + 1;
        if (fits_event(&b->rows[n - 1], kind))
            return (event){.kind = kind, .account = b->rows[n - 1].account, .a = n, .b = word};
    }
    return toll_for(host, b, live_account(host, b));
}

static event topup_event(struct host *host, const struct book *b)
{
    event e = {.kind = TOLL_LEDGER_EVENT_TOPUP_RESULT, .b = draw(host, 0, 1)};
    for (int tries = 0; tries < 20; tries++) {
        e.account = live_account(host, b);
        if (is_topup_due(b, e.account))
            break;
    }
    return e;
}

/* An event that the book mostly accepts. */
static event fitting_event(struct host *host, const struct book *b)
{
    const struct mix *m = &host->mix;
    const int64_t die = draw(host, 0, 999);
    int64_t top = m->payments;
    if (die < top)
        return payment_for(host, b, live_account(host, b));
    if (die < (top += m->returns))
        return event_on_row(host, b, TOLL_LEDGER_EVENT_RETURNED_CHECK, draw(host, 0, 2000));
    if (die < (top += m->disputes))
        return event_on_row(host, b, TOLL_LEDGER_EVENT_DISPUTE, 0);
    if (die < (top += m->decisions))
        return event_on_row(host, b, TOLL_LEDGER_EVENT_DECISION, draw(host, 0, 1));
    if (die < (top += m->topups))
        return topup_event(host, b);
    if (die < (top += m->closes))
        return (event){.kind = TOLL_LEDGER_EVENT_CLOSE_REQUEST, .account = live_account(host, b)};
    if (die < (top += m->ticks))
        return (event){.kind = TOLL_LEDGER_EVENT_TICK};
    return toll_for(host, b, live_account(host, b));
}

/* The toll for a closed account instead, the first from number `from` on: where no successor takes its
 * tolls, the account of the toll is named as that. The toll itself where no account is closed. */
static event passing_event(const struct book *b, event toll, uint64_t from)
{
    for (size_t i = 0; i < b->count; i++) {
        const size_t n = (size_t)(from + i) % b->count;
        const struct account *x = &b->accounts[n];
        if (x->state != TOLL_LEDGER_STATE_CLOSED)
            continue;
        if (x->successor == 0 || !is_live(b, x->successor))
            return (event){.kind = TOLL_LEDGER_EVENT_SUCCESSOR, .account = (int64_t)n + 1, .a = toll.account};
        toll.account = (int64_t)n + 1;
        break;
    }
    return toll;
}

/* One word more is drawn whatever comes of it: so as many are as for all books in docs/SPEED.md. */
event next_event(struct host *host, const struct book *b)
{
    const event e = fitting_event(host, b);
    const uint64_t word = random_word(host);
    if (e.kind != TOLL_LEDGER_EVENT_TOLL || word % 1000 >= (uint64_t)host->mix.passes)
        return e;
    return passing_event(b, e, word / 1000);
}
