/* The lent tables seen as a book: records over their words, and what is asked of a row or account. */
#ifndef MODEL_BOOK_H
#define MODEL_BOOK_H

#include <stdbool.h>

#include "toll_ledger.h"

#define HOLD_DAYS 30
#define CLOSING_DAYS 15
#define WEEK_DAYS 7
#define LATEST_PASSAGE_DAYS 60
#define BARRING_RETURNS 3
#define LAST_DECLINE 3
#define FIRST_FEE_STAGE 2 /* fees stand in the header from this stage on */
#define LAST_STAGE 4
#define FEES (LAST_STAGE - FIRST_FEE_STAGE + 1)
#define MOST_STAGE_DAYS 365
#define MOST_FEE 100000
#define MOST_AMOUNT 1000000 /* of a toll, a reversal, a payment, a rate, a top-up, a threshold */
#define MOST_CREDIT 1300000
#define MOST_REFUND INT64_C(10649600000)
#define MOST_PASSAGE 1000000000
#define MOST_AXLES 99
#define MOST_HEIGHT 999
#define RETURN_FEE 500
#define RETURN_ROWS 2 /* a reversal and a fee */
#define MOST_BANK_CHARGE 99500
#define VERDICT_UPHELD 1
#define TOPUP_DECLINED 0
#define TOPUP_PAID 1
#define RESERVE_ADDED 1

/* Classes of vehicles, by axles and by height in inches. */
enum { NO_CLASS, CLASS_1, CLASS_2, CLASS_3 };
#define TWO_AXLES 2
#define LEAST_AXLES_2 3 /* of class 2 at any height */
#define LEAST_AXLES_3 5
#define MOST_HEIGHT_1 90
#define MODES TOLL_LEDGER_MODE_PLATE
#define RATES (CLASS_3 * MODES)
#define LATER_LISTS (TOLL_LEDGER_MOST_LISTS - 1)

/* A rate list after the first: unused where its first day is 0. */
struct rate_list {
    int64_t first_day;
    int64_t rates[RATES]; /* by class, then by mode */
};

struct header {
    int64_t day, used, length; /* length: L, in days */
    int64_t fees[FEES];        /* by stage */
    int64_t rates[RATES];      /* of the first rate list */
    int64_t first_day;         /* likewise */
    struct rate_list later[LATER_LISTS];
};

struct account {
    int64_t state, request_day, returned, threshold, topup, declines, last_decline, reserve, successor;
};

struct row {
    int64_t kind, account, day, amount, settled, mark, due, dispute, hold, reference;
};

struct book {
    struct header *header;
    struct account *accounts;
    struct row *rows;
    const int64_t *holidays;
    size_t count, room, holiday_count; /* accounts, rows in all, holidays */
};

struct debtor {
    int64_t debt, rows; /* so much debt in so many first rows */
};

struct answer {
    int64_t number, first_row, new_rows, raised, removed;
};

_Static_assert(sizeof(struct header) == TOLL_LEDGER_HEADER_WORDS * sizeof(int64_t) &&
                   sizeof(struct rate_list) == TOLL_LEDGER_LIST_WORDS * sizeof(int64_t) &&
                   sizeof(struct account) == TOLL_LEDGER_ACCOUNT_WORDS * sizeof(int64_t) &&
                   sizeof(struct row) == TOLL_LEDGER_ROW_WORDS * sizeof(int64_t) &&
                   sizeof(struct answer) == TOLL_LEDGER_ANSWER_WORDS * sizeof(int64_t),
               "records are the words of the tables");

typedef struct toll_ledger_event_record event;

/* By one comparison: a word below `least` wraps around past every other. `most` is at least least - 1,
 * where no word is within. */
static inline bool within(int64_t least, int64_t word, int64_t most)
{
    return (uint64_t)word - (uint64_t)least < (uint64_t)most - (uint64_t)least + 1;
}

static inline int64_t lesser(int64_t x, int64_t y)
{
    return x < y ? x : y;
}

static inline size_t rows_used(const struct book *b)
{
    return (size_t)b->header->used;
}

/* Account n, or NULL where the table has none of that number. */
static inline struct account *account_of(const struct book *b, int64_t n)
{
    return within(1, n, (int64_t)b->count) ? &b->accounts[n - 1] : NULL;
}

/* Used row n, or NULL where there is none. */
static inline struct row *row_of(const struct book *b, int64_t n)
{
    return within(1, n, b->header->used) ? &b->rows[n - 1] : NULL;
}

static inline bool is_source(const struct row *r)
{
    return r->kind == TOLL_LEDGER_KIND_PAYMENT || r->kind == TOLL_LEDGER_KIND_CREDIT;
}

/* Unused money of a source, the unsettled part of a debit. */
static inline int64_t left_of(const struct row *r)
{
    return r->amount - r->settled;
}

static inline bool is_held_toll(const struct row *r)
{
    return r->kind == TOLL_LEDGER_KIND_TOLL && r->dispute == TOLL_LEDGER_DISPUTE_HELD;
}

/* "A fee is held while its toll is held." */
static inline bool is_held(const struct book *b, const struct row *r)
{
    return is_held_toll(r->kind == TOLL_LEDGER_KIND_FEE ? &b->rows[r->reference - 1] : r);
}

/* "Unheld unsettled": what settlement pays, tolls first. */
static inline bool is_payable(const struct book *b, const struct row *r)
{
    return !is_source(r) && left_of(r) > 0 && !is_held(b, r);
}

/* Writes a row of today into the first free place; its other words are those of `r`. */
static inline void add_row(const struct book *b, struct row r)
{
    r.day = b->header->day;
    b->rows[b->header->used++] = r;
}

static inline struct answer refused(int64_t number)
{
    return (struct answer){.number = number};
}

/* Of an event that found `before` rows used. */
static inline struct answer posted(const struct book *b, int64_t before)
{
    const int64_t added = b->header->used - before;
    return (struct answer){.first_row = added == 0 ? 0 : before + 1, .new_rows = added};
}

static inline bool has_room(const struct book *b, size_t rows)
{
    return b->room - rows_used(b) >= rows;
}

/* model_sound.c */
bool lengths_fit(size_t header_words, size_t accounts_words, size_t journal_words);
bool rates_fit(const int64_t *rates);
bool schedule_fits(int64_t day, const int64_t *schedule); /* L, fees, rates */
bool holidays_fit(const int64_t *holidays, size_t count);
bool is_sound(const struct book *b);                      /* its lengths fit */

/* model_events.c */
int64_t balance_of(const struct book *b, int64_t account);
bool is_topup_due(const struct book *b, int64_t account);
struct debtor debtor_of(const struct book *b, int64_t account);
void settle(const struct book *b, int64_t account, size_t d, size_t s); /* from these rows on */
struct answer post(const struct book *b, const event *e); /* on a sound book */

/* model_tick.c */
struct answer tick(const struct book *b);

#endif
