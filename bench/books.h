/* Books and event lists, made from fixed seeds, for the timing. */
#ifndef BOOKS_H
#define BOOKS_H

#include "model_book.h"

/* Tables for up to the most accounts and rows; the lengths say how many. */
struct tables {
    size_t header_words, accounts_words, journal_words;
    int64_t header[TOLL_LEDGER_HEADER_WORDS];
    int64_t accounts[TOLL_LEDGER_MOST_ACCOUNTS * TOLL_LEDGER_ACCOUNT_WORDS];
    int64_t journal[TOLL_LEDGER_MOST_ROWS * TOLL_LEDGER_ROW_WORDS];
};

extern const int64_t no_holidays[1]; /* an empty list has a place too */

#define LENT(t)                                                                     \
    (t)->header, (t)->header_words, (t)->accounts, (t)->accounts_words, (t)->journal, \
        (t)->journal_words, no_holidays, (size_t)0

/* One of the two libraries. */
struct library {
    int64_t (*open)(int64_t *, size_t, int64_t *, size_t, int64_t *, size_t, const int64_t *,
                    size_t, const int64_t *, size_t);
    int64_t (*event)(int64_t *, size_t, int64_t *, size_t, int64_t *, size_t, const int64_t *,
                     size_t, const int64_t *, size_t, int64_t *, size_t);
    int64_t (*batch)(int64_t *, size_t, int64_t *, size_t, int64_t *, size_t, const int64_t *,
                     size_t, const event *, size_t, int64_t *, size_t);
    int64_t (*balance)(const int64_t *, size_t, const int64_t *, size_t, const int64_t *, size_t,
                       const int64_t *, size_t, int64_t, int64_t *);
    int64_t (*topup_due)(const int64_t *, size_t, const int64_t *, size_t, const int64_t *, size_t,
                         const int64_t *, size_t, int64_t, int64_t *);
    int64_t (*debtor)(const int64_t *, size_t, const int64_t *, size_t, const int64_t *, size_t,
                      const int64_t *, size_t, int64_t, int64_t *, int64_t *);
};

extern const struct library ours, plain;

/* How often a host sends each kind of event, in a thousand; the rest are tolls, of which so many in a
 * thousand name an account that is closed. */
struct mix {
    int payments, returns, disputes, decisions, topups, closes, ticks, passes;
};

/* Where random numbers and fresh passage numbers come from. */
struct host {
    uint64_t state;
    int64_t passage;
    struct mix mix;
};

int64_t draw(struct host *host, int64_t least, int64_t most);
bool once_in(struct host *host, int64_t n);

/* The book in tables whose lengths fit. */
struct book book_of(struct tables *t);

/* Tables of so many accounts and rows, full of words that no book has. */
void shape(struct tables *t, size_t accounts, size_t rows);
void copy_tables(struct tables *to, const struct tables *from); /* lengths and words */

bool is_live(const struct book *b, int64_t account); /* open or pending */

event next_event(struct host *host, const struct book *b);
event toll_for(struct host *host, const struct book *b, int64_t account);
event payment_for(struct host *host, const struct book *b, int64_t account);

/* Stops the program with a message where it isn't so. */
void must(bool so, const char *what);

#endif
