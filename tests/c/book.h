/* Books for the tests: tables of exact size with nothing readable past them, and calls that check
 * what every answer must keep. */
#ifndef TEST_BOOK_H
#define TEST_BOOK_H

#include <stdio.h>
#include <stdlib.h>

#include "toll_ledger.h"

#define CHECK(condition)                                                         \
    do {                                                                         \
        if (!(condition)) {                                                      \
            fprintf(stderr, "%s:%d: not so: %s\n", __FILE__, __LINE__, #condition); \
            exit(1);                                                             \
        }                                                                        \
    } while (0)

struct book {
    int64_t *header, *accounts, *journal;
    const int64_t *holidays;
    size_t header_words, accounts_words, journal_words, holidays_words;
    int64_t answer[TOLL_LEDGER_ANSWER_WORDS]; /* of the last event posted */
};

/* The tables of a book as a call takes them. */
#define TABLES(b)                                                                     \
    (b)->header, (b)->header_words, (b)->accounts, (b)->accounts_words, (b)->journal, \
        (b)->journal_words, (b)->holidays, (b)->holidays_words

/* The schedule of document 01's listing example, with its first day. */
extern const int64_t example_schedule[TOLL_LEDGER_SCHEDULE_WORDS];

/* A table of exactly so many words, filled with words that no book has. TOLL_TABLES says where it
 * stands: 'heap' (the default: a block of its own, for valgrind), 'end' or 'start' of a page beside
 * one that can't be touched, so that a word past it stops the test. */
int64_t *new_table(size_t words);
void free_table(int64_t *table, size_t words);

/* Tables for so many accounts and rows and no holidays, not yet opened. */
struct book new_book(size_t accounts, size_t rows);
void free_book(struct book *book);

/* Has the book lend these holidays from now on, in a table that can't be written where it stands in
 * pages. */
void lend_holidays(struct book *book, const int64_t *days, size_t count);

/* A fresh book from a first day and the example's schedule, with no holidays or with these. */
struct book open_book(size_t accounts, size_t rows, int64_t first_day);
struct book open_book_with(size_t accounts, size_t rows, int64_t first_day, const int64_t *days, size_t count);

/* Posts one event of these words, the rest 0, and gives its number. A refused event leaves every
 * table word as it was and answers with zeros. */
#define EVENT_OF(...) ((const int64_t[TOLL_LEDGER_EVENT_WORDS]){__VA_ARGS__})
#define post(book, ...) post_words(book, EVENT_OF(__VA_ARGS__))
int64_t post_words(struct book *book, const int64_t *words);

/* An event of these words, the rest 0, in the list of a batch. */
#define record(...) record_of(EVENT_OF(__VA_ARGS__))
struct toll_ledger_event_record record_of(const int64_t *words);

/* Ticks so many times, each accepted. */
void ticks(struct book *book, int64_t count);

int64_t sound(struct book *book); /* the number of a batch of no events */

/* A question's number and value. It changes no table word, and refuses with value 0. */
typedef int64_t question(const int64_t *, size_t, const int64_t *, size_t, const int64_t *, size_t,
                         const int64_t *, size_t, int64_t, int64_t *);
int64_t ask(question *question, struct book *book, int64_t account, int64_t *value);

/* The debtor question's number, heavy and rows read, likewise. */
int64_t ask_debtor(struct book *book, int64_t account, int64_t *heavy, int64_t *rows_read);

/* The values of accepted questions. */
int64_t balance(struct book *book, int64_t account);
int64_t topup_due(struct book *book, int64_t account);
int64_t heavy_debtor(struct book *book, int64_t account, int64_t *rows_read); /* gives heavy */

int64_t *row_of(struct book *book, int64_t row);
int64_t *account_of(struct book *book, int64_t account);
int64_t today(const struct book *book);

/* The four tables' words one after another, in a block to free. */
int64_t *copy_words(const struct book *book);
int same_words(const struct book *book, const int64_t *copy);

#endif
