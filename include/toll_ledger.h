/*
 * The toll account ledger, for C and C++ hosts on x86-64.
 *
 * Link libtoll_ledger.a. The library keeps nothing between calls, takes nothing from a heap, reads
 * no file and no clock. All that it knows stands in four tables of signed 64-bit words which the
 * host owns and lends to each call: header, accounts, journal and holidays. Together they are a
 * book. No call writes the holidays: the host has that list before the opening, and leaves it as it
 * is from then on. One list may serve several books.
 * Amounts are whole US cents. Days are numbers: day 1 is 2000-01-01, day 36,525 is 2099-12-31.
 *
 * Every call takes each table as a pointer and its length in words, checks the whole book, and
 * answers by a number of enum toll_ledger_number. The contents of the tables need no check before a
 * call: any words, lengths, events and accounts get an answer. A refusal leaves the book's tables
 * as they were.
 *
 * The host sees to it that
 *   - each table is at least as long as its length says, aligned for int64_t, and not null, not
 *     even where its length is 0;
 *   - tables handed to one call don't overlap, nor the place of a question's value any of them or
 *     another such place;
 *   - no other thread writes a table during a call that is lent it, nor reads one that the call may
 *     write. Calls on different books may run at once;
 *   - the calling thread has 192 KiB of free stack.
 */
#ifndef TOLL_LEDGER_H
#define TOLL_LEDGER_H

#include <stddef.h>
#include <stdint.h>

/* The version of this interface: the first number rises where a host must change or its stored
 * books no longer fit, the second where something is added, the third where neither is. */
#define TOLL_LEDGER_VERSION_MAJOR 5
#define TOLL_LEDGER_VERSION_MINOR 0
#define TOLL_LEDGER_VERSION_PATCH 0

/* For compilers that can warn: a call's number must not be ignored, and no pointer may be null. */
#if defined(__GNUC__) || defined(__clang__)
#define TOLL_LEDGER_CALL __attribute__((warn_unused_result, nonnull))
#else
#define TOLL_LEDGER_CALL
#endif

#ifdef __cplusplus
extern "C" {
#endif

/* Sizes. A header has exactly 62 words; accounts are 1 to 256 of 9 words each, numbered from 1; a
 * journal is 1 to 8,192 rows of 10 words each, numbered from 1. How many accounts and rows a book
 * has room for is the host's choice at opening, told by the tables' lengths. Holidays are 0 to 400
 * words, a day each. */
#define TOLL_LEDGER_HEADER_WORDS 62
#define TOLL_LEDGER_ACCOUNT_WORDS 9
#define TOLL_LEDGER_ROW_WORDS 10
#define TOLL_LEDGER_MOST_ACCOUNTS 256
#define TOLL_LEDGER_MOST_ROWS 8192
#define TOLL_LEDGER_MOST_HOLIDAYS 400
#define TOLL_LEDGER_MOST_LISTS 8 /* rate lists, the opening's among them */
#define TOLL_LEDGER_LIST_WORDS 7 /* of each rate list after the first */
#define TOLL_LEDGER_SCHEDULE_WORDS 11
#define TOLL_LEDGER_EVENT_WORDS 9
#define TOLL_LEDGER_ANSWER_WORDS 5
#define TOLL_LEDGER_MOST_EVENTS 4096 /* in a batch */
#define TOLL_LEDGER_DAYS 36525 /* days are numbered from 1 to it */
#define TOLL_LEDGER_HEAVY_DEBT 25000 /* cents: a heavy debtor owes more */

/* The numbers that calls give, in the order in which refusals are checked: where several apply, the
 * one that stands first here wins. */
enum toll_ledger_number {
    TOLL_LEDGER_POSTED = 0,     /* accepted; of a batch, an opening and a question: it has run */
    TOLL_LEDGER_UNSOUND = 1,    /* the book isn't sound (see "A sound book"); opening: header,
                                   accounts or journal have no length of a book */
    TOLL_LEDGER_MALFORMED = 2,  /* an event of no kind, with a word out of range or an unnamed word
                                   that isn't 0; an event not of 9 words; an answer table too short;
                                   a batch of more than 4,096; opening: first day or schedule out of
                                   range, or not 11 words */
    TOLL_LEDGER_HOLIDAYS = 17,  /* opening: more than 400 holidays, one that isn't a day from 1 to
                                   36,525, or one not after the holiday before it */
    TOLL_LEDGER_LIST = 15,      /* event 10: the book has eight rate lists, or the last one begins
                                   on the new one's first day or later */
    TOLL_LEDGER_UNKNOWN = 3,    /* the account is unused, or not from 1 to the table's count */
    TOLL_LEDGER_TAKEN = 4,      /* event 1: the account is used */
    TOLL_LEDGER_CLOSED = 5,     /* events 2, 3, 7, 8, 11: the account is closed, and for event 2 has
                                   no successor that is open or pending */
    TOLL_LEDGER_SUCCESSOR = 18, /* event 12: the account isn't closed, or the successor is itself,
                                   unused or not from 1 to the table's count */
    TOLL_LEDGER_UNCLASSED = 6,  /* event 2: one axle above 90 inches */
    TOLL_LEDGER_MISDATED = 7,   /* event 2: a passage after today or over 60 days back */
    TOLL_LEDGER_DUPLICATE = 8,  /* event 2: the passage number stands in the journal */
    TOLL_LEDGER_BARRED = 9,     /* event 3: a check after three returned ones */
    TOLL_LEDGER_NO_ROW = 10,    /* events 4, 5, 6: no such row, or of another kind or account */
    TOLL_LEDGER_UNTIMELY = 11,  /* event 4: not a check, or already returned; 5: the toll is settled
                                   whole or was disputed before; 6: it isn't held; 7: no top-up is
                                   due; 8: the account is pending; 11: it has no top-up */
    TOLL_LEDGER_RESERVE = 16,   /* event 11: the account has a reserve already, or none to remove */
    TOLL_LEDGER_LAST_DAY = 12,  /* event 9 on day 36,525 */
    TOLL_LEDGER_FULL = 13,      /* the journal has fewer free rows than the event adds */
    TOLL_LEDGER_CEILING = 14    /* event 9: a refund above 10,649,600,000. No book has so much
                                   money: a host need not expect it */
};

/* The words of a header, all kept by the ledger. */
enum toll_ledger_header_word {
    TOLL_LEDGER_HEADER_DAY = 0,          /* today */
    TOLL_LEDGER_HEADER_ROWS_USED = 1,    /* the first so many rows of the journal are used */
    TOLL_LEDGER_HEADER_STAGE_LENGTH = 2, /* L, in days: 1 to 365 */
    TOLL_LEDGER_HEADER_FEE_2 = 3,        /* fees for stages 2, 3, 4: 0 to 100,000 each */
    TOLL_LEDGER_HEADER_FEE_3 = 4,
    TOLL_LEDGER_HEADER_FEE_4 = 5,
    TOLL_LEDGER_HEADER_RATE_1_TAG = 6,   /* the first list's six rates: 1 to 1,000,000 each */
    TOLL_LEDGER_HEADER_RATE_1_PLATE = 7,
    TOLL_LEDGER_HEADER_RATE_2_TAG = 8,
    TOLL_LEDGER_HEADER_RATE_2_PLATE = 9,
    TOLL_LEDGER_HEADER_RATE_3_TAG = 10,
    TOLL_LEDGER_HEADER_RATE_3_PLATE = 11,
    TOLL_LEDGER_HEADER_FIRST_DAY = 12,   /* the first list's first day: that of the opening */
    TOLL_LEDGER_HEADER_LISTS = 13        /* here begin the seven later lists */
};

/* The words of a rate list after the first: list i, 2 to 8, has the header's words from
 * 13 + 7 * (i - 2) on. Unused lists come last and are all 0. */
enum toll_ledger_list_word {
    TOLL_LEDGER_LIST_FIRST_DAY = 0, /* 0: the list is unused */
    TOLL_LEDGER_LIST_RATES = 1      /* here begin its six rates, in the order of the first list's */
};

/* The words of an account: account n has the words from 9 * (n - 1) on. */
enum toll_ledger_account_word {
    TOLL_LEDGER_ACCOUNT_STATE = 0,         /* enum toll_ledger_state */
    TOLL_LEDGER_ACCOUNT_REQUEST_DAY = 1,   /* of its close request, 0 without one */
    TOLL_LEDGER_ACCOUNT_RETURNED = 2,      /* how many of its checks were returned */
    TOLL_LEDGER_ACCOUNT_THRESHOLD = 3,     /* top-up threshold */
    TOLL_LEDGER_ACCOUNT_TOPUP = 4,         /* top-up amount, 0: no top-up */
    TOLL_LEDGER_ACCOUNT_DECLINES = 5,      /* in a row: 0 to 2 */
    TOLL_LEDGER_ACCOUNT_LAST_DECLINE = 6,  /* its day, 0 without one */
    TOLL_LEDGER_ACCOUNT_RESERVE = 7,       /* 1: a reserve card; only beside a top-up, else 0 */
    TOLL_LEDGER_ACCOUNT_SUCCESSOR = 8      /* the account that tolls after closing go to, 0: none */
};

enum toll_ledger_state {
    TOLL_LEDGER_STATE_UNUSED = 0,
    TOLL_LEDGER_STATE_OPEN = 1,
    TOLL_LEDGER_STATE_PENDING = 2, /* to close */
    TOLL_LEDGER_STATE_CLOSED = 3
};

/* The words of a journal row: row n has the words from 10 * (n - 1) on. Words without a use in a
 * kind are 0. */
enum toll_ledger_row_word {
    TOLL_LEDGER_ROW_KIND = 0,       /* enum toll_ledger_row_kind */
    TOLL_LEDGER_ROW_ACCOUNT = 1,
    TOLL_LEDGER_ROW_DAY = 2,        /* of posting */
    TOLL_LEDGER_ROW_AMOUNT = 3,
    TOLL_LEDGER_ROW_SETTLED = 4,    /* of a debit: how much is paid; of a source: how much used */
    TOLL_LEDGER_ROW_MARK = 5,       /* a toll's stage, 0 to 4; a payment's method */
    TOLL_LEDGER_ROW_DUE_DAY = 6,    /* of a toll: when it rises a stage if unsettled and unheld */
    TOLL_LEDGER_ROW_DISPUTE = 7,    /* of a toll: enum toll_ledger_dispute */
    TOLL_LEDGER_ROW_HOLD_START = 8, /* of a held toll: the day of its dispute */
    TOLL_LEDGER_ROW_REFERENCE = 9   /* a toll's passage number; a fee's toll row or returned payment
                                       row; a reversal's payment row; a credit's toll row */
};

enum toll_ledger_row_kind {
    TOLL_LEDGER_KIND_EMPTY = 0,
    TOLL_LEDGER_KIND_TOLL = 1,     /* debit */
    TOLL_LEDGER_KIND_FEE = 2,      /* debit */
    TOLL_LEDGER_KIND_REVERSAL = 3, /* debit */
    TOLL_LEDGER_KIND_PAYMENT = 4,  /* source */
    TOLL_LEDGER_KIND_CREDIT = 5,   /* source */
    TOLL_LEDGER_KIND_REFUND = 6    /* debit */
};

enum toll_ledger_method {
    TOLL_LEDGER_METHOD_CARD = 1,
    TOLL_LEDGER_METHOD_CASH = 2,
    TOLL_LEDGER_METHOD_CHECK = 3,
    TOLL_LEDGER_METHOD_CHECK_RETURNED = 4 /* set by event 4 alone */
};

enum toll_ledger_dispute {
    TOLL_LEDGER_DISPUTE_NEVER = 0,
    TOLL_LEDGER_DISPUTE_HELD = 1, /* the toll and its fees are neither paid nor raised */
    TOLL_LEDGER_DISPUTE_ENDED = 2,
    TOLL_LEDGER_DISPUTE_UPHELD = 3
};

/*
 * Events: nine words each, kind, account, a, b, c, d, e, f, g. Words that a kind doesn't name are
 * 0. Every accepted event ends with settlement: unused sources of an account, in row order, pay its
 * unsettled tolls that aren't held, in row order, then its unsettled fees and reversals that aren't
 * held, together in row order. What is settled stays so. An event but the tick touches the account
 * that it names alone; a toll that is passed on touches the successor alone, a rate list none.
 */
enum toll_ledger_event_kind {
    /* a threshold, b top-up amount: 0 to 1,000,000 each, a 0 if b is. Opens an unused account. */
    TOLL_LEDGER_EVENT_OPEN = 1,
    /* a passage number 1 to 1,000,000,000, b passage day 1 to 36,525, c axles 1 to 99, d height 0
     * to 999 inches, e mode. Adds a toll at the rate of its class and mode, due in L days. Class 1:
     * up to 2 axles, at most 90 inches; 2: 2 axles above 90, 3 and 4 axles; 3: 5 axles or more. The
     * rate is that of the list in force on the passage day: the last one that begins on that day or
     * earlier, and the first list where none does. For a closed account whose successor is open or
     * pending the toll is the successor's: its row carries the successor's number, and its money
     * settles it. A successor's successor isn't asked. */
    TOLL_LEDGER_EVENT_TOLL = 2,
    /* a amount 1 to 1,000,000, b method: card, cash or check. Adds a payment. */
    TOLL_LEDGER_EVENT_PAYMENT = 3,
    /* a payment row, b bank charge 0 to 99,500. Adds a reversal of the payment and a fee of the
     * charge and 500; a closed account becomes pending again. */
    TOLL_LEDGER_EVENT_RETURNED_CHECK = 4,
    /* a toll row. The toll and its fees are held from today, for 30 days at most. */
    TOLL_LEDGER_EVENT_DISPUTE = 5,
    /* a row of a held toll, b verdict. 0: the hold ends, the due day moves by the days held. 1:
     * upheld, a credit of the toll and all its fees settles what is unsettled of them. */
    TOLL_LEDGER_EVENT_DECISION = 6,
    /* b 1 paid, 0 declined: the result of a top-up that is due (toll_ledger_topup_due). It concerns
     * the primary card, but after two declines in a row the reserve, where there is one. Paid: adds
     * a card payment of the top-up amount and clears the declines; a reserve that pays becomes the
     * primary, and the account has none until one is added. The third decline in a row removes the
     * top-up, and a reserve with it. */
    TOLL_LEDGER_EVENT_TOPUP_RESULT = 7,
    /* The account is pending from today; the tick to the first business day that is 15 days on or
     * later and finds no unsettled debit, held ones counted, closes it. */
    TOLL_LEDGER_EVENT_CLOSE_REQUEST = 8,
    /* Account 0. The day rises by 1: holds of 30 days end, tolls due rise a stage and from stage 2
     * on add a fee. Where the new day is a business day, pending accounts that may close do so, and
     * what is left of their money leaves as a refund. */
    TOLL_LEDGER_EVENT_TICK = 9,
    /* Account 0, a first day 1 to 36,525, b to g six rates, 1 to 1,000,000 each, in the header's
     * order. Adds a rate list, which begins after the last one: on a day to come or one gone by.
     * Tolls in the journal keep their amounts. */
    TOLL_LEDGER_EVENT_RATE_LIST = 10,
    /* a 1 adds a reserve card beside the primary, the top-up's own; 0 removes it. Event 7 tells
     * when it is asked: one added after the second decline is asked next. */
    TOLL_LEDGER_EVENT_RESERVE = 11,
    /* a successor, another used account in any state. The account is closed; from now on tolls for
     * it post on the successor while that is open or pending (event 2). It replaces an earlier
     * successor. Where a returned check makes the account pending again, it keeps its successor and
     * takes its own tolls until it is closed once more. */
    TOLL_LEDGER_EVENT_SUCCESSOR = 12
};

/* Business days are all days but Saturdays, Sundays and the book's holidays. Day 1 is a Saturday.
 * A holiday may fall on a weekend or before the opening. */

enum toll_ledger_mode { TOLL_LEDGER_MODE_TAG = 1, TOLL_LEDGER_MODE_PLATE = 2 };

/* An event in the list of a batch: its nine words, nothing between them. */
struct toll_ledger_event_record {
    int64_t kind;
    int64_t account;
    int64_t a;
    int64_t b;
    int64_t c;
    int64_t d;
    int64_t e;
    int64_t f;
    int64_t g;
};

#if defined(__cplusplus)
static_assert(sizeof(struct toll_ledger_event_record) == TOLL_LEDGER_EVENT_WORDS * sizeof(int64_t),
              "an event record has no padding");
#elif defined(__STDC_VERSION__) && __STDC_VERSION__ >= 201112L
_Static_assert(sizeof(struct toll_ledger_event_record) == TOLL_LEDGER_EVENT_WORDS * sizeof(int64_t),
               "an event record has no padding");
#else
typedef char toll_ledger_event_record_has_no_padding
    [sizeof(struct toll_ledger_event_record) == TOLL_LEDGER_EVENT_WORDS * sizeof(int64_t) ? 1 : -1];
#endif

/* The words of an answer. Where the event is refused, all but the number are 0. */
enum toll_ledger_answer_word {
    TOLL_LEDGER_ANSWER_NUMBER = 0,
    TOLL_LEDGER_ANSWER_FIRST_ROW = 1, /* the first new row, 0 if none */
    TOLL_LEDGER_ANSWER_NEW_ROWS = 2,  /* how many */
    TOLL_LEDGER_ANSWER_RAISED = 3,    /* tolls raised by a tick */
    TOLL_LEDGER_ANSWER_REMOVED = 4    /* 1 if the top-up was removed, by a third decline */
};

/*
 * A sound book. The tables have the lengths above, and the header the ranges above, day 1 to
 * 36,525. The rate lists in use come first, each with rates in 1 to 1,000,000 and a first day in 1
 * to 36,525 that is after the list before it begins; unused lists are all 0. The first "rows used"
 * rows have kinds 1 to 6; later rows and unused accounts are all 0. The request day is 0 in state
 * open, in pending and closed from 1 to today; returned checks are the account's payments with mark
 * 4; threshold and top-up amount lie in 0 to 1,000,000, declines in 0 to 2, last decline in 0 to
 * today, the reserve is 0 or 1, declines and last decline are 0 together, all five 0 where the
 * amount is; the successor is 0 or another used account. Rows name used accounts, days 1 to today,
 * and references of the right kind in an earlier row of the same account. Amounts are at least 1
 * and at most 1,000,000 (toll, reversal, payment), 100,000 (fee), 1,300,000 (credit),
 * 10,649,600,000 (refund); settled is 0 to amount, a refund's all of it. Passage numbers differ. A
 * toll of stage k is named by at most k - 1 fees (none at 0). An unsettled toll under stage 4 that
 * isn't held is due after today and by today + L, other tolls from 1 to today + L. Hold start is 0
 * but for a held toll, then from today - 29 to today and at least 1, the toll unsettled, due by
 * hold start + L and, under stage 4, after hold start. Per account, used sources = settled debits,
 * no unused source stands beside an unsettled debit that isn't held, and a closed account has
 * nothing unused or unsettled. Holidays are at most 400, days 1 to 36,525, each after the one
 * before it.
 *
 * Opening makes a sound book, and every call leaves a sound book sound. So a host meets "unsound"
 * only where something else wrote the tables, or where their lengths changed. With other holidays
 * than the opening's it is another book, sound or not, and closes accounts on other days.
 */

/*
 * Opens a book in tables of any contents: schedule is first day, L, fees 2 to 4 and six rates in
 * the header's order, 11 words. The first day becomes today and the first day of the first rate
 * list; all other words of header, accounts and journal become 0. Gives 0, else 1 (their lengths
 * unfit), 2 (schedule of another length or out of range) or 17 (holidays), nothing written.
 */
TOLL_LEDGER_CALL
int64_t toll_ledger_open(int64_t *header, size_t header_words,
                         int64_t *accounts, size_t accounts_words,
                         int64_t *journal, size_t journal_words,
                         const int64_t *holidays, size_t holidays_words,
                         const int64_t *schedule, size_t schedule_words);

/*
 * Posts one event of 9 words. Gives the answer's number, and writes the answer's five words at the
 * start of answer wherever it has room for five; past them nothing is written. With less room the
 * event is malformed and nothing is written.
 */
TOLL_LEDGER_CALL
int64_t toll_ledger_event(int64_t *header, size_t header_words,
                          int64_t *accounts, size_t accounts_words,
                          int64_t *journal, size_t journal_words,
                          const int64_t *holidays, size_t holidays_words,
                          const int64_t *event, size_t event_words,
                          int64_t *answer, size_t answer_words);

/*
 * Posts count events in order, at most 4,096, and goes on after a refused one. Gives 0 when it has
 * run, and then event i's answer (i from 0) is the five words of answers from 5 * i on, words past
 * the answers unchanged. Else gives 1 (unsound) or 2 (more than 4,096 events, or fewer than
 * 5 * count words of answers), nothing written. A batch of no events asks whether the book is
 * sound.
 */
TOLL_LEDGER_CALL
int64_t toll_ledger_batch(int64_t *header, size_t header_words,
                          int64_t *accounts, size_t accounts_words,
                          int64_t *journal, size_t journal_words,
                          const int64_t *holidays, size_t holidays_words,
                          const struct toll_ledger_event_record *events, size_t count,
                          int64_t *answers, size_t answers_words);

/*
 * The account's balance: sum of sources less sum of debits, held ones included; negative where the
 * account owes. Gives 0, else 1 or 3, and writes the balance, 0 where refused, to value.
 */
TOLL_LEDGER_CALL
int64_t toll_ledger_balance(const int64_t *header, size_t header_words,
                            const int64_t *accounts, size_t accounts_words,
                            const int64_t *journal, size_t journal_words,
                            const int64_t *holidays, size_t holidays_words,
                            int64_t account, int64_t *value);

/*
 * Whether the account's top-up is due: it is open, its top-up amount is above 0, its last decline
 * is not today, and its balance plus the unsettled part of its held tolls and of their fees is at
 * most the threshold. Gives 0, else 1 or 3, and writes 1 for yes, 0 for no and where refused, to
 * value.
 */
TOLL_LEDGER_CALL
int64_t toll_ledger_topup_due(const int64_t *header, size_t header_words,
                              const int64_t *accounts, size_t accounts_words,
                              const int64_t *journal, size_t journal_words,
                              const int64_t *holidays, size_t holidays_words,
                              int64_t account, int64_t *value);

/*
 * Whether the account is a heavy debtor: the unsettled part of its tolls and fees that aren't held,
 * fees of returned checks among them and reversals not, exceeds 25,000 cents. Gives 0, else 1 or 3,
 * and writes 1 for yes, 0 for no to heavy, and to rows_read the smallest count of first journal
 * rows, those of all accounts counted, in which that sum exceeds it, or all rows used where it
 * doesn't; where refused, 0 to both.
 */
TOLL_LEDGER_CALL
int64_t toll_ledger_debtor(const int64_t *header, size_t header_words,
                           const int64_t *accounts, size_t accounts_words,
                           const int64_t *journal, size_t journal_words,
                           const int64_t *holidays, size_t holidays_words,
                           int64_t account, int64_t *heavy, int64_t *rows_read);

#ifdef __cplusplus
}
#endif

#endif
