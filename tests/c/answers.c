/* Every answer number with events that give it, batches, what each request of document 02 brought, books
 * of older versions, and document 01's marked examples M1 to M8. The parts between marks below stand word
 * for word in docs/HOSTS.md; tests/run compares. */
#include "book.h"

#include <string.h>

/* examples: begin */
/* 0 posted: a toll for account 7 takes row 1, a payment settles it. */
static void posted(struct book *b)
{
    CHECK(post(b, TOLL_LEDGER_EVENT_OPEN, 7, 0, 0) == TOLL_LEDGER_POSTED);
    CHECK(post(b, TOLL_LEDGER_EVENT_TOLL, 7, 41, 1, 2, 60, 2) == TOLL_LEDGER_POSTED);
    CHECK(b->answer[TOLL_LEDGER_ANSWER_FIRST_ROW] == 1);
    CHECK(b->answer[TOLL_LEDGER_ANSWER_NEW_ROWS] == 1);
    CHECK(post(b, TOLL_LEDGER_EVENT_PAYMENT, 7, 800, 1) == TOLL_LEDGER_POSTED);
    CHECK(row_of(b, 1)[TOLL_LEDGER_ROW_SETTLED] == 500);
    CHECK(balance(b, 7) == 300);
}

/* 1 unsound: something else wrote the tables, or their lengths are not those of a book. */
static void unsound(struct book *b)
{
    b->header[TOLL_LEDGER_HEADER_ROWS_USED] = 1; /* but row 1 is empty */
    CHECK(post(b, TOLL_LEDGER_EVENT_OPEN, 7, 0, 0) == TOLL_LEDGER_UNSOUND);
    CHECK(sound(b) == TOLL_LEDGER_UNSOUND);
    b->header[TOLL_LEDGER_HEADER_ROWS_USED] = 0;
    CHECK(sound(b) == TOLL_LEDGER_POSTED);
    CHECK(toll_ledger_open(b->header, b->header_words, b->accounts, b->accounts_words - 1, b->journal,
                           b->journal_words, b->holidays, b->holidays_words, example_schedule, 11) == TOLL_LEDGER_UNSOUND);
}

/* 2 malformed: no such kind, a payment of nothing, a word that the kind doesn't name, a tick with an
 * account, an event of eight words; an opening without its last rate. */
static void malformed(struct book *b)
{
    const int64_t event[] = {TOLL_LEDGER_EVENT_OPEN, 7, 0, 0, 0, 0, 0, 0};
    CHECK(post(b, 13, 7) == TOLL_LEDGER_MALFORMED);
    CHECK(post(b, TOLL_LEDGER_EVENT_PAYMENT, 7, 0, 2) == TOLL_LEDGER_MALFORMED);
    CHECK(post(b, TOLL_LEDGER_EVENT_OPEN, 7, 0, 0, 0, 0, 0, 0, 1) == TOLL_LEDGER_MALFORMED);
    CHECK(post(b, TOLL_LEDGER_EVENT_TICK, 7) == TOLL_LEDGER_MALFORMED);
    CHECK(toll_ledger_event(b->header, b->header_words, b->accounts, b->accounts_words, b->journal,
                            b->journal_words, b->holidays, b->holidays_words, event, 8, b->answer,
                            5) == TOLL_LEDGER_MALFORMED);
    CHECK(toll_ledger_open(b->header, b->header_words, b->accounts, b->accounts_words, b->journal,
                           b->journal_words, b->holidays, b->holidays_words, example_schedule, 10) == TOLL_LEDGER_MALFORMED);
}

/* Opens b anew, with other holidays than its own. */
static int64_t open_with(struct book *b, const int64_t *days, size_t count)
{
    return toll_ledger_open(b->header, b->header_words, b->accounts, b->accounts_words, b->journal,
                            b->journal_words, days, count, example_schedule, 11);
}

/* 17 holidays: at opening, a day twice, a day before another, day 0, a day past the last, and one more
 * than 400. The book there is stays. */
static void holidays(struct book *b)
{
    const int64_t twice[] = {17, 17}, falling[] = {31, 17}, early[] = {0, 17}, late[] = {17, 36526};
    int64_t many[TOLL_LEDGER_MOST_HOLIDAYS + 1];
    for (int64_t i = 0; i <= TOLL_LEDGER_MOST_HOLIDAYS; i++)
        many[i] = 17 + i;
    CHECK(post(b, TOLL_LEDGER_EVENT_OPEN, 7, 0, 0) == TOLL_LEDGER_POSTED);
    CHECK(open_with(b, twice, 2) == TOLL_LEDGER_HOLIDAYS && open_with(b, falling, 2) == TOLL_LEDGER_HOLIDAYS);
    CHECK(open_with(b, early, 2) == TOLL_LEDGER_HOLIDAYS && open_with(b, late, 2) == TOLL_LEDGER_HOLIDAYS);
    CHECK(open_with(b, many, TOLL_LEDGER_MOST_HOLIDAYS + 1) == TOLL_LEDGER_HOLIDAYS);
    CHECK(balance(b, 7) == 0);
    CHECK(open_with(b, many, TOLL_LEDGER_MOST_HOLIDAYS) == TOLL_LEDGER_POSTED);
}

/* 15 list: a rate list begins after the last one, and the opening's began on day 1; a ninth list. */
static void list(struct book *b)
{
    CHECK(post(b, TOLL_LEDGER_EVENT_RATE_LIST, 0, 1, 300, 550, 650, 1000, 1300, 1700) == TOLL_LEDGER_LIST);
    for (int64_t i = 1; i < TOLL_LEDGER_MOST_LISTS; i++)
        CHECK(post(b, TOLL_LEDGER_EVENT_RATE_LIST, 0, 1 + i, 300, 550, 650, 1000, 1300, 1700) == TOLL_LEDGER_POSTED);
    CHECK(post(b, TOLL_LEDGER_EVENT_RATE_LIST, 0, 183, 300, 550, 650, 1000, 1300, 1700) == TOLL_LEDGER_LIST);
}

/* 3 unknown: account 8 was never opened, and the table has no account 65. */
static void unknown(struct book *b)
{
    int64_t value;
    CHECK(post(b, TOLL_LEDGER_EVENT_PAYMENT, 8, 500, 2) == TOLL_LEDGER_UNKNOWN);
    CHECK(post(b, TOLL_LEDGER_EVENT_OPEN, 65, 0, 0) == TOLL_LEDGER_UNKNOWN);
    CHECK(ask(toll_ledger_balance, b, 8, &value) == TOLL_LEDGER_UNKNOWN && value == 0);
}

/* 4 taken: an account opens once. */
static void taken(struct book *b)
{
    CHECK(post(b, TOLL_LEDGER_EVENT_OPEN, 7, 0, 0) == TOLL_LEDGER_POSTED);
    CHECK(post(b, TOLL_LEDGER_EVENT_OPEN, 7, 0, 0) == TOLL_LEDGER_TAKEN);
}

/* 5 closed: 15 days after its close request is day 16, a Sunday; from Monday on the account is closed,
 * and has no successor that takes its tolls. */
static void closed(struct book *b)
{
    CHECK(post(b, TOLL_LEDGER_EVENT_OPEN, 7, 0, 0) == TOLL_LEDGER_POSTED);
    CHECK(post(b, TOLL_LEDGER_EVENT_CLOSE_REQUEST, 7) == TOLL_LEDGER_POSTED);
    ticks(b, 15);
    CHECK(post(b, TOLL_LEDGER_EVENT_PAYMENT, 7, 500, 2) == TOLL_LEDGER_POSTED);
    ticks(b, 1);
    CHECK(post(b, TOLL_LEDGER_EVENT_PAYMENT, 7, 500, 2) == TOLL_LEDGER_CLOSED);
    CHECK(post(b, TOLL_LEDGER_EVENT_RESERVE, 7, 1) == TOLL_LEDGER_CLOSED);
    CHECK(post(b, TOLL_LEDGER_EVENT_TOLL, 7, 41, 17, 2, 60, 2) == TOLL_LEDGER_CLOSED);
}

/* 18 successor: account 7 is open, then pending. Once it is closed, its successor is neither itself nor
 * account 9, which is unused, nor 65 or 0, which the table hasn't. Account 8 it may be. */
static void successor(struct book *b)
{
    CHECK(post(b, TOLL_LEDGER_EVENT_OPEN, 7, 0, 0) == TOLL_LEDGER_POSTED);
    CHECK(post(b, TOLL_LEDGER_EVENT_OPEN, 8, 0, 0) == TOLL_LEDGER_POSTED);
    CHECK(post(b, TOLL_LEDGER_EVENT_SUCCESSOR, 7, 8) == TOLL_LEDGER_SUCCESSOR);
    CHECK(post(b, TOLL_LEDGER_EVENT_CLOSE_REQUEST, 7) == TOLL_LEDGER_POSTED);
    CHECK(post(b, TOLL_LEDGER_EVENT_SUCCESSOR, 7, 8) == TOLL_LEDGER_SUCCESSOR);
    ticks(b, 16);
    CHECK(post(b, TOLL_LEDGER_EVENT_SUCCESSOR, 7, 7) == TOLL_LEDGER_SUCCESSOR);
    CHECK(post(b, TOLL_LEDGER_EVENT_SUCCESSOR, 7, 9) == TOLL_LEDGER_SUCCESSOR);
    CHECK(post(b, TOLL_LEDGER_EVENT_SUCCESSOR, 7, 65) == TOLL_LEDGER_SUCCESSOR);
    CHECK(post(b, TOLL_LEDGER_EVENT_SUCCESSOR, 7, 0) == TOLL_LEDGER_SUCCESSOR);
    CHECK(post(b, TOLL_LEDGER_EVENT_SUCCESSOR, 7, 8) == TOLL_LEDGER_POSTED);
    CHECK(account_of(b, 7)[TOLL_LEDGER_ACCOUNT_SUCCESSOR] == 8);
}

/* 6 unclassed: one axle above 90 inches. */
static void unclassed(struct book *b)
{
    CHECK(post(b, TOLL_LEDGER_EVENT_OPEN, 7, 0, 0) == TOLL_LEDGER_POSTED);
    CHECK(post(b, TOLL_LEDGER_EVENT_TOLL, 7, 41, 1, 1, 91, 2) == TOLL_LEDGER_UNCLASSED);
}

/* 7 misdated: a passage of tomorrow, or of 61 days ago. */
static void misdated(struct book *b)
{
    CHECK(post(b, TOLL_LEDGER_EVENT_OPEN, 7, 0, 0) == TOLL_LEDGER_POSTED);
    CHECK(post(b, TOLL_LEDGER_EVENT_TOLL, 7, 41, 2, 2, 60, 2) == TOLL_LEDGER_MISDATED);
    ticks(b, 61);
    CHECK(post(b, TOLL_LEDGER_EVENT_TOLL, 7, 41, 1, 2, 60, 2) == TOLL_LEDGER_MISDATED);
    CHECK(post(b, TOLL_LEDGER_EVENT_TOLL, 7, 41, 2, 2, 60, 2) == TOLL_LEDGER_POSTED);
}

/* 8 duplicate: a passage number posts once, whatever the account. */
static void duplicate(struct book *b)
{
    CHECK(post(b, TOLL_LEDGER_EVENT_OPEN, 7, 0, 0) == TOLL_LEDGER_POSTED);
    CHECK(post(b, TOLL_LEDGER_EVENT_OPEN, 8, 0, 0) == TOLL_LEDGER_POSTED);
    CHECK(post(b, TOLL_LEDGER_EVENT_TOLL, 7, 41, 1, 2, 60, 2) == TOLL_LEDGER_POSTED);
    CHECK(post(b, TOLL_LEDGER_EVENT_TOLL, 8, 41, 1, 5, 60, 1) == TOLL_LEDGER_DUPLICATE);
}

/* 9 barred: a check after three returned ones; cash is still taken. */
static void barred(struct book *b)
{
    CHECK(post(b, TOLL_LEDGER_EVENT_OPEN, 7, 0, 0) == TOLL_LEDGER_POSTED);
    for (int i = 0; i < 3; i++) {
        CHECK(post(b, TOLL_LEDGER_EVENT_PAYMENT, 7, 100, 3) == TOLL_LEDGER_POSTED);
        const int64_t row = b->answer[TOLL_LEDGER_ANSWER_FIRST_ROW];
        CHECK(post(b, TOLL_LEDGER_EVENT_RETURNED_CHECK, 7, row, 0) == TOLL_LEDGER_POSTED);
    }
    CHECK(post(b, TOLL_LEDGER_EVENT_PAYMENT, 7, 100, 3) == TOLL_LEDGER_BARRED);
    CHECK(post(b, TOLL_LEDGER_EVENT_PAYMENT, 7, 100, 2) == TOLL_LEDGER_POSTED);
}

/* 10 no row: row 2 isn't used; row 1 is a toll and no payment; row 1 is of account 7. */
static void no_row(struct book *b)
{
    CHECK(post(b, TOLL_LEDGER_EVENT_OPEN, 7, 0, 0) == TOLL_LEDGER_POSTED);
    CHECK(post(b, TOLL_LEDGER_EVENT_OPEN, 8, 0, 0) == TOLL_LEDGER_POSTED);
    CHECK(post(b, TOLL_LEDGER_EVENT_TOLL, 7, 41, 1, 2, 60, 2) == TOLL_LEDGER_POSTED);
    CHECK(post(b, TOLL_LEDGER_EVENT_DISPUTE, 7, 2) == TOLL_LEDGER_NO_ROW);
    CHECK(post(b, TOLL_LEDGER_EVENT_RETURNED_CHECK, 7, 1, 0) == TOLL_LEDGER_NO_ROW);
    CHECK(post(b, TOLL_LEDGER_EVENT_DISPUTE, 8, 1) == TOLL_LEDGER_NO_ROW);
}

/* 11 untimely: a card payment isn't returned; a settled toll isn't disputed; a toll that isn't held
 * isn't decided; no top-up is due above the threshold; a pending account has made its request; an
 * account without a top-up has no reserve. */
static void untimely(struct book *b)
{
    CHECK(post(b, TOLL_LEDGER_EVENT_OPEN, 7, 0, 2000) == TOLL_LEDGER_POSTED);
    CHECK(post(b, TOLL_LEDGER_EVENT_TOLL, 7, 41, 1, 2, 60, 2) == TOLL_LEDGER_POSTED);
    CHECK(post(b, TOLL_LEDGER_EVENT_PAYMENT, 7, 501, 1) == TOLL_LEDGER_POSTED);
    CHECK(post(b, TOLL_LEDGER_EVENT_RETURNED_CHECK, 7, 2, 0) == TOLL_LEDGER_UNTIMELY);
    CHECK(post(b, TOLL_LEDGER_EVENT_DISPUTE, 7, 1) == TOLL_LEDGER_UNTIMELY);
    CHECK(post(b, TOLL_LEDGER_EVENT_DECISION, 7, 1, 0) == TOLL_LEDGER_UNTIMELY);
    CHECK(topup_due(b, 7) == 0);
    CHECK(post(b, TOLL_LEDGER_EVENT_TOPUP_RESULT, 7, 0, 1) == TOLL_LEDGER_UNTIMELY);
    CHECK(post(b, TOLL_LEDGER_EVENT_CLOSE_REQUEST, 7) == TOLL_LEDGER_POSTED);
    CHECK(post(b, TOLL_LEDGER_EVENT_CLOSE_REQUEST, 7) == TOLL_LEDGER_UNTIMELY);
    CHECK(post(b, TOLL_LEDGER_EVENT_OPEN, 8, 0, 0) == TOLL_LEDGER_POSTED);
    CHECK(post(b, TOLL_LEDGER_EVENT_RESERVE, 8, 1) == TOLL_LEDGER_UNTIMELY);
}

/* 16 reserve: none is there to remove; a second one isn't added. */
static void reserve(struct book *b)
{
    CHECK(post(b, TOLL_LEDGER_EVENT_OPEN, 7, 0, 2000) == TOLL_LEDGER_POSTED);
    CHECK(post(b, TOLL_LEDGER_EVENT_RESERVE, 7, 0) == TOLL_LEDGER_RESERVE);
    CHECK(post(b, TOLL_LEDGER_EVENT_RESERVE, 7, 1) == TOLL_LEDGER_POSTED);
    CHECK(account_of(b, 7)[TOLL_LEDGER_ACCOUNT_RESERVE] == 1);
    CHECK(post(b, TOLL_LEDGER_EVENT_RESERVE, 7, 1) == TOLL_LEDGER_RESERVE);
}

/* 12 last day: a book opened on day 36,525 has no next day. */
static void last_day(struct book *b)
{
    CHECK(today(b) == TOLL_LEDGER_DAYS);
    CHECK(post(b, TOLL_LEDGER_EVENT_TICK, 0) == TOLL_LEDGER_LAST_DAY);
}

/* 13 full: a journal of one row has no second one. */
static void full(struct book *b)
{
    CHECK(post(b, TOLL_LEDGER_EVENT_OPEN, 7, 0, 0) == TOLL_LEDGER_POSTED);
    CHECK(post(b, TOLL_LEDGER_EVENT_PAYMENT, 7, 500, 2) == TOLL_LEDGER_POSTED);
    CHECK(post(b, TOLL_LEDGER_EVENT_PAYMENT, 7, 500, 2) == TOLL_LEDGER_FULL);
}

/* 14 ceiling has no example: a refund takes a row, so at most 8,191 rows can be sources, of at most
 * 1,300,000 each: 10,648,300,000. */
/* examples: end */

/* examples: begin, of batches */
/* Three events in one call: the second is refused, and the third posted all the same. Answers stand one
 * after another, and what is past them stays as it was. With a word too few for them nothing is done. */
static void batches(struct book *b)
{
    const struct toll_ledger_event_record events[3] = {
        {TOLL_LEDGER_EVENT_OPEN, 7, 0, 0, 0, 0, 0, 0, 0},
        {TOLL_LEDGER_EVENT_OPEN, 7, 0, 0, 0, 0, 0, 0, 0},
        {TOLL_LEDGER_EVENT_TOLL, 7, 41, 1, 2, 60, 2, 0, 0},
    };
    int64_t answers[3 * TOLL_LEDGER_ANSWER_WORDS + 1];
    const int64_t *third = answers + 2 * TOLL_LEDGER_ANSWER_WORDS;
    answers[3 * TOLL_LEDGER_ANSWER_WORDS] = -1;
    CHECK(toll_ledger_batch(b->header, b->header_words, b->accounts, b->accounts_words, b->journal, b->journal_words,
                            b->holidays, b->holidays_words, events, 3, answers, 14) == TOLL_LEDGER_MALFORMED);
    CHECK(toll_ledger_batch(b->header, b->header_words, b->accounts, b->accounts_words, b->journal, b->journal_words,
                            b->holidays, b->holidays_words, events, 3, answers, 16) == TOLL_LEDGER_POSTED);
    CHECK(answers[0] == TOLL_LEDGER_POSTED && answers[TOLL_LEDGER_ANSWER_WORDS] == TOLL_LEDGER_TAKEN);
    CHECK(third[TOLL_LEDGER_ANSWER_NUMBER] == TOLL_LEDGER_POSTED && third[TOLL_LEDGER_ANSWER_FIRST_ROW] == 1);
    CHECK(answers[3 * TOLL_LEDGER_ANSWER_WORDS] == -1 && balance(b, 7) == -500);
}
/* examples: end */

/* examples: begin, of rate lists */
/* Rates rise on day 31, and are told on day 1. A passage takes the rates of its own day, however late
 * it comes; what is in the journal keeps its amount, even where a list begins before it was posted. */
static void rates_ahead(struct book *b)
{
    CHECK(post(b, TOLL_LEDGER_EVENT_OPEN, 7, 0, 0) == TOLL_LEDGER_POSTED);
    CHECK(post(b, TOLL_LEDGER_EVENT_RATE_LIST, 0, 31, 300, 550, 650, 1000, 1300, 1700) == TOLL_LEDGER_POSTED);
    CHECK(b->header[TOLL_LEDGER_HEADER_LISTS + TOLL_LEDGER_LIST_FIRST_DAY] == 31);
    ticks(b, 39); /* to day 40 */
    CHECK(post(b, TOLL_LEDGER_EVENT_TOLL, 7, 41, 30, 2, 60, 2) == TOLL_LEDGER_POSTED);
    CHECK(post(b, TOLL_LEDGER_EVENT_TOLL, 7, 42, 31, 2, 60, 2) == TOLL_LEDGER_POSTED);
    CHECK(post(b, TOLL_LEDGER_EVENT_TOLL, 7, 43, 40, 2, 60, 2) == TOLL_LEDGER_POSTED);
    CHECK(post(b, TOLL_LEDGER_EVENT_RATE_LIST, 0, 35, 325, 575, 675, 1025, 1325, 1725) == TOLL_LEDGER_POSTED);
    CHECK(post(b, TOLL_LEDGER_EVENT_TOLL, 7, 44, 40, 2, 60, 2) == TOLL_LEDGER_POSTED);
    CHECK(row_of(b, 1)[TOLL_LEDGER_ROW_AMOUNT] == 500);
    CHECK(row_of(b, 2)[TOLL_LEDGER_ROW_AMOUNT] == 550);
    CHECK(row_of(b, 3)[TOLL_LEDGER_ROW_AMOUNT] == 550);
    CHECK(row_of(b, 4)[TOLL_LEDGER_ROW_AMOUNT] == 575);
}
/* examples: end */

/* examples: begin, of payments */
/* Row 1 is a toll that has risen twice, row 2 its fee, row 3 a later toll. A payment clears both
 * tolls, then 200 of the fee. The toll in row 5 comes before the rest of the fee, which keeps its
 * 200. */
static void tolls_first(struct book *b)
{
    CHECK(post(b, TOLL_LEDGER_EVENT_OPEN, 7, 0, 0) == TOLL_LEDGER_POSTED);
    CHECK(post(b, TOLL_LEDGER_EVENT_TOLL, 7, 41, 1, 2, 60, 2) == TOLL_LEDGER_POSTED);
    ticks(b, 60);
    CHECK(post(b, TOLL_LEDGER_EVENT_TOLL, 7, 42, 61, 2, 60, 2) == TOLL_LEDGER_POSTED);
    CHECK(balance(b, 7) == -1500);
    CHECK(post(b, TOLL_LEDGER_EVENT_PAYMENT, 7, 1200, 1) == TOLL_LEDGER_POSTED); /* row 4 */
    CHECK(row_of(b, 1)[TOLL_LEDGER_ROW_SETTLED] == 500);
    CHECK(row_of(b, 3)[TOLL_LEDGER_ROW_SETTLED] == 500);
    CHECK(row_of(b, 2)[TOLL_LEDGER_ROW_SETTLED] == 200);
    CHECK(post(b, TOLL_LEDGER_EVENT_TOLL, 7, 43, 61, 2, 60, 2) == TOLL_LEDGER_POSTED); /* row 5 */
    CHECK(post(b, TOLL_LEDGER_EVENT_PAYMENT, 7, 400, 1) == TOLL_LEDGER_POSTED);
    CHECK(row_of(b, 5)[TOLL_LEDGER_ROW_SETTLED] == 400);
    CHECK(row_of(b, 2)[TOLL_LEDGER_ROW_SETTLED] == 200);
    CHECK(post(b, TOLL_LEDGER_EVENT_PAYMENT, 7, 400, 1) == TOLL_LEDGER_POSTED);
    CHECK(row_of(b, 5)[TOLL_LEDGER_ROW_SETTLED] == 500);
    CHECK(row_of(b, 2)[TOLL_LEDGER_ROW_SETTLED] == 500);
    CHECK(balance(b, 7) == 0);
}
/* examples: end */

/* examples: begin, of top-ups */
/* A toll in dispute makes no top-up due: the balance includes it, but with the 500 that are held added
 * it is 101, above the threshold. Once the toll is to be paid after all, the top-up is due. */
static void held_topup(struct book *b)
{
    CHECK(post(b, TOLL_LEDGER_EVENT_OPEN, 7, 100, 2000) == TOLL_LEDGER_POSTED);
    CHECK(post(b, TOLL_LEDGER_EVENT_TOLL, 7, 41, 1, 2, 60, 2) == TOLL_LEDGER_POSTED);
    CHECK(post(b, TOLL_LEDGER_EVENT_DISPUTE, 7, 1) == TOLL_LEDGER_POSTED);
    CHECK(post(b, TOLL_LEDGER_EVENT_PAYMENT, 7, 100, 1) == TOLL_LEDGER_POSTED);
    CHECK(balance(b, 7) == -400 && topup_due(b, 7) == 1);
    CHECK(post(b, TOLL_LEDGER_EVENT_PAYMENT, 7, 1, 1) == TOLL_LEDGER_POSTED);
    CHECK(balance(b, 7) == -399 && topup_due(b, 7) == 0);
    CHECK(post(b, TOLL_LEDGER_EVENT_TOPUP_RESULT, 7, 0, 1) == TOLL_LEDGER_UNTIMELY);
    CHECK(post(b, TOLL_LEDGER_EVENT_TOPUP_RESULT, 7, 0, 0) == TOLL_LEDGER_UNTIMELY);
    CHECK(post(b, TOLL_LEDGER_EVENT_DECISION, 7, 1, 0) == TOLL_LEDGER_POSTED);
    CHECK(balance(b, 7) == -399 && topup_due(b, 7) == 1);
}
/* examples: end */

/* examples: begin, of reserves */
/* Posts results that decline, each on a day of its own. */
static void decline(struct book *b, int64_t count)
{
    for (int64_t i = 0; i < count; i++) {
        CHECK(topup_due(b, 7) == 1);
        CHECK(post(b, TOLL_LEDGER_EVENT_TOPUP_RESULT, 7, 0, 0) == TOLL_LEDGER_POSTED);
        ticks(b, 1);
    }
}

/* The reserve is asked after two declines and pays: it is the primary now, with no decline. Once
 * another reserve is there and is declined in its turn, the account has no top-up any more. */
static void reserve_life(struct book *b)
{
    const int64_t *x = account_of(b, 7);
    CHECK(post(b, TOLL_LEDGER_EVENT_OPEN, 7, 100, 2000) == TOLL_LEDGER_POSTED);
    CHECK(post(b, TOLL_LEDGER_EVENT_RESERVE, 7, 1) == TOLL_LEDGER_POSTED);
    decline(b, 2);
    CHECK(x[TOLL_LEDGER_ACCOUNT_DECLINES] == 2 && x[TOLL_LEDGER_ACCOUNT_RESERVE] == 1);
    CHECK(post(b, TOLL_LEDGER_EVENT_TOPUP_RESULT, 7, 0, 1) == TOLL_LEDGER_POSTED);
    CHECK(b->answer[TOLL_LEDGER_ANSWER_REMOVED] == 0 && balance(b, 7) == 2000);
    CHECK(x[TOLL_LEDGER_ACCOUNT_THRESHOLD] == 100 && x[TOLL_LEDGER_ACCOUNT_TOPUP] == 2000);
    CHECK(x[TOLL_LEDGER_ACCOUNT_DECLINES] == 0 && x[TOLL_LEDGER_ACCOUNT_LAST_DECLINE] == 0);
    CHECK(x[TOLL_LEDGER_ACCOUNT_RESERVE] == 0);
    for (int64_t passage = 1; passage <= 4; passage++)
        CHECK(post(b, TOLL_LEDGER_EVENT_TOLL, 7, passage, 1, 2, 60, 2) == TOLL_LEDGER_POSTED);
    decline(b, 2);
    CHECK(post(b, TOLL_LEDGER_EVENT_RESERVE, 7, 1) == TOLL_LEDGER_POSTED); /* and asked next */
    CHECK(b->answer[TOLL_LEDGER_ANSWER_REMOVED] == 0);
    CHECK(post(b, TOLL_LEDGER_EVENT_TOPUP_RESULT, 7, 0, 0) == TOLL_LEDGER_POSTED);
    CHECK(b->answer[TOLL_LEDGER_ANSWER_REMOVED] == 1);
    for (int word = TOLL_LEDGER_ACCOUNT_THRESHOLD; word <= TOLL_LEDGER_ACCOUNT_RESERVE; word++)
        CHECK(x[word] == 0);
}
/* examples: end */

/* examples: begin, of heavy debtors */
/* Row 1 is of account 8, rows 2 to 17 are sixteen tolls of 1,600 for account 7: 25,600, which the last of
 * them brings above 25,000. A toll more is not read; one in dispute doesn't count, so that it is.
 * With 600 paid the rest is just 25,000, and all rows are read. Once the dispute is over, 25,000 stand
 * in the rows to 17 again, and row 18 is above. */
static void heavy_debtors(struct book *b)
{
    int64_t rows;
    CHECK(post(b, TOLL_LEDGER_EVENT_OPEN, 7, 0, 0) == TOLL_LEDGER_POSTED);
    CHECK(post(b, TOLL_LEDGER_EVENT_OPEN, 8, 0, 0) == TOLL_LEDGER_POSTED);
    CHECK(post(b, TOLL_LEDGER_EVENT_TOLL, 8, 40, 1, 5, 60, 2) == TOLL_LEDGER_POSTED);
    for (int64_t passage = 41; passage <= 56; passage++) {
        CHECK(heavy_debtor(b, 7, &rows) == 0 && rows == passage - 40); /* the rows used */
        CHECK(post(b, TOLL_LEDGER_EVENT_TOLL, 7, passage, 1, 5, 60, 2) == TOLL_LEDGER_POSTED);
    }
    CHECK(heavy_debtor(b, 7, &rows) == 1 && rows == 17);
    CHECK(post(b, TOLL_LEDGER_EVENT_TOLL, 7, 57, 1, 5, 60, 2) == TOLL_LEDGER_POSTED); /* row 18 */
    CHECK(heavy_debtor(b, 7, &rows) == 1 && rows == 17);
    CHECK(post(b, TOLL_LEDGER_EVENT_DISPUTE, 7, 2) == TOLL_LEDGER_POSTED);
    CHECK(heavy_debtor(b, 7, &rows) == 1 && rows == 18);
    CHECK(post(b, TOLL_LEDGER_EVENT_PAYMENT, 7, 600, 1) == TOLL_LEDGER_POSTED); /* row 19 */
    CHECK(heavy_debtor(b, 7, &rows) == 0 && rows == 19);
    CHECK(post(b, TOLL_LEDGER_EVENT_DECISION, 7, 2, 0) == TOLL_LEDGER_POSTED);
    CHECK(heavy_debtor(b, 7, &rows) == 1 && rows == 18);
    CHECK(heavy_debtor(b, 8, &rows) == 0 && rows == 19);
}
/* examples: end */

/* examples: begin, of business days */
/* Account 7 asks to close on day 1. The first day that is 15 days on is day 16, a Sunday, and Monday
 * is a holiday: it closes on Tuesday, day 18, and its money leaves then. lend_holidays has b lend this
 * list in every call from now on, the opening too. */
static void business_days(struct book *b)
{
    const int64_t days[] = {17};
    lend_holidays(b, days, 1);
    CHECK(open_with(b, b->holidays, b->holidays_words) == TOLL_LEDGER_POSTED);
    CHECK(post(b, TOLL_LEDGER_EVENT_OPEN, 7, 0, 0) == TOLL_LEDGER_POSTED);
    CHECK(post(b, TOLL_LEDGER_EVENT_PAYMENT, 7, 700, 2) == TOLL_LEDGER_POSTED);
    CHECK(post(b, TOLL_LEDGER_EVENT_CLOSE_REQUEST, 7) == TOLL_LEDGER_POSTED);
    ticks(b, 16);
    CHECK(today(b) == 17 && balance(b, 7) == 700);
    ticks(b, 1);
    CHECK(account_of(b, 7)[TOLL_LEDGER_ACCOUNT_STATE] == TOLL_LEDGER_STATE_CLOSED);
    CHECK(row_of(b, 2)[TOLL_LEDGER_ROW_KIND] == TOLL_LEDGER_KIND_REFUND && balance(b, 7) == 0);
}
/* examples: end */

/* examples: begin, of successors */
/* Whose the toll in a row is. */
static int64_t debtor_of(struct book *b, int64_t row)
{
    CHECK(row_of(b, row)[TOLL_LEDGER_ROW_KIND] == TOLL_LEDGER_KIND_TOLL);
    return row_of(b, row)[TOLL_LEDGER_ROW_ACCOUNT];
}

/* Account 7, closed on day 17, has account 8 as its successor: the toll for 7 in row 4 is of 8, and paid
 * from its money. A check of 7 that comes back makes 7 pending: it keeps its successor and takes the toll
 * in row 7 itself. With all paid it closes again, and row 9 is of 8. Account 8 closes too, and 9 is its
 * successor: a toll for 7 is refused, as 8 doesn't take it, until 9 is named for 7 as well. */
static void passed_on(struct book *b)
{
    for (int64_t n = 7; n <= 9; n++)
        CHECK(post(b, TOLL_LEDGER_EVENT_OPEN, n, 0, 0) == TOLL_LEDGER_POSTED);
    CHECK(post(b, TOLL_LEDGER_EVENT_PAYMENT, 7, 700, 3) == TOLL_LEDGER_POSTED);
    CHECK(post(b, TOLL_LEDGER_EVENT_CLOSE_REQUEST, 7) == TOLL_LEDGER_POSTED);
    ticks(b, 16); /* row 2 refunds the 700 */
    CHECK(post(b, TOLL_LEDGER_EVENT_SUCCESSOR, 7, 8) == TOLL_LEDGER_POSTED);
    CHECK(post(b, TOLL_LEDGER_EVENT_PAYMENT, 8, 800, 1) == TOLL_LEDGER_POSTED); /* row 3 */
    CHECK(post(b, TOLL_LEDGER_EVENT_TOLL, 7, 41, 17, 2, 60, 2) == TOLL_LEDGER_POSTED);
    CHECK(b->answer[TOLL_LEDGER_ANSWER_FIRST_ROW] == 4 && debtor_of(b, 4) == 8);
    CHECK(row_of(b, 4)[TOLL_LEDGER_ROW_SETTLED] == 500 && balance(b, 8) == 300 && balance(b, 7) == 0);
    CHECK(post(b, TOLL_LEDGER_EVENT_RETURNED_CHECK, 7, 1, 0) == TOLL_LEDGER_POSTED); /* rows 5 and 6 */
    CHECK(post(b, TOLL_LEDGER_EVENT_TOLL, 7, 42, 17, 2, 60, 2) == TOLL_LEDGER_POSTED);
    CHECK(debtor_of(b, 7) == 7 && account_of(b, 7)[TOLL_LEDGER_ACCOUNT_SUCCESSOR] == 8);
    CHECK(post(b, TOLL_LEDGER_EVENT_PAYMENT, 7, 1700, 2) == TOLL_LEDGER_POSTED); /* row 8 */
    ticks(b, 1);
    CHECK(post(b, TOLL_LEDGER_EVENT_TOLL, 7, 43, 18, 1, 60, 1) == TOLL_LEDGER_POSTED);
    CHECK(debtor_of(b, 9) == 8 && balance(b, 8) == 50);
    CHECK(post(b, TOLL_LEDGER_EVENT_CLOSE_REQUEST, 8) == TOLL_LEDGER_POSTED);
    ticks(b, 15); /* row 10 refunds the 50 */
    CHECK(post(b, TOLL_LEDGER_EVENT_SUCCESSOR, 8, 9) == TOLL_LEDGER_POSTED);
    CHECK(post(b, TOLL_LEDGER_EVENT_TOLL, 7, 44, 18, 2, 60, 2) == TOLL_LEDGER_CLOSED);
    CHECK(post(b, TOLL_LEDGER_EVENT_SUCCESSOR, 7, 9) == TOLL_LEDGER_POSTED);
    CHECK(post(b, TOLL_LEDGER_EVENT_TOLL, 7, 44, 18, 2, 60, 2) == TOLL_LEDGER_POSTED);
    CHECK(debtor_of(b, 11) == 9);
}
/* examples: end */

/* examples: begin, of older books */
/* Puts accounts of `width` words each into b's table: the old words first, then 0 for the new ones. */
static void widen(struct book *b, const int64_t *old, size_t width)
{
    for (size_t n = 0; n < b->accounts_words / TOLL_LEDGER_ACCOUNT_WORDS; n++)
        for (size_t word = 0; word < TOLL_LEDGER_ACCOUNT_WORDS; word++)
            b->accounts[TOLL_LEDGER_ACCOUNT_WORDS * n + word] = word < width ? old[width * n + word] : 0;
}

/* The three accounts of a book as 4.1.0 left them: 1 has a top-up that was declined once, and a reserve,
 * 2 is pending, 3 unused. Widened they are those of the same events by this version. */
static void older_book(struct book *b)
{
    const int64_t old[3 * 8] = {1, 0, 0, 100, 2000, 1, 1, 1, 2, 1, 0, 0, 0, 0, 0, 0};
    CHECK(post(b, TOLL_LEDGER_EVENT_OPEN, 1, 100, 2000) == TOLL_LEDGER_POSTED);
    CHECK(post(b, TOLL_LEDGER_EVENT_TOPUP_RESULT, 1, 0, 0) == TOLL_LEDGER_POSTED);
    CHECK(post(b, TOLL_LEDGER_EVENT_RESERVE, 1, 1) == TOLL_LEDGER_POSTED);
    CHECK(post(b, TOLL_LEDGER_EVENT_OPEN, 2, 0, 0) == TOLL_LEDGER_POSTED);
    CHECK(post(b, TOLL_LEDGER_EVENT_CLOSE_REQUEST, 2) == TOLL_LEDGER_POSTED);
    int64_t *words = copy_words(b);
    widen(b, old, 8);
    CHECK(same_words(b, words) && sound(b) == TOLL_LEDGER_POSTED);
    free(words);
}
/* examples: end */

/* As near to 14 as a book comes: a journal of credits for one settled toll, and a single free row. */
static void largest_refund(struct book *b)
{
    const int64_t rows = (int64_t)(b->journal_words / TOLL_LEDGER_ROW_WORDS);
    const int64_t toll[] = {1, 7, 1, 1, 1, 0, 1, 3, 0, 41};
    CHECK(post(b, TOLL_LEDGER_EVENT_OPEN, 7, 0, 0) == TOLL_LEDGER_POSTED);
    CHECK(post(b, TOLL_LEDGER_EVENT_CLOSE_REQUEST, 7) == TOLL_LEDGER_POSTED);
    ticks(b, 15); /* to day 16, a Sunday */
    memcpy(row_of(b, 1), toll, sizeof toll);
    for (int64_t n = 2; n < rows; n++) {
        const int64_t credit[] = {5, 7, 1, 1300000, n == 2, 0, 0, 0, 0, 1};
        memcpy(row_of(b, n), credit, sizeof credit);
    }
    b->header[TOLL_LEDGER_HEADER_ROWS_USED] = rows - 1;
    const int64_t money = (rows - 2) * 1300000 - 1;
    CHECK(balance(b, 7) == money);
    ticks(b, 1);
    CHECK(b->answer[TOLL_LEDGER_ANSWER_FIRST_ROW] == rows);
    CHECK(row_of(b, rows)[TOLL_LEDGER_ROW_KIND] == TOLL_LEDGER_KIND_REFUND);
    CHECK(row_of(b, rows)[TOLL_LEDGER_ROW_AMOUNT] == money);
    CHECK(balance(b, 7) == 0);
    CHECK(sound(b) == TOLL_LEDGER_POSTED);
}

/* M1: document 01's listing. */
static void listing(struct book *b)
{
    const int64_t rows[4][5] = {/* account, kind, day, amount, settled */
                                {7, 1, 1, 500, 500}, {7, 4, 1, 300, 300}, {7, 4, 1, 400, 0}, {7, 5, 1, 500, 200}};
    CHECK(post(b, TOLL_LEDGER_EVENT_OPEN, 7, 0, 0) == TOLL_LEDGER_POSTED);
    CHECK(post(b, TOLL_LEDGER_EVENT_TOLL, 7, 41, 1, 2, 60, 2) == TOLL_LEDGER_POSTED);
    CHECK(post(b, TOLL_LEDGER_EVENT_PAYMENT, 7, 300, 2) == TOLL_LEDGER_POSTED);
    CHECK(post(b, TOLL_LEDGER_EVENT_DISPUTE, 7, 1) == TOLL_LEDGER_POSTED);
    CHECK(post(b, TOLL_LEDGER_EVENT_PAYMENT, 7, 400, 1) == TOLL_LEDGER_POSTED);
    CHECK(post(b, TOLL_LEDGER_EVENT_DECISION, 7, 1, 1) == TOLL_LEDGER_POSTED);
    CHECK(b->answer[TOLL_LEDGER_ANSWER_FIRST_ROW] == 4 && b->answer[TOLL_LEDGER_ANSWER_NEW_ROWS] == 1);
    CHECK(post(b, TOLL_LEDGER_EVENT_TOLL, 7, 41, 1, 2, 60, 2) == TOLL_LEDGER_DUPLICATE);
    for (int64_t n = 1; n <= 4; n++) {
        const int64_t *row = row_of(b, n), *want = rows[n - 1];
        CHECK(row[1] == want[0] && row[0] == want[1] && row[2] == want[2] && row[3] == want[3] && row[4] == want[4]);
    }
    CHECK(account_of(b, 7)[TOLL_LEDGER_ACCOUNT_STATE] == TOLL_LEDGER_STATE_OPEN);
    CHECK(balance(b, 7) == 700);
}

/* M2, M4: the amounts of tolls by class. */
static void classes(struct book *b)
{
    const int64_t cases[][4] = {/* axles, height, mode, amount */
                                {1, 0, 1, 250},  {2, 90, 1, 250}, {2, 90, 2, 500},  {2, 91, 1, 600},   {3, 0, 2, 900},
                                {4, 999, 1, 600}, {5, 0, 1, 1200}, {5, 91, 2, 1600}, {99, 999, 2, 1600}};
    CHECK(post(b, TOLL_LEDGER_EVENT_OPEN, 7, 0, 0) == TOLL_LEDGER_POSTED);
    for (int64_t i = 0; i < (int64_t)(sizeof cases / sizeof cases[0]); i++) {
        const int64_t *c = cases[i];
        CHECK(post(b, TOLL_LEDGER_EVENT_TOLL, 7, 41 + i, 1, c[0], c[1], c[2]) == TOLL_LEDGER_POSTED);
        CHECK(row_of(b, i + 1)[TOLL_LEDGER_ROW_AMOUNT] == c[3]);
    }
}

/* M6: an unpaid toll rises each 30 days, with a fee from stage 2; M7: a dispute ends by itself. */
static void stages_and_holds(struct book *b)
{
    CHECK(post(b, TOLL_LEDGER_EVENT_OPEN, 7, 0, 0) == TOLL_LEDGER_POSTED);
    CHECK(post(b, TOLL_LEDGER_EVENT_TOLL, 7, 41, 1, 2, 60, 2) == TOLL_LEDGER_POSTED);
    ticks(b, 9);
    CHECK(post(b, TOLL_LEDGER_EVENT_TOLL, 7, 42, 1, 2, 60, 2) == TOLL_LEDGER_POSTED);
    CHECK(post(b, TOLL_LEDGER_EVENT_DISPUTE, 7, 2) == TOLL_LEDGER_POSTED);
    ticks(b, 20);
    CHECK(row_of(b, 1)[TOLL_LEDGER_ROW_MARK] == 0);
    ticks(b, 1);
    CHECK(row_of(b, 1)[TOLL_LEDGER_ROW_MARK] == 1 && b->answer[TOLL_LEDGER_ANSWER_RAISED] == 1);
    ticks(b, 8);
    CHECK(today(b) == 39 && row_of(b, 2)[TOLL_LEDGER_ROW_DISPUTE] == TOLL_LEDGER_DISPUTE_HELD);
    ticks(b, 1);
    CHECK(row_of(b, 2)[TOLL_LEDGER_ROW_DISPUTE] == TOLL_LEDGER_DISPUTE_ENDED);
    CHECK(row_of(b, 2)[TOLL_LEDGER_ROW_DUE_DAY] == 70);
    ticks(b, 20);
    CHECK(row_of(b, 1)[TOLL_LEDGER_ROW_MARK] == 1 && b->header[TOLL_LEDGER_HEADER_ROWS_USED] == 2);
    ticks(b, 1);
    CHECK(row_of(b, 1)[TOLL_LEDGER_ROW_MARK] == 2);
    CHECK(b->answer[TOLL_LEDGER_ANSWER_FIRST_ROW] == 3 && b->answer[TOLL_LEDGER_ANSWER_NEW_ROWS] == 1);
    CHECK(row_of(b, 3)[TOLL_LEDGER_ROW_KIND] == TOLL_LEDGER_KIND_FEE);
    CHECK(row_of(b, 3)[TOLL_LEDGER_ROW_AMOUNT] == 500 && row_of(b, 3)[TOLL_LEDGER_ROW_REFERENCE] == 1);
    CHECK(balance(b, 7) == -1500);
}

/* M8: a request on day 5 closes the account on day 20, its money refunded; and a check of it that
 * comes back makes it pending again. */
static void closing(struct book *b)
{
    CHECK(post(b, TOLL_LEDGER_EVENT_OPEN, 7, 0, 0) == TOLL_LEDGER_POSTED);
    CHECK(post(b, TOLL_LEDGER_EVENT_PAYMENT, 7, 700, 3) == TOLL_LEDGER_POSTED);
    ticks(b, 4);
    CHECK(post(b, TOLL_LEDGER_EVENT_CLOSE_REQUEST, 7) == TOLL_LEDGER_POSTED);
    ticks(b, 14);
    CHECK(account_of(b, 7)[TOLL_LEDGER_ACCOUNT_STATE] == TOLL_LEDGER_STATE_PENDING);
    ticks(b, 1);
    CHECK(today(b) == 20);
    CHECK(account_of(b, 7)[TOLL_LEDGER_ACCOUNT_STATE] == TOLL_LEDGER_STATE_CLOSED);
    CHECK(row_of(b, 2)[TOLL_LEDGER_ROW_KIND] == TOLL_LEDGER_KIND_REFUND && row_of(b, 2)[TOLL_LEDGER_ROW_AMOUNT] == 700);
    CHECK(post(b, TOLL_LEDGER_EVENT_RETURNED_CHECK, 7, 1, 200) == TOLL_LEDGER_POSTED);
    CHECK(account_of(b, 7)[TOLL_LEDGER_ACCOUNT_STATE] == TOLL_LEDGER_STATE_PENDING);
    CHECK(account_of(b, 7)[TOLL_LEDGER_ACCOUNT_REQUEST_DAY] == 5);
    CHECK(balance(b, 7) == -1400);
}

/* A top-up falls due, is declined once a day, and is removed by the third decline. */
static void declines(struct book *b)
{
    CHECK(post(b, TOLL_LEDGER_EVENT_OPEN, 7, 100, 2000) == TOLL_LEDGER_POSTED);
    for (int i = 0; i < 3; i++) {
        CHECK(topup_due(b, 7) == 1);
        CHECK(post(b, TOLL_LEDGER_EVENT_TOPUP_RESULT, 7, 0, 0) == TOLL_LEDGER_POSTED);
        CHECK(b->answer[TOLL_LEDGER_ANSWER_REMOVED] == (i == 2));
        CHECK(topup_due(b, 7) == 0);
        CHECK(post(b, TOLL_LEDGER_EVENT_TOPUP_RESULT, 7, 0, 0) == TOLL_LEDGER_UNTIMELY);
        ticks(b, 1);
    }
    for (int word = TOLL_LEDGER_ACCOUNT_THRESHOLD; word <= TOLL_LEDGER_ACCOUNT_RESERVE; word++)
        CHECK(account_of(b, 7)[word] == 0);
}

int main(void)
{
    const struct {
        void (*run)(struct book *);
        size_t accounts, rows;
        int64_t first_day;
    } examples[] = {
        {posted, 64, 512, 1},    {unsound, 64, 512, 1},   {malformed, 64, 512, 1}, {list, 64, 512, 1},      {unknown, 64, 512, 1},
        {taken, 64, 512, 1},     {closed, 64, 512, 1},    {unclassed, 64, 512, 1}, {misdated, 64, 512, 1},
        {duplicate, 64, 512, 1}, {barred, 64, 512, 1},    {no_row, 64, 512, 1},    {untimely, 64, 512, 1},
        {last_day, 64, 512, 36525}, {full, 64, 1, 1},     {largest_refund, 7, 8192, 1}, {listing, 64, 512, 1},
        {classes, 64, 512, 1},   {stages_and_holds, 64, 512, 1}, {closing, 64, 512, 1}, {declines, 64, 512, 1},
        {rates_ahead, 64, 512, 1}, {held_topup, 64, 512, 1}, {reserve, 64, 512, 1},
        {reserve_life, 64, 512, 1}, {tolls_first, 64, 512, 1},
        {holidays, 64, 512, 1}, {business_days, 64, 512, 1}, {heavy_debtors, 64, 512, 1},
        {batches, 64, 512, 1},   {successor, 64, 512, 1}, {passed_on, 64, 512, 1}, {older_book, 3, 8, 1},
    };
    for (size_t i = 0; i < sizeof examples / sizeof examples[0]; i++) {
        struct book b = open_book(examples[i].accounts, examples[i].rows, examples[i].first_day);
        examples[i].run(&b);
        free_book(&b);
    }
    return 0;
}
