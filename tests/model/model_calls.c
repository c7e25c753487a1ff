/* The six calls: the tables' lengths and soundness on entry, then what was asked. */
#include "model.h"

#include <string.h>

#include "model_book.h"

/* The book in tables whose lengths fit. Questions hand in tables that they don't write. */
static struct book book_in(const int64_t *header, const int64_t *accounts, size_t accounts_words,
                           const int64_t *journal, size_t journal_words, const int64_t *holidays,
                           size_t holidays_words)
{
    return (struct book){.header = (struct header *)header,
                         .accounts = (struct account *)accounts,
                         .rows = (struct row *)journal,
                         .holidays = holidays,
                         .count = accounts_words / TOLL_LEDGER_ACCOUNT_WORDS,
                         .room = journal_words / TOLL_LEDGER_ROW_WORDS,
                         .holiday_count = holidays_words};
}

/* Whether the tables are a sound book; it is put to `book`. */
static bool take_up(struct book *book, const int64_t *header, size_t header_words,
                    const int64_t *accounts, size_t accounts_words, const int64_t *journal,
                    size_t journal_words, const int64_t *holidays, size_t holidays_words)
{
    if (!lengths_fit(header_words, accounts_words, journal_words))
        return false;
    *book = book_in(header, accounts, accounts_words, journal, journal_words, holidays, holidays_words);
    return is_sound(book);
}

static void write_answer(int64_t *words, struct answer answer)
{
    words[TOLL_LEDGER_ANSWER_NUMBER] = answer.number;
    words[TOLL_LEDGER_ANSWER_FIRST_ROW] = answer.first_row;
    words[TOLL_LEDGER_ANSWER_NEW_ROWS] = answer.new_rows;
    words[TOLL_LEDGER_ANSWER_RAISED] = answer.raised;
    words[TOLL_LEDGER_ANSWER_REMOVED] = answer.removed;
}

int64_t model_open(int64_t *header, size_t header_words, int64_t *accounts, size_t accounts_words,
                   int64_t *journal, size_t journal_words, const int64_t *holidays,
                   size_t holidays_words, const int64_t *schedule, size_t schedule_words)
{
    if (!lengths_fit(header_words, accounts_words, journal_words))
        return TOLL_LEDGER_UNSOUND;
    if (schedule_words != TOLL_LEDGER_SCHEDULE_WORDS || !schedule_fits(schedule[0], schedule + 1))
        return TOLL_LEDGER_MALFORMED;
    if (!holidays_fit(holidays, holidays_words))
        return TOLL_LEDGER_HOLIDAYS;
    memset(accounts, 0, accounts_words * sizeof *accounts);
    memset(journal, 0, journal_words * sizeof *journal);
    header[TOLL_LEDGER_HEADER_DAY] = schedule[0];
    header[TOLL_LEDGER_HEADER_ROWS_USED] = 0;
    memcpy(header + TOLL_LEDGER_HEADER_STAGE_LENGTH, schedule + 1,
           (TOLL_LEDGER_SCHEDULE_WORDS - 1) * sizeof *schedule);
    header[TOLL_LEDGER_HEADER_FIRST_DAY] = schedule[0];
    memset(header + TOLL_LEDGER_HEADER_LISTS, 0,
           LATER_LISTS * TOLL_LEDGER_LIST_WORDS * sizeof *header);
    return TOLL_LEDGER_POSTED;
}

int64_t model_event(int64_t *header, size_t header_words, int64_t *accounts, size_t accounts_words,
                    int64_t *journal, size_t journal_words, const int64_t *holidays,
                    size_t holidays_words, const int64_t *words, size_t event_words,
                    int64_t *answer, size_t answer_words)
{
    struct book b;
    struct answer given;
    if (!take_up(&b, header, header_words, accounts, accounts_words, journal, journal_words, holidays,
                 holidays_words))
        given = refused(TOLL_LEDGER_UNSOUND);
    else if (event_words != TOLL_LEDGER_EVENT_WORDS || answer_words < TOLL_LEDGER_ANSWER_WORDS)
        given = refused(TOLL_LEDGER_MALFORMED);
    else
        given = post(&b, (const event *)words);
    if (answer_words >= TOLL_LEDGER_ANSWER_WORDS)
        write_answer(answer, given);
    return given.number;
}

int64_t model_batch(int64_t *header, size_t header_words, int64_t *accounts, size_t accounts_words,
                    int64_t *journal, size_t journal_words, const int64_t *holidays,
                    size_t holidays_words, const event *events, size_t count, int64_t *answers,
                    size_t answers_words)
{
    struct book b;
    if (!take_up(&b, header, header_words, accounts, accounts_words, journal, journal_words, holidays,
                 holidays_words))
        return TOLL_LEDGER_UNSOUND;
    if (count > TOLL_LEDGER_MOST_EVENTS || answers_words < count * TOLL_LEDGER_ANSWER_WORDS)
        return TOLL_LEDGER_MALFORMED;
    for (size_t i = 0; i < count; i++)
        write_answer(answers + i * TOLL_LEDGER_ANSWER_WORDS, post(&b, &events[i]));
    return TOLL_LEDGER_POSTED;
}

/* Whether a question on the account is answered, and then the book. */
static int64_t take_up_account(struct book *b, const int64_t *header, size_t header_words,
                               const int64_t *accounts, size_t accounts_words,
                               const int64_t *journal, size_t journal_words,
                               const int64_t *holidays, size_t holidays_words, int64_t account)
{
    if (!take_up(b, header, header_words, accounts, accounts_words, journal, journal_words, holidays,
                 holidays_words))
        return TOLL_LEDGER_UNSOUND;
    const struct account *x = account_of(b, account);
    return x == NULL || x->state == TOLL_LEDGER_STATE_UNUSED ? TOLL_LEDGER_UNKNOWN
                                                             : TOLL_LEDGER_POSTED;
}

/* The answer's number to a question on the account; its value by `answer`, 0 where it is refused. */
static int64_t ask(int64_t (*answer)(const struct book *, int64_t), const int64_t *header,
                   size_t header_words, const int64_t *accounts, size_t accounts_words,
                   const int64_t *journal, size_t journal_words, const int64_t *holidays,
                   size_t holidays_words, int64_t account, int64_t *value)
{
    struct book b;
    const int64_t number = take_up_account(&b, header, header_words, accounts, accounts_words, journal,
                                           journal_words, holidays, holidays_words, account);
    *value = number == TOLL_LEDGER_POSTED ? answer(&b, account) : 0;
    return number;
}

static int64_t topup_due_of(const struct book *b, int64_t account)
{
    return is_topup_due(b, account);
}

int64_t model_balance(const int64_t *header, size_t header_words, const int64_t *accounts,
                      size_t accounts_words, const int64_t *journal, size_t journal_words,
                      const int64_t *holidays, size_t holidays_words, int64_t account,
                      int64_t *value)
{
    return ask(balance_of, header, header_words, accounts, accounts_words, journal, journal_words,
               holidays, holidays_words, account, value);
}

int64_t model_topup_due(const int64_t *header, size_t header_words, const int64_t *accounts,
                        size_t accounts_words, const int64_t *journal, size_t journal_words,
                        const int64_t *holidays, size_t holidays_words, int64_t account,
                        int64_t *value)
{
    return ask(topup_due_of, header, header_words, accounts, accounts_words, journal, journal_words,
               holidays, holidays_words, account, value);
}

int64_t model_debtor(const int64_t *header, size_t header_words, const int64_t *accounts,
                     size_t accounts_words, const int64_t *journal, size_t journal_words,
                     const int64_t *holidays, size_t holidays_words, int64_t account,
                     int64_t *heavy, int64_t *rows_read)
{
    struct book b;
    const int64_t number = take_up_account(&b, header, header_words, accounts, accounts_words, journal,
                                           journal_words, holidays, holidays_words, account);
    const struct debtor d = number == TOLL_LEDGER_POSTED ? debtor_of(&b, account) : (struct debtor){0};
    *heavy = d.debt > TOLL_LEDGER_HEAVY_DEBT;
    *rows_read = d.rows;
    return number;
}
