/* The borders of the calls: lengths of every kind, words of every size, rate lists, holidays,
 * reserves, the order of payment, heavy debtors, successors, answer tables, batches, and full books.
 * Every table stands in a place of exactly its size. */
#include "book.h"

#include <string.h>

static const int64_t wild[] = {INT64_MIN, -1, INT64_C(1) << 62, INT64_MAX};
#define WILD (sizeof wild / sizeof wild[0])

#define LATER_LISTS (TOLL_LEDGER_MOST_LISTS - 1)

/* The words of list i, from 2 on. */
static int64_t *list_of(struct book *b, int i)
{
    return b->header + TOLL_LEDGER_HEADER_LISTS + (i - 2) * TOLL_LEDGER_LIST_WORDS;
}

/* Posts a list of six rates, each by one more than the one before. */
static int64_t add_list(struct book *b, int64_t first_day, int64_t rate)
{
    return post(b, TOLL_LEDGER_EVENT_RATE_LIST, 0, first_day, rate, rate + 1, rate + 2, rate + 3, rate + 4, rate + 5);
}

/* Posts a batch from an exact list into an exact answer table; gives the call's number. A refused
 * batch writes nothing, and no batch writes past its answers. */
static int64_t batch(struct book *book, const struct toll_ledger_event_record *events, size_t count,
                     int64_t *answers, size_t words)
{
    int64_t *before = copy_words(book);
    int64_t *list = new_table(count * TOLL_LEDGER_EVENT_WORDS), *table = new_table(words);
    if (count > 0)
        memcpy(list, events, count * sizeof *events);
    const int64_t number = toll_ledger_batch(
        TABLES(book), (struct toll_ledger_event_record *)(void *)list, count, table, words);
    if (number != 0)
        CHECK(same_words(book, before));
    for (size_t i = number == 0 ? count * TOLL_LEDGER_ANSWER_WORDS : 0; i < words; i++)
        CHECK(table[i] == -77);
    if (answers != NULL && words > 0)
        memcpy(answers, table, words * sizeof *answers);
    free_table(table, words);
    free_table(list, count * TOLL_LEDGER_EVENT_WORDS);
    free(before);
    return number;
}

/* A book with a row of every kind, every state of an account, a held toll with a fee, rate lists
 * begun and to begin, holidays gone by and to come, and a successor. */
static struct book varied_book(void)
{
    static const int64_t days[] = {1, 17, 18, 62, 400, 36525};
    struct book b = open_book_with(5, 16, 1, days, sizeof days / sizeof days[0]);
    CHECK(post(&b, TOLL_LEDGER_EVENT_OPEN, 1, 100, 2000) == 0);
    CHECK(post(&b, TOLL_LEDGER_EVENT_OPEN, 2, 0, 0) == 0);
    CHECK(post(&b, TOLL_LEDGER_EVENT_OPEN, 3, 0, 0) == 0);
    CHECK(post(&b, TOLL_LEDGER_EVENT_OPEN, 4, 0, 0) == 0);
    CHECK(post(&b, TOLL_LEDGER_EVENT_TOLL, 1, 41, 1, 2, 60, 2) == 0); /* row 1 */
    CHECK(post(&b, TOLL_LEDGER_EVENT_TOLL, 2, 42, 1, 5, 60, 1) == 0); /* row 2 */
    CHECK(post(&b, TOLL_LEDGER_EVENT_PAYMENT, 3, 700, 2) == 0); /* row 3 */
    CHECK(post(&b, TOLL_LEDGER_EVENT_CLOSE_REQUEST, 3) == 0);
    ticks(&b, 60);                               /* rows 4 to 6: refund of 3, fees of 1 and 2 */
    CHECK(post(&b, TOLL_LEDGER_EVENT_DISPUTE, 1, 1) == 0);   /* row 1 held */
    CHECK(post(&b, TOLL_LEDGER_EVENT_DISPUTE, 2, 2) == 0);
    CHECK(post(&b, TOLL_LEDGER_EVENT_DECISION, 2, 2, 1) == 0);   /* row 7: credit */
    CHECK(post(&b, TOLL_LEDGER_EVENT_PAYMENT, 4, 900, 3) == 0); /* row 8 */
    CHECK(post(&b, TOLL_LEDGER_EVENT_RETURNED_CHECK, 4, 8, 100) == 0); /* rows 9, 10: reversal and fee */
    CHECK(post(&b, TOLL_LEDGER_EVENT_CLOSE_REQUEST, 4) == 0);
    CHECK(post(&b, TOLL_LEDGER_EVENT_TOPUP_RESULT, 1, 0, 0) == 0);   /* declined */
    CHECK(post(&b, TOLL_LEDGER_EVENT_RESERVE, 1, 1) == 0);
    CHECK(add_list(&b, 50, 300) == 0 && add_list(&b, 61, 400) == 0 && add_list(&b, 500, 600) == 0);
    CHECK(b.header[TOLL_LEDGER_HEADER_ROWS_USED] == 10);
    CHECK(account_of(&b, 3)[0] == 3 && account_of(&b, 4)[0] == 2 && account_of(&b, 5)[0] == 0);
    CHECK(post(&b, TOLL_LEDGER_EVENT_SUCCESSOR, 3, 1) == 0);
    return b;
}

/* Every call but opening gives 1 and writes nothing to the book. */
static void all_refuse_as_unsound(struct book *b)
{
    const struct toll_ledger_event_record one = record(TOLL_LEDGER_EVENT_TICK, 0);
    int64_t value, rows_read;
    CHECK(post(b, TOLL_LEDGER_EVENT_TICK, 0) == TOLL_LEDGER_UNSOUND);
    CHECK(batch(b, &one, 1, NULL, 5) == TOLL_LEDGER_UNSOUND);
    CHECK(ask(toll_ledger_balance, b, 1, &value) == TOLL_LEDGER_UNSOUND);
    CHECK(ask(toll_ledger_topup_due, b, 1, &value) == TOLL_LEDGER_UNSOUND);
    CHECK(ask_debtor(b, 1, &value, &rows_read) == TOLL_LEDGER_UNSOUND);
}

static int fits(size_t header, size_t accounts, size_t journal)
{
    return header == 62 && accounts % 9 == 0 && accounts >= 9 && accounts <= 256 * 9 &&
           journal % 10 == 0 && journal >= 10 && journal <= 8192 * 10;
}

static void lengths_of_tables(void)
{
    const size_t headers[] = {0, 1, 12, 13, 61, 62, 63, 69, 124};
    const size_t accounts[] = {0, 1, 7, 8, 9, 10, 16, 17, 18, 27,
                               256 * 8, 256 * 9 - 1, 256 * 9, 256 * 9 + 1, 257 * 9};
    const size_t journals[] = {0, 1, 9, 10, 11, 19, 20, 30, 8192 * 10 - 1, 8192 * 10, 8192 * 10 + 1, 8193 * 10};
    for (size_t h = 0; h < sizeof headers / sizeof headers[0]; h++)
        for (size_t a = 0; a < sizeof accounts / sizeof accounts[0]; a++)
            for (size_t j = 0; j < sizeof journals / sizeof journals[0]; j++) {
                /* large tables beside ordinary ones alone: each pair of lengths is met often enough */
                if (accounts[a] > 100 && journals[j] > 100 && headers[h] != 62)
                    continue;
                struct book b = {.header_words = headers[h], .accounts_words = accounts[a], .journal_words = journals[j]};
                b.header = new_table(b.header_words);
                b.accounts = new_table(b.accounts_words);
                b.journal = new_table(b.journal_words);
                b.holidays = new_table(0);
                int64_t *before = copy_words(&b);
                const int fit = fits(headers[h], accounts[a], journals[j]);
                const int64_t number =
                    toll_ledger_open(TABLES(&b), example_schedule, TOLL_LEDGER_SCHEDULE_WORDS);
                CHECK(number == (fit ? TOLL_LEDGER_POSTED : TOLL_LEDGER_UNSOUND));
                if (fit)
                    CHECK(sound(&b) == TOLL_LEDGER_POSTED);
                else {
                    CHECK(same_words(&b, before));
                    all_refuse_as_unsound(&b);
                }
                free(before);
                free_book(&b);
            }
}

/* A sound book's own words in tables that are cut short or have words after them. */
static void lengths_of_a_sound_book(void)
{
    struct book whole = varied_book();
    for (int which = 0; which < 3; which++)
        for (size_t more = 0; more <= 24; more++) { /* from 12 words less to 12 more */
            struct book b = whole;
            size_t *words = which == 0 ? &b.header_words : which == 1 ? &b.accounts_words : &b.journal_words;
            const size_t had = *words;
            *words = had + more - 12;
            b.header = new_table(b.header_words);
            b.accounts = new_table(b.accounts_words);
            b.journal = new_table(b.journal_words);
            b.holidays = new_table(b.holidays_words);
            lend_holidays(&b, whole.holidays, whole.holidays_words);
            memset(b.header, 0, b.header_words * sizeof(int64_t));
            memset(b.accounts, 0, b.accounts_words * sizeof(int64_t));
            memset(b.journal, 0, b.journal_words * sizeof(int64_t));
            memcpy(b.header, whole.header, (which == 0 && more < 12 ? *words : whole.header_words) * sizeof(int64_t));
            memcpy(b.accounts, whole.accounts, (which == 1 && more < 12 ? *words : whole.accounts_words) * sizeof(int64_t));
            memcpy(b.journal, whole.journal, (which == 2 && more < 12 ? *words : whole.journal_words) * sizeof(int64_t));
            /* whole records more, and unused ones less, leave a sound book */
            const int keeps = which == 1 ? more == 3 || more == 12 || more == 21
                                         : which == 2 ? more == 2 || more == 12 || more == 22 : more == 12;
            if (keeps)
                CHECK(sound(&b) == TOLL_LEDGER_POSTED);
            else
                all_refuse_as_unsound(&b);
            free_book(&b);
        }
    free_book(&whole);
}

/* Accounts of eight words, or of seven, as books of older versions have them. Five have no length of
 * this one; nine have that of as many accounts here as each had words, and are sound where few are used. */
static void older_accounts(size_t width)
{
    struct book whole = varied_book(), b = whole;
    b.accounts_words = 5 * width;
    b.accounts = new_table(b.accounts_words);
    for (size_t n = 0; n < 5; n++)
        memcpy(b.accounts + width * n, account_of(&whole, (int64_t)n + 1), width * sizeof(int64_t));
    all_refuse_as_unsound(&b);
    free_table(b.accounts, b.accounts_words);
    free_book(&whole);
    b = open_book(width, 3, 1);
    b.accounts[TOLL_LEDGER_ACCOUNT_STATE] = TOLL_LEDGER_STATE_OPEN;
    CHECK(b.accounts_words == 9 * width && sound(&b) == TOLL_LEDGER_POSTED);
    for (size_t n = 1; n < 9; n++)
        b.accounts[width * n + TOLL_LEDGER_ACCOUNT_STATE] = TOLL_LEDGER_STATE_OPEN;
    all_refuse_as_unsound(&b);
    free_book(&b);
}

static void lengths_of_schedules(void)
{
    for (size_t words = 0; words <= 13; words++) {
        struct book b = new_book(2, 3);
        int64_t *before = copy_words(&b), *schedule = new_table(words);
        for (size_t i = 0; i < words; i++)
            schedule[i] = i < 11 ? example_schedule[i] : 1;
        const int64_t number = toll_ledger_open(b.header, 62, b.accounts, 18, b.journal, 30, b.holidays, 0, schedule, words);
        CHECK(number == (words == 11 ? TOLL_LEDGER_POSTED : TOLL_LEDGER_MALFORMED));
        if (number != 0)
            CHECK(same_words(&b, before));
        CHECK(toll_ledger_open(b.header, 61, b.accounts, 18, b.journal, 30, b.holidays, 0, schedule, words) == TOLL_LEDGER_UNSOUND);
        free_table(schedule, words);
        free(before);
        free_book(&b);
    }
}

/* The least and the most of each word of a schedule, and what lies past them. */
static void ranges_of_schedules(void)
{
    const int64_t least[] = {1, 1, 0, 0, 0, 1, 1, 1, 1, 1, 1};
    const int64_t most[] = {36525, 365, 100000, 100000, 100000, 1000000, 1000000, 1000000, 1000000, 1000000, 1000000};
    struct book b = new_book(2, 3);
    for (size_t word = 0; word < 11; word++) {
        const int64_t values[] = {least[word], most[word], least[word] - 1, most[word] + 1,
                                  wild[0], wild[1], wild[2], wild[3]};
        for (size_t v = 0; v < 8; v++) {
            int64_t schedule[11], *before = copy_words(&b);
            memcpy(schedule, example_schedule, sizeof schedule);
            schedule[word] = values[v];
            const int64_t number = toll_ledger_open(b.header, 62, b.accounts, 18, b.journal, 30, b.holidays, 0, schedule, 11);
            CHECK(number == (v < 2 ? TOLL_LEDGER_POSTED : TOLL_LEDGER_MALFORMED));
            if (v < 2) {
                CHECK(b.header[0] == schedule[0] && b.header[1] == 0);
                CHECK(memcmp(b.header + 2, schedule + 1, 10 * sizeof(int64_t)) == 0);
                CHECK(b.header[TOLL_LEDGER_HEADER_FIRST_DAY] == schedule[0]);
                for (size_t i = TOLL_LEDGER_HEADER_LISTS; i < b.header_words; i++)
                    CHECK(b.header[i] == 0);
                for (size_t i = 0; i < b.accounts_words; i++)
                    CHECK(b.accounts[i] == 0);
                for (size_t i = 0; i < b.journal_words; i++)
                    CHECK(b.journal[i] == 0);
            } else
                CHECK(same_words(&b, before));
            free(before);
        }
    }
    free_book(&b);
}

static void lengths_of_events_and_answers(void)
{
    for (int damaged = 0; damaged < 2; damaged++)
        for (size_t words = 0; words <= 11; words++)
            for (size_t room = 0; room <= 6; room++) {
                struct book b = open_book(2, 3, 1);
                if (damaged)
                    b.header[0] = 0;
                int64_t *before = copy_words(&b), *e = new_table(words), *answer = new_table(room);
                for (size_t i = 0; i < words; i++)
                    e[i] = i < 2; /* opens account 1 */
                const int64_t want = damaged ? TOLL_LEDGER_UNSOUND
                                     : words == 9 && room >= 5 ? TOLL_LEDGER_POSTED : TOLL_LEDGER_MALFORMED;
                CHECK(toll_ledger_event(b.header, 62, b.accounts, 18, b.journal, 30, b.holidays, 0, e, words, answer, room) == want);
                CHECK(want == TOLL_LEDGER_POSTED || same_words(&b, before));
                for (size_t i = 0; i < room; i++)
                    CHECK(answer[i] == (room < 5 || i >= 5 ? -77 : i == 0 ? want : 0));
                free_table(answer, room);
                free_table(e, words);
                free(before);
                free_book(&b);
            }
}

/* A negative or huge word anywhere in a sound book makes it unsound. */
static void wild_words_in_tables(void)
{
    struct book b = varied_book();
    int64_t *tables[] = {b.header, b.accounts, b.journal};
    const size_t words[] = {b.header_words, b.accounts_words, b.journal_words};
    for (size_t t = 0; t < 3; t++)
        for (size_t i = 0; i < words[t]; i++)
            for (size_t v = 0; v < WILD; v++) {
                const int64_t old = tables[t][i];
                tables[t][i] = wild[v];
                all_refuse_as_unsound(&b);
                tables[t][i] = old;
            }
    CHECK(sound(&b) == TOLL_LEDGER_POSTED);
    free_book(&b);
}

/* A negative or huge word in an event is malformed, an account or successor that isn't there, or no
 * row. */
static void wild_words_in_events(void)
{
    const int64_t good[][9] = {{1, 5, 100, 2000}, {2, 1, 43, 61, 2, 60, 2}, {3, 1, 500, 1}, {4, 4, 8, 100}, {5, 1, 1},
                               {6, 1, 1, 1},      {7, 1, 0, 1},             {8, 1},         {9},
                               {10, 0, 501, 1, 2, 3, 4, 5, 6}, {11, 1, 0}, {12, 3, 4}};
    struct book b = varied_book();
    for (size_t k = 0; k < sizeof good / sizeof good[0]; k++)
        for (size_t word = 0; word < 9; word++)
            for (size_t v = 0; v < WILD; v++) {
                int64_t e[9];
                memcpy(e, good[k], sizeof e);
                e[word] = wild[v];
                const int64_t kind = good[k][0];
                const int64_t want = word == 1 && kind != 9 && kind != 10  ? TOLL_LEDGER_UNKNOWN
                                     : word == 2 && kind >= 4 && kind <= 6 ? TOLL_LEDGER_NO_ROW
                                     : word == 2 && kind == 12             ? TOLL_LEDGER_SUCCESSOR
                                                                           : TOLL_LEDGER_MALFORMED;
                CHECK(post_words(&b, e) == want);
            }
    const int64_t none[] = {INT64_MIN, -1, 0, 5, 6, 257, INT64_MAX};
    for (size_t i = 0; i < sizeof none / sizeof none[0]; i++) {
        int64_t value, rows_read;
        CHECK(ask(toll_ledger_balance, &b, none[i], &value) == TOLL_LEDGER_UNKNOWN);
        CHECK(ask(toll_ledger_topup_due, &b, none[i], &value) == TOLL_LEDGER_UNKNOWN);
        CHECK(ask_debtor(&b, none[i], &value, &rows_read) == TOLL_LEDGER_UNKNOWN);
    }
    free_book(&b);
}

/* The ranges that an event's words must keep, at both ends. */
static void ranges_of_events(void)
{
    const struct {
        int64_t words[9], number;
    } cases[] = {
        {{1, 5, 1000000, 1000000}, 0}, {{1, 6, 0, 0}, 3},         {{1, 5, 1000001, 1000000}, 2}, {{1, 5, 0, 1000001}, 2},
        {{1, 5, 1, 0}, 2},             {{1, 5, 0, 1}, 0},         {{2, 1, 0, 61, 2, 60, 1}, 2},  {{2, 1, 1000000000, 61, 2, 60, 1}, 0},
        {{2, 1, 1000000001, 61, 2, 60, 1}, 2}, {{2, 1, 7, 0, 2, 60, 1}, 2}, {{2, 1, 7, 36525, 2, 60, 1}, 7}, {{2, 1, 7, 36526, 2, 60, 1}, 2},
        {{2, 1, 7, 61, 0, 60, 1}, 2},  {{2, 1, 7, 61, 99, 60, 1}, 0}, {{2, 1, 7, 61, 100, 60, 1}, 2}, {{2, 1, 7, 61, 2, -1, 1}, 2},
        {{2, 1, 7, 61, 2, 999, 1}, 0}, {{2, 1, 7, 61, 2, 1000, 1}, 2}, {{2, 1, 7, 61, 2, 60, 0}, 2}, {{2, 1, 7, 61, 2, 60, 3}, 2},
        {{3, 1, 0, 1}, 2},             {{3, 1, 1, 1}, 0},         {{3, 1, 1000000, 3}, 0},       {{3, 1, 1000001, 3}, 2},
        {{3, 1, 1, 0}, 2},             {{3, 1, 1, 4}, 2},         {{4, 4, 8, 99501}, 2},         {{4, 4, 8, 99500}, 11},
        {{5, 1, 1, 1}, 2},             {{6, 1, 1, 2}, 2},         {{6, 1, 1, 0}, 0},             {{7, 1, 1, 1}, 2},
        {{7, 1, 0, 2}, 2},             {{8, 1, 1}, 2},            {{8, 1, 0, 1}, 2},             {{9, 1}, 2},
        {{9, 0, 1}, 2},                {{0, 1}, 2},               {{10, 0}, 2},                  {{9}, 0},
        {{10, 0, 501, 1, 1, 1, 1, 1, 1}, 0},    {{10, 0, 36525, 1, 1, 1, 1, 1, 1}, 0},
        {{10, 0, 36526, 1, 1, 1, 1, 1, 1}, 2},  {{10, 0, 500, 1, 1, 1, 1, 1, 1}, 15},
        {{10, 0, 1, 1, 1, 1, 1, 1, 1}, 15},     {{10, 0, 0, 1, 1, 1, 1, 1, 1}, 2},
        {{10, 1, 501, 1, 1, 1, 1, 1, 1}, 2},    {{10, -1, 501, 1, 1, 1, 1, 1, 1}, 2},
        {{10, 0, 500, 1, 1, 1, 1, 1, 0}, 2},    {{13, 0, 501, 1, 1, 1, 1, 1, 1}, 2},
        {{11, 1, 0}, 0},       {{11, 1, 1}, 16},         {{11, 1, 2}, 2},
        {{11, 1, -1}, 2},      {{11, 6, 2}, 2},          {{11, 5, 1}, 3},
        {{11, 0, 1}, 3},       {{11, 3, 1}, 5},          {{11, 3, 0}, 5},
        {{11, 2, 1}, 11},      {{11, 2, 0}, 11},         {{11, 4, 1}, 11},
        {{13, 1, 1}, 2},       {{11, 1, 0, 1}, 2},       {{11, 1, 0, 0, 1}, 2},
        {{11, 1, 0, 0, 0, 1}, 2}, {{11, 1, 0, 0, 0, 0, 1}, 2},
        {{12, 3, 1}, 0},       {{12, 3, 2}, 0},          {{12, 3, 4}, 0},
        {{12, 3, 0}, 18},      {{12, 3, 3}, 18},         {{12, 3, 5}, 18},
        {{12, 3, 6}, 18},      {{12, 3, 257}, 18},       {{12, 1, 2}, 18},
        {{12, 4, 1}, 18},      {{12, 1, 1}, 18},         {{12, 5, 1}, 3},
        {{12, 6, 1}, 3},       {{12, 0, 1}, 3},          {{12, 5, 5}, 3},
        {{12, 3, 1, 1}, 2},    {{12, 3, 1, 0, 1}, 2},    {{12, 3, 1, 0, 0, 1}, 2},
        {{12, 3, 1, 0, 0, 0, 1}, 2},  {{12, 3, 3, 1}, 2},  {{12, 5, 1, 1}, 2},
        {{2, 3, 7, 61, 2, 60, 1}, 0}, {{2, 3, 7, 61, 1, 91, 1}, 6}, {{2, 3, 7, 62, 2, 60, 1}, 7}, {{2, 3, 41, 61, 2, 60, 1}, 8},
        {{3, 3, 1, 1}, 5},     {{7, 3, 0, 1}, 5},        {{8, 3}, 5},
    };
    for (size_t i = 0; i < sizeof cases / sizeof cases[0]; i++) {
        struct book b = varied_book();
        CHECK(post_words(&b, cases[i].words) == cases[i].number);
        CHECK(sound(&b) == TOLL_LEDGER_POSTED);
        free_book(&b);
    }
}

/* The words f and g are a rate list's alone; each of its rates keeps its range. */
static void last_words_of_events(void)
{
    const int64_t good[][9] = {{1, 5, 100, 2000}, {2, 1, 43, 61, 2, 60, 2}, {3, 1, 500, 1}, {4, 4, 8, 100}, {5, 1, 1},
                               {6, 1, 1, 1},      {7, 1, 0, 1},             {8, 1},         {9},
                               {11, 1, 0},        {12, 3, 4}};
    struct book b = varied_book();
    for (size_t k = 0; k < sizeof good / sizeof good[0]; k++)
        for (size_t word = 7; word < 9; word++) {
            int64_t e[9];
            memcpy(e, good[k], sizeof e);
            e[word] = 1;
            CHECK(post_words(&b, e) == TOLL_LEDGER_MALFORMED);
        }
    for (size_t word = 3; word < 9; word++) {
        int64_t e[9] = {10, 0, 501, 1, 1000000, 1, 1000000, 1, 1000000};
        e[word] = 0;
        CHECK(post_words(&b, e) == TOLL_LEDGER_MALFORMED);
        e[word] = 1000001;
        CHECK(post_words(&b, e) == TOLL_LEDGER_MALFORMED);
    }
    CHECK(post(&b, 10, 0, 501, 1, 1000000, 1, 1000000, 1, 1000000) == TOLL_LEDGER_POSTED);
    free_book(&b);
}

/* A rate list takes seven words of the header and changes no other; its first day is after the last
 * one's and by day 36,525, whatever today is; there are eight. */
static void adding_lists(void)
{
    struct book b = open_book(2, 3, 36524);
    CHECK(add_list(&b, 36524, 1) == TOLL_LEDGER_LIST);
    CHECK(add_list(&b, 1, 1) == TOLL_LEDGER_LIST);
    ticks(&b, 1);
    CHECK(post(&b, TOLL_LEDGER_EVENT_TICK, 0) == TOLL_LEDGER_LAST_DAY);
    CHECK(add_list(&b, 36525, 1) == TOLL_LEDGER_POSTED); /* on the last day too */
    CHECK(add_list(&b, 36525, 1) == TOLL_LEDGER_LIST);
    CHECK(add_list(&b, 36526, 1) == TOLL_LEDGER_MALFORMED);
    free_book(&b);
    b = open_book(2, 3, 1);
    for (int i = 2; i <= TOLL_LEDGER_MOST_LISTS; i++) {
        const int64_t first_day = i < TOLL_LEDGER_MOST_LISTS ? i : TOLL_LEDGER_DAYS;
        int64_t *before = copy_words(&b);
        CHECK(add_list(&b, first_day, 10 * i) == TOLL_LEDGER_POSTED);
        for (int word = 1; word < TOLL_LEDGER_ANSWER_WORDS; word++)
            CHECK(b.answer[word] == 0);
        CHECK(list_of(&b, i)[TOLL_LEDGER_LIST_FIRST_DAY] == first_day);
        for (int rate = 0; rate < 6; rate++)
            CHECK(list_of(&b, i)[TOLL_LEDGER_LIST_RATES + rate] == 10 * i + rate);
        memcpy(before + (list_of(&b, i) - b.header), list_of(&b, i), TOLL_LEDGER_LIST_WORDS * sizeof(int64_t));
        CHECK(same_words(&b, before));
        CHECK(sound(&b) == TOLL_LEDGER_POSTED);
        free(before);
    }
    CHECK(list_of(&b, TOLL_LEDGER_MOST_LISTS + 1) == b.header + b.header_words);
    CHECK(add_list(&b, TOLL_LEDGER_DAYS, 1) == TOLL_LEDGER_LIST);
    CHECK(add_list(&b, TOLL_LEDGER_DAYS, 0) == TOLL_LEDGER_MALFORMED);
    free_book(&b);
}

/* Tolls before, on and after the first days of all eight lists, all posted on one day. */
static void rates_by_passage_day(void)
{
    struct book b = open_book(2, 512, 40);
    CHECK(post(&b, TOLL_LEDGER_EVENT_OPEN, 1, 0, 0) == 0);
    for (int i = 2; i <= TOLL_LEDGER_MOST_LISTS; i++)
        CHECK(add_list(&b, 40 + 3 * (i - 1), 1000 * i) == TOLL_LEDGER_POSTED);
    ticks(&b, 30);
    int64_t row = 0;
    for (int64_t day = 10; day <= 70; day++) {
        const int64_t later = (day - 40) / 3;
        const int64_t i = day < 40 ? 1 : later < LATER_LISTS ? 1 + later : TOLL_LEDGER_MOST_LISTS;
        CHECK(post(&b, TOLL_LEDGER_EVENT_TOLL, 1, 100 * day + 1, day, 2, 60, 1) == TOLL_LEDGER_POSTED);
        CHECK(post(&b, TOLL_LEDGER_EVENT_TOLL, 1, 100 * day + 2, day, 5, 60, 2) == TOLL_LEDGER_POSTED);
        CHECK(row_of(&b, ++row)[TOLL_LEDGER_ROW_AMOUNT] == (i == 1 ? 250 : 1000 * i));
        CHECK(row_of(&b, ++row)[TOLL_LEDGER_ROW_AMOUNT] == (i == 1 ? 1600 : 1000 * i + 5));
    }
    free_book(&b);
}

/* Words of rate lists as no ledger writes them, each alone in a sound book. */
static void damaged_lists(void)
{
    struct book b = varied_book(); /* lists begin on days 1, 50, 61 and 500 */
    int64_t *begins = b.header + TOLL_LEDGER_HEADER_FIRST_DAY;
    const struct {
        int64_t *word, value;
        int fits;
    } cases[] = {
        {begins, 0, 0},                {begins, 36526, 0},            {begins, 50, 0},
        {begins, 49, 1},               {begins, 2, 1},                {list_of(&b, 2), 1, 0},
        {list_of(&b, 2), 2, 1},        {list_of(&b, 2), 60, 1},       {list_of(&b, 2), 61, 0},
        {list_of(&b, 2), 0, 0},        {list_of(&b, 3), 50, 0},       {list_of(&b, 3), 0, 0},
        {list_of(&b, 4), 61, 0},       {list_of(&b, 4), 62, 1},       {list_of(&b, 4), 36525, 1},
        {list_of(&b, 4), 36526, 0},    {list_of(&b, 4), 0, 0},        {list_of(&b, 4) + 1, 0, 0},
        {list_of(&b, 4) + 1, 1, 1},    {list_of(&b, 4) + 6, 0, 0},    {list_of(&b, 4) + 6, 1000000, 1},
        {list_of(&b, 4) + 6, 1000001, 0}, {list_of(&b, 2) + 3, 1000001, 0}, {list_of(&b, 5), 501, 0},
        {list_of(&b, 5) + 1, 1, 0},    {list_of(&b, 5) + 6, 1, 0},    {list_of(&b, 8), 501, 0},
        {list_of(&b, 8) + 6, 1, 0},
    };
    for (size_t i = 0; i < sizeof cases / sizeof cases[0]; i++) {
        const int64_t old = *cases[i].word;
        *cases[i].word = cases[i].value;
        if (cases[i].fits)
            CHECK(sound(&b) == TOLL_LEDGER_POSTED);
        else
            all_refuse_as_unsound(&b);
        *cases[i].word = old;
    }
    free_book(&b);
}

/* Whole lists gone: a gap, but where it was the last. A first list may begin on any day. */
static void fewer_lists(void)
{
    for (int i = 2; i <= 4; i++) {
        struct book b = varied_book();
        memset(list_of(&b, i), 0, TOLL_LEDGER_LIST_WORDS * sizeof(int64_t));
        CHECK(sound(&b) == (i == 4 ? TOLL_LEDGER_POSTED : TOLL_LEDGER_UNSOUND));
        free_book(&b);
    }
    struct book b = open_book(2, 3, 1);
    b.header[TOLL_LEDGER_HEADER_FIRST_DAY] = TOLL_LEDGER_DAYS; /* and today is day 1 */
    CHECK(sound(&b) == TOLL_LEDGER_POSTED);
    CHECK(add_list(&b, TOLL_LEDGER_DAYS, 1) == TOLL_LEDGER_LIST);
    b.header[TOLL_LEDGER_HEADER_FIRST_DAY] = TOLL_LEDGER_DAYS + 1;
    all_refuse_as_unsound(&b);
    free_book(&b);
}

/* Lists of holidays that fit, and such that have a day out of its range or don't rise. */
static const struct {
    int64_t days[4];
    size_t count;
    int fits;
} lists[] = {
    {{0}, 0, 1},           {{1}, 1, 1},           {{36525}, 1, 1},       {{1, 36525}, 2, 1},    {{1, 2, 3, 4}, 4, 1},
    {{0}, 1, 0},           {{-1}, 1, 0},          {{36526}, 1, 0},       {{INT64_MIN}, 1, 0},   {{INT64_MAX}, 1, 0},
    {{0, 7, 8}, 3, 0},     {{7, 8, 36526}, 3, 0}, {{7, -8, 9}, 3, 0},    {{-2, -1}, 2, 0},      {{7, 7}, 2, 0},
    {{8, 7}, 2, 0},        {{7, 9, 8}, 3, 0},     {{7, 8, 8}, 3, 0},     {{9, 8, 7}, 3, 0},     {{5, 7, 6, 8}, 4, 0},
    {{6, 5, 7, 8}, 4, 0},  {{5, 6, 7, 7}, 4, 0},
};
#define LISTS (sizeof lists / sizeof lists[0])

/* So many rising days over the whole range, the last one apart. */
static const int64_t *rising_days(size_t count, int64_t last)
{
    static int64_t days[TOLL_LEDGER_MOST_HOLIDAYS + 1];
    for (size_t i = 0; i < count; i++)
        days[i] = 1 + 91 * (int64_t)i;
    if (count > 0)
        days[count - 1] = last;
    return days;
}

/* Opens anew in a book's tables; gives the call's number. A refusal writes nothing. */
static int64_t reopen(struct book *b, const int64_t *schedule, size_t words)
{
    int64_t *before = copy_words(b);
    const int64_t number = toll_ledger_open(TABLES(b), schedule, words);
    CHECK(number == TOLL_LEDGER_POSTED || same_words(b, before));
    free(before);
    return number;
}

/* Holidays that don't fit are told after the lengths and the schedule. */
static void opens_with(struct book *b, int fits)
{
    int64_t wrong[TOLL_LEDGER_SCHEDULE_WORDS];
    memcpy(wrong, example_schedule, sizeof wrong);
    wrong[0] = 0;
    b->header_words--;
    CHECK(reopen(b, wrong, 11) == TOLL_LEDGER_UNSOUND);
    CHECK(reopen(b, example_schedule, 11) == TOLL_LEDGER_UNSOUND);
    b->header_words++;
    CHECK(reopen(b, wrong, 11) == TOLL_LEDGER_MALFORMED);
    CHECK(reopen(b, example_schedule, 10) == TOLL_LEDGER_MALFORMED);
    CHECK(reopen(b, example_schedule, 11) == (fits ? TOLL_LEDGER_POSTED : TOLL_LEDGER_HOLIDAYS));
    if (fits)
        CHECK(sound(b) == TOLL_LEDGER_POSTED);
}

/* The same lists make a sound book sound or not. */
static void holidays_of_every_kind(void)
{
    const size_t counts[] = {1, 2, 399, 400, 401};
    struct book fresh = new_book(2, 3), varied = varied_book();
    for (size_t i = 0; i < LISTS + sizeof counts / sizeof counts[0]; i++) {
        const size_t count = i < LISTS ? lists[i].count : counts[i - LISTS];
        const int64_t *days = i < LISTS ? lists[i].days : rising_days(count, TOLL_LEDGER_DAYS);
        const int fits = i < LISTS ? lists[i].fits : count <= TOLL_LEDGER_MOST_HOLIDAYS;
        lend_holidays(&fresh, days, count);
        opens_with(&fresh, fits);
        lend_holidays(&varied, days, count);
        if (fits)
            CHECK(sound(&varied) == TOLL_LEDGER_POSTED);
        else
            all_refuse_as_unsound(&varied);
    }
    const int64_t past[] = {TOLL_LEDGER_DAYS + 1, 0, 1 + 91 * 398, INT64_MAX}; /* the last of 400: out of range or order */
    for (size_t i = 0; i < sizeof past / sizeof past[0]; i++) {
        lend_holidays(&fresh, rising_days(TOLL_LEDGER_MOST_HOLIDAYS, past[i]), TOLL_LEDGER_MOST_HOLIDAYS);
        opens_with(&fresh, 0);
        lend_holidays(&varied, fresh.holidays, fresh.holidays_words);
        all_refuse_as_unsound(&varied);
    }
    free_book(&fresh);
    free_book(&varied);
}

/* A negative or huge word anywhere in the most holidays makes a book unsound. */
static void wild_words_in_holidays(void)
{
    int64_t days[TOLL_LEDGER_MOST_HOLIDAYS];
    struct book b = varied_book();
    memcpy(days, rising_days(TOLL_LEDGER_MOST_HOLIDAYS, TOLL_LEDGER_DAYS), sizeof days);
    for (size_t i = 0; i < TOLL_LEDGER_MOST_HOLIDAYS; i++) {
        const int64_t old = days[i];
        days[i] = wild[i % WILD];
        lend_holidays(&b, days, TOLL_LEDGER_MOST_HOLIDAYS);
        all_refuse_as_unsound(&b);
        days[i] = old;
    }
    lend_holidays(&b, days, TOLL_LEDGER_MOST_HOLIDAYS);
    CHECK(sound(&b) == TOLL_LEDGER_POSTED);
    free_book(&b);
}

static int is_listed(const struct book *b, int64_t day)
{
    for (size_t i = 0; i < b->holidays_words; i++)
        if (b->holidays[i] == day)
            return 1;
    return 0;
}

/* The first day from `day` on that is no Saturday, Sunday or holiday. */
static int64_t business_day_from(const struct book *b, int64_t day)
{
    while (day % 7 == 1 || day % 7 == 2 || is_listed(b, day))
        day++;
    return day;
}

/* An account with money asks to close on the opening's day: the tick to the first business day that is
 * 15 days on or later closes it, and refunds; no tick before it does. */
static void closes_on_a_business_day(int64_t request, const int64_t *days, size_t count)
{
    struct book b = open_book_with(2, 3, request, days, count);
    const int64_t closing = business_day_from(&b, request + 15);
    CHECK(post(&b, TOLL_LEDGER_EVENT_OPEN, 2, 0, 0) == 0);
    CHECK(post(&b, TOLL_LEDGER_EVENT_PAYMENT, 2, 700, 2) == 0);
    CHECK(post(&b, TOLL_LEDGER_EVENT_CLOSE_REQUEST, 2) == 0);
    while (today(&b) < closing) {
        CHECK(account_of(&b, 2)[TOLL_LEDGER_ACCOUNT_STATE] == TOLL_LEDGER_STATE_PENDING);
        CHECK(balance(&b, 2) == 700);
        ticks(&b, 1);
    }
    CHECK(account_of(&b, 2)[TOLL_LEDGER_ACCOUNT_STATE] == TOLL_LEDGER_STATE_CLOSED);
    CHECK(b.answer[TOLL_LEDGER_ANSWER_FIRST_ROW] == 2 && b.answer[TOLL_LEDGER_ANSWER_NEW_ROWS] == 1);
    CHECK(row_of(&b, 2)[TOLL_LEDGER_ROW_KIND] == TOLL_LEDGER_KIND_REFUND && balance(&b, 2) == 0);
    CHECK(sound(&b) == TOLL_LEDGER_POSTED);
    free_book(&b);
}

/* Requests on every day of two weeks, with no holidays, with those that stand first, in the middle
 * and last in a list, and with more than two weeks of them; and a request from year to year. */
static void days_of_closing(void)
{
    int64_t days[18];
    for (int64_t request = 1; request <= 14; request++) {
        closes_on_a_business_day(request, NULL, 0);
        for (int64_t first = request; first <= request + 17; first++) {
            for (int64_t i = 0; i < 18; i++)
                days[i] = first + i;
            closes_on_a_business_day(request, days, 1);
            closes_on_a_business_day(request, days, 3);
            closes_on_a_business_day(request, days, 18);
        }
    }
    for (int64_t request = 30; request < 36500; request += 365)
        closes_on_a_business_day(request, rising_days(TOLL_LEDGER_MOST_HOLIDAYS, TOLL_LEDGER_DAYS), TOLL_LEDGER_MOST_HOLIDAYS);
}

/* Of two books, one with a holiday each day, posted to alike: stages, fees and holds go on in both. */
static void all_else_on_holidays(void)
{
    static int64_t days[TOLL_LEDGER_MOST_HOLIDAYS];
    for (int64_t i = 0; i < TOLL_LEDGER_MOST_HOLIDAYS; i++)
        days[i] = 1 + i;
    struct book plain = open_book(3, 12, 1), listed = open_book_with(3, 12, 1, days, TOLL_LEDGER_MOST_HOLIDAYS);
    const int64_t events[][9] = {{1, 1, 0, 0}, {1, 2, 100, 2000}, {2, 1, 41, 1, 2, 60, 2}, {2, 2, 42, 1, 5, 60, 1},
                                 {2, 1, 43, 1, 3, 60, 1}, {5, 2, 2}, {3, 1, 550, 3}, {7, 2, 0, 0}};
    for (size_t i = 0; i < 8 + 130; i++) {
        const int64_t *e = i < 8 ? events[i] : EVENT_OF(TOLL_LEDGER_EVENT_TICK);
        CHECK(post_words(&plain, e) == post_words(&listed, e));
        CHECK(memcmp(plain.answer, listed.answer, sizeof plain.answer) == 0);
        CHECK(memcmp(plain.header, listed.header, plain.header_words * sizeof(int64_t)) == 0);
        CHECK(memcmp(plain.accounts, listed.accounts, plain.accounts_words * sizeof(int64_t)) == 0);
        CHECK(memcmp(plain.journal, listed.journal, plain.journal_words * sizeof(int64_t)) == 0);
    }
    CHECK(today(&plain) == 131 && row_of(&plain, 3)[TOLL_LEDGER_ROW_MARK] == 4);
    CHECK(row_of(&plain, 2)[TOLL_LEDGER_ROW_DISPUTE] == TOLL_LEDGER_DISPUTE_ENDED);
    free_book(&plain);
    free_book(&listed);
}

/* On whatever day of the week: a toll rises after L days and after as many more with its fee, and a
 * hold ends after 30. */
static void all_else_on_weekends(void)
{
    for (int64_t first = 1; first <= 7; first++) {
        struct book b = open_book(2, 4, first);
        CHECK(post(&b, TOLL_LEDGER_EVENT_OPEN, 1, 0, 0) == 0 && post(&b, TOLL_LEDGER_EVENT_OPEN, 2, 0, 0) == 0);
        CHECK(post(&b, TOLL_LEDGER_EVENT_TOLL, 1, 41, first, 2, 60, 2) == 0);
        CHECK(post(&b, TOLL_LEDGER_EVENT_TOLL, 2, 42, first, 2, 60, 2) == 0);
        CHECK(post(&b, TOLL_LEDGER_EVENT_DISPUTE, 2, 2) == 0);
        for (int64_t day = first + 1; day <= first + 60; day++) {
            ticks(&b, 1);
            const int64_t stage = day < first + 30 ? 0 : day < first + 60 ? 1 : 2;
            CHECK(row_of(&b, 1)[TOLL_LEDGER_ROW_MARK] == stage);
            CHECK((row_of(&b, 2)[TOLL_LEDGER_ROW_DISPUTE] == TOLL_LEDGER_DISPUTE_HELD) == (day < first + 30));
        }
        CHECK(row_of(&b, 3)[TOLL_LEDGER_ROW_KIND] == TOLL_LEDGER_KIND_FEE && row_of(&b, 2)[TOLL_LEDGER_ROW_MARK] == 1);
        free_book(&b);
    }
}

/* A refund that has no row lets ticks pass until the first business day. */
static void full_until_a_business_day(void)
{
    const int64_t days[] = {17, 18};
    for (size_t listed = 0; listed <= 2; listed++) {
        struct book b = open_book_with(2, 1, 1, days, listed);
        CHECK(post(&b, TOLL_LEDGER_EVENT_OPEN, 1, 0, 0) == 0);
        CHECK(post(&b, TOLL_LEDGER_EVENT_PAYMENT, 1, 700, 2) == 0); /* takes the only row */
        CHECK(post(&b, TOLL_LEDGER_EVENT_CLOSE_REQUEST, 1) == 0);
        ticks(&b, 15 + (int64_t)listed); /* day 16 is a Sunday */
        CHECK(post(&b, TOLL_LEDGER_EVENT_TICK, 0) == TOLL_LEDGER_FULL);
        CHECK(account_of(&b, 1)[TOLL_LEDGER_ACCOUNT_STATE] == TOLL_LEDGER_STATE_PENDING);
        CHECK(balance(&b, 1) == 700 && sound(&b) == TOLL_LEDGER_POSTED);
        free_book(&b);
    }
}

/* A debit that the first business days find unsettled, a held one too, puts the closing off: what is
 * settled on a Friday or later closes the account on the Monday after it. */
static void closings_put_off(void)
{
    for (int64_t paid = 17; paid <= 24; paid++)
        for (int held = 0; held < 2; held++) {
            struct book b = open_book(2, 4, 1);
            CHECK(post(&b, TOLL_LEDGER_EVENT_OPEN, 1, 0, 0) == 0);
            CHECK(post(&b, TOLL_LEDGER_EVENT_TOLL, 1, 41, 1, 2, 60, 2) == 0);
            CHECK(post(&b, TOLL_LEDGER_EVENT_CLOSE_REQUEST, 1) == 0);
            if (held)
                CHECK(post(&b, TOLL_LEDGER_EVENT_DISPUTE, 1, 1) == 0 && post(&b, TOLL_LEDGER_EVENT_PAYMENT, 1, 500, 2) == 0);
            ticks(&b, paid - 1);
            CHECK(account_of(&b, 1)[TOLL_LEDGER_ACCOUNT_STATE] == TOLL_LEDGER_STATE_PENDING);
            if (held)
                CHECK(post(&b, TOLL_LEDGER_EVENT_DECISION, 1, 1, 0) == 0);
            else
                CHECK(post(&b, TOLL_LEDGER_EVENT_PAYMENT, 1, 500, 2) == 0);
            while (today(&b) < business_day_from(&b, paid + 1)) {
                CHECK(account_of(&b, 1)[TOLL_LEDGER_ACCOUNT_STATE] == TOLL_LEDGER_STATE_PENDING);
                ticks(&b, 1);
            }
            CHECK(account_of(&b, 1)[TOLL_LEDGER_ACCOUNT_STATE] == TOLL_LEDGER_STATE_CLOSED);
            CHECK(b.header[TOLL_LEDGER_HEADER_ROWS_USED] == 2);
            free_book(&b);
        }
}

/* Account 2 with a top-up, after so many declines, each on a day of its own. */
static struct book declined_book(int64_t declines)
{
    struct book b = open_book(3, 8, 1);
    CHECK(post(&b, TOLL_LEDGER_EVENT_OPEN, 2, 100, 2000) == 0);
    for (int64_t i = 0; i < declines; i++) {
        CHECK(post(&b, TOLL_LEDGER_EVENT_TOPUP_RESULT, 2, 0, 0) == 0);
        ticks(&b, 1);
    }
    CHECK(account_of(&b, 2)[TOLL_LEDGER_ACCOUNT_DECLINES] == declines);
    return b;
}

/* Event 11 changes the reserve alone, after any declines, on open accounts and on pending ones. */
static void changing_reserves(void)
{
    const size_t place =
        TOLL_LEDGER_HEADER_WORDS + TOLL_LEDGER_ACCOUNT_WORDS + TOLL_LEDGER_ACCOUNT_RESERVE;
    for (int pending = 0; pending < 2; pending++)
        for (int64_t declines = 0; declines <= 2; declines++) {
            struct book b = declined_book(declines);
            if (pending)
                CHECK(post(&b, TOLL_LEDGER_EVENT_CLOSE_REQUEST, 2) == 0);
            for (int turn = 0; turn < 4; turn++) { /* added, removed, and again */
                const int64_t adds = turn % 2 == 0;
                CHECK(post(&b, TOLL_LEDGER_EVENT_RESERVE, 2, 1 - adds) == TOLL_LEDGER_RESERVE);
                int64_t *want = copy_words(&b);
                CHECK(post(&b, TOLL_LEDGER_EVENT_RESERVE, 2, adds) == TOLL_LEDGER_POSTED);
                for (int word = 1; word < TOLL_LEDGER_ANSWER_WORDS; word++)
                    CHECK(b.answer[word] == 0);
                want[place] = adds;
                CHECK(same_words(&b, want));
                CHECK(sound(&b) == TOLL_LEDGER_POSTED);
                free(want);
            }
            free_book(&b);
        }
}

/* A closed account keeps its reserve, and none is added or removed until a returned check has made
 * it pending; closed is told before all else that refuses event 11. */
static void reserves_after_closing(void)
{
    struct book b = open_book(3, 8, 1);
    CHECK(post(&b, TOLL_LEDGER_EVENT_OPEN, 1, 0, 0) == 0);
    CHECK(post(&b, TOLL_LEDGER_EVENT_OPEN, 2, 100, 2000) == 0);
    CHECK(post(&b, TOLL_LEDGER_EVENT_RESERVE, 2, 1) == 0);
    CHECK(post(&b, TOLL_LEDGER_EVENT_PAYMENT, 2, 700, 3) == 0); /* row 1 */
    CHECK(post(&b, TOLL_LEDGER_EVENT_CLOSE_REQUEST, 1) == 0);
    CHECK(post(&b, TOLL_LEDGER_EVENT_CLOSE_REQUEST, 2) == 0);
    ticks(&b, 16); /* day 16 is a Sunday */
    for (int64_t adds = 0; adds < 2; adds++) {
        CHECK(post(&b, TOLL_LEDGER_EVENT_RESERVE, 1, adds) == TOLL_LEDGER_CLOSED);
        CHECK(post(&b, TOLL_LEDGER_EVENT_RESERVE, 2, adds) == TOLL_LEDGER_CLOSED);
        CHECK(post(&b, TOLL_LEDGER_EVENT_RESERVE, 3, adds) == TOLL_LEDGER_UNKNOWN);
    }
    const int64_t *x = account_of(&b, 2);
    CHECK(x[TOLL_LEDGER_ACCOUNT_TOPUP] == 2000 && x[TOLL_LEDGER_ACCOUNT_RESERVE] == 1);
    CHECK(post(&b, TOLL_LEDGER_EVENT_RETURNED_CHECK, 2, 1, 0) == 0);
    CHECK(x[TOLL_LEDGER_ACCOUNT_STATE] == TOLL_LEDGER_STATE_PENDING);
    CHECK(post(&b, TOLL_LEDGER_EVENT_RESERVE, 2, 1) == TOLL_LEDGER_RESERVE);
    CHECK(post(&b, TOLL_LEDGER_EVENT_RESERVE, 2, 0) == TOLL_LEDGER_POSTED);
    CHECK(post(&b, TOLL_LEDGER_EVENT_RESERVE, 2, 1) == TOLL_LEDGER_POSTED);
    free_book(&b);
}

/* What a result leaves of the account after so many declines, with no reserve or with one that was
 * added after `at` of them; -1: none. */
static void result_after(int64_t declines, int64_t at, int64_t paid)
{
    struct book b = declined_book(at < 0 ? 0 : at);
    if (at >= 0)
        CHECK(post(&b, TOLL_LEDGER_EVENT_RESERVE, 2, 1) == 0);
    for (int64_t i = at < 0 ? 0 : at; i < declines; i++) {
        CHECK(post(&b, TOLL_LEDGER_EVENT_TOPUP_RESULT, 2, 0, 0) == 0);
        CHECK(b.answer[TOLL_LEDGER_ANSWER_REMOVED] == 0);
        ticks(&b, 1);
    }
    const int third = declines == 2, removed = third && !paid, counts = !third && !paid;
    const int64_t want[] = {TOLL_LEDGER_STATE_OPEN, 0, 0, removed ? 0 : 100, removed ? 0 : 2000,
                            counts ? declines + 1 : 0, counts ? today(&b) : 0, !third && at >= 0, 0};
    CHECK(sizeof want == TOLL_LEDGER_ACCOUNT_WORDS * sizeof(int64_t));
    CHECK(post(&b, TOLL_LEDGER_EVENT_TOPUP_RESULT, 2, 0, paid) == TOLL_LEDGER_POSTED);
    const int64_t answer[] = {TOLL_LEDGER_POSTED, paid, paid, 0, removed};
    CHECK(memcmp(b.answer, answer, sizeof answer) == 0);
    CHECK(memcmp(account_of(&b, 2), want, sizeof want) == 0);
    CHECK(balance(&b, 2) == 2000 * paid);
    if (paid)
        CHECK(row_of(&b, 1)[TOLL_LEDGER_ROW_KIND] == TOLL_LEDGER_KIND_PAYMENT &&
              row_of(&b, 1)[TOLL_LEDGER_ROW_MARK] == TOLL_LEDGER_METHOD_CARD);
    if (removed)
        for (int64_t adds = 0; adds < 2; adds++)
            CHECK(post(&b, TOLL_LEDGER_EVENT_RESERVE, 2, adds) == TOLL_LEDGER_UNTIMELY);
    CHECK(sound(&b) == TOLL_LEDGER_POSTED);
    free_book(&b);
}

static void results_with_reserves(void)
{
    for (int64_t declines = 0; declines <= 2; declines++)
        for (int64_t at = -1; at <= declines; at++)
            for (int64_t paid = 0; paid < 2; paid++)
                result_after(declines, at, paid);
}

/* A payment by the reserve that finds the journal full changes no word, and the reserve is asked
 * again. */
static void reserve_on_a_full_journal(void)
{
    struct book b = open_book(2, 1, 1);
    CHECK(post(&b, TOLL_LEDGER_EVENT_OPEN, 1, 0, 0) == 0);
    CHECK(post(&b, TOLL_LEDGER_EVENT_OPEN, 2, 100, 2000) == 0);
    CHECK(post(&b, TOLL_LEDGER_EVENT_RESERVE, 2, 1) == 0);
    CHECK(post(&b, TOLL_LEDGER_EVENT_PAYMENT, 1, 1, 1) == 0); /* takes the only row */
    for (int i = 0; i < 2; i++) {
        CHECK(post(&b, TOLL_LEDGER_EVENT_TOPUP_RESULT, 2, 0, 0) == TOLL_LEDGER_POSTED);
        ticks(&b, 1);
    }
    CHECK(post(&b, TOLL_LEDGER_EVENT_TOPUP_RESULT, 2, 0, 1) == TOLL_LEDGER_FULL);
    CHECK(post(&b, TOLL_LEDGER_EVENT_RESERVE, 2, 1) == TOLL_LEDGER_RESERVE);
    CHECK(post(&b, TOLL_LEDGER_EVENT_TOPUP_RESULT, 2, 0, 0) == TOLL_LEDGER_POSTED);
    CHECK(b.answer[TOLL_LEDGER_ANSWER_REMOVED] == 1);
    CHECK(account_of(&b, 2)[TOLL_LEDGER_ACCOUNT_RESERVE] == 0);
    free_book(&b);
}

/* Reserves as no ledger writes them, each alone in a sound book. */
static void damaged_reserves(void)
{
    struct book b = varied_book(); /* account 1 alone has a top-up, and a reserve */
    for (int64_t n = 1; n <= 5; n++)
        for (int64_t value = -1; value <= 2; value++) {
            int64_t *reserve = account_of(&b, n) + TOLL_LEDGER_ACCOUNT_RESERVE;
            const int64_t old = *reserve;
            CHECK(old == (n == 1));
            *reserve = value;
            if (value == 0 || (value == 1 && n == 1))
                CHECK(sound(&b) == TOLL_LEDGER_POSTED);
            else
                all_refuse_as_unsound(&b);
            *reserve = old;
        }
    int64_t *x = account_of(&b, 1); /* without its top-up, and still with a reserve */
    for (int word = TOLL_LEDGER_ACCOUNT_THRESHOLD; word <= TOLL_LEDGER_ACCOUNT_LAST_DECLINE; word++)
        x[word] = 0;
    all_refuse_as_unsound(&b);
    x[TOLL_LEDGER_ACCOUNT_RESERVE] = 0;
    CHECK(sound(&b) == TOLL_LEDGER_POSTED);
    free_book(&b);
}

static int64_t settled(struct book *b, int64_t row)
{
    return row_of(b, row)[TOLL_LEDGER_ROW_SETTLED];
}

/* What a debt of `owed` gets of so much money that comes after `before` other debts are paid. */
static int64_t share(int64_t money, int64_t before, int64_t owed)
{
    const int64_t left = money - before;
    return left < 0 ? 0 : left < owed ? left : owed;
}

/* The debts of indebted_book in the order of payment. */
static const struct {
    int64_t row, paid, owed;
} debts[] = {{1, 300, 200}, {6, 0, 500}, {3, 0, 300}, {4, 0, 600}, {5, 0, 500}};
#define DEBTS (sizeof debts / sizeof debts[0])

/* Account 1 on day 61: row 1 is a toll paid in part by the check in row 2, rows 3 and 4 are the
 * reversal and the fee of its return, row 5 the fee of the toll's stage 2, row 6 a later toll. */
static struct book indebted_book(int64_t topup)
{
    struct book b = open_book(2, 12, 1);
    CHECK(post(&b, TOLL_LEDGER_EVENT_OPEN, 1, 0, topup) == 0);
    CHECK(post(&b, TOLL_LEDGER_EVENT_TOLL, 1, 41, 1, 2, 60, 2) == 0);
    CHECK(post(&b, TOLL_LEDGER_EVENT_PAYMENT, 1, 300, 3) == 0);
    CHECK(post(&b, TOLL_LEDGER_EVENT_RETURNED_CHECK, 1, 2, 100) == 0);
    ticks(&b, 60);
    CHECK(post(&b, TOLL_LEDGER_EVENT_TOLL, 1, 42, 61, 2, 60, 2) == 0);
    for (size_t i = 0; i < DEBTS; i++) {
        const int64_t *row = row_of(&b, debts[i].row);
        CHECK(row[TOLL_LEDGER_ROW_SETTLED] == debts[i].paid);
        CHECK(row[TOLL_LEDGER_ROW_AMOUNT] == debts[i].paid + debts[i].owed);
    }
    return b;
}

/* So much money reaches an indebted book: as a payment, as two, as two in a batch, as a top-up. */
static void pay_debts(int64_t money, int way)
{
    struct book b = indebted_book(way == 3 ? money : 0);
    const int64_t part = money / 2;
    const struct toll_ledger_event_record two[] = {
        record(TOLL_LEDGER_EVENT_PAYMENT, 1, part, 1),
        record(TOLL_LEDGER_EVENT_PAYMENT, 1, money - part, 2),
    };
    if (way == 0)
        CHECK(post(&b, TOLL_LEDGER_EVENT_PAYMENT, 1, money, 1) == 0);
    else if (way == 1)
        for (int i = 0; i < 2; i++)
            CHECK(post(&b, TOLL_LEDGER_EVENT_PAYMENT, 1, two[i].a, two[i].b) == 0);
    else if (way == 2)
        CHECK(batch(&b, two, 2, NULL, 10) == 0);
    else
        CHECK(post(&b, TOLL_LEDGER_EVENT_TOPUP_RESULT, 1, 0, 1) == 0);
    int64_t before = 0;
    for (size_t i = 0; i < DEBTS; i++) {
        CHECK(settled(&b, debts[i].row) == debts[i].paid + share(money, before, debts[i].owed));
        before += debts[i].owed;
    }
    const int64_t first = way == 1 || way == 2 ? part : money; /* in row 7 */
    CHECK(settled(&b, 7) == share(first, 0, before));
    CHECK(first == money || settled(&b, 8) == share(money, first, before - first));
    CHECK(sound(&b) == TOLL_LEDGER_POSTED);
    free_book(&b);
}

/* Tolls are paid in row order, then fees and reversals together in row order: amounts that end
 * where a debt is paid whole, and a cent beside it. */
static void tolls_before_fees(void)
{
    int64_t end = 0;
    for (size_t i = 0; i < DEBTS; i++) {
        end += debts[i].owed;
        for (int64_t money = end - 1; money <= end + 1; money++)
            for (int way = 0; way < 4; way++)
                pay_debts(money, way);
    }
    for (int way = 0; way < 4; way++)
        pay_debts(2, way);
}

/* A held toll and its fees are passed over, among tolls as among fees; once the hold has ended, by
 * a verdict or within a tick, the unused money pays them. */
static void held_debts_wait(void)
{
    for (int by_tick = 0; by_tick < 2; by_tick++) {
        struct book b = indebted_book(0);
        CHECK(post(&b, TOLL_LEDGER_EVENT_DISPUTE, 1, 1) == 0);
        CHECK(post(&b, TOLL_LEDGER_EVENT_PAYMENT, 1, 1399, 1) == 0); /* row 7 */
        CHECK(settled(&b, 6) == 500 && settled(&b, 3) == 300 && settled(&b, 4) == 599);
        CHECK(settled(&b, 1) == 300 && settled(&b, 5) == 0);
        CHECK(post(&b, TOLL_LEDGER_EVENT_PAYMENT, 1, 601, 1) == 0); /* row 8 */
        CHECK(settled(&b, 4) == 600 && settled(&b, 8) == 1);
        CHECK(settled(&b, 1) == 300 && settled(&b, 5) == 0);
        if (by_tick)
            ticks(&b, 30);
        else
            CHECK(post(&b, TOLL_LEDGER_EVENT_DECISION, 1, 1, 0) == 0);
        CHECK(settled(&b, 1) == 500 && settled(&b, 5) == 400 && settled(&b, 8) == 601);
        CHECK(sound(&b) == TOLL_LEDGER_POSTED);
        free_book(&b);
    }
}

/* A tick that ends the holds of two tolls, in rows 1 and 3, pays both before the fee in row 2. */
static void tolls_before_fees_in_a_tick(void)
{
    for (int64_t end = 0; end <= 1500; end += 500)
        for (int64_t money = end < 1 ? 1 : end - 1; money <= end + 1; money++) {
            struct book b = open_book(2, 12, 1);
            CHECK(post(&b, TOLL_LEDGER_EVENT_OPEN, 1, 0, 0) == 0);
            CHECK(post(&b, TOLL_LEDGER_EVENT_TOLL, 1, 41, 1, 2, 60, 2) == 0);
            ticks(&b, 60);
            CHECK(post(&b, TOLL_LEDGER_EVENT_TOLL, 1, 42, 61, 2, 60, 2) == 0);
            CHECK(post(&b, TOLL_LEDGER_EVENT_DISPUTE, 1, 1) == 0);
            CHECK(post(&b, TOLL_LEDGER_EVENT_DISPUTE, 1, 3) == 0);
            CHECK(post(&b, TOLL_LEDGER_EVENT_PAYMENT, 1, money, 1) == 0); /* row 4 */
            ticks(&b, 29);
            CHECK(settled(&b, 4) == 0);
            ticks(&b, 1);
            CHECK(settled(&b, 1) == share(money, 0, 500));
            CHECK(settled(&b, 3) == share(money, 500, 500));
            CHECK(settled(&b, 2) == share(money, 1000, 500));
            CHECK(settled(&b, 4) == share(money, 0, 1500));
            CHECK(sound(&b) == TOLL_LEDGER_POSTED);
            free_book(&b);
        }
}

/* An upheld credit covers its own toll and that toll's fee, whatever else is owed before them; the
 * rest of it pays a toll before an older fee. */
static void credits_cover_their_own(void)
{
    struct book b = open_book(2, 12, 1);
    CHECK(post(&b, TOLL_LEDGER_EVENT_OPEN, 1, 0, 0) == 0);
    CHECK(post(&b, TOLL_LEDGER_EVENT_TOLL, 1, 41, 1, 2, 60, 2) == 0);
    CHECK(post(&b, TOLL_LEDGER_EVENT_TOLL, 1, 42, 1, 2, 60, 2) == 0);
    ticks(&b, 60); /* rows 3 and 4: their fees */
    CHECK(post(&b, TOLL_LEDGER_EVENT_PAYMENT, 1, 700, 1) == 0); /* row 5 */
    CHECK(settled(&b, 1) == 500 && settled(&b, 2) == 200);
    CHECK(post(&b, TOLL_LEDGER_EVENT_TOLL, 1, 43, 61, 2, 60, 2) == 0); /* row 6 */
    CHECK(post(&b, TOLL_LEDGER_EVENT_DISPUTE, 1, 2) == 0);
    CHECK(post(&b, TOLL_LEDGER_EVENT_DECISION, 1, 2, 1) == 0); /* row 7: 800 for these, 200 left */
    CHECK(settled(&b, 2) == 500 && settled(&b, 4) == 500);
    CHECK(settled(&b, 6) == 200 && settled(&b, 3) == 0);
    CHECK(row_of(&b, 7)[TOLL_LEDGER_ROW_AMOUNT] == 1000 && settled(&b, 7) == 1000);
    CHECK(sound(&b) == TOLL_LEDGER_POSTED);
    free_book(&b);
}

/* A fee paid in part beside unpaid tolls, later and earlier ones: sound, and left as it is until
 * the tolls are paid. The earlier ones are as another order of payment may have left them. */
static void fees_paid_beside_tolls(void)
{
    for (int moved = 0; moved < 2; moved++) {
        struct book b = indebted_book(0);
        CHECK(post(&b, TOLL_LEDGER_EVENT_PAYMENT, 1, 1100, 1) == 0);
        CHECK(settled(&b, 4) == 100 && settled(&b, 5) == 0);
        CHECK(post(&b, TOLL_LEDGER_EVENT_TOLL, 1, 43, 61, 2, 60, 2) == 0); /* row 8 */
        CHECK(sound(&b) == TOLL_LEDGER_POSTED);
        if (moved) { /* from the toll in row 6 to both fees */
            row_of(&b, 6)[TOLL_LEDGER_ROW_SETTLED] -= 400;
            row_of(&b, 4)[TOLL_LEDGER_ROW_SETTLED] += 300;
            row_of(&b, 5)[TOLL_LEDGER_ROW_SETTLED] += 100;
            CHECK(sound(&b) == TOLL_LEDGER_POSTED);
        }
        const int64_t tolls = moved ? 900 : 500, fee = moved ? 400 : 100;
        CHECK(post(&b, TOLL_LEDGER_EVENT_PAYMENT, 1, tolls - 1, 1) == 0);
        CHECK(settled(&b, 6) == 500 && settled(&b, 8) == 499);
        CHECK(settled(&b, 4) == fee && settled(&b, 5) == (moved ? 100 : 0));
        CHECK(post(&b, TOLL_LEDGER_EVENT_PAYMENT, 1, 2, 1) == 0);
        CHECK(settled(&b, 8) == 500 && settled(&b, 4) == fee + 1);
        CHECK(sound(&b) == TOLL_LEDGER_POSTED);
        free_book(&b);
    }
}

/* Accounts 1 to 3 on day 2, when a toll of class 1 is 25,000 by tag and 25,001 by plate. */
static struct book dear_book(size_t rows)
{
    struct book b = open_book(3, rows, 1);
    for (int64_t n = 1; n <= 3; n++)
        CHECK(post(&b, TOLL_LEDGER_EVENT_OPEN, n, 0, 0) == 0);
    CHECK(add_list(&b, 2, TOLL_LEDGER_HEAVY_DEBT) == 0);
    ticks(&b, 1);
    return b;
}

/* Posts a toll of class 1 that passed today. */
static int64_t dear_toll(struct book *b, int64_t account, int64_t passage, int64_t mode)
{
    return post(b, TOLL_LEDGER_EVENT_TOLL, account, passage, today(b), 2, 60, mode);
}

/* Whether the debtor question gives these two values. */
static int replies(struct book *b, int64_t account, int64_t heavy, int64_t rows_read)
{
    int64_t rows;
    return heavy_debtor(b, account, &rows) == heavy && rows == rows_read;
}

/* A debt of 25,000 makes no heavy debtor, one of 25,001 does; rows of other accounts are read too. */
static void debts_at_the_border(void)
{
    struct book b = dear_book(20);
    CHECK(replies(&b, 1, 0, 0) && replies(&b, 2, 0, 0));
    CHECK(dear_toll(&b, 1, 41, TOLL_LEDGER_MODE_TAG) == 0); /* row 1 */
    CHECK(replies(&b, 1, 0, 1) && replies(&b, 2, 0, 1));
    CHECK(dear_toll(&b, 2, 42, TOLL_LEDGER_MODE_PLATE) == 0); /* row 2 */
    CHECK(replies(&b, 1, 0, 2) && replies(&b, 2, 1, 2));
    CHECK(dear_toll(&b, 1, 43, TOLL_LEDGER_MODE_TAG) == 0); /* row 3 */
    CHECK(replies(&b, 1, 1, 3) && replies(&b, 2, 1, 2));
    CHECK(post(&b, TOLL_LEDGER_EVENT_PAYMENT, 1, 24999, 1) == 0); /* row 4: leaves a cent of row 1 */
    CHECK(replies(&b, 1, 1, 3) && replies(&b, 2, 1, 2) && replies(&b, 3, 0, 4));
    CHECK(post(&b, TOLL_LEDGER_EVENT_PAYMENT, 1, 1, 1) == 0); /* row 5 */
    CHECK(replies(&b, 1, 0, 5) && replies(&b, 2, 1, 2));
    CHECK(post(&b, TOLL_LEDGER_EVENT_TOLL, 1, 44, 1, 2, 60, 1) == 0); /* row 6: of day 1, 250 */
    CHECK(replies(&b, 1, 1, 6) && replies(&b, 2, 1, 2));
    CHECK(post(&b, TOLL_LEDGER_EVENT_PAYMENT, 2, 1, 1) == 0); /* row 7 */
    CHECK(replies(&b, 1, 1, 6) && replies(&b, 2, 0, 7));
    CHECK(sound(&b) == TOLL_LEDGER_POSTED);
    free_book(&b);
}

/* A held toll and its fee don't count, not even beside 25,000 that do. They count once they are free
 * again, by a verdict or within a tick; a verdict for the account settles them. */
static void held_debts_are_not_heavy(void)
{
    for (int way = 0; way < 3; way++) {
        struct book b = dear_book(20);
        CHECK(dear_toll(&b, 2, 41, TOLL_LEDGER_MODE_TAG) == 0); /* row 1 */
        CHECK(dear_toll(&b, 1, 42, TOLL_LEDGER_MODE_TAG) == 0); /* row 2 */
        ticks(&b, 60); /* rows 3 and 4: their fees */
        CHECK(replies(&b, 1, 1, 4) && replies(&b, 2, 1, 3));
        CHECK(post(&b, TOLL_LEDGER_EVENT_DISPUTE, 1, 2) == 0);
        CHECK(balance(&b, 1) == -25500);
        CHECK(replies(&b, 1, 0, 4) && replies(&b, 2, 1, 3));
        CHECK(dear_toll(&b, 1, 43, TOLL_LEDGER_MODE_TAG) == 0); /* row 5 */
        CHECK(replies(&b, 1, 0, 5));
        if (way < 2)
            CHECK(post(&b, TOLL_LEDGER_EVENT_DECISION, 1, 2, way) == 0);
        else {
            ticks(&b, 29);
            CHECK(replies(&b, 1, 0, 5));
            ticks(&b, 1);
        }
        CHECK(b.header[TOLL_LEDGER_HEADER_ROWS_USED] == (way == 0 ? 5 : 6)); /* a credit, a fee of account 2 */
        CHECK(way == 1 ? replies(&b, 1, 0, 6) : replies(&b, 1, 1, 4));
        CHECK(replies(&b, 2, 1, 3));
        free_book(&b);
    }
}

/* The fee of a returned check counts, the reversal before it doesn't: of both, payments settle the
 * reversal first. */
static void returned_checks_and_heavy_debts(void)
{
    for (int64_t over = 0; over < 2; over++) {
        struct book b = dear_book(20);
        CHECK(dear_toll(&b, 1, 41, TOLL_LEDGER_MODE_PLATE) == 0); /* row 1 */
        CHECK(replies(&b, 1, 1, 1));
        CHECK(post(&b, TOLL_LEDGER_EVENT_PAYMENT, 1, 25001, 3) == 0); /* row 2 */
        CHECK(replies(&b, 1, 0, 2));
        CHECK(post(&b, TOLL_LEDGER_EVENT_RETURNED_CHECK, 1, 2, 24500 + over) == 0); /* rows 3 and 4 */
        CHECK(balance(&b, 1) == -50001 - over);
        CHECK(replies(&b, 1, over, 4));
        CHECK(post(&b, TOLL_LEDGER_EVENT_PAYMENT, 1, 25001, 2) == 0); /* row 5 */
        CHECK(settled(&b, 3) == 25001 && settled(&b, 4) == 0);
        CHECK(replies(&b, 1, over, over ? 4 : 5));
        CHECK(post(&b, TOLL_LEDGER_EVENT_PAYMENT, 1, 1, 2) == 0); /* row 6 */
        CHECK(replies(&b, 1, 0, 6));
        free_book(&b);
    }
}

/* A closed account owes nothing; one that is pending again by a returned check is asked like any. */
static void heavy_debtors_that_leave(void)
{
    struct book b = dear_book(20);
    CHECK(post(&b, TOLL_LEDGER_EVENT_PAYMENT, 1, 700, 3) == 0); /* row 1 */
    CHECK(post(&b, TOLL_LEDGER_EVENT_CLOSE_REQUEST, 1) == 0);
    ticks(&b, 20); /* row 2: the refund */
    CHECK(account_of(&b, 1)[TOLL_LEDGER_ACCOUNT_STATE] == TOLL_LEDGER_STATE_CLOSED);
    CHECK(replies(&b, 1, 0, 2));
    CHECK(post(&b, TOLL_LEDGER_EVENT_RETURNED_CHECK, 1, 1, 99500) == 0); /* rows 3 and 4 */
    CHECK(account_of(&b, 1)[TOLL_LEDGER_ACCOUNT_STATE] == TOLL_LEDGER_STATE_PENDING);
    CHECK(replies(&b, 1, 1, 4));
    free_book(&b);
}

/* Debts in the first and in the last row of the largest journal. */
static void heavy_debtors_of_a_full_journal(void)
{
    static struct toll_ledger_event_record events[4095];
    static int64_t answers[4095 * 5];
    struct book b = dear_book(8192);
    CHECK(dear_toll(&b, 1, 41, TOLL_LEDGER_MODE_PLATE) == 0);
    for (size_t i = 0; i < 4095; i++)
        events[i] = record(TOLL_LEDGER_EVENT_PAYMENT, 2, 1, 1);
    for (int half = 0; half < 2; half++)
        CHECK(batch(&b, events, 4095, answers, 4095 * 5) == TOLL_LEDGER_POSTED);
    CHECK(replies(&b, 1, 1, 1) && replies(&b, 2, 0, 8191) && replies(&b, 3, 0, 8191));
    CHECK(dear_toll(&b, 3, 42, TOLL_LEDGER_MODE_PLATE) == 0);
    CHECK(b.header[TOLL_LEDGER_HEADER_ROWS_USED] == 8192);
    CHECK(replies(&b, 1, 1, 1) && replies(&b, 2, 0, 8192) && replies(&b, 3, 1, 8192));
    free_book(&b);
}

/* Accounts 1 to 3 closed on day 17, a Monday: 1 has a check of 700 in row 1, refunded in row 2; 4 is
 * open, 5 pending with 300 in row 3, 6 unused. */
static struct book left_book(size_t rows)
{
    struct book b = open_book(6, rows, 1);
    for (int64_t n = 1; n <= 5; n++)
        CHECK(post(&b, TOLL_LEDGER_EVENT_OPEN, n, 0, 0) == 0);
    CHECK(post(&b, TOLL_LEDGER_EVENT_PAYMENT, 1, 700, 3) == 0);
    for (int64_t n = 1; n <= 3; n++)
        CHECK(post(&b, TOLL_LEDGER_EVENT_CLOSE_REQUEST, n) == 0);
    ticks(&b, 16);
    CHECK(post(&b, TOLL_LEDGER_EVENT_CLOSE_REQUEST, 5) == 0);
    CHECK(post(&b, TOLL_LEDGER_EVENT_PAYMENT, 5, 300, 2) == 0);
    CHECK(today(&b) == 17 && b.header[TOLL_LEDGER_HEADER_ROWS_USED] == 3);
    return b;
}

static int64_t name_successor(struct book *b, int64_t account, int64_t successor)
{
    return post(b, TOLL_LEDGER_EVENT_SUCCESSOR, account, successor);
}

/* Posts a toll of 500 that passed today. */
static int64_t toll(struct book *b, int64_t account, int64_t passage)
{
    return post(b, TOLL_LEDGER_EVENT_TOLL, account, passage, today(b), 2, 60, 2);
}

/* Event 12 changes one word of a closed account, and no other: its successor may be open, pending or
 * closed, lead back to it, and be named again or replaced. */
static void naming_successors(void)
{
    const int64_t names[][2] = {{1, 4}, {1, 4}, {1, 5}, {1, 2}, {2, 1}, {2, 3}, {3, 1}, {1, 2}, {3, 5}};
    struct book b = left_book(3); /* full */
    for (size_t i = 0; i < sizeof names / sizeof names[0]; i++) {
        const int64_t n = names[i][0], next = names[i][1];
        int64_t *want = copy_words(&b);
        CHECK(name_successor(&b, n, next) == TOLL_LEDGER_POSTED);
        for (int word = 1; word < TOLL_LEDGER_ANSWER_WORDS; word++)
            CHECK(b.answer[word] == 0);
        want[TOLL_LEDGER_HEADER_WORDS + (n - 1) * TOLL_LEDGER_ACCOUNT_WORDS + TOLL_LEDGER_ACCOUNT_SUCCESSOR] = next;
        CHECK(same_words(&b, want) && sound(&b) == TOLL_LEDGER_POSTED);
        free(want);
    }
    for (int64_t next = -1; next <= 8; next++) /* open, pending, unused, none of the table */
        for (int64_t n = 4; n <= 7; n++)
            CHECK(name_successor(&b, n, next) == (n <= 5 ? TOLL_LEDGER_SUCCESSOR : TOLL_LEDGER_UNKNOWN));
    const int64_t none[] = {INT64_MIN, -1, 0, 1, 6, 7, 257, INT64_MAX};
    for (size_t i = 0; i < sizeof none / sizeof none[0]; i++)
        CHECK(name_successor(&b, 1, none[i]) == TOLL_LEDGER_SUCCESSOR);
    CHECK(account_of(&b, 1)[TOLL_LEDGER_ACCOUNT_SUCCESSOR] == 2);
    free_book(&b);
}

/* A toll for account 1 gives the very book that the same toll for its successor gives: it is settled
 * from the successor's money, and no account changes. */
static void passing_tolls_on(void)
{
    for (int64_t next = 4; next <= 5; next++) {
        struct book passed = left_book(8), sent = left_book(8);
        CHECK(name_successor(&passed, 1, next) == 0 && name_successor(&sent, 1, next) == 0);
        for (int64_t passage = 41; passage <= 42; passage++) {
            int64_t *before = copy_words(&passed);
            CHECK(toll(&passed, 1, passage) == TOLL_LEDGER_POSTED);
            CHECK(toll(&sent, next, passage) == TOLL_LEDGER_POSTED);
            CHECK(memcmp(passed.answer, sent.answer, sizeof sent.answer) == 0);
            const int64_t row = passed.answer[TOLL_LEDGER_ANSWER_FIRST_ROW];
            CHECK(row == passage - 37 && row_of(&passed, row)[TOLL_LEDGER_ROW_ACCOUNT] == next);
            CHECK(memcmp(before + TOLL_LEDGER_HEADER_WORDS, passed.accounts, passed.accounts_words * sizeof(int64_t)) == 0);
            free(before);
            before = copy_words(&sent);
            CHECK(same_words(&passed, before));
            free(before);
        }
        CHECK(settled(&passed, 4) == (next == 5 ? 300 : 0) && settled(&passed, 5) == 0);
        CHECK(balance(&passed, 1) == 0 && balance(&passed, next) == (next == 5 ? -700 : -1000));
        CHECK(post(&passed, TOLL_LEDGER_EVENT_DISPUTE, 1, 5) == TOLL_LEDGER_NO_ROW);
        CHECK(post(&passed, TOLL_LEDGER_EVENT_DISPUTE, next, 5) == TOLL_LEDGER_POSTED);
        CHECK(sound(&passed) == TOLL_LEDGER_POSTED);
        free_book(&passed);
        free_book(&sent);
    }
}

/* Nothing but a toll is passed on. */
static void tolls_alone_are_passed_on(void)
{
    struct book b = left_book(8);
    CHECK(name_successor(&b, 1, 4) == 0);
    CHECK(post(&b, TOLL_LEDGER_EVENT_PAYMENT, 1, 700, 1) == TOLL_LEDGER_CLOSED);
    CHECK(post(&b, TOLL_LEDGER_EVENT_TOPUP_RESULT, 1, 0, 1) == TOLL_LEDGER_CLOSED);
    CHECK(post(&b, TOLL_LEDGER_EVENT_CLOSE_REQUEST, 1) == TOLL_LEDGER_CLOSED);
    CHECK(post(&b, TOLL_LEDGER_EVENT_RESERVE, 1, 1) == TOLL_LEDGER_CLOSED);
    CHECK(post(&b, TOLL_LEDGER_EVENT_OPEN, 1, 0, 0) == TOLL_LEDGER_TAKEN);
    CHECK(post(&b, TOLL_LEDGER_EVENT_RETURNED_CHECK, 1, 3, 0) == TOLL_LEDGER_NO_ROW);
    free_book(&b);
}

/* Without a successor that takes it a toll is refused as closed before all else; with one it meets
 * what the toll meets there. */
static void refusals_of_tolls_on_closed_accounts(void)
{
    struct book b = left_book(5);
    CHECK(toll(&b, 4, 41) == 0); /* row 4 */
    for (int named = 0; named < 3; named++) { /* none, a closed one, an open one */
        const int takes = named == 2;
        if (named > 0)
            CHECK(name_successor(&b, 1, 2 * named) == 0);
        CHECK(post(&b, TOLL_LEDGER_EVENT_TOLL, 1, 42, 17, 1, 91, 2) == (takes ? TOLL_LEDGER_UNCLASSED : TOLL_LEDGER_CLOSED));
        CHECK(post(&b, TOLL_LEDGER_EVENT_TOLL, 1, 42, 18, 2, 60, 2) == (takes ? TOLL_LEDGER_MISDATED : TOLL_LEDGER_CLOSED));
        CHECK(toll(&b, 1, 41) == (takes ? TOLL_LEDGER_DUPLICATE : TOLL_LEDGER_CLOSED));
        CHECK(post(&b, TOLL_LEDGER_EVENT_TOLL, 1, 0, 17, 2, 60, 2) == TOLL_LEDGER_MALFORMED);
    }
    CHECK(toll(&b, 1, 42) == TOLL_LEDGER_POSTED); /* row 5, the last */
    CHECK(toll(&b, 1, 43) == TOLL_LEDGER_FULL && toll(&b, 2, 43) == TOLL_LEDGER_CLOSED);
    CHECK(toll(&b, 1, 42) == TOLL_LEDGER_DUPLICATE);
    free_book(&b);
}

/* One step alone: where the successor is closed, its own successor isn't asked, and no cycle turns. */
static void successors_of_successors(void)
{
    struct book b = left_book(8);
    CHECK(name_successor(&b, 1, 2) == 0 && name_successor(&b, 2, 4) == 0 && name_successor(&b, 3, 1) == 0);
    CHECK(toll(&b, 1, 41) == TOLL_LEDGER_CLOSED && toll(&b, 3, 41) == TOLL_LEDGER_CLOSED);
    CHECK(toll(&b, 2, 41) == TOLL_LEDGER_POSTED); /* row 4 */
    CHECK(name_successor(&b, 2, 3) == 0); /* 1, 2, 3 and 1 again */
    for (int64_t n = 1; n <= 3; n++)
        CHECK(toll(&b, n, 42) == TOLL_LEDGER_CLOSED);
    CHECK(post(&b, TOLL_LEDGER_EVENT_RETURNED_CHECK, 1, 1, 0) == 0); /* rows 5 and 6: 1 is pending */
    CHECK(toll(&b, 2, 42) == TOLL_LEDGER_CLOSED);
    CHECK(toll(&b, 3, 42) == TOLL_LEDGER_POSTED && row_of(&b, 7)[TOLL_LEDGER_ROW_ACCOUNT] == 1);
    CHECK(sound(&b) == TOLL_LEDGER_POSTED);
    free_book(&b);
}

/* An account that a returned check makes pending keeps its successor and takes its own tolls; once
 * closed again it passes them on again, while the successor takes them. */
static void successors_of_reopened_accounts(void)
{
    struct book b = left_book(16);
    const int64_t *x = account_of(&b, 1);
    CHECK(name_successor(&b, 1, 5) == 0);
    CHECK(post(&b, TOLL_LEDGER_EVENT_RETURNED_CHECK, 1, 1, 0) == 0); /* rows 4 and 5 */
    CHECK(x[TOLL_LEDGER_ACCOUNT_STATE] == TOLL_LEDGER_STATE_PENDING && x[TOLL_LEDGER_ACCOUNT_SUCCESSOR] == 5);
    CHECK(toll(&b, 1, 41) == 0 && row_of(&b, 6)[TOLL_LEDGER_ROW_ACCOUNT] == 1);
    CHECK(name_successor(&b, 1, 4) == TOLL_LEDGER_SUCCESSOR);
    CHECK(post(&b, TOLL_LEDGER_EVENT_PAYMENT, 1, 1700, 1) == 0); /* row 7: all that it owes */
    ticks(&b, 1);
    CHECK(x[TOLL_LEDGER_ACCOUNT_STATE] == TOLL_LEDGER_STATE_CLOSED && x[TOLL_LEDGER_ACCOUNT_SUCCESSOR] == 5);
    CHECK(toll(&b, 1, 42) == 0 && row_of(&b, 8)[TOLL_LEDGER_ROW_ACCOUNT] == 5);
    CHECK(settled(&b, 8) == 300 && post(&b, TOLL_LEDGER_EVENT_PAYMENT, 5, 200, 1) == 0); /* row 9 */
    ticks(&b, 14); /* day 32, 15 after the request of 5 */
    CHECK(account_of(&b, 5)[TOLL_LEDGER_ACCOUNT_STATE] == TOLL_LEDGER_STATE_CLOSED);
    CHECK(toll(&b, 1, 43) == TOLL_LEDGER_CLOSED);
    CHECK(name_successor(&b, 1, 4) == 0 && toll(&b, 1, 43) == 0 && row_of(&b, 10)[TOLL_LEDGER_ROW_ACCOUNT] == 4);
    CHECK(sound(&b) == TOLL_LEDGER_POSTED);
    free_book(&b);
}

/* Closing, naming, passing on and coming back within one batch, as singly. */
static void successors_in_a_batch(void)
{
    const struct toll_ledger_event_record events[] = {
        record(2, 1, 41, 1, 2, 60, 2), record(3, 1, 500, 3), record(8, 1), record(3, 3, 900, 1),
        record(12, 1, 3), record(9), record(9), record(9), record(9), record(9), record(9), record(9), record(9),
        record(9), record(9), record(9), record(9), record(9), record(9), record(9), record(9), /* day 17 */
        record(2, 1, 42, 17, 2, 60, 2), record(12, 1, 3), record(2, 1, 42, 17, 2, 60, 2), record(2, 1, 43, 17, 5, 60, 2),
        record(3, 3, 1200, 1), record(12, 1, 2), record(2, 1, 42, 17, 2, 60, 2), record(2, 1, 44, 17, 2, 60, 2),
        record(4, 1, 2, 0), record(2, 1, 45, 17, 2, 60, 2), record(3, 1, 1500, 2), record(9),
        record(2, 1, 46, 18, 2, 60, 2), record(3, 2, 1000, 2), record(12, 3, 1),
    };
    const size_t count = sizeof events / sizeof events[0];
    int64_t answers[5 * sizeof events / sizeof events[0]];
    struct book b = open_book(3, 20, 1), singly = open_book(3, 20, 1);
    for (int64_t n = 1; n <= 3; n++)
        CHECK(post(&b, TOLL_LEDGER_EVENT_OPEN, n, 0, 0) == 0 && post(&singly, TOLL_LEDGER_EVENT_OPEN, n, 0, 0) == 0);
    CHECK(batch(&b, events, count, answers, 5 * count) == TOLL_LEDGER_POSTED);
    for (size_t i = 0; i < count; i++) {
        int64_t words[TOLL_LEDGER_EVENT_WORDS];
        memcpy(words, &events[i], sizeof words);
        CHECK(post_words(&singly, words) == answers[5 * i]);
        CHECK(memcmp(singly.answer, answers + 5 * i, sizeof singly.answer) == 0);
    }
    int64_t *want = copy_words(&singly);
    CHECK(same_words(&b, want));
    CHECK(answers[5 * 4] == TOLL_LEDGER_SUCCESSOR && answers[5 * 21] == TOLL_LEDGER_CLOSED);
    CHECK(row_of(&b, answers[5 * 23 + 1])[TOLL_LEDGER_ROW_ACCOUNT] == 3 && answers[5 * 27] == TOLL_LEDGER_DUPLICATE);
    CHECK(row_of(&b, answers[5 * 28 + 1])[TOLL_LEDGER_ROW_ACCOUNT] == 2);
    CHECK(row_of(&b, answers[5 * 30 + 1])[TOLL_LEDGER_ROW_ACCOUNT] == 1);
    CHECK(row_of(&b, answers[5 * 33 + 1])[TOLL_LEDGER_ROW_ACCOUNT] == 2 && answers[5 * 35] == TOLL_LEDGER_SUCCESSOR);
    free(want);
    free_book(&b);
    free_book(&singly);
}

/* Successors as no ledger writes them, and some that one may, each alone in a sound book. */
static void damaged_successors(void)
{
    struct book b = varied_book(); /* account 3 alone is closed, 5 unused */
    for (int64_t n = 1; n <= 5; n++)
        for (int64_t value = -1; value <= 7; value++) {
            int64_t *successor = account_of(&b, n) + TOLL_LEDGER_ACCOUNT_SUCCESSOR;
            const int64_t old = *successor;
            CHECK(old == (n == 3));
            *successor = value;
            if (value == 0 || (n < 5 && value != n && value >= 1 && value < 5))
                CHECK(sound(&b) == TOLL_LEDGER_POSTED);
            else
                all_refuse_as_unsound(&b);
            *successor = old;
        }
    b.accounts_words -= TOLL_LEDGER_ACCOUNT_WORDS; /* a table cut short behind the successor's account */
    account_of(&b, 3)[TOLL_LEDGER_ACCOUNT_SUCCESSOR] = 5;
    all_refuse_as_unsound(&b);
    account_of(&b, 3)[TOLL_LEDGER_ACCOUNT_SUCCESSOR] = 4;
    CHECK(sound(&b) == TOLL_LEDGER_POSTED);
    b.accounts_words += TOLL_LEDGER_ACCOUNT_WORDS;
    free_book(&b);
}

/* Batches of no event, of 4,096 and of one more, with answer tables that just fit, or just not. */
static void sizes_of_batches(void)
{
    static struct toll_ledger_event_record events[4097];
    static int64_t answers[4097 * 5 + 1];
    struct book b = open_book(3, 8192, 1);
    for (int64_t i = 0; i < 4097; i++)
        events[i] = i == 0 ? record(1, 2)
                    : i % 5 == 0 ? record(3, 3, 1, 1) /* account 3 is unused: refused, and the batch goes on */
                                 : record(2, 2, i, 1, 2, 60, 1);
    CHECK(batch(&b, events, 0, NULL, 0) == TOLL_LEDGER_POSTED);
    CHECK(batch(&b, events, 0, NULL, 1) == TOLL_LEDGER_POSTED);
    CHECK(batch(&b, events, 1, NULL, 4) == TOLL_LEDGER_MALFORMED);
    CHECK(batch(&b, events, 4096, NULL, 4096 * 5 - 1) == TOLL_LEDGER_MALFORMED);
    CHECK(batch(&b, events, 4096, NULL, 0) == TOLL_LEDGER_MALFORMED);
    CHECK(batch(&b, events, 4097, NULL, 4097 * 5) == TOLL_LEDGER_MALFORMED);
    b.header[0] = 0;
    CHECK(batch(&b, events, 4097, NULL, 0) == TOLL_LEDGER_UNSOUND);
    CHECK(batch(&b, events, 0, NULL, 0) == TOLL_LEDGER_UNSOUND);
    b.header[0] = 1;
    CHECK(batch(&b, events, 4096, answers, 4096 * 5 + 1) == TOLL_LEDGER_POSTED);
    int64_t row = 1;
    for (int64_t i = 0; i < 4096; i++) {
        const int64_t *x = answers + 5 * i;
        const int adds = i % 5 != 0;
        CHECK(x[0] == (i == 0 || adds ? TOLL_LEDGER_POSTED : TOLL_LEDGER_UNKNOWN));
        CHECK(x[1] == (adds ? row : 0) && x[2] == adds && x[3] == 0 && x[4] == 0);
        row += adds;
    }
    CHECK(b.header[TOLL_LEDGER_HEADER_ROWS_USED] == row - 1);
    CHECK(sound(&b) == TOLL_LEDGER_POSTED);
    free_book(&b);
}

/* The largest book: 256 accounts and 8,192 rows, filled by two batches; then every event finds it
 * full or goes without a row. */
static void full_book(void)
{
    static struct toll_ledger_event_record events[4096];
    static int64_t answers[4096 * 5];
    struct book b = open_book(256, 8192, 1);
    for (int64_t n = 1; n <= 256; n++)
        events[n - 1] = record(1, n, 0, 100);
    CHECK(batch(&b, events, 256, answers, 256 * 5) == TOLL_LEDGER_POSTED);
    for (int half = 0; half < 2; half++) {
        for (int64_t i = 0; i < 4096; i++)
            events[i] = i % 3 == 0 ? record(3, 1 + i % 256, 200, 1 + i % 2)
                                   : record(2, 1 + i % 256, 1 + i + 4096 * half, 1, 2, 60, 2);
        CHECK(batch(&b, events, 4096, answers, 4096 * 5) == TOLL_LEDGER_POSTED);
        for (size_t i = 0; i < 4096; i++)
            CHECK(answers[5 * i] == TOLL_LEDGER_POSTED);
    }
    CHECK(b.header[TOLL_LEDGER_HEADER_ROWS_USED] == 8192);
    CHECK(post(&b, TOLL_LEDGER_EVENT_TOLL, 1, 1000000000, 1, 2, 60, 2) == TOLL_LEDGER_FULL);
    CHECK(post(&b, TOLL_LEDGER_EVENT_PAYMENT, 1, 1, 1) == TOLL_LEDGER_FULL);
    int64_t toll = 8192; /* the last that is owed */
    while (row_of(&b, toll)[TOLL_LEDGER_ROW_KIND] != TOLL_LEDGER_KIND_TOLL || row_of(&b, toll)[TOLL_LEDGER_ROW_SETTLED] != 0)
        toll--;
    const int64_t debtor = row_of(&b, toll)[TOLL_LEDGER_ROW_ACCOUNT];
    CHECK(post(&b, TOLL_LEDGER_EVENT_DISPUTE, debtor, toll) == TOLL_LEDGER_POSTED);
    CHECK(post(&b, TOLL_LEDGER_EVENT_DECISION, debtor, toll, 1) == TOLL_LEDGER_FULL);
    CHECK(post(&b, TOLL_LEDGER_EVENT_DECISION, debtor, toll, 0) == TOLL_LEDGER_POSTED);
    CHECK(topup_due(&b, debtor) == 1);
    CHECK(post(&b, TOLL_LEDGER_EVENT_TOPUP_RESULT, debtor, 0, 1) == TOLL_LEDGER_FULL);
    CHECK(post(&b, TOLL_LEDGER_EVENT_TOPUP_RESULT, debtor, 0, 0) == TOLL_LEDGER_POSTED);
    ticks(&b, 30);
    CHECK(b.answer[TOLL_LEDGER_ANSWER_RAISED] > 3000);
    ticks(&b, 29);
    CHECK(post(&b, TOLL_LEDGER_EVENT_TICK, 0) == TOLL_LEDGER_FULL); /* each of these tolls would add a fee */
    int64_t sum = 0, all = 0;
    for (int64_t n = 1; n <= 256; n++)
        sum += balance(&b, n);
    for (int64_t n = 1; n <= 8192; n++) {
        const int64_t *row = row_of(&b, n);
        all += row[TOLL_LEDGER_ROW_KIND] == TOLL_LEDGER_KIND_PAYMENT ? row[TOLL_LEDGER_ROW_AMOUNT] : -row[TOLL_LEDGER_ROW_AMOUNT];
    }
    CHECK(sum == all);
    CHECK(sound(&b) == TOLL_LEDGER_POSTED);
    free_book(&b);
}

int main(void)
{
    lengths_of_tables();
    lengths_of_a_sound_book();
    older_accounts(8);
    older_accounts(7);
    lengths_of_schedules();
    ranges_of_schedules();
    lengths_of_events_and_answers();
    wild_words_in_tables();
    wild_words_in_events();
    ranges_of_events();
    last_words_of_events();
    adding_lists();
    rates_by_passage_day();
    damaged_lists();
    fewer_lists();
    holidays_of_every_kind();
    wild_words_in_holidays();
    days_of_closing();
    all_else_on_holidays();
    all_else_on_weekends();
    full_until_a_business_day();
    closings_put_off();
    changing_reserves();
    reserves_after_closing();
    results_with_reserves();
    reserve_on_a_full_journal();
    damaged_reserves();
    tolls_before_fees();
    held_debts_wait();
    tolls_before_fees_in_a_tick();
    credits_cover_their_own();
    fees_paid_beside_tolls();
    debts_at_the_border();
    held_debts_are_not_heavy();
    returned_checks_and_heavy_debts();
    heavy_debtors_that_leave();
    heavy_debtors_of_a_full_journal();
    naming_successors();
    passing_tolls_on();
    tolls_alone_are_passed_on();
    refusals_of_tolls_on_closed_accounts();
    successors_of_successors();
    successors_of_reopened_accounts();
    successors_in_a_batch();
    damaged_successors();
    sizes_of_batches();
    full_book();
    return 0;
}
