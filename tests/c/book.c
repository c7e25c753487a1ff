#define _DEFAULT_SOURCE /* for mmap's MAP_ANONYMOUS */
#include "book.h"

#include <string.h>
#include <sys/mman.h>
#include <unistd.h>

const int64_t example_schedule[TOLL_LEDGER_SCHEDULE_WORDS] = {1,   30,  500, 2500, 3000, 250,
                                                              500, 600, 900, 1200, 1600};

enum place { HEAP, END, START };

static enum place place(void)
{
    const char *where = getenv("TOLL_TABLES");
    if (where == NULL || strcmp(where, "heap") == 0)
        return HEAP;
    CHECK(strcmp(where, "end") == 0 || strcmp(where, "start") == 0);
    return strcmp(where, "end") == 0 ? END : START;
}

/* The bytes of whole pages that hold a table; an empty one has a page too, so that it has a place. */
static size_t paged(size_t bytes)
{
    const size_t page = (size_t)sysconf(_SC_PAGESIZE);
    return bytes == 0 ? page : (bytes + page - 1) / page * page;
}

int64_t *new_table(size_t words)
{
    const size_t page = (size_t)sysconf(_SC_PAGESIZE), bytes = words * sizeof(int64_t);
    int64_t *table;
    if (place() == HEAP) {
        table = malloc(bytes == 0 ? 1 : bytes);
        CHECK(table != NULL);
    } else {
        unsigned char *base = mmap(NULL, paged(bytes) + 2 * page, PROT_NONE,
                                   MAP_PRIVATE | MAP_ANONYMOUS, -1, 0);
        CHECK(base != MAP_FAILED);
        CHECK(mprotect(base + page, paged(bytes), PROT_READ | PROT_WRITE) == 0);
        table = (int64_t *)(void *)(base + page + (place() == END ? paged(bytes) - bytes : 0));
    }
    for (size_t i = 0; i < words; i++)
        table[i] = -77;
    return table;
}

void free_table(int64_t *table, size_t words)
{
    const size_t page = (size_t)sysconf(_SC_PAGESIZE), bytes = words * sizeof(int64_t);
    if (place() == HEAP) {
        free(table);
        return;
    }
    unsigned char *base = (unsigned char *)table - page - (place() == END ? paged(bytes) - bytes : 0);
    CHECK(munmap(base, paged(bytes) + 2 * page) == 0);
}

struct book new_book(size_t accounts, size_t rows)
{
    struct book b = {.header_words = TOLL_LEDGER_HEADER_WORDS,
                     .accounts_words = accounts * TOLL_LEDGER_ACCOUNT_WORDS,
                     .journal_words = rows * TOLL_LEDGER_ROW_WORDS};
    b.header = new_table(b.header_words);
    b.accounts = new_table(b.accounts_words);
    b.journal = new_table(b.journal_words);
    b.holidays = new_table(0);
    return b;
}

void free_book(struct book *b)
{
    free_table(b->header, b->header_words);
    free_table(b->accounts, b->accounts_words);
    free_table(b->journal, b->journal_words);
    free_table((int64_t *)b->holidays, b->holidays_words);
}

void lend_holidays(struct book *b, const int64_t *days, size_t count)
{
    const size_t page = (size_t)sysconf(_SC_PAGESIZE), bytes = count * sizeof(int64_t);
    int64_t *table = new_table(count);
    if (count > 0)
        memcpy(table, days, bytes);
    if (place() != HEAP) {
        unsigned char *base = (unsigned char *)table - (place() == END ? paged(bytes) - bytes : 0);
        CHECK((uintptr_t)base % page == 0 && mprotect(base, paged(bytes), PROT_READ) == 0);
    }
    free_table((int64_t *)b->holidays, b->holidays_words);
    b->holidays = table;
    b->holidays_words = count;
}

struct book open_book(size_t accounts, size_t rows, int64_t first_day)
{
    return open_book_with(accounts, rows, first_day, NULL, 0);
}

struct book open_book_with(size_t accounts, size_t rows, int64_t first_day, const int64_t *days, size_t count)
{
    struct book b = new_book(accounts, rows);
    lend_holidays(&b, days, count);
    int64_t *schedule = new_table(TOLL_LEDGER_SCHEDULE_WORDS);
    memcpy(schedule, example_schedule, sizeof example_schedule);
    schedule[0] = first_day;
    CHECK(toll_ledger_open(TABLES(&b), schedule, TOLL_LEDGER_SCHEDULE_WORDS) == 0);
    free_table(schedule, TOLL_LEDGER_SCHEDULE_WORDS);
    return b;
}

int64_t post_words(struct book *book, const int64_t *words)
{
    const size_t size = TOLL_LEDGER_EVENT_WORDS * sizeof *words;
    int64_t *before = copy_words(book);
    int64_t *event = new_table(TOLL_LEDGER_EVENT_WORDS);
    int64_t *answer = new_table(TOLL_LEDGER_ANSWER_WORDS);
    memcpy(event, words, size);
    const int64_t number = toll_ledger_event(TABLES(book), event, TOLL_LEDGER_EVENT_WORDS, answer,
                                             TOLL_LEDGER_ANSWER_WORDS);
    memcpy(book->answer, answer, sizeof book->answer);
    CHECK(number == answer[TOLL_LEDGER_ANSWER_NUMBER]);
    CHECK(memcmp(event, words, size) == 0);
    if (number != TOLL_LEDGER_POSTED) {
        CHECK(same_words(book, before));
        for (size_t i = 1; i < TOLL_LEDGER_ANSWER_WORDS; i++)
            CHECK(answer[i] == 0);
    }
    free_table(answer, TOLL_LEDGER_ANSWER_WORDS);
    free_table(event, TOLL_LEDGER_EVENT_WORDS);
    free(before);
    return number;
}

struct toll_ledger_event_record record_of(const int64_t *words)
{
    struct toll_ledger_event_record record;
    memcpy(&record, words, sizeof record);
    return record;
}

void ticks(struct book *book, int64_t count)
{
    for (int64_t i = 0; i < count; i++)
        CHECK(post(book, TOLL_LEDGER_EVENT_TICK, 0) == TOLL_LEDGER_POSTED);
}

int64_t sound(struct book *book)
{
    int64_t *empty = new_table(0);
    const int64_t number =
        toll_ledger_batch(TABLES(book), (struct toll_ledger_event_record *)(void *)empty, 0, empty, 0);
    free_table(empty, 0);
    return number;
}

int64_t ask(question *question, struct book *book, int64_t account, int64_t *value)
{
    int64_t *before = copy_words(book);
    int64_t *place = new_table(1);
    const int64_t number = question(TABLES(book), account, place);
    *value = *place;
    CHECK(same_words(book, before));
    CHECK(number == TOLL_LEDGER_POSTED || *value == 0);
    free_table(place, 1);
    free(before);
    return number;
}

int64_t ask_debtor(struct book *book, int64_t account, int64_t *heavy, int64_t *rows_read)
{
    int64_t *before = copy_words(book);
    int64_t *yes = new_table(1), *rows = new_table(1);
    const int64_t number = toll_ledger_debtor(TABLES(book), account, yes, rows);
    *heavy = *yes;
    *rows_read = *rows;
    CHECK(same_words(book, before));
    CHECK(number == TOLL_LEDGER_POSTED ? *heavy == 0 || *heavy == 1 : *heavy == 0 && *rows_read == 0);
    free_table(rows, 1);
    free_table(yes, 1);
    free(before);
    return number;
}

int64_t balance(struct book *book, int64_t account)
{
    int64_t value;
    CHECK(ask(toll_ledger_balance, book, account, &value) == TOLL_LEDGER_POSTED);
    return value;
}

int64_t topup_due(struct book *book, int64_t account)
{
    int64_t value;
    CHECK(ask(toll_ledger_topup_due, book, account, &value) == TOLL_LEDGER_POSTED);
    return value;
}

int64_t heavy_debtor(struct book *book, int64_t account, int64_t *rows_read)
{
    int64_t heavy;
    CHECK(ask_debtor(book, account, &heavy, rows_read) == TOLL_LEDGER_POSTED);
    return heavy;
}

int64_t *row_of(struct book *book, int64_t row)
{
    CHECK(row >= 1 && (size_t)row * TOLL_LEDGER_ROW_WORDS <= book->journal_words);
    return book->journal + (row - 1) * TOLL_LEDGER_ROW_WORDS;
}

int64_t *account_of(struct book *book, int64_t account)
{
    CHECK(account >= 1 && (size_t)account * TOLL_LEDGER_ACCOUNT_WORDS <= book->accounts_words);
    return book->accounts + (account - 1) * TOLL_LEDGER_ACCOUNT_WORDS;
}

int64_t today(const struct book *book)
{
    return book->header[TOLL_LEDGER_HEADER_DAY];
}

int64_t *copy_words(const struct book *b)
{
    const size_t words = b->header_words + b->accounts_words + b->journal_words;
    int64_t *copy = malloc((words + b->holidays_words + 1) * sizeof *copy);
    CHECK(copy != NULL);
    memcpy(copy, b->header, b->header_words * sizeof *copy);
    memcpy(copy + b->header_words, b->accounts, b->accounts_words * sizeof *copy);
    memcpy(copy + b->header_words + b->accounts_words, b->journal, b->journal_words * sizeof *copy);
    memcpy(copy + words, b->holidays, b->holidays_words * sizeof *copy);
    return copy;
}

int same_words(const struct book *b, const int64_t *copy)
{
    const size_t words = b->header_words + b->accounts_words + b->journal_words;
    return memcmp(copy, b->header, b->header_words * sizeof *copy) == 0 &&
           memcmp(copy + b->header_words, b->accounts, b->accounts_words * sizeof *copy) == 0 &&
           memcmp(copy + b->header_words + b->accounts_words, b->journal,
                  b->journal_words * sizeof *copy) == 0 &&
           memcmp(copy + words, b->holidays, b->holidays_words * sizeof *copy) == 0;
}
