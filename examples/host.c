/*
 * A small host of the toll account ledger: it keeps one book in a file.
 *
 *     host BOOK [EVENTS [HOLIDAYS]]
 *
 * Loads the book saved in BOOK, or opens a fresh one where there is no such file, with the days of the
 * file HOLIDAYS, one a line; posts the events of the file EVENTS, one a line as
 * kind,account,a,b,c,d,e,f,g; prints what was refused or passed on and a statement of every account;
 * saves the book. Ends with 0, or with 1 and nothing saved where something is wrong.
 */
#include <errno.h>
#include <inttypes.h>
#include <stdio.h>
#include <stdlib.h>
#include <string.h>
#include <time.h>

#include "toll_ledger.h"

/* Of a fresh book: room for accounts and rows; first day, L, fees 2 to 4, rates of classes 1 to 3. */
#define ACCOUNTS 64
#define ROWS 512
static const int64_t schedule[TOLL_LEDGER_SCHEDULE_WORDS] = {1,   30,  500, 2500, 3000, 250,
                                                             500, 600, 900, 1200, 1600};

/* How the file begins: its last letter is the version's first number, which rises where this file's
 * form or a stored book no longer fits. */
static const char magic[8] = {'T', 'L', 'L', 'B', 'O', 'O', 'K', '0' + TOLL_LEDGER_VERSION_MAJOR};

struct book {
    int64_t header[TOLL_LEDGER_HEADER_WORDS];
    int64_t *accounts, *journal, *holidays;
    size_t accounts_words, journal_words, holidays_words;
};

/* The four tables as every call takes them. */
#define TABLES(b)                                                                                                    \
    (b)->header, TOLL_LEDGER_HEADER_WORDS, (b)->accounts, (b)->accounts_words, (b)->journal, (b)->journal_words, \
        (b)->holidays, (b)->holidays_words

static const char *const number_names[] = {
    "posted",    "unsound", "malformed", "unknown",  "taken",    "closed", "unclassed", "misdated",
    "duplicate", "barred",  "no row",    "untimely", "last day", "full",   "ceiling",   "list",
    "reserve",   "holidays", "successor"};

static _Noreturn void fail(const char *what, const char *why)
{
    fprintf(stderr, "host: %s: %s\n", what, why);
    exit(1);
}

static void *memory(void *old, size_t count, size_t size)
{
    void *new = realloc(old, count * size);
    if (new == NULL)
        fail("memory", strerror(errno));
    return new;
}

static void make_room(struct book *b, size_t accounts, size_t rows, size_t holidays)
{
    b->accounts_words = accounts * TOLL_LEDGER_ACCOUNT_WORDS;
    b->journal_words = rows * TOLL_LEDGER_ROW_WORDS;
    b->holidays_words = holidays;
    b->accounts = memory(NULL, b->accounts_words, sizeof(int64_t));
    b->journal = memory(NULL, b->journal_words, sizeof(int64_t));
    b->holidays = memory(NULL, b->holidays_words + 1, sizeof(int64_t)); /* an empty list has a place too */
}

/* ---- the book's file: the magic letters, how many accounts, rows and holidays, the four tables */

static void load(struct book *b, FILE *file, const char *path)
{
    char letters[sizeof magic];
    int64_t counts[3];
    if (fread(letters, sizeof letters, 1, file) != 1 || memcmp(letters, magic, sizeof magic - 1) != 0 ||
        fread(counts, sizeof(int64_t), 3, file) != 3)
        fail(path, "not a book");
    if (letters[sizeof magic - 1] != magic[sizeof magic - 1])
        fail(path, "of another version of the ledger, whose books don't fit this one");
    if (counts[0] < 1 || counts[0] > TOLL_LEDGER_MOST_ACCOUNTS || counts[1] < 1 || counts[1] > TOLL_LEDGER_MOST_ROWS ||
        counts[2] < 0 || counts[2] > TOLL_LEDGER_MOST_HOLIDAYS)
        fail(path, "not a book");
    make_room(b, (size_t)counts[0], (size_t)counts[1], (size_t)counts[2]);
    if (fread(b->header, sizeof(int64_t), TOLL_LEDGER_HEADER_WORDS, file) != TOLL_LEDGER_HEADER_WORDS ||
        fread(b->accounts, sizeof(int64_t), b->accounts_words, file) != b->accounts_words ||
        fread(b->journal, sizeof(int64_t), b->journal_words, file) != b->journal_words ||
        fread(b->holidays, sizeof(int64_t), b->holidays_words, file) != b->holidays_words || fgetc(file) != EOF)
        fail(path, "not the length of its book");
    fclose(file);
}

/* Writes a new file and puts it in the old one's place, so that a stop midway loses no book. */
static void save(const struct book *b, const char *path)
{
    const int64_t counts[3] = {(int64_t)(b->accounts_words / TOLL_LEDGER_ACCOUNT_WORDS),
                               (int64_t)(b->journal_words / TOLL_LEDGER_ROW_WORDS), (int64_t)b->holidays_words};
    char *new_path = memory(NULL, strlen(path) + sizeof ".new", 1);
    strcat(strcpy(new_path, path), ".new");
    FILE *file = fopen(new_path, "wb");
    if (file == NULL)
        fail(new_path, strerror(errno));
    const int written =
        fwrite(magic, sizeof magic, 1, file) == 1 && fwrite(counts, sizeof(int64_t), 3, file) == 3 &&
        fwrite(b->header, sizeof(int64_t), TOLL_LEDGER_HEADER_WORDS, file) == TOLL_LEDGER_HEADER_WORDS &&
        fwrite(b->accounts, sizeof(int64_t), b->accounts_words, file) == b->accounts_words &&
        fwrite(b->journal, sizeof(int64_t), b->journal_words, file) == b->journal_words &&
        fwrite(b->holidays, sizeof(int64_t), b->holidays_words, file) == b->holidays_words;
    if (fclose(file) != 0 || !written || rename(new_path, path) != 0)
        fail(new_path, strerror(errno));
    free(new_path);
}

/* The holidays of a fresh book, which stay its own: whether they fit, the opening tells. */
static void read_holidays(struct book *b, const char *path)
{
    char line[64], *end;
    FILE *file = fopen(path, "r");
    if (file == NULL)
        fail(path, strerror(errno));
    while (fgets(line, sizeof line, file) != NULL) {
        b->holidays = memory(b->holidays, b->holidays_words + 1, sizeof(int64_t));
        errno = 0;
        b->holidays[b->holidays_words++] = strtoll(line, &end, 10);
        if (end == line || errno != 0 || (*end != '\n' && *end != '\0'))
            fail(path, "a line isn't a day");
    }
    if (ferror(file))
        fail(path, strerror(errno));
    fclose(file);
}

static void load_or_open(struct book *b, const char *path, const char *holidays)
{
    const struct toll_ledger_event_record none = {0};
    int64_t no_answer = 0;
    FILE *file = fopen(path, "rb");
    if (file != NULL) {
        if (holidays != NULL)
            fail(path, "has its holidays, from its opening");
        load(b, file, path);
        /* A batch of no events asks whether the book is sound: a damaged file is not worked on. */
        if (toll_ledger_batch(TABLES(b), &none, 0, &no_answer, 0) != TOLL_LEDGER_POSTED)
            fail(path, "unsound; restore its last good copy and post again what came after");
    } else if (errno != ENOENT) {
        fail(path, strerror(errno));
    } else {
        make_room(b, ACCOUNTS, ROWS, 0);
        if (holidays != NULL)
            read_holidays(b, holidays);
        const int64_t opened = toll_ledger_open(TABLES(b), schedule, TOLL_LEDGER_SCHEDULE_WORDS);
        if (opened != TOLL_LEDGER_POSTED)
            fail("opening", number_names[opened]);
    }
}

/* ---- events */

static int parse(const char *line, struct toll_ledger_event_record *event)
{
    int64_t *const words[TOLL_LEDGER_EVENT_WORDS] = {&event->kind, &event->account, &event->a, &event->b, &event->c,
                                                     &event->d,    &event->e,       &event->f, &event->g};
    for (size_t i = 0; i < TOLL_LEDGER_EVENT_WORDS; i++) {
        const int last = i == TOLL_LEDGER_EVENT_WORDS - 1;
        char *end;
        errno = 0;
        *words[i] = strtoll(line, &end, 10);
        if (end == line || errno != 0 || (last ? *end != '\n' && *end != '\0' : *end != ','))
            return 0;
        line = end + 1;
    }
    return 1;
}

/* The events of a file, all read before any is posted. */
static struct toll_ledger_event_record *read_events(const char *path, size_t *count)
{
    struct toll_ledger_event_record *events = NULL;
    char line[256];
    FILE *file = fopen(path, "r");
    if (file == NULL)
        fail(path, strerror(errno));
    for (*count = 0; fgets(line, sizeof line, file) != NULL; ++*count) {
        events = memory(events, *count + 1, sizeof *events);
        if (!parse(line, &events[*count])) {
            fprintf(stderr, "host: %s: line %zu isn't nine numbers with commas between\n", path, *count + 1);
            exit(1);
        }
    }
    if (ferror(file))
        fail(path, strerror(errno));
    fclose(file);
    return events;
}

/* Whether it is a toll that was passed on: its row then carries another number than the event. */
static int is_passed_on(const struct book *b, const struct toll_ledger_event_record *event, const int64_t *answer, int64_t *to)
{
    if (event->kind != TOLL_LEDGER_EVENT_TOLL)
        return 0;
    *to = b->journal[(answer[TOLL_LEDGER_ANSWER_FIRST_ROW] - 1) * TOLL_LEDGER_ROW_WORDS + TOLL_LEDGER_ROW_ACCOUNT];
    return *to != event->account;
}

/* Posts events in batches of the most that one call takes, and prints what was refused or passed on. */
static void post(struct book *b, const struct toll_ledger_event_record *events, size_t count)
{
    static int64_t answers[TOLL_LEDGER_MOST_EVENTS * TOLL_LEDGER_ANSWER_WORDS];
    size_t posted = 0;
    for (size_t done = 0; done < count;) {
        const size_t part = count - done < TOLL_LEDGER_MOST_EVENTS ? count - done : TOLL_LEDGER_MOST_EVENTS;
        const int64_t ran = toll_ledger_batch(TABLES(b), events + done, part, answers, sizeof answers / sizeof answers[0]);
        if (ran != TOLL_LEDGER_POSTED)
            fail("batch", number_names[ran]);
        for (size_t i = 0; i < part; i++) {
            const int64_t *answer = answers + i * TOLL_LEDGER_ANSWER_WORDS, number = answer[TOLL_LEDGER_ANSWER_NUMBER];
            int64_t to;
            if (number != TOLL_LEDGER_POSTED)
                printf("event %zu refused: %s\n", done + i + 1, number_names[number]);
            else if (is_passed_on(b, &events[done + i], answer, &to))
                printf("event %zu passed on to account %" PRId64 "\n", done + i + 1, to);
            posted += number == TOLL_LEDGER_POSTED;
        }
        done += part;
    }
    printf("%zu of %zu events posted\n", posted, count);
}

/* ---- the statement */

static const char *date(int64_t day)
{
    static char text[16];
    const time_t seconds = (time_t)(946684800 + (day - 1) * 86400); /* day 1 is 2000-01-01 */
    strftime(text, sizeof text, "%Y-%m-%d", gmtime(&seconds));
    return text;
}

static const char *dollars(int64_t cents)
{
    static char texts[2][32];
    static int turn;
    const int64_t size = cents < 0 ? -cents : cents;
    char *text = texts[turn ^= 1];
    snprintf(text, sizeof texts[0], "%s%" PRId64 ".%02" PRId64, cents < 0 ? "-" : "", size / 100, size % 100);
    return text;
}

/* A top-up that is due is asked of the primary card, after two declines in a row of the reserve. */
static const char *due_text(const int64_t *account, int64_t due)
{
    const int turns = account[TOLL_LEDGER_ACCOUNT_DECLINES] == 2;
    if (due && turns && account[TOLL_LEDGER_ACCOUNT_RESERVE] == 1)
        return ", top-up due from the reserve";
    return due ? ", top-up due" : "";
}

/* The last row read is the one with which the debt exceeds what is allowed. */
static const char *heavy_text(int64_t heavy, int64_t rows_read)
{
    static char text[64];
    if (!heavy)
        return "";
    snprintf(text, sizeof text, ", heavy debtor by row %" PRId64, rows_read);
    return text;
}

static const char *successor_text(const int64_t *account)
{
    static char text[32];
    if (account[TOLL_LEDGER_ACCOUNT_SUCCESSOR] == 0)
        return "";
    snprintf(text, sizeof text, ", successor %" PRId64, account[TOLL_LEDGER_ACCOUNT_SUCCESSOR]);
    return text;
}

static void print_statement(const struct book *b)
{
    static const char *const states[] = {"unused", "open", "pending", "closed"};
    static const char *const kinds[] = {"empty", "toll", "fee", "reversal", "payment", "credit", "refund"};
    const int64_t used = b->header[TOLL_LEDGER_HEADER_ROWS_USED];
    printf("statement of %s\n", date(b->header[TOLL_LEDGER_HEADER_DAY]));
    for (int64_t n = 1; n <= (int64_t)(b->accounts_words / TOLL_LEDGER_ACCOUNT_WORDS); n++) {
        const int64_t *account = b->accounts + (n - 1) * TOLL_LEDGER_ACCOUNT_WORDS;
        int64_t balance, due, heavy, rows_read;
        if (toll_ledger_balance(TABLES(b), n, &balance) != TOLL_LEDGER_POSTED ||
            toll_ledger_topup_due(TABLES(b), n, &due) != TOLL_LEDGER_POSTED ||
            toll_ledger_debtor(TABLES(b), n, &heavy, &rows_read) != TOLL_LEDGER_POSTED)
            continue; /* unused */
        printf("account %" PRId64 ", %s, balance %s%s%s%s\n", n, states[account[TOLL_LEDGER_ACCOUNT_STATE]],
               dollars(balance), heavy_text(heavy, rows_read), due_text(account, due), successor_text(account));
        for (int64_t r = 1; r <= used; r++) {
            const int64_t *row = b->journal + (r - 1) * TOLL_LEDGER_ROW_WORDS;
            if (row[TOLL_LEDGER_ROW_ACCOUNT] == n)
                printf("  %4" PRId64 "  %s  %-8s  %10s, settled %s%s\n", r, date(row[TOLL_LEDGER_ROW_DAY]),
                       kinds[row[TOLL_LEDGER_ROW_KIND]], dollars(row[TOLL_LEDGER_ROW_AMOUNT]),
                       dollars(row[TOLL_LEDGER_ROW_SETTLED]),
                       row[TOLL_LEDGER_ROW_DISPUTE] == TOLL_LEDGER_DISPUTE_HELD ? ", held" : "");
        }
    }
}

int main(int argc, char **argv)
{
    struct book book;
    if (argc < 2 || argc > 4)
        fail("usage", "host BOOK [EVENTS [HOLIDAYS]]");
    load_or_open(&book, argv[1], argc == 4 ? argv[3] : NULL);
    if (argc >= 3) {
        size_t count;
        struct toll_ledger_event_record *events = read_events(argv[2], &count);
        post(&book, events, count);
        free(events);
    }
    print_statement(&book);
    save(&book, argv[1]);
    free(book.holidays);
    free(book.journal);
    free(book.accounts);
    return 0;
}
