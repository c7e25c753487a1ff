/* How long the calls take beside the same calls in plain C, which are the model of the tests: both
 * libraries in one process, in turns, on fresh copies of the same books. Prints medians in
 * microseconds, ours to plain C, and how time grows with the rows. docs/SPEED.md quotes a run. That
 * both answer alike is tests/compare's to show. */
#define _POSIX_C_SOURCE 199309L
#include <stdio.h>
#include <stdlib.h>
#include <time.h>

#include "books.h"

#define ACCOUNTS TOLL_LEDGER_MOST_ACCOUNTS
#define SIZES 3
#define CALLS 8
#define CALL_RUNS 2001
#define BATCH_RUNS 61
#define PART 1024 /* events of a batch onto a book with rows */
#define LIST_DAYS 12 /* from one rate list to the next: the last has begun when a book is timed */
#define MOST_RUNS CALL_RUNS
/* In the place of an event's kind: a heavy debtor by an early row; a toll for a closed account, which
 * its successor takes. */
#define HEAVY 0
#define PASSED_ON (-1)

static const size_t sizes[SIZES] = {512, 2048, 8192};
static const int64_t schedule[TOLL_LEDGER_SCHEDULE_WORDS] = {1,   30,  500, 2500, 3000, 250,
                                                             500, 600, 900, 1200, 1600};
static const struct mix filling = {.payments = 300, .returns = 15, .disputes = 60, .decisions = 15,
                                   .topups = 30, .closes = 4};
static const struct mix batched = {.payments = 330, .returns = 10, .disputes = 20, .decisions = 10,
                                   .topups = 15, .closes = 5, .ticks = 10, .passes = 100};
/* The same but for the events that read the journal by their rule: a tick, and a decision that upholds. */
static const struct mix searching = {.payments = 330, .returns = 10, .disputes = 20, .topups = 15,
                                     .closes = 5};

static struct tables books[SIZES], lent;
static struct tables *book = books; /* the one in hand */
static event events[TOLL_LEDGER_MOST_EVENTS];
static event drawn[SIZES][CALL_RUNS];
static int64_t answers[TOLL_LEDGER_MOST_EVENTS * TOLL_LEDGER_ANSWER_WORDS];

/* Medians of one case. */
struct pair {
    double ours, plain;
};

/* What one run does with the lent book; the event is the run's. */
typedef void work(const struct library *library, const event *e);

static double now(void)
{
    struct timespec t;
    clock_gettime(CLOCK_MONOTONIC, &t);
    return (double)t.tv_sec * 1e6 + (double)t.tv_nsec / 1e3;
}

static double time_once(const struct library *library, work *task, const event *e)
{
    copy_tables(&lent, book);
    const double start = now();
    task(library, e);
    return now() - start;
}

static int by_size(const void *x, const void *y)
{
    const double a = *(const double *)x, b = *(const double *)y;
    return (a > b) - (a < b);
}

static double median(double *times, size_t runs)
{
    qsort(times, runs, sizeof *times, by_size);
    return times[runs / 2];
}

/* In turns: from run to run through the sizes, and each time both libraries, the first of the two
 * changing, so that noise hits all alike. */
static void measure(work *task, size_t count, size_t runs, struct pair *medians)
{
    static double times[SIZES][2][MOST_RUNS];
    for (size_t run = 0; run < runs; run++)
        for (size_t turn = 0; turn < 2 * count; turn++) {
            const size_t s = turn / 2, which = (run + turn) % 2;
            book = &books[s];
            times[s][which][run] = time_once(which == 0 ? &ours : &plain, task, &drawn[s][run]);
        }
    for (size_t s = 0; s < count; s++)
        medians[s] = (struct pair){median(times[s][0], runs), median(times[s][1], runs)};
}

/* What any call that checks the whole book has to do at least: a scalar read of each word, which a
 * volatile one is. */
static void read_words(const volatile int64_t *words, size_t count)
{
    int64_t any = 0;
    for (size_t i = 0; i < count; i++)
        any |= words[i];
    answers[0] = any;
}

static void read_book(const struct library *library, const event *e)
{
    (void)library;
    (void)e;
    read_words(lent.header, lent.header_words);
    read_words(lent.accounts, lent.accounts_words);
    read_words(lent.journal, lent.journal_words);
}

static void post_drawn(const struct library *library, const event *e)
{
    must(library->event(LENT(&lent), &e->kind, TOLL_LEDGER_EVENT_WORDS, answers,
                        TOLL_LEDGER_ANSWER_WORDS) == TOLL_LEDGER_POSTED,
         "a timed event is posted");
}

static void ask_balance(const struct library *library, const event *e)
{
    must(library->balance(LENT(&lent), e->account, answers) == TOLL_LEDGER_POSTED,
         "a timed balance is given");
}

static void ask_topup_due(const struct library *library, const event *e)
{
    must(library->topup_due(LENT(&lent), e->account, answers) == TOLL_LEDGER_POSTED,
         "a timed top-up is told");
}

static void ask_debtor(const struct library *library, const event *e)
{
    must(library->debtor(LENT(&lent), e->account, &answers[0], &answers[1]) == TOLL_LEDGER_POSTED,
         "a timed debtor is told");
}

static size_t batch_events; /* how many the timed batch has */
static long batch_passed;   /* of them tolls that are passed on */

static void post_batch(const struct library *library, const event *e)
{
    (void)e;
    must(library->batch(LENT(&lent), events, batch_events, answers,
                        sizeof answers / sizeof answers[0]) == TOLL_LEDGER_POSTED,
         "a timed batch is run");
}

static int64_t post_to_book(const event *e)
{
    const struct book b = book_of(book);
    return post(&b, e).number;
}

/* As many rate lists as a book holds, each with the opening's rates: tolls look theirs up, and their
 * amounts are those of all books in docs/SPEED.md. */
static void add_rate_lists(void)
{
    const int64_t *r = schedule + TOLL_LEDGER_SCHEDULE_WORDS - RATES;
    for (int64_t i = 1; i < TOLL_LEDGER_MOST_LISTS; i++) {
        const event e = {.kind = TOLL_LEDGER_EVENT_RATE_LIST,
                         .a = schedule[0] + i * LIST_DAYS,
                         .b = r[0], .c = r[1], .d = r[2], .e = r[3], .f = r[4], .g = r[5]};
        must(post_to_book(&e) == TOLL_LEDGER_POSTED, "a rate list is added");
    }
}

static void open_book(size_t rows)
{
    shape(book, ACCOUNTS, rows);
    must(plain.open(LENT(book), schedule, TOLL_LEDGER_SCHEDULE_WORDS) == TOLL_LEDGER_POSTED,
         "the book is opened");
    add_rate_lists();
}

/* Event n of those that open the accounts, all but some with a top-up. */
static event opening_of(struct host *host, int64_t n)
{
    const int64_t topup = once_in(host, 5) ? 0 : draw(host, 1000, 4000);
    return (event){.kind = TOLL_LEDGER_EVENT_OPEN,
                   .account = n,
                   .a = topup == 0 ? 0 : draw(host, 0, 1000),
                   .b = topup};
}

static void open_accounts(struct host *host)
{
    for (int64_t n = 1; n <= ACCOUNTS; n++) {
        const event e = opening_of(host, n);
        post_to_book(&e);
    }
}

/* A book of so many rows, of which about `used` are used after some 120 days. */
static void fill_book(struct host *host, size_t rows, size_t used)
{
    const event day = {.kind = TOLL_LEDGER_EVENT_TICK};
    open_book(rows);
    open_accounts(host);
    const struct book b = book_of(book);
    for (size_t i = 1; rows_used(&b) < used; i++) {
        const event e = next_event(host, &b);
        post_to_book(&e);
        if (i % (used / 120 + 1) == 0)
            post_to_book(&day);
    }
}

/* Each closed account has the next one after it that is open or pending as its successor. */
static void name_successors(void)
{
    const struct book b = book_of(book);
    for (int64_t n = 1; n <= ACCOUNTS; n++) {
        int64_t next = n % ACCOUNTS + 1;
        while (next != n && !is_live(&b, next))
            next = next % ACCOUNTS + 1;
        const event e = {.kind = TOLL_LEDGER_EVENT_SUCCESSOR, .account = n, .a = next};
        must(post_to_book(&e) == TOLL_LEDGER_POSTED || b.accounts[n - 1].state != TOLL_LEDGER_STATE_CLOSED,
             "a successor is named");
    }
}

static void print_book(void)
{
    const struct book b = book_of(book);
    long kinds[TOLL_LEDGER_KIND_REFUND + 1] = {0}, settled = 0, held = 0, closed = 0;
    for (size_t i = 0; i < rows_used(&b); i++) {
        kinds[b.rows[i].kind]++;
        settled += b.rows[i].kind == TOLL_LEDGER_KIND_TOLL && left_of(&b.rows[i]) == 0;
        held += is_held_toll(&b.rows[i]);
    }
    printf("%zu rows, %zu used: tolls %ld (%ld settled, %ld held), fees %ld, reversals %ld, payments %ld, "
           "credits %ld, refunds %ld; day %ld\n",
           b.room, rows_used(&b), kinds[TOLL_LEDGER_KIND_TOLL], settled, held,
           kinds[TOLL_LEDGER_KIND_FEE], kinds[TOLL_LEDGER_KIND_REVERSAL],
           kinds[TOLL_LEDGER_KIND_PAYMENT], kinds[TOLL_LEDGER_KIND_CREDIT],
           kinds[TOLL_LEDGER_KIND_REFUND], (long)b.header->day);
    for (size_t i = 0; i < b.count; i++)
        closed += b.accounts[i].state == TOLL_LEDGER_STATE_CLOSED;
    copy_tables(&lent, book);
    const struct book next = book_of(&lent);
    const struct answer a = tick(&next);
    printf("    its tick raises %ld tolls and adds %ld rows; %ld accounts are closed and have successors\n",
           (long)a.raised, (long)a.new_rows, closed);
}

static int64_t drawn_account(struct host *host, bool closed)
{
    const struct book b = book_of(book);
    int64_t n = draw(host, 1, ACCOUNTS);
    while ((b.accounts[n - 1].state == TOLL_LEDGER_STATE_CLOSED) != closed)
        n = draw(host, 1, ACCOUNTS);
    return n;
}

/* An event of one case: a payment, a toll or a tick. A question takes the account alone. */
static event timed_event(struct host *host, const struct book *b, int64_t kind)
{
    const int64_t account = drawn_account(host, kind == PASSED_ON);
    if (kind == TOLL_LEDGER_EVENT_TICK)
        return (event){.kind = kind};
    if (kind == TOLL_LEDGER_EVENT_TOLL || kind == PASSED_ON)
        return toll_for(host, b, account);
    event e = payment_for(host, b, account);
    e.b = TOLL_LEDGER_METHOD_CARD; /* never barred */
    return e;
}

static void draw_events(struct host *host, event *list, int64_t kind)
{
    const struct book b = book_of(book);
    for (size_t i = 0; i < CALL_RUNS; i++)
        list[i] = timed_event(host, &b, kind);
}

/* Makes the first toll that is owed so dear that its account is a heavy debtor: the book stays sound,
 * and the debtor question reads no row after it. */
static void draw_heavy(event *list)
{
    const struct book b = book_of(book);
    size_t i = 0;
    while (b.rows[i].kind != TOLL_LEDGER_KIND_TOLL || !is_payable(&b, &b.rows[i]))
        i++;
    b.rows[i].amount += TOLL_LEDGER_HEAVY_DEBT;
    printf("%zu rows: a heavy debtor by row %zu\n", b.room, i + 1);
    for (size_t run = 0; run < CALL_RUNS; run++)
        list[run] = (event){.account = b.rows[i].account};
}

static void print_pair(const char *name, size_t rows, struct pair p)
{
    printf("%-34s %6zu %10.2f %10.2f %8.2f\n", name, rows, p.ours, p.plain, p.ours / p.plain);
}

/* And what the call takes of one scalar read of the book. */
static void print_call(const char *name, size_t rows, struct pair p, struct pair read)
{
    printf("%-34s %6zu %10.2f %10.2f %8.2f %10.2f %10.2f\n", name, rows, p.ours, p.plain,
           p.ours / p.plain, p.ours / read.plain, p.plain / read.plain);
}

static const struct {
    const char *name;
    work *task;
    int64_t kind; /* of the events drawn; HEAVY changes the book and comes last */
} calls[CALLS] = {{"payment", post_drawn, TOLL_LEDGER_EVENT_PAYMENT},
                  {"toll", post_drawn, TOLL_LEDGER_EVENT_TOLL},
                  {"tick", post_drawn, TOLL_LEDGER_EVENT_TICK},
                  {"balance", ask_balance, TOLL_LEDGER_EVENT_PAYMENT},
                  {"top-up due", ask_topup_due, TOLL_LEDGER_EVENT_PAYMENT},
                  {"debtor", ask_debtor, TOLL_LEDGER_EVENT_PAYMENT},
                  {"toll passed on", post_drawn, PASSED_ON},
                  {"debtor, heavy by an early row", ask_debtor, HEAVY}};

static void measure_calls(struct pair medians[CALLS][SIZES], struct pair reads[SIZES])
{
    struct host hosts[SIZES];
    for (size_t s = 0; s < SIZES; s++) {
        hosts[s] = (struct host){.state = 1 + s, .mix = filling};
        book = &books[s];
        fill_book(&hosts[s], sizes[s], sizes[s] - sizes[s] / 16);
        name_successors();
        print_book();
    }
    measure(read_book, SIZES, CALL_RUNS, reads);
    for (size_t c = 0; c < CALLS; c++) {
        for (size_t s = 0; s < SIZES; s++) {
            book = &books[s];
            if (calls[c].kind == HEAVY)
                draw_heavy(drawn[s]);
            else
                draw_events(&hosts[s], drawn[s], calls[c].kind);
        }
        measure(calls[c].task, SIZES, CALL_RUNS, medians[c]);
    }
}

static void print_calls(struct pair medians[CALLS][SIZES], struct pair reads[SIZES])
{
    printf("\n%-34s %6s %10s %10s %8s %10s %10s\n", "single call, us", "rows", "ours", "plain C", "ratio",
           "ours/read", "plain/read");
    for (size_t s = 0; s < SIZES; s++)
        printf("%-34s %6zu %10s %10.2f\n", "a scalar read of every word", sizes[s], "", reads[s].plain);
    for (size_t c = 0; c < CALLS; c++)
        for (size_t s = 0; s < SIZES; s++)
            print_call(calls[c].name, sizes[s], medians[c][s], reads[s]);
}

static void print_growth(struct pair medians[CALLS][SIZES])
{
    printf("\n%-34s %13s %10s %10s\n", "growth", "rows", "ours", "plain C");
    for (size_t c = 0; c < CALLS; c++)
        for (size_t s = 1; s < SIZES; s++)
            printf("%-34s %5zu to %4zu %10.2f %10.2f\n", calls[c].name, sizes[s - 1], sizes[s],
                   medians[c][s].ours / medians[c][s - 1].ours,
                   medians[c][s].plain / medians[c][s - 1].plain);
}

/* A list of events that suit the book one after another. */
static void draw_batch(struct host *host, size_t first, size_t count)
{
    copy_tables(&lent, book);
    const struct book b = book_of(&lent);
    batch_passed = 0;
    for (size_t i = 0; i < count; i++) {
        events[i] = i < first ? opening_of(host, (int64_t)i + 1) : next_event(host, &b);
        const struct answer a = post(&b, &events[i]);
        batch_passed += a.first_row > 0 && events[i].kind == TOLL_LEDGER_EVENT_TOLL &&
                        b.rows[a.first_row - 1].account != events[i].account;
    }
    batch_events = count;
}

static void print_batch_events(void)
{
    long kinds[TOLL_LEDGER_EVENT_SUCCESSOR + 1] = {0};
    for (size_t i = 0; i < batch_events; i++)
        kinds[events[i].kind]++;
    printf("\nThe batch of %zu, by kind:", batch_events);
    for (int kind = TOLL_LEDGER_EVENT_OPEN; kind <= TOLL_LEDGER_EVENT_SUCCESSOR; kind++)
        printf(" %ld", kinds[kind]);
    printf("; tolls passed on: %ld", batch_passed);
    printf("\n%-34s %6s %10s %10s %8s\n", "batch, us", "rows", "ours", "plain C", "ratio");
}

/* The whole batch on a book just opened. */
static void measure_empty(void)
{
    struct host host = {.state = 11, .mix = batched};
    struct pair p;
    open_book(TOLL_LEDGER_MOST_ROWS);
    draw_batch(&host, ACCOUNTS, TOLL_LEDGER_MOST_EVENTS);
    print_batch_events();
    measure(post_batch, 1, BATCH_RUNS, &p);
    print_pair("4,096 events, no row used before", TOLL_LEDGER_MOST_ROWS, p);
}

/* A part of a batch, of these events, onto so many rows. */
static struct pair time_onto(size_t used, struct mix mix)
{
    struct host host = {.state = 12 + used, .mix = filling};
    struct pair p;
    fill_book(&host, TOLL_LEDGER_MOST_ROWS, used);
    host.mix = mix;
    draw_batch(&host, 0, PART);
    measure(post_batch, 1, BATCH_RUNS, &p);
    return p;
}

static void print_onto(const char *what, size_t used, struct pair p)
{
    char name[64];
    snprintf(name, sizeof name, "%s of %d onto %zu", what, PART, used);
    print_pair(name, TOLL_LEDGER_MOST_ROWS, (struct pair){.ours = p.ours / PART, .plain = p.plain / PART});
}

/* By event; and what an event without a pass by its rule adds to a batch of none. */
static void measure_onto(size_t used)
{
    print_onto("an event", used, time_onto(used, batched));
    const struct pair all = time_onto(used, searching);
    struct pair none;
    batch_events = 0;
    measure(post_batch, 1, BATCH_RUNS, &none);
    print_onto("added by one", used, (struct pair){.ours = all.ours - none.ours, .plain = all.plain - none.plain});
}

int main(void)
{
    static struct pair medians[CALLS][SIZES], reads[SIZES];
    setvbuf(stdout, NULL, _IOLBF, 0);
    measure_calls(medians, reads);
    print_calls(medians, reads);
    print_growth(medians);
    book = books;
    measure_empty();
    for (size_t used = 0; used < TOLL_LEDGER_MOST_ROWS - PART; used += 2 * PART)
        measure_onto(used);
    return 0;
}
