/* How long calls take here, on an ordinary and on the largest book: the shortest of some calls of each, in
 * microseconds, and a batch's time by event. `make times` prints it; docs/HOSTS.md quotes one such run. */
#define _POSIX_C_SOURCE 199309L
#include "book.h"

#include <time.h>

static struct toll_ledger_event_record events[TOLL_LEDGER_MOST_EVENTS];
static int64_t answers[TOLL_LEDGER_MOST_EVENTS * TOLL_LEDGER_ANSWER_WORDS];

static double now(void)
{
    struct timespec t;
    clock_gettime(CLOCK_MONOTONIC, &t);
    return (double)t.tv_sec * 1e6 + (double)t.tv_nsec / 1e3;
}

static double batch(struct book *b, int64_t count)
{
    const double start = now();
    CHECK(toll_ledger_batch(TABLES(b), events, (size_t)count, answers, sizeof answers / sizeof answers[0]) == 0);
    return (now() - start) / (double)count;
}

static double single(struct book *b, const int64_t *event, int times)
{
    double least = 1e12;
    for (int i = 0; i < times; i++) {
        const double start = now();
        CHECK(toll_ledger_event(TABLES(b), event, TOLL_LEDGER_EVENT_WORDS, b->answer, TOLL_LEDGER_ANSWER_WORDS) == 0);
        const double time = now() - start;
        least = time < least ? time : least;
    }
    return least;
}

static double question_time(const struct book *b, int times)
{
    double least = 1e12;
    for (int i = 0; i < times; i++) {
        int64_t value;
        const double start = now();
        CHECK(toll_ledger_balance(TABLES(b), 1, &value) == 0);
        const double time = now() - start;
        least = time < least ? time : least;
    }
    return least;
}

static void measure(int64_t accounts, int64_t rows, int64_t part)
{
    const int64_t *payment = EVENT_OF(TOLL_LEDGER_EVENT_PAYMENT, 1, 1, 1), *tick = EVENT_OF(TOLL_LEDGER_EVENT_TICK);
    struct book b = open_book((size_t)accounts, (size_t)rows, 1);
    for (int64_t n = 1; n <= accounts; n++)
        events[n - 1] = record(TOLL_LEDGER_EVENT_OPEN, n, 0, 100);
    batch(&b, accounts);
    for (int64_t half = 0; half < 2; half++) { /* a payment to two tolls */
        for (int64_t i = 0; i < part; i++)
            events[i] = i % 3 == 0 ? record(TOLL_LEDGER_EVENT_PAYMENT, 1 + i % accounts, 200, 1)
                                   : record(TOLL_LEDGER_EVENT_TOLL, 1 + i % accounts, 1 + i + part * half, 1, 2, 60, 2);
        const double time = batch(&b, part);
        printf("%lld rows used: a batch of %lld had taken %.1f us an event\n", (long long)b.header[TOLL_LEDGER_HEADER_ROWS_USED],
               (long long)part, time);
    }
    const double asked = question_time(&b, 100), paid = single(&b, payment, 20), ticked = single(&b, tick, 20);
    printf("%lld rows used: balance %.0f us, payment %.0f us, tick %.0f us\n", (long long)b.header[TOLL_LEDGER_HEADER_ROWS_USED],
           asked, paid, ticked);
    free_book(&b);
}

int main(void)
{
    measure(64, 512, 240);
    measure(256, 8192, 4000);
    return 0;
}
