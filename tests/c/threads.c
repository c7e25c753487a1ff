/* Calls in threads: every call on a full book in a stack of 256 KiB, and two books posted to at once,
 * which must end as each does alone. TOLL_STACK=1 prints how much of the stack was written. */
#define _DEFAULT_SOURCE /* for mmap's MAP_ANONYMOUS */
#include "book.h"

#include <pthread.h>
#include <string.h>
#include <sys/mman.h>

#define STACK (256 * 1024)
#define BATCH 64

struct player {
    struct book book;
    uint64_t seed;
    int rounds;
    pthread_barrier_t *start;
};

static int64_t below(uint64_t *seed, int64_t n)
{
    *seed ^= *seed << 13;
    *seed ^= *seed >> 7;
    *seed ^= *seed << 17;
    return (int64_t)((*seed >> 11) % (uint64_t)n);
}

static void next_event(const struct book *b, uint64_t *seed, int64_t *e)
{
    const int64_t accounts = (int64_t)(b->accounts_words / TOLL_LEDGER_ACCOUNT_WORDS);
    const int64_t used = b->header[TOLL_LEDGER_HEADER_ROWS_USED], day = b->header[TOLL_LEDGER_HEADER_DAY];
    const int64_t n = 1 + below(seed, accounts), row = 1 + below(seed, used == 0 ? 1 : used);
    memset(e, 0, TOLL_LEDGER_EVENT_WORDS * sizeof *e);
    switch (below(seed, 16)) {
    case 0: e[0] = 1, e[1] = n, e[3] = below(seed, 2000), e[2] = e[3] == 0 ? 0 : below(seed, 3000); break;
    case 1: case 2: case 3: /* tolls */
        e[0] = 2, e[1] = n, e[2] = 1 + below(seed, 1000000000), e[3] = day, e[4] = 1 + below(seed, 6);
        e[5] = e[4] == 1 ? 0 : below(seed, 200), e[6] = 1 + below(seed, 2);
        break;
    case 4: case 5: e[0] = 3, e[1] = n, e[2] = 1 + below(seed, 3000), e[3] = 1 + below(seed, 3); break;
    case 6: e[0] = 4, e[1] = b->journal[10 * row - 9], e[2] = row; break;
    case 7: e[0] = 5, e[1] = b->journal[10 * row - 9], e[2] = row; break;
    case 8: e[0] = 6, e[1] = b->journal[10 * row - 9], e[2] = row, e[3] = below(seed, 2); break;
    case 9: e[0] = 7, e[1] = n, e[3] = below(seed, 2); break;
    case 10: e[0] = below(seed, 6) == 0 ? 8 : 9, e[1] = e[0] == 8 ? n : 0; break;
    case 11: /* a rate list */
        e[0] = 10, e[2] = day + below(seed, 20);
        for (int word = 3; word < TOLL_LEDGER_EVENT_WORDS; word++)
            e[word] = 1 + below(seed, 2000);
        break;
    case 12: e[0] = 11, e[1] = n, e[2] = below(seed, 2); break;
    case 13: case 14: e[0] = 12, e[1] = n, e[2] = 1 + below(seed, accounts); break;
    default: e[0] = 9;
    }
}

/* Posts rounds of one event and one batch, and asks of an account. What it needs beside the calls
 * stands in the heap: the stack is the library's. */
static void *play(void *argument)
{
    struct player *p = argument;
    struct book *b = &p->book;
    struct toll_ledger_event_record *events = malloc(BATCH * sizeof *events);
    int64_t *answers = malloc(BATCH * TOLL_LEDGER_ANSWER_WORDS * sizeof *answers);
    int64_t *e = malloc(TOLL_LEDGER_EVENT_WORDS * sizeof *e);
    CHECK(events != NULL && answers != NULL && e != NULL);
    if (p->start != NULL)
        pthread_barrier_wait(p->start);
    for (int round = 0; round < p->rounds; round++) {
        int64_t value, rows_read;
        next_event(b, &p->seed, e);
        const int64_t number = toll_ledger_event(TABLES(b), e, TOLL_LEDGER_EVENT_WORDS,
                                                 answers, TOLL_LEDGER_ANSWER_WORDS);
        CHECK(number == answers[0] && number != TOLL_LEDGER_UNSOUND && number != TOLL_LEDGER_MALFORMED);
        for (size_t i = 0; i < BATCH; i++) {
            next_event(b, &p->seed, e);
            events[i] = record_of(e);
        }
        CHECK(toll_ledger_batch(TABLES(b), events, BATCH, answers, BATCH * 5) == 0);
        CHECK(toll_ledger_balance(TABLES(b), 1, &value) != TOLL_LEDGER_UNSOUND);
        CHECK(toll_ledger_topup_due(TABLES(b), 1, &value) != TOLL_LEDGER_UNSOUND);
        CHECK(toll_ledger_debtor(TABLES(b), 1, &value, &rows_read) != TOLL_LEDGER_UNSOUND);
    }
    free(e);
    free(answers);
    free(events);
    return NULL;
}

/* Fills the largest book, then posts and asks on it, all within the small stack. */
static void *play_full(void *argument)
{
    struct player *p = argument;
    struct book *b = &p->book;
    struct toll_ledger_event_record *events = malloc(4096 * sizeof *events);
    int64_t *answers = malloc(4096 * TOLL_LEDGER_ANSWER_WORDS * sizeof *answers);
    CHECK(events != NULL && answers != NULL);
    CHECK(toll_ledger_open(TABLES(b), example_schedule, TOLL_LEDGER_SCHEDULE_WORDS) == 0);
    for (int64_t round = 0; round < 3; round++) {
        const size_t count = round == 0 ? 256 : round == 1 ? 4096 : 4000;
        for (int64_t i = 0; i < (int64_t)count; i++)
            events[i] = round == 0 ? record(1, 1 + i, 50, 100)
                                   : record(2, 1 + i % 256, i + 4096 * round, 1, 2, 60, 2);
        CHECK(toll_ledger_batch(TABLES(b), events, count, answers, count * 5) == 0);
    }
    CHECK(b->header[TOLL_LEDGER_HEADER_ROWS_USED] == 8096);
    play(p);
    free(answers);
    free(events);
    return NULL;
}

static void small_stack(void)
{
    unsigned char *region = mmap(NULL, STACK + 65536, PROT_NONE, MAP_PRIVATE | MAP_ANONYMOUS, -1, 0);
    CHECK(region != MAP_FAILED);
    unsigned char *stack = region + 65536; /* what lies below it can't be touched */
    CHECK(mprotect(stack, STACK, PROT_READ | PROT_WRITE) == 0);
    memset(stack, 0xa5, STACK);
    struct player p = {.book = new_book(256, 8192), .seed = 88172645463325252u, .rounds = 30};
    int64_t days[TOLL_LEDGER_MOST_HOLIDAYS];
    for (int64_t i = 0; i < TOLL_LEDGER_MOST_HOLIDAYS; i++)
        days[i] = 1 + 2 * i;
    lend_holidays(&p.book, days, TOLL_LEDGER_MOST_HOLIDAYS);
    pthread_attr_t attributes;
    pthread_t thread;
    CHECK(pthread_attr_init(&attributes) == 0 && pthread_attr_setstack(&attributes, stack, STACK) == 0);
    CHECK(pthread_create(&thread, &attributes, play_full, &p) == 0 && pthread_join(thread, NULL) == 0);
    pthread_attr_destroy(&attributes);
    CHECK(sound(&p.book) == TOLL_LEDGER_POSTED);
    if (getenv("TOLL_STACK") != NULL) {
        size_t untouched = 0;
        while (untouched < STACK && stack[untouched] == 0xa5)
            untouched++;
        printf("stack of 256 KiB: %zu KiB written\n", (STACK - untouched + 1023) / 1024);
        CHECK(STACK - untouched <= 192 * 1024); /* what the header asks of a host */
    }
    free_book(&p.book);
    CHECK(munmap(region, STACK + 65536) == 0);
}

static void two_books_at_once(void)
{
    const uint64_t seeds[2] = {2463534242u, 362436069u};
    const int64_t days[] = {3, 17, 18, 31};
    int64_t *alone[2];
    struct player players[2];
    for (int i = 0; i < 2; i++) {
        players[i] = (struct player){.book = open_book_with(8, 400, 1, days, 4), .seed = seeds[i], .rounds = 40};
        play(&players[i]);
        alone[i] = copy_words(&players[i].book);
        free_book(&players[i].book);
    }
    pthread_barrier_t start;
    pthread_t threads[2];
    CHECK(pthread_barrier_init(&start, NULL, 2) == 0);
    for (int i = 0; i < 2; i++) {
        players[i] = (struct player){.book = open_book_with(8, 400, 1, days, 4), .seed = seeds[i], .rounds = 40, .start = &start};
        CHECK(pthread_create(&threads[i], NULL, play, &players[i]) == 0);
    }
    for (int i = 0; i < 2; i++) {
        CHECK(pthread_join(threads[i], NULL) == 0);
        CHECK(same_words(&players[i].book, alone[i]));
        CHECK(players[i].book.header[TOLL_LEDGER_HEADER_ROWS_USED] > 100);
        free_book(&players[i].book);
        free(alone[i]);
    }
    pthread_barrier_destroy(&start);
}

int main(void)
{
    small_stack();
    two_books_at_once();
    return 0;
}
