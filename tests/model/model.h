/* The six calls in plain C, written from the scope document and the requests landed since, for
 * comparison: the model of the tests and the baseline of the benchmark. They take and give the same
 * words as those of toll_ledger.h. */
#ifndef MODEL_H
#define MODEL_H

#include "toll_ledger.h"

int64_t model_open(int64_t *header, size_t header_words, int64_t *accounts, size_t accounts_words,
                   int64_t *journal, size_t journal_words, const int64_t *holidays,
                   size_t holidays_words, const int64_t *schedule, size_t schedule_words);

int64_t model_event(int64_t *header, size_t header_words, int64_t *accounts, size_t accounts_words,
                    int64_t *journal, size_t journal_words, const int64_t *holidays,
                    size_t holidays_words, const int64_t *event, size_t event_words,
                    int64_t *answer, size_t answer_words);

int64_t model_batch(int64_t *header, size_t header_words, int64_t *accounts, size_t accounts_words,
                    int64_t *journal, size_t journal_words, const int64_t *holidays,
                    size_t holidays_words, const struct toll_ledger_event_record *events,
                    size_t count, int64_t *answers, size_t answers_words);

int64_t model_balance(const int64_t *header, size_t header_words, const int64_t *accounts,
                      size_t accounts_words, const int64_t *journal, size_t journal_words,
                      const int64_t *holidays, size_t holidays_words, int64_t account,
                      int64_t *value);

int64_t model_topup_due(const int64_t *header, size_t header_words, const int64_t *accounts,
                        size_t accounts_words, const int64_t *journal, size_t journal_words,
                        const int64_t *holidays, size_t holidays_words, int64_t account,
                        int64_t *value);

int64_t model_debtor(const int64_t *header, size_t header_words, const int64_t *accounts,
                     size_t accounts_words, const int64_t *journal, size_t journal_words,
                     const int64_t *holidays, size_t holidays_words, int64_t account,
                     int64_t *heavy, int64_t *rows_read);

#endif
