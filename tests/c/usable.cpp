// The header from C++: every call links by its C name.
#include "toll_ledger.h"

#include <vector>

int main()
{
    std::vector<int64_t> header(TOLL_LEDGER_HEADER_WORDS), accounts(3 * TOLL_LEDGER_ACCOUNT_WORDS),
        journal(4 * TOLL_LEDGER_ROW_WORDS), answer(TOLL_LEDGER_ANSWER_WORDS);
    const std::vector<int64_t> holidays{17, 52}; // not empty: data() may be null then
    const std::vector<int64_t> schedule{1, 30, 500, 2500, 3000, 250, 500, 600, 900, 1200, 1600};
    const std::vector<int64_t> event{TOLL_LEDGER_EVENT_OPEN, 2, 0, 0, 0, 0, 0, 0, 0};
    const std::vector<toll_ledger_event_record> events{
        {TOLL_LEDGER_EVENT_PAYMENT, 2, 700, TOLL_LEDGER_METHOD_CASH, 0, 0, 0, 0, 0}};
    int64_t balance = 0, due = 1, heavy = 1, rows_read = 0;
    const bool ran =
        toll_ledger_open(header.data(), header.size(), accounts.data(), accounts.size(), journal.data(),
                         journal.size(), holidays.data(), holidays.size(), schedule.data(), schedule.size()) == TOLL_LEDGER_POSTED &&
        toll_ledger_event(header.data(), header.size(), accounts.data(), accounts.size(), journal.data(),
                          journal.size(), holidays.data(), holidays.size(), event.data(), event.size(),
                          answer.data(), answer.size()) == TOLL_LEDGER_POSTED &&
        toll_ledger_batch(header.data(), header.size(), accounts.data(), accounts.size(), journal.data(),
                          journal.size(), holidays.data(), holidays.size(), events.data(), events.size(),
                          answer.data(), answer.size()) == TOLL_LEDGER_POSTED &&
        toll_ledger_balance(header.data(), header.size(), accounts.data(), accounts.size(), journal.data(),
                            journal.size(), holidays.data(), holidays.size(), 2, &balance) == TOLL_LEDGER_POSTED &&
        toll_ledger_topup_due(header.data(), header.size(), accounts.data(), accounts.size(), journal.data(),
                              journal.size(), holidays.data(), holidays.size(), 2, &due) == TOLL_LEDGER_POSTED &&
        toll_ledger_debtor(header.data(), header.size(), accounts.data(), accounts.size(), journal.data(),
                           journal.size(), holidays.data(), holidays.size(), 2, &heavy, &rows_read) == TOLL_LEDGER_POSTED;
    return ran && balance == 700 && due == 0 && heavy == 0 && rows_read == 1 ? 0 : 1;
}
