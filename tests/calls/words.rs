//! The names of include/toll_ledger.h, without their prefix: `tests/run` compares them, name by name and number by number.

pub const HEADER_WORDS: usize = 62;
pub const ACCOUNT_WORDS: usize = 9;
pub const ROW_WORDS: usize = 10;
pub const MOST_ACCOUNTS: usize = 256;
pub const MOST_ROWS: usize = 8_192;
pub const MOST_HOLIDAYS: usize = 400;
pub const MOST_LISTS: usize = 8;
pub const LIST_WORDS: usize = 7;
pub const SCHEDULE_WORDS: usize = 11;
pub const EVENT_WORDS: usize = 9;
pub const ANSWER_WORDS: usize = 5;
pub const MOST_EVENTS: usize = 4_096;
pub const DAYS: i64 = 36_525;
pub const HEAVY_DEBT: i64 = 25_000;

// toll_ledger_number
pub const POSTED: i64 = 0;
pub const UNSOUND: i64 = 1;
pub const MALFORMED: i64 = 2;
pub const HOLIDAYS: i64 = 17;
pub const LIST: i64 = 15;
pub const UNKNOWN: i64 = 3;
pub const TAKEN: i64 = 4;
pub const CLOSED: i64 = 5;
pub const SUCCESSOR: i64 = 18;
pub const UNCLASSED: i64 = 6;
pub const MISDATED: i64 = 7;
pub const DUPLICATE: i64 = 8;
pub const BARRED: i64 = 9;
pub const NO_ROW: i64 = 10;
pub const UNTIMELY: i64 = 11;
pub const RESERVE: i64 = 16;
pub const LAST_DAY: i64 = 12;
pub const FULL: i64 = 13;
pub const CEILING: i64 = 14;

// toll_ledger_header_word
pub const HEADER_DAY: usize = 0;
pub const HEADER_ROWS_USED: usize = 1;
pub const HEADER_STAGE_LENGTH: usize = 2;
pub const HEADER_FEE_2: usize = 3;
pub const HEADER_FEE_3: usize = 4;
pub const HEADER_FEE_4: usize = 5;
pub const HEADER_RATE_1_TAG: usize = 6;
pub const HEADER_RATE_1_PLATE: usize = 7;
pub const HEADER_RATE_2_TAG: usize = 8;
pub const HEADER_RATE_2_PLATE: usize = 9;
pub const HEADER_RATE_3_TAG: usize = 10;
pub const HEADER_RATE_3_PLATE: usize = 11;
pub const HEADER_FIRST_DAY: usize = 12;
pub const HEADER_LISTS: usize = 13;

// toll_ledger_list_word
pub const LIST_FIRST_DAY: usize = 0;
pub const LIST_RATES: usize = 1;

// toll_ledger_account_word
pub const ACCOUNT_STATE: usize = 0;
pub const ACCOUNT_REQUEST_DAY: usize = 1;
pub const ACCOUNT_RETURNED: usize = 2;
pub const ACCOUNT_THRESHOLD: usize = 3;
pub const ACCOUNT_TOPUP: usize = 4;
pub const ACCOUNT_DECLINES: usize = 5;
pub const ACCOUNT_LAST_DECLINE: usize = 6;
pub const ACCOUNT_RESERVE: usize = 7;
pub const ACCOUNT_SUCCESSOR: usize = 8;

// toll_ledger_state
pub const STATE_UNUSED: i64 = 0;
pub const STATE_OPEN: i64 = 1;
pub const STATE_PENDING: i64 = 2;
pub const STATE_CLOSED: i64 = 3;

// toll_ledger_row_word
pub const ROW_KIND: usize = 0;
pub const ROW_ACCOUNT: usize = 1;
pub const ROW_DAY: usize = 2;
pub const ROW_AMOUNT: usize = 3;
pub const ROW_SETTLED: usize = 4;
pub const ROW_MARK: usize = 5;
pub const ROW_DUE_DAY: usize = 6;
pub const ROW_DISPUTE: usize = 7;
pub const ROW_HOLD_START: usize = 8;
pub const ROW_REFERENCE: usize = 9;

// toll_ledger_row_kind
pub const KIND_EMPTY: i64 = 0;
pub const KIND_TOLL: i64 = 1;
pub const KIND_FEE: i64 = 2;
pub const KIND_REVERSAL: i64 = 3;
pub const KIND_PAYMENT: i64 = 4;
pub const KIND_CREDIT: i64 = 5;
pub const KIND_REFUND: i64 = 6;

// toll_ledger_method
pub const METHOD_CARD: i64 = 1;
pub const METHOD_CASH: i64 = 2;
pub const METHOD_CHECK: i64 = 3;
pub const METHOD_CHECK_RETURNED: i64 = 4;

// toll_ledger_dispute
pub const DISPUTE_NEVER: i64 = 0;
pub const DISPUTE_HELD: i64 = 1;
pub const DISPUTE_ENDED: i64 = 2;
pub const DISPUTE_UPHELD: i64 = 3;

// toll_ledger_event_kind
pub const EVENT_OPEN: i64 = 1;
pub const EVENT_TOLL: i64 = 2;
pub const EVENT_PAYMENT: i64 = 3;
pub const EVENT_RETURNED_CHECK: i64 = 4;
pub const EVENT_DISPUTE: i64 = 5;
pub const EVENT_DECISION: i64 = 6;
pub const EVENT_TOPUP_RESULT: i64 = 7;
pub const EVENT_CLOSE_REQUEST: i64 = 8;
pub const EVENT_TICK: i64 = 9;
pub const EVENT_RATE_LIST: i64 = 10;
pub const EVENT_RESERVE: i64 = 11;
pub const EVENT_SUCCESSOR: i64 = 12;

// toll_ledger_mode
pub const MODE_TAG: i64 = 1;
pub const MODE_PLATE: i64 = 2;

// toll_ledger_answer_word
pub const ANSWER_NUMBER: usize = 0;
pub const ANSWER_FIRST_ROW: usize = 1;
pub const ANSWER_NEW_ROWS: usize = 2;
pub const ANSWER_RAISED: usize = 3;
pub const ANSWER_REMOVED: usize = 4;
