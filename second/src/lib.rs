//! Call forwarding as document 01 has it: the coding layer, the exchange, calls, the customer
//! end, night sheets and the listing. Written from document 01, EN 300 207-1 (000), Q.732.2-5
//! (001) and the list of open points (A1 to A78) alone; the lines of dialogues with an exchange,
//! and the records in them, from the papers on their format (docs/DIALOGUES.md, docs/RECORDS.md).
//!
//! Records (profile, table, call, end) are plain integers and vectors that can hold nonsense:
//! every function judges the records it is lent and refuses bad ones by their number.
#![forbid(unsafe_code)]

pub mod access_record;
pub mod across;
pub mod answer;
pub mod answering;
pub mod call_answer;
pub mod call_cases;
pub mod call_dialogues;
pub mod call_record;
pub mod calls;
pub mod canaries;
pub mod cases;
pub mod codes;
pub mod damaged;
pub mod dialogues;
pub mod elements;
pub mod end;
pub mod end_cases;
pub mod end_dialogues;
pub mod end_line;
pub mod end_record;
pub mod end_step;
pub mod exchange;
pub mod exchange_cases;
pub mod expected;
pub mod filled;
pub mod flawed_table;
pub mod full_tables;
pub mod hexadecimal;
pub mod list_cases;
pub mod listing;
pub mod loose;
pub mod loose_parts;
pub mod made;
pub mod meeting;
pub mod numbers;
pub mod onward_record;
pub mod path;
pub mod profile;
pub mod random;
pub mod recoded;
pub mod records;
pub mod records_at_random;
pub mod refusal;
pub mod request;
pub mod request_record;
pub mod rules;
pub mod said_lines;
pub mod samples;
pub mod sheet;
pub mod sheet_cases;
pub mod sheet_dialogues;
pub mod sheet_fields;
pub mod sheet_line;
pub mod sides;
pub mod soak;
pub mod soak_kinds;
pub mod spoiled;
pub mod table;
pub mod table_flaws;
pub mod table_record;
pub mod table_rubbish;
pub mod talk;
pub mod tally;
pub mod transcript;
pub mod unusual_replies;
pub mod world;
pub mod wrong;
