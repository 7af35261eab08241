/* Felgotany: SPAN margin for metal forwards and options.
 *
 * An account file is records of 96 bytes. Each question below is put to the bytes of such a file, checks them first, and
 * answers with a refusal and a record, or with refusal 0 and numbers written to memory that the caller lends. Any bytes
 * may be handed over: there is nothing that a file has to satisfy before it is asked about.
 *
 * What the caller owes of the memory: `file` points to `bytes` bytes that nothing writes during the call; `out` points to
 * `numbers` numbers of 64 bits, aligned as int64_t, that nothing else reads or writes during the call, and does not
 * overlap the file. With a length of 0 the pointer is not followed and may be null. The same holds of `morning` and `noon`,
 * each with its length, where a question is put to two files.
 *
 * The library keeps nothing between calls, allocates nothing and calls nothing of the host's but memcpy and memset. Threads
 * may call it at the same time with memory of their own. A call takes less than 64 kB of stack.
 */
#ifndef FELGOTANY_H
#define FELGOTANY_H

#include <stddef.h>
#include <stdint.h>

#ifdef __cplusplus
extern "C" {
#endif

/* The most numbers that the figures of an account have: eight for each of sixteen contracts, and the total. */
#define FELGOTANY_MOST_FIGURES 129

/* The most numbers that a delta book has: three for each of 32 prompts, two for each of 32 spreads, and how often a prompt was touched. */
#define FELGOTANY_MOST_BOOK 161

/* The most numbers that say who paid in a delta book: one for each of 32 prompts in each of 32 spreads' two steps. */
#define FELGOTANY_MOST_USES 2048

/* The question for the book of the intercontract table. */
#define FELGOTANY_TABLE 16

/* The numbers that felgotany_all and felgotany_joined_all are lent for all books, and for all uses: a place for each question, the longest fits. */
#define FELGOTANY_ALL_BOOKS (FELGOTANY_MOST_BOOK * (FELGOTANY_TABLE + 1))
#define FELGOTANY_ALL_USES (FELGOTANY_MOST_USES * (FELGOTANY_TABLE + 1))

/* The most accounts of a run for the risk committee, and the numbers of its figures. */
#define FELGOTANY_COMMITTEE_ACCOUNTS 100
#define FELGOTANY_COMMITTEE_NUMBERS 24

/* What is refused, and the record that the refusal names, counted from 0.
 *
 *    0  nothing: the file is accepted, the question answered                record 0
 *    1  the file is longer than 61,440 bytes                                record 0
 *    2  its length is no multiple of 96                                     record 0
 *    3  a kind that is not 1 to 6                                           that record
 *    4  a kind below the kind before it                                     that record
 *    5  an unused byte that is not zero                                     that record
 *    6  a field outside its range                                           that record
 *    7  a contract, prompt day or tier named that no earlier record lists   that record
 *    8  order or clash                                                      that record
 *    9  one record more than a limit                                        that record
 *   10  fewer numbers lent than the answer needs                            how many records the file has
 *   11  a question that is neither a listed contract nor 16                 how many records the file has
 *   14  a row whose currency has no rate                                    that record
 *   15  a row with a conversion beyond 100,000,000,000,000 hundredths       that record
 *
 * The length is tested first, then the records from 0 up, each for 3 to 9 in that order, then the rows in file order, each for 14
 * and else for 15; the first fault answers. Then come 11 and 10.
 *
 * A morning's file and a noon file can be refused for three things more; felgotany_pair_outcome has the order.
 *
 *   12  the noon file has a record of kind 5 or 6                           its first such record
 *   13  more than 640 records joined                                        how many records the joined account has
 *   21  an amount outside 0 to 1,000,000,000,000,000                        how many records the joined account has
 *
 * A run of accounts is refused as a whole for one thing more, before any account is read; then for 10.
 *
 *   17  the lengths do not add up to the bytes that are lent                record 0
 *
 * A list of spreads is refused for one thing more, after the account's own refusals and 11.
 *
 *   18  step count or prompt count differs from the account's               record 0
 *
 * Of the risk committee's figures of a run, one thing more is refused, before these.
 *
 *   19  more than 100 accounts                                              record 0
 *
 * The order screen's calls have two refusals of their own; felgotany_screen_load and the calls after it have the order.
 *
 *   16  more bytes named than lent; no room for a ticket                    record 0
 *   20  a limit below zero                                                  record 0
 *
 * A list of entries that is written as a file gets 16, too, last, where fewer bytes are lent than the file takes. A withdrawal has one
 * refusal of its own.
 *
 *   22  a withdrawal with no ticket left                                    record 0 */
typedef struct {
    size_t refusal;
    size_t record;
} felgotany_outcome;

/* Whether the file is accepted. */
felgotany_outcome felgotany_check(const uint8_t *file, size_t bytes);

/* How many numbers the figures of an accepted file need, 1 to FELGOTANY_MOST_FIGURES; 0 for a refused file. */
size_t felgotany_figures_needed(const uint8_t *file, size_t bytes);

/* The figures. For each contract in file order eight numbers: contract, active scenario, scanning risk, interprompt charge,
 * prompt charge, credit, short option minimum and margin, all but the first two in hundredths of the margin currency, also where
 * the contract's unit is larger (docs/FILE.md, kind 1) and where rows are in other currencies (kind 6); then the total of the
 * margins. An empty file is an accepted account with the one number 0.
 *
 * Where nothing is refused, the numbers stand at the front of `out` and nothing after them is changed. A refusal changes
 * nothing. */
felgotany_outcome felgotany_figures(const uint8_t *file, size_t bytes, int64_t *out, size_t numbers);

/* How many numbers the delta book of a question needs, 1 to FELGOTANY_MOST_BOOK; 0 for a refused file and for a question that the
 * file does not answer. */
size_t felgotany_book_needed(const uint8_t *file, size_t bytes, size_t question);

/* The delta book of a question, 0 to 15 for that contract or FELGOTANY_TABLE. Of a contract, three numbers for each prompt
 * in file order: its net delta, what of it is used in spreads and what is unused, each with the sign of the net delta;
 * then two for each interprompt spread in file order: how many its first step formed, and its second. Of the table, the same
 * for each contract and each intercontract spread. All in ten-thousandths. The last number of the book says how often a prompt was
 * touched (of the table, a contract): how many times some step moved some prompt's unused delta towards zero. It is what the book
 * costs to work out, and never more than its prompts plus all legs counted over both steps of every spread. A contract without
 * prompts and spreads has this one number, 0.
 *
 * Lent numbers are written and left alone as by felgotany_figures. */
felgotany_outcome felgotany_book(const uint8_t *file, size_t bytes, size_t question, int64_t *out, size_t numbers);

/* How many numbers felgotany_uses writes for a question, 0 to FELGOTANY_MOST_USES; 0 as with felgotany_book_needed, and for a
 * contract without prompts or without spreads. */
size_t felgotany_uses_needed(const uint8_t *file, size_t bytes, size_t question);

/* Who paid for what in the delta book of a question: for each step of its table in order (the first and the second step of the
 * first spread, then those of the next), one number for each prompt in file order, or for each contract of the intercontract
 * table: what the step takes of its delta, with the sign of the delta, in ten-thousandths. At each prompt the numbers add
 * up to what the book says is used.
 *
 * Lent numbers are written and left alone as by felgotany_figures. */
felgotany_outcome felgotany_uses(const uint8_t *file, size_t bytes, size_t question, int64_t *out, size_t numbers);

/* The outcomes of all questions at once. */
typedef struct {
    felgotany_outcome figures;
    felgotany_outcome books;
    felgotany_outcome uses;
} felgotany_outcomes;

/* All questions of a file that is checked once: the figures at the front of `figures`, as by felgotany_figures; the delta book
 * of question q at the front of the FELGOTANY_MOST_BOOK numbers that start at number FELGOTANY_MOST_BOOK * q of `books`, for q
 * from 0 to FELGOTANY_TABLE; and who paid in it at the front of the FELGOTANY_MOST_USES numbers that start at number
 * FELGOTANY_MOST_USES * q of `uses`. The three do not overlap each other. Fewer than FELGOTANY_ALL_BOOKS numbers lent for the
 * books are refusal 10 of the books, whatever they need, and fewer than FELGOTANY_ALL_USES of the uses. The place of a
 * question that the file does not answer is left alone. */
felgotany_outcomes felgotany_all(const uint8_t *file, size_t bytes, int64_t *figures, size_t numbers, int64_t *books,
                                 size_t book_numbers, int64_t *uses, size_t use_numbers);

/* A noon file joined to the morning's. A contract's records of kinds 1 to 4 come from the noon file if that file lists the
 * contract, else from the morning's; kinds 5 and 6 always from the morning. These records, in the order of an account file, are the
 * joined account. With an empty noon file it is the morning's account.
 *
 * What is refused, the record that the refusal names, and the file that it is about: 0 the joined account, 1 the morning's
 * file, 2 the noon's. The order: the morning's file for 1 to 9, the noon's for 1 to 9, 12 of the noon's; then of the joined
 * account 13; 14 and 15 of its rows in order, naming the row by its place in the joined account; then 21, 11 and 10, which like 13 name
 * how many records are joined. Where nothing is refused, all three are 0. */
typedef struct {
    size_t file;
    size_t refusal;
    size_t record;
} felgotany_pair_outcome;

/* The figures of the joined account, as felgotany_figures gives them for one file: eight numbers for each contract that one
 * of the two files lists, and the total; at most FELGOTANY_MOST_FIGURES. Lent numbers are written and left alone as there. */
felgotany_pair_outcome felgotany_joined_figures(const uint8_t *morning, size_t morning_bytes, const uint8_t *noon,
                                                size_t noon_bytes, int64_t *out, size_t numbers);

/* The delta book of a question put to the joined account, as felgotany_book gives it for one file: at most
 * FELGOTANY_MOST_BOOK numbers. */
felgotany_pair_outcome felgotany_joined_book(const uint8_t *morning, size_t morning_bytes, const uint8_t *noon,
                                             size_t noon_bytes, size_t question, int64_t *out, size_t numbers);

/* Who paid for what in that delta book, as felgotany_uses gives it for one file: at most FELGOTANY_MOST_USES numbers. */
felgotany_pair_outcome felgotany_joined_uses(const uint8_t *morning, size_t morning_bytes, const uint8_t *noon,
                                             size_t noon_bytes, size_t question, int64_t *out, size_t numbers);

/* How many numbers felgotany_joined_figures, felgotany_joined_book and felgotany_joined_uses write: as
 * felgotany_figures_needed, felgotany_book_needed and felgotany_uses_needed say it of one file; 0 where the two files are refused. */
size_t felgotany_joined_figures_needed(const uint8_t *morning, size_t morning_bytes, const uint8_t *noon, size_t noon_bytes);
size_t felgotany_joined_book_needed(const uint8_t *morning, size_t morning_bytes, const uint8_t *noon, size_t noon_bytes,
                                    size_t question);
size_t felgotany_joined_uses_needed(const uint8_t *morning, size_t morning_bytes, const uint8_t *noon, size_t noon_bytes,
                                    size_t question);

/* The outcomes of all questions at once to two files. */
typedef struct {
    felgotany_pair_outcome figures;
    felgotany_pair_outcome books;
    felgotany_pair_outcome uses;
} felgotany_pair_outcomes;

/* All questions to the joined account of two files that are checked once, each in its place, as felgotany_all has it for one
 * file. */
felgotany_pair_outcomes felgotany_joined_all(const uint8_t *morning, size_t morning_bytes, const uint8_t *noon,
                                             size_t noon_bytes, int64_t *figures, size_t numbers, int64_t *books,
                                             size_t book_numbers, int64_t *uses, size_t use_numbers);

/* Where the prompt records of a contract stand: the file that supplies them, 1 the morning's or 2 the noon's; the first of
 * them, counted from 0 in that file; and how many there are. They are 96 * records bytes, from byte 96 * first of the file. */
typedef struct {
    size_t file;
    size_t first;
    size_t records;
} felgotany_prompt_place;

/* The prompt records of a contract, as they stand in whichever file supplies them. Of a contract that is listed without
 * prompts, the file with first 0 and records 0. All three are 0 where neither file lists the contract, and where the two files
 * are refused by 1 to 9 or 12 to 15. */
felgotany_prompt_place felgotany_joined_prompts(const uint8_t *morning, size_t morning_bytes, const uint8_t *noon,
                                                size_t noon_bytes, size_t contract);

/* The outcome of a call, and the call in hundredths of the currency: 0 where it is refused, and where there is none. */
typedef struct {
    felgotany_pair_outcome outcome;
    uint64_t call;
} felgotany_call_outcome;

/* The call on the joined account, whose total margin is the requirement. None unless the requirement exceeds the last cover
 * call plus the threshold and also the revalued collateral; otherwise requirement minus collateral. The three amounts are in
 * hundredths of the currency, 0 to 1,000,000,000,000,000. */
felgotany_call_outcome felgotany_call(const uint8_t *morning, size_t morning_bytes, const uint8_t *noon, size_t noon_bytes,
                                      int64_t last, int64_t threshold, int64_t collateral);

/* A run of accounts in one call: the figures of each, as felgotany_figures gives them with FELGOTANY_MOST_FIGURES numbers lent.
 *
 * The accounts stand one after the other in `accounts`; `lengths` has the bytes of each, for `count` accounts. The figures of
 * account i stand at the front of the FELGOTANY_MOST_FIGURES numbers that start at number FELGOTANY_MOST_FIGURES * i of
 * `figures`, and nothing after them is changed; of a refused account nothing is written there. Its refusal and record, both 0
 * if it is accepted, are the numbers 2 * i and 2 * i + 1 of `outcomes`: an array of felgotany_outcome can be lent for it, with
 * two numbers for each.
 *
 * The whole run is refused, with record 0, where the lengths do not add up to `bytes`, whatever they are (17); then where fewer
 * than FELGOTANY_MOST_FIGURES * count numbers are lent for the figures or fewer than 2 * count for the outcomes (10). Then no
 * account is read and nothing is written. A run of no accounts is answered. `lengths` and `outcomes` are owed what is owed of
 * `file` and `out`, each aligned as size_t; no two of the four overlap. */
felgotany_outcome felgotany_run(const uint8_t *accounts, size_t bytes, const size_t *lengths, size_t count, int64_t *figures,
                                size_t numbers, size_t *outcomes, size_t outcome_numbers);

/* What is said of a list of spreads that others send, by felgotany_judge. */
#define FELGOTANY_NOT_JUDGED 0       /* the list is refused */
#define FELGOTANY_RIGHT 1            /* yes: it is the list that the spread steps form, with the uses that they make */
#define FELGOTANY_MORE_THAN_FORMED 2 /* the number of the step named is more than can be formed */
#define FELGOTANY_LESS_THAN_FORMED 3 /* it is less than can be formed */
#define FELGOTANY_WRONG_USE 4        /* it is right, and some prompt's use in that step is not */

/* The refusal and its record, both 0 where the list is judged; the verdict; and the first step that is wrong, counted from 0. The
 * step is 0 where none is wrong. */
typedef struct {
    size_t refusal;
    size_t record;
    size_t verdict;
    size_t step;
} felgotany_list_outcome;

/* A list of spreads that others say were formed, judged for a question, 0 to 15 for that contract or FELGOTANY_TABLE. The list has a
 * number for each step, of each spread of the question its first step and then its second, in `numbers`; and in `uses`, one step
 * after the other, what the step used of each prompt in file order, or of each contract of the table, with the sign of its net delta,
 * as felgotany_uses writes them. `prompts` says how many prompts the list speaks of. All in ten-thousandths; any number of 64 bits is
 * answered, also one below zero.
 *
 * The first step that is wrong answers, and in it the number before the uses. What can be formed in a step is said of what the
 * steps before it, all right till then, have left.
 *
 * 18 is given where `number_count` is not two for each spread, where `prompts` is not the question's prompts (or contracts), and
 * where `use_count` is not the one times the other. Nothing is written. `numbers` and `uses` are owed what is owed of `file`, each
 * aligned as int64_t. */
felgotany_list_outcome felgotany_judge(const uint8_t *file, size_t bytes, size_t question, size_t prompts, const int64_t *numbers,
                                       size_t number_count, const int64_t *uses, size_t use_count);

/* The same for the joined account, with the file that a refusal is about, as in felgotany_pair_outcome. */
typedef struct {
    size_t file;
    felgotany_list_outcome list;
} felgotany_pair_list_outcome;

felgotany_pair_list_outcome felgotany_joined_judge(const uint8_t *morning, size_t morning_bytes, const uint8_t *noon,
                                                   size_t noon_bytes, size_t question, size_t prompts, const int64_t *numbers,
                                                   size_t number_count, const int64_t *uses, size_t use_count);

/* The risk committee's figures of a run of accounts, which stand in `accounts` as for felgotany_run, in these
 * FELGOTANY_COMMITTEE_NUMBERS numbers at the front of `out`; nothing after them is changed.
 *
 *    0        how many accounts are accepted
 *    1        how many are refused
 *    2 to 16  how many are refused with 1, with 2, .., with 15
 *   17        the margin of all accepted accounts, summed
 *   18        the largest margin
 *   19        the lowest place that holds it; the accounts are counted from 0, refused ones too
 *   20        how many accounts have credit: above 0 in some contract
 *   21        how many contracts have a short option minimum above the risk that it is compared with, which is scanning risk and
 *             charges less credit, not below 0
 *   22        the mean margin: number 17 divided by number 0, in whole hundredths
 *   23        what is left over: number 17 is number 22 times number 0, plus this one, which is below number 0
 *
 * Numbers 17, 18, 22 and 23 are in hundredths of the currency. A refused account is counted in number 1 and under its refusal, and
 * enters no sum. With none accepted, numbers 17 to 23 are 0.
 *
 * The whole run is refused, with record 0, where there are more than FELGOTANY_COMMITTEE_ACCOUNTS accounts (19); then where the
 * lengths do not add up to `bytes`, whatever they are (17); then where fewer than FELGOTANY_COMMITTEE_NUMBERS numbers are lent (10).
 * Then no account is read and nothing is written. A run of no accounts is answered. */
felgotany_outcome felgotany_committee(const uint8_t *accounts, size_t bytes, const size_t *lengths, size_t count, int64_t *out,
                                      size_t numbers);

/* Tickets: what one more row does to an account. `tickets` are the tickets put in so far, 96 bytes each, rows as the file has them, one
 * after the other; each is put last among its contract's rows, with those before it, and the margins are those of the file with these rows.
 * The memory is the caller's and is only read; nothing is kept between calls.
 *
 * What is told: the ticket that it is about, counted from 1, or 0 for the file; the refusal, 0 where nothing is refused, and its record; and
 * the total of the margins before and after, in hundredths, both 0 where something is refused. The order: the file's own refusals; then the
 * tickets in turn, each for 2 (not 96 bytes, record 0), 3 (not kind 3), 5 to 9, 14 and 15, naming the place that it would have in the file,
 * and then 1 (the file would pass 640 records, record 0). Bytes after the last whole ticket are a ticket, too, and so get 2. */
typedef struct {
    size_t ticket;
    size_t refusal;
    size_t record;
    uint64_t before;
    uint64_t after;
} felgotany_ticket_outcome;

/* One ticket more: it is told of as the one after those put in so far. */
felgotany_ticket_outcome felgotany_ticket(const uint8_t *file, size_t bytes, const uint8_t *tickets, size_t tickets_bytes,
                                          const uint8_t *ticket, size_t ticket_bytes);

/* The latest of the tickets withdrawn: the total with all of them, and with all but the latest; 22 where there is none. */
felgotany_ticket_outcome felgotany_withdraw(const uint8_t *file, size_t bytes, const uint8_t *tickets, size_t tickets_bytes);

/* What comes of a list of entries: the refusal, 0 where the file is written, the place of the entry at fault as entered, counted from 0,
 * and how many bytes are written. */
typedef struct {
    size_t refusal;
    size_t entry;
    size_t written;
} felgotany_write_outcome;

/* The account file of entries in any order. An entry is a record as the file has it, 96 bytes, and the entries stand one after the other.
 * The file has them by kind, contracts by number, prompts by contract and day, rows and interprompt spreads by contract, currency rates by
 * currency; what is alike there, and intercontract spreads, stay in the order of entry. It is checked as felgotany_check does; a refusal
 * writes nothing and names the entry at fault, entry 0 for a 1 and for a 2, which bytes after the last whole entry get. Last comes 16: fewer
 * bytes lent than the file takes, which are as many as the entries'. The file stands at the front of `out`, and nothing after it is changed.
 * `out` does not overlap the entries. The file is checked where the entries stand, before it is written: no copy of it is kept. */
felgotany_write_outcome felgotany_write(const uint8_t *entries, size_t entry_bytes, uint8_t *out, size_t bytes);

/* The order screen: an account file held in memory that the screen lends, tickets added to it, its total, and whether an order keeps
 * the total within a client's limit.
 *
 * The screen owns the memory. It lends `bytes` bytes at `lent`, and says that the first `named` of them are the account file, with the
 * tickets added so far among its rows. Every call checks those bytes again and rests on nothing of the call before: the screen may
 * copy them, move them, change them or drop them between calls as it likes. Nothing is kept between calls, and there is nothing to
 * free. `ticket` points to `ticket_bytes` bytes of a record, which nothing writes during the call; it does not overlap the lent bytes.
 * With a length of 0 a pointer is not followed and may be null.
 *
 * Loading, reading the total and asking about a limit write nothing: several threads may do so on the same bytes at the same time.
 * Adding writes the lent bytes, so that no other thread may read or write them during that call. Calls on memory of their own do not
 * meet.
 *
 * Each call is refused for 16 where more bytes are named than lent, then for what felgotany_check refuses the named bytes for. A ticket
 * is then refused for these, in this order: 2, it does not have 96 bytes; 3, it is not of kind 3; 5 to 9 and then 14 and 15, what a row
 * is refused for; 1, the file has 640 records without it. 3 to 15 name the place at which it would stand, counted from 0: after the
 * records of kinds 1 and 2 and every row whose byte 1 is not above its own. 1, 2, 16 and 20 name record 0. */

/* Whether the named bytes are an accepted account file. To load an account, the screen reads its file to the front of the memory that it
 * lends, and names as many bytes as the file has. */
felgotany_outcome felgotany_screen_load(const uint8_t *lent, size_t bytes, size_t named);

/* The refusal of a ticket and the record that it names, both 0 where it is added; and how many bytes are to be named from then on, 96 more
 * than before. The last is 0 where the ticket is refused. */
typedef struct {
    size_t refusal;
    size_t record;
    size_t named;
} felgotany_add_outcome;

/* Adds a ticket: the record is put last among its contract's rows, and the bytes after it are moved up by 96. After all other refusals, 16
 * is given where fewer than 96 bytes are lent after the named ones. The bytes after the new record's room are left alone; a refusal
 * changes no byte. */
felgotany_add_outcome felgotany_screen_add(uint8_t *lent, size_t bytes, size_t named, const uint8_t *ticket, size_t ticket_bytes);

/* The refusal of the named bytes and its record, both 0 where they are accepted; and the total of the margins, in hundredths of the margin
 * currency, 0 where they are refused. */
typedef struct {
    size_t refusal;
    size_t record;
    uint64_t total;
} felgotany_total_outcome;

/* The total of the account held, with the tickets added to it: the last of the numbers that felgotany_figures gives for the named bytes. */
felgotany_total_outcome felgotany_screen_total(const uint8_t *lent, size_t bytes, size_t named);

/* What is answered to the question about a limit. */
#define FELGOTANY_NOT_ASKED 0    /* it is refused */
#define FELGOTANY_WITHIN_LIMIT 1 /* yes: the total with the ticket is at or below the limit */
#define FELGOTANY_ABOVE_LIMIT 2  /* no: it is over the limit */

/* The refusal and its record, both 0 where the question is answered; the answer; and the total with the ticket, in hundredths of the
 * margin currency, 0 where it is refused. */
typedef struct {
    size_t refusal;
    size_t record;
    size_t answer;
    uint64_t total;
} felgotany_limit_outcome;

/* Whether the total with a ticket stays at or below the client's limit, in hundredths of the margin currency. The ticket is not added, and
 * needs no room. 20 is given where the limit is below zero, before all other refusals. The total that is told is the one that
 * felgotany_screen_total reads once the ticket is added. */
felgotany_limit_outcome felgotany_screen_limit(const uint8_t *lent, size_t bytes, size_t named, const uint8_t *ticket,
                                               size_t ticket_bytes, int64_t limit);

#ifdef __cplusplus
}
#endif

#endif
