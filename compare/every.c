/* every FILE NOON: calls every function of the library, lends memory by the constants of the header, and prints what comes back,
 * for a comparison with what the independent program says. Each file and each lent memory ends where memory ends that may be
 * read or written, so that a step beyond it faults. */
#define _DEFAULT_SOURCE
#include <inttypes.h>
#include <stdio.h>
#include <stdlib.h>
#include <string.h>
#include <sys/mman.h>
#include <unistd.h>

#include "felgotany.h"

/* So many bytes that end before a page that nobody may touch. */
static void *before_the_end(size_t bytes)
{
    size_t page = (size_t)sysconf(_SC_PAGESIZE), pages = (bytes + page - 1) / page;
    char *memory = mmap(NULL, (pages + 1) * page, PROT_READ | PROT_WRITE, MAP_PRIVATE | MAP_ANONYMOUS, -1, 0);
    if (memory == MAP_FAILED || mprotect(memory + pages * page, page, PROT_NONE) != 0) {
        perror("every");
        exit(2);
    }
    return memory + pages * page - bytes;
}

static const uint8_t *read_file(const char *name, size_t *bytes)
{
    FILE *from = fopen(name, "rb");
    if (from == NULL || fseek(from, 0, SEEK_END) != 0) {
        perror(name);
        exit(2);
    }
    *bytes = (size_t)ftell(from);
    rewind(from);
    uint8_t *file = before_the_end(*bytes);
    if (fread(file, 1, *bytes, from) != *bytes) {
        perror(name);
        exit(2);
    }
    fclose(from);
    mprotect(file - (uintptr_t)file % (uintptr_t)sysconf(_SC_PAGESIZE), *bytes, PROT_READ);
    return file;
}

/* Lent numbers that are none of an answer's. */
static int64_t *lent(size_t numbers)
{
    int64_t *memory = before_the_end(numbers * sizeof *memory);
    for (size_t i = 0; i < numbers; ++i)
        memory[i] = 7;
    return memory;
}

static void print_numbers(const char *word, size_t question, const int64_t *numbers, size_t count)
{
    printf("%s %zu", word, question);
    for (size_t i = 0; i < count; ++i)
        printf(" %" PRId64, numbers[i]);
    putchar('\n');
}

static void print_outcome(const char *word, size_t question, felgotany_outcome outcome)
{
    printf("%s %zu refusal %zu record %zu\n", word, question, outcome.refusal, outcome.record);
}

static void print_pair(const char *word, size_t question, felgotany_pair_outcome outcome)
{
    printf("%s %zu file %zu refusal %zu record %zu\n", word, question, outcome.file, outcome.refusal, outcome.record);
}

/* Each question by itself. */
static void ask(const uint8_t *file, size_t bytes)
{
    int64_t *figures = lent(FELGOTANY_MOST_FIGURES), *book = lent(FELGOTANY_MOST_BOOK), *uses = lent(FELGOTANY_MOST_USES);
    print_outcome("check", 0, felgotany_check(file, bytes));
    print_outcome("figures", 0, felgotany_figures(file, bytes, figures, FELGOTANY_MOST_FIGURES));
    print_numbers("figures", 0, figures, felgotany_figures_needed(file, bytes));
    for (size_t question = 0; question <= FELGOTANY_TABLE + 1; ++question) {
        print_outcome("book", question, felgotany_book(file, bytes, question, book, FELGOTANY_MOST_BOOK));
        print_numbers("book", question, book, felgotany_book_needed(file, bytes, question));
        print_outcome("uses", question, felgotany_uses(file, bytes, question, uses, FELGOTANY_MOST_USES));
        print_numbers("uses", question, uses, felgotany_uses_needed(file, bytes, question));
    }
}

/* All at once, with so many numbers fewer lent for the figures, the books and the uses. */
static void ask_all(const uint8_t *file, size_t bytes, const size_t fewer[3])
{
    size_t needed = felgotany_figures_needed(file, bytes);
    size_t numbers = needed > fewer[0] ? needed - fewer[0] : 0;
    int64_t *figures = lent(numbers), *books = lent(FELGOTANY_ALL_BOOKS - fewer[1]), *uses = lent(FELGOTANY_ALL_USES - fewer[2]);
    felgotany_outcomes outcomes =
        felgotany_all(file, bytes, figures, numbers, books, FELGOTANY_ALL_BOOKS - fewer[1], uses, FELGOTANY_ALL_USES - fewer[2]);
    print_outcome("all figures", 0, outcomes.figures);
    print_outcome("all books", 0, outcomes.books);
    print_outcome("all uses", 0, outcomes.uses);
    print_numbers("all figures", 0, figures, numbers);
    for (size_t question = 0; question <= FELGOTANY_TABLE; ++question) {
        if (outcomes.books.refusal == 0)
            print_numbers("all book", question, books + FELGOTANY_MOST_BOOK * question, felgotany_book_needed(file, bytes, question));
        if (outcomes.uses.refusal == 0)
            print_numbers("all uses", question, uses + FELGOTANY_MOST_USES * question, felgotany_uses_needed(file, bytes, question));
    }
}

static void ask_joined(const uint8_t *morning, size_t morning_bytes, const uint8_t *noon, size_t noon_bytes)
{
    int64_t *figures = lent(FELGOTANY_MOST_FIGURES), *book = lent(FELGOTANY_MOST_BOOK), *uses = lent(FELGOTANY_MOST_USES);
    print_pair("joined figures", 0,
               felgotany_joined_figures(morning, morning_bytes, noon, noon_bytes, figures, FELGOTANY_MOST_FIGURES));
    print_numbers("joined figures", 0, figures, FELGOTANY_MOST_FIGURES);
    for (size_t question = 0; question <= FELGOTANY_TABLE + 1; ++question) {
        felgotany_prompt_place place = felgotany_joined_prompts(morning, morning_bytes, noon, noon_bytes, question);
        printf("joined prompts %zu file %zu first %zu records %zu\n", question, place.file, place.first, place.records);
        print_pair("joined book", question,
                   felgotany_joined_book(morning, morning_bytes, noon, noon_bytes, question, book, FELGOTANY_MOST_BOOK));
        print_numbers("joined book", question, book, FELGOTANY_MOST_BOOK);
        print_pair("joined uses", question,
                   felgotany_joined_uses(morning, morning_bytes, noon, noon_bytes, question, uses, FELGOTANY_MOST_USES));
        print_numbers("joined uses", question, uses, FELGOTANY_MOST_USES);
    }
    printf("joined figures needed %zu\n", felgotany_joined_figures_needed(morning, morning_bytes, noon, noon_bytes));
    for (size_t question = 0; question <= FELGOTANY_TABLE + 1; ++question)
        printf("joined needed %zu book %zu uses %zu\n", question,
               felgotany_joined_book_needed(morning, morning_bytes, noon, noon_bytes, question),
               felgotany_joined_uses_needed(morning, morning_bytes, noon, noon_bytes, question));
    const int64_t amounts[][3] = {{0, 0, 0}, {0, 5, 0}, {5, 0, 0}, {0, 0, 5}, {1, 1000000000000000, 2}, {-1, 0, 0}, {0, 0, -1}};
    for (size_t i = 0; i < sizeof amounts / sizeof amounts[0]; ++i) {
        felgotany_call_outcome called =
            felgotany_call(morning, morning_bytes, noon, noon_bytes, amounts[i][0], amounts[i][1], amounts[i][2]);
        print_pair("call", i, called.outcome);
        printf("call %zu %" PRIu64 "\n", i, called.call);
    }
}

/* All at once of a pair, with so many numbers fewer lent for the figures, the books and the uses; every lent number afterwards. */
static void ask_joined_all(const uint8_t *morning, size_t morning_bytes, const uint8_t *noon, size_t noon_bytes, const size_t fewer[3])
{
    size_t needed = felgotany_joined_figures_needed(morning, morning_bytes, noon, noon_bytes);
    size_t numbers = needed > fewer[0] ? needed - fewer[0] : 0;
    size_t book_numbers = FELGOTANY_ALL_BOOKS - fewer[1], use_numbers = FELGOTANY_ALL_USES - fewer[2];
    int64_t *figures = lent(numbers), *books = lent(book_numbers), *uses = lent(use_numbers);
    felgotany_pair_outcomes outcomes = felgotany_joined_all(morning, morning_bytes, noon, noon_bytes, figures, numbers, books,
                                                            book_numbers, uses, use_numbers);
    print_pair("joined all figures", 0, outcomes.figures);
    print_pair("joined all books", 0, outcomes.books);
    print_pair("joined all uses", 0, outcomes.uses);
    print_numbers("joined all figures", 0, figures, numbers);
    print_numbers("joined all books", 0, books, book_numbers);
    print_numbers("joined all uses", 0, uses, use_numbers);
}

/* A run of the file and the noon file, once as it is and once with a number too few lent. */
static void ask_run(const uint8_t *file, size_t bytes, const uint8_t *noon, size_t noon_bytes)
{
    uint8_t *accounts = before_the_end(bytes + noon_bytes);
    size_t *lengths = before_the_end(2 * sizeof *lengths), *outcomes = before_the_end(4 * sizeof *outcomes);
    memcpy(accounts, file, bytes);
    memcpy(accounts + bytes, noon, noon_bytes);
    lengths[0] = bytes;
    lengths[1] = noon_bytes;
    for (size_t fewer = 0; fewer < 2; ++fewer) {
        size_t numbers = 2 * FELGOTANY_MOST_FIGURES - fewer;
        int64_t *figures = lent(numbers);
        for (size_t i = 0; i < 4; ++i)
            outcomes[i] = 7;
        print_outcome("run", fewer, felgotany_run(accounts, bytes + noon_bytes, lengths, 2, figures, numbers, outcomes, 4));
        printf("run %zu outcomes %zu %zu %zu %zu\n", fewer, outcomes[0], outcomes[1], outcomes[2], outcomes[3]);
        print_numbers("run", fewer, figures, numbers);
    }
}

/* The committee's figures of the file and the noon file, of as many accounts as it takes and of one more. */
static void ask_committee(const uint8_t *file, size_t bytes, const uint8_t *noon, size_t noon_bytes)
{
    size_t most = FELGOTANY_COMMITTEE_ACCOUNTS, count[4] = {2, 2, most, most + 1}, fewer[4] = {0, 1, 0, 0};
    uint8_t *accounts = before_the_end(bytes + noon_bytes);
    memcpy(accounts, file, bytes);
    memcpy(accounts + bytes, noon, noon_bytes);
    for (size_t i = 0; i < 4; ++i) {
        size_t numbers = FELGOTANY_COMMITTEE_NUMBERS - fewer[i], *lengths = before_the_end(count[i] * sizeof *lengths);
        int64_t *out = lent(numbers);
        memset(lengths, 0, count[i] * sizeof *lengths);
        lengths[0] = bytes;
        lengths[1] = noon_bytes;
        print_outcome("committee", i, felgotany_committee(accounts, bytes + noon_bytes, lengths, count[i], out, numbers));
        print_numbers("committee", i, out, numbers);
    }
}

static void print_list(const char *word, size_t question, size_t file, felgotany_list_outcome list)
{
    printf("%s %zu file %zu refusal %zu record %zu verdict %zu step %zu\n", word, question, file, list.refusal, list.record, list.verdict,
           list.step);
}

/* How many records of a kind a question is about: all of them for the table. */
static size_t records_of(const uint8_t *file, size_t bytes, uint8_t kind, size_t question)
{
    size_t count = 0;
    for (size_t at = 0; at < bytes; at += 96)
        count += file[at] == kind && (question == FELGOTANY_TABLE || file[at + 1] == question);
    return count;
}

/* The library's own list of each question, the same with its last use wrong by one and with its last number wrong by one, and the
 * same with a prompt more; each for the file and for the pair. */
static void ask_lists(const uint8_t *file, size_t bytes, const uint8_t *noon, size_t noon_bytes)
{
    int64_t *book = lent(FELGOTANY_MOST_BOOK), *uses = lent(FELGOTANY_MOST_USES);
    for (size_t question = 0; question <= FELGOTANY_TABLE + 1; ++question) {
        int table = question == FELGOTANY_TABLE, answered = felgotany_book(file, bytes, question, book, FELGOTANY_MOST_BOOK).refusal == 0;
        size_t prompts = answered ? records_of(file, bytes, table ? 1 : 2, question) : 0;
        size_t steps = answered ? 2 * records_of(file, bytes, table ? 5 : 4, question) : 0, all = steps * prompts;
        felgotany_uses(file, bytes, question, uses, FELGOTANY_MOST_USES);
        int64_t *numbers = before_the_end(steps * sizeof *numbers), *used = before_the_end(all * sizeof *used);
        memcpy(numbers, book + 3 * prompts, steps * sizeof *numbers);
        memcpy(used, uses, all * sizeof *used);
        for (size_t wrong = 0; wrong < 4; ++wrong) {
            if (wrong == 1 && all > 0)
                used[all - 1] += 1;
            if (wrong == 2 && steps > 0)
                numbers[steps - 1] -= 1;
            size_t of = prompts + (wrong == 3);
            print_list("list", question, 0, felgotany_judge(file, bytes, question, of, numbers, steps, used, all));
            felgotany_pair_list_outcome pair =
                felgotany_joined_judge(file, bytes, noon, noon_bytes, question, of, numbers, steps, used, all);
            print_list("joined list", question, pair.file, pair.list);
        }
    }
}

/* The order screen's calls: the file's first row as a ticket, or 96 bytes that are 0, with so much room after the file; every lent byte
 * afterwards. */
static void ask_screen(const uint8_t *file, size_t bytes, size_t room, size_t named)
{
    const int64_t limits[] = {INT64_MIN, -1, 0, 383650, INT64_MAX};
    uint8_t *held = before_the_end(bytes + room), *ticket = before_the_end(96);
    memcpy(held, file, bytes);
    memset(held + bytes, 7, room);
    memset(ticket, 0, 96);
    for (size_t at = bytes / 96 * 96; at >= 96; at -= 96)
        if (file[at - 96] == 3)
            memcpy(ticket, file + at - 96, 96);
    print_outcome("screen load", room, felgotany_screen_load(held, bytes + room, named));
    felgotany_total_outcome read = felgotany_screen_total(held, bytes + room, named);
    printf("screen total refusal %zu record %zu total %" PRIu64 "\n", read.refusal, read.record, read.total);
    for (size_t i = 0; i < sizeof limits / sizeof limits[0]; ++i) {
        felgotany_limit_outcome asked = felgotany_screen_limit(held, bytes + room, named, ticket, 96, limits[i]);
        printf("screen limit %zu refusal %zu record %zu answer %zu total %" PRIu64 "\n", i, asked.refusal, asked.record, asked.answer,
               asked.total);
    }
    felgotany_add_outcome added = felgotany_screen_add(held, bytes + room, named, ticket, 96);
    printf("screen add refusal %zu record %zu named %zu:", added.refusal, added.record, added.named);
    for (size_t i = 0; i < bytes + room; ++i)
        printf(" %u", (unsigned)held[i]);
    putchar('\n');
}

static void print_ticket(const char *word, size_t held, felgotany_ticket_outcome told)
{
    printf("%s %zu ticket %zu refusal %zu record %zu before %" PRIu64 " after %" PRIu64 "\n", word, held, told.ticket, told.refusal,
           told.record, told.before, told.after);
}

/* The file's last row, or 96 bytes that are 0, as a ticket, put in none, one and two times before, and with a byte missing; each time the
 * latest withdrawn. */
static void ask_tickets(const uint8_t *file, size_t bytes)
{
    uint8_t row[96] = {0};
    for (size_t at = 0; at + 96 <= bytes; at += 96)
        if (file[at] == 3)
            memcpy(row, file + at, 96);
    for (size_t held = 0; held < 3; ++held) {
        uint8_t *tickets = before_the_end(96 * held), *ticket = before_the_end(96), *cut = before_the_end(95);
        for (size_t i = 0; i < held; ++i)
            memcpy(tickets + 96 * i, row, 96);
        memcpy(ticket, row, 96);
        memcpy(cut, row, 95);
        print_ticket("ticket", held, felgotany_ticket(file, bytes, tickets, 96 * held, ticket, 96));
        print_ticket("cut ticket", held, felgotany_ticket(file, bytes, tickets, 96 * held, cut, 95));
        print_ticket("withdrawal", held, felgotany_withdraw(file, bytes, tickets, 96 * held));
    }
}

/* The file's records from the last to the first as entries, with so many bytes lent more or fewer; every lent byte afterwards. */
static void ask_write(const uint8_t *file, size_t bytes, size_t room)
{
    uint8_t *entries = before_the_end(bytes), *out = before_the_end(room);
    for (size_t at = 0; at + 96 <= bytes; at += 96)
        memcpy(entries + bytes - at - 96, file + at, 96);
    memcpy(entries, file, bytes % 96);
    memset(out, 7, room);
    felgotany_write_outcome written = felgotany_write(entries, bytes, out, room);
    printf("write %zu refusal %zu entry %zu written %zu:", room, written.refusal, written.entry, written.written);
    for (size_t i = 0; i < room; ++i)
        printf(" %u", (unsigned)out[i]);
    putchar('\n');
}

int main(int argc, char **argv)
{
    size_t bytes, noon_bytes;
    if (argc != 3) {
        fprintf(stderr, "usage: every FILE NOON\n");
        return 2;
    }
    const uint8_t *file = read_file(argv[1], &bytes), *noon = read_file(argv[2], &noon_bytes);
    printf("constants %d %d %d %d %d %d %d %d\n", FELGOTANY_MOST_FIGURES, FELGOTANY_MOST_BOOK, FELGOTANY_MOST_USES, FELGOTANY_TABLE,
           FELGOTANY_ALL_BOOKS, FELGOTANY_ALL_USES, FELGOTANY_COMMITTEE_ACCOUNTS, FELGOTANY_COMMITTEE_NUMBERS);
    ask(file, bytes);
    ask_all(file, bytes, (const size_t[3]){0, 0, 0});
    ask_all(file, bytes, (const size_t[3]){1, 0, 0});
    ask_all(file, bytes, (const size_t[3]){0, 1, 0});
    ask_all(file, bytes, (const size_t[3]){0, 0, 1});
    ask_joined(file, bytes, noon, noon_bytes);
    ask_joined_all(file, bytes, noon, noon_bytes, (const size_t[3]){0, 0, 0});
    ask_joined_all(file, bytes, noon, noon_bytes, (const size_t[3]){1, 1, 1});
    ask_run(file, bytes, noon, noon_bytes);
    ask_committee(file, bytes, noon, noon_bytes);
    ask_lists(file, bytes, noon, noon_bytes);
    ask_screen(file, bytes, 96, bytes);
    ask_screen(file, bytes, 95, bytes);
    ask_screen(file, bytes, 192, bytes + 193);
    ask_tickets(file, bytes);
    if (bytes % 96 == 0) {
        ask_write(file, bytes, bytes + 5);
        ask_write(file, bytes, bytes > 0 ? bytes - 1 : 0);
    }
    return 0;
}
