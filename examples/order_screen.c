/* order_screen [-l BYTES] ACCOUNT LIMIT: a dealing screen. It loads an account file, reads orders from standard input, and asks of each,
 * before it is sent, whether the total with it stays at or below LIMIT, in hundredths of the margin currency. It prints for each order
 *
 *     yes TOTAL            the order is within the limit: it is sent, and added to the account as a ticket
 *     no TOTAL             the total would be over the limit: the order is not sent
 *     refused NUMBER RECORD: WHY
 *
 * and first `total TOTAL`, of the account as it was loaded. An order is a line of the text form: `row`, contract, class (forward, call or
 * put), day, strike, lots, delta, value, the sixteen losses, and the currency, which may be left out. Empty lines and lines that begin with
 * '#' are passed over. BYTES of memory are lent to the calls, or room for the 640 records that an account may have.
 *
 * Exit status: 0 all orders answered, 1 the account is refused, 2 called wrongly or a line is no order, 3 something could not be read
 * or written. */
#include <errno.h>
#include <inttypes.h>
#include <stdio.h>
#include <stdlib.h>
#include <string.h>

#include "felgotany.h"
#include "felgotany_refusals.h"

#define MOST_BYTES 61440
#define TICKET_BYTES 96
#define LONGEST_LINE 4096
#define FIELDS 25 /* with the currency */

/* What the screen holds: memory of its own, and how much of it is the account file. */
typedef struct {
    uint8_t *lent;
    size_t bytes;
    size_t named;
    int64_t limit;
} screen;

static void stop(int status, const char *what, const char *why)
{
    fprintf(stderr, "order_screen: %s: %s\n", what, why);
    exit(status);
}

/* The number that a word is, all of it, within least and most. */
static int within(const char *word, int64_t least, int64_t most, int64_t *number)
{
    char *end;
    size_t digits = strspn(word + (word[0] == '-'), "0123456789");
    if (digits == 0 || word[digits + (word[0] == '-')] != '\0')
        return 0;
    errno = 0;
    intmax_t read = strtoimax(word, &end, 10);
    *number = (int64_t)read;
    return errno == 0 && read >= least && read <= most;
}

static void refuse(size_t refusal, size_t record)
{
    printf("refused %zu %zu: %s\n", refusal, record, felgotany_refusal_text(refusal));
}

/* ---- an order as a ticket */

static void put_number(uint8_t *ticket, size_t at, size_t width, int64_t number)
{
    uint64_t bits = (uint64_t)number;
    for (size_t i = 0; i < width; ++i)
        ticket[at + i] = (uint8_t)(bits >> (8 * i));
}

/* A column of the text form: its name, where it stands in a row, how many bytes it has, and whether it is signed. */
typedef struct {
    const char *name;
    size_t at, width;
    int is_signed;
} column;

static column column_of(size_t field)
{
    static const column first[] = {
        {"kind", 0, 1, 0},    {"contract", 1, 1, 0}, {"class", 2, 1, 0},  {"day", 4, 4, 0},
        {"strike", 8, 4, 0},  {"lots", 12, 4, 1},    {"delta", 16, 4, 1}, {"value", 20, 4, 0},
    };
    column loss = {"loss", 24 + 4 * (field - 8), 4, 1}, currency = {"currency", 3, 1, 0};
    return field < 8 ? first[field] : field < FIELDS - 1 ? loss : currency;
}

/* The number of a field; 0 where it is not one that the record has room for. */
static int field_number(size_t field, const char *word, int64_t *number)
{
    static const char *const classes[] = {"forward", "call", "put"};
    column of = column_of(field);
    int64_t most = of.is_signed ? INT32_MAX : of.width == 4 ? UINT32_MAX : UINT8_MAX;
    if (field == 0) {
        *number = 3;
        return strcmp(word, "row") == 0;
    }
    if (field == 2)
        for (int64_t class = 0; class < 3; ++class)
            if (strcmp(word, classes[class]) == 0) {
                *number = class;
                return 1;
            }
    return field != 2 && within(word, of.is_signed ? INT32_MIN : 0, most, number);
}

/* The ticket of a line, or what is wrong with it; null where nothing is. The line is taken apart. */
static const char *ticket_of(char *line, uint8_t *ticket)
{
    size_t field = 0;
    memset(ticket, 0, TICKET_BYTES);
    for (char *word = line; word != NULL; ++field) {
        char *comma = strchr(word, ',');
        int64_t number = 0;
        if (comma != NULL)
            *comma = '\0';
        if (field == FIELDS)
            return "too many fields";
        if (!field_number(field, word, &number))
            return column_of(field).name;
        put_number(ticket, column_of(field).at, column_of(field).width, number);
        word = comma == NULL ? NULL : comma + 1;
    }
    return field < FIELDS - 1 ? "too few fields" : NULL;
}

/* ---- the screen */

/* Asks about an order, and adds it where the answer is yes. */
static void answer_order(screen *held, const uint8_t *ticket)
{
    felgotany_limit_outcome asked =
        felgotany_screen_limit(held->lent, held->bytes, held->named, ticket, TICKET_BYTES, held->limit);
    if (asked.answer == FELGOTANY_NOT_ASKED) {
        refuse(asked.refusal, asked.record);
        return;
    }
    if (asked.answer == FELGOTANY_ABOVE_LIMIT) {
        printf("no %" PRIu64 "\n", asked.total);
        return;
    }
    felgotany_add_outcome added = felgotany_screen_add(held->lent, held->bytes, held->named, ticket, TICKET_BYTES);
    if (added.refusal != 0) {
        refuse(added.refusal, added.record);
        return;
    }
    held->named = added.named;
    felgotany_total_outcome read = felgotany_screen_total(held->lent, held->bytes, held->named);
    if (read.refusal != 0 || read.total != asked.total)
        stop(3, "the account", "its total is not the one that was told");
    printf("yes %" PRIu64 "\n", read.total);
}

/* Orders, line by line, to the end of standard input. */
static void answer_orders(screen *held)
{
    char line[LONGEST_LINE], place[32];
    uint8_t ticket[TICKET_BYTES];
    for (unsigned long at = 1; fgets(line, sizeof line, stdin) != NULL; ++at) {
        size_t length = strcspn(line, "\r\n");
        snprintf(place, sizeof place, "line %lu", at);
        if (line[length] == '\0' && !feof(stdin))
            stop(2, place, "not an order: it is too long, or has a byte 0");
        line[length] = '\0';
        if (line[0] == '\0' || line[0] == '#')
            continue;
        const char *wrong = ticket_of(line, ticket);
        if (wrong != NULL) {
            fprintf(stderr, "order_screen: %s: not an order: %s\n", place, wrong);
            exit(2);
        }
        answer_order(held, ticket);
        if (fflush(stdout) != 0)
            stop(3, "standard output", strerror(errno));
    }
    if (ferror(stdin))
        stop(3, "standard input", strerror(errno));
}

/* Reads an account file to the front of the screen's memory. A file that does not fit names more bytes than are lent. */
static void load(screen *held, const char *name)
{
    FILE *from = fopen(name, "rb");
    if (from == NULL)
        stop(3, name, strerror(errno));
    held->named = held->bytes == 0 ? 0 : fread(held->lent, 1, held->bytes, from);
    while (getc(from) != EOF)
        ++held->named;
    if (ferror(from))
        stop(3, name, "cannot be read");
    fclose(from);
}

int main(int argc, char **argv)
{
    screen held = {NULL, MOST_BYTES, 0, 0};
    int64_t bytes = MOST_BYTES;
    int first = 1;
    if (argc > 2 && strcmp(argv[1], "-l") == 0) {
        if (!within(argv[2], 0, INT32_MAX, &bytes))
            stop(2, argv[2], "not a number of bytes");
        first = 3;
    }
    if (argc - first != 2 || argv[first][0] == '-')
        stop(2, "usage", "order_screen [-l BYTES] ACCOUNT LIMIT");
    if (!within(argv[first + 1], INT64_MIN, INT64_MAX, &held.limit))
        stop(2, argv[first + 1], "not a limit in hundredths");
    held.bytes = (size_t)bytes;
    held.lent = held.bytes == 0 ? NULL : (uint8_t *)malloc(held.bytes);
    if (held.bytes != 0 && held.lent == NULL)
        stop(3, "memory", strerror(errno));
    load(&held, argv[first]);

    felgotany_outcome loaded = felgotany_screen_load(held.lent, held.bytes, held.named);
    if (loaded.refusal != 0)
        refuse(loaded.refusal, loaded.record);
    else {
        printf("total %" PRIu64 "\n", felgotany_screen_total(held.lent, held.bytes, held.named).total);
        answer_orders(&held);
    }
    free(held.lent);
    return loaded.refusal != 0;
}
