/* stack FILE NOON: how deep into the stack each call of the library goes, painted: bytes and the call's name, one a line. The last row of
 * FILE is the ticket of those that take one. */
#define _XOPEN_SOURCE 700
#include <stdio.h>
#include <stdlib.h>
#include <string.h>
#include <ucontext.h>

#include "felgotany.h"

#define PAINTED (1 << 20)
#define PAINT 0xA7
#define RECORD 96
#define ROOM 65536
#define NO_LIMIT ((int64_t)1 << 60)

static uint8_t file[ROOM], noon[ROOM], lent[ROOM], ticket[RECORD], *painted;
static size_t bytes, noon_bytes, outcomes[2];
static int64_t figures[FELGOTANY_MOST_FIGURES], books[FELGOTANY_ALL_BOOKS], uses[FELGOTANY_ALL_USES];
static ucontext_t here, there;

#define CALL(name, ...) \
    static void call_##name(void) { (void)felgotany_##name(__VA_ARGS__); }
#define PAIR file, bytes, noon, noon_bytes
CALL(check, file, bytes)
CALL(figures_needed, file, bytes)
CALL(figures, file, bytes, figures, FELGOTANY_MOST_FIGURES)
CALL(book_needed, file, bytes, 0)
CALL(book, file, bytes, 0, books, FELGOTANY_MOST_BOOK)
CALL(uses_needed, file, bytes, 0)
CALL(uses, file, bytes, 0, uses, FELGOTANY_MOST_USES)
CALL(all, file, bytes, figures, FELGOTANY_MOST_FIGURES, books, FELGOTANY_ALL_BOOKS, uses, FELGOTANY_ALL_USES)
CALL(joined_figures, PAIR, figures, FELGOTANY_MOST_FIGURES)
CALL(joined_book, PAIR, FELGOTANY_TABLE, books, FELGOTANY_MOST_BOOK)
CALL(joined_uses, PAIR, FELGOTANY_TABLE, uses, FELGOTANY_MOST_USES)
CALL(joined_figures_needed, PAIR)
CALL(joined_book_needed, PAIR, 0)
CALL(joined_uses_needed, PAIR, 0)
CALL(joined_all, PAIR, figures, FELGOTANY_MOST_FIGURES, books, FELGOTANY_ALL_BOOKS, uses, FELGOTANY_ALL_USES)
CALL(joined_prompts, PAIR, 0)
CALL(call, PAIR, 0, 0, 0)
CALL(run, file, bytes, &bytes, 1, figures, FELGOTANY_MOST_FIGURES, outcomes, 2)
CALL(judge, file, bytes, 0, 0, figures, 0, uses, 0)
CALL(joined_judge, PAIR, 0, 0, figures, 0, uses, 0)
CALL(committee, file, bytes, &bytes, 1, figures, FELGOTANY_COMMITTEE_NUMBERS)
CALL(ticket, file, bytes, ticket, RECORD, ticket, RECORD)
CALL(withdraw, file, bytes, ticket, RECORD)
CALL(write, file, bytes, lent, ROOM)
CALL(screen_load, file, bytes, bytes)
CALL(screen_add, lent, ROOM, bytes, ticket, RECORD)
CALL(screen_total, file, bytes, bytes)
CALL(screen_limit, file, bytes, bytes, ticket, RECORD, NO_LIMIT)

static const struct {
    const char *name;
    void (*call)(void);
} calls[] = {
#define NAMED(name) {#name, call_##name}
    NAMED(check), NAMED(figures_needed), NAMED(figures), NAMED(book_needed), NAMED(book), NAMED(uses_needed), NAMED(uses),
    NAMED(all), NAMED(joined_figures), NAMED(joined_book), NAMED(joined_uses), NAMED(joined_figures_needed),
    NAMED(joined_book_needed), NAMED(joined_uses_needed), NAMED(joined_all), NAMED(joined_prompts), NAMED(call), NAMED(run),
    NAMED(judge), NAMED(joined_judge), NAMED(committee), NAMED(ticket), NAMED(withdraw), NAMED(write), NAMED(screen_load),
    NAMED(screen_add), NAMED(screen_total), NAMED(screen_limit),
};

/* How much of a painted stack a call wrote over. */
static size_t depth(void (*call)(void))
{
    size_t left = 0;
    memset(painted, PAINT, PAINTED);
    getcontext(&there);
    there.uc_stack.ss_sp = painted;
    there.uc_stack.ss_size = PAINTED;
    there.uc_link = &here;
    makecontext(&there, call, 0);
    swapcontext(&here, &there);
    while (left < PAINTED && painted[left] == PAINT)
        ++left;
    return PAINTED - left;
}

static size_t read_file(const char *name, uint8_t *to)
{
    FILE *from = fopen(name, "rb");
    if (from == NULL) {
        perror(name);
        exit(2);
    }
    size_t read = fread(to, 1, ROOM, from);
    fclose(from);
    return read;
}

int main(int words, char **word)
{
    if (words != 3 || (painted = malloc(PAINTED)) == NULL)
        return 2;
    bytes = read_file(word[1], file);
    noon_bytes = read_file(word[2], noon);
    memcpy(lent, file, bytes);
    for (size_t at = 0; at + RECORD <= bytes; at += RECORD)
        if (file[at] == 3)
            memcpy(ticket, file + at, RECORD);
    for (size_t i = 0; i < sizeof calls / sizeof *calls; ++i)
        printf("%zu %s\n", depth(calls[i].call), calls[i].name);
    return 0;
}
