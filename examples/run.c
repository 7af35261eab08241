/* run [-l NUMBERS] [-s BYTES] [FILE ..]: the figures of several account files, asked in one call. For each file `A` and its
 * place, counted from 0, then its figures or what is refused, as margin prints them; or what the whole run is refused for.
 * NUMBERS are lent for the figures, or as many as all places have. BYTES are said of the last file in place of its length. */
#include <errno.h>
#include <inttypes.h>
#include <stdio.h>
#include <stdlib.h>
#include <string.h>

#include "felgotany.h"

/* The accounts, one after the other, with the bytes of each. */
struct run {
    uint8_t *accounts;
    size_t bytes;
    size_t *lengths;
    size_t count;
};

static void *lend(size_t numbers, size_t size)
{
    void *memory = numbers == 0 ? NULL : calloc(numbers, size);
    if (numbers > 0 && memory == NULL) {
        fputs("run: out of memory\n", stderr);
        exit(2);
    }
    return memory;
}

/* Puts all of a file at the end of the run. */
static void add_file(struct run *run, const char *name)
{
    FILE *from = fopen(name, "rb");
    if (from == NULL || fseek(from, 0, SEEK_END) != 0) {
        fprintf(stderr, "run: %s: %s\n", name, strerror(errno));
        exit(2);
    }
    size_t more = (size_t)ftell(from);
    rewind(from);
    uint8_t *accounts = lend(run->bytes + more, 1);
    if (run->bytes > 0)
        memcpy(accounts, run->accounts, run->bytes);
    if (more > 0 && fread(accounts + run->bytes, 1, more, from) != more) {
        fprintf(stderr, "run: %s: cannot be read\n", name);
        exit(2);
    }
    fclose(from);
    free(run->accounts);
    run->accounts = accounts;
    run->bytes += more;
    run->lengths[run->count++] = more;
}

static void print_line(char letter, const int64_t *numbers, size_t count)
{
    putchar(letter);
    for (size_t i = 0; i < count; ++i)
        printf(" %" PRId64, numbers[i]);
    putchar('\n');
}

/* An accepted account's figures: as many as it needs, which its bytes say. */
static void print_figures(const int64_t *numbers, size_t count)
{
    size_t at = 0;
    for (; at + 1 < count; at += 8)
        print_line('C', numbers + at, 8);
    print_line('T', numbers + at, 1);
}

static void print_run(const struct run *run, const int64_t *figures, const felgotany_outcome *outcomes)
{
    size_t at = 0;
    for (size_t i = 0; i < run->count; at += run->lengths[i++]) {
        const uint8_t *account = run->lengths[i] == 0 ? NULL : run->accounts + at;
        printf("A %zu\n", i);
        if (outcomes[i].refusal != 0)
            printf("R %zu %zu\n", outcomes[i].refusal, outcomes[i].record);
        else
            print_figures(figures + FELGOTANY_MOST_FIGURES * i, felgotany_figures_needed(account, run->lengths[i]));
    }
}

int main(int argc, char **argv)
{
    struct run run = {NULL, 0, lend((size_t)argc, sizeof(size_t)), 0};
    const char *lent = NULL, *said = NULL;
    for (int i = 1; i < argc; ++i)
        if (strcmp(argv[i], "-l") == 0 && i + 1 < argc)
            lent = argv[++i];
        else if (strcmp(argv[i], "-s") == 0 && i + 1 < argc)
            said = argv[++i];
        else
            add_file(&run, argv[i]);
    if (said != NULL && run.count > 0)
        run.lengths[run.count - 1] = strtoul(said, NULL, 10);

    size_t numbers = lent == NULL ? FELGOTANY_MOST_FIGURES * run.count : strtoul(lent, NULL, 10);
    int64_t *figures = lend(numbers, sizeof *figures);
    felgotany_outcome *outcomes = lend(run.count, sizeof *outcomes);
    felgotany_outcome outcome = felgotany_run(run.accounts, run.bytes, run.lengths, run.count, figures, numbers,
                                              (size_t *)outcomes, 2 * run.count);
    if (outcome.refusal != 0)
        printf("R %zu %zu\n", outcome.refusal, outcome.record);
    else
        print_run(&run, figures, outcomes);
    free(outcomes);
    free(figures);
    free(run.lengths);
    free(run.accounts);
    return 0;
}
