/* margin [-b QUESTION | -u QUESTION] [-l NUMBERS] [FILE]: the figures of an account file, or the delta book of a question as
 * one line, or what each step takes of each prompt there, or what is refused. Without FILE the account has no records. Memory
 * for NUMBERS numbers is provided for the answer, or for as many as it needs.
 *
 * margin -n NOON [-l NUMBERS] [FILE]: the figures of FILE, the morning's, joined with a noon file.
 * margin -n NOON -c LAST THRESHOLD COLLATERAL [FILE]: the call on them. A refusal of two files says which first.
 *
 * What is refused is also said in words on standard error. Exit status: 0 answered, 1 refused, 2 called wrongly, 3 something
 * could not be read or written. */
#include <errno.h>
#include <inttypes.h>
#include <limits.h>
#include <stdio.h>
#include <stdlib.h>
#include <string.h>

#include "felgotany.h"
#include "felgotany_refusals.h"

static void stop(int status, const char *what, const char *why)
{
    fprintf(stderr, "margin: %s: %s\n", what, why);
    exit(status);
}

/* The number that a word is, all of it. */
static int64_t signed_number(const char *word)
{
    char *end;
    errno = 0;
    intmax_t number = strtoimax(word, &end, 10);
    if (end == word || *end != '\0' || errno != 0 || number < INT64_MIN || number > INT64_MAX)
        stop(2, word, "not a whole number");
    return (int64_t)number;
}

static size_t number_of(const char *word)
{
    int64_t number = signed_number(word);
    if (number < 0 || (uint64_t)number > SIZE_MAX / sizeof(int64_t))
        stop(2, word, "not a number of things");
    return (size_t)number;
}

/* Memory for so many numbers; null for none. */
static int64_t *memory_for(size_t numbers)
{
    int64_t *out = numbers == 0 ? NULL : (int64_t *)calloc(numbers, sizeof *out);
    if (numbers != 0 && out == NULL)
        stop(3, "memory", strerror(errno));
    return out;
}

/* All of a file, in memory of just its size; null where it is empty. */
static uint8_t *read_file(const char *name, size_t *bytes)
{
    uint8_t *file = NULL;
    long size = 0;
    FILE *from = fopen(name, "rb");
    if (from == NULL || fseek(from, 0, SEEK_END) != 0 || (size = ftell(from)) < 0 || size == LONG_MAX)
        stop(3, name, from == NULL ? strerror(errno) : "not a file that can be read");
    *bytes = (size_t)size;
    rewind(from);
    if (*bytes > 0 && ((file = (uint8_t *)malloc(*bytes)) == NULL || fread(file, 1, *bytes, from) != *bytes))
        stop(3, name, "not a file that can be read");
    fclose(from);
    return file;
}

static void print_line(char letter, const int64_t *numbers, size_t count)
{
    putchar(letter);
    for (size_t i = 0; i < count; ++i)
        printf(" %" PRId64, numbers[i]);
    putchar('\n');
}

static void print_figures(const int64_t *numbers, size_t count)
{
    size_t at = 0;
    for (; at + 1 < count; at += 8)
        print_line('C', numbers + at, 8);
    print_line('T', numbers + at, 1);
}

/* How many numbers the figures of the joined account need: a file supplies each contract that is listed. */
static size_t joined_needed(const uint8_t *file, size_t bytes, const uint8_t *noon, size_t noon_bytes)
{
    size_t needed = 1;
    for (size_t contract = 0; contract < FELGOTANY_TABLE; ++contract)
        if (felgotany_joined_prompts(file, bytes, noon, noon_bytes, contract).file != 0)
            needed += 8;
    return needed;
}

/* Prints a refusal, of two files with the one that it is about, and says it in words. The status is that of a refusal. */
static int print_refusal(const size_t *file, size_t refusal, size_t record)
{
    if (file == NULL)
        printf("R %zu %zu\n", refusal, record);
    else
        printf("R %zu %zu %zu\n", *file, refusal, record);
    fprintf(stderr, "margin: %s\n", felgotany_refusal_text(refusal));
    return 1;
}

static int print_joined(const uint8_t *file, size_t bytes, const uint8_t *noon, size_t noon_bytes, const char *lend)
{
    size_t needed = joined_needed(file, bytes, noon, noon_bytes);
    size_t numbers = lend == NULL ? needed : number_of(lend);
    int64_t *out = memory_for(numbers);
    felgotany_pair_outcome outcome = felgotany_joined_figures(file, bytes, noon, noon_bytes, out, numbers);
    int status = 0;
    if (outcome.refusal != 0)
        status = print_refusal(&outcome.file, outcome.refusal, outcome.record);
    else
        print_figures(out, needed);
    free(out);
    return status;
}

static int print_call(const uint8_t *file, size_t bytes, const uint8_t *noon, size_t noon_bytes, char **amounts)
{
    int64_t last = signed_number(amounts[0]);
    int64_t threshold = signed_number(amounts[1]);
    int64_t collateral = signed_number(amounts[2]);
    felgotany_call_outcome called = felgotany_call(file, bytes, noon, noon_bytes, last, threshold, collateral);
    int64_t call = (int64_t)called.call;
    if (called.outcome.refusal != 0)
        return print_refusal(&called.outcome.file, called.outcome.refusal, called.outcome.record);
    print_line('L', &call, 1);
    return 0;
}

/* The answer of one file: its figures, or the book or the uses of a question. */
static int print_answer(const uint8_t *file, size_t bytes, char letter, const char *asked, const char *lend)
{
    size_t question = asked == NULL ? 0 : number_of(asked);
    size_t needed = letter == 'C'   ? felgotany_figures_needed(file, bytes)
                    : letter == 'B' ? felgotany_book_needed(file, bytes, question)
                                    : felgotany_uses_needed(file, bytes, question);
    size_t numbers = lend == NULL ? needed : number_of(lend);
    int64_t *out = memory_for(numbers);
    felgotany_outcome outcome = letter == 'C'   ? felgotany_figures(file, bytes, out, numbers)
                                : letter == 'B' ? felgotany_book(file, bytes, question, out, numbers)
                                                : felgotany_uses(file, bytes, question, out, numbers);
    int status = 0;
    if (outcome.refusal != 0)
        status = print_refusal(NULL, outcome.refusal, outcome.record);
    else if (letter == 'C')
        print_figures(out, needed);
    else
        print_line(letter, out, needed);
    free(out);
    return status;
}

/* What the words of the call ask for. */
typedef struct {
    const char *name, *lend, *asked, *later;
    char **amounts;
    char letter;
} call_words;

/* A word may be said once. */
static void once(const char **place, const char *word, const char *option)
{
    if (*place != NULL)
        stop(2, option, "said twice");
    *place = word;
}

static call_words words_of(int argc, char **argv)
{
    call_words words = {NULL, NULL, NULL, NULL, NULL, 'C'};
    for (int i = 1; i < argc; ++i) {
        const char *word = argv[i];
        int after = argc - i - 1;
        if (strcmp(word, "-l") == 0 && after >= 1)
            once(&words.lend, argv[++i], word);
        else if (strcmp(word, "-n") == 0 && after >= 1)
            once(&words.later, argv[++i], word);
        else if (strcmp(word, "-c") == 0 && after >= 3 && words.amounts == NULL) {
            words.amounts = argv + i + 1;
            i += 3;
        } else if ((strcmp(word, "-b") == 0 || strcmp(word, "-u") == 0) && after >= 1) {
            once(&words.asked, argv[++i], word);
            words.letter = word[1] == 'b' ? 'B' : 'U';
        } else if (word[0] == '-')
            stop(2, word, "not an option, or not all that follows it");
        else
            once(&words.name, word, word);
    }
    if (words.amounts != NULL && (words.later == NULL || words.lend != NULL))
        stop(2, "-c", "needs -n, and provides its own memory");
    if (words.asked != NULL && words.later != NULL)
        stop(2, "-n", "answers no question of a book here");
    return words;
}

int main(int argc, char **argv)
{
    call_words words = words_of(argc, argv);
    size_t bytes = 0, noon_bytes = 0;
    uint8_t *file = words.name == NULL ? NULL : read_file(words.name, &bytes);
    uint8_t *noon = words.later == NULL ? NULL : read_file(words.later, &noon_bytes);
    int status = words.later == NULL     ? print_answer(file, bytes, words.letter, words.asked, words.lend)
                 : words.amounts == NULL ? print_joined(file, bytes, noon, noon_bytes, words.lend)
                                         : print_call(file, bytes, noon, noon_bytes, words.amounts);
    free(noon);
    free(file);
    if (fflush(stdout) != 0 || ferror(stdout))
        stop(3, "standard output", strerror(errno));
    return status;
}
