/* Felgotany: a name and a text for each refusal that felgotany.h lists. The names are constants, the texts are those that the
 * command prints; nothing here needs the library. */
#ifndef FELGOTANY_REFUSALS_H
#define FELGOTANY_REFUSALS_H

#include <stddef.h>

#define FELGOTANY_ACCEPTED 0
#define FELGOTANY_TOO_LONG 1
#define FELGOTANY_NOT_WHOLE_RECORDS 2
#define FELGOTANY_UNKNOWN_KIND 3
#define FELGOTANY_KIND_BELOW 4
#define FELGOTANY_UNUSED_BYTE 5
#define FELGOTANY_OUTSIDE_RANGE 6
#define FELGOTANY_UNLISTED 7
#define FELGOTANY_ORDER_OR_CLASH 8
#define FELGOTANY_OVER_LIMIT 9
#define FELGOTANY_TOO_FEW_NUMBERS 10
#define FELGOTANY_UNLISTED_QUESTION 11
#define FELGOTANY_NOON_INTERCONTRACT 12
#define FELGOTANY_TOO_MANY_JOINED 13
#define FELGOTANY_NO_RATE 14
#define FELGOTANY_CONVERSION_BEYOND 15
#define FELGOTANY_TOO_FEW_BYTES 16
#define FELGOTANY_LENGTHS_DIFFER 17
#define FELGOTANY_OTHER_COUNTS 18
#define FELGOTANY_TOO_MANY_ACCOUNTS 19
#define FELGOTANY_LIMIT_BELOW_ZERO 20
#define FELGOTANY_AMOUNT_OUTSIDE_RANGE 21
#define FELGOTANY_NO_TICKET_LEFT 22

/* The rule of a refusal in words; for any other number "no such refusal". The text is constant and is not freed. */
static inline const char *felgotany_refusal_text(size_t refusal)
{
    switch (refusal) {
    case FELGOTANY_ACCEPTED:
        return "nothing is refused";
    case FELGOTANY_TOO_LONG:
        return "file longer than 61,440 bytes";
    case FELGOTANY_NOT_WHOLE_RECORDS:
        return "length not a multiple of 96";
    case FELGOTANY_UNKNOWN_KIND:
        return "kind not 1..6";
    case FELGOTANY_KIND_BELOW:
        return "kind below the kind before it";
    case FELGOTANY_UNUSED_BYTE:
        return "an unused byte is not zero";
    case FELGOTANY_OUTSIDE_RANGE:
        return "a field outside its range";
    case FELGOTANY_UNLISTED:
        return "it names a contract, a prompt day or a tier that no earlier record lists";
    case FELGOTANY_ORDER_OR_CLASH:
        return "order or clash";
    case FELGOTANY_OVER_LIMIT:
        return "one record more than a per-contract or intercontract limit";
    case FELGOTANY_TOO_FEW_NUMBERS:
        return "less memory provided than the answer needs";
    case FELGOTANY_UNLISTED_QUESTION:
        return "question neither a listed contract nor 16";
    case FELGOTANY_NOON_INTERCONTRACT:
        return "the noon file has an intercontract spread or a currency rate";
    case FELGOTANY_TOO_MANY_JOINED:
        return "more than 640 records joined";
    case FELGOTANY_NO_RATE:
        return "a row whose currency has no rate";
    case FELGOTANY_CONVERSION_BEYOND:
        return "a row with a rounded conversion beyond 100,000,000,000,000 hundredths";
    case FELGOTANY_TOO_FEW_BYTES:
        return "fewer bytes provided than are named or needed";
    case FELGOTANY_LENGTHS_DIFFER:
        return "the lengths of a run do not add up to what was lent";
    case FELGOTANY_OTHER_COUNTS:
        return "step count or prompt count differs from the account's";
    case FELGOTANY_TOO_MANY_ACCOUNTS:
        return "more than 100 accounts for the risk committee";
    case FELGOTANY_LIMIT_BELOW_ZERO:
        return "a limit below zero";
    case FELGOTANY_AMOUNT_OUTSIDE_RANGE:
        return "an amount outside 0 to 1,000,000,000,000,000 hundredths";
    case FELGOTANY_NO_TICKET_LEFT:
        return "a withdrawal with no ticket left";
    default:
        return "no such refusal";
    }
}

#endif
