/* What a reply of the library's says: its LLQ options beside those that were sent. The reply is the library's, so it is well-formed. */
#include <string.h>

#include "llqd.h"

enum { HEADER_SIZE = 12, QUESTION_END = 4, OPT_SIZE = 11, OPTION_HEADER = 4, OPTION_SIZE = 22, OPTION_BODY = 18, SETUP = 1, REFRESH = 2 };

static struct llq_option option_at(const uint8_t *at)
{
    struct llq_option option = {.version = (uint16_t)number_at(at, 2), .opcode = (uint16_t)number_at(at + 2, 2),
                                .error = (uint16_t)number_at(at + 4, 2), .number = number_at(at + 6, 8),
                                .lease = (uint32_t)number_at(at + 14, 4)};
    return option;
}

/*
 * A granted number is the host's, or the first after it that is free: at most as far from it as there are entries. An entry
 * of before has one so near by chance once in 2^57 setups.
 */
static enum outcome granted(uint64_t number, uint64_t random)
{
    return number - random <= SLOTS_MOST + OPTIONS_MOST ? GRANTED : GRANTED_BEFORE;
}

static enum outcome outcome_of(struct llq_option asked, struct llq_option told, uint64_t random)
{
    switch (told.error) {
    case 0:
        if (told.opcode == SETUP)
            return asked.number ? ESTABLISHED : granted(told.number, random);
        return asked.lease ? RENEWED : ENDED;
    case 1: return FULL;
    case 4: return NO_SUCH;
    case 5: return VERSION;
    default: return FORMAT;
    }
}

/* The questions of the reply, which are those of the datagram; returns the place behind them. */
static size_t read_questions(const uint8_t *reply, struct answers *answers)
{
    size_t at = HEADER_SIZE;
    answers->questions = reply[5];
    for (size_t i = 0; i < answers->questions; i++) {
        answers->answer[i].question = reply + at;
        while (reply[at])
            at += 1 + (size_t)reply[at];
        at += 1 + QUESTION_END;
    }
    return at;
}

/* The LLQ options that were sent; the datagram was answered, so options fill its data. */
static void read_asked(const struct arrival *asked, size_t at, struct answers *answers)
{
    answers->asked = 0;
    answers->mismatched = false;
    for (at += OPT_SIZE; at + OPTION_HEADER <= asked->length; at += OPTION_HEADER + number_at(asked->bytes + at + 2, 2)) {
        if (number_at(asked->bytes + at, 2) != 1)
            continue;
        if (number_at(asked->bytes + at + 2, 2) != OPTION_BODY)
            answers->mismatched = true;
        else if (answers->asked < OPTIONS_MOST)
            answers->answer[answers->asked].asked = option_at(asked->bytes + at + OPTION_HEADER);
        answers->asked++;
    }
    answers->mismatched |= answers->asked != answers->questions;
}

/* The same question twice in one datagram: the first is granted, the second finds its entry. */
static bool told_before(const struct answers *answers, size_t index)
{
    for (size_t i = 0; i < index; i++)
        if (answers->answer[i].told.number == answers->answer[index].told.number)
            return true;
    return false;
}

void read_answers(const struct arrival *asked, uint64_t random, const uint8_t *reply, struct answers *answers)
{
    size_t at = read_questions(reply, answers);
    read_asked(asked, at, answers);
    answers->count = answers->mismatched ? 0 : answers->questions;
    at += OPT_SIZE;
    for (size_t i = 0; i < answers->count; i++, at += OPTION_SIZE) {
        struct answer *answer = answers->answer + i;
        answer->told = option_at(reply + at + OPTION_HEADER);
        answer->outcome = outcome_of(answer->asked, answer->told, random);
        if (answer->outcome == GRANTED && told_before(answers, i))
            answer->outcome = GRANTED_BEFORE;
    }
}
