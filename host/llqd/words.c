/* What happened, in words and in counts. */
#include <inttypes.h>
#include <stdlib.h>
#include <string.h>

#include "llqd.h"

struct counts counts;

static const char *const refusals[LLQ_ROOM + 1] = {
    [LLQ_TABLE] = "the table is unsound",
    [LLQ_READING] = "the reading of the clock is too large",
    [LLQ_SIZE] = "fewer than 12 bytes or more than 1472",
    [LLQ_HEADER] = "the header is not a query's with 1 to 8 questions and an OPT record",
    [LLQ_QUESTION] = "a question is malformed",
    [LLQ_OPT] = "the OPT record is malformed",
    [LLQ_NO_LLQ] = "no LLQ option",
    [LLQ_ROOM] = "the reply would be too long",
};

/* "127.0.0.5:44001", or "[2001:db8::5]:44001". */
static void print_sender(FILE *out, const struct arrival *asked)
{
    char text[ADDRESS_SIZE];
    address_text(asked->address, text);
    fprintf(out, strchr(text, ':') ? "[%s]:%u " : "%s:%u ", text, asked->port);
}

static void print_question(FILE *out, const struct answer *answer)
{
    static const char *const what[][2] = {{"setup", "response"}, {"refresh", "refresh"}};
    char text[WORD_SIZE];
    const uint8_t *end = answer->question;
    if (answer->told.opcode == 1 || answer->told.opcode == 2)
        fputs(what[answer->told.opcode - 1][answer->asked.number != 0], out);
    else
        fprintf(out, "opcode %u", answer->told.opcode);
    fputc(' ', out);
    print_name(out, answer->question);
    while (*end)
        end += 1 + *end;
    unsigned type = (unsigned)number_at(end + 1, 2), class = (unsigned)number_at(end + 3, 2);
    if (class != 1)
        fprintf(out, " %s", class_text(class, text));
    fprintf(out, " %s: ", type_text(type, text));
}

/* "Full" for the reason that held when this option was served. */
static void print_full(FILE *out, struct holdings holdings)
{
    if (holdings.held >= holdings.limit)
        fprintf(out, "full: at its limit of %u", holdings.limit);
    else
        fputs(holdings.free ? "full: every free slot is reserved" : "full: every slot is taken", out);
}

static void print_outcome(FILE *out, const struct answer *answer, struct holdings holdings)
{
    switch (answer->outcome) {
    case GRANTED: fprintf(out, "granted, lease %" PRIu32, answer->told.lease); break;
    case GRANTED_BEFORE: fprintf(out, "granted before, %" PRIu32 " s left", answer->told.lease); break;
    case FULL: print_full(out, holdings); break;
    case ESTABLISHED: fprintf(out, "established, %" PRIu32 " s left", answer->told.lease); break;
    case RENEWED: fprintf(out, "renewed, lease %" PRIu32, answer->told.lease); break;
    case ENDED: fputs("ended", out); break;
    case NO_SUCH: fputs("no such LLQ", out); break;
    case VERSION: fprintf(out, "version %u is not 1", answer->asked.version); break;
    default: fputs("format error", out);
    }
}

static void print_mismatch(FILE *out, const struct answers *answers)
{
    if (answers->asked == answers->questions)
        fputs("format error: an LLQ option has not 18 bytes\n", out);
    else
        fprintf(out, "format error: %zu LLQ option%s for %zu question%s\n", answers->asked, answers->asked == 1 ? "" : "s",
                answers->questions, answers->questions == 1 ? "" : "s");
}

/* Lines are collected and handed to the log at once. */
static char *lines;
static size_t lines_length;

static FILE *lines_open(void)
{
    FILE *out = open_memstream(&lines, &lines_length);
    if (!out)
        die("out of memory");
    return out;
}

static void lines_close(FILE *out)
{
    fclose(out);
    log_text(lines, lines_length);
    free(lines);
}

void print_answers(const struct arrival *asked, const struct answers *answers, struct holdings holdings)
{
    FILE *out = lines_open();
    if (answers->mismatched) {
        print_sender(out, asked);
        print_mismatch(out, answers);
    }
    for (size_t i = 0; i < answers->count; i++) {
        const struct answer *answer = answers->answer + i;
        print_sender(out, asked);
        print_question(out, answer);
        print_outcome(out, answer, holdings);
        fputc('\n', out);
        holdings.held += (answer->outcome == GRANTED) - (unsigned)(answer->outcome == ENDED);
        holdings.free -= (answer->outcome == GRANTED) - (size_t)(answer->outcome == ENDED);
    }
    lines_close(out);
}

void print_refusal(const struct arrival *asked, uint32_t number)
{
    FILE *out = lines_open();
    print_sender(out, asked);
    fprintf(out, "refused %u: %s\n", number, refusals[number]);
    lines_close(out);
}

void count_answers(const struct answers *answers)
{
    counts.answered++;
    counts.mismatched += answers->mismatched;
    for (size_t i = 0; i < answers->count; i++) {
        counts.outcomes[answers->answer[i].outcome]++;
        counts.no_such_response += answers->answer[i].outcome == NO_SUCH && answers->answer[i].told.opcode == 1;
    }
}

void print_counts(FILE *out)
{
    char since[TIME_SIZE];
    uint64_t refused = 0, *of = counts.outcomes;
    for (int i = 0; i <= LLQ_ROOM; i++)
        refused += counts.refused[i];
    fprintf(out, "counters since %s:\n", time_text(counts.since, since));
    fprintf(out, "  datagrams  %" PRIu64 ": answered %" PRIu64 ", refused %" PRIu64 ", link-local %" PRIu64 "\n", counts.datagrams,
            counts.answered, refused, counts.link_local);
    fputs("  refused  ", out);
    for (int i = 1; i <= LLQ_ROOM; i++)
        if (counts.refused[i])
            fprintf(out, "  %d: %" PRIu64, i, counts.refused[i]);
    fputs(refused ? "\n" : "  none\n", out);
    fprintf(out, "  setup      granted %" PRIu64 ", granted before %" PRIu64 ", full %" PRIu64 "\n", of[GRANTED], of[GRANTED_BEFORE],
            of[FULL]);
    fprintf(out, "  response   established %" PRIu64 ", no such LLQ %" PRIu64 "\n", of[ESTABLISHED], counts.no_such_response);
    fprintf(out, "  refresh    renewed %" PRIu64 ", ended %" PRIu64 ", no such LLQ %" PRIu64 "\n", of[RENEWED], of[ENDED],
            of[NO_SUCH] - counts.no_such_response);
    fprintf(out, "  other      format error %" PRIu64 ", version %" PRIu64 "\n", of[FORMAT] + counts.mismatched, of[VERSION]);
    fprintf(out, "  entries    run out %" PRIu64 "\n", counts.run_out);
    fprintf(out, "  replies    held %" PRIu64 ", dropped %" PRIu64 ", not sent %" PRIu64 "\n", counts.held, counts.dropped, counts.unsent);
    fprintf(out, "  saves      %" PRIu64 ", failed %" PRIu64 ", longest %.3f s\n", counts.saves, counts.saves_failed, counts.longest_save);
}
