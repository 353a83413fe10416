/*
 * The reason beside each process in each round of a ticket's run.
 *
 *   reasons [--legend] TICKET..    for each ticket, in files of these names, a row of reasons for each round, a column for
 *                                  each process; with --legend at last what the numbers mean
 *   reasons - < TICKET             for another program: for each round a line of digits, one for each process; or, for a
 *                                  ticket that is refused, the line that simulate writes, 1F, number, line
 *
 * All reasons of a ticket come from one call, which costs one run. A refused ticket has its refusal with its line and its
 * text. The exit status is 0 if every ticket is accepted, 1 if one is refused, and 2 if something cannot be read or written.
 */
#include <errno.h>
#include <stdbool.h>
#include <stdio.h>
#include <string.h>

#include "agreement.h"

/* The exit status, the worst of all tickets. */
enum status { ACCEPTED = 0, REFUSED = 1, FAILED = 2 };

/* The reasons of a run: that of process p in round r stands at place (r - 1) * n + p - 1. */
struct reasons {
    uint64_t answer;
    size_t n, rounds;
    uint8_t of[UC_REASONS_BYTES];
};

/* Reads a ticket, but no more than one byte beyond the longest: that is enough to have it refused. */
static bool read_ticket(FILE *file, uint8_t ticket[UC_TICKET_BYTES + 1], size_t *length)
{
    *length = fread(ticket, 1, UC_TICKET_BYTES + 1, file);
    return !ferror(file);
}

static bool read_named(const char *name, uint8_t ticket[UC_TICKET_BYTES + 1], size_t *length)
{
    FILE *file = fopen(name, "rb");
    if (!file)
        return false;
    bool read = read_ticket(file, ticket, length);
    int error = errno;
    fclose(file);
    errno = error;
    return read;
}

/* Asks for the reasons of a ticket; how many processes there are, the first line of an accepted ticket says. */
static void ask(const uint8_t *ticket, size_t length, struct reasons *reasons)
{
    reasons->answer = uc_reasons(ticket, length, reasons->of, sizeof reasons->of);
    if (uc_reasons_refusal(reasons->answer))
        return;
    reasons->n = uc_line_byte(ticket, UC_HEADER_LINE_N);
    reasons->rounds = (size_t)reasons->answer / reasons->n;
}

/* The reasons of one round, each behind a text. */
static void print_round(const struct reasons *reasons, size_t round, const char *before)
{
    for (size_t p = 1; p <= reasons->n; p++)
        printf("%s%u", before, (unsigned)reasons->of[(round - 1) * reasons->n + p - 1]);
    putchar('\n');
}

static enum status print_page(const char *name)
{
    static uint8_t ticket[UC_TICKET_BYTES + 1];
    static struct reasons reasons;
    size_t length;

    if (!read_named(name, ticket, &length)) {
        fprintf(stderr, "reasons: %s: %s\n", name, strerror(errno));
        return FAILED;
    }
    ask(ticket, length, &reasons);
    unsigned refusal = uc_reasons_refusal(reasons.answer), line = uc_reasons_line(reasons.answer);
    if (refusal) {
        printf("%s: refusal %u", name, refusal);
        if (line)
            printf(" at line %u", line);
        printf(": %s\n", uc_refusal_text(refusal));
        return REFUSED;
    }
    printf("%s: processes 1 to %zu\n", name, reasons.n);
    for (size_t round = 1; round <= reasons.rounds; round++) {
        printf("  round %2zu:", round);
        print_round(&reasons, round, " ");
    }
    return ACCEPTED;
}

/* For another program: digits alone. */
static enum status print_digits(void)
{
    static uint8_t ticket[UC_TICKET_BYTES + 1];
    static struct reasons reasons;
    size_t length;

    if (!read_ticket(stdin, ticket, &length)) {
        perror("reasons: standard input");
        return FAILED;
    }
    ask(ticket, length, &reasons);
    if (uc_reasons_refusal(reasons.answer)) {
        printf("%02X%02X%04X\n", UC_KIND_REFUSAL, uc_reasons_refusal(reasons.answer), uc_reasons_line(reasons.answer));
        return REFUSED;
    }
    for (size_t round = 1; round <= reasons.rounds; round++)
        print_round(&reasons, round, "");
    return ACCEPTED;
}

static void print_legend(void)
{
    for (unsigned reason = UC_REASON_COORDINATED; reason <= UC_REASON_ENDED_BEFORE; reason++)
        printf("%u  %s\n", reason, uc_reason_text(reason));
}

/* Whether all that was printed has been written. */
static bool written(void)
{
    if (fflush(stdout) == 0)
        return true;
    perror("reasons: standard output");
    return false;
}

int main(int count, char **words)
{
    bool legend = count > 1 && strcmp(words[1], "--legend") == 0;
    int first = legend ? 2 : 1;
    enum status worst = ACCEPTED;

    bool digits = count == 2 && strcmp(words[1], "-") == 0;
    if (count <= first || (words[first][0] == '-' && !digits)) {
        fprintf(stderr, "usage: reasons [--legend] TICKET..\n       reasons - < TICKET\n");
        return FAILED;
    }
    for (int i = first; i < count; i++) {
        enum status status = digits ? print_digits() : print_page(words[i]);
        if (status > worst)
            worst = status;
        if (!written())
            return FAILED;
    }
    if (legend)
        print_legend();
    if (!written())
        return FAILED;
    return (int)worst;
}
