/*
 * The quotes of a tender, in pounds and pence, by the rate set that the processes of a ticket's run have decided.
 *
 *   quote TICKET COSTS           for each process of the ticket's run its quote, or that it has crashed and gives none; and
 *                                at last the quote of all that have decided, which is one
 *   quote --state STATE COSTS    the quote of one process part, by its nine bytes, in 18 digits: a desk has no ticket
 *
 * TICKET and COSTS are names of files. COSTS has the direct cost of each tender line, a whole number of pence, on a line by
 * itself, with or without blanks around it; blank lines and lines that begin with # are passed over. A line with anything
 * else, or with a number of more than 64 bits, is told on standard error, and nothing is quoted. A refusal is printed with its
 * line and its text. The exit status is 0 if there is a quote, 1 if ticket, state or costs are refused, and 2 if something
 * cannot be read or written or a line of COSTS is wrong.
 */
#include <errno.h>
#include <inttypes.h>
#include <stdbool.h>
#include <stdio.h>
#include <string.h>

#include "agreement.h"

enum status { QUOTED = 0, REFUSED = 1, FAILED = 2 };

/* The refusals that are told apart here: of how many costs there are, of a cost, and of a process that gives no quote. */
enum { WRONG_COUNT = 14, TOO_HIGH = 15, NO_QUOTE = 16 };

/* What a line of the costs is. */
enum line { COST, PASSED_OVER, NO_NUMBER, TOO_LARGE, NO_LINE };

/* The costs of a file, each with its line there; one more than the most, which is enough to have them refused. */
struct costs {
    const char *name;
    size_t count;
    uint64_t pence[UC_MOST_COSTS + 1];
    unsigned line[UC_MOST_COSTS + 1];
};

static int past_blanks(FILE *file, int c)
{
    while (c == ' ' || c == '\t' || c == '\r')
        c = getc(file);
    return c;
}

static int past_line(FILE *file, int c)
{
    while (c != '\n' && c != EOF)
        c = getc(file);
    return c;
}

/* Reads a line of any length, to its end. */
static enum line read_line(FILE *file, uint64_t *pence)
{
    bool digits = false, fits = true;

    int c = getc(file);
    if (c == EOF)
        return NO_LINE;
    c = past_blanks(file, c);
    if (c == '#')
        c = past_line(file, c);
    for (*pence = 0; c >= '0' && c <= '9'; c = getc(file)) {
        unsigned digit = (unsigned)c - '0';
        digits = true;
        fits = fits && *pence <= (UINT64_MAX - digit) / 10;
        *pence = *pence * 10 + digit;
    }
    c = past_blanks(file, c);
    if (past_line(file, c) != c)
        return NO_NUMBER;
    return !digits ? PASSED_OVER : fits ? COST : TOO_LARGE;
}

/* Reads costs up to one more than the most; what a file has wrong is told. */
static bool read_lines(FILE *file, struct costs *costs)
{
    for (unsigned line = 1; costs->count <= UC_MOST_COSTS; line++) {
        uint64_t pence;
        enum line read = read_line(file, &pence);
        if (ferror(file)) {
            fprintf(stderr, "quote: %s: %s\n", costs->name, strerror(errno));
            return false;
        }
        if (read == NO_NUMBER || read == TOO_LARGE) {
            const char *wrong = read == TOO_LARGE ? "a number of more than 64 bits" : "not a whole number of pence";
            fprintf(stderr, "quote: %s: line %u: %s\n", costs->name, line, wrong);
            return false;
        }
        if (read == NO_LINE)
            break;
        if (read == COST) {
            costs->pence[costs->count] = pence;
            costs->line[costs->count++] = line;
        }
    }
    return true;
}

static FILE *opened(const char *name)
{
    FILE *file = fopen(name, "rb");
    if (!file)
        fprintf(stderr, "quote: %s: %s\n", name, strerror(errno));
    return file;
}

static bool read_costs(const char *name, struct costs *costs)
{
    FILE *file = opened(name);
    if (!file)
        return false;
    costs->name = name;
    bool read = read_lines(file, costs);
    fclose(file);
    return read;
}

/* Reads a ticket, but no more than one byte beyond the longest: that is enough to have it refused. */
static bool read_ticket(const char *name, uint8_t ticket[UC_TICKET_BYTES + 1], size_t *length)
{
    FILE *file = opened(name);
    if (!file)
        return false;
    *length = fread(ticket, 1, UC_TICKET_BYTES + 1, file);
    bool read = !ferror(file);
    if (!read)
        fprintf(stderr, "quote: %s: %s\n", name, strerror(errno));
    fclose(file);
    return read;
}

/* Reads a state from its digits, but no more than one byte beyond the nine. */
static bool read_state(const char *digits, uint8_t state[UC_STATE_BYTES + 1], size_t *length)
{
    size_t count = strlen(digits);
    if (count % 2 || strspn(digits, "0123456789ABCDEFabcdef") != count) {
        fprintf(stderr, "quote: %s: not bytes, in two digits each\n", digits);
        return false;
    }
    for (*length = 0; *length < count / 2 && *length <= UC_STATE_BYTES; ++*length)
        state[*length] = (uint8_t)uc_line_byte((const uint8_t *)digits, (unsigned)*length);
    return true;
}

/* Where in its file the first cost stands that is too high; 0 if there is none. */
static unsigned line_too_high(const struct costs *costs)
{
    for (size_t i = 0; i < costs->count; i++)
        if (costs->pence[i] > UC_HIGHEST_COST)
            return costs->line[i];
    return 0;
}

/* Prints a refusal, at a line, of what has this name; those of the costs with their own name and line. */
static enum status print_refusal(const char *name, const struct costs *costs, unsigned refusal, unsigned line)
{
    if (refusal == WRONG_COUNT || refusal == TOO_HIGH)
        name = costs->name;
    if (refusal == TOO_HIGH)
        line = line_too_high(costs);
    printf("%s: refusal %u", name, refusal);
    if (line)
        printf(" at line %u", line);
    printf(": %s\n", uc_refusal_text(refusal));
    return REFUSED;
}

static void print_pence(uint64_t pence) { printf("%" PRIu64 ".%02" PRIu64 "\n", pence / 100, pence % 100); }

/*
 * The quote of each process of a ticket's run; how many processes there are, the first line of an accepted ticket says. A
 * refused call leaves the quote of the process before, so that in the end it is that of the last that has decided.
 */
static enum status print_quotes(const char *name, const struct costs *costs)
{
    static uint8_t ticket[UC_TICKET_BYTES + 1];
    uint64_t pence = 0;
    size_t length;

    if (!read_ticket(name, ticket, &length))
        return FAILED;
    for (unsigned process = 1, n = 1; process <= n; process++) {
        uint64_t answer = uc_quote(ticket, length, costs->pence, costs->count, process, &pence);
        unsigned refusal = uc_quote_refusal(answer);
        if (refusal && refusal != NO_QUOTE)
            return print_refusal(name, costs, refusal, uc_quote_line(answer));
        n = uc_line_byte(ticket, UC_HEADER_LINE_N);
        printf("process %2u: ", process);
        if (refusal)
            puts("no quote, it has crashed");
        else
            print_pence(pence);
    }
    printf("%zu tender line%s: ", costs->count, costs->count == 1 ? "" : "s");
    print_pence(pence);
    return QUOTED;
}

/* The quote of one process part. */
static enum status print_price(const char *digits, const struct costs *costs)
{
    uint8_t state[UC_STATE_BYTES + 1];
    uint64_t pence;
    size_t length;

    if (!read_state(digits, state, &length))
        return FAILED;
    unsigned refusal = uc_price_refusal(uc_price(state, length, costs->pence, costs->count, &pence));
    if (refusal)
        return print_refusal(digits, costs, refusal, 0);
    printf("process %2u: ", state[UC_STATE_PROCESS]);
    print_pence(pence);
    return QUOTED;
}

int main(int count, char **words)
{
    static struct costs costs;

    bool by_state = count == 4 && strcmp(words[1], "--state") == 0;
    if (count != 3 && !by_state) {
        fprintf(stderr, "usage: quote TICKET COSTS\n       quote --state STATE COSTS\n");
        return FAILED;
    }
    if (!read_costs(words[count - 1], &costs))
        return FAILED;
    enum status status = by_state ? print_price(words[2], &costs) : print_quotes(words[1], &costs);
    if (fflush(stdout)) {
        perror("quote: standard output");
        return FAILED;
    }
    return (int)status;
}
