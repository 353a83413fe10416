/*
 * A line of a report page for each ticket: the round in which its run settled.
 *
 * Its arguments are names of files with a ticket in each. Of a ticket that is accepted it prints the first round at whose
 * end all processes that have not crashed hold one value; that is one number, so that every page names the same round. Of
 * a ticket that is refused it prints the refusal with its line and its text. The exit status is 0 if every ticket is
 * accepted, 1 if one is refused, and 2 if a file cannot be read or the page cannot be written.
 */
#include <errno.h>
#include <stdbool.h>
#include <stdio.h>
#include <string.h>

#include "agreement.h"

/* The exit status, the worst of all tickets. */
enum status { SETTLED = 0, REFUSED = 1, FAILED = 2 };

/* Reads a file, but no more than one byte beyond the longest ticket: that is enough to have it refused. */
static bool read_ticket(const char *name, uint8_t ticket[UC_TICKET_BYTES + 1], size_t *length)
{
    FILE *file = fopen(name, "rb");
    if (!file)
        return false;
    *length = fread(ticket, 1, UC_TICKET_BYTES + 1, file);
    bool read = !ferror(file);
    int reason = errno;
    fclose(file);
    errno = reason;
    return read;
}

/* Prints the line of one ticket. */
static enum status report(const char *name)
{
    static uint8_t ticket[UC_TICKET_BYTES + 1];
    size_t length;

    if (!read_ticket(name, ticket, &length)) {
        fprintf(stderr, "report: %s: %s\n", name, strerror(errno));
        return FAILED;
    }
    uint64_t answer = uc_settle(ticket, length);
    unsigned refusal = uc_settle_refusal(answer), line = uc_settle_line(answer);
    if (!refusal) {
        printf("%s: settled in round %u\n", name, (unsigned)answer);
        return SETTLED;
    }
    printf("%s: refusal %u", name, refusal);
    if (line)
        printf(" at line %u", line);
    printf(": %s\n", uc_refusal_text(refusal));
    return REFUSED;
}

int main(int count, char **names)
{
    enum status worst = SETTLED;

    if (count < 2) {
        fprintf(stderr, "usage: report TICKET..\n");
        return FAILED;
    }
    for (int i = 1; i < count; i++) {
        enum status status = report(names[i]);
        if (status > worst)
            worst = status;
        if (fflush(stdout)) {
            perror("report: standard output");
            return FAILED;
        }
    }
    return worst;
}
