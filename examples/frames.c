/*
 * Charges the frames of a run that the switch carried to the processes that sent them.
 *
 * It reads a ticket on standard input, runs it, and prints how many data frames and commits of each process were carried,
 * crashed ones included, and their sums, which are the counts of the result's last line. Frames to processes that had
 * crashed or decided are dropped, and nobody is charged for them. A ticket that is refused goes to standard error with its
 * number and line, and exit status 1.
 */
#include <stdio.h>

#include "agreement.h"

int main(void)
{
    static uint8_t ticket[UC_TICKET_BYTES + 1], result[UC_RESULT_BYTES];
    unsigned all_data = 0, all_commits = 0;

    size_t length = fread(ticket, 1, sizeof ticket, stdin);
    if (ferror(stdin)) {
        perror("frames");
        return 2;
    }
    uint64_t answer = uc_run(ticket, length, result, sizeof result);
    unsigned refusal = uc_run_refusal(answer);
    if (refusal) {
        fprintf(stderr, "frames: refusal %u at line %u: %s\n", refusal, uc_run_line(answer), uc_refusal_text(refusal));
        return 1;
    }
    printf("process    data commits  frames\n");
    for (const uint8_t *line = result; uc_line_byte(line, 0) == UC_KIND_PROCESS; line += UC_PROCESS_LINE_BYTES) {
        unsigned data = uc_line_byte(line, UC_PROCESS_LINE_DATA);
        unsigned commits = uc_line_byte(line, UC_PROCESS_LINE_COMMITS);
        printf("%7u %7u %7u %7u\n", uc_line_byte(line, UC_PROCESS_LINE_PROCESS), data, commits, data + commits);
        all_data += data;
        all_commits += commits;
    }
    printf("    all %7u %7u %7u\n", all_data, all_commits, all_data + all_commits);
    return 0;
}
