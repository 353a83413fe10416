// Calls every function of the library once on each ticket named, each by itself under callgrind, which counts the instructions of the call.
// tests/costs-test runs it and reads the counts: each dump has the name of the call and of what it is called on.
#include <stdio.h>
#include <stdlib.h>
#include <string.h>
#include <valgrind/callgrind.h>
#include "agreement.h"

enum { MOST_BYTES = 8192, COSTS = 3 };

static uint8_t ticket[MOST_BYTES], output[MOST_BYTES];
static size_t ticket_len;
static const uint64_t costs[COSTS] = {12500, 1000000000, 1};
static volatile uint64_t answer;  // so that no call is left out

// The instructions of one call, under its name and what it is called on.
#define COUNTED(name, on, call)                               \
    do {                                                      \
        char both[200];                                       \
        snprintf(both, sizeof both, "%s %.127s", name, on);   \
        CALLGRIND_ZERO_STATS;                                 \
        answer = call;                                        \
        CALLGRIND_DUMP_STATS_AT(both);                        \
    } while (0)

static void count_ticket_calls(const char *of)
{
    uint64_t quote;
    COUNTED("uc_run", of, uc_run(ticket, ticket_len, output, sizeof output));
    COUNTED("uc_settle", of, uc_settle(ticket, ticket_len));
    COUNTED("uc_reason", of, uc_reason(ticket, ticket_len, 1, 1));
    COUNTED("uc_reasons", of, uc_reasons(ticket, ticket_len, output, sizeof output));
    COUNTED("uc_quote", of, uc_quote(ticket, ticket_len, costs, COSTS, 1, &quote));
}

// Process 1 coordinates; process 2 hears data and commit, and is then closed once more; process 3 hears data, and then nothing.
static void count_part_calls(void)
{
    uint8_t first[UC_STATE_BYTES], second[UC_STATE_BYTES], frames[UC_SPEECH_BYTES];
    uint64_t quote;
    COUNTED("uc_start", "process-1", uc_start(1, 4, 2, 10, first, sizeof first));
    answer = uc_start(2, 4, 2, 20, second, sizeof second);
    COUNTED("uc_speak", "another-round", uc_speak(second, sizeof second, frames, sizeof frames));
    COUNTED("uc_speak", "own-round", uc_speak(first, sizeof first, frames, sizeof frames));
    COUNTED("uc_close", "own-round", uc_close(first, sizeof first, frames, 0));
    COUNTED("uc_close", "data-and-commit", uc_close(second, sizeof second, frames, sizeof frames));
    COUNTED("uc_close", "decided-before", uc_close(second, sizeof second, frames, 0));
    COUNTED("uc_price", "three-lines", uc_price(first, sizeof first, costs, COSTS, &quote));
    answer = uc_start(3, 4, 2, 30, second, sizeof second);
    COUNTED("uc_close", "data", uc_close(second, sizeof second, frames, UC_DATA_BYTES));
    COUNTED("uc_close", "nothing", uc_close(second, sizeof second, frames, 0));
}

int main(int count, char **names)
{
    for (int i = 1; i < count; i++) {
        FILE *file = fopen(names[i], "rb");
        if (!file) {
            perror(names[i]);
            return 2;
        }
        ticket_len = fread(ticket, 1, sizeof ticket, file);
        if (!feof(file) || ferror(file)) {
            fprintf(stderr, "%s: not read, or longer than %d bytes\n", names[i], MOST_BYTES);
            return 2;
        }
        fclose(file);
        const char *slash = strrchr(names[i], '/');
        count_ticket_calls(slash ? slash + 1 : names[i]);
    }
    count_part_calls();
    return 0;
}
