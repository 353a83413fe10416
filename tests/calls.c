/*
 * Calls the library as a C program does: a request on each line of standard input, its answer on a line of standard
 * output, at once, so that a request may depend on the answers before. tests/library-test sends it the vectors of
 * tests/vectors/.
 *
 *   run TICKET OUTPUT    settle TICKET    reason PROCESS ROUND TICKET    reasons TICKET OUTPUT
 *   start PROCESS N T VALUE STATE    speak STATE OUTPUT    close STATE HEARD
 *   quote PROCESS TICKET COSTS QUOTE    price STATE COSTS QUOTE
 *   each N TICKET OUTPUT    a call of reason for each byte of OUTPUT, which it is put into: N processes to a round
 *
 * Bytes are in hexadecimal digits, `-` for none; numbers are decimal, but those that are lent, COSTS and QUOTE, are in 16
 * hexadecimal digits each. The answer is the refusal, its line (0 for the process part), what was answered, and then what was
 * lent, in the order of the request. Each is lent between guards: a call that touches those ends the program with status 3.
 */
#include <inttypes.h>
#include <stdio.h>
#include <stdlib.h>
#include <string.h>

#include "agreement.h"

enum { GUARD = 64, GUARD_BYTE = 0x5A, LONGEST = 528000, LENT_AT_MOST = 3 };

/* Bytes or numbers between guards: how many there are, and how many bytes each has. */
struct lent {
    union {
        uint8_t bytes[GUARD + LONGEST + GUARD];
        uint64_t numbers[(GUARD + LONGEST + GUARD) / sizeof(uint64_t)];
    } block;
    size_t length, size;
};

static struct lent lent[LENT_AT_MOST];
static unsigned lents;

static void fail(const char *words)
{
    fprintf(stderr, "calls: %s\n", words);
    exit(3);
}

static uint8_t *bytes(struct lent *l) { return l->block.bytes + GUARD; }
static uint64_t *numbers(struct lent *l) { return l->block.numbers + GUARD / sizeof(uint64_t); }

/* The next word of the request. */
static const char *word(void)
{
    const char *found = strtok(NULL, " \n");
    if (!found)
        fail("a word is missing");
    return found;
}

/* What some hexadecimal digits stand for, at most 16. */
static uint64_t hexadecimal(const char *digits, size_t count)
{
    char alone[17] = "", *end;
    memcpy(alone, digits, count);
    uint64_t value = strtoull(alone, &end, 16);
    if (end != alone + count)
        fail("not a digit");
    return value;
}

/* The next word, as bytes or as numbers of 8 bytes, between guards. */
static struct lent *lend_each(size_t size)
{
    const char *digits = word();
    struct lent *l = &lent[lents++];
    l->size = size;
    l->length = strcmp(digits, "-") == 0 ? 0 : strlen(digits) / (2 * size);
    if (l->length * size > LONGEST)
        fail("too many bytes");
    memset(l->block.bytes, GUARD_BYTE, GUARD);
    memset(bytes(l) + l->length * size, GUARD_BYTE, GUARD);
    for (size_t i = 0; i < l->length; i++) {
        uint64_t one = hexadecimal(digits + 2 * size * i, 2 * size);
        if (size == 1)
            bytes(l)[i] = (uint8_t)one;
        else
            numbers(l)[i] = one;
    }
    return l;
}

static struct lent *lend(void) { return lend_each(1); }
static struct lent *lend_numbers(void) { return lend_each(sizeof(uint64_t)); }

static uint64_t decimal(void) { return strtoull(word(), NULL, 10); }

static void check_guards(struct lent *l)
{
    for (size_t i = 0; i < GUARD; i++)
        if (l->block.bytes[i] != GUARD_BYTE || bytes(l)[l->length * l->size + i] != GUARD_BYTE)
            fail("bytes that were not lent are changed");
}

static void answer(unsigned refusal, unsigned line, uint64_t answered)
{
    printf("%u %u %" PRIu64, refusal, line, answered);
    for (unsigned i = 0; i < lents; i++) {
        check_guards(&lent[i]);
        putchar(' ');
        for (size_t k = 0; k < lent[i].length; k++)
            printf("%0*" PRIx64, (int)(2 * lent[i].size), lent[i].size == 1 ? bytes(&lent[i])[k] : numbers(&lent[i])[k]);
        if (lent[i].length == 0)
            putchar('-');
    }
    putchar('\n');
}

static void run(void)
{
    struct lent *ticket = lend(), *output = lend();
    uint64_t a = uc_run(bytes(ticket), ticket->length, bytes(output), output->length);
    answer(uc_run_refusal(a), uc_run_line(a), a);
}

static void settle(void)
{
    struct lent *ticket = lend();
    uint64_t a = uc_settle(bytes(ticket), ticket->length);
    answer(uc_settle_refusal(a), uc_settle_line(a), a);
}

static void reason(void)
{
    uint64_t process = decimal(), round = decimal();
    struct lent *ticket = lend();
    uint64_t a = uc_reason(bytes(ticket), ticket->length, process, round);
    answer(uc_reason_refusal(a), uc_reason_line(a), a);
}

static void reasons(void)
{
    struct lent *ticket = lend(), *output = lend();
    uint64_t a = uc_reasons(bytes(ticket), ticket->length, bytes(output), output->length);
    answer(uc_reasons_refusal(a), uc_reasons_line(a), a);
}

static void each_reason(void)
{
    uint64_t n = decimal();
    struct lent *ticket = lend(), *output = lend();
    for (size_t i = 0; i < output->length; i++) {
        uint64_t a = uc_reason(bytes(ticket), ticket->length, i % n + 1, i / n + 1);
        if (a > UINT8_MAX) {
            answer(uc_reason_refusal(a), uc_reason_line(a), a);
            return;
        }
        bytes(output)[i] = (uint8_t)a;
    }
    answer(0, 0, output->length);
}

static void quote(void)
{
    uint64_t process = decimal();
    struct lent *ticket = lend(), *costs = lend_numbers(), *priced = lend_numbers();
    uint64_t a = uc_quote(bytes(ticket), ticket->length, numbers(costs), costs->length, process, numbers(priced));
    answer(uc_quote_refusal(a), uc_quote_line(a), a);
}

static void price(void)
{
    struct lent *state = lend(), *costs = lend_numbers(), *priced = lend_numbers();
    uint64_t a = uc_price(bytes(state), state->length, numbers(costs), costs->length, numbers(priced));
    answer(uc_price_refusal(a), 0, a);
}

static void start(void)
{
    uint64_t process = decimal(), n = decimal(), t = decimal(), value = decimal();
    struct lent *state = lend();
    uint64_t a = uc_start(process, n, t, (uint32_t)value, bytes(state), state->length);
    answer(uc_start_refusal(a), 0, a);
}

static void speak(void)
{
    struct lent *state = lend(), *output = lend();
    uint64_t a = uc_speak(bytes(state), state->length, bytes(output), output->length);
    answer(uc_speak_refusal(a), 0, a);
}

static void close_round(void)
{
    struct lent *state = lend(), *heard = lend();
    uint64_t a = uc_close(bytes(state), state->length, bytes(heard), heard->length);
    answer(uc_close_refusal(a), 0, a);
}

int main(void)
{
    static const struct {
        const char *name;
        void (*make)(void);
    } calls[] = {{"run", run}, {"settle", settle}, {"reason", reason}, {"reasons", reasons}, {"each", each_reason},
                 {"quote", quote}, {"price", price}, {"start", start}, {"speak", speak}, {"close", close_round}};
    static char request[4 * LONGEST + 256];

    if (setvbuf(stdout, NULL, _IOLBF, BUFSIZ))
        fail("standard output is not written line by line");
    while (fgets(request, sizeof request, stdin)) {
        const char *name = strtok(request, " \n");
        size_t i = 0;
        while (i < sizeof calls / sizeof *calls && name && strcmp(calls[i].name, name) != 0)
            i++;
        if (!name || i == sizeof calls / sizeof *calls)
            fail("no such call");
        lents = 0;
        calls[i].make();
    }
    return ferror(stdin) || fflush(stdout) ? 2 : 0;
}
