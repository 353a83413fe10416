/*
 * A host of separate process parts over an in-memory switch, which calls them in any order.
 *
 *   host [-s] [-v]                      one tender, its ticket on standard input; processes are called from 1 upward
 *   host [-s] [-v] SEED                 the same, but who is called next is drawn; SEED is a decimal number below 2^64
 *   host [-s] [-v] SEED FIRST SECOND    two tenders, their tickets in files; whose call comes next is drawn, too
 *
 * It asks the library whether a ticket is accepted, and then does what desks on a switch do (agreement.h, THE HOST'S
 * OBLIGATIONS: the switch is in memory, so that a frame has left and arrived at once). It starts a part for each process.
 * In each round every part that is up and open is called to speak, and what the ticket lets through of the frames that it
 * yields goes to the switch; when all have spoken, each of them is called to close on what it heard, unless the ticket has
 * it crash. Within that the order is free: by a seed it is drawn for speaking and again for closing, in each round, and
 * decided parts are called at times, too, and answer 11. The switch drops frames to parts that have crashed or decided,
 * carries the others and counts them for the part that sent them. Two tenders share nothing, and their calls are mixed.
 *
 * It prints the process lines, which are what `simulate` prints without its last line, whatever the seed; with -s the
 * nine bytes of each part instead. Between two tenders stands an empty line. With -v it tells on standard error every round
 * that begins, every call with its process and, if it is refused, its refusal, and every process that crashes.
 *
 * The exit status is 0 if the tenders were played; 1 if a ticket is refused, which is told on standard error with number
 * and line; 2 if the arguments are wrong, or something cannot be read or written; 3 if a call of an open part is refused, or
 * one of a decided part is not refused with 11.
 */
#include <errno.h>
#include <inttypes.h>
#include <stdbool.h>
#include <stdio.h>
#include <stdlib.h>
#include <string.h>

#include "agreement.h"

enum status { PLAYED = 0, REFUSED = 1, FAILED = 2, BROKEN = 3 };
enum { MOST_TENDERS = 2, NOT_OPEN = 11 };

/* A failure line; round 0 for a process that has none. */
struct fault {
    unsigned round, step, count;
    uint64_t reached;
};

struct ticket {
    unsigned n, t;
    uint32_t value[UC_MOST_PROCESSES + 1];
    struct fault fault[UC_MOST_PROCESSES + 1];
};

/*
 * A process part: its nine bytes, the round in which it crashed, 0 while it is up; the frames of it that were carried; and
 * what it has heard in this round, which is kept here from when others speak until it closes.
 */
struct part {
    uint8_t state[UC_STATE_BYTES];
    unsigned crashed, data, commits;
    uint8_t heard[UC_MOST_PROCESSES * UC_SPEECH_BYTES];
    size_t length;
};

/* What the parts of a tender are called to do: to start, and in each round to speak and to close. */
enum phase { NOT_BEGUN, STARTING, SPEAKING, CLOSING };

/*
 * A tender: its ticket and parts, its round and phase, and the processes that are still to be called in that phase. Name is
 * its ticket's; the label stands before each call that is told, and is NULL if none is.
 */
struct tender {
    const char *name, *label;
    struct ticket ticket;
    struct part part[UC_MOST_PROCESSES + 1];
    unsigned round;
    enum phase phase;
    unsigned waiting[UC_MOST_PROCESSES], count;
};

/* ---- The ticket: what it says of a process, and what it lets through. */

static const uint8_t *next_line(const uint8_t *line)
{
    while (*line++ != '\n')
        ;
    return line;
}

/* The number in some bytes of a line. */
static uint64_t number(const uint8_t *line, unsigned place, unsigned bytes)
{
    uint64_t value = 0;
    for (unsigned i = 0; i < bytes; i++)
        value = value << 8 | uc_line_byte(line, place + i);
    return value;
}

static void take_line(const uint8_t *line, struct ticket *ticket)
{
    unsigned p = uc_line_byte(line, 1);
    switch (uc_line_byte(line, 0)) {
    case UC_KIND_HEADER:
        ticket->n = uc_line_byte(line, UC_HEADER_LINE_N);
        ticket->t = uc_line_byte(line, 2);
        break;
    case UC_KIND_PROPOSAL:
        ticket->value[p] = (uint32_t)number(line, 2, 4);
        break;
    case UC_KIND_FAILURE:
        ticket->fault[p] = (struct fault){
            .round = uc_line_byte(line, 2),
            .step = uc_line_byte(line, 3),
            .reached = number(line, 4, 8),
            .count = uc_line_byte(line, 12),
        };
        break;
    }
}

/* Takes an accepted ticket's text apart. */
static void take_apart(const uint8_t *text, struct ticket *ticket)
{
    for (const uint8_t *line = text; uc_line_byte(line, 0) != UC_KIND_END; line = next_line(line))
        take_line(line, ticket);
}

/* How many bytes of what process q says in round r are let out to process p, which is above it: none, the data frame, or both
 * frames. */
static size_t let_through(const struct ticket *ticket, unsigned q, unsigned r, unsigned p)
{
    const struct fault *fault = &ticket->fault[q];
    if (fault->round != r)
        return UC_SPEECH_BYTES;
    switch (fault->step) {
    case UC_STEP_BEFORE_SENDING:
        return 0;
    case UC_STEP_DURING_DATA:
        return (fault->reached >> (p - 1) & 1) ? UC_DATA_BYTES : 0;
    default: /* commits go to n, n - 1 and so on downward */
        return ticket->n - p < fault->count ? UC_SPEECH_BYTES : UC_DATA_BYTES;
    }
}

/* ---- What a call does, whenever it comes. */

static bool is_open(const struct part *part) { return part->state[UC_STATE_MARK] == UC_MARK_OPEN; }

/* Whether a part has to be called in a round. */
static bool takes_part(const struct part *part) { return !part->crashed && is_open(part); }

/*
 * The switch, with what process q says: frames to parts that have crashed or decided are dropped, the others are carried
 * and counted. All parts speak before any closes or crashes, so that each is still what it was when the round began,
 * whoever has spoken before; and frames to one that crashes in this round are carried.
 */
static void carry(struct tender *tender, unsigned q, const uint8_t *said)
{
    struct part *part = tender->part;
    for (unsigned p = q + 1; p <= tender->ticket.n; p++) {
        size_t reach = let_through(&tender->ticket, q, tender->round, p);
        if (!takes_part(&part[p]))
            continue;
        memcpy(part[p].heard + part[p].length, said, reach);
        part[p].length += reach;
        if (reach >= UC_DATA_BYTES)
            part[q].data++;
        if (reach == UC_SPEECH_BYTES)
            part[q].commits++;
    }
}

/* Tells a call with its process and, if it is refused, its refusal; or that a process crashes, or a round begins. */
static void tell(const struct tender *tender, const char *what, unsigned which, unsigned refusal)
{
    if (!tender->label)
        return;
    if (refusal)
        fprintf(stderr, "%s%s %u: %u\n", tender->label, what, which, refusal);
    else
        fprintf(stderr, "%s%s %u\n", tender->label, what, which);
}

/* Whether a call was refused as it should be: that of an open part not at all, that of a decided one with 11. */
static bool as_promised(const struct tender *tender, const char *call, unsigned p, bool open, unsigned refusal)
{
    unsigned promised = open ? 0 : NOT_OPEN;
    tell(tender, call, p, refusal);
    if (refusal != promised)
        fprintf(stderr, "host: %s: %s of process %u: refusal %u instead of %u\n", tender->name, call, p, refusal, promised);
    return refusal == promised;
}

static bool start(struct tender *tender, unsigned p)
{
    const struct ticket *ticket = &tender->ticket;
    uint64_t answer = uc_start(p, ticket->n, ticket->t, ticket->value[p], tender->part[p].state, UC_STATE_BYTES);
    return as_promised(tender, "start", p, true, uc_start_refusal(answer));
}

/* What a part yields is sent at once: by the time that others close it may have closed, and would yield nothing. */
static bool speak(struct tender *tender, unsigned q)
{
    const struct part *part = &tender->part[q];
    uint8_t said[UC_SPEECH_BYTES];
    uint64_t answer = uc_speak(part->state, UC_STATE_BYTES, said, sizeof said);
    if (answer == UC_SPEECH_BYTES)
        carry(tender, q, said);
    return as_promised(tender, "speak", q, is_open(part), uc_speak_refusal(answer));
}

/* A part that crashes in this round does not close: it keeps the bytes with which the round began. */
static bool close_or_crash(struct tender *tender, unsigned p)
{
    struct part *part = &tender->part[p];
    bool open = is_open(part);
    if (open && tender->ticket.fault[p].round == tender->round) {
        part->crashed = tender->round;
        tell(tender, "crash", p, 0);
        return true;
    }
    uint64_t answer = uc_close(part->state, UC_STATE_BYTES, part->heard, part->length);
    part->length = 0;
    return as_promised(tender, "close", p, open, uc_close_refusal(answer));
}

/* ---- The order of calls. */

/* What orders are drawn from. */
struct draws {
    bool seeded;
    uint64_t state;
};

/* A number below count: by the seed (splitmix64, so that it is the same on every machine), and 0 if there is none. */
static unsigned draw(struct draws *draws, unsigned count)
{
    if (!draws->seeded)
        return 0;
    uint64_t mixed = draws->state += UINT64_C(0x9E3779B97F4A7C15);
    mixed = (mixed ^ mixed >> 30) * UINT64_C(0xBF58476D1CE4E5B9);
    mixed = (mixed ^ mixed >> 27) * UINT64_C(0x94D049BB133111EB);
    return (unsigned)((mixed ^ mixed >> 31) % count);
}

/* Goes on to a tender's next phase. All parts that are up and open are to be called in it, and some of the decided. Before they
 * are started all count as open: their states are zeros. */
static void begin_phase(struct tender *tender, struct draws *draws)
{
    tender->phase = tender->phase == CLOSING ? SPEAKING : tender->phase + 1;
    if (tender->phase == SPEAKING) {
        tender->round++;
        tell(tender, "round", tender->round, 0);
    }
    for (unsigned p = 1; p <= tender->ticket.n; p++) {
        const struct part *part = &tender->part[p];
        if (takes_part(part) || (!part->crashed && draw(draws, 2)))
            tender->waiting[tender->count++] = p;
    }
}

/* Whether a tender has a call to come, in this phase or in one up to the closing of round t + 1. */
static bool has_call(struct tender *tender, struct draws *draws)
{
    while (tender->count == 0 && !(tender->phase == CLOSING && tender->round == tender->ticket.t + 1))
        begin_phase(tender, draws);
    return tender->count > 0;
}

/* Calls one of the processes that are still to be called: without a seed the lowest. */
static bool make_call(struct tender *tender, struct draws *draws)
{
    static bool (*const call[])(struct tender *, unsigned) = {
        [STARTING] = start, [SPEAKING] = speak, [CLOSING] = close_or_crash};
    unsigned place = draw(draws, tender->count);
    unsigned *drawn = &tender->waiting[place], p = *drawn;
    memmove(drawn, drawn + 1, (--tender->count - place) * sizeof *drawn);
    return call[tender->phase](tender, p);
}

/* Plays tenders to their end. False if a call was not answered as promised. */
static bool play(struct tender *tender, unsigned count, struct draws *draws)
{
    struct tender *playing[MOST_TENDERS] = {&tender[0], &tender[1]};
    while (count > 0) {
        unsigned next = draw(draws, count);
        if (!has_call(playing[next], draws))
            playing[next] = playing[--count];
        else if (!make_call(playing[next], draws))
            return false;
    }
    return true;
}

/* ---- What is asked for, read and printed. */

struct request {
    bool states, told;
    struct draws draws;
    char **names; /* of two files; NULL for one ticket on standard input */
};

static bool read_seed(const char *digits, struct draws *draws)
{
    errno = 0;
    draws->seeded = true;
    draws->state = strtoull(digits, NULL, 10);
    return errno == 0 && *digits && strspn(digits, "0123456789") == strlen(digits);
}

/* Options, then a seed or none, then two names or none. */
static bool read_words(int count, char **words, struct request *request)
{
    int i = 1;
    for (; i < count && words[i][0] == '-'; i++) {
        if (strcmp(words[i], "-s") == 0)
            request->states = true;
        else if (strcmp(words[i], "-v") == 0)
            request->told = true;
        else
            return false;
    }
    int left = count - i;
    request->names = left == 3 ? words + i + 1 : NULL;
    return left == 0 || ((left == 1 || left == 3) && read_seed(words[i], &request->draws));
}

static enum status failed(const char *name)
{
    fprintf(stderr, "host: %s: %s\n", name, strerror(errno));
    return FAILED;
}

/* Reads a ticket, but no more than one byte beyond the longest: that is enough to have it refused. */
static enum status read_ticket(FILE *file, struct tender *tender)
{
    uint8_t text[UC_TICKET_BYTES + 1], result[UC_RESULT_BYTES];
    size_t length = fread(text, 1, sizeof text, file);
    if (ferror(file))
        return failed(tender->name);
    uint64_t answer = uc_run(text, length, result, sizeof result);
    unsigned refusal = uc_run_refusal(answer), line = uc_run_line(answer);
    if (!refusal) {
        take_apart(text, &tender->ticket);
        return PLAYED;
    }
    fprintf(stderr, "host: %s: refusal %u", tender->name, refusal);
    if (line)
        fprintf(stderr, " at line %u", line);
    fprintf(stderr, ": %s\n", uc_refusal_text(refusal));
    return REFUSED;
}

static enum status read_file(struct tender *tender)
{
    FILE *file = fopen(tender->name, "rb");
    if (!file)
        return failed(tender->name);
    enum status status = read_ticket(file, tender);
    fclose(file);
    return status;
}

static enum status read_tenders(const struct request *request, struct tender *tender)
{
    static const char *const labels[MOST_TENDERS] = {"1: ", "2: "};
    if (!request->names) {
        tender->name = "standard input";
        tender->label = request->told ? "" : NULL;
        return read_ticket(stdin, tender);
    }
    enum status status = PLAYED;
    for (unsigned i = 0; status == PLAYED && i < MOST_TENDERS; i++) {
        tender[i].name = request->names[i];
        tender[i].label = request->told ? labels[i] : NULL;
        status = read_file(&tender[i]);
    }
    return status;
}

static void print_state(const uint8_t *state)
{
    for (unsigned i = 0; i < UC_STATE_BYTES; i++)
        printf("%02X", state[i]);
    putchar('\n');
}

/* A part that has not crashed has decided by now, and its mark is then the end of its line. */
static void print_process_line(unsigned p, const struct part *part)
{
    unsigned end = part->crashed ? UC_END_CRASHED : part->state[UC_STATE_MARK];
    unsigned round = part->crashed ? part->crashed : part->state[UC_STATE_ROUND];
    uint32_t value = part->crashed ? 0 : uc_state_value(part->state);
    printf("%02X%02X%02X%02X%08" PRIX32, UC_KIND_PROCESS, p, end, round, value);
    printf("%02X%02X\n", part->data, part->commits);
}

static void print_parts(const struct tender *tender, bool states)
{
    for (unsigned p = 1; p <= tender->ticket.n; p++) {
        if (states)
            print_state(tender->part[p].state);
        else
            print_process_line(p, &tender->part[p]);
    }
}

int main(int count, char **words)
{
    static struct tender tender[MOST_TENDERS];
    struct request request = {0};

    if (!read_words(count, words, &request)) {
        fprintf(stderr, "usage: host [-s] [-v] [SEED]\n       host [-s] [-v] SEED FIRST SECOND\n");
        return FAILED;
    }
    enum status status = read_tenders(&request, tender);
    if (status != PLAYED)
        return (int)status;
    if (!play(tender, request.names ? MOST_TENDERS : 1, &request.draws))
        return BROKEN;
    print_parts(&tender[0], request.states);
    if (request.names) {
        putchar('\n');
        print_parts(&tender[1], request.states);
    }
    return fflush(stdout) ? (int)failed("standard output") : PLAYED;
}
