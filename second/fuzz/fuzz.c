/* A libFuzzer harness for the nine functions of libagreement.a.
 *
 * The first byte of the input picks the function, or a run by parts, the rest is
 * what it is called with (seed-corpus writes inputs of this form). Checked is first what
 * needs no second implementation: answers in the documented ranges, equal
 * answers to equal calls, refused calls that change nothing, bytes behind
 * those written left alone, of every result that the processes agree (document
 * 01, and demand 3), that it has no small letter, that the counts of its
 * processes are possible by its own ends and add up, and that they are within
 * the bounds by speakers (document 02, Papers 2 and 4), that nobody decides
 * before the settling round (Paper 6), that reasons are possible by the ends of
 * the result, single ones being those of the table (Paper 7), that quotes are
 * those of the value that the result has, by the ticket and by the state of each
 * that decides (Paper 9), and that a ticket in other letters is answered alike
 * and leaves the same bytes (Paper 1); and then that the second implementation
 * answers alike and leaves the same bytes; and that the parts of a ticket's run,
 * called in an order that the input chooses and mixed with those of another run,
 * answer and end as the second implementation's runs say (Paper 14).
 *
 * libagreement.a is not instrumented: the fuzzer is led by the coverage of the
 * second implementation, which runs the same input, and of this file. */

#include <stdint.h>
#include <stdio.h>
#include <stdlib.h>
#include <string.h>

uint64_t uc_run(const uint8_t *ticket, size_t ticket_len, uint8_t *output, size_t output_len);
uint64_t uc_settle(const uint8_t *ticket, size_t ticket_len);
uint64_t uc_reason(const uint8_t *ticket, size_t ticket_len, uint64_t process, uint64_t round);
uint64_t uc_reasons(const uint8_t *ticket, size_t ticket_len, uint8_t *reasons,
                    size_t reasons_len);
uint64_t uc_quote(const uint8_t *ticket, size_t ticket_len, const uint64_t *costs,
                  size_t cost_count, uint64_t process, uint64_t *quote);
uint64_t uc_price(const uint8_t *state, size_t state_len, const uint64_t *costs, size_t cost_count,
                  uint64_t *quote);
uint64_t uc_start(uint64_t process, uint64_t n, uint64_t t, uint32_t value, uint8_t *state,
                  size_t state_len);
uint64_t uc_speak(const uint8_t *state, size_t state_len, uint8_t *output, size_t output_len);
uint64_t uc_close(uint8_t *state, size_t state_len, const uint8_t *heard, size_t heard_len);

/* The second implementation (src/lib.rs). */
uint64_t second_run(const uint8_t *ticket, size_t ticket_len, uint8_t *output, size_t output_len);
uint64_t second_settle(const uint8_t *ticket, size_t ticket_len);
uint64_t second_reason(const uint8_t *ticket, size_t ticket_len, uint64_t process, uint64_t round);
uint64_t second_reasons(const uint8_t *ticket, size_t ticket_len, uint8_t *reasons,
                        size_t reasons_len);
uint64_t second_quote(const uint8_t *ticket, size_t ticket_len, const uint64_t *costs,
                      size_t cost_count, uint64_t process, uint64_t *quote);
uint64_t second_price(const uint8_t *state, size_t state_len, const uint64_t *costs,
                      size_t cost_count, uint64_t *quote);
uint64_t second_start(uint64_t process, uint64_t n, uint64_t t, uint32_t value, uint8_t *state,
                      size_t state_len);
uint64_t second_speak(const uint8_t *state, size_t state_len, uint8_t *output, size_t output_len);
uint64_t second_close(uint8_t *state, size_t state_len, const uint8_t *heard, size_t heard_len);
uint64_t second_play(const uint8_t *ticket, size_t ticket_len, uint64_t seed);

enum {
    LONGEST_TICKET = 4096,
    MOST_PROCESSES = 64,
    PROCESS_LINE = 21,
    LAST_LINE = 17,
    LONGEST_RESULT = PROCESS_LINE * MOST_PROCESSES + LAST_LINE,
    MOST_REASONS = MOST_PROCESSES * MOST_PROCESSES,
    STATE = 9,
    SPEECH = 8,
    DATA = 6,
    MOST_LINES = 200,
    HIGHEST_COST = 1000000000,
    GUARD = 16, /* so that numbers stand behind it as they must */
    REFUSED = 65536,
};

#define CHECK(condition)                                                      \
    do {                                                                      \
        if (!(condition)) {                                                   \
            fprintf(stderr, "%s:%d: %s\n", __FILE__, __LINE__, #condition);   \
            abort();                                                          \
        }                                                                     \
    } while (0)

/* The rest of the input, read from its beginning. */
typedef struct {
    const uint8_t *bytes;
    size_t length;
} Input;

/* The next `width` bytes as a number, most significant first; missing ones are 0. */
static uint64_t take_number(Input *input, size_t width) {
    uint64_t number = 0;
    for (size_t k = 0; k < width; k++) {
        number <<= 8;
        if (input->length > 0) {
            number |= *input->bytes++;
            input->length--;
        }
    }
    return number;
}

/* At most `length` bytes, of which the input may have fewer. */
static Input take_bytes(Input *input, size_t length) {
    if (length > input->length) length = input->length;
    Input taken = {input->bytes, length};
    input->bytes += length;
    input->length -= length;
    return taken;
}

/* A copy of some bytes between two guards. */
typedef struct {
    uint8_t *memory;
    uint8_t *bytes;
    size_t length;
} Lent;

static uint8_t guard_byte(size_t at) { return (uint8_t)(0xA5 ^ at); }

static Lent lend(const uint8_t *bytes, size_t length) {
    uint8_t *memory = malloc(length + 2 * GUARD);
    CHECK(memory != NULL);
    for (size_t at = 0; at < length + 2 * GUARD; at++) memory[at] = guard_byte(at);
    if (bytes != NULL) memcpy(memory + GUARD, bytes, length);
    return (Lent){memory, memory + GUARD, length};
}

/* Checks both guards and gives the memory back. */
static void take_back(Lent lent) {
    for (size_t k = 0; k < GUARD; k++) {
        size_t behind = GUARD + lent.length + k;
        CHECK(lent.memory[k] == guard_byte(k));
        CHECK(lent.memory[behind] == guard_byte(behind));
    }
    free(lent.memory);
}

/* Whether the bytes from `from` on are still those that `lend` filled in. */
static int untouched_from(Lent lent, size_t from) {
    for (size_t at = from; at < lent.length; at++) {
        if (lent.bytes[at] != guard_byte(GUARD + at)) return 0;
    }
    return 1;
}

static void check_same(Lent first, Lent second) {
    CHECK(first.length == second.length);
    CHECK(memcmp(first.bytes, second.bytes, first.length) == 0);
}

static int is_small(uint8_t byte) { return byte >= 'a' && byte <= 'z'; }

static int is_letter(uint8_t byte) { return is_small(byte) || (byte >= 'A' && byte <= 'Z'); }

/* A copy of a text between two guards, in which some letters, or all, are of
 * the other case; which ones, the text's own bytes say. */
static Lent lend_in_other_letters(Input text) {
    Lent other = lend(text.bytes, text.length);
    uint32_t chance = 1;
    for (size_t at = 0; at < text.length; at++) chance = chance * 31 + text.bytes[at];
    int all = chance >> 16 & 1;
    for (size_t at = 0; at < text.length; at++) {
        if (!is_letter(text.bytes[at])) continue;
        chance = chance * 1664525 + 1013904223;
        if (all || chance >> 31) other.bytes[at] ^= 'a' ^ 'A';
    }
    return other;
}

static unsigned digit_value(uint8_t digit) {
    if (digit >= '0' && digit <= '9') return digit - '0';
    if (digit >= 'a' && digit <= 'f') return digit - 'a' + 10u;
    CHECK(digit >= 'A' && digit <= 'F');
    return digit - 'A' + 10u;
}

/* The number in `width` bytes of a line of digits, from byte `at` on. */
static uint32_t number_in(const uint8_t *line, size_t at, size_t width) {
    uint32_t number = 0;
    for (size_t k = 2 * at; k < 2 * (at + width); k++) number = 16 * number + digit_value(line[k]);
    return number;
}

/* The lines of a ticket, one past the last included. */
static uint64_t possible_lines(Input ticket) {
    uint64_t lines = 1;
    for (size_t at = 0; at < ticket.length; at++) lines += ticket.bytes[at] == '\n';
    return lines;
}

static void check_refusal(uint64_t answer, Input ticket, uint64_t last_number) {
    uint64_t number = answer / REFUSED, line = answer % REFUSED;
    CHECK(1 <= number && number <= last_number);
    CHECK((number == 1) == (ticket.length > LONGEST_TICKET));
    CHECK((line == 0) == (number == 1 || number == 9));
    CHECK(line <= possible_lines(ticket));
    if (number == 4) CHECK(line == 1);
}

/* The line of a process, from 1 on, in a result. */
static const uint8_t *line_of(const uint8_t *result, uint32_t process) {
    return result + PROCESS_LINE * (process - 1);
}

/* The counts in a process's line: it sends in its own round alone, if it gets
 * there, and only what goes to processes above it that end in that round or
 * later is carried; commits are sent after all data; if it decides there, then
 * all of both are sent. */
static void check_counts(const uint8_t *result, uint32_t process, uint32_t n) {
    const uint8_t *line = line_of(result, process);
    uint32_t data = number_in(line, 8, 1), commits = number_in(line, 9, 1);
    uint32_t end = number_in(line, 2, 1), round = number_in(line, 3, 1);
    uint32_t up = 0;
    for (uint32_t to = process + 1; to <= n; to++) {
        up += number_in(line_of(result, to), 3, 1) >= process;
    }
    CHECK(data <= up && commits <= data);
    if (commits > 0) CHECK(data == up);
    if (round != process) CHECK(data == 0);
    if (round == process && end == 1) CHECK(data == up && commits == up);
}

/* The counts of a result: those of each process, their sums in the last line,
 * the bound on messages by speakers, and that on commits. */
static void check_all_counts(const uint8_t *result, uint32_t n) {
    const uint8_t *last = result + PROCESS_LINE * n;
    uint32_t k = number_in(last, 3, 1);
    uint32_t data = number_in(last, 4, 2), commits = number_in(last, 6, 2);
    uint32_t data_by_all = 0, commits_by_all = 0;
    for (uint32_t process = 1; process <= n; process++) {
        check_counts(result, process, n);
        data_by_all += number_in(line_of(result, process), 8, 1);
        commits_by_all += number_in(line_of(result, process), 9, 1);
    }
    CHECK(data_by_all == data && commits_by_all == commits);
    CHECK(data + commits + k * (k - 1) / 2 <= k * (2 * n - k - 1));
    CHECK(commits + k <= n);
}

/* A result by itself: its form and letters, agreement, validity, f + 1 rounds,
 * and its counts. An accepted ticket has no blanks, so the proposals stand at
 * fixed places in it. */
static void check_result(const uint8_t *result, uint64_t length, Input ticket) {
    uint32_t n = number_in(ticket.bytes, 1, 1), t = number_in(ticket.bytes, 2, 1);
    const uint8_t *proposals = ticket.bytes + 7;
    CHECK(1 <= n && n <= MOST_PROCESSES && t < n && length == PROCESS_LINE * n + LAST_LINE);
    for (uint64_t at = 0; at < length; at++) CHECK(!is_small(result[at]));
    const uint8_t *last = result + PROCESS_LINE * n;
    uint32_t rounds = number_in(last, 1, 1), f = number_in(last, 2, 1);
    uint32_t k = number_in(last, 3, 1);
    uint32_t decided = 0, crashed = 0, latest = 0, value = 0, proposed = 0;
    for (uint32_t process = 1; process <= n; process++) {
        const uint8_t *line = line_of(result, process);
        uint32_t end = number_in(line, 2, 1), round = number_in(line, 3, 1);
        CHECK(line[PROCESS_LINE - 1] == '\n');
        CHECK(number_in(line, 0, 1) == 0x11 && number_in(line, 1, 1) == process);
        CHECK(1 <= round && round <= rounds);
        if (round > latest) latest = round;
        if (end == 1) {
            CHECK(decided == 0 || number_in(line, 4, 4) == value);
            CHECK(round <= f + 1);
            value = number_in(line, 4, 4);
            decided++;
        } else {
            CHECK(end == 2 && number_in(line, 4, 4) == 0);
            crashed++;
        }
    }
    for (uint32_t at = 0; at < n; at++) proposed += number_in(proposals + 13 * at, 2, 4) == value;
    CHECK(proposed > 0 && decided > 0);
    CHECK(last[LAST_LINE - 1] == '\n' && number_in(last, 0, 1) == 0x12);
    CHECK(crashed == f && f <= t && latest == rounds && rounds <= f + 1);
    CHECK(1 <= k && k <= f + 1 && k <= rounds);
    check_all_counts(result, n);
}

/* The ticket's result with room for any, or its refusal. */
static uint64_t run_ample(Input ticket, uint8_t result[LONGEST_RESULT]) {
    Lent text = lend(ticket.bytes, ticket.length), output = lend(NULL, LONGEST_RESULT);
    uint64_t answer = uc_run(text.bytes, text.length, output.bytes, output.length);
    CHECK(memcmp(text.bytes, ticket.bytes, ticket.length) == 0);
    CHECK(untouched_from(output, answer < REFUSED ? answer : 0));
    memcpy(result, output.bytes, LONGEST_RESULT);
    take_back(text);
    take_back(output);
    return answer;
}

/* Runs the ticket in other letters into an equal buffer: equal answer, equal bytes. */
static void check_run_in_other_letters(Input ticket, uint64_t answer, Lent output) {
    Lent text = lend_in_other_letters(ticket);
    Lent other_output = lend(NULL, output.length), second_output = lend(NULL, output.length);
    CHECK(uc_run(text.bytes, text.length, other_output.bytes, output.length) == answer);
    CHECK(second_run(text.bytes, text.length, second_output.bytes, output.length) == answer);
    check_same(output, other_output);
    check_same(output, second_output);
    take_back(text);
    take_back(other_output);
    take_back(second_output);
}

static void check_settling_in_other_letters(Input ticket, uint64_t answer) {
    Lent text = lend_in_other_letters(ticket);
    CHECK(uc_settle(text.bytes, text.length) == answer);
    CHECK(second_settle(text.bytes, text.length) == answer);
    take_back(text);
}

static void fuzz_run(Input input) {
    size_t room = take_number(&input, 2) % (2 * LONGEST_RESULT);
    uint8_t ample[LONGEST_RESULT];
    uint64_t expected = run_ample(input, ample);
    Lent text = lend(input.bytes, input.length), output = lend(NULL, room);
    Lent second_output = lend(NULL, room);
    uint64_t answer = uc_run(text.bytes, text.length, output.bytes, output.length);
    CHECK(second_run(text.bytes, text.length, second_output.bytes, room) == answer);
    check_same(output, second_output);
    check_run_in_other_letters(input, answer, output);
    if (expected >= REFUSED) {
        check_refusal(expected, input, 8);
        CHECK(answer == expected && untouched_from(output, 0));
    } else {
        check_result(ample, expected, input);
        if (room < expected) {
            CHECK(answer == 9 * REFUSED && untouched_from(output, 0));
        } else {
            CHECK(answer == expected && untouched_from(output, expected));
            CHECK(memcmp(output.bytes, ample, expected) == 0);
        }
    }
    take_back(text);
    take_back(output);
    take_back(second_output);
}

/* The settling round of an accepted ticket with this result is one of the run's, and
 * nobody decides before it: with a commit the value has gone to all that are up. If
 * all propose one value, it is round 1. */
static void check_settling_round(uint64_t round, const uint8_t *result, Input ticket) {
    uint32_t n = number_in(ticket.bytes, 1, 1);
    const uint8_t *proposals = ticket.bytes + 7;
    uint32_t one_proposal = 1;
    CHECK(1 <= round && round <= number_in(line_of(result, n + 1), 1, 1));
    for (uint32_t process = 1; process <= n; process++) {
        const uint8_t *line = line_of(result, process);
        if (number_in(line, 2, 1) == 1) CHECK(round <= number_in(line, 3, 1));
        one_proposal &= number_in(proposals + 13 * (process - 1), 2, 4) == number_in(proposals, 2, 4);
    }
    if (one_proposal) CHECK(round == 1);
}

static void fuzz_settle(Input input) {
    uint8_t result[LONGEST_RESULT];
    uint64_t written = run_ample(input, result);
    Lent text = lend(input.bytes, input.length);
    uint64_t answer = uc_settle(text.bytes, text.length);
    CHECK(second_settle(text.bytes, text.length) == answer);
    check_settling_in_other_letters(input, answer);
    if (written >= REFUSED) {
        CHECK(answer == written);
        check_refusal(answer, input, 8);
    } else {
        check_settling_round(answer, result, input);
    }
    CHECK(memcmp(text.bytes, input.bytes, input.length) == 0);
    take_back(text);
}

/* A reason of a process in a round, by the ends in the run's result: 1 and 2 if it
 * decides then, in its own round or another; 6 if it crashes then; 7 if it ended
 * before; 3, 4 or 5 if it ends later, 4 just after its coordinator's crash and 5 in it. */
static void check_reason(uint64_t reason, const uint8_t *result, uint32_t process, uint32_t round) {
    const uint8_t *line = line_of(result, process), *coordinator = line_of(result, round);
    uint32_t end = number_in(line, 2, 1), last = number_in(line, 3, 1);
    uint32_t its_end = number_in(coordinator, 2, 1), its_last = number_in(coordinator, 3, 1);
    CHECK(1 <= reason && reason <= 7);
    CHECK((reason == 7) == (last < round));
    CHECK((reason == 6) == (last == round && end == 2));
    CHECK((reason == 1) == (last == round && end == 1 && process == round));
    CHECK((reason == 2) == (last == round && end == 1 && process != round));
    if (reason == 3) CHECK(its_end == 2 && its_last == round);
    if (reason == 4) CHECK(its_end == 2 && its_last < round);
    if (reason == 5) CHECK(its_end == 2 && its_last == round);
}

static void fuzz_reason(Input input) {
    uint8_t result[LONGEST_RESULT];
    uint64_t process = take_number(&input, 8), round = take_number(&input, 8);
    uint64_t written = run_ample(input, result);
    Lent text = lend(input.bytes, input.length), other = lend_in_other_letters(input);
    uint64_t answer = uc_reason(text.bytes, text.length, process, round);
    CHECK(second_reason(text.bytes, text.length, process, round) == answer);
    CHECK(uc_reason(other.bytes, other.length, process, round) == answer);
    if (written >= REFUSED) {
        CHECK(answer == written);
    } else {
        uint32_t n = number_in(input.bytes, 1, 1), rounds = number_in(line_of(result, n + 1), 1, 1);
        if (1 <= process && process <= n && 1 <= round && round <= rounds) {
            check_reason(answer, result, (uint32_t)process, (uint32_t)round);
        } else {
            CHECK(answer == 13 * REFUSED);
        }
    }
    CHECK(memcmp(text.bytes, input.bytes, input.length) == 0);
    take_back(text);
    take_back(other);
}

/* All reasons of an accepted ticket with this result. */
static void check_table(const uint8_t *table, const uint8_t *result, uint32_t n, uint32_t rounds) {
    for (uint32_t round = 1; round <= rounds; round++)
        for (uint32_t process = 1; process <= n; process++)
            check_reason(table[(round - 1) * n + process - 1], result, process, round);
}

static void fuzz_reasons(Input input) {
    uint8_t result[LONGEST_RESULT];
    size_t room = take_number(&input, 2) % (MOST_REASONS + 64);
    uint64_t written = run_ample(input, result);
    Lent text = lend(input.bytes, input.length), other = lend_in_other_letters(input);
    Lent table = lend(NULL, room), second_table = lend(NULL, room), other_table = lend(NULL, room);
    uint64_t answer = uc_reasons(text.bytes, text.length, table.bytes, room);
    CHECK(second_reasons(text.bytes, text.length, second_table.bytes, room) == answer);
    CHECK(uc_reasons(other.bytes, other.length, other_table.bytes, room) == answer);
    check_same(table, second_table);
    check_same(table, other_table);
    CHECK(memcmp(text.bytes, input.bytes, input.length) == 0);
    if (written >= REFUSED) {
        CHECK(answer == written && untouched_from(table, 0));
    } else {
        uint32_t n = number_in(input.bytes, 1, 1), rounds = number_in(line_of(result, n + 1), 1, 1);
        if (room < n * rounds) {
            CHECK(answer == 9 * REFUSED && untouched_from(table, 0));
        } else {
            CHECK(answer == n * rounds && untouched_from(table, n * rounds));
            check_table(table.bytes, result, n, rounds);
            uint32_t place = (uint32_t)(room % (n * rounds));
            uint64_t one = uc_reason(text.bytes, text.length, place % n + 1, place / n + 1);
            CHECK(one == table.bytes[place]);
        }
    }
    take_back(text);
    take_back(other);
    take_back(table);
    take_back(second_table);
    take_back(other_table);
}

/* Direct costs between two guards: how many lines there are, how many costs follow, and these
 * from the first on, again and again. */
static Lent take_costs(Input *input) {
    size_t lines = take_number(input, 1), given = take_number(input, 1);
    uint64_t costs[256] = {0};
    for (size_t k = 0; k < given; k++) costs[k] = take_number(input, 8);
    for (size_t k = given; k < lines && given > 0; k++) costs[k] = costs[k - given];
    return lend((const uint8_t *)costs, lines * sizeof *costs);
}

static uint64_t *numbers_in(Lent lent) { return (uint64_t *)lent.bytes; }

static size_t count_of(Lent costs) { return costs.length / sizeof(uint64_t); }

/* The refusal of tender lines, 14 or 15; 0 if there is none. */
static uint64_t refusal_of_lines(Lent costs) {
    uint64_t refusal = count_of(costs) < 1 || count_of(costs) > MOST_LINES ? 14 : 0;
    for (size_t k = 0; k < count_of(costs) && refusal == 0; k++) {
        if (numbers_in(costs)[k] > HIGHEST_COST) refusal = 15;
    }
    return refusal;
}

/* An amount and a percentage of it, in hundredths of a percent. */
static uint64_t with_percentage(uint64_t amount, uint32_t rate) {
    return amount + (amount * rate + 5000) / 10000;
}

/* The quote in pence by a decided value. */
static uint64_t quote_by(uint32_t value, Lent costs) {
    uint64_t quote = 0;
    for (size_t k = 0; k < count_of(costs); k++) {
        quote += with_percentage(with_percentage(numbers_in(costs)[k], value >> 16), value & 0xFFFF);
    }
    return quote;
}

/* All processes that decide in a run with this result quote alike: by the states that they
 * decide in, and the last of them by the ticket. */
static void check_deciders(uint64_t right, const uint8_t *result, Input ticket, Lent costs) {
    uint8_t n = (uint8_t)number_in(ticket.bytes, 1, 1), t = (uint8_t)number_in(ticket.bytes, 2, 1);
    uint64_t quote = 0, last = 0;
    for (uint8_t process = 1; process <= n; process++) {
        const uint8_t *line = line_of(result, process);
        if (number_in(line, 2, 1) != 1) continue;
        uint8_t state[STATE] = {process, n, t, (uint8_t)number_in(line, 3, 1), 1};
        for (size_t k = 0; k < 4; k++) state[5 + k] = (uint8_t)number_in(line, 4 + k, 1);
        CHECK(uc_price(state, STATE, numbers_in(costs), count_of(costs), &quote) == 0);
        CHECK(quote == right);
        last = process;
    }
    Lent text = lend(ticket.bytes, ticket.length);
    CHECK(uc_quote(text.bytes, text.length, numbers_in(costs), count_of(costs), last, &quote) == 0);
    CHECK(quote == right);
    take_back(text);
}

/* What is answered and written for a ticket that is accepted with this result. */
static void check_quote(uint64_t answer, Lent quote, const uint8_t *result, Input ticket,
                        Lent costs, uint64_t process) {
    uint64_t refusal = refusal_of_lines(costs);
    int is_of_run = 1 <= process && process <= number_in(ticket.bytes, 1, 1);
    const uint8_t *line = is_of_run ? line_of(result, (uint32_t)process) : NULL;
    if (refusal == 0 && (line == NULL || number_in(line, 2, 1) != 1)) refusal = 16;
    CHECK(answer == refusal * REFUSED);
    if (refusal == 0) {
        uint64_t right = quote_by(number_in(line, 4, 4), costs);
        CHECK(*numbers_in(quote) == right);
        check_deciders(right, result, ticket, costs);
    }
}

static void fuzz_quote(Input input) {
    uint8_t result[LONGEST_RESULT];
    uint64_t process = take_number(&input, 8);
    Lent costs = take_costs(&input), before = lend(costs.bytes, costs.length);
    size_t count = count_of(costs);
    uint64_t written = run_ample(input, result);
    Lent text = lend(input.bytes, input.length), other = lend_in_other_letters(input);
    Lent quotes[3];
    for (size_t k = 0; k < 3; k++) quotes[k] = lend(NULL, sizeof(uint64_t));
    uint64_t *quote = numbers_in(quotes[0]), *by_second = numbers_in(quotes[1]);
    uint64_t *in_other_letters = numbers_in(quotes[2]);
    const uint64_t *list = numbers_in(costs);
    uint64_t answer = uc_quote(text.bytes, text.length, list, count, process, quote);
    CHECK(second_quote(text.bytes, text.length, list, count, process, by_second) == answer);
    CHECK(uc_quote(other.bytes, other.length, list, count, process, in_other_letters) == answer);
    check_same(quotes[0], quotes[1]);
    check_same(quotes[0], quotes[2]);
    check_same(costs, before);
    CHECK(memcmp(text.bytes, input.bytes, input.length) == 0);
    if (answer != 0) CHECK(untouched_from(quotes[0], 0));
    if (written >= REFUSED) {
        CHECK(answer == written);
    } else {
        check_quote(answer, quotes[0], result, input, costs, process);
    }
    for (size_t k = 0; k < 3; k++) take_back(quotes[k]);
    take_back(costs);
    take_back(before);
    take_back(text);
    take_back(other);
}

static void fuzz_price(Input input) {
    Lent costs = take_costs(&input), before = lend(costs.bytes, costs.length);
    Lent state = lend(input.bytes, input.length);
    Lent quote = lend(NULL, sizeof(uint64_t)), by_second = lend(NULL, sizeof(uint64_t));
    const uint64_t *list = numbers_in(costs);
    size_t count = count_of(costs);
    uint64_t answer = uc_price(state.bytes, state.length, list, count, numbers_in(quote));
    CHECK(second_price(state.bytes, state.length, list, count, numbers_in(by_second)) == answer);
    check_same(quote, by_second);
    check_same(costs, before);
    CHECK(memcmp(state.bytes, input.bytes, input.length) == 0);
    /* States are refused as speaking refuses them. */
    uint8_t output[SPEECH];
    uint64_t refusal = uc_speak(state.bytes, state.length, output, SPEECH);
    if (refusal != 10) refusal = refusal_of_lines(costs);
    if (refusal == 0 && state.bytes[4] != 1) refusal = 16;
    CHECK(answer == refusal);
    if (refusal != 0) {
        CHECK(untouched_from(quote, 0));
    } else {
        uint32_t value = 0;
        for (size_t k = 5; k < STATE; k++) value = value << 8 | state.bytes[k];
        CHECK(*numbers_in(quote) == quote_by(value, costs));
    }
    take_back(costs);
    take_back(before);
    take_back(state);
    take_back(quote);
    take_back(by_second);
}

static void fuzz_start(Input input) {
    uint64_t process = take_number(&input, 8), n = take_number(&input, 8);
    uint64_t t = take_number(&input, 8);
    uint32_t value = (uint32_t)take_number(&input, 4);
    Lent state = lend(input.bytes, input.length), second_state = lend(input.bytes, input.length);
    uint64_t answer = uc_start(process, n, t, value, state.bytes, state.length);
    CHECK(second_start(process, n, t, value, second_state.bytes, state.length) == answer);
    check_same(state, second_state);
    int valid = 1 <= n && n <= MOST_PROCESSES && t < n && 1 <= process && process <= n;
    if (valid && state.length == STATE) {
        uint8_t expected[STATE] = {(uint8_t)process,       (uint8_t)n,
                                   (uint8_t)t,             1,
                                   0,                      (uint8_t)(value >> 24),
                                   (uint8_t)(value >> 16), (uint8_t)(value >> 8),
                                   (uint8_t)value};
        CHECK(answer == 0 && memcmp(state.bytes, expected, STATE) == 0);
    } else {
        CHECK(answer == 10 && memcmp(state.bytes, input.bytes, input.length) == 0);
    }
    take_back(state);
    take_back(second_state);
}

static void fuzz_speak(Input input) {
    size_t room = take_number(&input, 1) % (2 * SPEECH);
    Lent state = lend(input.bytes, input.length), output = lend(NULL, room);
    Lent after = lend(input.bytes, input.length), second_output = lend(NULL, room);
    uint64_t answer = uc_speak(state.bytes, state.length, output.bytes, output.length);
    CHECK(second_speak(state.bytes, state.length, second_output.bytes, room) == answer);
    check_same(output, second_output);
    uint64_t closing = uc_close(after.bytes, after.length, output.bytes, 0);
    CHECK(memcmp(state.bytes, input.bytes, input.length) == 0);
    if (answer == SPEECH) {
        CHECK(state.length == STATE && state.bytes[0] == state.bytes[3] && room >= SPEECH);
        uint8_t round = state.bytes[3], *value = state.bytes + 5;
        uint8_t expected[SPEECH] = {0x21,     round,    value[0], value[1],
                                    value[2], value[3], 0x22,     round};
        CHECK(memcmp(output.bytes, expected, SPEECH) == 0 && untouched_from(output, SPEECH));
    } else {
        CHECK(answer == 0 || (9 <= answer && answer <= 11));
        CHECK(untouched_from(output, 0));
        if (answer == 9) CHECK(room < SPEECH && state.bytes[0] == state.bytes[3]);
        if (answer == 0) CHECK(state.bytes[0] != state.bytes[3]);
    }
    /* States are refused alike by both, and any open process closes on nothing. */
    CHECK(closing == (answer == 10 || answer == 11 ? answer : 0));
    take_back(state);
    take_back(output);
    take_back(after);
    take_back(second_output);
}

static void fuzz_close(Input input) {
    Input before = take_bytes(&input, take_number(&input, 1) % (2 * STATE));
    Lent state = lend(before.bytes, before.length), heard = lend(input.bytes, input.length);
    Lent second_state = lend(before.bytes, before.length);
    uint64_t answer = uc_close(state.bytes, state.length, heard.bytes, heard.length);
    CHECK(second_close(second_state.bytes, state.length, heard.bytes, heard.length) == answer);
    check_same(state, second_state);
    CHECK(memcmp(heard.bytes, input.bytes, input.length) == 0);
    if (answer != 0) {
        CHECK(10 <= answer && answer <= 12);
        CHECK(memcmp(state.bytes, before.bytes, before.length) == 0);
    } else {
        CHECK(state.length == STATE && before.bytes[4] == 0);
        uint8_t own = before.bytes[0] == before.bytes[3];
        uint8_t last = before.bytes[3] == before.bytes[2] + 1;
        uint8_t decides = own || heard.length == SPEECH;
        CHECK(heard.length == 0 || (!own && (heard.length == DATA || heard.length == SPEECH)));
        const uint8_t *value = heard.length == 0 ? before.bytes + 5 : input.bytes + 2;
        CHECK(memcmp(state.bytes, before.bytes, 3) == 0);
        CHECK(state.bytes[3] == before.bytes[3] + (decides || last ? 0 : 1));
        CHECK(state.bytes[4] == (decides ? 1 : last ? 2 : 0));
        CHECK(memcmp(state.bytes + 5, value, 4) == 0);
        /* What was closed is a state that the next call takes. */
        uint8_t output[SPEECH];
        uint64_t next = uc_speak(state.bytes, state.length, output, SPEECH);
        CHECK(state.bytes[4] == 0 ? next == 0 || next == SPEECH : next == 11);
    }
    take_back(state);
    take_back(heard);
    take_back(second_state);
}

/* The parts of a ticket's run in an order that the first bytes choose. */
static void fuzz_orders(Input input) {
    uint64_t seed = take_number(&input, 8);
    Lent text = lend(input.bytes, input.length);
    CHECK(second_play(text.bytes, text.length, seed) == 0);
    take_back(text);
}

int LLVMFuzzerTestOneInput(const uint8_t *bytes, size_t length) {
    if (length == 0) return 0;
    Input input = {bytes + 1, length - 1};
    switch (bytes[0] % 10) {
    case 0: fuzz_run(input); break;
    case 1: fuzz_settle(input); break;
    case 2: fuzz_start(input); break;
    case 3: fuzz_speak(input); break;
    case 4: fuzz_close(input); break;
    case 5: fuzz_reason(input); break;
    case 6: fuzz_reasons(input); break;
    case 7: fuzz_quote(input); break;
    case 8: fuzz_price(input); break;
    case 9: fuzz_orders(input); break;
    }
    return 0;
}
