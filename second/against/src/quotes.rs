//! The quotes of Paper 9, given by the implementation under test and by the second one:
//! by a ticket for each process of its run, and by the states of local parts.

use second::interface::{Agreement, REFUSED};
use second::process::Status;
use second::rng::Rng;
use second::separate::{run_separately, End, SeparateRun};
use second::tenders;
use second::ticket::{Ticket, MOST_PROCESSES};

use crate::comparison::{hex, in_words, seed_of, Comparison, Difference, IN_LETTERS, IN_SECOND};

/// In a run of no more processes than these each is asked for a quote.
const FEW: usize = 4;

/// How many are in any other, by chance, beside one that decides. The first of them is
/// compared with the second implementation, and all with the states of the parts.
const SOME: usize = 3;

/// The refusal of a process that is not in the run or has not decided.
const NO_DECISION: u64 = 16;

/// The answer to a call for a quote, and what is in the quote's place then.
type Quoted = (u64, u64);

fn quote(
    module: &mut impl Agreement,
    text: &[u8],
    costs: &[u64],
    process: u64,
    before: u64,
) -> Quoted {
    let mut quote = before;
    let answer = module.quote(text, costs, process, &mut quote);
    (answer, quote)
}

fn price(module: &mut impl Agreement, state: &[u8], costs: &[u64], before: u64) -> Quoted {
    let mut quote = before;
    let answer = module.price(state, costs, &mut quote);
    (answer, quote)
}

/// Numbers that no process of `n` has. Some would be `process` if they were cut.
fn outside(n: u64, process: u64) -> [u64; 9] {
    let cut = [8, 16, 32, 63].map(|bits| process | 1 << bits);
    [0, n + 1, 255, 257, cut[0], cut[1], cut[2], cut[3], u64::MAX]
}

/// Direct costs, with runs of one cost cut short.
fn listed(costs: &[u64]) -> String {
    let runs = costs.chunk_by(|a, b| a == b).map(|run| match run {
        [cost] => cost.to_string(),
        _ => format!("{} times {}", run.len(), run[0]),
    });
    format!("[{}]", runs.collect::<Vec<_>>().join(", "))
}

fn decides(end: &End) -> bool {
    matches!(end.status, Status::Decided(_))
}

/// A process that decides, and the value; process 1 and no value if none does.
fn decider(separate: &SeparateRun) -> (u64, u32) {
    let mut ends = (1..).zip(&separate.ends);
    ends.find(|(_, end)| decides(end)).map_or((1, 0), |(process, end)| (process, end.value))
}

impl<M: Agreement> Comparison<M> {
    /// Another number each time to stand in the place of a quote.
    fn next_quote(&mut self) -> u64 {
        u64::from_be_bytes([self.next_fill(); 8])
    }

    /// The quotes of an accepted ticket: for lines that are quoted, by the ticket for
    /// processes of the run, by the states of all parts, and for a process that there is
    /// not; and for lines that are refused.
    pub(crate) fn accepted_quotes(
        &mut self,
        text: &[u8],
        separate: &SeparateRun,
    ) -> Result<(), String> {
        let mut rng = Rng::new(seed_of(text));
        let n = separate.states.len();
        let (decider, value) = decider(separate);
        let mut asked: Vec<u64> = (1..=n as u64).collect();
        if n > FEW {
            asked = (0..SOME).map(|_| rng.pick(&asked)).chain([decider]).collect();
        }
        let costs = tenders::quoted(&mut rng, value);
        let compared = if n > FEW { 1 } else { n };
        for &process in &asked[..compared] {
            self.quote(text, &costs, process)?;
        }
        for state in &separate.states {
            self.price_state(state, &costs)?;
        }
        self.keep_quotes(text, &costs, &asked, separate)?;
        let refused = tenders::refused(&mut rng);
        self.price_state(&rng.pick(&separate.states), &refused)?;
        // Of a large run one of these two.
        let outside = rng.pick(&outside(n as u64, decider));
        let (first, whoever) = (rng.one_in(2), rng.pick(&[decider, outside, asked[0]]));
        if n <= FEW || first {
            self.quote(text, &costs, outside)?;
        }
        if n <= FEW || !first {
            self.quote(text, &refused, whoever)?;
        }
        Ok(())
    }

    /// Every quote of an accepted ticket for the same lines, of every process and of those
    /// that there are not; and of some of these for lines at the limits.
    pub(crate) fn every_quote(&mut self, ticket: &Ticket) -> Result<(), String> {
        let text = ticket.text();
        let separate = run_separately(&mut self.second, ticket)?;
        let n = u64::from(ticket.n);
        let (decider, value) = decider(&separate);
        let outside = outside(n, decider);
        let costs = tenders::quoted(&mut Rng::new(seed_of(&text)), value);
        for process in (1..=n).chain(outside) {
            self.quote(&text, &costs, process)?;
        }
        let crashed = (1..=n).find(|&process| !decides(&separate.ends[process as usize - 1]));
        for costs in tenders::at_limits() {
            for process in [0, decider, n + 1].into_iter().chain(crashed) {
                self.quote(&text, &costs, process)?;
            }
            self.price_state(&separate.states[decider as usize - 1], &costs)?;
        }
        Ok(())
    }

    /// A refused ticket has its refusal, whatever is to be quoted and for whom.
    pub(crate) fn refused_quotes(&mut self, text: &[u8]) -> Result<(), String> {
        let refused = tenders::refused(&mut Rng::new(seed_of(text)));
        self.quote(text, &[5], 1)?;
        self.quote(text, &[], 0)?;
        self.quote(text, &refused, 1)
    }

    /// One call for a quote by a ticket: the answer, and what is in the quote's place.
    fn quote(&mut self, text: &[u8], costs: &[u64], process: u64) -> Result<(), String> {
        self.counts.quotes += 1;
        let before = self.next_quote();
        let quoted = quote(&mut self.module, text, costs, process, before);
        let second = quote(&mut self.second, text, costs, process, before);
        if quoted == second {
            return Ok(());
        }
        let [answer, other] = [quoted.0, second.0].map(in_words);
        Err(format!(
            "quoting {} for process {process} answers {answer}, {IN_SECOND} {other}; the quote is \
             {}, {IN_SECOND} {}, and was {before}",
            listed(costs),
            quoted.1,
            second.1
        ))
    }

    /// One call for a quote by a state.
    pub fn price(&mut self, state: &[u8], costs: &[u64]) -> Result<(), Difference> {
        self.price_state(state, costs).map_err(|what| Difference::Call { what })
    }

    fn price_state(&mut self, state: &[u8], costs: &[u64]) -> Result<(), String> {
        self.counts.prices += 1;
        let before = self.next_quote();
        let priced = price(&mut self.module, state, costs, before);
        let second = price(&mut self.second, state, costs, before);
        if priced == second {
            return Ok(());
        }
        Err(format!(
            "pricing {} in state {} answers {}, {IN_SECOND} {}; the quote is {}, {IN_SECOND} {}, \
             and was {before}",
            listed(costs),
            hex(state),
            priced.0,
            second.0,
            priced.1,
            second.1
        ))
    }

    /// The claim of Paper 9 about the module alone: all that decide by its own separate
    /// parts quote the same penny, by their states and those asked by the ticket; no
    /// other one gives a quote.
    fn keep_quotes(
        &mut self,
        text: &[u8],
        costs: &[u64],
        asked: &[u64],
        separate: &SeparateRun,
    ) -> Result<(), String> {
        self.counts.quoted_alike += 1;
        let before = self.next_quote();
        let mut quoted = None;
        for (process, (state, end)) in (1..).zip(separate.states.iter().zip(&separate.ends)) {
            let priced = price(&mut self.module, state, costs, before);
            let right = if decides(end) {
                (0, *quoted.get_or_insert(priced.1))
            } else {
                (NO_DECISION, before)
            };
            let kept = |how: &str, given: Quoted| {
                if given == right {
                    return Ok(());
                }
                let costs = listed(costs);
                Err(format!("process {process} quotes {costs} {how} as {given:?}, not {right:?}"))
            };
            kept("by its state", priced)?;
            if asked.contains(&process) {
                let (answer, pence) = quote(&mut self.module, text, costs, process, before);
                kept("by the ticket", (answer / REFUSED, pence))?;
            }
        }
        Ok(())
    }

    /// Two writings of one ticket give the same quotes, for all processes up to the first
    /// that gives one.
    pub(crate) fn quotes_in_other_letters(
        &mut self,
        text: &[u8],
        other: &[u8],
    ) -> Result<(), String> {
        let before = self.next_quote();
        let costs = tenders::quoted(&mut Rng::new(seed_of(text)), tenders::RATE_SETS[0]);
        for process in 1..=MOST_PROCESSES.into() {
            let [quoted, other_quoted] =
                [text, other].map(|text| quote(&mut self.module, text, &costs, process, before));
            if quoted != other_quoted {
                let [answer, other_answer] = [quoted.0, other_quoted.0].map(in_words);
                return Err(format!(
                    "quoting for process {process} answers {answer}, {IN_LETTERS} \
                     {other_answer}; the quote is {}, {IN_LETTERS} {}",
                    quoted.1, other_quoted.1
                ));
            }
            if quoted.0 != NO_DECISION * REFUSED {
                break;
            }
        }
        Ok(())
    }
}

#[cfg(test)]
mod tests {
    use super::*;
    use crate::{exhaustive, random};
    use second::interface::refused;
    use second::local::decision;
    use second::pricing::{HIGHEST_COST, MOST_LINES};
    use second::report::result_length;
    use second::simulation::Simulation;
    use second::{worked, Failure, Reason, Simulator};

    /// A mistake that the comparison must see.
    #[derive(Clone, Copy, Debug, PartialEq)]
    enum Mistake {
        None,
        RoundsHalvesDown,
        RoundsHalvesToEven,
        RoundsDown,
        RoundsUp,
        SwapsOverheadAndMarkup,
        WorksMarkupOnTheDirectCost,
        WorksOverheadOnThePriceAfterMarkup,
        RoundsALineOnce,
        RoundsTheSumOfLines,
        TakesPercentages,
        LeavesOutTheDirectCost,
        CutsTheQuoteTo32Bits,
        CutsCostsTo32Bits,
        RefusesTheHighestCost,
        TakesOnePennyMore,
        LooksAtTheFirstCostAlone,
        LooksAtTheLastCostAlone,
        LooksAtTheSumOfCosts,
        Takes201Lines,
        Refuses200Lines,
        QuotesNoLinesAs0,
        CutsTheCountTo8Bits,
        CutsTheCountTo16Bits,
        Refuses16Before15,
        Refuses16Before14,
        Refuses15Before14,
        WritesOnRefusal,
        AnswersThePence,
        // By tickets alone.
        Refuses14Before8,
        RefusesAtALine,
        QuotesACrashedProcessAs0,
        QuotesACrashedProcessByValue0,
        QuotesACrashedProcessByItsEstimate,
        QuotesByTheOwnProposal,
        CutsTheProcessTo8Bits,
        CutsTheProcessTo32Bits,
        TakesProcess0,
        TakesOneProcessMore,
        RefusesTheLastProcess,
        QuotesOtherwiseForSmallLetters,
        // By states alone.
        PricesAnOpenState,
        PricesAStateWhoseRoundsAreOver,
        Refuses10After14,
        Refuses10After15,
        Refuses16Before10,
        TakesTenBytes,
        RefusesAsOfTickets,
    }

    /// The mistakes about prices, lines and costs, and about what is written, which both
    /// calls can have.
    const OF_BOTH: [Mistake; 28] = [
        Mistake::RoundsHalvesDown,
        Mistake::RoundsHalvesToEven,
        Mistake::RoundsDown,
        Mistake::RoundsUp,
        Mistake::SwapsOverheadAndMarkup,
        Mistake::WorksMarkupOnTheDirectCost,
        Mistake::WorksOverheadOnThePriceAfterMarkup,
        Mistake::RoundsALineOnce,
        Mistake::RoundsTheSumOfLines,
        Mistake::TakesPercentages,
        Mistake::LeavesOutTheDirectCost,
        Mistake::CutsTheQuoteTo32Bits,
        Mistake::CutsCostsTo32Bits,
        Mistake::RefusesTheHighestCost,
        Mistake::TakesOnePennyMore,
        Mistake::LooksAtTheFirstCostAlone,
        Mistake::LooksAtTheLastCostAlone,
        Mistake::LooksAtTheSumOfCosts,
        Mistake::Takes201Lines,
        Mistake::Refuses200Lines,
        Mistake::QuotesNoLinesAs0,
        Mistake::CutsTheCountTo8Bits,
        Mistake::CutsTheCountTo16Bits,
        Mistake::Refuses16Before15,
        Mistake::Refuses16Before14,
        Mistake::Refuses15Before14,
        Mistake::WritesOnRefusal,
        Mistake::AnswersThePence,
    ];

    /// The mistakes about the ticket and the process.
    const BY_TICKETS: [Mistake; 12] = [
        Mistake::Refuses14Before8,
        Mistake::RefusesAtALine,
        Mistake::QuotesACrashedProcessAs0,
        Mistake::QuotesACrashedProcessByValue0,
        Mistake::QuotesACrashedProcessByItsEstimate,
        Mistake::QuotesByTheOwnProposal,
        Mistake::CutsTheProcessTo8Bits,
        Mistake::CutsTheProcessTo32Bits,
        Mistake::TakesProcess0,
        Mistake::TakesOneProcessMore,
        Mistake::RefusesTheLastProcess,
        Mistake::QuotesOtherwiseForSmallLetters,
    ];

    /// The mistakes about the state.
    const BY_STATES: [Mistake; 7] = [
        Mistake::PricesAnOpenState,
        Mistake::PricesAStateWhoseRoundsAreOver,
        Mistake::Refuses10After14,
        Mistake::Refuses10After15,
        Mistake::Refuses16Before10,
        Mistake::TakesTenBytes,
        Mistake::RefusesAsOfTickets,
    ];

    /// What a percentage comes to by a mistake, if `whole` of its parts are the whole.
    fn worked_on(mistake: Mistake, amount: u128, rate: u128, whole: u128) -> u128 {
        let (below, parts) = (amount * rate / whole, 2 * (amount * rate % whole));
        let up = match mistake {
            Mistake::RoundsHalvesDown => parts > whole,
            Mistake::RoundsHalvesToEven => parts > whole || parts == whole && below % 2 == 1,
            Mistake::RoundsDown => false,
            Mistake::RoundsUp => parts > 0,
            _ => parts >= whole,
        };
        below + u128::from(up)
    }

    /// The price of a line by a mistake.
    fn mispriced(mistake: Mistake, value: u32, cost: u128) -> u128 {
        let [mut overhead, mut markup] = [value >> 16, value & 0xFFFF].map(u128::from);
        if mistake == Mistake::SwapsOverheadAndMarkup {
            (overhead, markup) = (markup, overhead);
        }
        let whole = if mistake == Mistake::TakesPercentages { 100 } else { 10_000 };
        let with = |amount: u128, rate| amount + worked_on(mistake, amount, rate, whole);
        let sum = with(cost, overhead);
        match mistake {
            Mistake::WorksMarkupOnTheDirectCost => sum + with(cost, markup) - cost,
            Mistake::WorksOverheadOnThePriceAfterMarkup => with(with(cost, markup), overhead),
            Mistake::RoundsALineOnce => {
                let both = (whole + overhead) * (whole + markup);
                worked_on(mistake, cost, both, whole * whole)
            }
            Mistake::LeavesOutTheDirectCost => with(sum, markup) - cost,
            _ => with(sum, markup),
        }
    }

    /// The quote for lines by a mistake.
    fn misquoted(mistake: Mistake, value: u32, costs: &[u64]) -> u64 {
        let costs = costs.iter().map(|&cost| u128::from(cost));
        let quote: u128 = match mistake {
            Mistake::RoundsTheSumOfLines => mispriced(mistake, value, costs.sum()),
            _ => costs.map(|cost| mispriced(mistake, value, cost)).sum(),
        };
        match mistake {
            Mistake::CutsTheQuoteTo32Bits => quote as u32 as u64,
            _ => quote as u64,
        }
    }

    /// The lines that are looked at by a mistake.
    fn taken_lines(mistake: Mistake, costs: &[u64]) -> Vec<u64> {
        match mistake {
            Mistake::CutsCostsTo32Bits => costs.iter().map(|&cost| cost % (1 << 32)).collect(),
            Mistake::CutsTheCountTo8Bits => costs[..costs.len() % (1 << 8)].to_vec(),
            Mistake::CutsTheCountTo16Bits => costs[..costs.len() % (1 << 16)].to_vec(),
            _ => costs.to_vec(),
        }
    }

    /// Whether a cost is too high by a mistake.
    fn is_too_high(mistake: Mistake, costs: &[u64]) -> bool {
        let highest = match mistake {
            Mistake::RefusesTheHighestCost => HIGHEST_COST - 1,
            Mistake::TakesOnePennyMore => HIGHEST_COST + 1,
            _ => HIGHEST_COST,
        };
        let is_too_high = |&cost: &u64| cost > highest;
        match mistake {
            Mistake::LooksAtTheFirstCostAlone => costs.first().is_some_and(is_too_high),
            Mistake::LooksAtTheLastCostAlone => costs.last().is_some_and(is_too_high),
            Mistake::LooksAtTheSumOfCosts => {
                costs.iter().map(|&cost| u128::from(cost)).sum::<u128>() > u128::from(highest)
            }
            _ => costs.iter().any(is_too_high),
        }
    }

    /// The refusal by a mistake of lines, and of one that may have a decision.
    fn refusal(mistake: Mistake, costs: &[u64], has_decision: bool) -> Option<u64> {
        let most = match mistake {
            Mistake::Takes201Lines => MOST_LINES + 1,
            Mistake::Refuses200Lines => MOST_LINES - 1,
            _ => MOST_LINES,
        };
        let least = usize::from(mistake != Mistake::QuotesNoLinesAs0);
        let of_lines = (!(least..=most).contains(&costs.len())).then_some(14);
        let of_costs = is_too_high(mistake, costs).then_some(15);
        let of_process = (!has_decision).then_some(NO_DECISION);
        match mistake {
            Mistake::Refuses16Before14 => of_process.or(of_lines).or(of_costs),
            Mistake::Refuses16Before15 => of_lines.or(of_process).or(of_costs),
            Mistake::Refuses15Before14 => of_costs.or(of_lines).or(of_process),
            _ => of_lines.or(of_costs).or(of_process),
        }
    }

    /// What a call answers by a mistake that it does not owe to the ticket or the state,
    /// and what it writes.
    fn answered(mistake: Mistake, value: Option<u32>, costs: &[u64], quote: &mut u64) -> u64 {
        let costs = taken_lines(mistake, costs);
        if let Some(number) = refusal(mistake, &costs, value.is_some()) {
            if mistake == Mistake::WritesOnRefusal {
                *quote = 0;
            }
            return number;
        }
        *quote = misquoted(mistake, value.expect("a decision"), &costs);
        if mistake == Mistake::AnswersThePence {
            *quote
        } else {
            0
        }
    }

    /// The value by which a process of an accepted ticket quotes by a mistake.
    fn value_of(mistake: Mistake, ticket: &Ticket, process: u64) -> Option<u32> {
        let n = u64::from(ticket.n);
        let process = match mistake {
            Mistake::CutsTheProcessTo8Bits => process % (1 << 8),
            Mistake::CutsTheProcessTo32Bits => process % (1 << 32),
            Mistake::TakesProcess0 => process.max(1),
            Mistake::TakesOneProcessMore if process == n + 1 => n,
            Mistake::RefusesTheLastProcess if process == n => 0,
            _ => process,
        };
        let mut simulation = Simulation::new(ticket);
        simulation.run(|_, _| {});
        let asked = simulation.processes().iter().find(|other| u64::from(other.id()) == process)?;
        match mistake {
            Mistake::QuotesByTheOwnProposal => {
                asked.decision().map(|_| ticket.proposals[process as usize - 1])
            }
            Mistake::QuotesACrashedProcessByValue0 => Some(asked.decision().unwrap_or(0)),
            Mistake::QuotesACrashedProcessByItsEstimate => Some(asked.estimate()),
            _ => asked.decision(),
        }
    }

    /// The value by which a process in a state quotes by a mistake.
    fn value_in(mistake: Mistake, state: &[u8]) -> Result<Option<u32>, Reason> {
        let held = |place| state.get(place..place + 4).and_then(|bytes| bytes.try_into().ok());
        match (mistake, decision(state), state.get(4)) {
            (Mistake::PricesAnOpenState, Ok(None), Some(0))
            | (Mistake::PricesAStateWhoseRoundsAreOver, Ok(None), Some(2)) => {
                Ok(held(5).map(u32::from_be_bytes))
            }
            (Mistake::Refuses16Before10, Err(_), Some(0)) => Ok(None),
            (Mistake::TakesTenBytes, Err(_), _) if state.len() == 10 => decision(&state[..9]),
            (_, decision, _) => decision,
        }
    }

    /// The second implementation with a mistake about quotes by tickets, and with one
    /// about quotes by states.
    struct Mistaken {
        second: Simulator,
        by_tickets: Mistake,
        by_states: Mistake,
    }

    impl Agreement for Mistaken {
        fn run(&mut self, ticket: &[u8], output: &mut [u8]) -> u64 {
            Agreement::run(&mut self.second, ticket, output)
        }

        fn settle(&mut self, ticket: &[u8]) -> u64 {
            self.second.settle(ticket)
        }

        fn reason(&mut self, ticket: &[u8], process: u64, round: u64) -> u64 {
            Agreement::reason(&mut self.second, ticket, process, round)
        }

        fn reasons(&mut self, ticket: &[u8], output: &mut [u8]) -> u64 {
            Agreement::reasons(&mut self.second, ticket, output)
        }

        fn quote(&mut self, ticket: &[u8], costs: &[u64], process: u64, quote: &mut u64) -> u64 {
            let mistake = self.by_tickets;
            let small = ticket.iter().any(u8::is_ascii_lowercase);
            let ticket = match Ticket::parse(ticket) {
                Ok(ticket) => ticket,
                Err(_) if mistake == Mistake::Refuses14Before8 && costs.is_empty() => {
                    return 14 * REFUSED
                }
                Err(refusal) => return refused(refusal),
            };
            let value = value_of(mistake, &ticket, process);
            let answer = answered(mistake, value, costs, quote);
            let is_of_run = (1..=u64::from(ticket.n)).contains(&process);
            match (mistake, answer) {
                (Mistake::QuotesACrashedProcessAs0, NO_DECISION) if is_of_run => {
                    *quote = 0;
                    0
                }
                (Mistake::QuotesOtherwiseForSmallLetters, 0) if small => {
                    *quote += 1;
                    0
                }
                (Mistake::RefusesAtALine, 14..) => answer * REFUSED + 1,
                (Mistake::AnswersThePence, _) if answer == *quote => answer,
                _ => answer * REFUSED,
            }
        }

        fn price(&mut self, state: &[u8], costs: &[u64], quote: &mut u64) -> u64 {
            let mistake = self.by_states;
            let value = value_in(mistake, state);
            let of_lines = refusal(mistake, costs, true);
            let answer = match (mistake, value) {
                (Mistake::Refuses10After14, Err(_)) if of_lines == Some(14) => 14,
                (Mistake::Refuses10After15, Err(_)) if of_lines == Some(15) => 15,
                (_, Err(reason)) => reason.number().into(),
                (_, Ok(value)) => answered(mistake, value, costs, quote),
            };
            if mistake == Mistake::RefusesAsOfTickets {
                answer * REFUSED
            } else {
                answer
            }
        }

        fn start(&mut self, process: u64, n: u64, t: u64, value: u32, state: &mut [u8]) -> u64 {
            self.second.start(process, n, t, value, state)
        }

        fn speak(&mut self, state: &[u8], output: &mut [u8]) -> u64 {
            self.second.speak(state, output)
        }

        fn close(&mut self, state: &mut [u8], heard: &[u8]) -> u64 {
            self.second.close(state, heard)
        }
    }

    fn comparison(by_tickets: Mistake, by_states: Mistake) -> Comparison<Mistaken> {
        Comparison::new(Mistaken { second: Simulator::new(), by_tickets, by_states })
    }

    /// Case 1's size with rate sets and other failures.
    fn with_rate_sets(failures: Vec<Failure>) -> Ticket {
        Ticket { proposals: tenders::RATE_SETS[..4].to_vec(), failures, ..worked::case(1) }
    }

    /// What is seen by every quote of a few runs and by states near the limits.
    fn compared(by_tickets: Mistake, by_states: Mistake) -> Result<(), Difference> {
        let mut comparison = comparison(by_tickets, by_states);
        for number in [1, 6, 8] {
            let text = with_rate_sets(worked::case(number).failures).text();
            comparison.ticket(&text, &[result_length(4)])?;
            comparison.in_other_letters(&text, result_length(4))?;
        }
        comparison.ticket(&worked::case(12).text(), &[])?;
        exhaustive::quotes_of(&mut comparison, 4)?;
        for (round, mark) in [(1, 0), (2, 1), (3, 2), (0, 0), (1, 3)] {
            let state = [4, 4, 2, round, mark, 0x03, 0xE8, 0x01, 0xF4, 0];
            exhaustive::prices_in(&mut comparison, &state[..9])?;
            exhaustive::prices_in(&mut comparison, &state)?;
        }
        Ok(())
    }

    #[test]
    fn each_mistake_about_quotes_is_seen_in_each_call() {
        assert_eq!(compared(Mistake::None, Mistake::None), Ok(()));
        for mistake in OF_BOTH.into_iter().chain(BY_TICKETS) {
            assert!(compared(mistake, Mistake::None).is_err(), "by tickets: {mistake:?}");
        }
        for mistake in OF_BOTH.into_iter().chain(BY_STATES) {
            assert!(compared(Mistake::None, mistake).is_err(), "by states: {mistake:?}");
        }
    }

    /// The random tickets and calls see them too; but lines that would be few if their
    /// count were cut to 16 bits are not among them, nor ten bytes that begin as a state.
    #[test]
    fn mistakes_about_quotes_are_seen_by_random_tickets() {
        let compared = |by_tickets, by_states| {
            let mut comparison = comparison(by_tickets, by_states);
            let mut rng = Rng::new(1);
            (0..1500).try_for_each(|_| random::ticket_and_calls(&mut comparison, &mut rng))
        };
        assert_eq!(compared(Mistake::None, Mistake::None), Ok(()));
        let rare = [Mistake::CutsTheCountTo16Bits, Mistake::TakesTenBytes];
        for mistake in OF_BOTH.into_iter().chain(BY_TICKETS) {
            let seen = compared(mistake, Mistake::None).is_err();
            assert_eq!(seen, !rare.contains(&mistake), "by tickets: {mistake:?}");
        }
        for mistake in OF_BOTH.into_iter().chain(BY_STATES) {
            let seen = compared(Mistake::None, mistake).is_err();
            assert_eq!(seen, !rare.contains(&mistake), "by states: {mistake:?}");
        }
    }

    /// The percentages alone show every mistake about the price of a line.
    #[test]
    fn mistakes_about_prices_are_seen_by_the_percentages() {
        let compared = |mistake| exhaustive::percentages(&mut comparison(Mistake::None, mistake));
        assert_eq!(compared(Mistake::None), Ok(()));
        for mistake in &OF_BOTH[..11] {
            // There is one line.
            let seen = *mistake != Mistake::RoundsTheSumOfLines;
            assert_eq!(compared(*mistake).is_err(), seen, "{mistake:?}");
        }
    }

    /// That those who decide quote otherwise than each other, or by the ticket otherwise
    /// than by their states, or that others quote, is seen by the module's own parts.
    #[test]
    fn mistakes_about_quotes_are_seen_without_the_second_implementation() {
        let is_kept = |by_tickets, by_states| {
            let ticket = with_rate_sets(vec![Failure::sending_commits(1, 1)]);
            let mut comparison = comparison(by_tickets, by_states);
            let separate = run_separately(&mut comparison.module, &ticket).expect("no refusal");
            let costs = [12_345, 10, 5, HIGHEST_COST, HIGHEST_COST, HIGHEST_COST, 999_999_999];
            let asked = [1, 2, 3, 4];
            comparison.keep_quotes(&ticket.text(), &costs, &asked, &separate).is_ok()
        };
        assert!(is_kept(Mistake::None, Mistake::None));
        for mistake in &OF_BOTH[..12] {
            assert!(!is_kept(*mistake, Mistake::None), "{mistake:?}");
            assert!(!is_kept(Mistake::None, *mistake), "{mistake:?}");
            // Both calls have it, and any two quote the same wrong penny.
            assert!(is_kept(*mistake, *mistake), "{mistake:?}");
        }
        for mistake in [
            Mistake::QuotesACrashedProcessAs0,
            Mistake::QuotesACrashedProcessByValue0,
            Mistake::QuotesACrashedProcessByItsEstimate,
            Mistake::QuotesByTheOwnProposal,
            Mistake::RefusesTheLastProcess,
        ] {
            assert!(!is_kept(mistake, Mistake::None), "{mistake:?}");
        }
        assert!(!is_kept(Mistake::None, Mistake::PricesAnOpenState));
    }
}
