//! The reasons of Paper 7, given by the implementation under test and by the second
//! one: each by itself, and all of a run at once.

use second::interface::{Agreement, REFUSED};
use second::rng::Rng;
use second::round_reason::MOST_REASONS;
use second::separate::SeparateRun;
use second::Ticket;

use crate::comparison::{filled, first_difference, in_words, rounds_in, Comparison};
use crate::comparison::{seed_of, IN_LETTERS, IN_SECOND};

/// Numbers that no process and no round has, and that some would if they were cut to 8,
/// 32 or fewer bits than they have.
const LARGE: [u64; 5] = [255, 257, 0x1_0000_0001, 1 << 63 | 1, u64::MAX];

/// Of a run with no more reasons than these, each is asked for by itself, and every
/// place outside it.
const FEW: usize = 16;

/// How many are asked for of any other, by chance.
const SOME: usize = 5;

/// The refusal of a process or a round that there is not.
const OUTSIDE: u64 = 13 * REFUSED;

/// Processes and rounds of which one is not of a run of so many.
fn outside(n: u64, t: u64, rounds: u64) -> Vec<(u64, u64)> {
    let processes = [0, n + 1].into_iter().chain(LARGE).map(|process| (process, rounds));
    let beyond = [0, rounds + 1, t + 2, n + 1];
    processes.chain(beyond.into_iter().chain(LARGE).map(|round| (n, round))).collect()
}

/// All reasons of an accepted ticket's run.
fn table_of(module: &mut impl Agreement, text: &[u8]) -> Vec<u8> {
    let mut table = vec![0; MOST_REASONS];
    let written = module.reasons(text, &mut table) as usize;
    table.truncate(written);
    table
}

impl<M: Agreement> Comparison<M> {
    /// The reasons of an accepted ticket: the table in outputs that are long enough and
    /// too short, single ones, and what is outside the run.
    pub(crate) fn accepted_reasons(&mut self, text: &[u8], ticket: &Ticket) -> Result<(), String> {
        let table = table_of(&mut self.second, text);
        let (n, written) = (usize::from(ticket.n), table.len());
        for room in [written - 1, written, written + 9] {
            self.table(text, room)?;
        }
        let mut rng = Rng::new(seed_of(text));
        let mut some_of = |count: usize| -> Vec<usize> {
            if written <= FEW {
                (0..count).collect()
            } else {
                (0..SOME).map(|_| rng.below(count)).collect()
            }
        };
        for place in some_of(written) {
            let (process, round) = (place % n + 1, place / n + 1);
            self.reason(text, process as u64, round as u64, table[place].into())?;
        }
        let outside = outside(n as u64, ticket.t.into(), (written / n) as u64);
        for place in some_of(outside.len()) {
            let (process, round) = outside[place];
            self.reason(text, process, round, OUTSIDE)?;
        }
        Ok(())
    }

    /// Every reason of an accepted ticket, each by itself.
    pub(crate) fn every_reason(&mut self, ticket: &Ticket) -> Result<(), String> {
        let text = ticket.text();
        let table = table_of(&mut self.second, &text);
        let n = usize::from(ticket.n);
        for (round, reasons) in (1..).zip(table.chunks(n)) {
            for (process, &reason) in (1..).zip(reasons) {
                self.reason(&text, process, round, reason.into())?;
            }
        }
        let places = outside(n as u64, ticket.t.into(), (table.len() / n) as u64);
        places
            .into_iter()
            .try_for_each(|(process, round)| self.reason(&text, process, round, OUTSIDE))
    }

    /// A refused ticket has the refusal of settling, whatever is asked about it and
    /// however short the output is.
    pub(crate) fn refused_reasons(&mut self, text: &[u8], refusal: u64) -> Result<(), String> {
        for (process, round) in [(1, 1), (0, 0), (u64::MAX, u64::MAX)] {
            self.reason(text, process, round, refusal)?;
        }
        [0, MOST_REASONS].into_iter().try_for_each(|room| self.table(text, room))
    }

    /// One call for one reason.
    fn reason(&mut self, text: &[u8], process: u64, round: u64, right: u64) -> Result<(), String> {
        self.counts.reasons += 1;
        let answer = self.module.reason(text, process, round);
        if answer == right {
            return Ok(());
        }
        let [answer, right] = [answer, right].map(in_words);
        Err(format!(
            "the reason of process {process} in round {round} is {answer}, {IN_SECOND} {right}"
        ))
    }

    /// One call for all reasons, with an output of `room` bytes: the answer, and every
    /// byte of the output and behind it.
    fn table(&mut self, text: &[u8], room: usize) -> Result<(), String> {
        self.counts.tables += 1;
        let mut output = filled(room, self.next_fill());
        let mut expected = output.clone();
        let answer = self.module.reasons(text, &mut output[..room]);
        let second = Agreement::reasons(&mut self.second, text, &mut expected[..room]);
        if answer == second && output == expected {
            return Ok(());
        }
        let [answer, second] = [answer, second].map(in_words);
        let bytes = first_difference(&output, &expected, IN_SECOND);
        Err(format!(
            "giving all reasons with {room} bytes of output answers {answer}, {IN_SECOND} \
             {second}; {bytes}"
        ))
    }

    /// The claim of Paper 7 about the module alone: its reasons are those of what its
    /// own separate parts hear, in each of the rounds that its own result has.
    pub(crate) fn keep_reasons(
        &mut self,
        text: &[u8],
        result: &[u8],
        separate: &SeparateRun,
    ) -> Result<(), String> {
        self.counts.heard += 1;
        let table = table_of(&mut self.module, text);
        let rounds = rounds_in(result).map_or(0, |rounds| rounds as usize);
        let heard = separate.reasons.get(..rounds).map(<[_]>::concat).unwrap_or_default();
        if heard == table {
            return Ok(());
        }
        Err(format!("the reasons are {table:?}, by what separate parts hear {heard:?}"))
    }

    /// Two writings of one ticket have the same reasons.
    pub(crate) fn reasons_in_other_letters(
        &mut self,
        text: &[u8],
        other: &[u8],
    ) -> Result<(), String> {
        let mut tables = [vec![0; MOST_REASONS], vec![0; MOST_REASONS]];
        let [table, other_table] = &mut tables;
        let answers = [self.module.reasons(text, table), self.module.reasons(other, other_table)];
        if answers[0] == answers[1] && table == other_table {
            return Ok(());
        }
        let [answer, other_answer] = answers.map(in_words);
        let bytes = first_difference(table, other_table, IN_LETTERS);
        Err(format!("giving all reasons answers {answer}, {IN_LETTERS} {other_answer}; {bytes}"))
    }
}

#[cfg(test)]
mod tests {
    use super::*;
    use crate::comparison::Difference;
    use crate::exhaustive;
    use second::report::result_length;
    use second::separate::run_separately;
    use second::{worked, Failure, Simulator};

    /// A mistake that the comparison must see.
    #[derive(Clone, Copy, Debug, PartialEq)]
    enum Mistake {
        None,
        Swaps4And5,
        CoordinatesThoughItCrashes,
        HearsNothingOfACoordinatorThatCrashes,
        EndedBeforeThoughItCrashesNow,
        HeardTheValueOnlyThoughItDecides,
        HearsBeforeItCrashes,
        GivesReasonsUpToRoundT1,
        GivesReasonsUpToRoundN,
        RefusesTheLastRound,
        RefusesTheLastProcess,
        Refuses13Before3,
        Refuses13AtALine,
        TakesProcess0,
        TakesRound0,
        CutsTheProcessTo8Bits,
        CutsTheProcessTo32Bits,
        CutsTheRoundTo8Bits,
        CutsTheRoundTo32Bits,
        WritesProcessByProcess,
        WritesOneRoundTooFew,
        WritesRoundsUpToT1,
        WritesBehindTheReasons,
        WritesWhatFits,
        WritesBeforeItRefuses,
        RefusesJustEnoughRoom,
        AsksForRoomForEveryTicket,
        RefusesTheRoomBeforeTheTicket,
        LeavesOutSmallLetters,
    }

    /// The mistakes about which reason it is.
    const ABOUT_WHICH: [Mistake; 6] = [
        Mistake::Swaps4And5,
        Mistake::CoordinatesThoughItCrashes,
        Mistake::HearsNothingOfACoordinatorThatCrashes,
        Mistake::EndedBeforeThoughItCrashesNow,
        Mistake::HeardTheValueOnlyThoughItDecides,
        Mistake::HearsBeforeItCrashes,
    ];

    /// The mistakes about the process and the round that are asked for.
    const ABOUT_WHOM: [Mistake; 12] = [
        Mistake::GivesReasonsUpToRoundT1,
        Mistake::GivesReasonsUpToRoundN,
        Mistake::RefusesTheLastRound,
        Mistake::RefusesTheLastProcess,
        Mistake::Refuses13Before3,
        Mistake::Refuses13AtALine,
        Mistake::TakesProcess0,
        Mistake::TakesRound0,
        Mistake::CutsTheProcessTo8Bits,
        Mistake::CutsTheProcessTo32Bits,
        Mistake::CutsTheRoundTo8Bits,
        Mistake::CutsTheRoundTo32Bits,
    ];

    /// The mistakes about what is written.
    const ABOUT_TABLES: [Mistake; 10] = [
        Mistake::WritesProcessByProcess,
        Mistake::WritesOneRoundTooFew,
        Mistake::WritesRoundsUpToT1,
        Mistake::WritesBehindTheReasons,
        Mistake::WritesWhatFits,
        Mistake::WritesBeforeItRefuses,
        Mistake::RefusesJustEnoughRoom,
        Mistake::AsksForRoomForEveryTicket,
        Mistake::RefusesTheRoomBeforeTheTicket,
        Mistake::LeavesOutSmallLetters,
    ];

    /// The reason by a mistake of who has `right`, in a round whose coordinator has its
    /// own.
    fn mistaken_reason(mistake: Mistake, right: u8, coordinator: u8, coordinates: bool) -> u8 {
        match (mistake, right) {
            (Mistake::Swaps4And5, 4 | 5) => 9 - right,
            (Mistake::CoordinatesThoughItCrashes, 6) if coordinates => 1,
            (Mistake::HearsNothingOfACoordinatorThatCrashes, 2 | 3) if coordinator == 6 => 5,
            (Mistake::EndedBeforeThoughItCrashesNow, 6) => 7,
            (Mistake::HeardTheValueOnlyThoughItDecides, 2) => 3,
            (Mistake::HearsBeforeItCrashes, 6) if coordinator == 1 => 2,
            _ => right,
        }
    }

    /// All reasons of an accepted ticket by a mistake.
    fn mistaken_table(mistake: Mistake, ticket: &Ticket) -> Vec<u8> {
        let table = table_of(&mut Simulator::new(), &ticket.text());
        let n = usize::from(ticket.n);
        let rounds = table.len() / n;
        let of_round = |(round, reasons): (usize, &[u8])| -> Vec<u8> {
            let reasons = reasons.iter().enumerate();
            let coordinator = table[round * n + round];
            let mistaken = |(place, &right): (usize, &u8)| {
                mistaken_reason(mistake, right, coordinator, place == round)
            };
            reasons.map(mistaken).collect()
        };
        let mut by_round: Vec<Vec<u8>> = table.chunks(n).enumerate().map(of_round).collect();
        match mistake {
            Mistake::WritesProcessByProcess => {
                let process = |place: usize| by_round.iter().map(move |reasons| reasons[place]);
                by_round = (0..n).map(|place| process(place).collect()).collect();
            }
            Mistake::WritesOneRoundTooFew if rounds > 1 => by_round.truncate(rounds - 1),
            Mistake::WritesRoundsUpToT1 => by_round.resize(usize::from(ticket.t) + 1, vec![7; n]),
            _ => {}
        }
        by_round.concat()
    }

    /// The process and the round of which a mistake gives the reason.
    fn mistaken_place(mistake: Mistake, process: u64, round: u64) -> (u64, u64) {
        match mistake {
            Mistake::TakesProcess0 => (process.max(1), round),
            Mistake::TakesRound0 => (process, round.max(1)),
            Mistake::CutsTheProcessTo8Bits => (process % (1 << 8), round),
            Mistake::CutsTheProcessTo32Bits => (process % (1 << 32), round),
            Mistake::CutsTheRoundTo8Bits => (process, round % (1 << 8)),
            Mistake::CutsTheRoundTo32Bits => (process, round % (1 << 32)),
            _ => (process, round),
        }
    }

    /// What is answered by a mistake about an accepted ticket, a process and a round.
    fn mistaken_answer(mistake: Mistake, ticket: &Ticket, process: u64, round: u64) -> u64 {
        let table = mistaken_table(mistake, ticket);
        let (n, t) = (u64::from(ticket.n), u64::from(ticket.t));
        let rounds = table.len() as u64 / n;
        let (process, round) = mistaken_place(mistake, process, round);
        let (most, last) = match mistake {
            Mistake::GivesReasonsUpToRoundT1 => (n, t + 1),
            Mistake::GivesReasonsUpToRoundN => (n, n),
            Mistake::RefusesTheLastRound => (n, rounds - 1),
            Mistake::RefusesTheLastProcess => (n - 1, rounds),
            _ => (n, rounds),
        };
        if !(1..=most).contains(&process) || !(1..=last).contains(&round) {
            return OUTSIDE + u64::from(mistake == Mistake::Refuses13AtALine);
        }
        let place = (round - 1) * n + process - 1;
        table.get(place as usize).map_or(7, |&reason| reason.into())
    }

    /// The second implementation with a mistake about reasons.
    struct Mistaken(Simulator, Mistake);

    impl Agreement for Mistaken {
        fn run(&mut self, ticket: &[u8], output: &mut [u8]) -> u64 {
            Agreement::run(&mut self.0, ticket, output)
        }

        fn settle(&mut self, ticket: &[u8]) -> u64 {
            self.0.settle(ticket)
        }

        fn reason(&mut self, ticket: &[u8], process: u64, round: u64) -> u64 {
            match Ticket::parse(ticket) {
                Err(_) if self.1 == Mistake::Refuses13Before3 && process == 0 => OUTSIDE,
                Err(_) => self.0.settle(ticket),
                // The mistakes about tables give single reasons rightly.
                Ok(read) if ABOUT_TABLES.contains(&self.1) => {
                    mistaken_answer(Mistake::None, &read, process, round)
                }
                Ok(read) => mistaken_answer(self.1, &read, process, round),
            }
        }

        fn reasons(&mut self, ticket: &[u8], output: &mut [u8]) -> u64 {
            let room = output.len();
            let Ok(read) = Ticket::parse(ticket) else {
                let short = self.1 == Mistake::RefusesTheRoomBeforeTheTicket && room == 0;
                return if short { 9 * REFUSED } else { self.0.settle(ticket) };
            };
            let table = mistaken_table(self.1, &read);
            let enough = match self.1 {
                Mistake::RefusesJustEnoughRoom => table.len() + 1,
                Mistake::AsksForRoomForEveryTicket => MOST_REASONS,
                Mistake::WritesWhatFits => 0,
                _ => table.len(),
            };
            let fits = table.len().min(room);
            if room >= enough || self.1 == Mistake::WritesBeforeItRefuses {
                output[..fits].copy_from_slice(&table[..fits]);
            }
            match self.1 {
                _ if room < enough => return 9 * REFUSED,
                Mistake::WritesBehindTheReasons if fits < room => output[fits] = 0,
                Mistake::LeavesOutSmallLetters if ticket.iter().any(u8::is_ascii_lowercase) => {
                    output[..fits].fill(7)
                }
                _ => {}
            }
            table.len() as u64
        }

        fn quote(&mut self, ticket: &[u8], costs: &[u64], process: u64, quote: &mut u64) -> u64 {
            Agreement::quote(&mut self.0, ticket, costs, process, quote)
        }

        fn price(&mut self, state: &[u8], costs: &[u64], quote: &mut u64) -> u64 {
            self.0.price(state, costs, quote)
        }

        fn start(&mut self, process: u64, n: u64, t: u64, value: u32, state: &mut [u8]) -> u64 {
            self.0.start(process, n, t, value, state)
        }

        fn speak(&mut self, state: &[u8], output: &mut [u8]) -> u64 {
            self.0.speak(state, output)
        }

        fn close(&mut self, state: &mut [u8], heard: &[u8]) -> u64 {
            self.0.close(state, heard)
        }
    }

    /// Runs in which all reasons are given: cases 1 and 6, and one in which a process
    /// crashes while its coordinator decides.
    fn tried() -> [Ticket; 3] {
        let failures = vec![Failure::before_sending(4, 1)];
        [worked::case(1), worked::case(6), Ticket { failures, ..worked::case(1) }]
    }

    fn compared(mistake: Mistake) -> Result<(), Difference> {
        let mut comparison = Comparison::new(Mistaken(Simulator::new(), mistake));
        for ticket in tried() {
            comparison.ticket(&ticket.text(), &[result_length(4)])?;
            comparison.in_other_letters(&ticket.text(), result_length(4))?;
        }
        comparison.ticket(b"010402\n05\n", &[])
    }

    #[test]
    fn each_mistake_about_reasons_is_seen() {
        assert_eq!(compared(Mistake::None), Ok(()));
        for mistake in ABOUT_WHICH.into_iter().chain(ABOUT_WHOM).chain(ABOUT_TABLES) {
            assert!(compared(mistake).is_err(), "{mistake:?}");
        }
    }

    #[test]
    fn mistakes_about_large_runs_are_seen() {
        let compared = |mistake| {
            let mut comparison = Comparison::new(Mistaken(Simulator::new(), mistake));
            exhaustive::single_reasons_of(&mut comparison, 12)
        };
        assert_eq!(compared(Mistake::None), Ok(()));
        for mistake in ABOUT_WHICH.into_iter().chain(ABOUT_WHOM) {
            let about_refused = mistake == Mistake::Refuses13Before3;
            assert_eq!(compared(mistake).is_err(), !about_refused, "{mistake:?}");
        }
    }

    /// Which reasons are wrong is seen by the module's own separate parts.
    #[test]
    fn mistakes_about_reasons_are_seen_without_the_second_implementation() {
        let is_kept = |mistake, ticket: &Ticket| {
            let mut comparison = Comparison::new(Mistaken(Simulator::new(), mistake));
            let mut result = vec![0; result_length(ticket.n)];
            comparison.module.run(&ticket.text(), &mut result);
            let separate = run_separately(&mut comparison.module, ticket).expect("no refusal");
            comparison.keep_reasons(&ticket.text(), &result, &separate).is_ok()
        };
        let written_otherwise = [
            Mistake::WritesProcessByProcess,
            Mistake::WritesOneRoundTooFew,
            Mistake::WritesRoundsUpToT1,
        ];
        for mistake in ABOUT_WHICH.into_iter().chain(written_otherwise) {
            let kept = tried().map(|ticket| {
                assert!(is_kept(Mistake::None, &ticket));
                is_kept(mistake, &ticket)
            });
            assert!(kept.contains(&false), "{mistake:?}");
        }
    }
}
