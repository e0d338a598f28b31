//! The three-way answer: the worker of arrow.rs itself, and its short cut, beside the entry here.
use super::sides::{Here, Parser};
use super::tally::Tally;
use super::text::show;
use crate::js::Tristate;
use crate::lexer::Kind;
use crate::stand_in::guess::Guess;
use crate::stand_in::parser::Settings;
use lists::List;
use twin::protocol::Entries;

/// The number of an answer.
fn number(answer: Tristate) -> u8 {
    match answer {
        Tristate::False => 0,
        Tristate::True => 1,
        Tristate::Maybe => 2,
    }
}

const NAMES: [&str; 3] = ["False", "True", "Maybe"];

/// The answers of a window at some places, with both flags off and on. `kinds` may hold other words of the same bytes.
pub fn compare(list: &List, kinds: &[Kind], places: std::ops::Range<usize>, tally: &mut Tally) {
    tally.lists += 1;
    for place in places {
        for (is_ts, jsx) in [(false, false), (false, true), (true, false), (true, true)] {
            let settings = Settings { is_ts, jsx, guess: Guess::Usual };
            let here = Here::three_way(&list.kinds, &list.flags, is_ts, jsx, place);
            let there = number(Parser::new(kinds, &list.flags, settings, place).three_way_answer());
            tally.compared += 1;
            tally.count(NAMES[there as usize]);
            let told = |what: u8| format!("{} at {place}, TypeScript {is_ts}, JSX {jsx}: {here:?} here, {what} there", show(list));
            if here != Ok(there) {
                tally.differs("three-way answer", list.len(), || told(there));
            }
            // At any other start the crate does not ask its worker.
            if matches!(kinds[place], Kind::LParen | Kind::LAngle | Kind::Async) {
                let worker = number(Parser::new(kinds, &list.flags, settings, place).worker_answer());
                if here != Ok(worker) {
                    tally.differs("three-way answer, the worker without its short cut", list.len(), || told(worker));
                }
            }
        }
    }
}
