//! A judge of tables with a flaw: the right answer, bent.

use super::{ends, self_links, times, Flaw};
use crate::format::{link_faults, link_refusal, Link, LinkRule, DIRECT};
use crate::order::Order;
use crate::sizes::{RecordingKind, ROOM};
use crate::state::State;
use crate::subject::{made_of, Made, Oracle, Subject};
use crate::tables::LentTable;

/// The right answer to a table bent the way a wrong judge would give it.
pub fn distorted_table(flaw: Flaw, table: &LentTable, right: Made) -> Made {
    if let Some(rule) = own_rule(flaw) {
        return made_of(table.judged_by(ROOM, rule));
    }
    let in_links = matches!(right.refusal, 4..=9 | 20);
    match flaw {
        Flaw::LeastOfAllLinks if in_links => {
            let least = link_faults(table.order(), &table.as_it_stands().links, link_refusal).min();
            Made { refusal: least.unwrap_or(0), ..right }
        }
        Flaw::EarlyTableKept if in_links => Made { state: State::fresh(&table.as_it_stands()), ..right },
        Flaw::LinksBeforeTasks if right.refusal == 2 && ROOM.link_refusal(table.links) != 0 => {
            Made { refusal: 3, ..right }
        }
        Flaw::StatesBySmaller => made_of(table.judged_by(RecordingKind::SIXTEEN.limits, link_refusal)),
        Flaw::CountsCutToBytes => {
            let byte = |count: usize| usize::from(count as u8);
            Oracle.fresh(&LentTable { tasks: byte(table.tasks), links: byte(table.links), ..table.clone() })
        }
        Flaw::PastCountsKept if right.refusal == 0 => {
            let state =
                State { defaults: table.defaults, kind: table.kind, start_value: table.start_value, ..right.state };
            Made { refusal: 0, state }
        }
        Flaw::Unsound(clause) if clause.table_refusal() == Some(right.refusal) => Made { refusal: 0, ..right },
        _ if right.refusal == 0 => Made { refusal: 0, state: ends::fresh(flaw, right.state) },
        _ => right,
    }
}

/// The rule by which a wrong judge knows a link at fault after earlier ones.
pub fn link_rule(flaw: Flaw) -> LinkRule {
    own_rule(flaw).unwrap_or(link_refusal)
}

/// It, where it is not the right one.
fn own_rule(flaw: Flaw) -> Option<LinkRule> {
    match flaw {
        Flaw::LinkFaultsFalling => Some(greatest_link_fault),
        Flaw::TwentyBeforeNine => Some(twenty_before_nine),
        Flaw::TwentyByLowByte => Some(twenty_by_low_byte),
        _ => self_links::rule(flaw).or_else(|| times::rule(flaw)),
    }
}

fn direct_with_start(link: Link) -> bool {
    link.kind == DIRECT && link.start_value != 0
}

fn twenty_before_nine(order: &Order, earlier: &[Link], link: Link) -> u8 {
    match link_refusal(order, earlier, link) {
        9 if direct_with_start(link) => 20,
        refusal => refusal,
    }
}

/// A start value whose lowest byte is 0 passes for none.
fn twenty_by_low_byte(order: &Order, earlier: &[Link], link: Link) -> u8 {
    match link_refusal(order, earlier, link) {
        20 if link.start_value as u8 == 0 => 0,
        refusal => refusal,
    }
}

/// The last rule that a link breaks, in place of the first.
fn greatest_link_fault(order: &Order, earlier: &[Link], link: Link) -> u8 {
    let same = earlier.iter().filter(|other| other.writer == link.writer);
    let behind = same.clone().filter(|other| other.reader_behind(order)).count();
    [
        (4, usize::from(link.writer) >= order.tasks || usize::from(link.reader) >= order.tasks),
        (5, link.kind == 0 && link.to_itself()),
        (6, link.kind > 1),
        (7, link.kind == 0 && link.reader_ahead(order)),
        (8, same.clone().any(|other| other.reader == link.reader)),
        (9, link.reader_behind(order) && behind >= 8),
        (20, direct_with_start(link)),
        (link_refusal(order, earlier, link), true),
    ]
    .iter()
    .filter(|(_, applies)| *applies)
    .map(|(number, _)| *number)
    .fold(0, u8::max)
}
