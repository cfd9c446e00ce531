//! What the programs `replay` and `inspect` print (docs/FORMAT.md, "The two
//! printouts"), and `printouts FOLDER`, which writes recordings of all corpora
//! with both printouts that each must have, for the judge to compare.

use std::fs;
use std::path::Path;

use crate::corpus::{batch, Case, CORPORA};
use crate::engine::{RUNNING, WAITING};
use crate::format::printout;
use crate::prng::Prng;
use crate::reach::at_least;
use crate::sizes::{RecordingKind, KINDS, MOST_EVENTS};
use crate::state::{State, ABSENT, BY_DEADLINE};
use crate::subject::{Answer, Oracle, Subject};

/// So many recordings of each corpus.
const OF_EACH: usize = 10;

/// So often each word must be printed, and half as often a recording of each kind
/// be accepted; the last task and link must come up once.
const OFTEN: usize = 20;

/// What `inspect` prints of an answer.
pub fn inspected(answer: &Answer) -> String {
    let (state, counts) = (&answer.state, &answer.counts);
    let mut lines = vec![
        format!("refusal {}", answer.refusal),
        format!("place {}", answer.place),
        format!("counts {} {} {} {}", counts.arrivals, counts.starts, counts.reads, counts.finishes),
    ];
    lines.extend(Some(format!("last {}", state.last)).filter(|_| state.policy == BY_DEADLINE));
    lines.extend((0..usize::from(state.tasks)).map(|task| task_line(state, task)));
    lines.extend((0..usize::from(state.links)).map(|link| link_line(state, link)));
    lines.push(format!("rest {}", answer.rest.len()));
    lines.join("\n") + "\n"
}

fn task_line(state: &State, task: usize) -> String {
    let phase = match state.phase[task] {
        RUNNING => "running",
        WAITING => "waiting",
        _ => "idle",
    };
    let cell = |position: usize| format!(" {}", state.cells[state.cell(task, position as u8)]);
    let cells: String = (1..=state.positions(task)).map(cell).collect();
    let since = match state.policy {
        BY_DEADLINE if state.active(task) => format!(" since {}", state.since[task]),
        _ => String::new(),
    };
    format!(
        "task {} {} newest {} previous {} cells{} had {}{}",
        task, phase, state.newest[task], state.previous[task], cells, state.seen[task], since
    )
}

fn link_line(state: &State, link: usize) -> String {
    let pointer = match state.pointer[link] {
        ABSENT => "absent".to_string(),
        position => position.to_string(),
    };
    format!("link {} pointer {}{}", link, pointer, if state.mark[link] == 1 { " mark" } else { "" })
}

/// The exit status: 0 the files stand there, 1 they do not show all that they
/// must, 2 bad usage or a folder that cannot be used.
pub fn command() -> i32 {
    let arguments: Vec<String> = std::env::args().skip(1).collect();
    let done = match &arguments[..] {
        [folder] => write_all(Path::new(folder)).map_err(|fault| format!("{}: {}", folder, fault)),
        _ => Err("usage: printouts FOLDER".to_string()),
    };
    match done {
        Ok(missing) => {
            missing.iter().for_each(|what| println!("not reached: {}", what));
            i32::from(!missing.is_empty())
        }
        Err(fault) => {
            eprintln!("printouts: {}", fault);
            2
        }
    }
}

/// Writes N.rec, N.replay and N.inspect of each recording. Tells what they do
/// not show.
fn write_all(folder: &Path) -> std::io::Result<Vec<String>> {
    let mut all = String::new();
    let (mut marked, mut of_self_links) = (0, 0);
    let mut accepted = KINDS.map(|kind| (kind, 0));
    for (number, mut bytes) in recordings().into_iter().enumerate() {
        bytes.truncate(RecordingKind::DATED.most_bytes() + 1);
        let answer = Oracle.replay(&bytes, &[0; MOST_EVENTS]);
        let read = printout(&bytes, answer.refusal, answer.place, answer.counts, &answer.list);
        let inspected = inspected(&answer);
        marked += usize::from(inspected.contains(" mark\n"));
        for (kind, count) in &mut accepted {
            *count += usize::from(answer.refusal == 0 && bytes[0] == kind.first_byte);
        }
        of_self_links += answer.state.self_links_of(u32::MAX).filter(|l| answer.state.pointer[*l] != ABSENT).count();
        let named = |program: &str| folder.join(format!("{:03}.{}", number, program));
        fs::write(named("replay"), &read)?;
        fs::write(named("inspect"), &inspected)?;
        fs::write(named("rec"), &bytes)?;
        all += &(read + &inspected);
    }
    let mut missing = Vec::new();
    at_least(&mut missing, "recordings that end with a mark", marked, OFTEN);
    at_least(&mut missing, "pointers of self links at the end of a recording", of_self_links, OFTEN);
    for (kind, count) in accepted {
        at_least(&mut missing, &format!("recordings of {} that are accepted", kind.first_byte), count, OFTEN / 2);
    }
    let often =
        ["read ", "accepted ", "refused ", " had 0\n", " had 1\n", " had 2\n", " absent\n", "\nlast ", " since "];
    let of_last = ["\ntask 31 ", "\nlink 95 ", "\nread 95 "];
    let wanted = often.map(|words| (words, OFTEN)).into_iter().chain(of_last.map(|words| (words, 1)));
    for (words, wanted) in wanted {
        at_least(&mut missing, &format!("{:?} printed", words), all.matches(words).count(), wanted);
    }
    Ok(missing)
}

/// Some of each corpus, spread over families.
fn recordings() -> Vec<Vec<u8>> {
    let mut prng = Prng::new(1);
    let mut some = |corpus| {
        let cases: Vec<Case> = (0..OF_EACH).flat_map(|number| batch(corpus, number, &mut prng)).collect();
        let step = cases.len() / OF_EACH;
        cases.into_iter().step_by(step).take(OF_EACH).map(|case| case.bytes).collect::<Vec<_>>()
    };
    CORPORA.iter().flat_map(|corpus| some(*corpus)).collect()
}
