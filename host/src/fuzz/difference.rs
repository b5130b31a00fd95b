//! A call that differs, in full.

use std::ops::Range;

use second::generate::Chain;
use second::Request;

use super::area::Area;
use super::compare::Comparer;
use super::plan::{List, Plan};
use crate::changes;
use crate::record;
use crate::sides;

/// The most lines for places that differ.
const MOST_LINES: usize = 200;

/// The call with this number, which has just been made.
pub fn of_call(plan: &Plan, list: &List, index: u64, comparer: &Comparer) -> String {
    let place = (index - list.first) as usize;
    let Chain { image, requests } = &list.chain;
    let request = &requests[place];
    let mut lines = vec![format!("call {index} of seed {} differs", plan.seed)];
    if requests.len() > 1 {
        lines.push(format!("it is on the storage that calls {} to {} share", list.first, list.last()));
    }
    lines.extend(request_lines(request));
    lines.push(format!("storage of {} bytes, {} keys", image.storage_size, image.key_count));
    lines.extend(before_lines(&list.chain, place));
    if let Some((library, second)) = comparer.last {
        lines.push(format!("library:        {}", sides::numbers(library.answer, request.first_halfword)));
        lines.push(format!("second program: {}", sides::numbers(second.answer, request.first_halfword)));
        lines.extend(changes::record_lines(&library.record, &second.record, sides::told_apart));
    }
    let (library, second) = (&comparer.library, &comparer.counted);
    lines.extend(place_lines("storage", image.storage_size, &library.storage, &second.storage));
    lines.extend(place_lines("keys", image.key_count, &library.keys, &second.keys));
    lines.extend(comparer.trails.difference());
    lines.join("\n") + "\n"
}

fn request_lines(request: &Request) -> Vec<String> {
    let Request { guest, first_halfword, expanded } = request;
    let installed = if *expanded { "installed" } else { "not installed" };
    let words = record::of_guest(guest).map(|word| format!("{word:08X}"));
    let mut lines = vec![format!("first halfword {first_halfword:04X}, expanded assist {installed}")];
    lines.push(format!("record ({}):", record::ORDER));
    lines.extend(words.chunks(7).map(|words| format!("  {}", words.join(" "))));
    lines
}

/// What storage and keys held before the call: the image, and what the calls before it left.
fn before_lines(chain: &Chain, place: usize) -> Vec<String> {
    let (mut storage, mut keys) = (chain.image.storage(), chain.image.key_bytes());
    for request in &chain.requests[..place] {
        sides::counted(request, &mut storage, &mut keys);
    }
    let mut lines = vec!["bytes of storage before the call; all others are zero:".to_string()];
    lines.extend(non_zero(&storage));
    lines.push("keys before the call, by number in hex; all others are zero:".into());
    lines.extend(non_zero(&keys));
    lines
}

/// The bytes that are not zero.
pub fn non_zero(bytes: &[u8]) -> Vec<String> {
    let line = |run: Range<usize>| format!("  {:06X}: {}", run.start, changes::hex(&bytes[run.clone()]));
    changes::runs(bytes, &vec![0; bytes.len()], 16, 3).into_iter().map(line).collect()
}

/// The places at which two areas differ, also outside what was lent.
pub fn place_lines(what: &str, size: usize, library: &Area, second: &Area) -> Vec<String> {
    let runs = changes::runs(library.all(), second.all(), 8, 0);
    let more = runs.len().saturating_sub(MOST_LINES);
    let bytes = |area: &Area, run: &Range<usize>| changes::hex(&area.all()[run.clone()]);
    let line = |run: Range<usize>| {
        let values = sides::told_apart(&bytes(library, &run), &bytes(second, &run));
        format!("{}: {values}", place_words(what, size, library.start(), run.start))
    };
    let mut lines: Vec<String> = runs.into_iter().take(MOST_LINES).map(line).collect();
    if more > 0 {
        lines.push(format!("{what}: and {more} more"));
    }
    lines
}

/// A place of an area in words, where what is lent begins at `start`.
fn place_words(what: &str, size: usize, start: usize, place: usize) -> String {
    match place.checked_sub(start) {
        None => format!("OUTSIDE {what}, at its start - {}", start - place),
        Some(place) if place >= size => format!("OUTSIDE {what}, at its end + {}", place - size),
        Some(place) => format!("{what} {place:06X}"),
    }
}

/// Calls after which something is left that the second program's list of references doesn't name.
pub fn of_list(plan: &Plan, list: &List) -> String {
    format!(
        "calls {} to {} of seed {}: both sides alike changed a byte or key that the second program's list of \
         references doesn't name\n",
        list.first,
        list.last(),
        plan.seed
    )
}

/// A group in which something differed, but didn't when its calls were made again.
pub fn of_group(plan: &Plan, group: u64) -> String {
    let calls = plan.calls_of(group);
    format!(
        "calls {} to {} of seed {}: one of them differed, and none did when they were made again\n",
        calls.start,
        calls.end - 1,
        plan.seed
    )
}
