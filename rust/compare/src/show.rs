//! Inputs as text, in full.
use crate::calls::{Call, GivenBound, TreeCall};
use crate::fold::FoldInput;
use crate::input::Input;
use crate::label::without_label;
use crate::tree::TreeInput;
use recon::Table;
use reference::Odd;
use std::fmt::Write;

pub fn hex(bytes: &[u8]) -> String {
    bytes
        .iter()
        .fold(String::with_capacity(2 * bytes.len()), |mut text, byte| {
            write!(text, "{:02x}", byte).expect("a string takes all");
            text
        })
}

/// A byte string in words.
fn bytes(bytes: &[u8]) -> String {
    format!("{} bytes {}", bytes.len(), hex(bytes))
}

fn table(table: Table<'_>) -> String {
    let mut text = format!("  table: {} times, {} id bytes\n", table.times.len(), table.ids.len());
    let mut ids = table.ids.chunks(32);
    for time in table.times {
        text += &format!("    {} {}\n", time, hex(ids.next().unwrap_or(&[])));
    }
    for id in ids {
        text += &format!("    (no time) {}\n", hex(id));
    }
    text
}

pub fn input(input: &Input<'_>) -> String {
    let mut text = format!("{}\n{}", input.name(), table(input.table));
    if input.call == Call::Convert {
        let (session, marks, needed) = (without_label(input.session), bytes(input.marks), bytes(input.needed));
        return text + &format!("  {:?}\n  marks: {}\n  needed: {}\n", session, marks, needed);
    }
    text += &format!("  parts {}, limit {}\n", input.cut.parts, input.cut.limit);
    if input.odd == Odd::ToFirst {
        text += "  by the former rule, which the library does not have\n";
    }
    if let Some(bytes) = input.bytes {
        text += &format!("  byte limit {}\n", bytes);
    }
    if input.call != Call::Open {
        text += &format!("  message: {}\n", bytes(input.message));
    }
    if input.call == Call::Take {
        text += &format!("  {:?}\n", input.session);
    }
    if input.call != Call::Answer {
        text += &format!("  marks: {}\n  needed: {}\n", bytes(input.marks), bytes(input.needed));
    }
    text + &format!("  out: {}\n", bytes(input.out))
}

pub fn fingerprint(of: Table<'_>, lower: GivenBound<'_>, upper: GivenBound<'_>) -> String {
    let bound = |bound: GivenBound<'_>| {
        let time = if bound.infinite {
            format!("infinity, {}", bound.time)
        } else {
            bound.time.to_string()
        };
        format!("{}, prefix of {}", time, bytes(bound.prefix))
    };
    format!(
        "fingerprint\n{}  lower: {}\n  upper: {}\n",
        table(of),
        bound(lower),
        bound(upper)
    )
}

pub fn tree(input: &TreeInput<'_>) -> String {
    let mut text = format!("{}\n{}", input.call().name(), table(input.table));
    if let Some(item) = input.item {
        text += &format!("  item: {}, id of {}\n", item.time, bytes(item.id));
    }
    text + &format!("  tree: {}\n", bytes(input.tree))
}

pub fn tree_run(tree: &[u8], from: usize, to: usize) -> String {
    let name = TreeCall::Run.name();
    format!("{} from {} to {}\n  tree: {}\n", name, from, to, bytes(tree))
}

pub fn fold(input: &FoldInput<'_>) -> String {
    let buffers = Table {
        times: input.times,
        ids: input.ids,
    };
    let mut text = format!("{}\n{}  items {}\n", input.call.name(), table(buffers), input.items);
    text += &format!("  {:?}\n  needed: {}\n", input.session, bytes(input.needed));
    text + &format!("  batch:\n{}", table(input.batch))
}
