//! Compares the bookkeeping's record, lists and arena with what the crate holds: heads, links, counters, every word.

use crate::real_heap::{RealArena, RealHeap};
use crate::record::Memory;
use crate::soundness::Reading;

/// Where the two differ: what the document says and what the crate has.
pub struct Difference {
    pub document: String,
    pub has: String,
}

/// The lists in order, the three counters, and every word of the arena, stale links too.
pub fn compare(
    memory: &Memory,
    reading: &Reading,
    heap: &dyn RealHeap,
    arena: &RealArena,
) -> Result<(), Difference> {
    let heads = heap.heads();
    same_number("number of classes", memory.record.order, heads.len() as u64)?;
    for (class, head) in heads.iter().enumerate() {
        same_list(class, &reading.lists[class], &arena.nodes(*head))?;
        same_number(
            &format!("head {class}"),
            memory.record.heads[class],
            arena.offset(*head),
        )?;
    }
    let record = &memory.record;
    let documents = [record.user, record.allocated, record.total];
    for (place, name) in ["user", "allocated", "total"].iter().enumerate() {
        same_number(name, documents[place], heap.fields()[place])?;
    }
    for (index, word) in memory.arena.iter().enumerate() {
        let has = arena.word(index);
        if arena.real(*word) != has {
            return Err(different(
                &format!("arena word {index}"),
                *word,
                arena.offset(has),
            ));
        }
    }
    Ok(())
}

fn same_number(name: &str, document: u64, has: u64) -> Result<(), Difference> {
    match document == has {
        true => Ok(()),
        false => Err(different(name, document, has)),
    }
}

fn different(name: &str, document: u64, has: u64) -> Difference {
    Difference {
        document: format!("{name} {document}"),
        has: format!("{name} {has}"),
    }
}

fn same_list(class: usize, document: &[u64], has: &[u64]) -> Result<(), Difference> {
    if document == has {
        return Ok(());
    }
    let pairs = document.iter().zip(has);
    let same = pairs.take_while(|(one, other)| one == other).count();
    Err(Difference {
        document: list_text(class, document, same),
        has: list_text(class, has, same),
    })
}

/// A list from the first node at which the two part, cut short after a few.
fn list_text(class: usize, nodes: &[u64], same: usize) -> String {
    let shown: Vec<String> = nodes[same..].iter().take(4).map(u64::to_string).collect();
    let listed = if shown.is_empty() {
        "none".to_string()
    } else {
        shown.join(" ")
    };
    let rest = if nodes.len() > same + 4 { " .." } else { "" };
    let place = if same > 0 {
        format!(" after the first {same}")
    } else {
        String::new()
    };
    format!("list {class}{place}: {listed}{rest}")
}
