//! What `heap_calls` prints at the end: the record, the lists of a sound heap, and every lent word that is not zero.

use crate::record::Memory;
use std::fmt::Write;

/// The whole listing; `lists` are the nodes of each class where the heap is sound.
pub fn listing(memory: &Memory, lists: Option<&[Vec<u64>]>) -> String {
    let record = &memory.record;
    let mut text = format!(
        "record order {} count {} user {} allocated {} total {}\nheads {}\n",
        record.order,
        record.count,
        record.user,
        record.allocated,
        record.total,
        joined(&record.heads)
    );
    match lists {
        None => text.push_str("not sound\n"),
        Some(lists) => list_lines(lists, &mut text),
    }
    word_lines("ledger", &memory.ledger, &mut text);
    word_lines("arena", &memory.arena, &mut text);
    text
}

fn list_lines(lists: &[Vec<u64>], text: &mut String) {
    let numbered = lists.iter().enumerate();
    for (class, list) in numbered.filter(|(_, list)| !list.is_empty()) {
        let _ = writeln!(text, "list {class} {}", joined(list));
    }
}

fn word_lines(name: &str, words: &[u64], text: &mut String) {
    let numbered = words.iter().enumerate();
    for (index, word) in numbered.filter(|(_, word)| **word != 0) {
        let _ = writeln!(text, "{name} {index} {word:016x}");
    }
}

fn joined(numbers: &[u64]) -> String {
    let texts: Vec<String> = numbers.iter().map(u64::to_string).collect();
    texts.join(" ")
}
