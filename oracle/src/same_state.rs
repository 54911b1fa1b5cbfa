//! Compares the blocks of the bookkeeping with the free sets and figures that the crate holds.

use crate::block::Block;
use crate::real_crate::RealAllocator;

/// Where the two differ: what the document says and what the crate has.
pub struct Difference {
    pub document: String,
    pub has: String,
}

/// One pass in ascending start: every free block must be the next of its class's set, and no set may hold more.
pub fn compare(blocks: &[Block], order: u32, real: &dyn RealAllocator) -> Result<(), Difference> {
    let sets = real.free_list();
    same_number("number of classes", order as u64, sets.len() as u64)?;
    let mut sets_left: Vec<_> = sets.iter().map(|set| set.iter()).collect();
    let (mut granted, mut managed) = (0, 0);
    for block in blocks {
        managed += block.size();
        if block.granted {
            granted += block.size();
        } else if sets_left[block.class as usize].next() != Some(&(block.start as usize)) {
            return Err(class_difference(blocks, block.class, real));
        }
    }
    for (class, set) in sets_left.iter_mut().enumerate() {
        if set.next().is_some() {
            return Err(class_difference(blocks, class as u32, real));
        }
    }
    same_number("allocated", granted, real.allocated() as u64)?;
    same_number("total", managed, real.total() as u64)
}

fn same_number(name: &str, document: u64, has: u64) -> Result<(), Difference> {
    if document == has {
        return Ok(());
    }
    Err(Difference {
        document: format!("{name} {document}"),
        has: format!("{name} {has}"),
    })
}

/// Both sides of a class that differs, from the first start at which they part, cut short after a few.
fn class_difference(blocks: &[Block], class: u32, real: &dyn RealAllocator) -> Difference {
    let in_class = blocks
        .iter()
        .filter(|block| !block.granted && block.class == class);
    let document: Vec<u64> = in_class.map(|block| block.start).collect();
    let has: Vec<u64> = real.free_list()[class as usize]
        .iter()
        .map(|s| *s as u64)
        .collect();
    let same = document
        .iter()
        .zip(&has)
        .take_while(|(one, other)| one == other)
        .count();
    Difference {
        document: class_text(class, &document, same),
        has: class_text(class, &has, same),
    }
}

fn class_text(class: u32, starts: &[u64], same: usize) -> String {
    let shown: Vec<String> = starts[same..].iter().take(4).map(u64::to_string).collect();
    let rest = if starts.len() > same + 4 { " .." } else { "" };
    let listed = if shown.is_empty() {
        "none".to_string()
    } else {
        shown.join(" ")
    };
    let place = if same > 0 {
        format!(" after the first {same}")
    } else {
        String::new()
    };
    format!("free in class {class}{place}: {listed}{rest}")
}
