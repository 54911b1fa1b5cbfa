//! Shows what the crate's heap does where the rules refuse: the rows of docs/DIFFERENCES.md that can be run without harm.

use frame_oracle::crate_guard::guarded;
use heap_oracle::real_heap::{fresh, Making, RealArena, RealHeap};
use std::alloc::Layout;
use std::sync::mpsc;
use std::thread;
use std::time::Duration;

const WORDS: usize = 16;

/// A heap of the crate over 16 words, and a word for what a call did to it.
struct Trial {
    heap: Box<dyn RealHeap>,
    arena: RealArena,
}

fn layout(size: usize, align: usize) -> Layout {
    Layout::from_size_align(size, align).expect("a Layout")
}

impl Trial {
    fn new(order: u64) -> Trial {
        Trial {
            heap: fresh(order, Making::New),
            arena: RealArena::holding(&[0; WORDS]),
        }
    }

    /// SAFETY of the calls below: each either stops before it writes, or writes inside the arena alone.
    fn add(&mut self, start: u64, end: u64) {
        unsafe {
            let (start, end) = (self.arena.behind_base(start), self.arena.behind_base(end));
            self.heap.add_to_heap(start, end)
        }
    }

    fn alloc(&mut self, size: usize, align: usize) -> String {
        match self.heap.alloc(layout(size, align)) {
            Some(address) => self.arena.offset(address as u64).to_string(),
            None => "nothing".to_string(),
        }
    }

    fn free(&mut self, address: u64, size: usize, align: usize) {
        let address = self.arena.behind_base(address);
        unsafe { self.heap.dealloc(address, layout(size, align)) }
    }

    fn list(&self, class: usize) -> String {
        let nodes = self.arena.nodes(self.heap.heads()[class]);
        let texts: Vec<String> = nodes.iter().take(4).map(u64::to_string).collect();
        let rest = if nodes.len() == WORDS {
            " without end"
        } else {
            ""
        };
        format!("list {class}: {}{rest}", texts.join(" "))
    }
}

/// Runs one row on a fresh heap and prints what came of it.
fn row(what: &str, order: u64, run: impl FnOnce(&mut Trial) -> String) {
    let mut trial = Trial::new(order);
    let said = match guarded(|| run(&mut trial)) {
        Ok(text) => text,
        Err(message) => format!("stops: {message}"),
    };
    println!("{what}: {said}");
}

/// As `row`, for a call that stops: what it had done to the lists by then.
fn stopped_row(what: &str, class: usize, run: impl FnOnce(&mut Trial)) {
    let mut trial = Trial::new(7);
    let message = guarded(|| run(&mut trial)).expect_err("a call that stops");
    println!("{what}: stops: {message}; it leaves {}", trial.list(class));
}

/// For a call that never ends: it is left to itself in a thread, which ends with the program.
fn unending_row(what: &str, run: impl FnOnce(&mut Trial) + Send + 'static) {
    let (done, ended) = mpsc::channel();
    thread::spawn(move || {
        run(&mut Trial::new(7));
        let _ = done.send(());
    });
    match ended.recv_timeout(Duration::from_secs(1)) {
        Ok(()) => println!("{what}: ends"),
        Err(_) => println!("{what}: not ended after a second"),
    }
}

fn adding() {
    row("add at address 0", 7, |trial| unsafe {
        trial.heap.add_to_heap(0, 64);
        "accepted".to_string()
    });
    row(
        "add with the rounded start above the rounded end",
        7,
        |trial| {
            trial.add(9, 15);
            "accepted".to_string()
        },
    );
    row("init whose sum exceeds 2^64", 7, |trial| unsafe {
        trial.heap.init(trial.arena.behind_base(8), usize::MAX);
        "accepted".to_string()
    });
    row(
        "add with a start in the last seven bytes of 2^64",
        7,
        |trial| unsafe {
            trial.heap.add_to_heap(usize::MAX - 3, usize::MAX);
            "accepted".to_string()
        },
    );
}

fn adding_again() {
    row("add of 8..16 twice", 7, |trial| {
        trial.add(8, 16);
        trial.add(8, 16);
        let (one, other) = (trial.alloc(8, 8), trial.alloc(8, 8));
        format!(
            "not noticed: granted {one}, then granted {other}; {}",
            trial.list(3)
        )
    });
    row("add of a part of a granted block", 7, |trial| {
        trial.add(64, 128);
        let one = trial.alloc(64, 8);
        trial.add(64, 72);
        format!(
            "not noticed: granted {one}, then granted {}",
            trial.alloc(8, 8)
        )
    });
}

fn releasing_twice() {
    row("release twice in the top class", 4, |trial| {
        trial.add(8, 24);
        let (one, other) = (trial.alloc(8, 8), trial.alloc(8, 8));
        trial.free(16, 8, 8);
        trial.free(16, 8, 8);
        format!("not noticed: granted {one} and {other}; {}", trial.list(3))
    });
    unending_row("release twice below the top class", |trial| {
        trial.add(8, 16);
        trial.alloc(8, 8);
        trial.free(8, 8, 8);
        trial.free(8, 8, 8);
    });
}

fn releasing_other_sizes() {
    stopped_row("release with more bytes than are granted", 4, |trial| {
        trial.add(16, 32);
        trial.alloc(5, 8);
        trial.free(16, 6, 8);
    });
    row(
        "release with fewer bytes of the same rounding",
        7,
        |trial| {
            trial.add(16, 24);
            trial.alloc(5, 8);
            trial.free(16, 4, 8);
            format!(
                "not noticed: user {}, allocated {}",
                trial.heap.fields()[0],
                trial.heap.fields()[1]
            )
        },
    );
    row("release of half of a block", 7, |trial| {
        trial.add(64, 80);
        trial.alloc(16, 1);
        trial.free(64, 8, 1);
        format!(
            "not noticed: user {}, allocated {}; {}",
            trial.heap.fields()[0],
            trial.heap.fields()[1],
            trial.list(3)
        )
    });
    row("release of a size above the top block", 4, |trial| {
        trial.add(8, 16);
        trial.alloc(8, 8);
        trial.free(8, 16, 1);
        "accepted".to_string()
    });
}

fn sizes() {
    let refused = |size, align| match Layout::from_size_align(size, align) {
        Ok(_) => "a Layout".to_string(),
        Err(error) => format!("no Layout: {error}"),
    };
    println!("alignment 3: {}", refused(8, 3));
    println!("size 2^63: {}", refused(1 << 63, 1));
    println!("size 9 with alignment 2^63: {}", refused(9, 1 << 63));
    row("size 2^63-1", 33, |trial| {
        format!("granted {}", trial.alloc((1 << 63) - 1, 1))
    });
}

fn main() {
    adding();
    adding_again();
    releasing_twice();
    releasing_other_sizes();
    sizes();
}
