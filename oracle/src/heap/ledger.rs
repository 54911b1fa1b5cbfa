//! The ledger's words, fields packed most significant first: class 6 bits, requested bytes 24, zero 10, address 24.

/// A granted block, as its ledger word says it.
#[derive(Clone, Copy, PartialEq, Eq, Debug)]
pub struct Grant {
    pub class: u32,
    pub requested: u64,
    pub address: u64,
}

impl Grant {
    pub fn word(&self) -> u64 {
        u64::from(self.class) << 58 | self.requested << 34 | self.address
    }

    pub fn of_word(word: u64) -> Grant {
        Grant {
            class: (word >> 58) as u32,
            requested: word >> 34 & 0xff_ffff,
            address: word & 0xff_ffff,
        }
    }

    /// Bytes of the block.
    pub fn size(&self) -> u64 {
        1 << self.class
    }
}

/// The ten bits between requested bytes and address.
pub fn zero_field(word: u64) -> u64 {
    word >> 24 & 0x3ff
}

/// Puts a grant's word at its place in ascending addresses; there is a word to spare.
pub fn insert(ledger: &mut [u64], count: usize, grant: Grant) {
    let place =
        ledger[..count].partition_point(|word| Grant::of_word(*word).address < grant.address);
    ledger.copy_within(place..count, place + 1);
    ledger[place] = grant.word();
}

/// Takes a grant's word out; those after it move down, and the last of them leaves a zero word.
pub fn remove(ledger: &mut [u64], count: usize, grant: Grant) {
    let found = ledger[..count]
        .iter()
        .position(|word| *word == grant.word());
    let place = found.expect("a grant that the ledger holds");
    ledger.copy_within(place + 1..count, place);
    ledger[count - 1] = 0;
}
