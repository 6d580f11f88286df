//! What a watch does with its days, and what a phone does with what it received: the days are joined to one pack, sent,
//! and read back.
//!
//! Bytes, number of bits and number of trees go together. With the number of trees known, no single changed bit goes
//! unnoticed, and what was noticed is said in words.

use parlaqen::{Pack, Result};

/// The runs and laps of each day, as a parent list.
const DAYS: [&[u32]; 3] = [
    &[0, 1, 1, 1, 2, 2, 4], // three runs: the first of two laps, the second of none, the third of one
    &[0],                   // a day off
    &[0, 1, 2, 2],          // one run of two laps
];

/// The pack as it is sent.
fn joined() -> Result<Pack> {
    let mut pack = Pack::new();
    for day in DAYS {
        pack.join(day)?;
    }
    Ok(pack)
}

/// The bytes of a pack after a bit, from 1, was changed on the way.
fn changed(sent: &Pack, bit: usize) -> Vec<u8> {
    let mut bytes = sent.as_bytes().to_vec();
    bytes[(bit - 1) / 8] ^= 0x80 >> ((bit - 1) % 8);
    bytes
}

/// What the phone says of what it received.
fn said() -> Result<String> {
    let sent = joined()?;
    let mut said = format!("{} days in {} bits\n", sent.trees(), sent.bits());

    let received = Pack::received(sent.as_bytes().to_vec(), sent.bits(), sent.trees())?;
    for (part, parents) in received.split()?.into_iter().zip(received.parent_lists()?) {
        said += &format!("from bit {}: {parents:?}\n", part.start);
    }

    for bit in [3, 10, 27] {
        let refused = Pack::received(changed(&sent, bit), sent.bits(), sent.trees()).unwrap_err();
        said += &format!("with bit {bit} changed it is refused: {refused}\n");
    }
    Ok(said)
}

fn main() -> Result<()> {
    print!("{}", said()?);
    Ok(())
}

#[test]
fn the_phone_reads_the_days_or_says_why_not() {
    let expected = "3 days in 27 bits
from bit 1: [0, 1, 1, 1, 2, 2, 4]
from bit 16: [0]
from bit 19: [0, 1, 2, 2]
with bit 3 changed it is refused: bit 5: no tree string has these bits up to here
with bit 10 changed it is refused: the pack has 1 tree, not 3
with bit 27 changed it is refused: after 27 bits the tree is not over
";
    assert_eq!(said().unwrap(), expected);
}

#[test]
fn every_day_comes_back_and_no_changed_bit_goes_unnoticed() {
    let sent = joined().unwrap();
    assert_eq!(sent.parent_lists().unwrap(), DAYS);
    for bit in 1..=sent.bits() {
        assert!(Pack::received(changed(&sent, bit), sent.bits(), sent.trees()).is_err(), "bit {bit}");
    }
}
