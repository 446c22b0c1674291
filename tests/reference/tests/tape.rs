//! Reader, writer, whole-tape check and whole-tape plan.

use std::collections::BTreeSet;

use reference::examples::right_angle;
use reference::generate::*;
use reference::machine::{Block, Limits};
use reference::refusal::{Fault, Refusal};
use reference::rng::Rng;
use reference::tape::*;

/// Machine M and a block, byte by byte as worked out by hand from the layout.
#[test]
fn bytes_by_hand() {
    let limits = u192(&[
        (200_000, 25),
        (200_000, 25),
        (200_000, 25),
        (1_000_000, 20),
        (1_000_000, 20),
        (1_000_000, 20),
        (2_000, 20),
        (1, 10),
        (2_000, 14),
        (0, 13),
    ]);
    assert_eq!(pack_limits(&machine_m(), 0), limits);
    let block = Block {
        moves: [1, -1, -1_000_000],
        feed: 20_000,
        radius: 10_000_000,
        mark: 2_097_151,
    };
    let record = u192(&[
        (1, 21),
        (0x1f_ffff, 21),
        (0x20_0000 - 1_000_000, 21),
        (20_000, 20),
        (10_000_000, 24),
        (2_097_151, 21),
    ]);
    assert_eq!(pack_record(&block), record);
}

/// Bytes of fields (value, width) by their decimal text in base 2.
fn u192(fields: &[(u64, usize)]) -> Vec<u8> {
    let digits: String = fields.iter().map(|(v, w)| format!("{v:0w$b}")).collect();
    let bytes = digits.as_bytes().chunks(8);
    bytes
        .map(|b| u8::from_str_radix(std::str::from_utf8(b).unwrap(), 2).unwrap())
        .collect()
}

#[test]
fn records_and_limits_round_trip() {
    for seed in 0..3_000 {
        let mut rng = Rng::new(seed);
        let mut part = [0xa5; 40];
        let block = block(&mut rng);
        assert_eq!(write_record(&block, &mut part), Ok(()));
        assert_eq!(part[16..], [0xa5; 24]);
        assert_eq!(read_record(&part), Ok(block));
        let limits = limits(&mut rng);
        assert_eq!(write_limits(&limits, &mut part), Ok(()));
        assert_eq!(part[24..], [0xa5; 16]);
        assert_eq!(read_limits(&part), Ok(limits));
    }
}

/// What the readers take is written again bit for bit.
#[test]
fn noise_round_trip() {
    let mut rng = Rng::new(9);
    let mut taken = 0;
    for _ in 0..20_000 {
        let bytes = [(); 16].map(|_| rng.word() as u8);
        assert_eq!(pack_record(&unpack_record(&bytes)), bytes);
        if let Ok(block) = read_record(&bytes) {
            let mut again = [0; 16];
            assert_eq!(write_record(&block, &mut again), Ok(()));
            assert_eq!(again, bytes);
            taken += 1;
        }
        let bytes = [(); 24].map(|_| rng.word() as u8);
        let (limits, last_bits) = unpack_limits(&bytes);
        assert_eq!(pack_limits(&limits, last_bits), bytes);
    }
    assert!(taken > 5_000, "{taken}");
}

/// Writing checks the fields before 9, reading 9 first; a refused write
/// changes nothing.
#[test]
fn order_of_fields_and_ragged() {
    let mut rng = Rng::new(3);
    let good = block(&mut rng);
    let mut short = [1; 15];
    assert_eq!(write_record(&good, &mut short), Err(Refusal::Ragged));
    for faults in BLOCK_FAULTS {
        let bad = faulty_block(&mut rng, faults, false);
        let number = write_record(&bad, &mut short).unwrap_err().number();
        assert_eq!(number, faults[0]);
    }
    assert_eq!(short, [1; 15]);
    assert_eq!(read_record(&[0; 15]), Err(Refusal::Ragged));
    assert_eq!(read_record(&[0; 16]), Err(Refusal::Still));
    let mut short = [1; 23];
    let good = machine_m();
    let bad = Limits { tick: 0, ..good };
    assert_eq!(write_limits(&good, &mut short), Err(Refusal::Ragged));
    assert_eq!(write_limits(&bad, &mut short), Err(Refusal::Limits));
    assert_eq!(short, [1; 23]);
    assert_eq!(read_limits(&[0; 23]), Err(Refusal::Ragged));
    assert_eq!(read_limits(&[0; 24]), Err(Refusal::Limits));
}

#[test]
fn each_zero_bit_counts() {
    for bit in 0..13 {
        let bytes = pack_limits(&machine_m(), 1 << bit);
        assert_eq!(read_limits(&bytes), Err(Refusal::Limits));
    }
}

/// Values that fit a field but not the range, and the same one further in.
#[test]
fn fields_wider_than_their_ranges() {
    let read = |block: Block| read_record(&pack_record(&block));
    let good = block(&mut Rng::new(1));
    for x in [-1_048_576, -1_000_001, 1_000_001, 1_048_575] {
        let moves = [x, 0, 0];
        assert_eq!(read(Block { moves, ..good }), Err(Refusal::Long));
    }
    for x in [-1_000_000, 1_000_000] {
        let moves = [x, 0, 0];
        assert_eq!(read(Block { moves, ..good }), Ok(Block { moves, ..good }));
    }
    for feed in [0, 1_000_001, 1_048_575] {
        assert_eq!(read(Block { feed, ..good }), Err(Refusal::Feed));
    }
    for radius in [10_000_001, 16_777_215] {
        assert_eq!(read(Block { radius, ..good }), Err(Refusal::Radius));
    }
}

/// 10 before 9 before 1 before the records, all at place 0 but the last.
#[test]
fn order_of_a_whole_tape() {
    let refused = |bytes: &[u8]| read_tape(bytes).unwrap_err();
    let at_none = |refusal: Refusal| refusal.at_no_record();
    assert_eq!(refused(&[0; 32_793]), at_none(Refusal::Many));
    assert_eq!(refused(&[0; 32_808]), at_none(Refusal::Many));
    assert_eq!(refused(&[0; 32_792]), at_none(Refusal::Limits));
    for length in [0, 1, 23, 25, 39, 41, 32_791] {
        assert_eq!(refused(&vec![0; length]), at_none(Refusal::Ragged));
    }
    assert_eq!(refused(&[0; 40]), at_none(Refusal::Limits));
    let mut tape = right_angle().pack();
    tape.extend([0; 32]);
    let third = Fault {
        refusal: Refusal::Still,
        place: 3,
    };
    assert_eq!(refused(&tape), third);
    let mut list = [5; 4];
    assert_eq!(plan_tape(&tape, &[], &mut list), Err(third));
    assert_eq!(list, [5; 4]);
}

/// 11 comes after the records; an accepted plan fills the list.
#[test]
fn list_of_a_whole_tape() {
    let tape = right_angle().pack();
    for length in [0, 1, 2, 4] {
        let mut list = vec![5; length];
        let fault = plan_tape(&tape, &[], &mut list).unwrap_err();
        assert_eq!(fault, Refusal::List.at_no_record());
        assert_eq!(list, vec![5; length]);
    }
    let mut list = [5; 3];
    assert_eq!(plan_tape(&tape, &[], &mut list), Ok(()));
    assert_eq!(list, [0, 2_000_000, 0]);
    let mut list = [5];
    assert_eq!(plan_tape(&tape[..24], &[], &mut list), Ok(()));
    assert_eq!(list, [0]);
}

#[test]
fn longest_tape_is_planned() {
    let tape = Tape {
        limits: machine_m(),
        blocks: short_steps(7, 2_048),
    };
    let bytes = tape.pack();
    assert_eq!(bytes.len(), 32_792);
    assert_eq!(plan_tape(&bytes, &[], &mut [0; 2_049]), Ok(()));
    assert_eq!(read_tape(&bytes), Ok(tape));
}

/// Generated tapes: accepted ones are accepted and packed again to the same
/// bytes; faulty ones meet each refusal that a tape can meet.
#[test]
fn generated_tapes() {
    let mut met = BTreeSet::new();
    for seed in 0..2_000 {
        let bytes = tape(&mut Rng::new(seed));
        assert_eq!(read_tape(&bytes).map(|tape| tape.pack()), Ok(bytes));
        let bytes = faulty_tape(&mut Rng::new(seed));
        if let Err(fault) = read_tape(&bytes) {
            met.insert(fault.refusal.number());
            let of_record = (2..=6).contains(&fault.refusal.number());
            assert_eq!(fault.place > 0, of_record);
        }
    }
    assert_eq!(met, BTreeSet::from([1, 2, 3, 4, 5, 9, 10]));
}
