//! The examples of the rules, round trips, and independence of what stood before.

use super::checks::PackingChecker;
use crate::ffi_packing::{pack, packed_len, unpack, would_unpack};
use compare::lent::LentPart;
use compare::pack_examples::PACK_EXAMPLES;
use compare::report::{hex, Group, Outcome};
use reference::memory::Rng;
use reference::packing::{packed, unpacked, UnpackedBytes, ED};

type UnpackExample = (&'static str, &'static [u8], Option<&'static [u8]>);

/// P10 and P11: the packed bytes and what they stand for, if anything; the bad codes are the first ones.
const UNPACKING: [UnpackExample; 3] = [
    ("P10", &[ED, ED, 1, 0x41], Some(&[0x41])),
    ("P11", &[ED, ED, 0, 0x41], None),
    ("P11", &[ED, ED, 3], None),
];

pub fn examples(group: &mut Group, check: &mut PackingChecker) -> Outcome {
    for example in &PACK_EXAMPLES {
        let (name, data, code) = (example.name, example.data(), example.packed);
        if packed(&data) != code || unpacked(code) != UnpackedBytes::Bytes(data.clone()) {
            return Err(format!("{name}: the reference itself"));
        }
        let run = check.pack(group, &data, &[]);
        let run = run.and_then(|()| check.unpack(group, code, &[]));
        run.map_err(|what| format!("{name}: {what}"))?;
    }
    for (name, code, bytes) in UNPACKING {
        let expected = bytes.map_or(UnpackedBytes::Malformed(0), |b| {
            UnpackedBytes::Bytes(b.to_vec())
        });
        if unpacked(code) != expected {
            return Err(format!("{name}: the reference itself"));
        }
        let run = check.unpack(group, code, &[1, 2]);
        run.map_err(|what| format!("{name}: {what}"))?;
    }
    Ok(())
}

/// Packing and unpacking again by the library alone gives the same bytes.
pub fn round_trips(group: &mut Group, rng: &mut Rng) -> Outcome {
    for case in 0..60_000 {
        let data = rng.runs(20, if case % 20 == 0 { 700 } else { 8 });
        group.inputs += 1;
        let [mut length, mut place, mut found] = [rng.word(), rng.word(), rng.word()];
        let room = packed_len(&data) as usize;
        let mut code = LentPart::new(room, rng.word());
        let mut back = LentPart::new(data.len(), rng.word());
        let first = pack(&data, code.part_mut(), &mut length);
        let second = unpack(code.part(), back.part_mut(), &mut place, &mut found);
        let difference = back.difference(&data);
        let numbers = (length as usize, place, found);
        if (first, second, numbers) != (0, 0, (room, 0, 0)) || difference.is_some() {
            let answers = format!("answers {first} {second}, {numbers:?}, not {room}");
            return Err(format!("{}: {answers}, {difference:?}", hex(&data)));
        }
    }
    Ok(())
}

/// Answer, number and bytes are the same over two different dirty fills.
pub fn nothing_before(group: &mut Group, rng: &mut Rng) -> Outcome {
    for case in 0..60_000 {
        let src = match case % 3 {
            0 => rng.runs(12, 300),
            1 => rng.codes(12),
            _ => (0..rng.below(30)).map(|_| rng.likely_byte()).collect(),
        };
        group.inputs += 1;
        let exact = match unpacked(&src) {
            UnpackedBytes::Bytes(bytes) => bytes.len(),
            UnpackedBytes::Malformed(_) => 9,
        };
        for room in [exact, exact + 1, packed(&src).len(), rng.below(300)] {
            let fill = rng.word();
            let run = |fill: u64| {
                let (mut one, mut two) = (LentPart::new(room, fill), LentPart::new(room, !fill));
                let [mut place, mut found, mut length] = [fill, fill, !fill];
                let unpack = unpack(&src, one.part_mut(), &mut place, &mut found);
                let unpacked = (unpack, place, found);
                (place, found) = (!fill, fill);
                let would = would_unpack(&src, room as u64, &mut place, &mut found);
                let pack = pack(&src, two.part_mut(), &mut length);
                let parts = (one.part().to_vec(), two.part().to_vec());
                (unpacked, (would, place, found), (pack, length), parts)
            };
            let (first, second) = (run(fill), run(!fill));
            if first != second {
                let what = format!("{first:02X?} and {second:02X?}");
                return Err(format!("{} into {room} bytes: {what}", hex(&src)));
            }
        }
    }
    Ok(())
}

/// Every answer of the three calls was among the ones compared.
pub fn answers_seen(check: &PackingChecker) -> Outcome {
    let (unpack, would, pack) = (
        &check.unpack_answers,
        &check.would_answers,
        &check.pack_answers,
    );
    let given = format!("unpack {unpack:?}, without a part {would:?}, pack {pack:?}");
    println!("    {given}");
    match unpack.iter().chain(would).chain(pack).any(|n| *n < 1000) {
        true => Err(given),
        false => Ok(()),
    }
}
