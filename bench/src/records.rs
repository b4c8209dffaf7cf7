//! Shorter records and back, beside a copy of the old bytes. What comes back is compared before anything is timed.
use crate::{at, seconds, sorted};
use std::hint::black_box;

#[repr(C)]
#[derive(Debug, PartialEq)]
struct Answer {
    number: u64,
    length: u64,
}

unsafe extern "C" {
    fn shorten_records(old: *const u8, old_len: usize, out: *mut u8, out_len: usize) -> Answer;
    fn lengthen_records(new: *const u8, new_len: usize, out: *mut u8, out_len: usize) -> Answer;
}

fn shorten(old: &[u8], out: &mut [u8]) -> Answer {
    // Safety: the pointers are those of slices, and the output overlaps nothing.
    unsafe { shorten_records(old.as_ptr(), old.len(), out.as_mut_ptr(), out.len()) }
}

fn lengthen(new: &[u8], out: &mut [u8]) -> Answer {
    // Safety: as above.
    unsafe { lengthen_records(new.as_ptr(), new.len(), out.as_mut_ptr(), out.len()) }
}

fn operands(kind: u8) -> usize {
    match kind {
        0 | 29 | 32 | 33 => 1,
        14 | 18 => 3,
        37 | 38 => 4,
        _ => 2,
    }
}

/// 2,048 records whose kinds `next` gives.
fn old_form(mut next: impl FnMut(usize) -> u8) -> Vec<u8> {
    let mut old = vec![];
    for i in 0..2_048 {
        let kind = next(i);
        old.push(kind);
        for j in 0..4 {
            let x = if j < operands(kind) { (i * 5 + j) as u32 } else { 0 };
            old.extend_from_slice(&x.to_le_bytes());
        }
    }
    old
}

fn random() -> impl FnMut(usize) -> u8 {
    let mut x = 88_172_645_463_325_252u64;
    move |_| {
        x ^= x << 13;
        x ^= x >> 7;
        x ^= x << 17;
        (x % 39) as u8
    }
}

/// The three in turn, many times: the median of each.
fn times(calls: &mut [&mut dyn FnMut()]) -> Vec<f64> {
    let mut samples = vec![vec![]; calls.len()];
    for _ in 0..301 {
        for (call, samples) in calls.iter_mut().zip(&mut samples) {
            samples.push(seconds(40, *call));
        }
    }
    samples.into_iter().map(|s| at(&sorted(s), 0.5)).collect()
}

pub fn table() {
    println!(
        "| records, 2,048 | old bytes | new bytes | copy us | shorten us | lengthen us | shorten, MB/s of old | lengthen, MB/s of old |"
    );
    println!("|---|---|---|---|---|---|---|---|");
    let shapes = [
        ("one operand each", old_form(|_| 29)),
        ("two", old_form(|_| 2)),
        ("three", old_form(|_| 18)),
        ("four", old_form(|_| 38)),
        ("every kind in turn", old_form(|i| (i % 39) as u8)),
        ("kinds at random", old_form(random())),
    ];
    for (label, old) in shapes {
        let mut new = vec![0; old.len()];
        let mut back = vec![0; old.len()];
        let mut copy = vec![0; old.len()];
        let a = shorten(&old, &mut new);
        assert_eq!(a.number, 0, "{label}");
        let n = a.length as usize;
        assert_eq!(lengthen(&new[..n], &mut back), Answer { number: 0, length: old.len() as u64 }, "{label}");
        assert!(back == old, "{label}: the bytes differ");
        let new_form = new[..n].to_vec();
        let t = times(&mut [
            &mut || {
                copy.copy_from_slice(black_box(&old));
                black_box(&copy);
            },
            &mut || {
                black_box(shorten(black_box(&old), &mut new));
            },
            &mut || {
                black_box(lengthen(black_box(&new_form), &mut back));
            },
        ]);
        let mbs = |s: f64| old.len() as f64 / s / 1e6;
        println!(
            "| {label} | {} | {n} | {:.2} | {:.1} | {:.1} | {:.0} | {:.0} |",
            old.len(),
            t[0] * 1e6,
            t[1] * 1e6,
            t[2] * 1e6,
            mbs(t[1]),
            mbs(t[2])
        );
    }
}
