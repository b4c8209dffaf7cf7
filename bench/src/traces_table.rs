//! The replay of a trace beside plain Rust: 10,000 rows over trees of 2,048 nodes. The masks are compared before anything is timed.
use crate::traces::{Answer, decoded, low, plain, replay, shapes, terms};
use crate::{at, seconds, sorted};
use std::hint::black_box;

const ROWS: usize = 10_000;

pub fn table() {
    println!(
        "| replay, 10,000 rows | nodes | terms a row | plain Rust, ms | port, ms | ratio | 10th to 90th | port, terms a second | ns a term |"
    );
    println!("|---|---|---|---|---|---|---|---|---|");
    let wanted = std::env::args().nth(2).unwrap_or_default();
    for (label, p) in shapes().into_iter().filter(|s| s.0.contains(&wanted)) {
        let nodes = decoded(&p);
        let columns = p.var_width.len();
        let mut x = 88_172_645_463_325_252u64;
        let values: Vec<u64> = (0..ROWS * columns)
            .map(|k| {
                x ^= x << 13;
                x ^= x >> 7;
                x ^= x << 17;
                // small ones too, so that shifts do not all give 0
                let x = if x >> 60 < 8 { x >> 32 & 15 } else { x };
                low(p.var_width[k % columns] as u32, x)
            })
            .collect();
        let (mut masks, mut counts) = (vec![0; ROWS], vec![0; ROWS]);
        let (mut others, mut theirs) = (vec![0; ROWS], vec![0; ROWS]);
        assert_eq!(replay(&p, &values, &mut masks, &mut counts), Answer { number: 0, rows: ROWS as u64 }, "{label}");
        plain(&nodes, columns, &p.roots, &values, &mut others, &mut theirs);
        assert!(masks == others && counts == theirs, "{label}: the masks differ");
        let (mut rust, mut port) = (vec![], vec![]);
        for _ in 0..7 {
            rust.push(seconds(1, &mut || {
                plain(black_box(&nodes), columns, &p.roots, black_box(&values), &mut others, &mut theirs);
                black_box(&others);
            }));
            port.push(seconds(1, &mut || {
                black_box(replay(black_box(&p), black_box(&values), &mut masks, &mut counts));
            }));
        }
        let ratios = sorted(port.iter().zip(&rust).map(|(p, r)| p / r).collect());
        let (rust, port) = (at(&sorted(rust), 0.5), at(&sorted(port), 0.5));
        let a_row: u64 = p.roots.iter().map(|r| terms(&nodes, *r as u32)).sum();
        let all = a_row as f64 * ROWS as f64;
        println!(
            "| {label} | {} | {a_row} | {:.1} | {:.1} | {:.2} | {:.2} to {:.2} | {:.0} M | {:.1} |",
            p.count(),
            rust * 1e3,
            port * 1e3,
            at(&ratios, 0.5),
            at(&ratios, 0.1),
            at(&ratios, 0.9),
            all / port / 1e6,
            port * 1e9 / all
        );
    }
}
