//! Checks that review hours are in order, from the hours and the steps that come
//! with them: step y is hour y less hour y - 1. Two things are asked.
//!
//! Every step is small: a step back is p less a little. And the steps are those
//! of the hours: the fold of the hours, less the fold of the hours a row later,
//! is the fold of the steps. On shifted weight row 0 counts for nothing, so step 0
//! may be anything. Other steps pass at no more than 3 in p^4 of all points, so
//! the point must be drawn after the steps are sent.

use ward::{Element, MODULUS, Refusal, compress_prefix_shifted};

type Rows = [u32; 8];

/// Hour 0 and every step are below this, so that no sum of them reaches p.
const BOUND: u32 = 1 << 16;

fn main() -> Result<(), Refusal> {
    let sorted = [100, 124, 124, 148, 172, 196, 220, 244];
    let swapped = [100, 124, 124, 172, 148, 196, 220, 244];
    let mut hidden = steps(&swapped);
    hidden[4] = 0;
    for (name, hours, steps) in [
        ("in order", sorted, steps(&sorted)),
        ("row 4 before row 3", swapped, steps(&swapped)),
        ("the same, that step hidden", swapped, hidden),
    ] {
        let small = hours[0] < BOUND && steps.iter().all(|&step| step < BOUND);
        let belong = belong(&hours, &steps)?;
        println!("{name}: step 4 is {}", steps[4]);
        println!("    steps small: {small}, steps of these hours: {belong}");
    }
    Ok(())
}

fn steps(hours: &Rows) -> Rows {
    let mut steps = [0; 8];
    for y in 1..8 {
        steps[y] = minus(hours[y], hours[y - 1]);
    }
    steps
}

fn belong(hours: &Rows, steps: &Rows) -> Result<bool, Refusal> {
    let mut later = [0; 8];
    later[1..].copy_from_slice(&hours[..7]);
    let [hours, later, steps] = [fold(hours)?, fold(&later)?, fold(steps)?];
    Ok((0..4).all(|i| minus(hours.0[i], later.0[i]) == steps.0[i]))
}

fn fold(rows: &Rows) -> Result<Element, Refusal> {
    let point = [
        Element([723864231, 1083338152, 38667577, 1688729291]),
        Element([69699022, 922111812, 1717971491, 1924416325]),
        Element([1258188172, 1543187194, 134589583, 1117044430]),
    ];
    Ok(compress_prefix_shifted(rows, &point, Element::ONE)?[0])
}

fn minus(x: u32, y: u32) -> u32 {
    ((x as u64 + (MODULUS - y) as u64) % MODULUS as u64) as u32
}
