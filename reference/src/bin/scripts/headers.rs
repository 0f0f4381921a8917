//! First lines: good ones, and ones that the rules or the draft refuse.

use crate::random::Random;

const MOST: u32 = 999_999;

/// A number in digits, now and then with leading zeros.
pub fn digits(random: &mut Random, number: u32) -> String {
    if random.chance(3) {
        let width = random.between(1, 6) as usize;
        format!("{number:0width$}")
    } else {
        number.to_string()
    }
}

fn header(random: &mut Random, readers: u32, rule: &str, numbers: &[u32]) -> String {
    let kind = random.pick(&["tide", "order"]);
    let mut line = format!("plant\t{kind}\t{}\t{rule}", digits(random, readers));
    for &number in numbers {
        line.push('\t');
        line.push_str(&digits(random, number));
    }
    line
}

/// A size from 1 to `most`, often a small one.
fn size(random: &mut Random, most: u32) -> u32 {
    match random.below(10) {
        0 => most,
        1 => 1,
        2..=4 => random.between(1, most),
        _ => random.between(1, most.min(5)),
    }
}

/// How many of so many replicas may fail, often as many as possible.
fn faults(random: &mut Random, size: u32) -> u32 {
    let most = (size - 1) / 2;
    if random.chance(60) {
        most
    } else {
        random.between(0, most)
    }
}

fn readers(random: &mut Random) -> u32 {
    match random.below(10) {
        0 => 32,
        1 => 1,
        2 => random.between(1, 32),
        _ => random.between(2, 5),
    }
}

/// A first line with a rule that can be made.
pub fn good(random: &mut Random) -> String {
    made(random, |random| size(random, 24), size)
}

/// One with a rule of 24 replicas.
pub fn widest(random: &mut Random) -> String {
    let divisor = |random: &mut Random| random.pick(&[1, 2, 3, 4, 6, 8, 12, 24]);
    made(random, divisor, |_, most| most)
}

/// `part` gives the rows of a grid or a number of groups, `size` what they have room for, and the size of a count.
fn made(
    random: &mut Random,
    part: impl Fn(&mut Random) -> u32,
    size: impl Fn(&mut Random, u32) -> u32,
) -> String {
    let readers = readers(random);
    match random.below(4) {
        0 => {
            let size = size(random, 24);
            let faults = faults(random, size);
            header(random, readers, "count", &[size, faults])
        }
        1 => {
            let rows = part(random);
            let columns = size(random, 24 / rows);
            header(random, readers, "grid", &[rows, columns])
        }
        2 => {
            let size = size(random, 24);
            let numbers = [random.between(0, size - 1), size, faults(random, size)];
            header(random, readers, "lead", &numbers)
        }
        _ => {
            let groups = part(random);
            let places = size(random, 24 / groups);
            let numbers = [
                groups,
                faults(random, groups),
                places,
                faults(random, places),
            ];
            header(random, readers, "groups", &numbers)
        }
    }
}

/// A number of replicas or groups about the limits.
fn odd_size(random: &mut Random) -> u32 {
    random.pick(&[0, 1, 2, 3, 4, 5, 6, 8, 12, 23, 24, 25, 65_536, MOST])
}

/// A number of faults that is just allowed, or just too large, or far too large.
fn odd_faults(random: &mut Random, size: u32) -> u32 {
    let half = size / 2;
    let choices = [0, half.saturating_sub(1), half, half + 1, size, MOST];
    random.pick(&choices).min(MOST)
}

/// A size and a number of faults for a count.
fn odd_count(random: &mut Random) -> [u32; 2] {
    let size = odd_size(random);
    [size, odd_faults(random, size)]
}

/// A first line that is read, but that the rule or the draft mostly refuses.
pub fn refused(random: &mut Random) -> String {
    let readers = if random.chance(30) {
        random.pick(&[0, 33, 64, 65_537, MOST])
    } else {
        random.between(1, 32)
    };
    match random.below(4) {
        0 => {
            let numbers = odd_count(random);
            header(random, readers, "count", &numbers)
        }
        1 => {
            let numbers = [odd_size(random), odd_size(random)];
            header(random, readers, "grid", &numbers)
        }
        2 => {
            let [size, faults] = odd_count(random);
            let near = [size.saturating_sub(1), size, size + 1, 0, MOST];
            let lead = random.pick(&near).min(MOST);
            header(random, readers, "lead", &[lead, size, faults])
        }
        _ => {
            let numbers = [odd_count(random), odd_count(random)].concat();
            header(random, readers, "groups", &numbers)
        }
    }
}
