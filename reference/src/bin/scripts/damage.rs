//! Damage to lines and to whole scripts.

use crate::random::Random;

fn random_place(random: &mut Random, line: &[u8]) -> usize {
    random.below(line.len() + 1)
}

fn replace_byte(line: &mut [u8], random: &mut Random, byte: u8) {
    if !line.is_empty() {
        let place = random.below(line.len());
        line[place] = byte;
    }
}

fn fields(line: &[u8]) -> Vec<Vec<u8>> {
    line.split(|&byte| byte == b'\t')
        .map(<[u8]>::to_vec)
        .collect()
}

/// Damages one field: loses it, repeats it, empties it or puts something else there.
pub fn field(line: &[u8], random: &mut Random) -> Vec<u8> {
    let mut fields = fields(line);
    let place = random.below(fields.len());
    match random.below(8) {
        0 => {
            fields.remove(place);
        }
        1 => fields.insert(place, fields[place].clone()),
        2 => fields[place].clear(),
        3 => fields[place].insert(0, b'-'),
        4 => fields[place] = odd_field(random).to_vec(),
        5 => fields[place].make_ascii_uppercase(),
        6 => {
            fields[place].pop();
        }
        _ => {
            let extra = random.pick(b" s0+x-");
            fields[place].push(extra);
        }
    }
    fields.join(&b'\t')
}

/// Something that is wrong in most fields and right in some.
fn odd_field(random: &mut Random) -> &'static [u8] {
    let choices: [&[u8]; 26] = [
        b"0000001", b"1234567", b"999999", b"000000", b"-0", b"-", b"--1", b"-1", b"+1", b" 1",
        b"20001", b"-20001", b"-20000", b"1440", b"60001", b"10000", b"hold", b"Dig", b"port",
        b"both", b"quick", b"relay", b"station", b"cabinet", b"tides", b"plant",
    ];
    random.pick(&choices)
}

/// A line as another would be, but for some damage. It may have become several lines.
pub fn line(line: &[u8], random: &mut Random) -> Vec<u8> {
    let mut damaged = line.to_vec();
    let place = random_place(random, line);
    match random.below(16) {
        0 => replace_byte(&mut damaged, random, b' '),
        1 => {
            let byte = random.byte();
            replace_byte(&mut damaged, random, byte);
        }
        2 => {
            let byte = random.pick(&[0, 8, 11, 13, 27, 31, 127, 128, 255]);
            damaged.insert(place, byte);
        }
        3 => damaged.push(b'\r'),
        4 => damaged.insert(place, b'\t'),
        5 => damaged.truncate(place),
        6 => damaged.clear(),
        7 => damaged.resize(random.between(195, 205) as usize, b'x'),
        8 => damaged.resize(random.between(199, 202) as usize, b'\t'),
        9 => damaged = b"plant\ttide\t2\tcount\t3\t1".to_vec(),
        10 => damaged.push(b'\t'),
        _ => {
            damaged = field(line, random);
            if random.chance(40) {
                damaged = field(&damaged, random);
            }
        }
    }
    damaged
}

/// Changes some bytes of a whole script.
pub fn bytes(script: &mut Vec<u8>, random: &mut Random) {
    for _ in 0..random.between(1, 12) {
        if script.is_empty() {
            return;
        }
        let place = random.below(script.len());
        match random.below(4) {
            0 => script[place] = random.byte(),
            1 => script[place] ^= 1 << random.below(8),
            2 => {
                script.remove(place);
            }
            _ => {
                let byte = random.pick(b"\t\n\r 0-x");
                script.insert(place, byte);
            }
        }
    }
}
