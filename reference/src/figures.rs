//! The two kinds of figure: tides and digging orders.

use crate::text::{self, Fields, LineBuffer};

const MOST_LEVEL: i32 = 20_000;
const MINUTES_OF_A_DAY: u32 = 1_440;
const MOST_DEPTH: u32 = 60_000;
const MOST_SECTION: u32 = 9_999;

#[derive(Clone, Copy, Debug, PartialEq, Eq)]
pub enum FigureKind {
    Tide,
    Order,
}

#[derive(Clone, Copy, Debug, PartialEq, Eq)]
pub enum Arm {
    Port,
    Starboard,
    Both,
}

#[derive(Clone, Copy, Debug, PartialEq, Eq)]
pub enum Figure {
    Tide { level: i16, minute: u16 },
    Hold,
    Dig { depth: u16, arm: Arm },
    Shift { section: u16 },
}

/// What is wrong with a figure's fields; the field counts from 0 in the line.
#[derive(Clone, Copy, Debug, PartialEq, Eq)]
pub enum FigureFault {
    UnknownWord { field: usize },
    BadNumber { field: usize },
}

impl FigureKind {
    pub fn of_word(word: &[u8]) -> Option<Self> {
        match word {
            b"tide" => Some(FigureKind::Tide),
            b"order" => Some(FigureKind::Order),
            _ => None,
        }
    }

    pub fn word(self) -> &'static str {
        match self {
            FigureKind::Tide => "tide",
            FigureKind::Order => "order",
        }
    }

    /// The figure of a register that nobody has written to.
    pub fn start(self) -> Figure {
        match self {
            FigureKind::Tide => Figure::Tide {
                level: 0,
                minute: 0,
            },
            FigureKind::Order => Figure::Hold,
        }
    }

    /// How many fields the figure must have that begins at field `first`. An order without any
    /// field would need one.
    pub fn field_count(self, fields: &Fields, first: usize) -> Result<usize, FigureFault> {
        match (self, fields.get(first)) {
            (FigureKind::Tide, _) => Ok(2),
            (FigureKind::Order, None | Some(b"hold")) => Ok(1),
            (FigureKind::Order, Some(b"dig")) => Ok(3),
            (FigureKind::Order, Some(b"shift")) => Ok(2),
            (FigureKind::Order, Some(_)) => Err(FigureFault::UnknownWord { field: first }),
        }
    }

    /// Reads the figure that begins at field `first`; the line has as many fields as it must.
    pub fn read(self, fields: &Fields, first: usize) -> Result<Figure, FigureFault> {
        match (self, fields.get(first)) {
            (FigureKind::Tide, _) => Ok(Figure::Tide {
                level: level(fields, first)?,
                minute: number_up_to(MINUTES_OF_A_DAY - 1, fields, first + 1)?,
            }),
            (FigureKind::Order, Some(b"hold")) => Ok(Figure::Hold),
            (FigureKind::Order, Some(b"dig")) => Ok(Figure::Dig {
                depth: number_up_to(MOST_DEPTH, fields, first + 1)?,
                arm: arm(fields, first + 2)?,
            }),
            (FigureKind::Order, Some(b"shift")) => Ok(Figure::Shift {
                section: number_up_to(MOST_SECTION, fields, first + 1)?,
            }),
            (FigureKind::Order, _) => Err(FigureFault::UnknownWord { field: first }),
        }
    }
}

fn level(fields: &Fields, field: usize) -> Result<i16, FigureFault> {
    fields
        .get(field)
        .and_then(text::signed_number)
        .filter(|level| level.abs() <= MOST_LEVEL)
        .map(|level| level as i16)
        .ok_or(FigureFault::BadNumber { field })
}

/// A number of at most `most`, which fits 16 bits.
fn number_up_to(most: u32, fields: &Fields, field: usize) -> Result<u16, FigureFault> {
    fields
        .get(field)
        .and_then(text::number)
        .filter(|&number| number <= most)
        .map(|number| number as u16)
        .ok_or(FigureFault::BadNumber { field })
}

fn arm(fields: &Fields, field: usize) -> Result<Arm, FigureFault> {
    match fields.get(field) {
        Some(b"port") => Ok(Arm::Port),
        Some(b"starboard") => Ok(Arm::Starboard),
        Some(b"both") => Ok(Arm::Both),
        _ => Err(FigureFault::UnknownWord { field }),
    }
}

impl Arm {
    fn word(self) -> &'static str {
        match self {
            Arm::Port => "port",
            Arm::Starboard => "starboard",
            Arm::Both => "both",
        }
    }
}

impl Figure {
    /// Appends the figure's fields, each behind a tab.
    pub fn print(self, line: &mut LineBuffer) {
        match self {
            Figure::Tide { level, minute } => {
                line.push_signed_field(level.into());
                line.push_field(minute.into());
            }
            Figure::Hold => line.push_word("hold"),
            Figure::Dig { depth, arm } => {
                line.push_word("dig");
                line.push_field(depth.into());
                line.push_word(arm.word());
            }
            Figure::Shift { section } => {
                line.push_word("shift");
                line.push_field(section.into());
            }
        }
    }
}

#[cfg(test)]
mod tests {
    use super::*;

    fn read(kind: FigureKind, line: &str) -> Result<Figure, FigureFault> {
        kind.read(&Fields::of(line.as_bytes()), 0)
    }

    fn printed(figure: Figure) -> Vec<u8> {
        let mut line = LineBuffer::new();
        figure.print(&mut line);
        line.as_bytes().to_vec()
    }

    #[test]
    fn tides_are_read_within_their_ranges() {
        let tide = |line| read(FigureKind::Tide, line);
        assert_eq!(printed(tide("-020000\t1439").unwrap()), b"\t-20000\t1439");
        assert_eq!(printed(tide("-0\t0").unwrap()), b"\t0\t0");
        assert_eq!(tide("20001\t0"), Err(FigureFault::BadNumber { field: 0 }));
        assert_eq!(tide("0\t1440"), Err(FigureFault::BadNumber { field: 1 }));
        assert_eq!(tide("0\t-0"), Err(FigureFault::BadNumber { field: 1 }));
    }

    #[test]
    fn orders_are_read_within_their_ranges() {
        let order = |line| read(FigureKind::Order, line);
        for line in ["hold", "dig\t60000\tboth", "dig\t0\tport", "shift\t9999"] {
            let expected = format!("\t{line}").into_bytes();
            assert_eq!(printed(order(line).unwrap()), expected);
        }
        let bad_number = Err(FigureFault::BadNumber { field: 1 });
        assert_eq!(order("dig\t60001\tboth"), bad_number);
        assert_eq!(order("shift\t10000"), bad_number);
        let unknown_arm = Err(FigureFault::UnknownWord { field: 2 });
        assert_eq!(order("dig\t1\tleft"), unknown_arm);
    }
}
