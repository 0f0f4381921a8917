//! The lines of a script, and the lines that answer them.

use crate::figures::{Figure, FigureFault, FigureKind};
use crate::register::{self, Finish, Operation, Party, ReadKind};
use crate::rules::{self, Count, Grid, Groups, Lead, Rule};
use crate::text::{self, Fields, LineBuffer};

/// What is wrong with a line's text; fields count from 0.
#[derive(Clone, Copy, Debug, PartialEq, Eq)]
pub enum TextFault {
    NotText,
    UnknownWord { field: usize },
    FieldCount,
    BadNumber { field: usize },
    Figure(FigureFault),
}

/// Why a line is declined.
#[derive(Clone, Copy, Debug, PartialEq, Eq)]
pub enum Fault {
    Text(TextFault),
    Rule(rules::Refusal),
    Register(register::Refusal),
}

/// The answer to a line that is not declined.
#[derive(Clone, Copy, Debug, PartialEq, Eq)]
pub enum Reply {
    Done,
    Started(Operation),
    Finished(Finish),
}

/// A rule as the first line names it, not made yet.
#[derive(Clone, Copy, Debug, PartialEq, Eq)]
pub enum RuleDraft {
    Count {
        size: u32,
        faults: u32,
    },
    Grid {
        rows: u32,
        columns: u32,
    },
    Lead {
        lead: u32,
        size: u32,
        faults: u32,
    },
    Groups {
        groups: u32,
        group_faults: u32,
        places: u32,
        place_faults: u32,
    },
}

/// The first line of a script.
#[derive(Clone, Copy, Debug, PartialEq, Eq)]
pub struct Header {
    pub kind: FigureKind,
    pub readers: u32,
    pub rule: RuleDraft,
}

#[derive(Clone, Copy, Debug, PartialEq, Eq)]
pub enum Call {
    Write(Figure),
    Read { reader: u32, kind: ReadKind },
    Deliver { place: u32 },
    Drop { place: u32 },
    Duplicate { place: u32 },
    Halt(Party),
}

impl From<FigureFault> for TextFault {
    fn from(fault: FigureFault) -> Self {
        TextFault::Figure(fault)
    }
}

impl From<TextFault> for Fault {
    fn from(fault: TextFault) -> Self {
        Fault::Text(fault)
    }
}

impl From<rules::Refusal> for Fault {
    fn from(refusal: rules::Refusal) -> Self {
        Fault::Rule(refusal)
    }
}

impl From<register::Refusal> for Fault {
    fn from(refusal: register::Refusal) -> Self {
        Fault::Register(refusal)
    }
}

impl RuleDraft {
    /// Makes the rules below first, the outer before the inner.
    pub fn make(self) -> Result<Rule, rules::Refusal> {
        Ok(match self {
            RuleDraft::Count { size, faults } => Rule::Count(Count::new(size, faults)?),
            RuleDraft::Grid { rows, columns } => Rule::Grid(Grid::new(rows, columns)?),
            RuleDraft::Lead { lead, size, faults } => {
                Rule::Lead(Lead::new(lead, Count::new(size, faults)?)?)
            }
            RuleDraft::Groups {
                groups,
                group_faults,
                places,
                place_faults,
            } => {
                let outer = Count::new(groups, group_faults)?;
                let inner = Count::new(places, place_faults)?;
                Rule::Groups(Groups::new(outer, inner)?)
            }
        })
    }
}

fn fields(line: &[u8]) -> Result<Fields<'_>, TextFault> {
    if text::is_text(line) {
        Ok(Fields::of(line))
    } else {
        Err(TextFault::NotText)
    }
}

/// A word that fixes how many fields there must be; without it there are too few.
fn leading_word<'a>(fields: &Fields<'a>, field: usize) -> Result<&'a [u8], TextFault> {
    fields.get(field).ok_or(TextFault::FieldCount)
}

fn expect_count(fields: &Fields, count: usize) -> Result<(), TextFault> {
    if fields.count() == count {
        Ok(())
    } else {
        Err(TextFault::FieldCount)
    }
}

fn number(fields: &Fields, field: usize) -> Result<u32, TextFault> {
    let number = fields.get(field).and_then(text::number);
    number.ok_or(TextFault::BadNumber { field })
}

/// Reads the first line of a script.
pub fn read_header(line: &[u8]) -> Result<Header, TextFault> {
    let fields = fields(line)?;
    if leading_word(&fields, 0)? != b"plant" {
        return Err(TextFault::UnknownWord { field: 0 });
    }
    let rule_word = leading_word(&fields, 3)?;
    let count = match rule_word {
        b"count" | b"grid" => 6,
        b"lead" => 7,
        b"groups" => 8,
        _ => return Err(TextFault::UnknownWord { field: 3 }),
    };
    expect_count(&fields, count)?;
    let kind_word = leading_word(&fields, 1)?;
    let kind = FigureKind::of_word(kind_word).ok_or(TextFault::UnknownWord { field: 1 })?;
    Ok(Header {
        kind,
        readers: number(&fields, 2)?,
        rule: read_rule(rule_word, &fields)?,
    })
}

/// Reads the numbers of a rule whose word is known.
fn read_rule(word: &[u8], fields: &Fields) -> Result<RuleDraft, TextFault> {
    Ok(match word {
        b"count" => RuleDraft::Count {
            size: number(fields, 4)?,
            faults: number(fields, 5)?,
        },
        b"grid" => RuleDraft::Grid {
            rows: number(fields, 4)?,
            columns: number(fields, 5)?,
        },
        b"lead" => RuleDraft::Lead {
            lead: number(fields, 4)?,
            size: number(fields, 5)?,
            faults: number(fields, 6)?,
        },
        _ => RuleDraft::Groups {
            groups: number(fields, 4)?,
            group_faults: number(fields, 5)?,
            places: number(fields, 6)?,
            place_faults: number(fields, 7)?,
        },
    })
}

/// Reads a call line of a register that keeps this kind of figure.
pub fn read_call(line: &[u8], kind: FigureKind) -> Result<Call, TextFault> {
    let fields = fields(line)?;
    match leading_word(&fields, 0)? {
        b"W" => read_write(&fields, kind),
        b"R" => read_read(&fields),
        b"D" => Ok(Call::Deliver {
            place: read_place(&fields)?,
        }),
        b"X" => Ok(Call::Drop {
            place: read_place(&fields)?,
        }),
        b"A" => Ok(Call::Duplicate {
            place: read_place(&fields)?,
        }),
        b"H" => read_halt(&fields),
        _ => Err(TextFault::UnknownWord { field: 0 }),
    }
}

fn read_write(fields: &Fields, kind: FigureKind) -> Result<Call, TextFault> {
    let figure_fields = kind.field_count(fields, 1)?;
    expect_count(fields, 1 + figure_fields)?;
    Ok(Call::Write(kind.read(fields, 1)?))
}

fn read_read(fields: &Fields) -> Result<Call, TextFault> {
    expect_count(fields, 3)?;
    let reader = number(fields, 1)?;
    let kind = match fields.get(2) {
        Some(b"quick") => ReadKind::Quick,
        Some(b"settled") => ReadKind::Settled,
        Some(b"relay") => ReadKind::Relay,
        _ => return Err(TextFault::UnknownWord { field: 2 }),
    };
    Ok(Call::Read { reader, kind })
}

fn read_place(fields: &Fields) -> Result<u32, TextFault> {
    expect_count(fields, 2)?;
    number(fields, 1)
}

fn read_halt(fields: &Fields) -> Result<Call, TextFault> {
    let word = leading_word(fields, 1)?;
    let count = match word {
        b"cabinet" | b"console" => 3,
        b"station" => 2,
        _ => return Err(TextFault::UnknownWord { field: 1 }),
    };
    expect_count(fields, count)?;
    Ok(Call::Halt(match word {
        b"cabinet" => Party::Replica(number(fields, 2)?),
        b"console" => Party::Reader(number(fields, 2)?),
        _ => Party::Writer,
    }))
}

impl Fault {
    /// Layer, number and field, as they are printed.
    pub fn parts(self) -> (&'static str, u32, usize) {
        match self {
            Fault::Text(TextFault::NotText) => ("text", 12, 0),
            Fault::Text(TextFault::UnknownWord { field }) => ("text", 13, field),
            Fault::Text(TextFault::FieldCount) => ("text", 14, 0),
            Fault::Text(TextFault::BadNumber { field }) => ("text", 15, field),
            Fault::Text(TextFault::Figure(fault)) => match fault {
                FigureFault::UnknownWord { field } => ("figure", 13, field),
                FigureFault::BadNumber { field } => ("figure", 15, field),
            },
            Fault::Rule(rules::Refusal::OutOfLimits) => ("rule", 1, 0),
            Fault::Rule(rules::Refusal::TooManyFaults) => ("rule", 2, 0),
            Fault::Register(refusal) => ("plant", refusal_number(refusal), 0),
        }
    }
}

fn refusal_number(refusal: register::Refusal) -> u32 {
    match refusal {
        register::Refusal::NoSuchParty => 5,
        register::Refusal::Halted => 6,
        register::Refusal::UnderWay => 7,
        register::Refusal::JournalFull => 8,
        register::Refusal::MessagesFull => 9,
        register::Refusal::NoMessage => 10,
    }
}

/// The line that answers line `number` of a script.
pub fn answer_line(number: u32, answer: Result<Reply, Fault>) -> LineBuffer {
    let mut line = LineBuffer::new();
    line.push_number(number);
    match answer {
        Ok(Reply::Done) => print_ok(&mut line, 0),
        Ok(Reply::Started(operation)) => print_ok(&mut line, operation),
        Ok(Reply::Finished(finish)) => print_finish(&mut line, &finish),
        Err(fault) => print_fault(&mut line, fault),
    }
    line.end_line();
    line
}

fn print_ok(line: &mut LineBuffer, operation: Operation) {
    line.push_word("ok");
    line.push_field(operation.into());
}

fn print_finish(line: &mut LineBuffer, finish: &Finish) {
    line.push_word("done");
    line.push_field(finish.operation.into());
    line.push_field(finish.value.stamp.into());
    finish.value.figure.print(line);
    line.push_field(finish.sent.into());
    line.push_field(finish.exchanges.into());
}

fn print_fault(line: &mut LineBuffer, fault: Fault) {
    let (layer, number, field) = fault.parts();
    line.push_word("no");
    line.push_word(layer);
    line.push_field(number);
    line.push_field(field as u32);
}

#[cfg(test)]
mod tests {
    use super::*;

    fn fault_of_header(line: &str) -> (&'static str, u32, usize) {
        Fault::Text(read_header(line.as_bytes()).unwrap_err()).parts()
    }

    fn fault_of_call(line: &str, kind: FigureKind) -> (&'static str, u32, usize) {
        Fault::Text(read_call(line.as_bytes(), kind).unwrap_err()).parts()
    }

    #[test]
    fn faults_of_the_first_line() {
        assert_eq!(fault_of_header(""), ("text", 13, 0));
        assert_eq!(fault_of_header("plant"), ("text", 14, 0));
        assert_eq!(
            fault_of_header("plant\ttides\t2\tcount\t3"),
            ("text", 14, 0)
        );
        assert_eq!(
            fault_of_header("plant\ttides\t2\tCount\t3"),
            ("text", 13, 3)
        );
        assert_eq!(
            fault_of_header("plant\ttides\tx\tcount\t3\t1"),
            ("text", 13, 1)
        );
        assert_eq!(
            fault_of_header("plant\ttide\tx\tcount\t3\ty"),
            ("text", 15, 2)
        );
        assert_eq!(
            fault_of_header("plant\ttide\t2\tgroups\t1\t0\t1\t"),
            ("text", 15, 7)
        );
    }

    #[test]
    fn faults_of_call_lines() {
        let tide = |line| fault_of_call(line, FigureKind::Tide);
        let order = |line| fault_of_call(line, FigureKind::Order);
        assert_eq!(tide(""), ("text", 13, 0));
        assert_eq!(tide("Q\t1"), ("text", 13, 0));
        assert_eq!(tide("R\t0\tQuick"), ("text", 13, 2));
        assert_eq!(tide("R\tx\tQuick"), ("text", 15, 1));
        assert_eq!(tide("H\tship"), ("text", 13, 1));
        assert_eq!(tide("H"), ("text", 14, 0));
        assert_eq!(tide("H\tcabinet\tx"), ("text", 15, 2));
        assert_eq!(tide("D"), ("text", 14, 0));
        assert_eq!(tide("D\t-1"), ("text", 15, 1));
        assert_eq!(tide("D\t0\r"), ("text", 12, 0));
        assert_eq!(tide("W\tx"), ("text", 14, 0));
        assert_eq!(tide("W\t1\t2\t3"), ("text", 14, 0));
        assert_eq!(tide("W\t20001\t0"), ("figure", 15, 1));
        assert_eq!(tide("W\t0\t1440"), ("figure", 15, 2));
        assert_eq!(order("W"), ("text", 14, 0));
        assert_eq!(order("W\t"), ("figure", 13, 1));
        assert_eq!(order("W\tdig\t1\tleft"), ("figure", 13, 3));
    }
}
