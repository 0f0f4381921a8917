//! Plays a script: one answer for each line.

use std::io::{self, Write};

use crate::figures::FigureKind;
use crate::register::Register;
use crate::script::{self, Call, Fault, Reply, TextFault};
use crate::text;

/// A register that answers call lines.
#[derive(Debug)]
pub struct Session {
    kind: FigureKind,
    register: Register,
}

impl Session {
    /// Sets a register up as the first line says.
    pub fn open(line: &[u8]) -> Result<Self, Fault> {
        let header = script::read_header(line)?;
        let rule = header.rule.make()?;
        let register = Register::new(rule, header.readers, header.kind.start())?;
        Ok(Session {
            kind: header.kind,
            register,
        })
    }

    pub fn kind(&self) -> FigureKind {
        self.kind
    }

    pub fn register(&self) -> &Register {
        &self.register
    }

    /// Runs the call of one line.
    pub fn call(&mut self, line: &[u8]) -> Result<Reply, Fault> {
        let register = &mut self.register;
        Ok(match script::read_call(line, self.kind)? {
            Call::Write(figure) => Reply::Started(register.write(figure)?),
            Call::Read { reader, kind } => Reply::Started(register.read(reader, kind)?),
            Call::Deliver { place } => match register.deliver(place)? {
                Some(finish) => Reply::Finished(finish),
                None => Reply::Done,
            },
            Call::Drop { place } => {
                register.drop_message(place)?;
                Reply::Done
            }
            Call::Duplicate { place } => {
                register.duplicate(place)?;
                Reply::Done
            }
            Call::Halt(party) => {
                register.halt(party)?;
                Reply::Done
            }
        })
    }
}

/// Plays a whole input and writes its answers. An input that is too long is not read.
pub fn play(input: &[u8], out: &mut impl Write) -> io::Result<()> {
    let mut answer = |number, answer| out.write_all(script::answer_line(number, answer).as_bytes());
    if input.len() > text::INPUT_LIMIT {
        return answer(0, Err(Fault::Text(TextFault::NotText)));
    }
    let mut lines = text::lines(input);
    let Some(first) = lines.next() else {
        return Ok(());
    };
    let mut session = match Session::open(first) {
        Ok(session) => session,
        Err(fault) => return answer(1, Err(fault)),
    };
    answer(1, Ok(Reply::Done))?;
    for (number, line) in (2..).zip(lines) {
        answer(number, session.call(line))?;
    }
    Ok(())
}

#[cfg(test)]
mod tests {
    use super::*;

    fn played(script: &str) -> String {
        let mut answers = Vec::new();
        play(script.replace(' ', "\t").as_bytes(), &mut answers).unwrap();
        String::from_utf8(answers).unwrap().replace('\t', " ")
    }

    #[test]
    fn first_example() {
        let script = "plant tide 2 count 3 1\nW 1250 480\nD 0\nR 0 quick\nD 3\nD 3\n\
                      D 4\nD 4\nD 4\nD 4\nD 5\nD 5\nW 1260 490\n";
        let answers = "1 ok 0\n2 ok 1\n3 ok 0\n4 ok 2\n5 ok 0\n6 ok 0\n\
                       7 ok 0\n8 ok 0\n9 ok 0\n10 ok 0\n11 ok 0\n\
                       12 done 2 1 1250 480 10 4\n13 no plant 7 0\n";
        assert_eq!(played(script), answers);
    }

    #[test]
    fn inputs_without_a_run() {
        assert_eq!(played(""), "");
        assert_eq!(played("\n"), "1 no text 13 0\n");
        assert_eq!(played("plant tide 0 count 3 1\nD 0\n"), "1 no rule 1 0\n");
        assert_eq!(played(&"\n".repeat(65_537)), "0 no text 12 0\n");
        assert_eq!(played("plant tide 1 count 1 0"), "1 ok 0\n");
    }

    #[test]
    fn relay_read_keeps_the_lowest_reply() {
        let script = "plant order 1 count 1 0\nW shift 7\nD 0\nD 0\nR 0 relay\nD 0\nD 0\nD 0\n";
        let answers = "1 ok 0\n2 ok 1\n3 ok 0\n4 done 1 1 shift 7 2 2\n5 ok 2\n\
                       6 ok 0\n7 ok 0\n8 done 2 1 shift 7 3 3\n";
        assert_eq!(played(script), answers);
    }
}
