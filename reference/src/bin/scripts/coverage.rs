//! Counts what scripts make happen.

use std::collections::BTreeMap;

use reference::figures::FigureKind;
use reference::register::{Message, MessageKind, OperationKind, Phase, ReadKind, Reader, Register};
use reference::script::{self, Call, Fault, Reply, TextFault};
use reference::session::Session;
use reference::text;

/// Every fault that a script can be answered with.
const FAULTS: [&str; 26] = [
    "no rule 1 0",
    "no rule 2 0",
    "no plant 5 0",
    "no plant 6 0",
    "no plant 7 0",
    "no plant 8 0",
    "no plant 9 0",
    "no plant 10 0",
    "no text 12 0",
    "no text 13 0",
    "no text 13 1",
    "no text 13 2",
    "no text 13 3",
    "no text 14 0",
    "no text 15 1",
    "no text 15 2",
    "no text 15 4",
    "no text 15 5",
    "no text 15 6",
    "no text 15 7",
    "no figure 13 1",
    "no figure 13 3",
    "no figure 15 1",
    "no figure 15 2",
    "input too long",
    "input empty",
];

/// Every other thing that scripts should make happen.
const EVENTS: [&str; 43] = [
    "done write 2",
    "done quick 2",
    "done quick 4",
    "done settled 4",
    "done relay 3",
    "done with over 255 messages",
    "done with over 511 messages",
    "start write",
    "start quick",
    "start settled",
    "start relay",
    "relay reads overlap",
    "read overlaps a write",
    "9 at write",
    "9 at read",
    "9 at duplicate",
    "9 at FAN",
    "9 at HAVE",
    "lost at a halted writer",
    "lost at a halted reader",
    "lost at a halted replica",
    "PUT taken",
    "PUT not newer",
    "BACK taken",
    "BACK not newer",
    "PUT-ACK counted",
    "PUT-ACK stale, writer idle",
    "PUT-ACK stale, next write under way",
    "PUT-ACK twice",
    "reply counted",
    "reply stale, reader idle",
    "reply stale, next read under way",
    "reply stale, later phase",
    "reply twice",
    "HAVE raises the best",
    "HAVE adds a holder",
    "HAVE older than the best",
    "REPLY lowers the best",
    "RELAY restarts a used mark",
    "RELAY of an older read",
    "RELAY twice",
    "RELAY after the reply",
    "RELAY taken",
];

#[derive(Default)]
pub struct Coverage {
    counts: BTreeMap<String, u64>,
}

impl Coverage {
    fn note(&mut self, event: &str) {
        match self.counts.get_mut(event) {
            Some(count) => *count += 1,
            None => {
                self.counts.insert(event.to_string(), 1);
            }
        }
    }

    /// Plays a script and counts what happens.
    pub fn add(&mut self, script: &[u8]) {
        self.note("scripts");
        if script.len() > text::INPUT_LIMIT {
            return self.note("input too long");
        }
        let mut lines = text::lines(script);
        let Some(first) = lines.next() else {
            return self.note("input empty");
        };
        self.note("lines");
        let mut session = match Session::open(first) {
            Ok(session) => session,
            Err(fault) => return self.note_fault(fault),
        };
        let words: Vec<&[u8]> = first.split(|&byte| byte == b'\t').collect();
        for place in [1, 3] {
            self.note(&format!("plant {}", String::from_utf8_lossy(words[place])));
        }
        for line in lines {
            self.note("lines");
            self.add_call(&mut session, line);
        }
    }

    fn add_call(&mut self, session: &mut Session, line: &[u8]) {
        let call = script::read_call(line, session.kind());
        let before = call.and_then(|call| self.before(session.register(), &call));
        match session.call(line) {
            Ok(reply) => {
                if let Ok(event) = before {
                    self.note(event);
                }
                self.note_reply(session, reply);
            }
            Err(fault) => {
                self.note_fault(fault);
                if fault.parts().1 == 9 {
                    self.note(crowded_call(session, line));
                }
            }
        }
    }

    /// What a call is about to do, seen from the tables before it.
    fn before(&self, register: &Register, call: &Call) -> Result<&'static str, TextFault> {
        Ok(match *call {
            Call::Deliver { place } => match register.messages().get(place as usize) {
                Some(message) => delivery(register, message),
                None => "missed",
            },
            Call::Write(_) => "start write",
            Call::Read { kind, .. } => match kind {
                ReadKind::Quick => "start quick",
                ReadKind::Settled => "start settled",
                ReadKind::Relay => "start relay",
            },
            Call::Drop { .. } => "drop",
            Call::Duplicate { .. } => "duplicate",
            Call::Halt(_) => "halt",
        })
    }

    fn note_fault(&mut self, fault: Fault) {
        let (layer, number, field) = fault.parts();
        self.note(&format!("no {layer} {number} {field}"));
    }

    fn note_reply(&mut self, session: &Session, reply: Reply) {
        let register = session.register();
        match reply {
            Reply::Done => self.note("ok 0"),
            Reply::Started(operation) => {
                self.note("ok n");
                self.note_overlaps(register, register.entry(operation).kind);
            }
            Reply::Finished(finish) => {
                let kind = match register.entry(finish.operation).kind {
                    OperationKind::Write => "write",
                    OperationKind::Read(ReadKind::Quick) => "quick",
                    OperationKind::Read(ReadKind::Settled) => "settled",
                    OperationKind::Read(ReadKind::Relay) => "relay",
                };
                self.note(&format!("done {kind} {}", finish.exchanges));
                if session.kind() == FigureKind::Order {
                    self.note("done with an order");
                }
                for most in [255, 511] {
                    if finish.sent > most {
                        self.note(&format!("done with over {most} messages"));
                    }
                }
            }
        }
    }

    fn note_overlaps(&mut self, register: &Register, kind: OperationKind) {
        let readers = register.readers().iter();
        let relaying = readers.filter(|reader| !reader.halted && reader.phase == Phase::Relay);
        if kind == OperationKind::Read(ReadKind::Relay) && relaying.count() > 1 {
            self.note("relay reads overlap");
        }
        if kind != OperationKind::Write && register.writer().operation != 0 {
            self.note("read overlaps a write");
        }
    }

    /// Prints all counts, and what should have happened and did not. Answers whether it is all there.
    pub fn print(&self) -> bool {
        for (event, count) in &self.counts {
            println!("{count:>10}  {event}");
        }
        let expected = FAULTS.iter().chain(&EVENTS);
        let missing = expected.filter(|event| !self.counts.contains_key(**event));
        let mut complete = true;
        for event in missing {
            complete = false;
            println!("   MISSING  {event}");
        }
        complete
    }
}

/// Which sort of call found no room for its messages.
fn crowded_call(session: &Session, line: &[u8]) -> &'static str {
    let messages = session.register().messages();
    match script::read_call(line, session.kind()) {
        Ok(Call::Write(_)) => "9 at write",
        Ok(Call::Read { .. }) => "9 at read",
        Ok(Call::Duplicate { .. }) => "9 at duplicate",
        Ok(Call::Deliver { place }) => match messages[place as usize].kind {
            MessageKind::Fan => "9 at FAN",
            _ => "9 at HAVE",
        },
        _ => "9 elsewhere",
    }
}

/// What the delivery of a message is about to do.
fn delivery(register: &Register, message: &Message) -> &'static str {
    let receiver = usize::from(message.receiver);
    match message.kind {
        MessageKind::PutAck => put_ack(register, message),
        MessageKind::Have | MessageKind::BackAck | MessageKind::Reply => {
            reply(&register.readers()[receiver], message)
        }
        _ if register.replicas()[receiver].halted => "lost at a halted replica",
        MessageKind::Query => "QUERY",
        MessageKind::Fan => "FAN",
        MessageKind::Relay => relay(register, message),
        MessageKind::Put | MessageKind::Back => {
            let newer = message.value.stamp > register.replicas()[receiver].value.stamp;
            match (message.kind, newer) {
                (MessageKind::Put, true) => "PUT taken",
                (MessageKind::Put, false) => "PUT not newer",
                (_, true) => "BACK taken",
                (_, false) => "BACK not newer",
            }
        }
    }
}

fn put_ack(register: &Register, message: &Message) -> &'static str {
    let writer = register.writer();
    if writer.halted {
        "lost at a halted writer"
    } else if writer.operation == 0 {
        "PUT-ACK stale, writer idle"
    } else if writer.operation != message.operation {
        "PUT-ACK stale, next write under way"
    } else if writer.acknowledgers & (1 << message.sender) != 0 {
        "PUT-ACK twice"
    } else {
        "PUT-ACK counted"
    }
}

fn reply(reader: &Reader, message: &Message) -> &'static str {
    let phase = match message.kind {
        MessageKind::Have => Phase::First,
        MessageKind::BackAck => Phase::Second,
        _ => Phase::Relay,
    };
    if reader.halted {
        "lost at a halted reader"
    } else if reader.operation == 0 {
        "reply stale, reader idle"
    } else if reader.operation != message.operation {
        "reply stale, next read under way"
    } else if reader.phase != phase {
        "reply stale, later phase"
    } else if reader.replies & (1 << message.sender) != 0 {
        "reply twice"
    } else {
        counted_reply(reader, message)
    }
}

fn counted_reply(reader: &Reader, message: &Message) -> &'static str {
    let (offered, best) = (message.value.stamp, reader.best.stamp);
    match message.kind {
        MessageKind::Have if offered > best => "HAVE raises the best",
        MessageKind::Have if offered == best => "HAVE adds a holder",
        MessageKind::Have => "HAVE older than the best",
        MessageKind::Reply if reader.replies != 0 && offered < best => "REPLY lowers the best",
        _ => "reply counted",
    }
}

fn relay(register: &Register, message: &Message) -> &'static str {
    let replica = usize::from(message.receiver);
    let reader = usize::from(register.entry(message.operation).owner);
    let mark = register.mark(replica, reader);
    if message.operation < mark.operation {
        "RELAY of an older read"
    } else if message.operation > mark.operation && mark.operation != 0 {
        "RELAY restarts a used mark"
    } else if message.operation == mark.operation && mark.relayers & (1 << message.sender) != 0 {
        "RELAY twice"
    } else if message.operation == mark.operation && mark.replied {
        "RELAY after the reply"
    } else if message.value.stamp > register.replicas()[replica].value.stamp {
        "RELAY taken"
    } else {
        "RELAY"
    }
}
