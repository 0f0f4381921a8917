//! The register: its parties, its waiting messages and its journal.

use crate::figures::Figure;
use crate::rules::{self, ReplicaSet, Rule};

/// How many messages may wait.
pub const MESSAGE_ROOM: usize = 1_024;
/// How many operations may be started.
pub const JOURNAL_ROOM: usize = 256;
/// No register has more readers.
pub const MOST_READERS: u32 = 32;

/// The number of an operation, from 1; 0 stands for none.
pub type Operation = u16;

/// Why a call is declined.
#[derive(Clone, Copy, Debug, PartialEq, Eq)]
pub enum Refusal {
    NoSuchParty,
    Halted,
    UnderWay,
    JournalFull,
    MessagesFull,
    NoMessage,
}

/// A figure with the number of its write; higher is newer.
#[derive(Clone, Copy, Debug, PartialEq, Eq)]
pub struct Stamped {
    pub stamp: u16,
    pub figure: Figure,
}

#[derive(Clone, Copy, Debug, PartialEq, Eq)]
pub enum ReadKind {
    Quick,
    Settled,
    Relay,
}

#[derive(Clone, Copy, Debug, PartialEq, Eq)]
pub enum Party {
    Writer,
    Reader(u32),
    Replica(u32),
}

#[derive(Clone, Copy, Debug, PartialEq, Eq)]
pub enum MessageKind {
    Put,
    PutAck,
    Query,
    Have,
    Back,
    BackAck,
    Fan,
    Relay,
    Reply,
}

/// The kind says what sort of party the sender and the receiver are.
#[derive(Clone, Copy, Debug, PartialEq, Eq)]
pub struct Message {
    pub kind: MessageKind,
    pub sender: u8,
    pub receiver: u8,
    pub operation: Operation,
    pub value: Stamped,
}

#[derive(Debug)]
pub struct Writer {
    pub halted: bool,
    pub stamp: u16,
    pub operation: Operation,
    pub acknowledgers: ReplicaSet,
}

#[derive(Clone, Debug)]
pub struct Replica {
    pub halted: bool,
    pub value: Stamped,
}

#[derive(Clone, Copy, Debug, PartialEq, Eq)]
pub enum Phase {
    Idle,
    First,
    Second,
    Relay,
}

#[derive(Clone, Debug)]
pub struct Reader {
    pub halted: bool,
    pub operation: Operation,
    pub phase: Phase,
    pub replies: ReplicaSet,
    pub best: Stamped,
    pub holders: ReplicaSet,
}

/// What a replica was told by others for one reader's latest relay read.
#[derive(Clone, Copy, Debug, Default)]
pub struct Mark {
    pub operation: Operation,
    pub relayers: ReplicaSet,
    pub replied: bool,
}

#[derive(Clone, Copy, Debug, PartialEq, Eq)]
pub enum OperationKind {
    Write,
    Read(ReadKind),
}

/// One operation of the journal; the owner of a read is its reader.
#[derive(Clone, Debug)]
pub struct Entry {
    pub kind: OperationKind,
    pub owner: u8,
    pub start_event: u32,
    pub finish_event: u32,
    pub exchanges: u8,
    pub value: Stamped,
    pub sent: u16,
}

/// What a delivery finished.
#[derive(Clone, Copy, Debug, PartialEq, Eq)]
pub struct Finish {
    pub operation: Operation,
    pub value: Stamped,
    pub sent: u16,
    pub exchanges: u8,
}

#[derive(Debug)]
pub struct Register {
    rule: Rule,
    start: Stamped,
    writer: Writer,
    replicas: Vec<Replica>,
    readers: Vec<Reader>,
    marks: Vec<Mark>,
    messages: Vec<Message>,
    journal: Vec<Entry>,
    finished: u32,
}

fn bit(replica: u8) -> ReplicaSet {
    1 << replica
}

impl Register {
    pub fn new(rule: Rule, readers: u32, figure: Figure) -> Result<Self, rules::Refusal> {
        if !(1..=MOST_READERS).contains(&readers) {
            return Err(rules::Refusal::OutOfLimits);
        }
        let start = Stamped { stamp: 0, figure };
        let replica = Replica {
            halted: false,
            value: start,
        };
        let reader = Reader {
            halted: false,
            operation: 0,
            phase: Phase::Idle,
            replies: 0,
            best: start,
            holders: 0,
        };
        let writer = Writer {
            halted: false,
            stamp: 0,
            operation: 0,
            acknowledgers: 0,
        };
        let (size, readers) = (rule.size() as usize, readers as usize);
        Ok(Register {
            rule,
            start,
            writer,
            replicas: vec![replica; size],
            readers: vec![reader; readers],
            marks: vec![Mark::default(); size * readers],
            messages: Vec::with_capacity(MESSAGE_ROOM),
            journal: Vec::with_capacity(JOURNAL_ROOM),
            finished: 0,
        })
    }

    pub fn rule(&self) -> &Rule {
        &self.rule
    }

    pub fn writer(&self) -> &Writer {
        &self.writer
    }

    pub fn replicas(&self) -> &[Replica] {
        &self.replicas
    }

    pub fn readers(&self) -> &[Reader] {
        &self.readers
    }

    /// The waiting messages, in order.
    pub fn messages(&self) -> &[Message] {
        &self.messages
    }

    pub fn journal(&self) -> &[Entry] {
        &self.journal
    }

    /// What a replica was told for the latest relay read of a reader.
    pub fn mark(&self, replica: usize, reader: usize) -> &Mark {
        &self.marks[replica * self.readers.len() + reader]
    }

    /// The journal's entry of an operation.
    pub fn entry(&self, operation: Operation) -> &Entry {
        &self.journal[usize::from(operation) - 1]
    }

    pub fn write(&mut self, figure: Figure) -> Result<Operation, Refusal> {
        self.check_start(self.writer.halted, self.writer.operation)?;
        self.writer.stamp += 1;
        let value = Stamped {
            stamp: self.writer.stamp,
            figure,
        };
        let operation = self.enter(OperationKind::Write, 0, value);
        self.writer.operation = operation;
        self.writer.acknowledgers = 0;
        self.send_to_all(MessageKind::Put, 0, operation, value);
        Ok(operation)
    }

    pub fn read(&mut self, number: u32, kind: ReadKind) -> Result<Operation, Refusal> {
        let reader = self
            .readers
            .get(number as usize)
            .ok_or(Refusal::NoSuchParty)?;
        self.check_start(reader.halted, reader.operation)?;
        let owner = number as u8;
        let operation = self.enter(OperationKind::Read(kind), owner, self.start);
        let (phase, question) = match kind {
            ReadKind::Quick | ReadKind::Settled => (Phase::First, MessageKind::Query),
            ReadKind::Relay => (Phase::Relay, MessageKind::Fan),
        };
        self.readers[number as usize] = Reader {
            halted: false,
            operation,
            phase,
            replies: 0,
            best: self.start,
            holders: 0,
        };
        self.send_to_all(question, owner, operation, self.start);
        Ok(operation)
    }

    /// Takes the message at a place out and lets it have its effect.
    pub fn deliver(&mut self, place: u32) -> Result<Option<Finish>, Refusal> {
        let message = self.message(place)?;
        if self.receiver_halted(&message) {
            self.take_out(place, 0)?;
            return Ok(None);
        }
        match message.kind {
            MessageKind::Have => self.deliver_have(place, &message),
            MessageKind::Fan => {
                self.take_out(place, self.replicas.len())?;
                let value = self.replicas[usize::from(message.receiver)].value;
                let kind = MessageKind::Relay;
                self.send_to_all(kind, message.receiver, message.operation, value);
                Ok(None)
            }
            // The others send one message at most, into the place that became free.
            _ => {
                self.take_out(place, 0)?;
                Ok(self.react(&message))
            }
        }
    }

    pub fn drop_message(&mut self, place: u32) -> Result<(), Refusal> {
        self.message(place)?;
        self.take_out(place, 0)
    }

    pub fn duplicate(&mut self, place: u32) -> Result<(), Refusal> {
        let message = self.message(place)?;
        if self.messages.len() == MESSAGE_ROOM {
            return Err(Refusal::MessagesFull);
        }
        self.messages.push(message);
        Ok(())
    }

    /// Stops a party for good.
    pub fn halt(&mut self, party: Party) -> Result<(), Refusal> {
        let halted = match party {
            Party::Writer => Some(&mut self.writer.halted),
            Party::Reader(number) => {
                let reader = self.readers.get_mut(number as usize);
                reader.map(|reader| &mut reader.halted)
            }
            Party::Replica(number) => {
                let replica = self.replicas.get_mut(number as usize);
                replica.map(|replica| &mut replica.halted)
            }
        };
        let halted = halted.ok_or(Refusal::NoSuchParty)?;
        if *halted {
            return Err(Refusal::Halted);
        }
        *halted = true;
        Ok(())
    }

    /// Whether an owner in this state may start an operation that asks all replicas.
    fn check_start(&self, halted: bool, operation: Operation) -> Result<(), Refusal> {
        if halted {
            Err(Refusal::Halted)
        } else if operation != 0 {
            Err(Refusal::UnderWay)
        } else if self.journal.len() == JOURNAL_ROOM {
            Err(Refusal::JournalFull)
        } else if self.messages.len() + self.replicas.len() > MESSAGE_ROOM {
            Err(Refusal::MessagesFull)
        } else {
            Ok(())
        }
    }

    /// Adds an entry to the journal and gives its operation.
    fn enter(&mut self, kind: OperationKind, owner: u8, value: Stamped) -> Operation {
        let operation = self.journal.len() as Operation + 1;
        self.journal.push(Entry {
            kind,
            owner,
            start_event: u32::from(operation) + self.finished,
            finish_event: 0,
            exchanges: 0,
            value,
            sent: 0,
        });
        operation
    }

    fn message(&self, place: u32) -> Result<Message, Refusal> {
        let message = self.messages.get(place as usize);
        message.copied().ok_or(Refusal::NoMessage)
    }

    /// Takes a waiting message out, provided that the messages sent for it have room.
    fn take_out(&mut self, place: u32, sends: usize) -> Result<(), Refusal> {
        if self.messages.len() - 1 + sends > MESSAGE_ROOM {
            return Err(Refusal::MessagesFull);
        }
        self.messages.remove(place as usize);
        Ok(())
    }

    fn receiver_halted(&self, message: &Message) -> bool {
        let receiver = usize::from(message.receiver);
        match message.kind {
            MessageKind::PutAck => self.writer.halted,
            MessageKind::Have | MessageKind::BackAck | MessageKind::Reply => {
                self.readers[receiver].halted
            }
            MessageKind::Put
            | MessageKind::Query
            | MessageKind::Back
            | MessageKind::Fan
            | MessageKind::Relay => self.replicas[receiver].halted,
        }
    }

    /// Adds a message to the end of the waiting ones and counts it for its operation.
    fn send(&mut self, message: Message) {
        self.messages.push(message);
        let entry = &mut self.journal[usize::from(message.operation) - 1];
        entry.sent = entry.sent.saturating_add(1);
    }

    fn send_to_all(&mut self, kind: MessageKind, sender: u8, operation: Operation, value: Stamped) {
        for receiver in 0..self.replicas.len() as u8 {
            self.send(Message {
                kind,
                sender,
                receiver,
                operation,
                value,
            });
        }
    }

    /// Sends from the receiver of a message to the owner of its operation.
    fn send_to_owner(&mut self, kind: MessageKind, asked: &Message, value: Stamped) {
        self.send(Message {
            kind,
            sender: asked.receiver,
            receiver: self.entry(asked.operation).owner,
            operation: asked.operation,
            value,
        });
    }

    /// The effect of a message that has been taken out and whose receiver works.
    fn react(&mut self, message: &Message) -> Option<Finish> {
        match message.kind {
            MessageKind::Put => self.acknowledge(message, MessageKind::PutAck),
            MessageKind::Back => self.acknowledge(message, MessageKind::BackAck),
            MessageKind::Query => {
                let value = self.replicas[usize::from(message.receiver)].value;
                self.send_to_owner(MessageKind::Have, message, value);
            }
            MessageKind::Relay => self.deliver_relay(message),
            MessageKind::PutAck => return self.deliver_put_ack(message),
            MessageKind::BackAck => return self.deliver_back_ack(message),
            MessageKind::Reply => return self.deliver_reply(message),
            MessageKind::Have | MessageKind::Fan => unreachable!("delivered on their own"),
        }
        None
    }

    /// The receiving replica takes the offered value if it is newer than its own.
    fn take_value(&mut self, message: &Message) {
        let replica = &mut self.replicas[usize::from(message.receiver)];
        if message.value.stamp > replica.value.stamp {
            replica.value = message.value;
        }
    }

    fn acknowledge(&mut self, message: &Message, kind: MessageKind) {
        self.take_value(message);
        self.send_to_owner(kind, message, self.start);
    }

    fn deliver_put_ack(&mut self, message: &Message) -> Option<Finish> {
        if message.operation != self.writer.operation {
            return None;
        }
        self.writer.acknowledgers |= bit(message.sender);
        if !self.rule.is_round(self.writer.acknowledgers) {
            return None;
        }
        self.writer.operation = 0;
        let value = self.entry(message.operation).value;
        Some(self.finish(message.operation, value, 2))
    }

    /// A HAVE can send to all replicas, and is declined if they would not find room.
    fn deliver_have(&mut self, place: u32, message: &Message) -> Result<Option<Finish>, Refusal> {
        let number = usize::from(message.receiver);
        let mut reader = self.readers[number].clone();
        if !reader.count(message, Phase::First) {
            self.take_out(place, 0)?;
            return Ok(None);
        }
        reader.hear(message);
        let Reader { best, holders, .. } = reader;
        if !self.rule.is_round(reader.replies) {
            self.take_out(place, 0)?;
            self.readers[number] = reader;
            return Ok(None);
        }
        let quick = self.entry(message.operation).kind == OperationKind::Read(ReadKind::Quick);
        if quick && self.rule.is_hold(holders) {
            self.take_out(place, 0)?;
            self.readers[number] = reader;
            return Ok(Some(self.finish_read(message, 2)));
        }
        self.take_out(place, self.replicas.len())?;
        reader.replies = 0;
        reader.phase = Phase::Second;
        self.readers[number] = reader;
        let kind = MessageKind::Back;
        self.send_to_all(kind, message.receiver, message.operation, best);
        Ok(None)
    }

    fn deliver_back_ack(&mut self, message: &Message) -> Option<Finish> {
        let reader = &mut self.readers[usize::from(message.receiver)];
        if !reader.count(message, Phase::Second) || !self.rule.is_round(reader.replies) {
            return None;
        }
        Some(self.finish_read(message, 4))
    }

    fn deliver_relay(&mut self, message: &Message) {
        self.take_value(message);
        let replica = usize::from(message.receiver);
        let reader = usize::from(self.entry(message.operation).owner);
        let mark = &mut self.marks[replica * self.readers.len() + reader];
        if message.operation < mark.operation {
            return;
        }
        if message.operation > mark.operation {
            *mark = Mark {
                operation: message.operation,
                ..Mark::default()
            };
        }
        mark.relayers |= bit(message.sender);
        if !mark.replied && self.rule.is_round(mark.relayers) {
            mark.replied = true;
            let value = self.replicas[replica].value;
            self.send_to_owner(MessageKind::Reply, message, value);
        }
    }

    fn deliver_reply(&mut self, message: &Message) -> Option<Finish> {
        let reader = &mut self.readers[usize::from(message.receiver)];
        let first = reader.replies == 0;
        if !reader.count(message, Phase::Relay) {
            return None;
        }
        if first || message.value.stamp < reader.best.stamp {
            reader.best = message.value;
        }
        if !self.rule.is_round(reader.replies) {
            return None;
        }
        Some(self.finish_read(message, 3))
    }

    /// Finishes the read of the message's receiver with its best value.
    fn finish_read(&mut self, message: &Message, exchanges: u8) -> Finish {
        let reader = &mut self.readers[usize::from(message.receiver)];
        reader.operation = 0;
        reader.phase = Phase::Idle;
        let best = reader.best;
        self.finish(message.operation, best, exchanges)
    }

    fn finish(&mut self, operation: Operation, value: Stamped, exchanges: u8) -> Finish {
        self.finished += 1;
        let event = self.journal.len() as u32 + self.finished;
        let entry = &mut self.journal[usize::from(operation) - 1];
        entry.finish_event = event;
        entry.value = value;
        entry.exchanges = exchanges;
        Finish {
            operation,
            value,
            sent: entry.sent,
            exchanges,
        }
    }
}

impl Reader {
    /// Whether a reply counts: for the current operation, in its phase, and once for each sender,
    /// who then joins the replies.
    fn count(&mut self, message: &Message, phase: Phase) -> bool {
        let counts = message.operation == self.operation
            && self.phase == phase
            && self.replies & bit(message.sender) == 0;
        if counts {
            self.replies |= bit(message.sender);
        }
        counts
    }

    /// Keeps the newest value of the first round, and who holds it.
    fn hear(&mut self, message: &Message) {
        if message.value.stamp > self.best.stamp {
            self.best = message.value;
            self.holders = bit(message.sender);
        } else if message.value.stamp == self.best.stamp {
            self.holders |= bit(message.sender);
        }
    }
}
