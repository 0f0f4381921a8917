//! Random scripts. The composer plays what it writes, so it knows which messages wait.

use reference::figures::FigureKind;
use reference::register::{Message, MessageKind, Register, JOURNAL_ROOM, MESSAGE_ROOM};
use reference::session::Session;
use reference::text::INPUT_LIMIT;

use crate::damage;
use crate::headers::{self, digits};
use crate::random::Random;

/// The sorts of scripts.
#[derive(Clone, Copy, Debug, PartialEq, Eq)]
pub enum Flavour {
    Steady,
    Busy,
    Lossy,
    Doubled,
    Halting,
    Relays,
    WideRelays,
    Mixed,
    LongJournal,
    FullRoom,
    DamagedLines,
    DamagedBytes,
    RefusedHeader,
    DamagedHeader,
    Noise,
    Limits,
    Tiny,
}

impl Flavour {
    /// Each flavour with its name and how often it is chosen.
    pub const ALL: [(Flavour, &'static str, u32); 17] = [
        (Flavour::Steady, "steady", 12),
        (Flavour::Busy, "busy", 12),
        (Flavour::Lossy, "lossy", 8),
        (Flavour::Doubled, "doubled", 8),
        (Flavour::Halting, "halting", 8),
        (Flavour::Relays, "relays", 10),
        (Flavour::WideRelays, "wide-relays", 3),
        (Flavour::Mixed, "mixed", 10),
        (Flavour::LongJournal, "long-journal", 2),
        (Flavour::FullRoom, "full-room", 3),
        (Flavour::DamagedLines, "damaged-lines", 9),
        (Flavour::DamagedBytes, "damaged-bytes", 6),
        (Flavour::RefusedHeader, "refused-header", 4),
        (Flavour::DamagedHeader, "damaged-header", 4),
        (Flavour::Noise, "noise", 1),
        (Flavour::Limits, "limits", 2),
        (Flavour::Tiny, "tiny", 2),
    ];

    pub fn of_name(name: &str) -> Option<Self> {
        let found = Self::ALL.iter().find(|(_, word, _)| *word == name);
        found.map(|&(flavour, _, _)| flavour)
    }

    pub fn random(random: &mut Random) -> Self {
        let weights = Self::ALL.map(|(_, _, weight)| weight);
        Self::ALL[random.weighted(&weights)].0
    }
}

/// Which of the waiting messages a delivery takes.
#[derive(Clone, Copy)]
enum Choice {
    Oldest,
    Newest,
    Any,
    /// Any, but those of one slow replica seldom.
    AvoidReplica(u8),
    /// The first of the newest operation.
    NewestOperation,
}

/// How likely each sort of line is.
#[derive(Clone, Copy)]
struct Mix {
    write: u32,
    read: u32,
    deliver: u32,
    drop: u32,
    duplicate: u32,
    halt: u32,
    missing: u32,
    damaged: u32,
    /// Quick, settled and relay.
    kinds: [u32; 3],
    /// No more operations are under way, but for strays.
    most_under_way: usize,
}

const STEADY: Mix = Mix {
    write: 6,
    read: 10,
    deliver: 84,
    drop: 0,
    duplicate: 0,
    halt: 0,
    missing: 0,
    damaged: 0,
    kinds: [5, 3, 2],
    most_under_way: 2,
};

const BUSY: Mix = Mix {
    write: 15,
    read: 30,
    deliver: 200,
    most_under_way: 33,
    ..STEADY
};

const LOSSY: Mix = Mix {
    drop: 8,
    duplicate: 3,
    ..BUSY
};

const DOUBLED: Mix = Mix {
    duplicate: 40,
    ..BUSY
};

const HALTING: Mix = Mix {
    halt: 4,
    duplicate: 4,
    ..BUSY
};

const RELAYS: Mix = Mix {
    kinds: [1, 1, 12],
    duplicate: 10,
    ..BUSY
};

/// Of 24 replicas few reads fit into the room at a time.
const WIDE_RELAYS: Mix = Mix {
    write: 1,
    read: 2,
    deliver: 300,
    duplicate: 3,
    kinds: [0, 0, 1],
    ..STEADY
};

const MIXED: Mix = Mix {
    drop: 4,
    duplicate: 10,
    halt: 1,
    missing: 2,
    damaged: 2,
    ..BUSY
};

const DAMAGED: Mix = Mix {
    missing: 10,
    damaged: 60,
    ..BUSY
};

const FULL_ROOM: Mix = Mix {
    write: 20,
    read: 60,
    deliver: 60,
    duplicate: 100,
    kinds: [2, 2, 3],
    ..BUSY
};

/// Fills the room for messages as fast as it can be filled.
const FILLING: Mix = Mix {
    write: 2,
    read: 3,
    deliver: 5,
    duplicate: 100,
    ..BUSY
};

fn mix(flavour: Flavour) -> Mix {
    match flavour {
        Flavour::Busy => BUSY,
        Flavour::Lossy => LOSSY,
        Flavour::Doubled => DOUBLED,
        Flavour::Halting => HALTING,
        Flavour::Relays => RELAYS,
        Flavour::WideRelays => WIDE_RELAYS,
        Flavour::Mixed | Flavour::DamagedBytes => MIXED,
        Flavour::DamagedLines => DAMAGED,
        Flavour::FullRoom => FULL_ROOM,
        _ => STEADY,
    }
}

struct Composer<'a> {
    random: &'a mut Random,
    session: Session,
    script: Vec<u8>,
    mix: Mix,
    choice: Choice,
}

/// One random script of a flavour.
pub fn script(flavour: Flavour, random: &mut Random) -> Vec<u8> {
    let mut script = match flavour {
        Flavour::RefusedHeader => declined_run(headers::refused(random).as_bytes(), random),
        Flavour::DamagedHeader => {
            let line = headers::good(random);
            let damaged = if random.chance(60) {
                damage::field(line.as_bytes(), random)
            } else {
                damage::line(line.as_bytes(), random)
            };
            declined_run(&damaged, random)
        }
        Flavour::Noise => noise(random),
        Flavour::Limits => limits(random),
        Flavour::Tiny => tiny(random),
        Flavour::DamagedBytes => {
            let mut script = run(flavour, random, INPUT_LIMIT);
            damage::bytes(&mut script, random);
            script
        }
        _ => run(flavour, random, INPUT_LIMIT),
    };
    if flavour != Flavour::Limits && random.chance(10) && script.last() == Some(&b'\n') {
        script.pop();
    }
    script
}

/// A first line that may well be declined, and a few more.
fn declined_run(first: &[u8], random: &mut Random) -> Vec<u8> {
    let more: [&[u8]; 6] = [
        b"W\t1\t1",
        b"W\thold",
        b"R\t0\tquick",
        b"D\t0",
        b"H\tstation",
        b"plant\ttide\t2\tcount\t3\t1",
    ];
    let mut script = [first, b"\n"].concat();
    for _ in 0..random.below(6) {
        script.extend_from_slice(random.pick(&more));
        script.push(b'\n');
    }
    script
}

fn noise(random: &mut Random) -> Vec<u8> {
    let length = random.below(400);
    let mut script = Vec::new();
    if random.chance(50) {
        script.extend_from_slice(headers::good(random).as_bytes());
        script.push(b'\n');
    }
    let tame = random.chance(50);
    for _ in 0..length {
        let byte = if tame {
            random.pick(b"WRDXAH\t\t\t\n\n01239-quick")
        } else {
            random.byte()
        };
        script.push(byte);
    }
    script
}

fn tiny(random: &mut Random) -> Vec<u8> {
    let header = headers::good(random);
    let script = match random.below(7) {
        0 => String::new(),
        1 => "\n".to_string(),
        2 => "\n\n\n".to_string(),
        3 => header,
        4 => header + "\n",
        5 => format!("{header}\n\n"),
        _ => format!("{header}\n{header}\n{header}\nD\t0\n"),
    };
    script.into_bytes()
}

/// A script whose length is about the longest allowed.
fn limits(random: &mut Random) -> Vec<u8> {
    let length = INPUT_LIMIT + random.between(0, 4) as usize - 2;
    let mut script = run(Flavour::Steady, random, INPUT_LIMIT / 8);
    let filler = match random.below(4) {
        0 => "D\t0\n".to_string(),
        1 => format!("{}\n", "x".repeat(200)),
        2 => format!("{}\n", "\t".repeat(199)),
        _ => "R\t0\tquick\n".to_string(),
    };
    while script.len() < length {
        script.extend_from_slice(filler.as_bytes());
    }
    script.truncate(length);
    if random.chance(50) {
        script[length - 1] = b'\n';
    }
    script
}

/// A script that plays a register, of at most so many bytes.
fn run(flavour: Flavour, random: &mut Random, most_bytes: usize) -> Vec<u8> {
    let header = match flavour {
        Flavour::WideRelays => headers::widest(random),
        _ => headers::good(random),
    };
    let session = Session::open(header.as_bytes()).expect("the header is a good one");
    let size = session.register().replicas().len();
    let lines = match flavour {
        Flavour::LongJournal => usize::MAX,
        Flavour::FullRoom => 600 + random.below(2_000),
        Flavour::WideRelays => 700 + random.below(1_000),
        _ => 20 + random.below(40 + 25 * size),
    };
    let mut composer = Composer {
        random,
        session,
        script: format!("{header}\n").into_bytes(),
        mix: mix(flavour),
        choice: Choice::Oldest,
    };
    let room = most_bytes - 300;
    let mut written = 0;
    while written < lines && composer.script.len() < room {
        composer.step();
        written += 1;
        if composer.register().journal().len() == JOURNAL_ROOM && composer.random.chance(1) {
            composer.mix = FILLING;
        }
        if composer.is_stuck() && composer.random.chance(10) {
            break;
        }
    }
    composer.script
}

impl Composer<'_> {
    fn register(&self) -> &Register {
        self.session.register()
    }

    fn waiting(&self) -> usize {
        self.register().messages().len()
    }

    /// Whether nothing waits and nobody can start anything.
    fn is_stuck(&self) -> bool {
        let journal_full = self.register().journal().len() == JOURNAL_ROOM;
        let nobody_free = !self.writer_free() && self.free_readers().is_empty();
        self.waiting() == 0 && (journal_full || nobody_free)
    }

    fn writer_free(&self) -> bool {
        let writer = self.register().writer();
        !writer.halted && writer.operation == 0
    }

    fn free_readers(&self) -> Vec<usize> {
        let readers = self.register().readers();
        let free = |reader: &usize| !readers[*reader].halted && readers[*reader].operation == 0;
        (0..readers.len()).filter(free).collect()
    }

    /// Appends a line, which damage may have made several lines, and plays it.
    fn line(&mut self, line: &[u8]) {
        self.script.extend_from_slice(line);
        self.script.push(b'\n');
        for part in line.split(|&byte| byte == b'\n') {
            // A declined line is as welcome as any.
            let _ = self.session.call(part);
        }
    }

    fn step(&mut self) {
        if self.random.chance(3) {
            self.change_choice();
        }
        let line = if self.waiting() == 0 && !self.random.chance(5) {
            self.start()
        } else {
            self.mixed_line()
        };
        self.line(&line);
    }

    fn mixed_line(&mut self) -> Vec<u8> {
        let mix = self.mix;
        let weights = [
            mix.write + mix.read,
            mix.deliver,
            mix.drop,
            mix.duplicate,
            mix.halt,
            mix.missing,
            mix.damaged,
        ];
        match self.random.weighted(&weights) {
            0 => self.start(),
            1 => self.at_place("D"),
            2 => self.at_place("X"),
            3 => self.at_place("A"),
            4 => self.halt(),
            5 => self.missing(),
            _ => self.damaged(),
        }
    }

    fn change_choice(&mut self) {
        let replicas = self.register().replicas().len();
        self.choice = match self.random.below(6) {
            0 => Choice::Oldest,
            1 => Choice::Newest,
            2 => Choice::NewestOperation,
            3 => Choice::AvoidReplica(self.random.below(replicas) as u8),
            _ => Choice::Any,
        };
    }

    fn under_way(&self) -> usize {
        let register = self.register();
        let readers = register.readers().iter();
        let reads = readers.filter(|reader| !reader.halted && reader.operation != 0);
        reads.count() + usize::from(register.writer().operation != 0)
    }

    /// A write or a read, mostly of a party that is free.
    fn start(&mut self) -> Vec<u8> {
        let stray = self.random.chance(3);
        let crowded = self.under_way() >= self.mix.most_under_way;
        if crowded && !stray && self.waiting() > 0 {
            return self.at_place("D");
        }
        let weights = [self.mix.write, self.mix.read];
        let write = self.random.weighted(&weights) == 0;
        let nobody_free = !self.writer_free() && self.free_readers().is_empty();
        if write && (self.writer_free() || stray) {
            self.write_line()
        } else if nobody_free && !stray {
            self.at_place("D")
        } else {
            self.read_line(stray)
        }
    }

    fn write_line(&mut self) -> Vec<u8> {
        let kind = self.session.kind();
        let random = &mut *self.random;
        let figure = match kind {
            FigureKind::Tide => {
                let level = number_about(random, 20_000);
                let sign = if random.chance(40) { "-" } else { "" };
                let minute = number_about(random, 1_439);
                format!(
                    "{sign}{}\t{}",
                    digits(random, level),
                    digits(random, minute)
                )
            }
            FigureKind::Order => match random.below(3) {
                0 => "hold".to_string(),
                1 => {
                    let depth = number_about(random, 60_000);
                    let arm = random.pick(&["port", "starboard", "both"]);
                    format!("dig\t{}\t{arm}", digits(random, depth))
                }
                _ => {
                    let section = number_about(random, 9_999);
                    format!("shift\t{}", digits(random, section))
                }
            },
        };
        format!("W\t{figure}").into_bytes()
    }

    fn read_line(&mut self, stray: bool) -> Vec<u8> {
        let free = self.free_readers();
        let reader = if free.is_empty() || stray {
            let readers = self.register().readers().len();
            self.random.below(readers + 1)
        } else {
            self.random.pick(&free)
        };
        let kind = ["quick", "settled", "relay"][self.random.weighted(&self.mix.kinds)];
        format!("R\t{}\t{kind}", digits(self.random, reader as u32)).into_bytes()
    }

    /// A call on one of the waiting messages.
    fn at_place(&mut self, letter: &str) -> Vec<u8> {
        let place = match self.waiting() {
            0 => 0,
            waiting => self.choose(waiting),
        };
        format!("{letter}\t{}", digits(self.random, place as u32)).into_bytes()
    }

    fn choose(&mut self, waiting: usize) -> usize {
        let any = self.random.below(waiting);
        let messages = self.session.register().messages();
        match self.choice {
            Choice::Oldest => 0,
            Choice::Newest => waiting - 1,
            Choice::Any => any,
            Choice::AvoidReplica(slow) if touches(&messages[any], slow) => {
                self.random.below(waiting)
            }
            Choice::AvoidReplica(_) => any,
            Choice::NewestOperation => {
                let newest = messages.iter().map(|message| message.operation).max();
                let first = messages.iter().position(|m| Some(m.operation) == newest);
                first.unwrap_or(any)
            }
        }
    }

    fn halt(&mut self) -> Vec<u8> {
        let register = self.session.register();
        let (replicas, readers) = (register.replicas().len(), register.readers().len());
        let line = match self.random.below(8) {
            0 => "H\tstation".to_string(),
            1..=3 => format!("H\tconsole\t{}", self.random.below(readers + 1)),
            _ => format!("H\tcabinet\t{}", self.random.below(replicas + 1)),
        };
        line.into_bytes()
    }

    /// A call on a party or a message that does not exist.
    fn missing(&mut self) -> Vec<u8> {
        let register = self.session.register();
        let readers = register.readers().len() as u32 + self.random.below(3) as u32;
        let replicas = register.replicas().len() as u32 + self.random.below(3) as u32;
        let waiting = register.messages().len() as u32 + self.random.below(3) as u32;
        let far = self.random.pick(&[MESSAGE_ROOM as u32, 65_536, 999_999]);
        let letter = self.random.pick(&["D", "X", "A"]);
        let line = match self.random.below(6) {
            0 => format!("R\t{readers}\tquick"),
            1 => format!("H\tconsole\t{readers}"),
            2 => format!("H\tcabinet\t{replicas}"),
            3 => format!("{letter}\t{far}"),
            4 => format!("R\t{far}\trelay"),
            _ => format!("{letter}\t{waiting}"),
        };
        line.into_bytes()
    }

    fn damaged(&mut self) -> Vec<u8> {
        let line = match self.random.below(6) {
            0 | 1 => self.write_line(),
            2 => self.read_line(false),
            3 => self.halt(),
            _ => {
                let letter = self.random.pick(&["D", "X", "A"]);
                self.at_place(letter)
            }
        };
        damage::line(&line, self.random)
    }
}

/// A number of a figure, mostly allowed, and now and then at its limit or just beyond.
fn number_about(random: &mut Random, most: u32) -> u32 {
    match random.below(40) {
        0 => most,
        1 => most + 1,
        2 => 0,
        _ => random.between(0, most),
    }
}

/// Whether a message goes to or comes from a replica.
fn touches(message: &Message, replica: u8) -> bool {
    match message.kind {
        MessageKind::Put | MessageKind::Query | MessageKind::Back | MessageKind::Fan => {
            message.receiver == replica
        }
        MessageKind::Relay => message.receiver == replica || message.sender == replica,
        _ => message.sender == replica,
    }
}
