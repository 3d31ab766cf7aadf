//! The line: six calls, each refused or answered.

use crate::machine::{Command, Kind, Machine};
use std::collections::{BTreeMap, HashMap};

const MEMBERS: u8 = 16;
const LAST: u64 = 1 << 48;
const OPEN: usize = 32;
const REMEMBERED: usize = 16;

/// One call of the line.
#[derive(Clone, Copy, Debug, PartialEq, Eq)]
pub enum Call {
    Open { members: u8, last: u64, kind: Kind },
    Send { sender: u8, set: u16, command: Command },
    Hear { member: u8, number: u64 },
    Gather { member: u8, number: u64 },
    Settle { member: u8, number: u64 },
    Run { member: u8 },
}

/// What an accepted call shows: an issue number and a timestamp, where it has them.
#[derive(Clone, Copy, Debug, PartialEq, Eq)]
pub struct Answer {
    pub number: Option<u64>,
    pub timestamp: Option<u64>,
}

/// Why a call is refused, with the number that the trace shows.
#[derive(Clone, Copy, Debug, PartialEq, Eq)]
pub enum Refusal {
    AlreadyOpen = 1,
    BadMemberCount,
    BadLastNumber,
    Closed,
    NoMember,
    BadSet,
    NumbersUsedUp,
    TableFull,
    NoCommand,
    NoDestination,
    TooEarly,
    AlreadyDone,
    NothingReady,
}

#[derive(Clone, Copy, Debug, PartialEq, Eq)]
enum Phase {
    Sent,
    Heard(u64),
    Gathered(u64),
    Settled,
    Run,
}

#[derive(Debug)]
struct OpenCommand {
    command: Command,
    /// The final timestamp, once every destination is gathered.
    fixed: Option<u64>,
    phases: HashMap<u8, Phase>,
}

impl OpenCommand {
    /// The timestamp at which the command stands at a member: none if unheard there, or run.
    fn stands(&self, member: u8) -> Option<u64> {
        match self.phases.get(&member)? {
            Phase::Heard(proposal) | Phase::Gathered(proposal) => Some(*proposal),
            Phase::Settled => self.fixed,
            Phase::Sent | Phase::Run => None,
        }
    }
}

/// A member with the machine of its station.
#[derive(Debug)]
struct Member {
    clock: u64,
    remembered: HashMap<u64, Command>,
    machine: Machine,
}

#[derive(Debug)]
struct Book {
    kind: Kind,
    last: u64,
    issued: u64,
    open: BTreeMap<u64, OpenCommand>,
    members: Vec<Member>,
}

/// A line with its stations; closed when new.
#[derive(Debug, Default)]
pub struct Line(Option<Book>);

impl Line {
    /// Makes one call. A refused one changes nothing.
    pub fn ask(&mut self, call: Call) -> Result<Answer, Refusal> {
        if let Call::Open { members, last, kind } = call {
            return self.open(members, last, kind);
        }
        let book = self.0.as_mut().ok_or(Refusal::Closed)?;
        let (number, timestamp) = match call {
            Call::Open { .. } => unreachable!("answered above"),
            Call::Send { sender, set, command } => (book.send(sender, set, command)?, None),
            Call::Hear { member, number } => (number, Some(book.hear(member, number)?)),
            Call::Gather { member, number } => (number, book.gather(member, number)?),
            Call::Settle { member, number } => (number, Some(book.settle(member, number)?)),
            Call::Run { member } => {
                let (timestamp, number) = book.run(member)?;
                (number, Some(timestamp))
            }
        };
        Ok(Answer { number: Some(number), timestamp })
    }

    /// The cells of each station, by member.
    pub fn cells(&self) -> impl Iterator<Item = &[u32]> {
        self.0.iter().flat_map(|book| &book.members).map(|member| member.machine.cells())
    }

    fn open(&mut self, members: u8, last: u64, kind: Kind) -> Result<Answer, Refusal> {
        if self.0.is_some() {
            return Err(Refusal::AlreadyOpen);
        }
        if !(1..=MEMBERS).contains(&members) {
            return Err(Refusal::BadMemberCount);
        }
        if !(1..=LAST).contains(&last) {
            return Err(Refusal::BadLastNumber);
        }
        let member =
            |_| Member { clock: 0, remembered: HashMap::new(), machine: Machine::start(kind) };
        let members = (0..members).map(member).collect();
        self.0 = Some(Book { kind, last, issued: 0, open: BTreeMap::new(), members });
        Ok(Answer { number: None, timestamp: None })
    }
}

impl Book {
    fn send(&mut self, sender: u8, set: u16, command: Command) -> Result<u64, Refusal> {
        self.check_member(sender)?;
        if set == 0 || u32::from(set) >> self.members.len() != 0 {
            return Err(Refusal::BadSet);
        }
        if self.issued == self.last {
            return Err(Refusal::NumbersUsedUp);
        }
        if self.open.len() == OPEN {
            return Err(Refusal::TableFull);
        }
        let destinations = (0..MEMBERS).filter(|q| set >> q & 1 == 1);
        let phases = destinations.map(|q| (q, Phase::Sent)).collect();
        self.issued += 1;
        self.open.insert(self.issued, OpenCommand { command, fixed: None, phases });
        Ok(self.issued)
    }

    fn hear(&mut self, member: u8, number: u64) -> Result<u64, Refusal> {
        if self.phase(member, number)? != Phase::Sent {
            return Err(Refusal::AlreadyDone);
        }
        let (kind, command) = (self.kind, self.open[&number].command);
        let place = &mut self.members[usize::from(member)];
        let full = place.remembered.len() == REMEMBERED;
        if full || place.remembered.values().any(|&other| kind.conflict(other, command)) {
            place.clock += 1;
            place.remembered.clear();
        }
        place.remembered.insert(number, command);
        let proposal = place.clock;
        self.put_phase(member, number, Phase::Heard(proposal));
        Ok(proposal)
    }

    fn gather(&mut self, member: u8, number: u64) -> Result<Option<u64>, Refusal> {
        match self.phase(member, number)? {
            Phase::Sent => return Err(Refusal::TooEarly),
            Phase::Heard(proposal) => self.put_phase(member, number, Phase::Gathered(proposal)),
            Phase::Gathered(_) | Phase::Settled | Phase::Run => return Err(Refusal::AlreadyDone),
        }
        let gathered = |phase: &Phase| match phase {
            Phase::Gathered(proposal) => Some(*proposal),
            _ => None,
        };
        let entry = self.open.get_mut(&number).ok_or(Refusal::NoCommand)?;
        let proposals: Option<Vec<u64>> = entry.phases.values().map(gathered).collect();
        entry.fixed = proposals.and_then(|all| all.into_iter().max());
        Ok(entry.fixed)
    }

    fn settle(&mut self, member: u8, number: u64) -> Result<u64, Refusal> {
        let phase = self.phase(member, number)?;
        let OpenCommand { command, fixed, .. } = self.open[&number];
        let fixed = fixed.ok_or(Refusal::TooEarly)?;
        if matches!(phase, Phase::Settled | Phase::Run) {
            return Err(Refusal::AlreadyDone);
        }
        self.put_phase(member, number, Phase::Settled);
        let place = &mut self.members[usize::from(member)];
        if fixed > place.clock {
            place.clock = fixed;
            place.remembered = HashMap::from([(number, command)]);
        } else if fixed == place.clock && !place.remembered.contains_key(&number) {
            if place.remembered.len() == REMEMBERED {
                place.clock += 1;
                place.remembered.clear();
            } else {
                place.remembered.insert(number, command);
            }
        }
        Ok(place.clock)
    }

    fn run(&mut self, member: u8) -> Result<(u64, u64), Refusal> {
        self.check_member(member)?;
        let settled = |entry: &OpenCommand| entry.phases.get(&member) == Some(&Phase::Settled);
        let ready = self.open.iter().filter_map(|(&number, entry)| {
            let pair = (entry.fixed.filter(|_| settled(entry))?, number);
            self.is_ready(member, pair, entry.command).then_some(pair)
        });
        let (timestamp, number) = ready.min().ok_or(Refusal::NothingReady)?;
        self.members[usize::from(member)].machine.run(self.open[&number].command);
        self.put_phase(member, number, Phase::Run);
        if self.open[&number].phases.values().all(|&phase| phase == Phase::Run) {
            self.open.remove(&number);
        }
        Ok((timestamp, number))
    }

    /// Whether every other command that stands at the member is later, or no conflict.
    fn is_ready(&self, member: u8, pair: (u64, u64), command: Command) -> bool {
        self.open.iter().filter(|(&number, _)| number != pair.1).all(|(&number, other)| {
            other.stands(member).is_none_or(|timestamp| {
                !self.kind.conflict(other.command, command) || (timestamp, number) > pair
            })
        })
    }

    fn check_member(&self, member: u8) -> Result<(), Refusal> {
        if usize::from(member) < self.members.len() {
            Ok(())
        } else {
            Err(Refusal::NoMember)
        }
    }

    /// The phase of a destination of an open command.
    fn phase(&self, member: u8, number: u64) -> Result<Phase, Refusal> {
        self.check_member(member)?;
        let entry = self.open.get(&number).ok_or(Refusal::NoCommand)?;
        entry.phases.get(&member).copied().ok_or(Refusal::NoDestination)
    }

    fn put_phase(&mut self, member: u8, number: u64, phase: Phase) {
        if let Some(entry) = self.open.get_mut(&number) {
            entry.phases.insert(member, phase);
        }
    }
}
