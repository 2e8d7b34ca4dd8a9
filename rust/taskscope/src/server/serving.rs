//! The thread of a server.

use super::door::Door;
use super::http::{self, Port};
use super::limits::{add, Counts, Limits};
use super::reader::{Bytes, Reader, Standing};
use super::system::{self, block_signals, is_to_wait, Polled, Wake};
use crate::book::{Lines, Wanted};
use crate::fault::Fault;
use crate::publisher::SIGN_OF_LIFE;
use crate::running::{Claim, Control};
use std::io::{self, ErrorKind};
use std::sync::atomic::{AtomicU64, Ordering};
use std::sync::Arc;
use std::time::{Duration, Instant};

/// How long readers that are slow are waited for at the end.
const LAST_HAND_ON: Duration = Duration::from_secs(1);
/// How long nobody is let in after an error, as there are no descriptors.
const DOOR_RESTS: Duration = Duration::from_millis(200);
/// For so many times as long as a line that says all took, and no longer than this, no other one is made: they take a quarter of the
/// time of the thread, however many readers come and go. So it is with numbers.
const ALL_RESTS: u32 = 3;
const LONGEST_REST: Duration = Duration::from_secs(2);
/// How soon after rows were read a reader that comes has them read again. Those that come within this time share a line.
const FIRST_LINE: Duration = Duration::from_millis(20);
/// How many bytes a line has at most that readers take.
const LONGEST_LINE: usize = 256 << 20;
/// How many readers are let in before the others are looked after.
const AT_A_TIME: usize = 64;

/// What the thread of a server has.
///
/// Rows are read once for all readers. All that want the same line under the same number share it. Of lines that say all one is made
/// at a time: for the reader that has waited for the longest, and those of its number.
pub(super) struct Serving {
    pub(super) claim: Claim,
    pub(super) door: Door,
    pub(super) wake: Arc<Wake>,
    pub(super) every: Duration,
    pub(super) limits: Limits,
    pub(super) counts: Arc<Counts>,
    /// How many bytes wait for readers.
    pub(super) held: Arc<AtomicU64>,
    pub(super) readers: Vec<Reader>,
    /// The number of the next line for readers that are new or were never behind.
    pub(super) next: u64,
    /// When rows were read.
    pub(super) read: Option<Instant>,
    /// When a line was made.
    pub(super) sent: Option<Instant>,
    pub(super) door_rests_until: Option<Instant>,
    pub(super) all_rests_until: Option<Instant>,
    pub(super) numbers_rest_until: Option<Instant>,
}

impl Serving {
    /// Serves until the stop.
    ///
    /// # Errors
    /// The [`Fault`] of the console that ended it.
    pub(super) fn run(mut self, control: &Control) -> io::Result<()> {
        block_signals();
        let outcome = loop {
            if control.is_stopped() {
                break self.end();
            }
            let now = Instant::now();
            if self.due(now).map_or(false, |due| now >= due) {
                if let Err(fault) = self.publish(now, false) {
                    break Err(fault);
                }
            }
            self.give_numbers(false);
            self.attend();
            self.wait();
        };
        outcome.map_err(|fault| io::Error::new(ErrorKind::Other, fault))
    }

    /// A last line for all, and some time for those that are slow. Who was behind gets a line that says all once it has taken what waits.
    fn end(&mut self) -> Result<(), Fault> {
        let until = Instant::now() + LAST_HAND_ON;
        self.publish(Instant::now(), true)?;
        self.give_numbers(true);
        loop {
            self.attend();
            let now = Instant::now();
            let is_due = self.readers.iter().any(Reader::is_due_all);
            if now >= until || !(is_due || self.readers.iter().any(Reader::has_waiting)) {
                return Ok(());
            }
            if is_due {
                self.publish(now, true)?;
            } else {
                self.poll(Some(Duration::from_millis(20)), false);
            }
        }
    }

    /// When rows are read next, if that is not only once somebody comes.
    fn due(&self, now: Instant) -> Option<Instant> {
        let read = match self.read {
            Some(read) if !self.claim.is_filling() => read,
            _ => return Some(now),
        };
        let due = read.checked_add(self.every);
        if !self.readers.iter().any(Reader::is_due_all) {
            return due;
        }
        let soon = read + FIRST_LINE.min(self.every);
        let soon = self.all_rests_until.map_or(soon, |until| until.max(soon));
        Some(due.map_or(soon, |due| due.min(soon)))
    }

    /// The lines that readers want now.
    fn wanted(&self, now: Instant, is_last: bool) -> Wanted {
        let number = |reader: &Reader| reader.next().unwrap_or(self.next);
        let gives_all = is_last || self.all_rests_until.map_or(true, |until| now >= until);
        let waiting = self.readers.iter().filter(|reader| gives_all && reader.is_due_all());
        let mut changes: Vec<u64> =
            self.readers.iter().filter(|reader| reader.standing() == Standing::InStep).map(number).collect();
        changes.sort_unstable();
        changes.dedup();
        Wanted {
            changes,
            all: waiting.min_by_key(|reader| reader.since()).map(number),
            most: LONGEST_LINE,
            unless_unchanged: !is_last && self.sent.map_or(false, |sent| now - sent < SIGN_OF_LIFE),
        }
    }

    /// Reads the rows once, and gives each reader its line.
    fn publish(&mut self, now: Instant, is_last: bool) -> Result<(), Fault> {
        add(&self.counts.readings);
        self.read = Some(now);
        let wanted = self.wanted(now, is_last);
        if wanted.all.is_none() && wanted.changes.is_empty() {
            self.claim.console().pass();
            return Ok(());
        }
        let lines = self.claim.console().lines(&wanted);
        if wanted.all.is_some() {
            add(&self.counts.snapshots);
            self.all_rests_until = Some(Instant::now() + LONGEST_REST.min(now.elapsed() * ALL_RESTS));
        }
        match lines {
            Ok(lines) => {
                self.hand_out(&wanted, lines, now);
                Ok(())
            }
            // The next line has what this one would have had.
            Err(Fault::Memory) => Ok(()),
            Err(fault) => Err(fault),
        }
    }

    /// Gives each reader the line that it wants.
    fn hand_out(&mut self, wanted: &Wanted, lines: Lines, now: Instant) {
        if lines.count > 0 {
            self.sent = Some(now);
        } else if wanted.all.is_some() {
            // Nobody could be sent anything.
            self.claim.console().pass();
        }
        let (held, next, most, counts) = (&self.held, self.next, self.limits.waiting, &self.counts);
        let changes: Vec<Arc<Bytes>> = lines.changes.into_iter().map(|line| Bytes::new(line, held)).collect();
        let all = lines.all.map(|line| Bytes::new(line, held));
        self.readers.retain_mut(|reader| {
            let number = reader.next().unwrap_or(next);
            let line = if reader.standing() == Standing::InStep {
                wanted.changes.iter().position(|&other| other == number).and_then(|place| changes.get(place))
            } else if reader.is_due_all() && wanted.all == Some(number) {
                if all.is_none() {
                    // There is no line that it can take.
                    add(&counts.refused);
                    return false;
                }
                all.as_ref()
            } else {
                None
            };
            if let Some(line) = line {
                if !reader.add(line, number, lines.count, most, now) {
                    add(&counts.behind);
                }
            }
            true
        });
        self.next += lines.count;
    }

    /// When numbers are made next, if anybody waits for them.
    fn next_numbers(&self, now: Instant) -> Option<Instant> {
        let wants = |reader: &Reader| reader.standing() == Standing::NeedsNumbers;
        self.readers.iter().any(wants).then(|| self.numbers_rest_until.unwrap_or(now))
    }

    /// Gives the same numbers to all that wait for them. Of a console that records nothing there are none, and they get the end.
    fn give_numbers(&mut self, is_last: bool) {
        let now = Instant::now();
        if !self.next_numbers(now).map_or(false, |next| is_last || now >= next) {
            return;
        }
        let held = &self.held;
        let bytes = |bytes| Bytes::new(bytes, held);
        let answer = match self.claim.console().metrics() {
            Ok(text) if text.is_empty() => Vec::new(),
            Ok(text) if text.len() <= LONGEST_LINE => {
                vec![bytes(http::head_of_numbers(text.len()).into_bytes()), bytes(text)]
            }
            Ok(_) | Err(_) => vec![bytes(http::no_numbers().into_bytes())],
        };
        add(&self.counts.numbers);
        self.numbers_rest_until = Some(Instant::now() + LONGEST_REST.min(now.elapsed() * ALL_RESTS));
        for reader in self.readers.iter_mut().filter(|reader| reader.standing() == Standing::NeedsNumbers) {
            reader.answer(&answer, now);
        }
    }

    /// Hears readers and hands on what waits, and lets those go that went, or that cost too much.
    fn attend(&mut self) {
        let (counts, held, patience, now) = (&self.counts, &self.held, self.limits.patience, Instant::now());
        let port = match &self.door {
            Door::Tcp { address, .. } => Some(Port(*address)),
            Door::Unix { .. } => None,
        };
        self.readers.retain_mut(|reader| {
            let stays = reader.attend(port, held, now).is_ok();
            let is_stuck = stays && reader.is_stuck(patience, now);
            if is_stuck {
                add(&counts.sent_away);
            }
            stays && !is_stuck
        });
        while self.held.load(Ordering::Relaxed) > self.limits.memory && self.send_slowest_away() {}
        self.count();
    }

    /// Sends the reader away that has been in one text for the longest, unless something waits for no other one.
    fn send_slowest_away(&mut self) -> bool {
        let slow = self.readers.iter().enumerate().filter(|(_, reader)| reader.has_waiting());
        match slow.clone().min_by_key(|(_, reader)| reader.since()).map(|(place, _)| place) {
            Some(place) if slow.count() > 1 => {
                self.readers.swap_remove(place);
                add(&self.counts.sent_away);
                true
            }
            _ => false,
        }
    }

    fn count(&self) {
        self.counts.readers.store(self.readers.len() as u64, Ordering::Relaxed);
        self.counts.waiting.store(self.held.load(Ordering::Relaxed), Ordering::Relaxed);
    }

    /// Waits until something is to be done: rows are due, a reader comes, goes, takes bytes or says something, or the stop.
    fn wait(&mut self) {
        let now = Instant::now();
        let is_open = self.door_rests_until.map_or(true, |rests| now >= rests);
        let opens = self.door_rests_until.filter(|_| !is_open);
        let deadlines = self.readers.iter().filter_map(|reader| reader.deadline(self.limits.patience));
        let until = deadlines.chain(self.due(now)).chain(self.next_numbers(now)).chain(opens).min();
        self.poll(until.map(|until| until.saturating_duration_since(now)), is_open);
        if is_open {
            self.admit();
        }
    }

    fn poll(&mut self, span: Option<Duration>, is_open: bool) {
        let mut polled: Vec<Polled> = self.readers.iter().map(Reader::polled).collect();
        polled.push(self.wake.polled());
        if is_open {
            polled.push(self.door.polled());
        }
        system::wait(&mut polled, span);
        self.wake.clear();
        let mut found = polled.iter();
        self.readers.retain(|_| found.next().map_or(true, |polled| !polled.is_gone()));
    }

    fn admit(&mut self) {
        for _ in 0..AT_A_TIME {
            match self.door.admit() {
                Ok(wire) => {
                    add(&self.counts.came);
                    if self.readers.len() < self.limits.readers {
                        self.readers.push(Reader::new(wire, Instant::now()));
                    } else {
                        add(&self.counts.refused);
                    }
                }
                Err(error) if is_to_wait(&error) => break,
                Err(error) if matches!(error.kind(), ErrorKind::Interrupted | ErrorKind::ConnectionAborted) => {}
                Err(_) => {
                    self.door_rests_until = Some(Instant::now() + DOOR_RESTS);
                    break;
                }
            }
        }
        self.count();
    }
}
