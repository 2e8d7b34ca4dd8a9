//! What is kept of a service's stream while it runs, in bounded memory.

use crate::address::Address;
use crate::lines::Lines;
use std::io::Read;
use std::sync::atomic::{AtomicBool, Ordering};
use std::sync::{Arc, Mutex, MutexGuard, PoisonError, Weak};
use std::thread;
use std::time::{Duration, Instant};

/// How many bytes of one connection are kept, and for how long. A service's first line says all, so a younger connection can
/// take its place.
const MOST: usize = 64 << 20;
const LONGEST: Duration = Duration::from_secs(1200);
/// How often it is looked whether a younger connection is wanted.
const PAUSE: Duration = Duration::from_millis(200);

fn lock<T>(mutex: &Mutex<T>) -> MutexGuard<'_, T> {
    mutex.lock().unwrap_or_else(PoisonError::into_inner)
}

/// The lines of one connection, from its first.
struct Recording {
    bytes: Mutex<Vec<u8>>,
    begun: Instant,
    has_ended: AtomicBool,
}

impl Recording {
    /// Records the connection on a thread of its own, for as long as the recording is held.
    fn start(connection: Box<dyn Read + Send>) -> Arc<Recording> {
        let recording =
            Arc::new(Recording { bytes: Mutex::default(), begun: Instant::now(), has_ended: AtomicBool::new(false) });
        let held = Arc::downgrade(&recording);
        thread::spawn(move || Recording::record(&held, connection));
        recording
    }

    fn record(held: &Weak<Recording>, connection: Box<dyn Read + Send>) {
        let mut lines = Lines::new(connection);
        while let Some(line) = lines.next_line() {
            match held.upgrade() {
                Some(recording) => lock(&recording.bytes).extend_from_slice(&line),
                None => return,
            }
        }
        if let Some(recording) = held.upgrade() {
            recording.has_ended.store(true, Ordering::SeqCst);
        }
    }

    fn has_lines(&self) -> bool {
        !lock(&self.bytes).is_empty()
    }

    /// Whether it has used up so many `parts` of ten of what may be kept.
    fn has_used(&self, parts: u32) -> bool {
        lock(&self.bytes).len() > MOST / 10 * parts as usize || self.begun.elapsed() > LONGEST / 10 * parts
    }
}

/// The recordings of one service: one that is shown, and from its middle on a younger one, which takes its place.
pub struct Recordings {
    address: Address,
    shown: Mutex<Arc<Recording>>,
}

impl Recordings {
    /// Records a service, on threads of its own, for as long as this process runs. When the service ends, what came stays until
    /// it starts anew.
    ///
    /// # Errors
    /// What the system says of the first connection.
    pub fn start(address: Address) -> std::io::Result<Arc<Recordings>> {
        let shown = Mutex::new(Recording::start(address.connect()?));
        let recordings = Arc::new(Recordings { address, shown });
        let kept = Arc::clone(&recordings);
        thread::spawn(move || kept.renew());
        Ok(recordings)
    }

    /// The lines that are shown.
    pub fn bytes(&self) -> Vec<u8> {
        let shown = Arc::clone(&lock(&self.shown));
        let bytes = lock(&shown.bytes).clone();
        bytes
    }

    fn renew(&self) {
        let mut younger: Option<Arc<Recording>> = None;
        loop {
            thread::sleep(PAUSE);
            let shown = Arc::clone(&lock(&self.shown));
            let has_ended = shown.has_ended.load(Ordering::SeqCst);
            if younger.is_none() && (has_ended || shown.has_used(5)) {
                younger = self.address.connect().ok().map(Recording::start);
            }
            if has_ended || shown.has_used(10) {
                younger = self.show(younger);
            }
        }
    }

    /// Shows the younger recording if it has a line, and answers it if it hasn't. One that ended without is let go.
    fn show(&self, younger: Option<Arc<Recording>>) -> Option<Arc<Recording>> {
        let younger = younger?;
        if younger.has_lines() {
            *lock(&self.shown) = younger;
            return None;
        }
        (!younger.has_ended.load(Ordering::SeqCst)).then_some(younger)
    }
}
