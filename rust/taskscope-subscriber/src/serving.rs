//! What is said of a program whose stream a server publishes, and the end of the server.

use crate::heard::Heard;
use crate::left_out::LeftOut;
use crate::output::say;
use crate::publishing::{block_signals, say_left_out, Control};
use std::sync::Arc;
use std::time::{Duration, Instant};
use taskscope::Server;

/// How often it is looked whether tokio reports tasks.
const LOOK: Duration = Duration::from_secs(1);

/// A server, and what there is to say.
pub(crate) struct Serving {
    server: Server,
    heard: Arc<Heard>,
    left_out: Arc<LeftOut>,
    started: Instant,
}

impl Serving {
    pub(crate) fn new(server: Server, heard: Arc<Heard>, left_out: Arc<LeftOut>) -> Serving {
        Serving { server, heard, left_out, started: Instant::now() }
    }

    /// Looks until the stop, and ends the server.
    pub(crate) fn run(self, control: &Control) {
        block_signals();
        loop {
            let is_last = control.wait(Some(LOOK), || false);
            self.heard.say_if_nothing(self.started.elapsed(), is_last);
            if is_last {
                break;
            }
        }
        if let Err(error) = self.server.stop() {
            say(error);
        }
        say_left_out(&self.left_out);
    }
}
