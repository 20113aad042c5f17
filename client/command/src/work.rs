//! Work on a thread with enough stack, and progress on a terminal.

use crate::{Failure, Streams};
use algebra::STACK_BYTES;
use std::io::Write;
use std::thread;
use std::time::{Duration, Instant};

/// The stack of the thread: what the library uses, and room for what is done around it.
const THREAD_STACK: usize = STACK_BYTES + (4 << 20);
/// Progress is shown for more than so many bytes.
const LONG: usize = 8_000_000;
/// Progress is shown so often.
const INTERVAL: Duration = Duration::from_millis(200);
/// Goes to the start of the line and clears it.
const CLEAR: &str = "\r\x1b[K";

/// A line on a terminal that tells how far the work is.
pub struct Progress<'a> {
    terminal: bool,
    messages: &'a mut dyn Write,
    last: Option<Instant>,
}

impl<'a> Progress<'a> {
    /// Nothing is shown yet, and never if there is no terminal.
    pub fn new(terminal: bool, messages: &'a mut dyn Write) -> Progress<'a> {
        Progress { terminal, messages, last: None }
    }

    /// Shows a line if there are many bytes, and the last line was shown long enough ago.
    pub fn show(&mut self, bytes: usize, line: impl FnOnce() -> String) {
        let recent = self.last.is_some_and(|last| last.elapsed() < INTERVAL);
        if self.terminal && bytes > LONG && !recent {
            // Progress that cannot be shown is not missed.
            let _ = write!(self.messages, "{CLEAR}{}", line());
            let _ = self.messages.flush();
            self.last = Some(Instant::now());
        }
    }

    /// Clears the line if one was shown.
    pub fn end(self) {
        if self.last.is_some() {
            let _ = write!(self.messages, "{CLEAR}");
            let _ = self.messages.flush();
        }
    }
}

/// Does some work on so many bytes on a thread with enough stack.
pub fn work<T: Send>(
    bytes: usize,
    streams: &mut Streams,
    task: impl FnOnce() -> T + Send,
) -> Result<T, Failure> {
    let start = Instant::now();
    let mut progress = Progress::new(streams.terminal, streams.messages);
    let shows = streams.terminal && bytes > LONG;
    let done = thread::scope(|scope| {
        let builder = thread::Builder::new().stack_size(THREAD_STACK);
        let thread = builder.spawn_scoped(scope, task).map_err(|error| error.to_string())?;
        while shows && !thread.is_finished() {
            let seconds = start.elapsed().as_secs();
            progress.show(bytes, || format!("at work on {bytes} bytes: {seconds} s"));
            thread::sleep(INTERVAL / 10);
        }
        thread.join().map_err(|_| "the work ended with an error".to_string())
    });
    progress.end();
    done.map_err(Failure)
}

#[cfg(test)]
mod tests {
    use super::*;

    /// What is shown while work takes a while.
    fn shown(terminal: bool, bytes: usize) -> String {
        let (mut input, mut output, mut messages) = (std::io::empty(), vec![], vec![]);
        let mut streams = Streams {
            input: &mut input,
            output: &mut output,
            messages: &mut messages,
            terminal,
            colour: false,
        };
        let task = || thread::sleep(Duration::from_millis(50));
        assert_eq!(work(bytes, &mut streams, task), Ok(()));
        String::from_utf8(messages).expect("text")
    }

    #[test]
    fn progress_is_shown_for_many_bytes_on_a_terminal() {
        let line = format!("{CLEAR}at work on 8000001 bytes: 0 s{CLEAR}");
        assert_eq!(shown(true, LONG + 1), line);
        assert_eq!(shown(true, LONG), "");
        assert_eq!(shown(false, LONG + 1), "");
    }

    #[test]
    fn the_stack_is_enough() {
        let (mut input, mut output, mut messages) = (std::io::empty(), vec![], vec![]);
        let mut streams = Streams {
            input: &mut input,
            output: &mut output,
            messages: &mut messages,
            terminal: false,
            colour: false,
        };
        let task = || std::hint::black_box([1u8; STACK_BYTES])[7];
        assert_eq!(work(0, &mut streams, task), Ok(1));
    }
}
