//! Another program on the far end of two pipes.

use crate::stop::Stop;
use crate::wire::{hex, Reply, Request, REPLY_BYTES};
use std::io::{self, Read, Write};
use std::path::Path;
use std::process::{Child, ChildStdin, Command, ExitStatus, Stdio};
use std::sync::mpsc::{sync_channel, Receiver, RecvTimeoutError, SyncSender};
use std::thread;
use std::time::{Duration, Instant};

/// How long a reply may take before the program counts as silent.
pub const PATIENCE: Duration = Duration::from_secs(if cfg!(test) { 1 } else { 10 });

/// How long a program that takes no house may take to end, and how long one that has closed a
/// pipe. The first is waited for whenever a desk is started.
const START: Duration = Duration::from_millis(500);
const MOMENT: Duration = Duration::from_secs(2);

pub struct Program {
    child: Child,
    /// None once closed.
    input: Option<ChildStdin>,
    output: Receiver<Vec<u8>>,
    /// Arrived and not yet taken.
    arrived: Vec<u8>,
}

impl Program {
    /// `command` is the path of a program, or a program and its arguments with blanks between.
    pub fn start(command: &str) -> Result<Program, Stop> {
        let cannot = |error: io::Error| Stop::Cannot(format!("cannot start '{command}': {error}"));
        let (path, arguments) = split_command(command);
        let mut child = Command::new(path)
            .args(arguments)
            .stdin(Stdio::piped())
            .stdout(Stdio::piped())
            .spawn()
            .map_err(cannot)?;
        let (sender, output) = sync_channel(16);
        if let Some(pipe) = child.stdout.take() {
            thread::Builder::new().spawn(move || pass_on(pipe, sender)).map_err(cannot)?;
        }
        let input = child.stdin.take();
        Ok(Program { child, input, output, arrived: Vec::new() })
    }

    /// A desk waits for its input. A program that ends before any has come takes no house.
    pub fn check_waits(&mut self) -> Result<(), String> {
        match self.end_within(START)? {
            Some(status) => Err(words_for_end(status)),
            None => Ok(()),
        }
    }

    pub fn send(&mut self, bytes: &[u8]) -> Result<(), String> {
        let input = self.input.as_mut().ok_or("its input is closed already")?;
        let sent = input.write_all(bytes).and_then(|()| input.flush());
        sent.map_err(|error| self.with_end(format!("it takes no more input: {error}")))
    }

    pub fn close_input(&mut self) {
        self.input = None;
    }

    /// Sends a whole input from a thread of its own, so that neither side can block the other.
    /// A program may stop reading early; what it writes is what counts.
    pub fn send_all_and_close(&mut self, bytes: Vec<u8>) -> Result<(), Stop> {
        if let Some(mut input) = self.input.take() {
            thread::Builder::new().spawn(move || input.write_all(&bytes))?;
        }
        Ok(())
    }

    /// Exactly `count` bytes, within `PATIENCE`.
    pub fn receive(&mut self, count: usize) -> Result<Vec<u8>, String> {
        let deadline = Instant::now() + PATIENCE;
        while self.arrived.len() < count {
            let left = deadline.saturating_duration_since(Instant::now());
            let so_far = self.arrived.len();
            match self.output.recv_timeout(left) {
                Ok(bytes) => self.arrived.extend(bytes),
                Err(RecvTimeoutError::Timeout) => {
                    let seconds = PATIENCE.as_secs();
                    return Err(format!("{so_far} of {count} bytes came within {seconds} s"));
                }
                Err(RecvTimeoutError::Disconnected) => {
                    let what = format!("its output ended after {so_far} of {count} bytes");
                    return Err(self.with_end(what));
                }
            }
        }
        let rest = self.arrived.split_off(count);
        Ok(std::mem::replace(&mut self.arrived, rest))
    }

    /// The next 16 bytes as a reply.
    pub fn receive_reply(&mut self) -> Result<Reply, String> {
        let mut bytes = [0; REPLY_BYTES];
        bytes.copy_from_slice(&self.receive(REPLY_BYTES)?);
        Ok(Reply::from_bytes(&bytes))
    }

    /// Sends one request and waits for its reply.
    pub fn ask(&mut self, request: &Request) -> Result<Reply, String> {
        self.send(&request.to_bytes())?;
        self.receive_reply()
    }

    /// Closes the input: nothing more may come, and the program has to end.
    pub fn finish(&mut self) -> Result<(), String> {
        self.close_input();
        self.check_silent_end()
    }

    /// The program has to end by itself without another byte.
    pub fn check_silent_end(&mut self) -> Result<(), String> {
        let spare = self.receive_rest(0, PATIENCE)?;
        if !spare.is_empty() {
            return Err(format!("it writes more than its replies: {}", hex(&spare)));
        }
        self.check_end()
    }

    /// What has come without being asked for, after a moment's wait.
    pub fn unasked(&mut self, moment: Duration) -> &[u8] {
        thread::sleep(moment);
        while let Ok(bytes) = self.output.try_recv() {
            self.arrived.extend(bytes);
        }
        &self.arrived
    }

    /// All output up to its end, or the first bytes past `limit` of a program that will not stop.
    pub fn receive_rest(&mut self, limit: usize, patience: Duration) -> Result<Vec<u8>, String> {
        while self.arrived.len() <= limit {
            match self.output.recv_timeout(patience) {
                Ok(bytes) => self.arrived.extend(bytes),
                Err(RecvTimeoutError::Disconnected) => break,
                Err(RecvTimeoutError::Timeout) => {
                    let seconds = patience.as_secs();
                    return Err(format!("its output did not end: nothing for {seconds} s"));
                }
            }
        }
        Ok(std::mem::take(&mut self.arrived))
    }

    /// Waits for the end of a program whose output has ended. Only exit status 0 says that all
    /// is well.
    pub fn check_end(&mut self) -> Result<(), String> {
        match self.end_within(PATIENCE)? {
            Some(status) => check_status(status),
            None => Err("it ended its output but does not stop".to_string()),
        }
    }

    /// How it failed, if it ends within a moment and failed.
    pub fn failed_end(&mut self) -> Option<String> {
        let status = self.end_within(MOMENT).ok().flatten()?;
        check_status(status).err()
    }

    /// What went wrong, and how the program ended where that is known.
    fn with_end(&mut self, what: String) -> String {
        match self.end_within(MOMENT) {
            Ok(Some(status)) => format!("{what}; {}", words_for_end(status)),
            Ok(None) | Err(_) => what,
        }
    }

    fn end_within(&mut self, time: Duration) -> Result<Option<ExitStatus>, String> {
        let deadline = Instant::now() + time;
        let mut pause = Duration::from_micros(20);
        while Instant::now() < deadline {
            match self.child.try_wait() {
                Ok(None) => thread::sleep(pause),
                ended => return ended.map_err(|error| format!("cannot wait for it: {error}")),
            }
            pause = (pause * 2).min(Duration::from_millis(10));
        }
        Ok(None)
    }
}

impl Drop for Program {
    fn drop(&mut self) {
        // It may have ended by itself, and then there is nothing to do.
        let _ = self.child.kill();
        let _ = self.child.wait();
    }
}

fn split_command(command: &str) -> (&str, Vec<&str>) {
    if Path::new(command).exists() {
        return (command, Vec::new());
    }
    let mut words = command.split_whitespace();
    (words.next().unwrap_or(command), words.collect())
}

/// Hands output on as it comes. Ends with the output, or when nobody takes it any more.
fn pass_on(mut pipe: impl Read, sender: SyncSender<Vec<u8>>) {
    let mut buffer = [0; 1 << 14];
    loop {
        match pipe.read(&mut buffer) {
            Ok(0) => return,
            Ok(count) if sender.send(buffer[..count].to_vec()).is_err() => return,
            Ok(_) => {}
            Err(error) if error.kind() == io::ErrorKind::Interrupted => {}
            Err(_) => return,
        }
    }
}

fn check_status(status: ExitStatus) -> Result<(), String> {
    if status.success() {
        Ok(())
    } else {
        Err(words_for_end(status))
    }
}

fn words_for_end(status: ExitStatus) -> String {
    match status.code() {
        Some(code) => format!("it ended with exit status {code}"),
        None => format!("it crashed: {status}"),
    }
}

#[cfg(test)]
mod tests {
    use super::*;

    fn started(command: &str) -> Program {
        Program::start(command).expect(command)
    }

    #[test]
    fn only_status_0_is_a_good_end() {
        assert_eq!(started("true").finish(), Ok(()));
        assert_eq!(started("false").finish(), Err("it ended with exit status 1".to_string()));
        let mut killed = started("cat");
        killed.child.kill().expect("it runs");
        let end = killed.finish().expect_err("a crash");
        assert!(end.contains("it crashed: signal: 9"), "{end}");
    }

    #[test]
    fn a_lost_program_is_told_with_its_status() {
        let lost = started("false").receive(1).expect_err("no byte");
        assert_eq!(lost, "its output ended after 0 of 1 bytes; it ended with exit status 1");
        let mut spent = started("false");
        assert_eq!(spent.check_end(), Err("it ended with exit status 1".to_string()));
        let lost = spent.send(&[0]).expect_err("a closed pipe");
        assert!(lost.ends_with("; it ended with exit status 1"), "{lost}");
    }

    #[test]
    fn a_program_that_waits_is_told_from_one_that_ends() {
        assert_eq!(started("cat").check_waits(), Ok(()));
        assert_eq!(started("true").failed_end(), None);
    }
}
