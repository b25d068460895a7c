//! The proved slave in a program of its own, at the end of a pipe: compare/driver.c says how they talk.

use crate::effect::{Change, Effect};
use crate::proved::Proved;
use crate::step::{Call, Step};
use std::io::{self, Read, Write};
use std::process::{Child, Command, Stdio};

pub struct Piped {
    words: Vec<String>,
    driver: Option<Child>,
    state_size: usize,
}

impl Piped {
    pub fn new(words: Vec<String>) -> Piped {
        Piped {
            words,
            driver: None,
            state_size: 0,
        }
    }

    /// The driver, begun anew if a crash has ended it.
    fn begun(&mut self) -> io::Result<&mut Child> {
        if self.driver.is_none() {
            let mut driver = Command::new(&self.words[0])
                .args(&self.words[1..])
                .stdin(Stdio::piped())
                .stdout(Stdio::piped())
                .spawn()?;
            self.state_size = number(&mut driver, 4)?;
            self.driver = Some(driver);
        }
        self.driver
            .as_mut()
            .ok_or_else(|| io::ErrorKind::NotFound.into())
    }

    /// The driver's reply; it has read the whole script before it says anything.
    fn reply(&mut self, script: &[u8]) -> io::Result<Vec<u8>> {
        let driver = self.begun()?;
        let input = driver.stdin.as_mut().ok_or(io::ErrorKind::BrokenPipe)?;
        input.write_all(&(script.len() as u32).to_le_bytes())?;
        input.write_all(script)?;
        input.flush()?;
        let size = number(driver, 4)?;
        let mut reply = vec![0; size];
        let output = driver.stdout.as_mut().ok_or(io::ErrorKind::BrokenPipe)?;
        output.read_exact(&mut reply)?;
        Ok(reply)
    }

    /// Ends a driver that has crashed, so that the next run begins another.
    fn end(&mut self) {
        if let Some(mut driver) = self.driver.take() {
            drop(driver.stdin.take());
            // What it has to say about its end is of no use here.
            let _ = driver.wait();
        }
    }
}

impl Drop for Piped {
    fn drop(&mut self) {
        self.end();
    }
}

fn number(driver: &mut Child, bytes: usize) -> io::Result<usize> {
    let mut field = [0; 4];
    let output = driver.stdout.as_mut().ok_or(io::ErrorKind::BrokenPipe)?;
    output.read_exact(&mut field[..bytes])?;
    Ok(u32::from_le_bytes(field) as usize)
}

impl Proved for Piped {
    fn way(&self) -> String {
        format!("at the end of a pipe, run by: {}", self.words.join(" "))
    }

    fn state_size(&mut self) -> usize {
        if let Err(why) = self.begun() {
            println!("the driver was not begun: {}", why);
        }
        self.state_size
    }

    fn run(&mut self, steps: &[Step]) -> Vec<Effect> {
        let mut script = Vec::new();
        for step in steps {
            encode(step, &mut script);
        }
        let reply = self.reply(&script).unwrap_or_default();
        let mut rest = reply.as_slice();
        let mut effects = Vec::new();
        for step in steps {
            match step.call {
                Call::Measure(..) => effects.push(Effect::default()),
                _ => match decode(&step.call, &mut rest) {
                    Some(effect) => effects.push(effect),
                    None => {
                        self.end();
                        break;
                    }
                },
            }
        }
        effects
    }
}

fn encode(step: &Step, to: &mut Vec<u8>) {
    let mut kind = |kind: u8| {
        to.push(kind);
        for length in [step.state, step.cal, step.meas] {
            to.extend_from_slice(&(length as u16).to_le_bytes());
        }
    };
    match &step.call {
        Call::PowerUp(start) => {
            kind(0);
            to.extend_from_slice(&start.to_le_bytes());
        }
        Call::Byte(byte) => {
            kind(1);
            to.push(*byte);
        }
        Call::Slice(bytes) => {
            kind(5);
            to.extend_from_slice(&(bytes.len() as u16).to_le_bytes());
            to.extend_from_slice(bytes);
        }
        Call::Event(event, clock) => {
            kind(2);
            to.extend_from_slice(&event.to_le_bytes());
            to.extend_from_slice(&clock.to_le_bytes());
        }
        Call::Slot(room) => {
            kind(3);
            to.push(*room as u8);
        }
        Call::Measure(at, bytes) => {
            kind(4);
            to.extend_from_slice(&at.to_le_bytes());
            to.push(bytes.len() as u8);
            to.extend_from_slice(bytes);
        }
    }
}

/// Takes one effect of this call off the reply; none if it is not there whole.
fn decode(call: &Call, rest: &mut &[u8]) -> Option<Effect> {
    Some(Effect {
        result: take_number(rest, 4)? as u32,
        taken: match call {
            Call::Slice(_) => take_number(rest, 4)? as u32,
            _ => 0,
        },
        strayed: take_number(rest, 1)? != 0,
        wrote: {
            let count = take_number(rest, 1)?;
            take(rest, count)?
        },
        cal: take_change(rest)?,
        meas: take_change(rest)?,
    })
}

fn take_change(rest: &mut &[u8]) -> Option<Change> {
    let (at, count) = (take_number(rest, 2)?, take_number(rest, 2)?);
    let bytes = take(rest, count)?;
    Some(Change { at, bytes })
}

fn take_number(rest: &mut &[u8], bytes: usize) -> Option<usize> {
    let taken = take(rest, bytes)?;
    Some(
        taken
            .iter()
            .rev()
            .fold(0, |sum, b| sum << 8 | usize::from(*b)),
    )
}

fn take(rest: &mut &[u8], count: usize) -> Option<Vec<u8>> {
    let taken = rest.get(..count)?.to_vec();
    *rest = &rest[count..];
    Some(taken)
}
