//! Makes calls to the pair and keeps the log of them.

use crate::cuts::{self, Handed};
use crate::dice::Dice;
use crate::effect::Effect;
use crate::lent::{LENGTHS, ROOMS, WRONG_SIZES};
use crate::log;
use crate::proved::{first_unlike, Proved, STATE};
use crate::reference::Reference;
use crate::seen::Seen;
use crate::step::{Call, Step};
use crate::wire;

/// After so many differences the rest would say little more.
const ENOUGH: usize = 5;

pub struct Rig {
    pub dice: Dice,
    pub seen: Seen,
    pub calls: u64,
    pub differences: usize,
    limit: u64,
    proved: Box<dyn Proved>,
    reference: Reference,
    /// All calls since the last beginning, and what the plain slave made of them: the proved one is
    /// given them all at once before the next beginning.
    steps: Vec<Step>,
    expected: Vec<Effect>,
    /// What is wrong with both slaves; then no more calls are made until the next beginning.
    broken: Option<&'static str>,
    /// Whether the memories' lengths change from call to call.
    vary: bool,
    cal: usize,
    meas: usize,
    /// Of the next frame.
    ctr: u8,
}

impl Rig {
    pub fn new(limit: u64, seed: u64, proved: Box<dyn Proved>) -> Rig {
        Rig {
            dice: Dice::new(seed),
            seen: Seen::default(),
            calls: 0,
            differences: 0,
            limit,
            proved,
            reference: Reference::new(),
            steps: Vec::new(),
            expected: Vec::new(),
            broken: None,
            vary: false,
            cal: 4096,
            meas: 4096,
            ctr: 0,
        }
    }

    /// Whether this run of calls is to end.
    pub fn over(&self) -> bool {
        self.broken.is_some() || self.done()
    }

    pub fn done(&self) -> bool {
        self.calls >= self.limit || self.cut_short()
    }

    /// Whether so much differs that the rest was left out.
    pub fn cut_short(&self) -> bool {
        self.differences >= ENOUGH
    }

    /// Two new slaves; a few calls that come too early, then their power-up.
    pub fn begin(&mut self, start: u32, vary: bool) {
        self.settle();
        self.reference = Reference::new();
        self.seen.begin();
        self.vary = vary;
        self.lend(4096, 4096);
        if vary {
            self.call(Call::Byte(wire::SYNC));
            self.call(Call::Slice(vec![wire::SYNC]));
            self.call(Call::Slice(Vec::new()));
            self.call(Call::Event(2, 0));
            self.call(Call::Slot(0));
        }
        self.power_up(start);
    }

    /// The lengths of the memories from here on.
    pub fn lend(&mut self, cal: usize, meas: usize) {
        self.cal = cal;
        self.meas = meas;
    }

    fn call(&mut self, call: Call) -> Effect {
        if self.vary && self.dice.once_in(8) {
            let (cal, meas) = (self.dice.one_of(&LENGTHS), self.dice.one_of(&LENGTHS));
            self.lend(cal, meas);
        }
        self.call_with(call, STATE)
    }

    fn call_with(&mut self, call: Call, state: usize) -> Effect {
        if self.over() {
            return Effect::default();
        }
        let (cal, meas) = (self.cal, self.meas);
        let step = Step {
            call,
            state,
            cal,
            meas,
        };
        let effect = self.reference.make(&step);
        self.seen.call(&step, &effect);
        self.calls += is_call(&step);
        self.steps.push(step);
        self.expected.push(effect.clone());
        effect
    }

    /// Has the proved slave make the calls that the plain one has made, and compares all they did.
    pub fn settle(&mut self) {
        let effects = self.proved.run(&self.steps);
        let unlike = first_unlike(&self.expected, &effects);
        if unlike.is_some() || self.broken.is_some() {
            self.differences += 1;
            println!("DIFFERENCE {}: records for the replay program in hex, and after # what they cannot say", self.differences);
            let words = self.broken.unwrap_or_default();
            log::print(self.proved.as_mut(), &self.steps, words);
            println!();
            // From the difference on nothing was compared.
            let beyond = unlike.unwrap_or(self.steps.len());
            self.calls -= self.steps[beyond..].iter().map(is_call).sum::<u64>();
        }
        self.steps.clear();
        self.expected.clear();
        self.broken = None;
    }

    pub fn power_up(&mut self, start: u32) {
        self.call(Call::PowerUp(start));
        self.ctr = 0;
    }

    pub fn byte(&mut self, byte: u8) -> u32 {
        self.call(Call::Byte(byte)).result >> 16
    }

    /// A slice: its number, and how many bytes it took.
    pub fn slice(&mut self, bytes: &[u8]) -> (u32, usize) {
        let effect = self.call(Call::Slice(bytes.to_vec()));
        (effect.result >> 16, effect.taken as usize)
    }

    /// All bytes, handed over one by one or in slices as chance has it; the number of the last.
    pub fn wire(&mut self, bytes: &[u8]) -> u32 {
        let cuts = cuts::by_chance(&mut self.dice, bytes.len());
        let (mut number, mut at) = (0, 0);
        for (handed, end) in cuts {
            number = match handed {
                Handed::OneByOne => bytes[at..end].iter().fold(number, |_, b| self.byte(*b)),
                Handed::Sliced => self.slices(&bytes[at..end]).unwrap_or(number),
            };
            at = end;
        }
        number
    }

    /// These bytes in a slice, which is handed on behind what was taken until all are: the number of the last byte.
    pub fn slices(&mut self, bytes: &[u8]) -> Option<u32> {
        let (mut last, mut at) = (None, 0);
        loop {
            let (number, taken) = self.slice(&bytes[at..]);
            // None is taken of no bytes, and none by slaves to which no more calls are made.
            if taken > 0 {
                last = Some(number);
            }
            at += taken;
            if taken == 0 || at == bytes.len() {
                return last;
            }
        }
    }

    /// A whole message; the number of its last byte.
    pub fn send(&mut self, packet: &[u8]) -> u32 {
        let ctr = self.dice.byte();
        let number = self.wire(&wire::frame(ctr, packet));
        if number == 1 {
            self.taken(packet);
        }
        number
    }

    /// The command that was taken last is this one.
    pub fn taken(&mut self, packet: &[u8]) {
        let lent = self.reference.lent(self.cal, self.meas);
        self.seen.taken(packet, lent);
    }

    pub fn event(&mut self, event: u32, clock: u16) {
        self.call(Call::Event(event, clock));
    }

    pub fn measure(&mut self, at: u16, bytes: &[u8]) {
        self.call(Call::Measure(at, bytes.to_vec()));
    }

    /// A slot; its packet, if it sent one.
    pub fn slot(&mut self, room: usize) -> Option<Vec<u8>> {
        let effect = self.call(Call::Slot(room));
        let frame = effect.frame();
        if frame.is_empty() {
            return None;
        }
        match wire::unframe(&frame) {
            Some((ctr, packet)) if ctr == self.ctr => {
                self.seen.sent(ctr, &frame, &packet);
                self.ctr = ctr.wrapping_add(1);
                Some(packet)
            }
            _ => {
                self.broken = Some("both: what was sent last is no frame or has a wrong CTR");
                None
            }
        }
    }

    /// Sends a command and has slots until its answer comes.
    pub fn ask(&mut self, packet: &[u8]) -> Option<Vec<u8>> {
        if self.send(packet) != 1 {
            return None;
        }
        // An answer leaves in the first or second slot.
        self.answer().or_else(|| self.answer())
    }

    fn answer(&mut self) -> Option<Vec<u8>> {
        let packet = self.slot(wire::FRAME)?;
        (packet[0] >= 0xFE).then_some(packet)
    }

    /// A call with a state of the wrong size, which only the proved slave can be given.
    pub fn wrong_size(&mut self) {
        let size = self.dice.one_of(&WRONG_SIZES);
        let call = match self.dice.below(5) {
            0 => Call::PowerUp(self.dice.number()),
            1 => Call::Byte(self.dice.byte()),
            3 => Call::Slice(vec![wire::SYNC; self.dice.below(3)]),
            // 10 comes before 8 and 9.
            2 => Call::Event(self.dice.below(3) as u32, self.dice.number() as u16),
            _ => Call::Slot(self.dice.one_of(&ROOMS)),
        };
        self.call_with(call, size);
    }

    /// A power-up with a state of each wrong size; none is made.
    pub fn power_up_refused(&mut self) {
        for size in WRONG_SIZES {
            self.call_with(Call::PowerUp(1), size);
        }
    }
}

/// New measured values are the host's own doing, no call.
fn is_call(step: &Step) -> u64 {
    u64::from(!matches!(step.call, Call::Measure(..)))
}
