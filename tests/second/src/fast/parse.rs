//! Run file to arrays, in one pass (document 01, 'Run files' and 'Numbered refusals').

/// Number and detail of a refusal.
pub type Refused = (u32, usize);

/// What the lines gave. Entries past the bounds are counted, not kept.
pub struct Parsed {
    pub threads: usize,
    pub slots: usize,
    pub operations: usize,
    pub puts: usize,
    pub steps: usize,
    pub thread: [u8; 128],
    pub is_put: [bool; 128],
    pub sample: [i32; 128],
    pub schedule: [u8; 4096],
    bad_operation: Option<usize>,
    bad_step: Option<usize>,
}

impl Parsed {
    pub fn new() -> Parsed {
        Parsed {
            threads: 0,
            slots: 0,
            operations: 0,
            puts: 0,
            steps: 0,
            thread: [0; 128],
            is_put: [false; 128],
            sample: [0; 128],
            schedule: [0; 4096],
            bad_operation: None,
            bad_step: None,
        }
    }

    /// 12, then 11, and the arrays.
    pub fn read(&mut self, text: &[u8]) -> Result<(), Refused> {
        if text.len() > 65_536 {
            return Err((12, 0));
        }
        let (threads, mut at) = head(text, 0, b"threads\t").ok_or((11, 1))?;
        let (slots, next) = head(text, at, b"slots\t").ok_or((11, 2))?;
        (self.threads, self.slots, at) = (threads, slots, next);
        let mut line = 3;
        while at < text.len() && !text[at..].starts_with(b"step\t") {
            at = self.operation(text, at).ok_or((11, line))?;
            line += 1;
        }
        while at < text.len() {
            at = self.step(text, at).ok_or((11, line))?;
            line += 1;
        }
        Ok(())
    }

    /// 1, 2, 4 to 8, the lowest that applies.
    pub fn test(&self) -> Result<(), Refused> {
        if self.threads < 1 || self.threads > 16 {
            return Err((1, 0));
        }
        if self.slots < 1 || self.slots > 64 {
            return Err((2, 0));
        }
        if self.operations > 128 {
            return Err((4, 0));
        }
        if let Some(op) = self.bad_operation {
            return Err((5, op));
        }
        if self.puts > self.slots {
            return Err((6, 0));
        }
        if self.steps > 4_096 {
            return Err((7, 0));
        }
        self.bad_step.map_or(Ok(()), |position| Err((8, position)))
    }

    /// One `put` or `take` line; gives where the next line begins.
    fn operation(&mut self, text: &[u8], at: usize) -> Option<usize> {
        let rest = &text[at..];
        let (is_put, thread, sample, next) = if rest.starts_with(b"put\t") {
            let (thread, at) = small(text, at + 4, b'\t')?;
            let (sample, at) = signed(text, at)?;
            (true, thread, sample, at)
        } else if rest.starts_with(b"take\t") {
            let (thread, at) = small(text, at + 5, b'\n')?;
            (false, thread, 0, at)
        } else {
            return None;
        };
        let op = self.operations;
        if op < 128 {
            (self.thread[op], self.is_put[op], self.sample[op]) = (thread, is_put, sample);
        }
        if usize::from(thread) >= self.threads && self.bad_operation.is_none() {
            self.bad_operation = Some(op);
        }
        self.puts += usize::from(is_put);
        self.operations += 1;
        Some(next)
    }

    /// One `step` line; gives where the next line begins.
    #[inline]
    fn step(&mut self, text: &[u8], at: usize) -> Option<usize> {
        if !text[at..].starts_with(b"step\t") {
            return None;
        }
        let (thread, next) = small(text, at + 5, b'\n')?;
        if let Some(entry) = self.schedule.get_mut(self.steps) {
            *entry = thread;
        }
        if usize::from(thread) >= self.threads && self.bad_step.is_none() {
            self.bad_step = Some(self.steps);
        }
        self.steps += 1;
        Some(next)
    }
}

/// A line of one word and one number.
fn head(text: &[u8], at: usize, word: &[u8]) -> Option<(usize, usize)> {
    if !text[at..].starts_with(word) {
        return None;
    }
    let (number, next) = small(text, at + word.len(), b'\n')?;
    Some((usize::from(number), next))
}

/// A number 0 to 255 and the byte that ends its field; gives the number and what comes after.
#[inline]
fn small(text: &[u8], at: usize, end: u8) -> Option<(u8, usize)> {
    let (value, next) = digits(text, at)?;
    if value > 255 || *text.get(next)? != end {
        return None;
    }
    Some((value as u8, next + 1))
}

/// A sample and its line feed.
fn signed(text: &[u8], at: usize) -> Option<(i32, usize)> {
    let minus = *text.get(at)? == b'-';
    let (size, next) = digits(text, at + usize::from(minus))?;
    let value = if minus { -size } else { size };
    if (minus && size == 0) || *text.get(next)? != b'\n' {
        return None;
    }
    Some((i32::try_from(value).ok()?, next + 1))
}

/// One to ten digits without leading zeros.
#[inline]
fn digits(text: &[u8], at: usize) -> Option<(i64, usize)> {
    let first = text.get(at)?.wrapping_sub(b'0');
    if first > 9 {
        return None;
    }
    let mut value = i64::from(first);
    let mut next = at + 1;
    while let Some(digit) = text.get(next).map(|byte| byte.wrapping_sub(b'0')).filter(|&digit| digit <= 9) {
        if value == 0 || next - at >= 10 {
            return None;
        }
        value = value * 10 + i64::from(digit);
        next += 1;
    }
    Some((value, next))
}
