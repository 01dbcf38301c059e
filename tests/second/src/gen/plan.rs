//! A run before it is text. Numbers may be out of bounds here: the text is written without any test.

/// An operation: a put has a sample.
#[derive(Clone, Copy)]
pub struct Op {
    pub thread: usize,
    pub sample: Option<i64>,
}

#[derive(Clone, Default)]
pub struct Plan {
    pub threads: usize,
    pub slots: usize,
    pub ops: Vec<Op>,
    pub schedule: Vec<usize>,
}

impl Plan {
    /// The run file.
    pub fn text(&self) -> Vec<u8> {
        let mut text = format!("threads\t{}\nslots\t{}\n", self.threads, self.slots);
        for op in &self.ops {
            text += &match op.sample {
                Some(sample) => format!("put\t{}\t{}\n", op.thread, sample),
                None => format!("take\t{}\n", op.thread),
            };
        }
        for thread in &self.schedule {
            text += &format!("step\t{thread}\n");
        }
        text.into_bytes()
    }

    /// Number of puts.
    pub fn puts(&self) -> usize {
        self.ops.iter().filter(|op| op.sample.is_some()).count()
    }
}
