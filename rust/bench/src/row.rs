//! What one way to the answers writes to.

use crate::inputs::NUMBERS;
use quorum::{enough_answers, enough_bytes, Counts};

/// Buffers that are large enough for every case.
pub struct Row {
    /// The answer buffer.
    pub answers: Vec<u32>,
    /// The certificate buffer.
    pub certificate: Vec<u8>,
}

impl Row {
    /// Allocates it and writes to each place, so that no repetition meets a page
    /// for the first time.
    pub fn new() -> Self {
        Row {
            answers: vec![1; enough_answers(NUMBERS)],
            certificate: vec![1; enough_bytes(NUMBERS)],
        }
    }

    /// What was written.
    pub fn written(&self, counts: Counts) -> (&[u32], &[u8]) {
        let Row {
            answers,
            certificate,
        } = self;
        (&answers[..counts.answers], &certificate[..counts.bytes])
    }
}
