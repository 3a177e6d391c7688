//! Where calls write: the lent buffers, and the probes of walks, which the
//! allowance is held against.

use crate::certificate::{answer_field, gap_field};
use crate::first_checks::Refusal;
use crate::probes::{Probe, Probes};
use crate::walk::Recorder;

/// Writes walks into the lent buffers, one after another, and ends one when
/// something is due for which nothing is left.
pub(crate) struct Writer<'a> {
    allowance: u32,
    probes: Probes,
    answers: &'a mut [u32],
    answers_written: usize,
    certificate: &'a mut [u8],
    bytes_written: usize,
    parts_written: u64,
}

/// What was written and probed.
#[derive(Clone, Copy, Default)]
pub(crate) struct Written {
    pub(crate) answers: u64,
    pub(crate) parts: u64,
    pub(crate) bytes: u64,
    pub(crate) doublings: u64,
    pub(crate) halvings: u64,
}

impl<'a> Writer<'a> {
    pub(crate) fn new(allowance: u32, answers: &'a mut [u32], certificate: &'a mut [u8]) -> Self {
        Writer {
            allowance,
            probes: Probes::default(),
            answers,
            answers_written: 0,
            certificate,
            bytes_written: 0,
            parts_written: 0,
        }
    }

    /// Returns what was written and probed so far, in all walks together.
    pub(crate) fn written(&self) -> Written {
        Written {
            answers: self.answers_written as u64,
            parts: self.parts_written,
            bytes: self.bytes_written as u64,
            doublings: self.probes.doublings,
            halvings: self.probes.halvings,
        }
    }

    fn write_part(&mut self, field: &[u8]) -> Result<(), u8> {
        let free = &mut self.certificate[self.bytes_written..];
        let Some(place) = free.get_mut(..field.len()) else {
            return Err(6);
        };
        place.copy_from_slice(field);
        self.bytes_written += field.len();
        self.parts_written += 1;
        Ok(())
    }
}

impl Recorder for Writer<'_> {
    fn probe(&mut self, _run: usize, probe: Probe) -> Result<(), u8> {
        if self.probes.total() == u64::from(self.allowance) {
            return Err(7);
        }
        self.probes.add(probe);
        Ok(())
    }

    fn answer(&mut self, value: u32, mask: u64) -> Result<(), u8> {
        if self.answers_written == self.answers.len() {
            return Err(5);
        }
        // The part first: if it does not fit, the number is not written.
        self.write_part(&answer_field(value, mask))?;
        self.answers[self.answers_written] = value;
        self.answers_written += 1;
        Ok(())
    }

    fn gap(&mut self, first: u32, last: u32, mask: u64) -> Result<(), u8> {
        self.write_part(&gap_field(first, last, mask))
    }
}

/// Writes one more number to a row that has so many; refusal 5 if it is full.
pub(crate) fn append(row: &mut [u32], written: &mut usize, number: u32) -> Result<(), Refusal> {
    let place = row.get_mut(*written).ok_or(Refusal::new(5, *written))?;
    *place = number;
    *written += 1;
    Ok(())
}
