//! Wrong programs, to see that the comparison of lines finds them: the right one with its input or its output changed.
use crate::program::Outcome;
use model::{image, record};

#[derive(Clone, Copy, PartialEq, Eq, Debug)]
pub enum WrongProgram {
    StopsAfter100Records,
    LastLineMissing,
    LastLineTwice,
    LastLineFeedMissing,
    ShortRecordTakenForWhole,
    ShortRecordIgnored,
    ShortImageTakenForWhole,
    ShortImageIgnored,
    ImageNotCarriedOn,
}

pub const ALL: [WrongProgram; 9] = [
    WrongProgram::StopsAfter100Records,
    WrongProgram::LastLineMissing,
    WrongProgram::LastLineTwice,
    WrongProgram::LastLineFeedMissing,
    WrongProgram::ShortRecordTakenForWhole,
    WrongProgram::ShortRecordIgnored,
    WrongProgram::ShortImageTakenForWhole,
    WrongProgram::ShortImageIgnored,
    WrongProgram::ImageNotCarriedOn,
];

/// Where the image is not carried on, each record is a run of its own; so many are made.
const MOST_RUNS: usize = 100;

impl WrongProgram {
    /// What the wrong program makes of an input; `right` is what the right one does.
    pub fn outcome(self, input: &[u8], right: impl Fn(&[u8]) -> Outcome) -> Outcome {
        if self == WrongProgram::ImageNotCarriedOn && input.len() > image::LENGTH {
            return each_record_alone(input, right);
        }
        let mut outcome = right(&self.input(input));
        self.change(input, &mut outcome.output);
        outcome
    }

    /// The input as the wrong program takes it.
    fn input(self, input: &[u8]) -> Vec<u8> {
        let mut input = input.to_vec();
        let length = input.len();
        let rest = length.saturating_sub(image::LENGTH) % record::LENGTH;
        match self {
            WrongProgram::StopsAfter100Records => input.truncate(image::LENGTH + 100 * record::LENGTH),
            WrongProgram::ShortRecordTakenForWhole if rest > 0 => input.resize(length - rest + record::LENGTH, 0),
            WrongProgram::ShortRecordIgnored => input.truncate(length - rest),
            WrongProgram::ShortImageTakenForWhole if length < image::LENGTH => input.resize(image::LENGTH, 0),
            _ => {}
        }
        input
    }

    /// Changes the output as the wrong program would.
    fn change(self, input: &[u8], output: &mut Vec<u8>) {
        if input.len() < image::LENGTH {
            if self == WrongProgram::ShortImageIgnored {
                output.clear();
            }
            return;
        }
        let last_line = output.split_inclusive(|b| *b == b'\n').next_back().unwrap_or_default().to_vec();
        match self {
            WrongProgram::LastLineMissing => output.truncate(output.len() - last_line.len()),
            WrongProgram::LastLineTwice => output.extend(last_line),
            WrongProgram::LastLineFeedMissing => output.truncate(output.len().saturating_sub(1)),
            _ => {}
        }
    }
}

/// Every record meets the image that the input starts with.
fn each_record_alone(input: &[u8], right: impl Fn(&[u8]) -> Outcome) -> Outcome {
    let (start, records) = input.split_at(image::LENGTH);
    let mut all = Outcome { output: Vec::new(), bad_end: None };
    for record in records.chunks(record::LENGTH).take(MOST_RUNS) {
        let one = right(&[start, record].concat());
        all.output.extend(one.output);
        all.bad_end = all.bad_end.or(one.bad_end);
    }
    all
}
