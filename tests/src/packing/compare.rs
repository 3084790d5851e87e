//! Makes one call on two packers and compares everything that can be seen after it.

use super::judge::{is_plain, judge, judge_block, said_by_block, said_by_records};
use super::seen::Seen;
use super::{Call, Packer, Way};
use crate::guarded::Guarded;
use crate::random;
use crate::runner::{intact, same, same_bytes, Difference};

/// What the calls are lent. Only the tested side has guards.
#[derive(Default)]
pub struct Comparison {
    input: Guarded,
    output: Guarded,
    expected: Vec<u8>,
    before: Vec<u8>,
}

/// Numbers of lines whose block's length is asked for: those around the most, and some of which the length would be too
/// large for a word.
const COUNTS: [usize; 12] = [0, 1, 2, 34, 35, 36, 37, 38, 1 << 32, usize::MAX / 43, usize::MAX / 43 + 1, usize::MAX];

impl Comparison {
    /// `seed` is that of the bytes in the output before, and of where input and output lie.
    pub fn call<E: Packer, T: Packer>(
        &mut self,
        call: &Call,
        seed: u64,
        expected: &E,
        tested: &T,
        seen: &mut Seen,
    ) -> Result<(), Difference> {
        self.before.resize(call.room, 0);
        random::fill(seed | 1, &mut self.before);
        self.expected.clone_from(&self.before);
        self.input.set(&call.input, seed as usize);
        self.output.set(&self.before, (seed >> 3) as usize);

        let number = expected.call(call.way, &call.input, &mut self.expected);
        let got = tested.call(call.way, self.input.body(), self.output.body_mut());
        same("number", &number, &got)?;
        equal("output", &self.expected, self.output.body())?;
        intact("output", &self.output)?;
        equal("input", &call.input, self.input.body())?;
        intact("input", &self.input)?;
        if number != 0 {
            equal("output after a refusal", &self.before, self.output.body())?;
        }
        self.second_opinion(call, number, seen)?;

        let count = COUNTS[(seed >> 6) as usize % COUNTS.len()];
        same("length of a block", &expected.block_length(count), &tested.block_length(count))
    }

    /// The number is the judge's; and if it is 0, the output says what the input says, and nothing else.
    fn second_opinion(&self, call: &Call, number: u32, seen: &mut Seen) -> Result<(), Difference> {
        let judged = judge(call);
        seen.call(call.way, judged);
        let wanted = if judged.is_whole() { 0 } else { 22 };
        if wanted != number {
            return same(&format!("number, of {judged:?}"), &wanted, &number);
        }
        if number != 0 {
            return Ok(());
        }
        let output = self.output.body();
        let (input, said, plain) = match call.way {
            Way::Write => {
                let plain = judge_block(output, call.input.len()).is_whole();
                (said_by_records(&call.input), said_by_block(output), plain)
            }
            Way::Read => (said_by_block(&call.input), said_by_records(output), is_plain(output)),
        };
        seen.said(call.way, &input);
        same("lines that the output says", &input, &said)?;
        same("nothing else in the output", &true, &plain)
    }
}

fn equal(what: &str, expected: &[u8], got: &[u8]) -> Result<(), Difference> {
    same_bytes(what, expected, got).map_err(|(_, found)| found)
}
