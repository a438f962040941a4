//! Calls of the compiled library under closed pages: texts that may only be read, an output and scratch of exactly so many places.

use crate::guarded::Guarded;
use wintabol::Refused;

const TEXT_ROOM: usize = (1 << 24) + 4096;
const LIST_ROOM: usize = 1 << 25;
const SCRATCH_ROOM: usize = 1 << 20;

pub struct Library {
    texts: [Guarded; 3],
    contig: Guarded,
    out: Guarded,
    scratch: Guarded,
    at_end: bool,
}

/// What stands in a buffer before a call.
const BEFORE: u8 = 0xA5;

pub struct Call<'a> {
    pub cohort: &'a [u8],
    pub clip: Option<&'a [u8]>,
    pub reference: Option<&'a [u8]>,
    pub places: usize,
    pub room: usize,
}

impl Library {
    pub fn new() -> Library {
        Library {
            texts: [Guarded::new(TEXT_ROOM), Guarded::new(TEXT_ROOM), Guarded::new(TEXT_ROOM)],
            contig: Guarded::new(4096),
            out: Guarded::new(LIST_ROOM),
            scratch: Guarded::new(SCRATCH_ROOM),
            at_end: false,
        }
    }

    /// The list or the row that refuses the call. Scratch must be zero at the end, and the output as it was behind the list, or all of
    /// it after a refusal. Buffers stand at the end and at the beginning of their pages by turns.
    pub fn combine(&mut self, call: &Call) -> Result<Vec<u8>, usize> {
        self.at_end = !self.at_end;
        let at_end = self.at_end;
        let [cohort, clip, reference] = &mut self.texts;
        let out = self.out.bytes(call.room, BEFORE, at_end);
        let scratch = self.scratch.numbers(call.places, BEFORE, at_end);
        let answer = wintabol::combine(
            cohort.text(call.cohort, at_end),
            call.clip.map(|t| clip.text(t, at_end)),
            call.reference.map(|t| reference.text(t, at_end)),
            scratch,
            out,
        );
        assert!(scratch.iter().all(|&n| n == 0), "scratch is not zero");
        let written = *answer.as_ref().unwrap_or(&0);
        assert!(out[written..].iter().all(|&b| b == BEFORE), "the output is changed behind the list");
        answer.map(|n| out[..n].to_vec()).map_err(|Refused(row)| row)
    }

    /// The looks of a contig, or the row that refuses them; scratch as above. The call's room is not looked at.
    pub fn looks(&mut self, call: &Call, contig: &[u8]) -> Result<usize, usize> {
        self.at_end = !self.at_end;
        let at_end = self.at_end;
        let [cohort, clip, reference] = &mut self.texts;
        let scratch = self.scratch.numbers(call.places, BEFORE, at_end);
        let answer = wintabol::looks(
            cohort.text(call.cohort, at_end),
            call.clip.map(|t| clip.text(t, at_end)),
            call.reference.map(|t| reference.text(t, at_end)),
            self.contig.text(contig, at_end),
            scratch,
        );
        assert!(scratch.iter().all(|&n| n == 0), "scratch is not zero");
        answer.map_err(|Refused(row)| row)
    }

    /// The records that hold the pairs of a text and how many record groups were read, or the row that refuses the call; places behind the
    /// answers, or all of them after a refusal, as they were.
    pub fn look_up(&mut self, list: &[u8], asked: &[u8], places: usize) -> Result<(Vec<u32>, u32), usize> {
        self.at_end = !self.at_end;
        let [first, second, _] = &mut self.texts;
        let out = self.out.words(places, BEFORE, self.at_end);
        let answer = wintabol::look_up(first.text(list, self.at_end), second.text(asked, self.at_end), out);
        let count = answer.as_ref().map_or(0, |found| found.pairs);
        assert!(out[count..].iter().all(|&n| n == u32::from_ne_bytes([BEFORE; 4])), "the output is changed behind the answers");
        answer.map(|found| (out[..count].to_vec(), found.groups)).map_err(|Refused(row)| row)
    }

    /// The called list of a combined list, or the row that refuses it; the output as above.
    pub fn call(&mut self, list: &[u8], room: usize) -> Result<Vec<u8>, usize> {
        self.at_end = !self.at_end;
        let out = self.out.bytes(room, BEFORE, self.at_end);
        let answer = wintabol::call(self.texts[0].text(list, self.at_end), out);
        let written = *answer.as_ref().unwrap_or(&0);
        assert!(out[written..].iter().all(|&b| b == BEFORE), "the output is changed behind the list");
        answer.map(|n| out[..n].to_vec()).map_err(|Refused(row)| row)
    }

    /// `combine` with an output that is made longer until it is long enough.
    pub fn combine_roomy(&mut self, call: &Call) -> Result<Vec<u8>, usize> {
        let mut room = LIST_ROOM.min(4096 + 8 * call.cohort.len());
        loop {
            let answer = self.combine(&Call { room, ..*call });
            if answer != Err(14) || 8 * room > LIST_ROOM {
                return answer;
            }
            room *= 8;
        }
    }
}
