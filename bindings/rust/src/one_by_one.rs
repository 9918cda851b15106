//! What is common to all that is fetched in portions and handed out one by one.

use std::ops::Range;

use crate::{Chain, Listed, Refused, RECORD_CELLS};

/// Chains or rings a portion, unless another room is asked for: 40 KB of cells. Each portion checks the file again.
pub(crate) const ROOM: u16 = 1_024;

/// A listing that each time hands over the portion after the one before.
pub(crate) trait Portions {
    fn next_portion(&mut self, output: &mut [u32]) -> Result<Listed, Refused>;
}

/// Goes through a listing portion by portion. A refusal is the last item.
#[derive(Clone, Debug)]
pub(crate) struct OneByOne<P> {
    portions: P,
    /// The last portion, and which of its records are still to be handed out.
    output: Vec<u32>,
    waiting: Range<usize>,
    /// Whether no further portion is to be asked for.
    over: bool,
}

impl<P> OneByOne<P> {
    pub(crate) fn new(portions: P, room: u16) -> OneByOne<P> {
        OneByOne {
            portions,
            output: vec![0; usize::from(room) * RECORD_CELLS],
            waiting: 0..0,
            over: false,
        }
    }
}

impl<P: Portions> Iterator for OneByOne<P> {
    type Item = Result<Chain, Refused>;

    fn next(&mut self) -> Option<Self::Item> {
        if self.waiting.is_empty() && !self.over {
            match self.portions.next_portion(&mut self.output) {
                Ok(listed) => {
                    self.waiting = 0..listed.count;
                    self.over = listed.ended;
                }
                Err(refused) => {
                    self.over = true;
                    return Some(Err(refused));
                }
            }
        }
        let place = self.waiting.next()?;
        let record = self.output.chunks_exact(RECORD_CELLS).nth(place)?;
        Chain::from_record(record).map(Ok)
    }
}
