//! Many searches in one call: the limits in a query record, and what answer records hold.

use crate::answers;
use crate::ffi::{self, NO_GOAL};
use crate::{Limits, Plan, Refusal, Search, ANSWER_LENGTH, LIMITS_LENGTH, PLAN_LENGTH};
use core::fmt;
use core::iter::FusedIterator;

impl Limits {
    /// The limits as they stand in a query record, behind the start: steps as one byte, cost and visits as four each,
    /// the high byte first. A step limit above 255 becomes 255, which is refused with 10 as well.
    ///
    /// ```
    /// use mikjuqan::Limits;
    ///
    /// let limits = Limits { steps: 8, cost: 100, visits: 70_000 };
    /// assert_eq!(limits.to_bytes(), [8, 0, 0, 0, 100, 0, 1, 0x11, 0x70]);
    /// assert_eq!(Limits { steps: 1_000, ..limits }.to_bytes()[0], 255);
    /// ```
    pub const fn to_bytes(self) -> [u8; LIMITS_LENGTH] {
        let steps = if self.steps < 255 { self.steps as u8 } else { 255 };
        let [cost, visits] = [self.cost.to_be_bytes(), self.visits.to_be_bytes()];
        [steps, cost[0], cost[1], cost[2], cost[3], visits[0], visits[1], visits[2], visits[3]]
    }
}

/// The answers of [`Exercise::find_plans`](crate::Exercise::find_plans), one for each query record, in their order.
///
/// An answer is what [`Exercise::find_plan`](crate::Exercise::find_plan) tells, and the rules of the plan, of which
/// there are none without a plan; or why this record was refused.
///
/// ```
/// use mikjuqan::{Exercise, Limits, Refusal, Search, ANSWER_LENGTH};
///
/// // One position, three labels, one abstract label; rule 0 leads from 0 to 1 at cost 4; goal 1.
/// let block = [1, 3, 1, 1, 1, 0, 0, 0, 4, 0, 1, 1];
/// let limits = Limits { steps: 3, cost: 100, visits: 100 };
/// let queries = [0, 1, 2, 3].map(|label| [&[label][..], &limits.to_bytes()].concat()).concat();
/// let mut room = [0; 4 * ANSWER_LENGTH];
/// let mut answers = Exercise::new(&block).find_plans(&queries, &[0], &mut room)?;
///
/// // They are counted, can be walked from both ends, and more than once.
/// assert_eq!(answers.len(), 4);
/// assert_eq!(answers.next_back(), Some(Err(Refusal::State)));
/// assert_eq!(answers.next_back(), Some(Ok((Search::NoPlan { visits: 1 }, [].as_slice()))));
/// let costs = answers.clone().map(|answer| match answer {
///     Ok((Search::Found(found), _)) => Some(found.cost),
///     _ => None,
/// });
/// assert!(costs.eq([Some(4), Some(0)]));
/// assert_eq!(answers.len(), 2);
/// # Ok::<(), Refusal>(())
/// ```
#[derive(Clone)]
pub struct Answers<'a> {
    /// Whole records.
    records: &'a [u8],
}

impl<'a> Answers<'a> {
    /// Takes the records that the library has written.
    pub(crate) fn new(records: &'a [u8]) -> Answers<'a> {
        debug_assert!(records.len() % ANSWER_LENGTH == 0);
        Answers { records }
    }
}

impl<'a> Iterator for Answers<'a> {
    type Item = Result<(Search, &'a [u8]), Refusal>;

    fn next(&mut self) -> Option<Self::Item> {
        let (record, rest) = self.records.split_first_chunk()?;
        self.records = rest;
        Some(read(record))
    }

    fn size_hint(&self) -> (usize, Option<usize>) {
        let left = self.records.len() / ANSWER_LENGTH;
        (left, Some(left))
    }
}

impl DoubleEndedIterator for Answers<'_> {
    fn next_back(&mut self) -> Option<Self::Item> {
        let (rest, record) = self.records.split_last_chunk()?;
        self.records = rest;
        Some(read(record))
    }
}

impl ExactSizeIterator for Answers<'_> {}

impl FusedIterator for Answers<'_> {}

/// Shows the answers that are left.
impl fmt::Debug for Answers<'_> {
    fn fmt(&self, formatter: &mut fmt::Formatter<'_>) -> fmt::Result {
        formatter.debug_list().entries(self.clone()).finish()
    }
}

/// What a record holds. The goal stands in it only where there is a plan.
fn read(record: &[u8; ANSWER_LENGTH]) -> Result<(Search, &[u8]), Refusal> {
    let (refusal, status, goal, numbers) = match record {
        [0xFF, number, behind @ ..] => (*number, 0, NO_GOAL, behind.as_slice()),
        [0, goal, behind @ ..] => (0, 0, *goal, behind.as_slice()),
        [status, behind @ ..] => (0, *status, NO_GOAL, behind.as_slice()),
    };
    let number = |from: usize| numbers[from..from + 4].iter().fold(0, |number, &byte| number << 8 | u32::from(byte));
    let plan = Plan { steps: numbers[0].into(), cost: number(1), visits: number(5), goal };
    let told = answers::search(ffi::Search { refusal: refusal.into(), status: status.into(), plan })?;
    Ok((told, &record[ANSWER_LENGTH - PLAN_LENGTH..][..plan.steps]))
}
