//! The calls on a block.

use crate::answers;
use crate::ffi;
use crate::refusal::accepted;
use crate::{Answers, Limits, Refusal, Replay, Search};

/// An exercise, told by its block. It has a method for each call on a block.
///
/// Any bytes may be the block: each call looks at them, and refuses a block that is no exercise. The numbers by which
/// a call is refused are those of [`Refusal::number`].
///
/// ```
/// use mikjuqan::{Exercise, Refusal};
///
/// let block = [
///     2, 2, 2, 2, 1, // two positions, two labels, two abstract labels, two rules, one goal
///     0, 1, // the map: each label is its own abstract label
///     3, 0x10, 0x11, 0x11, 0x10, // rule 0 exchanges both labels, at cost 3
///     1, 0x00, 0xFF, 0x01, 0xFF, // rule 1 makes a 0 at position 0 a 1, at cost 1
///     1, 1, // the goal
/// ];
/// let exercise = Exercise::new(&block);
/// assert_eq!(exercise.test_goals(&[1, 1]), Ok(Some(0)));
/// assert_eq!(Exercise::new(&block[..18]).test_goals(&[1, 1]), Err(Refusal::Length));
/// ```
#[derive(Clone, Copy, Debug)]
pub struct Exercise<'a> {
    block: &'a [u8],
    maps: &'a [u8],
}

impl<'a> Exercise<'a> {
    /// The exercise that a block describes. Nothing is looked at yet.
    ///
    /// ```
    /// use mikjuqan::{Exercise, Refusal};
    ///
    /// let nothing = Exercise::new(&[]);
    /// assert_eq!(nothing.check_block(), Err(Refusal::Head));
    /// ```
    pub const fn new(block: &'a [u8]) -> Exercise<'a> {
        Exercise { block, maps: &[] }
    }

    /// The same exercise with further maps, up to three beside the block's own, in the place of those it had. Nothing
    /// is looked at yet.
    ///
    /// A further map is a byte, its own number of abstract labels K, and a byte below that for each label; the next
    /// one stands directly behind. Each map has a table. In the table that is handed to [`fill_table`],
    /// [`test_table`], [`look_up_estimate`], [`find_plan`] and [`find_plans`] that of the block's own map stands first,
    /// and those of the further maps behind it, in their order. All together have at most
    /// [`TABLE_LENGTH`](crate::TABLE_LENGTH) entries. The estimate of a state is the largest of its entries, of which
    /// [`NO_PATH`](crate::NO_PATH) is above all. The other calls do not look at further maps.
    ///
    /// ```
    /// use mikjuqan::{Exercise, Refusal};
    ///
    /// // One position, three labels; rule 0 leads from 0 to 1 at cost 4, rule 1 from 1 to 2 at cost 3; goal 2. The
    /// // block's own map makes one of 0 and 1, the first further map of 1 and 2, the second has three abstract labels.
    /// let block = [1, 3, 2, 2, 1, 0, 0, 1, 4, 0, 1, 3, 1, 2, 2];
    /// let maps = [2, 0, 1, 1, 3, 0, 1, 2];
    /// let one = Exercise::new(&block);
    /// let three = one.with_maps(&maps);
    /// let mut table = [9; 8];
    /// assert_eq!(one.fill_table(&mut table), Ok(()));
    /// assert_eq!(table, [3, 0, 9, 9, 9, 9, 9, 9]);
    /// assert_eq!(three.fill_table(&mut table), Ok(()));
    /// assert_eq!(table, [3, 0, 4, 0, 7, 3, 0, 9]);
    /// assert_eq!(one.look_up_estimate(&[0], &table), Ok(Some(3)));
    /// assert_eq!(one.with_maps(&maps[..4]).look_up_estimate(&[0], &table), Ok(Some(4)));
    /// assert_eq!(three.look_up_estimate(&[0], &table), Ok(Some(7)));
    ///
    /// // What is wrong with further maps is told by the calls that take them.
    /// assert_eq!(one.with_maps(&maps[..7]).test_table(&table), Err(Refusal::Maps));
    /// assert_eq!(one.with_maps(&[2, 0, 1, 2]).test_table(&table), Err(Refusal::MapRange));
    /// assert_eq!(one.with_maps(&[2, 0, 1, 2]).check_block(), Ok(()));
    /// ```
    ///
    /// [`fill_table`]: Exercise::fill_table
    /// [`test_table`]: Exercise::test_table
    /// [`look_up_estimate`]: Exercise::look_up_estimate
    /// [`find_plan`]: Exercise::find_plan
    /// [`find_plans`]: Exercise::find_plans
    pub const fn with_maps(self, maps: &'a [u8]) -> Exercise<'a> {
        Exercise { block: self.block, maps }
    }

    /// The block.
    ///
    /// ```
    /// let block = [1, 2, 1, 0, 1, 0, 0, 1];
    /// assert_eq!(mikjuqan::Exercise::new(&block).block(), [1, 2, 1, 0, 1, 0, 0, 1]);
    /// ```
    pub const fn block(self) -> &'a [u8] {
        self.block
    }

    /// The further maps.
    ///
    /// ```
    /// let exercise = mikjuqan::Exercise::new(&[1, 2, 1, 0, 1, 0, 0, 1]);
    /// assert_eq!(exercise.maps(), []);
    /// assert_eq!(exercise.with_maps(&[2, 0, 1]).maps(), [2, 0, 1]);
    /// ```
    pub const fn maps(self) -> &'a [u8] {
        self.maps
    }

    /// Whether the block is accepted.
    ///
    /// Refused with 3 to 7.
    ///
    /// ```
    /// use mikjuqan::{Exercise, Refusal};
    ///
    /// // One position, two labels, one abstract label, no rule; the map; goal 1.
    /// let mut block = [1, 2, 1, 0, 1, 0, 0, 1];
    /// assert_eq!(Exercise::new(&block).check_block(), Ok(()));
    ///
    /// // There is no label 2.
    /// block[7] = 2;
    /// assert_eq!(Exercise::new(&block).check_block(), Err(Refusal::Term));
    /// ```
    pub fn check_block(self) -> Result<(), Refusal> {
        accepted(ffi::check_block(self.block))
    }

    /// Writes the relabelled block, in which every label has become its abstract label, and tells its length.
    ///
    /// Refused with 3 to 7, 11.
    ///
    /// ```
    /// // One position, three labels, two abstract labels: 1 and 2 count as one. A rule from 2 to 0 at cost 4; goal 1.
    /// let block = [1, 3, 2, 1, 1, 0, 1, 1, 4, 2, 0, 1];
    /// let mut out = [0xFF; 12];
    /// assert_eq!(mikjuqan::Exercise::new(&block).relabel_block(&mut out), Ok(11));
    /// assert_eq!(out, [1, 2, 2, 1, 1, 0, 1, 4, 1, 0, 1, 0xFF]);
    /// ```
    pub fn relabel_block(self, out: &mut [u8]) -> Result<usize, Refusal> {
        answers::length(ffi::relabel_block(self.block, out))
    }

    /// Tells whether a rule is reversible by form.
    ///
    /// Refused with 3 to 7, 9.
    ///
    /// ```
    /// use mikjuqan::{Exercise, Refusal};
    ///
    /// // One position, two labels. Rule 0 makes a 0 a 1; rule 1 makes any label a 1, and what it was is lost.
    /// let block = [1, 2, 1, 2, 1, 0, 0, 4, 0, 1, 4, 0xFF, 1, 1];
    /// let exercise = Exercise::new(&block);
    /// assert_eq!(exercise.test_reversible(0), Ok(true));
    /// assert_eq!(exercise.test_reversible(1), Ok(false));
    /// assert_eq!(exercise.test_reversible(2), Err(Refusal::Rule));
    /// ```
    pub fn test_reversible(self, rule: usize) -> Result<bool, Refusal> {
        answers::decision(ffi::test_reversible(self.block, rule))
    }

    /// The goal that a state meets, the lowest number where it meets several; `None` where it meets none. Goals have
    /// numbers from 0 on, in the order in which they stand in the block.
    ///
    /// Refused with 3 to 7, 8.
    ///
    /// ```
    /// use mikjuqan::{Exercise, Refusal};
    ///
    /// // Two positions, three labels, no rule; goal 0 asks for the same label twice, goal 1 for a 2 at position 0.
    /// let block = [2, 3, 1, 0, 2, 0, 0, 0, 0x10, 0x10, 2, 0xFF];
    /// let exercise = Exercise::new(&block);
    /// assert_eq!(exercise.test_goals(&[2, 1]), Ok(Some(1)));
    /// assert_eq!(exercise.test_goals(&[2, 2]), Ok(Some(0)));
    /// assert_eq!(exercise.test_goals(&[1, 2]), Ok(None));
    /// assert_eq!(exercise.test_goals(&[2]), Err(Refusal::State));
    /// ```
    pub fn test_goals(self, state: &[u8]) -> Result<Option<u8>, Refusal> {
        answers::goal(ffi::test_goals(self.block, state))
    }

    /// Tells whether a rule applies in a state, and writes the new state if so.
    ///
    /// Refused with 3 to 7, 8, 9, 11.
    ///
    /// ```
    /// // Two positions, three labels; a rule moves a label from position 0 to position 1, where 0 must stand.
    /// let block = [2, 3, 1, 1, 1, 0, 0, 0, 1, 0x10, 0, 0, 0x10, 0, 1];
    /// let exercise = mikjuqan::Exercise::new(&block);
    /// let mut out = [9; 2];
    /// assert_eq!(exercise.apply_rule(0, &[2, 1], &mut out), Ok(false));
    /// assert_eq!(out, [9, 9]);
    /// assert_eq!(exercise.apply_rule(0, &[2, 0], &mut out), Ok(true));
    /// assert_eq!(out, [0, 2]);
    /// ```
    pub fn apply_rule(self, rule: usize, state: &[u8], out: &mut [u8]) -> Result<bool, Refusal> {
        answers::decision(ffi::apply_rule(self.block, rule, state, out))
    }

    /// Tells whether a rule takes some state to `state`, and writes the first such state in rank order.
    ///
    /// Refused with 3 to 7, 8, 9, 11.
    ///
    /// ```
    /// // Two positions, three labels; rule <-, 2> to <0, 1> at cost 1; goal <0, 1>.
    /// let block = [2, 3, 1, 1, 1, 0, 0, 0, 1, 0xFF, 2, 0, 1, 0, 1];
    /// let exercise = mikjuqan::Exercise::new(&block);
    /// let mut out = [9; 2];
    /// assert_eq!(exercise.first_predecessor(0, &[1, 1], &mut out), Ok(false));
    /// assert_eq!(out, [9, 9]);
    /// assert_eq!(exercise.first_predecessor(0, &[0, 1], &mut out), Ok(true));
    /// assert_eq!(out, [0, 2]);
    /// ```
    pub fn first_predecessor(self, rule: usize, state: &[u8], out: &mut [u8]) -> Result<bool, Refusal> {
        answers::decision(ffi::first_predecessor(self.block, rule, state, out))
    }

    /// The same for the next one after `earlier`, which may be any state.
    ///
    /// Refused with 3 to 7, 8 (for both states), 9, 11. This walks through all states that a rule takes to `<0, 1>`:
    ///
    /// ```
    /// // Two positions, three labels; rule <-, 2> to <0, 1> at cost 1; goal <0, 1>.
    /// let block = [2, 3, 1, 1, 1, 0, 0, 0, 1, 0xFF, 2, 0, 1, 0, 1];
    /// let exercise = mikjuqan::Exercise::new(&block);
    /// let mut found = [[9; 2]; 3];
    /// let mut earlier = [9; 2];
    /// let mut more = exercise.first_predecessor(0, &[0, 1], &mut earlier)?;
    /// for state in &mut found {
    ///     assert!(more);
    ///     *state = earlier;
    ///     more = exercise.next_predecessor(0, &[0, 1], state, &mut earlier)?;
    /// }
    /// assert!(!more);
    /// assert_eq!(found, [[0, 2], [1, 2], [2, 2]]);
    /// # Ok::<(), mikjuqan::Refusal>(())
    /// ```
    pub fn next_predecessor(self, rule: usize, state: &[u8], earlier: &[u8], out: &mut [u8]) -> Result<bool, Refusal> {
        answers::decision(ffi::next_predecessor(self.block, rule, state, earlier, out))
    }

    /// Applies a list of rules, one number a byte, from a start on, and writes the state where that ends.
    ///
    /// Refused with 3 to 7, 8, 9, 10, 11; with 9 also for a number behind a rule that is stuck.
    ///
    /// ```
    /// use mikjuqan::{Exercise, Replay};
    ///
    /// // Two positions, two labels. Rule 0 exchanges them at cost 3, rule 1 makes <0, -> to <1, -> at cost 1; goal
    /// // <1, 1>.
    /// let block = [2, 2, 1, 2, 1, 0, 0, 3, 0x10, 0x11, 0x11, 0x10, 1, 0, 0xFF, 1, 0xFF, 1, 1];
    /// let exercise = Exercise::new(&block);
    /// let mut out = [9; 2];
    /// let Replay::Done(end) = exercise.replay_run(&[0, 0], &[1, 0, 1], &mut out)? else {
    ///     panic!("every rule applies");
    /// };
    /// assert_eq!((end.steps, end.cost, end.goal, out), (3, 5, Some(0), [1, 1]));
    ///
    /// // Rule 1 does not apply in <1, 0>.
    /// let Replay::Stuck(end) = exercise.replay_run(&[0, 0], &[1, 1, 0], &mut out)? else {
    ///     panic!("the second rule does not apply");
    /// };
    /// assert_eq!((end.steps, end.cost, out), (1, 1, [1, 0]));
    /// # Ok::<(), mikjuqan::Refusal>(())
    /// ```
    pub fn replay_run(self, start: &[u8], list: &[u8], out: &mut [u8]) -> Result<Replay, Refusal> {
        answers::replay(ffi::replay_run(self.block, start, list, out))
    }

    /// Fills the front of a table: for each abstract state the least cost from it to a goal, or
    /// [`NO_PATH`](crate::NO_PATH). With further maps all tables are filled, one behind the other.
    ///
    /// Refused with 3 to 7, 14, 15, 12. Needs at most 235 KiB of stack.
    ///
    /// ```
    /// use mikjuqan::{Exercise, NO_PATH};
    ///
    /// // One position, three labels, each its own abstract label; rule <0> to <1> at cost 4; goal <1>.
    /// let block = [1, 3, 3, 1, 1, 0, 1, 2, 4, 0, 1, 1];
    /// let mut table = [7; 4];
    /// assert_eq!(Exercise::new(&block).fill_table(&mut table), Ok(()));
    /// assert_eq!(table, [4, 0, NO_PATH, 7]);
    /// ```
    pub fn fill_table(self, table: &mut [u32]) -> Result<(), Refusal> {
        accepted(ffi::fill_table(self.block, self.maps, table))
    }

    /// Tells whether a table passes the lower-bound test. With further maps each table is tested under its own map,
    /// and all must pass.
    ///
    /// Refused with 3 to 7, 14, 15, 12. Needs at most 96 KiB of stack.
    ///
    /// ```
    /// use mikjuqan::{Exercise, Refusal};
    ///
    /// // One position, two labels, each its own abstract label; rule <0> to <1> at cost 4; goal <1>.
    /// let block = [1, 2, 2, 1, 1, 0, 1, 4, 0, 1, 1];
    /// let exercise = Exercise::new(&block);
    /// assert_eq!(exercise.test_table(&[4, 0]), Ok(true));
    /// assert_eq!(exercise.test_table(&[3, 0]), Ok(true));
    /// assert_eq!(exercise.test_table(&[5, 0]), Ok(false));
    /// assert_eq!(exercise.test_table(&[4]), Err(Refusal::TableShort));
    /// ```
    pub fn test_table(self, table: &[u32]) -> Result<bool, Refusal> {
        answers::decision(ffi::test_table(self.block, self.maps, table))
    }

    /// The estimate of a state, `None` for [`NO_PATH`](crate::NO_PATH). With further maps it is the largest of its
    /// entries, and `None` where one of them is [`NO_PATH`](crate::NO_PATH). The table is not tested.
    ///
    /// Refused with 3 to 7, 14, 15, 8, 12.
    ///
    /// ```
    /// use mikjuqan::{Exercise, NO_PATH};
    ///
    /// // One position, three labels, two abstract labels: 1 and 2 count as one. No rule; goal 1.
    /// let block = [1, 3, 2, 0, 1, 0, 1, 1, 1];
    /// let exercise = Exercise::new(&block);
    /// assert_eq!(exercise.look_up_estimate(&[2], &[NO_PATH, 6]), Ok(Some(6)));
    /// assert_eq!(exercise.look_up_estimate(&[0], &[NO_PATH, 6]), Ok(None));
    /// ```
    pub fn look_up_estimate(self, state: &[u8], table: &[u32]) -> Result<Option<u32>, Refusal> {
        answers::estimate(ffi::look_up_estimate(self.block, self.maps, state, table))
    }

    /// Finds a cheapest plan from a start within the limits, and writes it, one rule number a byte.
    ///
    /// Any table that passes the lower-bound test gives the same plan, and so do tables for further maps; how many
    /// visits it takes depends on the tables. Refused with 3 to 7, 14, 15, 8, 10, 11, 12, 13. Needs at most 320 KiB of
    /// stack.
    ///
    /// ```
    /// use mikjuqan::{Exercise, Limits, Search};
    ///
    /// // One position, three labels, one abstract label. Rule 0 leads from 0 to 1 at cost 4, rule 1 from 1 to 2 at
    /// // cost 2, rule 2 from 0 to 2 at cost 7; goal 2.
    /// let block = [1, 3, 1, 3, 1, 0, 0, 0, 4, 0, 1, 2, 1, 2, 7, 0, 2, 2];
    /// let exercise = Exercise::new(&block);
    /// let limits = Limits { steps: 3, cost: 100, visits: 100 };
    /// let mut plan = [9; 3];
    /// let Search::Found(found) = exercise.find_plan(&[0], limits, &[0], &mut plan)? else {
    ///     panic!("there is a plan");
    /// };
    /// assert_eq!((found.steps, found.cost, found.goal, plan), (2, 6, 0, [0, 1, 9]));
    ///
    /// // With one rule alone the cheapest plan is another.
    /// let limits = Limits { steps: 1, ..limits };
    /// let Search::Found(found) = exercise.find_plan(&[0], limits, &[0], &mut plan)? else {
    ///     panic!("there is a plan");
    /// };
    /// assert_eq!((found.steps, found.cost, plan), (1, 7, [2, 1, 9]));
    ///
    /// // There is none at cost 5, and two visits are not enough to know that.
    /// let limits = Limits { cost: 5, ..limits };
    /// assert_eq!(exercise.find_plan(&[0], limits, &[0], &mut plan)?, Search::NoPlan { visits: 3 });
    /// let limits = Limits { visits: 2, ..limits };
    /// assert_eq!(exercise.find_plan(&[0], limits, &[0], &mut plan)?, Search::Spent { visits: 2 });
    /// # Ok::<(), mikjuqan::Refusal>(())
    /// ```
    pub fn find_plan(self, start: &[u8], limits: Limits, table: &[u32], plan: &mut [u8]) -> Result<Search, Refusal> {
        answers::search(ffi::find_plan(self.block, self.maps, start, limits, table, plan))
    }

    /// Answers many queries by one table, each with what [`find_plan`](Exercise::find_plan) tells and with its plan.
    ///
    /// A query record is a start and the [bytes of its limits](Limits::to_bytes). Up to [`QUERIES`](crate::QUERIES) of
    /// them stand back to back, and for each an answer record of [`ANSWER_LENGTH`](crate::ANSWER_LENGTH) bytes is
    /// written: those that the program `par` prints for this query, and zeros behind them. [`Answers`] reads them. A
    /// record whose start is no state (8), or whose step limit is over 64 (10), is refused by itself, and the others go
    /// on.
    ///
    /// The call itself is refused with 3 to 7, 14, 15, 16, 12, 13. Needs at most 320 KiB of stack.
    ///
    /// ```
    /// use mikjuqan::{Exercise, Limits, Refusal, Search, ANSWER_LENGTH};
    ///
    /// // One position, three labels, one abstract label. Rule 0 leads from 0 to 1 at cost 4, rule 1 from 1 to 2 at
    /// // cost 2; goal 2.
    /// let block = [1, 3, 1, 2, 1, 0, 0, 0, 4, 0, 1, 2, 1, 2, 2];
    /// let exercise = Exercise::new(&block);
    /// let limits = Limits { steps: 64, cost: 100, visits: 100 };
    /// let mut queries = Vec::new();
    /// for (start, limits) in [(0, limits), (1, limits), (1, Limits { visits: 2, ..limits }), (3, limits)] {
    ///     queries.push(start);
    ///     queries.extend(limits.to_bytes());
    /// }
    /// let mut room = [9; 4 * ANSWER_LENGTH];
    /// let mut plans = Vec::new();
    /// for answer in exercise.find_plans(&queries, &[0], &mut room)? {
    ///     plans.push(match answer {
    ///         Ok((Search::Found(found), rules)) => format!("{rules:?} at cost {}", found.cost),
    ///         Ok((Search::NoPlan { .. }, _)) => "none".to_string(),
    ///         Ok((other, _)) => format!("{other:?}"),
    ///         Err(refusal) => refusal.number().to_string(),
    ///     });
    /// }
    /// assert_eq!(plans, ["[0, 1] at cost 6", "[1] at cost 2", "Spent { visits: 2 }", "8"]);
    ///
    /// // The bytes of the second answer: found, goal 0, one step, cost 2, 3 visits, rule 1, and zeros.
    /// assert_eq!(room[ANSWER_LENGTH..][..13], [0, 0, 1, 0, 0, 0, 2, 0, 0, 0, 3, 1, 0]);
    ///
    /// // Ten bytes are a query here.
    /// assert_eq!(exercise.find_plans(&queries[..25], &[0], &mut room).err(), Some(Refusal::Records));
    /// # Ok::<(), Refusal>(())
    /// ```
    pub fn find_plans<'b>(self, queries: &[u8], table: &[u32], answers: &'b mut [u8]) -> Result<Answers<'b>, Refusal> {
        let written = answers::length(ffi::find_plans(self.block, self.maps, queries, table, answers))?;
        Ok(Answers::new(&answers[..written]))
    }
}
