//! `include/mikjuqan.h` in Rust, and each of its calls on slices.
//!
//! All unsafe code of the crate stands here. What makes it sound is always the same: a slice's pointer is not null and
//! its length is right, the library reads and writes nothing outside of the buffers that it is lent, a slice that is
//! written is borrowed alone, and nothing is kept when the call ends.

use crate::{Limits, Plan};

/// What stands for a goal where there is none.
pub const NO_GOAL: u8 = 255;

#[repr(C)]
pub struct Decision {
    pub refusal: u32,
    pub yes: u32,
}

#[repr(C)]
pub struct Length {
    pub refusal: u32,
    pub bytes: usize,
}

#[repr(C)]
pub struct Entry {
    pub refusal: u32,
    pub entry: u32,
}

#[repr(C)]
pub struct Goal {
    pub refusal: u32,
    pub goal: u8,
}

#[repr(C)]
pub struct RunEnd {
    pub steps: usize,
    pub cost: u32,
    pub goal: u8,
}

#[repr(C)]
pub struct Replay {
    pub refusal: u32,
    pub stuck: u32,
    pub end: RunEnd,
}

#[repr(C)]
pub struct Search {
    pub refusal: u32,
    pub status: u32,
    pub plan: Plan,
}

mod c {
    use super::{Decision, Entry, Goal, Length, Limits, Replay, Search};

    extern "C" {
        pub fn mikjuqan_read_exercise(text: *const u8, text_length: usize, out: *mut u8, out_length: usize) -> Length;

        pub fn mikjuqan_check_block(block: *const u8, block_length: usize) -> u32;

        pub fn mikjuqan_relabel_block(block: *const u8, block_length: usize, out: *mut u8, out_length: usize)
            -> Length;

        pub fn mikjuqan_apply_rule(
            block: *const u8,
            block_length: usize,
            rule: usize,
            state: *const u8,
            state_length: usize,
            out: *mut u8,
            out_length: usize,
        ) -> Decision;

        pub fn mikjuqan_test_goals(
            block: *const u8,
            block_length: usize,
            state: *const u8,
            state_length: usize,
        ) -> Goal;

        pub fn mikjuqan_first_predecessor(
            block: *const u8,
            block_length: usize,
            rule: usize,
            state: *const u8,
            state_length: usize,
            out: *mut u8,
            out_length: usize,
        ) -> Decision;

        pub fn mikjuqan_next_predecessor(
            block: *const u8,
            block_length: usize,
            rule: usize,
            state: *const u8,
            state_length: usize,
            earlier: *const u8,
            earlier_length: usize,
            out: *mut u8,
            out_length: usize,
        ) -> Decision;

        pub fn mikjuqan_test_reversible(block: *const u8, block_length: usize, rule: usize) -> Decision;

        pub fn mikjuqan_replay_run(
            block: *const u8,
            block_length: usize,
            start: *const u8,
            start_length: usize,
            list: *const u8,
            list_length: usize,
            out: *mut u8,
            out_length: usize,
        ) -> Replay;

        pub fn mikjuqan_fill_table(
            block: *const u8,
            block_length: usize,
            maps: *const u8,
            maps_length: usize,
            table: *mut u32,
            table_length: usize,
        ) -> u32;

        pub fn mikjuqan_test_table(
            block: *const u8,
            block_length: usize,
            maps: *const u8,
            maps_length: usize,
            table: *const u32,
            table_length: usize,
        ) -> Decision;

        pub fn mikjuqan_look_up_estimate(
            block: *const u8,
            block_length: usize,
            maps: *const u8,
            maps_length: usize,
            state: *const u8,
            state_length: usize,
            table: *const u32,
            table_length: usize,
        ) -> Entry;

        pub fn mikjuqan_find_plan(
            block: *const u8,
            block_length: usize,
            maps: *const u8,
            maps_length: usize,
            start: *const u8,
            start_length: usize,
            limits: Limits,
            table: *const u32,
            table_length: usize,
            plan: *mut u8,
            plan_length: usize,
        ) -> Search;

        pub fn mikjuqan_find_plans(
            block: *const u8,
            block_length: usize,
            maps: *const u8,
            maps_length: usize,
            queries: *const u8,
            queries_length: usize,
            table: *const u32,
            table_length: usize,
            answers: *mut u8,
            answers_length: usize,
        ) -> Length;
    }
}

pub fn read_exercise(text: &[u8], out: &mut [u8]) -> Length {
    unsafe { c::mikjuqan_read_exercise(text.as_ptr(), text.len(), out.as_mut_ptr(), out.len()) }
}

pub fn check_block(block: &[u8]) -> u32 {
    unsafe { c::mikjuqan_check_block(block.as_ptr(), block.len()) }
}

pub fn relabel_block(block: &[u8], out: &mut [u8]) -> Length {
    unsafe { c::mikjuqan_relabel_block(block.as_ptr(), block.len(), out.as_mut_ptr(), out.len()) }
}

pub fn apply_rule(block: &[u8], rule: usize, state: &[u8], out: &mut [u8]) -> Decision {
    unsafe {
        c::mikjuqan_apply_rule(
            block.as_ptr(),
            block.len(),
            rule,
            state.as_ptr(),
            state.len(),
            out.as_mut_ptr(),
            out.len(),
        )
    }
}

pub fn test_goals(block: &[u8], state: &[u8]) -> Goal {
    unsafe { c::mikjuqan_test_goals(block.as_ptr(), block.len(), state.as_ptr(), state.len()) }
}

pub fn first_predecessor(block: &[u8], rule: usize, state: &[u8], out: &mut [u8]) -> Decision {
    unsafe {
        c::mikjuqan_first_predecessor(
            block.as_ptr(),
            block.len(),
            rule,
            state.as_ptr(),
            state.len(),
            out.as_mut_ptr(),
            out.len(),
        )
    }
}

pub fn next_predecessor(block: &[u8], rule: usize, state: &[u8], earlier: &[u8], out: &mut [u8]) -> Decision {
    unsafe {
        c::mikjuqan_next_predecessor(
            block.as_ptr(),
            block.len(),
            rule,
            state.as_ptr(),
            state.len(),
            earlier.as_ptr(),
            earlier.len(),
            out.as_mut_ptr(),
            out.len(),
        )
    }
}

pub fn test_reversible(block: &[u8], rule: usize) -> Decision {
    unsafe { c::mikjuqan_test_reversible(block.as_ptr(), block.len(), rule) }
}

pub fn replay_run(block: &[u8], start: &[u8], list: &[u8], out: &mut [u8]) -> Replay {
    unsafe {
        c::mikjuqan_replay_run(
            block.as_ptr(),
            block.len(),
            start.as_ptr(),
            start.len(),
            list.as_ptr(),
            list.len(),
            out.as_mut_ptr(),
            out.len(),
        )
    }
}

pub fn fill_table(block: &[u8], maps: &[u8], table: &mut [u32]) -> u32 {
    unsafe {
        c::mikjuqan_fill_table(block.as_ptr(), block.len(), maps.as_ptr(), maps.len(), table.as_mut_ptr(), table.len())
    }
}

pub fn test_table(block: &[u8], maps: &[u8], table: &[u32]) -> Decision {
    unsafe {
        c::mikjuqan_test_table(block.as_ptr(), block.len(), maps.as_ptr(), maps.len(), table.as_ptr(), table.len())
    }
}

pub fn look_up_estimate(block: &[u8], maps: &[u8], state: &[u8], table: &[u32]) -> Entry {
    unsafe {
        c::mikjuqan_look_up_estimate(
            block.as_ptr(),
            block.len(),
            maps.as_ptr(),
            maps.len(),
            state.as_ptr(),
            state.len(),
            table.as_ptr(),
            table.len(),
        )
    }
}

pub fn find_plan(block: &[u8], maps: &[u8], start: &[u8], limits: Limits, table: &[u32], plan: &mut [u8]) -> Search {
    unsafe {
        c::mikjuqan_find_plan(
            block.as_ptr(),
            block.len(),
            maps.as_ptr(),
            maps.len(),
            start.as_ptr(),
            start.len(),
            limits,
            table.as_ptr(),
            table.len(),
            plan.as_mut_ptr(),
            plan.len(),
        )
    }
}

pub fn find_plans(block: &[u8], maps: &[u8], queries: &[u8], table: &[u32], answers: &mut [u8]) -> Length {
    unsafe {
        c::mikjuqan_find_plans(
            block.as_ptr(),
            block.len(),
            maps.as_ptr(),
            maps.len(),
            queries.as_ptr(),
            queries.len(),
            table.as_ptr(),
            table.len(),
            answers.as_mut_ptr(),
            answers.len(),
        )
    }
}
