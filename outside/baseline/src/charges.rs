//! The charge of each queue.

use crate::State;

/// The charges of DP1, DP2 and FP.
pub fn charges(state: &State) -> [u64; 3] {
    let [dp_block, dp_unblock, dp_select, dp_per_task, fp_block, fp_per_task, fp_unblock, fp_select, per_queue] = state.board.map(u64::from);
    let mut sizes = [0u64; 3];
    for task in state.tasks() {
        sizes[usize::from(task.queue) - 1] += 1;
    }
    let [q, dp2, fp] = sizes;
    let r = q + dp2;
    let k = sizes.iter().filter(|size| **size > 0).count() as u64;
    let m = q.max(dp2);
    let dp = |j: u64| dp_select + j * dp_per_task + k * per_queue;
    let fp_choice = fp_select + k * per_queue;
    let sums = [
        dp_block + dp(m) + dp_unblock + dp(q),
        dp_block + dp(r) + dp_unblock + dp(m),
        fp_block + fp * fp_per_task + fp_choice + fp_unblock + if r > 0 { dp(m) } else { fp_choice },
    ];
    sums.map(|sum| (3 * sum).div_ceil(2))
}
