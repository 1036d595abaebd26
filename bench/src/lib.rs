//! The yardsticks of `tickets`, `numbers` and `check_log`: the same programs in plain Rust, the first of them twice, and schedules and logs to run them
//! on; and a check of numbers. README.md says how.

pub mod expert;
pub mod generate;
pub mod logs;
pub mod numbers;
pub mod plain;
pub mod reports;
pub mod timing;
pub mod unbounded;

/// For tests: the steps that a station has taken on a fresh table, and what each of the steps 1 to 7 meets next, 0 if it is accepted.
pub const FOLLOWS: [(&[u64], [u64; 7]); 9] = [
    (&[], [0, 0, 4, 5, 6, 0, 15]),
    (&[1], [3, 3, 0, 5, 6, 3, 15]),
    (&[1, 3], [3, 3, 4, 0, 6, 3, 15]),
    (&[1, 3, 4], [3, 3, 4, 5, 0, 3, 15]),
    (&[1, 3, 4, 5], [0, 0, 4, 5, 6, 0, 15]),
    (&[2], [3, 3, 4, 5, 0, 3, 15]),
    (&[6], [14, 14, 4, 5, 6, 14, 0]),
    (&[1, 3, 4, 5, 2, 5, 6], [14, 14, 4, 5, 6, 14, 0]),
    (&[6, 7], [0, 0, 4, 5, 6, 0, 15]),
];
