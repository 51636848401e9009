//! The memory of this process, as Linux tells it.

use std::fs;

/// The most memory that was ever resident, in kB.
pub fn peak() -> usize {
    let status = fs::read_to_string("/proc/self/status").expect("Linux has this file");
    let line = status.lines().find(|line| line.starts_with("VmHWM:"));
    let number = line.and_then(|line| line.split_whitespace().nth(1));
    let number = number.and_then(|number| number.parse().ok());
    number.expect("a line with the peak, in kB")
}
