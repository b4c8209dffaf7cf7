//! Buffers for results: as long as `echo_size` says, or where nothing tells the length, one that grows. So nobody meets refusal 10.

use crate::{Failure, look};
use smt_echo::{Problem, Refusal, echo_size};
use std::fs;

/// What writes the text of a problem.
pub type Writer = fn(&Problem<'_>, &mut [u8]) -> Result<usize, Refusal>;

pub fn refused(problem: &Problem<'_>, refusal: Refusal) -> Failure {
    Failure::Refused { refusal: refusal.to_string(), look: look::problem(problem, refusal) }
}

/// What makes a script shorter: a constant stands in it at each of its uses.
const SHORTER: &str = "fewer roots, or fewer uses of wide constants, make it shorter";

/// A text that has at most so many times the bytes of the plain script.
pub fn measured(problem: &Problem<'_>, times: usize, write: Writer) -> Result<Vec<u8>, Failure> {
    let script = echo_size(problem).map_err(|refusal| refused(problem, refusal))?.length;
    let length = times * script;
    let fits = available().is_none_or(|bytes| length <= bytes);
    let Some(mut text) = fits.then(|| buffer(length)).flatten() else {
        let what = match times {
            1 => format!("the script has {length} bytes"),
            _ => format!("the formulas may have up to {length} bytes, {times} times the script's length"),
        };
        return Err(Failure::NotDone(format!("{what}, more than memory allows; {SHORTER}, as `smt-echo size` tells")));
    };
    let length = write(problem, &mut text).map_err(|refusal| refused(problem, refusal))?;
    text.truncate(length);
    Ok(text)
}

/// A text of which nothing tells the length: the buffer is doubled until it is long enough, or has half of the memory that is left.
pub fn grown(problem: &Problem<'_>, write: Writer) -> Result<Vec<u8>, Failure> {
    let (mut length, mut tried) = (1 << 20, 0);
    loop {
        let fits = available().is_none_or(|bytes| length <= bytes / 2);
        let Some(mut text) = fits.then(|| buffer(length)).flatten() else {
            return Err(Failure::NotDone(format!("the script has more than {tried} bytes, more than memory allows; {SHORTER}")));
        };
        match write(problem, &mut text) {
            Ok(length) => {
                text.truncate(length);
                return Ok(text);
            }
            Err(Refusal::Room) => (length, tried) = (2 * length, length),
            Err(refusal) => return Err(refused(problem, refusal)),
        }
    }
}

fn buffer(length: usize) -> Option<Vec<u8>> {
    let mut buffer = Vec::new();
    buffer.try_reserve_exact(length).ok()?;
    buffer.resize(length, 0);
    Some(buffer)
}

/// So many zeros, if memory allows.
pub fn zeros(count: usize) -> Option<Vec<u64>> {
    let fits = available().is_none_or(|bytes| count.saturating_mul(8) <= bytes);
    let mut zeros = Vec::new();
    fits.then(|| zeros.try_reserve_exact(count).ok()).flatten()?;
    zeros.resize(count, 0);
    Some(zeros)
}

/// A vector without elements and with room for so many bytes, if memory allows.
pub fn empty(length: usize) -> Option<Vec<u8>> {
    let fits = available().is_none_or(|bytes| length <= bytes);
    let mut empty = Vec::new();
    fits.then(|| empty.try_reserve_exact(length).ok()).flatten()?;
    Some(empty)
}

/// The memory that is left, if the system tells: on the machine, and to the control group that is seen here, as in a container. It is asked
/// for, since Linux hands out more than there is.
fn available() -> Option<usize> {
    let read = |file: &str| fs::read_to_string(file).ok();
    let group = |folder: &str, most: &str, used: &str| {
        let [most, used, stat] = [most, used, "memory.stat"].map(|file| read(&format!("/sys/fs/cgroup/{folder}{file}")));
        of_group(&most?, &used?, &stat.unwrap_or_default())
    };
    let machine = read("/proc/meminfo").and_then(|told| of_machine(&told));
    let groups = [group("", "memory.max", "memory.current"), group("memory/", "memory.limit_in_bytes", "memory.usage_in_bytes")];
    groups.into_iter().chain([machine]).flatten().min()
}

/// What /proc/meminfo tells.
fn of_machine(told: &str) -> Option<usize> {
    let line = told.lines().find_map(|line| line.strip_prefix("MemAvailable:"))?;
    line.trim().strip_suffix(" kB")?.parse::<usize>().ok()?.checked_mul(1024)
}

/// What a control group's limit, of which `max` is none, leaves beside what is used. Pages of files count as used, and are given back.
fn of_group(most: &str, used: &str, stat: &str) -> Option<usize> {
    let number = |text: &str| text.trim().parse::<usize>().ok();
    let pages = |name: &str| stat.lines().find_map(|line| number(line.strip_prefix(name)?));
    let back = ["inactive_file ", "active_file "].into_iter().filter_map(pages).sum();
    Some(number(most)?.saturating_sub(number(used)?.saturating_sub(back)))
}

#[cfg(test)]
mod tests {
    use super::{of_group, of_machine};

    #[test]
    fn memory_of_the_machine() {
        assert_eq!(of_machine("MemTotal:       200 kB\nMemFree:         50 kB\nMemAvailable:    100 kB\n"), Some(102_400));
        for told in
            ["", "MemTotal: 200 kB\n", "MemAvailable: kB\n", "MemAvailable: 100 MB\n", "MemAvailable: 18446744073709551615 kB\n"]
        {
            assert_eq!(of_machine(told), None, "{told}");
        }
    }

    #[test]
    fn memory_of_a_control_group() {
        assert_eq!(of_group("1000\n", "400\n", ""), Some(600));
        assert_eq!(of_group("1000\n", "1000\n", "anon 300\ninactive_file 500\nactive_file 200\nworkingset_nodes 3\n"), Some(700));
        assert_eq!(of_group("1000\n", "400\n", "inactive_file 500\n"), Some(1_000));
        assert_eq!(of_group("1000\n", "1200\n", "total_active_file 500\n"), Some(0));
        assert_eq!(of_group("9223372036854771712\n", "9023639552\n", ""), Some(9_223_372_027_831_132_160));
        for (most, used) in [("max\n", "400\n"), ("1000\n", ""), ("", "400\n")] {
            assert_eq!(of_group(most, used, ""), None, "{most}{used}");
        }
    }
}
