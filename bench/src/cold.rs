//! Cache lines flushed, so that a call finds nothing of its own in any cache.

use std::ops::Range;
use std::{env, fs};

/// The length of a cache line.
const LINE: usize = 64;

/// Flushes every line of these bytes.
pub fn flush(bytes: &[u8]) {
    let range = bytes.as_ptr_range();
    flush_lines(&(range.start as usize..range.end as usize));
}

/// Flushes the lines at these addresses, which can all be read, and waits until that is done.
#[cfg(target_arch = "x86_64")]
fn flush_lines(addresses: &Range<usize>) {
    use std::arch::x86_64::{_mm_clflush, _mm_mfence};
    let lines = (addresses.start / LINE * LINE..addresses.end).step_by(LINE);
    // Neither instruction changes what the memory holds.
    lines.for_each(|line| unsafe { _mm_clflush(line as *const u8) });
    unsafe { _mm_mfence() }
}

/// A program on another processor has nothing like it that is always there.
#[cfg(not(target_arch = "x86_64"))]
fn flush_lines(_addresses: &Range<usize>) {}

/// Where the program's own code, constants and variables lie.
pub struct Program(Vec<Range<usize>>);

impl Program {
    /// Of the program that runs, by the system's list of what is mapped: that stays as long as it runs.
    pub fn own() -> Program {
        let maps = fs::read_to_string("/proc/self/maps").unwrap_or_default();
        let name = env::current_exe().map(|path| path.to_string_lossy().into_owned()).unwrap_or_default();
        Program(maps.lines().filter_map(|line| mapped(line, &name)).collect())
    }

    /// Flushes it.
    pub fn flush(&self) {
        self.0.iter().for_each(flush_lines);
    }
}

/// The addresses in a line of the list, if they can be read and are of the file of this name.
fn mapped(line: &str, name: &str) -> Option<Range<usize>> {
    // Addresses, rights, three more words, and the name, in which there may be spaces.
    let mut words = line.splitn(6, ' ');
    let (ends, rights, file) = (words.next()?, words.next()?, words.nth(3)?);
    let (start, end) = ends.split_once('-')?;
    let address = |text| usize::from_str_radix(text, 16).ok();
    if rights.starts_with('r') && file.trim_start() == name { Some(address(start)?..address(end)?) } else { None }
}

#[cfg(test)]
mod tests {
    use super::{mapped, Program};

    #[test]
    fn the_program_that_runs_has_its_code_in_the_list() {
        let code = the_program_that_runs_has_its_code_in_the_list as fn() as usize;
        assert!(Program::own().0.iter().any(|addresses| addresses.contains(&code)));
    }

    #[test]
    fn lines_of_other_files_and_what_cannot_be_read_are_left_out() {
        let line = "7f00-7fff r-xp 00001000 08:01 42                    /a b/bench";
        assert_eq!(mapped(line, "/a b/bench"), Some(0x7f00..0x7fff));
        assert_eq!((mapped(line, "/a/bench"), mapped(&line.replace("r-x", "---"), "/a b/bench")), (None, None));
        assert_eq!(mapped("7f00-7fff rw-p 00000000 00:00 0", "/a b/bench"), None);
    }
}
