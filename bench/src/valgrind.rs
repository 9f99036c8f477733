//! Instructions counted by callgrind, in a program that it runs: it is asked for dumps of its counts, which are read.

use std::fs;

/// Whether valgrind runs the program, and a dump of callgrind's counts, by the numbers of valgrind.h and callgrind.h.
const RUNNING: u64 = 0x1001;
const DUMP: u64 = 0x4354_0000;

/// Asks valgrind for something by the sequence of valgrind.h, which does nothing where valgrind isn't there.
#[cfg(target_arch = "x86_64")]
fn ask(request: u64) -> u64 {
    let arguments = [request, 0, 0, 0, 0, 0];
    let mut answer = 0;
    // The turns of the register add up to two whole ones, and the exchange is of a register with itself.
    unsafe {
        std::arch::asm!(
            "rol rdi, 3", "rol rdi, 13", "rol rdi, 61", "rol rdi, 51", "xchg rbx, rbx",
            in("rax") &arguments, inout("rdx") answer, options(nostack)
        );
    }
    answer
}

/// The sequence is another one on other processors.
#[cfg(not(target_arch = "x86_64"))]
fn ask(_request: u64) -> u64 {
    0
}

/// The counts of callgrind, which writes its dumps to files of this name with a number.
pub struct Callgrind {
    file: String,
    dumps: u32,
}

impl Callgrind {
    /// Callgrind, if it is there and writes to this file.
    pub fn there(file: &str) -> Option<Callgrind> {
        (ask(RUNNING) != 0).then(|| Callgrind { file: file.into(), dumps: 0 })
    }

    /// The instructions that were counted while this ran.
    pub fn count(&mut self, run: impl FnOnce()) -> u64 {
        self.dump();
        run();
        self.dump()
    }

    /// The instructions that were counted since the dump before.
    fn dump(&mut self) -> u64 {
        ask(DUMP);
        self.dumps += 1;
        let name = format!("{}.{}", self.file, self.dumps);
        let dump = fs::read_to_string(&name).unwrap_or_else(|error| panic!("no dump {name}: {error}"));
        fs::remove_file(&name).expect("the dump can be removed");
        total(&dump).expect("a dump has a total")
    }
}

/// The number in a dump's line of totals.
fn total(dump: &str) -> Option<u64> {
    dump.lines().find_map(|line| line.strip_prefix("totals:"))?.trim().parse().ok()
}

#[cfg(test)]
mod tests {
    #[test]
    fn the_total_of_a_dump() {
        assert_eq!(super::total("version: 1\nsummary: 7\nfn=(1) tob_send\n0 7\ntotals: 1234\n"), Some(1234));
        assert_eq!(super::total("summary: 7\n"), None);
    }
}
