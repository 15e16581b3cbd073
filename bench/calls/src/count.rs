//! Instructions of a call, by callgrind: it is told where to start, and to write a file where a batch ends.
use crate::rows::Row;
use crate::side::Side;
use crate::time::{batch, Lent, STATES};

/// Instructions of a call of the drive and of the model, for each row.
pub type Counts = Vec<[f64; 2]>;

/// Callgrind's requests, by the numbers of its C header: write what was counted to a file, and forget what was counted.
const DUMP: usize = 0x4354_0000;
const ZERO: usize = 0x4354_0001;

/// A request to valgrind: instructions that do nothing elsewhere.
fn request(number: usize) {
    let words = [number, 0, 0, 0, 0, 0];
    // SAFETY: the register that is turned round ends as it was; valgrind reads the six words
    #[cfg(target_arch = "aarch64")]
    unsafe {
        std::arch::asm!(
            "ror x12, x12, #3",
            "ror x12, x12, #13",
            "ror x12, x12, #51",
            "ror x12, x12, #61",
            "orr x10, x10, x10",
            in("x4") words.as_ptr(),
            inout("x3") 0usize => _,
        );
    }
    // SAFETY: the same
    #[cfg(target_arch = "x86_64")]
    unsafe {
        std::arch::asm!(
            "rol rdi, 3",
            "rol rdi, 13",
            "rol rdi, 61",
            "rol rdi, 51",
            "xchg rbx, rbx",
            in("rax") words.as_ptr(),
            inout("rdx") 0usize => _,
        );
    }
}

/// Four files for each row: the drive and then the model, each with no calls and then with those of a batch.
pub fn run(rows: &[Row]) {
    let mut lent = Lent::new();
    for row in rows {
        both(row, &row.from.drive, &mut lent);
        both(row, &row.from.model, &mut lent);
    }
}

fn both<S: Side>(row: &Row, from: &S, lent: &mut Lent) {
    batch(&mut vec![from.clone(); STATES], &row.call, row.rounds, lent);
    for rounds in [0, row.rounds] {
        let mut states = vec![from.clone(); STATES];
        request(ZERO);
        batch(&mut states, &row.call, rounds, lent);
        request(DUMP);
    }
}

/// The counts in the files of a folder.
pub fn read(rows: &[Row], folder: &str) -> Counts {
    let total = |n: usize| {
        let text = std::fs::read_to_string(format!("{folder}/counts.{n}")).expect("callgrind left a file for each batch");
        let line = text.lines().find_map(|l| l.strip_prefix("summary: ")).expect("it has a summary");
        line.trim().parse::<f64>().expect("a number")
    };
    let side = |i: usize, j: usize, row: &Row| {
        let first = 4 * i + 2 * j + 1;
        (total(first + 1) - total(first)) / (STATES * row.rounds) as f64
    };
    rows.iter().enumerate().map(|(i, row)| [side(i, 0, row), side(i, 1, row)]).collect()
}
