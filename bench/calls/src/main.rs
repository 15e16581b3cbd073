//! The drive's calls timed beside those of the independent model and beside memcpy, in one table.
//! Words: `table [FOLDER]`, with instruction counts from callgrind's files there; `count`, which runs under callgrind and makes these;
//! `spin ROW BATCHES`, one row of the drive alone, for bench/shares.
#[path = "../../../tests/model/src/command.rs"]
mod command;
mod count;
#[path = "../../../tests/model/src/rules.rs"]
#[allow(dead_code)]
mod counted;
#[path = "../../../tests/model/src/drive.rs"]
#[allow(dead_code)]
mod drive;
#[path = "../../../tests/model/src/formed.rs"]
mod formed;
#[path = "../../../tests/model/src/frame.rs"]
mod frame;
#[path = "../../../tests/model/src/link.rs"]
#[allow(dead_code)]
mod link;
#[path = "../../../tests/model/src/next.rs"]
mod next;
mod rows;
mod rule;
#[path = "quiet.rs"]
mod rules;
mod scene;
mod seen;
#[path = "../../../tests/model/src/setup.rs"]
#[allow(dead_code)]
mod setup;
mod side;
mod table;
mod time;
#[path = "../../../tests/model/src/write.rs"]
mod write;

use time::{Lent, Timed};

fn main() {
    let words: Vec<String> = std::env::args().skip(1).collect();
    let words: Vec<&str> = words.iter().map(String::as_str).collect();
    let rows = rows::rows();
    rows.iter().for_each(rows::Row::check);
    match words[..] {
        ["table"] => table::print(&rows, None),
        ["table", folder] => table::print(&rows, Some(count::read(&rows, folder))),
        ["count"] => count::run(&rows),
        ["spin", name, batches] => spin(&rows, name, batches.parse().expect("BATCHES is a number")),
        _ => panic!("words: table [FOLDER], count, or spin ROW BATCHES"),
    }
}

/// Prints the nanoseconds of a call.
fn spin(rows: &[rows::Row], name: &str, batches: usize) {
    let row = rows.iter().find(|r| r.name == name).expect("no such row");
    let mut drive = Timed::new(&row.from.drive);
    let mut lent = Lent::new();
    (0..batches).for_each(|_| drive.run(row, &mut lent));
    println!("{}", time::least(&drive.times));
}
