//! The work of `crates/golvushem_bench` in plain Rust: `plain SUBJECT TASK`.

mod columns;
mod field;
mod rows;

fn work(subject: &str, task: &str) -> Option<u64> {
    match subject {
        "columns" => columns::work(task),
        "field" => field::work(task),
        "rows" => rows::work(task),
        _ => None,
    }
}

fn main() {
    let words: Vec<String> = std::env::args().skip(1).collect();
    if let [subject, task] = words.as_slice() {
        if let Some(number) = work(subject, task) {
            println!("{number}");
        }
    }
}
