//! The recorder's exported calls against a plain Rust implementation that does the same checks on the same bytes: first that
//! both give equal answers and equal bytes, the arrangement of the heap apart, then ns per step of both, with their ratio, and the stack of the library's calls.
//! bench/run builds and runs it, and has callgrind count the instructions of a step.

mod compare;
mod stack;
mod timing;

fn main() {
    // For callgrind: one log, taken once by one of the two.
    let words: Vec<String> = std::env::args().skip(1).collect();
    if let [kind, n, which] = words.as_slice() {
        timing::take(kind, n.parse().expect("a count of items"), which);
        return;
    }
    println!(
        "the recorder's exported calls against plain Rust with the same checks on the same bytes"
    );
    println!(
        "both are release builds, on the same machine and in the same run; the library is {}",
        env!("RECORDER_LIB_DIR")
    );
    let tally = compare::compare();
    let calls: u64 = tally.answers.iter().sum();
    println!(
        "compared: {calls} calls, equal answers and equal bytes, the heap's arrangement apart"
    );
    for (answer, count) in tally
        .answers
        .iter()
        .enumerate()
        .filter(|(_, count)| **count > 0)
    {
        println!("  answer {answer:>2}: {count}");
    }
    timing::table();
    stack::table();
}
