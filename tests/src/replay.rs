//! Compares a program with the reference on stored texts, AIGER where a file is named .aag, else DIMACS:
//! replay PROGRAM FILE...

#[allow(dead_code)]
mod format;
mod program;

fn main() {
    let args: Vec<String> = std::env::args().collect();
    assert!(args.len() > 2, "usage: replay PROGRAM FILE...");
    let mut faults = 0;
    for file in &args[2..] {
        let text = std::fs::read(file).unwrap_or_else(|e| panic!("cannot read {file}: {e}"));
        let (found, expected) = (program::answer(&args[1], &text), (format::of(file).answer_text)(&text));
        if found != expected {
            faults += 1;
            println!("FAULT: program and reference differ on {file}\nprogram:\n{found}reference:\n{expected}");
        }
    }
    println!("{} stored texts, {faults} faults", args.len() - 2);
    std::process::exit(if faults == 0 { 0 } else { 1 });
}
