//! Judges the sheet of README.md, and prints the verdict, the missing answer and the facts.
use figdawesa::{judge, line, Verdict, FACT_WORDS, JUDGE_WORDS, RELATIONS};
use std::fmt::Display;

/// All signals are asked for, all beats are listed, and one view has all signals, of which two are listed.
const SHEET: &[u8] = b"       1      -1      -2
       4       4      -1      -2
       2      -1      -2
       4       5      -1      -2
       3      -1      -2
       4       4      -1      -2
       5       7       1
       5       7       2
";

fn listed<T: Display>(values: &[T]) -> String {
    let shown: Vec<String> = values.iter().map(T::to_string).collect();
    format!("({})", shown.join(", "))
}

fn main() {
    let mut room = [0; JUDGE_WORDS];
    match judge(SHEET, &mut room) {
        Ok(Verdict::Covered) => println!("covered"),
        Ok(Verdict::NoLog) => println!("no log"),
        Ok(Verdict::NotCovered { missing, facts }) => {
            println!("not covered");
            // The question's head is line 1: a kind and a field of eight bytes for each column.
            println!(
                "missing: {}",
                listed(&missing[..line(SHEET, 1).len() / 8 - 1])
            );
            for fact in facts.chunks(FACT_WORDS) {
                let (name, columns) = RELATIONS[fact[0] as usize - 1];
                println!("{name}{}", listed(&fact[1..=columns]));
            }
        }
        Err(refused) => {
            println!("{refused}");
            std::process::exit(1);
        }
    }
}
