//! The answers that document 01 states, the last starred one as document 02 changes it, which the reference and the program
//! must both give.

/// A text, what is printed on the second line, and the leads if they are stated.
pub type Stated = (&'static str, &'static str, &'static [&'static str]);

const SHEET: &str = "p cnf 4 6\n-3 1 0 -3 2 0 3 -1 -2 0\n-4 1 0 -4 2 0 4 -1 -2 0\n";

pub const STATED: [Stated; 20] = [
    (SHEET, "settled,1,4,2,0,0,3", &["1", "2", "3", "3"]),
    ("p cnf 0 0\n", "settled,0,0,0,0,0,0", &[]),
    ("p cnf 0 1\n0\n", "contradiction,1,0,0,0,0,0", &[]),
    ("p cnf 1 2\n1 0 -1 0\n", "contradiction,1,1,0,0,0,0", &[]),
    ("p cnf 1 1\n1 1 0\n", "settled,1,1,0,0,0,0", &["T"]),
    ("p cnf 1 1\n1 -1 0\n", "settled,0,1,0,0,0,1", &["1"]),
    ("p cnf 2 2\n1 2 0 -1 -2 0\n", "settled,1,2,0,0,0,1", &["1", "-1"]),
    ("p cnf 3 3\n1 0 -1 2 0 -2 3 0\n", "settled,3,3,0,0,0,0", &["T", "T", "T"]),
    ("p cnf 3 3\n3 -1 -2 0 -3 1 0 -3 1 0\n", "settled,0,3,0,0,0,3", &["1", "2", "3"]),
    ("p cnf 3 5\n-3 1 0 -3 2 0 3 -1 -2 0 1 2 0 -1 -2 0\n", "settled,2,3,3,0,0,1", &["1", "-1", "F"]),
    (
        "p cnf 5 11\n-3 1 0 -3 2 0 3 -1 -2 0\n-4 1 0 -4 2 0 4 -1 -2 0\n\
         -5 3 4 0 -5 -3 -4 0 5 -3 4 0 5 3 -4 0 5 0\n",
        "contradiction,2,5,2,1,0,0",
        &[],
    ),
    (
        "p cnf 5 8\n-1 -4 2 0 -1 4 -2 0 1 -4 3 0 1 4 -3 0\n-1 -5 -2 0 -1 5 2 0 1 -5 -3 0 1 5 3 0\n",
        "settled,1,5,0,0,2,4",
        &["1", "2", "3", "4", "-4"],
    ),
    ("p cnf 3 4\n-1 -3 2 0 -1 3 -2 0 1 -3 2 0 1 3 -2 0\n", "settled,1,3,0,0,2,2", &["1", "2", "2"]),
    ("p cnf 1 1\n-0 0\n", "3,10", &[]),
    ("p cnf 1 1\n1\n", "11,0", &[]),
    ("p cnf 1 7\n2 0\n", "10,0", &[]),
    ("p cnf 1025 0\n", "5,0", &[]),
    ("p cnf 2 1\n1 -3 0\n", "10,1", &[]),
    ("p cnf 2 1\n1 -2 0\n", "settled,0,2,0,0,0,2", &["1", "2"]),
    ("", "2,0", &[]),
];

/// The whole of what is printed.
pub fn printed((_, values, leads): &Stated) -> String {
    if values.split(',').count() == 2 {
        return format!("refusal,place\n{values}\n");
    }
    let mut text = format!("verdict,rounds,variables,ands,xors,ites,groups\n{values}\n");
    if !values.starts_with("contradiction") {
        text.push_str("net,lead\n");
        for (i, lead) in leads.iter().enumerate() {
            text.push_str(&format!("{},{lead}\n", i + 1));
        }
    }
    text
}
