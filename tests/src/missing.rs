//! Lists of a design and its copy in which one thing is missing that the theorem asks for, so that a net and its copy,
//! or the XOR of the two and F, stay apart.

use crate::lists::{and_clauses, ite_clauses, xor_gate, Clauses, List};
use crate::{program, sheets, texts, truth};
use reference::F;

pub struct Missing {
    pub what: &'static str,
    list: List,
    /// the net and its copy, or the XOR of the two and F
    apart: (i64, i64),
    can_differ: bool,
}

impl Missing {
    fn new(what: &'static str, gates: &[Clauses], apart: (i64, i64), can_differ: bool) -> Missing {
        let clauses = gates.concat();
        let nets = clauses.iter().flatten().map(|x| x.unsigned_abs() as usize).max().unwrap_or(0);
        Missing { what, list: List { nets, clauses }, apart, can_differ }
    }

    /// The rows of the table in docs/RULES.md.
    pub fn all() -> Vec<Missing> {
        let (and, ite) = (and_clauses, ite_clauses);
        let two_loops = [and(3, &[1, 4]), and(4, &[2, 3]), and(5, &[1, 6]), and(6, &[2, 5])];
        let no_gate = [and(3, &[1, 2]), and(5, &[3, 1]), and(6, &[4, 1])];
        let one_inverted = [and(3, &[1, 2]), and(5, &[3, 1]), and(4, &[1, 2]), and(6, &[-4, 1])];
        let two_inputs = [and(4, &[1, 2]), and(5, &[3, 2])];
        let inverse_inputs = [and(2, &[1, -1]), and(3, &[1, -1])];
        let net_twice = [xor_gate(4, &[1, 1, 2, 3]), xor_gate(5, &[1, 1, 2, 3])];
        let five_inputs = [xor_gate(6, &[1, 2, 3, 4, 5]), xor_gate(7, &[1, 2, 3, 4, 5])];
        let select_as_data = [ite(3, 1, 1, 2), ite(4, 1, 1, 2)];
        let compared =
            [and(3, &[1, 2]), and(4, &[1, 2]), xor_gate(5, &[3, 4]), xor_gate(6, &[1, 1]), xor_gate(7, &[2, 2])];
        let own_copies = [compared.concat(), vec![vec![5, 6, 7]]];
        let output_as_input = [and(3, &[1, 2]), and(1, &[1, 2])];
        let inverse_data = [and(3, &[2]), and(4, &[-2]), ite(5, 1, 3, 4), and(6, &[2]), ite(7, 1, 6, -6)];
        vec![
            Missing::new("no loop", &two_loops, (3, 5), true),
            Missing::new("each gate's copy", &no_gate, (5, 6), true),
            Missing::new("a net inverted everywhere or nowhere", &one_inverted, (5, 6), true),
            Missing::new("inputs shared or wired", &two_inputs, (4, 5), true),
            Missing::new("no inverse inputs of an AND", &inverse_inputs, (2, 3), false),
            Missing::new("an XOR's pins on different nets", &net_twice, (4, 5), false),
            Missing::new("at most four inputs of an XOR", &five_inputs, (6, 7), false),
            Missing::new("select and data on different nets", &select_as_data, (3, 4), false),
            Missing::new("no inverse data pins in the copy", &inverse_data, (5, 7), false),
            Missing::new("no input on the output's net in the copy", &output_as_input, (3, 1), false),
            Missing::new("an output that is not its own copy", &own_copies, (6, F), false),
        ]
    }

    /// What is wrong, if anything.
    pub fn check(&self, program: &str) -> Result<(), String> {
        let (text, (a, b)) = (texts::plain(&self.list), self.apart);
        let sheet = program::answer(program, &text);
        let text = String::from_utf8_lossy(&text).into_owned();
        let Some(leads) = sheets::leads(&sheet) else { return Err(format!("no leads:\n{text}{sheet}")) };
        if sheets::is_joined(&leads, a, b) {
            return Err(format!("{a} and {b} are joined:\n{text}{sheet}"));
        }
        let can_differ = truth::can_differ(&self.list, a, b);
        if can_differ != self.can_differ {
            return Err(format!("that {a} and {b} can differ is {can_differ}:\n{text}"));
        }
        Ok(())
    }
}
