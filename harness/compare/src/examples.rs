//! The examples of document 01 and of requests One, Three, Four and Five against the customer's Rust. What it does not have, root, arctangent, sine,
//! cosine, header, recovery and cost, is the plain model's, and so is all of request Seven, as the Rust refuses nothing.
use checks::examples::{
    self, extreme_plan, journal_plan, long_row, marks, plan, roll, rolls, row, table_plan, vector, windows, Asked, Asked::*,
};
use checks::Model;
use model::cost::Size;
use model::{Answer, Optimal, Plan, Roll};
use oracle::Oracle;

/// Of the first cell.
fn optimal(plan: &Plan) -> Optimal {
    let o = Oracle::new(plan, &vec![0; plan.times()]);
    if o.not_free()[0] == 1 {
        Optimal::At(o.named_values()[0])
    } else {
        Optimal::Free
    }
}

/// The model's header, and the lines of the original's sweep.
fn journal(asked: Asked, plan: &Plan) -> Answer<String> {
    let header = examples::answer(&Model, asked)?[..107].to_string();
    let lines = crate::plans::lines(&Oracle::new(plan, &[0, 1]).sweep());
    Ok(header + &String::from_utf8(lines.concat()).expect("text"))
}

fn swept(plan: &Plan) -> String {
    let (mask, tried) = Oracle::new(plan, &[0, 1]).sweep();
    format!("{} {}", marks(&mask), tried.iter().sum::<u64>())
}

fn answer(asked: Asked) -> Answer<String> {
    Ok(match asked {
        Difference(a, b) => oracle::circular_diff_deg(a, b).to_string(),
        Vector(ra, dec) => vector(&oracle::radec_to_unit(ra, dec)),
        RollOf(sun) => roll(optimal(&plan(&[sun], 0.0))),
        Rolls(sun, panel) => {
            let p = long_row(sun, panel);
            rolls(optimal(&p), Oracle::new(&p, &[0; 70]).named_values())
        }
        Mark(sun, tolerance) => marks(&Oracle::new(&plan(&[sun], tolerance), &[0]).in_constraint_batch_at_roll(Roll::Sweep(0.0))),
        Violations(marks) => {
            let (mask, times) = row(marks);
            windows(&oracle::violation_windows(&mask, &vec![0.0; mask.len()], &times))
        }
        Visibility(marks) => {
            let (mask, times) = row(marks);
            windows(&oracle::visibility_windows(&mask, &times))
        }
        Expansion((first, last), times) => marks(&oracle::expand(&[first], &[last], times)),
        Journal => journal(asked, &journal_plan())?,
        TableJournal(table) => journal(asked, &table_plan(table, None))?,
        Collected => swept(&journal_plan()),
        SweptOver(table, roll_deg) => swept(&table_plan(table, roll_deg)),
        Tried(extreme, targets, times, n) => {
            let p = extreme_plan(&Model, extreme, Size { targets, times, n })?;
            Oracle::new(&p, &vec![0; p.times()]).sweep().1.iter().sum::<u64>().to_string()
        }
        Root(_) | RootBits(_) | ArctangentBits(..) | Sine(_) | SineBits(_) | Cosine(_) | CosineBits(_) | Recovered(_) | Cost(..)
        | Written(..) | Directions(..) => {
            return examples::answer(&Model, asked);
        }
    })
}

/// How many differ.
pub fn run() -> usize {
    examples::run("the customer's Rust", answer)
}
