//! Rule R of the scope document: written to a file's bytes, read again, compiled, run over four rows, each row found;
//! first with one budget for all rows, then with a budget for each.

#[path = "../../include/tapsquirrel.rs"]
mod tapsquirrel;

use tapsquirrel::{Found, Refusal, FAULT_PLACE, STATUS};

const RULE: [u8; 45] = [
    0x01, 0x02, 0x01, 0x04, // form, variables, arguments, blocks
    0x21, 0x02, 0x00, 0x30, 0x01, // 0: emit x; goto 1
    0x33, 0x10, 0x02, 0x00, 0x01, 0x01, 0x00, 0x00, 0x00, 0x30, 0x02, 0x30, 0x03, // 1: if x < 1 goto 2 else goto 3
    0x21, 0x02, 0x01, 0x32, // 2: emit sum; stop
    0x20, 0x01, 0x04, 0x02, 0x01, 0x02, 0x00, // 3: set sum = sum + x
    0x20, 0x00, 0x05, 0x02, 0x00, 0x01, 0x01, 0x00, 0x00, 0x00, 0x31, 0x01, // set x = x - 1; jump 1
];

const BUDGET: u32 = 2;
const QUOTA: u32 = 4;
const VALUES: [i32; 4] = [2, 0, -5, i32::MAX];
const BUDGETS: [u32; 4] = [3, 0, 1, 1];

fn print_row(row: u32, found: Found) {
    let (title, words) = match found {
        Found::Record(words) => ("record", words),
        Found::Line(words) => ("line", words),
        Found::Nowhere => ("nowhere", &[][..]),
    };
    print!("row {row}: {title}");
    for word in words {
        print!(" {word}");
    }
    println!();
    if let Found::Record(record) = found {
        print_fault(record);
    }
}

// The operator that ended a row with a fault, by its offset in the rule.
fn print_fault(record: &[i32]) {
    let place = record[FAULT_PLACE];
    if place != 0 {
        println!("       fault {} at offset {place}, tag {:02X}", record[STATUS], RULE[place as usize]);
    }
}

fn print_batch(result: &[i32], work: &[i32], columns: u32, rounds: u32) {
    let rows = VALUES.len() as u32;
    for row in 0..=rows {
        print_row(row, tapsquirrel::find(result, work, rows, QUOTA, columns, row));
    }
    println!("rounds {rounds}");
}

fn example() -> Result<(), Refusal> {
    let mut file = [0; tapsquirrel::FILE_BYTES];
    let file_len = tapsquirrel::write(&RULE, &mut file)?;
    let rule_len = tapsquirrel::read(&file[..file_len], &mut [0; tapsquirrel::RULE_BYTES])?;
    let mut plan = [0; tapsquirrel::PLAN_BYTES];
    let plan_len = tapsquirrel::compile(&file[..file_len], &mut plan)?;
    let plan = &plan[..plan_len];
    let columns = tapsquirrel::columns(plan)?;
    println!("file {file_len} bytes, rule {rule_len} bytes, plan {plan_len} bytes, columns {columns}");

    let mut result = vec![0; VALUES.len() * tapsquirrel::record_words(QUOTA)];
    let mut work = vec![0; VALUES.len() * tapsquirrel::line_words(columns)];
    let rows = VALUES.len() as u32;
    println!("budget {BUDGET} for all rows");
    let rounds = tapsquirrel::run(plan, rows, &VALUES, BUDGET, QUOTA, &mut result, &mut work)?;
    print_batch(&result, &work, columns, rounds);
    println!("a budget for each row");
    let rounds = tapsquirrel::run_each(plan, rows, &VALUES, &BUDGETS, QUOTA, &mut result, &mut work)?;
    print_batch(&result, &work, columns, rounds);
    Ok(())
}

fn main() {
    if let Err(refusal) = example() {
        println!("{refusal}");
        std::process::exit(1);
    }
}
