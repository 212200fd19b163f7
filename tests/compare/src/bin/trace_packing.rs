//! Prints, in Markdown, how the library's steps pack the examples P1 to P9; their bytes and cases must be those of the rules.
#![deny(unsafe_code)]

#[path = "../ffi_step.rs"]
mod ffi_step;

use compare::pack_examples::{PackExample, PACK_EXAMPLES};
use compare::report::all_hex;
use reference::packing::PackStep;
use std::process::ExitCode;

/// The longest run that is shown byte by byte.
const SHOWN_WHOLE: usize = 4;

fn main() -> ExitCode {
    let traces: Result<Vec<String>, String> = PACK_EXAMPLES.iter().map(trace).collect();
    match traces {
        Ok(traces) => {
            print!("{}", traces.join("\n"));
            ExitCode::SUCCESS
        }
        Err(wrong) => {
            eprintln!("{wrong}");
            ExitCode::FAILURE
        }
    }
}

/// An example's heading, a table of its steps, and what they come to.
fn trace(example: &PackExample) -> Result<String, String> {
    let PackExample { name, words, .. } = example;
    let data = example.data();
    let steps = ffi_step::steps(&data).map_err(|what| format!("{name}: {what}"))?;
    let packed: Vec<u8> = steps.iter().flat_map(|step| step.written.clone()).collect();
    let cases: Vec<u32> = steps.iter().map(|step| step.case).collect();
    if packed != example.packed || cases != example.cases {
        let given = format!("{} by cases {cases:?}", all_hex(&packed));
        let due = format!("{} by cases {:?}", all_hex(example.packed), example.cases);
        return Err(format!("{name}: {given}, should be {due}"));
    }
    let (table, sum) = (table(&data, &steps), sum(&data, &packed, &cases));
    Ok(format!("### {name}: {words}\n\n{table}{sum}\n"))
}

/// A row for each step, if there is any.
fn table(data: &[u8], steps: &[PackStep]) -> String {
    if steps.is_empty() {
        return String::new();
    }
    let mut table = "| at | there | n | case | written |\n|---|---|---|---|---|\n".to_string();
    let mut at = 0;
    for step in steps {
        let left = &data[at..];
        let n = left.iter().take_while(|byte| **byte == left[0]).count();
        let (there, written) = (shown(&left[..step.taken]), shown(&step.written));
        table += &format!("| {at} | {there} | {n} | {} | {written} |\n", step.case);
        at += step.taken;
    }
    table + "\n"
}

/// The line after the table.
fn sum(data: &[u8], packed: &[u8], cases: &[u32]) -> String {
    let cases: Vec<String> = cases.iter().map(u32::to_string).collect();
    let cases = match &cases[..] {
        [] => return "Packed: nothing, no step.".into(),
        [case] => format!("case {case}"),
        more => format!("cases {}", more.join(", ")),
    };
    match packed == data {
        true => format!("Packed: as it is, {cases}."),
        false => format!("Packed: `{}`, {cases}.", all_hex(packed)),
    }
}

/// Bytes in hex; of a longer run the byte and how often it comes.
fn shown(bytes: &[u8]) -> String {
    match bytes.len() > SHOWN_WHOLE && bytes.iter().all(|byte| *byte == bytes[0]) {
        true => format!("`{:02X}` × {}", bytes[0], bytes.len()),
        false => format!("`{}`", all_hex(bytes)),
    }
}
