//! `card`: the fault card, docs/NUMBERS.md, from the library's table.

use crate::arguments::Arguments;
use crate::status::{Failure, Status};
use bjorkneve::fault_card::{Detail, NAMED, TABLES};
use std::ffi::OsString;
use std::io::{self, Write};

pub fn program(given: &[OsString], out: &mut impl Write) -> Result<Status, Failure> {
    let arguments = Arguments::of("card", given, &[], &[])?;
    if !arguments.operands.is_empty() {
        return Err("card takes nothing".into());
    }
    print(out)?;
    Ok(Status::Answered)
}

/// The whole page.
pub fn print(out: &mut impl Write) -> io::Result<()> {
    out.write_all(OPENING.as_bytes())?;
    for table in TABLES {
        writeln!(out, "\n## {}\n", table.heading)?;
        writeln!(
            out,
            "| number | what happened | detail | what to do | name |"
        )?;
        writeln!(out, "|---|---|---|---|---|")?;
        for row in table.rows {
            let (number, name, detail) = (row.number, row.name, detail(row.detail));
            writeln!(
                out,
                "| {number} | {} | {detail} | {} | `{name}` |",
                row.what_happened, row.what_to_do
            )?;
        }
    }
    out.write_all(CLOSING.as_bytes())?;
    for named in NAMED {
        writeln!(
            out,
            "| `{}` | {} | {} |",
            named.name,
            grouped(named.value),
            named.what_it_is
        )?;
    }
    Ok(())
}

fn detail(detail: Detail) -> String {
    match detail {
        Detail::Zero => "0".into(),
        Detail::Is(words) => words.into(),
        Detail::OneOf(cases) => {
            let cases: Vec<String> = cases
                .iter()
                .map(|(number, words)| format!("{number} {words}"))
                .collect();
            cases.join(", ")
        }
    }
}

/// A number with a comma before each three digits.
fn grouped(number: u32) -> String {
    match number {
        0..=999 => number.to_string(),
        _ => format!("{},{:03}", grouped(number / 1_000), number % 1_000),
    }
}

const OPENING: &str = "\
# The fault card

Whenever a panel shows one of these numbers, there is no reading. \
Only a number after the word fault, or one that a panel shows as such, is on this card; a mark, below, is none. \
The detail stands after the number.

A supplier's file is a HEX text; the text holds an image, the gauge's data in sections. \
After a refused load the panel has no gauge data, neither new nor old: it shows 5 and no reading until a good file is loaded. \
So check a file with `bjorkneve words` before it is loaded.
";

const CLOSING: &str = "
14 isn't used.

A reading has a mark: 1 if the temperature lies outside the gauge's limits, 2 if the pressure does, 3 if both do; else 0. \
A marked reading is worked out as any other, but lies outside the limits that the file states for its gauge. \
It must not be relied on until counts, file and gauge were checked.

## Names for programs

`include/bjorkneve.h` has the numbers above as `BJORKNEVE_REFUSED_` and the name in the last column, \
and the ones below as `BJORKNEVE_` and the name; `rust/bjorkneve` has the same words. \
This page is printed by `./bjorkneve card` from `rust/bjorkneve/src/card.rs`, and the header by `tools/header` from this page.

| name | value | what it is |
|---|---|---|
";
