//! Reads a module from standard input with the Rust crate wast, and lists it as `watshow module` does: what
//! the inputs of `bench/peers` have, which are functions without imports and passive data segments.
use std::fmt::Write as _;
use std::io::{Read, Write as _};
use std::process::ExitCode;
use wast::core::{Data, DataKind, Expression, Func, FuncKind, Instruction, ModuleField, ModuleKind};
use wast::parser::{self, ParseBuffer};
use wast::token::Index;
use wast::Wat;

/// What is listed of an instruction: its word, and an operand that is shown.
enum Line<'a> {
    Word(&'static str),
    Indexed(&'static str, Index<'a>),
    Constant(&'static str, i64),
    Other,
}

fn line<'a>(instruction: &Instruction<'a>) -> Line<'a> {
    match instruction {
        Instruction::Block(_) => Line::Word("block"),
        Instruction::If(_) => Line::Word("if"),
        Instruction::Else(_) => Line::Word("else"),
        Instruction::End(_) => Line::Word("end"),
        Instruction::Nop => Line::Word("nop"),
        Instruction::Drop => Line::Word("drop"),
        Instruction::I32Add => Line::Word("i32.add"),
        Instruction::I32Sub => Line::Word("i32.sub"),
        Instruction::I32Mul => Line::Word("i32.mul"),
        Instruction::I32Eqz => Line::Word("i32.eqz"),
        Instruction::I32Load(_) => Line::Word("i32.load"),
        Instruction::LocalGet(index) => Line::Indexed("local.get", *index),
        Instruction::LocalSet(index) => Line::Indexed("local.set", *index),
        Instruction::Call(index) => Line::Indexed("call", *index),
        Instruction::I32Const(value) => Line::Constant("i32.const", i64::from(*value)),
        _ => Line::Other,
    }
}

fn list_expression(out: &mut String, expression: &Expression<'_>) -> Option<()> {
    for instruction in &expression.instrs {
        let written = match line(instruction) {
            Line::Word(word) => writeln!(out, "  {word}"),
            Line::Indexed(word, Index::Num(number, _)) => writeln!(out, "  {word} {number}"),
            Line::Indexed(word, Index::Id(id)) => writeln!(out, "  {word} ${}", id.name()),
            Line::Constant(word, value) => writeln!(out, "  {word} {value}"),
            Line::Other => return None,
        };
        written.ok()?;
    }
    Some(())
}

fn list_func(out: &mut String, func: &Func<'_>) -> Option<()> {
    match &func.kind {
        FuncKind::Inline { locals, expression } => {
            out.push_str(&format!("func inline {}\n", locals.len()));
            list_expression(out, expression)
        }
        FuncKind::Import(_) => None,
    }
}

fn list_data(out: &mut String, data: &Data<'_>) -> Option<()> {
    match data.kind {
        DataKind::Passive => {
            let bytes: usize = data.data.iter().map(|value| value.len()).sum();
            out.push_str(&format!("data passive {bytes}\n"));
            Some(())
        }
        DataKind::Active { .. } => None,
    }
}

/// The listing, or None of a module that has something else.
fn listing(wat: &Wat<'_>) -> Option<String> {
    let Wat::Module(module) = wat else { return None };
    let ModuleKind::Text(fields) = &module.kind else { return None };
    let mut out = format!("module text {}\n", fields.len());
    for field in fields {
        match field {
            ModuleField::Func(func) => list_func(&mut out, func)?,
            ModuleField::Data(data) => list_data(&mut out, data)?,
            _ => return None,
        }
    }
    Some(out)
}

fn main() -> ExitCode {
    let mut text = String::new();
    if std::io::stdin().read_to_string(&mut text).is_err() {
        return ExitCode::from(2);
    }
    let Ok(buffer) = ParseBuffer::new(&text) else { return ExitCode::from(1) };
    let Ok(wat) = parser::parse::<Wat>(&buffer) else { return ExitCode::from(1) };
    match listing(&wat) {
        Some(out) if std::io::stdout().write_all(out.as_bytes()).is_ok() => ExitCode::SUCCESS,
        _ => ExitCode::from(2),
    }
}
