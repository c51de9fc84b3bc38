//! Measures the cut of standard input into tokens, a lookup in front of them, and what reads
//! instructions.
//!
//! With no argument it prints the number of tokens. With a number of rounds it cuts the text as
//! often, and also prints the nanoseconds of the fastest round, the bytes that a token takes, the
//! nanoseconds of a million lookups, the number of mnemonics that are in front one behind the other
//! and the nanoseconds of taking them, and the number of instructions and the nanoseconds of
//! reading the text as an expression.
#![tactic(auto)]

use bumpalo::Bump;
use std::alloc::Global;
use std::io::Read;
use std::rt::Clock;
use std::time::Instant;
use std::{env, io};
use wat_expr::Expression;
use wat_lexer::cut::cut;
use wat_lexer::lexeme::Lexeme;
use wat_mnemonics::Op;
use wat_tokens::{Parse, Parser};

/// How many tokens the text has, or `None` if it isn't cut.
fn tokens_of(alloc: Global, text: &str) -> Option<usize> {
    let arena = Bump::new(alloc);
    match cut(alloc, text, &arena) {
        Ok(tokens) => Some(tokens.len()),
        Err(_) => None,
    }
}

/// The nanoseconds of the fastest of so many cuts.
fn fastest(rt: &impl Clock, alloc: Global, text: &str, rounds: u32) -> io::Result<u128> {
    let mut best = u128::MAX;
    for _ in 0..rounds {
        let start = Instant::now(rt)?;
        let _ = tokens_of(alloc, text);
        best = best.min(start.elapsed(rt)?.as_nanos());
    }
    Ok(best)
}

/// The nanoseconds of a million lookups in front of the text's first visible token.
fn lookups(rt: &impl Clock, alloc: Global, text: &str) -> io::Result<u128> {
    let arena = Bump::new(alloc);
    let mut found = 0u32;
    let start = Instant::now(rt)?;
    if let Ok(parser) = Parser::new(alloc, text, &arena) {
        let start = Instant::now(rt)?;
        for _ in 0..1000000 {
            if parser.next_is("module") {
                found = found.wrapping_add(1);
            }
        }
        let taken = start.elapsed(rt)?.as_nanos();
        return Ok(taken.max(u128::from(found % 2)));
    }
    Ok(start.elapsed(rt)?.as_nanos())
}

/// Takes the mnemonics that are in front one behind the other, at most so many: how many, and the
/// nanoseconds.
fn words(rt: &impl Clock, alloc: Global, text: &str, most: usize) -> io::Result<(usize, u128)> {
    let arena = Bump::new(alloc);
    let mut count = 0usize;
    let mut taken = 0;
    if let Ok(mut parser) = Parser::new(alloc, text, &arena) {
        let start = Instant::now(rt)?;
        for _ in 0..most {
            if Op::take(&mut parser).is_err() {
                break;
            }
            count = count.wrapping_add(1);
        }
        taken = start.elapsed(rt)?.as_nanos();
    }
    Ok((count, taken))
}

/// Reads the text as an expression: how many instructions it has, and the nanoseconds without those
/// of the cut.
fn expression(rt: &impl Clock, alloc: Global, text: &str) -> io::Result<(usize, u128)> {
    let arena = Bump::new(alloc);
    let mut count = 0;
    let mut taken = 0;
    if let Ok(mut parser) = Parser::new(alloc, text, &arena) {
        let start = Instant::now(rt)?;
        if let Ok(expression) = Expression::parse(&mut parser) {
            taken = start.elapsed(rt)?.as_nanos();
            count = expression.instrs.len();
        }
    }
    Ok((count, taken))
}

fn main(rt: HostRuntime) -> io::Result<()> {
    let alloc = rt.alloc();
    let mut bytes = Vec::new(alloc);
    rt.stdin().read_to_end(&mut bytes)?;
    let text = match str::from_utf8(&bytes) {
        Ok(text) => text,
        Err(_) => return println!(rt; "no UTF-8"),
    };
    let tokens = match tokens_of(alloc, text) {
        Some(tokens) => tokens,
        None => return println!(rt; "refused"),
    };
    let mut rounds = 0;
    for argument in env::args(&rt)?.skip(1) {
        rounds = argument.parse::<u32>().unwrap_or(0);
    }
    println!(rt; "tokens {tokens}")?;
    if rounds > 0 {
        let nanoseconds = fastest(&rt, alloc, text, rounds)?;
        let size = size_of::<Lexeme>();
        println!(rt; "nanoseconds {nanoseconds}")?;
        println!(rt; "token {size}")?;
        let nanoseconds = lookups(&rt, alloc, text)?;
        println!(rt; "lookups {nanoseconds}")?;
        let (count, nanoseconds) = words(&rt, alloc, text, tokens)?;
        println!(rt; "words {count}")?;
        println!(rt; "taking {nanoseconds}")?;
        let (count, nanoseconds) = expression(&rt, alloc, text)?;
        println!(rt; "instructions {count}")?;
        println!(rt; "reading {nanoseconds}")?;
    }
    Ok(())
}
