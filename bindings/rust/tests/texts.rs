//! Each answer is that of the program `wat`, for the texts in the folder that the environment variable TEXTS names.
use dilgorza::FaultKind;
use std::error::Error;
use std::path::Path;
use std::{env, fs};

fn refused(error: dilgorza::Error) -> dilgorza::Refused {
    match error {
        dilgorza::Error::Refused(refused) => refused,
        dilgorza::Error::OutOfMemory => panic!("out of memory"),
    }
}

fn answer(found: Result<String, dilgorza::Error>) -> String {
    found.unwrap_or_else(|error| refused(error).report)
}

fn check(text: impl AsRef<[u8]>) -> Vec<dilgorza::Fault> {
    dilgorza::check(text).unwrap()
}

/// A byte 31 after each part of a fault, and a byte 30 after each fault.
fn records(faults: &[dilgorza::Fault]) -> String {
    let record = |it: &dilgorza::Fault| {
        let numbers = [it.offset, it.length, it.line, it.column].map(|number| format!("{number}\x1f")).concat();
        let words = |it: &Option<String>| it.clone().unwrap_or_default();
        format!("{numbers}{}\x1f{}\x1f{}\x1f{}\x1f\x1e", it.kind.name(), it.message, words(&it.hint), words(&it.expected))
    };
    faults.iter().map(record).collect()
}

#[test]
fn few_texts() {
    assert_eq!(check("(module)"), []);
    let faults = check("(module\n (func i32.ad))");
    assert_eq!((faults.len(), faults[0].line, faults[0].column), (1, 2, 8));
    assert_eq!((faults[0].offset, faults[0].length, faults[0].kind), (15, 6, FaultKind::Operator));
    assert_eq!(faults[0].to_string(), "2:8: no instruction is called `i32.ad`");
    assert!(faults[0].hint.as_ref().is_some_and(|hint| hint.contains("i32.add")));
    let fault = check("(module (start))").remove(0);
    assert_eq!((fault.hint, fault.expected.as_deref()), (None, Some("an identifier, an integer")));
    assert_eq!(check(b"(module) \xff").len(), 1);
    assert_eq!(dilgorza::format("( a)").as_deref(), Ok("(a)\n"));
    assert_eq!(dilgorza::print("(module ;; c\n)", true).as_deref(), Ok("(module)\n"));
    assert_eq!(dilgorza::list("(module)").as_deref(), Ok("module text 0\n"));
}

#[test]
fn a_refusal_is_an_error() {
    fn listed(text: &str) -> Result<String, Box<dyn Error + Send + Sync>> {
        Ok(dilgorza::list(text)?)
    }
    assert_eq!(listed("(module)").unwrap(), "module text 0\n");
    let error = *listed("(").unwrap_err().downcast::<dilgorza::Error>().unwrap();
    let words = error.to_string();
    let found = refused(error);
    assert_eq!((found.report, found.faults), (words, check("(")));
    let float = refused(dilgorza::list("(module (func f32.const 1.5 drop))").unwrap_err());
    assert_eq!((float.report.is_empty(), float.faults), (false, vec![]));
}

#[test]
fn names_of_texts() {
    let first = |report: String| report.lines().next().unwrap().to_string();
    let text = "(module (func i32.ad))";
    let message = ":1:15: error: no instruction is called `i32.ad`";
    assert_eq!(dilgorza::report("(module)").as_deref(), Ok(""));
    assert_eq!(first(dilgorza::report(text).unwrap()), format!("<text>{message}"));
    assert_eq!(first(dilgorza::report_named("a/b.wat", text).unwrap()), format!("a/b.wat{message}"));
    assert_eq!(first(answer(dilgorza::list_named(b"\xff\xfe.wat", text))), format!("\u{fffd}\u{fffd}.wat{message}"));
    assert_eq!(first(answer(dilgorza::print_named("", text, true))), message);
    assert_eq!(first(answer(dilgorza::format_named("x.wat", "\""))).split(':').next(), Some("x.wat"));
    assert_eq!(dilgorza::format_named("x.wat", "( a)").as_deref(), Ok("(a)\n"));
}

#[test]
fn texts_of_a_folder() {
    let Ok(folder) = env::var("TEXTS") else { return };
    let wanted = |number: usize, name: &str| fs::read(Path::new(&folder).join(format!("{number}.{name}")));
    let mut number = 0;
    while let Ok(text) = wanted(number, "wat") {
        let expect = |found: String, name| {
            assert_eq!(found.as_bytes(), wanted(number, name).unwrap(), "{number}: {name}");
        };
        expect(answer(dilgorza::list(&text)), "list");
        expect(answer(dilgorza::print(&text, false)), "print");
        expect(answer(dilgorza::print(&text, true)), "line");
        expect(answer(dilgorza::format(&text)), "format");
        expect(dilgorza::report(&text).unwrap(), "check");
        expect(records(&check(&text)), "faults");
        number += 1;
    }
    assert!(number > 0);
}
