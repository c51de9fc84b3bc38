//! Reads texts with the Rust crate wast, and lists each as `watshow` does. Standard input has a line `MODE LENGTH` and so
//! many bytes for each text; standard output a line `STATUS LENGTH` and so many bytes of listing.
use std::fmt::Write as _;
use std::io::{BufRead, Read, Write as _};
use wast::core::{
    Custom, Data, DataKind, DataVal, Elem, ElemKind, ElemPayload, ExportKind, Expression, FuncKind, FunctionType, GlobalKind,
    HeapType, Instruction, MemoryKind, Module, ModuleField, ModuleKind, TableKind, TagKind, ValType,
};
use wast::lexer::Lexer;
use wast::parser::{self, Parse, ParseBuffer, Parser, Result};
use wast::token::Index;

/// What is listed of an instruction: its word, and an operand that is shown.
enum Operand<'i, 'a> {
    None,
    Index(&'i Index<'a>),
    Constant(i64),
}

// `fn parts(&Instruction) -> (&'static str, Operand)`, which tests/peer makes of the crate's own list.
include!(env!("PARTS"));

/// A module in its parentheses.
struct InParens<'a>(Module<'a>);

impl<'a> Parse<'a> for InParens<'a> {
    fn parse(parser: Parser<'a>) -> Result<Self> {
        Ok(InParens(parser.parens(|parser| parser.parse())?))
    }
}

struct Folded<'a>(Expression<'a>);

impl<'a> Parse<'a> for Folded<'a> {
    fn parse(parser: Parser<'a>) -> Result<Self> {
        Ok(Folded(Expression::parse_folded_instruction(parser)?))
    }
}

fn index(index: &Index<'_>) -> String {
    match index {
        Index::Num(number, _) => number.to_string(),
        Index::Id(id) => format!("${}", id.name()),
    }
}

fn abstract_heap(ty: &wast::core::AbstractHeapType) -> String {
    format!("{ty:?}").to_lowercase()
}

fn val_type(ty: &ValType<'_>) -> String {
    let ValType::Ref(reference) = ty else { return format!("{ty:?}").to_lowercase() };
    let null = if reference.nullable { "null " } else { "" };
    let heap = match &reference.heap {
        HeapType::Abstract { shared: true, ty } => format!("(shared {})", abstract_heap(ty)),
        HeapType::Abstract { shared: false, ty } => abstract_heap(ty),
        HeapType::Concrete(at) => index(at),
    };
    format!("(ref {null}{heap})")
}

fn add_expression(out: &mut String, before: &str, expression: &Expression<'_>) {
    for (at, instruction) in expression.instrs.iter().enumerate() {
        let (word, operand) = parts(instruction);
        let _ = write!(out, "{before}{word}");
        let _ = match operand {
            Operand::None => Ok(()),
            Operand::Index(it) => write!(out, " {}", index(it)),
            Operand::Constant(value) => write!(out, " {value}"),
        };
        if let Some(hint) = expression.branch_hints.iter().find(|hint| hint.instr_index == at) {
            let _ = write!(out, " hint {}", hint.value);
        }
        out.push('\n');
    }
}

fn bytes(data: &[DataVal<'_>]) -> usize {
    data.iter().map(DataVal::len).sum()
}

fn payload(payload: &ElemPayload<'_>) -> String {
    match payload {
        ElemPayload::Indices(indices) => format!("indices {}", indices.len()),
        ElemPayload::Exprs { exprs, .. } => format!("exprs {}", exprs.len()),
    }
}

fn add_payload(out: &mut String, payload: &ElemPayload<'_>) {
    if let ElemPayload::Exprs { exprs, .. } = payload {
        exprs.iter().for_each(|it| add_expression(out, "  ", it));
    }
}

fn add_elem(out: &mut String, elem: &Elem<'_>) {
    let kind = match elem.kind {
        ElemKind::Passive => "passive",
        ElemKind::Declared => "declared",
        ElemKind::Active { .. } => "active",
    };
    let _ = writeln!(out, "elem {kind} {}", payload(&elem.payload));
    if let ElemKind::Active { offset, .. } = &elem.kind {
        add_expression(out, "  ", offset);
    }
    add_payload(out, &elem.payload);
}

fn add_data(out: &mut String, data: &Data<'_>) {
    let kind = if matches!(data.kind, DataKind::Passive) { "passive" } else { "active" };
    let _ = writeln!(out, "data {kind} {}", bytes(&data.data));
    if let DataKind::Active { offset, .. } = &data.kind {
        add_expression(out, "  ", offset);
    }
}

fn line(field: &ModuleField<'_>) -> String {
    match field {
        ModuleField::Type(_) => "type".to_string(),
        ModuleField::Rec(rec) => format!("rec {}", rec.types.len()),
        ModuleField::Import(_) => "import single 1".to_string(),
        ModuleField::Func(func) => match &func.kind {
            FuncKind::Import(_) => "func import".to_string(),
            FuncKind::Inline { locals, .. } => format!("func inline {}", locals.len()),
        },
        ModuleField::Table(table) => match &table.kind {
            TableKind::Import { .. } => "table import".to_string(),
            TableKind::Normal { .. } => "table normal".to_string(),
            TableKind::Inline { payload: held, .. } => format!("table inline {}", payload(held)),
        },
        ModuleField::Memory(memory) => match &memory.kind {
            MemoryKind::Import { .. } => "memory import".to_string(),
            MemoryKind::Normal(_) => "memory normal".to_string(),
            MemoryKind::Inline { data, .. } => format!("memory inline {}", bytes(data)),
        },
        ModuleField::Global(global) => match &global.kind {
            GlobalKind::Import(_) => "global import".to_string(),
            GlobalKind::Inline(_) => "global inline".to_string(),
        },
        ModuleField::Export(export) => format!("export {}", kind(export.kind)),
        ModuleField::Start(at) => format!("start {}", index(at)),
        ModuleField::Tag(tag) => match &tag.kind {
            TagKind::Import(_) => "tag import".to_string(),
            TagKind::Inline() => "tag inline".to_string(),
        },
        ModuleField::Custom(Custom::Raw(raw)) => format!("custom raw {}", raw.data.iter().map(|it| it.len()).sum::<usize>()),
        ModuleField::Custom(Custom::Producers(producers)) => format!("custom producers {}", producers.fields.len()),
        ModuleField::Custom(Custom::Dylink0(dylink)) => format!("custom dylink.0 {}", dylink.subsections.len()),
        ModuleField::Elem(_) | ModuleField::Data(_) => String::new(),
    }
}

fn kind(kind: ExportKind) -> String {
    format!("{kind:?}").to_lowercase()
}

fn add_field(out: &mut String, field: &ModuleField<'_>) {
    match field {
        ModuleField::Elem(elem) => return add_elem(out, elem),
        ModuleField::Data(data) => return add_data(out, data),
        _ => {
            let _ = writeln!(out, "{}", line(field));
        }
    }
    match field {
        ModuleField::Func(func) => {
            if let FuncKind::Inline { expression, .. } = &func.kind {
                add_expression(out, "  ", expression);
            }
        }
        ModuleField::Global(global) => {
            if let GlobalKind::Inline(expression) = &global.kind {
                add_expression(out, "  ", expression);
            }
        }
        ModuleField::Table(table) => match &table.kind {
            TableKind::Normal { init_expr: Some(expression), .. } => add_expression(out, "  ", expression),
            TableKind::Inline { payload, .. } => add_payload(out, payload),
            _ => {}
        },
        _ => {}
    }
}

fn add_module(out: &mut String, module: &Module<'_>) {
    match &module.kind {
        ModuleKind::Binary(pieces) => {
            let _ = writeln!(out, "module binary {}", pieces.iter().map(|it| it.len()).sum::<usize>());
        }
        ModuleKind::Text(fields) => {
            let _ = writeln!(out, "module text {}", fields.len());
            fields.iter().for_each(|it| add_field(out, it));
        }
    }
}

fn add_function(out: &mut String, ty: &FunctionType<'_>) {
    let params: String = ty.params.iter().map(|it| format!(" {}", val_type(&it.2))).collect();
    let results: String = ty.results.iter().map(|it| format!(" {}", val_type(it))).collect();
    let _ = writeln!(out, "params{params}\nresults{results}");
}

fn listing(mode: &str, text: &str) -> Result<String> {
    let mut lexer = Lexer::new(text);
    lexer.allow_confusing_unicode(true);
    let buffer = ParseBuffer::new_with_lexer(lexer)?;
    let mut out = String::new();
    match mode {
        "functype" => add_function(&mut out, &parser::parse::<FunctionType>(&buffer)?),
        "expr" => add_expression(&mut out, "", &parser::parse::<Expression>(&buffer)?),
        "folded" => add_expression(&mut out, "", &parser::parse::<Folded>(&buffer)?.0),
        _ => add_module(&mut out, &parser::parse::<InParens>(&buffer)?.0),
    }
    Ok(out)
}

fn main() -> std::io::Result<()> {
    let (mut input, mut out) = (std::io::stdin().lock(), std::io::stdout().lock());
    let mut head = String::new();
    while input.read_line(&mut head)? > 0 {
        let (mode, length) = head.trim_end().split_once(' ').expect("a mode and a length");
        let mut text = vec![0; length.parse().expect("a length")];
        input.read_exact(&mut text)?;
        let found = String::from_utf8(text).ok().and_then(|text| listing(mode, &text).ok());
        let (status, listed) = found.map_or((1, String::new()), |listed| (0, listed));
        write!(out, "{status} {}\n{listed}", listed.len())?;
        head.clear();
    }
    Ok(())
}
