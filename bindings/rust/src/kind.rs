//! The kinds of faults.

macro_rules! kinds {
    ($($(#[$doc:meta])* $name:ident = $number:literal,)*) => {
        /// The kind of a fault: a constant `WAT_FAULT_..` of `wat.h`.
        #[derive(Clone, Copy, Debug, PartialEq, Eq, Hash)]
        #[non_exhaustive]
        pub enum FaultKind {
            $($(#[$doc])* $name,)*
            /// Another number: the library is of a later version than this crate.
            Other(usize),
        }

        impl FaultKind {
            /// Returns the number of the kind.
            pub const fn number(self) -> usize {
                match self {
                    $(FaultKind::$name => $number,)*
                    FaultKind::Other(number) => number,
                }
            }

            /// Returns the name of the kind, as `wat check --json` prints it.
            pub const fn name(self) -> &'static str {
                match self {
                    $(FaultKind::$name => stringify!($name),)*
                    FaultKind::Other(_) => "Other",
                }
            }

            pub(crate) const fn of(number: usize) -> FaultKind {
                match number {
                    $($number => FaultKind::$name,)*
                    _ => FaultKind::Other(number),
                }
            }
        }
    };
}

kinds! {
    /// No fault: the number of further invalid fields, or of further errors of names, blocks and imports.
    More = 0,
    /// An allocation failed. No text has this fault.
    Memory = 1,
    /// A character that begins no token and no blank.
    LexChar = 2,
    /// A string that isn't closed, or has a character or an escape that no string may have.
    LexString = 3,
    /// A block comment that isn't closed.
    LexComment = 4,
    /// A group of an annotation that isn't closed.
    LexAnnotation = 5,
    /// Another token is needed.
    Unexpected = 6,
    /// A number that is too large, or has a sign that it may not have.
    Range = 7,
    /// Bytes that aren't UTF-8.
    Utf8 = 8,
    /// Another token where a float literal is needed.
    FloatLiteral = 9,
    /// An alignment that isn't a power of two.
    Alignment = 10,
    /// A page size that isn't a power of two.
    PageSize = 11,
    /// A word that isn't an instruction, or the end of the text in an `if`.
    Operator = 12,
    /// A parameter after a result.
    ParamAfterResult = 13,
    /// An `if` without a group `(then ..)`.
    IfWithoutThen = 14,
    /// A group after `(else ..)`.
    IfTooMany = 15,
    /// A branch hint whose string isn't one byte, 0 or 1.
    HintValue = 16,
    /// A second branch hint for one instruction.
    HintTwice = 17,
    /// A branch hint without an instruction after it.
    HintPlace = 18,
    /// Items of one import with and without a type.
    ImportMixed = 19,
    /// An identifier in the type that the items of an import share.
    ImportId = 20,
    /// An instruction other than `br_if` and `if` after a branch hint.
    HintTarget = 21,
    /// An identifier that isn't defined in its index space.
    UnknownName = 101,
    /// An identifier that is defined a second time in its index space.
    DoubledName = 102,
    /// A label that no enclosing block has.
    UnknownLabel = 103,
    /// A label after `else` or `end` that isn't the label of the block.
    OtherLabel = 104,
    /// An `end` that ends no block.
    SurplusEnd = 105,
    /// A block without its `end`.
    UnclosedBlock = 106,
    /// An `else` that isn't directly in an `if`, or a second `else`.
    MisplacedElse = 107,
    /// A `catch`, `catch_all` or `delegate` that isn't directly in a `try`, or that a clause before it excludes.
    MisplacedCatch = 108,
    /// An import after the definition of a function, table, memory, global or tag.
    LateImport = 109,
}
