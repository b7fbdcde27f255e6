//! What an answer other than 0 says, under the names of the order's table.

use std::error::Error;
use std::fmt::{self, Display, Formatter};

use crate::raw::Answer;

/// A stretch of the rule's text, in bytes.
#[derive(Clone, Copy, Debug, Eq, PartialEq)]
pub struct Span {
    pub start: u64,
    pub end: u64,
}

impl Display for Span {
    fn fmt(&self, f: &mut Formatter<'_>) -> fmt::Result {
        write!(f, "{}..{}", self.start, self.end)
    }
}

/// The function that a refusal is in: the number of its name, and how many functions are open around it; the script is 3 and has none.
#[derive(Clone, Copy, Debug, Eq, PartialEq)]
pub struct Within {
    pub function: u64,
    pub around: u64,
}

/// Why there is no image, or no code, or no span. `at` is a place in the tree file, `span` one in the text, `name` the number of a name, `within`
/// the function.
#[derive(Clone, Copy, Debug, Eq, PartialEq)]
#[non_exhaustive]
pub enum Refusal {
    WorkShort,
    TreeTooLong,
    TreeForm {
        at: u64,
    },
    TreeTooDeep {
        at: u64,
    },
    TooManyOpen {
        at: u64,
    },
    AlreadyDefined {
        span: Span,
        name: u64,
        within: Within,
    },
    AccessInsideInitializer {
        span: Span,
        name: u64,
        within: Within,
    },
    ClassInheritFromSelf {
        span: Span,
        name: u64,
        within: Within,
    },
    JumpTooLarge {
        span: Span,
        within: Within,
    },
    TooManyArgs {
        span: Span,
        within: Within,
    },
    TooManyConstants {
        span: Span,
        within: Within,
    },
    TooManyLocals {
        span: Span,
        within: Within,
    },
    TooManyParams {
        span: Span,
        within: Within,
    },
    TooManyUpvalues {
        span: Span,
        within: Within,
    },
    ReturnInInitializer {
        span: Span,
        within: Within,
    },
    ReturnOutsideFunction {
        span: Span,
        within: Within,
    },
    SuperOutsideClass {
        span: Span,
        within: Within,
    },
    SuperWithoutSuperclass {
        span: Span,
        within: Within,
    },
    ThisOutsideClass {
        span: Span,
        within: Within,
    },
    CodeFull {
        within: Within,
    },
    OutFull {
        needed: u64,
    },
    ImageRefused,
    NoSuchFunction,
    NoSuchByte,
    /// A number that is not listed. The contracts rule it out; it is here so that nothing has to panic.
    Unlisted {
        number: u64,
    },
}

impl Refusal {
    /// The refusal of an answer, where it is one.
    pub(crate) fn of(answer: Answer) -> Result<(), Self> {
        let Answer { number, at, name, function, around, .. } = answer;
        let span = Span { start: at, end: answer.end };
        let within = Within { function, around };
        Err(match number {
            0 => return Ok(()),
            1 => Self::WorkShort,
            2 => Self::TreeTooLong,
            3 => Self::TreeForm { at },
            4 => Self::TreeTooDeep { at },
            5 => Self::TooManyOpen { at },
            10 => Self::AlreadyDefined { span, name, within },
            11 => Self::AccessInsideInitializer { span, name, within },
            12 => Self::ClassInheritFromSelf { span, name, within },
            13..=23 => Self::at_span(number, span, within),
            30 => Self::CodeFull { within },
            31 => Self::OutFull { needed: answer.length },
            40 => Self::ImageRefused,
            41 => Self::NoSuchFunction,
            42 => Self::NoSuchByte,
            _ => Self::Unlisted { number },
        })
    }

    fn at_span(number: u64, span: Span, within: Within) -> Self {
        match number {
            13 => Self::JumpTooLarge { span, within },
            14 => Self::TooManyArgs { span, within },
            15 => Self::TooManyConstants { span, within },
            16 => Self::TooManyLocals { span, within },
            17 => Self::TooManyParams { span, within },
            18 => Self::TooManyUpvalues { span, within },
            19 => Self::ReturnInInitializer { span, within },
            20 => Self::ReturnOutsideFunction { span, within },
            21 => Self::SuperOutsideClass { span, within },
            22 => Self::SuperWithoutSuperclass { span, within },
            23 => Self::ThisOutsideClass { span, within },
            _ => Self::Unlisted { number },
        }
    }

    /// The function that it is in, where it is in one.
    pub fn within(&self) -> Option<Within> {
        match *self {
            Self::CodeFull { within } => Some(within),
            _ => self.place().map(|(_, within)| within),
        }
    }

    /// Where in the text it is, and in which function, where it is at a place of the text.
    fn place(&self) -> Option<(Span, Within)> {
        match *self {
            Self::AlreadyDefined { span, within, .. }
            | Self::AccessInsideInitializer { span, within, .. }
            | Self::ClassInheritFromSelf { span, within, .. }
            | Self::JumpTooLarge { span, within }
            | Self::TooManyArgs { span, within }
            | Self::TooManyConstants { span, within }
            | Self::TooManyLocals { span, within }
            | Self::TooManyParams { span, within }
            | Self::TooManyUpvalues { span, within }
            | Self::ReturnInInitializer { span, within }
            | Self::ReturnOutsideFunction { span, within }
            | Self::SuperOutsideClass { span, within }
            | Self::SuperWithoutSuperclass { span, within }
            | Self::ThisOutsideClass { span, within } => Some((span, within)),
            _ => None,
        }
    }

    /// Its text, in which names of this tree file stand as the file has them: the function, and the name that 10, 11 and 12 are about.
    /// `Display` has their numbers.
    pub fn text(&self, tree: &[u8]) -> String {
        Shown { refusal: self, tree: Some(tree) }.to_string()
    }
}

impl Display for Refusal {
    fn fmt(&self, f: &mut Formatter<'_>) -> fmt::Result {
        Shown { refusal: self, tree: None }.fmt(f)
    }
}

impl Error for Refusal {}

/// A refusal on its way into a text, with the tree file where it is at hand.
struct Shown<'a> {
    refusal: &'a Refusal,
    tree: Option<&'a [u8]>,
}

impl Shown<'_> {
    /// A name: its text between quotes, or what it is the name of and its number.
    fn name(&self, of: &str, number: u64) -> String {
        let text = |tree| u16::try_from(number).ok().and_then(|number| crate::name_text(tree, number));
        match self.tree.and_then(text) {
            Some(text) => format!("'{}'", String::from_utf8_lossy(text)),
            None => format!("{of} {number}"),
        }
    }

    fn within(&self, Within { function, around }: Within) -> String {
        match around {
            0 => "in the script".to_string(),
            _ => format!("in {}, {around} deep", self.name("function", function)),
        }
    }
}

impl Display for Shown<'_> {
    fn fmt(&self, f: &mut Formatter<'_>) -> fmt::Result {
        use Refusal::*;
        if let Some((span, within)) = self.refusal.place() {
            write!(f, "text {span}, {}: ", self.within(within))?;
        }
        match *self.refusal {
            WorkShort => write!(f, "the lent table has fewer than {} words", crate::TABLE_WORDS),
            TreeTooLong => write!(f, "the tree file has more than {} bytes", crate::MAX_TREE),
            TreeForm { at } => write!(f, "byte {at} of the tree file: no sound record starts here"),
            TreeTooDeep { at } => write!(f, "byte {at} of the tree file: this record lies too deep in others"),
            TooManyOpen { at } => write!(f, "byte {at} of the tree file: too many functions around this one"),
            AlreadyDefined { name, .. } => write!(f, "{} is taken in this scope", self.name("name", name)),
            AccessInsideInitializer { name, .. } => {
                write!(f, "{} is read in its own initial value", self.name("name", name))
            }
            ClassInheritFromSelf { name, .. } => write!(f, "{} is its own superclass", self.name("class", name)),
            JumpTooLarge { .. } => write!(f, "too much code to jump over"),
            TooManyArgs { .. } => write!(f, "a call takes no more than 255 arguments"),
            TooManyConstants { .. } => write!(f, "a function holds no more than 256 constants"),
            TooManyLocals { .. } => write!(f, "a function holds no more than 256 variables at a time"),
            TooManyParams { .. } => write!(f, "a function takes no more than 255 parameters"),
            TooManyUpvalues { .. } => write!(f, "a function captures no more than 256 variables"),
            ReturnInInitializer { .. } => write!(f, "an initializer hands back no value"),
            ReturnOutsideFunction { .. } => write!(f, "there is no function to return from"),
            SuperOutsideClass { .. } => write!(f, "super stands in no class"),
            SuperWithoutSuperclass { .. } => write!(f, "super stands in a class without a superclass"),
            ThisOutsideClass { .. } => write!(f, "this stands in no class"),
            CodeFull { within } => {
                write!(f, "{}: the open functions have more code than there is room for", self.within(within))
            }
            OutFull { needed } => write!(f, "the output is too short: the image has {needed} bytes"),
            ImageRefused => write!(f, "these bytes are no image"),
            NoSuchFunction => write!(f, "the image has no function of this number"),
            NoSuchByte => write!(f, "the code has no byte at this offset"),
            Unlisted { number } => write!(f, "answer {number}, which is not listed"),
        }
    }
}
