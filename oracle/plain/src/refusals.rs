//! Section "Numbers of refusal".

/// "No. | Given exactly when": the twelve refusals in the table's order, and of
/// document 02 13, "after all records, before 6", and 14, "after 1 to 7 and 13". "A refusal returns its number (4 and
/// 5 the id)".
#[derive(Clone, Copy, Debug, PartialEq, Eq, PartialOrd, Ord)]
pub enum Refusal {
    /// "1 Size | file under 16 or over 65,536 bytes"
    Size,
    /// "2 Trailer | version not 1, or last field not zero"
    Trailer,
    /// "3 Span | distance 0, not a multiple of 16, over 64,000, or over length − 16"
    Span,
    /// "4 Record(id) | unknown kind or a non-zero byte that must be zero"
    Record(usize),
    /// "5 now means an operand id not below n"
    Order(usize),
    /// "13 Cycle(id), the lowest id that reaches itself"
    Cycle(usize),
    /// "6 Root | root ≥ n"
    Root,
    /// "7 FixedRoot | root is a constant other than 1"
    FixedRoot,
    /// "8 Room | value buffer not exactly n long"
    Room,
    /// "9 Words | fewer words than non-constant nodes"
    Words,
    /// "10 Arity | a binary rule asked of Not (but reachability of Not is yes),
    /// or the unary rule of another operator"
    Arity,
    /// "11 NoInverse | inverse asked where the table says no"
    NoInverse,
    /// "12 Dry | a single value's words run out, or a range a..b with a > b is asked"
    Dry,
    /// "14 Short, exactly when the listing is longer than the buffer"
    Short,
}

impl Refusal {
    /// "A refusal returns its number".
    pub fn number(self) -> u32 {
        match self {
            Refusal::Size => 1,
            Refusal::Trailer => 2,
            Refusal::Span => 3,
            Refusal::Record(_) => 4,
            Refusal::Order(_) => 5,
            Refusal::Cycle(_) => 13,
            Refusal::Root => 6,
            Refusal::FixedRoot => 7,
            Refusal::Room => 8,
            Refusal::Words => 9,
            Refusal::Arity => 10,
            Refusal::NoInverse => 11,
            Refusal::Dry => 12,
            Refusal::Short => 14,
        }
    }

    /// "(4 and 5 the id)", and 13 "printed like 5".
    pub fn id(self) -> Option<usize> {
        match self {
            Refusal::Record(id) | Refusal::Order(id) | Refusal::Cycle(id) => Some(id),
            _ => None,
        }
    }
}
