//! Why a line is no question.

#[derive(Clone, Copy)]
pub enum Fault {
    UnknownField,
    UnknownOperation,
    WrongOperands,
    NotAnElement,
    NotANumber,
    NotARow,
}

impl Fault {
    pub fn reason(self) -> &'static str {
        match self {
            Fault::UnknownField => "unknown field",
            Fault::UnknownOperation => "unknown operation",
            Fault::WrongOperands => "wrong operands",
            Fault::NotAnElement => "not an element",
            Fault::NotANumber => "not a number",
            Fault::NotARow => "not a row",
        }
    }
}
