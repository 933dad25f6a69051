//! The levels that the module is asked over, each with the extension of its round.

use p3_binary_field::TowerLevel;
use p3_field::ExtensionField;
use tower::{Byte, Level, Pair16, Pair32, Pair64, Pile8, Pile64};

pub trait Base: Level + TowerLevel {
    type Extension: Level + ExtensionField<Self>;
}

impl Base for Byte {
    type Extension = Pair64;
}

impl Base for Pair16 {
    type Extension = Pair64;
}

impl Base for Pair32 {
    type Extension = Pair64;
}

impl Base for Pile8 {
    type Extension = Pile64;
}
