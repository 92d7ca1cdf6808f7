//! What every domain can do. Operations change a state in place.

use crate::line::{Condition, Value};
use crate::range::Range;
use crate::travel::Side;

pub trait Domain: Clone {
    fn any() -> Self;
    fn none() -> Self;
    fn narrow(&mut self, register: usize, range: Range);
    fn keep(&mut self, condition: Condition);
    fn set(&mut self, register: usize, value: Value);
    fn join(&mut self, other: &Self);
    fn widen(&mut self, new: &Self);
    fn within(&self, other: &Self) -> bool;
    fn sure(&self, value: Value) -> bool;
    fn shows(&self, side: &Side) -> bool;
    fn range(&self, register: usize, range: Range) -> Range;
}
