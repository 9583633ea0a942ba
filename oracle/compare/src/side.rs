//! A side answers operations. The model is one, the Rust is one, and another
//! implementation of the rules becomes one by this trait alone.

use crate::operation::Operation;
use crate::view::View;

pub trait Side {
    fn name(&self) -> &'static str;

    /// Nothing where the side has no such operation or cannot be handed this
    /// input.
    fn view(&self, operation: &Operation) -> Option<View>;
}

pub struct Model;

impl Side for Model {
    fn name(&self) -> &'static str {
        "model"
    }

    fn view(&self, operation: &Operation) -> Option<View> {
        Some(View::of(operation, &operation.modelled()))
    }
}
