//! Why an image, a text or a list was refused.

use std::fmt;

#[derive(Clone, Copy, Debug, PartialEq, Eq, Hash)]
pub enum Layer {
    Image,
    Text,
    List,
}

#[derive(Clone, Copy, Debug, PartialEq, Eq, Hash)]
pub struct Fault {
    pub layer: Layer,
    pub number: u8,
    pub place: usize,
}

impl fmt::Display for Fault {
    fn fmt(&self, f: &mut fmt::Formatter) -> fmt::Result {
        let layer = match self.layer {
            Layer::Image => "image",
            Layer::Text => "text",
            Layer::List => "list",
        };
        write!(f, "fault {layer} {} {}", self.number, self.place)
    }
}
