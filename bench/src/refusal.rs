//! What a refusal of any layer tells: a number, the letter of the layer that refused, and a place.

#[derive(Clone, Copy, Debug, PartialEq, Eq)]
pub struct Refusal {
    pub number: u8,
    pub layer: char,
    pub place: usize,
}

impl Refusal {
    pub fn new(number: u8, layer: char) -> Refusal {
        Refusal::at(number, layer, 0)
    }

    pub fn at(number: u8, layer: char, place: usize) -> Refusal {
        Refusal {
            number,
            layer,
            place,
        }
    }
}
