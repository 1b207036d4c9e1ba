//! A numbered refusal with its place.

#[derive(Clone, Copy, Debug, PartialEq, Eq)]
pub struct Refusal {
    pub number: u16,
    pub place: usize,
}

impl std::fmt::Display for Refusal {
    fn fmt(&self, out: &mut std::fmt::Formatter<'_>) -> std::fmt::Result {
        write!(out, "refused {} {}", self.number, self.place)
    }
}

pub fn refuse<T>(number: u16, place: usize) -> Result<T, Refusal> {
    Err(Refusal { number, place })
}
