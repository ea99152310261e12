//! Lent memory of any length, with guards on both sides that no call may touch.

use std::fmt::LowerHex;

/// So many elements on each side.
const GUARDS: usize = 32;

/// Elements between guards.
pub struct Guarded<T> {
    memory: Vec<T>,
    guard: T,
    start: usize,
    length: usize,
}

impl<T: Copy + Eq + LowerHex> Guarded<T> {
    /// These elements, so many elements further than they need lie.
    pub fn new(elements: &[T], guard: T, shift: usize) -> Guarded<T> {
        let start = GUARDS + shift;
        let mut memory = vec![guard; start];
        memory.extend(elements);
        memory.extend([guard; GUARDS]);
        Guarded { memory, guard, start, length: elements.len() }
    }

    /// What is lent.
    pub fn lent(&mut self) -> &mut [T] {
        &mut self.memory[self.start..self.start + self.length]
    }

    /// Where what was lent isn't what it has to be, or a guard isn't.
    pub fn difference(&self, wanted: &[T]) -> Option<String> {
        let (before, rest) = self.memory.split_at(self.start);
        let (lent, after) = rest.split_at(self.length);
        if before.iter().chain(after).any(|&element| element != self.guard) {
            return Some("what lies around it was changed".to_string());
        }
        let place = lent.iter().zip(wanted).position(|(given, wanted)| given != wanted)?;
        Some(format!("at {place} wanted {:x}, given {:x}", wanted[place], lent[place]))
    }
}
