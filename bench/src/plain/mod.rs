//! The rules once more, in plain Rust, which shares no code with the proved library.

pub mod designs;
pub mod layers;
pub mod reader;
pub mod respond;
pub mod survey;

/// One row of a list.
#[derive(Clone, Copy, Debug, Default)]
pub struct Row {
    pub stratum: u16,
    pub cluster: u16,
    pub size: u32,
}

/// A refusal by its published number.
#[derive(Clone, Copy, Debug, PartialEq, Eq)]
pub struct Fault {
    pub number: u8,
    pub row: u32,
    pub depth: u8,
}

impl Fault {
    pub fn at(number: u8, row: usize) -> Fault {
        Fault { number, row: row as u32, depth: 0 }
    }

    pub fn of(number: u8) -> Fault {
        Fault::at(number, 0)
    }

    /// As the layer above passes it upward.
    pub fn up(self, row: usize) -> Fault {
        Fault { row: row as u32, depth: self.depth.saturating_add(1), ..self }
    }
}

/// A share: numerator and denominator.
pub type Share = (u64, u64);

pub trait Design {
    fn begin(&mut self, list: &[Row], n: u32) -> Result<(), Fault>;
    fn ways(&self) -> u32;
    fn step(&mut self, d: u32) -> Result<(), Fault>;
    fn share(&self, k: usize) -> Result<Share, Fault>;

    fn taken(&self, k: usize) -> Result<bool, Fault> {
        let (numerator, denominator) = self.share(k)?;
        Ok(numerator == denominator)
    }
}

/// The checks of a list by its length.
pub fn check_count(list: &[Row]) -> Result<(), Fault> {
    match list.len() {
        0 => Err(Fault::of(1)),
        1..=1024 => Ok(()),
        _ => Err(Fault::of(2)),
    }
}

/// The checks of a list that has sizes, and the total of these.
pub fn check_list(list: &[Row], n: u32) -> Result<u64, Fault> {
    check_count(list)?;
    if n == 0 {
        return Err(Fault::of(3));
    }
    if let Some(k) = list.iter().position(|row| row.size == 0) {
        return Err(Fault::at(4, k));
    }
    let mut total = 0u64;
    for (k, row) in list.iter().enumerate() {
        total += u64::from(row.size);
        if total > 10_240_000 {
            return Err(Fault::at(5, k));
        }
    }
    Ok(total)
}

/// A step is refused without a way, and past the last.
pub fn check_step(d: u32, ways: u32) -> Result<(), Fault> {
    if ways == 0 {
        return Err(Fault::of(17));
    }
    if d >= ways {
        return Err(Fault::of(18));
    }
    Ok(())
}
