//! Which moves a board has, by document 02's order 2.

#[derive(Clone, Copy, Debug, PartialEq, Eq, PartialOrd, Ord)]
pub enum Profile {
    /// 0: all moves.
    Full,
    /// 1: no codes 3 and 5 in A.
    Adapt,
    /// 2: one hop only.
    Oblivious,
}

impl Profile {
    pub const ALL: [Profile; 3] = [Profile::Full, Profile::Adapt, Profile::Oblivious];

    /// Nothing for a number above 2.
    pub fn new(number: u32) -> Option<Profile> {
        let number = usize::try_from(number).ok()?;
        Profile::ALL.get(number).copied()
    }

    pub fn number(self) -> u8 {
        match self {
            Profile::Full => 0,
            Profile::Adapt => 1,
            Profile::Oblivious => 2,
        }
    }
}
