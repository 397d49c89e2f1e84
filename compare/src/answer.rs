//! What a command answers, and the line that says so.

use crate::router::{Found, Moved, Refusal, TakenIn, SLOT_BYTES};

pub enum Answer {
    Nothing,
    Lent(u32),
    Clear(Result<(), Refusal>),
    TakeIn(Result<TakenIn, Refusal>),
    Move(Result<Moved, Refusal>),
    Payload(Result<Vec<u8>, Refusal>),
    Check(Result<(), Refusal>),
    Find(Result<Found, Refusal>),
    Copy(Result<(), Refusal>),
    Slice(Vec<u8>),
    Second(Vec<u8>),
}

impl Answer {
    pub fn refusal(&self) -> Option<Refusal> {
        match self {
            Answer::Nothing | Answer::Lent(_) | Answer::Slice(_) | Answer::Second(_) => None,
            Answer::Clear(answer) | Answer::Check(answer) | Answer::Copy(answer) => answer.err(),
            Answer::TakeIn(answer) => answer.err(),
            Answer::Move(answer) => answer.err(),
            Answer::Payload(answer) => answer.as_ref().err().copied(),
            Answer::Find(answer) => answer.err(),
        }
    }

    /// The slots left that an accepted move tells.
    pub fn left_by_a_move(&self) -> Option<usize> {
        match self {
            Answer::Move(Ok(Moved::To { left, .. } | Moved::Delivered { left, .. })) => Some(*left),
            _ => None,
        }
    }

    pub fn line(&self, left_when_refused: usize) -> Option<String> {
        let number = self.refusal().map_or(0, Refusal::number);
        let place = self.refusal().map_or(0, Refusal::place);
        let line = match self {
            Answer::Nothing => return None,
            Answer::Lent(length) => format!("slice {length}"),
            Answer::Clear(_) => format!("clear {number}"),
            Answer::TakeIn(Ok(TakenIn { slot, serial, left })) => {
                format!("take 0 {slot} {serial} {left}")
            }
            Answer::TakeIn(Err(_)) => format!("take {number} 0 0 {left_when_refused}"),
            Answer::Move(answer) => move_line(number, answer, left_when_refused),
            Answer::Payload(Ok(bytes)) => format!("payload 0 {}", hexadecimal(bytes)),
            Answer::Payload(Err(_)) => format!("payload {number} -"),
            Answer::Check(_) => format!("check {number} {place}"),
            Answer::Find(Ok(Found { slot, code })) => format!("find 0 {slot} {code}"),
            Answer::Find(Err(_)) => format!("find {number} {place} 0"),
            Answer::Copy(_) => format!("copy {number} {place}"),
            Answer::Slice(bytes) => format!("bytes {}", hexadecimal(bytes)),
            Answer::Second(bytes) => format!("second {}", hexadecimal(bytes)),
        };
        Some(line)
    }
}

/// The record always has its 16 bytes: zeros unless a packet was delivered.
fn move_line(number: u32, answer: &Result<Moved, Refusal>, left_when_refused: usize) -> String {
    let (slot, record, left) = match answer {
        Ok(Moved::To { slot, left }) => (*slot, [0; SLOT_BYTES], *left),
        Ok(Moved::Delivered { record, left }) => (0, *record, *left),
        Err(_) => (0, [0; SLOT_BYTES], left_when_refused),
    };
    format!("move {number} {slot} {} {left}", hexadecimal(&record))
}

pub fn hexadecimal(bytes: &[u8]) -> String {
    if bytes.is_empty() {
        return "-".to_string();
    }
    let digit = |value: u8| char::from(if value < 10 { b'0' } else { b'a' - 10 } + value);
    let mut text = String::with_capacity(2 * bytes.len());
    for byte in bytes {
        text.push(digit(byte >> 4));
        text.push(digit(byte & 15));
    }
    text
}

#[cfg(test)]
mod tests {
    use super::*;
    use crate::router::CheckFault;

    fn line(answer: Answer) -> String {
        answer.line(0).unwrap_or_default()
    }

    #[test]
    fn bytes_are_lower_case_hexadecimal_or_a_dash() {
        assert_eq!(hexadecimal(&[0, 9, 10, 0xFF]), "00090aff");
        assert_eq!(hexadecimal(&[]), "-");
    }

    #[test]
    fn refused_answers_have_zeros_elsewhere() {
        let zeros = "0".repeat(32);
        let full = Refusal::NoEmptySlot;
        assert_eq!(line(Answer::TakeIn(Err(full))), "take 6 0 0 0");
        assert_eq!(line(Answer::Move(Err(full))), format!("move 6 0 {zeros} 0"));
        assert_eq!(
            line(Answer::Payload(Err(Refusal::SlotEmpty))),
            "payload 3 -"
        );
        assert_eq!(line(Answer::Find(Err(Refusal::NothingHeld))), "find 11 0 0");
        assert_eq!(line(Answer::Copy(Err(Refusal::WrongLength))), "copy 9 0");
    }

    #[test]
    fn number_10_names_its_place() {
        let failed = Refusal::CheckFailed(CheckFault::CountsDisagree(27));
        assert_eq!(line(Answer::Check(Err(failed))), "check 10 27");
        assert_eq!(line(Answer::Find(Err(failed))), "find 10 27 0");
        assert_eq!(line(Answer::Copy(Err(failed))), "copy 10 27");
    }

    #[test]
    fn accepted_answers_say_what_the_paper_names() {
        let taken = TakenIn {
            slot: 3,
            serial: 9,
            left: 4,
        };
        assert_eq!(line(Answer::TakeIn(Ok(taken))), "take 0 3 9 4");
        let found = Found { slot: 5, code: 6 };
        assert_eq!(line(Answer::Find(Ok(found))), "find 0 5 6");
        let record = [0xAB; SLOT_BYTES];
        let delivered = Answer::Move(Ok(Moved::Delivered { record, left: 7 }));
        assert_eq!(line(delivered), format!("move 0 0 {} 7", "ab".repeat(16)));
        let moved = Answer::Move(Ok(Moved::To { slot: 12, left: 2 }));
        assert_eq!(line(moved), format!("move 0 12 {} 2", "00".repeat(16)));
        assert!(Answer::Nothing.line(0).is_none());
    }

    #[test]
    fn only_accepted_moves_tell_slots_left_by_a_move() {
        let to = Answer::Move(Ok(Moved::To { slot: 12, left: 2 }));
        assert_eq!(to.left_by_a_move(), Some(2));
        let record = [0xAB; SLOT_BYTES];
        let delivered = Answer::Move(Ok(Moved::Delivered { record, left: 7 }));
        assert_eq!(delivered.left_by_a_move(), Some(7));
        let refused = Answer::Move(Err(Refusal::NotOffered));
        assert_eq!(refused.left_by_a_move(), None);
        assert_eq!(Answer::Check(Ok(())).left_by_a_move(), None);
    }
}
