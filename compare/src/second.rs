//! Runs a script on the second router and writes the lines that docs/REPLAY.md asks for.

use crate::answer::Answer;
use crate::calls::Calls;
use crate::router::{Profile, Refusal, Trailer};
use crate::script::{Command, LENGTH_MOST, SCRIPT_MOST};

/// The slice and the second buffer that a script's commands work on.
#[derive(Default)]
pub struct Memory {
    pub slice: Vec<u8>,
    pub second: Vec<u8>,
}

/// One line of the output with the command that wrote it.
pub struct Line {
    pub index: usize,
    pub letter: u8,
    pub text: String,
    pub given: Option<Given>,
}

/// A command carried out, the refusal it got, if it got one, the slots left if it was an accepted
/// move, and the profile of the table that it left.
#[derive(Clone, Copy)]
pub struct Given {
    pub command: Command,
    pub refusal: Option<Refusal>,
    pub left_by_a_move: Option<usize>,
    pub profile: Option<Profile>,
}

impl Memory {
    /// Nothing, and nothing carried out, for a length or a place that makes the script malformed.
    pub fn carry_out(&mut self, router: &dyn Calls, command: Command) -> Option<Answer> {
        let slice = &mut self.slice;
        let answer = match command {
            Command::Lend { length } => {
                *slice = buffer(length, 0)?;
                Answer::Lent(length)
            }
            Command::Set { place, byte } => {
                *slice.get_mut(usize::try_from(place).ok()?)? = byte;
                Answer::Nothing
            }
            Command::Clear {
                width,
                height,
                depth,
                profile,
            } => Answer::Clear(router.clear(slice, [width, height, depth, profile])),
            Command::TakeIn {
                source,
                destination,
                payload,
            } => Answer::TakeIn(router.take_in(slice, [source, destination], payload)),
            Command::Move { slot, code } => Answer::Move(router.make_move(slice, slot, code)),
            Command::Payload { slot } => Answer::Payload(router.read_payload(slice, slot)),
            Command::Check => Answer::Check(router.full_check(slice)),
            Command::Find => Answer::Find(router.find(slice)),
            Command::Copy { length, fill } => {
                self.second = buffer(length, fill)?;
                Answer::Copy(router.outward_copy(slice, &mut self.second))
            }
            Command::Show => Answer::Slice(slice.clone()),
            Command::ShowSecond => Answer::Second(self.second.clone()),
        };
        Some(answer)
    }

    /// Nothing where the slice has no good trailer.
    fn profile(&self) -> Option<Profile> {
        Trailer::decode(&self.slice).map(|trailer| trailer.profile)
    }
}

fn buffer(length: u32, fill: u8) -> Option<Vec<u8>> {
    let accepted = length <= LENGTH_MOST;
    accepted.then(|| vec![fill; usize::try_from(length).unwrap_or_default()])
}

pub fn run(script: &[u8], router: &dyn Calls) -> Vec<Line> {
    let mut lines = Vec::new();
    if script.len() > SCRIPT_MOST {
        lines.push(malformed(0, script.first().copied(), SCRIPT_MOST));
        return lines;
    }
    let mut memory = Memory::default();
    let mut rest = script;
    let mut index = 0;
    while let Some(letter) = rest.first().copied() {
        let offset = script.len() - rest.len();
        let Some((command, after)) = Command::decode(rest) else {
            lines.push(malformed(index, Some(letter), offset));
            break;
        };
        let Some(answer) = memory.carry_out(router, command) else {
            lines.push(malformed(index, Some(letter), offset));
            break;
        };
        let left_when_refused = router.left_when_refused(&memory.slice, command);
        if let Some(text) = answer.line(left_when_refused) {
            let given = Given {
                command,
                refusal: answer.refusal(),
                left_by_a_move: answer.left_by_a_move(),
                profile: memory.profile(),
            };
            lines.push(Line {
                index,
                letter,
                text,
                given: Some(given),
            });
        }
        rest = after;
        index += 1;
    }
    lines
}

fn malformed(index: usize, letter: Option<u8>, offset: usize) -> Line {
    Line {
        index,
        letter: letter.unwrap_or_default(),
        text: format!("malformed at {offset}"),
        given: None,
    }
}

pub fn output(lines: &[Line]) -> Vec<u8> {
    let mut output = Vec::new();
    for line in lines {
        output.extend(line.text.as_bytes());
        output.push(b'\n');
    }
    output
}

#[cfg(test)]
mod tests {
    use super::*;
    use crate::calls::SecondRouter;

    fn texts(script: &[u8]) -> Vec<String> {
        let lines = run(script, &SecondRouter);
        lines.into_iter().map(|line| line.text).collect()
    }

    fn script(commands: &[Command]) -> Vec<u8> {
        let mut script = Vec::new();
        commands
            .iter()
            .for_each(|command| command.encode(&mut script));
        script
    }

    const CLEAR: Command = Command::Clear {
        width: 2,
        height: 1,
        depth: 1,
        profile: 0,
    };

    #[test]
    fn without_a_slice_every_call_answers() {
        let calls = b"C\x01\0\0\0\x01\0\0\0\x01\0\0\0\0\0\0\0T\0\0abcdefghP\0\0\0\0FNWD";
        let expected = [
            "clear 9",
            "take 1 0 0 0",
            "payload 1 -",
            "check 1 0",
            "find 1 0 0",
            "bytes -",
            "second -",
        ];
        assert_eq!(texts(calls), expected);
    }

    #[test]
    fn a_short_life_of_one_packet() {
        let commands = [
            Command::Lend { length: 113 },
            Command::Set { place: 0, byte: 7 },
            CLEAR,
            Command::TakeIn {
                source: 0,
                destination: 1,
                payload: *b"payloads",
            },
            Command::Find,
            Command::Payload { slot: 0 },
            Command::Move { slot: 0, code: 1 },
            Command::Check,
            Command::Copy {
                length: 112,
                fill: 9,
            },
            Command::Show,
            Command::ShowSecond,
        ];
        let slot = "01000100".to_string() + "00000000";
        let trailer = "02010100010000000000000070000000";
        let packet = format!("{slot}{}", "7061796c6f616473");
        let shown = format!("07{}{packet}{}{trailer}", "00".repeat(16), "00".repeat(64));
        let copied = format!("{}{slot}{}{trailer}", "00".repeat(16), "00".repeat(72));
        let expected = [
            "slice 113".to_string(),
            "clear 0".to_string(),
            "take 0 0 0 0".to_string(),
            "find 0 0 1".to_string(),
            "payload 0 7061796c6f616473".to_string(),
            format!("move 0 1 {} 0", "00".repeat(16)),
            "check 0 0".to_string(),
            "copy 0 0".to_string(),
            format!("bytes {shown}"),
            format!("second {copied}"),
        ];
        assert_eq!(texts(&script(&commands)), expected);
    }

    #[test]
    fn the_last_number_of_a_clear_is_the_profile() {
        let clear = |profile| Command::Clear {
            width: 1,
            height: 1,
            depth: 1,
            profile,
        };
        let commands = [
            Command::Lend { length: 64 },
            clear(2),
            Command::Show,
            clear(3),
            Command::Lend { length: 63 },
            clear(2),
            clear(3),
        ];
        let zeros = "00".repeat(48);
        let shown = format!("bytes {zeros}01010102000000000000000040000000");
        let expected = [
            "slice 64", "clear 0", &shown, "clear 8", "slice 63", "clear 9", "clear 8",
        ];
        assert_eq!(texts(&script(&commands)), expected);
    }

    #[test]
    fn the_slots_left_end_the_line() {
        let take = Command::TakeIn {
            source: 0,
            destination: 0,
            payload: [0; 8],
        };
        let enter = Command::Move { slot: 0, code: 1 };
        let deliver = |slot| Command::Move { slot, code: 7 };
        let commands = [
            Command::Lend { length: 96 },
            Command::Clear {
                width: 1,
                height: 1,
                depth: 2,
                profile: 0,
            },
            take,
            take,
            enter,
            enter,
            take,
            enter,
            take,
            enter,
            deliver(3),
            deliver(4),
        ];
        let zeros = "0".repeat(32);
        let record = |serial| format!("01000000{serial:02}{}", "0".repeat(22));
        let expected = [
            "take 0 0 0 0".to_string(),
            "take 6 0 0 0".to_string(),
            format!("move 0 3 {zeros} 1"),
            format!("move 3 0 {zeros} 0"),
            "take 0 0 1 0".to_string(),
            format!("move 0 4 {zeros} 0"),
            "take 0 0 2 0".to_string(),
            format!("move 6 0 {zeros} 0"),
            format!("move 0 0 {} 1", record(0)),
            format!("move 0 0 {} 2", record(1)),
        ];
        assert_eq!(texts(&script(&commands))[2..], expected);
    }

    #[test]
    fn a_refused_copy_leaves_the_fill() {
        let commands = [
            Command::Copy { length: 2, fill: 9 },
            Command::ShowSecond,
            Command::Lend { length: 1 },
            Command::ShowSecond,
        ];
        let expected = ["copy 1 0", "second 0909", "slice 1", "second 0909"];
        assert_eq!(texts(&script(&commands)), expected);
    }

    #[test]
    fn malformed_commands_end_the_run_at_their_letter() {
        let lend = Command::Lend { length: 4 };
        let after = |bytes: &[u8]| [&script(&[lend]), bytes].concat();
        for bytes in [
            &b"x"[..],
            b"c",
            b"\n",
            b"M\0\0\0\0\x01\0\0",
            b"C\x01\0\0\0\x01\0\0\0\x01\0\0\0",
            b"S\x04\0\0\0\x01",
            b"S\xFF\xFF\xFF\xFF\x01",
            b"L\x01\0\x01\0",
            b"O\x01\0\x01\0\0",
        ] {
            let expected = ["slice 4", "malformed at 5"];
            assert_eq!(texts(&after(bytes)), expected, "{bytes:?}");
        }
        assert_eq!(texts(&after(b"S\x03\0\0\0\x01W"))[1], "bytes 00000001");
        assert_eq!(texts(&after(b"L\0\0\x01\0"))[1], "slice 65536");
    }

    #[test]
    fn the_script_may_have_65536_bytes_and_not_one_more() {
        assert_eq!(texts(&[b'F'; 65_536]).len(), 65_536);
        assert_eq!(texts(&[b'F'; 65_537]), ["malformed at 65536"]);
        assert!(texts(b"").is_empty());
    }
}
