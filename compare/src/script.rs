//! The commands of a script and their bytes, as docs/REPLAY.md gives them.

pub const SCRIPT_MOST: usize = 65_536;
pub const LENGTH_MOST: u32 = 65_536;

#[derive(Clone, Copy, Debug, PartialEq, Eq)]
pub enum Command {
    Lend {
        length: u32,
    },
    Set {
        place: u32,
        byte: u8,
    },
    Clear {
        width: u32,
        height: u32,
        depth: u32,
        profile: u32,
    },
    TakeIn {
        source: u8,
        destination: u8,
        payload: [u8; 8],
    },
    Move {
        slot: u32,
        code: u32,
    },
    Payload {
        slot: u32,
    },
    Check,
    Find,
    Copy {
        length: u32,
        fill: u8,
    },
    Show,
    ShowSecond,
}

impl Command {
    /// The others lend, set and show bytes.
    pub fn is_call(&self) -> bool {
        match self {
            Command::Lend { .. } | Command::Set { .. } | Command::Show | Command::ShowSecond => {
                false
            }
            Command::Clear { .. }
            | Command::TakeIn { .. }
            | Command::Move { .. }
            | Command::Payload { .. }
            | Command::Check
            | Command::Find
            | Command::Copy { .. } => true,
        }
    }

    pub fn letter(&self) -> u8 {
        match self {
            Command::Lend { .. } => b'L',
            Command::Set { .. } => b'S',
            Command::Clear { .. } => b'C',
            Command::TakeIn { .. } => b'T',
            Command::Move { .. } => b'M',
            Command::Payload { .. } => b'P',
            Command::Check => b'F',
            Command::Find => b'N',
            Command::Copy { .. } => b'O',
            Command::Show => b'W',
            Command::ShowSecond => b'D',
        }
    }

    pub fn encode(&self, script: &mut Vec<u8>) {
        script.push(self.letter());
        let mut numbers = |values: &[u32]| {
            for value in values {
                script.extend(value.to_le_bytes());
            }
        };
        match *self {
            Command::Lend { length } => numbers(&[length]),
            Command::Clear {
                width,
                height,
                depth,
                profile,
            } => numbers(&[width, height, depth, profile]),
            Command::Move { slot, code } => numbers(&[slot, code]),
            Command::Payload { slot } => numbers(&[slot]),
            Command::Set { place, byte } => {
                numbers(&[place]);
                script.push(byte);
            }
            Command::Copy { length, fill } => {
                numbers(&[length]);
                script.push(fill);
            }
            Command::TakeIn {
                source,
                destination,
                payload,
            } => {
                script.extend([source, destination]);
                script.extend(payload);
            }
            Command::Check | Command::Find | Command::Show | Command::ShowSecond => {}
        }
    }

    /// Nothing for an unknown letter or a command cut off; else the command and the bytes after it.
    pub fn decode(script: &[u8]) -> Option<(Command, &[u8])> {
        let (letter, mut rest) = script.split_first()?;
        let command = match letter {
            b'L' => Command::Lend {
                length: number(&mut rest)?,
            },
            b'S' => Command::Set {
                place: number(&mut rest)?,
                byte: byte(&mut rest)?,
            },
            b'C' => Command::Clear {
                width: number(&mut rest)?,
                height: number(&mut rest)?,
                depth: number(&mut rest)?,
                profile: number(&mut rest)?,
            },
            b'T' => Command::TakeIn {
                source: byte(&mut rest)?,
                destination: byte(&mut rest)?,
                payload: bytes(&mut rest)?,
            },
            b'M' => Command::Move {
                slot: number(&mut rest)?,
                code: number(&mut rest)?,
            },
            b'P' => Command::Payload {
                slot: number(&mut rest)?,
            },
            b'O' => Command::Copy {
                length: number(&mut rest)?,
                fill: byte(&mut rest)?,
            },
            letter => bare(*letter)?,
        };
        Some((command, rest))
    }
}

fn bare(letter: u8) -> Option<Command> {
    match letter {
        b'F' => Some(Command::Check),
        b'N' => Some(Command::Find),
        b'W' => Some(Command::Show),
        b'D' => Some(Command::ShowSecond),
        _ => None,
    }
}

fn bytes<const COUNT: usize>(rest: &mut &[u8]) -> Option<[u8; COUNT]> {
    let (bytes, after) = rest.split_first_chunk()?;
    *rest = after;
    Some(*bytes)
}

fn byte(rest: &mut &[u8]) -> Option<u8> {
    bytes(rest).map(|[byte]| byte)
}

fn number(rest: &mut &[u8]) -> Option<u32> {
    bytes(rest).map(u32::from_le_bytes)
}

#[cfg(test)]
mod tests {
    use super::*;

    fn encoded(command: Command) -> Vec<u8> {
        let mut script = Vec::new();
        command.encode(&mut script);
        script
    }

    #[test]
    fn numbers_are_little_endian_with_nothing_between() {
        let command = Command::Move {
            slot: 0x0102_0304,
            code: 7,
        };
        assert_eq!(encoded(command), *b"M\x04\x03\x02\x01\x07\0\0\0");
        let command = Command::Copy {
            length: 256,
            fill: 0xEE,
        };
        assert_eq!(encoded(command), *b"O\0\x01\0\0\xEE");
        let command = Command::Clear {
            width: 4,
            height: 3,
            depth: 256,
            profile: 2,
        };
        let numbers = b"\x04\0\0\0\x03\0\0\0\0\x01\0\0\x02\0\0\0";
        assert_eq!(encoded(command), [&b"C"[..], numbers].concat());
    }

    #[test]
    fn decoding_undoes_encoding_and_refuses_every_cut() {
        let commands = [
            Command::Lend { length: 65_536 },
            Command::Set { place: 9, byte: 8 },
            Command::Clear {
                width: 3,
                height: u32::MAX,
                depth: 1,
                profile: 2,
            },
            Command::TakeIn {
                source: 1,
                destination: 2,
                payload: *b"abcdefgh",
            },
            Command::Move { slot: 4, code: 6 },
            Command::Payload { slot: 77 },
            Command::Check,
            Command::Find,
            Command::Copy { length: 4, fill: 5 },
            Command::Show,
            Command::ShowSecond,
        ];
        for command in commands {
            let whole = encoded(command);
            assert_eq!(Command::decode(&whole), Some((command, &[][..])));
            for cut in 0..whole.len() {
                assert_eq!(Command::decode(&whole[..cut]), None);
            }
        }
    }
}
