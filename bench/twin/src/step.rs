//! A record of a script, read as a call.

use crate::line::Call;
use crate::machine::{Command, Kind};
use crate::text::{Field, Record};

/// Why a record is no call, and at which offset.
#[derive(Clone, Copy, Debug, PartialEq, Eq)]
pub enum Flaw {
    NotSevenFields,
    UnknownLetter(usize),
    NoNumber(usize),
    NotEmpty(usize),
}

const NUMBER: u64 = 999_999_999_999_999;

/// The call that a record says. Fields are read from left to right and the first flaw counts.
pub fn read(record: &Record) -> Result<Call, Flaw> {
    let [letter, fields @ ..] = &record.fields[..] else {
        return Err(Flaw::NotSevenFields);
    };
    let [member, number, set, class, first, second] = *fields else {
        return Err(Flaw::NotSevenFields);
    };
    let numbered = || -> Result<(u8, u64), Flaw> {
        let read = (byte(member)?, within(number, 0, NUMBER)?);
        empty(&[set, class, first, second])?;
        Ok(read)
    };
    match letter.text {
        b"O" => {
            let (members, last) = (byte(member)?, within(number, 0, NUMBER)?);
            empty(&[set])?;
            let kind = match within(class, 1, 3)? {
                1 => Kind::AxisBank,
                2 => Kind::Recorder,
                _ => Kind::Tally,
            };
            empty(&[first, second])?;
            Ok(Call::Open { members, last, kind })
        }
        b"S" => {
            let sender = byte(member)?;
            empty(&[number])?;
            let set = within(set, 0, u16::MAX.into())? as u16;
            let command = match within(class, 1, 4)? {
                1 => Command::Set { axis: byte(first)?, value: word(second)? },
                2 => Command::Shift { axis: byte(first)?, amount: word(second)? },
                3 => Command::Couple { from: byte(first)?, to: byte(second)? },
                _ => {
                    let code = word(first)?;
                    empty(&[second])?;
                    Command::Mark { code }
                }
            };
            Ok(Call::Send { sender, set, command })
        }
        b"H" => numbered().map(|(member, number)| Call::Hear { member, number }),
        b"G" => numbered().map(|(member, number)| Call::Gather { member, number }),
        b"T" => numbered().map(|(member, number)| Call::Settle { member, number }),
        b"R" => {
            let member = byte(member)?;
            empty(&[number, set, class, first, second])?;
            Ok(Call::Run { member })
        }
        _ => Err(Flaw::UnknownLetter(letter.offset)),
    }
}

fn byte(field: Field) -> Result<u8, Flaw> {
    Ok(within(field, 0, u8::MAX.into())? as u8)
}

fn word(field: Field) -> Result<u32, Flaw> {
    Ok(within(field, 0, u32::MAX.into())? as u32)
}

/// Digits alone, without a leading zero but 0 itself, from `least` to `greatest`.
fn within(field: Field, least: u64, greatest: u64) -> Result<u64, Flaw> {
    let digits = field.text.iter().all(u8::is_ascii_digit);
    let leading = field.text.len() > 1 && field.text[0] == b'0';
    let number = std::str::from_utf8(field.text).ok().and_then(|text| text.parse().ok());
    number
        .filter(|number| digits && !leading && (least..=greatest).contains(number))
        .ok_or(Flaw::NoNumber(field.offset))
}

fn empty(fields: &[Field]) -> Result<(), Flaw> {
    match fields.iter().find(|field| !field.text.is_empty()) {
        Some(field) => Err(Flaw::NotEmpty(field.offset)),
        None => Ok(()),
    }
}
