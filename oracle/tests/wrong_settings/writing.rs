//! A writer of lists with a flaw: the right answer and buffer, bent.

use super::flaws::Flaw;
use oracle::format::Fault;
use oracle::settings::answer::UNTOUCHED;
use oracle::settings::reading::Migration;
use oracle::settings::writing::{list, write_back};

type Written = Result<usize, Fault>;

pub fn wrong_writing(flaw: Flaw, migration: &Migration, number: usize, room: usize) -> (Written, Vec<u8>) {
    let mut buffer = vec![UNTOUCHED; room];
    let number = match flaw {
        Flaw::NumberOfList if migration.refusal == 0 => migration.number,
        Flaw::NumberCutToRoom => number.min(64),
        _ => number,
    };
    let right = write_back(&migration.settings, number, &mut buffer);
    let written = match flaw {
        Flaw::NoneWritten if number == 0 && room > 0 => {
            buffer[0] = 0;
            Ok(1)
        }
        Flaw::RoomBeforeNumber if number > 64 && room < 1 + 9 * number => refused(18, 1 + 9 * number),
        Flaw::BufferCleared if right.is_err() => {
            buffer.fill(0);
            right
        }
        _ => bent(flaw, migration, right, &mut buffer),
    };
    (written, buffer)
}

fn refused(refusal: u8, place: usize) -> Written {
    Err(Fault { refusal, place })
}

fn bent(flaw: Flaw, migration: &Migration, right: Written, buffer: &mut [u8]) -> Written {
    let room = buffer.len();
    match (flaw, right) {
        (Flaw::BytePastEnd, Ok(length)) if length < room => buffer[length] = 0,
        (Flaw::ShortBufferFilled, Err(Fault { refusal: 18, place })) => {
            let whole = list(&migration.settings[..place / 9]);
            buffer.copy_from_slice(&whole[..room]);
        }
        (Flaw::ExactRoomRefused, Ok(length)) if length == room => {
            buffer.fill(UNTOUCHED);
            return refused(18, length);
        }
        (Flaw::PlaceOfRoom, Err(Fault { refusal: 18, .. })) => return refused(18, room),
        (Flaw::WrittenIsRoom, Ok(_)) => return Ok(room),
        _ => {}
    }
    right
}
