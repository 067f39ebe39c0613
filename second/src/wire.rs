//! The form of a case on the wire, for a program at the other end of a pipe. Every number has its
//! lowest byte first.

use crate::case::{Answer, Call, Case};
use crate::reply::Reply;
use std::io::{self, BufRead, ErrorKind, Read, Write};

/// The most bytes of a table, a trace or a room.
const MOST: usize = 1 << 20;

/// A head of four numbers of 32 bits (the call, and the bytes of table, trace and room), then table,
/// trace and room.
pub fn write_case(to: &mut impl Write, case: &Case) -> io::Result<()> {
    let lengths = [case.table.len(), case.trace.len(), case.room.len()];
    for number in [case.call as usize].into_iter().chain(lengths) {
        let number = u32::try_from(number).map_err(|_| ErrorKind::InvalidInput)?;
        to.write_all(&number.to_le_bytes())?;
    }
    to.write_all(&case.table)?;
    to.write_all(&case.trace)?;
    to.write_all(&case.room)
}

/// Number and place, 64 bits each, then the room.
pub fn read_answer(from: &mut impl Read, room_bytes: usize) -> io::Result<Answer> {
    let (mut number, mut place) = ([0; 8], [0; 8]);
    from.read_exact(&mut number)?;
    from.read_exact(&mut place)?;
    let reply = Reply {
        number: u64::from_le_bytes(number),
        place: u64::from_le_bytes(place),
    };
    let mut room = vec![0; room_bytes];
    from.read_exact(&mut room)?;
    Ok(Answer { reply, room })
}

pub fn write_answer(to: &mut impl Write, answer: &Answer) -> io::Result<()> {
    to.write_all(&answer.reply.number.to_le_bytes())?;
    to.write_all(&answer.reply.place.to_le_bytes())?;
    to.write_all(&answer.room)
}

/// A case that can be answered.
pub fn read_case(from: &mut impl Read) -> io::Result<Case> {
    let mut head = [0; 4];
    for number in &mut head {
        let mut bytes = [0; 4];
        from.read_exact(&mut bytes)?;
        *number = u32::from_le_bytes(bytes) as usize;
    }
    let [call, table, trace, room] = head;
    let call = Call::ALL.into_iter().find(|&known| known as usize == call);
    let call = call.ok_or(ErrorKind::InvalidData)?;
    if table.max(trace).max(room) > MOST || room % call.unit() != 0 {
        return Err(ErrorKind::InvalidData.into());
    }
    let mut bytes = |length| {
        let mut bytes = vec![0; length];
        from.read_exact(&mut bytes).map(|()| bytes)
    };
    Ok(Case {
        call,
        table: bytes(table)?,
        trace: bytes(trace)?,
        room: bytes(room)?,
    })
}

/// Answers cases until they end.
pub fn answer_all(from: &mut impl BufRead, to: &mut impl Write) -> io::Result<()> {
    while !from.fill_buf()?.is_empty() {
        write_answer(to, &read_case(from)?.answer())?;
        to.flush()?;
    }
    Ok(())
}

#[cfg(test)]
mod tests {
    use super::*;

    #[test]
    fn the_form_of_a_case_and_of_an_answer() {
        let case = Case {
            call: Call::Finish,
            table: vec![7],
            trace: vec![4, 5],
            room: vec![1, 2, 3, 4],
        };
        let mut wire = Vec::new();
        write_case(&mut wire, &case).unwrap();
        let head = [1, 0, 0, 0, 1, 0, 0, 0, 2, 0, 0, 0, 4, 0, 0, 0];
        assert_eq!(wire, [&head[..], &[7, 4, 5, 1, 2, 3, 4]].concat());
        let wire = [15, 0, 0, 0, 0, 0, 0, 0, 2, 1, 0, 0, 0, 0, 0, 0, 9, 8];
        let answer = read_answer(&mut &wire[..], 2).unwrap();
        assert_eq!(answer.reply, Reply::new(15, 258));
        assert_eq!(answer.room, [9, 8]);
        assert!(read_answer(&mut &wire[..], 3).is_err());
    }

    #[test]
    fn cases_are_answered_until_they_end() {
        let finish = [
            &[1, 0, 0, 0, 0, 0, 0, 0, 8, 0, 0, 0, 1, 0, 0, 0][..],
            &[4; 8],
            &[9],
        ];
        let litmus = [
            &[2, 0, 0, 0, 3, 0, 0, 0, 0, 0, 0, 0, 2, 0, 0, 0][..],
            b"X86",
            &[7, 8],
        ];
        let cases = [finish.concat(), litmus.concat()].concat();
        let mut said = Vec::new();
        answer_all(&mut &cases[..], &mut said).unwrap();
        let first = [10, 0, 0, 0, 0, 0, 0, 0, 0, 0, 0, 0, 0, 0, 0, 0, 9];
        let second = [19, 0, 0, 0, 0, 0, 0, 0, 3, 0, 0, 0, 0, 0, 0, 0, 7, 8];
        assert_eq!(said, [&first[..], &second].concat());
        for length in 1..finish.concat().len() {
            assert!(answer_all(&mut &cases[..length], &mut Vec::new()).is_err());
        }
        for (at, byte) in [(0, 3), (7, 1), (11, 1), (15, 1)] {
            let mut cases = cases.clone();
            cases[at] = byte;
            assert!(answer_all(&mut &cases[..], &mut Vec::new()).is_err());
        }
    }
}
