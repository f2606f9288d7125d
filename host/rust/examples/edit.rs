//! The service case: two edits of ten bytes in one block of 512, begun together, on a drive in memory. The last line is
//! `ok`.

use pitch_dock::{Answer, Begun, Dock, Due, Piece, Refusal, Vector};
use std::process::ExitCode;

const BLOCK: usize = 512;
const BOUNCE: u64 = 4096;
const ROW: usize = 1;
const EDIT: usize = 10;
const FIRST: (usize, u8) = (100, 0xaa);
const SECOND: (usize, u8) = (300, 0xbb);
const OLD: u8 = 0x11;

/// Reads or writes one piece at `at` of the store; its length.
fn carry_piece(piece: Piece<'_>, store: &mut [u8], at: usize) -> usize {
    match piece {
        Piece::Fill(bytes) => {
            bytes.copy_from_slice(&store[at..at + bytes.len()]);
            bytes.len()
        }
        Piece::Take(bytes) => {
            store[at..at + bytes.len()].copy_from_slice(bytes);
            bytes.len()
        }
    }
}

/// Carries out one job's requests until it is answered.
fn finish(dock: &mut Dock<'_>, slot: usize, store: &mut [u8]) -> Result<Answer, Refusal> {
    while let Due::Make(request) = dock.next(slot)? {
        println!("slot {slot}: {:?} {}+{}", request.kind, request.offset, request.length);
        let mut at = request.offset as usize;
        for i in 0..request.pieces {
            at += carry_piece(dock.piece(slot, i)?, store, at);
        }
        dock.tell(slot, 0)?;
    }
    let answer = dock.collect(slot)?;
    println!("slot {slot}: answer {}", answer.number());
    Ok(answer)
}

/// The byte that the store must have at `i` after both edits.
fn wanted(i: usize) -> u8 {
    let edited = |(at, byte): (usize, u8)| (at..at + EDIT).contains(&i).then_some(byte);
    edited(FIRST).or_else(|| edited(SECOND)).unwrap_or(OLD)
}

/// Makes both edits; whether the second waited, both were answered 0, and the store is as it must be.
fn edit() -> Result<bool, Refusal> {
    let mut store = [OLD; 8 * BLOCK];
    let mut data = [[FIRST.1; EDIT], [SECOND.1; EDIT]].concat();
    let mut scratch = vec![0; 8 * BOUNCE as usize];
    let mut dock = Dock::open_row(ROW, BOUNCE, &mut data, &mut scratch)?;
    let first = dock.begin_write(FIRST.0 as u64, &Vector::of(0, EDIT))?;
    let second = dock.begin_write(SECOND.0 as u64, &Vector::of(EDIT, EDIT))?;
    let (Begun::Slot(first), Begun::Slot(second)) = (first, second) else { return Ok(false) };
    if dock.next(second)? != Due::Waiting {
        return Ok(false);
    }
    println!("slot {second}: waiting");
    let answers = [finish(&mut dock, first, &mut store)?, finish(&mut dock, second, &mut store)?];
    Ok(answers == [Answer::Done; 2] && store.iter().enumerate().all(|(i, &byte)| byte == wanted(i)))
}

fn main() -> ExitCode {
    match edit() {
        Ok(true) => {
            println!("20 bytes edited, the other {} of the block unchanged", BLOCK - 2 * EDIT);
            println!("ok");
            ExitCode::SUCCESS
        }
        Ok(false) => {
            println!("wrong: the second edit did not wait, an answer is not 0, or bytes are not what they should be");
            ExitCode::FAILURE
        }
        Err(refusal) => {
            println!("wrong: {refusal}");
            ExitCode::FAILURE
        }
    }
}
