//! The desk and the hand-written engine on the same calls: the code, every byte of the answer buffer and every byte of
//! the board are compared after each.

use crate::hand;
use crate::making::{Call, Workload};
use crate::store::Store;
use stopblocker::layout::{ANSWER_BYTES, BOARD_BYTES};
use stopblocker::step;

/// Both engines, each with a board and an answer buffer of its own.
pub struct Both {
    pub boards: [Vec<u8>; 2],
    answers: [[u8; ANSWER_BYTES]; 2],
}

impl Both {
    pub fn new(board: &[u8]) -> Both {
        // a call must not depend on what the answer buffer held before
        Both { boards: [board.to_vec(), board.to_vec()], answers: [[0xa5; ANSWER_BYTES]; 2] }
    }

    /// Makes one call on the first `board_bytes` bytes of the board, and returns the code.
    pub fn call(&mut self, call: &Call, board_bytes: usize) -> Result<u32, String> {
        let record = &call.record[..call.record_bytes];
        let [ours, theirs] = &mut self.boards;
        let [told, answered] = &mut self.answers;
        let code = step(&mut ours[..board_bytes], record, &mut told[..call.answer_bytes]);
        let other = hand::step(&mut theirs[..board_bytes], record, &mut answered[..call.answer_bytes]);
        let differ = |what: &str| Err(format!("{what} differ at record {record:?}: desk {code}, by hand {other}"));
        if code != other {
            return differ("codes");
        }
        if told != answered {
            return differ("answers");
        }
        if ours != theirs {
            return differ("boards");
        }
        Ok(code)
    }
}

/// Runs a workload through both, and returns how often each code came.
pub fn on_workload(workload: &Workload) -> Result<[u64; 22], String> {
    let mut both = Both::new(&workload.board);
    let mut codes = [0; 22];
    for call in &workload.calls {
        codes[both.call(call, BOARD_BYTES)? as usize] += 1;
    }
    Ok(codes)
}

/// Runs a workload through the desk and the store: compares codes and answers after each call, and the boards at the end.
pub fn on_store(workload: &Workload, store: &mut Store) -> Result<(), String> {
    let mut board = workload.board.clone();
    let mut answers = [[0xa5; ANSWER_BYTES]; 2];
    store.load(&board);
    for call in &workload.calls {
        let record = &call.record[..call.record_bytes];
        let [told, answered] = &mut answers;
        let code = step(&mut board, record, &mut told[..call.answer_bytes]);
        let other = store.step(record, &mut answered[..call.answer_bytes]);
        if code != other || told != answered {
            return Err(format!("the answers differ at record {record:?}: desk {code}, SQLite {other}"));
        }
    }
    if store.to_board() != board {
        return Err("the boards differ at the end".to_string());
    }
    Ok(())
}
