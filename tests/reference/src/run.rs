//! A run of steps in one call, in the hall (document 02, Job 8).
//!
//! Document 01, for Job 8: "a step is six words: code, message number, desk, screen,
//! position, session; those its code lacks are ignored, and fewer than six left over
//! are no step. A reply is two words, number and session. Reply words past the run are
//! not written. An accepted run answers 0, session 0."

use super::words::{count, set_word, word};
use super::{answer, ask, collect, drop, is_sound, retire, swap, take, Limits, Refusal, Reply};

const STEP_WORDS: usize = 6;
const REPLY_WORDS: usize = 2;

/// Document 02, Job 8: "replies and final words equal the steps sent singly. .. 4 when
/// the reply table is under two words a step, then 5, each once for the run with
/// nothing done".
pub fn run(steps: &[u8], replies: &mut [u8], table: &mut [u8]) -> Reply {
    let length = count(steps) / STEP_WORDS;
    ask(count(replies) >= REPLY_WORDS * length, Refusal::TableShort)?;
    ask(is_sound(Limits::HALL, table), Refusal::Unsound)?;
    for at in 0..length {
        let words = std::array::from_fn(|field| word(steps, STEP_WORDS * at + field));
        let reply = answer(step(words, table));
        set_word(replies, REPLY_WORDS * at, (reply >> 16) as u16);
        set_word(replies, REPLY_WORDS * at + 1, reply as u16);
    }
    Ok(0)
}

/// As a call of its own. Document 02, Job 8: "a step with a code outside 1 to 5 replies
/// 17, writes nothing, and the run goes on."
fn step(words: [u16; STEP_WORDS], table: &mut [u8]) -> Reply {
    let [code, message, desk, screen, position, session] = words;
    let limits = Limits::HALL;
    match code {
        1 => take(limits, message, desk, screen, position, table),
        2 => drop(limits, message, desk, screen, table),
        3 => swap(limits, message, desk, position, session, table),
        4 => retire(limits, message, desk, table),
        5 => collect(limits, message, desk, table),
        _ => Err(Refusal::BadCode),
    }
}
