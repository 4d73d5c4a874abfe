//! The first board that a ring reads as (document 02, Job 9): the same positions,
//! screens, counts, marks and message numbers, each list read from its beginning, and no
//! beginnings.

use super::record::{list, place};
use super::sound::{header, sound_hall};
use super::words::bytes;
use super::{Limits, List};

/// Its table, and behind it whatever is past the need of the ring; `None` if the ring is
/// not sound.
pub fn first_board(ring: &[u8]) -> Option<Vec<u8>> {
    let hall = sound_hall(Limits::RING, ring)?;
    let first = header(Limits::HALL, ring)?;
    let mut table = ring[..2 * hall.record(1).start].to_vec();
    for desk in 1..=hall.desks {
        let record = &ring[bytes(hall.record(desk))];
        table.extend(&record[..2 * place::LIST]);
        list(List::Ring, record)?.into_iter().for_each(|places| table.extend(places));
        let message = 2 * hall.message(desk);
        table.extend(&ring[message..message + 2]);
    }
    assert_eq!(table.len(), 2 * first.need(), "every word of the first board");
    table.extend(&ring[2 * hall.need()..]);
    Some(table)
}
