//! Runs of steps: the archive's `board_run` against the program in Rust that
//! asks for no soundness (`unchecked`), over the same generated steps; beside
//! them the archive's single calls.

use crate::timing::median;
use crate::unchecked::{self, Reply, Step};
use reference::Hall;
use std::hint::black_box;
use std::slice::from_mut;
use std::time::Instant;

const STEPS: usize = 1_000_000;
/// The lengths of the runs that the shift is cut into.
const LENGTHS: [usize; 6] = [1, 10, 100, 1_000, 10_000, STEPS];
/// How often each way of replaying the shift is timed, all in turn.
const TURNS: usize = 21;
/// Of a hundred steps so many are made at random: of any code and desk, mostly with the message
/// number of another. Nearly all are refused, with 17, 6 or 23.
const WILD: u64 = 21;
/// The sessions that are put: few, so that screens often show what is on a list.
const SESSIONS: u64 = 400;

/// A busy shift: the table after the opening, the steps, the replies that they get, and the
/// table after them.
struct Shift {
    opened: Vec<u16>,
    steps: Vec<Step>,
    replies: Vec<Reply>,
    closed: Vec<u16>,
}

/// Replays some steps.
type Replay = fn(&[Step], &mut [Reply], &mut [u16]);

pub fn print_runs(hall: &Hall) {
    let shift = Shift::of(hall);
    shift.print_kinds();
    println!();
    println!("nanoseconds per step, median of {TURNS} replays of the whole shift, in turn");
    println!("{:>12}{:>9}{:>9}{:>11}", "steps a run", "ours", "Rust", "ours/Rust");
    for length in LENGTHS {
        let [ours, rust] = shift.time(length, [by_archive, by_rust]);
        println!("{length:>12}{ours:>9.2}{rust:>9.2}{:>11.2}", ours / rust);
    }
    let [single] = shift.time(1, [by_single_calls]);
    println!("{:>12}{single:>9.2}", "single calls");
    let check = shift.time_check();
    println!("{:>12}{check:>9.2} for the run, after the shift", "no step");
}

impl Shift {
    fn of(hall: &Hall) -> Shift {
        let mut table = vec![0; hall.need()];
        table[..3].copy_from_slice(&[hall.desks, hall.screens, hall.positions]);
        let opened = table.clone();
        let mut random = Random(0x9E37_79B9_7F4A_7C15);
        let (mut steps, mut replies) = (Vec::new(), vec![[0; 2]; STEPS]);
        for reply in &mut replies {
            let step = next_step(hall, &table, &mut random);
            by_rust(&[step], from_mut(reply), &mut table);
            steps.push(step);
        }
        Shift { opened, steps, replies, closed: table }
    }

    fn print_kinds(&self) {
        let count = |code: u16, of: fn(&Reply) -> bool| {
            let steps = self.steps.iter().zip(&self.replies);
            steps.filter(|(step, reply)| step[0] == code && of(reply)).count()
        };
        println!("{STEPS} steps\n{:<10}{:>9}{:>9}", "step", "accepted", "refused");
        for (code, name) in [(1, "take"), (2, "drop"), (3, "swap"), (4, "retire"), (5, "collect")] {
            let accepted = count(code, |reply| reply[0] == 0);
            let refused = count(code, |reply| reply[0] != 0);
            println!("{name:<10}{accepted:>9}{refused:>9}");
        }
        let other = self.replies.iter().filter(|reply| reply[0] == 17).count();
        println!("{:<10}{:>9}{other:>9}", "17", 0);
        let refused = self.replies.iter().filter(|reply| reply[0] != 0).count();
        println!("{:<10}{:>9}{refused:>9}", "all", STEPS - refused);
        println!("{:<10}{:>9}", "hand-backs", count(5, |reply| reply[0] == 0 && reply[1] != 0));
    }

    /// Nanoseconds per step of each way to replay the shift, in runs of this length.
    fn time<const N: usize>(&self, length: usize, replays: [Replay; N]) -> [f64; N] {
        let mut times = replays.map(|_| Vec::new());
        for turn in 0..TURNS {
            // Who goes first changes, so that none gains by it.
            for which in (0..N).map(|index| (turn + index) % N) {
                let (mut table, mut replies) = (self.opened.clone(), vec![[0xEEEE; 2]; STEPS]);
                let begun = Instant::now();
                for (steps, replies) in self.steps.chunks(length).zip(replies.chunks_mut(length)) {
                    replays[which](black_box(steps), replies, &mut table);
                }
                times[which].push(begun.elapsed().as_nanos() as f64 / STEPS as f64);
                assert!(replies == self.replies, "other replies in runs of {length}");
                assert!(table == self.closed, "another table after runs of {length}");
            }
        }
        times.map(median)
    }

    /// Nanoseconds of a run without steps, which only asks whether the table is sound.
    fn time_check(&self) -> f64 {
        let mut table = self.closed.clone();
        let times = (0..TURNS).map(|_| {
            let begun = Instant::now();
            for _ in 0..1_000 {
                by_archive(black_box(&[]), &mut [], &mut table);
            }
            begun.elapsed().as_nanos() as f64 / 1_000.0
        });
        median(times.collect())
    }
}

fn by_archive(steps: &[Step], replies: &mut [Reply], table: &mut [u16]) {
    let answer = archive::run(bytes(steps), bytes_mut(replies), bytes_mut(table));
    assert!(answer == 0, "the run was refused");
}

fn by_rust(steps: &[Step], replies: &mut [Reply], table: &mut [u16]) {
    // The table is the one of an opening and of steps on it, so it is sound.
    unsafe { unchecked::run(steps, replies, table) }
}

fn by_single_calls(steps: &[Step], replies: &mut [Reply], table: &mut [u16]) {
    let (hall, table) = (archive::HALL, bytes_mut(table));
    for (&[code, message, desk, screen, position, session], reply) in steps.iter().zip(replies) {
        let answer = match code {
            1 => hall.take(message, desk, screen, position, table),
            2 => hall.drop(message, desk, screen, table),
            3 => hall.swap(message, desk, position, session, table),
            4 => hall.retire(message, desk, table),
            5 => hall.collect(message, desk, table),
            _ => 17 << 16,
        };
        *reply = [(answer >> 16) as u16, answer as u16];
    }
}

/// 16-bit words as their bytes, low byte first as this processor has them.
fn bytes<T>(words: &[T]) -> &[u8] {
    unsafe { words.align_to().1 }
}

fn bytes_mut<T>(words: &mut [T]) -> &mut [u8] {
    unsafe { words.align_to_mut().1 }
}

/// A step that is due, or now and then any step.
fn next_step(hall: &Hall, table: &[u16], random: &mut Random) -> Step {
    let desk = random.one_of(hall.desks);
    let record = hall.record(desk);
    let message = table[record.end - 1];
    let (screen, position) = (random.one_of(hall.screens), random.one_of(hall.positions));
    let session = 1 + random.below(SESSIONS) as u16;
    if random.below(100) < WILD {
        return wild_step(hall, message, random);
    }
    let shown = table[hall.screen(desk, screen)] != 0;
    let code = match random.below(100) {
        0..=29 if shown => 2,
        0..=29 if table[hall.position(position)] != 0 => 1,
        30..=64 if table[record.start] != 0 => 4,
        30..=64 => 3,
        _ => 5,
    };
    [code, message, desk, screen, position, session]
}

fn wild_step(hall: &Hall, message: u16, random: &mut Random) -> Step {
    let any = |random: &mut Random, most: u16| random.below(most as u64 + 3) as u16;
    let message = if random.below(3) == 0 { message } else { message ^ 1 };
    let code = any(random, 5);
    let (desk, screen) = (any(random, hall.desks), any(random, hall.screens));
    [code, message, desk, screen, any(random, hall.positions), 7]
}

/// Marsaglia's xorshift.
struct Random(u64);

impl Random {
    /// A number below `most`.
    fn below(&mut self, most: u64) -> u64 {
        self.0 ^= self.0 << 13;
        self.0 ^= self.0 >> 7;
        self.0 ^= self.0 << 17;
        (self.0 >> 11) % most
    }

    fn one_of(&mut self, most: u16) -> u16 {
        1 + self.below(most.into()) as u16
    }
}
