//! One call of a board, made to the archive or to the reference.

use reference::{answer, is_sound, next_message, word, Hall, Limits};
use std::fmt;
use std::str::FromStr;

/// Each room has all six functions, under C names of its own. So has the second board of
/// the hall, with rings for lists; it counts as a third room here.
#[derive(Clone, Copy, Debug, PartialEq, Eq)]
pub enum Room {
    Hall,
    Training,
    Ring,
}

pub const ROOMS: [Room; 3] = [Room::Hall, Room::Training, Room::Ring];

impl Room {
    /// What the C names of its calls begin with.
    pub fn prefix(self) -> &'static str {
        match self {
            Room::Hall => "board",
            Room::Training => "training",
            Room::Ring => "ring",
        }
    }

    pub fn limits(self) -> Limits {
        match self {
            Room::Hall => Limits::HALL,
            Room::Training => Limits::TRAINING,
            Room::Ring => Limits::RING,
        }
    }

    /// The limits of the hall, with the lists of this room.
    pub fn largest(self) -> Limits {
        Limits { list: self.limits().list, ..Limits::HALL }
    }

    pub fn others(self) -> [Room; 2] {
        match self {
            Room::Hall => [Room::Training, Room::Ring],
            Room::Training => [Room::Hall, Room::Ring],
            Room::Ring => [Room::Hall, Room::Training],
        }
    }

    fn archive(self) -> &'static archive::Calls {
        match self {
            Room::Hall => &archive::HALL,
            Room::Training => &archive::TRAINING,
            Room::Ring => &archive::RING,
        }
    }
}

#[derive(Clone, Copy, Debug, PartialEq, Eq)]
pub enum Function {
    Open,
    Take,
    Drop,
    Swap,
    Retire,
    Collect,
}

use Function::*;

pub const FUNCTIONS: [Function; 6] = [Open, Take, Drop, Swap, Retire, Collect];

impl Function {
    pub fn name(self) -> &'static str {
        match self {
            Open => "open",
            Take => "take",
            Drop => "drop",
            Swap => "swap",
            Retire => "retire",
            Collect => "collect",
        }
    }

    /// Does it carry a message number? An opening does not.
    pub fn is_step(self) -> bool {
        self != Open
    }

    /// How many numbers a call has besides the message number and the table.
    pub fn fields(self) -> usize {
        match self {
            Open | Take | Swap => 3,
            Drop => 2,
            Retire | Collect => 1,
        }
    }

    /// The reply numbers that documents 01 and 02 give this function in a room.
    pub fn replies(self, room: Room) -> &'static [u16] {
        match (self, room) {
            (Open, Room::Training) => &[0, 1, 2, 3, 22, 4],
            (Open, _) => &[0, 1, 2, 3, 4],
            (Take, _) => &[0, 5, 6, 23, 7, 8, 9, 10],
            (Drop, _) => &[0, 5, 6, 23, 7, 11],
            (Swap, Room::Training) => &[0, 5, 6, 23, 8, 22, 12],
            (Swap, _) => &[0, 5, 6, 23, 8, 12],
            (Retire, _) => &[0, 5, 6, 23, 13, 14],
            (Collect, _) => &[0, 5, 6, 23],
        }
    }
}

/// A function of a room and its numbers; those it does not have are 0.
#[derive(Clone, Copy, Debug, PartialEq, Eq)]
pub struct Call {
    pub room: Room,
    pub function: Function,
    /// The message number.
    pub message: u16,
    /// The other numbers; the first of a step is its desk.
    pub numbers: [u16; 3],
}

impl Call {
    pub fn new(room: Room, function: Function, message: u16, numbers: &[u16]) -> Call {
        let mut call = Call { room, function, message, numbers: [0; 3] };
        let fields = function.fields();
        call.numbers[..fields].copy_from_slice(&numbers[..fields]);
        call
    }

    /// The message number that it must carry: the next one of its desk. `None` for an
    /// opening, and where the table does not have the desk. The table may be unsound.
    pub fn due_message(self, table: &[u8]) -> Option<u16> {
        let [desk, ..] = self.numbers;
        let next = next_message(self.room.limits().list, table, desk);
        next.filter(|_| self.function.is_step())
    }

    /// Is its message number the next one of some desk?
    pub fn has_message_of_a_desk(self, table: &[u8]) -> bool {
        let next = |desk| next_message(self.room.limits().list, table, desk);
        (1..=Limits::HALL.desks).filter_map(next).any(|next| next == self.message)
    }

    /// Is it a swap to what stands at its position, a session or 0?
    pub fn repeats(self, table: &[u8]) -> bool {
        let [_, position, session] = self.numbers;
        self.function == Swap && held(table, position) == Some(session)
    }

    /// Is it a step on a table that is sound in the hall, but too large for the room?
    pub fn finds_too_large(self, table: &[u8]) -> bool {
        let is_too_large = |hall: Hall| !self.room.limits().allow(&hall);
        self.function.is_step()
            && hall_of(table).is_some_and(is_too_large)
            && is_sound(Limits::HALL, table)
    }

    pub fn to_reference(self, table: &mut [u8]) -> u32 {
        let limits = self.room.limits();
        let (message, [a, b, c]) = (self.message, self.numbers);
        answer(match self.function {
            Open => reference::open(limits, a, b, c, table),
            Take => reference::take(limits, message, a, b, c, table),
            Drop => reference::drop(limits, message, a, b, table),
            Swap => reference::swap(limits, message, a, b, c, table),
            Retire => reference::retire(limits, message, a, table),
            Collect => reference::collect(limits, message, a, table),
        })
    }

    pub fn to_archive(self, table: &mut [u8]) -> u32 {
        let calls = self.room.archive();
        let (message, [a, b, c]) = (self.message, self.numbers);
        match self.function {
            Open => calls.open(a, b, c, table),
            Take => calls.take(message, a, b, c, table),
            Drop => calls.drop(message, a, b, table),
            Swap => calls.swap(message, a, b, c, table),
            Retire => calls.retire(message, a, table),
            Collect => calls.collect(message, a, table),
        }
    }
}

/// The hall that a table's first words give. The table may be unsound.
pub fn hall_of(table: &[u8]) -> Option<Hall> {
    let words = table.len() / 2;
    let header = |at| if at < words { word(table, at) } else { 0 };
    Hall::new(Limits::HALL, header(0), header(1), header(2)).ok()
}

/// What stands at a position, if the table has it. The table may be unsound.
pub fn held(table: &[u8], position: u16) -> Option<u16> {
    let hall = hall_of(table)?;
    let at = hall.position(position);
    ((1..=hall.positions).contains(&position) && at < table.len() / 2).then(|| word(table, at))
}

/// `board_take 0 1 2 3`: the message number comes first, but an opening has none.
impl fmt::Display for Call {
    fn fmt(&self, out: &mut fmt::Formatter) -> fmt::Result {
        write!(out, "{}_{}", self.room.prefix(), self.function.name())?;
        if self.function.is_step() {
            write!(out, " {}", self.message)?;
        }
        for number in &self.numbers[..self.function.fields()] {
            write!(out, " {number}")?;
        }
        Ok(())
    }
}

impl FromStr for Call {
    type Err = String;

    fn from_str(text: &str) -> Result<Call, String> {
        let (room, function, numbers) = name_and_numbers(text)?;
        let (message, numbers) = match numbers[..] {
            [message, ref numbers @ ..] if function.is_step() => (message, numbers),
            ref numbers => (0, numbers),
        };
        if numbers.len() != function.fields() {
            return Err(format!("{text}: not the numbers of {}", function.name()));
        }
        Ok(Call::new(room, function, message, numbers))
    }
}

fn name_and_numbers(text: &str) -> Result<(Room, Function, Vec<u16>), String> {
    let mut parts = text.split_whitespace();
    let name = parts.next().ok_or("an empty call")?;
    let (prefix, function) = name.split_once('_').ok_or(format!("no call {name}"))?;
    let room = ROOMS.into_iter().find(|room| room.prefix() == prefix);
    let function = FUNCTIONS.into_iter().find(|of_all| of_all.name() == function);
    let (Some(room), Some(function)) = (room, function) else {
        return Err(format!("no call {name}"));
    };
    let numbers: Result<Vec<u16>, _> = parts.map(str::parse).collect();
    Ok((room, function, numbers.map_err(|error| format!("{text}: {error}"))?))
}
