//! Door hooks of a layout, as M-100 has them: how their lines are read, their form, and what a rename changes of them.

use crate::answer::{refuse, refuse_if, Checked};
use crate::fault::{planted, Fault};
use crate::layout::Layout;
use crate::number::Number;
use crate::text::{count_on, is_name, lower, same_name, Line, Lines};

/// A hook. Room and door are in lower case; the numbers are x y z, four of orientation and, if typed, five more.
#[derive(Clone, Debug, PartialEq, Eq)]
pub struct Hook {
    pub room: Vec<u8>,
    pub door: Vec<u8>,
    pub numbers: Vec<Number>,
}

/// How many words a hook's line has: without the five more numbers, and with them.
pub const WORDS: [usize; 2] = [9, 14];

/// The hooks that a count line announces, each in one of the rooms read before.
pub fn read(lines: &mut Lines, count_line: &Line, rooms: &Layout) -> Checked<Vec<Hook>> {
    let count = count_on(count_line)?;
    refuse_if(count > 0 && planted(Fault::NoHooks), 36, count_line.number)?;
    let mut hooks: Vec<Hook> = Vec::with_capacity(count);
    for _ in 0..count {
        let hook = hook_on(&lines.wanted()?, rooms, &hooks)?;
        hooks.push(hook);
    }
    Ok(hooks)
}

/// A hook: room, door, numbers. In order: 33, 34 and 39 of the room, 34 and 37 of the door, 35.
fn hook_on(line: &Line, rooms: &Layout, earlier: &[Hook]) -> Checked<Hook> {
    refuse_if(!has_right_words(line), 33, line.number)?;
    let (room, door) = (line.words[0].bytes, line.words[1].bytes);
    refuse_if(!is_name(room), 34, line.number)?;
    let door_first = planted(Fault::DoorBeforeRoom) && !is_name(door);
    refuse_if(door_first, 34, line.number)?;
    refuse_if(!is_room(rooms, room), 39, line.number)?;
    refuse_if(!is_name(door), 34, line.number)?;
    let numbers = numbers_on(line);
    let number_first = planted(Fault::NumberBeforeDoor) && numbers.is_none();
    refuse_if(number_first, 35, line.number)?;
    let door = match planted(Fault::DoorAsTyped) {
        true => door.to_vec(),
        false => lower(door),
    };
    refuse_if(stands(rooms, earlier, &door), 37, line.number)?;
    match numbers {
        None => refuse(35, line.number),
        Some(numbers) => Ok(Hook {
            room: lower(room),
            door,
            numbers,
        }),
    }
}

fn has_right_words(line: &Line) -> bool {
    let count = line.words.len();
    WORDS.contains(&count) || planted(Fault::AnyWords) && (9..14).contains(&count)
}

/// Whether a room of the layout has this name, in any letters.
fn is_room(layout: &Layout, typed: &[u8]) -> bool {
    match typed {
        _ if planted(Fault::HookAnywhere) => true,
        _ if planted(Fault::HookRoomCase) => layout.rooms.iter().any(|room| room.name == typed),
        _ => layout.room_named(typed).is_some(),
    }
}

/// Whether an earlier hook has this door. A room of the same name does not count.
fn stands(rooms: &Layout, earlier: &[Hook], door: &[u8]) -> bool {
    let is_room = planted(Fault::DoorOrRoom) && rooms.room_named(door).is_some();
    let is_same = same_name();
    is_room || earlier.iter().any(|hook| is_same(&hook.door, door))
}

/// The numbers behind room and door, if all of them are numbers.
fn numbers_on(line: &Line) -> Option<Vec<Number>> {
    let words = &line.words[2..];
    let all: Option<Vec<Number>> = words.iter().map(|word| Number::of(word.bytes)).collect();
    let mut numbers = all?;
    if planted(Fault::FiveDropped) {
        numbers.truncate(WORDS[0] - 2);
    }
    Some(numbers)
}

/// The hooks' section of the fixed form.
pub fn write(form: &mut Vec<u8>, hooks: &[Hook]) {
    form.extend_from_slice(format!("doorhookcount {}\n", hooks.len()).as_bytes());
    for hook in hooks {
        form.extend_from_slice(&hook.room);
        form.push(b' ');
        form.extend_from_slice(&hook.door);
        for number in &hook.numbers {
            form.push(b' ');
            form.extend_from_slice(number.written().as_bytes());
        }
        form.push(b'\n');
    }
}

/// Renames a room in the hooks that name it; both names are in lower case. Doors keep theirs.
pub fn rename(hooks: &mut [Hook], old: &[u8], new: &[u8]) {
    let most = match () {
        _ if planted(Fault::HooksLeft) => 0,
        _ if planted(Fault::OneHookRenamed) => 1,
        _ => hooks.len(),
    };
    let is_same = same_name();
    let named = hooks.iter_mut().filter(|hook| is_same(&hook.room, old));
    for hook in named.take(most) {
        hook.room = new.to_vec();
    }
    if planted(Fault::DoorRenamed) {
        for hook in hooks.iter_mut().filter(|hook| hook.door == old) {
            hook.door = new.to_vec();
        }
    }
}
