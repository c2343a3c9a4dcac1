//! The answers of all calls. They are handed over by value, laid out as C does.

/// A refusal: the number of the rule and the place that the rule names.
#[derive(Clone, Copy, Debug, PartialEq, Eq)]
pub struct Refusal {
    pub number: u32,
    pub place: u32,
}

/// What a check gives: something to go on with, or the one refusal.
pub type Checked<T> = Result<T, Refusal>;

/// A refusal as the error of a check.
pub fn refuse<T>(number: u32, place: usize) -> Checked<T> {
    Err(Refusal {
        number,
        place: place as u32,
    })
}

/// A refusal, by `number` at `place`, exactly if the rule is broken.
pub fn refuse_if(broken: bool, number: u32, place: usize) -> Checked<()> {
    if broken {
        refuse(number, place)
    } else {
        Ok(())
    }
}

/// A refusal, by `number`, at the lowest place from 0 to `count` - 1 that is `broken`.
pub fn refuse_lowest(number: u32, count: usize, broken: impl FnMut(usize) -> bool) -> Checked<()> {
    match (0..count).position(broken) {
        Some(place) => refuse(number, place),
        None => Ok(()),
    }
}

/// A number and a place: the link check.
#[repr(C)]
#[derive(Clone, Copy, Debug, Default, PartialEq, Eq)]
pub struct Answer {
    pub number: u32,
    pub place: u32,
}

/// The reader's answer with its four counts.
#[repr(C)]
#[derive(Clone, Copy, Debug, Default, PartialEq, Eq)]
pub struct Floor {
    pub number: u32,
    pub place: u32,
    pub faces: u32,
    pub walkable: u32,
    pub edges: u32,
    pub perimeters: u32,
}

/// The answer of rewriting: the length written.
#[repr(C)]
#[derive(Clone, Copy, Debug, Default, PartialEq, Eq)]
pub struct Form {
    pub number: u32,
    pub place: u32,
    pub length: u32,
}

/// The answer of mending: the bytes written to the output and to the list.
#[repr(C)]
#[derive(Clone, Copy, Debug, Default, PartialEq, Eq)]
pub struct Mended {
    pub number: u32,
    pub place: u32,
    pub length: u32,
    pub listed: u32,
}

/// The answer of the point query: found is 0 or 1, face is 0 where none is found.
#[repr(C)]
#[derive(Clone, Copy, Debug, Default, PartialEq, Eq)]
pub struct Point {
    pub number: u32,
    pub place: u32,
    pub found: u32,
    pub face: u32,
    pub visited: u32,
}

/// The answer of every journal call: f records are kept.
#[repr(C)]
#[derive(Clone, Copy, Debug, Default, PartialEq, Eq)]
pub struct Session {
    pub number: u32,
    pub place: u32,
    pub f: u32,
}

/// A room's row of 64 marks and the number of rooms seen.
#[repr(C)]
#[derive(Clone, Copy, Debug, Default, PartialEq, Eq)]
pub struct Row {
    pub number: u32,
    pub place: u32,
    pub row: u64,
    pub seen: u32,
}

/// Where a caption stands: house is 1 if in the house text.
#[repr(C)]
#[derive(Clone, Copy, Debug, Default, PartialEq, Eq)]
pub struct CaptionAt {
    pub number: u32,
    pub house: u32,
    pub start: u32,
    pub length: u32,
}

/// The fields of an answer by name, so that answers of all shapes are compared in one way.
pub type Fields = Vec<(&'static str, u64)>;

macro_rules! fields {
    ($($answer:ident: $($field:ident)*;)*) => {
        $(impl $answer {
            pub fn fields(&self) -> Fields {
                vec![$((stringify!($field), u64::from(self.$field))),*]
            }
        })*
    };
}

fields! {
    Answer: number place;
    Floor: number place faces walkable edges perimeters;
    Form: number place length;
    Mended: number place length listed;
    Point: number place found face visited;
    Session: number place f;
    Row: number place row seen;
    CaptionAt: number house start length;
}
