//! One visitor's name and nobody else's screen: what request M-110 makes true of two pairs of texts that are alike but for
//! the name of one room, judged on what one side answered and wrote. The other side is not looked at, and forms are held to
//! each other by their words alone, so that a mistake that both sides share is noticed too.

use crate::compare::{Done, GUARD_BYTE};
use crate::generate::screens::Screens;
use crate::text::LONGEST_NAME;

/// What the request asks for first of all.
pub const ACCEPTED: &str =
    "of two pairs that are alike each layout is accepted, and each sight text with its layout";

/// The request's sentences.
pub const SAME_ROWS: &str = "every row and every seen count is the same with both pairs";
pub const SAME_LINKS: &str = "every link check is the same with both pairs";
pub const SAME_CAPTIONS: &str =
    "the caption of every other number shows the same bytes with both pairs, or is 41 with both";
pub const LAYOUT_FORMS: &str =
    "the plain forms of both layouts have as many lines, and differ in nothing but the one name in the other's place";
pub const SIGHT_FORMS: &str =
    "the plain forms of both sight texts have as many lines, and differ in nothing but the one name in the other's place";

/// What the request does not say but 01 makes true: of the room's own caption, of all captions, and of typed names.
pub const OWN_CAPTION: &str =
    "the room's own caption stands in the same text with both pairs, or is 41 with both";
pub const CAPTION_BYTES: &str =
    "a caption is 1 to 16 bytes, each a letter, digit or underscore, and none with 41";
pub const RENAMED_LAYOUT: &str =
    "a layout's form with a typed name has as many lines as the plain one, and differs in nothing but the name";
pub const RENAMED_SIGHT: &str =
    "a sight text's form with a typed name has as many lines as the plain one, and differs in nothing but the name";
pub const OTHER_NAME: &str =
    "with the second pair's name typed for its room, the first pair's forms are the second's, byte for byte";
pub const LINE_BREAK: &str =
    "a name with a line break, typed for a room, is refused with 34 at 0 and nothing is written";

/// All of them.
pub const SENTENCES: [&str; 12] = [
    ACCEPTED,
    SAME_ROWS,
    SAME_LINKS,
    SAME_CAPTIONS,
    LAYOUT_FORMS,
    SIGHT_FORMS,
    OWN_CAPTION,
    CAPTION_BYTES,
    RENAMED_LAYOUT,
    RENAMED_SIGHT,
    OTHER_NAME,
    LINE_BREAK,
];

/// What one side did with one pair: the plain forms of layout and sight text, the link check, and for each number that was
/// asked for the row and the caption.
struct Screen<'a> {
    forms: [&'a Done; 2],
    link: &'a Done,
    rows: Vec<&'a Done>,
    captions: Vec<&'a Done>,
}

impl<'a> Screen<'a> {
    fn of(all: &'a [Done]) -> Screen<'a> {
        let [layout, sight, link, asked @ ..] = all else {
            unreachable!("both forms, the link check, rows and captions");
        };
        Screen {
            forms: [layout, sight],
            link,
            rows: asked.iter().step_by(2).collect(),
            captions: asked.iter().skip(1).step_by(2).collect(),
        }
    }
}

/// What one side did with both pairs, and with the first under a typed name and under one with a line break.
struct Runs<'a> {
    both: [Screen<'a>; 2],
    renamed: &'a [Done],
    with_break: &'a [Done],
}

impl<'a> Runs<'a> {
    /// The calls in the order in which `Screens::calls` has them.
    fn of(screens: &Screens, all: &'a [Done]) -> Runs<'a> {
        let (first, rest) = all.split_at(screens.calls_of_each());
        let (second, renames) = rest.split_at(screens.calls_of_each());
        let (renamed, with_break) = renames.split_at(2);
        Runs {
            both: [first, second].map(Screen::of),
            renamed,
            with_break,
        }
    }

    /// The first call that says that a text is refused. A form may still be too long for its output.
    fn refused(&self) -> Option<&'a Done> {
        self.both.iter().find_map(|screen| {
            let forms = screen
                .forms
                .iter()
                .find(|done| ![0, 40].contains(&done.number()));
            let rows = screen.rows.iter().find(|done| done.number() != 0);
            forms.or(rows).copied()
        })
    }

    /// The first pair's forms with a typed name beside the second pair's plain ones, where the name is the second pair's.
    fn with_other_name(&self, screens: &Screens) -> Vec<(&'a Done, &'a Done)> {
        match screens.has_room() && screens.typed == screens.names[1] {
            true => self.renamed.iter().zip(self.both[1].forms).collect(),
            false => Vec::new(),
        }
    }

    /// The captions of a number with both pairs, one number after the other.
    fn captions(&self) -> impl Iterator<Item = [&'a Done; 2]> + '_ {
        let [one, other] = &self.both;
        one.captions
            .iter()
            .zip(&other.captions)
            .map(|(one, other)| [*one, *other])
    }
}

/// A broken sentence and how it was broken.
fn say(sentence: &str, how: String) -> String {
    format!("{sentence}: {how}")
}

/// The sentences that one side broke with two pairs, each with how it did. Nothing more is said of a pair that is refused.
pub fn broken(screens: &Screens, all: &[Done]) -> Vec<String> {
    let runs = Runs::of(screens, all);
    if let Some(refused) = runs.refused() {
        let how = format!("{:?} answers {}", refused.call, refused.number());
        return vec![say(ACCEPTED, how)];
    }
    let names = screens
        .names
        .each_ref()
        .map(|name| name.to_ascii_lowercase());
    let typed = [names[0].clone(), screens.typed.to_ascii_lowercase()];
    let [one, other] = [0, 1].map(|pair: usize| runs.both[pair].forms);
    let mut found = vec![
        unlike_rows(&runs).map(|how| say(SAME_ROWS, how)),
        unlike_links(&runs).map(|how| say(SAME_LINKS, how)),
        unlike_forms([one[0], other[0]], &names).map(|how| say(LAYOUT_FORMS, how)),
        unlike_forms([one[1], other[1]], &names).map(|how| say(SIGHT_FORMS, how)),
        unlike_forms([one[0], &runs.renamed[0]], &typed).map(|how| say(RENAMED_LAYOUT, how)),
        unlike_forms([one[1], &runs.renamed[1]], &typed).map(|how| say(RENAMED_SIGHT, how)),
        not_a_caption(&runs).map(|how| say(CAPTION_BYTES, how)),
    ];
    for (typed, plain) in runs.with_other_name(screens) {
        found.push(unlike_bytes([typed, plain]).map(|how| say(OTHER_NAME, how)));
    }
    found.extend(
        screens
            .asked
            .iter()
            .zip(runs.captions())
            .map(|(&number, both)| unlike_captions(number, screens.room, both)),
    );
    if screens.has_room() {
        let passed = runs.with_break.iter().filter_map(passed);
        found.extend(passed.map(|how| Some(say(LINE_BREAK, how))));
    }
    found.into_iter().flatten().collect()
}

/// Where rows or seen counts differ.
fn unlike_rows(runs: &Runs) -> Option<String> {
    let [one, other] = &runs.both;
    let mut rows = one.rows.iter().zip(&other.rows);
    let (one, other) = rows.find(|(one, other)| one.fields != other.fields)?;
    Some(format!(
        "{:?}: {:?} and {:?}",
        one.call, one.fields, other.fields
    ))
}

/// Where link checks differ, in their answers or in the memory that was lent to them beside the layout.
fn unlike_links(runs: &Runs) -> Option<String> {
    let [one, other] = [0, 1].map(|pair: usize| runs.both[pair].link);
    if one.fields != other.fields {
        return Some(format!("{:?} and {:?}", one.fields, other.fields));
    }
    let is_same = one.memory[..2] == other.memory[..2];
    (!is_same).then(|| "they leave different work memory".to_string())
}

/// What a caption shows: its number, which of the two texts it stands in, and its bytes; no bytes where it leaves the text.
fn shown(done: &Done) -> (u64, u64, Option<&[u8]>) {
    let [(_, number), (_, house), (_, start), (_, length)] = done.fields[..] else {
        unreachable!("a caption's answer");
    };
    let text = done.lent((house != 0) as usize);
    let [start, length] = [start, length].map(|number| number as usize);
    let bytes = text.get(start..start.saturating_add(length));
    (number, house, bytes)
}

/// A caption in words.
fn told(done: &Done) -> String {
    let (number, house, bytes) = shown(done);
    let bytes = bytes.map(|bytes| bytes.escape_ascii().to_string());
    format!("{number}, house {house}, {bytes:?}")
}

/// Which sentence the captions of one number break. Those of the room itself may show different bytes.
fn unlike_captions(number: u32, room: u32, both: [&Done; 2]) -> Option<String> {
    let [one, other] = both.map(shown);
    let (sentence, is_same) = match number == room {
        true => (OWN_CAPTION, (one.0, one.1) == (other.0, other.1)),
        false => (SAME_CAPTIONS, one == other),
    };
    let [one, other] = both.map(told);
    (!is_same).then(|| say(sentence, format!("number {number}: {one} and {other}")))
}

/// A caption that is none: bytes that no name has, too many of them, or none but with 41.
fn not_a_caption(runs: &Runs) -> Option<String> {
    let is_caption = |done: &Done| match shown(done) {
        (0, _, Some(bytes)) => {
            let is_right = |byte: &u8| byte.is_ascii_alphanumeric() || *byte == b'_';
            (1..=LONGEST_NAME).contains(&bytes.len()) && bytes.iter().all(is_right)
        }
        (41, _, Some(bytes)) => bytes.is_empty(),
        _ => false,
    };
    let mut all = runs.captions().flatten();
    let wrong = all.find(|done| !is_caption(done))?;
    Some(format!("{:?} shows {}", wrong.call, told(wrong)))
}

/// The bytes that a call says it wrote into its output, which is lent last, and whether there are so many; nothing of a
/// refused one.
fn told_form(done: &Done) -> Option<Option<&[u8]>> {
    let length = done.fields[2].1 as usize;
    let out = done.lent(done.memory.len() - 1);
    (done.number() == 0).then(|| out.get(..length))
}

/// The bytes that a call wrote; none of a refused one, nor of one that says it wrote more than there is.
fn form(done: &Done) -> Option<&[u8]> {
    told_form(done).flatten()
}

/// What holds of a form whatever it is beside: it is not longer than its output.
fn too_long(both: [&Done; 2]) -> Option<String> {
    let is_longer = |done: &&Done| told_form(done) == Some(None);
    let longer = both.into_iter().find(is_longer)?;
    Some(format!("{:?} is longer than its output", longer.call))
}

/// Where two forms, where neither is refused, differ at all.
fn unlike_bytes(both: [&Done; 2]) -> Option<String> {
    let [Some(one), Some(other)] = both.map(form) else {
        return too_long(both);
    };
    let [one, other] = [one, other].map(|form| form.escape_ascii().to_string());
    (one != other).then(|| format!("{one:?} and {other:?}"))
}

/// Why two forms, where neither is refused, differ in more than the one name in the other's place.
fn unlike_forms(both: [&Done; 2], names: &[Vec<u8>; 2]) -> Option<String> {
    let [Some(one), Some(other)] = both.map(form) else {
        return too_long(both);
    };
    let [one, other] = [one, other].map(lines);
    if one.len() != other.len() {
        return Some(format!("{} lines and {}", one.len(), other.len()));
    }
    let at = (0..one.len()).find(|&at| !is_same_but_for(names, [one[at], other[at]]))?;
    let [one, other] = [one[at], other[at]].map(|line| line.escape_ascii().to_string());
    Some(format!("line {} is {one:?} and {other:?}", at + 1))
}

/// The lines of a form. What follows the last line feed is one too, without any byte.
fn lines(form: &[u8]) -> Vec<&[u8]> {
    form.split(|&byte| byte == b'\n').collect()
}

/// The words of a form's line. Between two blanks there is a word without any byte, so that gaps are compared as well.
fn words(line: &[u8]) -> Vec<&[u8]> {
    line.split(|&byte| byte == b' ').collect()
}

/// Whether two lines are the same, or have as many words and are the same but for one, which is the one name here and the
/// other there.
fn is_same_but_for(names: &[Vec<u8>; 2], both: [&[u8]; 2]) -> bool {
    let [one, other] = both.map(words);
    let mut differing = one.iter().zip(&other).filter(|(one, other)| one != other);
    one.len() == other.len()
        && match (differing.next(), differing.next()) {
            (None, _) => true,
            (Some((one, other)), None) => *one == names[0] && *other == names[1],
            _ => false,
        }
}

/// How a rename to a name with a line break was answered, if not as it must be.
fn passed(done: &Done) -> Option<String> {
    let answer = [0, 1, 2].map(|field: usize| done.fields[field].1);
    if answer != [34, 0, 0] {
        return Some(format!("{:?} answers {answer:?}", done.call));
    }
    let out = done.memory.last().map(|(_, bytes)| bytes);
    let is_untouched = out.is_some_and(|out| out.iter().all(|&byte| byte == GUARD_BYTE));
    (!is_untouched).then(|| format!("{:?} writes to its output", done.call))
}

/// What pairs were like.
#[derive(Clone, Copy, Debug, Default)]
pub struct Counts {
    pub pairs: usize,
    /// Those where the room's own caption shows different bytes, where no plain form is refused, where two forms have
    /// different lengths, and where one is refused with 40 and the other not.
    pub own_caption: usize,
    pub with_forms: usize,
    pub lengths: usize,
    pub one_refused: usize,
    /// Lines of the first pair's forms that hold the room's name: hooks, and rooms seen.
    pub hooks: usize,
    pub seen: usize,
    /// Those where the room is past the last, and where both names are the same in different letters.
    pub past_the_last: usize,
    pub other_letters: usize,
    /// Captions out of the house text, and captions that are none, of other numbers than the room's.
    pub of_the_house: usize,
    pub without: usize,
    /// Forms with a typed name beside plain ones of the same pair and, with the second pair's name, of the second; and names
    /// with a line break that were refused.
    pub renamed: usize,
    pub with_other_name: usize,
    pub line_breaks: usize,
    pub most_rooms: usize,
}

impl Counts {
    /// Counts two pairs by what a side did with them.
    pub fn add(&mut self, screens: &Screens, all: &[Done]) {
        let runs = Runs::of(screens, all);
        let [one, other] = &screens.names;
        self.pairs += 1;
        self.past_the_last += usize::from(!screens.has_room());
        self.other_letters += usize::from(one != other && one.eq_ignore_ascii_case(other));
        self.most_rooms = self.most_rooms.max(screens.rooms);
        let refused = |done: &&Done| done.number() == 34 && done.fields[1].1 == 0;
        self.line_breaks += runs.with_break.iter().filter(refused).count();
        let beside = runs.with_other_name(screens).into_iter();
        let are_there = |both: &(&Done, &Done)| form(both.0).is_some() && form(both.1).is_some();
        self.with_other_name += beside.filter(are_there).count();
        self.add_captions(screens, &runs);
        self.add_forms(&runs);
        self.add_lines(&runs, &one.to_ascii_lowercase());
    }

    fn add_captions(&mut self, screens: &Screens, runs: &Runs) {
        for (&number, both) in screens.asked.iter().zip(runs.captions()) {
            let [one, other] = both.map(shown);
            match (number == screens.room, one.0) {
                (true, _) => self.own_caption += usize::from(one.2 != other.2),
                (false, 0) => self.of_the_house += usize::from(one.1 == 1),
                (false, _) => self.without += 1,
            }
        }
    }

    /// Looks at the plain forms of both pairs, and at those of the first beside its forms with a typed name.
    fn add_forms(&mut self, runs: &Runs) {
        let [one, other] = [0, 1].map(|pair: usize| runs.both[pair].forms.map(form));
        let each = [0, 1].map(|kind: usize| [one[kind], other[kind]]);
        let lengths = each.map(|both| both.map(|form| form.map(<[u8]>::len)));
        let is_longer = |both: &[Option<usize>; 2]| !both.contains(&None) && both[0] != both[1];
        let is_alone = |both: &[Option<usize>; 2]| both[0].is_some() != both[1].is_some();
        let are_there = |both: &[Option<usize>; 2]| !both.contains(&None);
        self.with_forms += usize::from(lengths.iter().all(are_there));
        self.lengths += usize::from(lengths.iter().any(is_longer));
        self.one_refused += usize::from(lengths.iter().any(is_alone));
        let beside = one.iter().zip(runs.renamed);
        let beside = beside.filter(|(plain, typed)| plain.is_some() && form(typed).is_some());
        self.renamed += beside.count();
    }

    /// Looks where the name stands in the plain forms of the first pair.
    fn add_lines(&mut self, runs: &Runs, name: &[u8]) {
        let forms = runs.both[0].forms;
        let [layout, sight] = forms.map(|done| lines(form(done).unwrap_or_default()));
        let is_hook = |line: &&&[u8]| words(line).len() >= 9 && words(line)[0] == name;
        let is_seen = |line: &&&[u8]| line.strip_prefix(b"  ") == Some(name);
        self.hooks += layout.iter().filter(is_hook).count();
        self.seen += sight.iter().filter(is_seen).count();
    }

    /// What the comparison tells of them.
    pub fn line(&self) -> String {
        format!(
            "texts alike but for one room's name {}, with at most {} rooms: its caption differs {}, no form is refused {}, \
             a form's length differs {}, one alone is refused with 40 {}; the same name in other letters {}, past the last \
             room {}; lines that hold the name: hooks {}, rooms seen {}; captions of other numbers in the house text {}, \
             none {}; forms with a typed name {}, with the other pair's {}; names with a line break refused {}",
            self.pairs,
            self.most_rooms,
            self.own_caption,
            self.with_forms,
            self.lengths,
            self.one_refused,
            self.other_letters,
            self.past_the_last,
            self.hooks,
            self.seen,
            self.of_the_house,
            self.without,
            self.renamed,
            self.with_other_name,
            self.line_breaks
        )
    }
}
