//! The calls of both sides as one table of functions, so that a case runs on either.

use crate::answer::{Answer, CaptionAt, Floor, Form, Mended, Point, Row, Session};
use crate::{caption, floor, form, journal, layout, links, mend, plant, query, sight};

/// An edit: floor, journal, f, bench, place, and what to write there as 32 bits.
pub type Edit = fn(&mut [u8], &mut [u8], u32, u32, u32, u32) -> Session;
/// Records taken out again, by an undo or a put-back: floor, journal, f, bench.
pub type TakeOut = fn(&mut [u8], &mut [u8], u32, u32) -> Session;

/// A floor mended: floor, work memory, output, list.
pub type Mend = fn(&[u8], &mut [u8], &mut [u8], &mut [u8]) -> Mended;
/// A sight text renamed: layout, VIS, room, name, output.
pub type SightRename = fn(&[u8], &[u8], u32, &[u8], &mut [u8]) -> Form;

/// Every exported call.
#[derive(Clone, Copy)]
pub struct Calls {
    pub name: &'static str,
    pub read: fn(&[u8], &mut [u8]) -> Floor,
    pub rewrite: fn(&[u8], &mut [u8], &mut [u8]) -> Form,
    pub mend: Mend,
    pub tree: fn(&[u8], &mut [u8], &mut [u8]) -> Form,
    pub query: fn(&[u8], &mut [u8], i32, i32) -> Point,
    pub paint: Edit,
    pub link: Edit,
    pub nudge: Edit,
    pub undo: TakeOut,
    pub put_back: TakeOut,
    pub layout_rewrite: fn(&[u8], &mut [u8]) -> Form,
    pub layout_rename: fn(&[u8], u32, &[u8], &mut [u8]) -> Form,
    pub sight_rewrite: fn(&[u8], &[u8], &mut [u8]) -> Form,
    pub sight_rename: SightRename,
    pub sight_row: fn(&[u8], &[u8], u32) -> Row,
    pub link_check: fn(&[u8], &mut [u8], &[u8]) -> Answer,
    pub caption: fn(&[u8], &[u8], u32) -> CaptionAt,
}

/// This implementation.
pub const REFERENCE: Calls = Calls {
    name: "reference",
    read: floor::read,
    rewrite: form::rewrite,
    mend: mend::mend,
    tree: plant::tree,
    query: query::query,
    paint: journal::paint,
    link: |floor, journal, f, bench, entry, to| {
        journal::link(floor, journal, f, bench, entry, to as i32)
    },
    nudge: |floor, journal, f, bench, place, step| {
        journal::nudge(floor, journal, f, bench, place, step as i32)
    },
    undo: journal::undo,
    put_back: journal::put_back,
    layout_rewrite: layout::rewrite,
    layout_rename: layout::rename,
    sight_rewrite: sight::rewrite,
    sight_rename: sight::rename,
    sight_row: sight::row,
    link_check: links::link_check,
    caption: caption::caption,
};

/// The other side of a comparison: the exported calls, or this implementation once more.
#[cfg(not(feature = "engine"))]
pub const OTHER: Calls = Calls {
    name: "reference",
    ..REFERENCE
};
#[cfg(feature = "engine")]
pub const OTHER: Calls = engine::ENGINE;

/// The exported calls. Each slice is passed as its pointer and its length.
#[cfg(feature = "engine")]
mod engine {
    use super::*;

    type Bytes = *const u8;
    type Lent = *mut u8;

    #[rustfmt::skip]
    extern "C" {
        fn wp_read(bytes: Bytes, n: usize, work: Lent, m: usize) -> Floor;
        fn wp_rewrite(bytes: Bytes, n: usize, work: Lent, m: usize, out: Lent, o: usize) -> Form;
        fn wp_mend(bytes: Bytes, n: usize, work: Lent, m: usize, out: Lent, o: usize,
            list: Lent, l: usize) -> Mended;
        fn wp_tree(bytes: Bytes, n: usize, work: Lent, m: usize, out: Lent, o: usize) -> Form;
        fn wp_query(bytes: Bytes, n: usize, work: Lent, m: usize, x: i32, y: i32) -> Point;
        fn wp_paint(floor: Lent, n: usize, journal: Lent, m: usize, f: u32, bench: u32,
            face: u32, material: u32) -> Session;
        fn wp_link(floor: Lent, n: usize, journal: Lent, m: usize, f: u32, bench: u32,
            entry: u32, transition: i32) -> Session;
        fn wp_nudge(floor: Lent, n: usize, journal: Lent, m: usize, f: u32, bench: u32,
            place: u32, step: i32) -> Session;
        fn wp_undo(floor: Lent, n: usize, journal: Lent, m: usize, f: u32, bench: u32) -> Session;
        fn wp_put_back(floor: Lent, n: usize, journal: Lent, m: usize, f: u32, bench: u32) -> Session;
        fn wp_layout_rewrite(text: Bytes, n: usize, out: Lent, o: usize) -> Form;
        fn wp_layout_rename(text: Bytes, n: usize, room: u32, name: Bytes, m: usize,
            out: Lent, o: usize) -> Form;
        fn wp_sight_rewrite(layout: Bytes, n: usize, vis: Bytes, m: usize, out: Lent, o: usize) -> Form;
        fn wp_sight_rename(layout: Bytes, n: usize, vis: Bytes, m: usize, room: u32,
            name: Bytes, l: usize, out: Lent, o: usize) -> Form;
        fn wp_sight_row(layout: Bytes, n: usize, vis: Bytes, m: usize, room: u32) -> Row;
        fn wp_link_check(bytes: Bytes, n: usize, work: Lent, m: usize, layout: Bytes, l: usize) -> Answer;
        fn wp_caption(visitor: Bytes, n: usize, house: Bytes, m: usize, room: u32) -> CaptionAt;
    }

    // SAFETY, for every call below: each pointer comes with the length of the very slice it points
    // to, and the borrows of one call share no byte. That is all the exported calls ask for.
    #[rustfmt::skip]
    pub const ENGINE: Calls = Calls {
        name: "engine",
        read: |b, w| unsafe { wp_read(b.as_ptr(), b.len(), w.as_mut_ptr(), w.len()) },
        rewrite: |b, w, o| unsafe {
            wp_rewrite(b.as_ptr(), b.len(), w.as_mut_ptr(), w.len(), o.as_mut_ptr(), o.len())
        },
        mend: |b, w, o, l| unsafe {
            wp_mend(b.as_ptr(), b.len(), w.as_mut_ptr(), w.len(), o.as_mut_ptr(), o.len(),
                l.as_mut_ptr(), l.len())
        },
        tree: |b, w, o| unsafe {
            wp_tree(b.as_ptr(), b.len(), w.as_mut_ptr(), w.len(), o.as_mut_ptr(), o.len())
        },
        query: |b, w, x, y| unsafe { wp_query(b.as_ptr(), b.len(), w.as_mut_ptr(), w.len(), x, y) },
        paint: |b, j, f, bench, face, material| unsafe {
            wp_paint(b.as_mut_ptr(), b.len(), j.as_mut_ptr(), j.len(), f, bench, face, material)
        },
        link: |b, j, f, bench, entry, to| unsafe {
            wp_link(b.as_mut_ptr(), b.len(), j.as_mut_ptr(), j.len(), f, bench, entry, to as i32)
        },
        nudge: |b, j, f, bench, place, step| unsafe {
            wp_nudge(b.as_mut_ptr(), b.len(), j.as_mut_ptr(), j.len(), f, bench, place, step as i32)
        },
        undo: |b, j, f, bench| unsafe {
            wp_undo(b.as_mut_ptr(), b.len(), j.as_mut_ptr(), j.len(), f, bench)
        },
        put_back: |b, j, f, bench| unsafe {
            wp_put_back(b.as_mut_ptr(), b.len(), j.as_mut_ptr(), j.len(), f, bench)
        },
        layout_rewrite: |t, o| unsafe {
            wp_layout_rewrite(t.as_ptr(), t.len(), o.as_mut_ptr(), o.len())
        },
        layout_rename: |t, room, n, o| unsafe {
            wp_layout_rename(t.as_ptr(), t.len(), room, n.as_ptr(), n.len(), o.as_mut_ptr(), o.len())
        },
        sight_rewrite: |t, v, o| unsafe {
            wp_sight_rewrite(t.as_ptr(), t.len(), v.as_ptr(), v.len(), o.as_mut_ptr(), o.len())
        },
        sight_rename: |t, v, room, n, o| unsafe {
            wp_sight_rename(t.as_ptr(), t.len(), v.as_ptr(), v.len(), room,
                n.as_ptr(), n.len(), o.as_mut_ptr(), o.len())
        },
        sight_row: |t, v, room| unsafe { wp_sight_row(t.as_ptr(), t.len(), v.as_ptr(), v.len(), room) },
        link_check: |b, w, t| unsafe {
            wp_link_check(b.as_ptr(), b.len(), w.as_mut_ptr(), w.len(), t.as_ptr(), t.len())
        },
        caption: |v, h, room| unsafe { wp_caption(v.as_ptr(), v.len(), h.as_ptr(), h.len(), room) },
    };
}
