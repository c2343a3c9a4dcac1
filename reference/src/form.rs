//! Rewriting a floor in its fixed form, how tables are laid out in it, and how any form is put into lent memory.

use crate::answer::{refuse_if, Checked, Form};
use crate::floor;
use crate::floor::tables::{Table, Tables, FIELDS, HEADER};
use crate::words::put_word;

/// The tables in the order of the fixed form.
pub const ORDER: [Table; 9] = [
    Table::Vertices,
    Table::Faces,
    Table::Materials,
    Table::Normals,
    Table::Distances,
    Table::Nodes,
    Table::Adjacency,
    Table::Edges,
    Table::Perimeters,
];

/// Rewrites a floor: the reader's refusals, then 40. Bytes past the form stay.
pub fn rewrite(bytes: &[u8], work: &mut [u8], out: &mut [u8]) -> Form {
    let written = floor::accepted(bytes, work).and_then(|tables| deliver(&fixed(&tables), out));
    answer(written)
}

/// The fixed form: the same header numbers and tables.
pub fn fixed(tables: &Tables) -> Vec<u8> {
    let header = &tables.bytes[..HEADER];
    laid_out(header, ORDER.map(|table| tables.bytes_of(table)))
}

/// Tables behind a header, from 136 without gaps and in the order of the fixed form; every offset is
/// the running position, also that of an empty table.
pub fn laid_out(header: &[u8], tables: [&[u8]; 9]) -> Vec<u8> {
    let mut form = header.to_vec();
    for (table, bytes) in ORDER.into_iter().zip(tables) {
        let position = form.len() as u32;
        put_word(&mut form, FIELDS[table as usize].offset, position);
        form.extend_from_slice(bytes);
    }
    form
}

/// Rule 40: writes a form at the start of the output if it has room, and gives its length.
pub fn deliver(form: &[u8], out: &mut [u8]) -> Checked<usize> {
    refuse_if(out.len() < form.len(), 40, 0)?;
    out[..form.len()].copy_from_slice(form);
    Ok(form.len())
}

/// The answer of rewriting: the length written, 0 on refusal.
pub fn answer(written: Checked<usize>) -> Form {
    match written {
        Ok(length) => Form {
            number: 0,
            place: 0,
            length: length as u32,
        },
        Err(refusal) => Form {
            number: refusal.number,
            place: refusal.place,
            length: 0,
        },
    }
}
