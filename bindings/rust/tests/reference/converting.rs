//! Converts a sheet to an edition, byte by byte (docs/FORMAT.md, Between editions), with the causes 15 and 8 in the
//! order of the table.

use super::reading::Sheet;
use super::Reply;

/// The bytes of a sheet in that edition, into an output of so many places; `read` is what the reader makes of them.
pub fn convert(bytes: &[u8], read: &Reply<Sheet>, edition: u8, places: usize) -> Reply<Vec<u8>> {
    let sheet = read.as_ref().map_err(|&refusal| refusal)?;
    if edition == 1 && sheet.chambers[0] < sheet.units {
        return Err((15, 12));
    }
    let converted = match (bytes[4], edition) {
        (1, 2) => raised(bytes),
        (2, 1) => lowered(bytes),
        _ => bytes.to_vec(),
    };
    enough(places, converted.len())?;
    Ok(converted)
}

/// Refusal 8: an output of so many places for a reply that fills so many.
pub fn enough(places: usize, filled: usize) -> Reply<()> {
    if places < filled {
        return Err((8, filled as u32));
    }
    Ok(())
}

/// From edition 1 to edition 2, each record at its place, used or not.
fn raised(bytes: &[u8]) -> Vec<u8> {
    let mut out = bytes[..24].to_vec();
    out[4] = 2;
    out[12] = bytes[5];
    for record in bytes[24..].chunks_exact(24) {
        out.extend(&record[..16]);
        out.extend([record[16], 0, 0, 0]);
        out.extend([record[17], 0, 0, 0]);
        out.extend([record[18], record[19], 0, 0]);
        out.extend(&record[20..]);
    }
    out
}

/// From edition 2 to edition 1, likewise.
fn lowered(bytes: &[u8]) -> Vec<u8> {
    let mut out = bytes[..24].to_vec();
    out[4] = 1;
    out[12..16].fill(0);
    for record in bytes[24..].chunks_exact(32) {
        out.extend(&record[..16]);
        out.extend([record[16], record[20]]);
        out.extend([record[24], record[25]]);
        out.extend(&record[28..]);
    }
    out
}
