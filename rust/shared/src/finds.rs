//! Traced searches: those of sequences, and files of searches that have all that they read.

use crate::folder;
use std::path::Path;
use std::path::PathBuf;

const MAGIC: &[u8] = b"MVFIND1\n";

/// The capture file's kind 1, the mask of the fields lent, high precision, integer vectors.
pub const FRAME_LEN: usize = 70;

/// What a search was asked, beside its frame.
#[derive(Clone, Copy, Debug, PartialEq, Eq)]
pub struct Query {
    pub references: [i8; 2],
    pub size: u8,
    pub above_right: u8,
    pub by4: u16,
    pub bx4: u16,
    /// Of both references: y, x and whether the type is above translation.
    pub globals: [([i16; 2], u8); 2],
}

/// What it found.
#[derive(Clone, Debug, PartialEq, Eq)]
pub struct Found {
    pub count: u8,
    pub context: u8,
    /// At least two. In a single search the second vectors are zero.
    pub slots: Vec<Slot>,
}

/// Two vectors (y, x) and a weight, which means nothing at or past the count.
#[derive(Clone, Copy, Debug, PartialEq, Eq)]
pub struct Slot {
    pub mv: [[i16; 2]; 2],
    pub weight: u16,
}

/// A search with all that it read.
#[derive(Clone, Debug)]
pub struct Find {
    /// Which of the file's frames it was on.
    pub frame: usize,
    pub tile_row: u8,
    pub superblock_row: u16,
    pub pass: u8,
    /// Column start, end, row start, end.
    pub bounds: [u16; 4],
    pub query: Query,
    pub found: Found,
    /// Places and bytes of all that was read, each once, in the order of the first reads.
    pub records: Vec<(u32, [u8; 12])>,
    pub cells: Vec<(u32, [u8; 5])>,
}

/// A file of searches.
#[derive(Clone, Debug)]
pub struct Finds {
    pub frames: Vec<[u8; FRAME_LEN]>,
    pub cases: Vec<Find>,
}

/// The files of searches in a folder, by name.
pub fn files(folder: &Path) -> Result<Vec<PathBuf>, String> {
    let paths = folder::files(folder, "find")?;
    if paths.is_empty() {
        return Err(folder::told(folder, "no searches".to_string()));
    }
    Ok(paths)
}

pub fn read(bytes: &[u8]) -> Result<Finds, String> {
    let rest = bytes.strip_prefix(MAGIC).ok_or("no file of searches")?;
    let mut reader = Reader(rest);
    let frames = (0..reader.u16()?).map(|_| reader.bytes());
    let frames = frames.collect::<Result<_, _>>()?;
    let cases = (0..u32::from_le_bytes(reader.bytes()?)).map(|_| reader.find());
    let cases = cases.collect::<Result<_, _>>()?;
    match reader.0 {
        [] => Ok(Finds { frames, cases }),
        more => Err(format!("{} bytes too many", more.len())),
    }
}

/// The search of a sequence's event.
pub fn event(body: &[u8]) -> Result<(Query, Found), String> {
    let mut reader = Reader(body);
    let query = reader.query()?;
    Ok((query, reader.found(&query)?))
}

struct Reader<'a>(&'a [u8]);

impl Reader<'_> {
    fn bytes<const N: usize>(&mut self) -> Result<[u8; N], String> {
        let (first, rest) = self.0.split_first_chunk().ok_or("cut short")?;
        self.0 = rest;
        Ok(*first)
    }

    fn u16(&mut self) -> Result<u16, String> {
        Ok(u16::from_le_bytes(self.bytes()?))
    }

    fn vector(&mut self) -> Result<[i16; 2], String> {
        let [y0, y1, x0, x1] = self.bytes()?;
        Ok([[y0, y1], [x0, x1]].map(i16::from_le_bytes))
    }

    fn global(&mut self) -> Result<([i16; 2], u8), String> {
        let (mv, [above]) = (self.vector()?, self.bytes()?);
        Ok((mv, above))
    }

    fn query(&mut self) -> Result<Query, String> {
        let [first, second, size, above_right] = self.bytes()?;
        Ok(Query {
            references: [first, second].map(|byte| byte as i8),
            size,
            above_right,
            by4: self.u16()?,
            bx4: self.u16()?,
            globals: [self.global()?, self.global()?],
        })
    }

    fn found(&mut self, query: &Query) -> Result<Found, String> {
        let [count, context, slots] = self.bytes()?;
        let compound = query.references[1] > 0;
        let slots = (0..slots).map(|_| self.slot(compound));
        Ok(Found {
            count,
            context,
            slots: slots.collect::<Result<_, _>>()?,
        })
    }

    fn slot(&mut self, compound: bool) -> Result<Slot, String> {
        let first = self.vector()?;
        let second = if compound { self.vector()? } else { [0; 2] };
        Ok(Slot {
            mv: [first, second],
            weight: self.u16()?,
        })
    }

    fn find(&mut self) -> Result<Find, String> {
        let frame = self.u16()?.into();
        let [tile_row] = self.bytes()?;
        let superblock_row = self.u16()?;
        let [pass] = self.bytes()?;
        let bounds = [self.u16()?, self.u16()?, self.u16()?, self.u16()?];
        let query = self.query()?;
        Ok(Find {
            frame,
            tile_row,
            superblock_row,
            pass,
            bounds,
            query,
            found: self.found(&query)?,
            records: self.places()?,
            cells: self.places()?,
        })
    }

    fn places<const N: usize>(&mut self) -> Result<Vec<(u32, [u8; N])>, String> {
        let count = self.u16()?;
        let place = |_| Ok((u32::from_le_bytes(self.bytes()?), self.bytes()?));
        (0..count).map(place).collect()
    }
}

#[cfg(test)]
mod tests {
    use super::*;

    /// One frame; a search of it with two slots, one record and no cell.
    fn file() -> Vec<u8> {
        let head = [0, 0, 3, 5, 0, 1, 0, 0, 8, 0, 0, 0, 16, 0];
        let query = [1, 255, 17, 1, 2, 0, 4, 0, 3, 0, 254, 255, 1, 0, 0, 0, 0, 0];
        let found = [0, 8, 2, 3, 0, 254, 255, 0, 0, 3, 0, 254, 255, 0, 0];
        let reads = [&[1, 0, 7, 0, 0, 0][..], &[9; 12], &[0, 0]].concat();
        let case = [&head[..], &query, &found, &reads].concat();
        [MAGIC, &[1, 0], &[6; FRAME_LEN], &[1, 0, 0, 0], &case].concat()
    }

    #[test]
    fn a_search_is_read() {
        let finds = read(&file()).unwrap();
        assert_eq!(finds.frames, [[6; FRAME_LEN]]);
        let [find] = &finds.cases[..] else {
            panic!("one search");
        };
        let places = (find.tile_row, find.superblock_row, find.pass, find.bounds);
        assert_eq!(places, (3, 5, 1, [0, 8, 0, 16]));
        assert_eq!(find.query.references, [1, -1]);
        assert_eq!([find.query.by4, find.query.bx4], [2, 4]);
        assert_eq!(find.query.globals, [([3, -2], 1), ([0, 0], 0)]);
        assert_eq!([find.found.count, find.found.context], [0, 8]);
        assert_eq!(find.found.slots[1].mv, [[3, -2], [0, 0]]);
        assert_eq!(find.records, [(7, [9; 12])]);
        assert!(find.cells.is_empty());
    }

    #[test]
    fn a_bad_file_is_told() {
        let whole = file();
        assert!(read(&whole[..whole.len() - 1]).is_err());
        assert!(read(&whole[1..]).is_err());
        assert!(read(&[whole, vec![0]].concat()).is_err());
    }
}
