//! Store and recipes from plain files, so that the search can be tried on a folder. Nothing here is proved: the library
//! takes fingerprints as 20 opaque bytes and cuts as they come.
//!
//! Cuts. `fixed`: every N bytes. `content`: a gear hash rolls over the last 64 bytes (each step: twice the hash, plus a
//! number for the byte); a cut falls behind a byte where the hash's top bits are 0, so that equal parts of different files
//! are cut alike; chunks have N / 4 to 4 x N bytes. Every chunk but a file's last has at least 31 bytes, so that no
//! keyword is longer than an inner chunk by more than one byte (refusal 17 never comes up).
//!
//! Fingerprints. Three FNV-1a hashes of 64 bits with different starts, cut to 20 bytes. Chunks are told apart by their
//! bytes, and where two different ones would share a fingerprint, the later one gets the next free number.

use crate::collect::{collect, Collected};
use crate::failure::Failure;
use crate::output;
use crate::progress::{size, Progress};
use crate::{identity, input, text};
use std::collections::HashMap;
use std::io::{self, Write};
use std::path::{Path, PathBuf};
use vault::forms::{GREATEST_END, LONGEST_CHUNK, MOST_CHUNKS};

type Fingerprint = [u8; 20];

#[derive(Clone, Copy)]
pub enum Cut {
    Fixed(usize),
    Content(usize),
}

/// The largest size of cuts by content, whose chunks have up to four times as many bytes.
const LARGEST_CONTENT: usize = LONGEST_CHUNK.div_ceil(4);

/// How a vault is cut; refuses sizes that the formats don't take.
pub fn cut_of(name: Option<&str>, size: Option<usize>) -> Result<Cut, Failure> {
    let size = size.unwrap_or(8192);
    match name.unwrap_or("content") {
        "fixed" if (64..=LONGEST_CHUNK).contains(&size) => Ok(Cut::Fixed(size)),
        "content" if (64..=LARGEST_CONTENT).contains(&size) => Ok(Cut::Content(size)),
        "fixed" => Err(Failure::Usage(format!("--size is 64 to {LONGEST_CHUNK} with --cut fixed"))),
        "content" => Err(Failure::Usage(format!("--size is 64 to {LARGEST_CONTENT} with --cut content"))),
        other => Err(Failure::Usage(format!("--cut is content or fixed, not {other}"))),
    }
}

/// A number for each byte, from splitmix64.
fn gear() -> [u64; 256] {
    let mut state = 0u64;
    std::array::from_fn(|_| {
        state = state.wrapping_add(0x9E37_79B9_7F4A_7C15);
        let z = (state ^ (state >> 30)).wrapping_mul(0xBF58_476D_1CE4_E5B9);
        let z = (z ^ (z >> 27)).wrapping_mul(0x94D0_49BB_1331_11EB);
        z ^ (z >> 31)
    })
}

/// The chunks of `data`.
fn chunks<'a>(data: &'a [u8], cut: Cut, gear: &'a [u64; 256]) -> impl Iterator<Item = &'a [u8]> {
    let mut rest = data;
    std::iter::from_fn(move || {
        let length = match cut {
            Cut::Fixed(size) => rest.len().min(size),
            Cut::Content(size) => content_length(rest, size, gear),
        };
        let (chunk, behind) = rest.split_at(length);
        rest = behind;
        (length > 0).then_some(chunk)
    })
}

/// The length of the first chunk of `rest`.
fn content_length(rest: &[u8], size: usize, gear: &[u64; 256]) -> usize {
    let (least, most) = ((size / 4).max(31), (4 * size).min(LONGEST_CHUNK));
    let bits = usize::BITS - (size - least).leading_zeros() - 1;
    let mut hash = 0u64;
    for (at, b) in rest.iter().enumerate().take(most) {
        hash = (hash << 1).wrapping_add(gear[usize::from(*b)]);
        if at + 1 >= least && hash >> (64 - bits) == 0 {
            return at + 1;
        }
    }
    rest.len().min(most)
}

fn fingerprint(chunk: &[u8]) -> Fingerprint {
    let mut lanes = [0xCBF2_9CE4_8422_2325u64, 0x9E37_79B9_7F4A_7C15, 0xD6E8_FEB8_6659_FD93];
    for b in chunk {
        for lane in &mut lanes {
            *lane = (*lane ^ u64::from(*b)).wrapping_mul(0x0000_0100_0000_01B3);
        }
    }
    let mut key = [0; 20];
    let bytes: Vec<u8> = lanes.iter().flat_map(|lane| lane.to_le_bytes()).collect();
    key.copy_from_slice(&bytes[..20]);
    key
}

/// Chunks by fingerprint, in the order they came.
#[derive(Default)]
pub struct Builder {
    chunks: Vec<(Fingerprint, Vec<u8>)>,
    number: HashMap<Fingerprint, usize>,
    recipes: Vec<Vec<usize>>,
    /// Bytes of all files, and of all chunks.
    pub whole: u64,
    pub stored: u64,
}

/// Pushes, where there is memory for it.
fn push<T>(list: &mut Vec<T>, item: T) -> Result<(), Failure> {
    list.try_reserve(1).map_err(|_| Failure::memory("the vault", (2 * list.len() * size_of::<T>()) as u64))?;
    list.push(item);
    Ok(())
}

impl Builder {
    /// The chunk's number, a new one if its bytes are new.
    fn add_chunk(&mut self, chunk: &[u8]) -> Result<usize, Failure> {
        let mut key = fingerprint(chunk);
        while let Some(k) = self.number.get(&key) {
            if self.chunks[*k].1 == chunk {
                return Ok(*k);
            }
            // Another chunk has this fingerprint: the next one.
            let last = u32::from_le_bytes([key[16], key[17], key[18], key[19]]).wrapping_add(1);
            key[16..].copy_from_slice(&last.to_le_bytes());
        }
        if self.chunks.len() == MOST_CHUNKS {
            return Err(Failure::File("more than 65,000 chunks: give a larger --size, or fewer files".into()));
        }
        let end = 8 + 28 * (self.chunks.len() as u64 + 1) + self.stored + chunk.len() as u64;
        if end > GREATEST_END {
            return Err(Failure::File(
                "a store of more than 4,294,967,295 bytes: make several vaults of fewer files each".into(),
            ));
        }
        let none = |_| Failure::memory("the vault", self.stored + chunk.len() as u64);
        let mut copy = Vec::new();
        copy.try_reserve_exact(chunk.len()).map_err(none)?;
        copy.extend_from_slice(chunk);
        self.number.try_reserve(1).map_err(none)?;
        self.number.insert(key, self.chunks.len());
        push(&mut self.chunks, (key, copy))?;
        self.stored += chunk.len() as u64;
        Ok(self.chunks.len() - 1)
    }

    fn add_file(&mut self, data: &[u8], cut: Cut, gear: &[u64; 256]) -> Result<(), Failure> {
        let mut recipe = Vec::new();
        for chunk in chunks(data, cut, gear) {
            push(&mut recipe, self.add_chunk(chunk)?)?;
        }
        push(&mut self.recipes, recipe)?;
        self.whole += data.len() as u64;
        Ok(())
    }

    fn write_store(&self, out: &mut dyn Write) -> io::Result<()> {
        out.write_all(b"DV1\n")?;
        out.write_all(&(self.chunks.len() as u32).to_le_bytes())?;
        let mut offset = 8 + 28 * self.chunks.len();
        for (key, chunk) in &self.chunks {
            out.write_all(key)?;
            out.write_all(&(offset as u32).to_le_bytes())?;
            out.write_all(&(chunk.len() as u32).to_le_bytes())?;
            offset += chunk.len();
        }
        self.chunks.iter().try_for_each(|(_, chunk)| out.write_all(chunk))
    }

    fn write_recipes(&self, out: &mut dyn Write) -> io::Result<()> {
        out.write_all(&(self.recipes.len() as u32).to_le_bytes())?;
        for recipe in &self.recipes {
            out.write_all(&(recipe.len() as u32).to_le_bytes())?;
            recipe.iter().try_for_each(|k| out.write_all(&self.chunks[*k].0))?;
        }
        Ok(())
    }
}

/// The files that are written to the folder.
pub fn outputs(folder: &Path, with_keywords: bool) -> Vec<PathBuf> {
    let names = ["store.bin", "recipes.bin", "names.txt", "words.bin"];
    names[..if with_keywords { 4 } else { 3 }].iter().map(|name| folder.join(name)).collect()
}

/// Reads all files and writes store, recipes and names to the folder, and the keyword list if there is one.
pub fn make(progress: &Progress, paths: &[&Path], folder: &Path, cut: Cut, list: Option<Vec<u8>>) -> Result<(), Failure> {
    let mut collected = collect(paths)?;
    let files = outputs(folder, list.is_some());
    let written: Vec<&Path> = files.iter().map(PathBuf::as_path).collect();
    identity::keep_apart(&written, collected.files.iter().map(PathBuf::as_path))?;
    let (builder, names) = built(progress, &mut collected, cut)?;
    if names.is_empty() && collected.left_out > 0 {
        return Err(Failure::File("none of the files can be read: no vault is written".into()));
    }
    std::fs::create_dir_all(folder).map_err(|error| Failure::file(folder, error))?;
    let mut prepared = vec![
        output::prepare(written[0], |out| builder.write_store(out))?,
        output::prepare(written[1], |out| builder.write_recipes(out))?,
        output::prepare(written[2], |out| names.iter().try_for_each(|name| writeln!(out, "{name}")))?,
    ];
    if let Some(list) = list {
        prepared.push(output::prepare(written[3], |out| out.write_all(&list))?);
    }
    output::put_in_place(prepared)?;
    tell(&builder, &collected, &written)
}

/// The vault of the files that can be read, and the lines of its names.
fn built(progress: &Progress, collected: &mut Collected, cut: Cut) -> Result<(Builder, Vec<String>), Failure> {
    let gear = gear();
    let mut builder = Builder::default();
    let mut names = Vec::new();
    for path in std::mem::take(&mut collected.files) {
        match input::read(progress, &path, &input::PLAIN) {
            Ok(data) => builder.add_file(&data, cut, &gear)?,
            Err(Failure::File(why)) => {
                collected.leave_out(why);
                continue;
            }
            Err(other) => return Err(other),
        }
        if names.len() == input::MOST_FILES as usize {
            return Err(Failure::File("more than 65,535 files: recipes take no more".into()));
        }
        names.push(text::path(&path));
    }
    Ok((builder, names))
}

/// What was written, and what was not.
fn tell(builder: &Builder, collected: &Collected, written: &[&Path]) -> Result<(), Failure> {
    let ratio = builder.whole as f64 / builder.stored.max(1) as f64;
    let report = output::standard(|out| {
        let (files, chunks) = (builder.recipes.len(), builder.chunks.len());
        let (whole, stored) = (size(builder.whole), size(builder.stored));
        writeln!(out, "{files} files of {whole} in {chunks} chunks of {stored} (deduplication {ratio:.2})")?;
        writeln!(out, "written: {}", text::paths(written))
    });
    if let Some(skipped) = collected.skipped() {
        text::say(skipped);
    }
    if collected.left_out == 0 {
        return report;
    }
    if let Err(failure) = report {
        text::say(failure);
    }
    let (n, s) = (collected.left_out, if collected.left_out == 1 { "" } else { "s" });
    let why = format!("the vault is NOT COMPLETE: {n} file{s} or folder{s} could not be read, see above");
    Err(Failure::Incomplete(why))
}

#[cfg(test)]
mod tests {
    use super::*;

    fn text(n: usize) -> Vec<u8> {
        (0..n as u64).map(|k| (k.wrapping_mul(k ^ 0x5DEE_CE66) >> 7) as u8).collect()
    }

    #[test]
    fn cuts_cover_the_file_and_keep_their_lengths() {
        let data = text(3_000_000);
        for cut in
            [Cut::Fixed(64), Cut::Fixed(LONGEST_CHUNK), Cut::Content(64), Cut::Content(8192), Cut::Content(LARGEST_CONTENT)]
        {
            let gear = gear();
            let chunks: Vec<&[u8]> = chunks(&data, cut, &gear).collect();
            assert!(chunks.concat() == data);
            for (k, chunk) in chunks.iter().enumerate() {
                assert!((1..=LONGEST_CHUNK).contains(&chunk.len()));
                assert!(chunk.len() >= 31 || k + 1 == chunks.len());
            }
        }
        assert_eq!(chunks(&[], Cut::Content(64), &gear()).count(), 0);
    }

    /// Content that never says so is cut at the longest chunk.
    #[test]
    fn the_longest_chunks() {
        let (data, gear) = (vec![b'A'; 2 * LONGEST_CHUNK + 100], gear());
        for cut in [Cut::Fixed(LONGEST_CHUNK), Cut::Content(LARGEST_CONTENT)] {
            let lengths: Vec<usize> = chunks(&data, cut, &gear).map(<[u8]>::len).collect();
            assert_eq!(lengths, [1_048_576, 1_048_576, 100]);
        }
        let size = |name: &str, size: usize| cut_of(Some(name), Some(size)).is_ok();
        assert!(size("fixed", 1_048_576) && !size("fixed", 1_048_577) && size("content", 262_144) && !size("content", 262_145));
    }

    /// A store without holes ends within 32 bits: the entry of the next chunk counts too.
    #[test]
    fn the_longest_store() {
        for (room, fits) in [(28 + 100, true), (28 + 99, false), (0, false)] {
            let mut builder = Builder { stored: GREATEST_END - 8 - room, ..Builder::default() };
            let added = builder.add_file(&[b'A'; 100], Cut::Fixed(100), &gear());
            match added {
                Ok(()) => assert!(fits),
                Err(Failure::File(why)) => assert!(!fits && why.contains("make several vaults"), "{why}"),
                Err(_) => panic!("another failure"),
            }
        }
    }

    #[test]
    fn equal_parts_become_equal_chunks() {
        let mut builder = Builder::default();
        let data = text(200_000);
        let shifted = [b"some bytes in front".to_vec(), data.clone()].concat();
        builder.add_file(&data, Cut::Content(1024), &gear()).ok().unwrap();
        builder.add_file(&shifted, Cut::Content(1024), &gear()).ok().unwrap();
        assert!(builder.stored < 230_000, "{} bytes stored", builder.stored);
    }

    #[test]
    fn the_library_takes_what_is_built() {
        vault::on_large_stack(|| {
            let mut builder = Builder::default();
            let data = [text(5000), b"the keyword here".to_vec(), text(5000)].concat();
            builder.add_file(&data, Cut::Fixed(100), &gear()).ok().unwrap();
            builder.add_file(&[], Cut::Fixed(100), &gear()).ok().unwrap();
            builder.add_file(&data[3..], Cut::Content(128), &gear()).ok().unwrap();
            let (mut store, mut recipes) = (Vec::new(), Vec::new());
            builder.write_store(&mut store).unwrap();
            builder.write_recipes(&mut recipes).unwrap();
            let list = vault::keyword_list(false, &[b"the keyword here"]).unwrap();
            let found = vault::unbilled::search(&list, &store, &recipes).unwrap();
            let places: Vec<(u32, u32)> = found.iter().map(|o| (o.file, o.offset)).collect();
            assert_eq!(places, [(0, 5000), (2, 4997)]);
        })
        .unwrap();
    }
}
