//! Vaults from a seed: text of made-up words with a Zipf-like spread, chunks of 4 to 12 KiB, recipes of runs of chunks.

pub struct Rng(pub u64);

impl Rng {
    pub fn next(&mut self) -> u64 {
        self.0 = self.0.wrapping_add(0x9E37_79B9_7F4A_7C15);
        let z = (self.0 ^ (self.0 >> 30)).wrapping_mul(0xBF58_476D_1CE4_E5B9);
        let z = (z ^ (z >> 27)).wrapping_mul(0x94D0_49BB_1331_11EB);
        z ^ (z >> 31)
    }

    pub fn below(&mut self, n: usize) -> usize {
        (self.next() % n as u64) as usize
    }
}

/// A made-up word of 4 to 11 letters.
fn word(rng: &mut Rng) -> Vec<u8> {
    let (consonants, vowels) = (b"bcdfghklmnprstvw", b"aeiou");
    let mut word = Vec::new();
    for _ in 0..2 + rng.below(4) {
        word.push(consonants[rng.below(consonants.len())]);
        word.push(vowels[rng.below(vowels.len())]);
        if rng.below(4) == 0 {
            word.push(consonants[rng.below(consonants.len())]);
        }
    }
    word.truncate(11);
    word
}

pub struct Vault {
    pub store: Vec<u8>,
    pub chunks: usize,
    /// Words of the text, the most frequent first, and words that are hardly in it.
    pub common: Vec<Vec<u8>>,
    pub rare: Vec<Vec<u8>>,
}

pub fn key(k: usize) -> [u8; 20] {
    let mut key = [0; 20];
    let mut rng = Rng(k as u64);
    key[..8].copy_from_slice(&rng.next().to_le_bytes());
    key[8..16].copy_from_slice(&rng.next().to_le_bytes());
    key[16..].copy_from_slice(&(k as u32).to_le_bytes());
    key
}

/// A store of these chunks.
pub fn store_of<B: AsRef<[u8]>>(chunks: &[B]) -> Vec<u8> {
    store_with_holes(chunks, 0)
}

/// The same with a hole of so many bytes before each chunk and behind the last one.
pub fn store_with_holes<B: AsRef<[u8]>>(chunks: &[B], hole: usize) -> Vec<u8> {
    let mut store = b"DV1\n".to_vec();
    store.extend_from_slice(&(chunks.len() as u32).to_le_bytes());
    let mut offset = 8 + 28 * chunks.len();
    for (k, chunk) in chunks.iter().map(AsRef::as_ref).enumerate() {
        offset += hole;
        store.extend_from_slice(&key(k));
        store.extend_from_slice(&(offset as u32).to_le_bytes());
        store.extend_from_slice(&(chunk.len() as u32).to_le_bytes());
        offset += chunk.len();
    }
    let filler = vec![b'x'; hole];
    chunks.iter().for_each(|chunk| store.extend([&filler, chunk.as_ref()].concat()));
    store.extend_from_slice(&filler);
    store
}

/// A store of about that many bytes.
pub fn vault(bytes: usize) -> Vault {
    let mut rng = Rng(5);
    let words: Vec<Vec<u8>> = (0..6000).map(|_| word(&mut rng)).collect();
    let rare: Vec<Vec<u8>> = (0..16).map(|k| [&words[100 + k][..3], b"q", &word(&mut rng)].concat()).collect();
    let mut text = Vec::with_capacity(bytes + 100);
    while text.len() < bytes {
        // Rank by a power of a uniform number: the first words come often.
        let u = (rng.next() >> 11) as f64 / (1u64 << 53) as f64;
        let rank = (words.len() as f64).powf(u) as usize - 1;
        if rng.below(200_000) == 0 {
            text.extend_from_slice(&rare[rng.below(rare.len())]);
        } else {
            text.extend_from_slice(&words[rank.min(words.len() - 1)]);
        }
        text.push(if rng.below(12) == 0 { b'\n' } else { b' ' });
    }
    let mut chunks = Vec::new();
    let mut at = 0;
    while at < text.len() {
        let end = (at + 4096 + rng.below(8192)).min(text.len());
        chunks.push(text[at..end].to_vec());
        at = end;
    }
    // Frequent words of at least 4 letters, none of them twice.
    let mut common: Vec<Vec<u8>> = Vec::new();
    for word in words.iter().skip(8) {
        if !common.contains(word) && common.len() < 16 {
            common.push(word.clone());
        }
    }
    Vault { store: store_of(&chunks), chunks: chunks.len(), common, rare }
}

/// Recipes that name `ratio` times as many chunks as the store has: files of runs of up to 64 neighbours.
pub fn recipes(chunks: usize, ratio: f64) -> (Vec<u8>, usize) {
    let mut rng = Rng(9);
    let mut left = (chunks as f64 * ratio) as usize;
    let places = left;
    let mut files: Vec<Vec<usize>> = Vec::new();
    let mut next = 0;
    while left > 0 {
        let length = 64.min(left);
        // The first pass names every chunk once; later ones start anywhere.
        let start = if next < chunks { next } else { rng.below(chunks) };
        files.push((0..length).map(|k| (start + k) % chunks).collect());
        next += length;
        left -= length;
    }
    (recipes_of(&files), places)
}

pub fn recipes_of(files: &[Vec<usize>]) -> Vec<u8> {
    let mut bytes = (files.len() as u32).to_le_bytes().to_vec();
    for file in files {
        bytes.extend_from_slice(&(file.len() as u32).to_le_bytes());
        file.iter().for_each(|k| bytes.extend_from_slice(&key(*k)));
    }
    bytes
}

/// An index of `count` chunks of 8 KiB; all bodies are empty but for the last chunk's.
pub fn index_of(list: &[u8], count: usize, last: &[u8]) -> Vec<u8> {
    let mut index = vault::forms::NEWEST.mark.to_vec();
    index.extend_from_slice(&(count as u32).to_le_bytes());
    index.extend_from_slice(list);
    let end = index.len() + 32 * count;
    for k in 0..count {
        let length = if k + 1 == count { last.len() } else { 0 };
        index.extend_from_slice(&key(k));
        [8192, end, length].iter().for_each(|field| index.extend_from_slice(&(*field as u32).to_le_bytes()));
    }
    index.extend_from_slice(last);
    index
}
