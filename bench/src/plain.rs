//! The same decoders in plain Rust, with nothing proved: each takes a byte at a time from the one below.

#[derive(Clone, Copy, PartialEq, Debug)]
pub enum Ending {
    Clean,
    Damaged(u8, u8),
}

pub trait Source {
    fn take(&mut self) -> Result<u8, Ending>;
}

pub struct Memory<'a> {
    bytes: std::slice::Iter<'a, u8>,
}

impl<'a> Memory<'a> {
    pub fn new(bytes: &'a [u8]) -> Self {
        Memory { bytes: bytes.iter() }
    }
}

impl Source for Memory<'_> {
    fn take(&mut self) -> Result<u8, Ending> {
        self.bytes.next().copied().ok_or(Ending::Clean)
    }
}

/// Fills an area: how many bytes came.
pub fn fill<S: Source>(source: &mut S, area: &mut [u8]) -> usize {
    for (n, place) in area.iter_mut().enumerate() {
        match source.take() {
            Ok(b) => *place = b,
            Err(_) => return n,
        }
    }
    area.len()
}

fn above(ending: Ending) -> Ending {
    match ending {
        Ending::Clean => Ending::Damaged(22, 0),
        Ending::Damaged(cause, depth) => Ending::Damaged(cause, depth.saturating_add(1)),
    }
}

fn passed(ending: Ending) -> Ending {
    match ending {
        Ending::Clean => Ending::Clean,
        damaged => above(damaged),
    }
}

fn is_white(b: u8) -> bool {
    matches!(b, 0 | 9 | 10 | 12 | 13 | 32)
}

fn is_blank(b: u8) -> bool {
    matches!(b, 9 | 10 | 13 | 32)
}

fn digit(b: u8) -> Option<u8> {
    match b {
        b'0'..=b'9' => Some(b - b'0'),
        b'A'..=b'F' => Some(b - b'A' + 10),
        b'a'..=b'f' => Some(b - b'a' + 10),
        _ => None,
    }
}

pub struct AsciiHex<S> {
    below: S,
    ended: Option<Ending>,
}

impl<S: Source> AsciiHex<S> {
    pub fn new(below: S) -> Self {
        AsciiHex { below, ended: None }
    }

    fn end(&mut self, ending: Ending) -> Ending {
        self.ended = Some(ending);
        ending
    }
}

impl<S: Source> Source for AsciiHex<S> {
    fn take(&mut self) -> Result<u8, Ending> {
        if let Some(ending) = self.ended {
            return Err(ending);
        }
        let mut high = None;
        loop {
            let b = match self.below.take() {
                Ok(b) => b,
                Err(e) => return Err(self.end(above(e))),
            };
            match (digit(b), high) {
                (Some(d), None) => high = Some(d),
                (Some(d), Some(h)) => return Ok(h << 4 | d),
                _ if is_white(b) => {}
                (_, Some(h)) if b == b'>' => {
                    self.end(Ending::Clean);
                    return Ok(h << 4);
                }
                _ if b == b'>' => return Err(self.end(Ending::Clean)),
                _ => return Err(self.end(Ending::Damaged(21, 0))),
            }
        }
    }
}

pub struct Ascii85<S> {
    below: S,
    ready: [u8; 4],
    at: usize,
    to: usize,
    ended: Option<Ending>,
}

impl<S: Source> Ascii85<S> {
    pub fn new(below: S) -> Self {
        Ascii85 { below, ready: [0; 4], at: 0, to: 0, ended: None }
    }

    fn group(&mut self, value: u64, count: usize) {
        if value > u32::MAX as u64 {
            self.ended = Some(Ending::Damaged(23, 0));
        } else {
            self.ready = (value as u32).to_be_bytes();
            self.at = 0;
            self.to = count;
        }
    }

    fn close(&mut self) -> Option<Ending> {
        loop {
            match self.below.take() {
                Err(e) => return Some(above(e)),
                Ok(b) if is_white(b) => {}
                Ok(b'>') => return None,
                Ok(_) => return Some(Ending::Damaged(21, 0)),
            }
        }
    }

    fn last(&mut self, count: usize, mut value: u64) {
        if let Some(ending) = self.close() {
            self.ended = Some(ending);
            return;
        }
        match count {
            0 => self.ended = Some(Ending::Clean),
            1 => self.ended = Some(Ending::Damaged(24, 0)),
            _ => {
                for _ in count..5 {
                    value = value * 85 + 84;
                }
                self.group(value, count - 1);
                self.ended = self.ended.or(Some(Ending::Clean));
            }
        }
    }

    fn step(&mut self) {
        let (mut count, mut value) = (0, 0u64);
        loop {
            let b = match self.below.take() {
                Ok(b) => b,
                Err(e) => return self.ended = Some(above(e)),
            };
            match b {
                b'!'..=b'u' => {
                    value = value * 85 + (b - b'!') as u64;
                    count += 1;
                    if count == 5 {
                        return self.group(value, 4);
                    }
                }
                b'z' if count == 0 => return self.group(0, 4),
                b'~' => return self.last(count, value),
                _ if is_white(b) => {}
                _ => return self.ended = Some(Ending::Damaged(21, 0)),
            }
        }
    }
}

impl<S: Source> Source for Ascii85<S> {
    fn take(&mut self) -> Result<u8, Ending> {
        if self.at == self.to && self.ended.is_none() {
            self.step();
        }
        if self.at < self.to {
            self.at += 1;
            return Ok(self.ready[self.at - 1]);
        }
        Err(self.ended.unwrap_or(Ending::Clean))
    }
}

/// Up to the first place of the mark, which is dropped.
pub struct SubFile<S> {
    below: S,
    mark: Vec<u8>,
    held: Vec<u8>,
    ready: usize,
    ended: Option<Ending>,
}

impl<S: Source> SubFile<S> {
    pub fn new(mark: &[u8], below: S) -> Self {
        SubFile { below, mark: mark.to_vec(), held: Vec::with_capacity(16), ready: 0, ended: None }
    }

    fn step(&mut self) {
        loop {
            if !self.mark.starts_with(&self.held) {
                return self.ready = 1;
            }
            if self.held.len() == self.mark.len() {
                self.held.clear();
                return self.ended = Some(Ending::Clean);
            }
            match self.below.take() {
                Ok(b) => self.held.push(b),
                Err(e) => {
                    self.ready = self.held.len();
                    return self.ended = Some(above(e));
                }
            }
        }
    }
}

impl<S: Source> Source for SubFile<S> {
    fn take(&mut self) -> Result<u8, Ending> {
        if self.ready == 0 && self.ended.is_none() {
            self.step();
        }
        if self.ready > 0 {
            self.ready -= 1;
            return Ok(self.held.remove(0));
        }
        Err(self.ended.unwrap_or(Ending::Clean))
    }
}

pub struct Eexec<S> {
    below: S,
    key: u16,
    hex: Option<bool>,
    ended: Option<Ending>,
}

impl<S: Source> Eexec<S> {
    pub fn new(below: S) -> Self {
        Eexec { below, key: 55665, hex: None, ended: None }
    }

    fn decipher(&mut self, c: u8) -> u8 {
        let plain = c ^ (self.key >> 8) as u8;
        self.key = (c as u16).wrapping_add(self.key).wrapping_mul(52845).wrapping_add(22719);
        plain
    }

    /// The next cipher byte, or the end: whether it stood at its start, and the ending.
    fn cipher(&mut self, hex: bool) -> Result<u8, (bool, Ending)> {
        if !hex {
            return self.below.take().map_err(|e| (true, e));
        }
        let mut high = None;
        loop {
            let b = self.below.take().map_err(|e| if high.is_none() { (true, e) } else { (false, above(e)) })?;
            match (digit(b), high) {
                (Some(d), None) => high = Some(d),
                (Some(d), Some(h)) => return Ok(h << 4 | d),
                _ if is_blank(b) => {}
                _ => return Err((false, Ending::Damaged(21, 0))),
            }
        }
    }

    fn begin(&mut self) -> Result<bool, Ending> {
        let mut first = self.below.take().map_err(above)?;
        while is_blank(first) {
            first = self.below.take().map_err(above)?;
        }
        let mut four = [first; 4];
        for b in &mut four[1..] {
            *b = self.below.take().map_err(above)?;
        }
        match four.map(digit) {
            [Some(a), Some(b), Some(c), Some(d)] => {
                self.decipher(a << 4 | b);
                self.decipher(c << 4 | d);
                for _ in 0..2 {
                    let c = self.cipher(true).map_err(|(start, e)| if start { above(e) } else { e })?;
                    self.decipher(c);
                }
                Ok(true)
            }
            _ => {
                for b in four {
                    self.decipher(b);
                }
                Ok(false)
            }
        }
    }

    fn next(&mut self) -> Result<u8, Ending> {
        let hex = match self.hex {
            Some(hex) => hex,
            None => self.begin()?,
        };
        self.hex = Some(hex);
        match self.cipher(hex) {
            Ok(c) => Ok(self.decipher(c)),
            Err((true, e)) => Err(passed(e)),
            Err((false, e)) => Err(e),
        }
    }
}

impl<S: Source> Source for Eexec<S> {
    fn take(&mut self) -> Result<u8, Ending> {
        if let Some(ending) = self.ended {
            return Err(ending);
        }
        let next = self.next();
        self.ended = next.err();
        next
    }
}

#[inline(never)]
pub fn ascii_hex(input: &[u8], output: &mut [u8]) -> usize {
    fill(&mut AsciiHex::new(Memory::new(input)), output)
}

#[inline(never)]
pub fn ascii_85(input: &[u8], output: &mut [u8]) -> usize {
    fill(&mut Ascii85::new(Memory::new(input)), output)
}

#[inline(never)]
pub fn subfile(mark: &[u8], input: &[u8], output: &mut [u8]) -> usize {
    fill(&mut SubFile::new(mark, Memory::new(input)), output)
}

#[inline(never)]
pub fn eexec(input: &[u8], output: &mut [u8]) -> usize {
    fill(&mut Eexec::new(Memory::new(input)), output)
}

#[inline(never)]
pub fn four_deep(mark: &[u8], input: &[u8], output: &mut [u8]) -> usize {
    fill(&mut Eexec::new(Ascii85::new(SubFile::new(mark, AsciiHex::new(Memory::new(input))))), output)
}
