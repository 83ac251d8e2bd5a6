//! Bytes that are put together for a file, and numbers in them.

/// A text of at most `N` bytes. All `N` are copied where it is put, since a copy of known length takes few instructions;
/// what stands behind the text is overwritten by what comes next.
#[derive(Clone, Copy)]
pub struct Piece<const N: usize> {
    bytes: [u8; N],
    len: u8,
}

impl<const N: usize> Piece<N> {
    pub fn new(text: &str) -> Self {
        let mut bytes = [0; N];
        bytes[..text.len()].copy_from_slice(text.as_bytes());
        Piece { bytes, len: text.len() as u8 }
    }

    /// A piece that is put together. There is room in it for what is written behind the text.
    #[inline(always)]
    pub fn build(put: impl FnOnce(&mut Part<N>)) -> Self {
        let mut bytes = [0; N];
        let mut part = Part { bytes: &mut bytes, len: 0 };
        put(&mut part);
        let len = part.len as u8;
        Piece { bytes, len }
    }

    /// The same with another first byte.
    pub fn with_first(mut self, byte: u8) -> Self {
        self.bytes[0] = byte;
        self
    }
}

const THOUSAND: usize = 1_000;

/// Numbers below 1,000 with a comma behind them.
static NUMBERS: [Piece<4>; THOUSAND] = numbers(false);
/// The same with three digits each.
static THREE_DIGITS: [Piece<4>; THOUSAND] = numbers(true);

const fn numbers(has_zeros: bool) -> [Piece<4>; THOUSAND] {
    let mut pieces = [Piece { bytes: [b','; 4], len: 0 }; THOUSAND];
    let mut number = 0;
    while number < THOUSAND {
        let digits = [number / 100, number / 10 % 10, number % 10];
        let is_put = [has_zeros || number >= 100, has_zeros || number >= 10, true];
        let mut len = 0;
        let mut place = 0;
        while place < digits.len() {
            if is_put[place] {
                pieces[number].bytes[len] = b'0' + digits[place] as u8;
                len += 1;
            }
            place += 1;
        }
        // and the comma
        pieces[number].len = len as u8 + 1;
        number += 1;
    }
    pieces
}

/// The bytes of a file in the making.
#[derive(Default)]
pub struct Text {
    bytes: Vec<u8>,
    len: usize,
}

impl Text {
    pub fn clear(&mut self) {
        self.len = 0;
    }

    pub fn as_bytes(&self) -> &[u8] {
        &self.bytes[..self.len]
    }

    /// Adds a part of at most `N` bytes, what is written behind its end among them.
    #[inline(always)]
    pub fn add<const N: usize>(&mut self, put: impl FnOnce(&mut Part<N>)) {
        if self.bytes.len() - self.len < N {
            self.bytes.resize(2 * self.bytes.len() + N, 0);
        }
        let mut part = Part { bytes: self.bytes[self.len..].first_chunk_mut().expect("there is room"), len: 0 };
        put(&mut part);
        self.len += part.len;
    }
}

/// A part of a text that is being put together.
pub struct Part<'t, const N: usize> {
    bytes: &'t mut [u8; N],
    len: usize,
}

impl<const N: usize> Part<'_, N> {
    #[inline(always)]
    pub fn len(&self) -> usize {
        self.len
    }

    /// Puts bytes there, all of which are written and some of which stay.
    #[inline(always)]
    fn put_first<const M: usize>(&mut self, bytes: &[u8; M], len: usize) {
        *self.bytes[self.len..].first_chunk_mut().expect("a part is long enough") = *bytes;
        self.len += len;
    }

    #[inline(always)]
    pub fn put<const M: usize>(&mut self, piece: &Piece<M>) {
        self.put_first(&piece.bytes, piece.len as usize);
    }

    #[inline(always)]
    pub fn put_bytes<const M: usize>(&mut self, bytes: &[u8; M]) {
        self.put_first(bytes, M);
    }

    /// Puts a number below 1,000,000,000 and a comma there.
    #[inline(always)]
    pub fn put_number(&mut self, number: u32) {
        match NUMBERS.get(number as usize) {
            Some(piece) => self.put(piece),
            None => self.put_great_number(number),
        }
    }

    #[inline(always)]
    fn put_great_number(&mut self, number: u32) {
        let (thousands, rest) = (number as usize / THOUSAND, number as usize % THOUSAND);
        if let Some(piece) = NUMBERS.get(thousands) {
            self.put(piece);
        } else {
            self.put(&NUMBERS[thousands / THOUSAND]);
            self.len -= 1;
            self.put(&THREE_DIGITS[thousands % THOUSAND]);
        }
        self.len -= 1;
        self.put(&THREE_DIGITS[rest]);
    }

    /// Puts a line feed where the last comma stands.
    #[inline(always)]
    pub fn end_line(&mut self) {
        self.bytes[self.len - 1] = b'\n';
    }

    /// Overwrites bytes that stand there.
    #[inline(always)]
    pub fn set<const M: usize>(&mut self, at: usize, bytes: &[u8; M]) {
        *self.bytes[at..].first_chunk_mut().expect("these bytes stand there") = *bytes;
    }
}
