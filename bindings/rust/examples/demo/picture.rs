//! A picture as three planes, and files of it that a person can look at.

use std::collections::BTreeSet;
use std::path::Path;
use std::{fs, io};

/// Red, green, blue.
pub type Color = [u8; 3];

#[derive(Clone, PartialEq)]
pub struct Picture {
    pub width: usize,
    pub height: usize,
    /// Green, blue, red: no colour is changed on the way into a block and out of it.
    pub planes: [Vec<u16>; 3],
}

impl Picture {
    pub fn filled(width: usize, height: usize, color: Color) -> Picture {
        let [r, g, b] = color.map(|sample| vec![u16::from(sample); width * height]);
        Picture { width, height, planes: [g, b, r] }
    }

    pub fn set(&mut self, x: usize, y: usize, [r, g, b]: Color) {
        for (plane, sample) in self.planes.iter_mut().zip([g, b, r]) {
            plane[y * self.width + x] = sample.into();
        }
    }

    fn color(&self, cell: usize) -> Color {
        let [g, b, r] = [0, 1, 2].map(|comp| self.planes[comp][cell] as u8);
        [r, g, b]
    }

    fn cells(&self) -> impl Iterator<Item = Color> + '_ {
        (0..self.width * self.height).map(|cell| self.color(cell))
    }

    pub fn colors(&self) -> BTreeSet<Color> {
        self.cells().collect()
    }

    /// How many cells differ.
    pub fn differing(&self, other: &Picture) -> usize {
        self.cells().zip(other.cells()).filter(|(a, b)| a != b).count()
    }

    pub fn write_ppm(&self, file: &Path) -> io::Result<()> {
        let mut bytes = format!("P6\n{} {}\n255\n", self.width, self.height).into_bytes();
        bytes.extend(self.cells().flatten());
        fs::write(file, bytes)
    }

    /// A PNG of at most 256 colours, nothing compressed.
    pub fn write_png(&self, file: &Path) -> io::Result<()> {
        let colors: Vec<Color> = self.colors().into_iter().collect();
        if colors.len() > 256 {
            return Err(io::Error::other("more than 256 colours"));
        }
        let number = |color: Color| colors.binary_search(&color).expect("a colour of the picture") as u8;
        let cells: Vec<u8> = self.cells().map(number).collect();
        // each row follows its filter, none
        let rows: Vec<u8> = cells.chunks(self.width).flat_map(|row| [0].into_iter().chain(row.iter().copied())).collect();
        let mut header = Vec::new();
        header.extend((self.width as u32).to_be_bytes());
        header.extend((self.height as u32).to_be_bytes());
        header.extend([8, 3, 0, 0, 0]);
        let mut bytes = b"\x89PNG\r\n\x1a\n".to_vec();
        chunk(&mut bytes, b"IHDR", &header);
        chunk(&mut bytes, b"PLTE", colors.as_flattened());
        chunk(&mut bytes, b"IDAT", &stored(&rows));
        chunk(&mut bytes, b"IEND", &[]);
        fs::write(file, bytes)
    }
}

fn chunk(bytes: &mut Vec<u8>, kind: &[u8; 4], inner: &[u8]) {
    bytes.extend((inner.len() as u32).to_be_bytes());
    let start = bytes.len();
    bytes.extend(kind);
    bytes.extend(inner);
    let sum = !bytes[start..].iter().fold(!0, |sum: u32, &byte| {
        (0..8).fold(sum ^ u32::from(byte), |sum, _| if sum & 1 == 1 { sum >> 1 ^ 0xedb8_8320 } else { sum >> 1 })
    });
    bytes.extend(sum.to_be_bytes());
}

/// A zlib stream of stored blocks.
fn stored(inner: &[u8]) -> Vec<u8> {
    let mut bytes = vec![0x78, 0x01];
    let mut blocks = inner.chunks(65535).peekable();
    while let Some(block) = blocks.next() {
        let len = block.len() as u16;
        bytes.push(blocks.peek().is_none().into());
        bytes.extend(len.to_le_bytes());
        bytes.extend((!len).to_le_bytes());
        bytes.extend(block);
    }
    let (a, b) = inner.iter().fold((1, 0), |(a, b): (u32, u32), &byte| {
        let a = (a + u32::from(byte)) % 65521;
        (a, (a + b) % 65521)
    });
    bytes.extend((b << 16 | a).to_be_bytes());
    bytes
}
