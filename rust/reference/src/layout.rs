//! Where the numbers of a stream file stand, refused or not. Document 01, "The stream file".

use std::fmt;
use std::ops::Range;

/// L, T, m, d and q.
pub const HEADER_BYTES: usize = 20;
/// The delay limit's number for none.
pub const NO_DELAY: u32 = 255;
/// The buffer limit's number for none.
pub const NO_BUFFER: u32 = 4_294_967_295;

#[derive(Clone, Debug, PartialEq, Eq)]
pub struct Header {
    /// L
    pub last_window: u32,
    /// T
    pub slots: u32,
    /// m
    pub bursts: u32,
    /// d
    pub delay: u32,
    /// q
    pub buffer: u32,
}

impl Header {
    /// The header, if the file is long enough to have one.
    pub fn read(file: &[u8]) -> Option<Header> {
        let found = numbers(file.get(..HEADER_BYTES)?);
        let [last_window, slots, bursts, delay, buffer] = found[..] else {
            return None;
        };
        Some(Header {
            last_window,
            slots,
            bursts,
            delay,
            buffer,
        })
    }

    /// The length that the sizes ask for, in 64 bits because sizes near 2^32 are read before they
    /// are refused.
    pub fn file_length(&self) -> u64 {
        HEADER_BYTES as u64 + 4 * (u64::from(self.last_window) + 1) + 8 * u64::from(self.bursts)
    }

    /// d and q
    pub fn limits(&self) -> (u32, u32) {
        (self.delay, self.buffer)
    }

    /// Where the table stands in a file of the right length.
    pub fn table_bytes(&self) -> Range<usize> {
        HEADER_BYTES..HEADER_BYTES + 4 * (self.last_window as usize + 1)
    }

    /// Where the bursts' slots stand in a file of the right length.
    pub fn slot_bytes(&self) -> Range<usize> {
        let start = self.table_bytes().end;
        start..start + 4 * self.bursts as usize
    }

    /// Where the bursts' counts stand in a file of the right length.
    pub fn count_bytes(&self) -> Range<usize> {
        let start = self.slot_bytes().end;
        start..start + 4 * self.bursts as usize
    }
}

/// The numbers of a file, as they follow each other. Nothing keeps the sizes in the header equal to
/// the lists' lengths, so that damaged files can be written too.
#[derive(Clone, Debug, PartialEq, Eq)]
pub struct StreamFile {
    pub header: Header,
    pub table: Vec<u32>,
    pub burst_slots: Vec<u32>,
    pub burst_counts: Vec<u32>,
}

impl StreamFile {
    /// A file of so many slots, of which these have so many packets.
    pub fn of(
        table: &[u32],
        (delay, buffer): (u32, u32),
        slots: u32,
        bursts: impl IntoIterator<Item = (u32, u32)>,
    ) -> StreamFile {
        let (burst_slots, burst_counts): (Vec<u32>, Vec<u32>) = bursts.into_iter().unzip();
        StreamFile {
            header: Header {
                last_window: table.len() as u32 - 1,
                slots,
                bursts: burst_slots.len() as u32,
                delay,
                buffer,
            },
            table: table.to_vec(),
            burst_slots,
            burst_counts,
        }
    }

    /// One that names every slot, also those without packets.
    pub fn of_arrivals(table: &[u32], limits: (u32, u32), arrivals: &[u32]) -> StreamFile {
        let bursts = (1..).zip(arrivals.iter().copied());
        StreamFile::of(table, limits, arrivals.len() as u32, bursts)
    }

    pub fn to_bytes(&self) -> Vec<u8> {
        let header = &self.header;
        let sizes = [header.last_window, header.slots, header.bursts];
        let limits = [header.delay, header.buffer];
        sizes
            .iter()
            .chain(&limits)
            .chain(&self.table)
            .chain(&self.burst_slots)
            .chain(&self.burst_counts)
            .flat_map(|number| number.to_le_bytes())
            .collect()
    }

    /// Every file of the right length, also one whose numbers are refused.
    pub fn from_bytes(file: &[u8]) -> Result<StreamFile, WrongLength> {
        let found = file.len() as u64;
        let header = Header::read(file).ok_or(WrongLength {
            wanted: HEADER_BYTES as u64,
            found,
        })?;
        let wanted = header.file_length();
        if found != wanted {
            return Err(WrongLength { wanted, found });
        }
        Ok(StreamFile {
            table: numbers(&file[header.table_bytes()]),
            burst_slots: numbers(&file[header.slot_bytes()]),
            burst_counts: numbers(&file[header.count_bytes()]),
            header,
        })
    }

    /// The packets that arrive in slots 1, 2, .. of an accepted file. A slot not named has 0.
    pub fn arrivals(&self) -> Vec<u32> {
        let mut arrivals = vec![0; self.header.slots as usize];
        for (&slot, &count) in self.burst_slots.iter().zip(&self.burst_counts) {
            arrivals[slot as usize - 1] = count;
        }
        arrivals
    }
}

/// Unsigned 32-bit numbers, least significant byte first.
pub fn numbers(bytes: &[u8]) -> Vec<u32> {
    let (whole, _) = bytes.as_chunks::<4>();
    whole.iter().map(|word| u32::from_le_bytes(*word)).collect()
}

/// A file that ends before or after the byte its header asks for.
#[derive(Clone, Debug, PartialEq, Eq)]
pub struct WrongLength {
    pub wanted: u64,
    pub found: u64,
}

impl fmt::Display for WrongLength {
    fn fmt(&self, out: &mut fmt::Formatter<'_>) -> fmt::Result {
        let WrongLength { wanted, found } = self;
        if found < wanted {
            write!(
                out,
                "byte {found}: the file ends here, but has to have {wanted} bytes"
            )
        } else {
            write!(
                out,
                "byte {wanted}: the file has to end here, but has {found} bytes"
            )
        }
    }
}

impl std::error::Error for WrongLength {}
