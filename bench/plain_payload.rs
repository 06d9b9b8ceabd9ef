//! The decodes of the benchmark of payloads in ordinary Rust, of the same layout and with the same tests, and the same text.
#![allow(dead_code)]

enum Ingress {
    V4([u8; 4], u16),
    V6([u8; 16], u16),
    Dns(String, u16),
}

struct Info {
    ingress: Ingress,
    timestamp: u64,
    key: u64,
    signature: Vec<u8>,
}

#[derive(Debug)]
enum Fault {
    EndOfBuffer,
    InvalidEnum(u8),
    InvalidLength(usize),
    InvalidVarint(usize),
    ExtraData(usize),
}

/// The bytes that are left.
struct Reader<'a>(&'a [u8]);

impl Reader<'_> {
    fn byte(&mut self) -> Result<u8, Fault> {
        let (first, rest) = self.0.split_first().ok_or(Fault::EndOfBuffer)?;
        self.0 = rest;
        Ok(*first)
    }

    fn array<const N: usize>(&mut self) -> Result<[u8; N], Fault> {
        let (array, rest) = self.0.split_first_chunk().ok_or(Fault::EndOfBuffer)?;
        self.0 = rest;
        Ok(*array)
    }

    /// A number of at most so many bits, in its one spelling.
    fn varint(&mut self, bits: u32) -> Result<u64, Fault> {
        let wrong = Fault::InvalidVarint(bits as usize / 8);
        let mut number = 0;
        for shift in (0..bits).step_by(7) {
            let byte = self.byte()?;
            let is_wide = bits - shift < 7 && byte >> (bits - shift) != 0;
            if is_wide || (byte == 0 && shift > 0) {
                return Err(wrong);
            }
            number |= u64::from(byte & 127) << shift;
            if byte < 128 {
                return Ok(number);
            }
        }
        Err(wrong)
    }

    fn sized(&mut self, limit: usize) -> Result<Vec<u8>, Fault> {
        let size = self.varint(32)? as usize;
        if size > limit {
            return Err(Fault::InvalidLength(size));
        }
        let (front, rest) = self.0.split_at_checked(size).ok_or(Fault::EndOfBuffer)?;
        self.0 = rest;
        Ok(front.to_vec())
    }

    fn port(&mut self) -> Result<u16, Fault> {
        Ok(u16::from_be_bytes(self.array()?))
    }

    fn ingress(&mut self) -> Result<Ingress, Fault> {
        match self.byte()? {
            0 => match self.byte()? {
                4 => Ok(Ingress::V4(self.array()?, self.port()?)),
                6 => Ok(Ingress::V6(self.array()?, self.port()?)),
                version => Err(Fault::InvalidEnum(version)),
            },
            1 => {
                let host = String::from_utf8(self.sized(253)?).map_err(|_| Fault::InvalidEnum(1))?;
                Ok(Ingress::Dns(host, self.port()?))
            }
            kind => Err(Fault::InvalidEnum(kind)),
        }
    }

    fn info(&mut self) -> Result<Info, Fault> {
        Ok(Info { ingress: self.ingress()?, timestamp: self.varint(64)?, key: u64::from_be_bytes(self.array()?), signature: self.sized(128)? })
    }
}

fn peers(bytes: &[u8]) -> Result<Vec<Info>, Fault> {
    let mut reader = Reader(bytes);
    match reader.byte()? {
        3 => {}
        kind => return Err(Fault::InvalidEnum(kind)),
    }
    let count = reader.varint(32)? as usize;
    if count > 32 {
        return Err(Fault::InvalidLength(count));
    }
    let mut infos = Vec::new();
    for _ in 0..count {
        infos.push(reader.info()?);
    }
    match reader.0.len() {
        0 => Ok(infos),
        left => Err(Fault::ExtraData(left)),
    }
}

fn put_varint(out: &mut Vec<u8>, mut number: u64) {
    while number > 127 {
        out.push(number as u8 | 128);
        number >>= 7;
    }
    out.push(number as u8);
}

fn spelled() -> Vec<u8> {
    let mut out = vec![3, 32];
    for number in 1..=32_u64 {
        out.extend([0, 4]);
        out.extend((number as u32).to_be_bytes());
        out.extend(3000_u16.to_be_bytes());
        put_varint(&mut out, number * 1_000_003);
        out.extend(number.to_be_bytes());
        put_varint(&mut out, 64);
        out.extend([7; 64]);
    }
    out
}

fn main() {
    let rounds: u64 = std::env::args().nth(1).and_then(|word| word.parse().ok()).expect("how often");
    let bytes = spelled();
    let mut sum = 0_u64;
    for _ in 0..rounds {
        let infos = peers(std::hint::black_box(&bytes)).expect("the payload");
        let infos = std::hint::black_box(infos);
        sum = infos.iter().fold(sum, |sum, info| sum.wrapping_add(info.timestamp));
    }
    println!("{sum}");
}
