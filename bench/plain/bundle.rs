//! Bundles: read from any reader, and replies as bytes.

use std::io::{ErrorKind, Read};

const HEADER: usize = 261_382;
const STREAM_PARAMS: usize = 65_536;
const PAYLOAD: usize = 67_108_864;
const STREAM: usize = 268_435_456;
const PARTS: usize = 10_000;

/// Why a bundle is not whole: the number of a fault of the stream, or a read that failed.
pub enum Cut {
    Fault(u8),
    ReadFailed,
}

pub struct Param {
    pub mandatory: bool,
    pub key: Vec<u8>,
    pub value: Vec<u8>,
}

/// A part, with its type in lower case.
pub struct Part {
    pub kind: String,
    pub mandatory: bool,
    pub id: u32,
    pub params: Vec<Param>,
    pub payload: Vec<u8>,
}

impl Part {
    pub fn param(&self, key: &[u8]) -> Option<&[u8]> {
        Some(&self.params.iter().find(|param| param.key == key)?.value)
    }
}

/// Reads a bundle up to its end mark.
pub fn read_bundle(input: &mut impl Read) -> Result<Vec<Part>, Cut> {
    let mut source = Source { input, left: STREAM };
    let mut magic = [0; 4];
    source.fill(&mut magic)?;
    if magic != *b"HG20" {
        return Err(Cut::Fault(1));
    }
    let params = source.sized_block(STREAM_PARAMS)?;
    if !params.is_empty() && !params.split(|byte| *byte == b' ').all(is_stream_param) {
        return Err(Cut::Fault(3));
    }
    let mut parts = Vec::new();
    loop {
        let header = source.sized_block(if parts.len() < PARTS { HEADER } else { 0 })?;
        if header.is_empty() {
            return Ok(parts);
        }
        let mut part = read_header(&header).ok_or(Cut::Fault(4))?;
        part.payload = source.payload(false)?;
        parts.push(part);
    }
}

struct Source<'r, R> {
    input: &'r mut R,
    left: usize,
}

impl<R: Read> Source<'_, R> {
    fn fill(&mut self, buffer: &mut [u8]) -> Result<(), Cut> {
        let within = buffer.len().min(self.left);
        self.read_exact(&mut buffer[..within])?;
        self.left -= within;
        if within < buffer.len() {
            self.read_exact(&mut [0])?;
            return Err(Cut::Fault(9));
        }
        Ok(())
    }

    fn read_exact(&mut self, buffer: &mut [u8]) -> Result<(), Cut> {
        self.input.read_exact(buffer).map_err(|error| match error.kind() {
            ErrorKind::UnexpectedEof => Cut::Fault(10),
            _ => Cut::ReadFailed,
        })
    }

    fn number(&mut self) -> Result<i32, Cut> {
        let mut bytes = [0; 4];
        self.fill(&mut bytes)?;
        Ok(i32::from_be_bytes(bytes))
    }

    /// A size of at most so many bytes, and the bytes.
    fn sized_block(&mut self, most: usize) -> Result<Vec<u8>, Cut> {
        let size = usize::try_from(self.number()?).map_err(|_| Cut::Fault(2))?;
        if size > most {
            return Err(Cut::Fault(9));
        }
        let mut block = vec![0; size];
        self.fill(&mut block)?;
        Ok(block)
    }

    /// The chunks of a payload, joined.
    fn payload(&mut self, interrupting: bool) -> Result<Vec<u8>, Cut> {
        let mut payload = Vec::new();
        loop {
            match self.number()? {
                0 => return Ok(payload),
                -1 if interrupting => return Err(Cut::Fault(6)),
                -1 => self.interruption()?,
                size => {
                    let size = usize::try_from(size).map_err(|_| Cut::Fault(5))?;
                    let start = payload.len();
                    if start + size > PAYLOAD {
                        return Err(Cut::Fault(5));
                    }
                    payload.resize(start + size, 0);
                    self.fill(&mut payload[start..])?;
                }
            }
        }
    }

    /// A part within the payload of another: nothing, text for a person, or the end of the push.
    fn interruption(&mut self) -> Result<(), Cut> {
        let header = self.sized_block(HEADER)?;
        if header.is_empty() {
            return Ok(());
        }
        let part = read_header(&header).ok_or(Cut::Fault(4))?;
        let known: &[&[u8]] = match part.kind.as_str() {
            "error:abort" => &[b"message", b"hint"],
            _ => &[],
        };
        let is_supported = matches!(part.kind.as_str(), "output" | "error:abort")
            && part.params.iter().all(|param| !param.mandatory || known.contains(&&param.key[..]));
        if part.mandatory && !is_supported {
            return Err(Cut::Fault(8));
        }
        if is_supported && part.kind == "error:abort" {
            return Err(Cut::Fault(7));
        }
        self.payload(true)?;
        Ok(())
    }
}

fn is_stream_param(text: &[u8]) -> bool {
    let mut halves = text.splitn(2, |byte| *byte == b'=').map(unquoted);
    let name = halves.next().unwrap_or_default();
    let Some(first) = name.first() else { return false };
    if name.eq_ignore_ascii_case(b"compression") {
        return halves.next().as_deref() == Some(b"UN");
    }
    first.is_ascii_lowercase()
}

/// The text with each `%` and two hexadecimal digits in place of a byte.
fn unquoted(text: &[u8]) -> Vec<u8> {
    let digit = |byte: u8| (byte as char).to_digit(16);
    let (mut bytes, mut rest) = (Vec::new(), text);
    while let [first, tail @ ..] = rest {
        if let (b'%', [high, low, after @ ..]) = (first, tail) {
            if let (Some(high), Some(low)) = (digit(*high), digit(*low)) {
                bytes.push((high * 16 + low) as u8);
                rest = after;
                continue;
            }
        }
        bytes.push(*first);
        rest = tail;
    }
    bytes
}

/// Takes the first bytes off a list.
pub fn take<'b>(bytes: &mut &'b [u8], count: usize) -> Option<&'b [u8]> {
    let (first, rest) = bytes.split_at_checked(count)?;
    *bytes = rest;
    Some(first)
}

pub fn take_number(bytes: &mut &[u8]) -> Option<u32> {
    Some(u32::from_be_bytes(take(bytes, 4)?.try_into().ok()?))
}

pub fn take_byte(bytes: &mut &[u8]) -> Option<usize> {
    Some(take(bytes, 1)?[0] as usize)
}

fn read_header(mut bytes: &[u8]) -> Option<Part> {
    let size = take_byte(&mut bytes)?;
    let kind = String::from_utf8(take(&mut bytes, size)?.to_vec()).ok()?;
    let is_of_type = |byte: u8| byte.is_ascii_alphanumeric() || b"_:-".contains(&byte);
    let id = take_number(&mut bytes)?;
    let (mandatory, advisory) = (take_byte(&mut bytes)?, take_byte(&mut bytes)?);
    let mut sizes = take(&mut bytes, 2 * (mandatory + advisory))?;
    let mut params: Vec<Param> = Vec::with_capacity(mandatory + advisory);
    while !sizes.is_empty() {
        let (key, value) = (take_byte(&mut sizes)?, take_byte(&mut sizes)?);
        let (key, value) = (take(&mut bytes, key)?.to_vec(), take(&mut bytes, value)?.to_vec());
        if params.iter().any(|param| param.key == key) {
            return None;
        }
        params.push(Param { mandatory: params.len() < mandatory, key, value });
    }
    if kind.is_empty() || !kind.bytes().all(is_of_type) || !bytes.is_empty() {
        return None;
    }
    let mandatory = kind.bytes().any(|byte| byte.is_ascii_uppercase());
    let kind = kind.to_ascii_lowercase();
    Some(Part { kind, mandatory, id, params, payload: Vec::new() })
}

/// A part of a reply.
pub struct Reply {
    pub kind: &'static str,
    pub params: Vec<(&'static str, Vec<u8>)>,
}

/// Replies are advisory, and the one of a push that was aborted is mandatory.
pub fn write_bundle(replies: &[Reply]) -> Vec<u8> {
    let mut bundle = b"HG20\0\0\0\0".to_vec();
    for (id, reply) in replies.iter().enumerate() {
        let mandatory = reply.kind.starts_with("error:");
        let count = reply.params.len() as u8;
        let mut header = vec![reply.kind.len() as u8];
        header.extend(reply.kind.bytes().map(|byte| if mandatory { byte.to_ascii_uppercase() } else { byte }));
        header.extend((id as u32).to_be_bytes());
        header.extend(if mandatory { [count, 0] } else { [0, count] });
        let cut = |value: &Vec<u8>| value.len().min(255);
        for (key, value) in &reply.params {
            header.extend([key.len() as u8, cut(value) as u8]);
        }
        for (key, value) in &reply.params {
            header.extend_from_slice(key.as_bytes());
            header.extend_from_slice(&value[..cut(value)]);
        }
        bundle.extend((header.len() as u32).to_be_bytes());
        bundle.extend(header);
        bundle.extend([0; 4]);
    }
    bundle.extend([0; 4]);
    bundle
}
