//! The bytes of a snapshot: document 01's format, and its check 12. What the records say is not looked at here.

use crate::record::{NO_NODE, Record, node_given};
use crate::refusal::Refusal;

const VERSION: u8 = 1;

/// The bytes of a record after its length and before its path.
const FIXED_BYTES: usize = 27;

const MISSING_FIELD: Refusal = Refusal::new(12, "the snapshot ends before the field does");
const WRONG_LENGTH: Refusal = Refusal::new(12, "the first number must count the bytes that follow it");
const WRONG_VERSION: Refusal = Refusal::new(12, "the version must be 1");
const WRONG_RECORD: Refusal = Refusal::new(12, "the rest of a record must have 28 to 282 bytes");
const WRONG_COUNT: Refusal = Refusal::new(12, "bytes follow the last record");

/// The records of a snapshot whose version, count and lengths are exact.
pub fn decode(bytes: &[u8]) -> Result<Vec<Record<'_>>, Refusal> {
    let mut fields = Fields(bytes);
    let length = fields.u32()?;
    WRONG_LENGTH.unless(usize::try_from(length) == Ok(fields.0.len()))?;
    let version = fields.u8()?;
    WRONG_VERSION.unless(version == VERSION)?;
    let count = fields.u16()?;
    let records = (0..count).map(|_| decode_record(&mut fields)).collect::<Result<_, _>>()?;
    WRONG_COUNT.unless(fields.0.is_empty())?;
    Ok(records)
}

fn decode_record<'a>(fields: &mut Fields<'a>) -> Result<Record<'a>, Refusal> {
    let length = usize::from(fields.u16()?);
    WRONG_RECORD.unless((FIXED_BYTES + 1..=FIXED_BYTES + 255).contains(&length))?;
    let mut fields = Fields(fields.take(length)?);
    Ok(Record {
        arc: fields.u8()?,
        flags: fields.u8()?,
        stack: fields.u32()?,
        layer: fields.u32()?,
        parent: node_given(fields.u32()?),
        origin: node_given(fields.u32()?),
        depth: Some(fields.u16()?),
        sibling: fields.u16()?,
        restriction: fields.u16()?,
        spec_from: fields.u16()?,
        has_specs: fields.u8()?,
        path: fields.0,
    })
}

/// The snapshot that holds `records`.
pub fn encode(records: &[Record]) -> Vec<u8> {
    let mut counted = vec![VERSION];
    counted.extend((records.len() as u16).to_be_bytes());
    for record in records {
        encode_record(record, &mut counted);
    }
    let mut bytes = (counted.len() as u32).to_be_bytes().to_vec();
    bytes.extend(counted);
    bytes
}

fn encode_record(record: &Record, bytes: &mut Vec<u8>) {
    bytes.extend(((FIXED_BYTES + record.path.len()) as u16).to_be_bytes());
    bytes.extend([record.arc, record.flags]);
    bytes.extend(record.stack.to_be_bytes());
    bytes.extend(record.layer.to_be_bytes());
    bytes.extend(record.parent.unwrap_or(NO_NODE).to_be_bytes());
    bytes.extend(record.origin.unwrap_or(NO_NODE).to_be_bytes());
    bytes.extend(record.depth.unwrap_or(0).to_be_bytes());
    bytes.extend(record.sibling.to_be_bytes());
    bytes.extend(record.restriction.to_be_bytes());
    bytes.extend(record.spec_from.to_be_bytes());
    bytes.push(record.has_specs);
    bytes.extend(record.path);
}

/// The bytes not yet read. Each field is taken, or is missing.
struct Fields<'a>(&'a [u8]);

impl<'a> Fields<'a> {
    fn take(&mut self, length: usize) -> Result<&'a [u8], Refusal> {
        let (taken, rest) = self.0.split_at_checked(length).ok_or(MISSING_FIELD)?;
        self.0 = rest;
        Ok(taken)
    }

    fn array<const WIDTH: usize>(&mut self) -> Result<[u8; WIDTH], Refusal> {
        let (taken, rest) = self.0.split_first_chunk().ok_or(MISSING_FIELD)?;
        self.0 = rest;
        Ok(*taken)
    }

    fn u8(&mut self) -> Result<u8, Refusal> {
        Ok(u8::from_be_bytes(self.array()?))
    }

    fn u16(&mut self) -> Result<u16, Refusal> {
        Ok(u16::from_be_bytes(self.array()?))
    }

    fn u32(&mut self) -> Result<u32, Refusal> {
        Ok(u32::from_be_bytes(self.array()?))
    }
}
