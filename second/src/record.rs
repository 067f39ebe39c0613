//! Records of 8 bytes, the form of tables and traces.

pub const PROCESSORS: usize = 4;
pub const REGISTERS: usize = 4;
pub const LOCATIONS: usize = 8;

pub fn processors() -> impl Iterator<Item = u8> {
    0..PROCESSORS as u8
}

#[derive(Clone, Copy, Debug, PartialEq, Eq, Hash, PartialOrd, Ord)]
pub struct Record {
    pub kind: u8,
    pub processor: u8,
    pub register: u8,
    pub location: u8,
    pub value: u32,
}

/// A field that a kind may use.
#[derive(Clone, Copy, Debug, PartialEq, Eq)]
pub enum Field {
    Processor,
    Register,
    Location,
    Value,
}

impl Field {
    const ALL: [Field; 4] = [
        Field::Processor,
        Field::Register,
        Field::Location,
        Field::Value,
    ];

    /// What the field must be below; a value may be any.
    pub fn limit(self) -> Option<usize> {
        match self {
            Field::Processor => Some(PROCESSORS),
            Field::Register => Some(REGISTERS),
            Field::Location => Some(LOCATIONS),
            Field::Value => None,
        }
    }

    /// The fields that are not among these.
    pub fn others(uses: &[Field]) -> impl Iterator<Item = Field> + '_ {
        Field::ALL.into_iter().filter(|field| !uses.contains(field))
    }
}

impl Record {
    pub const BYTES: usize = 8;

    pub fn of_bytes(bytes: [u8; 8]) -> Record {
        let [kind, processor, register, location, value @ ..] = bytes;
        Record {
            kind,
            processor,
            register,
            location,
            value: u32::from_le_bytes(value),
        }
    }

    pub fn bytes(self) -> [u8; 8] {
        let fields = [self.kind, self.processor, self.register, self.location];
        let mut bytes = [0; Record::BYTES];
        bytes[..4].copy_from_slice(&fields);
        bytes[4..].copy_from_slice(&self.value.to_le_bytes());
        bytes
    }

    pub fn get(self, field: Field) -> u32 {
        match field {
            Field::Processor => self.processor.into(),
            Field::Register => self.register.into(),
            Field::Location => self.location.into(),
            Field::Value => self.value,
        }
    }

    /// A number that the field has no room for loses its high bits.
    pub fn set(&mut self, field: Field, number: u32) {
        match field {
            Field::Processor => self.processor = number as u8,
            Field::Register => self.register = number as u8,
            Field::Location => self.location = number as u8,
            Field::Value => self.value = number,
        }
    }

    pub fn used_too_large(self, uses: &[Field]) -> bool {
        let too_large = |field: &Field| {
            field
                .limit()
                .map_or(false, |limit| self.get(*field) as usize >= limit)
        };
        uses.iter().any(too_large)
    }

    pub fn unused_not_zero(self, uses: &[Field]) -> bool {
        Field::others(uses).any(|field| self.get(field) != 0)
    }
}

/// The whole records; a rest is left out.
pub fn records(bytes: &[u8]) -> Vec<Record> {
    let mut records = Vec::with_capacity(bytes.len() / Record::BYTES);
    for chunk in bytes.chunks_exact(Record::BYTES) {
        let mut record = [0; Record::BYTES];
        record.copy_from_slice(chunk);
        records.push(Record::of_bytes(record));
    }
    records
}

pub fn bytes(records: &[Record]) -> Vec<u8> {
    records.iter().flat_map(|record| record.bytes()).collect()
}

#[cfg(test)]
mod tests {
    use super::{bytes, records, Record};

    #[test]
    fn the_lowest_byte_of_a_value_is_first() {
        let record = Record {
            kind: 1,
            processor: 2,
            register: 3,
            location: 4,
            value: 0x0807_0605,
        };
        assert_eq!(bytes(&[record]), [1, 2, 3, 4, 5, 6, 7, 8]);
        assert_eq!(records(&[1, 2, 3, 4, 5, 6, 7, 8, 9]), [record]);
    }
}
