//! Requests and replies as bytes. All numbers are little-endian.

pub const REQUEST_BYTES: usize = 12;
pub const REPLY_BYTES: usize = 16;

/// The seven operations, in the order of their numbers.
#[derive(Clone, Copy, Debug, PartialEq, Eq)]
pub enum Operation {
    Begin,
    Read,
    Write,
    Certify,
    Commit,
    Abort,
    Ask,
}

impl Operation {
    pub const ALL: [Operation; 7] = [
        Operation::Begin,
        Operation::Read,
        Operation::Write,
        Operation::Certify,
        Operation::Commit,
        Operation::Abort,
        Operation::Ask,
    ];

    pub fn from_number(number: u8) -> Option<Operation> {
        Operation::ALL.get(usize::from(number)).copied()
    }

    pub fn number(self) -> u8 {
        self as u8
    }

    pub fn name(self) -> &'static str {
        match self {
            Operation::Begin => "begin",
            Operation::Read => "read",
            Operation::Write => "write",
            Operation::Certify => "certify",
            Operation::Commit => "commit",
            Operation::Abort => "abort",
            Operation::Ask => "ask",
        }
    }

    pub fn uses_item(self) -> bool {
        matches!(self, Operation::Read | Operation::Write)
    }

    pub fn uses_ticket(self) -> bool {
        self != Operation::Begin
    }

    pub fn uses_value(self) -> bool {
        self == Operation::Write
    }
}

/// A request as it came: any 12 bytes are one, and the desk judges them.
#[derive(Clone, Copy, Debug, Default, PartialEq, Eq)]
pub struct Request {
    pub operation: u8,
    pub level: u8,
    pub item: u16,
    pub ticket: u32,
    pub value: u32,
}

impl Request {
    pub fn from_bytes(bytes: &[u8; REQUEST_BYTES]) -> Request {
        let [operation, level, i0, i1, t0, t1, t2, t3, v0, v1, v2, v3] = *bytes;
        Request {
            operation,
            level,
            item: u16::from_le_bytes([i0, i1]),
            ticket: u32::from_le_bytes([t0, t1, t2, t3]),
            value: u32::from_le_bytes([v0, v1, v2, v3]),
        }
    }

    pub fn to_bytes(self) -> [u8; REQUEST_BYTES] {
        let [i0, i1] = self.item.to_le_bytes();
        let [t0, t1, t2, t3] = self.ticket.to_le_bytes();
        let [v0, v1, v2, v3] = self.value.to_le_bytes();
        [self.operation, self.level, i0, i1, t0, t1, t2, t3, v0, v1, v2, v3]
    }

    pub fn is(&self, operation: Operation) -> bool {
        self.operation == operation.number()
    }

    pub fn is_blank_write(&self) -> bool {
        self.is(Operation::Write) && self.value == 0
    }

    /// The same request with the number of a sheet in its value field.
    pub fn with_sheet(self) -> Request {
        Request { value: 1, ..self }
    }
}

#[derive(Clone, Copy, Debug, Default, PartialEq, Eq)]
pub struct Reply {
    pub number: u8,
    pub operation: u8,
    pub item: u16,
    pub ticket: u32,
    pub value: u32,
    pub version: u32,
}

impl Reply {
    /// Operation, item and ticket as they came, all else 0: a done reply that carries nothing.
    pub fn repeating(request: &Request) -> Reply {
        Reply {
            operation: request.operation,
            item: request.item,
            ticket: request.ticket,
            ..Reply::default()
        }
    }

    pub fn from_bytes(bytes: &[u8; REPLY_BYTES]) -> Reply {
        let [number, operation, i0, i1, t0, t1, t2, t3, v0, v1, v2, v3, n0, n1, n2, n3] = *bytes;
        Reply {
            number,
            operation,
            item: u16::from_le_bytes([i0, i1]),
            ticket: u32::from_le_bytes([t0, t1, t2, t3]),
            value: u32::from_le_bytes([v0, v1, v2, v3]),
            version: u32::from_le_bytes([n0, n1, n2, n3]),
        }
    }

    pub fn to_bytes(self) -> [u8; REPLY_BYTES] {
        let [i0, i1] = self.item.to_le_bytes();
        let [t0, t1, t2, t3] = self.ticket.to_le_bytes();
        let [v0, v1, v2, v3] = self.value.to_le_bytes();
        let [n0, n1, n2, n3] = self.version.to_le_bytes();
        [self.number, self.operation, i0, i1, t0, t1, t2, t3, v0, v1, v2, v3, n0, n1, n2, n3]
    }
}

/// The whole requests of these bytes; an unfinished one at their end is none.
pub fn requests_in(bytes: &[u8]) -> impl Iterator<Item = Request> + '_ {
    let whole = bytes.chunks_exact(REQUEST_BYTES);
    whole.filter_map(|bytes| bytes.first_chunk()).map(Request::from_bytes)
}

/// The whole replies of these bytes.
pub fn replies_in(bytes: &[u8]) -> impl Iterator<Item = Reply> + '_ {
    let whole = bytes.chunks_exact(REPLY_BYTES);
    whole.filter_map(|bytes| bytes.first_chunk()).map(Reply::from_bytes)
}

/// Bytes as the document prints them: `01 00 ff`.
pub fn hex(bytes: &[u8]) -> String {
    let words: Vec<String> = bytes.iter().map(|byte| format!("{byte:02x}")).collect();
    words.join(" ")
}

#[cfg(test)]
mod tests {
    use super::*;
    use crate::rng::Rng;

    #[test]
    fn fields_lie_where_the_document_puts_them() {
        let request =
            Request { operation: 2, level: 3, item: 0x0504, ticket: 0x09080706, value: 0x0d0c0b0a };
        assert_eq!(request.to_bytes(), [2, 3, 4, 5, 6, 7, 8, 9, 10, 11, 12, 13]);
        let reply = Reply {
            number: 1,
            operation: 2,
            item: 0x0403,
            ticket: 0x08070605,
            value: 0x0c0b0a09,
            version: 0x100f0e0d,
        };
        assert_eq!(reply.to_bytes(), [1, 2, 3, 4, 5, 6, 7, 8, 9, 10, 11, 12, 13, 14, 15, 16]);
    }

    #[test]
    fn any_bytes_come_back_both_ways() {
        let mut rng = Rng::new(1);
        for _ in 0..10_000 {
            let request = std::array::from_fn(|_| rng.byte());
            assert_eq!(Request::from_bytes(&request).to_bytes(), request);
            let reply = std::array::from_fn(|_| rng.byte());
            assert_eq!(Reply::from_bytes(&reply).to_bytes(), reply);
        }
    }

    #[test]
    fn operation_numbers_are_those_of_the_document() {
        for (number, operation) in (0..).zip(Operation::ALL) {
            assert_eq!(operation.number(), number);
            assert_eq!(Operation::from_number(number), Some(operation));
        }
        assert_eq!(Operation::from_number(7), None);
    }
}
