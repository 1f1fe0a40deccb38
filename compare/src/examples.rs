//! The payloads that 003 prints as examples of the eleven types, in its base64.

use crate::second::message::HEADER;

/// An example of 003: the type, the newest version that has it, and the payload in base64.
pub struct Example {
    pub kind: u64,
    pub version: u64,
    base64: &'static str,
}

impl Example {
    pub fn payload(&self) -> Vec<u8> {
        base64(self.base64)
    }

    /// The payload behind a header with a correlation of our own, as 003 prints payloads only.
    pub fn message(&self) -> Vec<u8> {
        let payload = self.payload();
        let mut message = Vec::with_capacity(HEADER + payload.len());
        message.extend(self.kind.to_be_bytes());
        message.extend(0x1011_1213_1415_1617_1819_1a1b_1c1d_1e1f_u128.to_be_bytes());
        message.extend((payload.len() as u64).to_be_bytes());
        message.extend(payload);
        message
    }
}

/// Bytes from base64. Characters that are none of its alphabet are passed over.
pub fn base64(text: &str) -> Vec<u8> {
    let mut bytes = Vec::new();
    let (mut bits, mut held) = (0u32, 0);
    for character in text.bytes() {
        let value = match character {
            b'A'..=b'Z' => character - b'A',
            b'a'..=b'z' => character - b'a' + 26,
            b'0'..=b'9' => character - b'0' + 52,
            b'+' => 62,
            b'/' => 63,
            _ => continue,
        };
        bits = bits << 6 | u32::from(value);
        held += 6;
        if held >= 8 {
            held -= 8;
            bytes.push((bits >> held) as u8);
        }
    }
    bytes
}

/// The eleven, in 003's order.
#[rustfmt::skip]
pub const EXAMPLES: [Example; 11] = [
    Example {
        kind: 7200,
        version: 1004,
        base64: "\
            cHPL9BRESkGHswCG8UP8YDFdrMYYLkwSv5h376kky4YAAAAAAAAACGRvbWFpbiBBAAAAAAAAAAUAAAAAAAAD7AAAAAAAAAPrAAAA\
            AAAAA+oAAAAAAAAD6QAAAAAAAAPo",
    },
    Example {
        kind: 7201,
        version: 1004,
        base64: "\
            cHPL9BRESkGHswCG8UP8YDFdrMYYLkwSv5h376kky4YAAAAAAAAACGRvbWFpbiBBAAAAAAAAA+g=",
    },
    Example {
        kind: 7202,
        version: 1004,
        base64: "\
            cHPL9BRESkGHswCG8UP8YA==",
    },
    Example {
        kind: 7203,
        version: 1004,
        base64: "\
            cHPL9BRESkGHswCG8UP8YA==",
    },
    Example {
        kind: 7300,
        version: 1004,
        base64: "\
            cHPL9BRESkGHswCG8UP8YDFdrMYYLkwSv5h376kky4YAAAAAAAAACGRvbWFpbiBBAAAAAAAAAAMAAAAAAAAACHNlcnZpY2UxAAAA\
            AAAAAAhzZXJ2aWNlMgAAAAAAAAAIc2VydmljZTMAAAAAAAAAAwAAAAAAAAAGcXVldWUxAAAAAAAAAAZxdWV1ZTIAAAAAAAAABnF1\
            ZXVlMw==",
    },
    Example {
        kind: 7311,
        version: 1004,
        base64: "\
            cHPL9BRESkGHswCG8UP8YOL2t8N/c0oJgqCrFYGyH6UAAAAAAAAACGRvbWFpbiBCAAAAAAAAAAEAAAAAAAAACHNlcnZpY2UxAAAA\
            AAAAAAdleGFtcGxlAAEAAAAU9GsEAAAAAAAAAAAAAAAAAAAAAAEAAAAAAAAABnF1ZXVlMQAAAAAAAAAKAAAAAAA9CQABAA==",
    },
    Example {
        kind: 7302,
        version: 1004,
        base64: "\
            cHPL9BRESkGHswCG8UP8YAAAAAAAAAAB4fa3w39zSgmCoKsVgbIfogAAAAAAAAABQg==",
    },
    Example {
        kind: 3103,
        version: 1004,
        base64: "\
            cHPL9BRESkGHswCG8UP8YAAAAAsAAAAAAAAAKgAAAAAAAAAACC5iaW5hcnkvAAAAAAAAAICAgYKDhIWGh4iJiouMjY6PkJGSk5SV\
            lpeYmZqbnJ2en6ChoqOkpaanqKmqq6ytrq+wsbKztLW2t7i5uru8vb6/wMHCw8TFxsfIycrLzM3Oz9DR0tPU1dbX2Nna29zd3t/g\
            4eLj5OXm5+jp6uvs7e7v8PHy8/T19vf4+fr7/P3+/w==",
    },
    Example {
        kind: 5205,
        version: 1004,
        base64: "\
            cHPL9BRESkGHswCG8UP8YAAAAAAAAAAqAAAAAAAAABAAAAAAAAAAEFtsG/byS0gNvbze9Uw6CFFbbBv28ktIDb283vVMOghSAAAA\
            KgAAAAAAAAAA",
    },
    Example {
        kind: 5206,
        version: 1004,
        base64: "\
            cHPL9BRESkGHswCG8UP8YAAAAAAAAAAqAAAAAAAAABAAAAAAAAAAEFtsG/byS0gNvbze9Uw6CFFbbBv28ktIDb283vVMOghSAAAA\
            KgAAAAA=",
    },
    Example {
        kind: 6201,
        version: 1002,
        base64: "\
            cHPL9BRESkGHswCG8UP8YAAAAAAAAAABUy+LbBV2Tcqf6CowAt5XngAAAAAAAAAVcHJvcGVydHkgMTpwcm9wZXJ0eSAyAAAAAAAA\
            AAZxdWV1ZUIVpWN406nwoAAAAAAAAAAGLmpzb24vAAAAAAAAAAJ7fQAAAAAAAAABFaVjeNOp8KA=",
    },
];
