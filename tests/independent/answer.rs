//! The answer to a case: the bytes that driver.c should write, each with the call that it comes from, so that a difference can be named.

/// Where in an answer the number of a call stands.
pub struct Name {
    pub call: &'static str,
    /// the place or the byte that was asked for
    pub place: u64,
    /// the item or the index that was asked for
    pub sub: u64,
    from: usize,
    width: usize,
}

/// Names are kept only when a difference is already known: most answers are equal, and naming takes time.
pub struct Answer {
    pub bytes: Vec<u8>,
    pub names: Option<Vec<Name>>,
}

impl Answer {
    pub fn new(naming: bool) -> Answer {
        Answer { bytes: Vec::new(), names: if naming { Some(Vec::new()) } else { None } }
    }

    fn put(&mut self, call: &'static str, place: u64, sub: u64, value: &[u8]) {
        if let Some(names) = &mut self.names {
            names.push(Name { call, place, sub, from: self.bytes.len(), width: value.len() });
        }
        self.bytes.extend_from_slice(value);
    }

    pub fn u8(&mut self, call: &'static str, place: u64, sub: u64, value: u8) {
        self.put(call, place, sub, &[value]);
    }

    pub fn u32(&mut self, call: &'static str, place: u64, value: u32) {
        self.put(call, place, 0, &value.to_be_bytes());
    }

    pub fn u64(&mut self, call: &'static str, place: u64, sub: u64, value: u64) {
        self.put(call, place, sub, &value.to_be_bytes());
    }

    pub fn all(&mut self, call: &'static str, bytes: &[u8]) {
        if self.names.is_none() {
            self.bytes.extend_from_slice(bytes);
            return;
        }
        for (index, &byte) in bytes.iter().enumerate() {
            self.u8(call, index as u64, 0, byte);
        }
    }

    /// The first call whose number is not the one that came, with both numbers, and the place; the answer has names.
    pub fn difference(&self, came: &[u8]) -> (String, u64) {
        for name in self.names.iter().flatten() {
            let (from, to) = (name.from, name.from + name.width);
            let expected = &self.bytes[from..to];
            let other = if to <= came.len() { &came[from..to] } else { &[] };
            if expected != other {
                let asked = format!("{} (place or byte {}, item or index {})", name.call, name.place, name.sub);
                return (format!("{}: expected {}, came {}", asked, shown(expected), shown(other)), name.place);
            }
        }
        (format!("expected {} bytes of answers, came {}", self.bytes.len(), came.len()), 0)
    }
}

fn shown(bytes: &[u8]) -> String {
    if bytes.is_empty() {
        return "nothing".to_string();
    }
    let number = bytes.iter().fold(0u64, |so_far, &byte| so_far * 256 + u64::from(byte));
    format!("{} (hex {})", number, hex(bytes))
}

pub fn hex(bytes: &[u8]) -> String {
    bytes.iter().map(|byte| format!("{:02X}", byte)).collect()
}
