//! Records of comma-separated text, as the crate `csv` reads them by default without a header row.
use std::borrow::Cow;

pub type Field<'a> = Cow<'a, [u8]>;

pub struct Records<'a> {
    data: &'a [u8],
    at: usize,
}

impl<'a> Records<'a> {
    pub fn new(data: &'a [u8]) -> Records<'a> {
        Records { data: data.strip_prefix(b"\xef\xbb\xbf").unwrap_or(data), at: 0 }
    }

    /// Reads the next record into `record`, or says that there is none.
    pub fn read(&mut self, record: &mut Vec<Field<'a>>) -> bool {
        record.clear();
        while matches!(self.data.get(self.at), Some(b'\r' | b'\n')) {
            self.at += 1;
        }
        if self.at == self.data.len() {
            return false;
        }
        loop {
            record.push(self.field());
            let end = self.data.get(self.at).copied();
            self.at = (self.at + 1).min(self.data.len());
            if end != Some(b',') {
                return true;
            }
        }
    }

    fn field(&mut self) -> Field<'a> {
        let rest = &self.data[self.at..];
        if rest.first() == Some(&b'"') {
            return Cow::Owned(self.quoted());
        }
        let len = rest.iter().position(|b| matches!(b, b',' | b'\r' | b'\n')).unwrap_or(rest.len());
        self.at += len;
        Cow::Borrowed(&rest[..len])
    }

    fn quoted(&mut self) -> Vec<u8> {
        let mut text = Vec::new();
        self.at += 1;
        while self.at < self.data.len() {
            let byte = self.data[self.at];
            self.at += 1;
            if byte != b'"' {
                text.push(byte);
            } else if self.data.get(self.at) == Some(&b'"') {
                text.push(b'"');
                self.at += 1;
            } else {
                break;
            }
        }
        while !matches!(self.data.get(self.at), None | Some(b',' | b'\r' | b'\n')) {
            text.push(self.data[self.at]);
            self.at += 1;
        }
        text
    }
}
