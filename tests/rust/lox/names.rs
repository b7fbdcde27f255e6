//! Names by number and by text. The Rust compares texts, the files have numbers.

use std::collections::HashMap;

pub const FIXED: [&str; 4] = ["this", "super", "init", "<script>"];

pub struct Names {
    texts: Vec<String>,
    numbers: HashMap<String, u16>,
}

impl Names {
    /// The four fixed names and then the written ones, as they are where all are UTF-8. Where one is not, each
    /// written name stands as `n` and its number: the Rust only asks which names are equal, and no fixed name is of
    /// that form.
    pub fn new(written: &[&[u8]]) -> Self {
        let texts = FIXED.iter().map(|text| text.to_string());
        let plain: Result<Vec<_>, _> = written.iter().map(|name| std::str::from_utf8(name)).collect();
        let texts: Vec<String> = match plain {
            Ok(plain) => texts.chain(plain.into_iter().map(str::to_string)).collect(),
            Err(_) => texts.chain((4..4 + written.len()).map(|n| format!("n{n}"))).collect(),
        };
        let numbers = texts.iter().enumerate().map(|(n, text)| (text.clone(), n as u16)).collect();
        Self { texts, numbers }
    }

    pub fn text(&self, number: u16) -> Option<String> {
        self.texts.get(usize::from(number)).cloned()
    }

    pub fn number(&self, text: &str) -> u16 {
        self.numbers[text]
    }
}
