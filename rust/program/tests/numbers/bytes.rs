//! Bytes in the words of numbers.txt, whose first lines say what each means.
use std::collections::BTreeMap;
use std::ops::RangeInclusive;

/// The bytes of a record.
const SIZE: usize = 8;

/// The bytes that stand under each name.
#[derive(Default)]
pub struct Names(pub BTreeMap<String, Vec<u8>>);

impl Names {
    /// Bytes in words, one behind the other.
    pub fn bytes(&self, words: &str) -> Vec<u8> {
        let mut bytes = Vec::new();
        for word in words.split_whitespace() {
            let (many, word) = match word.split_once('*') {
                Some((many, word)) if many.parse::<u32>().is_ok() => (number(many), word),
                _ => (1u32, word),
            };
            (0..many).for_each(|_| self.add(word, &mut bytes));
        }
        bytes
    }

    fn add(&self, word: &str, bytes: &mut Vec<u8>) {
        if let Some(digits) = word.strip_prefix("hex:") {
            let byte = |i| u8::from_str_radix(&digits[i..i + 2], 16).expect(word);
            bytes.extend((0..digits.len()).step_by(2).map(byte));
        } else if let Some((request, arrivals)) = word.split_once('@') {
            add_requests(request, arrivals, bytes);
        } else if let Some((task, frames)) = word.split_once('(') {
            add_task(task, frames, bytes);
        } else if let Some((name, records)) = word.split_once('/') {
            let (from, to) = range::<u16>(records).into_inner();
            bytes.extend(&self.named(name)[usize::from(from) * SIZE..(usize::from(to) + 1) * SIZE]);
        } else {
            bytes.extend(self.named(word));
        }
    }

    fn named(&self, name: &str) -> &Vec<u8> {
        let found = self.0.get(name);
        found.unwrap_or_else(|| panic!("nothing is named {name}"))
    }

    /// A question as the program takes it: names, and what stands between brackets, are bytes.
    pub fn question(&self, line: &str) -> String {
        let in_hex = |bytes: &[u8]| format!("hex:{}", hex(bytes));
        let word = |word: &str| self.0.get(word).map_or(word.into(), |bytes| in_hex(bytes));
        self.words(line, word, in_hex)
    }

    /// An answer as the program gives it: what stands between brackets is bytes.
    pub fn answer(&self, line: &str) -> String {
        self.words(line, |word| word.into(), hex)
    }

    fn words(&self, line: &str, word: impl Fn(&str) -> String, bytes: impl Fn(&[u8]) -> String) -> String {
        let mut words = Vec::new();
        let mut rest = line.trim();
        while !rest.is_empty() {
            let (one, after) = match rest.strip_prefix('[') {
                Some(inner) => {
                    let (inner, after) = inner.split_once(']').expect(line);
                    (bytes(&self.bytes(inner)), after)
                }
                None => {
                    let (one, after) = rest.split_once(' ').unwrap_or((rest, ""));
                    (word(one), after)
                }
            };
            words.push(one);
            rest = after.trim_start();
        }
        words.join(" ")
    }
}

// A decimal number that its place in a record holds.
fn number<N: TryFrom<u32>>(text: &str) -> N {
    let number = text.parse().ok().and_then(|number: u32| N::try_from(number).ok());
    number.unwrap_or_else(|| panic!("'{text}' is no number here"))
}

// `7`, or `0-7`.
fn range<N: TryFrom<u32>>(text: &str) -> RangeInclusive<N> {
    let (from, to) = text.split_once('-').unwrap_or((text, text));
    number(from)..=number(to)
}

fn hex(bytes: &[u8]) -> String {
    bytes.iter().map(|byte| format!("{byte:02x}")).collect()
}

// TASK:KIND(E,D,P).., where the task number is one more than that of the record before unless it is given.
fn add_task(task: &str, frames: &str, bytes: &mut Vec<u8>) {
    let before = bytes.len().checked_sub(SIZE);
    let next = before.map_or(0, |at| bytes[at] + 1);
    let (task, kind) = match task.split_once(':') {
        Some((task, kind)) => (number(task), number(kind)),
        None => (next, number(task)),
    };
    for frame in frames.split('(') {
        let (frame, many) = frame.split_once(')').expect(frames);
        let many: u32 = many.strip_prefix('*').map_or(1, number);
        let mut record: Vec<u8> = vec![task, kind];
        for part in frame.split(',') {
            record.extend(number::<u16>(part).to_le_bytes());
        }
        assert_eq!(record.len(), SIZE, "{frames}");
        (0..many).for_each(|_| bytes.extend(&record));
    }
}

// TASK.FRAME@ARRIVAL, each request of the tasks at each of the arrivals, in the order of a list.
fn add_requests(request: &str, arrivals: &str, bytes: &mut Vec<u8>) {
    let (tasks, frame) = request.split_once('.').expect(request);
    for arrival in range::<u32>(arrivals) {
        for task in range::<u8>(tasks) {
            bytes.extend([task, number(frame), 0, 0]);
            bytes.extend(arrival.to_le_bytes());
        }
    }
}
