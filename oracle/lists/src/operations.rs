//! The operations: their names and numbers, and the three forms of one. A list here is of lines such as `cursor ack 5`; written down,
//! this one is `cursor.ack 24 5`, the number beside the name; and as numbers 24 5 0 0 0.

/// How many numbers an operation is, and how many its answer.
pub const OPERATION: usize = 5;
pub const ANSWER: usize = 6;

/// Tens go by what an operation changes: list, bytes, cursor, lease table (two tens), delivery config, nothing.
pub const OPERATIONS: [(&str, u64); 55] = [
    ("list new", 1),
    ("list add", 2),
    ("cursor ranges", 3),
    ("attempt decode", 4),
    ("lease counts", 5),
    ("lease all", 6),
    ("lease expired", 7),
    ("bytes new", 11),
    ("bytes set", 12),
    ("bytes seal", 13),
    ("cursor encode", 14),
    ("attempt encode", 15),
    ("attempt encode2", 16),
    ("cursor new", 21),
    ("cursor resume", 22),
    ("cursor with", 23),
    ("cursor ack", 24),
    ("cursor bounded", 25),
    ("cursor commit", 26),
    ("cursor decode", 27),
    ("lease new", 31),
    ("lease millis", 32),
    ("lease default", 33),
    ("lease at", 34),
    ("lease resume", 35),
    ("lease flushed", 36),
    ("lease release", 37),
    ("lease shift", 38),
    ("lease claim", 39),
    ("lease reseal", 40),
    ("lease ack", 41),
    ("lease extend", 42),
    ("lease nack", 43),
    ("lease defer", 44),
    ("delivery new", 51),
    ("delivery flush", 52),
    ("offset next", 61),
    ("bytes crc", 62),
    ("cursor acked", 63),
    ("cursor committed", 64),
    ("cursor len", 65),
    ("cursor runs", 66),
    ("lease redeliveries", 67),
    ("lease inflight", 68),
    ("lease claimable", 69),
    ("lease deliveries", 70),
    ("lease holds", 71),
    ("lease pending", 72),
    ("delivery threshold", 73),
    ("delivery limit", 74),
    ("delivery unlimited", 75),
    ("delivery disposition", 76),
    ("delivery backoff", 77),
    ("delivery delay", 78),
    ("delivery explicit", 79),
];

fn number_of(name: &str) -> u64 {
    let found = OPERATIONS.iter().find(|(known, _)| *known == name);
    found.unwrap_or_else(|| panic!("no operation {name}")).1
}

/// A line's name, and its numbers behind it.
fn parts(line: &str) -> (String, Vec<&str>) {
    let words: Vec<&str> = line.split(' ').collect();
    (words[..2].join(" "), words[2..].to_vec())
}

/// The line as it is written down.
pub fn written(line: &str) -> String {
    let (name, numbers) = parts(line);
    let mut words = vec![name.replace(' ', "."), number_of(&name).to_string()];
    words.extend(numbers.iter().map(|n| n.to_string()));
    words.join(" ")
}

/// The line that was written down so, where the number is its name's.
pub fn read(text: &str) -> Option<String> {
    let mut words = text.split(' ');
    let name = words.next()?.replacen('.', " ", 1);
    let number = words.next()?;
    let known = OPERATIONS.iter().any(|&(known, n)| known == name && n.to_string() == number);
    let words: Vec<&str> = std::iter::once(name.as_str()).chain(words).collect();
    known.then(|| words.join(" "))
}

/// The line as numbers: those that it lacks are 0.
pub fn numbers(line: &str) -> [u64; OPERATION] {
    let (name, given) = parts(line);
    let mut numbers = [0; OPERATION];
    numbers[0] = number_of(&name);
    for (place, number) in numbers[1..].iter_mut().zip(given) {
        *place = number.parse().unwrap();
    }
    numbers
}

/// An answer as numbers: how many it has, each of them, and the digest.
pub fn answer(values: &[u64], digest: u32) -> [u64; ANSWER] {
    let mut numbers = [0; ANSWER];
    numbers[0] = values.len() as u64;
    numbers[1..=values.len()].copy_from_slice(values);
    numbers[ANSWER - 1] = digest.into();
    numbers
}

/// An answer's line.
pub fn line_of(answer: &[u64; ANSWER]) -> String {
    if answer[0] == 0 {
        return "bad".to_string();
    }
    let values = &answer[1..=answer[0].min(4) as usize];
    let words: Vec<String> = values.iter().chain(&answer[ANSWER - 1..]).map(u64::to_string).collect();
    words.join(" ")
}
