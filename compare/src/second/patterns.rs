//! The 28 puncturing patterns, typed as 01's table gives them and expanded
//! here. (Tables 7, 8 and 11 of the standard; rows 1, 4, 6, 9, 19, 23 and 25
//! to 27 are damaged in its text, and 01 decides for them. See TABLES.md.)

use std::sync::OnceLock;

/// 01's table, in its own words: id, rate, data, tail.
const ROWS: &str = "
| 0 | 1/5 | h | 311 x6 |
| 1 | 2/9 | 10111 h 11101 h | 311 311 211 211 211 311 |
| 2 | 1/4 | 11101 11011 | 211 x6 |
| 3 | 2/7 | d 10111 d 11101 | 111 211 211 211 111 111 |
| 4 | 3/10 | e e e e e h | 111 111 211 111 111 211 |
| 5 | 1/3 | e | 210 x6 |
| 6 | 1/3 | d | 201 x6 |
| 7 | 3/8 | g e e | 110 111 111 110 111 111 |
| 8 | 3/8 | d f d | 101 111 111 101 111 111 |
| 9 | 2/5 | a d f d d f d d f d d f | 111 111 101 111 111 101 |
| 10 | 2/5 | e g e e g a e g e e g e | 111 110 111 111 110 111 |
| 11 | 3/7 | a e g e g e | 110 110 111 110 110 111 |
| 12 | 3/7 | d f d a d f | 101 101 111 101 101 111 |
| 13 | 1/2 | c b | 110 x6 |
| 14 | 1/2 | b c | 101 x6 |
| 15 | 1/2 | 10100 10001 | 110 x6 |
| 16 | 3/5 | a b c | 101 100 110 100 110 101 |
| 17 | 3/5 | b c a | 100 110 101 110 101 100 |
| 18 | 3/5 | c a b | 110 101 100 101 100 110 |
| 19 | 2/3 | a a a d | 100 101 101 100 101 101 |
| 20 | 2/3 | a d a a | 101 100 100 101 100 100 |
| 21 | 2/3 | a a d a | 101 101 100 101 101 100 |
| 22 | 3/4 | a a c a a b | 100 100 110 100 100 110 |
| 23 | 3/4 | a b a a c a | 100 110 100 100 110 100 |
| 24 | 3/4 | c a a b a a | 110 100 100 110 100 100 |
| 25 | 6/7 | ten a, 10100 10001 | 100 101 100 100 100 101 |
| 26 | 6/7 | six a, 10100 10001, four a | 101 100 100 100 101 100 |
| 27 | 6/7 | a a 10100 10001, eight a | 100 x6 |
";

/// 01's names for groups.
const NAMES: &str = "a=10000 b=10010 c=11000 d=10101 e=11010 f=00101 g=01010 h=11111";

/// One pattern.
#[derive(Clone, Debug, PartialEq, Eq)]
pub struct Pattern {
    /// The code rate as numerator and denominator.
    pub rate: (usize, usize),
    /// One period: which of X Y0 Y1 Y'0 Y'1 pass in each group.
    pub data: Vec<[bool; 5]>,
    /// Copies of X Y0 Y1 (three times), then of X' Y'0 Y'1 (three times).
    pub tail: [[u8; 3]; 6],
}

impl Pattern {
    /// The code bits for a block of `block` bits: (N + 6) divided by the rate.
    pub fn code_bits(&self, block: usize) -> usize {
        (block + 6) * self.rate.1 / self.rate.0
    }

    /// The capacity units of a codeword: 6 divided by the rate (table 13).
    pub fn capacity_units(&self) -> u32 {
        (6 * self.rate.1 / self.rate.0) as u32
    }

    /// For each of the N + 6 groups of the lane, how many copies of each of
    /// its five places are sent. The pattern repeats over the N data groups,
    /// its last period cut short if need be; the tail has its own six groups,
    /// X Y0 Y1 at places 0 1 2 of the first three, X' Y'0 Y'1 at places 0 3 4
    /// of the last three.
    pub fn copies(&self, block: usize) -> Vec<[u8; 5]> {
        let data = self
            .data
            .iter()
            .cycle()
            .take(block)
            .map(|group| group.map(u8::from));
        let tail = self.tail.iter().enumerate().map(|(index, &[x, y0, y1])| {
            if index < 3 {
                [x, y0, y1, 0, 0]
            } else {
                [x, 0, 0, y0, y1]
            }
        });
        data.chain(tail).collect()
    }
}

/// Pattern `number`, if it is one of the 28.
pub fn pattern(number: u32) -> Option<&'static Pattern> {
    static PATTERNS: OnceLock<Vec<Pattern>> = OnceLock::new();
    PATTERNS
        .get_or_init(expand)
        .get(usize::try_from(number).ok()?)
}

fn expand() -> Vec<Pattern> {
    let patterns: Vec<Pattern> = ROWS
        .trim()
        .lines()
        .enumerate()
        .map(|(number, line)| {
            let cells: Vec<&str> = line.trim_matches('|').split('|').map(str::trim).collect();
            let [id, rate, data, tail] = cells[..] else {
                panic!("four cells: {line}")
            };
            assert_eq!(id, number.to_string());
            let (over, under) = rate.split_once('/').expect("a fraction");
            Pattern {
                rate: (
                    over.parse().expect("a number"),
                    under.parse().expect("a number"),
                ),
                data: data_row(data),
                tail: tail_row(tail),
            }
        })
        .collect();
    assert_eq!(patterns.len(), 28);
    patterns
}

/// Groups by name or by digits; `ten`, `eight`, `six`, `four` repeat the next.
fn data_row(text: &str) -> Vec<[bool; 5]> {
    let mut groups = Vec::new();
    let mut times = 1;
    for token in text.split([' ', ',']).filter(|token| !token.is_empty()) {
        match token {
            "ten" => times = 10,
            "eight" => times = 8,
            "six" => times = 6,
            "four" => times = 4,
            _ => {
                let digits = match token.len() {
                    1 => NAMES
                        .split(' ')
                        .find_map(|name| name.strip_prefix(token)?.strip_prefix('='))
                        .expect("a name of 01"),
                    _ => token,
                };
                let group: Vec<bool> = digits
                    .chars()
                    .map(|digit| match digit {
                        '0' => false,
                        '1' => true,
                        _ => panic!("a group of zeros and ones: {digits}"),
                    })
                    .collect();
                let group: [bool; 5] = group.try_into().expect("five digits");
                groups.extend(vec![group; times]);
                times = 1;
            }
        }
    }
    groups
}

/// Six triples of digits, or one and `x6`.
fn tail_row(text: &str) -> [[u8; 3]; 6] {
    let triple = |token: &str| -> [u8; 3] {
        let digits: Vec<u8> = token
            .chars()
            .map(|digit| digit.to_digit(4).expect("0 to 3") as u8)
            .collect();
        digits.try_into().expect("three digits")
    };
    match text.strip_suffix(" x6") {
        Some(token) => [triple(token); 6],
        None => {
            let triples: Vec<[u8; 3]> = text.split(' ').map(triple).collect();
            triples.try_into().expect("six triples")
        }
    }
}
