//! The turbo interleaver (clause 4.4.4) by 01's counter rule.

/// Table 10, typed from the standard: index, n = 5, n = 9.
///
/// Its text has the 32 rows in order, but some cells carry their neighbours too.
/// An "index" cell does not count, the row's position does: the second row is
/// labelled 0, the fourth "2 3 4", the eighth "7 8", the ninth is not
/// labelled, and so on. A glued "entry" cell holds the entries of neighbouring
/// rows in their order, of which the others stand alone in their own rows;
/// what is left is the row's own entry. The damaged entry cells are marked
/// with what the text shows.
const TABLE_10: [(u8, u32, u32); 32] = [
    (0, 27, 13),
    (1, 3, 335), // n = 5: "27 3 1", rows 0 1 2
    (2, 1, 87),
    (3, 15, 15),
    (4, 13, 15), // n = 9: "15 15", rows 3 4
    (5, 17, 1),  // n = 5: "15 13 17", rows 3 4 5
    (6, 23, 333),
    (7, 13, 11), // n = 9: "11 13", rows 7 8
    (8, 9, 13),
    (9, 3, 1),
    (10, 15, 121),
    (11, 3, 155), // n = 5: "3 13", rows 11 12; n = 9: "155 1 175", rows 11 12 13
    (12, 13, 1),
    (13, 1, 175),
    (14, 13, 421), // n = 9: "421 5", rows 14 15
    (15, 29, 5),
    (16, 21, 509),
    (17, 19, 215), // n = 9: "215 47 425 295", rows 17 18 19 20
    (18, 1, 47),
    (19, 3, 425),
    (20, 29, 295),
    (21, 17, 229),
    (22, 25, 427), // n = 9: "427 83", rows 22 23
    (23, 29, 83),
    (24, 9, 409),
    (25, 13, 387),
    (26, 23, 193),
    (27, 13, 57),
    (28, 13, 501),
    (29, 1, 313),
    (30, 13, 489),
    (31, 13, 391),
];

/// The interleaver parameter n of a block: the least with N <= 2^(n+5)
/// (step 1; 5 for 762 and 9 for 12,282 by table 9).
pub fn parameter(block: usize) -> u32 {
    let mut n = 0;
    while block > 1 << (n + 5) {
        n += 1;
    }
    n
}

/// The table 10 entry; n is 5 or 9.
pub fn entry(n: u32, index: u32) -> u32 {
    let (_, five, nine) = TABLE_10[index as usize];
    match n {
        5 => five,
        9 => nine,
        _ => panic!("table 10 is kept for n = 5 and n = 9"),
    }
}

/// The tentative address of a counter value, steps 3 to 7.
pub fn tentative(n: u32, counter: u32) -> u32 {
    // The counter has n + 5 bits: its n top bits stand above the five low ones.
    let top = counter >> 5;
    let five = counter & 31;
    let low = (top + 1) * entry(n, five) % (1 << n);
    let mut high = 0;
    for place in 0..5 {
        high = high << 1 | five >> place & 1;
    }
    high << n | low
}

/// The addresses of a block of 762 or 12,282 bits in their order: bit period
/// k of encoder 2 has the infoword's bit `addresses(N)[k]`.
pub fn addresses(block: usize) -> Vec<usize> {
    let n = parameter(block);
    (0..1 << (n + 5))
        .map(|counter| tentative(n, counter) as usize)
        .filter(|address| *address < block)
        .collect()
}
