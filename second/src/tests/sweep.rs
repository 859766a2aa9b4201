//! The numbers and the first lines of the protocol, worked out by hand.

use crate::draw::{digest, Draw};
use crate::sweep::{input_numbers, most_classes, Sweep};

/// With no third number in the input.
fn lines(seed: u64, rounds: usize) -> Vec<String> {
    lines_of(seed, rounds, 12)
}

fn lines_of(seed: u64, rounds: usize, most: usize) -> Vec<String> {
    let mut out = Vec::new();
    let mut sweep = Sweep::new(seed, most, &mut out);
    (0..rounds).for_each(|_| sweep.round().unwrap());
    let text = String::from_utf8(out).unwrap();
    text.lines().map(String::from).collect()
}

#[test]
fn draws() {
    let mut draw = Draw::new(0);
    let first: Vec<u64> = (0..4).map(|_| draw.below(u64::MAX)).collect();
    assert_eq!(first, [48_271, 182_605_794, 1_291_394_886, 1_914_720_637]);
    // The published 10,000th number of this generator from state 1.
    let last = (4..10_000).map(|_| draw.below(u64::MAX)).last();
    assert_eq!(last, Some(399_268_537));
    assert_eq!(Draw::new(2_147_483_646).below(8), 48_271 % 8);
}

#[test]
fn digests() {
    assert_eq!(digest(&[]), 7);
    assert_eq!(digest(&[0]), 7 * 31 + 1);
    assert_eq!(digest(&[1, 2]), (7 * 31 + 2) * 31 + 3);
    assert!(digest(&[255; 600]) < 2_147_483_647);
}

#[test]
fn numbers_of_input() {
    assert_eq!(input_numbers(b"12 34\n"), [12, 34, 0]);
    assert_eq!(input_numbers(b"12, 34 56"), [12, 34, 56]);
    assert_eq!(input_numbers(b"12 34 56 78"), [12, 34, 56]);
    assert_eq!(input_numbers(b"12"), [12, 0, 0]);
    assert_eq!(input_numbers(b""), [0, 0, 0]);
    assert_eq!(input_numbers(b"1000000008 007 1000000135"), [1, 7, 128]);
    assert_eq!(input_numbers(b"99999999999999999999999 1")[1..], [1, 0]);
}

#[test]
fn third_numbers() {
    let most = [0, 1, 12, 13, 127, 128, 129, 1_000_000_006].map(most_classes);
    assert_eq!(most, [12, 1, 12, 13, 127, 128, 128, 128]);
}

/// Seed 0: w 48271 % 8 = 7, so n = 1 + 182605794 % 5 = 5; lent = 25 +
/// 1291394886 % 3 = 25; fresh has trouble 1914720637 % 12 = 1, which draws
/// 2078669041; calls = 4 + 407355683 % 26 = 11. The first has trouble
/// 1105902161 % 12 = 5, none, and k = 854716505 % 19 = 4, tell: 564586691 % 8 =
/// 3, class 1596680831 % 5 = 1; 192302371 % 8 = 3, class 1203428207 % 5 = 2;
/// the verdict is 1250328747 % 2 = 1. The second has trouble 1738531149 % 12 =
/// 9, none, and k = 1271135913 % 19 = 3, tell: 1098894339 % 8 = 3, class
/// 1882556969 % 5 = 4; 2136927794 % 8 = 2, class 1559527823 % 5 = 3; the
/// verdict is 2075782095 % 2 = 1.
#[test]
fn first_lines_of_seed_0() {
    let lines = lines(0, 1);
    assert_eq!(lines[0], "F 0 0 5 0 676200001");
    assert_eq!(lines[1], "T 0 0 5 0 2087631044");
    assert_eq!(lines[2], "T 0 0 5 0 2087631075");
}

/// What fresh prints for n 3 with 11 bytes lent.
const FRESH: &str = "F 0 0 3 0 1084192378";

#[test]
fn digests_of_fresh() {
    assert_eq!(digest(&[1, 0, 0, 0, 1, 0, 0, 0, 1, 0, 0]), 1_084_192_378);
}

/// Three seeds with n 3, 11 bytes lent, no trouble and a clip as the first
/// call.
///
/// Seed 4477: k = 132586976 % 19 = 17; 604650436 % 4 = 0, so flags are drawn:
/// 630949779 % 2 = 1, 963700355 % 2 = 1, 2136558538 % 2 = 0; 915040623 % 8 = 7,
/// no other. The noes are (0, 2), (1, 2).
///
/// Seed 1913: k = 1425343859 % 19 = 16; 1692335203 % 4 = 3, c = 434652133 % 3 =
/// 1, whose row has 1 alone; 177880853 % 8 = 5, no other. The noes are (1, 0),
/// (1, 2).
///
/// Seed 2182: k = 412798235 % 19 = 17; 1830324819 % 4 = 3, c = 1984616722 % 3 =
/// 1; 188294992 % 8 = 0, so the flag at 3 + 1036764728 % 125 = 106 is set: 5.
#[test]
fn first_clips() {
    assert_eq!(lines(4477, 1)[..2], [FRESH, "C 0 0 3 0 1821509844"]);
    assert_eq!(digest(&[1, 0, 2, 0, 1, 2, 0, 0, 1, 0, 0]), 1_821_509_844);
    assert_eq!(lines(1913, 1)[..2], [FRESH, "C 0 0 3 0 332104080"]);
    assert_eq!(digest(&[1, 0, 0, 2, 1, 2, 0, 0, 1, 0, 0]), 332_104_080);
    assert_eq!(lines(2182, 1)[..2], [FRESH, "C 5 0 3 0 1084192378"]);
}

/// Three seeds with n 3, 11 bytes lent to fresh, and a count of open pairs as
/// the first call.
///
/// Seed 2276: trouble 1983438334 % 12 = 10, none; k = 1288386313 % 19 = 18. All
/// six pairs off the diagonal are open.
///
/// Seed 3195: trouble 533672786 % 12 = 2, and 1852707241 % 3 = 1, so the class
/// count given is 4; k = 74750996 % 19 = 18. 11 bytes are too few: 2.
///
/// Seed 2720: trouble 313251591 % 12 = 3, so 535190634 % 9 = 0 bytes are lent; k
/// = 2106304051 % 19 = 18: 2, and the digest is that of no bytes.
#[test]
fn first_open_pairs() {
    assert_eq!(lines(2276, 1)[..2], [FRESH, "O 0 0 6 1084192378"]);
    assert_eq!(lines(3195, 1)[..2], [FRESH, "O 2 0 0 1084192378"]);
    assert_eq!(lines(2720, 1)[..2], [FRESH, "O 2 0 0 7"]);
}

/// Every number that a clip and a count of open pairs can give comes up.
#[test]
fn lines_of_every_kind() {
    let lines = lines(3, 400);
    for (letter, last) in [('C', 6), ('O', 4)] {
        for number in 0..=last {
            let start = format!("{letter} {number} 0 ");
            assert!(lines.iter().any(|line| line.starts_with(&start)), "{start}");
        }
    }
}

#[test]
fn no_rounds_no_lines() {
    assert_eq!(lines(5, 0).len(), 0);
}

/// Each letter has its count of numbers.
#[test]
fn lines_have_their_form() {
    for line in lines(17, 200) {
        let words: Vec<&str> = line.split(' ').collect();
        let fits = match (words[0], words[1]) {
            ("F" | "T" | "A" | "C", _) => words.len() == 6,
            ("R", _) => words.len() == 7,
            ("N", "0") => words.len() == 4 || words.len() == 6,
            ("N", _) => words.len() == 4,
            ("H", _) => words.len() == 7,
            ("O", _) => words.len() == 5,
            ("L" | "W", _) => words.len() == 6,
            _ => false,
        };
        assert!(fits, "{line}");
    }
}

/// The bytes of a table of n classes with `lent` bytes lent: yes on the
/// diagonal, these marks, and 0 elsewhere.
fn table(n: usize, lent: usize, marks: &[(usize, usize, u8)]) -> Vec<u8> {
    let mut table = vec![0; lent];
    let diagonal: Vec<(usize, usize, u8)> = (0..n).map(|a| (a, a, 1)).collect();
    for (a, b, mark) in [&diagonal, marks].concat() {
        table[a * n + b] = mark;
    }
    table
}

/// Seed 10871, at most 128: w 524802312 % 8 = 0, so n = 1 + 1015302540 % 128 =
/// 13; lent = 169 + 1944600153 % 3 = 169; fresh has trouble 1283775093 % 12 =
/// 9, none; 1319396371 % 2 = 1, so 0 to 12 are told to be in a row, after which
/// a is under b where a is below b and b has come. Then calls = 4 + 659705462 %
/// 145 = 126. The first has trouble 1754838486 % 12 = 6, none, and k =
/// 316101791 % 19 = 7, answer.
#[test]
fn classes_told_in_a_row() {
    let lines = lines_of(10_871, 1, 128);
    let fresh = digest(&table(13, 169, &[]));
    assert_eq!(lines[0], format!("F 0 0 13 0 {fresh}"));
    for (last, line) in (1..).zip(&lines[1..13]) {
        let pairs = (0..=last).flat_map(|a| (a + 1..=last).map(move |b| (a, b, 1)));
        let told = digest(&table(13, 169, &pairs.collect::<Vec<_>>()));
        assert_eq!(*line, format!("T 0 0 13 0 {told}"));
    }
    assert!(lines[13].starts_with("A 0 0 13 "));
}

/// Seed 7863, at most 128: n = 1 + 1492887820 % 128 = 13; lent = 169 + 79216841
/// % 3 = 171; trouble 1355240251 % 12 = 7, none; 7817460 % 2 = 0, no row; calls
/// = 4 + 1546973435 % 145 = 49. The first has trouble 1653307401 % 12 = 9, none,
/// and k = 2014263857 % 19 = 4, tell: 1061039675 % 8 = 3, class 2108654622 % 13
/// = 9; 437358056 % 8 = 0, class 1946471166 % 14 = 10; the verdict is
/// 1405130442 % 2 = 0.
///
/// Seed 5775, at most 128: n = 1 + 316595467 % 128 = 12; lent = 144 + 886155505
/// % 3 = 145; trouble 2033100909 % 12 = 9, none; of a row nothing is drawn;
/// calls = 4 + 1958794086 % 145 = 110. The first has trouble 1391831543 % 12 =
/// 11, none, and k = 1074515758 % 19 = 18: 132 pairs are open.
#[test]
fn first_calls_without_a_row() {
    let (fresh, told) = (table(13, 171, &[]), table(13, 171, &[(9, 10, 2)]));
    let [fresh, told] = [fresh, told].map(|bytes| digest(&bytes));
    let expected = [format!("F 0 0 13 0 {fresh}"), format!("T 0 0 13 0 {told}")];
    assert_eq!(lines_of(7863, 1, 128)[..2], expected);
    let fresh = digest(&table(12, 145, &[]));
    let expected = [format!("F 0 0 12 0 {fresh}"), format!("O 0 0 132 {fresh}")];
    assert_eq!(lines_of(5775, 1, 128)[..2], expected);
}

/// Seed 424280, at most 128: n = 1 + 1401351295 % 128 = 128; lent = 16384 +
/// 1040964092 % 3 = 16386; trouble 1555312426 % 12 = 10, none; 457816326 % 2 =
/// 0, no row; calls = 4 + 1645144716 % 145 = 95. The first has trouble
/// 982803623 % 12 = 11, none, and k = 852439956 % 19 = 16, clip: 194955909 % 4 =
/// 1, c = 443342185 % 128 = 105, whose row has 105 alone. Of a flag at 128
/// nothing is drawn. The second has trouble 896069780 % 12 = 8, none, and k =
/// 1716216153 % 19 = 18: of 16,256 pairs 127 are settled.
#[test]
fn a_clip_of_128_classes() {
    let noes: Vec<(usize, usize, u8)> = (0..128)
        .filter(|&b| b != 105)
        .map(|b| (105, b, 2))
        .collect();
    let fresh = digest(&table(128, 16_386, &[]));
    let clipped = digest(&table(128, 16_386, &noes));
    let expected = [
        format!("F 0 0 128 0 {fresh}"),
        format!("C 0 0 128 0 {clipped}"),
        format!("O 0 0 16129 {clipped}"),
    ];
    assert_eq!(lines_of(424_280, 1, 128)[..3], expected);
}

/// Seed 183, at most 128, has n = 1 + 1387211391 % 128 = 128 and no row: 400
/// questions with their answers, and then the seven lines of the last calls.
#[test]
fn no_more_than_400_answers() {
    let lines = lines_of(183, 1, 128);
    let asked = |line: &str| line.starts_with("N 0 0 ") && line.split(' ').count() == 6;
    let first = lines.len() - 7 - 2 * 400;
    for (i, line) in lines[first..lines.len() - 7].iter().enumerate() {
        let fits = if i % 2 == 0 {
            asked(line)
        } else {
            line.starts_with("A 0 0 128 ")
        };
        assert!(fits, "{line}");
    }
    assert!(!asked(&lines[first - 2]));
    assert!(lines[lines.len() - 7..]
        .iter()
        .all(|line| !line.starts_with('N')));
}

/// Most rounds have up to five classes whatever the most are; the others reach
/// the most.
#[test]
fn class_counts_of_rounds() {
    let counts = |most| -> Vec<u64> {
        let fresh = |line: String| line.strip_prefix("F 0 0 ")?.split(' ').next()?.parse().ok();
        lines_of(9, 200, most)
            .into_iter()
            .filter_map(fresh)
            .collect()
    };
    assert_eq!(counts(1).iter().max(), Some(&5));
    assert_eq!(counts(12).iter().max(), Some(&12));
    assert_eq!(counts(20).iter().max(), Some(&20));
}
