//! Directed requests for toll bounds: those that a line of text says, which are vectors too; and those on images of the vectors, with
//! addresses and lengths of every kind.
use crate::change::MOST;
use crate::start_image::plain;
use crate::tolls::{Case, Given};
use crate::{bad_images, start_image, sweep};
use model::bytes::put_amount;
use model::image::{holding_at, token_at, toll_at, LENGTH};

/// The first line of the file.
const FORMAT: &str = "# One request a line. The image: 36832 bytes of zero, but for kind and toll of the token with the address at, and \
    held, what address 1 holds of it; then cut off or filled up with zeros to image_bytes. token: the address that is asked for. least, \
    greatest: the tolls. The list: the amounts in 16 bytes each, then cut off or filled up with zeros to amount_bytes. Last the answer and \
    both holdings.";

/// A request on an image that is all zero but for one token's kind, its toll and what address 1 holds of it.
struct Line {
    image_bytes: usize,
    kind: u8,
    toll: i128,
    held: i128,
    /// The token that has these.
    at: u8,
    /// The one that is asked for.
    token: u8,
    tolls: [i128; 2],
    amounts: Vec<i128>,
    amount_bytes: usize,
}

impl Line {
    fn image(&self) -> Vec<u8> {
        let (mut image, token) = (vec![0; LENGTH], self.at as usize);
        image[token_at(token)] = self.kind;
        put_amount(&mut image, toll_at(token), self.toll);
        put_amount(&mut image, holding_at(token, 1), self.held);
        image.resize(self.image_bytes, 0);
        image
    }

    fn case(&self) -> Case {
        let mut amounts = bytes_of(&self.amounts);
        amounts.resize(self.amount_bytes, 0);
        Case { image: self.image(), token: self.token, amounts, tolls: self.tolls }
    }

    fn text(&self, given: Given) -> String {
        let Line { image_bytes, kind, toll, held, at, token, tolls: [least, greatest], amount_bytes, .. } = self;
        let amounts: Vec<String> = self.amounts.iter().map(|amount| amount.to_string()).collect();
        let (amounts, [least_holding, greatest_holding]) = (amounts.join(","), given.holdings);
        format!(
            "image_bytes={image_bytes} kind={kind} toll={toll} held={held} at={at} token={token} least={least} greatest={greatest} \
             amounts={amounts} amount_bytes={amount_bytes} answer={} least_holding={least_holding} greatest_holding={greatest_holding}",
            given.number
        )
    }
}

pub fn bytes_of(amounts: &[i128]) -> Vec<u8> {
    amounts.iter().flat_map(|amount| amount.to_le_bytes()).collect()
}

/// Address 1 holds 100 of token 48, and the toll will be 2 to 6.
fn of(amounts: &[i128]) -> Line {
    Line {
        image_bytes: LENGTH,
        kind: 1,
        toll: 0,
        held: 100,
        at: 48,
        token: 48,
        tolls: [2, 6],
        amounts: amounts.to_vec(),
        amount_bytes: 16 * amounts.len(),
    }
}

/// The example of docs/FORMATS.md: at the toll 2 there arrive 11, at the toll 6 there arrive 4.
fn example() -> Line {
    of(&[10, 5, 1])
}

/// Bounds that meet, amounts at the toll and beside it, sums that carry from the lower half to the upper, and up to 2^127 - 1.
fn done() -> Vec<Line> {
    let one_to_sixteen: Vec<i128> = (1..=16).collect();
    vec![
        example(),
        of(&[]),
        Line { held: 0, ..of(&[]) },
        Line { held: MOST, tolls: [MOST, MOST], ..of(&[]) },
        Line { tolls: [3, 3], ..example() },
        Line { tolls: [0, 0], ..example() },
        Line { tolls: [0, MOST], ..example() },
        Line { toll: 3, ..example() },
        Line { toll: MOST, ..example() },
        Line { held: 0, ..of(&[6, 2]) },
        Line { held: 0, ..of(&[7, 3]) },
        of(&one_to_sixteen),
        Line { at: 63, token: 63, ..example() },
        Line { held: u64::MAX as i128, tolls: [0, 1], ..of(&[1]) },
        Line { tolls: [1, 1 << 64], ..of(&[1 << 65, 1 << 64]) },
        Line { held: MOST - 11, ..example() },
        Line { held: MOST, ..of(&[2, 1]) },
        Line { held: 0, tolls: [0, 0], ..of(&[MOST - 5, 5]) },
        Line { held: 1, tolls: [1, 1], ..of(&[MOST]) },
        Line { held: 0, tolls: [0, MOST], ..of(&[MOST]) },
        Line { held: 0, tolls: [MOST - 1, MOST], ..of(&[MOST; 2]) },
        Line { held: 15, tolls: [1, 1 << 123], ..of(&[1 << 123; 16]) },
    ]
}

/// Each field that makes an image bad, in the token that is asked for or another; then together with 46, 4 and 7.
fn refused_30() -> Vec<Line> {
    vec![
        Line { image_bytes: 0, ..example() },
        Line { image_bytes: LENGTH - 1, ..example() },
        Line { image_bytes: LENGTH + 1, ..example() },
        Line { kind: 3, ..example() },
        Line { kind: 3, at: 49, ..example() },
        Line { kind: 0, ..example() },
        Line { kind: 0, held: 0, toll: 1, ..example() },
        Line { toll: -1, ..example() },
        Line { held: -1, ..of(&[]) },
        Line { kind: 3, token: 64, ..example() },
        Line { held: -1, tolls: [6, 2], ..example() },
        Line { image_bytes: 0, amount_bytes: 47, ..example() },
        Line { kind: 2, toll: -1, ..of(&[1; 17]) },
        Line { toll: -1, ..of(&[0]) },
        Line { toll: -1, held: MOST, ..example() },
    ]
}

/// Each cause alone, then together with 4 and 7.
fn refused_46() -> Vec<Line> {
    let mut lines = vec![
        Line { amount_bytes: 1, ..of(&[]) },
        Line { amount_bytes: 47, ..example() },
        Line { amount_bytes: 49, ..example() },
        Line { amount_bytes: 255, ..of(&[7; 16]) },
        Line { amount_bytes: 257, ..of(&[7; 16]) },
        of(&[7; 17]),
        Line { kind: 0, held: 0, ..example() },
        Line { kind: 2, ..example() },
        Line { kind: 2, ..of(&[]) },
    ];
    let tolls = [[-1, 6], [-1, -1], [2, -1], [i128::MIN, MOST], [6, 2], [MOST, MOST - 1]];
    lines.extend(tolls.map(|tolls| Line { tolls, ..example() }));
    lines.extend([0, 47, 49, 63, 64, 112, 176, 240, 255].map(|token| Line { token, ..example() }));
    lines.extend([
        Line { kind: 2, ..of(&[0]) },
        Line { tolls: [6, 2], ..of(&[10, -1]) },
        Line { amount_bytes: 31, ..of(&[0, 5]) },
        of(&[&[7; 16][..], &[0]].concat()),
        Line { kind: 2, held: MOST, ..example() },
        Line { token: 112, held: MOST, ..example() },
        of(&[MOST; 17]),
    ]);
    lines
}

/// Alone, first and last in a list; then together with 7, before the sum passes and behind.
fn refused_4() -> Vec<Line> {
    vec![
        of(&[0]),
        of(&[-1]),
        of(&[i128::MIN]),
        of(&[0, 5, 1]),
        of(&[10, 5, 0]),
        of(&[&[7; 15][..], &[-1]].concat()),
        Line { tolls: [MOST, MOST], ..of(&[MOST, 0]) },
        Line { held: MOST, ..of(&[10, 0]) },
        of(&[0, MOST, MOST]),
    ]
}

/// At the least toll alone, then at both; by one, by as much as wraps to a small number, and with no toll at all.
fn refused_7() -> Vec<Line> {
    vec![
        Line { held: MOST - 10, ..example() },
        Line { held: 1, tolls: [0, MOST], ..of(&[MOST]) },
        Line { held: 16, tolls: [1, 1 << 123], ..of(&[1 << 123; 16]) },
        Line { held: MOST - 3, ..example() },
        Line { held: MOST, tolls: [0, 0], ..of(&[1]) },
        Line { held: 0, tolls: [0, 0], ..of(&[1 << 123; 16]) },
        Line { held: 0, tolls: [0, 0], ..of(&[1 << 126; 4]) },
        Line { held: MOST, tolls: [0, 0], ..of(&[MOST; 16]) },
    ]
}

/// The lines with the number that docs/FORMATS.md gives them.
fn numbered() -> Vec<(u32, Line)> {
    let groups = [(0, done()), (30, refused_30()), (46, refused_46()), (4, refused_4()), (7, refused_7())];
    groups.into_iter().flat_map(|(number, lines)| lines.into_iter().map(move |line| (number, line))).collect()
}

/// The lines as text, with the answers of the library, which have to be those of the model.
pub fn lines() -> Result<Vec<String>, String> {
    let text = |(number, line): (u32, Line)| {
        let case = line.case();
        match case.compare(None) {
            Ok((given, _)) if given.number == number => Ok(line.text(given)),
            Ok((given, _)) => Err(format!("toll bounds, {}: number {} in place of {number}", case.text(), given.number)),
            Err(what) => Err(format!("toll bounds, {}: {what}", case.text())),
        }
    };
    numbered().into_iter().map(text).collect()
}

/// The file of vectors: what its lines say, then the lines.
pub fn file(lines: &[String]) -> String {
    format!("{FORMAT}\n{}\n", lines.join("\n"))
}

fn with(image: Vec<u8>, token: u8, amounts: &[i128]) -> Case {
    Case { image, token, amounts: bytes_of(amounts), tolls: [2, 6] }
}

/// On images that break one rule, and good ones at the edge of the rules: with nothing else wrong, and with each other refusal.
fn on_broken_images() -> impl Iterator<Item = Case> {
    let requests: [(u8, &[i128]); 5] = [(49, &[10, 5, 1]), (63, &[10, 5, 1]), (64, &[10]), (49, &[0]), (49, &[MOST, MOST])];
    bad_images::lists().into_iter().flat_map(move |list| requests.map(|(token, amounts)| with(list.start.image.clone(), token, amounts)))
}

/// Every address, on the images that the order of refusals is asked from.
fn every_address() -> impl Iterator<Item = Case> {
    start_image::all().into_iter().flat_map(|(image, _)| (0..=255).map(move |token| with(image.clone(), token, &[10, 5, 1])))
}

/// Lists of every length up to some bytes behind twenty amounts.
fn every_length() -> impl Iterator<Item = Case> {
    (0..=20 * 16 + 15).map(|length| {
        let mut case = with(plain(), 48, &[7; 21]);
        case.amounts.truncate(length);
        case
    })
}

/// Every byte of an image changed in turn.
fn every_byte() -> impl Iterator<Item = Case> {
    (0..LENGTH).map(|at| {
        let mut image = plain();
        image[at] = sweep::values(image[at])[at % 5];
        with(image, 48, &[10])
    })
}

pub fn directed() -> impl Iterator<Item = Case> {
    let lines = numbered().into_iter().map(|(_, line)| line.case());
    lines.chain(on_broken_images()).chain(every_address()).chain(every_length()).chain(every_byte())
}
