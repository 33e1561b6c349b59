//! Toll bounds: what they answer and write, held to the rule of docs/FORMATS.md and to the token itself.
mod common;

use common::{paused_vault, vault, OWNER, TOKEN, TOLL_TOKEN};
use std::collections::HashMap;
use token_vault::layout::{image as at, IMAGE_LENGTH};
use token_vault::{exports, Address, Image, Record, Refusal, VAULT_ADDRESS};

const MOST: i128 = i128::MAX;
const LAST_TOKEN: Address = 63;
const FROZEN_TOKEN: Address = 51;

/// What the library gives.
#[derive(Clone, Copy, Debug, PartialEq)]
struct Bounds {
    number: u32,
    least: i128,
    greatest: i128,
}

fn done(least: i128, greatest: i128) -> Bounds {
    Bounds { number: 0, least, greatest }
}

/// A refusal writes 0 twice.
fn refused(number: u32) -> Bounds {
    Bounds { number, least: 0, greatest: 0 }
}

/// Asks with a list of any bytes, and with holdings that must be written over; the image stays as it is.
fn bounds_of_bytes(image: &[u8], token: Address, amounts: &[u8], tolls: [i128; 2]) -> Bounds {
    let before = image.to_vec();
    let [least_toll, greatest_toll] = tolls.map(i128::to_le_bytes);
    let (mut least, mut greatest) = ([0xff; 16], [0xff; 16]);
    let number = exports::toll_bounds(image, token, amounts, &least_toll, &greatest_toll, &mut least, &mut greatest);
    assert!(image == before, "the image has changed");
    Bounds { number, least: i128::from_le_bytes(least), greatest: i128::from_le_bytes(greatest) }
}

fn bytes(amounts: &[i128]) -> Vec<u8> {
    amounts.iter().flat_map(|amount| amount.to_le_bytes()).collect()
}

/// Asks the library, and holds what the crate gives to it.
fn bounds(image: &Image, token: Address, amounts: &[i128], tolls: [i128; 2]) -> Bounds {
    let found = bounds_of_bytes(image.as_bytes(), token, &bytes(amounts), tolls);
    let expected = match found.number {
        0 => Ok(found.least..=found.greatest),
        number => Err(Refusal::from_number(number).unwrap()),
    };
    assert_eq!(image.toll_bounds(token, amounts, tolls[0]..=tolls[1]), expected);
    found
}

/// A token of which the vault holds so much. What its neighbours hold, and the token's own toll, must not be read. The 1 of
/// address 0 stands where a token 64 would have its kind.
fn holding(held: i128) -> Image {
    let mut image = Image::new();
    image.add_token(TOKEN, 3).unwrap();
    for (account, amount) in [(0, 1), (VAULT_ADDRESS, held), (2, 13)] {
        image.set_holding(TOKEN, account, amount).unwrap();
    }
    image
}

/// The holding at a toll; none where it passes 2^127 - 1.
fn holding_at(held: i128, amounts: &[i128], toll: i128) -> Option<i128> {
    amounts.iter().try_fold(held, |sum, amount| sum.checked_add((amount - toll).max(0)))
}

/// What has to be answered for a token that moves.
fn described(held: i128, amounts: &[i128], [least_toll, greatest_toll]: [i128; 2]) -> Bounds {
    if amounts.len() > 16 || least_toll < 0 || greatest_toll < least_toll {
        return refused(46);
    }
    if amounts.iter().any(|amount| *amount <= 0) {
        return refused(4);
    }
    match (holding_at(held, amounts, greatest_toll), holding_at(held, amounts, least_toll)) {
        (Some(least), Some(greatest)) => done(least, greatest),
        _ => refused(7),
    }
}

#[test]
fn the_example_of_the_page() {
    assert_eq!(bounds(&holding(100), TOKEN, &[10, 5, 1], [2, 6]), done(104, 111));
}

/// Lists, holdings and tolls at both ends of their ranges and between, each with each.
#[test]
fn every_answer_is_as_described() {
    let lists: [&[i128]; 13] = [
        &[],
        &[1],
        &[10, 5, 1],
        &[7; 16],
        &[7; 17],
        &[MOST],
        &[MOST - 1, 1],
        &[MOST, 1],
        &[MOST; 16],
        &[MOST, MOST, 0],
        &[0],
        &[5, -1],
        &[i128::MIN],
    ];
    let tolls = [i128::MIN, -1, 0, 1, 2, 6, 7, 1 << 64, MOST - 1, MOST];
    let mut numbers = Vec::new();
    for held in [0, 1, 100, MOST - 9, MOST - 1, MOST] {
        let image = holding(held);
        for amounts in lists {
            for tolls in tolls.iter().flat_map(|least| tolls.map(|greatest| [*least, greatest])) {
                let expected = described(held, amounts, tolls);
                assert_eq!(bounds(&image, TOKEN, amounts, tolls), expected, "{held} {amounts:?} {tolls:?}");
                numbers.push(expected.number);
            }
        }
    }
    for number in [0, 46, 4, 7] {
        assert!(numbers.contains(&number), "{number}");
    }
}

#[test]
fn of_one_toll() {
    for toll in [0, 1, 4, 5, 6, 100, MOST] {
        let found = bounds(&holding(100), TOKEN, &[5, 6], [toll, toll]);
        assert_eq!((found.number, found.least), (0, found.greatest));
        assert_eq!(found.least, 100 + (5 - toll).max(0) + (6 - toll).max(0));
    }
}

#[test]
fn of_no_amount() {
    for held in [0, 1, 100, MOST] {
        for tolls in [[0, 0], [0, MOST], [2, 6], [MOST, MOST]] {
            assert_eq!(bounds(&holding(held), TOKEN, &[], tolls), done(held, held));
        }
    }
}

/// With nothing held, sixteen amounts bring sixteen times what one brings.
#[test]
fn of_sixteen_amounts_and_one_more() {
    let most = MOST / 16;
    for (amount, tolls) in [(1, [0, 1]), (10, [2, 6]), (most, [0, 0]), (most, [1, MOST]), (most + 2, [2, 3])] {
        let of_one = bounds(&holding(0), TOKEN, &[amount], tolls);
        assert_eq!(of_one.number, 0);
        assert_eq!(bounds(&holding(0), TOKEN, &[amount; 16], tolls), done(16 * of_one.least, 16 * of_one.greatest));
        assert_eq!(bounds(&holding(0), TOKEN, &[amount; 17], tolls), refused(46));
    }
    assert_eq!(bounds(&holding(0), TOKEN, &[most + 1; 16], [0, 1]), refused(7));
    for count in [18, 32, 256, 4_097] {
        assert_eq!(bounds(&holding(0), TOKEN, &vec![1; count], [0, 0]), refused(46));
    }
}

#[test]
fn lengths_of_the_list() {
    let image = holding(100).into_bytes();
    for length in [1, 15, 17, 255, 257, 272] {
        assert_eq!(bounds_of_bytes(&image, TOKEN, &vec![1; length], [2, 6]), refused(46), "{length}");
    }
    for length in [0, 16, 32, 240, 256] {
        assert_eq!(bounds_of_bytes(&image, TOKEN, &vec![1; length], [2, 6]).number, 0, "{length}");
    }
}

#[test]
fn tolls_that_are_not_allowed() {
    let image = holding(100);
    for tolls in [[-1, 6], [i128::MIN, MOST], [-6, -2], [-2, -6], [-1, -1], [0, -1], [6, 2], [1, 0], [MOST, MOST - 1], [1 << 64, 1]] {
        assert_eq!(bounds(&image, TOKEN, &[10, 5, 1], tolls), refused(46), "{tolls:?}");
        assert_eq!(bounds(&image, TOKEN, &[], tolls), refused(46), "{tolls:?}");
    }
}

/// The first and the last token move, one of those between is frozen, and no other is there.
fn three_tokens() -> Image {
    let mut image = holding(100);
    for (token, held) in [(FROZEN_TOKEN, 50), (LAST_TOKEN, 7)] {
        image.add_token(token, 0).unwrap();
        image.set_holding(token, VAULT_ADDRESS, held).unwrap();
    }
    image.call(&Record::freeze(FROZEN_TOKEN, true)).unwrap();
    image
}

#[test]
fn every_token() {
    let mut image = three_tokens();
    for token in 0..=255 {
        let expected = match token {
            TOKEN => described(100, &[10, 5, 1], [2, 6]),
            LAST_TOKEN => described(7, &[10, 5, 1], [2, 6]),
            _ => refused(46),
        };
        assert_eq!(bounds(&image, token, &[10, 5, 1], [2, 6]), expected, "{token}");
    }
    image.call(&Record::freeze(FROZEN_TOKEN, false)).unwrap();
    assert_eq!(bounds(&image, FROZEN_TOKEN, &[10, 5, 1], [2, 6]), described(50, &[10, 5, 1], [2, 6]));
}

#[test]
fn an_amount_that_is_not_above_0() {
    let image = holding(100);
    for wrong in [0, -1, -10, i128::MIN] {
        for amounts in [&[wrong][..], &[wrong, 10], &[10, wrong], &[10, 5, wrong]] {
            assert_eq!(bounds(&image, TOKEN, amounts, [2, 6]), refused(4), "{amounts:?}");
        }
        for place in 0..16 {
            let mut amounts = [10; 16];
            amounts[place] = wrong;
            assert_eq!(bounds(&image, TOKEN, &amounts, [2, 6]), refused(4), "{amounts:?}");
        }
    }
}

#[test]
fn images_that_are_not_good() {
    let mut damaged = holding(100).into_bytes();
    damaged[95] = 1;
    let mut below_0 = holding(100);
    below_0.set_holding(TOKEN, VAULT_ADDRESS, -1).unwrap();
    for image in [Vec::new(), vec![0; 1], vec![0; IMAGE_LENGTH - 1], vec![0; IMAGE_LENGTH + 1], damaged, below_0.into_bytes()] {
        assert_eq!(bounds(&Image::from_bytes(image.clone()), TOKEN, &[10, 5, 1], [2, 6]), refused(30));
        // 30 comes before 46, 4 and 7.
        for token in [TOKEN, 0, 255] {
            for amounts in [&[1; 17][..], &bytes(&[0]), &bytes(&[MOST, MOST])] {
                assert_eq!(bounds_of_bytes(&image, token, amounts, [6, -2]), refused(30));
                assert_eq!(bounds_of_bytes(&image, token, amounts, [0, 0]), refused(30));
            }
        }
    }
}

/// Each list would be refused with 4 or with 7, and each cause of 46 comes before.
#[test]
fn of_several_refusals_46_comes_first() {
    let image = three_tokens();
    for amounts in [&[0][..], &[-1; 16], &[MOST; 16]] {
        for token in [0, 47, 49, FROZEN_TOKEN, 64, 255] {
            assert_eq!(bounds(&image, token, amounts, [0, 0]), refused(46));
        }
        for tolls in [[-1, 6], [6, 2]] {
            assert_eq!(bounds(&image, TOKEN, amounts, tolls), refused(46));
        }
        let too_many = [amounts, &[MOST; 17]].concat();
        assert_eq!(bounds(&image, TOKEN, &too_many, [0, 0]), refused(46));
        let cut_short = &bytes(amounts)[1..];
        assert_eq!(bounds_of_bytes(image.as_bytes(), TOKEN, cut_short, [0, 0]), refused(46));
    }
}

/// The sum passes at the second amount already.
#[test]
fn of_4_and_7_4_comes_first() {
    assert_eq!(bounds(&holding(0), TOKEN, &[MOST, MOST], [0, 0]), refused(7));
    for third in [0, -1, i128::MIN] {
        assert_eq!(bounds(&holding(0), TOKEN, &[MOST, MOST, third], [0, 0]), refused(4));
        assert_eq!(bounds(&holding(MOST), TOKEN, &[1, 1, third], [0, 0]), refused(4));
    }
}

/// Nothing can be added; what the least toll takes whole adds nothing.
#[test]
fn where_the_vault_holds_the_greatest_number() {
    let image = holding(MOST);
    assert_eq!(bounds(&image, TOKEN, &[], [0, 9]), done(MOST, MOST));
    for amount in [1, 4, 5] {
        assert_eq!(bounds(&image, TOKEN, &[amount; 16], [5, 9]), done(MOST, MOST));
    }
    assert_eq!(bounds(&image, TOKEN, &[6], [5, 9]), refused(7));
    assert_eq!(bounds(&image, TOKEN, &[5, 5, 6], [5, 5]), refused(7));
    assert_eq!(bounds(&image, TOKEN, &[MOST], [MOST, MOST]), done(MOST, MOST));
    assert_eq!(bounds(&image, TOKEN, &[MOST], [MOST - 1, MOST]), refused(7));
}

#[test]
fn a_sum_of_the_greatest_number_and_one_past_it() {
    for held in [0, 1, 100, MOST - 2] {
        let room = MOST - held;
        let image = holding(held);
        assert_eq!(bounds(&image, TOKEN, &[room], [0, 0]), done(MOST, MOST));
        assert_eq!(bounds(&image, TOKEN, &[room - 1, 1], [0, 1]), done(held + (room - 2).max(0), MOST));
        assert_eq!(bounds(&image, TOKEN, &[room - 1, 2], [0, 0]), refused(7));
        assert_eq!(bounds(&image, TOKEN, &[1, room], [0, 1]), refused(7));
        if held > 0 {
            assert_eq!(bounds(&image, TOKEN, &[room + 1], [1, 1]), done(MOST, MOST));
            assert_eq!(bounds(&image, TOKEN, &[room + 1], [0, 1]), refused(7));
        }
    }
}

/// The same list passes 2^127 - 1 at no toll, at the least alone, or at both.
#[test]
fn a_sum_that_passes_at_some_tolls() {
    let (image, amounts) = (holding(MOST - 10), [8, 8]);
    assert_eq!(bounds(&image, TOKEN, &amounts, [3, 6]), done(MOST - 6, MOST));
    assert_eq!(bounds(&image, TOKEN, &amounts, [2, 6]), refused(7));
    assert_eq!(bounds(&image, TOKEN, &amounts, [1, 2]), refused(7));
}

#[test]
fn tolls_at_the_greatest_number() {
    for held in [0, 100, MOST] {
        let image = holding(held);
        for amounts in [&[][..], &[1], &[MOST], &[MOST; 16]] {
            assert_eq!(bounds(&image, TOKEN, amounts, [MOST, MOST]), done(held, held));
        }
    }
    assert_eq!(bounds(&holding(100), TOKEN, &[MOST, 9], [MOST - 1, MOST]), done(100, 101));
    assert_eq!(bounds(&holding(100), TOKEN, &[10, 5, 1], [0, MOST]), done(100, 116));
    assert_eq!(bounds(&holding(0), TOKEN, &[MOST], [0, MOST]), done(0, MOST));
}

#[test]
fn the_toll_in_the_image_plays_no_part() {
    for amounts in [&[][..], &[10, 5, 1], &[MOST, MOST], &[0]] {
        let expected = described(100, amounts, [2, 6]);
        for toll in [0, 1, 2, 4, 6, 7, MOST] {
            let mut image = holding(100);
            image.add_token(TOKEN, toll).unwrap();
            assert_eq!(bounds(&image, TOKEN, amounts, [2, 6]), expected, "{toll}");
        }
    }
}

/// The vault holds 100 of its default token, and of another, with a toll, nothing.
#[test]
fn of_a_vault_that_is_initialised_or_paused() {
    for image in [vault(), paused_vault()] {
        assert_eq!(bounds(&image, TOKEN, &[10, 5, 1], [2, 6]), done(104, 111));
        assert_eq!(bounds(&image, TOLL_TOKEN, &[10, 5, 1], [2, 6]), done(4, 11));
    }
}

/// What is only read may be lent twice: one toll as both, and bytes of the image as tolls and amounts.
#[test]
fn of_bytes_lent_twice() {
    let vault = vault();
    let image = vault.as_bytes();
    let number_at = |place| image[place..].first_chunk::<16>().unwrap();
    let toll = number_at(at::TOKENS + at::TOKEN_STRIDE * usize::from(TOLL_TOKEN - TOKEN) + at::TOKEN_TOLL);
    // What the vault and behind it the owner hold: 100 and 2,000.
    let held = at::HOLDINGS + at::ACCOUNT_STRIDE * usize::from(VAULT_ADDRESS);
    let amounts = &image[held..][..2 * at::ACCOUNT_STRIDE];
    for (greatest_toll, least_holding) in [(toll, 100 + 98 + 1_998), (number_at(held), 100 + 1_900)] {
        let (mut least, mut greatest) = ([0xff; 16], [0xff; 16]);
        assert_eq!(exports::toll_bounds(image, TOKEN, amounts, toll, greatest_toll, &mut least, &mut greatest), 0);
        assert_eq!([least, greatest].map(i128::from_le_bytes), [least_holding, 100 + 98 + 1_998]);
    }
}

/// Moves each amount from an address of its own to the vault; what the vault then holds.
fn moved(held: i128, toll: i128, amounts: &[i128]) -> Result<i128, Refusal> {
    let senders = [0, OWNER, 63].into_iter().chain(3..);
    let mut image = Image::new();
    image.add_token(TOKEN, toll).unwrap();
    image.set_holding(TOKEN, VAULT_ADDRESS, held).unwrap();
    for (sender, amount) in senders.zip(amounts) {
        image.set_holding(TOKEN, sender, *amount).unwrap();
        image.call(&Record::outside_move(TOKEN, sender, VAULT_ADDRESS, *amount))?;
    }
    Ok(image.view().unwrap().holding(TOKEN, VAULT_ADDRESS))
}

/// Lists with what the vault holds before.
const LISTS: [(i128, &[i128]); 8] = [
    (100, &[10, 5, 1]),
    (0, &[]),
    (0, &[1, 2, 3, 4, 5, 6, 7, 8, 9, 10, 11, 12, 13, 14, 15, 16]),
    (MOST, &[1, 2, 3, 4]),
    (MOST - 20, &[8, 7, 6, 5]),
    (7, &[MOST]),
    (0, &[MOST - 30, 9, 11]),
    (1, &[1 << 64, 1 << 126, 1]),
];

/// At each toll the token leaves the vault the holding at that toll, between the two bounds, each of which is met.
#[test]
fn what_the_token_itself_leaves() {
    const TOLLS: [i128; 2] = [7, 16];
    for (held, amounts) in LISTS {
        let between = bounds(&holding(held), TOKEN, amounts, TOLLS);
        assert_eq!(between.number, 0, "{held} {amounts:?}");
        let mut left = Vec::new();
        for toll in TOLLS[0]..=TOLLS[1] {
            let after = moved(held, toll, amounts).unwrap();
            assert_eq!(bounds(&holding(held), TOKEN, amounts, [toll, toll]), done(after, after), "{held} {amounts:?} {toll}");
            assert!((between.least..=between.greatest).contains(&after), "{held} {amounts:?} {toll}");
            left.push(after);
        }
        assert_eq!((left.last(), left.first()), (Some(&between.least), Some(&between.greatest)), "{held} {amounts:?}");
    }
}

/// One toll alone is refused with 7 exactly where a move into the vault fails.
#[test]
fn where_the_token_itself_fails() {
    let mut failed = 0;
    for (held, amounts) in LISTS {
        for toll in 0..=20 {
            match moved(held, toll, amounts) {
                Ok(after) => assert_eq!(bounds(&holding(held), TOKEN, amounts, [toll, toll]), done(after, after)),
                Err(refusal) => {
                    assert_eq!(refusal, Refusal::TokenCallFailed);
                    assert_eq!(bounds(&holding(held), TOKEN, amounts, [toll, toll]), refused(7));
                    failed += 1;
                }
            }
        }
    }
    assert!(failed > 0);
}

/// The lines of docs/VECTORS.md, "Toll bounds".
#[test]
fn the_stored_lines_pass() {
    let text = include_str!("../../../compare/vectors/toll_bounds.txt");
    let lines: Vec<&str> = text.lines().filter(|line| !line.starts_with('#')).collect();
    for line in &lines {
        let fields: HashMap<&str, &str> = line.split(' ').map(|field| field.split_once('=').unwrap()).collect();
        let number = |name| -> i128 { fields[name].parse().unwrap() };
        let listed = fields["amounts"].split(',').filter(|word| !word.is_empty()).map(|word| word.parse().unwrap());
        let mut amounts = bytes(&listed.collect::<Vec<i128>>());
        amounts.resize(number("amount_bytes") as usize, 0);
        let found = bounds_of_bytes(&line_image(number), number("token") as Address, &amounts, [number("least"), number("greatest")]);
        let [least, greatest] = ["least_holding", "greatest_holding"].map(number);
        assert_eq!(found, Bounds { number: number("answer") as u32, least, greatest }, "{line}");
    }
    assert_eq!(lines.len(), 85);
}

/// The image that a line says.
fn line_image(number: impl Fn(&'static str) -> i128) -> Vec<u8> {
    let token = number("at") as Address;
    let mut image = Image::new();
    image.add_token(token, number("toll")).unwrap();
    image.set_holding(token, VAULT_ADDRESS, number("held")).unwrap();
    let mut bytes = image.into_bytes();
    bytes[at::TOKENS + at::TOKEN_STRIDE * usize::from(token - TOKEN)] = number("kind") as u8;
    bytes.resize(number("image_bytes") as usize, 0);
    bytes
}
