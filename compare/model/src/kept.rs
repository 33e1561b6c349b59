//! The kept list and the book of docs/FORMATS.md.
use crate::bytes::amount;
use crate::image::{holding_at, toll_at};
use crate::record;
use crate::vault::{Answer, Call};

/// An accepted call in the list, with its answer where it was first made.
pub struct Kept {
    pub call: Call,
    pub answer: Answer,
}

#[derive(Default)]
pub struct KeptList(pub Vec<Kept>);

impl KeptList {
    /// The list after one more call.
    pub fn add(&mut self, call: Call, answer: Answer) {
        if answer.number != 0 {
            return;
        }
        let is_operation = |kept: &Kept| matches!(kept.call, Call::Operation { .. });
        match &call {
            Call::Preview { .. } => return,
            Call::Operation { record, .. } if record::is_view(record[0]) => return,
            Call::Undo => {
                let last = self.0.iter().rposition(is_operation).expect("an operation to undo");
                self.0.remove(last);
                return;
            }
            Call::Rollback => {
                let begin = self.0.iter().rposition(|k| matches!(k.call, Call::Begin)).expect("a begin to roll back to");
                let after = self.0.split_off(begin + 1);
                self.0.extend(after.into_iter().filter(|k| !is_operation(k)));
            }
            _ => {}
        }
        self.0.push(Kept { call, answer });
    }
}

/// What the vault should hold of each token, from the kept operations and their events alone.
pub struct Book {
    pub numbers: [i128; 16],
    /// Of the opening image.
    pub tolls: [i128; 16],
    default_token: usize,
    destination: usize,
}

impl Book {
    pub fn open(image: &[u8]) -> Book {
        Book {
            numbers: std::array::from_fn(|i| amount(image, holding_at(48 + i, 1))),
            tolls: std::array::from_fn(|i| amount(image, toll_at(48 + i))),
            default_token: image[3] as usize,
            destination: image[7] as usize,
        }
    }

    fn add(&mut self, token: usize, moved: i128) {
        self.numbers[token - 48] += (moved - self.tolls[token - 48]).max(0);
    }

    fn take(&mut self, token: usize, moved: i128) {
        self.numbers[token - 48] -= moved;
    }

    /// One kept operation; `events` is the event buffer that the second vault filled for it, `count` how many it wrote.
    pub fn enter(&mut self, r: &[u8], events: &[u8], count: u32) {
        let (token, moved) = (r[2] as usize, amount(r, 32));
        let default_token = self.default_token;
        match r[0] {
            1 => self.default_token = token,
            2 => self.add(default_token, moved),
            3 => self.add(default_token, moved - amount(r, 48)),
            4 => record::items(r).for_each(|(_, a)| self.add(default_token, a)),
            9 => {
                if !(0..count as usize).any(|i| events[56 * i] == 17) {
                    self.add(default_token, moved)
                }
            }
            7 => self.add(token, moved),
            29 if r[3] == 1 => self.add(token, moved),
            5 => self.take(default_token, moved),
            6 => record::items(r).for_each(|(_, a)| self.take(default_token, a)),
            8 => self.take(token, moved),
            21 => self.destination = r[3] as usize,
            22 => {
                let old = std::mem::take(&mut self.numbers[default_token - 48]);
                if self.destination == 1 {
                    self.add(default_token, old)
                }
            }
            _ => {}
        }
    }

    pub fn agrees(&self, image: &[u8]) -> bool {
        (0..16).all(|i| self.numbers[i] == amount(image, holding_at(48 + i, 1)))
    }
}
