//! What the vault will hold where a toll is known only within bounds.
use crate::refusal::result;
use crate::{exports, Address, Image, Refusal};
use std::ops::RangeInclusive;

impl Image {
    /// What the vault, address 1, will hold of a token once these amounts are moved to it at one of these tolls: from the
    /// holding at the greatest toll, which is the least, to the one at the least toll. Of each amount there arrives what is
    /// left after the toll, never below 0. Nothing changes, and the toll that the token has now plays no part.
    ///
    /// It is refused, by the first of these that holds, with
    ///
    /// - [`Refusal::InvalidImage`] where the image is not good,
    /// - [`Refusal::InvalidTollBounds`] where there are more than sixteen amounts, a toll is below 0, the least toll is above
    ///   the greatest, or the token is absent or frozen,
    /// - [`Refusal::InvalidAmount`] where an amount is not above 0,
    /// - [`Refusal::ArithmeticOverflow`] where the holding at the least toll passes 2^127 - 1.
    ///
    /// Panics only where the linked archive answers what this version of the crate does not know.
    ///
    /// ```
    /// use token_vault::{Image, Refusal, VAULT_ADDRESS};
    ///
    /// let mut image = Image::new();
    /// image.add_token(48, 0)?;
    /// image.set_holding(48, VAULT_ADDRESS, 100)?;
    ///
    /// // At a toll of 6 there arrive 4, 0 and 0, and at one of 2 there arrive 8, 3 and 0.
    /// assert_eq!(image.toll_bounds(48, &[10, 5, 1], 2..=6)?, 104..=111);
    ///
    /// // There is no token 49.
    /// assert_eq!(image.toll_bounds(49, &[10, 5, 1], 2..=6), Err(Refusal::InvalidTollBounds));
    /// # Ok::<(), Box<dyn std::error::Error>>(())
    /// ```
    pub fn toll_bounds(&self, token: Address, amounts: &[i128], tolls: RangeInclusive<i128>) -> Result<RangeInclusive<i128>, Refusal> {
        let amounts: Vec<u8> = amounts.iter().flat_map(|amount| amount.to_le_bytes()).collect();
        let [least_toll, greatest_toll] = [tolls.start(), tolls.end()].map(|toll| toll.to_le_bytes());
        let (mut least, mut greatest) = ([0; 16], [0; 16]);
        result(exports::toll_bounds(self.as_bytes(), token, &amounts, &least_toll, &greatest_toll, &mut least, &mut greatest))?;
        Ok(i128::from_le_bytes(least)..=i128::from_le_bytes(greatest))
    }
}
