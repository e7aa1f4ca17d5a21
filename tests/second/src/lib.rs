//! Second computation of the payment cryptography, from the published rules.
//!
//! Every value is computed bit by bit or by search, so that the rule can be
//! recognised in the function. `01` in a comment is the paper of exact rules,
//! `02` that of the changes to them, and `000` to `004` are their source
//! documents. A refusal is `Err` with the number that paper 01 gives it; a done
//! value is bytes, with two counts where a text was cleaned.

#![deny(missing_docs)]
#![forbid(unsafe_code)]

pub mod bytes;
pub mod card;
pub mod cleaning;
pub mod coverage;
pub mod des;
pub mod dukpt;
pub mod entries;
pub mod key_entry;
pub mod lines;
pub mod mac;
pub mod message;
pub mod numbers;
pub mod openssl;
pub mod password;
pub mod pin;
pub mod recompute;
pub mod self_test;
mod tables;
mod text_block;
pub mod vip;
