//! 20 and 21: what can stand by the grammar and is beyond a limit.

use super::grammar::Part;
use super::tokens::Token;
use crate::record::{LOCATIONS, PROCESSORS};
use crate::reply::{self, Reply};

/// The ends of a constant's range, in decimal digits; the lower one is negative.
const LOWEST: &str = "2147483648";
const HIGHEST: &str = "4294967295";

/// The first of the standing tokens that is beyond a limit.
pub fn beyond(tokens: &[Token], standing: &[Part]) -> Option<Reply> {
    let mut locations = Vec::new();
    for (token, &part) in tokens.iter().zip(standing) {
        let number = match part {
            Part::Location if is_ninth(&mut locations, token.bytes) => {
                reply::NO_SUCH_LOCATION_OR_PROCESSOR
            }
            Part::Processor if is_above(token.bytes, &last_processor()) => {
                reply::NO_SUCH_LOCATION_OR_PROCESSOR
            }
            Part::Heading(processor) if processor >= PROCESSORS => {
                reply::NO_SUCH_LOCATION_OR_PROCESSOR
            }
            Part::Constant | Part::RowConstant if out_of_range(token.bytes) => {
                reply::CONSTANT_OUT_OF_RANGE
            }
            _ => continue,
        };
        return Some(Reply::new(number, token.place));
    }
    None
}

/// Notes the location, and says whether there are too many by now.
fn is_ninth<'t>(locations: &mut Vec<&'t [u8]>, location: &'t [u8]) -> bool {
    if !locations.contains(&location) {
        locations.push(location);
    }
    locations.len() > LOCATIONS
}

fn last_processor() -> String {
    (PROCESSORS - 1).to_string()
}

fn out_of_range(constant: &[u8]) -> bool {
    match sign_and_digits(constant) {
        (true, digits) => is_above(digits, LOWEST),
        (false, digits) => is_above(digits, HIGHEST),
    }
}

/// Whether a constant has a minus sign, and its digits.
pub fn sign_and_digits(constant: &[u8]) -> (bool, &[u8]) {
    let signed = constant.strip_prefix(b"$").unwrap_or(constant);
    match signed.strip_prefix(b"-") {
        Some(digits) => (true, digits),
        None => (false, signed),
    }
}

/// Of two decimal numbers without leading zeros the longer one is above, and of two that are
/// equally long the one with the higher first digit that differs.
fn is_above(digits: &[u8], limit: &str) -> bool {
    let zeros = digits.iter().take_while(|&&digit| digit == b'0').count();
    let digits = &digits[zeros..];
    (digits.len(), digits) > (limit.len(), limit.as_bytes())
}

#[cfg(test)]
mod tests {
    use super::*;

    #[test]
    fn digits_are_compared_as_numbers() {
        for number in 0..3000 {
            for limit in [1, 3, 9, 10, 99, 100, 1234, 2000] {
                for written in [format!("{number}"), format!("000{number}")] {
                    let above = is_above(written.as_bytes(), &limit.to_string());
                    assert_eq!(above, number > limit, "{written} and {limit}");
                }
            }
        }
    }

    #[test]
    fn both_ends_of_the_range() {
        for within in [
            "0",
            "-0",
            "-2147483648",
            "$-2147483648",
            "4294967295",
            "$04294967295",
        ] {
            assert!(!out_of_range(within.as_bytes()), "{within}");
        }
        for beyond in [
            "-2147483649",
            "$-02147483649",
            "4294967296",
            "$10000000000000000000000",
        ] {
            assert!(out_of_range(beyond.as_bytes()), "{beyond}");
        }
    }
}
