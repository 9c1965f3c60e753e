//! Lines of a script: from bytes to what they ask for, or what was expected.

use std::fmt;

use crate::field::{Element, P};
use crate::share::{Pair, Rows, Share};
use crate::wire::{Body, Line as BoardLine, Mail, Message};

/// What a line asks for. Keepers are any numbers yet.
#[derive(Clone, Debug)]
pub enum Line {
    F(u8),
    Liar(Vec<Number>),
    Deal {
        dealer: Number,
        rows: Rows,
    },
    Round,
    Say {
        from: Number,
        to: Number,
    },
    Post {
        from: Number,
    },
    Send {
        from: Number,
        to: Number,
        message: Draft,
    },
    Board {
        from: Number,
        message: Draft,
    },
    Show,
}

/// A number as written; one past the largest counts as the largest.
pub type Number = u128;

/// A message as a script writes it.
#[derive(Clone, Debug)]
pub enum Draft {
    Bytes(Vec<u8>),
    Words {
        night: u32,
        dealer: Option<u8>,
        body: Body<u64>,
    },
}

impl Draft {
    pub fn bytes(self, dealer_of_dealing: u8) -> Vec<u8> {
        match self {
            Draft::Bytes(bytes) => bytes,
            Draft::Words {
                night,
                dealer,
                body,
            } => {
                let dealer = dealer.unwrap_or(dealer_of_dealing);
                Message {
                    night,
                    dealer,
                    body,
                }
                .encode()
            }
        }
    }
}

/// Why a line can't be used.
#[derive(Clone, Copy, Debug, PartialEq, Eq)]
pub enum Expected {
    Utf8,
    FirstWord,
    FaultsAllowed,
    Digits,
    Keeper,
    Colon,
    Dealer,
    NumberInRow,
    BelowP,
    EvenRows,
    Message,
    Number,
    Fitting,
    Slash,
    AtMostTwelve,
    YesOrNo,
    Hex,
    NoMoreWords,
    FBefore,
    KeeperUpTo(u8),
    FewerRows,
    ShorterRows,
    LiarsBefore,
    DealingBefore,
    Liar,
    Undecided,
}

impl fmt::Display for Expected {
    fn fmt(&self, out: &mut fmt::Formatter) -> fmt::Result {
        out.write_str(match self {
            Expected::Utf8 => "text in UTF-8",
            Expected::FirstWord => "f, liar, deal, round, say, post, send, board or show",
            Expected::FaultsAllowed => "0, 1 or 2 after f",
            Expected::Digits => "a number in digits",
            Expected::Keeper => "a keeper",
            Expected::Colon => "a colon after the keeper",
            Expected::Dealer => "the number of a keeper after deal",
            Expected::NumberInRow => "a number in each row",
            Expected::BelowP => return write!(out, "a number below {P}"),
            Expected::EvenRows => "as many numbers in each row",
            Expected::Message => "a message",
            Expected::Number => "a number",
            Expected::Fitting => "a number that fits",
            Expected::Slash => "a slash between across and down",
            Expected::AtMostTwelve => "at most 12 numbers",
            Expected::YesOrNo => "yes or no",
            Expected::Hex => "an even number of hexadecimal digits",
            Expected::NoMoreWords => "no more words",
            Expected::FBefore => "f before this",
            Expected::KeeperUpTo(last) => return write!(out, "a keeper from 0 to {last}"),
            Expected::FewerRows => "at most f + 1 rows",
            Expected::ShorterRows => "at most f + 1 numbers in a row",
            Expected::LiarsBefore => "liars before the dealing",
            Expected::DealingBefore => "a dealing before this",
            Expected::Liar => "a liar",
            Expected::Undecided => "a dealing that isn't decided",
        })
    }
}

type Parsed<T> = Result<T, Expected>;

/// Reads a line, without its end. `None` if there is nothing on it.
pub fn parse(line: &[u8]) -> Parsed<Option<Line>> {
    let text = std::str::from_utf8(line).map_err(|_| Expected::Utf8)?;
    let text = text.split('#').next().unwrap_or_default();
    let mut words = Words::new(text);
    let Some(first) = words.next() else {
        return Ok(None);
    };
    let line = match first {
        "f" => Line::F(words.faults()?),
        "liar" => Line::Liar(words.keepers()?),
        "deal" => Line::Deal {
            dealer: words.dealer()?,
            rows: words.rows()?,
        },
        "round" => Line::Round,
        "say" => Line::Say {
            from: words.keeper()?,
            to: words.keeper()?,
        },
        "post" => Line::Post {
            from: words.keeper()?,
        },
        "send" => Line::Send {
            from: words.keeper()?,
            to: words.keeper()?,
            message: words.message()?,
        },
        "board" => Line::Board {
            from: words.keeper()?,
            message: words.message()?,
        },
        "show" => Line::Show,
        _ => return Err(Expected::FirstWord),
    };
    match words.next() {
        None => Ok(Some(line)),
        Some(_) => Err(Expected::NoMoreWords),
    }
}

/// Numbers on each side of a slash.
const SIDE: usize = 12;

/// The words of a line, taken from left to right.
struct Words<'a> {
    rest: &'a str,
}

impl<'a> Words<'a> {
    fn new(text: &'a str) -> Words<'a> {
        Words {
            rest: text.trim_start_matches(is_blank),
        }
    }

    fn next(&mut self) -> Option<&'a str> {
        if self.rest.is_empty() {
            return None;
        }
        let end = self.rest.find(is_blank).unwrap_or(self.rest.len());
        let (word, rest) = self.rest.split_at(end);
        self.rest = rest.trim_start_matches(is_blank);
        Some(word)
    }

    /// The next word, if it is this one.
    fn skip(&mut self, word: &str) -> bool {
        let mut ahead = Words { rest: self.rest };
        let found = ahead.next() == Some(word);
        if found {
            self.rest = ahead.rest;
        }
        found
    }

    fn faults(&mut self) -> Parsed<u8> {
        let number = digits(self.next().ok_or(Expected::FaultsAllowed)?)?;
        u8::try_from(number)
            .ok()
            .filter(|&f| f <= 2)
            .ok_or(Expected::FaultsAllowed)
    }

    fn keeper(&mut self) -> Parsed<Number> {
        digits(self.next().ok_or(Expected::Keeper)?)
    }

    fn keepers(&mut self) -> Parsed<Vec<Number>> {
        let mut keepers = vec![self.keeper()?];
        while let Some(word) = self.next() {
            keepers.push(digits(word)?);
        }
        Ok(keepers)
    }

    /// The dealer and the colon, which may stand by itself.
    fn dealer(&mut self) -> Parsed<Number> {
        let word = self.next().ok_or(Expected::Keeper)?;
        if word == ":" {
            return Err(Expected::Dealer);
        }
        if let Some(keeper) = word.strip_suffix(':') {
            return digits(keeper);
        }
        let keeper = digits(word)?;
        if self.skip(":") {
            Ok(keeper)
        } else {
            Err(Expected::Colon)
        }
    }

    fn rows(&mut self) -> Parsed<Rows> {
        let mut rows: Vec<Vec<Element>> = Vec::new();
        loop {
            let (row, more) = self.row()?;
            if row.is_empty() {
                return Err(Expected::NumberInRow);
            }
            if rows.first().is_some_and(|first| first.len() != row.len()) {
                return Err(Expected::EvenRows);
            }
            rows.push(row);
            if !more {
                return Rows::new(rows).ok_or(Expected::EvenRows);
            }
        }
    }

    /// A row, and whether a slash ended it.
    fn row(&mut self) -> Parsed<(Vec<Element>, bool)> {
        let mut row = Vec::new();
        while let Some(word) = self.next() {
            if word == "/" {
                return Ok((row, true));
            }
            row.push(coefficient(word)?);
        }
        Ok((row, false))
    }

    fn message(&mut self) -> Parsed<Draft> {
        let night = self.prefix("night")?;
        let dealer = self.prefix("dealer")?;
        let bare = night.is_none() && dealer.is_none();
        let body = match self.next().ok_or(Expected::Message)? {
            "share" => Body::Mail(Mail::Share(self.share()?)),
            "told" => Body::Mail(Mail::Told(self.pair()?)),
            "complaint" => Body::Line(BoardLine::Complaint {
                by: self.fitting()?,
                about: self.fitting()?,
                pair: self.pair()?,
            }),
            "reveal" => Body::Line(BoardLine::Reveal {
                keeper: self.fitting()?,
                share: self.share()?,
            }),
            "fine" => Body::Line(BoardLine::Fine {
                keeper: self.fitting()?,
                fine: self.yes_or_no()?,
            }),
            "finished" => Body::Line(BoardLine::Finished {
                keeper: self.fitting()?,
            }),
            "value" => Body::Mail(Mail::Value {
                keeper: self.fitting()?,
                value: self.fitting()?,
            }),
            "hex" if bare => return self.hex().map(Draft::Bytes),
            _ => return Err(Expected::Message),
        };
        Ok(Draft::Words {
            night: night.unwrap_or(0),
            dealer,
            body,
        })
    }

    /// `night N` or `dealer D`, if it comes next.
    fn prefix<T: TryFrom<Number>>(&mut self, name: &str) -> Parsed<Option<T>> {
        if self.skip(name) {
            self.fitting().map(Some)
        } else {
            Ok(None)
        }
    }

    /// A number that fits its place.
    fn fitting<T: TryFrom<Number>>(&mut self) -> Parsed<T> {
        fit(self.next().ok_or(Expected::Number)?)
    }

    fn pair(&mut self) -> Parsed<Pair<u64>> {
        Ok(Pair {
            across: self.fitting()?,
            down: self.fitting()?,
        })
    }

    /// Numbers, a slash, numbers, to the end of the line.
    fn share(&mut self) -> Parsed<Share<u64>> {
        let mut across = Vec::new();
        let mut down = Vec::new();
        let mut slash = false;
        while let Some(word) = self.next() {
            if word == "/" {
                if slash {
                    return Err(Expected::Slash);
                }
                slash = true;
                continue;
            }
            let number = fit(word)?;
            let side = if slash { &mut down } else { &mut across };
            if side.len() == SIDE {
                return Err(Expected::AtMostTwelve);
            }
            side.push(number);
        }
        if slash {
            Ok(Share { across, down })
        } else {
            Err(Expected::Slash)
        }
    }

    fn yes_or_no(&mut self) -> Parsed<bool> {
        match self.next() {
            Some("yes") => Ok(true),
            Some("no") => Ok(false),
            _ => Err(Expected::YesOrNo),
        }
    }

    fn hex(&mut self) -> Parsed<Vec<u8>> {
        self.next().and_then(bytes_of_hex).ok_or(Expected::Hex)
    }
}

fn is_blank(character: char) -> bool {
    character == ' ' || character == '\t'
}

fn digits(word: &str) -> Parsed<Number> {
    if word.is_empty() || !word.bytes().all(|byte| byte.is_ascii_digit()) {
        return Err(Expected::Digits);
    }
    Ok(word.bytes().fold(0, |number: Number, byte| {
        number
            .saturating_mul(10)
            .saturating_add(Number::from(byte - b'0'))
    }))
}

fn fit<T: TryFrom<Number>>(word: &str) -> Parsed<T> {
    T::try_from(digits(word)?).map_err(|_| Expected::Fitting)
}

fn coefficient(word: &str) -> Parsed<Element> {
    u64::try_from(digits(word)?)
        .ok()
        .and_then(Element::new)
        .ok_or(Expected::BelowP)
}

fn bytes_of_hex(word: &str) -> Option<Vec<u8>> {
    let digits: Option<Vec<u8>> = word
        .chars()
        .map(|digit| {
            digit
                .to_digit(16)
                .and_then(|digit| u8::try_from(digit).ok())
        })
        .collect();
    let pairs = digits?;
    let pairs = pairs.chunks(2).map(|pair| match pair {
        [high, low] => Some(high << 4 | low),
        _ => None,
    });
    pairs.collect()
}
