//! Messages as bytes, high byte first.

use crate::field::Element;
use crate::share::{Keeper, Pair, Share};

/// A message. What was read has numbers of type `Element` and names only
/// keepers that there are; what is to be written may have any numbers.
#[derive(Clone, Debug)]
pub struct Message<N = Element> {
    pub night: u32,
    pub dealer: Keeper,
    pub body: Body<N>,
}

#[derive(Clone, Debug)]
pub enum Body<N = Element> {
    Mail(Mail<N>),
    Line(Line<N>),
}

/// What goes to one keeper.
#[derive(Clone, Debug)]
pub enum Mail<N = Element> {
    Share(Share<N>),
    Told(Pair<N>),
    Value { keeper: Keeper, value: N },
}

/// What goes on the board.
#[derive(Clone, Debug)]
pub enum Line<N = Element> {
    Complaint {
        by: Keeper,
        about: Keeper,
        pair: Pair<N>,
    },
    Reveal {
        keeper: Keeper,
        share: Share<N>,
    },
    Fine {
        keeper: Keeper,
        fine: bool,
    },
    Finished {
        keeper: Keeper,
    },
}

/// What a reader has to know: how many keepers there are, and how many
/// coefficients a share has.
#[derive(Clone, Copy, Debug)]
pub struct Shape {
    pub keepers: u8,
    pub high: usize,
    pub low: usize,
}

impl<N> Body<N> {
    fn kind(&self) -> u8 {
        match self {
            Body::Mail(Mail::Share(_)) => 1,
            Body::Mail(Mail::Told(_)) => 2,
            Body::Line(Line::Complaint { .. }) => 3,
            Body::Line(Line::Reveal { .. }) => 4,
            Body::Line(Line::Fine { .. }) => 5,
            Body::Line(Line::Finished { .. }) => 6,
            Body::Mail(Mail::Value { .. }) => 7,
        }
    }

    /// Finished and value messages belong to no dealing.
    fn has_dealer(&self) -> bool {
        !matches!(
            self,
            Body::Line(Line::Finished { .. }) | Body::Mail(Mail::Value { .. })
        )
    }
}

impl<N: Copy + Into<u64>> Message<N> {
    pub fn encode(&self) -> Vec<u8> {
        let mut out = vec![self.body.kind()];
        out.extend(self.night.to_be_bytes());
        out.push(self.dealer);
        match &self.body {
            Body::Mail(Mail::Share(share)) => put_share(&mut out, share),
            Body::Mail(Mail::Told(pair)) => put_pair(&mut out, pair),
            Body::Mail(Mail::Value { keeper, value }) => {
                out.push(*keeper);
                put(&mut out, &[*value]);
            }
            Body::Line(Line::Complaint { by, about, pair }) => {
                out.extend([*by, *about]);
                put_pair(&mut out, pair);
            }
            Body::Line(Line::Reveal { keeper, share }) => {
                out.push(*keeper);
                put_share(&mut out, share);
            }
            Body::Line(Line::Fine { keeper, fine }) => out.extend([*keeper, u8::from(*fine)]),
            Body::Line(Line::Finished { keeper }) => out.push(*keeper),
        }
        out
    }
}

fn put<N: Copy + Into<u64>>(out: &mut Vec<u8>, numbers: &[N]) {
    for &number in numbers {
        let number: u64 = number.into();
        out.extend(number.to_be_bytes());
    }
}

fn put_pair<N: Copy + Into<u64>>(out: &mut Vec<u8>, pair: &Pair<N>) {
    put(out, &[pair.across, pair.down]);
}

fn put_share<N: Copy + Into<u64>>(out: &mut Vec<u8>, share: &Share<N>) {
    put(out, &share.across);
    put(out, &share.down);
}

impl Message {
    /// `None` if the bytes aren't a message.
    pub fn decode(bytes: &[u8], shape: &Shape) -> Option<Message> {
        let mut reader = Reader { rest: bytes, shape };
        let kind = reader.byte()?;
        let night = u32::from_be_bytes(reader.array()?);
        let dealer = reader.keeper()?;
        let body = reader.body(kind)?;
        let ended = reader.rest.is_empty();
        (ended && (body.has_dealer() || dealer == 0)).then_some(Message {
            night,
            dealer,
            body,
        })
    }
}

struct Reader<'a> {
    rest: &'a [u8],
    shape: &'a Shape,
}

impl Reader<'_> {
    fn array<const N: usize>(&mut self) -> Option<[u8; N]> {
        let (array, rest) = self.rest.split_first_chunk::<N>()?;
        self.rest = rest;
        Some(*array)
    }

    fn byte(&mut self) -> Option<u8> {
        self.array().map(|[byte]| byte)
    }

    fn keeper(&mut self) -> Option<Keeper> {
        self.byte().filter(|&keeper| keeper < self.shape.keepers)
    }

    fn number(&mut self) -> Option<Element> {
        self.array().map(u64::from_be_bytes).and_then(Element::new)
    }

    fn numbers(&mut self, count: usize) -> Option<Vec<Element>> {
        (0..count).map(|_| self.number()).collect()
    }

    fn pair(&mut self) -> Option<Pair> {
        Some(Pair {
            across: self.number()?,
            down: self.number()?,
        })
    }

    fn share(&mut self) -> Option<Share> {
        let Shape { high, low, .. } = *self.shape;
        Some(Share {
            across: self.numbers(high)?,
            down: self.numbers(low)?,
        })
    }

    fn fine(&mut self) -> Option<bool> {
        match self.byte()? {
            0 => Some(false),
            1 => Some(true),
            _ => None,
        }
    }

    fn body(&mut self, kind: u8) -> Option<Body> {
        Some(match kind {
            1 => Body::Mail(Mail::Share(self.share()?)),
            2 => Body::Mail(Mail::Told(self.pair()?)),
            3 => Body::Line(Line::Complaint {
                by: self.keeper()?,
                about: self.keeper()?,
                pair: self.pair()?,
            }),
            4 => Body::Line(Line::Reveal {
                keeper: self.keeper()?,
                share: self.share()?,
            }),
            5 => Body::Line(Line::Fine {
                keeper: self.keeper()?,
                fine: self.fine()?,
            }),
            6 => Body::Line(Line::Finished {
                keeper: self.keeper()?,
            }),
            7 => Body::Mail(Mail::Value {
                keeper: self.keeper()?,
                value: self.number()?,
            }),
            _ => return None,
        })
    }
}

#[cfg(test)]
mod tests {
    use super::*;

    const TOLD: [u8; 22] = [
        2, 0, 0, 0, 0, 0, 0, 0, 0, 0, 0, 0, 0, 14, 0, 0, 0, 0, 0, 0, 0, 11,
    ];
    const SHAPE: Shape = Shape {
        keepers: 4,
        high: 2,
        low: 2,
    };

    #[test]
    fn the_example_of_the_protocol() {
        let pair: Pair<u64> = Pair {
            across: 14,
            down: 11,
        };
        let message = Message {
            night: 0,
            dealer: 0,
            body: Body::Mail(Mail::Told(pair)),
        };
        assert_eq!(message.encode(), TOLD);
        let read = Message::decode(&TOLD, &SHAPE).expect("a message");
        assert_eq!(read.encode(), TOLD);
    }

    #[test]
    fn other_lengths_are_no_message() {
        let mut longer = TOLD.to_vec();
        longer.push(0);
        assert!(Message::decode(&longer, &SHAPE).is_none());
        for end in 0..TOLD.len() {
            assert!(Message::decode(&TOLD[..end], &SHAPE).is_none());
        }
    }
}
