//! One dealing: seats with what they hold for themselves, the board, and the
//! six rounds.

use std::collections::btree_map::{BTreeMap, Entry, VacantEntry};

use crate::field::Element;
use crate::share::{Keeper, Pair, Rows, Share};
use crate::wire::{Body, Line, Mail, Message, Shape};

/// Why something is turned away. The lowest that applies wins.
#[derive(Clone, Copy, Debug, PartialEq, Eq)]
pub enum Refusal {
    NotAMessage = 1,
    OtherTime = 2,
    NotTheirs = 3,
    NoGround = 4,
}

impl Refusal {
    pub fn number(self) -> u8 {
        self as u8
    }

    /// Refuses if `applies`.
    fn when(self, applies: bool) -> Result<(), Refusal> {
        if applies {
            Err(self)
        } else {
            Ok(())
        }
    }
}

#[derive(Clone, Copy, Debug, PartialEq, Eq, PartialOrd, Ord)]
pub enum Round {
    Before = 0,
    Deal = 1,
    Tell = 2,
    Complain = 3,
    Reveal = 4,
    Judge = 5,
    Decided = 6,
}

impl Round {
    pub fn number(self) -> u8 {
        self as u8
    }

    pub fn next(self) -> Option<Round> {
        match self {
            Round::Before => Some(Round::Deal),
            Round::Deal => Some(Round::Tell),
            Round::Tell => Some(Round::Complain),
            Round::Complain => Some(Round::Reveal),
            Round::Reveal => Some(Round::Judge),
            Round::Judge => Some(Round::Decided),
            Round::Decided => None,
        }
    }

    /// The round in which a message may come, if it may come in a dealing.
    fn of(body: &Body) -> Option<Round> {
        match body {
            Body::Mail(Mail::Share(_)) => Some(Round::Deal),
            Body::Mail(Mail::Told(_)) => Some(Round::Tell),
            Body::Line(Line::Complaint { .. }) => Some(Round::Complain),
            Body::Line(Line::Reveal { .. }) => Some(Round::Reveal),
            Body::Line(Line::Fine { .. }) => Some(Round::Judge),
            Body::Line(Line::Finished { .. }) | Body::Mail(Mail::Value { .. }) => None,
        }
    }
}

/// What all keepers know of a dealing.
#[derive(Clone, Copy, Debug)]
pub struct Terms {
    pub f: u8,
    pub night: u32,
    pub dealer: Keeper,
    pub high: usize,
    pub low: usize,
}

impl Terms {
    pub fn keepers(&self) -> u8 {
        self.f * 3 + 1
    }

    fn others(&self, own: Keeper) -> impl Iterator<Item = Keeper> {
        (0..self.keepers()).filter(move |&keeper| keeper != own)
    }

    fn shape(&self) -> Shape {
        Shape {
            keepers: self.keepers(),
            high: self.high,
            low: self.low,
        }
    }

    fn message(&self, body: Body) -> Vec<u8> {
        Message {
            night: self.night,
            dealer: self.dealer,
            body,
        }
        .encode()
    }

    fn mail(&self, mail: Mail) -> Vec<u8> {
        self.message(Body::Mail(mail))
    }

    fn line(&self, line: Line) -> Vec<u8> {
        self.message(Body::Line(line))
    }

    /// Refusal 1, as far as it doesn't depend on how the message came.
    fn read(&self, from: Keeper, bytes: &[u8]) -> Result<Message, Refusal> {
        Refusal::NotAMessage.when(from >= self.keepers())?;
        Message::decode(bytes, &self.shape()).ok_or(Refusal::NotAMessage)
    }

    /// Refusal 2, and of refusal 3 the dealer.
    fn check(&self, message: &Message, round: Round) -> Result<(), Refusal> {
        let in_time = message.night == self.night && Round::of(&message.body) == Some(round);
        Refusal::OtherTime.when(!in_time)?;
        Refusal::NotTheirs.when(message.dealer != self.dealer)
    }
}

/// The lines that were taken; all keepers see the same.
#[derive(Clone, Debug, Default)]
pub struct Board {
    /// By whom, about whom.
    pub complaints: BTreeMap<(Keeper, Keeper), Pair>,
    pub reveals: BTreeMap<Keeper, Share>,
    pub fines: BTreeMap<Keeper, bool>,
}

impl Board {
    fn take(
        &mut self,
        terms: &Terms,
        round: Round,
        from: Keeper,
        bytes: &[u8],
    ) -> Result<(), Refusal> {
        let message = terms.read(from, bytes)?;
        Refusal::NotAMessage.when(matches!(message.body, Body::Mail(_)))?;
        terms.check(&message, round)?;
        match message.body {
            Body::Line(Line::Complaint { by, about, pair }) => {
                Refusal::NotTheirs.when(by != from)?;
                let place = vacant(self.complaints.entry((by, about)))?;
                Refusal::NoGround.when(by == about)?;
                place.insert(pair);
            }
            Body::Line(Line::Reveal { keeper, share }) => {
                Refusal::NotTheirs.when(from != terms.dealer)?;
                let complained = self.complaints.keys().any(|&(by, _)| by == keeper);
                let place = vacant(self.reveals.entry(keeper))?;
                Refusal::NoGround.when(!complained)?;
                place.insert(share);
            }
            Body::Line(Line::Fine { keeper, fine }) => {
                Refusal::NotTheirs.when(keeper != from)?;
                vacant(self.fines.entry(keeper))?.insert(fine);
            }
            Body::Line(Line::Finished { .. }) | Body::Mail(_) => return Err(Refusal::OtherTime),
        }
        Ok(())
    }

    /// Whether there are two complaints that clash, neither by a keeper that
    /// is revealed.
    fn has_open_clash(&self) -> bool {
        let revealed = |keeper: &Keeper| self.reveals.contains_key(keeper);
        self.complaints.iter().any(|((by, about), pair)| {
            let clash = self
                .complaints
                .get(&(*about, *by))
                .is_some_and(|answer| !pair.fits(answer));
            clash && !revealed(by) && !revealed(about)
        })
    }

    /// How many have said that they are fine.
    pub fn fine(&self) -> usize {
        self.fines.values().filter(|&&fine| fine).count()
    }

    pub fn accepts(&self, f: u8) -> bool {
        self.fine() > 2 * usize::from(f)
    }
}

/// The place of something that wasn't said yet.
fn vacant<K: Ord, V>(entry: Entry<K, V>) -> Result<VacantEntry<K, V>, Refusal> {
    match entry {
        Entry::Vacant(place) => Ok(place),
        Entry::Occupied(_) => Err(Refusal::NotTheirs),
    }
}

/// What a seat says in a round.
#[derive(Clone, Debug, Default)]
pub struct Words {
    pub mail: BTreeMap<Keeper, Vec<u8>>,
    pub lines: Vec<Vec<u8>>,
}

/// One keeper, with what it holds for itself.
#[derive(Clone, Debug)]
struct Seat {
    keeper: Keeper,
    /// The polynomial, if this is the dealer.
    deals: Option<Rows>,
    /// The share that came, or the dealer's own.
    share: Option<Share>,
    told: BTreeMap<Keeper, Pair>,
    words: Words,
    kept: Option<Element>,
}

impl Seat {
    fn new(keeper: Keeper, deals: Option<Rows>) -> Seat {
        Seat {
            keeper,
            deals,
            share: None,
            told: BTreeMap::new(),
            words: Words::default(),
            kept: None,
        }
    }

    fn take(
        &mut self,
        terms: &Terms,
        round: Round,
        from: Keeper,
        bytes: &[u8],
    ) -> Result<(), Refusal> {
        let message = terms.read(from, bytes)?;
        Refusal::NotAMessage.when(matches!(message.body, Body::Line(_)))?;
        terms.check(&message, round)?;
        Refusal::NotTheirs.when(from == self.keeper)?;
        match message.body {
            Body::Mail(Mail::Share(share)) => {
                Refusal::NotTheirs.when(from != terms.dealer || self.share.is_some())?;
                self.share = Some(share);
            }
            Body::Mail(Mail::Told(pair)) => {
                vacant(self.told.entry(from))?.insert(pair);
            }
            Body::Mail(Mail::Value { .. }) | Body::Line(_) => return Err(Refusal::OtherTime),
        }
        Ok(())
    }

    /// What it got, if that is a share at all, else zeros.
    fn held(&self, terms: &Terms) -> Share {
        self.share
            .clone()
            .filter(|share| share.agrees_with_itself(self.keeper))
            .unwrap_or_else(|| Share::zeros(terms.high, terms.low))
    }

    /// What it goes on with.
    fn current(&self, terms: &Terms, board: &Board) -> Share {
        let revealed = board.reveals.get(&self.keeper).cloned();
        revealed.unwrap_or_else(|| self.held(terms))
    }

    /// A round is called: settles what the seat says in it.
    fn call(&mut self, terms: &Terms, round: Round, board: &Board) {
        self.words = Words::default();
        match round {
            Round::Before => {}
            Round::Deal => {
                self.words.mail = self.deal(terms);
                self.share = self.deals.as_ref().map(|rows| rows.share(self.keeper));
            }
            Round::Tell => self.words.mail = self.tell(terms),
            Round::Complain => self.words.lines = self.complain(terms),
            Round::Reveal => self.words.lines = self.reveal(terms, board),
            Round::Judge => {
                let fine = self.is_fine(terms, board);
                self.words.lines = vec![terms.line(Line::Fine {
                    keeper: self.keeper,
                    fine,
                })];
            }
            Round::Decided => self.decide(terms, board),
        }
    }

    fn deal(&self, terms: &Terms) -> BTreeMap<Keeper, Vec<u8>> {
        self.deals
            .iter()
            .flat_map(|rows| {
                terms
                    .others(self.keeper)
                    .map(|to| (to, terms.mail(Mail::Share(rows.share(to)))))
            })
            .collect()
    }

    fn tell(&self, terms: &Terms) -> BTreeMap<Keeper, Vec<u8>> {
        let own = self.held(terms);
        terms
            .others(self.keeper)
            .map(|to| (to, terms.mail(Mail::Told(own.at(to)))))
            .collect()
    }

    fn complain(&self, terms: &Terms) -> Vec<Vec<u8>> {
        let own = self.held(terms);
        let by = self.keeper;
        terms
            .others(by)
            .map(|about| (about, own.at(about)))
            .filter(|(about, pair)| !self.told.get(about).is_some_and(|told| told.fits(pair)))
            .map(|(about, pair)| terms.line(Line::Complaint { by, about, pair }))
            .collect()
    }

    fn reveal(&self, terms: &Terms, board: &Board) -> Vec<Vec<u8>> {
        let Some(rows) = &self.deals else {
            return Vec::new();
        };
        (0..terms.keepers())
            .map(|keeper| (keeper, rows.share(keeper)))
            .filter(|(keeper, share)| {
                board
                    .complaints
                    .iter()
                    .any(|(&(by, about), pair)| by == *keeper && *pair != share.at(about))
            })
            .map(|(keeper, share)| terms.line(Line::Reveal { keeper, share }))
            .collect()
    }

    fn is_fine(&self, terms: &Terms, board: &Board) -> bool {
        let own = self.held(terms);
        !board.reveals.contains_key(&self.keeper)
            && board
                .reveals
                .iter()
                .all(|(&other, share)| own.agrees(self.keeper, other, share))
            && !board.has_open_clash()
    }

    /// Keeps the value of an accepted dealing, and forgets all else.
    fn decide(&mut self, terms: &Terms, board: &Board) {
        let value = self.current(terms, board).value();
        *self = Seat::new(self.keeper, None);
        self.kept = board.accepts(terms.f).then_some(value);
    }
}

/// What a keeper has at some time of a dealing.
pub enum Holding {
    Share(Share),
    Kept(Option<Element>),
}

/// A dealing, with all its seats.
#[derive(Clone, Debug)]
pub struct Dealing {
    terms: Terms,
    rows: Rows,
    round: Round,
    seats: Vec<Seat>,
    board: Board,
}

impl Dealing {
    pub fn new(f: u8, night: u32, dealer: Keeper, rows: Rows) -> Dealing {
        let terms = Terms {
            f,
            night,
            dealer,
            high: rows.high(),
            low: rows.low(),
        };
        let seats = (0..terms.keepers())
            .map(|keeper| Seat::new(keeper, (keeper == dealer).then(|| rows.clone())))
            .collect();
        Dealing {
            terms,
            rows,
            round: Round::Before,
            seats,
            board: Board::default(),
        }
    }

    pub fn terms(&self) -> &Terms {
        &self.terms
    }

    pub fn rows(&self) -> &Rows {
        &self.rows
    }

    pub fn round(&self) -> Round {
        self.round
    }

    pub fn board(&self) -> &Board {
        &self.board
    }

    /// Calls a round; nothing is said yet.
    pub fn call(&mut self, round: Round) {
        self.round = round;
        for seat in &mut self.seats {
            seat.call(&self.terms, round, &self.board);
        }
    }

    /// What a keeper's seat says in this round.
    pub fn words(&self, keeper: Keeper) -> Words {
        self.seat(keeper)
            .map(|seat| seat.words.clone())
            .unwrap_or_default()
    }

    pub fn send(&mut self, from: Keeper, to: Keeper, bytes: &[u8]) -> Result<(), Refusal> {
        match self.seats.get_mut(usize::from(to)) {
            Some(seat) => seat.take(&self.terms, self.round, from, bytes),
            None => Err(Refusal::NotAMessage),
        }
    }

    pub fn post(&mut self, from: Keeper, bytes: &[u8]) -> Result<(), Refusal> {
        self.board.take(&self.terms, self.round, from, bytes)
    }

    /// What a keeper has now; before the first round what it is to get.
    pub fn holding(&self, keeper: Keeper) -> Option<Holding> {
        let seat = self.seat(keeper)?;
        Some(match self.round {
            Round::Before => Holding::Share(self.rows.share(keeper)),
            Round::Decided => Holding::Kept(seat.kept),
            _ => Holding::Share(seat.current(&self.terms, &self.board)),
        })
    }

    fn seat(&self, keeper: Keeper) -> Option<&Seat> {
        self.seats.get(usize::from(keeper))
    }
}
