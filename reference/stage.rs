//! Plays the lines of a script, and shows what stands.

use std::collections::BTreeSet;
use std::fmt::Write;

use crate::field::Element;
use crate::protocol::{Board, Dealing, Holding, Refusal, Round};
use crate::script::{self, Draft, Expected, Line, Number};
use crate::share::{Keeper, Rows, Share};

const NIGHT: u32 = 0;

/// Where a script is played.
#[derive(Default)]
pub struct Stage {
    table: Option<Table>,
}

/// The keepers, and the dealing if there is one.
struct Table {
    f: u8,
    liars: BTreeSet<Keeper>,
    dealing: Option<Dealing>,
}

impl Stage {
    /// Plays a line, and gives what it prints.
    pub fn line(&mut self, number: usize, line: &[u8]) -> String {
        let played = script::parse(line).and_then(|line| match line {
            Some(line) => self.play(line),
            None => Ok(String::new()),
        });
        played.unwrap_or_else(|expected| format!("line {number}: expected {expected}\n"))
    }

    fn play(&mut self, line: Line) -> Result<String, Expected> {
        if let Line::F(f) = line {
            self.table = Some(Table {
                f,
                liars: BTreeSet::new(),
                dealing: None,
            });
            return Ok(String::new());
        }
        self.table.as_mut().ok_or(Expected::FBefore)?.play(line)
    }
}

impl Table {
    fn play(&mut self, line: Line) -> Result<String, Expected> {
        match line {
            Line::F(_) => Ok(String::new()), // the stage's
            Line::Liar(keepers) => self.lie(&keepers),
            Line::Deal { dealer, rows } => self.deal(dealer, rows),
            Line::Round => self.round(),
            Line::Say { from, to } => self.say(from, to),
            Line::Post { from } => self.post(from),
            Line::Send { from, to, message } => self.send(from, to, message),
            Line::Board { from, message } => self.board(from, message),
            Line::Show => Ok(self.show()),
        }
    }

    fn last(&self) -> Keeper {
        self.f * 3
    }

    fn keeper(&self, number: Number) -> Result<Keeper, Expected> {
        Keeper::try_from(number)
            .ok()
            .filter(|&keeper| keeper <= self.last())
            .ok_or(Expected::KeeperUpTo(self.last()))
    }

    fn dealing(&mut self) -> Result<&mut Dealing, Expected> {
        self.dealing.as_mut().ok_or(Expected::DealingBefore)
    }

    fn must_lie(&self, keeper: Keeper) -> Result<(), Expected> {
        self.liars
            .contains(&keeper)
            .then_some(())
            .ok_or(Expected::Liar)
    }

    fn lie(&mut self, keepers: &[Number]) -> Result<String, Expected> {
        let keepers: Vec<Keeper> = keepers
            .iter()
            .map(|&keeper| self.keeper(keeper))
            .collect::<Result<_, _>>()?;
        if self.dealing.is_some() {
            return Err(Expected::LiarsBefore);
        }
        self.liars.extend(keepers);
        Ok(String::new())
    }

    fn deal(&mut self, dealer: Number, rows: Rows) -> Result<String, Expected> {
        let dealer = self.keeper(dealer)?;
        let most = usize::from(self.f) + 1;
        if rows.high() > most {
            return Err(Expected::FewerRows);
        }
        if rows.low() > most {
            return Err(Expected::ShorterRows);
        }
        self.dealing = Some(Dealing::new(self.f, NIGHT, dealer, rows));
        Ok(String::new())
    }

    /// Calls the next round; keepers that keep the rules speak.
    fn round(&mut self) -> Result<String, Expected> {
        let honest: Vec<Keeper> = (0..=self.last())
            .filter(|keeper| !self.liars.contains(keeper))
            .collect();
        let dealing = self.dealing()?;
        let round = dealing.round().next().ok_or(Expected::Undecided)?;
        dealing.call(round);
        let mut out = String::new();
        for &from in &honest {
            for (to, bytes) in dealing.words(from).mail {
                answer(&mut out, dealing.send(from, to, &bytes));
            }
        }
        for &from in &honest {
            for bytes in dealing.words(from).lines {
                answer(&mut out, dealing.post(from, &bytes));
            }
        }
        Ok(out)
    }

    fn say(&mut self, from: Number, to: Number) -> Result<String, Expected> {
        let (from, to) = (self.keeper(from)?, self.keeper(to)?);
        self.dealing()?;
        self.must_lie(from)?;
        let dealing = self.dealing()?;
        let mut out = String::new();
        if let Some(bytes) = dealing.words(from).mail.get(&to) {
            answer(&mut out, dealing.send(from, to, bytes));
        }
        Ok(out)
    }

    fn post(&mut self, from: Number) -> Result<String, Expected> {
        let from = self.keeper(from)?;
        self.dealing()?;
        self.must_lie(from)?;
        let dealing = self.dealing()?;
        let mut out = String::new();
        for bytes in dealing.words(from).lines {
            answer(&mut out, dealing.post(from, &bytes));
        }
        Ok(out)
    }

    fn send(&mut self, from: Number, to: Number, message: Draft) -> Result<String, Expected> {
        let (from, to) = (self.keeper(from)?, self.keeper(to)?);
        let dealing = self.dealing()?;
        let bytes = message.bytes(dealing.terms().dealer);
        let mut out = String::new();
        answer(&mut out, dealing.send(from, to, &bytes));
        Ok(out)
    }

    fn board(&mut self, from: Number, message: Draft) -> Result<String, Expected> {
        let from = self.keeper(from)?;
        let dealing = self.dealing()?;
        let bytes = message.bytes(dealing.terms().dealer);
        let mut out = String::new();
        answer(&mut out, dealing.post(from, &bytes));
        Ok(out)
    }

    fn show(&self) -> String {
        let mut lines = vec![format!("f {}, keepers 0 to {}", self.f, self.last())];
        match &self.dealing {
            None => lines.push("nothing dealt".to_string()),
            Some(dealing) => self.show_dealing(dealing, &mut lines),
        }
        lines.iter().map(|line| format!("{line}\n")).collect()
    }

    fn show_dealing(&self, dealing: &Dealing, lines: &mut Vec<String>) {
        let rows: Vec<String> = dealing.rows().iter().map(list).collect();
        let round = dealing.round();
        lines.push(format!(
            "dealer {} dealt {}",
            dealing.terms().dealer,
            rows.join(" / ")
        ));
        lines.push(format!("round {}", round.number()));
        for keeper in 0..=self.last() {
            let what = if self.liars.contains(&keeper) {
                "lies".to_string()
            } else {
                dealing.holding(keeper).map(holding).unwrap_or_default()
            };
            lines.push(format!("keeper {keeper}: {what}"));
        }
        show_board(dealing.board(), lines);
        if round >= Round::Judge {
            let board = dealing.board();
            let verdict = if board.accepts(self.f) {
                "accepted"
            } else {
                "not accepted"
            };
            lines.push(format!(
                "{} of {} are fine: {verdict}",
                board.fine(),
                dealing.terms().keepers()
            ));
        }
    }
}

/// Prints a refusal, if it is one.
fn answer(out: &mut String, taken: Result<(), Refusal>) {
    if let Err(refusal) = taken {
        let _ = writeln!(out, "refused {}", refusal.number());
    }
}

fn show_board(board: &Board, lines: &mut Vec<String>) {
    lines.extend(board.complaints.iter().map(|((by, about), pair)| {
        format!(
            "complaint {by} about {about}: across {}, down {}",
            pair.across, pair.down
        )
    }));
    lines.extend(
        board
            .reveals
            .iter()
            .map(|(keeper, share)| format!("reveal {keeper}: {}", coefficients(share))),
    );
    lines.extend(
        board
            .fines
            .iter()
            .map(|(keeper, fine)| format!("fine {keeper}: {}", if *fine { "yes" } else { "no" })),
    );
}

fn holding(holding: Holding) -> String {
    match holding {
        Holding::Share(share) => format!("{}, value {}", coefficients(&share), share.value()),
        Holding::Kept(Some(value)) => format!("keeps {value}"),
        Holding::Kept(None) => "keeps nothing".to_string(),
    }
}

fn coefficients(share: &Share) -> String {
    format!("across {}, down {}", list(&share.across), list(&share.down))
}

fn list(numbers: &[Element]) -> String {
    if numbers.is_empty() {
        return "-".to_string();
    }
    let words: Vec<String> = numbers.iter().map(Element::to_string).collect();
    words.join(" ")
}
