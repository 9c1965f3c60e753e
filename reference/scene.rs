//! Makes up a script: keepers, a dealing, and liars that mostly do what the
//! rules ask, and at times nearly.

use crate::field::{evaluate, Element, P};
use crate::random::Random;
use crate::share::{point, Keeper, Pair, Rows, Share};
use crate::wire::{Body, Line, Mail, Message};

/// A script has 10 to 120 lines. From `FULL` on there are no more extras, so
/// that the rounds can be completed.
const FEWEST: usize = 10;
const FULL: usize = 100;
const MOST: usize = 120;

const NIGHT: u32 = 0;

/// Numbers at some edge.
const EDGES: [u64; 14] = [
    0,
    1,
    P - 2,
    P - 1,
    P,
    P + 1,
    P * 2,
    (1 << 32) - 1,
    1 << 32,
    (1 << 32) + 1,
    1 << 63,
    u64::MAX - 1,
    u64::MAX,
    1 << 61,
];

/// Lines that can't be used, whatever stands.
const UNUSABLE: [&str; 77] = [
    "foo",
    "Round",
    "rounds",
    "f1",
    "f",
    "f 3",
    "f 10",
    "f x",
    "f -1",
    "f 1 1",
    "f 99999999999999999999999",
    "liar",
    "liar x",
    "liar 0 x",
    "liar 0 1.",
    "deal",
    "deal 0",
    "deal x",
    "deal 0 1 2",
    "deal 0:",
    "deal 0 :",
    "deal :",
    "deal : 1",
    "deal x: 1",
    "deal 0: x",
    "deal 0: 1 / x",
    "deal 0: /",
    "deal 0: / 1",
    "deal 0: 1 /",
    "deal 0: 1 / / 1",
    "deal 0: 1 2 / 3",
    "deal 0: 1 / 2 3",
    "deal 0: 1 2 / 3 / x",
    "deal 0: 2305843009213693951",
    "deal 0: 99999999999999999999999",
    "deal 0: 1 -1",
    "round 1",
    "show all",
    "say",
    "say 0",
    "say x 0",
    "say 0 x",
    "say 0 1 2",
    "post",
    "post x",
    "post 0 0",
    "send",
    "send 0",
    "send x 0 told 1 2",
    "send 0 1",
    "send 0 1 foo",
    "send 0 1 told",
    "send 0 1 told 1",
    "send 0 1 told 1 x",
    "send 0 1 told 1 2 3",
    "send 0 1 told 18446744073709551616 1",
    "send 0 1 night told 1 2",
    "send 0 1 night 4294967296 told 1 2",
    "send 0 1 dealer 256 told 1 2",
    "send 0 1 dealer 0 night 0 told 1 2",
    "send 0 1 night 0 hex 00",
    "send 0 1 night",
    "send 0 1 night 0",
    "send 0 1 share 1 2",
    "send 0 1 share 1 / 2 / 3",
    "send 0 1 share / 1 2 3 4 5 6 7 8 9 10 11 12 13",
    "send 0 1 share 1 2 3 4 5 6 7 8 9 10 11 12 13 14",
    "send 0 1 share 1 2 3 4 5 6 7 8 9 10 11 12 x",
    "board",
    "board 0",
    "board 0 dealer 1 hex 00",
    "board 0 hex",
    "board 0 hex 012",
    "board 0 hex 0g",
    "board 0 hex 00 00",
    "board 0 fine 0",
    "board 0 fine 0 maybe",
];

/// And messages that can't be used.
const UNUSABLE_MESSAGES: [&str; 12] = [
    "complaint 256 0 1 1",
    "complaint 0 256 1 1",
    "complaint 0 1 1",
    "complaint 0 1 18446744073709551616 0",
    "reveal",
    "reveal 256 1 / 1",
    "reveal 0 1 2",
    "reveal / 1",
    "fine 256 yes",
    "finished",
    "value 0",
    "value 0 18446744073709551616",
];

pub fn lines(random: &mut Random) -> Vec<String> {
    let f = [0, 1, 2][random.weighted(&[10, 55, 35])];
    let mut scene = Scene::new(random, f);
    scene.opening();
    scene.dealing();
    if scene.lines.len() < 60 && scene.random.chance(30) {
        scene.another();
    }
    scene.ending();
    scene.lines
}

struct Scene<'a> {
    random: &'a mut Random,
    lines: Vec<String>,
    f: u8,
    liars: Vec<Keeper>,
    dealer: Keeper,
    rows: Rows,
    /// Whether all coefficients are small.
    small: bool,
    /// Whether a lying dealer brings about one quarrel, mostly unanswered,
    /// and all else goes by the rules.
    quarrel: bool,
    /// Who got a wrong share.
    wronged: Vec<Keeper>,
    /// Which liar told whom something wrong, or nothing.
    misled: Vec<(Keeper, Keeper)>,
    /// Who probably complained.
    complainers: Vec<Keeper>,
}

impl Scene<'_> {
    fn new(random: &mut Random, f: u8) -> Scene<'_> {
        let rows = one_row();
        let small = random.chance(75);
        Scene {
            random,
            lines: Vec::new(),
            f,
            liars: Vec::new(),
            dealer: 0,
            rows,
            small,
            quarrel: false,
            wronged: Vec::new(),
            misled: Vec::new(),
            complainers: Vec::new(),
        }
    }

    // Lines.

    /// A line that the script needs.
    fn line(&mut self, line: impl Into<String>) {
        let line = self.decorated(line.into());
        if self.lines.len() < MOST {
            self.lines.push(line);
        }
    }

    /// A line that it can do without.
    fn extra(&mut self, line: impl Into<String>) {
        if self.lines.len() < FULL {
            self.line(line);
        }
    }

    /// The same line, at times with other blanks or a comment.
    fn decorated(&mut self, line: String) -> String {
        match self.random.weighted(&[85, 3, 3, 3, 2, 2, 2]) {
            0 => line,
            1 => format!("  {line}"),
            2 => line.replace(' ', "\t"),
            3 => format!("{line} # and so on"),
            4 => line.replace(' ', " \t "),
            5 => format!("{line}#{line}"),
            _ => format!("\t{line} \t"),
        }
    }

    fn opening(&mut self) {
        if self.random.chance(30) {
            self.line("# a script");
        }
        if self.random.chance(10) {
            let early = self.random.pick(&[
                "show",
                "round",
                "liar 0",
                "deal 0: 1",
                "say 0 0",
                "send 0 0 told 1 1",
            ]);
            self.line(early);
        }
        self.begin();
        while self.random.chance(20) {
            self.unusable();
        }
        if self.random.chance(10) {
            let early =
                self.random
                    .pick(&["show", "round", "post 0", "say 0 0", "board 0 fine 0 yes"]);
            self.line(early);
        }
        self.deal();
    }

    fn begin(&mut self) {
        self.line(format!("f {}", self.f));
        self.liars = self.choose_liars();
        let liars: Vec<String> = self.liars.iter().map(Keeper::to_string).collect();
        if liars.is_empty() {
            return;
        }
        if self.random.chance(85) {
            self.line(format!("liar {}", liars.join(" ")));
        } else {
            for liar in liars {
                self.line(format!("liar {liar}"));
            }
        }
    }

    fn choose_liars(&mut self) -> Vec<Keeper> {
        let most = usize::from(self.f) + 1;
        let count = match self.random.weighted(&[12, 60, 28]) {
            0 => 0,
            1 => 1 + self.random.below(usize::from(self.f)),
            _ => most,
        };
        let mut keepers: Vec<Keeper> = self.keepers().collect();
        self.random.shuffle(&mut keepers);
        keepers.truncate(count);
        keepers
    }

    fn deal(&mut self) {
        if self.random.chance(8) {
            let rows = vec!["1 2 3 4"; 1 + self.random.below(4)].join(" / ");
            let line = format!("deal {}: {rows}", self.any_keeper_or_none());
            self.line(line);
        }
        self.dealer = match self.liars[..] {
            [liar, ..] if self.random.chance(60) => liar,
            _ => self.any_keeper(),
        };
        self.quarrel = self.liars.contains(&self.dealer) && self.random.chance(40);
        self.rows = self.choose_rows();
        self.wronged.clear();
        self.misled.clear();
        self.complainers.clear();
        let rows: Vec<String> = self
            .rows
            .iter()
            .map(|row| numbers(row.iter().map(|&number| number.into())))
            .collect();
        let colon = if self.random.chance(90) { ":" } else { " :" };
        self.line(format!("deal {}{colon} {}", self.dealer, rows.join(" / ")));
        if self.random.chance(30) {
            self.line("show");
        }
    }

    fn choose_rows(&mut self) -> Rows {
        let most = usize::from(self.f) + 1;
        let mut length = || {
            if self.random.chance(80) {
                most
            } else {
                1 + self.random.below(most)
            }
        };
        let (high, low) = (length(), length());
        let rows = (0..high)
            .map(|_| (0..low).map(|_| self.coefficient()).collect())
            .collect();
        Rows::new(rows).unwrap_or_else(one_row)
    }

    fn dealing(&mut self) {
        let rounds = if self.random.chance(88) {
            6
        } else {
            self.random.below(7)
        };
        if self.random.chance(8) {
            self.noise(0);
        }
        for round in 1..=rounds {
            self.line("round");
            if self.random.chance(20) {
                self.noise(round);
            }
            self.lies(round);
            while self.random.chance(52) {
                self.noise(round);
            }
            if self.random.chance(70) {
                self.line("show");
            }
        }
        if self.random.chance(6) {
            self.line("round");
        }
    }

    /// Another dealing, at times with other keepers.
    fn another(&mut self) {
        if self.random.chance(40) {
            self.f = self.random.below(3) as u8;
            self.begin();
        }
        self.deal();
        self.dealing();
    }

    fn ending(&mut self) {
        while self.lines.len() + 1 < FEWEST {
            let filler = self.random.pick(&["", "# nothing", " \t", "show", "round"]);
            self.line(filler);
        }
        self.line("show");
    }

    // Choices.

    fn keepers(&self) -> std::ops::Range<Keeper> {
        0..self.f * 3 + 1
    }

    fn others(&self, own: Keeper) -> Vec<Keeper> {
        self.keepers().filter(|&keeper| keeper != own).collect()
    }

    fn any_keeper(&mut self) -> Keeper {
        self.random.below(self.keepers().len()) as Keeper
    }

    /// At times one that there isn't.
    fn any_keeper_or_none(&mut self) -> Keeper {
        let over = self.random.pick(&[0, 0, 0, 0, 1, 3]);
        self.random.below(self.keepers().len() + over) as Keeper
    }

    /// A liar if there is one, else any.
    fn speaker(&mut self) -> Keeper {
        if self.liars.is_empty() || self.random.chance(20) {
            self.any_keeper()
        } else {
            self.random.pick(&self.liars)
        }
    }

    fn some_of(&mut self, mut keepers: Vec<Keeper>, count: usize) -> Vec<Keeper> {
        self.random.shuffle(&mut keepers);
        keepers.truncate(count);
        keepers
    }

    fn coefficient(&mut self) -> Element {
        let number = if self.small {
            self.random.below(31) as u64
        } else {
            match self.random.weighted(&[40, 25, 15, 20]) {
                0 => self.random.below(31) as u64,
                1 => P - 1 - self.random.below(5) as u64,
                2 => (1 << 32) - 2 + self.random.below(4) as u64,
                _ => self.random.next() % P,
            }
        };
        Element::new(number).unwrap_or(Element::ZERO)
    }

    /// Not zero, mostly small.
    fn step(&mut self) -> Element {
        let step = self.random.pick(&[1, 1, 1, 2, 5, 1 << 32, P - 1]);
        Element::new(step).unwrap_or(Element::ZERO)
    }

    fn number(&mut self) -> u64 {
        if self.random.chance(80) {
            self.random.below(31) as u64
        } else {
            self.random.pick(&EDGES)
        }
    }

    /// A number next to this one, mostly.
    fn nudged(&mut self, number: u64) -> u64 {
        match self.random.weighted(&[45, 30, 10, 10, 5]) {
            0 => (number + 1) % P,
            1 => number.checked_sub(1).unwrap_or(P - 1),
            2 => self.random.below(31) as u64,
            3 => self.random.pick(&EDGES),
            _ => number + P, // the same modulo p
        }
    }

    // What the rules ask, and near misses.

    fn share(&self, keeper: Keeper) -> Share<u64> {
        raw(&self.rows.share(keeper))
    }

    fn pair(&self, own: Keeper, other: Keeper) -> Pair<u64> {
        let pair = self.rows.share(own).at(other);
        Pair {
            across: pair.across.into(),
            down: pair.down.into(),
        }
    }

    fn wrong_pair(&mut self, right: Pair<u64>) -> Pair<u64> {
        let Pair { across, down } = right;
        match self.random.weighted(&[30, 30, 12, 15, 5, 8]) {
            0 => Pair {
                across: self.nudged(across),
                down,
            },
            1 => Pair {
                across,
                down: self.nudged(down),
            },
            2 => Pair {
                across: down,
                down: across,
            },
            3 => Pair {
                across: self.nudged(across),
                down: self.nudged(down),
            },
            4 => Pair { across: 0, down: 0 },
            _ => Pair {
                across: (across + 1) % P,
                down: (down + P - 1) % P,
            },
        }
    }

    fn wrong_share(&mut self, keeper: Keeper) -> Share<u64> {
        let mut share = self.rows.share(keeper);
        let step = self.step();
        match self.manner(
            &[18, 16, 16, 16, 6, 5, 3, 6, 6, 8],
            &[0, 40, 40, 10, 0, 0, 0, 0, 0, 10],
        ) {
            0 => return self.one_changed(keeper),
            1 => tilt(&mut share.down, step, &[keeper]),
            2 => tilt(&mut share.across, step, &[keeper]),
            3 => {
                // Still agrees with itself and with some others, one way.
                let roots = self.some_of(self.keepers().collect(), share.across.len() - 1);
                tilt(&mut share.across, step, &roots);
                mend(&mut share, keeper);
            }
            4 => {
                let other = self.any_keeper();
                share = self.rows.share(other);
            }
            5 => std::mem::swap(&mut share.across, &mut share.down),
            6 => share = Share::zeros(share.across.len(), share.down.len()),
            7 => {
                tilt(&mut share.across, step, &[]);
                mend(&mut share, keeper);
            }
            8 => return self.other_lengths(keeper),
            _ => {
                // Agrees with some others, and not with itself.
                let others = self.others(keeper);
                let roots = self.some_of(others, share.across.len().min(share.down.len()) - 1);
                tilt(&mut share.across, step, &roots);
                if self.random.chance(40) {
                    tilt(&mut share.down, minus(step), &roots);
                }
            }
        }
        raw(&share)
    }

    fn one_changed(&mut self, keeper: Keeper) -> Share<u64> {
        let mut share = self.share(keeper);
        let place = self.random.below(share.across.len() + share.down.len());
        let mut numbers = share.across.iter_mut().chain(&mut share.down);
        if let Some(number) = numbers.nth(place) {
            *number = self.nudged(*number);
        }
        share
    }

    fn other_lengths(&mut self, keeper: Keeper) -> Share<u64> {
        let mut share = self.share(keeper);
        match self.random.below(6) {
            0 => share.across.push(0),
            1 => share.down.push(0),
            2 => {
                share.down.pop();
            }
            3 => {
                share.across.remove(0);
            }
            4 => share.down.clear(),
            _ => {
                // As many numbers in all, so the same bytes.
                let last = share.across.pop();
                share.down.splice(0..0, last);
            }
        }
        share
    }

    /// What would be said in a round, more or less.
    fn proper(&mut self, round: usize, from: Keeper, to: Keeper) -> Body<u64> {
        match round {
            1 => Body::Mail(Mail::Share(self.share(to))),
            2 => Body::Mail(Mail::Told(self.pair(from, to))),
            3 => Body::Line(Line::Complaint {
                by: from,
                about: to,
                pair: self.pair(from, to),
            }),
            4 => Body::Line(Line::Reveal {
                keeper: to,
                share: self.share(to),
            }),
            5 => Body::Line(Line::Fine {
                keeper: from,
                fine: self.random.chance(50),
            }),
            _ if self.random.chance(50) => Body::Line(Line::Finished { keeper: from }),
            _ => Body::Mail(Mail::Value {
                keeper: from,
                value: self.number(),
            }),
        }
    }

    // Messages.

    /// A message in words or in digits, nothing wrong with it.
    fn written(&mut self, body: &Body<u64>) -> String {
        match self.random.weighted(&[84, 4, 4, 4, 2, 2]) {
            0 => words(body),
            1 => format!("night 0 {}", words(body)),
            2 => format!("dealer {} {}", self.dealer, words(body)),
            3 => format!("hex {}", hex(&self.bytes(body))),
            4 => format!("hex {}", hex(&self.bytes(body)).to_uppercase()),
            _ => format!("night 00 dealer {} {}", self.dealer, words(body)),
        }
    }

    fn bytes(&self, body: &Body<u64>) -> Vec<u8> {
        Message {
            night: NIGHT,
            dealer: self.dealer,
            body: body.clone(),
        }
        .encode()
    }

    fn send(&mut self, from: Keeper, to: Keeper, body: &Body<u64>) {
        let message = self.written(body);
        self.extra(format!("send {from} {to} {message}"));
    }

    fn board(&mut self, from: Keeper, body: &Body<u64>) {
        let message = self.written(body);
        self.extra(format!("board {from} {message}"));
    }

    fn say(&mut self, from: Keeper, to: Keeper) {
        self.extra(format!("say {from} {to}"));
    }

    fn post(&mut self, from: Keeper) {
        self.extra(format!("post {from}"));
    }

    /// Sends it the way that its kind is sent.
    fn utter(&mut self, from: Keeper, to: Keeper, body: &Body<u64>) {
        match body {
            Body::Mail(_) => self.send(from, to, body),
            Body::Line(_) => self.board(from, body),
        }
    }

    // What liars do in each round.

    fn lies(&mut self, round: usize) {
        let mut liars = self.liars.clone();
        if self.random.chance(30) {
            self.random.shuffle(&mut liars);
        }
        for liar in liars {
            match round {
                1 if liar == self.dealer => self.deal_lies(),
                2 => self.tell_lies(liar),
                3 => self.complain_lies(liar),
                4 if liar == self.dealer => self.reveal_lies(),
                5 => self.judge_lies(liar),
                _ => {}
            }
        }
        if round == 3 {
            // Those may have complained on their own.
            self.complainers.extend(&self.wronged);
        }
    }

    /// Chooses by weight, in a quarrel by other weights.
    fn manner(&mut self, loose: &[usize], quarrel: &[usize]) -> usize {
        let weights = if self.quarrel { quarrel } else { loose };
        self.random.weighted(weights)
    }

    fn deal_lies(&mut self) {
        let dealer = self.dealer;
        let others = self.others(dealer);
        let faults = usize::from(self.f);
        match self.manner(&[22, 40, 15, 8, 10, 5], &[55, 45]) {
            0 => {}
            1 => self.wronged = self.some_of(others.clone(), 1),
            2 => {
                let count = 1 + self.random.below(faults + 1);
                self.wronged = self.some_of(others.clone(), count);
            }
            3 => return self.deal_two(&others),
            4 => {
                let count = 1 + self.random.below(others.len());
                return self
                    .some_of(others, count)
                    .into_iter()
                    .for_each(|to| self.say(dealer, to));
            }
            _ => return,
        }
        for to in others {
            if self.wronged.contains(&to) {
                if self.random.chance(90) {
                    let share = self.wrong_share(to);
                    self.send(dealer, to, &Body::Mail(Mail::Share(share)));
                }
                if self.random.chance(10) {
                    self.say(dealer, to);
                }
            } else {
                self.say(dealer, to);
            }
        }
    }

    /// Another polynomial to some.
    fn deal_two(&mut self, others: &[Keeper]) {
        let right = self.rows.clone();
        let other = self.choose_rows();
        let same = (other.high(), other.low()) == (right.high(), right.low());
        for &to in others {
            if same && self.random.chance(40) {
                let share = raw(&other.share(to));
                self.send(self.dealer, to, &Body::Mail(Mail::Share(share)));
                self.wronged.push(to);
            } else {
                self.say(self.dealer, to);
            }
        }
    }

    fn tell_lies(&mut self, liar: Keeper) {
        let others = self.others(liar);
        let begins = liar == self.dealer && self.wronged.is_empty();
        let quarrel: &[usize] = if begins { &[0, 1] } else { &[1] };
        let off = match self.manner(&[35, 35, 12, 12, 6], quarrel) {
            0 => Vec::new(),
            1 => self.some_of(others.clone(), 1),
            2 => {
                let count = self.random.below(others.len() + 1);
                self.some_of(others.clone(), count)
            }
            3 => return self.tell_some(liar, others),
            _ => return,
        };
        for to in others {
            if !off.contains(&to) {
                self.say(liar, to);
                continue;
            }
            self.misled.push((liar, to));
            if self.random.chance(85) {
                let right = self.pair(liar, to);
                let pair = self.wrong_pair(right);
                self.send(liar, to, &Body::Mail(Mail::Told(pair)));
            }
            if self.random.chance(10) {
                self.say(liar, to);
            }
        }
    }

    /// All to some, and nothing to others.
    fn tell_some(&mut self, liar: Keeper, others: Vec<Keeper>) {
        for to in others {
            if self.random.chance(60) {
                self.say(liar, to);
            } else {
                self.misled.push((liar, to));
            }
        }
    }

    fn complain_lies(&mut self, liar: Keeper) {
        let quarrels = self.misled.iter().any(|&(by, _)| by == liar);
        let quarrel: &[usize] = if quarrels { &[0, 20, 80] } else { &[1] };
        let manner = self.manner(&[35, 20, 30, 15], quarrel);
        if manner == 1 && self.random.chance(30) {
            self.post(liar);
        }
        if manner == 1 || manner == 2 {
            for about in self.whom_to_accuse(liar) {
                let right = self.pair(liar, about);
                let pair = if self.random.chance(35) {
                    right
                } else {
                    self.wrong_pair(right)
                };
                self.board(
                    liar,
                    &Body::Line(Line::Complaint {
                        by: liar,
                        about,
                        pair,
                    }),
                );
                self.complainers.push(liar);
            }
        }
        if manner < 2 {
            self.post(liar);
        }
    }

    /// Mostly those that it misled, who complain about it too.
    fn whom_to_accuse(&mut self, liar: Keeper) -> Vec<Keeper> {
        let misled: Vec<Keeper> = self
            .misled
            .iter()
            .filter(|(by, _)| *by == liar)
            .map(|&(_, to)| to)
            .collect();
        if !misled.is_empty() && self.random.chance(75) {
            return self.some_of(misled, 2);
        }
        let others = self.others(liar);
        let count = 1 + self.random.below(2);
        self.some_of(others, count)
    }

    fn reveal_lies(&mut self) {
        let dealer = self.dealer;
        let manner = self.manner(&[30, 30, 15, 25], &[10, 25, 5, 60]);
        match manner {
            0 => return self.post(dealer),
            3 => return,
            _ => {}
        }
        let mut keepers = self.complainers.clone();
        keepers.sort_unstable();
        keepers.dedup();
        if self.random.chance(30) {
            keepers.push(self.any_keeper());
        }
        for keeper in keepers {
            let share = match self.random.weighted(&[40, 45, 15]) {
                0 => self.share(keeper),
                1 => self.wrong_share(keeper),
                _ => continue,
            };
            self.board(dealer, &Body::Line(Line::Reveal { keeper, share }));
        }
        if manner == 2 {
            self.post(dealer);
        }
    }

    fn judge_lies(&mut self, liar: Keeper) {
        let word = |fine: bool| Body::Line(Line::Fine { keeper: liar, fine });
        match self.random.weighted(&[35, 15, 20, 20, 10]) {
            0 => self.post(liar),
            1 => self.board(liar, &word(true)),
            2 => self.board(liar, &word(false)),
            3 => {}
            _ => {
                let first = self.random.chance(50);
                self.board(liar, &word(first));
                self.board(liar, &word(!first));
            }
        }
    }

    // Whatever else somebody may try.

    fn noise(&mut self, round: usize) {
        let from = self.speaker();
        let to = self.any_keeper();
        match self
            .random
            .weighted(&[14, 7, 7, 5, 14, 8, 9, 5, 5, 8, 14, 4, 4])
        {
            0 => self.spoiled(round, from, to),
            1 => {
                let other = self.random.below(8);
                let body = self.proper(other, from, to);
                self.utter(from, to, &body);
            }
            2 => self.astray(round, from, to),
            3 => {
                let body = self.proper(round, from, to);
                self.send(from, from, &body);
            }
            4 => self.in_the_name_of_others(round),
            5 => self.repeat(),
            6 => self.elsewhere(round, from, to),
            7 => {
                let line = format!(
                    "say {} {}",
                    self.random.pick(&[from, from, to]),
                    self.any_keeper_or_none()
                );
                self.extra(line);
            }
            8 => {
                let line = format!("post {}", self.random.pick(&[from, from, to]));
                self.extra(line);
            }
            9 => self.edges(round, from, to),
            10 => self.unusable(),
            11 => {
                let filler = self
                    .random
                    .pick(&["", "# a comment", "  ", "\t", "#", "# \u{fc}ber"]);
                self.extra(filler);
            }
            _ => self.out_of_place(),
        }
    }

    /// The bytes of a good message, but for something.
    fn spoiled(&mut self, round: usize, from: Keeper, to: Keeper) {
        let body = self.proper(round, from, to);
        let mut bytes = self.bytes(&body);
        let last = bytes.len() - 1;
        let what = if round == 5 && self.random.chance(40) {
            7
        } else {
            self.random.below(10)
        };
        match what {
            0 => bytes.push(self.random.below(256) as u8),
            1 => bytes.truncate(last),
            2 => bytes.truncate(1 + self.random.below(last)),
            3 => bytes[0] = self.random.pick(&[0, 1, 2, 3, 4, 5, 6, 7, 8, 255]),
            4 => bytes[1 + self.random.below(4)] = self.random.pick(&[1, 128]),
            5 => bytes[5] = self.any_keeper_or_none(),
            6 => bytes[6] = self.random.pick(&[0, 1, 2, 4, 7, 31, 32, 255]),
            7 => bytes[last] = self.random.pick(&[0, 1, 2, 2, 255]),
            _ => bytes[self.random.below(last)] = self.random.next() as u8,
        }
        let mut digits = hex(&bytes);
        if self.random.chance(20) {
            digits = digits.to_uppercase();
        }
        match body {
            Body::Mail(_) => self.extra(format!("send {from} {to} hex {digits}")),
            Body::Line(_) => self.extra(format!("board {from} hex {digits}")),
        }
    }

    /// By mail what belongs on the board, and the other way round.
    fn astray(&mut self, round: usize, from: Keeper, to: Keeper) {
        match self.proper(round, from, to) {
            body @ Body::Mail(_) => self.board(from, &body),
            body @ Body::Line(_) => self.send(from, to, &body),
        }
    }

    fn in_the_name_of_others(&mut self, round: usize) {
        let (from, other, to) = (self.any_keeper(), self.any_keeper(), self.any_keeper());
        if self.random.chance(50) {
            // Nobody can tell this one from the keeper's own.
            let from = if round == 1 || round == 4 {
                self.dealer
            } else {
                from
            };
            let body = match self.proper(round, from, to) {
                Body::Line(Line::Complaint { by, about, pair }) if self.random.chance(60) => {
                    let pair = self.wrong_pair(pair);
                    self.complainers.push(by);
                    Body::Line(Line::Complaint { by, about, pair })
                }
                Body::Line(Line::Reveal { keeper, .. }) if self.random.chance(60) => {
                    let share = self.wrong_share(keeper);
                    Body::Line(Line::Reveal { keeper, share })
                }
                body => body,
            };
            self.utter(from, to, &body);
        } else {
            let body = self.proper(round, other, to);
            self.utter(from, to, &body);
        }
    }

    /// One of the last lines again.
    fn repeat(&mut self) {
        let back = 1 + self.random.below(4);
        let line = self.lines.iter().rev().nth(back - 1).cloned();
        if let Some(line) = line.filter(|line| !line.contains("round")) {
            self.extra(line);
        }
    }

    /// Of another night, or of another dealing, or both.
    fn elsewhere(&mut self, round: usize, from: Keeper, to: Keeper) {
        let body = self.proper(round, from, to);
        let night = self
            .random
            .pick(&["", "", "night 1 ", "night 4294967295 ", "night 0 "]);
        let dealer = match self.random.below(3) {
            0 => format!("dealer {} ", self.any_keeper_or_none()),
            1 => format!("dealer {} ", self.random.pick(&[0, 1, 255])),
            _ => String::new(),
        };
        let message = format!("{night}{dealer}{}", words(&body));
        match body {
            Body::Mail(_) => self.extra(format!("send {from} {to} {message}")),
            Body::Line(_) => self.extra(format!("board {from} {message}")),
        }
    }

    /// Numbers and keepers at the edge.
    fn edges(&mut self, round: usize, from: Keeper, to: Keeper) {
        let keeper = self.any_keeper_or_none();
        let pair = Pair {
            across: self.number(),
            down: self.random.pick(&EDGES),
        };
        let body = match round {
            1 => {
                let mut share = self.share(to);
                share.across[0] = self.random.pick(&EDGES);
                Body::Mail(Mail::Share(share))
            }
            2 => Body::Mail(Mail::Told(pair)),
            3 => Body::Line(Line::Complaint {
                by: from,
                about: keeper,
                pair,
            }),
            4 => {
                let mut share = self.share(to);
                share.down[0] = self.random.pick(&EDGES);
                Body::Line(Line::Reveal { keeper, share })
            }
            5 => Body::Line(Line::Fine { keeper, fine: true }),
            _ => Body::Mail(Mail::Value {
                keeper,
                value: pair.down,
            }),
        };
        let from = if round == 1 || round == 4 {
            self.dealer
        } else {
            from
        };
        self.utter(from, to, &body);
    }

    fn unusable(&mut self) {
        if self.random.chance(80) {
            let line = self.random.pick(&UNUSABLE);
            self.extra(line);
        } else {
            let message = self.random.pick(&UNUSABLE_MESSAGES);
            self.extra(format!("board 0 {message}"));
        }
    }

    /// Lines that are well written but come at the wrong time or name
    /// keepers that there aren't; rarely, all begins anew.
    fn out_of_place(&mut self) {
        let none = self.keepers().end;
        let line = match self.random.below(12) {
            0 => "liar 0".to_string(),
            1 => format!("liar {none}"),
            2 => format!("liar 0 {none}"),
            3 => format!("say 0 {none}"),
            4 => format!("say {none} {}", none + 1),
            5 => format!("post {none}"),
            6 => format!("send {none} 0 told 1 2"),
            7 => format!("send 0 {none} told 1 2"),
            8 => format!("board {none} fine 0 yes"),
            9 => format!("deal {none}: 1"),
            10 => "deal 0: 1 1 1 1".to_string(),
            _ if self.random.chance(15) => format!("f {}", self.f),
            _ => "deal 0: 1 / 1 / 1 / 1".to_string(),
        };
        self.extra(line);
    }
}

fn one_row() -> Rows {
    Rows::new(vec![vec![Element::ZERO]]).expect("a row with a number")
}

fn raw(share: &Share) -> Share<u64> {
    let raw = |side: &[Element]| side.iter().map(|&number| number.into()).collect();
    Share {
        across: raw(&share.across),
        down: raw(&share.down),
    }
}

fn minus(element: Element) -> Element {
    Element::new(P - 1).unwrap_or(Element::ZERO) * element
}

/// Adds `step` times a polynomial that is zero at these keepers' points, as
/// far as there are coefficients for it.
fn tilt(coefficients: &mut [Element], step: Element, roots: &[Keeper]) {
    let mut change = vec![step];
    for &root in roots {
        // Times (x - point).
        let shifted = std::iter::once(Element::ZERO).chain(change.iter().copied());
        let scaled = change.iter().map(|&number| minus(point(root)) * number);
        change = shifted
            .zip(scaled.chain([Element::ZERO]))
            .map(|(a, b)| a + b)
            .collect();
    }
    if change.len() > coefficients.len() {
        return;
    }
    for (coefficient, change) in coefficients.iter_mut().zip(change) {
        *coefficient = *coefficient + change;
    }
}

/// Makes a share agree with itself.
fn mend(share: &mut Share, keeper: Keeper) {
    let at = point(keeper);
    let off = evaluate(&share.across, at) + minus(evaluate(&share.down, at));
    if let Some(first) = share.down.first_mut() {
        *first = *first + off;
    }
}

fn numbers(numbers: impl IntoIterator<Item = u64>) -> String {
    let words: Vec<String> = numbers
        .into_iter()
        .map(|number| number.to_string())
        .collect();
    words.join(" ")
}

/// Across, slash, down; either side may be empty.
fn sides(share: &Share<u64>) -> String {
    let across = numbers(share.across.iter().copied());
    let down = numbers(share.down.iter().copied());
    format!("{across} / {down}").trim().to_string()
}

fn words(body: &Body<u64>) -> String {
    match body {
        Body::Mail(Mail::Share(share)) => format!("share {}", sides(share)),
        Body::Mail(Mail::Told(pair)) => format!("told {} {}", pair.across, pair.down),
        Body::Mail(Mail::Value { keeper, value }) => format!("value {keeper} {value}"),
        Body::Line(Line::Complaint { by, about, pair }) => {
            format!("complaint {by} {about} {} {}", pair.across, pair.down)
        }
        Body::Line(Line::Reveal { keeper, share }) => format!("reveal {keeper} {}", sides(share)),
        Body::Line(Line::Fine { keeper, fine: true }) => format!("fine {keeper} yes"),
        Body::Line(Line::Fine {
            keeper,
            fine: false,
        }) => format!("fine {keeper} no"),
        Body::Line(Line::Finished { keeper }) => format!("finished {keeper}"),
    }
}

fn hex(bytes: &[u8]) -> String {
    bytes.iter().map(|byte| format!("{byte:02x}")).collect()
}
