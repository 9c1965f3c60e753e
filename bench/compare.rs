//! Compares the results of the three versions.

use crate::random::{EDGES, Random};
use crate::versions::{P, REFUSED, Seven, Version};
use std::fmt;

const SEED: u64 = 61;

/// Half of these inputs are numbers of the field, the other half are mixed.
const PAIRS: u64 = 2_000_000;
const CHAINS: u64 = 200_000;
const INVERSES: u64 = 200_000;
const EVALUATIONS: u64 = 2_000_000;

/// How many inputs each function was compared on.
#[derive(Default)]
pub struct Counts {
    products: u64,
    chains: u64,
    inverses: u64,
    evaluations: u64,
}

impl fmt::Display for Counts {
    fn fmt(&self, f: &mut fmt::Formatter) -> fmt::Result {
        writeln!(f, "The three versions give the same results:")?;
        writeln!(f, "{:>10} products", self.products)?;
        writeln!(f, "{:>10} products of many factors", self.chains)?;
        writeln!(
            f,
            "{:>10} inverses, each also multiplied by its number",
            self.inverses
        )?;
        write!(f, "{:>10} values of polynomials", self.evaluations)
    }
}

/// An input on which the results are not all the same, or not what they should be.
pub struct Difference {
    function: &'static str,
    inputs: Vec<u64>,
    answers: [u64; 3],
}

impl fmt::Display for Difference {
    fn fmt(&self, f: &mut fmt::Formatter) -> fmt::Result {
        writeln!(f, "DIFFERENCE in {} of {:?}:", self.function, self.inputs)?;
        for (version, answer) in Version::ALL.iter().zip(self.answers) {
            writeln!(f, "{:>10} {answer}", version.name)?;
        }
        Ok(())
    }
}

pub fn all() -> Result<Counts, Difference> {
    let mut counts = Counts::default();
    let mut random = Random::new(SEED);
    products(&mut random, &mut counts.products)?;
    chains(&mut random, &mut counts.chains)?;
    inverses(&mut random, &mut counts.inverses)?;
    evaluations(&mut random, &mut counts.evaluations)?;
    Ok(counts)
}

/// What the three versions say, if they say the same, and refuse where a number is not below P and nowhere else.
fn same(
    function: &'static str,
    inputs: &[u64],
    ask: impl Fn(&Version) -> u64,
) -> Result<u64, Difference> {
    let answers = Version::ALL.each_ref().map(ask);
    let refuse = inputs.iter().any(|&n| n >= P);
    let right = |answer| {
        if refuse {
            answer == REFUSED
        } else {
            answer < P
        }
    };
    if answers.iter().all(|&a| a == answers[0] && right(a)) {
        Ok(answers[0])
    } else {
        let inputs = inputs.to_vec();
        Err(Difference {
            function,
            inputs,
            answers,
        })
    }
}

fn products(random: &mut Random, count: &mut u64) -> Result<(), Difference> {
    let mut one = |a, b| -> Result<(), Difference> {
        same("multiply", &[a, b], |v| (v.multiply)(a, b))?;
        *count += 1;
        Ok(())
    };
    for a in EDGES {
        for b in EDGES {
            one(a, b)?;
        }
    }
    for _ in 0..PAIRS / 2 {
        one(random.element(), random.element())?;
        one(random.mixed(), random.mixed())?;
    }
    Ok(())
}

fn chains(random: &mut Random, count: &mut u64) -> Result<(), Difference> {
    let mut one = |a, b, n: u32| -> Result<(), Difference> {
        same("multiply_chain", &[a, b, n.into()], |v| {
            (v.multiply_chain)(a, b, n)
        })?;
        *count += 1;
        Ok(())
    };
    for a in EDGES {
        for b in EDGES {
            for n in [0, 1, 2, 3, 61, 100] {
                one(a, b, n)?;
            }
        }
    }
    for _ in 0..CHAINS / 2 {
        one(random.element(), random.element(), random.below(100) as u32)?;
        one(random.mixed(), random.mixed(), random.below(100) as u32)?;
    }
    Ok(())
}

fn inverses(random: &mut Random, count: &mut u64) -> Result<(), Difference> {
    let mut one = |a| -> Result<(), Difference> {
        let inverse = same("inverse", &[a], |v| (v.inverse)(a))?;
        // what the versions agree on is the inverse, too; 0 has none, and gives 0
        let right = match a {
            0 => inverse == 0,
            1..P => u128::from(a) * u128::from(inverse) % u128::from(P) == 1,
            _ => true,
        };
        if !right {
            return Err(Difference {
                function: "inverse",
                inputs: vec![a],
                answers: [inverse; 3],
            });
        }
        *count += 1;
        Ok(())
    };
    for a in EDGES {
        one(a)?;
    }
    for _ in 0..INVERSES / 2 {
        one(random.element())?;
        one(random.mixed())?;
    }
    Ok(())
}

fn evaluations(random: &mut Random, count: &mut u64) -> Result<(), Difference> {
    let mut one = |numbers: Seven| -> Result<(), Difference> {
        same("evaluate", &numbers, |v| v.evaluate(numbers))?;
        *count += 1;
        Ok(())
    };
    // each edge as each coefficient, with each as the point, among zeros and among the largest numbers
    for c in EDGES {
        for x in EDGES {
            for filling in [0, P - 1] {
                for place in 0..6 {
                    let mut numbers = [filling; 7];
                    numbers[place] = c;
                    numbers[6] = x;
                    one(numbers)?;
                }
            }
            one([c, c, c, c, c, c, x])?;
        }
    }
    for _ in 0..EVALUATIONS / 2 {
        one([(); 7].map(|()| random.element()))?;
        one([(); 7].map(|()| random.mixed()))?;
    }
    Ok(())
}
