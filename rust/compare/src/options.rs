//! What is asked for on the command line.

use crate::names;
use shared::split_mix::SplitMix64;
use std::path::PathBuf;

const USAGE: &str = "compare --short | --long | --sequences DIR | --captures DIR | --finds DIR, \
                     [--seed N] [--only PART]";

const SEED: u64 = 20261115;

/// How much is run.
#[derive(Clone, PartialEq, Eq, Debug)]
pub enum Extent {
    Short,
    Long,
    /// Only the sequences of a folder.
    Sequences(PathBuf),
    /// Only the captures of a folder.
    Captures(PathBuf),
    /// Only the searches of a folder.
    Finds(PathBuf),
}

#[derive(Debug)]
pub struct Options {
    pub extent: Extent,
    seed: u64,
    only: Option<String>,
}

impl Options {
    pub fn read(args: &[String]) -> Result<Self, String> {
        let (mut extent, mut seed, mut only) = (None, SEED, None);
        let mut args = args.iter();
        while let Some(arg) = args.next() {
            let mut value = || args.next().ok_or(format!("{arg} needs a value"));
            match arg.as_str() {
                "--short" => extent = Some(Extent::Short),
                "--long" => extent = Some(Extent::Long),
                "--sequences" => extent = Some(Extent::Sequences(value()?.into())),
                "--captures" => extent = Some(Extent::Captures(value()?.into())),
                "--finds" => extent = Some(Extent::Finds(value()?.into())),
                "--seed" => seed = number(value()?)?,
                "--only" => only = Some(part(value()?)?),
                _ => return Err(USAGE.to_string()),
            }
        }
        let extent = extent.ok_or(USAGE)?;
        Ok(Self { extent, seed, only })
    }

    pub fn wants(&self, part: &str) -> bool {
        let asked = self.only.as_ref().is_none_or(|only| only == part);
        let alone = match self.extent {
            Extent::Sequences(_) => Some(names::SEQUENCES),
            Extent::Captures(_) => Some(names::CAPTURES),
            Extent::Finds(_) => Some(names::FINDS),
            Extent::Short | Extent::Long => None,
        };
        asked && alone.is_none_or(|alone| alone == part)
    }

    /// As many cases as the extent has room for.
    pub fn cases(&self, short: u64, long: u64) -> u64 {
        match self.extent {
            Extent::Long => long,
            _ => short,
        }
    }

    /// The part's own generator, so that its cases don't hang on the parts before it.
    pub fn random(&self, part: &str) -> SplitMix64 {
        let letters = part.bytes().fold(0, |sum: u64, letter| {
            sum.wrapping_mul(257).wrapping_add(letter.into())
        });
        SplitMix64::new(self.seed ^ letters << 32)
    }
}

fn number(text: &str) -> Result<u64, String> {
    text.parse().map_err(|error| format!("{text}: {error}"))
}

fn part(name: &str) -> Result<String, String> {
    if names::ALL.contains(&name) {
        Ok(name.to_string())
    } else {
        let all = names::ALL.join(", ");
        Err(format!("no part {name}; there are {all}"))
    }
}

#[cfg(test)]
mod tests {
    use super::*;

    fn read(line: &str) -> Result<Options, String> {
        let args: Vec<String> = line.split(' ').map(str::to_string).collect();
        Options::read(&args)
    }

    #[test]
    fn arguments_are_read() {
        let options = read("--long --seed 7 --only splat").unwrap();
        assert_eq!((options.extent.clone(), options.seed), (Extent::Long, 7));
        assert!(options.wants("splat") && !options.wants("rows"));
        let options = read("--sequences there").unwrap();
        assert!(options.wants(names::SEQUENCES) && !options.wants("splat"));
        let options = read("--captures there").unwrap();
        assert!(options.wants(names::CAPTURES) && !options.wants(names::SEQUENCES));
        let options = read("--finds there").unwrap();
        assert!(options.wants(names::FINDS) && !options.wants(names::CAPTURES));
    }

    #[test]
    fn bad_arguments_are_told() {
        for line in [
            "",
            "--seed 7",
            "--short --seed x",
            "--short --only y",
            "--seed",
        ] {
            assert!(read(line).is_err(), "{line}");
        }
    }
}
