//! A decoder written otherwise agrees with the checker, and the cases of the decoder tell each of many wrong ones from it.

use second::random::{damaged_job, random_bytes, sound_job, Random};
use second::version_three_jobs::refused_of_three;
use second::{decode, job_cases, Refusal};

/// What a decoder gets wrong about version 3.
#[derive(Clone, Copy, Debug, PartialEq, Eq)]
enum Fault {
    NoThirdVersion,
    FourthVersion,
    ShortLimitForAll,
    LongLimitForAll,
    LongLimitFromVersion3Up,
    LimitBehindTheVersion,
    ValuesOfOneByte,
    HalfAValueIsEnough,
    HalfAValueAtItsSecondByte,
    ValuesAreOneField,
    InstructionsOfFourBytes,
    ClausesOfFourBytes,
    InstructionsJudgedBeforeTheyAreThere,
    ClausesJudgedBeforeTheyAreThere,
    OperationsOfVersion1,
    HighByteMayBeAnything,
    LowByteMayBeAnything,
    KOfOneByte,
    TargetInK,
    PlaceByItsLowByte,
    PlaceByItsHighByte,
    PlaceIsLittleEndian,
    PlaceMayBeAnything,
    PlaceRefusedWhereItStands,
    BytesMayBeLeftOver,
}

const FAULTS: [Fault; 25] = [
    Fault::NoThirdVersion,
    Fault::FourthVersion,
    Fault::ShortLimitForAll,
    Fault::LongLimitForAll,
    Fault::LongLimitFromVersion3Up,
    Fault::LimitBehindTheVersion,
    Fault::ValuesOfOneByte,
    Fault::HalfAValueIsEnough,
    Fault::HalfAValueAtItsSecondByte,
    Fault::ValuesAreOneField,
    Fault::InstructionsOfFourBytes,
    Fault::ClausesOfFourBytes,
    Fault::InstructionsJudgedBeforeTheyAreThere,
    Fault::ClausesJudgedBeforeTheyAreThere,
    Fault::OperationsOfVersion1,
    Fault::HighByteMayBeAnything,
    Fault::LowByteMayBeAnything,
    Fault::KOfOneByte,
    Fault::TargetInK,
    Fault::PlaceByItsLowByte,
    Fault::PlaceByItsHighByte,
    Fault::PlaceIsLittleEndian,
    Fault::PlaceMayBeAnything,
    Fault::PlaceRefusedWhereItStands,
    Fault::BytesMayBeLeftOver,
];

/// Number and offset, or nothing for a file that is accepted.
type Judged = Option<(u8, usize)>;

struct Decoder<'a> {
    bytes: &'a [u8],
    fault: Option<Fault>,
    /// Where the next item begins.
    at: usize,
}

impl Decoder<'_> {
    fn has(&self, fault: Fault) -> bool {
        self.fault == Some(fault)
    }

    fn is_wide(&self) -> bool {
        self.bytes[2] == 3
    }

    /// The bytes from here on, where this many are there.
    fn next(&mut self, count: usize) -> Result<Vec<u8>, (u8, usize)> {
        let begin = self.at;
        if self.bytes.len() < begin + count {
            return Err((6, begin));
        }
        self.at = begin + count;
        Ok(self.bytes[begin..self.at].to_vec())
    }

    /// One byte from `least` to `most`, or else this refusal where it stands.
    fn byte(&mut self, number: u8, least: u8, most: u8) -> Result<u8, (u8, usize)> {
        let byte = self.next(1)?[0];
        match least <= byte && byte <= most {
            true => Ok(byte),
            false => Err((number, self.at - 1)),
        }
    }

    fn size(&self) -> Result<(), (u8, usize)> {
        let count = self.bytes.len();
        if count < 3 {
            return Err((1, 0));
        }
        let version = self.bytes[2];
        let most = match self.fault {
            Some(Fault::ShortLimitForAll) => 1109,
            Some(Fault::LongLimitForAll) => 1389,
            Some(Fault::LongLimitFromVersion3Up) if version >= 3 => 1389,
            Some(Fault::LimitBehindTheVersion) if !(1..=3).contains(&version) => 1389,
            _ if version == 3 => 1389,
            _ => 1109,
        };
        let field = 256 * usize::from(self.bytes[0]) + usize::from(self.bytes[1]);
        match count <= most && field == count - 2 {
            true => Ok(()),
            false => Err((1, 0)),
        }
    }

    fn judge(&mut self) -> Result<(), (u8, usize)> {
        self.size()?;
        self.at = 2;
        let last_version = match self.fault {
            Some(Fault::NoThirdVersion) => 2,
            Some(Fault::FourthVersion) => 4,
            _ => 3,
        };
        self.byte(2, 1, last_version)?;
        match self.byte(3, 0, 2)? {
            0 => self.byte(3, 0, 0)?,
            _ => self.byte(3, 1, 8)?,
        };
        let threads = self.byte(3, 1, 4)?;
        let variables = self.byte(3, 1, 8)?;
        self.values(usize::from(variables))?;
        let mut lengths = Vec::new();
        for _ in 0..threads {
            lengths.push(self.program(variables)?);
        }
        self.byte(5, 0, 1)?;
        for _ in 0..self.byte(5, 1, 16)? {
            self.clause(&lengths, variables)?;
        }
        match self.at < self.bytes.len() && !self.has(Fault::BytesMayBeLeftOver) {
            true => Err((6, self.at)),
            false => Ok(()),
        }
    }

    fn values(&mut self, variables: usize) -> Result<(), (u8, usize)> {
        let bytes = match self.is_wide() && !self.has(Fault::ValuesOfOneByte) {
            true => 2,
            false => 1,
        };
        if self.has(Fault::ValuesAreOneField) {
            return self.next(bytes * variables).map(|_| ());
        }
        for _ in 0..variables {
            let here = self.bytes.len().saturating_sub(self.at);
            match self.fault {
                Some(Fault::HalfAValueIsEnough) if here == 1 => self.next(1)?,
                Some(Fault::HalfAValueAtItsSecondByte) if here == 1 && bytes == 2 => {
                    return Err((6, self.at + 1))
                }
                _ => self.next(bytes)?,
            };
        }
        Ok(())
    }

    /// Op or kind, a, b and the rest; where it begins; and whether it is wholly there.
    fn item(&mut self, four: Fault, early: Fault) -> Result<(Vec<u8>, usize), (u8, usize)> {
        let begin = self.at;
        let count = match self.is_wide() && !self.has(four) {
            true => 5,
            false => 4,
        };
        if self.has(early) && begin < self.bytes.len() && self.bytes.len() < begin + count {
            // What is missing is taken for 0.
            let mut item = self.bytes[begin..].to_vec();
            item.resize(count, 0);
            return Ok((item, begin));
        }
        Ok((self.next(count)?, begin))
    }

    fn program(&mut self, variables: u8) -> Result<u8, (u8, usize)> {
        let n = self.byte(4, 0, 64)?;
        for _ in 0..n {
            let early = Fault::InstructionsJudgedBeforeTheyAreThere;
            let (item, begin) = self.item(Fault::InstructionsOfFourBytes, early)?;
            if !self.is_instruction(&item, n, variables) {
                return Err((4, begin));
            }
            if self.at == begin {
                return Err((6, begin));
            }
        }
        Ok(n)
    }

    fn is_instruction(&self, item: &[u8], n: u8, variables: u8) -> bool {
        let [op, a, b] = [item[0], item[1], item[2]];
        let [register, variable, target] = [a < 4, b < variables, b <= n];
        let last_op = match self.bytes[2] {
            1 => 9,
            3 if self.has(Fault::OperationsOfVersion1) => 9,
            _ => 11,
        };
        let none = self.is_0(&item[3..]);
        let k = !self.has(Fault::KOfOneByte) || item.len() < 5 || item[3] == 0;
        let in_k = self.has(Fault::TargetInK) && item.len() == 5;
        let is_good = match op {
            1 | 2 => register && b == 0 && k,
            3 | 4 | 7 => register && variable && none,
            5 => a == 0 && variable && k,
            6 | 11 => a == 0 && b == 0 && none,
            9 if in_k => a == 0 && b == 0 && item[3] == 0 && item[4] <= n,
            8 => register && target && k,
            9 => a == 0 && target && none,
            10 => register && variable && k,
            _ => false,
        };
        is_good && op <= last_op
    }

    /// Where no k stands.
    fn is_0(&self, rest: &[u8]) -> bool {
        match (self.fault, rest) {
            (Some(Fault::HighByteMayBeAnything), [_, low]) => *low == 0,
            (Some(Fault::LowByteMayBeAnything), [high, _]) => *high == 0,
            _ => rest.iter().all(|&byte| byte == 0),
        }
    }

    fn clause(&mut self, lengths: &[u8], variables: u8) -> Result<(), (u8, usize)> {
        let early = Fault::ClausesJudgedBeforeTheyAreThere;
        let (item, begin) = self.item(Fault::ClausesOfFourBytes, early)?;
        let [kind, a, b] = [item[0], item[1], item[2]];
        let n = lengths.get(usize::from(a)).copied().map(usize::from);
        let is_place = match (n, &item[3..]) {
            (None, _) => false,
            (Some(n), &[place]) => usize::from(place) <= n,
            (Some(n), rest) => {
                let [high, low] = [rest[0], rest[1]].map(usize::from);
                let place = match self.fault {
                    Some(Fault::PlaceByItsLowByte) => low,
                    Some(Fault::PlaceByItsHighByte) => high,
                    Some(Fault::PlaceIsLittleEndian) => high + 256 * low,
                    Some(Fault::PlaceMayBeAnything) => 0,
                    _ => 256 * high + low,
                };
                place <= n
            }
        };
        let k = !self.has(Fault::KOfOneByte) || item.len() < 5 || item[3] == 0;
        let is_good = match kind {
            1 => b == 0 && is_place,
            2 => n.is_some() && b < 4 && k,
            3 => a < variables && b == 0 && k,
            _ => false,
        };
        let where_it_stands = kind == 1 && b == 0 && n.is_some();
        match is_good {
            true if self.at == begin => Err((6, begin)),
            true => Ok(()),
            false if where_it_stands && self.has(Fault::PlaceRefusedWhereItStands) => {
                Err((5, begin + 3))
            }
            false => Err((5, begin)),
        }
    }
}

fn judged(bytes: &[u8], fault: Option<Fault>) -> Judged {
    let mut decoder = Decoder {
        bytes,
        fault,
        at: 0,
    };
    decoder.judge().err()
}

fn given(bytes: &[u8]) -> Judged {
    let refusal = decode(bytes).err();
    refusal.map(|Refusal { number, offset }| (number, offset))
}

#[test]
fn the_other_decoder_agrees_with_the_checker() {
    for job in job_cases::all() {
        assert_eq!(judged(&job, None), given(&job), "{job:?}");
    }
    let mut random = Random::new(101);
    for turn in 0..30_000 {
        let job = match turn % 6 {
            0 => random_bytes(&mut random),
            1 => sound_job(&mut random),
            _ => damaged_job(&mut random),
        };
        assert_eq!(judged(&job, None), given(&job), "{job:?}");
    }
}

#[test]
fn the_other_decoder_says_what_a_person_says() {
    for (job, [number, offset]) in refused_of_three() {
        let expected = Some((number as u8, offset as usize));
        assert_eq!(judged(&job, None), expected, "{job:?}");
    }
}

#[test]
fn the_cases_tell_every_wrong_decoder() {
    let cases = job_cases::all();
    for fault in FAULTS {
        let wrong = cases
            .iter()
            .filter(|job| judged(job, Some(fault)) != given(job));
        let count = wrong.count();
        assert!(count >= 3, "{fault:?} {count}");
    }
}

#[test]
fn random_jobs_tell_every_wrong_decoder() {
    let mut random = Random::new(102);
    let mut jobs: Vec<Vec<u8>> = Vec::new();
    for _ in 0..20_000 {
        jobs.push(damaged_job(&mut random));
        jobs.push(random_bytes(&mut random));
    }
    for fault in FAULTS {
        let told = jobs
            .iter()
            .any(|job| judged(job, Some(fault)) != given(job));
        assert!(told, "{fault:?}");
    }
}
