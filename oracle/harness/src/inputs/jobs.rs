//! Job files: whole ones of any crystal, and damaged ones.

use phonors::common::{det_i, transpose_i, MatD, MatI, IDENTITY};

use crate::function::{Input, Line};
use crate::inputs::chains::{crystal, lattice, Crystal};
use crate::inputs::images::TYPES;
use crate::inputs::lattices::{self, REGULAR};
use crate::inputs::matrices::{self, diag};
use crate::inputs::{groups, jobs_at_limits};
use crate::limits::{JOB_BYTES, JOB_HEADER_BYTES, ROTATIONS};
use crate::random::Random;
use crate::zone_list::listing;

/// The places of the header's words.
pub const TOTAL: usize = 0;
pub const COUNT: usize = 1;
pub const MATRIX: usize = 2;
pub const LIST: usize = 3;
pub const LATTICE: usize = 4;
pub const FLAGS: usize = 5;
pub const TYPE: usize = 6;
pub const POINT: usize = 7;

#[derive(Clone, Debug)]
pub struct JobInput {
    pub job: Vec<u8>,
    /// Bytes of the text that is lent.
    pub room: usize,
}

/// What a job asks for.
#[derive(Clone, Debug)]
pub struct Request {
    pub a: MatI,
    pub rotations: Vec<MatI>,
    pub lattice: MatD,
    pub flags: u32,
    pub bz_grid_type: u32,
    pub q0: u32,
}

/// The job of the paper.
pub fn paper() -> Request {
    Request {
        a: diag([3, 1, 1]),
        rotations: vec![IDENTITY],
        lattice: REGULAR[0],
        flags: 3,
        bz_grid_type: 2,
        q0: 1,
    }
}

fn put(job: &mut [u8], at: usize, bytes: &[u8]) {
    job[at..at + bytes.len()].copy_from_slice(bytes);
}

pub fn word(job: &[u8], place: usize) -> u32 {
    let bytes = &job[4 * place..4 * place + 4];
    u32::from_le_bytes(bytes.try_into().expect("four bytes"))
}

pub fn set_word(job: &mut [u8], place: usize, word: u32) {
    put(job, 4 * place, &word.to_le_bytes());
}

impl Request {
    /// The sections, in the order of the header: the matrix, the list, the lattice.
    fn sections(&self) -> [Vec<u8>; 3] {
        let words = |list: &[MatI]| {
            let numbers = list.as_flattened().as_flattened();
            let word = |&number: &i64| (number as i32).to_le_bytes();
            numbers.iter().flat_map(word).collect()
        };
        let floats = self.lattice.as_flattened().iter();
        let floats = floats.flat_map(|x| x.to_bits().to_le_bytes());
        [words(&[self.a]), words(&self.rotations), floats.collect()]
    }

    /// With the sections in some order, so many bytes before each.
    pub fn file(&self, order: [usize; 3], gaps: [usize; 3]) -> Vec<u8> {
        let sections = self.sections();
        let mut job = vec![0; JOB_HEADER_BYTES];
        for (section, gap) in order.into_iter().zip(gaps) {
            job.resize(job.len() + gap, 0xa5);
            let offset = job.len() as u32;
            set_word(&mut job, MATRIX + section, offset);
            job.extend(&sections[section]);
        }
        let total = job.len() as u32;
        set_word(&mut job, TOTAL, total);
        set_word(&mut job, COUNT, self.rotations.len() as u32);
        set_word(&mut job, FLAGS, self.flags);
        set_word(&mut job, TYPE, self.bz_grid_type);
        set_word(&mut job, POINT, self.q0);
        job
    }

    pub fn plain(&self) -> Vec<u8> {
        self.file([0, 1, 2], [0; 3])
    }
}

/// A job of a crystal of up to so many points.
fn request(random: &mut Random) -> Request {
    let most = random.pick(&[30, 30, 256, 300]);
    let Crystal { mut rotations, a } = crystal(random, most);
    random.shuffle(&mut rotations);
    let points = det_i(&a).unsigned_abs() as i64;
    let any = random.between(0, points - 1);
    let mut request = Request {
        a,
        rotations,
        lattice: lattice(random),
        flags: random.below(4) as u32,
        bz_grid_type: random.pick(&TYPES) as u32,
        q0: random.pick(&[0, any, any, any]) as u32,
    };
    match random.below(60) {
        0..=1 => request.rotations = groups::damaged(random, request.rotations, 2),
        2 => request.rotations = groups::list(random, 101),
        3 => request.rotations.clear(),
        4 => request.a = matrices::of_size(random, 1_000_001),
        5 => request.a = matrices::nudged(random, request.a),
        6 => request.lattice = lattices::damaged(random, request.lattice),
        7 => request.bz_grid_type = random.pick(&[0, 3, u32::MAX, 0x0200_0000]),
        8 => request.q0 = random.pick(&[points as u32, u32::MAX, 1 << 31]),
        9 => request.rotations = groups::group(random, 3),
        _ => {}
    }
    // The reciprocal call transposes them again.
    request.rotations = request.rotations.iter().map(transpose_i).collect();
    request
}

/// Changes the bytes: a word of the header, the length, or any.
fn damage(random: &mut Random, job: &mut Vec<u8>) {
    let total = job.len() as u32;
    let place = random.below(8);
    let offset = random.pick(&[
        0,
        28,
        31,
        32,
        total - 72,
        total - 71,
        total - 36,
        total - 35,
    ]);
    let any = random.bits() as u32;
    match random.below(8) {
        0..=3 => {
            let old = word(job, place);
            let near = random.pick(&[old.wrapping_add(1), old.wrapping_sub(1), old ^ 0xff00]);
            let past = random.pick(&[offset, total, total + 1, u32::MAX, u32::MAX - 35]);
            let new = random.pick(&[near, offset, past, 4, ROTATIONS as u32 + 1, any]);
            set_word(job, place, new);
        }
        4 => job.truncate(random.below(job.len())),
        5 => {
            // Longer, and told so.
            job.resize(random.pick(&[JOB_BYTES, JOB_BYTES + 1, job.len() + 1]), 0);
            let total = job.len() as u32;
            set_word(job, TOTAL, total);
        }
        6 => job.push(0),
        _ => {
            for _ in 0..random.between(1, 3) {
                let chosen = random.below(job.len());
                job[chosen] ^= 1 << random.below(8);
            }
        }
    }
}

/// With room for the text as it is lent.
fn lent(job: Vec<u8>, random: &mut Random) -> JobInput {
    let length = listing(&job).map_or(0, |text| text.len());
    let more = length + random.below(100);
    let room = [length, more, JOB_BYTES, length.saturating_sub(1), 0];
    JobInput {
        room: room[random.pick(&[0, 1, 1, 2, 2, 2, 2, 2, 3, 4])],
        job,
    }
}

impl Input for JobInput {
    fn at_limits() -> Vec<JobInput> {
        let mut inputs = jobs_at_limits::inputs();
        let job = paper().plain();
        let length = listing(&job).expect("accepted").len();
        for room in [0, 1, length - 1, length, length + 1] {
            inputs.push(JobInput {
                job: job.clone(),
                room,
            });
        }
        inputs
    }

    fn random(random: &mut Random) -> JobInput {
        let request = request(random);
        let mut order = [0, 1, 2];
        random.shuffle(&mut order);
        let gaps = [(); 3].map(|()| random.below(9) * random.below(2));
        let mut job = request.file(order, gaps);
        if random.one_in(4) {
            damage(random, &mut job);
        }
        lent(job, random)
    }

    fn typical(random: &mut Random) -> JobInput {
        JobInput::random(random)
    }

    /// The job's bytes as runs: their number, then the length and the byte of each.
    fn write(&self, line: &mut Line) {
        let runs: Vec<&[u8]> = self.job.chunk_by(|a, b| a == b).collect();
        line.number(runs.len() as i64);
        for run in runs {
            line.numbers(&[run.len() as i64, run[0].into()]);
        }
    }
}
