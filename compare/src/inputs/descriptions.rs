//! Descriptions: valid ones over the whole range, and ones that break a chosen rule.

use crate::rng::Rng;
use crate::second::description::{
    list_bits, Description, Multiplex, Pipe, PipeFields, Section, Stream, Tail, TailFields,
};
use crate::second::patterns;
use crate::second::refusal;
use crate::second::signalling::BODY_BITS;

/// A valid description. Over many calls each p from 0 to 14 comes, pipes used
/// and unused with any count fields, all patterns 0 to 63, the tail used and
/// unused, lists from empty to the bound, and all field values.
pub fn description(rng: &mut Rng) -> Description {
    let p = match rng.below(8) {
        0 => 14,
        1 | 2 => rng.range(0, 4),
        _ => rng.range(0, 14),
    };
    let mut plan = Plan::new(rng, p, BODY_BITS);
    let tries = match rng.below(3) {
        0 => 0,
        1 => rng.below(40),
        _ => 400,
    };
    plan.grow(rng, tries, BODY_BITS);
    plan.build(rng)
}

/// A payload pipe of pattern 5 and width 18 with these stream ids and one section of 32 taps, its other
/// fields 0.
pub fn plain_pipe(ids: std::ops::Range<u32>) -> Pipe {
    Pipe {
        fields: PipeFields {
            punct_pat_id: 5,
            pipe_width_cus: 18,
            num_sts_1: ids.len() as u32 - 1,
            ..PipeFields::default()
        },
        streams: ids.map(plain_stream).collect(),
        sections: vec![Section {
            num_taps_div2_1: 15,
            ..Section::default()
        }],
    }
}

fn plain_stream(sts_id: u32) -> Stream {
    Stream {
        sts_id,
        sts_width_slots_1: 0,
    }
}

/// These pipes and a tail, in use if it has a stream id, with all other fields 0.
pub fn plain(pipes: Vec<Pipe>, tail: Option<u32>) -> Description {
    Description {
        multiplex: Multiplex {
            num_pipes_1: pipes.len() as u32,
            ..Multiplex::default()
        },
        pipes,
        tail: Tail {
            fields: TailFields {
                pipe_width_cus: u32::from(tail.is_some()),
                ..TailFields::default()
            },
            stream: tail.map(plain_stream),
        },
    }
}

/// 01's points on either side of the bound of 750 bits, each with the number that it gets.
pub fn points_at_the_bound() -> [(Description, u8); 4] {
    let unused = |p| plain(vec![Pipe::default(); p], None);
    let streams = |s: u32| plain(vec![plain_pipe(0..32), plain_pipe(32..s - 1)], Some(s - 1));
    [
        (unused(14), 0),
        (unused(15), refusal::LISTS),
        (streams(34), 0),
        (streams(35), refusal::LISTS),
    ]
}

pub(super) fn description_where(
    rng: &mut Rng,
    wanted: impl Fn(&Description) -> bool,
) -> Description {
    loop {
        let description = description(rng);
        if wanted(&description) {
            return description;
        }
    }
}

/// A whole description whose lists pass 750 bits, and that fits a sheet; other
/// rules may be broken as well. Some pass the bound by as little as can be.
pub(super) fn overlong(rng: &mut Rng) -> Description {
    loop {
        let fifteen = rng.chance(1, 4);
        let p = if fifteen { 15 } else { rng.range(2, 14) };
        let mut plan = Plan::new(rng, p, if fifteen { usize::MAX } else { BODY_BITS });
        if !fifteen {
            plan.grow(rng, 400, BODY_BITS);
            let tries = 300;
            for _ in 0..tries {
                if plan.bits() > BODY_BITS {
                    break;
                }
                plan.grow(rng, 1, usize::MAX);
                plan.tail |= rng.chance(1, 8);
            }
        }
        if rng.chance(1, 3) {
            let tries = rng.below(100);
            plan.grow(rng, tries, usize::MAX);
        }
        if plan.bits() <= BODY_BITS || plan.counts().0 > 255 {
            continue;
        }
        let mut description = plan.build(rng);
        if rng.chance(1, 3) {
            break_later(rng, &mut description);
        }
        return description;
    }
}

/// A description that keeps all rules before `number` (9, 10 or 11) and breaks
/// that one; it may break later ones.
pub(super) fn breaking(rng: &mut Rng, number: u8) -> Description {
    let mut description = description_where(rng, |description| match number {
        refusal::TWICE => description.counts().1 > 1,
        _ => description.pipes.iter().any(|pipe| pipe.fields.in_use()),
    });
    if rng.chance(1, 3) {
        if number == refusal::WIDTH {
            break_taps(rng, &mut description);
        }
        if number != refusal::TWICE && description.counts().1 > 1 {
            break_ids(rng, &mut description);
        }
    }
    match number {
        refusal::WIDTH => break_width(rng, &mut description),
        refusal::TAPS => break_taps(rng, &mut description),
        _ => break_ids(rng, &mut description),
    }
    description
}

/// One fault, or just a change, in a valid description.
pub(super) fn fault(rng: &mut Rng, description: &mut Description) {
    match rng.below(9) {
        0 => description.multiplex.sig_pipe_ver = rng.field(4),
        1 => description.multiplex.num_pipes_1 = rng.field(4),
        2 => description.tail.fields.pipe_width_cus = rng.field(9),
        choice => {
            if description.pipes.is_empty() {
                return;
            }
            let index = rng.below(description.pipes.len());
            let pipe = &mut description.pipes[index];
            match choice {
                3 => pipe.fields.pipe_width_cus = rng.field(10),
                4 => pipe.fields.punct_pat_id = rng.field(6),
                5 => pipe.fields.num_sts_1 = rng.field(5),
                6 => pipe.fields.num_disperser_sections_1 = rng.field(3),
                7 if !pipe.sections.is_empty() => {
                    let at = rng.below(pipe.sections.len());
                    pipe.sections[at].num_taps_div2_1 = rng.field(4);
                }
                8 if !pipe.streams.is_empty() && rng.flag() => {
                    let at = rng.below(pipe.streams.len());
                    pipe.streams[at].sts_id = rng.field(8);
                }
                8 if description.counts().1 > 1 => break_ids(rng, description),
                _ => {}
            }
        }
    }
}

/// Breaks rules 9, 10, 11, if the description has what it takes.
pub(super) fn break_later(rng: &mut Rng, description: &mut Description) {
    if description.pipes.iter().any(|pipe| pipe.fields.in_use()) {
        if rng.flag() {
            break_width(rng, description);
        }
        if rng.flag() {
            break_taps(rng, description);
        }
    }
    if rng.flag() && description.counts().1 > 1 {
        break_ids(rng, description);
    }
}

fn break_width(rng: &mut Rng, description: &mut Description) {
    let pipe = some_pipe_in_use(rng, description);
    pipe.fields.punct_pat_id = rng.below(28) as u32;
    let unit = patterns::pattern(pipe.fields.punct_pat_id)
        .expect("below 28")
        .capacity_units();
    // Zero is a multiple too, so the pipe stays in use.
    let fits = |width: u32| width == width / unit * unit;
    while fits(pipe.fields.pipe_width_cus) {
        pipe.fields.pipe_width_cus = match rng.below(3) {
            0 => unit - 1,
            1 => unit + 1,
            _ => rng.field(10),
        };
    }
}

fn break_taps(rng: &mut Rng, description: &mut Description) {
    let pipe = some_pipe_in_use(rng, description);
    let at = rng.below(pipe.sections.len());
    let section = &mut pipe.sections[at];
    // Another value of the field, and so another sum.
    section.num_taps_div2_1 = (section.num_taps_div2_1 + rng.range(1, 15) as u32) % 16;
}

fn break_ids(rng: &mut Rng, description: &mut Description) {
    let count = description.counts().1;
    let from = rng.below(count);
    let to = (from + rng.range(1, count - 1)) % count;
    let id = description
        .streams()
        .nth(from)
        .expect("below the count")
        .sts_id;
    let streams = description
        .pipes
        .iter_mut()
        .flat_map(|pipe| pipe.streams.iter_mut());
    let mut streams = streams.chain(description.tail.stream.iter_mut());
    streams.nth(to).expect("below the count").sts_id = id;
}

fn some_pipe_in_use<'a>(rng: &mut Rng, description: &'a mut Description) -> &'a mut Pipe {
    let mut used: Vec<&mut Pipe> = description
        .pipes
        .iter_mut()
        .filter(|pipe| pipe.fields.in_use())
        .collect();
    let index = rng.below(used.len());
    used.swap_remove(index)
}

/// How many streams and sections each pipe owns: 0 of both, or at least one of
/// each.
struct Plan {
    pipes: Vec<(usize, usize)>,
    tail: bool,
}

impl Plan {
    /// Some of `p` pipes in use with one stream and one section each, within
    /// `bound` bits as long as pipes and tail alone fit.
    fn new(rng: &mut Rng, p: usize, bound: usize) -> Self {
        let mut plan = Plan {
            pipes: vec![(0, 0); p],
            tail: rng.flag(),
        };
        if plan.bits() > bound {
            plan.tail = false;
        }
        let odds = rng.range(0, 4);
        for index in 0..p {
            if rng.chance(odds, 4) {
                plan.pipes[index] = (1, 1);
                if plan.bits() > bound {
                    plan.pipes[index] = (0, 0);
                }
            }
        }
        plan
    }

    fn counts(&self) -> (usize, usize) {
        let streams: usize = self.pipes.iter().map(|pipe| pipe.0).sum();
        let sections = self.pipes.iter().map(|pipe| pipe.1).sum();
        (streams + usize::from(self.tail), sections)
    }

    fn bits(&self) -> usize {
        let (s, d) = self.counts();
        list_bits(self.pipes.len(), s, d)
    }

    /// Adds streams and sections to pipes in use, `tries` times, within
    /// `bound` bits. Some plans grow in streams only, some in sections only.
    fn grow(&mut self, rng: &mut Rng, tries: usize, bound: usize) {
        let streams_of_4 = [0, 1, 2, 3, 4][rng.below(5)];
        for _ in 0..tries {
            if self.pipes.is_empty() {
                return;
            }
            let index = rng.below(self.pipes.len());
            let before = self.pipes[index];
            if before.0 == 0 {
                continue;
            }
            if rng.chance(streams_of_4, 4) {
                self.pipes[index].0 = (before.0 + 1).min(32);
            } else {
                self.pipes[index].1 = (before.1 + 1).min(8);
            }
            if self.bits() > bound {
                self.pipes[index] = before;
            }
        }
    }

    /// A description after the plan that keeps all rules but perhaps the
    /// bound (and that of ids, if there are more than 256 streams).
    fn build(&self, rng: &mut Rng) -> Description {
        let mut ids: Vec<u32> = (0..256).collect();
        rng.shuffle(&mut ids);
        let mut ids = ids.into_iter().cycle();
        let mut stream = |rng: &mut Rng| Stream {
            sts_id: ids.next().expect("endless"),
            sts_width_slots_1: rng.field(8),
        };
        let pipes = self
            .pipes
            .iter()
            .map(|&(streams, sections)| {
                let punct_pat_id = pattern_number(rng);
                let fields = PipeFields {
                    punct_pat_id,
                    pipe_width_cus: if streams > 0 {
                        good_width(rng, punct_pat_id)
                    } else {
                        0
                    },
                    num_sts_1: if streams > 0 {
                        streams as u32 - 1
                    } else {
                        rng.field(5)
                    },
                    num_disperser_sections_1: if streams > 0 {
                        sections as u32 - 1
                    } else {
                        rng.field(3)
                    },
                    disperser_inv_flag: rng.flag(),
                    regrouping_flag: rng.flag(),
                    inter_schedule_period_countdown_slots: rng.field(10),
                    tap_diff_mult_int_1: rng.field(4),
                    tap_diff_mult_fract_1_16: rng.field(4),
                    schedule_index: rng.field(4),
                };
                Pipe {
                    fields,
                    streams: (0..streams).map(|_| stream(rng)).collect(),
                    sections: good_sections(rng, sections),
                }
            })
            .collect();
        let width = match rng.below(4) {
            0 => 1,
            1 => 511,
            _ => rng.range(1, 511) as u32,
        };
        let tail = Tail {
            fields: TailFields {
                punct_pat_id: rng.field(6),
                codeword_align_flag: rng.flag(),
                pipe_width_cus: if self.tail { width } else { 0 },
            },
            stream: self.tail.then(|| stream(rng)),
        };
        let multiplex = Multiplex {
            sig_pipe_ver: 0,
            reconfig_flag: rng.flag(),
            event_countdown: rng.field(11),
            operator_id: rng.field(8),
            resync_flag: rng.flag(),
            reschedule_flag: rng.flag(),
            frame_index: rng.field(22),
            max_inter_schedule_period_length_frames_div2_1: rng.field(2),
            config_index: rng.field(2),
            num_pipes_1: self.pipes.len() as u32,
        };
        Description {
            multiplex,
            pipes,
            tail,
        }
    }
}

fn pattern_number(rng: &mut Rng) -> u32 {
    match rng.below(4) {
        0 => rng.range(28, 63) as u32,
        1 => rng.field(6),
        _ => rng.below(28) as u32,
    }
}

/// A width above 0 that goes with the pattern.
fn good_width(rng: &mut Rng, pattern: u32) -> u32 {
    let unit = patterns::pattern(pattern).map_or(1, |pattern| pattern.capacity_units());
    let most = 1023 / unit;
    let times = match rng.below(6) {
        0 => 1,
        1 => most,
        _ => rng.range(1, most as usize) as u32,
    };
    unit * times
}

/// `count` sections (at most 8) of 32 taps together.
pub(super) fn good_sections(rng: &mut Rng, count: usize) -> Vec<Section> {
    // Sixteen pairs of taps, cut at count - 1 of the 15 places between them.
    let mut cuts: Vec<usize> = (1..16).collect();
    rng.shuffle(&mut cuts);
    cuts.truncate(count.saturating_sub(1));
    cuts.sort_unstable();
    cuts.push(16);
    let mut before = 0;
    cuts.into_iter()
        .take(count)
        .map(|cut| {
            let pairs = cut - std::mem::replace(&mut before, cut);
            Section {
                num_taps_div2_1: pairs as u32 - 1,
                tap_diff: rng.field(3),
                gap_width: rng.field(5),
            }
        })
        .collect()
}
