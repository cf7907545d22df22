//! What a signalling word says, as a tree: the multiplex, its payload pipes
//! with their streams and sections, and the tail pipe with its stream.
//! The records hold the fields of tables 15, 16, 16b, 18 and 19 under the
//! standard's names and in the standard's order.

use super::bits::{BitReader, BitWriter};

/// Table 15, 56 bits.
#[derive(Clone, Debug, Default, PartialEq, Eq)]
pub struct Multiplex {
    pub sig_pipe_ver: u32,
    pub reconfig_flag: bool,
    pub event_countdown: u32,
    pub operator_id: u32,
    pub resync_flag: bool,
    pub reschedule_flag: bool,
    pub frame_index: u32,
    pub max_inter_schedule_period_length_frames_div2_1: u32,
    pub config_index: u32,
    pub num_pipes_1: u32,
}

impl Multiplex {
    pub const BITS: usize = 56;

    pub fn read(from: &mut BitReader) -> Self {
        Multiplex {
            sig_pipe_ver: from.number(4),
            reconfig_flag: from.flag(),
            event_countdown: from.number(11),
            operator_id: from.number(8),
            resync_flag: from.flag(),
            reschedule_flag: from.flag(),
            frame_index: from.number(22),
            max_inter_schedule_period_length_frames_div2_1: from.number(2),
            config_index: from.number(2),
            num_pipes_1: from.number(4),
        }
    }

    pub fn write(&self, to: &mut BitWriter) {
        to.number(4, self.sig_pipe_ver);
        to.flag(self.reconfig_flag);
        to.number(11, self.event_countdown);
        to.number(8, self.operator_id);
        to.flag(self.resync_flag);
        to.flag(self.reschedule_flag);
        to.number(22, self.frame_index);
        to.number(2, self.max_inter_schedule_period_length_frames_div2_1);
        to.number(2, self.config_index);
        to.number(4, self.num_pipes_1);
    }
}

/// Table 16, 48 bits: a payload pipe.
#[derive(Clone, Debug, Default, PartialEq, Eq)]
pub struct PipeFields {
    pub punct_pat_id: u32,
    pub pipe_width_cus: u32,
    pub num_sts_1: u32,
    pub num_disperser_sections_1: u32,
    pub disperser_inv_flag: bool,
    pub regrouping_flag: bool,
    pub inter_schedule_period_countdown_slots: u32,
    pub tap_diff_mult_int_1: u32,
    pub tap_diff_mult_fract_1_16: u32,
    pub schedule_index: u32,
}

impl PipeFields {
    pub const BITS: usize = 48;

    pub fn read(from: &mut BitReader) -> Self {
        PipeFields {
            punct_pat_id: from.number(6),
            pipe_width_cus: from.number(10),
            num_sts_1: from.number(5),
            num_disperser_sections_1: from.number(3),
            disperser_inv_flag: from.flag(),
            regrouping_flag: from.flag(),
            inter_schedule_period_countdown_slots: from.number(10),
            tap_diff_mult_int_1: from.number(4),
            tap_diff_mult_fract_1_16: from.number(4),
            schedule_index: from.number(4),
        }
    }

    pub fn write(&self, to: &mut BitWriter) {
        to.number(6, self.punct_pat_id);
        to.number(10, self.pipe_width_cus);
        to.number(5, self.num_sts_1);
        to.number(3, self.num_disperser_sections_1);
        to.flag(self.disperser_inv_flag);
        to.flag(self.regrouping_flag);
        to.number(10, self.inter_schedule_period_countdown_slots);
        to.number(4, self.tap_diff_mult_int_1);
        to.number(4, self.tap_diff_mult_fract_1_16);
        to.number(4, self.schedule_index);
    }

    /// Width 0: not in use (clause 4.10.9).
    pub fn in_use(&self) -> bool {
        self.pipe_width_cus > 0
    }

    /// The streams that the pipe owns by its record.
    pub fn owned_streams(&self) -> usize {
        if self.in_use() {
            self.num_sts_1 as usize + 1
        } else {
            0
        }
    }

    /// The sections that the pipe owns by its record.
    pub fn owned_sections(&self) -> usize {
        if self.in_use() {
            self.num_disperser_sections_1 as usize + 1
        } else {
            0
        }
    }
}

/// Table 16b (table 17 in the standard's captions), 16 bits: the tail pipe.
#[derive(Clone, Debug, Default, PartialEq, Eq)]
pub struct TailFields {
    pub punct_pat_id: u32,
    pub codeword_align_flag: bool,
    pub pipe_width_cus: u32,
}

impl TailFields {
    pub const BITS: usize = 16;

    pub fn read(from: &mut BitReader) -> Self {
        TailFields {
            punct_pat_id: from.number(6),
            codeword_align_flag: from.flag(),
            pipe_width_cus: from.number(9),
        }
    }

    pub fn write(&self, to: &mut BitWriter) {
        to.number(6, self.punct_pat_id);
        to.flag(self.codeword_align_flag);
        to.number(9, self.pipe_width_cus);
    }

    pub fn in_use(&self) -> bool {
        self.pipe_width_cus > 0
    }

    /// One stream if in use, else none (clause 4.10.8). Never a section.
    pub fn owned_streams(&self) -> usize {
        usize::from(self.in_use())
    }
}

/// Table 18, 16 bits: an S-TS.
#[derive(Clone, Debug, Default, PartialEq, Eq)]
pub struct Stream {
    pub sts_id: u32,
    pub sts_width_slots_1: u32,
}

impl Stream {
    pub const BITS: usize = 16;

    pub fn read(from: &mut BitReader) -> Self {
        Stream {
            sts_id: from.number(8),
            sts_width_slots_1: from.number(8),
        }
    }

    pub fn write(&self, to: &mut BitWriter) {
        to.number(8, self.sts_id);
        to.number(8, self.sts_width_slots_1);
    }
}

/// Table 19, 12 bits: a disperser section.
#[derive(Clone, Debug, Default, PartialEq, Eq)]
pub struct Section {
    pub num_taps_div2_1: u32,
    pub tap_diff: u32,
    pub gap_width: u32,
}

impl Section {
    pub const BITS: usize = 12;

    pub fn read(from: &mut BitReader) -> Self {
        Section {
            num_taps_div2_1: from.number(4),
            tap_diff: from.number(3),
            gap_width: from.number(5),
        }
    }

    pub fn write(&self, to: &mut BitWriter) {
        to.number(4, self.num_taps_div2_1);
        to.number(3, self.tap_diff);
        to.number(5, self.gap_width);
    }

    pub fn taps(&self) -> u32 {
        (self.num_taps_div2_1 + 1) * 2
    }
}

/// A payload pipe with what hangs on it.
#[derive(Clone, Debug, Default, PartialEq, Eq)]
pub struct Pipe {
    pub fields: PipeFields,
    pub streams: Vec<Stream>,
    pub sections: Vec<Section>,
}

/// The tail pipe with its stream.
#[derive(Clone, Debug, Default, PartialEq, Eq)]
pub struct Tail {
    pub fields: TailFields,
    pub stream: Option<Stream>,
}

/// All that a signalling word says.
#[derive(Clone, Debug, Default, PartialEq, Eq)]
pub struct Description {
    pub multiplex: Multiplex,
    pub pipes: Vec<Pipe>,
    pub tail: Tail,
}

impl Description {
    /// Hangs the flat lists of a word or a sheet on the pipes, in order of
    /// pipe, the tail's stream last. The lists must be as long as the records
    /// say; anything else is a slip of the caller and panics.
    pub fn assemble(
        multiplex: Multiplex,
        pipes: Vec<PipeFields>,
        tail: TailFields,
        streams: Vec<Stream>,
        sections: Vec<Section>,
    ) -> Self {
        let mut streams = streams.into_iter();
        let mut sections = sections.into_iter();
        let pipes: Vec<Pipe> = pipes
            .into_iter()
            .map(|fields| Pipe {
                streams: streams.by_ref().take(fields.owned_streams()).collect(),
                sections: sections.by_ref().take(fields.owned_sections()).collect(),
                fields,
            })
            .collect();
        let tail = Tail {
            stream: if tail.in_use() { streams.next() } else { None },
            fields: tail,
        };
        let description = Description {
            multiplex,
            pipes,
            tail,
        };
        assert!(streams.next().is_none() && sections.next().is_none() && description.is_whole());
        description
    }

    /// All streams in their order, the tail's last.
    pub fn streams(&self) -> impl Iterator<Item = &Stream> {
        self.pipes
            .iter()
            .flat_map(|pipe| pipe.streams.iter())
            .chain(self.tail.stream.iter())
    }

    /// All sections in their order.
    pub fn sections(&self) -> impl Iterator<Item = &Section> {
        self.pipes.iter().flat_map(|pipe| pipe.sections.iter())
    }

    /// The pipes, streams and sections that hang in the tree: p, s and d.
    pub fn counts(&self) -> (usize, usize, usize) {
        (
            self.pipes.len(),
            self.streams().count(),
            self.sections().count(),
        )
    }

    /// The bits of the multiplex fields and the lists.
    pub fn bits(&self) -> usize {
        let (p, s, d) = self.counts();
        list_bits(p, s, d)
    }

    /// Whether the records say what hangs in the tree.
    pub fn is_whole(&self) -> bool {
        self.pipes.len() == self.multiplex.num_pipes_1 as usize
            && self.pipes.iter().all(|pipe| {
                pipe.streams.len() == pipe.fields.owned_streams()
                    && pipe.sections.len() == pipe.fields.owned_sections()
            })
            && usize::from(self.tail.stream.is_some()) == self.tail.fields.owned_streams()
    }
}

/// The bits of the multiplex fields, p pipes, the tail, s streams, d sections.
pub fn list_bits(p: usize, s: usize, d: usize) -> usize {
    Multiplex::BITS + PipeFields::BITS * p + TailFields::BITS + Stream::BITS * s + Section::BITS * d
}
