//! The calls of the two libraries, as their headers pmhost.h and pmpart.h have them. tools/compare_layers.py compares names,
//! numbers and sizes.

pub const VERSION: u16 = 0x0001;
pub const HOST_VERSION: u16 = 6;
pub const HOST_SIZE: usize = 2064;
pub const COURSE_VERSION: u16 = 1;
pub const COURSE_SIZE: usize = 104;
pub const DELIVERY_SIZE: usize = 66;
pub const SEQUENCE_VERSION: u16 = 1;
pub const SEQUENCE_SIZE: usize = 376;
pub const SEQUENCE_STEP_SIZE: usize = 64;
pub const SEQUENCE_RECORD_SIZE: usize = 132;
pub const CELLS: usize = 49;
pub const PART_SIZE: usize = 372;

#[repr(C)]
#[derive(Clone)]
pub struct HostImage {
    pub held: [u64; HOST_SIZE / 8],
}

#[repr(C)]
#[derive(Clone, Copy, Default)]
pub struct SendingImage {
    pub kind: u8,
    pub length: u8,
    pub answer: u8,
    pub unused: u8,
    pub bytes: [u8; 16],
}

#[repr(C)]
#[derive(Clone, Copy, Default)]
pub struct StepImage {
    pub kind: u16,
    pub word: u16,
}

#[repr(C)]
#[derive(Clone, Copy, Default)]
pub struct StandingImage {
    pub is_confirmed: u16,
    pub word: u16,
}

#[repr(C)]
#[derive(Clone, Copy, Default)]
pub struct WordsImage {
    pub count: u16,
    pub words: [u16; 16],
}

#[repr(C)]
#[derive(Clone, Copy, Default)]
pub struct CellImage {
    pub code: u8,
    pub output: u8,
    pub standing: StandingImage,
    pub words: WordsImage,
}

#[repr(C)]
#[derive(Clone, Copy)]
pub struct KnownImage {
    pub count: u16,
    pub cells: [CellImage; CELLS],
}

#[repr(C)]
#[derive(Clone, Copy, Default)]
pub struct FormatImage {
    pub kind: u8,
    pub exponent: i8,
    pub m: i16,
    pub b: i16,
}

#[repr(C)]
#[derive(Clone, Copy, Default)]
pub struct RegistersImage {
    pub vout_max: u8,
    pub vout_margin_high: u8,
    pub vout_margin_low: u8,
    pub vout_min: u8,
}

#[repr(C)]
#[derive(Clone, Copy, Default)]
pub struct LimitsImage {
    pub least: i64,
    pub most: i64,
}

#[repr(C)]
#[derive(Clone, Copy, Default)]
pub struct BandImage {
    pub least: i64,
    pub greatest: i64,
}

#[repr(C)]
#[derive(Clone, Copy, Default)]
pub struct RailImage {
    pub power: u8,
    pub within: u8,
    pub band: u8,
    pub selected: u8,
    pub unused: [u8; 4],
    pub ends: BandImage,
}

#[repr(C)]
#[derive(Clone, Copy, Default)]
pub struct WishImage {
    pub has: u16,
    pub word: u16,
}

#[repr(C)]
#[derive(Clone, Copy, Default)]
pub struct WantedImage {
    pub command: WishImage,
    pub max: WishImage,
    pub margin_high: WishImage,
    pub margin_low: WishImage,
    pub min: WishImage,
}

#[repr(C)]
#[derive(Clone, Copy, Default)]
pub struct CourseImage {
    pub held: [u64; COURSE_SIZE / 8],
}

#[repr(C)]
#[derive(Clone, Copy, Default)]
pub struct CourseEndImage {
    pub kind: u8,
    pub number: u8,
    pub code: u8,
    pub unused: u8,
    pub word: u16,
    pub fault: u16,
}

#[repr(C)]
#[derive(Clone, Copy, Default)]
pub struct CourseJobImage {
    pub kind: u8,
    pub code: u8,
    pub word: u16,
}

#[repr(C)]
#[derive(Clone, Copy, Default, PartialEq, Eq)]
pub struct HeardImage {
    pub asked: u8,
    pub fault: u8,
    pub word: u16,
}

#[repr(C)]
#[derive(Clone, Copy, Default)]
pub struct DeliveryImage {
    pub mark: u16,
    pub version: u16,
    pub output: u8,
    pub look: u8,
    pub fault_limits: u8,
    pub lacks: u8,
    pub within: u16,
    pub rounds: u16,
    pub round: u16,
    pub before: HeardImage,
    pub ov_fault_limit: HeardImage,
    pub ov_warn_limit: HeardImage,
    pub uv_warn_limit: HeardImage,
    pub uv_fault_limit: HeardImage,
    pub status_word: HeardImage,
    pub status_vout: HeardImage,
    pub status_iout: HeardImage,
    pub status_input: HeardImage,
    pub status_temperature: HeardImage,
    pub read_vout: HeardImage,
    pub power_good_on: HeardImage,
    pub power_good_off: HeardImage,
}

#[repr(C)]
#[derive(Clone, Copy, Default)]
pub struct JudgementImage {
    pub fault: u8,
    pub warning: u8,
    pub fault_word: u16,
    pub warning_word: u16,
}

#[repr(C)]
#[derive(Clone, Copy, Default, PartialEq, Eq)]
pub struct SequenceWishImage {
    pub kind: u16,
    pub word: u16,
    pub microvolts: i32,
}

#[repr(C)]
#[derive(Clone, Copy, Default, PartialEq, Eq)]
pub struct SequenceStepImage {
    pub host: u8,
    pub output: u8,
    pub kind: u8,
    pub byte: u8,
    pub unused: [u8; 4],
    pub command: SequenceWishImage,
    pub max: SequenceWishImage,
    pub margin_high: SequenceWishImage,
    pub margin_low: SequenceWishImage,
    pub min: SequenceWishImage,
    pub looks: u8,
    pub fault_limits: u8,
    pub lacks: u8,
    pub tells_power_good: u8,
    pub within: u16,
    pub rounds: u16,
    pub wait: u32,
    pub before: HeardImage,
}

#[repr(C)]
#[derive(Clone, Copy, Default)]
pub struct SequenceRecordImage {
    pub back: SequenceStepImage,
    pub look: DeliveryImage,
    pub unused: [u8; 2],
}

#[repr(C)]
#[derive(Clone, Copy, Default)]
pub struct SaidImage {
    pub kind: u8,
    pub number: u8,
    pub code: u8,
    pub verdict: u8,
    pub bit: u8,
    pub has_microvolts: u8,
    pub word: u16,
    pub fault: u16,
    pub step: u16,
    pub milliseconds: u32,
    pub microvolts: i64,
}

#[repr(C)]
#[derive(Clone, Copy, Default)]
pub struct SequenceImage {
    pub mark: u16,
    pub version: u16,
    pub left: u16,
    pub leaves: u8,
    pub asks: u8,
    pub said: SaidImage,
    pub tries: u16,
    pub begun: u16,
    pub host: u8,
    pub keeps_back: u8,
    pub ends_at_restart: u8,
    pub unused: u8,
    pub held: [[u64; 21]; 2],
}

#[repr(C)]
#[derive(Clone, Copy, Default)]
pub struct NameImage {
    pub text: [u8; 32],
}

impl NameImage {
    /// The characters in front of the zeros.
    pub fn as_str(&self) -> &str {
        let count = self.text.iter().position(|byte| *byte == 0).unwrap_or(self.text.len());
        core::str::from_utf8(&self.text[..count]).unwrap_or_default()
    }
}

#[repr(C)]
#[derive(Clone, Copy, Default)]
pub struct PacketImage {
    pub kind: u8,
    pub page: u8,
    pub code: u8,
    pub count: u8,
    pub word: u16,
}

#[repr(C)]
#[derive(Clone, Copy, Default)]
pub struct PayloadImage {
    pub length: u8,
    pub bytes: [u8; 5],
    pub word: u16,
}

#[repr(C)]
#[derive(Clone, Copy, Default)]
pub struct BlockImage {
    pub length: u8,
    pub bytes: [u8; 32],
}

#[repr(C)]
#[derive(Clone, Copy, Default)]
pub struct OutputImage {
    pub mode: u8,
    pub unused: u8,
    pub words: [u16; 6],
}

#[repr(C)]
#[derive(Clone, Copy, Default)]
pub struct ConfigImage {
    pub address: u8,
    pub outputs: u8,
    pub r: i8,
    pub unused: u8,
    pub m: i16,
    pub b: i16,
    pub protect: u16,
    pub starts: [OutputImage; 8],
}

#[repr(C)]
#[derive(Clone)]
pub struct PartImage {
    pub memory: [u16; PART_SIZE / 2],
}

#[repr(C)]
#[derive(Clone, Copy, Default)]
pub struct ReplyImage {
    pub length: u8,
    pub frame_fault: u8,
    pub bytes: [u8; 16],
}

const _: () = assert!(size_of::<HostImage>() == HOST_SIZE && size_of::<PartImage>() == PART_SIZE);
const _: () = assert!(size_of::<CourseImage>() == COURSE_SIZE && size_of::<DeliveryImage>() == DELIVERY_SIZE);
const _: () = assert!(size_of::<SequenceImage>() == SEQUENCE_SIZE && size_of::<SequenceStepImage>() == SEQUENCE_STEP_SIZE);
const _: () = assert!(size_of::<SequenceRecordImage>() == SEQUENCE_RECORD_SIZE);

extern "C" {
    pub fn pm_version() -> u16;
    pub fn pm_host_size() -> u64;
    pub fn pm_host_version() -> u16;
    pub fn pm_host_new(host: &mut HostImage, address: u8, outputs: u8, passes: u8) -> u8;
    pub fn pm_host_new_with(host: &mut HostImage, address: u8, outputs: u8, passes: u8, registers: &RegistersImage) -> u8;
    pub fn pm_host_set_limits(host: &mut HostImage, output: u8, least: i64, most: i64) -> u8;
    pub fn pm_host_no_limits(host: &mut HostImage, output: u8) -> u8;
    pub fn pm_host_limits(host: &HostImage, output: u8, limits: &mut LimitsImage) -> u8;
    pub fn pm_host_limits_state(host: &HostImage, output: u8) -> u8;
    pub fn pm_host_band(host: &HostImage, output: u8, band: &mut BandImage) -> u8;
    pub fn pm_host_order(host: &mut HostImage, output: u8, code: u8, word: u16) -> u8;
    pub fn pm_host_order_microvolts(host: &mut HostImage, output: u8, code: u8, microvolts: i64) -> u8;
    pub fn pm_host_check(host: &mut HostImage, output: u8, code: u8) -> u8;
    pub fn pm_host_learn(host: &mut HostImage, output: u8) -> u8;
    pub fn pm_host_clear(host: &mut HostImage, output: u8) -> u8;
    pub fn pm_host_store(host: &mut HostImage) -> u8;
    pub fn pm_host_restore(host: &mut HostImage) -> u8;
    pub fn pm_host_frame(host: &HostImage, sending: &mut SendingImage) -> u8;
    pub fn pm_host_write_ended(host: &mut HostImage, acked: u8) -> StepImage;
    pub fn pm_host_read_ended(host: &mut HostImage, bytes: *const u8, count: u64) -> StepImage;
    pub fn pm_host_restart(host: &mut HostImage) -> u8;
    pub fn pm_host_confirmed_word(host: &HostImage, output: u8, code: u8, standing: &mut StandingImage) -> u8;
    pub fn pm_host_possible_words(host: &HostImage, output: u8, code: u8, words: &mut WordsImage) -> u8;
    pub fn pm_host_format(host: &HostImage, output: u8, format: &mut FormatImage) -> u8;
    pub fn pm_host_known_cells(host: &HostImage, known: &mut KnownImage) -> u8;
    pub fn pm_host_restart_seen(host: &HostImage) -> u8;
    pub fn pm_host_rail(host: &HostImage, output: u8, rail: &mut RailImage) -> u8;
    pub fn pm_course_size() -> u64;
    pub fn pm_course_version() -> u16;
    pub fn pm_course_survey(course: &mut CourseImage, output: u8, tries: u16) -> u8;
    pub fn pm_course_words(course: &mut CourseImage, output: u8, wanted: &WantedImage, tries: u16) -> u8;
    pub fn pm_course_microvolts(course: &mut CourseImage, output: u8, code: u8, microvolts: i64, tries: u16) -> u8;
    pub fn pm_course_power(course: &mut CourseImage, output: u8, byte: u8, tries: u16) -> u8;
    pub fn pm_course_accept(course: &mut CourseImage, host: &HostImage, microvolts: u32) -> u8;
    pub fn pm_course_want(course: &mut CourseImage, code: u8, microvolts: i64) -> u8;
    pub fn pm_course_frame(course: &mut CourseImage, host: &mut HostImage, sending: &mut SendingImage) -> u8;
    pub fn pm_course_write_ended(course: &mut CourseImage, host: &mut HostImage, acked: u8) -> StepImage;
    pub fn pm_course_read_ended(course: &mut CourseImage, host: &mut HostImage, bytes: *const u8, count: u64) -> StepImage;
    pub fn pm_course_after_write(
        course: &mut CourseImage,
        host: &mut HostImage,
        acked: u8,
        stops: u8,
        next: &mut SendingImage,
    ) -> StepImage;
    pub fn pm_course_after_read(
        course: &mut CourseImage,
        host: &mut HostImage,
        bytes: *const u8,
        count: u64,
        stops: u8,
        next: &mut SendingImage,
    ) -> StepImage;
    pub fn pm_course_ended(course: &CourseImage, end: &mut CourseEndImage) -> u8;
    pub fn pm_course_next(course: &CourseImage, host: &HostImage, next: &mut CourseJobImage) -> u8;
    pub fn pm_course_job_now(course: &CourseImage, now: &mut CourseJobImage) -> u8;
    pub fn pm_course_goal(course: &CourseImage, host: &HostImage, code: u8, word: &mut u16) -> u8;
    pub fn pm_sequence_size() -> u64;
    pub fn pm_sequence_version() -> u16;
    pub fn pm_sequence_new(sequence: &mut SequenceImage, tries: u16, rules: u8);
    pub fn pm_sequence_next(
        sequence: &mut SequenceImage,
        host: &mut HostImage,
        steps: *const SequenceStepImage,
        count: u64,
        records: *mut SequenceRecordImage,
        room: u64,
        frame: &mut SendingImage,
    ) -> u8;
    pub fn pm_sequence_write_ended(sequence: &mut SequenceImage, host: &mut HostImage, acked: u8) -> StepImage;
    pub fn pm_sequence_read_ended(sequence: &mut SequenceImage, host: &mut HostImage, bytes: *const u8, count: u64) -> StepImage;
    pub fn pm_sequence_judge(record: &SequenceRecordImage, host: &HostImage, word: u16, judgement: &mut JudgementImage) -> u8;
    pub fn pm_refusal_name(number: u8, name: &mut NameImage) -> u8;
    pub fn pm_end_name(kind: u16, name: &mut NameImage) -> u8;
    pub fn pm_microvolts(format: &FormatImage, word: u16, microvolts: &mut i64) -> u8;
    pub fn pm_nearest_word(format: &FormatImage, microvolts: i64, word: &mut u16) -> u8;
    pub fn pm_at_most(format: &FormatImage, microvolts: i64, word: &mut u16) -> u8;
    pub fn pm_at_least(format: &FormatImage, microvolts: i64, word: &mut u16) -> u8;
    pub fn pm_pec(bytes: *const u8, count: u64) -> u8;
    pub fn pm_packet_write(address: u8, packet: &PacketImage, frame: &mut SendingImage) -> u8;
    pub fn pm_packet_read_write(address: u8, bytes: *const u8, count: u64, packet: &mut PacketImage) -> u8;
    pub fn pm_packet_read_request(address: u8, bytes: *const u8, count: u64, packet: &mut PacketImage) -> u8;
    pub fn pm_packet_read_answer(
        address: u8,
        request: &PacketImage,
        bytes: *const u8,
        count: u64,
        payload: &mut PayloadImage,
    ) -> u8;
    pub fn pm_read_block(address: u8, code: u8, bytes: *const u8, count: u64, block: &mut BlockImage) -> u8;
    pub fn pm_read_plain(address: u8, code: u8, size: u8, bytes: *const u8, count: u64, block: &mut BlockImage) -> u8;
    pub fn pm_paged_request(address: u8, page: u8, code: u8, size: u8, frame: &mut SendingImage) -> u8;
    pub fn pm_read_paged(address: u8, page: u8, code: u8, size: u8, bytes: *const u8, count: u64, block: &mut BlockImage) -> u8;
    pub fn pm_part_size() -> u64;
    pub fn pm_part_new(part: &mut PartImage, config: &ConfigImage) -> u8;
    pub fn pm_part_hear(part: &mut PartImage, bytes: *const u8, count: u64, is_request: u8, reply: &mut ReplyImage) -> u8;
    pub fn pm_part_restart(part: &mut PartImage) -> u8;
    pub fn pm_part_set_reading(part: &mut PartImage, output: u8, code: u8, word: u16) -> u8;
    pub fn pm_part_word(part: &PartImage, output: u8, code: u8, word: &mut u16) -> u8;
    pub fn pm_part_stored_word(part: &PartImage, output: u8, code: u8, word: &mut u16) -> u8;
    pub fn pm_part_page(part: &PartImage, page: &mut u8) -> u8;
    pub fn pm_part_commanded_microvolts(part: &PartImage, output: u8, microvolts: &mut i64) -> u8;
    pub fn pm_part_on_state(part: &PartImage, output: u8, on: &mut u8) -> u8;
    pub fn pm_part_status_byte(part: &PartImage, output: u8, status: &mut u8) -> u8;
    pub fn pm_part_status_word(part: &PartImage, output: u8, status: &mut u16) -> u8;
    pub fn pm_part_status_vout(part: &PartImage, output: u8, status: &mut u8) -> u8;
    pub fn pm_part_status_cml(part: &PartImage, status: &mut u8) -> u8;
}
