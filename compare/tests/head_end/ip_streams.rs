//! The head-end over IP packets: what it sends of them, the pictures that it prints of their words, that it reads them
//! back, with words lost too, which files it refuses, and that it fails over a library with a fault (broken_ip.c).

use super::ip_sent::{Run, Sent, Slots, ONE_SLOT, QUICK_SLOTS, STORY_SLOTS};
use super::ip_story::story_ip;
use super::{on_the_way, sheet, story, SHORTEST, SHORTEST_UNITS};
use crate::head_end::{headend, headend_with};
use crate::program::{self, file, x86_64};
use compare::inputs::{ip_queue, plain_packet};
use compare::rng::Rng;
use compare::second::ip::{PACKET_HEADER_BYTES, PAYLOAD_BYTES};
use std::fs;
use std::path::{Path, PathBuf};
use std::sync::OnceLock;

fn printed(run: &Run) -> String {
    program::run(headend(), &run.words())
}

/// What it says where it refuses to run; it has then written no file.
fn refused(run: &Run) -> String {
    let (printed, said) = failed(headend(), run, "none");
    assert_eq!(printed, "");
    assert!(!run.path("frames").exists() && !run.path("back").exists());
    said
}

/// A run that fails: what it prints, and what it says.
fn failed(program: &Path, run: &Run, fault: &str) -> (String, String) {
    let mut command = x86_64("run", program);
    let output = command.args(run.words()).env("FAULT", fault).output();
    let output = output.expect("a shell starts");
    let [printed, said] = [output.stdout, output.stderr]
        .map(|bytes| String::from_utf8(bytes).expect("it prints and says text"));
    assert_eq!(output.status.code(), Some(1), "{fault}: {said}");
    (printed, said)
}

/// Runs it, and holds all that it says of the packets, and those that it writes, to what is due.
#[track_caller]
fn holds(run: &Run, slots: Slots) -> (String, Sent) {
    let printed = printed(run);
    let [sent, come] = Sent::of(run, slots);
    let written = sent.written(run, slots.id);
    assert!(printed.contains(&written), "{printed}\nlacks{written}");
    let read = come.read(run, slots.id, sent.words.len()) + &come.read_again(slots.id);
    assert!(printed.ends_with(&read), "{printed}\ndoes not end{read}");
    let back = fs::read(run.path("back")).expect("the packets are written");
    assert!(back == come.packets[..come.whole].concat());
    (printed, come)
}

/// As `make demo` has it: 16 words in eleven frames, 98 frames more, and the packets that are lost with three of them.
#[test]
fn the_demonstrations_packets_come_back() {
    let mut run = Run::of("story", story_ip());
    run.sheet = story();
    let (printed, come) = holds(&run, STORY_SLOTS);
    assert_eq!((come.words.len(), come.frames, come.dummies), (16, 109, 68));
    assert!(fs::read(run.path("back")).ok() == Some(story_ip()));
    for line in [
        "     2          none  ddddddddddddddddddddddddddddddddddddddddddddddd\n",
        "     7           639  jjjjjjjjjjjjjjjjjjjKkkkkkkkkkkkkkkkkkkkkkkkkkkL\n",
        "    15             0  XxxxxxxxxxxxxxxxxxxxxxxxxxxxxxxYyZzzzzzzz......\n",
        "\nstream 36 once more, with words 5 and 6 lost and word 10 refused: ",
        "     7           639  -------------------KkkkkkkkkkkkkkkkkkkkkkkkkkkL\n",
        "  packets                                  17 given back, whole and in order\n",
        "    Q  packet 16, 3000 bytes, in words 10 to 12\n",
    ] {
        assert!(printed.contains(line), "{printed}\nlacks\n{line}");
    }
}

#[test]
fn packets_of_any_length_come_back() {
    let mut rng = Rng::new(741);
    for count in [1, 3, 8, 34] {
        let run = Run::alone(&format!("{count}_packets"), ip_queue(&mut rng, count));
        holds(&run, QUICK_SLOTS);
    }
}

/// One word, which is refused; the fewest and the most of which one is lost and one refused; and the fewest of which two
/// are lost and one is refused.
#[test]
fn of_few_words_some_are_lost_too() {
    for words in [1, 2, 5, 6] {
        let packet = plain_packet(2, 0, 700, 0x55);
        let count = words * PAYLOAD_BYTES / (700 + PACKET_HEADER_BYTES);
        let run = Run::alone(&format!("{words}_words"), packet.repeat(count));
        let (_, sent) = holds(&run, QUICK_SLOTS);
        assert_eq!(sent.words.len(), words);
    }
}

/// The smallest packets, of which more are lost than are listed.
#[test]
fn of_many_lost_packets_some_are_listed() {
    let run = Run::alone("many", plain_packet(1, 0x80, 1, 0xFF).repeat(4_000));
    let (printed, _) = holds(&run, QUICK_SLOTS);
    assert!(
        printed.contains("; 4000 with the error bit set\n"),
        "{printed}"
    );
    assert!(printed.ends_with(" more\n"), "{printed}");
}

/// Where packets fill a word to its last bytes: a header in the last two, or in none of them.
#[test]
fn headers_stand_where_they_fit() {
    for left in 0..=3 {
        let first = plain_packet(1, 0, (PAYLOAD_BYTES - PACKET_HEADER_BYTES - left) as u16, 1);
        let ip = [
            first,
            plain_packet(2, 1, 40, 2),
            plain_packet(1, 0, 4_095, 3),
        ]
        .concat();
        holds(&Run::alone(&format!("{left}_left"), ip), QUICK_SLOTS);
    }
}

/// With a number of frames no more are played. With five a packet is begun that is not whole; and a stream may have
/// just one slot, and no transport stream beside it.
#[test]
fn what_does_not_fit_the_frames_waits() {
    for frames in [5, 13, 14, 17] {
        let mut run = Run::of(&format!("{frames}_frames"), story_ip());
        run.frames = Some(frames);
        let (_, come) = holds(&run, QUICK_SLOTS);
        assert_eq!(come.whole < 26, frames < 14);
    }
    let mut run = Run::of("one_slot", story_ip());
    (run.sheet, run.stream) = (sheet(SHORTEST, SHORTEST_UNITS), None);
    let (_, sent) = holds(&run, ONE_SLOT);
    assert_eq!((sent.frames, sent.dummies), (16, 0));
}

/// Within as many frames as the greatest delay no packet comes back.
#[test]
fn what_is_not_whole_is_on_the_way() {
    let mut run = Run::of("on_the_way", story_ip());
    run.frames = Some(3);
    let printed = printed(&run);
    let words = Sent::of(&run, QUICK_SLOTS).map(|sent| sent.words.len());
    assert_eq!(words, [4, 0]);
    let last = format!("\nstream 36 read back from all 3 frames\n{}", on_the_way(4));
    assert!(printed.ends_with(&last), "{printed}");
    assert!(fs::read(run.path("back")).is_ok_and(|back| back.is_empty()));
}

/// More words than are shown, and more than come back of 100 frames.
#[test]
fn of_a_long_stream_the_first_words_are_shown() {
    let ip = ip_queue(&mut Rng::new(742), 400);
    let (_, come) = holds(&Run::alone("long", ip), QUICK_SLOTS);
    assert_eq!((come.frames, come.words.len()), (103, 150));
}

/// Patterns 7 to 12 leave out bits of the word itself.
#[test]
fn what_takes_a_decoder_is_not_read() {
    let mut run = Run::of("pattern_7", story_ip());
    (run.sheet, run.stream) = (sheet(7, 16), None);
    let printed = printed(&run);
    let [sent, _] = Sent::of(&run, ONE_SLOT);
    let written = sent.written(&run, 12);
    assert!(printed.contains(&written), "{printed}");
    let last = "\nstream 12 read back from all 16 frames\n  payload words                            not read: \
        their pattern does not send all bits, which takes a turbo decoder\n";
    assert!(printed.ends_with(last), "{printed}");
    assert!(fs::read(run.path("back")).is_ok_and(|back| back.is_empty()));
}

/// The one stream that there is carries the transport stream; or there is no pipe at all.
#[test]
fn without_a_stream_of_their_own_no_packet_is_sent() {
    let mut taken = Run::of("no_stream", story_ip());
    taken.sheet = sheet(SHORTEST, SHORTEST_UNITS);
    let mut none = Run::of("no_pipe", story_ip());
    none.sheet = fs::read(file("examples/sheets/empty.sheet")).expect("the sheet is there");
    let path = taken.path("ip");
    let left = format!(
        "no stream is left for the packets of {}, so none is sent",
        path.display()
    );
    for (run, said) in [(taken, &left[..]), (none, "no pipe is sent")] {
        let printed = printed(&run);
        assert!(printed.contains(&format!("\n  {said}\n")), "{printed}");
        assert!(!printed.contains("type 3") && !run.path("back").exists());
    }
}

/// It says which packet it is, and what the library refuses it with.
#[test]
fn what_is_no_queue_of_packets_is_refused() {
    let sound = plain_packet(1, 0, 40, 7);
    let behind = |bytes: &[u8]| [&sound.repeat(3), bytes].concat();
    let unsound = "refused 19, OPL_IP_PACKET: an IP packet or the padding is not sound, \
        or First_Header_Address contradicts the open packet";
    let length = "refused 1, OPL_LENGTH: a lent length is wrong";
    for (name, ip, what, refusal) in [
        (
            "type_0",
            behind(&[0, 0, 0, 1, 9]),
            "has type 0 and length 1",
            unsound,
        ),
        (
            "type_3",
            behind(&[3, 0, 0, 1, 9]),
            "has type 3 and length 1",
            unsound,
        ),
        (
            "length_0",
            behind(&[1, 0, 0, 0]),
            "has type 1 and length 0",
            unsound,
        ),
        (
            "length_4096",
            behind(&[2, 0, 0x10, 0]),
            "has type 2 and length 4096",
            unsound,
        ),
        // a packet that is none, before one that is cut off
        (
            "both",
            behind(&[7, 0, 0, 1, 9, 1, 0, 0]),
            "has type 7 and length 1",
            unsound,
        ),
        (
            "cut",
            behind(&sound[..43]),
            "is cut off: the file ends after 43 of its 44 bytes",
            length,
        ),
        (
            "cut_label",
            behind(&[9, 9, 9]),
            "is cut off: the file ends after 3 of the 4 bytes before its data",
            length,
        ),
    ] {
        let run = Run::alone(name, ip);
        let path = run.path("ip");
        let due = format!(
            "headend: {}: packet 3, at byte 132, {what}: {refusal}\n",
            path.display()
        );
        assert_eq!(refused(&run), due);
    }
    let run = Run::alone("empty", Vec::new());
    let path = run.path("ip");
    assert_eq!(
        refused(&run),
        format!("headend: {}: it has no packet\n", path.display())
    );
}

#[test]
fn a_file_that_is_not_there_is_refused() {
    let run = Run::alone("missing", story_ip());
    let words = run.words();
    fs::remove_file(run.path("ip")).expect("it was put there");
    let output = x86_64("run", headend()).args(words).output();
    let output = output.expect("a shell starts");
    let said = String::from_utf8_lossy(&output.stderr);
    let path = run.path("ip");
    assert_eq!(output.status.code(), Some(1));
    assert_eq!(
        said,
        format!("headend: {}: No such file or directory\n", path.display())
    );
}

/// The head-end with broken_ip.c in place of ip_received.c.
fn broken() -> &'static Path {
    static BUILT: OnceLock<PathBuf> = OnceLock::new();
    BUILT.get_or_init(|| {
        headend_with(
            "broken_ip",
            "ip_received.c",
            "compare/tests/head_end/broken_ip.c",
        )
    })
}

/// What stands in place of the library is no fault by itself.
#[test]
fn without_a_fault_all_is_well() {
    let run = Run::alone("no_fault", story_ip());
    let mut command = x86_64("run", broken());
    let output = command.args(run.words()).env("FAULT", "none").output();
    let output = output.expect("a shell starts");
    assert!(output.status.success());
    assert_eq!(String::from_utf8_lossy(&output.stdout), printed(&run));
}

/// In the first reading, that of all words.
#[test]
fn packets_that_come_back_as_others_are_noticed() {
    let run = Run::alone("fault_at_first", story_ip());
    let path = run.path("ip");
    let another = |packet: usize| {
        format!(
            "stream 36 gives packet {packet} of {} back as another",
            path.display()
        )
    };
    for (fault, why) in [
        ("byte_changed", another(1)),
        ("error_forgotten", another(17)),
        ("handed_out_twice", another(2)),
        (
            "nothing_handed_out",
            "stream 36 does not give as many words and packets back as were sent".to_string(),
        ),
        (
            "parity_wrong",
            "stream 36: not all four parts of word 0 hold".to_string(),
        ),
    ] {
        let (printed, said) = failed(broken(), &run, fault);
        assert_eq!(said, format!("headend: {why}\n"), "{fault}");
        assert!(!printed.contains(" given back, in order"), "{printed}");
    }
}

/// In the second reading, that with words lost and one refused.
#[test]
fn a_loss_that_is_not_heeded_is_noticed() {
    let run = Run::alone("fault_with_loss", story_ip());
    for (fault, why) in [
        (
            "loss_unheeded",
            "opl_ip_read refused a payload word of the stream: 19, OPL_IP_PACKET: an IP packet or the padding is not \
             sound, or First_Header_Address contradicts the open packet",
        ),
        (
            "crc_unheeded",
            "word 10 with a header bit inverted: the answer was 0, OPL_ACCEPTED: no refusal, and not 5",
        ),
        ("open_touched", "a refused call touched the open packet"),
        ("packets_touched", "a refused call touched its buffer"),
        ("header_touched", "a refused call touched its buffer"),
    ] {
        let (printed, said) = failed(broken(), &run, fault);
        assert_eq!(said, format!("headend: {why}\n"), "{fault}");
        assert!(printed.contains(" 26 given back, in order"), "{printed}");
        assert!(!printed.contains(" given back, whole"), "{printed}");
    }
}
