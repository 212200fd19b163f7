//! A machine as lines of names and numbers, which the C programs read and write.

use super::{Sample, SoundBox};
use crate::machine::{Attachment, Machine, Model};

/// The lines of a machine that the second program reads from a file. Numbers are decimal.
pub fn settings(machine: &Machine) -> String {
    let is_128 = machine.model == Model::K128;
    let mut text = line("model", if is_128 { 128u8 } else { 48 });
    text += &registers(machine);
    text += &switches(machine);
    text += &line("paging", machine.paging);
    text += &line("sound_select", machine.sound_select);
    for (register, value) in machine.sound.iter().enumerate() {
        text += &line(&format!("sound{register}"), *value);
    }
    text
}

fn line(name: &str, value: impl Into<u32>) -> String {
    format!("{name} {}\n", value.into())
}

fn registers(machine: &Machine) -> String {
    [
        line("a", machine.a),
        line("f", machine.f),
        line("bc", machine.bc),
        line("de", machine.de),
        line("hl", machine.hl),
        line("alt_a", machine.alt_a),
        line("alt_f", machine.alt_f),
        line("alt_bc", machine.alt_bc),
        line("alt_de", machine.alt_de),
        line("alt_hl", machine.alt_hl),
        line("ix", machine.ix),
        line("iy", machine.iy),
        line("sp", machine.sp),
        line("pc", machine.pc),
        line("i", machine.i),
        line("r", machine.r),
    ]
    .concat()
}

fn switches(machine: &Machine) -> String {
    let attached = |which| machine.attachment == which;
    [
        line("iff1", machine.iff1),
        line("iff2", machine.iff2),
        line("interrupt_mode", machine.interrupt_mode),
        line("border", machine.border),
        line("issue2", machine.issue2),
        line("joystick", machine.joystick),
        line("t_states", machine.frame_position),
        line("interface1", attached(Attachment::Interface1)),
        line("mgt", attached(Attachment::Mgt)),
        line("mgt_rom", machine.side[0] != 0),
        // the only one that our byte 37 can say
        line("melodik", machine.model == Model::K48 && machine.chip),
        line("fuller", false),
    ]
    .concat()
}

/// The lines of what the second program is asked for; a later line of a name replaces an earlier one.
pub fn asked(sample: &Sample) -> String {
    let mut text = settings(&sample.machine);
    text += &line("t_states", sample.t_states);
    let is_paged = sample.machine.interface1_rom != 0;
    text += &line("interface1_rom", is_paged);
    if sample.number == 5 {
        text += "interrupt_mode 3\n";
    }
    if sample.machine.model == Model::K48 {
        text += "paging 23\n";
    }
    if !sample.machine.chip {
        // the program may store these on a 48K without the chip too, where they carry nothing
        text += "sound_select 7\n";
        for register in 0..16u8 {
            text += &line(&format!("sound{register}"), 160 + register);
        }
    }
    if sample.sound_box == Some(SoundBox::Fuller) {
        text += "melodik 0\nfuller 1\n";
    }
    text
}
