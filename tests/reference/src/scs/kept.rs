//! What an SCS file keeps of a machine.

use crate::machine::{Attachment, Machine, Video};

/// What reading gives back of a valid machine that was written. Each field that is not named comes back as it is.
pub fn kept(machine: &Machine) -> Machine {
    let mut side = [0; crate::machine::SIDE_BYTES];
    // Bytes 61 and 62, as v1 gives them.
    side[1..3].fill(255);
    Machine {
        attachment: Attachment::None,
        issue2: false,
        double_interrupts: false,
        video: Video::Normal,
        joystick: 0,
        interface1_rom: 0,
        r_emulation: false,
        ldir_emulation: false,
        chip: true,
        sound_select: machine.sound_select % 16,
        frame_position: 0,
        side,
        ..machine.clone()
    }
}
