//! The sound chip: every machine from SCS has it, so a 48K machine without it gains it.

use super::*;

#[test]
fn a_machine_from_scs_has_the_chip() {
    for hardware in [1, 2] {
        for length in 0..=PORTS_SIZE {
            let ports = &counting_ports()[..length];
            let parts = [block(3, &[]), block(1, &[]), block(2, ports)];
            let (machine, _) = read(&file(hardware, &parts)).expect("a good file");
            let mut full = ports.to_vec();
            full.resize(PORTS_SIZE, 0);
            assert!(machine.chip && machine.is_valid());
            assert_eq!(machine.sound_select, full[2] % 16);
            assert_eq!(machine.sound, full[3..]);
            let emulation = header(&machine)[37];
            assert_eq!(emulation, if hardware == 1 { 4 } else { 0 });
        }
    }
}

#[test]
fn a_48k_without_the_chip_gains_it() {
    let mut bytes = header(&Machine::blank());
    for emulation in 0..4 {
        bytes[37] = emulation;
        let machine = from_header(Version::V3, &bytes).expect("a good header");
        let file = write(&machine, &vec![0; MEMORY]);
        let (again, _) = read(&file).expect("our own file");
        assert!(!machine.chip && again.chip);
        assert_eq!(header(&again)[37], 4);
    }
}

#[test]
fn sound_of_a_48k_is_written() {
    let mut bytes = header(&Machine::blank());
    (bytes[37], bytes[38], bytes[39], bytes[54]) = (5, 0xF5, 0x77, 0x99);
    let (mut out, mut length) = (vec![1; SCS_FILE_48K], 9);
    let memory = vec![0; MEMORY];
    assert_eq!(write_bytes(&bytes, &memory, &mut out, &mut length), 0);
    let ports = &out[SCS_FILE_48K - 5 - PORTS_SIZE..];
    assert_eq!(ports[..4], [0, 0, 5, 0x77]);
    assert_eq!(ports[18..], [0x99, 0, 0, 0, 0, 0]);
    bytes[37] = 1;
    assert_eq!(write_bytes(&bytes, &memory, &mut out, &mut length), 20);
}
