//! Files of zeros whose parts stand at known places. A page of zeros packs to 65 codes, 260 bytes; a v1 body of zeros
//! to 193 codes, 772 bytes.

use super::*;

/// A v3 file of zeros. Its blocks of 263 bytes have their heads at 86, 349 and 612, and it ends at 875.
pub fn v3() -> Vec<u8> {
    let file = write(&machine(Model::K48), &vec![0; MEMORY]);
    assert_eq!(file.len(), 875);
    file
}

/// The same of v2, with a header that is 31 bytes shorter: heads at 55, 318 and 581, the end at 844.
pub fn v2() -> Vec<u8> {
    let mut file = v3();
    file.drain(55..86);
    file[30] = 23;
    file
}

/// A packed v1 file of zeros: codes from 30 on, the last one at 798, the end marker at 802.
pub fn v1() -> Vec<u8> {
    let mut file = vec![0; 30];
    (file[6], file[12]) = (1, 0x20);
    file.extend(packed(&vec![0; 3 * PAGE]));
    file.extend([0x00, 0xED, 0xED, 0x00]);
    assert_eq!(file.len(), 806);
    file
}

/// A v3 file of a 128K machine, block numbers 3 to 10 in this order: heads from 86 on, 263 bytes apart, the end at 2190.
pub fn v3_128k() -> Vec<u8> {
    let file = write(&machine(Model::K128), &vec![0; MEMORY]);
    assert_eq!(file.len(), 2190);
    file
}
