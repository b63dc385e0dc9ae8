//! The board's own decoding of request bytes.

/// The debug port's view of a request byte.
#[derive(Clone, Copy, PartialEq, Eq, Debug)]
pub(super) enum Port {
    ReadIdCode,
    WriteTar,
    ReadDrw,
    WriteDrw,
    OtherRead,
    OtherWrite,
}

/// Start bit 1, stop bit 0, park bit 1, parity over the four bits between.
pub(super) fn decode(byte: u8) -> Option<Port> {
    let bit = |n: u8| byte >> n & 1 == 1;
    let odd = bit(1) ^ bit(2) ^ bit(3) ^ bit(4);
    if !bit(0) || bit(6) || !bit(7) || bit(5) != odd {
        return None;
    }
    // APnDP, RnW, A[2], A[3].
    Some(match (bit(1), bit(2), bit(3), bit(4)) {
        (false, true, false, false) => Port::ReadIdCode,
        (true, false, true, false) => Port::WriteTar,
        (true, true, true, true) => Port::ReadDrw,
        (true, false, true, true) => Port::WriteDrw,
        (_, true, _, _) => Port::OtherRead,
        (_, false, _, _) => Port::OtherWrite,
    })
}

#[cfg(test)]
mod tests {
    use super::*;
    use crate::wire::Register;

    #[test]
    fn decodes_request_bytes() {
        assert_eq!(decode(0xA5), Some(Port::ReadIdCode));
        assert_eq!(decode(0x8B), Some(Port::WriteTar));
        assert_eq!(decode(0x9F), Some(Port::ReadDrw));
        assert_eq!(decode(0xBB), Some(Port::WriteDrw));
        for register in [Register::CtrlStat, Register::Select, Register::Csw] {
            assert_eq!(decode(register.write_byte()), Some(Port::OtherWrite));
        }
        // Of the 256 bytes, 16 are requests.
        assert_eq!((0..=255).filter(|&byte| decode(byte).is_some()).count(), 16);
    }
}
