//! The sizes of the structs of `tftp.h`, and the version that its library has.
use tftp_sys::*;

#[test]
fn is_that_of_the_header() {
    assert_eq!(size_of::<tftp_endpoint>(), 6);
    assert_eq!(size_of::<tftp_options>(), 32);
    assert_eq!(size_of::<tftp_event>(), 40);
    assert_eq!(size_of::<tftp_info>(), 24);
    assert_eq!(size_of::<tftp_question>(), 24);
    assert_eq!(size_of::<tftp_packet>(), 40);
    assert_eq!((size_of::<tftp_end>(), size_of::<tftp_server>()), (16, 16));
    assert_eq!(unsafe { tftp_version() }, 0x00_01_00);
}
