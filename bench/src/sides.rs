//! Both sides behind one interface. Each call crosses the C interface, with the record or set by value.
use crate::peer;
use l1oc::{Answer, Phase, Reading, Record, Set, SetReading};

/// A codec that is measured.
pub trait Side {
    fn list(bytes: &[u8], count: usize, phase: Phase, list: &mut [u32]) -> Answer;
    fn read(bytes: &[u8], count: usize, phase: Phase, place: usize) -> Reading;
    fn write(bytes: &mut [u8], count: usize, place: usize, content: Record) -> Answer;
    fn read_set(bytes: &[u8], count: usize, phase: Phase, place: usize) -> SetReading;
    fn write_set(bytes: &mut [u8], count: usize, place: usize, content: Set) -> Answer;
}

/// The proved library.
pub struct Library;

/// The peer.
pub struct Peer;

impl Side for Library {
    #[inline(always)]
    fn list(bytes: &[u8], count: usize, phase: Phase, list: &mut [u32]) -> Answer {
        l1oc::list(bytes, count, phase, list)
    }

    #[inline(always)]
    fn read(bytes: &[u8], count: usize, phase: Phase, place: usize) -> Reading {
        l1oc::read(bytes, count, phase, place)
    }

    #[inline(always)]
    fn write(bytes: &mut [u8], count: usize, place: usize, content: Record) -> Answer {
        l1oc::write(bytes, count, place, content)
    }

    #[inline(always)]
    fn read_set(bytes: &[u8], count: usize, phase: Phase, place: usize) -> SetReading {
        l1oc::read_set(bytes, count, phase, place)
    }

    #[inline(always)]
    fn write_set(bytes: &mut [u8], count: usize, place: usize, content: Set) -> Answer {
        l1oc::write_set(bytes, count, place, content)
    }
}

// The calling convention of the library. A slice is passed as its pointer and its length.
#[inline(never)]
#[allow(improper_ctypes_definitions)]
extern "C" fn peer_list(bytes: &[u8], count: usize, phase: Phase, list: &mut [u32]) -> Answer {
    peer::list(bytes, count, phase, list)
}

#[inline(never)]
#[allow(improper_ctypes_definitions)]
extern "C" fn peer_read(bytes: &[u8], count: usize, phase: Phase, place: usize) -> Reading {
    peer::read(bytes, count, phase, place)
}

#[inline(never)]
#[allow(improper_ctypes_definitions)]
extern "C" fn peer_write(bytes: &mut [u8], count: usize, place: usize, content: Record) -> Answer {
    peer::write(bytes, count, place, &content)
}

#[inline(never)]
#[allow(improper_ctypes_definitions)]
extern "C" fn peer_read_set(bytes: &[u8], count: usize, phase: Phase, place: usize) -> SetReading {
    peer::read_set(bytes, count, phase, place)
}

#[inline(never)]
#[allow(improper_ctypes_definitions)]
extern "C" fn peer_write_set(bytes: &mut [u8], count: usize, place: usize, content: Set) -> Answer {
    peer::write_set(bytes, count, place, &content)
}

impl Side for Peer {
    #[inline(always)]
    fn list(bytes: &[u8], count: usize, phase: Phase, list: &mut [u32]) -> Answer {
        peer_list(bytes, count, phase, list)
    }

    #[inline(always)]
    fn read(bytes: &[u8], count: usize, phase: Phase, place: usize) -> Reading {
        peer_read(bytes, count, phase, place)
    }

    #[inline(always)]
    fn write(bytes: &mut [u8], count: usize, place: usize, content: Record) -> Answer {
        peer_write(bytes, count, place, content)
    }

    #[inline(always)]
    fn read_set(bytes: &[u8], count: usize, phase: Phase, place: usize) -> SetReading {
        peer_read_set(bytes, count, phase, place)
    }

    #[inline(always)]
    fn write_set(bytes: &mut [u8], count: usize, place: usize, content: Set) -> Answer {
        peer_write_set(bytes, count, place, content)
    }
}
