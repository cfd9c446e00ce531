//! The calls of the library, on the parts of a state. A slice passes as a pointer and a length, an array as a pointer.
//!
//! The library asks that each points to what its type says and that what it writes to overlaps nothing else of the call: references give
//! both. A state's control, values and times pass as raw pointers, since the host has each as a struct with named fields.
//!
//! In the library a call's name ends with the room of a state, for so many tasks and links, and with so many times, so that a host that was built
//! for another room does not link: it would lend arrays of another size.
use crate::{CONTROL, LINKS, SIZES, TASKS, TIMES, VALUES};

// Where the room is changed and the names are not, this does not compile.
const _: () = assert!(TASKS == 32 && LINKS == 96 && TIMES == 66);

extern "C" {
    #[link_name = "parnusild_event_32_96_66"]
    pub fn event(
        kind: u8,
        which: u32,
        value: u32,
        number: &mut u32,
        tasks: usize,
        links: usize,
        control: *mut [u8; CONTROL],
        values: *mut [u32; VALUES],
        times: *mut [u32; TIMES],
    ) -> u8;

    #[link_name = "parnusild_event_at_32_96_66"]
    pub fn event_at(
        tick: u32,
        kind: u8,
        which: u32,
        value: u32,
        number: &mut u32,
        tasks: usize,
        links: usize,
        control: *mut [u8; CONTROL],
        values: *mut [u32; VALUES],
        times: *mut [u32; TIMES],
    ) -> u8;

    #[link_name = "parnusild_fresh_32_96_66"]
    pub fn fresh(
        table_tasks: usize,
        table_links: usize,
        table_defaults: &[u32; TASKS],
        table_writer: &[u8; LINKS],
        table_reader: &[u8; LINKS],
        table_kind: &[u8; LINKS],
        table_start_value: &[u32; LINKS],
        tasks: &mut usize,
        links: &mut usize,
        control: *mut [u8; CONTROL],
        values: *mut [u32; VALUES],
        times: *mut [u32; TIMES],
    ) -> u8;

    #[link_name = "parnusild_fresh_dated_32_96_66"]
    pub fn fresh_dated(
        table_tasks: usize,
        table_links: usize,
        table_defaults: &[u32; TASKS],
        table_deadlines: &[u16; TASKS],
        table_writer: &[u8; LINKS],
        table_reader: &[u8; LINKS],
        table_kind: &[u8; LINKS],
        table_start_value: &[u32; LINKS],
        tasks: &mut usize,
        links: &mut usize,
        control: *mut [u8; CONTROL],
        values: *mut [u32; VALUES],
        times: *mut [u32; TIMES],
    ) -> u8;

    #[link_name = "parnusild_replay_32_96_66"]
    pub fn replay(
        bytes: *const u8,
        size: usize,
        numbers: *mut u32,
        room: usize,
        place: &mut usize,
        counts: &mut [usize; 4],
        tasks: &mut usize,
        links: &mut usize,
        control: *mut [u8; CONTROL],
        values: *mut [u32; VALUES],
        times: *mut [u32; TIMES],
    ) -> u8;

    #[link_name = "parnusild_rest_32_96_66"]
    pub fn rest(bytes: *const u8, size: usize, place: usize) -> usize;

    #[link_name = "parnusild_write_32_96_66"]
    pub fn write(
        kind: u32,
        tasks: *const u32,
        tasks_size: usize,
        links: *const u32,
        links_size: usize,
        events: *const u32,
        events_size: usize,
        bytes: *mut u8,
        room: usize,
        place: &mut usize,
    ) -> u8;

    /// This one alone has no room in its name: a host may ask any library for it.
    #[link_name = "parnusild_sizes"]
    pub fn sizes(sizes: &mut [usize; SIZES]);
}
