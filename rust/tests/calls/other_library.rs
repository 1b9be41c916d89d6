//! A library of another version, or with another layout, is refused. build.rs has the linker put these calls before the
//! library's own in the tests.

use core::cell::Cell;

use pmhost::*;

thread_local! {
    /// What is added to each answer in this thread: the version, the host's version and size, the part's size.
    static MORE: Cell<(u16, u16, u64, u64)> = const { Cell::new((0, 0, 0, 0)) };
    /// The course's version and size, and the list's.
    static MORE_OF_A_COURSE: Cell<(u16, u64)> = const { Cell::new((0, 0)) };
    static MORE_OF_A_SEQUENCE: Cell<(u16, u64)> = const { Cell::new((0, 0)) };
}

macro_rules! wrapped {
    ($($wrapper:ident $own:ident $answer:ty: $more:expr;)*) => {
        extern "C" {
            $(fn $own() -> $answer;)*
        }
        $(#[no_mangle]
        extern "C" fn $wrapper() -> $answer {
            // SAFETY: the library's own call takes nothing, and answers a number.
            unsafe { $own() }.wrapping_add($more)
        })*
    };
}

wrapped! {
    __wrap_pm_version __real_pm_version u16: MORE.get().0;
    __wrap_pm_host_version __real_pm_host_version u16: MORE.get().1;
    __wrap_pm_host_size __real_pm_host_size u64: MORE.get().2;
    __wrap_pm_part_size __real_pm_part_size u64: MORE.get().3;
    __wrap_pm_course_version __real_pm_course_version u16: MORE_OF_A_COURSE.get().0;
    __wrap_pm_course_size __real_pm_course_size u64: MORE_OF_A_COURSE.get().1;
    __wrap_pm_sequence_version __real_pm_sequence_version u16: MORE_OF_A_SEQUENCE.get().0;
    __wrap_pm_sequence_size __real_pm_sequence_size u64: MORE_OF_A_SEQUENCE.get().1;
}

#[test]
fn another_library_is_refused() {
    let no_host = Some(Refusal::NoHost);
    for (name, more, wanted) in [
        ("ours", (0, 0, 0, 0), None),
        ("a lesser version", (1, 0, 0, 0), None),
        ("another version", (0x100, 0, 0, 0), no_host),
        ("an older version", (0_u16.wrapping_sub(0x100), 0, 0, 0), no_host),
        ("another layout", (0, 1, 0, 0), no_host),
        ("an older layout", (0, u16::MAX, 0, 0), no_host),
        ("a larger host", (0, 0, 8, 0), no_host),
        ("a smaller host", (0, 0, u64::MAX, 0), no_host),
    ] {
        MORE.set(more);
        assert_eq!(Host::new(0x58, 1, 1).err(), wanted, "{name}");
    }
    for (more, wanted) in [((0, 0), None), ((1, 0), Some(Refusal::NoCourse)), ((0, 8), Some(Refusal::NoCourse))] {
        MORE_OF_A_COURSE.set(more);
        assert_eq!(Course::survey(0, 1).err(), wanted, "{more:?}");
    }
    for (more, wanted) in [((0, 0), None), ((1, 0), Some(Refusal::NoSequence)), ((0, 8), Some(Refusal::NoSequence))] {
        MORE_OF_A_SEQUENCE.set(more);
        assert_eq!(Sequence::new(1, Rules::UP).err(), wanted, "{more:?}");
    }
    for (more, wanted) in [(0, None), (2, Some(Refusal::NoPart)), (u64::MAX, Some(Refusal::NoPart))] {
        MORE.set((0, 0, 0, more));
        assert_eq!(Part::new(0x58, &[Output::default()], (1, 0, 3)).err(), wanted, "{more}");
    }
}
