//! Section S, and sections with one thing wrong.

use crate::inputs::{damage, s, Random};
use macho_unwind_info::{
    is_well_formed, Error, Function, LookupAnswer, Origin, ReadError, UnwindInfo,
};

/// By its span and opcode, its page and index, and where the opcode stands.
fn function(
    (start_address, end_address, opcode): (u32, u32, u32),
    (page, index): (u32, u32),
    origin: Origin,
) -> Function {
    Function {
        start_address,
        end_address,
        opcode,
        page,
        index,
        origin,
    }
}

fn first() -> Function {
    function((0x1000, 0x1040, 0x0101_0001), (0, 0), Origin::Global)
}

fn second() -> Function {
    function((0x1040, 0x1100, 0x0203_0800), (0, 1), Origin::Local)
}

/// Section T of c/test.c: three global opcodes; a regular page, a compressed one, a regular one.
fn t() -> Vec<u8> {
    let numbers: [&[u32]; 8] = [
        &[1, 28, 3, 40, 0, 40, 4],
        &[0x0101_0001, 0x0203_0800, 0x04ab_cdef],
        &[0x1000, 88, 0, 0x2000, 112, 0, 0x3000, 140, 0, 0x4000, 0, 0],
        &[2, 0x2_0008, 0x1000, 0x0102_0001, 0x1800, 0x0103_0002],
        &[3, 0x3_000c, 0x1_0018],
        &[0x0200_0000, 0x300, 0x0300_0700, 0x0106_454b],
        &[2, 0x3_0008],
        &[0x3000, 0x020a_1905, 0x3100, 9, 0x3700, 0x0500_0000],
    ];
    numbers
        .concat()
        .iter()
        .flat_map(|n| n.to_le_bytes())
        .collect()
}

fn t_functions() -> [Function; 8] {
    use Origin::{Global, Local, Regular};
    [
        function((0x1000, 0x1800, 0x0102_0001), (0, 0), Regular),
        function((0x1800, 0x2000, 0x0103_0002), (0, 1), Regular),
        function((0x2000, 0x2300, 0x04ab_cdef), (1, 0), Global),
        function((0x2300, 0x2700, 0x0101_0001), (1, 1), Global),
        function((0x2700, 0x3000, 0x0106_454b), (1, 2), Local),
        function((0x3000, 0x3100, 0x020a_1905), (2, 0), Regular),
        function((0x3100, 0x3700, 9), (2, 1), Regular),
        function((0x3700, 0x4000, 0x0500_0000), (2, 2), Regular),
    ]
}

/// S with some of its numbers replaced.
pub fn s_with(numbers: &[(usize, u32)]) -> Vec<u8> {
    let mut section = s();
    for &(at, number) in numbers {
        section[at..at + 4].copy_from_slice(&number.to_le_bytes());
    }
    section
}

/// S with an error that a lookup meets at an address: 4 to 14, one after the other.
pub fn broken() -> [(Error, Vec<u8>, u32); 11] {
    // A page that begins at S's last number, which is its kind.
    let last = |kind| s_with(&[(36, 76), (76, kind)]);
    let high = s_with(&[(32, 0xffff_ffe0), (44, u32::MAX)]);
    [
        (ReadError::PageKind.into(), s_with(&[(36, 77)]), 0x1000),
        (Error::UnexpectedSentinelPage, s_with(&[(56, 1)]), 0x1000),
        (Error::InvalidPageKind, s_with(&[(56, 4)]), 0x1000),
        (ReadError::RegularPage.into(), last(2), 0x1000),
        (
            ReadError::RegularPageFunctions.into(),
            s_with(&[(56, 2)]),
            0x1000,
        ),
        (ReadError::CompressedPage.into(), last(3), 0x1000),
        (
            ReadError::CompressedPageFunctions.into(),
            s_with(&[(60, 4 << 16 | 12)]),
            0x1000,
        ),
        (
            ReadError::LocalOpcodes.into(),
            s_with(&[(64, 2 << 16 | 20)]),
            0x1040,
        ),
        (
            Error::InvalidPageEntryFirstAddress,
            s_with(&[(68, 0x20)]),
            0x1000,
        ),
        (Error::AddressTooLarge, high, 0xffff_ffe0),
        (Error::LocalIndex, s_with(&[(72, 0x0200_0040)]), 0x1040),
    ]
}

/// Start addresses and errors' numbers, to the end.
fn iterated(section: &[u8]) -> Vec<Result<u32, u32>> {
    let info = UnwindInfo::parse(section).unwrap();
    let mut functions = info.functions();
    let mut answers = Vec::new();
    loop {
        match functions.next() {
            Ok(Some(function)) => answers.push(Ok(function.start_address)),
            Err(error) => answers.push(Err(error.number())),
            Ok(None) => return answers,
        }
    }
}

#[test]
fn s_looks_up() {
    let s = s();
    let info = UnwindInfo::parse(&s).unwrap();
    assert_eq!(info.lookup(0), Ok(None));
    assert_eq!(info.lookup(0x0fff), Ok(None));
    assert_eq!(info.lookup(0x1000), Ok(Some(first())));
    assert_eq!(info.lookup(0x103f), Ok(Some(first())));
    assert_eq!(info.lookup(0x1040), Ok(Some(second())));
    assert_eq!(info.lookup(0x10ff), Ok(Some(second())));
    assert_eq!(info.lookup(0x1100), Ok(None));
    assert_eq!(info.lookup(u32::MAX), Ok(None));
}

#[test]
fn s_is_iterated() {
    let s = s();
    let info = UnwindInfo::parse(&s).unwrap();
    let mut functions = info.functions();
    assert_eq!(functions.next(), Ok(Some(first())));
    assert_eq!(functions.next(), Ok(Some(second())));
    assert_eq!(functions.next(), Ok(None));
    assert_eq!(functions.next(), Ok(None));
}

#[test]
fn a_function_says_where_it_came_from() {
    let t = t();
    assert!(is_well_formed(&t));
    let info = UnwindInfo::parse(&t).unwrap();
    let (mut functions, mut addresses) = (info.functions(), Vec::new());
    for expected in t_functions() {
        for address in [expected.start_address, expected.end_address - 1] {
            assert_eq!(info.lookup(address), Ok(Some(expected.clone())));
            addresses.push(address);
        }
        assert_eq!(functions.next(), Ok(Some(expected)));
    }
    assert_eq!(functions.next(), Ok(None));

    let mut answers = [LookupAnswer::default(); 16];
    let batch = info.lookup_batch(&addresses, &mut answers);
    let found: Vec<_> = batch.iter().map(LookupAnswer::function).collect();
    let twice = t_functions().map(|function| [Ok(Some(function.clone())), Ok(Some(function))]);
    assert_eq!(found, twice.concat());
}

/// Without the last global opcode index 2 names the first local one, and index 3 none.
#[test]
fn the_number_of_global_opcodes_tells_the_lists_apart() {
    let mut section = t();
    section[8] = 2;
    let info = UnwindInfo::parse(&section).unwrap();
    let local = function((0x2000, 0x2300, 0x0106_454b), (1, 0), Origin::Local);
    assert_eq!(info.lookup(0x2000), Ok(Some(local)));
    let global = function((0x2300, 0x2700, 0x0101_0001), (1, 1), Origin::Global);
    assert_eq!(info.lookup(0x2300), Ok(Some(global)));
    assert_eq!(info.lookup(0x2700), Err(Error::LocalIndex));
}

/// As in the original, the iterator lives as long as the bytes, not as long as the view.
#[test]
fn the_iterator_outlives_the_view() {
    let s = s();
    let mut functions = UnwindInfo::parse(&s).unwrap().functions();
    assert_eq!(functions.next(), Ok(Some(first())));
}

#[test]
fn the_range_is_from_the_first_page_to_the_last() {
    let s = s();
    assert_eq!(
        UnwindInfo::parse(&s).unwrap().address_range(),
        0x1000..0x1100
    );
    // No pages.
    let mut info = [0; 28];
    info[0] = 1;
    assert_eq!(UnwindInfo::parse(&info).unwrap().address_range(), 0..0);
}

#[test]
fn bytes_may_lie_anywhere() {
    let moved = [&[0xee; 3], &s()[..]].concat();
    let info = UnwindInfo::parse(&moved[3..]).unwrap();
    assert_eq!(info.lookup(0x1040), Ok(Some(second())));
}

#[test]
fn what_does_not_parse_is_refused() {
    let refused = |section: &[u8]| UnwindInfo::parse(section).err();
    let read = |error| Some(Error::ReadError(error));
    assert_eq!(refused(&[]), read(ReadError::Header));
    assert_eq!(refused(&s()[..27]), read(ReadError::Header));
    assert_eq!(refused(&s()[..31]), read(ReadError::GlobalOpcodes));
    assert_eq!(refused(&s()[..55]), read(ReadError::Pages));
    assert_eq!(refused(&s_with(&[(8, u32::MAX)])).unwrap().number(), 2);
    assert_eq!(refused(&s_with(&[(24, u32::MAX)])).unwrap().number(), 3);
}

/// 15 comes after 1 and before 2, whatever the rest is.
#[test]
fn another_version_is_refused() {
    for version in [0, 2, 256, 1 << 24, u32::MAX] {
        let section = s_with(&[(0, version)]);
        for len in [28, 31, 55, 80] {
            let error = UnwindInfo::parse(&section[..len]).err().unwrap();
            assert_eq!((error, error.number()), (Error::WrongVersion, 15));
            assert!(!is_well_formed(&section[..len]));
        }
        let short = UnwindInfo::parse(&section[..27]).err();
        assert_eq!(short, Some(ReadError::Header.into()));
    }
    let text = Error::WrongVersion.to_string();
    assert_eq!(text, "refused 15: the header's version is not 1");
}

/// The local opcodes are cut, and only a word among them needs them.
#[test]
fn the_first_79_bytes_still_look_up() {
    let s = s();
    let info = UnwindInfo::parse(&s[..79]).unwrap();
    assert_eq!(info.lookup(0x1000), Ok(Some(first())));
    assert_eq!(info.lookup(0x1040), Err(ReadError::LocalOpcodes.into()));
    assert_eq!(iterated(&s[..79]), [Err(11)]);
}

#[test]
fn each_error_of_a_lookup_has_its_name_and_number() {
    for (number, (error, section, address)) in (4..).zip(broken()) {
        let info = UnwindInfo::parse(&section).unwrap();
        assert_eq!(info.lookup(address), Err(error));
        assert_eq!(error.number(), number);
    }
}

#[test]
fn each_error_of_an_iteration_has_its_number() {
    for (error, section, _) in broken() {
        let expected = match error.number() {
            // A gap before the page's first function is none of iteration's errors.
            12 => vec![Ok(0x1020), Ok(0x1040)],
            // The first function's end, then the second's start.
            13 => vec![Err(13), Err(13)],
            14 => vec![Ok(0x1000), Err(14)],
            page => vec![Err(page)],
        };
        assert_eq!(iterated(&section), expected, "{error}");
    }
}

#[test]
fn iteration_goes_on_behind_an_error() {
    // A page list of its own at the end: the first page, at 0, has the sentinel's kind.
    let pages = [0x800, 0, 0, 0x1000, 56, 0, 0x1100, 0, 0];
    let mut section = s_with(&[(20, 80), (24, 3)]);
    section.extend(pages.iter().flat_map(|n: &u32| n.to_le_bytes()));
    assert_eq!(iterated(&section), [Err(5), Ok(0x1000), Ok(0x1040)]);

    // An index that names nothing, then a function that is whole.
    let section = s_with(&[(68, 0x0200_0000)]);
    assert_eq!(iterated(&section), [Err(14), Ok(0x1040)]);
}

/// A section of regular pages, each with so many functions of 16 bytes, or of no known kind; and
/// what its iteration gives.
fn long(pages: &[Option<u16>]) -> (Vec<u8>, Vec<Result<u32, u32>>) {
    let (mut entries, mut bodies, mut expected) = (Vec::new(), Vec::new(), Vec::new());
    let bodies_at = 28 + 12 * (pages.len() as u32 + 1);
    let mut address = 0;
    for page in pages {
        entries.extend([address, bodies_at + 4 * bodies.len() as u32, 0]);
        let kind = if page.is_some() { 2 } else { 4 };
        let count: u32 = page.unwrap_or(1).into();
        bodies.extend([kind, count << 16 | 8]);
        for _ in 0..count {
            bodies.extend([address, 0x0100_0000]);
            expected.push(page.map(|_| address).ok_or(6));
            address += 16;
        }
    }
    entries.extend([address, 0, 0]);
    let header = [1, 28, 0, 28, 0, 28, pages.len() as u32 + 1];
    let numbers = [&header[..], &entries, &bodies].concat();
    let section = numbers.iter().flat_map(|n| n.to_le_bytes()).collect();
    (section, expected)
}

/// Empty pages and those that are refused have their numbers too.
#[test]
fn places_are_counted_page_by_page() {
    let (section, _) = long(&[Some(3), Some(0), None, Some(300)]);
    let mut functions = UnwindInfo::parse(&section).unwrap().functions();
    let mut places = Vec::new();
    loop {
        match functions.next() {
            Ok(Some(function)) => {
                assert_eq!(function.origin, Origin::Regular);
                places.push((function.page, function.index));
            }
            Err(error) => assert_eq!(error, Error::InvalidPageKind),
            Ok(None) => break,
        }
    }
    let expected = (0..3).map(|index| (0, index));
    let expected = expected.chain((0..300).map(|index| (3, index)));
    assert_eq!(places, expected.collect::<Vec<_>>());
}

#[test]
fn long_sections_are_iterated_whole() {
    for first in (0..=140).chain([191, 192, 193, 1_000]) {
        for second in [Some(0), Some(1), Some(63), Some(64), Some(65), None] {
            let (section, expected) = long(&[Some(first), second, Some(2)]);
            assert_eq!(iterated(&section), expected, "{first}, {second:?}");
        }
    }
}

#[test]
fn an_error_converts_and_prints() {
    fn fails() -> Result<(), Error> {
        Err(ReadError::Pages)?
    }
    let error = fails().unwrap_err();
    assert_eq!(error, Error::ReadError(ReadError::Pages));
    assert_eq!((error.number(), ReadError::Pages.number()), (3, 3));
    let text = "refused 3: the list of pages lies outside the section";
    assert_eq!(error.to_string(), text);
}

#[test]
fn probes_are_counted() {
    let s = s();
    let info = UnwindInfo::parse(&s).unwrap();
    // Of the two pages, then of the two functions.
    for (address, probes) in [(0x0fff, 2), (0x1000, 4), (0x1040, 3), (0x1100, 1)] {
        let answer = info.lookup_with_probes(address);
        assert_eq!(answer.probes(), probes, "{address:#x}");
        assert_eq!(answer.function(), info.lookup(address));
    }
    let refused = UnwindInfo::parse(&s[..79])
        .unwrap()
        .lookup_with_probes(0x1040);
    assert_eq!(refused.function().unwrap_err().number(), 11);
    assert_eq!(refused.probes(), 3);
}

#[test]
fn a_batch_answers_as_single_lookups_do() {
    let mut random = Random::new(2);
    let mut answers = [LookupAnswer::default(); 40];
    let mut errors = 0;
    for _ in 0..5_000 {
        let mut section = s();
        damage(&mut random, &mut section);
        let info = match UnwindInfo::parse(&section) {
            Ok(info) => info,
            Err(_) => continue,
        };
        let addresses: Vec<u32> = (0..40)
            .map(|_| 0xff0 + random.below(0x120) as u32)
            .collect();
        let batch = info.lookup_batch(&addresses, &mut answers);
        assert_eq!(batch.len(), addresses.len());
        for (&address, answer) in addresses.iter().zip(batch) {
            assert_eq!(*answer, info.lookup_with_probes(address));
            errors += usize::from(answer.function().is_err());
        }
    }
    assert!(errors > 1_000);
}

#[test]
fn a_batch_answers_what_there_is_room_for() {
    let s = s();
    let info = UnwindInfo::parse(&s).unwrap();
    let addresses = [0x1000, 0x1040, 0x1100];
    let mark = info.lookup_with_probes(0x10ff);

    let mut answers = [mark; 2];
    let batch = info.lookup_batch(&addresses, &mut answers);
    let functions: Vec<_> = batch.iter().map(LookupAnswer::function).collect();
    assert_eq!(functions, [Ok(Some(first())), Ok(Some(second()))]);

    let mut answers = [mark; 5];
    assert_eq!(info.lookup_batch(&addresses, &mut answers).len(), 3);
    assert_eq!(answers[2].function(), Ok(None));
    assert_eq!(answers[3..], [mark; 2]);

    assert!(info.lookup_batch(&[], &mut answers).is_empty());
    assert_eq!(answers[3..], [mark; 2]);
    assert!(info.lookup_batch(&addresses, &mut []).is_empty());
}

#[test]
fn the_default_answer_is_none() {
    let answer = LookupAnswer::default();
    assert_eq!((answer.function(), answer.probes()), (Ok(None), 0));
}

#[test]
fn s_is_well_formed_and_what_lies_beside_it_is_not() {
    assert!(is_well_formed(&s()));
    assert!(!is_well_formed(&s()[..79]));
    for (error, section, _) in broken() {
        assert!(!is_well_formed(&section), "{error}");
    }
}
