//! Images, views and refusals.

mod common;
use common::*;
use second::random::Random;
use second::*;

/// Loads into 2 pages and tables full of ones.
fn try_load(image: &[u16]) -> (Result<State, Refusal>, Vec<u16>, Vec<u16>) {
    let mut memory = vec![0o177777; 2 * PAGE];
    let mut tables = vec![0o177777; TABLE_WORDS];
    let answer = load(image, &mut memory, &mut tables);
    (answer, memory, tables)
}

fn refused(image: &[u16], refusal: Refusal) {
    let (answer, memory, tables) = try_load(image);
    assert_eq!(answer, Err(refusal));
    assert!(memory.iter().all(|&word| word == 0o177777));
    assert!(tables.iter().all(|&word| word == 0o177777));
}

#[test]
fn load_nothing() {
    let (answer, memory, tables) = try_load(&[0]);
    assert_eq!(answer, Ok(State::new()));
    assert!(memory.iter().chain(&tables).all(|&word| word == 0));
}

#[test]
fn load_each_kind() {
    let image = [
        5, // entries
        1, 0, 2047, 0, 1, // memory's last word
        2, 0, 119, 0, 2, // registers X of 14, STS of 15
        3, 0, 25, 0, 1, // PCR of 15
        4, 0, 254, 0, 2, // tables
        5, 0, 6, 0, 2, // devices: the last character typed, the length
        7, // bodies
        8, 0o377, 0o3603, 10, 11, 0o377, 3,
    ];
    let (answer, memory, tables) = try_load(&image);
    let state = answer.expect("loads");
    assert_eq!((memory[2046], memory[2047]), (0, 7));
    assert_eq!((state.files[14][7], state.files[15][0]), (8, 0o377));
    assert_eq!(state.pcr[15], 0o3603);
    assert_eq!((tables[253], tables[254], tables[255]), (0, 10, 11));
    let devices = Devices {
        input_character: 0o377,
        length: 3,
        ..Devices::default()
    };
    assert_eq!(state.devices, devices);
}

#[test]
fn load_control_words_in_order() {
    let mut image = vec![1, 3, 0, 0, 0, 26];
    image.extend([5, 1, 1, 1, 0o101, 0o102, 6, 0o10, 0o20, 0o40]);
    image.extend([
        0, 1, 2, 3, 0o200, 0o400, 0o1000, 0o2000, 0, 0, 0, 0, 0, 0, 0, 3,
    ]);
    let state = try_load(&image).0.expect("loads");
    assert_eq!(state.level, 5);
    assert_eq!(
        (state.interrupts_on, state.paging_on, state.stopped),
        (1, 1, 1)
    );
    assert_eq!((state.pid, state.pie, state.pvl), (0o101, 0o102, 6));
    assert_eq!((state.iid, state.iie, state.pgs), (0o10, 0o20, 0o40));
    assert_eq!(state.pcr[..5], [0, 1, 2, 3, 0o200]);
    assert_eq!(state.pcr[15], 3);
    assert_eq!(state.pgs_held, 0); // not named
    // Control word 26: whether PGS is held.
    image[5] = 27;
    image.push(1);
    let held = try_load(&image).0.expect("loads");
    assert_eq!(held.pgs_held, 1);
    assert_eq!(held.to_words()[128 + 26], 1);
    assert_eq!(
        State {
            pgs_held: 0,
            ..held
        },
        state
    );
}

/// An image of kind 3 entries (start, length), their words 0 but the last.
fn control_words(entries: &[(u16, u16)], last: u16) -> Vec<u16> {
    let mut image = vec![entries.len() as u16];
    for &(start, length) in entries {
        image.extend([3, 0, start, 0, length]);
    }
    let words: u16 = entries.iter().map(|entry| entry.1).sum();
    image.extend((1..=words).map(|word| if word == words { last } else { 0 }));
    image
}

#[test]
fn load_about_the_last_control_word() {
    // Named or not: 0 if it is not, whatever was lent.
    for (entries, held) in [
        (&[(0, 26)][..], 0),
        (&[(0, 27)], 1),
        (&[(26, 1)], 1),
        (&[(25, 2)], 1),
        (&[(0, 26), (26, 1)], 1),
        (&[(26, 0), (27, 0), (26, 1)], 1),
        (&[(26, 1), (0, 26)], 0), // its word is the first, the last is PCR 15's
    ] {
        let state = try_load(&control_words(entries, 1)).0.expect("loads");
        assert_eq!(state.pgs_held, held, "{entries:?}");
    }
    // The same of word 27, the extended flag.
    for (entries, extended) in [
        (&[(0, 27)][..], 0),
        (&[(0, 28)], 1),
        (&[(27, 1)], 1),
        (&[(26, 2)], 1),
        (&[(0, 27), (27, 1)], 1),
        (&[(27, 0), (28, 0), (27, 1)], 1),
        (&[(27, 1), (0, 26)], 0),
    ] {
        let state = try_load(&control_words(entries, 1)).0.expect("loads");
        assert_eq!(state.extended, extended, "{entries:?}");
    }
    // 28 words there are.
    for entries in [
        &[(0, 29)][..],
        &[(27, 2)],
        &[(28, 1)],
        &[(29, 0)],
        &[(27, 1), (27, 2)],
    ] {
        refused(&control_words(entries, 1), Refusal::Beyond);
    }
    for entries in [
        &[(0, 27), (26, 1)][..],
        &[(26, 1), (26, 1)],
        &[(26, 1), (25, 2)],
        &[(26, 1), (0, 27)],
        &[(0, 28), (27, 1)],
        &[(27, 1), (26, 2)],
    ] {
        refused(&control_words(entries, 1), Refusal::Twice);
    }
    // 0 and 1 whatever PGS is; 2 and more are refused, after the bodies.
    for held in [0, 1] {
        for pgs in [0, 0o140377] {
            let image = [2, 3, 0, 26, 0, 1, 3, 0, 9, 0, 1, held, pgs];
            let state = try_load(&image).0.expect("loads");
            assert_eq!((state.pgs, state.pgs_held), (pgs, held));
        }
    }
    for held in [2, 3, 0o100001, 0o177777] {
        refused(&[1, 3, 0, 26, 0, 1, held], Refusal::State);
        refused(&control_words(&[(0, 27)], held), Refusal::State);
        refused(&[1, 3, 0, 26, 0, 1, held, 0], Refusal::Bodies);
    }
    for extended in [2, 3, 0o100001, 0o177777] {
        refused(&[1, 3, 0, 27, 0, 1, extended], Refusal::State);
        refused(&control_words(&[(0, 28)], extended), Refusal::State);
        refused(&[1, 3, 0, 27, 0, 1, extended, 0], Refusal::Bodies);
    }
}

#[test]
fn older_images() {
    let mut random = Random::new(26);
    let mut held = 0;
    for turn in 0..150 {
        let mut start = second::vectors::start(&mut random);
        let words = 26 + turn % 3;
        let table_words = if words == 28 { 512 } else { 256 };
        let image = second::vectors::older_image(&start, words);
        assert_eq!(image[0], 4);
        assert_eq!(image[11..16], [3, 0, 0, 0, words as u16]);
        assert_eq!(image[16..21], [4, 0, 0, 0, table_words as u16]);
        assert_eq!(image.len(), start.memory.len() + 149 + words + table_words);
        let mut tables = start.tables.clone();
        let state = load(&image, &mut start.memory.clone(), &mut tables);
        held += start.state.pgs_held;
        if words == 26 {
            start.state.pgs_held = 0;
        }
        if words < 28 {
            start.state.extended = 0;
        }
        // Whatever the machine had.
        start.state.devices = Devices::default();
        assert_eq!(state, Ok(start.state));
        assert_eq!(tables[..table_words], start.tables[..table_words]);
        assert!(tables[table_words..].iter().all(|&word| word == 0));
    }
    assert!(held > 20);
}

#[test]
fn load_refuses_contents() {
    refused(&[], Refusal::Contents);
    refused(&[33], Refusal::Contents);
    refused(&[0o177777], Refusal::Contents);
    refused(&[1], Refusal::Contents);
    refused(&[1, 1, 0, 0, 0], Refusal::Contents);
    // Short comes before a bad kind in what is there.
    refused(&[2, 9, 0, 0, 0, 0, 1, 0, 0, 0], Refusal::Contents);
    // 33 entries, all there.
    let mut image = vec![33];
    for _ in 0..33 {
        image.extend([1, 0, 0, 0, 0]);
    }
    refused(&image, Refusal::Contents);
    // 32 are fine.
    image[0] = 32;
    image.truncate(1 + 5 * 32);
    assert!(try_load(&image).0.is_ok());
}

#[test]
fn load_refuses_entries() {
    refused(&[1, 0, 0, 0, 0, 0], Refusal::Kind);
    refused(&[1, 6, 0, 0, 0, 0], Refusal::Kind);
    // Sizes: 2,048 words of memory here, 128, 28, 512, 12.
    for (kind, size) in [(1, 2048), (2, 128), (3, 28), (4, 512), (5, 12)] {
        refused(&[1, kind, 0, size, 0, 1, 0], Refusal::Beyond);
        refused(&[1, kind, 0, 0, 0, size + 1, 0], Refusal::Beyond);
        refused(&[1, kind, 1, 0, 0, 0], Refusal::Beyond);
        refused(&[1, kind, 0, 0, 1, 0], Refusal::Beyond);
        // A length of 0 past the size, and sums over 32 bits.
        refused(&[1, kind, 0, size + 1, 0, 0], Refusal::Beyond);
        refused(
            &[1, kind, 0o177777, 0o177777, 0o177777, 0o177777],
            Refusal::Beyond,
        );
        refused(&[1, kind, 0, 1, 0o177777, 0o177777], Refusal::Beyond);
        // A length of 0 at the size is nothing.
        assert!(try_load(&[1, kind, 0, size, 0, 0]).0.is_ok());
    }
    // Twice: same word, overlap at either end, one inside the other.
    for (start, length) in [(10, 1), (9, 2), (14, 3), (12, 1), (0, 30)] {
        let image = [2, 2, 0, 10, 0, 5, 2, 0, start, 0, length];
        refused(&image, Refusal::Twice);
    }
    // Neighbours, other kinds, and lengths of 0 do not overlap.
    for (kind, start, length) in [(2, 5, 5), (2, 15, 5), (4, 10, 5), (2, 12, 0)] {
        let mut image = vec![2, 2, 0, 10, 0, 5, kind, 0, start, 0, length];
        image.extend(vec![0; 5 + usize::from(length)]);
        assert!(try_load(&image).0.is_ok());
    }
    refused(&[2, 2, 0, 12, 0, 0, 2, 0, 12, 0, 0, 0], Refusal::Bodies);
}

#[test]
fn load_tests_entry_by_entry() {
    // 6 of the first before 5 of the second; 7 of the second before 5 of the third.
    refused(&[2, 1, 1, 0, 0, 0, 9, 0, 0, 0, 0], Refusal::Beyond);
    refused(&[2, 9, 0, 0, 0, 0, 1, 1, 0, 0, 0], Refusal::Kind);
    refused(
        &[3, 1, 0, 0, 0, 1, 1, 0, 0, 0, 1, 9, 0, 0, 0, 0],
        Refusal::Twice,
    );
    // 6 before 7 in one entry.
    refused(&[2, 2, 0, 0, 0, 128, 2, 0, 0, 0, 129], Refusal::Beyond);
    // 8 after all of them, before 2.
    refused(&[1, 3, 0, 0, 0, 1, 16, 0], Refusal::Bodies);
    refused(&[1, 3, 0, 0, 0, 2, 16], Refusal::Bodies);
    refused(&[1, 3, 0, 0, 0, 1], Refusal::Bodies);
    refused(&[0, 0], Refusal::Bodies);
    refused(&[1, 3, 0, 0, 0, 1, 16], Refusal::State);
}

#[test]
fn sizes_come_first() {
    let state = State::new();
    for (memory, tables) in [
        (0, 512),
        (1023, 512),
        (1025, 512),
        (524_289, 512),
        (1024, 256),
        (1024, 511),
        (1024, 513),
        (1024, 0),
    ] {
        let mut m = vec![5; memory];
        let mut t = vec![6; tables];
        let mut s = state.clone();
        s.level = 16; // also out of range: 1 comes first
        s.devices.input_unread = 1;
        let before = s.clone();
        assert_eq!(step(&mut s, &mut m, &mut t), Err(Refusal::Size));
        assert_eq!(run(&mut s, &mut m, &mut t, 5, true), Err(Refusal::Size));
        assert_eq!(run(&mut s, &mut m, &mut t, 0, false), Err(Refusal::Size));
        assert_eq!(raise(&mut s, &m, &t, 0), Err(Refusal::Size));
        assert_eq!(tick(&mut s, &m, &t), Err(Refusal::Size));
        assert_eq!(type_character(&mut s, &m, &t, 0), Err(Refusal::Size));
        assert_eq!(read_out(&mut s, &m, &t), Err(Refusal::Size));
        let ran = run_with_input(&mut s, &mut m, &mut t, 5, &[]);
        assert_eq!(ran, Err(Refusal::Size));
        assert_eq!(load(&[], &mut m, &mut t), Err(Refusal::Size));
        assert_eq!(write(&s, &m, &t, &mut []), Err(Refusal::Size));
        let refusal = view_number(&m, &t, Target::Memory, 0, 0);
        assert_eq!(refusal, Some(Refusal::Size));
        assert!(view(&m, &t, Target::Tables, 0, 0).is_empty());
        assert_eq!(s, before);
        assert!(m.iter().all(|&word| word == 5) && t.iter().all(|&word| word == 6));
    }
    // The smallest memory, and more than 19 bits reach; `extended.rs` has the largest.
    for size in [1024, 524_288, 525_312] {
        let mut m = vec![0; size];
        assert!(step(&mut state.clone(), &mut m, &mut [0; 512]).is_ok());
    }
}

/// States out of range, one for each bound.
fn out_of_range() -> Vec<State> {
    let mut states = Vec::new();
    let mut add = |index: usize, word: u16| {
        let mut words = State::new().to_words();
        words[index] = word;
        states.push(State::from_words(&words));
    };
    for level in 0..16 {
        add(8 * level, 0o400); // STS
        add(138 + level, 4); // PCR
    }
    add(128, 16); // level
    add(129, 2); // interrupts on
    add(130, 2); // paging on
    add(131, 2); // stopped
    add(134, 16); // PVL
    for bit in [0, 11, 12, 13, 14, 15] {
        add(135, 1 << bit); // IID
        add(136, 1 << bit); // IIE
    }
    for bit in [8, 9, 10, 11, 12, 13] {
        add(137, 1 << bit); // PGS
    }
    for bit in [2, 3, 4, 5, 6, 11, 12, 13, 14, 15] {
        add(140, 1 << bit); // PCR
    }
    for held in [2, 3, 0o100000, 0o177777] {
        add(154, held); // whether PGS is held
        add(155, held); // extended mode
    }
    // Devices' words: two characters, the length, flags.
    for word in 0..12 {
        let most = match word {
            6 | 11 => 255,
            7 => 3,
            _ => 1,
        };
        for above in [most + 1, 0o100000, 0o100000 | most, 0o177777] {
            add(156 + word, above);
        }
    }
    states
}

#[test]
fn states_out_of_range() {
    for state in out_of_range() {
        let mut m = vec![0o170401; PAGE];
        let mut t = vec![0; TABLE_WORDS];
        let mut s = state.clone();
        assert_eq!(step(&mut s, &mut m, &mut t), Err(Refusal::State));
        assert_eq!(run(&mut s, &mut m, &mut t, 0, false), Err(Refusal::State));
        assert_eq!(run(&mut s, &mut m, &mut t, 5, true), Err(Refusal::State));
        // 2 before 3, and before 10.
        assert_eq!(raise(&mut s, &m, &t, 14), Err(Refusal::State));
        assert_eq!(raise(&mut s, &m, &t, 10), Err(Refusal::State));
        assert_eq!(tick(&mut s, &m, &t), Err(Refusal::State));
        assert_eq!(read_out(&mut s, &m, &t), Err(Refusal::State));
        assert_eq!(write(&s, &m, &t, &mut []), Err(Refusal::State));
        let inputs = [(0, Input::Tick)];
        let ran = run_with_input(&mut s, &mut m, &mut t, 5, &inputs);
        assert_eq!(ran, Err(Refusal::State));
        // 2 before 11.
        for unread in [0, 1] {
            let mut unread = State {
                devices: Devices {
                    input_unread: s.devices.input_unread | unread,
                    ..s.devices.clone()
                },
                ..s.clone()
            };
            let typed = type_character(&mut unread, &m, &t, 5);
            assert_eq!(typed, Err(Refusal::State));
        }
        assert_eq!(s, state);
        // A view does not look at the state; load finds it in the image.
        let words = state.to_words();
        let mut image = vec![3, 2, 0, 0, 0, 128, 3, 0, 0, 0, 28, 5, 0, 0, 0, 12];
        image.extend(words);
        refused(&image, Refusal::State);
    }
    // Every bit in use may be set.
    let mut words = [0o177777; STATE_WORDS];
    for level in 0..16 {
        words[8 * level] = 0o377;
        words[138 + level] = 0o3603;
    }
    words[128..138].copy_from_slice(&[
        15, 1, 1, 1, 0o177777, 0o177777, 15, 0o3776, 0o3776, 0o140377,
    ]);
    words[154] = 1;
    words[155] = 1;
    words[156..].copy_from_slice(&[1, 1, 1, 1, 1, 1, 255, 3, 1, 1, 1, 255]);
    assert!(State::from_words(&words).in_range());
}

#[test]
fn raises() {
    let (m, t) = ([0; PAGE], [0; TABLE_WORDS]);
    for level in 0..40 {
        let mut state = State::new();
        let expected = match level {
            10..=13 | 15 => Ok(()),
            _ => Err(Refusal::Level),
        };
        assert_eq!(raise(&mut state, &m, &t, level), expected);
        let pid = if expected.is_ok() { 1 << level } else { 0 };
        assert_eq!(state.pid, pid);
        state.pid = 0;
        assert_eq!(state, State::new());
    }
    assert_eq!(
        raise(&mut State::new(), &m, &t, 0o177777),
        Err(Refusal::Level)
    );
    // A stopped machine, a bit already set.
    let mut state = State::new();
    state.stopped = 1;
    state.pid = 0o2000;
    assert_eq!(raise(&mut state, &m, &t, 10), Ok(()));
    assert_eq!((state.pid, state.stopped), (0o2000, 1));
}

#[test]
fn a_raised_level_runs_after_the_next_step() {
    let mut case = Case::of(0o170401);
    case.s.interrupts_on = 1;
    case.s.pie = 1 << 12;
    raise(&mut case.s, &case.m, &case.t, 12).expect("raises");
    assert_eq!(case.step(), 0);
    assert_eq!(case.s.level, 12);
}

#[test]
fn writes() {
    let mut case = Case::of(0o123).with(A, 5);
    case.m.truncate(PAGE);
    case.t[511] = 9;
    case.s.pcr[15] = 3;
    case.s.pgs_held = 1;
    case.s.devices.clock_enabled = 1;
    case.s.devices.output_character = 0o101;
    let mut out = vec![0o55; PAGE + 706 + 2];
    assert_eq!(write(&case.s, &case.m, &case.t, &mut out), Ok(PAGE + 706));
    assert_eq!(
        out[..26],
        [
            5, 1, 0, 0, 0, 1024, 2, 0, 0, 0, 128, 3, 0, 0, 0, 28, 4, 0, 0, 0, 512, 5, 0, 0, 0, 12
        ]
    );
    assert_eq!(out[26 + 0o100], 0o123); // memory
    assert_eq!(out[26 + 1024 + 5], 5); // A of level 0
    assert_eq!(out[26 + 1024 + 128 + 25], 3); // PCR of level 15
    assert_eq!(out[26 + 1024 + 128 + 26], 1); // PGS is held
    assert_eq!(out[26 + 1024 + 128 + 27], 0); // 19-bit mode
    assert_eq!(out[26 + 1024 + 128 + 28 + 511], 9); // last table word
    let devices = [1, 0, 0, 0, 0, 0, 0, 0, 0, 0, 0, 0o101];
    assert_eq!(out[26 + 1024 + 128 + 28 + 512..][..12], devices);
    assert_eq!(out[PAGE + 706..], [0o55, 0o55]);
    // Just enough; not held, in extended mode.
    case.s.pgs_held = 0;
    case.s.extended = 1;
    let mut out = vec![0o55; PAGE + 706];
    assert_eq!(write(&case.s, &case.m, &case.t, &mut out), Ok(PAGE + 706));
    assert_eq!(out[26 + 1024 + 128 + 26..][..2], [0, 1]);
    // One word short: 10, and nothing is written.
    let mut out = vec![0o55; PAGE + 705];
    assert_eq!(
        write(&case.s, &case.m, &case.t, &mut out),
        Err(Refusal::Short)
    );
    assert!(out.iter().all(|&word| word == 0o55));
    // A long memory's length takes both words.
    let mut out = vec![0; 524_288 + 706];
    assert_eq!(
        write(&case.s, &vec![0; 524_288], &case.t, &mut out),
        Ok(524_994)
    );
    assert_eq!(out[..6], [5, 1, 0, 0, 8, 0]);
}

#[test]
fn write_then_load() {
    let mut random = Random::new(99);
    for _ in 0..200 {
        let start = second::vectors::start(&mut random);
        let mut image = vec![0; start.memory.len() + IMAGE_EXTRA];
        let length = write(&start.state, &start.memory, &start.tables, &mut image);
        assert_eq!(length, Ok(image.len()));
        let mut memory = vec![0o177777; start.memory.len()];
        let mut tables = vec![0o177777; TABLE_WORDS];
        let state = load(&image, &mut memory, &mut tables);
        assert_eq!(state, Ok(start.state.clone()));
        assert_eq!((&memory, &tables), (&start.memory, &start.tables));
        assert_eq!(State::from_words(&start.state.to_words()), start.state);
    }
}

#[test]
fn views() {
    let memory: Vec<u16> = (0..1024).collect();
    let tables: Vec<u16> = (2000..2512).collect();
    let see = |target, start, length| {
        let refusal = view_number(&memory, &tables, target, start, length);
        (
            view(&memory, &tables, target, start, length).to_vec(),
            refusal,
        )
    };
    assert_eq!(see(Target::Memory, 5, 2), (vec![5, 6], None));
    assert_eq!(see(Target::Memory, 1023, 1), (vec![1023], None));
    assert_eq!(see(Target::Memory, 0, 1024).0, memory);
    assert_eq!(see(Target::Memory, 1024, 0), (vec![], None));
    assert_eq!(see(Target::Tables, 511, 1), (vec![2511], None));
    assert_eq!(see(Target::Tables, 0, 512).0, tables);
    for (target, start, length) in [
        (Target::Memory, 1024, 1),
        (Target::Memory, 1023, 2),
        (Target::Memory, 1025, 0),
        (Target::Tables, 512, 1),
        (Target::Tables, 513, 0),
        (Target::Tables, usize::MAX, 1),
        (Target::Memory, 1, usize::MAX),
    ] {
        assert_eq!(see(target, start, length), (vec![], Some(Refusal::View)));
    }
}

#[test]
fn numbers_of_refusals() {
    use Refusal::*;
    let all = [
        Size, State, Level, Contents, Kind, Beyond, Twice, Bodies, View, Short, Unread,
    ];
    assert!((1..=11).eq(all.map(Refusal::number)));
}
