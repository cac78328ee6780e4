//! What a program in Rust sees of a host: values, refusals and counters of docs/HOST.md and docs/MERGING.md.

use bpf_host::{code, explain, lower, verify};
use bpf_host::{Frames, Host, Object, ObjectMap, Options, Refused, Run, Setting, Shape};

/// r0 = 42, exit.
const ANSWER: &str = "b70000002a0000009500000000000000";

/// Looks element 0 of map 0 up, adds 1 to its first double word, and returns what it is then.
const COUNTER: &str = "620afcff00000000bfa200000000000007020000fcffffff1811000000000000000000000000000085000000010000005500020000000000\
    b700000000000000950000000000000079010000000000000701000001000000\
    7b10000000000000bf100000000000009500000000000000";

fn text(hex: &str) -> Vec<u8> {
    (0..hex.len())
        .step_by(2)
        .map(|at| u8::from_str_radix(&hex[at..at + 2], 16).unwrap())
        .collect()
}

fn host(frames: u32, tenants: u32) -> Host {
    Host::new(frames, tenants, Options::default()).unwrap()
}

/// The name of what refused a call.
fn refusal<T, E: Into<Refused>>(of: Result<T, E>) -> &'static str {
    match of {
        Ok(_) => "nothing",
        Err(refused) => refused.into().name(),
    }
}

/// One value of eight bytes.
const WORD: Shape = Shape {
    value_size: 8,
    entries: 1,
};

#[test]
fn runs_return_what_the_standard_says() {
    let host = host(2, 1);
    let program = host.tenant(0).load(&text(ANSWER), 0).unwrap();
    assert_eq!(program.run(&[]), Ok(Run { ret: 42, steps: 2 }));
}

#[test]
fn a_map_keeps_what_runs_and_updates_write() {
    let host = host(3, 1);
    let map = host.tenant(0).create_map(WORD, true).unwrap();
    let counter = host.tenant(0).load(&text(COUNTER), 0).unwrap();
    for count in 1..=3 {
        assert_eq!(counter.run(&[]).unwrap().ret, count);
    }
    assert_eq!(map.get(0), Ok(vec![3, 0, 0, 0, 0, 0, 0, 0]));
    map.update(0, &[9, 0, 0, 0, 0, 0, 0, 0]).unwrap();
    assert_eq!(counter.run(&[]).unwrap().ret, 10);
}

#[test]
fn a_map_is_found_by_its_number() {
    let host = host(4, 2);
    let shape = Shape {
        value_size: 24,
        entries: 3,
    };
    let made = host.tenant(1).create_map(shape, true).unwrap();
    made.update(2, &[7; 24]).unwrap();
    let found = host.tenant(1).map(0).unwrap();
    assert_eq!((made.shape(), found.shape()), (Ok(shape), Ok(shape)));
    assert_eq!(found.get(2), Ok(vec![7; 24]));
    assert_eq!(refusal(host.tenant(0).map(0)), "NoMap");
    assert_eq!(refusal(found.lookup(2, &mut [0; 23])), "WrongLength");
    made.remove().unwrap();
    assert_eq!(refusal(found.shape()), "NoMap");
    // A newer map has the number, and another shape.
    let _newer = host.tenant(1).create_map(WORD, true).unwrap();
    assert_eq!(found.get(0), Ok(vec![0; 8]));
}

#[test]
fn equal_pages_share_a_frame_and_no_value_shows_it() {
    let host = host(4, 2);
    let maps = [0, 1].map(|tenant| host.tenant(tenant).create_map(WORD, true).unwrap());
    for map in &maps {
        map.update(0, &[7; 8]).unwrap();
    }
    let merged = host.visit(4);
    assert_eq!(
        (merged.pages_shared, merged.pages_sharing, merged.full_scans),
        (1, 1, 2)
    );
    maps[0].update(0, &[8; 8]).unwrap();
    assert_eq!(
        (maps[0].get(0), maps[1].get(0)),
        (Ok(vec![8; 8]), Ok(vec![7; 8]))
    );
    assert_eq!(host.counters().pages_sharing, 0);
}

#[test]
fn a_run_goes_on_step_by_step() {
    let host = host(2, 1);
    let tenant = host.tenant(0);
    let program = tenant.load(&text(ANSWER), 0).unwrap();
    assert_eq!(refusal(tenant.step(1)), "NoRun");
    program.begin(&[]).unwrap();
    assert_eq!(refusal(program.run(&[])), "Busy");
    assert_eq!(refusal(program.begin(&[])), "Busy");
    let busy = program.unload().unwrap_err();
    assert_eq!(busy.refused.code, code::BUSY);
    assert_eq!(tenant.step(1), Ok(None));
    assert_eq!(tenant.step(1), Ok(Some(Run { ret: 42, steps: 2 })));
    assert_eq!(refusal(tenant.step(1)), "NoRun");
    busy.value.unload().unwrap();
}

#[test]
fn many_runs_are_made_in_their_order() {
    let host = host(3, 1);
    let _map = host.tenant(0).create_map(WORD, true).unwrap();
    let counter = host.tenant(0).load(&text(COUNTER), 0).unwrap();
    let mut rets = [0; 5];
    counter.run_many(&[], &mut rets).unwrap();
    assert_eq!(rets, [1, 2, 3, 4, 5]);
    assert_eq!(refusal(counter.run_many(&[0; 7], &mut rets)), "WrongLength");
    let first_byte = host
        .tenant(0)
        .load(&text("71100000000000009500000000000000"), 8)
        .unwrap();
    let mut contexts = [0; 24];
    (contexts[0], contexts[8], contexts[16]) = (5, 6, 7);
    first_byte.run_many(&contexts, &mut rets[..3]).unwrap();
    assert_eq!(rets, [5, 6, 7, 4, 5]);
    let shorter = first_byte.run_many(&contexts[..16], &mut rets[..4]);
    assert_eq!(refusal(shorter), "BadContext");
    assert_eq!(rets, [5, 6, 7, 4, 5]);
    assert_eq!(first_byte.run_many(&[], &mut []), Ok(()));
}

/// One frame is free, and the counter's page shares its frame with another: the first run takes the free one, and the second may not begin.
#[test]
fn many_runs_say_how_many_were_made() {
    let host = host(3, 1);
    let tenant = host.tenant(0);
    let _map = tenant.create_map(WORD, true).unwrap();
    let other = tenant.create_map(WORD, true).unwrap();
    assert_eq!(host.visit(8).frames_free, 1);
    let counter = tenant.load(&text(COUNTER), 0).unwrap();
    let mut rets = [7, 8, 9];
    let refused = counter.run_many(&[], &mut rets).unwrap_err();
    assert_eq!((refused.code, refused.made), (code::NO_FRAMES, 1));
    assert_eq!(rets, [1, 8, 9]);
    other.remove().unwrap();
    counter.run_many(&[], &mut rets[refused.made..]).unwrap();
    assert_eq!(rets, [1, 2, 3]);
}

#[test]
fn refusals_say_where_and_change_nothing() {
    let host = host(2, 1);
    let tenant = host.tenant(0);
    let map = tenant.create_map(WORD, true).unwrap();
    let pages = Shape {
        value_size: 4096,
        entries: 2,
    };
    let refused = tenant.create_map(pages, true).unwrap_err();
    assert_eq!(
        (refused.code, refused.frames),
        (code::NO_FRAMES, Some(Frames { need: 2, have: 0 }))
    );
    assert_eq!(refused.to_string(), "refused 31 NoFrames need 2 have 0");
    let refused = tenant
        .load(&text("bf120000000000009500000000000000"), 0)
        .err()
        .unwrap();
    assert_eq!(refused.to_string(), "refused 14 UnsetRegister at 1");
    assert_eq!(refusal(host.tenant(1).create_map(WORD, true)), "BadTenant");
    assert_eq!(refusal(map.update(1, &[0; 8])), "NoElement");
    assert_eq!(refusal(map.update(0, &[0; 7])), "BadShape");
    assert_eq!(refusal(host.set(Setting::PagesToScan(0))), "BadOption");
    assert_eq!(map.get(0), Ok(vec![0; 8]));
    assert_eq!(refusal(Host::new(1, 1, Options::default())), "BadShape");
}

#[test]
fn a_ninth_map_or_program_is_refused() {
    let host = host(20, 1);
    let tenant = host.tenant(0);
    let _maps = [(); 8].map(|()| tenant.create_map(WORD, true).unwrap());
    let _programs = [(); 8].map(|()| tenant.load(&text(ANSWER), 0).unwrap());
    assert_eq!(refusal(tenant.create_map(WORD, true)), "TooManyMaps");
    assert_eq!(refusal(tenant.load(&text(ANSWER), 0)), "TooManyPrograms");
}

#[test]
fn a_map_in_use_comes_back() {
    let host = host(2, 1);
    let map = host.tenant(0).create_map(WORD, true).unwrap();
    let counter = host.tenant(0).load(&text(COUNTER), 0).unwrap();
    let returned = map.remove().unwrap_err();
    assert_eq!(returned.to_string(), "refused 43 InUse");
    counter.unload().unwrap();
    returned.value.remove().unwrap();
}

fn header() -> String {
    let path = concat!(env!("CARGO_MANIFEST_DIR"), "/../../include/bpf_host.h");
    std::fs::read_to_string(path).unwrap()
}

/// The names and numbers of the header's refusals, NO_FRAMES as NoFrames.
fn refusals_of_header() -> Vec<(u32, String)> {
    let header = header();
    let (_, codes) = header.split_once("BPF_HOST_DONE = 0,").unwrap();
    let (codes, _) = codes.split_once('}').unwrap();
    let lines = codes.split(',').map(str::trim);
    lines
        .map(|line| {
            let (name, number) = line.split_once(" = ").unwrap();
            let words = name.strip_prefix("BPF_HOST_").unwrap().split('_');
            let capitalized = words.map(|word| word[..1].to_owned() + &word[1..].to_lowercase());
            (number.parse().unwrap(), capitalized.collect())
        })
        .collect()
}

#[test]
fn refusals_have_the_names_of_the_header() {
    let refused = verify(&[0; 7], &[], 0).unwrap_err();
    let listed = refusals_of_header();
    assert_eq!(listed.len(), 40);
    for (number, name) in listed {
        let mut other = refused;
        other.code = number;
        assert_eq!(other.name(), name);
    }
}

#[test]
fn the_crate_has_the_version_of_the_header() {
    let header = header();
    let (_, version) = header.split_once("#define BPF_HOST_VERSION ").unwrap();
    let number = version.lines().next().unwrap();
    assert_eq!(env!("CARGO_PKG_VERSION"), format!("0.{number}.0"));
}

/// A host of two tenants, each with one page of the same bytes that aren't zero.
fn two_equal_pages(options: Options) -> Host {
    let host = Host::new(4, 2, options).unwrap();
    for tenant in [0, 1] {
        let map = host.tenant(tenant).create_map(WORD, true).unwrap();
        map.update(0, &[7; 8]).unwrap();
    }
    host
}

/// By docs/MERGING.md: of 25 pages five have the same bytes, and lie on two frames, since at most three share one; two others have the same; five
/// wait for an equal one; six change before their last visit; and seven are zeros.
#[test]
fn each_counter_has_its_name() {
    let options = Options {
        use_zero_pages: true,
        max_page_sharing: 3,
        ..Options::default()
    };
    let host = Host::new(28, 1, options).unwrap();
    let pages = Shape {
        value_size: 4096,
        entries: 25,
    };
    let map = host.tenant(0).create_map(pages, true).unwrap();
    let fill = |key: u32, byte: u8| map.update(key, &[byte; 4096]).unwrap();
    (0..5).for_each(|key| fill(key, 1));
    (5..7).for_each(|key| fill(key, 2));
    (7..18).for_each(|key| fill(key, 10 + key as u8));
    host.visit(7 * 25);
    (12..18).for_each(|key| fill(key, 100 + key as u8));
    let after = host.visit(25);
    assert_eq!(host.counters(), after);
    assert_eq!(after.full_scans, 8);
    assert_eq!(after.pages_shared, 3);
    assert_eq!(after.pages_sharing, 4);
    assert_eq!(after.pages_unshared, 5);
    assert_eq!(after.pages_volatile, 6);
    assert_eq!(after.ksm_zero_pages, 7);
    assert_eq!(after.stable_node_chains, 1);
    assert_eq!(after.stable_node_dups, 2);
    assert_eq!(after.frames_free, 13);
    // Four of the seven pages on shared frames and the seven of zeros need a frame each.
    host.unmerge().unwrap();
    assert_eq!(host.counters().frames_free, 2);
}

#[test]
fn unmerging_needs_frames() {
    let host = two_equal_pages(Options::default());
    host.visit(4);
    let other = Shape {
        value_size: 4096,
        entries: 2,
    };
    let _more = host.tenant(0).create_map(other, true).unwrap();
    assert_eq!(refusal(host.unmerge()), "NoFrames");
    assert_eq!(host.counters().pages_sharing, 1);
}

#[test]
fn each_option_is_set_by_its_name() {
    let stopped = Options {
        run: false,
        ..Options::default()
    };
    assert_eq!(two_equal_pages(stopped).visit(4).full_scans, 0);
    let host = two_equal_pages(Options::default());
    host.set(Setting::Run(false)).unwrap();
    assert_eq!(host.visit(4).full_scans, 0);
    host.set(Setting::Run(true)).unwrap();
    assert_eq!(host.visit(4).full_scans, 2);
    let shared = host.set(Setting::MaxPageSharing(3));
    assert_eq!(refusal(shared), "PagesShared");

    let zeros = Host::new(4, 1, Options::default()).unwrap();
    let _map = zeros.tenant(0).create_map(WORD, true).unwrap();
    zeros.set(Setting::UseZeroPages(true)).unwrap();
    assert_eq!(zeros.visit(4).ksm_zero_pages, 1);
    assert_eq!(refusal(zeros.set(Setting::MaxPageSharing(1))), "BadOption");
    zeros.set(Setting::MaxPageSharing(2)).unwrap();
    assert_eq!(
        refusal(zeros.set(Setting::PagesToScan(100_001))),
        "BadOption"
    );
    zeros.set(Setting::PagesToScan(1)).unwrap();

    let alone = Options {
        max_page_sharing: 1,
        ..Options::default()
    };
    assert_eq!(refusal(Host::new(4, 1, alone)), "BadOption");
}

#[test]
fn a_text_is_verified_for_maps_by_number() {
    let shape = Some(WORD);
    assert_eq!(verify(&text(COUNTER), &[shape], 0), Ok(()));
    let refused = verify(&text(COUNTER), &[None, shape], 0).unwrap_err();
    assert_eq!(refused.to_string(), "refused 24 UnknownMap at 3");
    assert_eq!(refusal(verify(&text(ANSWER), &[], 7)), "BadContext");
    assert_eq!(
        refusal(verify(&text(ANSWER), &[shape; 9], 0)),
        "TooManyMaps"
    );
}

#[test]
fn a_loop_is_lowered_to_copies() {
    // A row of crates/lower/rows, worked out by hand.
    let loops = text("b7000000000000000700000001000000a500feff030000009500000000000000");
    let copies = text(
        "b70000000000000007000000010000003500040003000000070000000100000035000200030000000700000001000000\
         a50001000300000095000000000000000500fcff00000000",
    );
    assert_eq!(lower(&loops, &[], 0), Ok(copies));
    assert_eq!(lower(&text(ANSWER), &[], 0), Ok(text(ANSWER)));
    let host = host(2, 1);
    let lowered = lower(&loops, &[], 0).unwrap();
    let program = host.tenant(0).load(&lowered, 0).unwrap();
    assert_eq!(program.run(&[]).unwrap().ret, 3);
    assert_eq!(
        refusal(lower(&text("0500ffff00000000"), &[], 0)),
        "BackJump"
    );
}

#[test]
fn a_text_is_explained_in_lines() {
    let lines = "accepted slots 2 instructions 2 reserve 0\n   \
        0  b70000002a000000  r0 = 42\n   \
        1  9500000000000000  exit                            ; r0 = 42\n";
    assert_eq!(explain(&text(ANSWER), &[], 0).as_deref(), Ok(lines));
    let refused = explain(&text("bf12000000000000"), &[], 0).unwrap();
    assert!(
        refused.starts_with("refused 13 FallsOff at 0\n"),
        "{refused}"
    );
    let long = [text(ANSWER)[..8].repeat(4095), text(ANSWER)[8..].to_vec()].concat();
    assert!(explain(&long, &[], 0).unwrap().lines().count() > 4096);
}

/// An object file of crates/bpf_object, whose rows say what is in it.
fn file(name: &str) -> Vec<u8> {
    let folder = concat!(env!("CARGO_MANIFEST_DIR"), "/../../crates/bpf_object/data");
    std::fs::read(format!("{folder}/{name}")).unwrap()
}

#[test]
fn an_object_file_is_loaded_with_its_maps() {
    let object = Object::read(&file("globals.o"), "", 0).unwrap();
    let names: Vec<&str> = object.maps.iter().map(|map| map.name.as_str()).collect();
    assert_eq!(names, [".data", ".rodata", ".bss"]);
    let host = host(8, 1);
    let program = host.tenant(0).load_object(&object, true).unwrap();
    let (ret, steps) = (134_678_021, 6);
    assert_eq!(program.run(&[]), Ok(Run { ret, steps }));
    let constants = object.map_named(".rodata").unwrap();
    let first = host.tenant(0).map(constants).unwrap().get(0);
    assert_eq!(first.as_ref(), Ok(&object.maps[1].first));
    assert_eq!(
        refusal(host.tenant(0).load_object(&object, true)),
        "HasMaps"
    );
}

#[test]
fn a_map_of_an_object_is_found_by_its_name() {
    let object = Object::read(&file("globals.o"), "", 0).unwrap();
    let names = [".data", ".rodata", ".bss", ".dat", ".data.", ""];
    let numbers = names.map(|name| object.map_named(name));
    assert_eq!(numbers, [Some(0), Some(1), Some(2), None, None, None]);
    let mut twice = object;
    twice.maps[2].name = ".rodata".to_owned();
    assert_eq!(twice.map_named(".rodata"), Some(1));
}

/// A copy of an object in which one map of three is another.
fn with_map(object: &Object, number: usize, change: impl Fn(&mut ObjectMap)) -> Object {
    let mut changed = object.clone();
    change(&mut changed.maps[number]);
    changed
}

/// The cases of tests/library/objects.c.
#[test]
fn objects_have_the_same_maps_or_others() {
    let object = Object::read(&file("globals.o"), "", 0).unwrap();
    let mut next = object.clone();
    (next.text, next.context_size) = (Vec::new(), 8);
    assert!(object.has_same_maps(&next));
    let others = [
        with_map(&object, 2, |map| map.name.push('s')),
        with_map(&object, 2, |map| map.shape.value_size += 1),
        with_map(&object, 2, |map| map.shape.entries += 1),
        with_map(&object, 1, |map| *map.first.last_mut().unwrap() += 1),
        with_map(&object, 1, |map| map.first.truncate(1)),
        Object {
            maps: object.maps[..2].to_vec(),
            ..object.clone()
        },
    ];
    for other in others {
        assert!(!object.has_same_maps(&other), "{:?}", other.maps);
        assert!(!other.has_same_maps(&object), "{:?}", other.maps);
    }
}

/// Two maps whose names were cut to the same bytes, or escaped to the same, may be different ones.
#[test]
fn a_map_without_its_whole_name_is_nobodys() {
    let object = Object::read(&file("globals.o"), "", 0).unwrap();
    let named = |name: &str| with_map(&object, 0, |map| map.name = name.to_owned());
    for (name, is_whole) in [
        (&*"n".repeat(62), true),
        (&"n".repeat(63), false),
        (&("n".repeat(40) + ".."), false),
        (&("n".repeat(41) + ".."), true),
        (".data.v_2", true),
        (".data-2", false),
        ("\\u{e9}", false),
        ("dat\u{e9}", false),
    ] {
        assert_eq!(named(name).has_same_maps(&named(name)), is_whole, "{name}");
    }
}

/// An object's maps take just the pages for which a host has frames, besides one for zeros, and not one fewer (docs/MEMORY.md).
#[test]
fn an_object_has_the_pages_of_its_maps() {
    let object = Object::read(&file("globals.o"), "", 0).unwrap();
    for (value_size, entries, pages) in [
        (1, 1, 1),
        (8, 513, 2),
        (4, 1024, 2),
        (24, 200, 2),
        (4096, 256, 256),
        (16, 65536, 256),
    ] {
        let shape = Shape {
            value_size,
            entries,
        };
        let mut one = with_map(&object, 0, |map| map.shape = shape);
        one.maps.truncate(1);
        assert_eq!(one.pages(), pages, "{shape:?}");
        let host = host(pages as u32 + 1, 1);
        host.tenant(0).create_map(shape, true).unwrap();
        let more = Shape {
            value_size: 1,
            entries: 1,
        };
        assert!(host.tenant(0).create_map(more, true).is_err(), "{shape:?}");
    }
    let doubled = with_map(&object, 0, |map| {
        map.shape = Shape {
            value_size: 4096,
            entries: 5,
        }
    });
    assert_eq!(doubled.pages(), object.pages() + 4);
}

/// What is read doesn't pass over the stack, of which the library may take 96 KiB.
#[test]
fn an_object_is_read_on_a_small_stack() {
    let globals = file("globals.o");
    let reads = move || Object::read(&globals, "", 0).unwrap().maps.len();
    let small = std::thread::Builder::new().stack_size(128 << 10);
    assert_eq!(small.spawn(reads).unwrap().join().unwrap(), 3);
}

#[test]
fn a_program_is_replaced_on_its_maps() {
    let object = Object::read(&file("globals.o"), "", 0).unwrap();
    let host = host(8, 1);
    let first = host.tenant(0).load_object(&object, true).unwrap();
    let data = object.map_named(".data").unwrap();
    let data = host.tenant(0).map(data).unwrap();
    let kept = [9, 8, 7, 6, 5, 4, 3, 2];
    data.update(0, &kept).unwrap();
    let again = Object::read(&file("globals.o"), "", 0).unwrap();
    assert!(again.has_same_maps(&object));
    // A tenant has at most eight programs, so each of the older ones was unloaded.
    let next = (0..20).fold(first, |program, _| program.replace(&again).unwrap());
    assert_eq!(data.get(0), Ok(kept.to_vec()));
    let cut = Object {
        text: vec![0; 7],
        ..object
    };
    let returned = next.replace(&cut).unwrap_err();
    assert_eq!(returned.refused.code, code::BAD_LENGTH);
    assert_eq!(returned.value.run(&[]).unwrap().steps, 6);
}

#[test]
fn a_program_is_found_by_its_number() {
    let object = Object::read(&file("globals.o"), "", 0).unwrap();
    let host = host(8, 1);
    let tenant = host.tenant(0);
    let first = tenant.load_object(&object, true).unwrap();
    let second = tenant.load(&text(ANSWER), 0).unwrap();
    assert_eq!((first.number(), second.number()), (0, 1));
    assert_eq!(tenant.program(1).run(&[]), Ok(Run { ret: 42, steps: 2 }));
    second.unload().unwrap();
    assert_eq!(refusal(tenant.program(1).run(&[])), "NoProgram");
    assert_eq!(refusal(tenant.program(1).unload()), "NoProgram");
    // A replacement of nothing loads nothing: neither where the new number is that of nothing, nor where it is another one.
    for nothing in [1, 5] {
        let returned = tenant.program(nothing).replace(&object).unwrap_err();
        assert_eq!(returned.refused.code, code::NO_PROGRAM);
        assert_eq!(returned.value.number(), nothing);
        assert_eq!(refusal(tenant.program(1).run(&[])), "NoProgram");
    }
    // While a run is open nothing is replaced.
    first.begin(&[]).unwrap();
    assert_eq!(refusal(first.replace(&object)), "Busy");
}

#[test]
fn threads_share_a_host_behind_a_lock() {
    let host = host(3, 1);
    let _map = host.tenant(0).create_map(WORD, true).unwrap();
    let number = host.tenant(0).load(&text(COUNTER), 0).unwrap().number();
    let host = std::sync::Mutex::new(host);
    std::thread::scope(|threads| {
        for _thread in 0..4 {
            threads.spawn(|| {
                for _run in 0..100 {
                    let host = host.lock().unwrap();
                    host.tenant(0).program(number).run(&[]).unwrap();
                }
            });
        }
    });
    let host = host.into_inner().unwrap();
    assert_eq!(host.tenant(0).program(number).run(&[]).unwrap().ret, 401);
}

#[test]
fn a_refused_object_leaves_no_map_and_says_why() {
    let object = Object::read(&file("globals.o"), "", 0).unwrap();
    let small = host(3, 1);
    let tenant = small.tenant(0);
    assert_eq!(refusal(tenant.load_object(&object, true)), "NoFrames");
    assert!((0..8).all(|number| tenant.map(number).is_err()));
    let large = host(8, 1);
    let tenant = large.tenant(0);
    let cut = Object {
        text: vec![0; 7],
        ..object
    };
    assert_eq!(refusal(tenant.load_object(&cut, true)), "BadLength");
    assert!((0..8).all(|number| tenant.map(number).is_err()));
    assert_eq!(large.counters().frames_free, 7);
    let refused = Object::read(&file("both.o"), "", 0).unwrap_err();
    assert_eq!(refused.refused.name(), "BadObject");
    assert!(refused.why.contains("there are several functions, "));
    let refused = Object::read(&file("unset.o"), "", 0).unwrap_err();
    assert_eq!(refused.refused.slot, Some(0));
    assert!(refused
        .to_string()
        .starts_with("refused 14 UnsetRegister at 0\n"));
}

/// Each argument reaches the library: contexts, steps, names, sizes, shapes, and whether a map may be merged.
#[test]
fn no_argument_is_lost() {
    let second = text("79100800000000009500000000000000");
    let context = [0, 0, 0, 0, 0, 0, 0, 0, 5, 0, 0, 0, 0, 0, 0, 0];
    let one = host(6, 2);
    let program = one.tenant(0).load(&second, 16).unwrap();
    assert_eq!(program.run(&context), Ok(Run { ret: 5, steps: 2 }));
    program.begin(&context).unwrap();
    assert_eq!(one.tenant(0).step(0), Ok(None));
    assert_eq!(one.tenant(0).step(2), Ok(Some(Run { ret: 5, steps: 2 })));
    for (mergeable, sharing) in [(false, 0), (true, 1)] {
        let host = host(6, 2);
        let _maps = [0, 1].map(|tenant| host.tenant(tenant).create_map(WORD, mergeable).unwrap());
        assert_eq!(host.visit(4).pages_sharing, sharing);
    }
    let globals = Object::read(&file("globals.o"), "", 0).unwrap();
    let apart = host(8, 2);
    let _programs = [0, 1].map(|tenant| apart.tenant(tenant).load_object(&globals, false).unwrap());
    assert_eq!(apart.visit(100).pages_sharing, 0);
    assert_eq!(
        Object::read(&file("two.o"), "tc", 16).unwrap().context_size,
        16
    );
    let unnamed = Object::read(&file("two.o"), "other", 0).unwrap_err();
    assert!(unnamed
        .why
        .starts_with("no section and no function is named `other`"));
    assert_eq!(lower(&second, &[], 16), Ok(second.clone()));
    assert_eq!(refusal(lower(&second, &[], 8)), "OutsideContext");
    assert_eq!(lower(&text(COUNTER), &[Some(WORD)], 0), Ok(text(COUNTER)));
    assert!(explain(&second, &[], 16).unwrap().starts_with("accepted"));
    assert!(explain(&text(COUNTER), &[Some(WORD)], 0)
        .unwrap()
        .starts_with("accepted"));
}
