//! Nothing is lost: many runs at once, names that are links, runs that were killed, files that may not be written.
use super::room::{piece, Ran, Room};
use std::fs::File;
use std::thread;
use std::time::{Duration, Instant};
use thoweldeck::lock::try_lock;

// A folder with the pieces `1` at 0 and `2` at 4, and a record of the first.
fn started() -> Room {
    let room = Room::new();
    room.write("1", &piece(7, 0, b"ABCD"));
    room.write("2", &piece(7, 4, b"EFGH"));
    assert_eq!(room.run(&["take", "a.record", "1", "--length", "20"]).status, 0);
    room
}

// Asserts that a run did all that it was asked.
fn well(ran: &Ran) {
    assert_eq!(ran.status, 0, "{ran:?}");
}

#[test]
fn many_at_once_by_two_names_lose_nothing() {
    let room = Room::new();
    well(&room.shell("mkdir sub && ln -s ../a.record sub/link.record"));
    let mut line = String::new();
    for index in 0..40 {
        let name = if index % 2 == 0 { "a.record" } else { "sub/link.record" };
        room.write(&format!("{index}"), &piece(7, index * 10, b"0123456789"));
        line.push_str(&format!("thoweldeck take {name} {index} --length 400 & "));
    }
    let ran = room.shell(&format!("{line} wait"));
    assert_eq!(ran.text.matches(", 10 new\n").count(), 40, "{ran:?}");
    assert_eq!(room.record("a.record").held(), 400);
    assert_eq!(room.shell("test -L sub/link.record && ls -A sub").text, "link.record\n");
    assert!(room.names().iter().all(|name| !name.starts_with('.')), "{:?}", room.names());
}

#[test]
fn a_run_waits_for_another_by_any_name() {
    let room = started();
    well(&room.shell("mkdir sub && ln -s ../a.record sub/link.record"));
    for (name, frame) in [("a.record", "1"), ("sub/link.record", "2")] {
        room.write(".a.record.lock", b"");
        let file = File::open(room.path(".a.record.lock")).expect("the lock");
        assert!(try_lock(&file).expect("a lock"));
        let (start, hold) = (Instant::now(), Duration::from_secs(1));
        // the file is closed, as it is for a run that is killed, and is not removed
        let held = thread::spawn(move || {
            thread::sleep(hold);
            drop(file);
        });
        well(&room.run(&["take", name, frame]));
        assert!(start.elapsed() >= hold, "{name}");
        held.join().expect("the thread ends");
        assert_eq!(room.names(), ["1", "2", "a.record", "sub"]);
    }
    assert_eq!(room.record("a.record").held(), 8);
}

#[test]
fn a_killed_run_is_in_nobodys_way() {
    let room = Room::new();
    room.write("1", &piece(7, 0, b"ABCD"));
    room.write("2", &piece(7, 4, b"EFGH"));
    well(&room.run(&["take", "a.record", "1", "--length", "32768"]));
    let before = room.read("a.record");
    // the operating system kills who writes more into a file than it may
    well(&room.shell("chmod 600 a.record; ulimit -c 0; ulimit -f 8; thoweldeck take a.record 2; test $? -gt 128"));
    assert_eq!(room.names(), [".a.record.lock", ".a.record.new", "1", "2", "a.record"]);
    assert_eq!(room.read("a.record"), before);
    assert_eq!(room.shell("stat -c %a .a.record.new").text, "600\n", "others may not read what it has left");
    let start = Instant::now();
    well(&room.run(&["take", "a.record", "2"]));
    assert!(start.elapsed() < Duration::from_secs(40), "there is nothing to wait for");
    assert_eq!(room.record("a.record").held(), 8);
    assert_eq!(room.names(), ["1", "2", "a.record"]);
}

#[test]
fn a_lock_that_nobody_has_is_taken() {
    let room = started();
    for lines in ["> .a.record.lock", "> .a.record.lock; chmod 444 .a.record.lock"] {
        well(&room.shell(lines));
        well(&room.run(&["take", "a.record", "2"]));
        assert_eq!(room.names(), ["1", "2", "a.record"], "{lines}");
    }
    // what has bytes in it was not made by a run: it stays
    room.write(".a.record.lock", b"notes");
    well(&room.run(&["take", "a.record", "1"]));
    assert_eq!(room.read(".a.record.lock"), Some(b"notes".to_vec()));
}

#[test]
fn what_stands_in_the_place_of_our_files_is_not_followed() {
    let room = started();
    room.write("notes", b"a page of notes");
    well(&room.shell("ln -s notes .a.record.new"));
    well(&room.run(&["take", "a.record", "2"]));
    assert_eq!(room.record("a.record").held(), 8);
    assert_eq!(room.names(), ["1", "2", "a.record", "notes"]);
    let before = room.read("a.record");
    room.write("3", &piece(7, 8, b"IJKL"));
    for (line, said) in [
        ("ln -s notes .a.record.lock", "a.record: cannot be locked by .a.record.lock: it is no plain file\n"),
        ("rm .a.record.lock; mkfifo .a.record.lock", "cannot be locked by .a.record.lock: it is no plain file\n"),
        ("rm .a.record.lock; mkdir .a.record.new", "a.record: cannot be written: .a.record.new: Is a directory"),
    ] {
        // who opens a pipe waits until another one does
        let ran = room.shell(&format!("{line}; timeout 20 thoweldeck take a.record 3"));
        assert!(ran.status == 2 && ran.text.contains(said), "{ran:?}");
    }
    assert_eq!((room.read("notes"), room.read("a.record")), (Some(b"a page of notes".to_vec()), before));
}

#[test]
fn a_link_is_followed_and_permissions_are_kept() {
    let room = started();
    well(&room.shell("ln -s a.record link.record"));
    for (mode, frame) in [("600", "2"), ("666", "3")] {
        room.write("3", &piece(7, 8, b"IJKL"));
        let line = format!("chmod {mode} a.record && thoweldeck take link.record {frame} && stat -c %a a.record");
        let ran = room.shell(&line);
        assert!(ran.status == 0 && ran.text.ends_with(&format!("\n{mode}\n")), "{ran:?}");
    }
    well(&room.shell("test -L link.record"));
    assert_eq!(room.record("a.record").held(), 12);
    // C is A by another path
    well(&room.run(&["join", "a.record", "a.record", "-o", "./a.record"]));
    assert_eq!(room.names(), ["1", "2", "3", "a.record", "link.record"]);
}

#[test]
fn a_link_to_a_file_that_is_not_there_makes_it_there() {
    let room = started();
    well(&room.shell("mkdir sub; ln -s ../sub/b.record sub/link; ln -s sub/link new; ln -s sub/file save"));
    well(&room.run(&["take", "new", "1", "2", "--length", "8"]));
    assert_eq!(room.record("sub/b.record").held(), 8);
    well(&room.run(&["save", "new", "-o", "save"]));
    assert_eq!(room.read("sub/file"), Some(b"ABCDEFGH".to_vec()));
    assert_eq!(
        room.shell("test -L new && test -L sub/link && test -L save && ls -A sub").text,
        "b.record\nfile\nlink\n"
    );
    // and what is there behind a link is not written over
    let ran = room.run(&["join", "new", "new", "-o", "save"]);
    assert_eq!((ran.status, ran.errors.as_str()), (1, "thoweldeck: save: is there already, and is left as it is\n"));
}

#[test]
fn a_name_that_leads_to_no_file_is_told() {
    let room = started();
    well(&room.shell("ln -s loop pool && ln -s pool loop && ln -s absent/a.record astray && mkfifo pipe"));
    let long = "n".repeat(256);
    let told = format!("thoweldeck: {long}: cannot be looked for: File name too long (os error 36)\n");
    for (name, said) in [
        ("loop", "thoweldeck: loop: is a link that leads to no file, but round in a loop of links\n"),
        ("astray", "thoweldeck: astray: cannot be written: there is no folder absent\n"),
        ("a.record/b", "thoweldeck: a.record/b: cannot be looked for: Not a directory (os error 20)\n"),
        ("pipe", "thoweldeck: pipe: is no plain file, and is left as it is\n"),
        ("samples", "thoweldeck: samples: is no plain file, and is left as it is\n"),
        (&long, &told),
    ] {
        let ran = room.shell(&format!("timeout 20 thoweldeck take {name} 1 --length 20"));
        assert_eq!((ran.status, ran.text.as_str()), (2, said), "{name}");
    }
    // where there is something, `join` and `save` stop at it
    well(&room.run(&["take", "whole", "1", "--length", "4"]));
    let ran = room.run(&["save", "whole", "-o", "/dev/stdout"]);
    assert_eq!((ran.status, ran.errors.contains("/dev/stdout: is there already")), (1, true), "{ran:?}");
    assert_eq!(room.names(), ["1", "2", "a.record", "astray", "loop", "pipe", "pool", "whole"]);
}

#[test]
fn a_record_without_write_permission_is_left() {
    let room = started();
    well(&room.run(&["take", "b.record", "2", "--length", "20"]));
    well(&room.shell("chmod 444 a.record && ln -s a.record link"));
    let before = room.read("a.record");
    for (words, name, status) in [
        (&["take", "a.record", "2"][..], "a.record", 2),
        (&["take", "link", "2"], "link", 2),
        (&["join", "a.record", "b.record", "-o", "a.record"], "a.record", 1),
    ] {
        let ran = room.run(words);
        let said = format!("thoweldeck: {name}: is write-protected, and is left as it is\n");
        assert_eq!((ran.status, ran.text.as_str(), ran.errors), (status, "", said), "{words:?}");
    }
    assert_eq!((room.read("a.record"), room.shell("stat -c %a a.record").text.as_str()), (before, "444\n"));
    assert_eq!(room.names(), ["1", "2", "a.record", "b.record", "link"]);
}

#[test]
fn a_second_name_of_a_record_is_told() {
    let room = started();
    let said = "a.record: had a second name (a hard link), which keeps the record as it was\n";
    well(&room.shell("ln a.record older"));
    let ran = room.run(&["take", "a.record", "1"]);
    assert!(ran.status == 0 && !ran.text.contains(said), "nothing is new, so nothing is written: {ran:?}");
    let ran = room.run(&["take", "a.record", "2"]);
    assert!(ran.status == 0 && ran.text.contains(said), "{ran:?}");
    assert_eq!((room.record("a.record").held(), room.record("older").held()), (8, 4));
    well(&room.shell("ln a.record newer && rm older"));
    let ran = room.run(&["join", "a.record", "newer", "-o", "a.record"]);
    assert!(ran.status == 0 && ran.text.contains(said), "{ran:?}");
    // the name that a killed run has left is no second name of the user's
    well(&room.shell("rm newer; ln a.record .a.record.new"));
    room.write("3", &piece(7, 8, b"IJKL"));
    let ran = room.run(&["take", "a.record", "3"]);
    assert!(ran.status == 0 && !ran.text.contains(said), "{ran:?}");
    assert_eq!(room.names(), ["1", "2", "3", "a.record"]);
}

#[test]
fn long_names_that_begin_alike_keep_apart() {
    let room = Room::new();
    let names = ["x", "y"].map(|end| "n".repeat(254) + end);
    let mut line = String::new();
    for index in 0..10 {
        room.write(&format!("{index}"), &piece(7, index * 2, b"ab"));
        line.push_str(&format!("thoweldeck take {} {index} --length 20 & ", names[index as usize % 2]));
    }
    well(&room.shell(&format!("{line} wait")));
    for name in &names {
        assert_eq!(room.record(name).held(), 10);
    }
    assert_eq!(room.names().len(), 12, "{:?}", room.names());
}

#[test]
fn a_record_that_cannot_be_written_whole_is_left_as_it_was() {
    let room = Room::new();
    room.write("1", &piece(7, 0, b"ABCD"));
    room.write("2", &piece(7, 4, b"EFGH"));
    well(&room.run(&["take", "a.record", "1", "--length", "32768"]));
    let before = room.read("a.record");
    // a write beyond the limit fails, as it does on a full disk
    for name in ["a.record", "b.record"] {
        let line = format!("trap '' XFSZ; ulimit -f 8; thoweldeck take {name} 2 --length 32768");
        let ran = room.shell(&line);
        let said = format!("thoweldeck: {name}: cannot be written: .{name}.new: File too large");
        assert!(ran.status == 2 && ran.text.contains(&said), "{ran:?}");
    }
    assert_eq!(room.read("a.record"), before);
    assert_eq!(room.names(), ["1", "2", "a.record"]);
}
