//! The stack that calls take: every kind of program runs in a thread of `STACK_BYTES`, and a fifth of that is to spare. So do programs of 16,384 bytes
//! that have nothing but lets, one inside the other.

use std::fs;
use std::hint::black_box;
use std::thread;

use kivzurg::{raw, Buffer, Kind, Principal, Right, Server, Variable, LONGEST_PROGRAM, STACK_BYTES};

/// Commands, and how a program of admin's that ends with them ends. Together they have every command, every function and every kind of end.
const PROGRAMS: &[(&str, Kind)] = &[
    ("create principal rosa \"r\"\nset a = \"1\"\nset r = {x=a,y=\"2\"}\nset l = []\nreturn r", Kind::Returned),
    ("append to l with r\nappend to l with r\nappend to l with l\nlocal n = r.x\nreturn l", Kind::Returned),
    ("foreach y in l replacewith {z=y.x}\nreturn l", Kind::Returned),
    ("foreach y in l replacewith y.none\nreturn l", Kind::Failed),
    ("filtereach y in l with let z = y.z in equal(z,\"1\")\nreturn l", Kind::Returned),
    ("filtereach y in l with y.none\nreturn l", Kind::Failed),
    ("set q = {y=\"2\",x=a}\nlocal c = equal(q,r)\nreturn notequal(c,q)", Kind::Returned),
    ("return let z = let z = r.x in concat(z,z) in {a=z,b=z}", Kind::Returned),
    ("return let r = a in none", Kind::Failed),
    ("set delegation l admin read -> anyone\nset delegation all admin delegate -> rosa\nreturn \"\"", Kind::Returned),
    ("default delegator = rosa\ncreate principal tom \"t\"\nchange password tom \"tt\"\nreturn \"\"", Kind::Returned),
    ("delete delegation all rosa write -> tom\ndelete delegation l admin read -> anyone\nreturn \"\"", Kind::Returned),
    ("set delegation l tom read -> rosa\nset delegation l anyone read -> rosa\nreturn \"\"", Kind::Denied),
    ("local s = split(\"Blue Moon\",\"----\")\nlocal t = concat(s.fst,\"!\")\nreturn tolower(t)", Kind::Returned),
    ("set m = []\nappend to m with add(\"1.25\",\"-0.50\")\nforeach y in m replacewith times(y,\"12.50\")\nreturn m", Kind::Returned),
    ("foreach y in m replacewith per(y,\"-0.03\")\nlocal p = sub(\"0.01\",\"0.02\")\nreturn p", Kind::Returned),
    ("foreach y in m replacewith per(y,\"0.00\")\nreturn m", Kind::Failed),
    ("return none", Kind::Failed),
    ("return [ ]", Kind::Failed),
    ("exit", Kind::Exited),
];

/// Where an expression may stand: what is before it, and what is behind. No name here has one letter or two.
const PLACES: &[(&str, &str)] = &[
    ("set list = []\nappend to list with \"\"\nset out = ", "\nreturn out"),
    ("append to list with ", "\nreturn list"),
    ("local own = ", "\nreturn own"),
    ("foreach song in list replacewith ", "\nreturn list"),
    ("filtereach song in list with ", "\nreturn list"),
    ("return ", ""),
];

/// As many lets as there is room for, each in the first expression of the one before it, so that all are begun at once.
fn deep(room: usize) -> String {
    let depth = (room - "\"\"".len()) / "let a=in\"\"".len();
    format!("{}\"\"{}", "let a=".repeat(depth), "in\"\"".repeat(depth))
}

/// As many lets as there is room for, each in the second expression of the one before it, so that all names live at once.
fn wide(room: usize) -> String {
    let mut lets = String::new();
    for name in short_names() {
        let one = format!("let {name}=\"\"in ");
        if lets.len() + one.len() + "\"\"".len() > room {
            break;
        }
        lets += &one;
    }
    lets + "\"\""
}

/// A program of as many bytes as one may have, with nothing but lets in one place; spaces before them fill it up.
fn longest(before: &str, lets: fn(usize) -> String, after: &str) -> String {
    let rest = program(&format!("{before}{after}")).len();
    let lets = lets(LONGEST_PROGRAM - rest);
    let spaces = " ".repeat(LONGEST_PROGRAM - rest - lets.len());
    program(&format!("{before}{spaces}{lets}{after}"))
}

/// A list of 8,000 for the weight, so that it is long and one more is too much.
fn doubling() -> String {
    let names = ["append to l with l"; 12].join("\n");
    format!("set l = []\nappend to l with \"\"\n{names}\nforeach y in l replacewith y\nset m = l\nreturn l")
}

fn program(commands: &str) -> String {
    format!("as principal admin password \"p\" do\n{commands}\n***")
}

/// A chain from admin over so many principals.
fn chained(steps: usize) -> Vec<String> {
    let mut commands = vec!["set l = []".to_string()];
    for n in 0..steps {
        let from = if n == 0 { "admin".to_string() } else { format!("p{}", n - 1) };
        commands.push(format!("create principal p{n} \"\"\nset delegation l admin delegate -> p{n}\nset delegation l {from} read -> p{n}"));
    }
    commands.chunks(60).map(|some| program(&format!("{}\nreturn \"\"", some.join("\n")))).collect()
}

/// A state as 0.3.0 kept it: the first line has a count, and the principals' lines have none.
fn former(state: &Buffer) -> Vec<u8> {
    let text = String::from_utf8_lossy(state).trim_end_matches('\0').to_string();
    let line = |line: &str| match line.as_bytes()[0] {
        b'O' | b'C' => format!("{line}\t0\n"),
        b'P' | b'N' => format!("{}\n", line.rsplit_once('\t').expect("a count").0),
        _ => format!("{line}\n"),
    };
    let mut bytes = text.lines().map(line).collect::<String>().into_bytes();
    bytes.resize(kivzurg::BUFFER, 0);
    bytes
}

/// A state of these lines, which begins as every state does.
fn server(lines: impl Iterator<Item = String>) -> Server {
    let text = ["O\nP\tadmin\t\t0\nN\tanyone\t0\n".to_string()].into_iter().chain(lines).collect::<String>();
    let mut state: Box<Buffer> = Box::new([0; kivzurg::BUFFER]);
    state[..text.len()].copy_from_slice(text.as_bytes());
    Server::over(state)
}

const LETTERS: &str = "abcdefghijklmnopqrstuvwxyzABCDEFGHIJKLMNOPQRSTUVWXYZ";

/// Names of one letter, and then of two; the first 1,404 are no keywords, since those of two letters start with capitals.
fn short_names() -> impl Iterator<Item = String> {
    let letters = || LETTERS.chars();
    let ones = letters().map(|letter| letter.to_string());
    let twos = letters().rev().flat_map(move |first| letters().map(move |second| format!("{first}{second}")));
    ones.chain(twos)
}

/// As many principals as can be beside a variable, 634.
fn crowded() -> Server {
    let people = short_names().take(632).map(|name| format!("P\t{name}\t\t0\n"));
    server(people.chain(["D\tanyone\nV\tl\tL\n".to_string()]))
}

/// As many assertions on one variable as can be: 23 principals weigh 12 each, the variable 2, and 1,978 assertions of such names 4 each.
fn asserted() -> Server {
    let names: Vec<&str> = (0..21).map(|at| &LETTERS[at..=at]).chain(["anyone", "admin"]).collect();
    let people = names[..21].iter().map(|name| format!("P\t{name}\t\t0\n"));
    let pairs = names.iter().flat_map(|from| names.iter().map(move |to| (from, to)));
    let all = pairs.flat_map(|(from, to)| Right::ALL.map(|right| format!("A\tl\t{from}\t{}\t{to}\n", char::from(right.letter()))));
    server(people.chain(["D\tanyone\nV\tl\tL\n".to_string()]).chain(all.take((8_192 - 23 * 12 - 2) / 4)))
}

/// Every kind of call. The servers' buffers are not on this thread's stack.
fn calls(servers: &mut [Server; 6], damaged: &mut Buffer) {
    let [plain, full, long, lets, crowded, asserted] = servers;
    for (commands, kind) in PROGRAMS {
        assert_eq!(plain.run(program(commands).as_bytes()).map(|report| report.kind), Ok(*kind), "{commands}");
    }
    assert_eq!(full.run(program(&doubling()).as_bytes()).map(|report| report.kind), Ok(Kind::Full));
    for (before, after) in PLACES {
        for text in [deep, wide].map(|made| longest(before, made, after)) {
            assert_eq!(text.len(), LONGEST_PROGRAM);
            assert_eq!(lets.run(text.as_bytes()).map(|report| report.kind), Ok(Kind::Returned), "{text}");
        }
    }
    for text in chained(200) {
        assert_eq!(long.run(text.as_bytes()).map(|report| report.kind), Ok(Kind::Returned), "{text}");
    }
    assert_eq!(long.ask(Principal(b"p199"), Variable(b"l"), Right::Read), Ok(Some(200)));
    assert_eq!(long.ask(Principal(b"p199"), Variable(b"l"), Right::Write), Ok(None));
    assert_eq!(raw::ask(&damaged[..], b"admin", b"l", b'r'), raw::Answer::Wrong(4));
    assert_eq!(raw::make(&mut damaged[..], b"p"), raw::Answer::Ready);
    let mut old = former(long.state());
    assert_eq!(raw::bring(&old, &mut damaged[..]), raw::Answer::Ready);
    assert_eq!(raw::bring(&damaged[..], &mut old), raw::Answer::Wrong(10));
    for (server, lines) in [(&*long, 202), (&*crowded, 634), (&*asserted, 23)] {
        assert_eq!(raw::sheet(&server.state()[..], &mut old, b"l"), raw::Answer::Listed { lines, bytes: 40 * lines });
        assert_eq!(server.sheet(Variable(b"l")).map(|sheet| sheet.len()), Ok(lines));
    }
    assert_eq!(raw::sheet(&[7; 7], &mut old, b"l"), raw::Answer::Wrong(2));
}

/// Makes the calls in a thread of this size and answers what `after` says there.
fn in_thread(size: usize, after: fn() -> usize) -> usize {
    let [plain, full, long, lets] = [(); 4].map(|()| Server::make(b"p").expect("a good password"));
    let mut servers = [plain, full, long, lets, crowded(), asserted()];
    let mut damaged: Box<Buffer> = Box::new([7; kivzurg::BUFFER]);
    let work = move || {
        let before = after();
        calls(&mut servers, &mut damaged);
        after() - before
    };
    thread::Builder::new().stack_size(size).spawn(work).expect("a thread").join().expect("it ends")
}

/// The bytes of this thread's stack that were ever touched, in whole pages.
fn touched() -> usize {
    let mut local = 0_u8;
    let here = black_box(&mut local) as *mut u8 as usize;
    let maps = fs::read_to_string("/proc/self/smaps").expect("the process's memory");
    let mut is_here = false;
    for line in maps.lines() {
        let mut words = line.split_whitespace();
        let first = words.next().unwrap_or_default();
        if let Some((from, to)) = first.split_once('-') {
            let [from, to] = [from, to].map(|word| usize::from_str_radix(word, 16).unwrap_or(0));
            is_here = (from..to).contains(&here);
        } else if is_here && first == "Rss:" {
            return words.next().and_then(|word| word.parse::<usize>().ok()).expect("a number") * 1_024;
        }
    }
    panic!("the stack is not among the process's memory");
}

/// One test, so that no thread has ended before: the C library would hand its stack, which is larger, to the thread of `STACK_BYTES`.
#[test]
fn calls_fit_and_a_fifth_is_to_spare() {
    in_thread(STACK_BYTES, || 0);
    let used = in_thread(STACK_BYTES * 3 / 2, touched);
    println!("calls touch {used} bytes of stack; STACK_BYTES is {STACK_BYTES}");
    assert!(used > 0 && used <= STACK_BYTES / 5 * 4, "calls touch {used} bytes of stack");
}
