// What `pua run`, `pua audit` and `pua objects` do, in plain Rust of one file, to compare with: the same text to the
// byte, by the rules of docs/DEFINITIONS.md. Nothing here is proved. Built by `rustc -O --edition 2024 pua.rs`; its
// words are those of `pua`.

use std::borrow::Cow;
use std::collections::{BTreeMap, BTreeSet, HashMap};
use std::fs;
use std::hash::{BuildHasherDefault, Hasher};
use std::io::{self, Write};
use std::process::ExitCode;
use std::sync::OnceLock;

// ---- Maps: those of std, with a hash for short keys

#[derive(Clone, Default)]
struct Mix(u64);

impl Mix {
    fn mix(&mut self, word: u64) {
        self.0 = (self.0.rotate_left(5) ^ word).wrapping_mul(0x517c_c1b7_2722_0a95);
    }
}

impl Hasher for Mix {
    fn write(&mut self, bytes: &[u8]) {
        let (words, rest) = bytes.as_chunks::<8>();
        words.iter().for_each(|word| self.mix(u64::from_le_bytes(*word)));
        rest.iter().for_each(|byte| self.mix(u64::from(*byte)));
    }

    fn write_u32(&mut self, number: u32) {
        self.mix(u64::from(number));
    }

    fn write_usize(&mut self, number: usize) {
        self.mix(number as u64);
    }

    fn finish(&self) -> u64 {
        self.0.rotate_left(26)
    }
}

type Map<K, V> = HashMap<K, V, BuildHasherDefault<Mix>>;

// ---- Spellings

const NAME_LIMIT: usize = 255;
const PATH_LIMIT: usize = 1023;

fn stands_for_itself(byte: u8) -> bool {
    (0x21..=0x7e).contains(&byte) && byte != b'\\'
}

fn unspelled(field: &[u8]) -> Option<Cow<'_, [u8]>> {
    if !field.contains(&b'\\') {
        return Some(Cow::Borrowed(field));
    }
    let mut bytes = Vec::with_capacity(field.len());
    let mut rest = field;
    while let [first, more @ ..] = rest {
        rest = more;
        if *first != b'\\' {
            bytes.push(*first);
            continue;
        }
        let [a @ b'0'..=b'3', b @ b'0'..=b'7', c @ b'0'..=b'7', more @ ..] = rest else { return None };
        let byte = (a - b'0') * 64 + (b - b'0') * 8 + (c - b'0');
        if stands_for_itself(byte) {
            return None;
        }
        bytes.push(byte);
        rest = more;
    }
    Some(Cow::Owned(bytes))
}

fn spell(out: &mut Vec<u8>, bytes: &[u8]) {
    for byte in bytes {
        if stands_for_itself(*byte) {
            out.push(*byte);
        } else {
            out.extend_from_slice(format!("\\{byte:03o}").as_bytes());
        }
    }
}

fn name(field: &[u8]) -> Option<Cow<'_, [u8]>> {
    let bytes = unspelled(field)?;
    let fits = (1..=NAME_LIMIT).contains(&bytes.len()) && !bytes.iter().any(|byte| [0, b'/'].contains(byte));
    (fits && *bytes != *b"." && *bytes != *b"..").then_some(bytes)
}

fn has_long_component(text: &[u8]) -> bool {
    text.len() > NAME_LIMIT && text.split(|byte| *byte == b'/').any(|part| part.len() > NAME_LIMIT)
}

fn target(field: &[u8]) -> Option<Cow<'_, [u8]>> {
    let bytes = unspelled(field)?;
    let fits = (1..=PATH_LIMIT).contains(&bytes.len()) && !bytes.contains(&0);
    (fits && !has_long_component(&bytes)).then_some(bytes)
}

fn number(field: &[u8]) -> Option<u32> {
    let digits = !field.is_empty() && field.len() <= 6 && field.iter().all(u8::is_ascii_digit);
    if !digits || (field[0] == b'0' && field.len() > 1) {
        return None;
    }
    Some(field.iter().fold(0, |sum, digit| sum * 10 + u32::from(digit - b'0')))
}

fn lines(text: &[u8]) -> impl Iterator<Item = &[u8]> {
    text.split_inclusive(|byte| *byte == b'\n').map(|line| match line {
        [line @ .., b'\r', b'\n'] | [line @ .., b'\n'] => line,
        line => line,
    })
}

/// Splits a line into `fields`, in one pass; whether each has a byte and all are visible.
fn split<'a>(line: &'a [u8], fields: &mut Vec<&'a [u8]>) -> bool {
    fields.clear();
    let (mut start, mut is_visible) = (0, true);
    for (at, byte) in line.iter().enumerate() {
        if *byte == b' ' {
            is_visible &= start < at;
            fields.push(&line[start..at]);
            start = at + 1;
        } else {
            is_visible &= (0x21..=0x7e).contains(byte);
        }
    }
    fields.push(&line[start..]);
    is_visible && start < line.len()
}

// ---- Trees

const ROOT: u32 = 0;
const MOST_NAMES: usize = 65_535;
const MOST_LINES: usize = 4_096;

// Of a listing under `tree 3`.
const MOST_WIDE_NAMES: usize = 1_065_535;
const MOST_WIDE_LINES: usize = 1_000_000;

#[derive(Clone, Copy, PartialEq)]
enum Kind {
    Dir,
    /// Of which no more is known: it may be a socket, a fifo or a device.
    File,
    Prog,
    Link,
    Plain,
    Sock,
    Fifo,
    Dev,
}

impl Kind {
    /// A plain file, or what may be one: a kernel starts no other.
    fn may_start(self) -> bool {
        matches!(self, Kind::File | Kind::Plain)
    }
}

/// A node; a removed one has no links. `parent` is a directory's, `rows` are what stands in it, and another file system may be
/// mounted on it.
struct Node {
    kind: Kind,
    is_mount: bool,
    links: u32,
    parent: u32,
    rows: Map<Box<[u8]>, u32>,
    target: Box<[u8]>,
}

/// Where a path starts: a text that begins with a slash at the root, and else at the directory.
#[derive(Clone, Copy, Default)]
struct Start {
    root: u32,
    dir: u32,
}

/// Numbers of nodes are places in `nodes`, and are not used again.
struct Tree {
    nodes: Vec<Node>,
    names: usize,
    room: usize,
}

#[derive(Clone, Copy)]
enum Way<'a> {
    Named(u32, &'a [u8]),
    Dot,
    DotDot,
    Top,
}

/// What a path names: a directory, or a name where there is none.
#[derive(Clone, Copy)]
enum Found<'a> {
    Whole(u32, Way<'a>),
    Slot(u32, &'a [u8], Option<u32>),
}

type Errno = &'static str;

fn trimmed(text: &[u8]) -> &[u8] {
    let start = text.iter().position(|byte| *byte != b'/').unwrap_or(text.len());
    &text[start..]
}

/// The first part of a text, and what is after it. A slash at the end counts as a part `.`.
fn first_part(text: &[u8]) -> (&[u8], &[u8]) {
    let end = text.iter().position(|byte| *byte == b'/').unwrap_or(text.len());
    let (part, behind) = text.split_at(end);
    let rest = trimmed(behind);
    (part, if rest.is_empty() && !behind.is_empty() { b"." } else { rest })
}

impl Tree {
    fn new(room: usize) -> Tree {
        let mut tree = Tree { nodes: Vec::new(), names: 1, room };
        tree.make(Kind::Dir, ROOT, &[]);
        tree.nodes[0].links = 1;
        tree
    }

    fn node(&self, id: u32) -> &Node {
        &self.nodes[id as usize]
    }

    fn node_mut(&mut self, id: u32) -> &mut Node {
        &mut self.nodes[id as usize]
    }

    fn make(&mut self, kind: Kind, parent: u32, target: &[u8]) -> u32 {
        self.nodes.push(Node { kind, is_mount: false, links: 0, parent, rows: Map::default(), target: target.into() });
        self.nodes.len() as u32 - 1
    }

    fn is_living_dir(&self, id: u32) -> bool {
        let node = self.node(id);
        node.kind == Kind::Dir && node.links > 0
    }

    fn is_full(&self) -> bool {
        self.names == self.room
    }

    fn tie(&mut self, dir: u32, name: &[u8], node: u32) {
        self.node_mut(dir).rows.insert(name.into(), node);
        self.node_mut(node).links += 1;
        self.names += 1;
    }

    fn add(&mut self, dir: u32, name: &[u8], kind: Kind, target: &[u8]) -> u32 {
        let node = self.make(kind, dir, target);
        self.tie(dir, name, node);
        node
    }

    fn cut(&mut self, dir: u32, name: &[u8]) -> Option<u32> {
        let node = self.node_mut(dir).rows.remove(name)?;
        self.node_mut(node).links -= 1;
        self.names -= 1;
        Some(node)
    }

    fn shift(&mut self, from: (u32, &[u8]), to: (u32, &[u8])) {
        self.cut(to.0, to.1);
        if let Some(node) = self.cut(from.0, from.1) {
            self.tie(to.0, to.1, node);
            self.node_mut(node).parent = to.0;
        }
    }

    /// The root that links and `..` lead to: of one that was removed the root of all.
    fn seen_root(&self, root: u32) -> u32 {
        if self.node(root).links == 0 { ROOT } else { root }
    }

    /// The directory above another, as a process with this root sees it.
    fn above(&self, root: u32, dir: u32) -> u32 {
        if dir == root { root } else { self.node(dir).parent }
    }

    /// Whether a directory is another one, or below it.
    fn is_in(&self, over: u32, dir: u32) -> bool {
        let mut at = dir;
        while at != over && at != ROOT {
            at = self.node(at).parent;
        }
        at == over
    }

    /// The device of a directory: the nearest one at or above it where a file system is mounted, or the root.
    fn device(&self, dir: u32) -> u32 {
        let mut at = dir;
        while at != ROOT && !self.node(at).is_mount {
            at = self.node(at).parent;
        }
        at
    }

    /// Whether what gets a name, that name, and what has it are not on one device.
    fn is_elsewhere(&self, from: Found, to: Found) -> bool {
        let device = |found| match found {
            Found::Whole(dir, _) | Found::Slot(dir, ..) => self.device(dir),
        };
        let over = to.spot().map(|(dir, _)| self.device(dir));
        over != Some(device(from)) || over != Some(device(to))
    }

    /// What a path names from a root and a directory, and how many links were followed.
    fn resolve<'a>(&'a self, from: Start, text: &'a [u8], follow: bool) -> Result<(Found<'a>, u8), Errno> {
        let (root, mut dir, mut way, mut links) = (from.root, from.dir, Way::Top, 0);
        let mut later: Vec<&[u8]> = Vec::new();
        let mut rest = trimmed(text);
        loop {
            if rest.is_empty() {
                let Some(more) = later.pop() else { return Ok((Found::Whole(dir, way), links)) };
                rest = more;
            }
            let (part, behind) = first_part(rest);
            rest = behind;
            if part == b"." {
                way = Way::Dot;
                continue;
            } else if part == b".." {
                (dir, way) = (self.above(root, dir), Way::DotDot);
                continue;
            }
            let is_last = rest.is_empty() && later.is_empty();
            let Some(&id) = self.node(dir).rows.get(part) else {
                return if is_last { Ok((Found::Slot(dir, part, None), links)) } else { Err("ENOENT") };
            };
            let node = self.node(id);
            match node.kind {
                Kind::Dir => (dir, way) = (id, Way::Named(dir, part)),
                Kind::Link if follow || !is_last => {
                    if links == 32 {
                        return Err("ELOOP");
                    }
                    links += 1;
                    if !rest.is_empty() {
                        later.push(rest);
                    }
                    if node.target[0] == b'/' {
                        dir = root;
                    }
                    (rest, way) = (trimmed(&node.target), Way::Top);
                    if rest.is_empty() && later.is_empty() {
                        return Ok((Found::Whole(dir, way), links));
                    }
                }
                _ if is_last => return Ok((Found::Slot(dir, part, Some(id)), links)),
                _ => return Err("ENOTDIR"),
            }
        }
    }

    /// What a path of a request names: a slash at its end is dropped where the call says so.
    fn named<'a>(&'a self, from: Start, path: &'a [u8], is_dropped: bool, follow: bool) -> Result<Found<'a>, Errno> {
        if let Some(front) = before_long(path) {
            self.named(from, front, false, true)?;
        }
        path_fault(path)?;
        let dir = if path[0] == b'/' { from.root } else { from.dir };
        if self.node(dir).links == 0 {
            return Err("ENOENT");
        }
        let end = path.iter().rposition(|byte| *byte != b'/').map_or(0, |last| last + 1);
        let text = if is_dropped { &path[..end] } else { path };
        Ok(self.resolve(Start { root: self.seen_root(from.root), dir }, text, follow)?.0)
    }
}

/// What stands before a component that is too long, if OpenBSD's rules judge that first.
fn before_long(path: &[u8]) -> Option<&[u8]> {
    if !rules().is_openbsd || path.len() > PATH_LIMIT {
        return None;
    }
    let mut start = 0;
    for piece in path.split(|byte| *byte == b'/') {
        if piece.len() > NAME_LIMIT {
            return Some(if start == 0 { b"." } else { &path[..start] });
        }
        start += piece.len() + 1;
    }
    None
}

fn path_fault(path: &[u8]) -> Result<(), Errno> {
    match path.len() {
        0 => Err("ENOENT"),
        1..=PATH_LIMIT if !has_long_component(path) => Ok(()),
        _ => Err("ENAMETOOLONG"),
    }
}

impl<'a> Found<'a> {
    fn node(self) -> Option<u32> {
        match self {
            Found::Whole(dir, _) => Some(dir),
            Found::Slot(_, _, node) => node,
        }
    }

    fn spot(self) -> Option<(u32, &'a [u8])> {
        match self {
            Found::Whole(_, Way::Named(dir, name)) | Found::Slot(dir, name, _) => Some((dir, name)),
            Found::Whole(..) => None,
        }
    }
}

/// The tree of a listing, or the fault of a line with its number from 1.
fn read_listing(text: &[u8]) -> Result<Tree, String> {
    let mut lines = lines(text).enumerate();
    let Some((_, header @ (b"tree 1" | b"tree 2" | b"tree 3"))) = lines.next() else {
        return Err("pua: listing: bad header".into());
    };
    if !matches!(lines.next(), Some((_, b"0 dir"))) {
        return Err("pua: listing: line 2: bad line".into());
    }
    let is_wide = header == b"tree 3";
    let mut tree = Tree::new(if is_wide { MOST_WIDE_NAMES } else { MOST_NAMES });
    let most_lines = if is_wide { MOST_WIDE_LINES } else { MOST_LINES };
    let mut nodes = Map::from_iter([(0, ROOT)]);
    let (mut fields, mut before) = (Vec::new(), 0);
    for (at, line) in lines {
        let read = if split(line, &mut fields) {
            read_node(&mut tree, &mut nodes, &mut before, &fields, header != b"tree 1", is_wide)
        } else {
            Err("bad line")
        };
        let read = read.and_then(|put| if at > most_lines { Err("too many nodes") } else { Ok(put) });
        read.map_err(|fault| format!("pua: listing: line {}: {fault}", at + 1))?;
    }
    Ok(tree)
}

fn read_node(
    tree: &mut Tree,
    nodes: &mut Map<u32, u32>,
    before: &mut u32,
    fields: &[&[u8]],
    has_hard: bool,
    has_types: bool,
) -> Result<(), &'static str> {
    let is_mount = has_types && fields.get(1) == Some(&&b"mount"[..]);
    let (kind, count) = match fields.get(1) {
        Some(&b"dir") => (Some(Kind::Dir), 4),
        Some(&b"mount") if has_types => (Some(Kind::Dir), 4),
        Some(&b"file") => (Some(if has_types { Kind::Plain } else { Kind::File }), 4),
        Some(&b"any") if has_types => (Some(Kind::File), 4),
        Some(&b"sock") if has_types => (Some(Kind::Sock), 4),
        Some(&b"fifo") if has_types => (Some(Kind::Fifo), 4),
        Some(&b"dev") if has_types => (Some(Kind::Dev), 4),
        Some(&b"prog") => (Some(Kind::Prog), 4),
        Some(&b"link") => (Some(Kind::Link), 5),
        Some(&b"hard") if has_hard => (None, 5),
        _ => return Err("bad line"),
    };
    if fields.len() != count {
        return Err("bad line");
    }
    let id = number(fields[0]).filter(|id| id > before).ok_or("bad number")?;
    let known = |field: &[u8]| number(field).and_then(|id| nodes.get(&id)).copied();
    let parent = known(fields[2]).filter(|dir| tree.node(*dir).kind == Kind::Dir).ok_or("bad parent")?;
    let name = name(fields[3]).ok_or("bad name")?;
    let to = match kind {
        Some(Kind::Link) => target(fields[4]).ok_or("bad target")?,
        _ => Cow::Borrowed(&[][..]),
    };
    let old = match kind {
        None => known(fields[4]).filter(|node| tree.node(*node).kind != Kind::Dir).ok_or("bad node")?,
        Some(_) => ROOT,
    };
    if tree.node(parent).rows.contains_key(&*name) {
        return Err("name taken");
    }
    match kind {
        Some(kind) => {
            let node = tree.add(parent, &name, kind, &to);
            tree.node_mut(node).is_mount = is_mount;
            nodes.insert(id, node);
        }
        None => tree.tie(parent, &name, old),
    }
    *before = id;
    Ok(())
}

// ---- Promises and calls

const KEYWORDS: [&str; 36] = [
    "audio", "bpf", "chown", "cpath", "disklabel", "dns", "dpath", "drm", "error", "exec", "fattr", "flock", "getpw",
    "id", "inet", "mcast", "pf", "proc", "prot_exec", "ps", "recvfd", "route", "rpath", "sendfd", "settime", "stdio",
    "tape", "tmppath", "tty", "unix", "unveil", "video", "vminfo", "vmm", "wpath", "wroute",
];
const CHOWN: u64 = 1 << 2;
const CPATH: u64 = 1 << 3;
const DPATH: u64 = 1 << 6;
const ERROR: u64 = 1 << 8;
const EXEC: u64 = 1 << 9;
const FATTR: u64 = 1 << 10;
const ID: u64 = 1 << 13;
const PROC: u64 = 1 << 17;
const RECVFD: u64 = 1 << 20;
const RPATH: u64 = 1 << 22;
const SENDFD: u64 = 1 << 23;
const STDIO: u64 = 1 << 25;
const TMPPATH: u64 = 1 << 27;
const UNIX: u64 = 1 << 29;
const UNVEIL: u64 = 1 << 30;
const WPATH: u64 = 1 << 34;
const ALL_BUT_ERROR: u64 = ((1 << 36) - 1) & !ERROR;

const MOST_DESCRIPTOR: u32 = 1_023;

const R: u8 = 1;
const W: u8 = 2;
const X: u8 = 4;
const C: u8 = 8;
const ALL: u8 = R | W | X | C;

#[derive(Clone, Copy, PartialEq)]
#[repr(u8)]
enum Call {
    Stat,
    Lstat,
    Readlink,
    OpenR,
    OpenW,
    OpenRw,
    Create,
    Mkdir,
    Rmdir,
    Unlink,
    Symlink,
    Chmod,
    Chdir,
    Exec,
    Connect,
    Bind,
    Mknod,
    Chown,
    CreateRw,
    Fchmod,
    Fchown,
}

/// Each call with its name, what it needs, and whether it follows a link at its path's end; by the standard table the
/// first fourteen alone are calls.
const CALLS: [(Call, &str, u64, u8, bool); 21] = [
    (Call::Stat, "stat", RPATH, R, true),
    (Call::Lstat, "lstat", RPATH, R, false),
    (Call::Readlink, "readlink", RPATH, R, false),
    (Call::OpenR, "open-r", RPATH, R, true),
    (Call::OpenW, "open-w", WPATH, W, true),
    (Call::OpenRw, "open-rw", RPATH | WPATH, R | W, true),
    (Call::Create, "create", WPATH | CPATH, W | C, true),
    (Call::Mkdir, "mkdir", CPATH, C, false),
    (Call::Rmdir, "rmdir", CPATH, C, false),
    (Call::Unlink, "unlink", CPATH, C, false),
    (Call::Symlink, "symlink", CPATH, C, false),
    (Call::Chmod, "chmod", FATTR, W, true),
    (Call::Chdir, "chdir", RPATH, R, true),
    (Call::Exec, "exec", EXEC, X, true),
    (Call::Connect, "connect", UNIX, W, true),
    (Call::Bind, "bind", UNIX, C, false),
    (Call::Mknod, "mknod", DPATH, C, false),
    (Call::Chown, "chown", CHOWN, W, true),
    (Call::CreateRw, "create-rw", RPATH | WPATH | CPATH, R | W | C, true),
    (Call::Fchmod, "fchmod", FATTR, R, true),
    (Call::Fchown, "fchown", CHOWN, R, true),
];

/// What calls need: sets of promises, of which one has to be held, and letters, and without a set a word is no call; what
/// rename and link need of their old names, whose new ones need `cpath` and `c`; whether these are OpenBSD's rules, by
/// which execpromises stay after an exec, and promises open some paths by themselves.
struct Rules {
    calls: [Need; 21],
    rename: OldName,
    link: OldName,
    is_openbsd: bool,
}

/// What a call needs: one of these sets of promises, and letters.
type Need = (Vec<u64>, u8);

struct OldName {
    promises: u64,
    letters: u8,
    is_followed: bool,
}

/// By what this run goes: the standard table, unless something else was put here first.
static RULES: OnceLock<Rules> = OnceLock::new();

fn rules() -> &'static Rules {
    RULES.get_or_init(Rules::standard)
}

/// Whether what is held has one of these sets.
fn lets(sets: &[u64], held: u64) -> bool {
    sets.iter().any(|promises| held & promises == *promises)
}

impl Rules {
    /// What a file is that a call makes.
    fn file(&self) -> Kind {
        if self.is_openbsd { Kind::Plain } else { Kind::File }
    }

    fn standard() -> Rules {
        let is_call = |call| (call as usize) < Call::Connect as usize;
        Rules {
            calls: CALLS.map(|(call, _, promises, letters, _)| (Vec::from_iter(is_call(call).then_some(promises)), letters)),
            rename: OldName { promises: CPATH, letters: C, is_followed: false },
            link: OldName { promises: CPATH, letters: C, is_followed: false },
            is_openbsd: false,
        }
    }

    fn openbsd() -> Rules {
        let sets = |call, own| match call {
            Call::Chmod | Call::Fchmod => vec![RPATH | FATTR],
            Call::Chown | Call::Fchown => vec![RPATH | CHOWN, RPATH | FATTR],
            _ => vec![own],
        };
        Rules {
            calls: CALLS.map(|(call, _, own, letters, _)| (sets(call, own), letters)),
            rename: OldName { promises: RPATH | CPATH, letters: R | C, is_followed: false },
            link: OldName { promises: RPATH, letters: R, is_followed: true },
            is_openbsd: true,
        }
    }
}

/// What a call is on; a directory with what is wrong with removing it, and with whether a file system is mounted there.
#[derive(Clone, Copy)]
enum Object {
    Missing,
    Node(Kind),
    Dir(Option<Errno>, bool),
}

/// A directory of a list, with what is wrong with removing it.
fn dir_object(rmdir: Option<Errno>) -> Object {
    Object::Dir(rmdir, false)
}

/// What is wrong with removing a directory by its name.
fn rmdir_fault(tree: &Tree, dir: u32) -> Option<Errno> {
    let node = tree.node(dir);
    if node.is_mount { Some("EBUSY") } else { (!node.rows.is_empty()).then_some("ENOTEMPTY") }
}

fn object(tree: &Tree, found: Found) -> Object {
    let has_rows = |dir| !tree.node(dir).rows.is_empty();
    let rmdir = match found {
        Found::Slot(_, _, None) => return Object::Missing,
        Found::Slot(_, _, Some(node)) => return Object::Node(tree.node(node).kind),
        Found::Whole(dir, Way::DotDot) if rules().is_openbsd && has_rows(dir) => Some("ENOTEMPTY"),
        Found::Whole(_, Way::Dot | Way::DotDot) => Some("EINVAL"),
        Found::Whole(_, Way::Top) => Some("EBUSY"),
        Found::Whole(dir, Way::Named(..)) => rmdir_fault(tree, dir),
    };
    Object::Dir(rmdir, found.node().is_some_and(|dir| tree.node(dir).is_mount))
}

fn object_fault(call: Call, object: Object) -> Option<Errno> {
    use Call::*;
    match (object, call) {
        (Object::Missing, Create | CreateRw | Mkdir | Symlink | Bind | Mknod) => None,
        (Object::Missing, _) => Some("ENOENT"),
        (_, Mkdir | Symlink | Mknod) => Some("EEXIST"),
        (_, Bind) => Some("EADDRINUSE"),
        (Object::Dir(rmdir, _), Rmdir) => rmdir,
        (Object::Dir(..), Readlink) => Some("EINVAL"),
        (Object::Dir(..), OpenW | OpenRw | Create | CreateRw) => Some("EISDIR"),
        (Object::Dir(_, is_mount), Unlink) => Some(if is_mount { "EBUSY" } else { "EPERM" }),
        (Object::Dir(..), Exec) => Some("EACCES"),
        (Object::Dir(..), Connect) => Some("ENOTSOCK"),
        (Object::Dir(..), _) => None,
        (Object::Node(kind), Readlink) if kind != Kind::Link => Some("EINVAL"),
        (Object::Node(kind), Exec) if kind != Kind::Prog => Some("EACCES"),
        (Object::Node(Kind::Sock), OpenR | OpenW | OpenRw | Create | CreateRw | Fchmod | Fchown) => Some("EOPNOTSUPP"),
        (Object::Node(kind), Connect) if !matches!(kind, Kind::File | Kind::Sock) => Some("ENOTSOCK"),
        (Object::Node(_), Rmdir | Chdir) => Some("ENOTDIR"),
        (Object::Node(_), _) => None,
    }
}

// ---- Processes

/// Where a veil is kept: on a directory, or on a name in one.
type Place = (u32, Option<Box<[u8]>>);

/// What an open file is: the node, and for which letters it was opened.
#[derive(Clone, Copy)]
struct OpenFile {
    node: u32,
    letters: u8,
}

/// What stays of a process's calls. Veils stand on directories, and on names in directories; `places` has them in the
/// order in which they were first kept. The open files are there by the numbers of their descriptors.
#[derive(Clone, Default)]
struct Process {
    promises: Option<u64>,
    execpromises: Option<u64>,
    on_dirs: Map<u32, u8>,
    on_names: Map<u32, Map<Box<[u8]>, u8>>,
    places: Vec<Place>,
    is_locked: bool,
    has_ended: bool,
    start: Start,
    files: BTreeMap<u32, OpenFile>,
}

/// What is left of an object: nothing, or these letters.
type Cover = Option<u8>;

/// The text of an absolute path without empty components and `.`, and without each `..` and the component before it.
fn canonical(path: &[u8]) -> Option<Vec<u8>> {
    let components = path.strip_prefix(b"/")?.split(|byte| *byte == b'/');
    let mut text = Vec::new();
    for component in components {
        match component {
            b"" | b"." => {}
            b".." => text.truncate(text.iter().rposition(|byte| *byte == b'/').unwrap_or(0)),
            name => {
                text.push(b'/');
                text.extend_from_slice(name);
            }
        }
    }
    Some(text)
}

fn cover_fault(cover: Cover, perms: u8) -> Option<Errno> {
    match cover {
        None => Some("ENOENT"),
        Some(kept) if kept & perms == perms => None,
        Some(_) => Some("EACCES"),
    }
}

impl Process {
    fn held(&self) -> u64 {
        self.promises.unwrap_or(ALL_BUT_ERROR)
    }

    fn may(&self, promises: u64) -> Result<(), Errno> {
        self.may_by(&[promises])
    }

    /// Whether one of these sets is held.
    fn may_by(&self, sets: &[u64]) -> Result<(), Errno> {
        match self.held() {
            held if lets(sets, held) => Ok(()),
            held if held & ERROR != 0 => Err("ENOSYS"),
            _ => Err("killed"),
        }
    }

    fn dir_cover(&self, tree: &Tree, dir: u32) -> Cover {
        if self.places.is_empty() {
            return Some(ALL);
        }
        let mut at = dir;
        loop {
            if let Some(kept) = self.on_dirs.get(&at) {
                return Some(*kept);
            }
            if at == ROOT {
                return None;
            }
            at = tree.node(at).parent;
        }
    }

    /// What is left of each living directory: each is climbed from once, up to the next that is known.
    fn dir_covers(&self, tree: &Tree) -> Vec<Cover> {
        let mut covers: Vec<Option<Cover>> = vec![None; tree.nodes.len()];
        let mut climbed = Vec::new();
        let unveiled = if self.places.is_empty() { Some(ALL) } else { None };
        for dir in (0..tree.nodes.len() as u32).filter(|dir| tree.is_living_dir(*dir)) {
            let mut at = dir;
            let cover = loop {
                if let Some(cover) = covers[at as usize] {
                    break cover;
                }
                climbed.push(at);
                match self.on_dirs.get(&at) {
                    Some(kept) => break Some(*kept),
                    None if at == ROOT => break unveiled,
                    None => at = tree.node(at).parent,
                }
            };
            climbed.drain(..).for_each(|below| covers[below as usize] = Some(cover));
        }
        covers.into_iter().map(Option::flatten).collect()
    }

    fn kept_on_name(&self, dir: u32, name: &[u8]) -> Cover {
        self.on_names.get(&dir)?.get(name).copied()
    }

    fn cover(&self, tree: &Tree, found: Found) -> Cover {
        match found {
            Found::Whole(dir, _) => self.dir_cover(tree, dir),
            Found::Slot(dir, name, _) => self.kept_on_name(dir, name).or_else(|| self.dir_cover(tree, dir)),
        }
    }

    fn pledge(&mut self, promises: Option<u64>, execpromises: Option<u64>) -> Result<(), Errno> {
        let adds = |old: Option<u64>, new: Option<u64>| new.unwrap_or(0) & !old.unwrap_or(u64::MAX) != 0;
        let is_freed = self.held() & ERROR != 0;
        let is_exec_freed = is_freed && !rules().is_openbsd;
        if !is_freed && adds(self.promises, promises) || !is_exec_freed && adds(self.execpromises, execpromises) {
            return Err("EPERM");
        }
        let both = |old: Option<u64>, new: Option<u64>| old.map_or(new, |old| Some(old & new.unwrap_or(old)));
        self.promises = both(self.promises, promises);
        self.execpromises = both(self.execpromises, execpromises);
        Ok(())
    }

    fn unveil(&mut self, found: Found, perms: u8) -> Result<(), Errno> {
        let kept = match found {
            Found::Whole(dir, _) => self.on_dirs.get(&dir).copied(),
            Found::Slot(dir, name, _) => self.kept_on_name(dir, name),
        };
        match kept {
            Some(kept) if kept & perms != perms => return Err("EPERM"),
            Some(_) => {}
            None if self.places.len() == 128 => return Err("E2BIG"),
            None => self.places.push(match found {
                Found::Whole(dir, _) => (dir, None),
                Found::Slot(dir, name, _) => (dir, Some(name.into())),
            }),
        }
        match found {
            Found::Whole(dir, _) => self.on_dirs.insert(dir, perms),
            Found::Slot(dir, name, _) => self.on_names.entry(dir).or_default().insert(name.into(), perms),
        };
        Ok(())
    }

    fn exec(&mut self) {
        self.promises = self.execpromises;
        if !rules().is_openbsd {
            self.execpromises = None;
        }
        if self.promises.is_none() {
            (self.on_dirs, self.on_names, self.is_locked) = (Map::default(), Map::default(), false);
            self.places.clear();
        }
    }

    /// What a call's path names, if the call is allowed on it.
    fn judged<'a>(&self, tree: &'a Tree, call: Call, path: &'a [u8]) -> Result<Found<'a>, Errno> {
        self.may_by(&rules().calls[call as usize].0)?;
        self.covered(tree, call, path, true)
    }

    /// The same, where promises are not asked, and veils perhaps not.
    fn covered<'a>(&self, tree: &'a Tree, call: Call, path: &'a [u8], asks_veils: bool) -> Result<Found<'a>, Errno> {
        let follow = CALLS[call as usize].4;
        let found = tree.named(self.start, path, matches!(call, Call::Mkdir | Call::Rmdir), follow)?;
        let perms = rules().calls[call as usize].1;
        let fault = if asks_veils { cover_fault(self.cover(tree, found), perms) } else { None };
        fault.or_else(|| object_fault(call, object(tree, found))).map_or(Ok(found), Err)
    }

    /// What a call's path names, if the call is allowed on it, or a promise that was pledged opens it; and that promise,
    /// where the call is refused without.
    fn opened<'a>(
        &self,
        tree: &'a Tree,
        call: Call,
        path: &'a [u8],
    ) -> Result<(Found<'a>, Option<&'static str>), Errno> {
        let plain = self.judged(tree, call, path);
        match self.opening(call, path) {
            None => Ok((plain?, None)),
            Some((promise, asks_veils)) => {
                let found = self.covered(tree, call, path, asks_veils)?;
                Ok((found, plain.is_err().then_some(promise)))
            }
        }
    }

    /// The promise that opens a path for a call, and whether the veils are asked all the same.
    fn opening(&self, call: Call, path: &[u8]) -> Option<(&'static str, bool)> {
        let pledged = self.promises.filter(|_| rules().is_openbsd)?;
        let text = canonical(path)?;
        let has_call = |calls: &str| calls.split(',').any(|name| name == CALLS[call as usize].1);
        OPENINGS.iter().find_map(|(promise, opening)| {
            let (opened, calls) = opening.split_once(' ')?;
            let bare = calls.strip_suffix(" veils");
            let is_named = if opened.ends_with('/') {
                text.len() > opened.len() && text.starts_with(opened.as_bytes())
            } else {
                text == opened.as_bytes()
            };
            let is_held = KEYWORDS.iter().position(|keyword| keyword == promise).is_some_and(|bit| pledged & 1 << bit != 0);
            (is_named && is_held && has_call(bare.unwrap_or(calls))).then_some((*promise, bare.is_some()))
        })
    }

    /// Whether its paths lead nowhere but to its root and below: that lives, and no directory outside of it that lives is its
    /// own, or open.
    fn is_enclosed(&self, tree: &Tree) -> bool {
        let Start { root, dir } = self.start;
        let dirs = self.files.values().map(|file| file.node).chain([dir]).filter(|dir| tree.is_living_dir(*dir));
        tree.is_living_dir(root) && dirs.into_iter().all(|dir| tree.is_in(root, dir))
    }

    /// The open file of a descriptor.
    fn file(&self, descriptor: u32) -> Result<OpenFile, Errno> {
        self.files.get(&descriptor).copied().ok_or("EBADF")
    }

    /// What this process sends of its descriptor to one that was pledged or not.
    fn sent(&self, tree: &Tree, descriptor: u32, is_pledged: bool) -> Result<OpenFile, Errno> {
        let file = self.file(descriptor)?;
        if self.held() & SENDFD == 0 {
            return Err("EPERM");
        }
        let is_kept = tree.node(file.node).kind == Kind::Dir && (is_pledged || self.promises.is_some());
        if is_kept { Err("EINVAL") } else { Ok(file) }
    }

    /// What two paths name, if each is covered with the letters that it needs.
    fn pair<'a>(
        &self,
        tree: &'a Tree,
        old: &'a [u8],
        new: &'a [u8],
        is_dropped: bool,
        need: &OldName,
    ) -> Result<(Found<'a>, Found<'a>), Errno> {
        self.may(need.promises)?;
        self.may(CPATH)?;
        let from = tree.named(self.start, old, is_dropped, need.is_followed)?;
        let to = tree.named(self.start, new, is_dropped, false)?;
        let fault = cover_fault(self.cover(tree, from), need.letters).or_else(|| cover_fault(self.cover(tree, to), C));
        fault.map_or(Ok((from, to)), Err)
    }
}

// ---- Scripts

type Path<'a> = Cow<'a, [u8]>;

/// A list of promises: none at all, a set, or one with an unknown keyword.
enum Given {
    Null,
    Good(u64),
    Unknown,
}

enum Action<'a> {
    OnPath(Call, Path<'a>),
    Symlink(Path<'a>, Path<'a>),
    Rename(Path<'a>, Path<'a>),
    Link(Path<'a>, Path<'a>),
    Pledge(Given, Given),
    Unveil(Path<'a>, Option<u8>),
    Lock,
    Fork(u32),
    Exit,
    Uses(Vec<u64>),
    /// An open whose file is kept as a descriptor.
    Hold(u32, Call, Path<'a>),
    Close(u32),
    Fchdir(u32),
    Chroot(Path<'a>),
    /// A descriptor, and that of another process, of which it is taken.
    Take(u32, u32, u32),
}

fn read_path(field: &[u8]) -> Result<Path<'_>, &'static str> {
    if field == b"=" {
        return Ok(Cow::Borrowed(&[]));
    }
    match unspelled(field).ok_or("bad path")? {
        Cow::Owned(path) if path.contains(&0) => Err("bad path"),
        path => Ok(path),
    }
}

fn read_given(field: &[u8]) -> Result<Given, &'static str> {
    match field {
        b"-" => return Ok(Given::Null),
        b"=" => return Ok(Given::Good(0)),
        _ => {}
    }
    let (mut set, mut is_known) = (0, true);
    for word in field.split(|byte| *byte == b',') {
        if word.is_empty() {
            return Err("bad list");
        }
        match KEYWORDS.binary_search_by(|keyword| keyword.as_bytes().cmp(word)) {
            Ok(bit) => set |= 1 << bit,
            Err(_) => is_known = false,
        }
    }
    Ok(if is_known { Given::Good(set) } else { Given::Unknown })
}

/// The sets of a line `uses`: keywords with `|` between them, each once, and none `error`.
fn read_sets(field: &[u8]) -> Result<Vec<u64>, &'static str> {
    let mut sets = Vec::new();
    for word in field.split(|byte| *byte == b'|') {
        let known = KEYWORDS.binary_search_by(|keyword| keyword.as_bytes().cmp(word));
        let set = 1 << known.map_err(|_| "bad list")?;
        if set == ERROR || sets.contains(&set) {
            return Err("bad list");
        }
        sets.push(set);
    }
    Ok(sets)
}

fn read_perms(field: &[u8]) -> Option<u8> {
    let letter = |byte: &u8| b"rwxc".iter().position(|letter| letter == byte);
    let letters = if field == b"=" { b"" } else { field };
    letters.iter().try_fold(0, |perms, byte| Some(perms | 1 << letter(byte)?))
}

/// For which letters a call opens what its path names, if it is one of the three that open and make nothing.
fn opened_for(call: Call) -> u8 {
    match call {
        Call::OpenR => R,
        Call::OpenW => W,
        Call::OpenRw => R | W,
        _ => 0,
    }
}

fn read_call(word: &[u8]) -> Option<Call> {
    let call = CALLS.iter().find(|row| row.1.as_bytes() == word)?.0;
    (!rules().calls[call as usize].0.is_empty()).then_some(call)
}

/// The call that a word of a script by OpenBSD's rules stands for.
fn neighbour(word: &[u8]) -> Option<Call> {
    match word {
        _ if !rules().is_openbsd => None,
        b"access" | b"statfs" => Some(Call::Stat),
        b"truncate" => Some(Call::OpenW),
        b"chflags" | b"utimes" => Some(Call::Chmod),
        b"mkfifo" => Some(Call::Mknod),
        _ => None,
    }
}

/// The number of a descriptor.
fn descriptor(field: &[u8]) -> Result<u32, &'static str> {
    number(field).filter(|number| *number <= MOST_DESCRIPTOR).ok_or("bad call")
}

fn process_number(field: &[u8]) -> Option<u32> {
    number(field).filter(|number| *number > 0)
}

/// What a line about descriptors asks for, which OpenBSD's rules alone have.
fn read_on_files<'a>(fields: &[&'a [u8]]) -> Result<Action<'a>, &'static str> {
    Ok(match *fields {
        [b"close", file] => Action::Close(descriptor(file)?),
        [b"fchdir", file] => Action::Fchdir(descriptor(file)?),
        [b"take", file, from, theirs] => {
            Action::Take(descriptor(file)?, process_number(from).ok_or("bad call")?, descriptor(theirs)?)
        }
        [b"hold", file, word, path] => {
            let (file, call) = (descriptor(file)?, read_call(word).filter(|call| opened_for(*call) != 0).ok_or("bad call")?);
            Action::Hold(file, call, read_path(path)?)
        }
        _ => return Err("bad call"),
    })
}

fn read_action<'a>(fields: &[&'a [u8]]) -> Result<Action<'a>, &'static str> {
    let action = match *fields {
        [b"exit"] => Action::Exit,
        [b"fork", new] => Action::Fork(process_number(new).ok_or("bad call")?),
        [b"hold" | b"close" | b"fchdir" | b"take", ..] if rules().is_openbsd => read_on_files(fields)?,
        [b"chroot", path] if rules().is_openbsd => Action::Chroot(read_path(path)?),
        [b"uses", sets] if rules().is_openbsd => Action::Uses(read_sets(sets)?),
        [word, path] => match read_call(word).or_else(|| neighbour(word)) {
            None | Some(Call::Symlink) => return Err("bad call"),
            Some(call) => Action::OnPath(call, read_path(path)?),
        },
        [b"symlink", target, path] => Action::Symlink(read_path(target)?, read_path(path)?),
        [b"rename", old, new] => Action::Rename(read_path(old)?, read_path(new)?),
        [b"link", old, new] => Action::Link(read_path(old)?, read_path(new)?),
        [b"pledge", promises, execpromises] => Action::Pledge(read_given(promises)?, read_given(execpromises)?),
        [b"unveil", b"-", b"-"] => Action::Lock,
        [b"unveil", b"-", _] => return Err("bad list"),
        [b"unveil", path, b"-"] => return read_path(path).and(Err("bad list")),
        [b"unveil", path, perms] => Action::Unveil(read_path(path)?, read_perms(perms)),
        _ => return Err("bad call"),
    };
    Ok(action)
}

/// What a line says: by OpenBSD's rules what stands before its comment, and before the blanks there.
fn said(line: &[u8]) -> &[u8] {
    let begins = |at: &usize| line[*at] == b'#' && (*at == 0 || line[at - 1] == b' ');
    match (0..line.len()).find(begins) {
        Some(at) if rules().is_openbsd => {
            let end = line[..at].iter().rposition(|byte| *byte != b' ').map_or(0, |last| last + 1);
            &line[..end]
        }
        _ => line,
    }
}

/// The requests of a script's lines; none on a line that says nothing, by OpenBSD's rules.
fn read_script(text: &[u8]) -> Result<Vec<Option<(u32, Action<'_>)>>, String> {
    let (mut requests, mut fields) = (Vec::new(), Vec::new());
    for (at, line) in lines(text).enumerate() {
        if at == 60_000 {
            return Err("pua: script: too many lines".into());
        }
        let line = said(line);
        if rules().is_openbsd && line.iter().all(|byte| *byte == b' ') {
            requests.push(None);
            continue;
        }
        let process = split(line, &mut fields).then(|| process_number(fields[0])).flatten();
        let read = process.ok_or("bad line").and_then(|process| Ok((process, read_action(&fields[1..])?)));
        requests.push(Some(read.map_err(|fault| format!("pua: script: line {}: {fault}", at + 1))?));
    }
    Ok(requests)
}

// ---- The replay

struct World {
    tree: Tree,
    processes: Map<u32, Process>,
}

impl World {
    /// What a process is sent of another one's descriptor.
    fn sent(&self, to: u32, from: u32, theirs: u32) -> Result<OpenFile, Errno> {
        let is_pledged = self.processes.get(&to).is_some_and(|process| process.promises.is_some());
        let sender = self.processes.get(&from).filter(|sender| !sender.has_ended).ok_or("EBADF")?;
        sender.sent(&self.tree, theirs, is_pledged)
    }

    /// The answer, and the promise that opened what is refused without.
    fn serve(&mut self, number: u32, action: &Action) -> (&'static str, Option<&'static str>) {
        let made = &self.processes;
        let is_refused = matches!(action, Action::Fork(new) if made.contains_key(new) || made.len() == 256);
        let sent = match action {
            Action::Take(_, from, theirs) => self.sent(number, *from, *theirs),
            _ => Err("EBADF"),
        };
        let Some(process) = self.processes.get_mut(&number).filter(|process| !process.has_ended) else {
            return ("gone", None);
        };
        let done = match action {
            Action::Fork(_) if is_refused => process.may(PROC).and(Err("EAGAIN")),
            Action::Fork(new) if process.may(PROC).is_ok() => {
                let copy = process.clone();
                self.processes.insert(*new, copy);
                return ("ok", None);
            }
            Action::Fork(_) => process.may(PROC).map(|()| None),
            Action::Take(file, ..) => process.may(RECVFD).and(sent).map(|sent| {
                process.files.insert(*file, sent);
                None
            }),
            Action::OnPath(call, path) => on_path(&mut self.tree, process, *call, path),
            Action::Hold(file, call, path) => hold(&self.tree, process, *file, *call, path),
            action => act(&mut self.tree, process, action).map(|()| None),
        };
        if done == Err("killed") {
            process.has_ended = true;
        }
        done.map_or_else(|errno| (errno, None), |opener| ("ok", opener))
    }
}

/// Opens what a path names, and keeps it: the promise that opened it, where it is refused without.
fn hold(
    tree: &Tree,
    process: &mut Process,
    file: u32,
    call: Call,
    path: &[u8],
) -> Result<Option<&'static str>, Errno> {
    let (found, opener) = process.opened(tree, call, path)?;
    let opened = found.node().map(|node| OpenFile { node, letters: opened_for(call) });
    process.files.extend(opened.map(|opened| (file, opened)));
    Ok(opener)
}

/// Makes a call on a path: the promise that opened it, where it is refused without.
fn on_path(
    tree: &mut Tree,
    process: &mut Process,
    call: Call,
    path: &[u8],
) -> Result<Option<&'static str>, Errno> {
    let (found, opener) = process.opened(tree, call, path)?;
    let (node, spot) = (found.node(), found.spot().map(owned));
    change(tree, process, call, node, spot)?;
    Ok(opener)
}

fn act(tree: &mut Tree, process: &mut Process, action: &Action) -> Result<(), Errno> {
    match action {
        Action::Symlink(target, path) => {
            process.may_by(&rules().calls[Call::Symlink as usize].0)?;
            path_fault(target)?;
            let spot = process.judged(tree, Call::Symlink, path)?.spot().map(owned);
            add(tree, spot, Kind::Link, target)
        }
        Action::Rename(old, new) => {
            let (from, to) = process.pair(tree, old, new, true, &rules().rename)?;
            let asks_directory = rules().is_openbsd && (old.ends_with(b"/") || new.ends_with(b"/"));
            if let Some((from, to)) = move_of(tree, asks_directory, from, to)? {
                tree.shift((from.0, &from.1), (to.0, &to.1));
            }
            Ok(())
        }
        Action::Link(old, new) => {
            let (from, to) = process.pair(tree, old, new, false, &rules().link)?;
            let node = from.node().ok_or("ENOENT")?;
            match (from, to) {
                (Found::Whole(..), _) => Err("EPERM"),
                (_, Found::Slot(_, _, None)) if tree.is_elsewhere(from, to) => Err("EXDEV"),
                (_, Found::Slot(_, _, None)) if tree.is_full() => Err("ENOSPC"),
                (_, Found::Slot(dir, name, None)) => {
                    let name = name.to_vec();
                    tree.tie(dir, &name, node);
                    Ok(())
                }
                _ => Err("EEXIST"),
            }
        }
        Action::Pledge(Given::Unknown, _) | Action::Pledge(_, Given::Unknown) => Err("EINVAL"),
        Action::Pledge(promises, execpromises) => process.pledge(set(promises), set(execpromises)),
        Action::Unveil(path, perms) => {
            process.may(UNVEIL)?;
            if process.is_locked {
                return Err("EPERM");
            }
            let perms = perms.ok_or("EINVAL")?;
            let found = tree.named(process.start, path, false, true)?;
            process.unveil(found, perms)
        }
        Action::Lock => {
            process.may(UNVEIL)?;
            process.is_locked = true;
            Ok(())
        }
        Action::Exit => {
            process.has_ended = true;
            Ok(())
        }
        Action::Uses(sets) => process.may_by(sets),
        Action::Close(file) => process.files.remove(file).map(|_| ()).ok_or("EBADF"),
        Action::Fchdir(file) => {
            let dir = process.file(*file)?.node;
            if tree.node(dir).kind != Kind::Dir {
                return Err("ENOTDIR");
            }
            process.start.dir = dir;
            Ok(())
        }
        Action::Chroot(path) => {
            process.may(ID)?;
            let found = process.covered(tree, Call::Chdir, path, true)?;
            process.start.root = found.node().unwrap_or(process.start.root);
            Ok(())
        }
        Action::OnPath(..) | Action::Fork(_) | Action::Hold(..) | Action::Take(..) => unreachable!(),
    }
}

fn set(given: &Given) -> Option<u64> {
    match given {
        Given::Good(set) => Some(*set),
        _ => None,
    }
}

type Spot = (u32, Vec<u8>);

fn owned((dir, name): (u32, &[u8])) -> Spot {
    (dir, name.to_vec())
}

fn add(tree: &mut Tree, spot: Option<Spot>, kind: Kind, target: &[u8]) -> Result<(), Errno> {
    if tree.is_full() {
        return Err("ENOSPC");
    }
    if let Some((dir, name)) = spot {
        tree.add(dir, &name, kind, target);
    }
    Ok(())
}

/// What an allowed call does to what its path names.
fn change(
    tree: &mut Tree,
    process: &mut Process,
    call: Call,
    node: Option<u32>,
    spot: Option<Spot>,
) -> Result<(), Errno> {
    match (call, node) {
        (Call::Create | Call::CreateRw, None) => return add(tree, spot, rules().file(), &[]),
        (Call::Bind, _) => return add(tree, spot, Kind::Sock, &[]),
        (Call::Mknod, _) => return add(tree, spot, Kind::Fifo, &[]),
        (Call::Mkdir, _) => return add(tree, spot, Kind::Dir, &[]),
        (Call::Rmdir | Call::Unlink, _) => {
            if let Some((dir, name)) = spot {
                tree.cut(dir, &name);
            }
        }
        (Call::Chdir, Some(dir)) => process.start.dir = dir,
        (Call::Exec, _) => process.exec(),
        _ => {}
    }
    Ok(())
}

/// The row that a rename moves, and its new place, if it has to move; or what is wrong with that. A path with a slash at
/// its end may ask for a directory.
fn move_of(tree: &Tree, asks_directory: bool, from: Found, to: Found) -> Result<Option<(Spot, Spot)>, Errno> {
    let node = from.node().ok_or("ENOENT")?;
    let (Some(old), Some(new)) = (from.spot(), to.spot()) else {
        let is_dots = |found| matches!(found, Found::Whole(_, Way::Dot | Way::DotDot));
        return Err(if is_dots(from) || is_dots(to) { "EINVAL" } else { "EBUSY" });
    };
    let is_dir = matches!(from, Found::Whole(..));
    if asks_directory && !is_dir {
        return Err("ENOTDIR");
    }
    if to.node() == Some(node) {
        return Ok(None);
    }
    let mut above = new.0;
    while is_dir && above != ROOT && above != node {
        above = tree.node(above).parent;
    }
    match to {
        _ if is_dir && above == node => Err("EINVAL"),
        _ if tree.is_elsewhere(from, to) => Err("EXDEV"),
        Found::Slot(_, _, Some(_)) if is_dir => Err("ENOTDIR"),
        Found::Whole(..) if !is_dir => Err("EISDIR"),
        Found::Whole(dir, _) if !tree.node(dir).rows.is_empty() => Err("ENOTEMPTY"),
        _ => Ok(Some((owned(old), owned(new)))),
    }
}

// ---- Audits

/// What a letter does in a directory: how many links it follows, the directory to which it leads, and the calls that are
/// allowed on it where the links may be followed (`all`) and where they may not (`kept`).
#[derive(Clone, Copy)]
struct Step {
    letter: u32,
    to: u32,
    all: u32,
    kept: u32,
    links: u8,
    /// The walk goes on below where fewer links than this were used.
    enter: u8,
}

const NOWHERE: u32 = u32::MAX;
const KEPT: u32 = 0b1_1000_0111_1000_0110;

/// For each directory the calls that are allowed on names that it doesn't have, and for each number of letters left, from
/// 1, and each directory the steps that are of use.
struct Tables {
    missing: Vec<u32>,
    lists: Vec<Vec<Vec<Step>>>,
}

/// The pair that an audit is resumed after: what is left of its letters, and the number of its call.
type After<'a> = Option<(&'a [u32], u32)>;

struct Walk<'a> {
    tables: &'a Tables,
    /// Each letter as it is printed, after a slash.
    letters: Vec<Vec<u8>>,
    /// A relative path is printed without the slash with which it begins here.
    from_root: bool,
    path: Vec<u8>,
    out: Vec<u8>,
}

/// The calls that a process is allowed, worked out once: by the letters of a cover, and by the object.
struct Allowed {
    by_letters: [u32; 16],
    by_object: [u32; OBJECTS.len()],
}

/// An object of each kind that some call tells from the others.
const OBJECTS: [Object; 8] = [
    Object::Missing,
    Object::Node(Kind::File),
    Object::Node(Kind::Prog),
    Object::Node(Kind::Link),
    Object::Dir(None, false),
    Object::Dir(Some("ENOTEMPTY"), false),
    Object::Node(Kind::Plain),
    Object::Node(Kind::Sock),
];

impl Allowed {
    fn new(held: u64) -> Allowed {
        Allowed::by(&rules().calls, held)
    }

    fn by(needs: &[Need; 21], held: u64) -> Allowed {
        let calls = |fits: &dyn Fn(Call, &Need) -> bool| {
            let fitting = CALLS.iter().zip(needs).filter(|(row, need)| fits(row.0, need));
            fitting.fold(0, |calls, (row, _)| calls | 1 << row.0 as u32)
        };
        Allowed {
            by_letters: std::array::from_fn(|kept| calls(&|_, (sets, letters)| {
                lets(sets, held) && kept as u8 & letters == *letters
            })),
            by_object: OBJECTS.map(|object| calls(&|call, _| object_fault(call, object).is_none())),
        }
    }

    fn on(&self, cover: Cover, object: Object) -> u32 {
        let place = match object {
            Object::Missing => 0,
            Object::Node(Kind::Prog) => 2,
            Object::Node(Kind::Link) => 3,
            Object::Node(Kind::Sock) => 7,
            Object::Node(Kind::Plain | Kind::Fifo | Kind::Dev) => 6,
            Object::Node(_) => 1,
            Object::Dir(None, _) => 4,
            Object::Dir(Some(_), _) => 5,
        };
        cover.map_or(0, |kept| self.by_letters[usize::from(kept)] & self.by_object[place])
    }
}

/// All names of a tree, `..` and the candidates, by their bytes; and the rows of each directory, by the places of their
/// names among these.
struct Letters<'a> {
    names: Vec<&'a [u8]>,
    rows: Vec<Vec<(u32, u32)>>,
}

impl<'a> Letters<'a> {
    fn new(tree: &'a Tree, candidates: &'a [Vec<u8>]) -> Letters<'a> {
        let others = candidates.iter().map(|name| &**name).chain([&b".."[..]]);
        let mut given: Vec<(u64, &[u8], u32, u32)> = others.map(|name| (front(name), name, NOWHERE, ROOT)).collect();
        for (node, dir) in tree.nodes.iter().zip(0..).filter(|(node, _)| node.links > 0) {
            given.extend(node.rows.iter().map(|(name, id)| (front(name), &**name, dir, *id)));
        }
        given.sort_unstable_by(|one, other| (one.0, one.1).cmp(&(other.0, other.1)));
        let mut letters = Letters { names: Vec::with_capacity(given.len()), rows: vec![Vec::new(); tree.nodes.len()] };
        for (_, name, dir, id) in given {
            if letters.names.last() != Some(&name) {
                letters.names.push(name);
            }
            if dir != NOWHERE {
                letters.rows[dir as usize].push((letters.names.len() as u32 - 1, id));
            }
        }
        letters
    }

    fn place(&self, name: &[u8]) -> Option<u32> {
        self.names.binary_search(&name).ok().map(|place| place as u32)
    }
}

/// The first eight bytes of a name as a number, by which most names are told apart.
fn front(name: &[u8]) -> u64 {
    let mut bytes = [0; 8];
    let len = name.len().min(8);
    bytes[..len].copy_from_slice(&name[..len]);
    u64::from_be_bytes(bytes)
}

/// What steps are made of.
struct Making<'a> {
    tree: &'a Tree,
    root: u32,
    process: &'a Process,
    letters: &'a Letters<'a>,
    allowed: &'a Allowed,
    covers: &'a [Cover],
}

impl Making<'_> {
    fn calls(&self, found: Found) -> u32 {
        let cover = match found {
            Found::Whole(dir, _) => self.covers[dir as usize],
            Found::Slot(dir, name, _) => self.process.kept_on_name(dir, name).or(self.covers[dir as usize]),
        };
        self.allowed.on(cover, object(self.tree, found))
    }

    /// The steps of a directory, by their letters.
    fn steps(&self, dir: u32) -> Vec<Step> {
        let (rows, veiled) = (&self.letters.rows[dir as usize], self.process.on_names.get(&dir));
        let mut steps = Vec::with_capacity(rows.len() + 1);
        steps.extend(rows.iter().map(|(letter, id)| self.step(dir, veiled.is_some(), *letter, *id)));
        let parent = self.tree.above(self.root, dir);
        let up = self.calls(Found::Whole(parent, Way::DotDot));
        let dots = self.letters.place(b"..").into_iter();
        steps.extend(dots.map(|letter| Step { letter, to: parent, all: up, kept: up, links: 0, enter: 0 }));
        for name in veiled.into_iter().flat_map(|names| names.keys()) {
            let Some(letter) = self.letters.place(name) else { continue };
            if !self.tree.node(dir).rows.contains_key(name) {
                let calls = self.calls(Found::Slot(dir, name, None));
                steps.push(Step { letter, to: NOWHERE, all: calls, kept: calls, links: 0, enter: 0 });
            }
        }
        steps.sort_by_key(|step| step.letter);
        steps
    }

    /// The step of what stands in a directory, in which some names may have veils of their own.
    fn step(&self, dir: u32, has_veils: bool, letter: u32, id: u32) -> Step {
        let (node, name) = (self.tree.node(id), self.letters.names[letter as usize]);
        let mut step = Step { letter, to: NOWHERE, all: 0, kept: 0, links: 0, enter: 0 };
        match node.kind {
            Kind::Dir => {
                step.kept = self.calls(Found::Whole(id, Way::Named(dir, name)));
                step.to = id;
            }
            kind if !has_veils => step.kept = self.allowed.on(self.covers[dir as usize], Object::Node(kind)),
            _ => step.kept = self.calls(Found::Slot(dir, name, Some(id))),
        }
        step.all = step.kept;
        if node.kind == Kind::Link {
            step.kept &= KEPT;
            step.all = step.kept;
            if let Ok((found, links)) = self.tree.resolve(Start { root: self.root, dir }, name, true) {
                step.links = links;
                step.all |= self.calls(found) & !KEPT;
                if let Found::Whole(to, _) = found {
                    step.to = to;
                }
            }
        }
        step
    }
}

impl Tables {
    fn new(tree: &Tree, process: &Process, letters: &Letters, covers: &[Cover], limit: usize) -> Tables {
        let allowed = Allowed::new(process.held());
        let root = tree.seen_root(process.start.root);
        let making = Making { tree, root, process, letters, allowed: &allowed, covers };
        let mut missing = vec![0; tree.nodes.len()];
        let mut table = vec![Vec::new(); tree.nodes.len()];
        for dir in (0..tree.nodes.len() as u32).filter(|dir| tree.is_living_dir(*dir)) {
            missing[dir as usize] = allowed.on(covers[dir as usize], Object::Missing);
            table[dir as usize] = making.steps(dir);
        }
        let lists = lists(&table, &missing, limit);
        Tables { missing, lists }
    }
}

impl Walk<'_> {
    /// The lines of the word that stands in `path`.
    fn lines(&mut self, mut calls: u32) -> io::Result<()> {
        let path = if self.from_root { &self.path } else { self.path.strip_prefix(b"/").unwrap_or(&self.path) };
        while calls != 0 {
            self.out.extend_from_slice(path);
            self.out.extend_from_slice(ENDINGS[calls.trailing_zeros() as usize]);
            calls &= calls - 1;
        }
        if self.out.len() >= BLOCK { flush(&mut self.out) } else { Ok(()) }
    }

    fn lines_of(&mut self, letter: u32, calls: u32) -> io::Result<()> {
        self.path.extend_from_slice(&self.letters[letter as usize]);
        self.lines(calls)
    }

    /// All words that go on from a directory, where so many letters are left and so many links were followed.
    fn walk(&mut self, left: usize, dir: u32, used: u8, after: After) -> io::Result<()> {
        if left == 0 {
            return Ok(());
        }
        let (list, missing) = (&self.tables.lists[left - 1][dir as usize], self.tables.missing[dir as usize]);
        let len = self.path.len();
        let mut next = after.map_or(0, |(word, _)| word.first().copied().unwrap_or(0));
        for step in &list[list.partition_point(|step| step.letter < next)..] {
            if missing != 0 {
                self.walk_missing(next..step.letter, missing, after)?;
                next = step.letter + 1;
            }
            let rest = rest_after(after, step.letter);
            let calls = if used + step.links <= 32 { step.all } else { step.kept };
            let calls = calls & calls_after(rest);
            if calls != 0 || used < step.enter {
                self.lines_of(step.letter, calls)?;
                if used < step.enter {
                    self.walk(left - 1, step.to, used + step.links, rest)?;
                }
                self.path.truncate(len);
            }
        }
        if missing != 0 {
            self.walk_missing(next..self.letters.len() as u32, missing, after)?;
        }
        Ok(())
    }

    fn walk_missing(&mut self, letters: std::ops::Range<u32>, missing: u32, after: After) -> io::Result<()> {
        let len = self.path.len();
        for letter in letters {
            self.lines_of(letter, missing & calls_after(rest_after(after, letter)))?;
            self.path.truncate(len);
        }
        Ok(())
    }
}

/// What is left of a pair's letters after this one, if it is the first of them.
fn rest_after(after: After, letter: u32) -> After {
    after.and_then(|(word, call)| Some((word.strip_prefix(&[letter])?, call)))
}

/// The calls on a word that are still to come after a pair: all, those after its own call, or none.
fn calls_after(rest: After) -> u32 {
    match rest {
        None => u32::MAX,
        Some(([], call)) => !(u32::MAX >> (31 - call)),
        Some(_) => 0,
    }
}

/// For each number of letters left, from 1, and each directory, the steps that lead to a line.
fn lists(table: &[Vec<Step>], missing: &[u32], limit: usize) -> Vec<Vec<Vec<Step>>> {
    let own = |dir: usize| match (missing[dir], &table[dir]) {
        (0, steps) => steps.iter().map(|step| own_bound(step)).max().unwrap_or(0),
        _ => 33,
    };
    let own: Vec<u8> = (0..table.len()).map(own).collect();
    let mut bounds = vec![0; table.len()];
    let mut lists: Vec<Vec<Vec<Step>>> = Vec::new();
    for _ in 0..limit {
        let entered = |step: &Step| match step.to {
            NOWHERE => *step,
            to => Step { enter: u8::saturating_sub(bounds[to as usize], step.links), ..*step },
        };
        let is_of_use = |dir: usize, step: &Step| missing[dir] != 0 || step.all | step.kept != 0 || step.enter > 0;
        let list = |dir: usize| table[dir].iter().map(entered).filter(|step| is_of_use(dir, step)).collect();
        let layer: Vec<Vec<Step>> = (0..table.len()).map(list).collect();
        let bound = |dir: usize| layer[dir].iter().map(|step: &Step| step.enter).max().unwrap_or(0).max(own[dir]);
        let above = (0..table.len()).map(bound).collect();
        lists.push(layer);
        bounds = above;
    }
    lists
}

fn own_bound(step: &Step) -> u8 {
    match (step.kept, step.all) {
        (0, 0) => 0,
        (0, _) => 33 - step.links,
        _ => 33,
    }
}

const BLOCK: usize = 65_536;
const ENDINGS: [&[u8]; 21] = [
    b" stat\n", b" lstat\n", b" readlink\n", b" open-r\n", b" open-w\n", b" open-rw\n", b" create\n", b" mkdir\n",
    b" rmdir\n", b" unlink\n", b" symlink\n", b" chmod\n", b" chdir\n", b" exec\n", b" connect\n",
    b" bind\n", b" mknod\n", b" chown\n", b" create-rw\n", b" fchmod\n", b" fchown\n",
];

/// The letters and the call of the text `CALL:PATH`.
fn read_pair(text: &[u8], letters: &Letters, limit: usize, from_root: bool) -> Option<(Vec<u32>, u32)> {
    let colon = text.iter().position(|byte| *byte == b':')?;
    let (call, path) = (read_call(&text[..colon])?, &text[colon + 1..]);
    let pieces = if from_root { path.strip_prefix(b"/")? } else { path };
    if (from_root && pieces.is_empty()) || (!from_root && path == b".") {
        return Some((Vec::new(), call as u32));
    }
    let letter = |piece: &[u8]| {
        let bytes = if piece == b".." { Cow::Borrowed(piece) } else { name(piece)? };
        letters.place(&bytes)
    };
    let word: Vec<u32> = pieces.split(|byte| *byte == b'/').map(letter).collect::<Option<_>>()?;
    (word.len() <= limit).then_some((word, call as u32))
}

// ---- The command

/// The numbers from 1 on, in digits.
#[derive(Default)]
struct Count {
    digits: [u8; 8],
    len: usize,
}

impl Count {
    fn next(&mut self) -> &[u8] {
        let nines = self.digits.iter().rev().take(self.len).take_while(|digit| **digit == b'9').count();
        if nines == self.len {
            self.len += 1;
            self.digits[8 - self.len] = b'0';
        }
        self.digits[8 - nines..].fill(b'0');
        self.digits[7 - nines] += 1;
        &self.digits[8 - self.len..]
    }
}

fn flush(out: &mut Vec<u8>) -> io::Result<()> {
    let written = io::stdout().write_all(out);
    out.clear();
    written
}

#[derive(Clone, Copy, PartialEq)]
enum Command {
    Run,
    Objects,
    Audit,
}

struct Words<'a> {
    limit: Option<u8>,
    /// None for all processes, for which only `objects` can be asked.
    process: Option<u32>,
    at: Option<u32>,
    is_ever: bool,
    is_openbsd: bool,
    from_root: bool,
    after: Option<&'a str>,
    operands: Vec<&'a str>,
}

fn read_words(words: &[String]) -> Option<(Command, Words<'_>)> {
    let (command, mut rest) = words.split_first()?;
    let command = match &command[..] {
        "run" => Command::Run,
        "objects" => Command::Objects,
        "audit" => Command::Audit,
        _ => return None,
    };
    let is_audit = command == Command::Audit;
    let (is_ever, is_openbsd, from_root) = (false, false, true);
    let mut read = Words { limit: None, process: Some(1), at: None, is_ever, is_openbsd, from_root, after: None, operands: Vec::new() };
    let (mut has_options, mut given) = (true, Vec::new());
    while let [word, more @ ..] = rest {
        rest = more;
        if !has_options || !word.starts_with("--") {
            read.operands.push(word);
            continue;
        } else if word == "--" {
            has_options = false;
            continue;
        }
        if word == "--ever" && command == Command::Objects && !read.is_ever {
            read.is_ever = true;
            continue;
        }
        let (option, value) = match word.split_once('=') {
            Some(both) => both,
            None => (&word[..], &rest.split_off_first()?[..]),
        };
        if given.contains(&option) {
            return None;
        }
        given.push(option);
        match option {
            "--rules" => read.is_openbsd = *["profile", "openbsd"].iter().find(|rules| value == **rules)? == "openbsd",
            "--at" => read.at = Some(number(value.as_bytes())?),
            _ if command == Command::Run => return None,
            "--process" if !is_audit && value == "all" => read.process = None,
            "--process" => read.process = Some(value.parse().ok().filter(|process| (1..=999_999).contains(process))?),
            _ if !is_audit => return None,
            "--limit" => read.limit = Some(value.parse().ok()?),
            "--base" => read.from_root = *["root", "cwd"].iter().find(|base| value == **base)? == "root",
            "--after" => read.after = Some(value),
            _ => return None,
        }
    }
    if read.is_ever && read.process.is_none() {
        return None;
    }
    let has_enough = if is_audit { read.limit.is_some() && read.operands.len() >= 2 } else { read.operands.len() == 2 };
    has_enough.then_some((command, read))
}

/// What a promise opens by itself, by OpenBSD's rules; where the veils are asked, that is said.
const OPENINGS: [(&str, &str); 14] = [
    ("dns", "/etc/resolv.conf stat,open-r"),
    ("dns", "/etc/hosts open-r"),
    ("dns", "/etc/services open-r"),
    ("dns", "/etc/protocols open-r"),
    ("getpw", "/etc/pwd.db open-r"),
    ("getpw", "/etc/group open-r"),
    ("getpw", "/etc/netid open-r"),
    ("getpw", "/var/run/ypbind.lock stat,open-r"),
    ("getpw", "/var/yp/binding/ open-r"),
    ("stdio", "/dev/null open-r,open-w,open-rw"),
    ("stdio", "/etc/localtime stat,open-r"),
    ("stdio", "/usr/share/zoneinfo/ open-r"),
    ("tmppath", "/tmp/ create,unlink,create-rw veils"),
    ("tty", "/dev/tty open-r,open-w,open-rw veils"),
];

/// Adds the lines of a process's state; in a list for ever with what that is of.
fn state(out: &mut Vec<u8>, tree: &Tree, process: &Process, lasting: Option<&Lasting>) {
    if process.has_ended {
        out.extend_from_slice(b"process ended\n");
        return;
    }
    let unveil = match process.held() & UNVEIL {
        _ if process.is_locked => "locked",
        0 => "given-up",
        _ => "open",
    };
    let (promises, execpromises) = (keywords(process.promises), keywords(process.execpromises));
    let rules = if rules().is_openbsd { "rules openbsd\n" } else { "" };
    let _ = writeln!(out, "process alive\n{rules}promises {promises}\nexecpromises {execpromises}\nunveil {unveil}");
    let opened = lasting.map_or(process.promises.unwrap_or(0), |lasting| lasting.held);
    out.extend_from_slice(lasting.map_or("", |lasting| lasting.execs).as_bytes());
    if !rules.is_empty() {
        if lasting.is_some_and(|lasting| lasting.held & RECVFD != 0) {
            out.extend_from_slice(b"receive open\n");
        }
        if process.start.root != ROOT {
            out.extend_from_slice(b"root ");
            out.extend_from_slice(&place_path(tree, &(process.start.root, None)));
            let _ = writeln!(out, " {}", if process.is_enclosed(tree) { "closed" } else { "open" });
        }
        let opens = |promise: &&str| KEYWORDS.iter().position(|keyword| keyword == promise).is_some_and(|bit| opened & 1 << bit != 0);
        for (_, opening) in OPENINGS.iter().filter(|(promise, _)| opens(promise)) {
            let _ = writeln!(out, "opening {opening}");
        }
    }
    for place in &process.places {
        let (dir, name) = place;
        let kept = match name {
            None => process.on_dirs[dir],
            Some(name) => process.on_names[dir][name],
        };
        let letters = [(R, 'r'), (W, 'w'), (X, 'x'), (C, 'c')];
        let letters: String = letters.iter().filter(|(bit, _)| kept & bit != 0).map(|(_, letter)| letter).collect();
        out.extend_from_slice(b"veil ");
        out.extend_from_slice(&place_path(tree, place));
        let _ = writeln!(out, " {}", if letters.is_empty() { "=" } else { &letters });
    }
    if process.places.is_empty() {
        out.extend_from_slice(b"no veils\n");
    }
    for (number, file) in &process.files {
        held(out, tree, process, *number, *file);
    }
}

/// Adds the lines of an open file: one for each name that it has now.
fn held(out: &mut Vec<u8>, tree: &Tree, process: &Process, number: u32, file: OpenFile) {
    let node = tree.node(file.node);
    let (kind, is_dir) = (word(node.kind), node.kind == Kind::Dir);
    let mut paths: Vec<Vec<u8>> = if is_dir {
        vec![place_path(tree, &(file.node, None))]
    } else {
        names(tree, file.node).iter().map(|place| place_path(tree, place)).collect()
    };
    if paths.is_empty() {
        paths.push(b"-".to_vec());
    }
    let (may, is_for) = (|promises| process.held() & promises != 0, |letters| file.letters & letters != 0);
    let uses = [
        ("read", is_for(R) && may(STDIO)),
        ("write", is_for(W) && may(STDIO)),
        ("chdir", is_dir && may(STDIO)),
        ("chmod", may(FATTR)),
        ("chown", may(CHOWN | FATTR)),
    ];
    let uses: Vec<&str> = uses.iter().filter(|(_, is_allowed)| *is_allowed).map(|(word, _)| *word).collect();
    let uses = if uses.is_empty() { "=".into() } else { uses.join(",") };
    for path in paths {
        let _ = write!(out, "held {number} {kind} ");
        out.extend_from_slice(&path);
        let _ = writeln!(out, " {uses}");
    }
}

/// The names of what is no directory, by the numbers of their directories.
fn names(tree: &Tree, node: u32) -> Vec<Place> {
    let named = |(dir, over): (u32, &Node)| {
        let rows = over.rows.iter().filter(|(_, id)| **id == node);
        rows.map(|(name, _)| (dir, Some(name.clone()))).collect::<Vec<_>>()
    };
    let mut places: Vec<Place> = (0..).zip(&tree.nodes).flat_map(named).collect();
    places.sort_unstable();
    places
}

fn word(kind: Kind) -> &'static str {
    match kind {
        Kind::Dir => "dir",
        Kind::File | Kind::Plain => "file",
        Kind::Prog => "prog",
        Kind::Link => "link",
        Kind::Sock => "sock",
        Kind::Fifo => "fifo",
        Kind::Dev => "dev",
    }
}

/// A set of promises as a script has it.
fn keywords(set: Option<u64>) -> String {
    let Some(set) = set else { return "-".into() };
    let held = KEYWORDS.iter().zip(0..).filter(|(_, bit)| set & 1 << bit != 0);
    let text = held.map(|(keyword, _)| *keyword).collect::<Vec<_>>().join(",");
    if text.is_empty() { "=".into() } else { text }
}

/// Where a place stands now, spelled; `-` where its directory was removed.
fn place_path(tree: &Tree, (dir, name): &Place) -> Vec<u8> {
    let (mut names, mut at) = (Vec::from_iter(name.as_deref()), *dir);
    if tree.node(at).links == 0 {
        return b"-".to_vec();
    }
    while at != ROOT {
        let rows = &tree.node(tree.node(at).parent).rows;
        names.extend(rows.iter().find(|(_, node)| **node == at).map(|(name, _)| &**name));
        at = tree.node(at).parent;
    }
    let mut path = Vec::new();
    for name in names.iter().rev() {
        path.push(b'/');
        spell(&mut path, name);
    }
    if path.is_empty() { b"/".to_vec() } else { path }
}

/// A directory that is open: its names that are still to come, how long its path is, and what is left of names in it.
struct OpenDir<'a> {
    dir: u32,
    names: std::vec::IntoIter<&'a [u8]>,
    len: usize,
    cover: Cover,
}

/// A list of objects.
struct List<'a> {
    tree: &'a Tree,
    process: &'a Process,
    allowed: Allowed,
    path: Vec<u8>,
    out: Vec<u8>,
}

impl<'a> List<'a> {
    /// The line of what `path` leads to, if a call is allowed on it.
    fn line(&mut self, kind: &str, cover: Cover, object: Object) -> io::Result<()> {
        let mut calls = self.allowed.on(cover, object);
        if let Object::Node(Kind::Link) = object {
            calls &= KEPT;
        }
        if calls == 0 {
            return Ok(());
        }
        self.out.extend_from_slice(kind.as_bytes());
        self.out.extend_from_slice(if self.path.is_empty() { b"/" } else { &self.path });
        let mut before = b' ';
        for (call, name, ..) in CALLS {
            if calls & 1 << call as u32 != 0 {
                self.out.push(before);
                self.out.extend_from_slice(name.as_bytes());
                before = b',';
            }
        }
        self.out.push(b'\n');
        if self.out.len() >= BLOCK { flush(&mut self.out) } else { Ok(()) }
    }

    /// The line of a directory and that of its further names; and the directory, open.
    fn open(&mut self, dir: u32, rmdir: Option<Errno>, over: Cover) -> io::Result<OpenDir<'a>> {
        let cover = self.process.on_dirs.get(&dir).copied().or(over);
        self.line("dir ", cover, dir_object(rmdir))?;
        self.line("other ", cover, Object::Missing)?;
        let rows = self.tree.node(dir).rows.keys().map(|name| &**name);
        let veiled = self.process.on_names.get(&dir).into_iter().flat_map(|names| names.keys().map(|name| &**name));
        let mut names: Vec<&[u8]> = rows.chain(veiled).collect();
        names.sort_unstable();
        names.dedup();
        Ok(OpenDir { dir, names: names.into_iter(), len: self.path.len(), cover })
    }

    /// The line of a name in a directory; and the directory, open, if it is one.
    fn name(&mut self, dir: u32, name: &[u8], over: Cover) -> io::Result<Option<OpenDir<'a>>> {
        self.path.push(b'/');
        spell(&mut self.path, name);
        let node = self.tree.node(dir).rows.get(name).copied();
        let found = match node {
            Some(node) if self.tree.node(node).kind == Kind::Dir => Found::Whole(node, Way::Named(dir, name)),
            node => Found::Slot(dir, name, node),
        };
        let object = object(self.tree, found);
        let kind = match object {
            Object::Dir(rmdir, _) => return self.open(node.unwrap_or(ROOT), rmdir, over).map(Some),
            Object::Missing => "missing ",
            Object::Node(Kind::Prog) => "prog ",
            Object::Node(Kind::Link) => "link ",
            Object::Node(Kind::Sock) => "sock ",
            Object::Node(Kind::Fifo) => "fifo ",
            Object::Node(Kind::Dev) => "dev ",
            Object::Node(_) => "file ",
        };
        self.line(kind, self.process.kept_on_name(dir, name).or(over), object)?;
        Ok(None)
    }

    fn write(self) -> io::Result<()> {
        flush(&mut self.listed()?)
    }

    /// The lines that are still to be written.
    fn listed(mut self) -> io::Result<Vec<u8>> {
        if self.process.has_ended {
            return Ok(self.out);
        }
        let root = if self.process.is_enclosed(self.tree) { self.process.start.root } else { ROOT };
        let rmdir = if root == ROOT { Some("EBUSY") } else { rmdir_fault(self.tree, root) };
        if root != ROOT {
            self.path = place_path(self.tree, &(root, None));
        }
        let over = self.process.dir_cover(self.tree, root);
        let mut open = vec![self.open(root, rmdir, over)?];
        while let Some(inner) = open.last_mut() {
            self.path.truncate(inner.len);
            let (dir, cover) = (inner.dir, inner.cover);
            match inner.names.next() {
                Some(name) => open.extend(self.name(dir, name, cover)?),
                None => drop(open.pop()),
            }
        }
        Ok(self.out)
    }
}

fn objects(world: &World, words: &Words, mut front: Vec<u8>) -> Result<(), (u8, String)> {
    let mut numbers: Vec<u32> = match words.process {
        Some(number) => vec![number],
        None => world.processes.keys().copied().collect(),
    };
    numbers.sort_unstable();
    for number in numbers {
        let process = world.processes.get(&number).ok_or_else(|| (1, "pua: no such process".to_string()))?;
        let _ = writeln!(front, "objects {number}");
        state(&mut front, &world.tree, process, None);
        let out = std::mem::take(&mut front);
        let allowed = Allowed::new(process.held());
        let list = List { tree: &world.tree, process, allowed, path: Vec::new(), out };
        list.write().map_err(|_| (3, "pua: cannot write".to_string()))?;
    }
    Ok(())
}

// ---- All that can ever be touched: each part is asked of the tree anew, as the definition has it

fn has_c(cover: Cover) -> bool {
    cover.is_some_and(|kept| kept & C != 0)
}

/// What can be asked of a tree and the veils of a process, where the tree may change.
#[derive(Clone, Copy)]
struct Ways<'a> {
    tree: &'a Tree,
    process: &'a Process,
}

impl<'a> Ways<'a> {
    fn living(self) -> impl Iterator<Item = u32> {
        (0..self.tree.nodes.len() as u32).filter(move |dir| self.tree.is_living_dir(*dir))
    }

    /// The names with veils of their own that have c, each with its directory and its letters.
    fn names_with_c(self) -> impl Iterator<Item = (u32, &'a [u8], u8)> {
        let names = self.process.on_names.iter().flat_map(|(dir, names)| names.iter().map(|(name, kept)| (*dir, &**name, *kept)));
        names.filter(move |(dir, _, kept)| self.tree.is_living_dir(*dir) && kept & C != 0)
    }

    /// The same of those that are free.
    fn free_names(self) -> impl Iterator<Item = (u32, &'a [u8], u8)> {
        self.names_with_c().filter(move |(dir, name, _)| self.is_free(*dir, name))
    }

    /// What stands there has `c`, and is no mount point.
    fn can_leave(self, dir: u32, name: &[u8], node: u32) -> bool {
        let cover = match self.tree.node(node).kind {
            Kind::Dir => self.process.dir_cover(self.tree, node),
            _ => self.process.cover(self.tree, Found::Slot(dir, name, Some(node))),
        };
        has_c(cover) && !self.tree.node(node).is_mount
    }

    fn is_free(self, dir: u32, name: &[u8]) -> bool {
        self.tree.node(dir).rows.get(name).is_none_or(|node| self.can_leave(dir, name, *node))
    }

    fn can_empty(self, dir: u32) -> bool {
        self.tree.node(dir).rows.iter().all(|(name, node)| self.can_leave(dir, name, *node))
    }

    fn is_below(self, over: u32, dir: u32) -> bool {
        let mut at = dir;
        while at != over && at != ROOT {
            at = self.tree.node(at).parent;
        }
        at == over
    }

    fn has_c_outside(self, inner: u32) -> bool {
        self.living().any(|dir| !self.is_below(inner, dir) && has_c(self.process.dir_cover(self.tree, dir)))
            || self.names_with_c().any(|(dir, ..)| !self.is_below(inner, dir))
    }

    fn gives_way(self, dir: u32) -> bool {
        self.tree.is_living_dir(dir)
            && !self.tree.node(dir).is_mount
            && has_c(self.process.dir_cover(self.tree, dir))
            && self.can_empty(dir)
            && self.has_c_outside(dir)
    }

    fn is_way_in(self, dir: u32) -> bool {
        has_c(self.process.dir_cover(self.tree, dir))
            || self.free_names().any(|(other, ..)| other == dir)
            || self.tree.node(dir).rows.values().any(|node| self.gives_way(*node))
    }

    fn dir_covers(self, is_there: impl Fn(u32) -> bool) -> Vec<Cover> {
        let ways = self.living().filter(|dir| is_there(*dir) && self.is_way_in(*dir));
        ways.map(|dir| self.process.dir_cover(self.tree, dir)).collect()
    }
}

/// What calls need in a list for ever: by OpenBSD's rules `tmppath` is one more set of those that it opens.
fn wide_calls() -> [Need; 21] {
    let mut calls = rules().calls.clone();
    for call in [Call::Create, Call::CreateRw, Call::Unlink] {
        let sets = &mut calls[call as usize].0;
        if rules().is_openbsd && sets.iter().all(|set| set & !TMPPATH != 0) {
            sets.push(TMPPATH);
        }
    }
    calls
}

fn bits(calls: &[Call]) -> u32 {
    calls.iter().fold(0, |bits, call| bits | 1 << *call as u32)
}

const EDITS: [Call; 8] =
    [Call::Create, Call::Mkdir, Call::Rmdir, Call::Unlink, Call::Symlink, Call::Bind, Call::Mknod, Call::CreateRw];
const MAKES_FILES: [Call; 2] = [Call::Create, Call::CreateRw];

/// By which a file can be made a program.
const WRITES: [Call; 6] = [Call::OpenW, Call::OpenRw, Call::Create, Call::CreateRw, Call::Chmod, Call::Fchmod];

/// What a line is about, its path or `new`, and its calls.
type EverLine = (&'static str, Vec<u8>, u32);

/// The covers that can come over veiled names, over directories, and over anything else.
#[derive(Default)]
struct Coming {
    names: Vec<Cover>,
    dirs: Vec<Cover>,
    files: Vec<Cover>,
}

/// All that a process that holds some promises can ever touch by itself.
struct Ever<'a> {
    ways: Ways<'a>,
    held: u64,
    allowed: Allowed,
    may_edit: bool,
    may_rename: bool,
    may_link: bool,
    /// What is new comes under those of all devices, and what is there under those of its own.
    everywhere: Coming,
    on_devices: BTreeMap<u32, Coming>,
    path: Vec<u8>,
    lines: Vec<EverLine>,
}

impl<'a> Ever<'a> {
    fn new(ways: Ways<'a>, held: u64) -> Ever<'a> {
        let calls = wide_calls();
        let may_name = |promises| held & (promises | CPATH) == promises | CPATH;
        let mut ever = Ever {
            ways,
            held,
            allowed: Allowed::by(&calls, held),
            may_edit: may_name(0) || EDITS.iter().any(|call| lets(&calls[*call as usize].0, held)),
            may_rename: may_name(rules().rename.promises),
            may_link: may_name(rules().link.promises),
            everywhere: Coming::default(),
            on_devices: BTreeMap::new(),
            path: Vec::new(),
            lines: Vec::new(),
        };
        ever.everywhere = ever.coming(|_| true);
        let device = |dir| ways.tree.device(dir);
        for of in ways.living().map(device).collect::<BTreeSet<u32>>() {
            ever.on_devices.insert(of, ever.coming(|dir| device(dir) == of));
        }
        ever
    }

    /// The covers of what is here, under which something can come.
    fn coming(&self, is_here: impl Fn(u32) -> bool) -> Coming {
        let ways = self.ways;
        let names: Vec<Cover> =
            ways.free_names().filter(|(dir, ..)| is_here(*dir)).map(|(_, _, kept)| Some(kept)).collect();
        let dirs = ways.dir_covers(&is_here);
        let covers = ways.living().filter(|dir| is_here(*dir)).map(|dir| ways.process.dir_cover(ways.tree, dir));
        let open: Vec<Cover> = covers.filter(|cover| has_c(*cover)).collect();
        let inside = if open.iter().any(|cover| self.can_move(*cover)) { &dirs[..] } else { &[] };
        let files = [&names[..], &open, inside].concat();
        Coming { names, dirs, files }
    }

    /// The covers under which things in a directory can come: those on its device; all, if the mount point goes along with the
    /// directory in which it stands, as it has `c` and no veil of its own.
    fn coming_to(&self, dir: u32) -> &Coming {
        let Ways { tree, process } = self.ways;
        let device = tree.device(dir);
        let goes_along = !process.on_dirs.contains_key(&device) && has_c(process.dir_cover(tree, device));
        if goes_along { &self.everywhere } else { &self.on_devices[&device] }
    }

    fn can_move(&self, cover: Cover) -> bool {
        self.may_rename && has_c(cover) && cover_fault(cover, rules().rename.letters).is_none()
    }

    fn can_link(&self, cover: Cover, kind: Kind) -> bool {
        let is_led_on = kind == Kind::Link && rules().link.is_followed;
        self.may_link && !is_led_on && cover_fault(cover, rules().link.letters).is_none()
    }

    fn calls(&self, covers: &[Cover], object: Object) -> u32 {
        covers.iter().fold(0, |calls, cover| calls | self.allowed.on(*cover, object))
    }

    /// The line of what `path` leads to, under each of some covers, if a call is ever allowed on it.
    fn line(&mut self, kind: &'static str, covers: &[Cover], object: Object) {
        let path = if self.path.is_empty() { b"/".to_vec() } else { self.path.clone() };
        self.put(kind, path, covers, object, false);
    }

    /// The same of what has this path, and of a file by whether it can be made a program whatever covers it.
    fn put(&mut self, kind: &'static str, path: Vec<u8>, covers: &[Cover], object: Object, is_turned: bool) {
        let mut calls = self.calls(covers, object);
        match object {
            Object::Node(Kind::Link) => calls &= KEPT,
            Object::Node(kind) if kind.may_start() && (is_turned || calls & bits(&WRITES) != 0) => {
                calls |= self.calls(covers, Object::Node(Kind::Prog)) & bits(&[Call::Exec]);
            }
            _ => {}
        }
        if calls != 0 {
            self.lines.push((kind, path, calls));
        }
    }

    /// The lines of a directory, of its name where something else can come there, of its further names, and of all that is
    /// below it.
    fn dir(&mut self, dir: u32, at: Option<(u32, &[u8])>) {
        let (tree, process) = (self.ways.tree, self.ways.process);
        let now = process.dir_cover(tree, dir);
        let moves = !process.on_dirs.contains_key(&dir) && self.can_move(now);
        let covers = if moves { self.coming_to(dir).dirs.clone() } else { vec![now] };
        let stays = dir == ROOT || tree.node(dir).is_mount;
        let is_removable = !stays && self.ways.can_empty(dir) && (self.may_edit || tree.node(dir).rows.is_empty());
        self.line("dir", &covers, dir_object((!is_removable).then_some("ENOTEMPTY")));
        if let Some((over, name)) = at {
            self.freed(over, name);
        }
        self.line("other", &covers, Object::Missing);
        let veiled = process.on_names.get(&dir).into_iter().flat_map(|names| names.keys());
        let mut names: Vec<&[u8]> = tree.node(dir).rows.keys().chain(veiled).map(|name| &**name).collect();
        names.sort_unstable();
        names.dedup();
        let len = self.path.len();
        for name in names {
            self.path.push(b'/');
            spell(&mut self.path, name);
            self.name(dir, name);
            self.path.truncate(len);
        }
    }

    /// The line of a taken name with a veil of its own where what stands there can be taken away.
    fn freed(&mut self, dir: u32, name: &[u8]) {
        if let Some(kept) = self.ways.process.kept_on_name(dir, name).filter(|_| self.may_edit && self.ways.is_free(dir, name)) {
            self.line("missing", &[Some(kept)], Object::Missing);
        }
    }

    fn name(&mut self, dir: u32, name: &[u8]) {
        let tree = self.ways.tree;
        let node = tree.node(dir).rows.get(name).copied();
        let now = self.ways.process.cover(tree, Found::Slot(dir, name, node));
        let Some(node) = node else { return self.line("missing", &[now], Object::Missing) };
        let kind = tree.node(node).kind;
        if kind == Kind::Dir {
            return self.dir(node, Some((dir, name)));
        }
        let mut covers = if self.can_move(now) { Vec::new() } else { vec![now] };
        if self.can_move(now) || self.can_link(now, kind) {
            covers.extend_from_slice(&self.coming_to(dir).files);
        }
        self.put(word(kind), self.path.clone(), &covers, Object::Node(kind), self.is_turned_held(node));
        self.freed(dir, name);
    }

    /// Whether the process has a node open so that it can write it, or set its mode.
    fn is_turned_held(&self, node: u32) -> bool {
        let sets_modes = self.held & FATTR != 0;
        self.ways.process.files.values().any(|file| file.node == node && (sets_modes || file.letters & W != 0))
    }

    /// The line of what can be made, if a call that makes it can be allowed.
    fn made(&mut self, kind: &'static str, makers: &[Call], object: Object) {
        let names = [&self.everywhere.names[..], &self.everywhere.dirs].concat();
        if self.may_edit && self.calls(&names, Object::Missing) & bits(makers) != 0 {
            let is_in_dirs = makers == [Call::Mkdir];
            let covers = if is_in_dirs { self.everywhere.dirs.clone() } else { self.everywhere.files.clone() };
            self.put(kind, b"new".to_vec(), &covers, object, true);
        }
    }

    /// What the process can ever touch: below its root alone, where it never comes out of that.
    fn listed(mut self) -> Vec<EverLine> {
        let Ways { tree, process } = self.ways;
        let is_cut = self.held & ID == 0 && process.is_enclosed(tree);
        let top = if is_cut { process.start.root } else { ROOT };
        if top != ROOT {
            self.path = place_path(tree, &(top, None));
        }
        self.dir(top, None);
        for (kind, makers, object) in NEW {
            let object = if matches!(object, Object::Node(Kind::File)) { Object::Node(rules().file()) } else { object };
            self.made(kind, makers, object);
        }
        self.lines
    }
}

/// What can be made, by which calls, and what it is.
const NEW: [(&str, &[Call], Object); 6] = [
    ("dir", &[Call::Mkdir], Object::Dir(None, false)),
    ("other", &[Call::Mkdir], Object::Missing),
    ("file", &MAKES_FILES, Object::Node(Kind::File)),
    ("link", &[Call::Symlink], Object::Node(Kind::Link)),
    ("sock", &[Call::Bind], Object::Node(Kind::Sock)),
    ("fifo", &[Call::Mknod], Object::Node(Kind::Fifo)),
];

/// A list for ever, what it says of execs, and by which promises it is: those of the process, or of what it starts too.
struct Lasting {
    lines: Vec<EverLine>,
    execs: &'static str,
    held: u64,
}

/// The execpromises by which all that a process starts is bounded, if it is.
fn bound(process: &Process) -> Option<u64> {
    let given = process.execpromises?;
    let goes_on = !rules().is_openbsd && lets(&rules().calls[Call::Exec as usize].0, given);
    let unveils = !process.is_locked && (process.held() | given) & UNVEIL != 0;
    (!goes_on && !unveils).then_some(given)
}

/// The list that holds longest.
fn lasting(ways: Ways) -> Lasting {
    let held = ways.process.held();
    let lines = Ever::new(ways, held).listed();
    if !lines.iter().any(|(_, _, calls)| calls & bits(&[Call::Exec]) != 0) {
        return Lasting { lines, execs: "", held };
    }
    match bound(ways.process) {
        None => Lasting { lines, execs: "exec open\n", held },
        Some(given) => {
            let lines = through(Ever::new(ways, held | given).listed(), held, given);
            Lasting { lines, execs: "exec bounded\n", held: held | given }
        }
    }
}

/// What is left of the lines of both sets of promises: the calls that one of them lets through by itself.
fn through(lines: Vec<EverLine>, held: u64, given: u64) -> Vec<EverLine> {
    let needs = wide_calls();
    let passing = CALLS.iter().filter(|row| [held, given].iter().any(|set| lets(&needs[row.0 as usize].0, *set)));
    let passes = passing.fold(0, |calls, row| calls | 1 << row.0 as u32);
    let comes = |kind: &str| NEW.iter().any(|(new, makers, _)| *new == kind && bits(makers) & passes != 0);
    let left = lines.into_iter().filter(|(kind, path, _)| path != b"new" || comes(kind));
    left.map(|(kind, path, calls)| (kind, path, calls & passes)).filter(|line| line.2 != 0).collect()
}

/// The list for ever of a process, unless it can still put veils.
fn ever(world: &World, number: u32, mut front: Vec<u8>) -> Result<(), (u8, String)> {
    let process = world.processes.get(&number).ok_or_else(|| (1, "pua: no such process".to_string()))?;
    if !process.has_ended && !process.is_locked && process.held() & UNVEIL != 0 {
        return Err((1, format!("pua: process {number} can still unveil")));
    }
    let _ = writeln!(front, "ever {number}");
    if process.has_ended {
        state(&mut front, &world.tree, process, None);
    } else {
        let list = lasting(Ways { tree: &world.tree, process });
        state(&mut front, &world.tree, process, Some(&list));
        for (kind, path, calls) in list.lines {
            let names: Vec<&str> = CALLS.iter().filter(|row| calls & 1 << row.0 as u32 != 0).map(|row| row.1).collect();
            front.extend_from_slice(&[kind.as_bytes(), b" ", &path, b" ", names.join(",").as_bytes(), b"\n"].concat());
        }
    }
    flush(&mut front).map_err(|_| (3, "pua: cannot write".to_string()))
}

fn audit(world: &World, words: &Words, front: Vec<u8>) -> Result<(), (u8, String)> {
    let refused = |fault: String| (1, format!("pua: {fault}"));
    let limit = usize::from(words.limit.unwrap_or(0));
    let process = words.process.and_then(|number| world.processes.get(&number));
    let process = process.ok_or_else(|| refused("no such process".into()))?;
    let names = &words.operands[2..];
    if limit > 16 {
        return Err(refused("audit: limit too large".into()));
    } else if names.len() > 1024 {
        return Err(refused("audit: too many names".into()));
    }
    let mut candidates = Vec::new();
    for (place, field) in names.iter().enumerate() {
        let name = name(field.as_bytes()).ok_or_else(|| refused(format!("audit: bad candidate {}", place + 1)))?;
        candidates.push(name.into_owned());
    }
    let letters = Letters::new(&world.tree, &candidates);
    if limit * (letters.names.iter().map(|name| name.len()).max().unwrap_or(0) + 1) > PATH_LIMIT {
        return Err(refused("audit: paths too long".into()));
    }
    let after = words.after.map(|text| read_pair(text.as_bytes(), &letters, limit, words.from_root));
    let after = after.map(|pair| pair.ok_or_else(|| refused("audit: bad resume".into()))).transpose()?;
    let base = if words.from_root { process.start.root } else { process.start.dir };
    let is_empty = process.has_ended || world.tree.node(base).links == 0;
    let cannot_write = |_| (3, "pua: cannot write".to_string());
    let mut front = front;
    if after.is_some() {
        front.clear();
    } else {
        let _ = writeln!(front, "reach {}", words.process.unwrap_or(1));
    }
    flush(&mut front).map_err(cannot_write)?;
    if is_empty {
        return Ok(());
    }
    let covers = process.dir_covers(&world.tree);
    let tables = Tables::new(&world.tree, process, &letters, &covers, limit);
    let mut walk = Walk {
        tables: &tables,
        letters: letters.names.iter().map(|letter| printed(letter)).collect(),
        from_root: words.from_root,
        path: if words.from_root { b"/".to_vec() } else { b".".to_vec() },
        out: Vec::with_capacity(2 * BLOCK),
    };
    let after = after.as_ref().map(|(word, call)| (&word[..], *call));
    let calls = Allowed::new(process.held()).on(covers[base as usize], dir_object(Some("EINVAL")));
    walk.lines(calls & calls_after(after)).map_err(cannot_write)?;
    walk.path.clear();
    walk.walk(limit, base, 0, after).map_err(cannot_write)?;
    flush(&mut walk.out).map_err(cannot_write)
}

/// A letter as it is printed in a path, after a slash.
fn printed(letter: &[u8]) -> Vec<u8> {
    let mut text = vec![b'/'];
    spell(&mut text, letter);
    text
}

/// The first lines of a script up to the one that is named.
fn script_at(text: &[u8], at: Option<u32>) -> Result<&[u8], String> {
    let Some(line) = at else { return Ok(text) };
    let sizes: Vec<usize> = text.split_inclusive(|byte| *byte == b'\n').map(<[u8]>::len).collect();
    let front = sizes.get(..line as usize).ok_or_else(|| format!("pua: script: line {line}: no such line"))?;
    Ok(&text[..front.iter().sum()])
}

fn perform(command: Command, words: &Words) -> Result<(), (u8, String)> {
    let take = |file: &str| match fs::read(file) {
        Ok(bytes) if bytes.len() <= 64 << 20 => Ok(bytes),
        _ => Err((3, format!("pua: cannot read {file}"))),
    };
    let (listing, text) = (take(words.operands[0])?, take(words.operands[1])?);
    let text = script_at(&text, words.at).map_err(|fault| (1, fault))?;
    RULES.get_or_init(if words.is_openbsd { Rules::openbsd } else { Rules::standard });
    let tree = read_listing(&listing).map_err(|fault| (1, fault))?;
    let script = read_script(text).map_err(|fault| (1, fault))?;
    let mut world = World { tree, processes: Map::from_iter([(1, Process::default())]) };
    let (mut out, mut count) = (Vec::new(), Count::default());
    for request in &script {
        let number = count.next();
        let Some((process, action)) = request else { continue };
        let (answer, opener) = world.serve(*process, action);
        out.extend_from_slice(number);
        out.push(b' ');
        out.extend_from_slice(answer.as_bytes());
        if let Some(promise) = opener {
            out.extend_from_slice(b" by ");
            out.extend_from_slice(promise.as_bytes());
        }
        out.push(b'\n');
    }
    match command {
        Command::Run => flush(&mut out).map_err(|_| (3, "pua: cannot write".into())),
        Command::Objects if words.is_ever => ever(&world, words.process.unwrap_or(1), out),
        Command::Objects => objects(&world, words, out),
        Command::Audit => audit(&world, words, out),
    }
}

/// Those of the program beside which this one stands. Here no table is read, and lists for ever are of one process.
const USAGE: &str = "pua: usage: pua run [--table FILE] TREE SCRIPT; \
                     pua audit --limit N [--process P] [--base root|cwd] [--after CALL:PATH] [--table FILE] TREE SCRIPT [NAME...]";
const OBJECTS_USAGE: &str = "pua: usage: pua objects [--ever] [--how|--why] [--images] [--process P,...|all] [--beside Q,...|all] [--below PATH] [--at N] [--rules profile|openbsd] [--table FILE] TREE SCRIPT";

fn main() -> ExitCode {
    let words: Vec<String> = std::env::args().skip(1).collect();
    let is_objects = words.first().is_some_and(|word| word == "objects");
    let usage = if is_objects { OBJECTS_USAGE } else { USAGE };
    let done = match read_words(&words) {
        Some((command, words)) => perform(command, &words),
        None => Err((2, usage.into())),
    };
    match done {
        Ok(()) => ExitCode::SUCCESS,
        Err((status, fault)) => {
            eprintln!("{fault}");
            ExitCode::from(status)
        }
    }
}
