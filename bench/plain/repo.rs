//! A repository, and what a push does to it: all of its parts, or nothing.

use crate::bundle::{Part, Reply, take, take_byte, take_number};
use crate::sha1::Sha1;
use std::collections::{BTreeMap, BTreeSet, HashMap, HashSet};
use std::io::Write;

type Node = [u8; 20];
const NULL: Node = [0; 20];
const NO_NODE: Node = [0xff; 20];
const TEXT: usize = 16_777_216;
const PUBLIC: u8 = 0;
const DRAFT: u8 = 1;

struct Row {
    node: Node,
    parents: [Option<u32>; 2],
    text: Vec<u8>,
    phase: u8,
    children: u32,
}

#[derive(Default)]
pub struct Repo {
    publishing: bool,
    pub journal: Vec<u32>,
    rows: Vec<Row>,
    revs: HashMap<Node, u32>,
    heads: BTreeSet<Node>,
    markers: Vec<Vec<u8>>,
    marker_set: HashSet<Vec<u8>>,
    bookmarks: BTreeMap<Vec<u8>, Node>,
}

/// How to go back to where a push began.
#[derive(Default)]
struct Undo {
    rows: usize,
    markers: usize,
    phases: Vec<(u32, u8)>,
    bookmarks: Vec<(Vec<u8>, Option<Node>)>,
}

struct Entry<'p> {
    node: Node,
    parents: [Node; 2],
    base: Node,
    delta: &'p [u8],
}

pub fn abort(message: String) -> Reply {
    Reply { kind: "error:abort", params: vec![("message", message.into_bytes())] }
}

fn raced(what: &str) -> Reply {
    Reply { kind: "error:pushraced", params: vec![("message", format!("{what} changed").into_bytes())] }
}

fn reply_to(part: &Part, kind: &'static str, name: &'static str, value: String) -> Reply {
    Reply { kind, params: vec![("in-reply-to", part.id.to_string().into_bytes()), (name, value.into_bytes())] }
}

/// The parameters that are known for a type of part.
fn known_params(kind: &str) -> Option<&'static [&'static [u8]]> {
    match kind {
        "replycaps" | "check:heads" | "check:phases" | "check:bookmarks" => Some(&[]),
        "phase-heads" | "bookmarks" | "obsmarkers" | "output" => Some(&[]),
        "changegroup" => Some(&[b"version", b"nbchanges", b"targetphase"]),
        "pushkey" => Some(&[b"namespace", b"key", b"old", b"new"]),
        "error:abort" => Some(&[b"message", b"hint"]),
        _ => None,
    }
}

impl Repo {
    pub fn new(publishing: bool) -> Repo {
        Repo { publishing, ..Repo::default() }
    }

    /// Runs a push. Refused, it changes nothing, and the error is the part of its reply. It is a function of its own,
    /// so that a profile tells what is done under the lock.
    #[inline(never)]
    pub fn run(&mut self, parts: &[Part]) -> Result<Vec<Reply>, Reply> {
        let mut undo = Undo { rows: self.rows.len(), markers: self.markers.len(), ..Undo::default() };
        let result = self.run_parts(parts, &mut undo);
        if result.is_err() {
            self.go_back(undo);
        }
        result
    }

    fn run_parts(&mut self, parts: &[Part], undo: &mut Undo) -> Result<Vec<Reply>, Reply> {
        let mut replies = Vec::new();
        let mut replying = false;
        for (place, part) in parts.iter().enumerate() {
            let known = known_params(&part.kind);
            let is_unknown = |key: &[u8]| known.is_some_and(|known| !known.contains(&key));
            let unknown = part.params.iter().filter(|param| param.mandatory && is_unknown(&param.key));
            let unknown: Vec<&[u8]> = unknown.map(|param| &param.key[..]).collect();
            if known.is_some() && unknown.is_empty() {
                replying |= part.kind == "replycaps";
                let reply = self.handle(part, place, undo)?;
                replies.extend(reply.filter(|_| replying));
            } else if part.mandatory {
                let mut params = vec![("parttype", part.kind.clone().into_bytes())];
                if !unknown.is_empty() {
                    params.push(("params", unknown.join(&0)));
                }
                return Err(Reply { kind: "error:unsupportedcontent", params });
            }
        }
        Ok(replies)
    }

    fn handle(&mut self, part: &Part, place: usize, undo: &mut Undo) -> Result<Option<Reply>, Reply> {
        let malformed = || abort(format!("part {place} is malformed"));
        let unknown = || abort(format!("part {place} names an unknown node"));
        match part.kind.as_str() {
            "check:heads" => {
                let (nodes, []) = part.payload.as_chunks() else { return Err(malformed()) };
                let mut nodes = nodes.to_vec();
                nodes.sort_unstable();
                let is_same = if self.heads.is_empty() { nodes == [NULL] } else { nodes.iter().eq(&self.heads) };
                if is_same { Ok(None) } else { Err(raced("heads")) }
            }
            "check:phases" => {
                for (phase, node) in phase_entries(&part.payload).ok_or_else(malformed)? {
                    if self.phase(&node).ok_or_else(unknown)? != phase {
                        return Err(raced("phases"));
                    }
                }
                Ok(None)
            }
            "check:bookmarks" => {
                for (node, name) in bookmark_entries(&part.payload).ok_or_else(malformed)? {
                    if node.is_some_and(|node| !self.knows(&node)) {
                        return Err(unknown());
                    }
                    if self.bookmarks.get(name).copied() != node {
                        return Err(raced("bookmarks"));
                    }
                }
                Ok(None)
            }
            "phase-heads" => {
                let entries = phase_entries(&part.payload).ok_or_else(malformed)?;
                if entries.iter().any(|(_, node)| !self.knows(node)) {
                    return Err(unknown());
                }
                for (phase, node) in entries {
                    self.advance(phase, self.revs.get(&node).copied().into_iter().collect(), undo);
                }
                Ok(None)
            }
            "bookmarks" => {
                let entries = bookmark_entries(&part.payload).ok_or_else(malformed)?;
                if entries.iter().any(|(node, _)| node.is_some_and(|node| !self.knows(&node))) {
                    return Err(unknown());
                }
                for (node, name) in entries {
                    self.set_bookmark(name, node, undo);
                }
                Ok(None)
            }
            "obsmarkers" => {
                let markers = read_markers(&part.payload).ok_or_else(malformed)?;
                let new = self.merge(markers);
                Ok(Some(reply_to(part, "reply:obsmarkers", "new", new.to_string())))
            }
            "changegroup" => {
                let target = part.param(b"targetphase").unwrap_or(b"1");
                let version = part.param(b"version").unwrap_or(b"01");
                let entries = read_group(version, &part.payload);
                let entries = entries.filter(|_| matches!(target, b"0" | b"1" | b"2")).ok_or_else(malformed)?;
                let phase = if self.publishing { PUBLIC } else { DRAFT };
                let before = self.heads.len().max(1);
                for entry in &entries {
                    self.add(entry, phase).ok_or_else(|| abort(format!("part {place} holds a bad changeset")))?;
                }
                let revs = entries.iter().filter_map(|entry| self.revs.get(&entry.node));
                self.advance(phase, revs.copied().collect(), undo);
                let after = self.heads.len().max(1);
                let text = if after >= before {
                    format!("{}", 1 + after - before)
                } else {
                    format!("-{}", before - after + 1)
                };
                Ok(Some(reply_to(part, "reply:changegroup", "return", text)))
            }
            "pushkey" => {
                let param = |name| part.param(name).ok_or_else(malformed);
                let (namespace, key) = (param(b"namespace")?, param(b"key")?);
                let (old, new) = (param(b"old")?, param(b"new")?);
                let done = match namespace {
                    b"phases" => self.push_phase(key, old, new, undo),
                    b"bookmarks" => self.push_bookmark(key, old, new, undo),
                    b"obsolete" if key.starts_with(b"dump") && old.is_empty() => {
                        let data = base85_decode(new).ok_or_else(malformed)?;
                        let markers = read_markers(&data).ok_or_else(malformed)?;
                        self.merge(markers);
                        true
                    }
                    _ => false,
                };
                if part.mandatory && !done {
                    let mut params = vec![("in-reply-to", part.id.to_string().into_bytes())];
                    let values = [("namespace", namespace), ("key", key), ("new", new), ("old", old)];
                    params.extend(values.map(|(name, value)| (name, value.to_vec())));
                    return Err(Reply { kind: "error:pushkey", params });
                }
                Ok(Some(reply_to(part, "reply:pushkey", "return", u8::from(done).to_string())))
            }
            "error:abort" => Err(abort("client aborted".to_string())),
            _ => Ok(None),
        }
    }

    fn knows(&self, node: &Node) -> bool {
        *node == NULL || self.revs.contains_key(node)
    }

    fn phase(&self, node: &Node) -> Option<u8> {
        if *node == NULL {
            return Some(PUBLIC);
        }
        Some(self.rows[*self.revs.get(node)? as usize].phase)
    }

    /// The number of a changeset, and none of the null id.
    fn rev_of(&self, node: &Node) -> Option<Option<u32>> {
        if *node == NULL { Some(None) } else { self.revs.get(node).map(|rev| Some(*rev)) }
    }

    /// Adds a changeset, or none where it is known.
    fn add(&mut self, entry: &Entry, target: u8) -> Option<()> {
        if self.knows(&entry.node) {
            return Some(());
        }
        let parents = [self.rev_of(&entry.parents[0])?, self.rev_of(&entry.parents[1])?];
        let base = match self.rev_of(&entry.base)? {
            Some(rev) => &self.rows[rev as usize].text[..],
            None => &[],
        };
        let text = patched(base, entry.delta)?;
        if node_id(&entry.parents, &text) != entry.node {
            return None;
        }
        let rev = self.rows.len() as u32;
        let mut phase = target;
        for parent in parents.into_iter().flatten() {
            let row = &mut self.rows[parent as usize];
            phase = phase.max(row.phase);
            row.children += 1;
            self.heads.remove(&row.node);
        }
        self.heads.insert(entry.node);
        self.revs.insert(entry.node, rev);
        self.rows.push(Row { node: entry.node, parents, text, phase, children: 0 });
        Some(())
    }

    /// Moves changesets and their ancestors down to a phase. No ancestor is in a higher phase than its child.
    fn advance(&mut self, target: u8, mut revs: Vec<u32>, undo: &mut Undo) {
        while let Some(rev) = revs.pop() {
            let row = &mut self.rows[rev as usize];
            if row.phase > target {
                undo.phases.push((rev, row.phase));
                row.phase = target;
                revs.extend(row.parents.into_iter().flatten());
            }
        }
    }

    fn set_bookmark(&mut self, name: &[u8], node: Option<Node>, undo: &mut Undo) {
        let before = match node {
            Some(node) => self.bookmarks.insert(name.to_vec(), node),
            None => self.bookmarks.remove(name),
        };
        undo.bookmarks.push((name.to_vec(), before));
    }

    /// Adds the markers that are not there yet, and says how many.
    fn merge(&mut self, markers: Vec<&[u8]>) -> usize {
        let before = self.markers.len();
        for marker in markers {
            if self.marker_set.insert(marker.to_vec()) {
                self.markers.push(marker.to_vec());
            }
        }
        self.markers.len() - before
    }

    fn go_back(&mut self, undo: Undo) {
        for (name, node) in undo.bookmarks.into_iter().rev() {
            match node {
                Some(node) => self.bookmarks.insert(name, node),
                None => self.bookmarks.remove(&name),
            };
        }
        for (rev, phase) in undo.phases.into_iter().rev() {
            self.rows[rev as usize].phase = phase;
        }
        for marker in self.markers.drain(undo.markers..) {
            self.marker_set.remove(&marker);
        }
        while self.rows.len() > undo.rows {
            let Some(row) = self.rows.pop() else { return };
            self.revs.remove(&row.node);
            self.heads.remove(&row.node);
            for parent in row.parents.into_iter().flatten() {
                let parent = &mut self.rows[parent as usize];
                parent.children -= 1;
                if parent.children == 0 {
                    self.heads.insert(parent.node);
                }
            }
        }
    }

    fn push_phase(&mut self, key: &[u8], old: &[u8], new: &[u8], undo: &mut Undo) -> bool {
        let phase_in = |text: &[u8]| match text {
            [digit @ b'0'..=b'2'] => Some(digit - b'0'),
            _ => None,
        };
        let Some(node) = node_in(key) else { return false };
        let (Some(old), Some(new)) = (phase_in(old), phase_in(new)) else { return false };
        let Some(present) = self.phase(&node) else { return false };
        if present == old && new < old {
            self.advance(new, vec![self.revs[&node]], undo);
            return true;
        }
        present == new
    }

    fn push_bookmark(&mut self, key: &[u8], old: &[u8], new: &[u8], undo: &mut Undo) -> bool {
        let node = if new.is_empty() { None } else { node_in(new) };
        if key.contains(&b'@') && !key.ends_with(b"@") || node.is_none() && !new.is_empty() {
            return false;
        }
        let present = self.bookmarks.get(key).copied();
        let value = present.map_or(String::new(), |node| hex(&node));
        if value.as_bytes() != old && present != node || node.is_some_and(|node| !self.knows(&node)) {
            return false;
        }
        self.set_bookmark(key, node, undo);
        true
    }

    pub fn report(&self) -> Vec<u8> {
        let mut report = Vec::new();
        let predecessors: HashSet<&[u8]> = self.markers.iter().map(|marker| &marker[6..26]).collect();
        for (rev, Row { node, phase, .. }) in self.rows.iter().enumerate() {
            let obsolete = u8::from(*phase != PUBLIC && predecessors.contains(&node[..]));
            let _ = writeln!(report, "C {rev} {} {phase} {obsolete}", hex(node));
        }
        for (name, node) in &self.bookmarks {
            let _ = write!(report, "B {} ", hex(node));
            for byte in name {
                let _ = match byte.is_ascii_alphanumeric() {
                    true => report.write_all(&[*byte]),
                    false => write!(report, "%{byte:02X}"),
                };
            }
            report.push(b'\n');
        }
        for marker in &self.markers {
            let _ = writeln!(report, "O {}", hex(marker));
        }
        report
    }
}

fn hex(bytes: &[u8]) -> String {
    let digits = b"0123456789abcdef";
    let mut text = String::with_capacity(2 * bytes.len());
    for byte in bytes {
        text.push(digits[usize::from(byte >> 4)] as char);
        text.push(digits[usize::from(byte & 15)] as char);
    }
    text
}

fn node_in(text: &[u8]) -> Option<Node> {
    let mut node = NULL;
    let (pairs, []) = text.as_chunks::<2>() else { return None };
    if pairs.len() != node.len() {
        return None;
    }
    for (byte, [high, low]) in node.iter_mut().zip(pairs) {
        *byte = ((*high as char).to_digit(16)? * 16 + (*low as char).to_digit(16)?) as u8;
    }
    Some(node)
}

fn node_id(parents: &[Node; 2], text: &[u8]) -> Node {
    let mut hash = Sha1::new();
    hash.update(parents.iter().min().unwrap_or(&NULL));
    hash.update(parents.iter().max().unwrap_or(&NULL));
    hash.update(text);
    hash.finish()
}

/// What a delta makes of a text.
fn patched(base: &[u8], mut delta: &[u8]) -> Option<Vec<u8>> {
    let mut text = Vec::new();
    let mut at = 0;
    while !delta.is_empty() {
        let (start, end) = (take_number(&mut delta)? as usize, take_number(&mut delta)? as usize);
        let size = take_number(&mut delta)? as usize;
        if start < at || end < start {
            return None;
        }
        text.extend_from_slice(base.get(at..start)?);
        text.extend_from_slice(take(&mut delta, size)?);
        base.get(start..end)?;
        at = end;
        if text.len() > TEXT {
            return None;
        }
    }
    text.extend_from_slice(base.get(at..)?);
    if text.len() > TEXT { None } else { Some(text) }
}

/// The next chunk of a changegroup: nothing where it is the empty one.
fn take_chunk<'p>(bytes: &mut &'p [u8]) -> Option<&'p [u8]> {
    match take_number(bytes)? {
        0 => Some(&[]),
        1..=4 => None,
        size => take(bytes, size as usize - 4),
    }
}

fn take_node(bytes: &mut &[u8]) -> Option<Node> {
    take(bytes, 20)?.try_into().ok()
}

fn skip_chunks(bytes: &mut &[u8]) -> Option<()> {
    while !take_chunk(bytes)?.is_empty() {}
    Some(())
}

/// The changesets of a changegroup. Of manifests and files the frames are read.
fn read_group<'p>(version: &[u8], mut bytes: &'p [u8]) -> Option<Vec<Entry<'p>>> {
    let mut entries: Vec<Entry> = Vec::new();
    let names_base = match version {
        b"01" => false,
        b"02" => true,
        _ => return None,
    };
    loop {
        let mut chunk = take_chunk(&mut bytes)?;
        if chunk.is_empty() {
            break;
        }
        let node = take_node(&mut chunk)?;
        let parents = [take_node(&mut chunk)?, take_node(&mut chunk)?];
        let base = match entries.last() {
            _ if names_base => take_node(&mut chunk)?,
            Some(last) => last.node,
            None => parents[0],
        };
        let _link = take_node(&mut chunk)?;
        entries.push(Entry { node, parents, base, delta: chunk });
    }
    skip_chunks(&mut bytes)?;
    while !take_chunk(&mut bytes)?.is_empty() {
        skip_chunks(&mut bytes)?;
    }
    if bytes.is_empty() { Some(entries) } else { None }
}

fn phase_entries(payload: &[u8]) -> Option<Vec<(u8, Node)>> {
    let (entries, []) = payload.as_chunks::<24>() else { return None };
    let read = |entry: &[u8; 24]| match entry {
        [0, 0, 0, phase @ 0..=2, node @ ..] => Some((*phase, *node)),
        _ => None,
    };
    entries.iter().map(read).collect()
}

fn bookmark_entries(mut bytes: &[u8]) -> Option<Vec<(Option<Node>, &[u8])>> {
    let mut entries = Vec::new();
    while !bytes.is_empty() {
        let node = Some(take_node(&mut bytes)?).filter(|node| *node != NO_NODE);
        let size = take_byte(&mut bytes)? * 256 + take_byte(&mut bytes)?;
        entries.push((node, take(&mut bytes, size)?));
    }
    Some(entries)
}

/// The markers of marker data of version 0, as their bytes.
fn read_markers(mut data: &[u8]) -> Option<Vec<&[u8]>> {
    if take_byte(&mut data)? != 0 {
        return None;
    }
    let mut markers = Vec::new();
    while !data.is_empty() {
        let mut head = data;
        let (count, size) = (take_byte(&mut head)?, take_number(&mut head)? as usize);
        let marker = take(&mut data, 26 + 20 * count + size)?;
        let (successors, meta) = marker[26..].split_at(20 * count);
        let is_pair = |piece: &[u8]| piece.is_empty() || piece.contains(&b':');
        if successors.chunks(20).any(|node| node == NULL) || !meta.split(|byte| *byte == 0).all(is_pair) {
            return None;
        }
        markers.push(marker);
    }
    Some(markers)
}

const DIGITS: &[u8] = b"0123456789ABCDEFGHIJKLMNOPQRSTUVWXYZabcdefghijklmnopqrstuvwxyz!#$%&()*+-;<=>?@^_`{|}~";

fn base85_decode(text: &[u8]) -> Option<Vec<u8>> {
    let mut bytes = Vec::new();
    for group in text.chunks(5) {
        let mut value = 0;
        for place in 0..5 {
            let digit = *group.get(place).unwrap_or(&b'~');
            value = value * 85 + DIGITS.iter().position(|other| *other == digit)? as u64;
        }
        let value = u32::try_from(value).ok()?.to_be_bytes();
        if group.len() == 1 {
            return None;
        }
        bytes.extend_from_slice(&value[..group.len() - 1]);
    }
    Some(bytes)
}
