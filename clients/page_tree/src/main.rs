//! Prints the trees of HTML pages, as html5ever builds them, with how often each name of an element occurs. The pages are parsed by four threads.
//!
//! It is a program for `string_cache` 0.8, which html5ever 0.26 asks for, and knows nothing of what stands behind that name.
//!
//! usage: page_tree PAGE..

use html5ever::interface::{Attribute, ElementFlags, NodeOrText, QuirksMode, TreeSink};
use html5ever::tendril::{StrTendril, TendrilSink};
use html5ever::{parse_document, ExpandedName, LocalName, ParseOpts, QualName};
use std::borrow::Cow;
use std::collections::HashMap;
use std::fmt::Write;
use std::{env, fs, mem, thread};

const THREADS: usize = 4;

/// What a node is.
enum Kind {
    Document,
    Element { name: QualName, attributes: Vec<Attribute>, template: Option<usize> },
    Text(String),
    Comment(StrTendril),
    Instruction { target: StrTendril, data: StrTendril },
    Doctype { name: StrTendril, public: StrTendril, system: StrTendril },
}

struct Node {
    kind: Kind,
    parent: Option<usize>,
    children: Vec<usize>,
}

/// The tree of a page: a node is its place in the list, and the document comes first.
struct Tree {
    nodes: Vec<Node>,
    faults: usize,
    quirks: QuirksMode,
}

impl Tree {
    fn new() -> Tree {
        let document = Node { kind: Kind::Document, parent: None, children: Vec::new() };
        Tree { nodes: vec![document], faults: 0, quirks: QuirksMode::NoQuirks }
    }

    fn add(&mut self, kind: Kind) -> usize {
        self.nodes.push(Node { kind, parent: None, children: Vec::new() });
        self.nodes.len() - 1
    }

    /// Puts a node or a text among the children of a parent. A text behind a text becomes part of it.
    fn insert(&mut self, parent: usize, at: usize, child: NodeOrText<usize>) {
        let child = match child {
            NodeOrText::AppendNode(node) => node,
            NodeOrText::AppendText(text) => {
                let before = at.checked_sub(1).map(|before| self.nodes[parent].children[before]);
                if let Some(Kind::Text(own)) = before.map(|before| &mut self.nodes[before].kind) {
                    own.push_str(&text);
                    return;
                }
                self.add(Kind::Text(text.to_string()))
            }
        };
        self.nodes[child].parent = Some(parent);
        self.nodes[parent].children.insert(at, child);
    }

    fn place_of(&self, parent: usize, child: usize) -> usize {
        self.nodes[parent].children.iter().position(|&other| other == child).expect("a child of its parent")
    }

    /// Writes a node and what is below it, a line for each.
    fn write(&self, node: usize, depth: usize, out: &mut String) {
        let _ = write!(out, "{:1$}", "", depth * 2);
        match &self.nodes[node].kind {
            Kind::Document => *out += "document\n",
            Kind::Element { name, attributes, template } => {
                let _ = write!(out, "<{} {}", name.ns, name.local);
                for Attribute { name, value } in attributes {
                    let _ = write!(out, " [{:?} {}] {}={value:?}", name.prefix.as_deref(), name.ns, name.local);
                }
                *out += ">\n";
                if let Some(contents) = template {
                    self.write(*contents, depth + 1, out);
                }
            }
            Kind::Text(text) => drop(writeln!(out, "{text:?}")),
            Kind::Comment(text) => drop(writeln!(out, "<!-- {text:?} -->")),
            Kind::Instruction { target, data } => drop(writeln!(out, "<? {target:?} {data:?} ?>")),
            Kind::Doctype { name, public, system } => drop(writeln!(out, "<!doctype {name:?} {public:?} {system:?}>")),
        }
        for &child in &self.nodes[node].children {
            self.write(child, depth + 1, out);
        }
    }

    /// How often each name of an element occurs, in the order of the names.
    fn counts(&self) -> Vec<(LocalName, usize)> {
        let mut counts: HashMap<LocalName, usize> = HashMap::new();
        for node in &self.nodes {
            if let Kind::Element { name, .. } = &node.kind {
                *counts.entry(name.local.clone()).or_default() += 1;
            }
        }
        let mut counts: Vec<_> = counts.into_iter().collect();
        counts.sort();
        counts
    }
}

impl TreeSink for Tree {
    type Handle = usize;
    type Output = Tree;

    fn finish(self) -> Tree {
        self
    }

    fn parse_error(&mut self, _what: Cow<'static, str>) {
        self.faults += 1;
    }

    fn get_document(&mut self) -> usize {
        0
    }

    fn elem_name<'a>(&'a self, target: &'a usize) -> ExpandedName<'a> {
        match &self.nodes[*target].kind {
            Kind::Element { name, .. } => name.expanded(),
            _ => panic!("no element"),
        }
    }

    fn create_element(&mut self, name: QualName, attributes: Vec<Attribute>, flags: ElementFlags) -> usize {
        let template = flags.template.then(|| self.add(Kind::Document));
        self.add(Kind::Element { name, attributes, template })
    }

    fn create_comment(&mut self, text: StrTendril) -> usize {
        self.add(Kind::Comment(text))
    }

    fn create_pi(&mut self, target: StrTendril, data: StrTendril) -> usize {
        self.add(Kind::Instruction { target, data })
    }

    fn append(&mut self, parent: &usize, child: NodeOrText<usize>) {
        self.insert(*parent, self.nodes[*parent].children.len(), child);
    }

    fn append_based_on_parent_node(&mut self, element: &usize, previous: &usize, child: NodeOrText<usize>) {
        match self.nodes[*element].parent {
            Some(_) => self.append_before_sibling(element, child),
            None => self.append(previous, child),
        }
    }

    fn append_doctype_to_document(&mut self, name: StrTendril, public: StrTendril, system: StrTendril) {
        let doctype = self.add(Kind::Doctype { name, public, system });
        self.append(&0, NodeOrText::AppendNode(doctype));
    }

    fn get_template_contents(&mut self, target: &usize) -> usize {
        match self.nodes[*target].kind {
            Kind::Element { template: Some(contents), .. } => contents,
            _ => panic!("no template"),
        }
    }

    fn same_node(&self, one: &usize, other: &usize) -> bool {
        one == other
    }

    fn set_quirks_mode(&mut self, mode: QuirksMode) {
        self.quirks = mode;
    }

    fn append_before_sibling(&mut self, sibling: &usize, child: NodeOrText<usize>) {
        if let NodeOrText::AppendNode(node) = &child {
            self.remove_from_parent(node);
        }
        let parent = self.nodes[*sibling].parent.expect("a sibling with a parent");
        self.insert(parent, self.place_of(parent, *sibling), child);
    }

    fn add_attrs_if_missing(&mut self, target: &usize, more: Vec<Attribute>) {
        if let Kind::Element { attributes, .. } = &mut self.nodes[*target].kind {
            for attribute in more {
                if attributes.iter().all(|own| own.name != attribute.name) {
                    attributes.push(attribute);
                }
            }
        }
    }

    fn remove_from_parent(&mut self, target: &usize) {
        if let Some(parent) = self.nodes[*target].parent.take() {
            let place = self.place_of(parent, *target);
            self.nodes[parent].children.remove(place);
        }
    }

    fn reparent_children(&mut self, node: &usize, parent: &usize) {
        let children = mem::take(&mut self.nodes[*node].children);
        children.iter().for_each(|&child| self.nodes[child].parent = Some(*parent));
        self.nodes[*parent].children.extend(children);
    }
}

/// What is printed of a page.
fn printed(path: &str) -> String {
    let bytes = fs::read(path).unwrap_or_else(|why| panic!("{path}: {why}"));
    let tree = parse_document(Tree::new(), ParseOpts::default()).from_utf8().one(&bytes[..]);
    let mut out = format!("{path}: {} faults, {:?}\n", tree.faults, tree.quirks);
    tree.write(0, 0, &mut out);
    for (name, count) in tree.counts() {
        let _ = writeln!(out, "{count} {name}");
    }
    out
}

fn main() {
    let pages: Vec<String> = env::args().skip(1).collect();
    let mut trees = vec![String::new(); pages.len()];
    let share = pages.len().div_ceil(THREADS).max(1);
    thread::scope(|scope| {
        for (pages, trees) in pages.chunks(share).zip(trees.chunks_mut(share)) {
            scope.spawn(move || pages.iter().zip(trees).for_each(|(page, tree)| *tree = printed(page)));
        }
    });
    print!("{}", trees.concat());
}
