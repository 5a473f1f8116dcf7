//! The tree of all templates.

/// Most placeholders in a template.
pub const PLACEHOLDER_LIMIT: usize = 9;

/// The node of the empty beginning.
pub const ROOT: u32 = 0;

/// A beginning that one or more templates share.
#[derive(Clone, Debug, Default)]
struct Node {
    /// The byte that leads here from the parent, if a literal does.
    byte: u8,
    /// The parent's next literal child.
    sibling: Option<u32>,
    /// The first literal child.
    literal: Option<u32>,
    /// The child for a placeholder.
    placeholder: Option<u32>,
    /// The template that ends here.
    template: Option<u32>,
}

/// The templates of a text, joined at their common beginnings.
#[derive(Clone, Debug)]
pub struct Tree {
    nodes: Vec<Node>,
    templates: usize,
}

impl Tree {
    /// A tree without templates: the root alone.
    pub fn new() -> Tree {
        Tree { nodes: vec![Node::default()], templates: 0 }
    }

    /// Document 01's count of nodes, in which a template's end is one element.
    pub fn size(&self) -> usize {
        self.beginnings() + self.templates
    }

    /// How many nodes there are without the templates' ends.
    pub fn beginnings(&self) -> usize {
        self.nodes.len()
    }

    /// Adds the next template; false if it was added before.
    pub fn add(&mut self, template: &[u8], placeholder: u8) -> bool {
        let mut node = ROOT;
        for &byte in template {
            node = if byte == placeholder {
                self.placeholder_child(node)
            } else {
                self.literal_child(node, byte)
            };
        }
        let end = &mut self.nodes[node as usize].template;
        if end.is_some() {
            return false;
        }
        *end = Some(self.templates as u32);
        self.templates += 1;
        true
    }

    fn placeholder_child(&mut self, parent: u32) -> u32 {
        if let Some(child) = self.nodes[parent as usize].placeholder {
            return child;
        }
        let child = self.nodes.len() as u32;
        self.nodes.push(Node::default());
        self.nodes[parent as usize].placeholder = Some(child);
        child
    }

    fn literal_child(&mut self, parent: u32, byte: u8) -> u32 {
        if let Some(child) = self.literal(parent, byte) {
            return child;
        }
        let child = self.nodes.len() as u32;
        let sibling = self.nodes[parent as usize].literal.replace(child);
        self.nodes.push(Node { byte, sibling, ..Node::default() });
        child
    }

    /// The child of `parent` for the literal `byte`.
    pub fn literal(&self, parent: u32, byte: u8) -> Option<u32> {
        let mut child = self.nodes[parent as usize].literal;
        while let Some(index) = child {
            let node = &self.nodes[index as usize];
            if node.byte == byte {
                return child;
            }
            child = node.sibling;
        }
        None
    }

    /// The literal children of `parent` with their bytes, in no order that matters.
    pub fn literals(&self, parent: u32) -> impl Iterator<Item = (u8, u32)> + '_ {
        let next = |child: &u32| self.nodes[*child as usize].sibling;
        let children = std::iter::successors(self.nodes[parent as usize].literal, next);
        children.map(|child| (self.nodes[child as usize].byte, child))
    }

    /// The child of `parent` for a placeholder.
    pub fn placeholder(&self, parent: u32) -> Option<u32> {
        self.nodes[parent as usize].placeholder
    }

    /// The template that ends at `node`, by its place in the text's order.
    pub fn template(&self, node: u32) -> Option<usize> {
        self.nodes[node as usize].template.map(|template| template as usize)
    }
}

impl Default for Tree {
    fn default() -> Tree {
        Tree::new()
    }
}
