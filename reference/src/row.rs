//! Request 6: the tree laid out as a row in which each node's children stand side
//! by side.

use crate::tree::{Tree, ROOT};

/// What leads from a node to its child.
#[derive(Clone, Copy, Debug, PartialEq, Eq, PartialOrd, Ord)]
pub enum Element {
    Literal(u8),
    End,
    Placeholder,
}

/// A node of the row.
#[derive(Clone, Copy, Debug, PartialEq, Eq)]
pub struct RowNode {
    /// The root, which is nobody's child, has none.
    pub element: Option<Element>,
    /// Where its children start; 0 for an end, which has no children.
    pub first: usize,
    /// How many children stand from there on.
    pub count: usize,
    /// At an end, the template's place in the text's order.
    pub template: Option<usize>,
}

/// A node whose children are not laid out yet.
fn childless(element: Option<Element>, template: Option<usize>) -> RowNode {
    RowNode { element, first: 0, count: 0, template }
}

/// Lays a tree out breadth first: the root, its children, their children, and so on.
/// In which order the runs of different nodes stand is not asked by the request.
pub fn row(tree: &Tree) -> Vec<RowNode> {
    let mut row = vec![childless(None, None)];
    // The tree's node for each node of the row but the ends, which the tree has none for.
    let mut nodes = vec![Some(ROOT)];
    let mut at = 0;
    while at < row.len() {
        if let Some(node) = nodes[at] {
            row[at].first = row.len();
            for (element, child) in children(tree, node) {
                let template = if element == Element::End { tree.template(node) } else { None };
                row.push(childless(Some(element), template));
                nodes.push(child);
            }
            row[at].count = row.len() - row[at].first;
        }
        at += 1;
    }
    row
}

/// A node's children in the order of the request: literals ascending by byte, then
/// the end, then the placeholder child.
fn children(tree: &Tree, node: u32) -> Vec<(Element, Option<u32>)> {
    let literals = tree.literals(node).map(|(byte, child)| (Element::Literal(byte), Some(child)));
    let mut children: Vec<(Element, Option<u32>)> = literals.collect();
    children.sort_unstable();
    children.extend(tree.template(node).map(|_| (Element::End, None)));
    children.extend(tree.placeholder(node).map(|child| (Element::Placeholder, Some(child))));
    children
}

#[cfg(test)]
mod tests {
    use super::*;
    use std::collections::BTreeSet;

    use Element::{End, Literal, Placeholder};

    /// The row of templates in which `!` is the placeholder.
    fn row_of(templates: &[&[u8]]) -> Vec<RowNode> {
        let mut tree = Tree::new();
        for template in templates {
            assert!(tree.add(template, b'!'), "{} twice", template.escape_ascii());
        }
        let row = row(&tree);
        assert_eq!(row.len(), tree.size());
        row
    }

    fn root(first: usize, count: usize) -> RowNode {
        RowNode { element: None, first, count, template: None }
    }

    fn node(element: Element, first: usize, count: usize) -> RowNode {
        RowNode { element: Some(element), first, count, template: None }
    }

    fn end(template: usize) -> RowNode {
        RowNode { element: Some(End), first: 0, count: 0, template: Some(template) }
    }

    #[test]
    fn the_templates_of_document_01() {
        let expected = [
            root(1, 2),
            node(Literal(b'A'), 3, 1),
            node(Placeholder, 4, 2),
            // Below A.
            node(Literal(b'B'), 6, 1),
            // Below !.
            node(Literal(b'='), 7, 1),
            node(Literal(b'B'), 8, 1),
            // Below AB, != and !B.
            node(Placeholder, 9, 1),
            node(Placeholder, 10, 1),
            end(1),
            // Below AB! and !=!.
            end(0),
            end(2),
        ];
        assert_eq!(row_of(&[b"AB!", b"!B", b"!=!"]), expected);
    }

    #[test]
    fn the_order_of_the_templates_moves_nothing_but_their_places() {
        let [first, other] = [row_of(&[b"AB!", b"!B", b"!=!"]), row_of(&[b"!=!", b"AB!", b"!B"])];
        let moved = [1, 2, 0];
        let renamed = |node: &RowNode| RowNode { template: node.template.map(|place| moved[place]), ..*node };
        assert_eq!(first.iter().map(renamed).collect::<Vec<RowNode>>(), other);
    }

    #[test]
    fn an_empty_template_ends_at_the_root() {
        assert_eq!(row_of(&[b""]), [root(1, 1), end(0)]);
        let expected = [
            root(1, 3),
            node(Literal(b'A'), 4, 1),
            end(1),
            node(Placeholder, 5, 1),
            // Below A and !.
            end(0),
            end(2),
        ];
        assert_eq!(row_of(&[b"A", b"", b"!"]), expected);
    }

    #[test]
    fn bytes_over_127_stand_above_the_others() {
        let expected = [
            root(1, 5),
            node(Literal(1), 6, 1),
            node(Literal(127), 7, 1),
            node(Literal(128), 8, 1),
            node(Literal(200), 9, 1),
            node(Literal(255), 10, 1),
            end(3),
            end(1),
            end(4),
            end(0),
            end(2),
        ];
        assert_eq!(row_of(&[&[200], &[127], &[255], &[1], &[128]]), expected);
    }

    #[test]
    fn literals_then_the_end_then_the_placeholder() {
        let expected = [
            root(1, 1),
            node(Literal(b'A'), 2, 4),
            // Below A; the placeholder's byte is less than both literals.
            node(Literal(b'B'), 6, 1),
            node(Literal(195), 7, 1),
            end(2),
            node(Placeholder, 8, 3),
            // Below AB and the byte 195.
            end(3),
            end(1),
            // Below A!, which has all three, too.
            node(Literal(b'C'), 11, 1),
            end(0),
            node(Placeholder, 12, 1),
            // Below A!C and A!!.
            end(5),
            end(4),
        ];
        assert_eq!(row_of(&[b"A!", b"A\xc3", b"A", b"AB", b"A!!", b"A!C"]), expected);
    }

    #[test]
    fn a_tree_without_templates_is_its_root() {
        assert_eq!(row(&Tree::new()), [root(1, 0)]);
    }

    /// The templates' beginnings, each a row of elements, are those of the nodes, and
    /// every node but the root is the child of just one.
    #[test]
    fn the_nodes_are_the_beginnings() {
        let templates: [&[u8]; 8] = [b"", b"!", b"!!a", b"ab!", b"a", b"\xffb!", b"ab", b"!b"];
        let elements = |template: &[u8]| -> Vec<Element> {
            let element = |&byte: &u8| if byte == b'!' { Placeholder } else { Literal(byte) };
            template.iter().map(element).chain([End]).collect()
        };
        let wholes = templates.map(elements);
        let expected: BTreeSet<Vec<Element>> = wholes
            .iter()
            .flat_map(|whole| (0..=whole.len()).map(|length| whole[..length].to_vec()))
            .collect();

        let row = row_of(&templates);
        let mut beginnings = vec![None; row.len()];
        beginnings[0] = Some(Vec::new());
        for (at, node) in row.iter().enumerate() {
            for child in node.first..node.first + node.count {
                let mut beginning = beginnings[at].clone().expect("a parent stands before its children");
                beginning.extend(row[child].element);
                assert_eq!(beginnings[child].replace(beginning), None, "{child} has two parents");
            }
            let template = node.template.map(|place| wholes[place].clone());
            assert!(template.is_none() || template == beginnings[at], "{at}");
        }
        assert_eq!(beginnings.into_iter().map(Option::unwrap).collect::<BTreeSet<Vec<Element>>>(), expected);
    }
}
