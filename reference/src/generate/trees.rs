//! Random texts of templates alone, whose trees are wide and deep.

use super::random::Random;
use super::style::Style;

/// The most placeholders of a template.
const MOST_PLACEHOLDERS: usize = 9;

/// A text of up to 128 templates without code lines and input. A few pass the limit
/// of nodes.
pub fn text(random: &mut Random) -> Vec<u8> {
    let style = Style::any(random);
    let most = random.pick(&[3, 20, 128]);
    let wanted = random.between(1, most);
    let kind = Kind::any(random, &style);
    let mut templates: Vec<Vec<u8>> = Vec::new();
    for _ in 0..wanted {
        let template = kind.template(random, &style, &templates);
        if !templates.contains(&template) {
            templates.push(template);
        }
    }
    joined(random, &style, &templates)
}

/// What the templates of a text are like.
struct Kind {
    /// Literals that come again and again, so that beginnings are shared by chance.
    few: Vec<u8>,
    /// How often an element is one of these, any byte, or a placeholder.
    weights: [usize; 3],
    /// In how many of a hundred cases a template has the beginning of an earlier one.
    sharing: usize,
    /// The most elements that it adds to that.
    tail: usize,
}

impl Kind {
    fn any(random: &mut Random, style: &Style) -> Kind {
        Kind {
            few: (0..random.between(1, 5)).map(|_| style.any_byte(random)).collect(),
            weights: random.pick(&[[70, 10, 20], [50, 25, 25], [4, 90, 6]]),
            sharing: random.pick(&[5, 60, 95]),
            tail: random.pick(&[2, 4, 12, 30]),
        }
    }

    fn template(&self, random: &mut Random, style: &Style, earlier: &[Vec<u8>]) -> Vec<u8> {
        let mut template = Vec::new();
        if !earlier.is_empty() && random.chance(self.sharing) {
            let whole = &earlier[random.below(earlier.len())];
            template.extend_from_slice(&whole[..random.below(whole.len() + 1)]);
        }
        for _ in 0..random.between(0, self.tail) {
            template.push(match random.weighted(&self.weights) {
                1 => style.any_byte(random),
                2 if style.placeholders(&template) < MOST_PLACEHOLDERS => style.placeholder(),
                _ => random.pick(&self.few),
            });
        }
        template
    }
}

/// The text of these templates, each with its macro's end.
fn joined(random: &mut Random, style: &Style, templates: &[Vec<u8>]) -> Vec<u8> {
    let mut text = style.flag_line(random);
    for (place, template) in templates.iter().enumerate() {
        text.extend_from_slice(template);
        style.end_source(random, &mut text);
        let ends = if place + 1 == templates.len() { 2 } else { 1 };
        text.extend(std::iter::repeat_n(style.code_end(), ends));
        text.push(b'\n');
    }
    text
}
