//! Lists and trees by formula: layers around a core, each so many times.
use crate::families::LARGEST;
use lists::kinds::spellings;
use std::fmt::{Display, Formatter, Result};

/// What opens and what closes a layer, from the inside out, and how often.
#[derive(Clone, Default, PartialEq, Eq)]
pub struct Layer {
    pub open: Vec<u8>,
    pub close: Vec<u8>,
    pub times: usize,
}

/// Layers around a core: `(` twice around `a`, closed by `)`, is `( ( a ) )`.
#[derive(Clone, Default, PartialEq, Eq)]
pub struct Shape {
    pub layers: Vec<Layer>,
    pub core: Vec<u8>,
}

/// By how much brackets open more than they close, and the most that are open at once.
pub fn brackets(kinds: &[u8]) -> (isize, usize) {
    let (mut open, mut most) = (0, 0);
    for kind in kinds {
        open += match kind {
            18 | 20 | 22 => 1,
            19 | 21 | 23 => -1,
            _ => 0,
        };
        most = most.max(open);
    }
    (open, most.max(0) as usize)
}

impl Layer {
    pub fn new(open: &[u8], times: usize) -> Layer {
        Layer { open: open.to_vec(), close: vec![], times }
    }

    /// The most times that fit, with so many tokens and brackets.
    pub fn fitting(&self, tokens: usize, depth: usize) -> usize {
        let (net, most) = brackets(&self.open);
        let by_tokens = tokens / (self.open.len() + self.close.len()).max(1);
        match net {
            _ if most > depth => 0,
            1.. => by_tokens.min(1 + (depth - most) / net as usize),
            _ => by_tokens,
        }
    }
}

impl Shape {
    pub fn of(layers: &[Layer]) -> Shape {
        Shape { layers: layers.to_vec(), core: vec![] }
    }

    /// The kinds of the list.
    pub fn kinds(&self) -> Vec<u8> {
        let open = self.layers.iter().map(|layer| layer.open.repeat(layer.times));
        let close = self.layers.iter().rev().map(|layer| layer.close.repeat(layer.times));
        open.chain([self.core.clone()]).chain(close).collect::<Vec<_>>().concat()
    }

    /// Whether there is a list, and it is neither too long nor too deep.
    pub fn is_sheet(&self) -> bool {
        let kinds = self.kinds();
        !self.layers.is_empty() && (1..=LARGEST.tokens).contains(&kinds.len()) && brackets(&kinds).1 <= LARGEST.depth
    }

    /// How long the formula is.
    pub fn size(&self) -> usize {
        self.core.len() + self.layers.iter().map(|layer| 1 + layer.open.len() + layer.close.len()).sum::<usize>()
    }

    /// Puts equal layers together, and takes layers off the most frequent ones until the list fits.
    pub fn fit(&mut self) {
        self.layers.retain(|layer| layer.times > 0 && !layer.open.is_empty());
        self.layers.dedup_by(|layer, before| {
            let same = layer.open == before.open && layer.close == before.close;
            before.times += if same { layer.times } else { 0 };
            same
        });
        while !self.layers.is_empty() && !self.is_sheet() {
            let over = self.kinds().len().saturating_sub(LARGEST.tokens);
            let longest = (0..self.layers.len()).max_by_key(|at| self.layers[*at].times).expect("a layer");
            let layer = &mut self.layers[longest];
            let off = over / (layer.open.len() + layer.close.len());
            layer.times -= off.clamp(1, layer.times);
            self.layers.retain(|layer| layer.times > 0);
        }
        if self.layers.is_empty() {
            self.layers.push(Layer::new(&[1], 1));
        }
    }
}

/// Tokens as text, so many times.
fn words(kinds: &[u8], times: usize) -> Option<String> {
    if kinds.is_empty() || times == 0 {
        return None;
    }
    let texts = spellings();
    let text = kinds.iter().map(|kind| texts[*kind as usize]).collect::<Vec<_>>().join(" ");
    Some(if times == 1 { format!("`{text}`") } else { format!("{times} x `{text}`") })
}

impl Display for Shape {
    fn fmt(&self, out: &mut Formatter) -> Result {
        let open = self.layers.iter().map(|layer| words(&layer.open, layer.times));
        let close = self.layers.iter().rev().map(|layer| words(&layer.close, layer.times));
        let parts: Vec<String> = open.chain([words(&self.core, 1)]).chain(close).flatten().collect();
        out.write_str(&parts.join(", "))
    }
}
