// What the lifted items lean on, without fonts and shaping: a level as the number 0 to 126 that it is, the bidi classes that `adjust_levels` tells
// apart, and the shaped text as plain tables.

pub mod unicode_bidi {
    #[derive(Copy, Clone, Debug, PartialEq, Eq, PartialOrd, Ord)]
    pub struct Level(pub u8);

    #[derive(Debug)]
    pub struct LevelError;

    impl Level {
        pub fn ltr() -> Self {
            Level(0)
        }
        pub fn rtl() -> Self {
            Level(1)
        }
        pub fn is_rtl(&self) -> bool {
            self.0 % 2 == 1
        }
        /// The smallest odd number not below it, or an error above 126.
        pub fn new_lowest_ge_rtl(&self) -> Result<Self, LevelError> {
            let odd = self.0 | 1;
            if odd > 126 { Err(LevelError) } else { Ok(Level(odd)) }
        }
        pub fn lower(&mut self, by: u8) -> Result<(), LevelError> {
            self.0 = self.0.checked_sub(by).ok_or(LevelError)?;
            Ok(())
        }
    }

    #[allow(clippy::upper_case_acronyms)]
    #[derive(Copy, Clone, Debug, PartialEq, Eq)]
    pub enum BidiClass {
        L, R, AL, EN, ES, ET, AN, CS, NSM, BN, B, S, WS, ON, LRE, LRO, RLE, RLO, PDF, LRI, RLI, FSI, PDI,
    }

    pub struct BidiInfo<'a> {
        pub text: &'a str,
        pub levels: Vec<Level>,
        pub original_classes: Vec<BidiClass>,
    }

    pub struct ParagraphInfo {
        pub level: Level,
    }

    pub struct Paragraph<'a> {
        pub info: &'a BidiInfo<'a>,
        pub para: &'a ParagraphInfo,
    }
}

#[derive(Clone, Copy, Debug)]
pub struct Metrics {
    pub font_size: f32,
}

#[derive(Clone, Debug)]
pub struct ShapeGlyph {
    pub start: usize,
    pub end: usize,
    pub x_advance: f32,
    pub metrics_opt: Option<Metrics>,
}

#[derive(Clone, Debug)]
pub struct ShapeWord {
    pub blank: bool,
    pub glyphs: Vec<ShapeGlyph>,
}

#[derive(Clone, Debug)]
pub struct ShapeSpan {
    pub level: unicode_bidi::Level,
    pub words: Vec<ShapeWord>,
}

#[derive(Clone, Debug)]
pub struct ShapeLine {
    pub rtl: bool,
    pub spans: Vec<ShapeSpan>,
    pub ellipsis_span: Option<ShapeSpan>,
}

#[derive(Debug, Clone, Copy, PartialEq)]
pub enum Ellipsize {
    None,
    Start(EllipsizeHeightLimit),
    Middle(EllipsizeHeightLimit),
    End(EllipsizeHeightLimit),
}

#[derive(Debug, Clone, Copy, PartialEq)]
pub enum EllipsizeHeightLimit {
    Lines(usize),
}
