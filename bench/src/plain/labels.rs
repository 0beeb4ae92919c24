//! The two labels in use.

/// What a guard asks of labels.
pub trait Scheme {
    fn is_label(&self, a: u64) -> bool;

    /// May something labelled `a` go to where the label is `b`?
    fn flows(&self, a: u64, b: u64) -> bool;

    /// May a container labelled `p` have something labelled `c` in it?
    fn holds(&self, p: u64, c: u64) -> bool;
}

/// The house label: secrecy and trust, each a level and a set of categories.
pub struct House;

struct Parts {
    secrecy: u16,
    secrecy_categories: u16,
    trust: u16,
    trust_categories: u16,
}

impl Parts {
    /// The parts of a label, if `a` is one.
    fn of(a: u64) -> Option<Parts> {
        let parts = Parts { secrecy: a as u16, secrecy_categories: (a >> 16) as u16, trust: (a >> 32) as u16, trust_categories: (a >> 48) as u16 };
        let in_range = parts.secrecy <= 2 && parts.secrecy_categories < 256 && parts.trust <= 2 && parts.trust_categories < 256;
        in_range.then_some(parts)
    }
}

/// Has `larger` every category of `smaller`?
fn includes(larger: u16, smaller: u16) -> bool {
    smaller & !larger == 0
}

impl Scheme for House {
    fn is_label(&self, a: u64) -> bool {
        Parts::of(a).is_some()
    }

    fn flows(&self, a: u64, b: u64) -> bool {
        let (Some(a), Some(b)) = (Parts::of(a), Parts::of(b)) else {
            return false;
        };
        a.secrecy <= b.secrecy
            && includes(b.secrecy_categories, a.secrecy_categories)
            && b.trust <= a.trust
            && includes(a.trust_categories, b.trust_categories)
    }

    fn holds(&self, p: u64, c: u64) -> bool {
        let (Some(p), Some(c)) = (Parts::of(p), Parts::of(c)) else {
            return false;
        };
        c.secrecy <= p.secrecy
            && includes(p.secrecy_categories, c.secrecy_categories)
            && c.trust <= p.trust
            && includes(p.trust_categories, c.trust_categories)
    }
}

/// The old label: an integrity level from 0 to 4, where greater is more trusted.
pub struct Old;

impl Scheme for Old {
    fn is_label(&self, a: u64) -> bool {
        a <= 4
    }

    fn flows(&self, a: u64, b: u64) -> bool {
        self.is_label(a) && b <= a
    }

    fn holds(&self, p: u64, c: u64) -> bool {
        self.is_label(p) && c <= p
    }
}
