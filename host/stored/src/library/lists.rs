//! Operations that write a list to lent memory.

use super::fields::*;
use super::{Answer, Fault, Words};
use jinnychair::{FxFyCxCy, PinholeCamera, Pt2, TiltTrig, geometry, raw};
use words::{Reader, float_words};

/// The bits that a destination holds beforehand; no operation writes them.
pub(super) const UNTOUCHED: f64 = f64::from_bits(0x1234_5678_9abc_def0);

/// What follows the written list in an answer; or the refusal's number.
type Reply = Result<Words, u8>;

/// The written list too.
type Written = Result<(Words, Words), u8>;

/// A list's inputs.
pub(super) trait Writes: Sized {
    fn read(r: &mut Reader) -> Result<Self, String>;

    /// How many numbers are written.
    fn len(&self) -> usize;

    /// The library's call, with points and destinations of any number of numbers.
    fn by_numbers(&self, to: &mut [f64]) -> Reply;

    /// The same by the crate's own function, where there are whole points alone.
    fn by_points(&self) -> Option<Written>;
}

/// inputs = 0, list, what follows it; or the refusal's number
pub(super) fn plain<T: Writes>(r: &mut Reader) -> Answer {
    let inputs = T::read(r)?;
    let reply = lent(inputs.len(), |to| inputs.by_numbers(to))?;
    if inputs.by_points().is_some_and(|by_points| by_points != reply) {
        return Err(Fault::Wrong("the crate's function gives another list".into()));
    }
    Ok(match reply {
        Ok((list, behind)) => [vec![0], list, behind].concat(),
        Err(number) => vec![number.into()],
    })
}

/// destination, inputs = 0 or the refusal's number, destination as it was left
pub(super) fn into<T: Writes>(r: &mut Reader) -> Answer {
    let mut to = r.list()?;
    let reply = T::read(r)?.by_numbers(&mut to);
    let number = reply.map_or_else(u64::from, |_| 0);
    Ok([vec![number], float_words(&to)].concat())
}

fn is_untouched(numbers: &[f64]) -> bool {
    numbers.iter().all(|x| x.to_bits() == UNTOUCHED.to_bits())
}

/// Lends a destination with room to spare, with no room to spare, and with one number too few.
fn lent(len: usize, operation: impl Fn(&mut [f64]) -> Reply) -> Result<Written, Fault> {
    let mut roomy = vec![UNTOUCHED; len + 5];
    let reply = operation(&mut roomy);
    let written = if reply.is_ok() { len } else { 0 };
    if !is_untouched(&roomy[written..]) {
        return Err(Fault::Wrong("a number beyond what is written changed".into()));
    }
    let mut exact = vec![UNTOUCHED; len];
    let again = operation(&mut exact);
    let list = float_words(&exact);
    if again != reply || list != float_words(&roomy[..len]) {
        return Err(Fault::Wrong(format!("exact room gives {again:?}, more room {reply:?}")));
    }
    if len > 0 && reply != Err(17) {
        let mut short = vec![UNTOUCHED; len - 1];
        let refused = operation(&mut short);
        if refused != Err(18) || !is_untouched(&short) {
            return Err(Fault::Wrong(format!("too little room gives {refused:?}")));
        }
    }
    Ok(reply.map(|behind| (list, behind)))
}

/// The reply of a call that gives nothing but its list.
fn reply(number: u8) -> Reply {
    if number == 0 { Ok(vec![]) } else { Err(number) }
}

/// As many points as the numbers make, written by the crate's function.
fn mapped(numbers: &[f64], map: impl Fn(&[Pt2], &mut [Pt2]) -> Reply) -> Option<Written> {
    let points = points(numbers)?;
    let mut to = points.clone();
    Some(map(&points, &mut to).map(|behind| (points_words(&to), behind)))
}

/// fx fy cx cy sin_x cos_x sin_y cos_y, points
pub(super) struct Untilt {
    k: FxFyCxCy,
    trig: TiltTrig,
    points: Vec<f64>,
}

impl Writes for Untilt {
    fn read(r: &mut Reader) -> Result<Self, String> {
        Ok(Self { k: intrinsics(r)?, trig: trig(r)?, points: r.list()? })
    }

    fn len(&self) -> usize {
        self.points.len()
    }

    fn by_numbers(&self, to: &mut [f64]) -> Reply {
        reply(raw::untilt_points(self.k, self.trig, &self.points, to))
    }

    fn by_points(&self) -> Option<Written> {
        mapped(&self.points, |from, to| {
            let mapped = geometry::untilt_points(self.k, self.trig, from, to);
            mapped.map(|()| vec![]).map_err(|e| e.number())
        })
    }
}

/// fx fy cx cy k1 k2 k3 p1 p2 iterations sin_x cos_x sin_y cos_y, points
pub(super) struct Ideal {
    camera: PinholeCamera,
    iters: u32,
    trig: TiltTrig,
    points: Vec<f64>,
}

impl Writes for Ideal {
    fn read(r: &mut Reader) -> Result<Self, String> {
        let (camera, iters) = (camera(r)?, iterations(r)?);
        Ok(Self { camera, iters, trig: trig(r)?, points: r.list()? })
    }

    fn len(&self) -> usize {
        self.points.len()
    }

    fn by_numbers(&self, to: &mut [f64]) -> Reply {
        reply(raw::ideal_points(self.camera, self.iters, self.trig, &self.points, to))
    }

    fn by_points(&self) -> Option<Written> {
        mapped(&self.points, |from, to| {
            let mapped = geometry::ideal_points(self.camera, self.iters, self.trig, from, to);
            mapped.map(|()| vec![]).map_err(|e| e.number())
        })
    }
}

/// points; behind the list entries (0, 0), (0, 2), (1, 2) of the transform
pub(super) struct Normalize {
    points: Vec<f64>,
}

impl Writes for Normalize {
    fn read(r: &mut Reader) -> Result<Self, String> {
        Ok(Self { points: r.list()? })
    }

    fn len(&self) -> usize {
        self.points.len()
    }

    fn by_numbers(&self, to: &mut [f64]) -> Reply {
        let t = raw::normalize_points_2d(&self.points, to);
        reply(t.number).map(|_| float_words(&[t.t00, t.t02, t.t12]))
    }

    fn by_points(&self) -> Option<Written> {
        mapped(&self.points, |from, to| {
            let t = geometry::normalize_points_2d(from, to).map_err(|e| e.number())?;
            Ok(float_words(&[t.scale, t.offset_x, t.offset_y]))
        })
    }
}

/// source points, destination points; 18 numbers a source point
pub(super) struct Rows {
    source: Vec<f64>,
    destination: Vec<f64>,
}

impl Writes for Rows {
    fn read(r: &mut Reader) -> Result<Self, String> {
        Ok(Self { source: r.list()?, destination: r.list()? })
    }

    fn len(&self) -> usize {
        self.source.len() / 2 * 18
    }

    fn by_numbers(&self, to: &mut [f64]) -> Reply {
        reply(raw::design_rows(&self.source, &self.destination, to))
    }

    fn by_points(&self) -> Option<Written> {
        let (source, destination) = (points(&self.source)?, points(&self.destination)?);
        let mut to = vec![UNTOUCHED; self.len()];
        let rows = geometry::design_rows(&source, &destination, &mut to);
        Some(rows.map(|()| (float_words(&to), vec![])).map_err(|e| e.number()))
    }
}

#[cfg(test)]
mod tests {
    use super::{Fault, Reply, lent};
    use words::float_words;

    type Spoil = fn(&mut [f64]);

    /// A list of two numbers by a call that keeps to the rules, except for what `spoil` does to the destination.
    fn lent_to(spoil: Spoil, keeps_room: bool) -> Result<(), Fault> {
        let call = |to: &mut [f64]| -> Reply {
            spoil(to);
            if keeps_room && to.len() < 2 {
                return Err(18);
            }
            to.iter_mut().take(2).for_each(|number| *number = 1.5);
            Ok(vec![7])
        };
        let reply = lent(2, call)?;
        assert_eq!(reply, Ok((float_words(&[1.5, 1.5]), vec![7])));
        Ok(())
    }

    #[test]
    fn lent_memory_is_looked_at() {
        assert_eq!(lent_to(|_| {}, true), Ok(()));
        let wrong: [(Spoil, bool, &str); 3] = [
            (|to| to[to.len() - 1] = 0.0, true, "a number beyond what is written changed"),
            (|to| to[0] = 0.0, true, "too little room gives Err(18)"),
            (|_| {}, false, "too little room gives Ok([7])"),
        ];
        for (spoil, keeps_room, said) in wrong {
            assert_eq!(lent_to(spoil, keeps_room), Err(Fault::Wrong(said.into())));
        }
    }

    #[test]
    fn a_refusal_writes_nothing() {
        let writes = |to: &mut [f64]| {
            to[0] = 1.5;
            Err(19)
        };
        assert!(matches!(lent(2, writes), Err(Fault::Wrong(_))));
        let by_room = |to: &mut [f64]| if to.len() > 2 { Err(19) } else { Err(15) };
        let said = "exact room gives Err(15), more room Err(19)";
        assert_eq!(lent(2, by_room), Err(Fault::Wrong(said.into())));
    }
}
