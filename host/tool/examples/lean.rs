//! Prints the lean of a file of views in full, for stored answers: focal lengths, tilts in radians, k1, k2, p1, p2, the sum of
//! squares and the tilts' deviations; first without a lens, then with one.

use jinnychair::{ScheimpflugParams, Seed};
use tool::lean::{Lean, Lens};
use tool::solve::Host;
use tool::views::Plate;

fn main() {
    for path in std::env::args().skip(1) {
        let text = std::fs::read_to_string(&path).expect("a file of views");
        let host = Host::new(Plate::parse(&text).expect("views")).expect("maps");
        let seed = Seed { reference_k: host.base(), sensor: ScheimpflugParams::default() };
        let lean = Lean::new(&host, &seed, Lens::Open).expect("an optimum");
        for optimum in [Some(&lean.plain), lean.open.as_ref()].into_iter().flatten() {
            let numbers = optimum.fitted.shared.into_iter().chain([optimum.fitted.squares]);
            let deviations = optimum.deviations().into_iter().flatten();
            let numbers: Vec<_> = numbers.chain(deviations).map(|x| x.to_string()).collect();
            println!("{}", numbers.join(" "));
        }
    }
}
