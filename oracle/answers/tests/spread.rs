//! The published design rows of points that are hardly spread: the two checks after its line tests
//! never fail, while everything around them occurs.

use oracle::generate::endless;

#[test]
fn what_is_off_a_line_is_normalized() {
    let mut times = [0_usize; 32];
    for family in endless("spread").into_iter().filter(|f| f.operation == "design_rows") {
        for (_, output) in family.cases.take(100_000) {
            times[output[0] as usize] += 1;
        }
    }
    println!("by number: {times:?}");
    assert_eq!(times[26], 0);
    for number in [0, 24, 25] {
        assert!(times[number] > 1000, "{number}: {}", times[number]);
    }
}
