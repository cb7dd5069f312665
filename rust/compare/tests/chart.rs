//! The widest chart: every line of 128 concrete classes, with methods of every number.

use builder::widest_chart;
use curiumtoad::raw;

#[test]
fn every_line_of_the_widest_chart() {
    let bundle = widest_chart().bytes();
    for line in 0..=129 {
        let [mut text_1, mut text_2] = [[9; plain::LINE + 1]; 2];
        let mut values = [9; 8];
        let expected = plain::chart(&bundle, &mut [0; plain::SCRATCH], &mut text_1, 0, line);
        let number = raw::chart(&bundle, &mut [0; plain::SCRATCH], &mut text_2, 0, line, &mut values);
        assert_eq!((number, values), (expected.number, expected.values), "line {line}");
        assert_eq!(text_2, text_1, "line {line}");
    }
}
