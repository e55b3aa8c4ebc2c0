//! Document 02, "Tell us how much the fits test looks at", with the cost kept with the list: what the test of one list looks at.

/// Its stored cost, one number whatever is in the list; nothing if the column is past the width.
pub fn looks(width: usize, column: usize) -> usize {
    usize::from(column <= width)
}

#[cfg(test)]
mod tests {
    use crate::answer::{Side, print, read};
    use crate::crate_side::CrateSide;
    use crate::stand_in::StandIn;

    /// The count of a source's print at a width, the same on both sides.
    fn looked(source: &str, width: usize) -> usize {
        let of = |side: &dyn Side| {
            let table = read(side, source.as_bytes(), usize::MAX).expect("it reads");
            print(side, &table, width, usize::MAX).expect("it prints").looked
        };
        let count = of(&CrateSide);
        assert_eq!(of(&StandIn), count, "the stand-in, {source} at width {width}");
        count
    }

    /// The counts by hand: one for each width from 0 on, and the last for the largest width.
    fn holds(source: &str, counts: &[usize]) {
        let widths = (0..counts.len() - 1).chain([u32::MAX as usize]);
        let got: Vec<usize> = widths.map(|width| looked(source, width)).collect();
        assert_eq!(got, counts, "{source}");
    }

    /// Cost 14. Below that width `(a b)` is tested on a line of its own.
    #[test]
    fn a_rule() {
        holds("(rule (a b) c)", &[&[2; 14][..], &[1, 1, 1]].concat());
    }

    /// It fits from width 1 on, and is tested at 0 too.
    #[test]
    fn an_empty_list() {
        holds("()", &[1, 1, 1]);
    }

    /// Column 4 is past widths 0 to 3; at 4 nothing is left for it, at 5 it fits.
    #[test]
    fn an_empty_list_past_the_width() {
        holds("x @ ()", &[0, 0, 0, 0, 1, 1, 1]);
    }

    /// From column 4 on; it fits from width 7 on.
    #[test]
    fn a_list_behind_a_binding() {
        holds("x @ (a)", &[0, 0, 0, 0, 1, 1, 1, 1, 1]);
    }

    /// Cost 11. Below that width the list behind the binding is tested at column 4, which is past widths 0 to 3.
    #[test]
    fn a_bound_list_in_a_list() {
        holds("(a x @ (b))", &[1, 1, 1, 1, 2, 2, 2, 2, 2, 2, 2, 1, 1]);
    }

    /// Cost 5. The first empty list stands at column 1, which is past width 0, the second at column 0.
    #[test]
    fn empty_lists_in_a_list() {
        holds("(() ())", &[2, 3, 3, 3, 3, 1, 1]);
    }

    /// Costs 11, 7 and 3. From width 7 on `(c)` is inside a list that fits, from 11 on both are.
    #[test]
    fn a_list_inside_one_that_fits() {
        holds("(a (b (c)))", &[&[3; 7][..], &[2; 4], &[1, 1]].concat());
    }

    #[test]
    fn two_trees() {
        holds("(a) (a)", &[2; 5]);
    }

    /// Cost 9, to which an integer adds its text's length. Below that width `(a)` is tested at column 1, which is past width 0.
    #[test]
    fn an_integer() {
        holds("((a) -0x0c)", &[1, 2, 2, 2, 2, 2, 2, 2, 2, 1, 1]);
    }

    #[test]
    fn no_list_and_no_test() {
        holds("a 7 x @ y", &[0, 0]);
        holds("", &[0, 0]);
    }

    /// 64 lists, one in the other: list j stands at column j - 1 and costs 2 more than the next; the innermost has 1,000 symbols of one letter
    /// and costs 2,001. So list j reaches from its column to 2,128 - j.
    #[test]
    fn nested_lists() {
        let source = ["(".repeat(64), "a ".repeat(1000), ")".repeat(64)].concat();
        // all but the outermost are past the width
        assert_eq!(looked(&source, 0), 1);
        // all but the innermost are not
        assert_eq!(looked(&source, 62), 63);
        // every list there is, which is the most that can be, also where the innermost just fits
        assert_eq!((looked(&source, 63), looked(&source, 2063), looked(&source, 2064)), (64, 64, 64));
        // list 28 is the first that fits, and nothing is tested in it
        assert_eq!(looked(&source, 2100), 28);
        assert_eq!((looked(&source, 2126), looked(&source, 2127)), (2, 1));
    }
}
