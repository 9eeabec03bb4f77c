//! The primitives as the sources print them, and what the sources say of their outputs.

/// Inputs are counted from 1.
#[derive(Debug)]
pub enum Claim {
    /// Whether two inputs, changed alone, agree in both orders.
    Agree(usize, usize, bool),
    /// Previous vector, current vector, old output, order, output.
    Output(&'static str, &'static str, u8, &'static [u8], u8),
}

pub struct Figure {
    pub source: &'static str,
    pub text: &'static str,
    pub claims: &'static [Claim],
}

use Claim::{Agree, Output};

pub const FIGURES: [Figure; 3] = [
    Figure {
        source: "source 000, Fig. 1",
        text: "primitive prim_ff_en(q, d, ck, en);
  output q; reg q;
  input d, ck, en;
  table
    // d  ck  en : q : q+
    0 (01) 1 : ? : 0;
    1 (01) 1 : ? : 1;
    ? (10) ? : ? : -;
    *  ?   ? : ? : -;
    ?  ?   0 : ? : -;
    ?  ?   * : ? : -;
  endtable
endprimitive
",
        claims: &[
            Output("001", "111", b'0', &[2, 1, 3], b'0'),
            Output("001", "111", b'1', &[2, 1, 3], b'0'),
            Output("001", "111", b'x', &[2, 1, 3], b'0'),
            Output("001", "111", b'0', &[1, 2, 3], b'1'),
            Output("001", "111", b'1', &[1, 2, 3], b'1'),
            Output("001", "111", b'x', &[1, 2, 3], b'1'),
            Agree(1, 2, false),
            Agree(1, 3, true),
        ],
    },
    Figure {
        source: "source 000, Fig. 3",
        text: "primitive prim_ff_en_rst(q, d, ck, en, rst);
  output q; reg q;
  input d, ck, en, rst;
  table
    // d  ck  en  rst : q : q+
    0 (01) 1 ? : ? : 0;
    1 (01) 1 0 : ? : 1;
    ? (10) ? 0 : ? : -;
    *  ?   ? 0 : ? : -;
    ?  ?   0 0 : ? : -;
    ?  ?   * 0 : ? : -;
    ?  ?   ? 1 : ? : 0;
    ?  ?   ? * : 0 : 0;
  endtable
endprimitive
",
        claims: &[
            Agree(1, 4, false),
            Agree(2, 3, false),
            Output("0000", "0110", b'1', &[2, 3, 1, 4], b'1'),
            Output("0000", "0110", b'1', &[3, 2, 1, 4], b'0'),
            Output("0001", "1000", b'1', &[1, 4, 2, 3], b'0'),
            Output("0001", "1000", b'1', &[4, 1, 2, 3], b'1'),
            Output("0000", "100x", b'0', &[1, 4, 2, 3], b'0'),
            Output("0000", "100x", b'0', &[4, 1, 2, 3], b'x'),
        ],
    },
    Figure {
        source: "source 001, Fig. 1",
        text: "primitive latch(q, d, ck, rb);
output q; reg q; input ck, d, rb;
table
  // d  ck  rb  :  q  :  q'
  *    0   ?   :  ?  :  - ;
  ?    0   1   :  ?  :  - ;
  0    1   ?   :  ?  :  0 ;
  1    1   1   :  ?  :  1 ;
  ?    ?   0   :  ?  :  0 ;
endtable
endprimitive
",
        claims: &[
            Output("011", "111", b'0', &[1], b'1'),
            Output("111", "011", b'1', &[1], b'0'),
            Output("001", "101", b'0', &[1], b'0'),
            Output("111", "110", b'1', &[3], b'0'),
            Output("111", "11x", b'1', &[3], b'x'),
            Output("011", "01x", b'0', &[3], b'0'),
        ],
    },
];
