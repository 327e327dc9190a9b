//! What follows by hand from document 02's first wish, and the reference and the program for AIGER must both give. The
//! clauses are given where they are not plain.

use crate::stated::Stated;

/// The sheet's six clauses as a circuit: nets 3 and 4 are both the AND of 1 and 2.
const TWO_ANDS: &str = "aag 4 2 0 1 2\n2\n4\n1\n6 2 4\n8 2 4\n";

pub const AIGER: [Stated; 75] = [
    // constants
    ("aag 0 0 0 1 0\n0\n", "contradiction,1,0,0,0,0,0", &[]),
    ("aag 0 0 0 1 0\n1\n", "settled,0,0,0,0,0,0", &[]),
    ("aag 1 1 0 1 0\n2\n0\n", "contradiction,1,1,0,0,0,0", &[]),
    ("aag 1 1 0 1 0\n2\n1\n", "settled,0,1,0,0,0,1", &["1"]),
    ("aag 1 1 0 1 0\n2\n2\n", "settled,1,1,0,0,0,0", &["T"]),
    ("aag 1 1 0 1 0\n2\n3\n", "settled,1,1,0,0,0,0", &["F"]),
    // (-2)(-2 1)
    ("aag 2 1 0 1 1\n2\n1\n4 0 2\n", "settled,1,2,0,0,0,1", &["1", "F"]),
    // (-2 1)(2 -1)
    ("aag 2 1 0 1 1\n2\n1\n4 1 2\n", "settled,1,2,0,0,0,1", &["1", "1"]),
    ("aag 2 1 0 1 1\n2\n1\n4 3 1\n", "settled,1,2,0,0,0,1", &["1", "-1"]),
    // (1) and (-1)(-1)
    ("aag 1 0 0 1 1\n1\n2 1 1\n", "settled,1,1,0,0,0,0", &["T"]),
    ("aag 1 0 0 1 1\n1\n2 0 0\n", "settled,1,1,0,0,0,0", &["F"]),
    ("aag 1 0 0 1 1\n2\n2 0 1\n", "contradiction,1,1,0,0,0,0", &[]),
    // gates
    (TWO_ANDS, "settled,1,4,2,0,0,3", &["1", "2", "3", "3"]),
    ("aag 3 2 0 1 1\n2\n4\n6\n6 2 4\n", "settled,2,3,1,0,0,0", &["T", "T", "T"]),
    ("aag 3 2 0 1 1\n2\n4\n7\n6 2 4\n", "settled,1,3,1,0,0,2", &["1", "2", "F"]),
    ("aag 3 2 0 1 1\n2\n4\n1\n6 3 5\n", "settled,0,3,1,0,0,3", &["1", "2", "3"]),
    // the lines out of order, nets 2 and 5 in none
    ("aag 6 2 0 1 2\n12\n2\n1\n8 6 2\n6 12 2\n", "settled,0,6,2,0,0,6", &["1", "2", "3", "4", "5", "6"]),
    // a literal twice, (-3 1)(-3 1)(3 -1 -1), and with its inverse, (-3 1)(-3 -1)
    ("aag 3 1 0 1 1\n2\n6\n6 2 2\n", "settled,1,3,0,0,0,1", &["T", "2", "T"]),
    ("aag 3 1 0 1 1\n2\n1\n6 2 2\n", "settled,1,3,0,0,0,2", &["1", "2", "1"]),
    ("aag 3 1 0 1 1\n2\n1\n6 2 3\n", "settled,0,3,0,0,0,3", &["1", "2", "3"]),
    ("aag 3 1 0 1 1\n2\n6\n6 2 3\n", "contradiction,2,3,0,0,0,0", &[]),
    // loops: none; (-1 2); (-1 -1)(1 1); (-1 2)(1 -2) twice
    ("aag 1 0 0 1 1\n1\n2 2 2\n", "settled,0,1,0,0,0,1", &["1"]),
    ("aag 2 1 0 1 1\n4\n1\n2 2 4\n", "settled,0,2,0,0,0,2", &["1", "2"]),
    ("aag 1 0 0 1 1\n1\n2 3 3\n", "contradiction,1,1,0,0,0,0", &[]),
    ("aag 2 0 0 1 2\n1\n2 4 4\n4 2 2\n", "settled,1,2,0,0,0,1", &["1", "1"]),
    // what follows the AND lines
    ("aag 0 0 0 1 0\n1\n0", "settled,0,0,0,0,0,0", &[]),
    ("aag 1 1 0 1 0\n2\n2\ni0 x\no0 y\nc\n\0", "settled,1,1,0,0,0,0", &["T"]),
    // 15
    ("", "15,0", &[]),
    ("aag 0 0 0 1 0", "15,0", &[]),
    ("aig 0 0 0 1 0\n0\n", "15,0", &[]),
    ("aag 0 0 0 1\n0\n", "15,0", &[]),
    ("aag 0 0 0 1 0 0\n0\n", "15,0", &[]),
    ("aag 0 0 0 1 0 \n0\n", "15,0", &[]),
    ("aag  0 0 0 1 0\n0\n", "15,0", &[]),
    ("aag 0 0 0 1 0\r\n0\n", "15,0", &[]),
    ("aag 00 0 0 1 0\n0\n", "15,0", &[]),
    ("aag 1000000000 0 0 1 0\n0\n", "15,0", &[]),
    ("aag 1 1 0 1 1\n2\n2\n2 1 1\n", "15,0", &[]),
    ("aag 1 1 1 1 0\n", "15,0", &[]),
    ("aag 999999999 999999999 999999999 1 999999999\n", "15,0", &[]),
    // 16
    ("aag 1 0 1 1 0\n2 2\n2\n", "16,8", &[]),
    ("aag 1 0 0 0 0\n", "16,10", &[]),
    ("aag 1 0 0 2 0\n0\n0\n", "16,10", &[]),
    ("aag 12 10 1 2 0\n", "16,10", &[]),
    ("aag 12 10 0 21 0\n", "16,12", &[]),
    // 17: missing, malformed
    ("aag 1 1 0 1 0\n", "17,14", &[]),
    ("aag 1 1 0 1 0\n2\n", "17,16", &[]),
    ("aag 1 1 0 1 0\n2\n2", "17,16", &[]),
    ("aag 2 1 0 1 1\n2\n2\n", "17,18", &[]),
    ("aag 2 1 0 1 1\n2\n2\n4 2 2", "17,18", &[]),
    ("aag 2 1 0 1 1\n2\n2\n4 2\n", "17,18", &[]),
    ("aag 2 1 0 1 1\n2\n2\n4 2 2 2\n", "17,18", &[]),
    ("aag 2 1 0 1 1\n2\n2\n4  2 2\n", "17,18", &[]),
    ("aag 2 1 0 1 1\n2\n2\n4 2 2\r\n", "17,18", &[]),
    ("aag 2 1 0 1 1\n2\n2\n4 02 2\n", "17,18", &[]),
    ("aag 2 1 0 1 1\n2 \n2\n4 2 2\n", "17,14", &[]),
    ("aag 999999999 999999999 0 1 0\n", "17,30", &[]),
    // 17: a literal over 2M + 1, an input that is odd, 0 or listed before
    ("aag 1 0 0 1 0\n3\n", "settled,1,1,0,0,0,0", &["F"]),
    ("aag 1 0 0 1 0\n4\n", "17,14", &[]),
    ("aag 2 1 0 1 1\n2\n2\n4 2 6\n", "17,18", &[]),
    ("aag 2 1 0 1 1\n2\n2\n6 2 2\n", "17,18", &[]),
    ("aag 2 2 0 1 0\n2\n5\n2\n", "17,16", &[]),
    ("aag 2 2 0 1 0\n2\n0\n2\n", "17,16", &[]),
    ("aag 2 2 0 1 0\n2\n2\n2\n", "17,16", &[]),
    // 18: odd, 0, an input, set before; a line that is malformed behind it comes first
    ("aag 2 1 0 1 1\n2\n2\n5 2 2\n", "18,18", &[]),
    ("aag 2 1 0 1 1\n2\n2\n0 2 2\n", "18,18", &[]),
    ("aag 2 1 0 1 1\n2\n2\n2 4 4\n", "18,18", &[]),
    ("aag 3 1 0 1 2\n2\n2\n4 2 2\n4 2 2\n", "18,24", &[]),
    ("aag 3 1 0 1 2\n2\n2\n5 2 2\n4 2\n", "17,24", &[]),
    ("aag 3 1 0 1 2\n2\n2\n2 2 2\n", "17,24", &[]),
    // 5, behind all of these
    ("aag 1025 0 0 1 0\n1\n", "5,0", &[]),
    ("aag 999999999 0 0 1 0\n999999999\n", "5,0", &[]),
    ("aag 1025 0 0 1 1\n1\n3 2 2\n", "18,19", &[]),
    ("aag 1025 0 0 1 1\n1\n2052 2 2\n", "17,19", &[]),
    ("aag 1025 0 1 1 0\n", "16,11", &[]),
];
