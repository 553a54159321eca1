//! Pages written out by hand: the columns of a line, every kind by its name, operands, depths
//! and ends, and the lines of functions, calls and choices.

use crate::helpers::*;
use second::build::*;
use second::encode;
use second::generate::limits::with_nodes;
use second::kinds::TABLE;
use second::tree::*;

/// What stands in these columns of a node's line, both included; the first column is 1.
fn columns(page: &str, node: usize, first: usize, last: usize) -> &str {
    &page[31 * node..][first - 1..last]
}

#[test]
fn no_routine_has_no_byte() {
    for registers in 0..=16 {
        assert_eq!(paged_tree(registers, absent()), "");
    }
}

#[test]
fn each_column_of_a_line() {
    let page = paged_tree(0, num(u32::MAX));
    assert_eq!(page.len(), 31);
    assert_eq!(columns(&page, 0, 1, 4), "   0");
    assert_eq!(columns(&page, 0, 5, 5), " ");
    assert_eq!(columns(&page, 0, 6, 7), " 1");
    assert_eq!(columns(&page, 0, 8, 8), " ");
    assert_eq!(columns(&page, 0, 9, 14), "Num   ");
    assert_eq!(columns(&page, 0, 15, 15), " ");
    assert_eq!(columns(&page, 0, 16, 25), "4294967295");
    assert_eq!(columns(&page, 0, 26, 26), " ");
    assert_eq!(columns(&page, 0, 27, 30), "   1");
    assert_eq!(columns(&page, 0, 31, 31), "\n");
}

/// The paper's case A: 5 × (3 + 2).
#[test]
fn one_node_a_line() {
    let expected = "   0  1 Mul             0    5
   1  2 Num             5    2
   2  2 Sum             0    5
   3  3 Num             3    4
   4  3 Num             2    5
";
    assert_eq!(paged(&[5, 0, 6, 1, 4, 1, 1, 0, 5, 0, 3, 2]), expected);
}

/// Registers have no line.
#[test]
fn the_count_of_registers_does_not_show() {
    let expected = "   0  1 Not             0    2
   1  2 Boo             1    2
";
    for registers in 0..=16 {
        assert_eq!(paged_tree(registers, not(boo(true))), expected);
    }
}

/// A tree with all kinds.
fn every_kind() -> Command {
    let body = block(bind(4, not(id(3))), repeat(id(4), assign(0, num(9))));
    let names = dseq(bind_ref(1, deref(0)), bind_abs(2, &[(3, 1)], body));
    let either = or(lt(valref(1), num(5)), boo(true));
    let at_least = binary(Operator::Ge, num(12), num(13));
    let at_most = binary(Operator::Le, num(1), num(2));
    let test = and(either, eq(at_least, at_most));
    let quotient = div(mul(sum(num(6), num(7)), id(0)), num(8));
    let choice = cond(test, call(2, vec![gt(num(3), num(4))]), assign(0, quotient));
    blk(names, cseq(choice, assign(0, sub(num(10), num(11)))))
}

#[test]
fn every_kind_by_its_name() {
    let expected = "   0  1 Blk             0   47
   1  2 DSeq            0   16
   2  3 Bind            1    5
   3  4 Ref             0    5
   4  5 DeRef           0    5
   5  3 Bind            2   16
   6  4 Abs             1   16
   7  5 Formal         67    8
   8  5 Blk             0   16
   9  6 Bind            4   12
  10  7 Not             0   12
  11  8 Id              3   12
  12  6 Loop            0   16
  13  7 Id              4   14
  14  7 Assign          0   16
  15  8 Num             9   16
  16  2 CSeq            0   47
  17  3 Cond            0   43
  18  4 And             0   31
  19  5 Or              0   24
  20  6 Lt              0   23
  21  7 ValRef          1   22
  22  7 Num             5   23
  23  6 Boo             1   24
  24  5 Eq              0   31
  25  6 Ge              0   28
  26  7 Num            12   27
  27  7 Num            13   28
  28  6 Le              0   31
  29  7 Num             1   30
  30  7 Num             2   31
  31  4 Call           66   35
  32  5 Gt              0   35
  33  6 Num             3   34
  34  6 Num             4   35
  35  4 Assign          0   43
  36  5 Div             0   43
  37  6 Mul             0   42
  38  7 Sum             0   41
  39  8 Num             6   40
  40  8 Num             7   41
  41  7 Id              0   42
  42  6 Num             8   43
  43  3 Assign          0   47
  44  4 Sub             0   47
  45  5 Num            10   46
  46  5 Num            11   47
";
    let page = paged_tree(1, every_kind());
    assert_eq!(page, expected);
    // No kind of the table has been forgotten above.
    for row in TABLE {
        let named = (0..47).filter(|node| columns(&page, *node, 9, 14).trim_end() == row.name);
        assert!(named.count() > 0, "{}", row.name);
    }
}

/// To the right of columns 16 to 25, from one digit to all ten.
#[test]
fn numbers_of_every_length() {
    let numbers = [
        (0, "         0"),
        (7, "         7"),
        (10, "        10"),
        (999, "       999"),
        (1_000, "      1000"),
        (65_536, "     65536"),
        (123_456, "    123456"),
        (7_654_321, "   7654321"),
        (10_000_000, "  10000000"),
        (987_654_321, " 987654321"),
        (1_000_000_000, "1000000000"),
        (1 << 31, "2147483648"),
        (u32::MAX - 1, "4294967294"),
        (u32::MAX, "4294967295"),
    ];
    for (number, operand) in numbers {
        let page = paged_tree(0, not(eq(num(5), num(number))));
        assert_eq!(columns(&page, 3, 16, 25), operand);
        assert_eq!(page[3 * 31..], format!("   3  3 Num    {operand}    4\n"));
    }
}

/// The image's word, not what it says: a Call's name and count, a Formal's name and code, and
/// an Abs's count are one number. Formals and the Blk stand right below their Abs, actuals
/// right below their Call.
#[test]
fn functions_and_calls() {
    let codes = [(2, 0), (3, 1), (4, 2), (5, 3), (6, 4), (7, 5), (8, 6), (63, 7)];
    let never_called = bind_abs(62, &codes, block(bind(1, boo(false)), assign(0, id(2))));
    let numbers = [10, 11, 12, 13, 14, 15, 16, 17].map(|name| (name, 0));
    let called = bind_abs(63, &numbers, block(bind(1, boo(true)), assign(0, id(17))));
    let actuals = [1, 2, 3, 4, 5, 6, 7, 8].map(num);
    let expected = "   0  1 Blk             0   41
   1  2 DSeq            0   32
   2  3 Bind           62   17
   3  4 Abs             8   17
   4  5 Formal          2    5
   5  5 Formal         67    6
   6  5 Formal        132    7
   7  5 Formal        197    8
   8  5 Formal        262    9
   9  5 Formal        327   10
  10  5 Formal        392   11
  11  5 Formal        511   12
  12  5 Blk             0   17
  13  6 Bind            1   15
  14  7 Boo             0   15
  15  6 Assign          0   17
  16  7 Id              2   17
  17  3 Bind           63   32
  18  4 Abs             8   32
  19  5 Formal         10   20
  20  5 Formal         11   21
  21  5 Formal         12   22
  22  5 Formal         13   23
  23  5 Formal         14   24
  24  5 Formal         15   25
  25  5 Formal         16   26
  26  5 Formal         17   27
  27  5 Blk             0   32
  28  6 Bind            1   30
  29  7 Boo             1   30
  30  6 Assign          0   32
  31  7 Id             17   32
  32  2 Call          575   41
  33  3 Num             1   34
  34  3 Num             2   35
  35  3 Num             3   36
  36  3 Num             4   37
  37  3 Num             5   38
  38  3 Num             6   39
  39  3 Num             7   40
  40  3 Num             8   41
";
    let page = paged_tree(1, blk(dseq(never_called, called), call(63, actuals.to_vec())));
    assert_eq!(page, expected);
}

#[test]
fn a_function_without_formals() {
    let function = bind_abs(1, &[], block(bind(2, num(0)), assign(0, id(2))));
    let expected = "   0  1 Blk             0    9
   1  2 Bind            1    8
   2  3 Abs             0    8
   3  4 Blk             0    8
   4  5 Bind            2    6
   5  6 Num             0    6
   6  5 Assign          0    8
   7  6 Id              2    8
   8  2 Call            1    9
";
    assert_eq!(paged_tree(1, blk(function, call(1, vec![]))), expected);
}

#[test]
fn names_of_two_digits() {
    let names = dseq(bind_ref(62, id(15)), bind_ref(63, deref(62)));
    let expected = "   0  1 Blk             0   12
   1  2 DSeq            0    8
   2  3 Bind           62    5
   3  4 Ref             0    5
   4  5 Id             15    5
   5  3 Bind           63    8
   6  4 Ref             0    8
   7  5 DeRef          62    8
   8  2 Assign         62   12
   9  3 Sum             0   12
  10  4 ValRef         63   11
  11  4 Id             62   12
";
    assert_eq!(paged_tree(16, blk(names, assign(62, sum(valref(63), id(62))))), expected);
}

#[test]
fn choices_and_loops() {
    let inner = cond(boo(false), assign(0, num(2)), repeat(boo(true), assign(0, num(3))));
    let expected = "   0  1 Cond            0   14
   1  2 Lt              0    4
   2  3 Id              0    3
   3  3 Num             5    4
   4  2 Assign          0    6
   5  3 Num             1    6
   6  2 Cond            0   14
   7  3 Boo             0    8
   8  3 Assign          0   10
   9  4 Num             2   10
  10  3 Loop            0   14
  11  4 Boo             1   12
  12  4 Assign          0   14
  13  5 Num             3   14
";
    let page = paged_tree(1, cond(lt(id(0), num(5)), assign(0, num(1)), inner));
    assert_eq!(page, expected);
}

/// The same nodes but for their order: what ends where tells the two trees apart.
#[test]
fn ends_follow_the_shape() {
    let first = "   0  1 Sum             0    5
   1  2 Sum             0    4
   2  3 Num             1    3
   3  3 Num             2    4
   4  2 Num             3    5
";
    assert_eq!(paged_tree(0, sum(sum(num(1), num(2)), num(3))), first);
    let second = "   0  1 Sum             0    5
   1  2 Num             1    2
   2  2 Sum             0    5
   3  3 Num             2    4
   4  3 Num             3    5
";
    assert_eq!(paged_tree(0, sum(num(1), sum(num(2), num(3)))), second);
}

/// Each below the one before, to the greatest depth; all end at n.
#[test]
fn depths_of_one_digit_and_of_two() {
    let page = paged_tree(0, (0..63).fold(boo(true), |operand, _| not(operand)));
    let lines = [
        (0, "   0  1 Not             0   64\n"),
        (8, "   8  9 Not             0   64\n"),
        (9, "   9 10 Not             0   64\n"),
        (10, "  10 11 Not             0   64\n"),
        (62, "  62 63 Not             0   64\n"),
        (63, "  63 64 Boo             1   64\n"),
    ];
    for (node, line) in lines {
        assert_eq!(columns(&page, node, 1, 31), line);
    }
    assert_eq!(page.len(), 64 * 31);
}

/// In columns 1 to 4, and as ends in 27 to 30.
#[test]
fn nodes_of_one_digit_to_four() {
    let page = paged(&encode(&with_nodes(2_000)));
    let nodes = [
        (0, "   0"),
        (9, "   9"),
        (10, "  10"),
        (99, "  99"),
        (100, " 100"),
        (999, " 999"),
        (1_000, "1000"),
        (1_999, "1999"),
    ];
    for (node, columns_1_to_4) in nodes {
        assert_eq!(columns(&page, node, 1, 4), columns_1_to_4);
    }
    assert_eq!(columns(&page, 0, 27, 30), "2000");
    assert_eq!(columns(&page, 1_999, 27, 30), "2000");
    assert_eq!(page.len(), 2_000 * 31);
}
