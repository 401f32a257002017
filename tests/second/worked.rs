//! The rows that were worked by hand, the limits named beside them, and some boards that tell common slips apart.

use crate::board::{Board, Fault, Shape, SHAPES};
use crate::entries;
use crate::job;
use crate::planner::{plan, Answer, Order};
use crate::player::{play, Played};
use crate::records::{self, Fields, Written};

/// The answer line of a job given as text without its line feed.
fn answer(line: &str) -> String {
    job::run(format!("{line}\n").as_bytes())
}

#[test]
fn rows_worked_by_hand() {
    let rows = [
        ("2 2 0 1 1 1 0 1 2 3", "plan 0 1 -"),
        ("2 2 1 2 1 1 1 0 2 3", "plan 1 2 L"),
        ("2 2 1 1 1 1 1 0 2 3", "refused 11 0 1"),
        ("2 2 0 1 1 1 1 0 2 3", "refused 10 0 1"),
        ("2 2 6 7 1 1 3 2 1 0", "plan 6 7 ULDRUL"),
        ("2 2 5 11 1 1 3 2 1 0", "refused 10 0 1"),
        ("2 2 5 10 1 1 3 2 1 0", "refused 10 0 1"),
        ("2 2 4 5 1 1 0 3 1 2", "plan 4 5 DRUL"),
        ("2 2 3 7 1 1 0 3 1 2", "refused 10 0 1"),
        ("3 2 2 8 1 1 0 2 1 3 5 4", "refused 10 0 1"),
        ("3 2 2 7 1 1 0 2 1 3 5 4", "refused 10 0 1"),
        ("2 2 6 9 1 1 0 2 1 3", "refused 9 0 0"),
        ("2 2 6 9 1 1 0 1 1 4", "refused 3 3 0"),
        ("2 2 6 9 1 1 0 1 1 3", "refused 4 2 0"),
    ];
    for (job, expected) in rows {
        assert_eq!(answer(job), expected, "{job}");
    }
}

#[test]
fn limits_of_the_numbers() {
    let rows = [
        ("2 2 -1 7 1 1 3 2 1 0", "refused 5 0 0"),
        ("2 2 121 7 1 1 3 2 1 0", "refused 5 0 0"),
        ("5 2 -1 7 1 1 3 2 1 0", "refused 1 0 0"),
        ("2 2 6 0 1 1 3 2 1 0", "refused 6 0 0"),
        ("2 2 6 1000001 1 1 3 2 1 0", "refused 6 0 0"),
        ("2 2 6 1000000 1 1 3 2 1 0", "plan 6 7 ULDRUL"),
        ("2 2 6 7 1 2 3 2 1 0", "refused 7 0 0"),
        ("2 2 6 7 1 0 3 2 1 0", "refused 7 0 0"),
        ("2 2 6 7 65 1 3 2 1 0", "refused 7 0 0"),
        ("2 2 6 7 64 1 3 2 1 0", "plan 6 7 ULDRUL"),
    ];
    for (job, expected) in rows {
        assert_eq!(answer(job), expected, "{job}");
    }
}

/// 15 comes behind 7 and before 8 and 9.
#[test]
fn weights_in_lowest_terms() {
    let rows = [
        ("2 2 6 7 1 1 3 2 1 0", "plan 6 7 ULDRUL"),
        ("2 2 6 7 2 2 3 2 1 0", "refused 15 0 0"),
        ("2 2 6 7 64 64 3 2 1 0", "refused 15 0 0"),
        ("2 2 6 7 63 61 3 2 1 0", "plan 6 7 ULDRUL"),
        ("2 2 6 7 9 6 3 2 1 0", "refused 15 0 0"),
        ("2 2 6 7 62 31 3 2 1 0", "refused 15 0 0"),
        ("2 2 6 7 49 35 3 2 1 0", "refused 15 0 0"),
        ("2 2 6 7 66 2 3 2 1 0", "refused 7 0 0"),
        ("2 2 6 7 2 4 3 2 1 0", "refused 7 0 0"),
        ("2 2 6 7 2 0 3 2 1 0", "refused 7 0 0"),
        ("2 2 6 0 2 2 3 2 1 0", "refused 6 0 0"),
        ("2 2 6 9 2 2 0 2 1 3", "refused 15 0 0"),
    ];
    for (job, expected) in rows {
        assert_eq!(answer(job), expected, "{job}");
    }
}

#[test]
fn lowest_terms_before_the_buffers() {
    let order = Order { width: 2, height: 2, board: &[3, 2, 1, 0], ceiling: 6, budget: 7, p: 4, q: 2 };
    let (mut moves, mut table) = ([9; 5], [9; 27]);
    assert_eq!(plan(&order, &mut moves, &mut table), Answer::Refused { number: 15, cell: 0, visits: 0 });
    assert_eq!((moves, table), ([9; 5], [9; 27]));
}

/// The least budget does too where the distance is above the ceiling.
#[test]
fn one_visit_is_enough_below_the_distance() {
    let rows = ["2 2 5 1 1 1 3 2 1 0", "2 2 3 1 1 1 0 3 1 2", "2 2 0 1 64 1 3 2 1 0", "3 2 2 1 3 2 0 2 1 3 5 4"];
    for job in rows {
        assert_eq!(answer(job), "refused 10 0 1", "{job}");
    }
}

// Boards that tell slips apart which the rows above let pass, each with what the slip would answer.

/// 14 visits.
#[test]
fn never_inheriting() {
    assert_eq!(answer("3 2 8 1000 1 1 0 2 4 3 1 5"), "refused 10 0 13");
}

/// 6 visits.
#[test]
fn always_inheriting() {
    assert_eq!(answer("3 2 6 1000 3 1 3 1 0 4 5 2"), "plan 4 5 DLLU");
}

/// 11 visits.
#[test]
fn handing_down_the_bound_alone() {
    assert_eq!(answer("2 3 10 1000 1 1 2 1 0 4 5 3"), "plan 5 7 RDLUU");
}

/// The ceiling is the distance: 10 after one visit, at both budgets.
#[test]
fn cut_only_above_the_ceiling() {
    assert_eq!(answer("3 2 5 7 1 1 1 0 5 3 2 4"), "plan 5 7 DRULL");
    assert_eq!(answer("3 2 5 6 1 1 1 0 5 3 2 4"), "refused 11 0 6");
}

/// 19 visits, and 325 where nothing is cut before the ceiling.
#[test]
fn cut_on_repeated_visits_too() {
    assert_eq!(answer("3 2 8 1000 2 1 5 1 0 3 4 2"), "refused 10 0 16");
}

/// 10 after one visit.
#[test]
fn cut_by_g_and_h() {
    assert_eq!(answer("3 2 6 1000 2 1 3 0 1 4 5 2"), "plan 5 6 RDLLU");
}

/// A tie goes to the successor that returned last: 14 visits, and in the next two 19 and 15.
#[test]
fn latest_return_3_by_2() {
    assert_eq!(answer("3 2 8 1000 1 1 3 1 5 2 0 4"), "plan 8 15 LURDRULL");
}

#[test]
fn latest_return_2_by_3() {
    assert_eq!(answer("2 3 9 1000 1 1 1 5 0 2 3 4"), "plan 9 20 RULDDRULU");
}

#[test]
fn latest_return_3_by_3() {
    assert_eq!(answer("3 3 8 1000 1 1 3 1 5 2 0 4 6 7 8"), "plan 8 16 LURDRULL");
}

/// Here the visits are as many, and the plan is LDRDLUURUL.
#[test]
fn latest_return_2_by_4() {
    assert_eq!(answer("2 4 10 1000 1 1 1 3 2 0 4 6 7 5"), "plan 10 21 ULDDRDLUUU");
}

#[test]
fn buffers_of_the_planner() {
    let order = Order { width: 2, height: 2, board: &[3, 2, 1, 0], ceiling: 120, budget: 7, p: 1, q: 1 };
    let short = Answer::Refused { number: 8, cell: 0, visits: 0 };
    let (mut moves, mut table) = ([9; 121], [9; 485]);
    assert_eq!(plan(&order, &mut moves, &mut table[..483]), short);
    assert_eq!(plan(&order, &mut moves[..119], &mut table), short);
    assert_eq!((moves, table), ([9; 121], [9; 485]));
    assert_eq!(plan(&order, &mut moves[..120], &mut table[..484]), Answer::Plan { length: 6, visits: 7 });
    assert_eq!(moves[..7], [0, 1, 3, 2, 0, 1, 9]);
    assert_eq!(table[..484], [0; 484]);

    let (mut moves, mut table) = ([9; 7], [9; 29]);
    let order = Order { ceiling: 6, budget: 6, ..order };
    assert_eq!(plan(&order, &mut moves, &mut table), Answer::Refused { number: 11, cell: 0, visits: 6 });
    assert_eq!(moves, [9; 7]);
    assert_eq!((&table[..28], table[28]), (&[0; 28][..], 9));
}

#[test]
fn bytes_of_the_table() {
    let order = Order { width: 2, height: 2, board: &[1, 0, 2, 3], ceiling: 1, budget: 2, p: 1, q: 1 };
    let (mut moves, mut table) = ([9; 2], [9; 19]);
    assert_eq!(entries::plan(&order, &mut moves, &mut table[..15]), 8);
    assert_eq!(entries::plan_short(&order, &mut moves, &mut table[..17]), 1 << 16 | 2 << 32);
    assert_eq!((moves, &table[..16], &table[16..]), ([1, 9], &[0; 16][..], &[9; 3][..]));
    let faulty = Order { board: &[0, 1, 1, 3], ..order };
    assert_eq!(entries::plan(&faulty, &mut moves, &mut table), 4 | 2 << 8);
}

/// Twelve moves at 3 over 2, two visits sooner than the ten of a shortest list.
#[test]
fn the_short_call() {
    let order = Order { width: 2, height: 3, board: &[5, 2, 1, 0, 3, 4], ceiling: 20, budget: 18, p: 1, q: 1 };
    let (mut moves, mut table) = ([9; 20], [9; 168]);
    assert_eq!(entries::plan_short(&order, &mut moves, &mut table), 12 << 16 | 18 << 32);
    assert_eq!(moves[..13], [0, 1, 3, 2, 0, 1, 3, 3, 2, 0, 1, 0, 9]);
    assert_eq!(entries::plan(&order, &mut moves, &mut table), 11 | 18 << 32);
    assert_eq!(entries::plan(&Order { budget: 20, ..order }, &mut moves, &mut table), 10 << 16 | 20 << 32);
}

#[test]
fn the_player() {
    let mut out = [9; 5];
    let board = [1, 0, 2, 3];
    assert_eq!(play(2, 2, &board, &[1], &mut out), Played::End { goal: true });
    assert_eq!(out, [0, 1, 2, 3, 9]);
    assert_eq!(play(2, 2, &board, &[3], &mut out), Played::End { goal: false });
    assert_eq!(out, [1, 3, 2, 0, 9]);
    for (moves, number, place) in [(&[1, 4, 0][..], 13, 1), (&[1, 3, 1, 4], 14, 2), (&[255], 13, 0)] {
        assert_eq!(play(2, 2, &board, moves, &mut out), Played::Refused { number, place });
    }
    assert_eq!(play(2, 2, &board, &[4], &mut out[..3]), Played::Refused { number: 8, place: 0 });
    assert_eq!(play(2, 2, &[1, 1, 2, 3], &[4], &mut out), Played::Refused { number: 4, place: 1 });
    assert_eq!(out, [1, 3, 2, 0, 9]);
}

#[test]
fn texts_of_jobs() {
    let good = "2 2 6 7 1 1 3 2 1 0\n";
    assert_eq!(job::run(good.as_bytes()), "plan 6 7 ULDRUL");
    let same = ["02 2 6 7 1 1 3 2 1 0\n", "2 2 000000006 7 1 1 3 2 1 0\n", "2 2 6 7 1 01 3 2 1 000\n"];
    for text in same {
        assert_eq!(job::run(text.as_bytes()), "plan 6 7 ULDRUL", "{text:?}");
    }
    assert_eq!(answer("2 2 -0 7 1 1 0 1 2 3"), "plan 0 1 -");
    assert_eq!(answer("2 2 -999999999 7 1 1 0 1 2 3"), "refused 5 0 0");
    for count in [0, 3, 5, 32] {
        assert_eq!(answer(&format!("2 2 6 7 1 1{}", " 3".repeat(count))), "refused 2 0 0", "{count}");
    }
    let malformed = [
        "",
        "\n",
        "2 2 6 7 1 1 3 2 1 0",
        "2 2 6 7 1 1 3 2 1 0\n\n",
        " 2 2 6 7 1 1 3 2 1 0\n",
        "2 2 6 7 1 1 3 2 1 0 \n",
        "2  2 6 7 1 1 3 2 1 0\n",
        "2 2 6 7 1\n",
        "2 2 0000000006 7 1 1 3 2 1 0\n",
        "2 2 6 -7 1 1 3 2 1 0\n",
        "2 2 - 7 1 1 3 2 1 0\n",
        "2 2 +6 7 1 1 3 2 1 0\n",
        "256 2 6 7 1 1 3 2 1 0\n",
        "2 2 6 7 256 1 3 2 1 0\n",
        "2 2 6 7 1 1 3 2 1 256\n",
        "2 2 6 7 1 1 3 2 1 0\r\n",
        "2\t2 6 7 1 1 3 2 1 0\n",
    ];
    for text in malformed {
        assert_eq!(job::run(text.as_bytes()), "refused 12 0 0", "{text:?}");
    }
    assert_eq!(answer(&format!("2 2 6 7 1 1{}", " 3".repeat(33))), "refused 12 0 0");
    let longest = format!("2 2 6 7 1 1{}{}\n", " 000000003".repeat(24), " 003");
    assert_eq!(longest.len(), 256);
    assert_eq!(job::run(longest.as_bytes()), "refused 2 0 0");
    assert_eq!(job::run(longest.replacen("2 ", "02 ", 1).as_bytes()), "refused 12 0 0");
}

#[test]
fn moves_distance_and_parity() {
    for shape in SHAPES {
        let goal = shape.goal();
        assert_eq!((goal.distance(shape), goal.is_odd(shape)), (0, false));
        for to in 0..4 {
            let Some(next) = goal.after(shape, to) else { continue };
            assert_eq!(next.after(shape, 3 - to), Some(goal));
            assert_eq!((next.distance(shape), next.is_odd(shape)), (1, false));
        }
    }
    let shape = Shape { width: 4, height: 4 };
    assert_eq!(shape.apart(0, 15), 6);
    let mut cells = [0; 16];
    cells[..4].copy_from_slice(&[3, 2, 1, 0]);
    assert_eq!(Board { cells, empty: 3 }.distance(Shape { width: 2, height: 2 }), 6);
    assert_eq!(crate::board::read(258, 2, &[0; 4]), Err(Fault::Shape));
}

/// The published marks of no bytes, of `a` and of `foobar`.
#[test]
fn marks() {
    let rows = [("", 0x811c_9dc5), ("a", 0xe40c_292c), ("foobar", 0xbf9c_f968)];
    for (text, mark) in rows {
        assert_eq!(records::mark(text.as_bytes()), mark, "{text}");
    }
}

const STORED: Order = Order { width: 2, height: 2, board: &[3, 2, 1, 0], ceiling: 6, budget: 7, p: 1, q: 1 };

#[test]
fn record_worked_by_hand() {
    let mut out = [9; 22];
    assert_eq!(records::write(&STORED, &[0, 1, 3, 2, 0, 1], &mut out[..20]), Written::Refused { number: 8, place: 0 });
    assert_eq!(out, [9; 22]);
    assert_eq!(records::write(&STORED, &[0, 1, 3, 2, 0, 1], &mut out), Written::Record { length: 21 });
    assert_eq!(out, [2, 2, 3, 2, 1, 0, 6, 1, 1, 7, 6, 0, 1, 3, 2, 0, 1, 0x0c, 0x53, 0xe4, 0x8b, 9]);
}

/// The visits are the only number of a record that needs more than one group.
#[test]
fn groups_of_the_visits() {
    let rows = [
        (127, &[127][..]),
        (128, &[0x81, 0]),
        (16_383, &[0xff, 127]),
        (16_384, &[0x81, 0x80, 0]),
        (1_000_000, &[0xbd, 0x84, 64]),
    ];
    for (visits, groups) in rows {
        let order = Order { board: &[0, 1, 2, 3], budget: visits, ..STORED };
        let record = records::record(&order, &[]);
        assert_eq!(record[..9], [2, 2, 0, 1, 2, 3, 6, 1, 1]);
        assert_eq!((&record[9..9 + groups.len()], record[9 + groups.len()]), (groups, 0));
        assert_eq!(record.len(), 9 + groups.len() + 1 + 4);
    }
}

#[test]
fn refusals_of_the_record_writer() {
    let plan = &[0, 1, 3, 2, 0, 1][..];
    let rows = [
        (Order { width: 5, ceiling: -1, ..STORED }, plan, 1, 0),
        (Order { height: 3, ..STORED }, plan, 2, 0),
        (Order { board: &[0, 1, 1, 4], ..STORED }, plan, 3, 3),
        (Order { board: &[0, 1, 1, 3], ..STORED }, plan, 4, 2),
        (Order { ceiling: -1, budget: 0, ..STORED }, plan, 5, 0),
        (Order { budget: 0, q: 0, ..STORED }, plan, 6, 0),
        (Order { budget: 1_000_001, ..STORED }, plan, 6, 0),
        (Order { q: 2, ceiling: 5, ..STORED }, plan, 7, 0),
        (Order { p: 9, q: 6, ceiling: 5, ..STORED }, plan, 15, 0),
        (Order { ceiling: 5, ..STORED }, &[9; 6], 21, 0),
        (STORED, &[0, 4, 0], 13, 1),
        (STORED, &[0, 0, 4], 14, 1),
        (STORED, &[0, 1], 22, 0),
        (STORED, plan, 8, 0),
    ];
    for (order, moves, number, place) in rows {
        assert_eq!(records::write(&order, moves, &mut [0; 1]), Written::Refused { number, place }, "{number}");
    }
}

/// The bytes of `STORED` with its six moves, without the mark: width, height, cells, ceiling, p, q, visits, length, moves.
const STORED_BYTES: [u8; 17] = [2, 2, 3, 2, 1, 0, 6, 1, 1, 7, 6, 0, 1, 3, 2, 0, 1];

/// Bytes with their mark behind them.
fn marked(bytes: &[u8]) -> Vec<u8> {
    [bytes, &records::mark(bytes).to_be_bytes()].concat()
}

/// `STORED_BYTES` with the bytes from a place on, so many of them, exchanged for others.
fn with(at: usize, count: usize, bytes: &[u8]) -> Vec<u8> {
    [&STORED_BYTES[..at], bytes, &STORED_BYTES[at + count..]].concat()
}

/// The mark here is the one worked by hand.
#[test]
fn record_read_back() {
    let record = [&STORED_BYTES[..], &[0x0c, 0x53, 0xe4, 0x8b]].concat();
    let fields = Fields { width: 2, height: 2, ceiling: 6, p: 1, q: 1, visits: 7, length: 6 };
    let mut out = [9; 12];
    assert_eq!(records::read(&record, &mut out[..9]), Err((8, 0)));
    assert_eq!(out, [9; 12]);
    assert_eq!(records::read(&record, &mut out[..10]), Ok(fields));
    assert_eq!(out, [3, 2, 1, 0, 0, 1, 3, 2, 0, 1, 9, 9]);
    let packed = 2 << 8 | 2 << 11 | 6 << 14 | 1 << 21 | 1 << 28 | 6 << 35 | 7 << 42;
    assert_eq!(entries::read_record(&record, &mut out), packed);
    assert_eq!(entries::read_record(&record[..20], &mut out), 17 | 20 << 8);
    let widest = Order { width: 4, height: 4, budget: 1_000_000, p: 64, q: 63, ceiling: 120, ..STORED };
    let goal: Vec<u8> = (0..16).collect();
    let record = records::record(&Order { board: &goal, ..widest }, &[2, 1].repeat(60));
    assert_eq!(record.len(), 149);
    let packed = 4 << 8 | 4 << 11 | 120 << 14 | 64 << 21 | 63 << 28 | 120 << 35 | 1_000_000 << 42;
    assert_eq!(entries::read_record(&record, &mut [0; 136]), packed);
}

/// A zero group in front, a top bit on the fifth byte, more than 32 bits; the largest number of 32 bits is read, and the next not.
#[test]
fn numbers_that_are_refused() {
    let rows = [
        (with(9, 1, &[128, 7]), 18, 9),
        (with(9, 1, &[128]), 18, 9),
        (with(0, 1, &[128, 2]), 18, 0),
        (with(2, 1, &[128, 3]), 18, 2),
        (with(9, 1, &[129, 128, 128, 128, 128, 7]), 18, 9),
        (with(9, 1, &[0x8f, 0xff, 0xff, 0xff, 0x7f]), 6, 0),
        (with(9, 1, &[0x90, 0x80, 0x80, 0x80, 0]), 18, 9),
        (with(9, 1, &[0x90, 0x80, 0x80, 0x80, 7]), 18, 9),
        (with(9, 1, &[0xff, 0xff, 0xff, 0xff, 0x7f]), 18, 9),
        (with(6, 1, &[0x88, 0x80, 0x80, 0x80, 6]), 5, 0),
        (with(3, 1, &[0x82, 2]), 3, 1),
    ];
    for (bytes, number, place) in rows {
        assert_eq!(records::read(&marked(&bytes), &mut [0; 136]), Err((number, place)), "{bytes:?}");
    }
    // the first bytes of a number that is too large: cut short, since no fifth byte is met
    assert_eq!(records::read(&with(9, 8, &[0xff, 0xff, 0xff, 0xff]), &mut []), Err((17, 13)));
    assert_eq!(records::read(&[128], &mut []), Err((18, 0)));
    assert_eq!(records::read(&[], &mut []), Err((17, 0)));
}

/// Each that holds with all that follow it, where they can: the output is too short, and the mark wrong but where said.
#[test]
fn order_of_the_reader() {
    let bad = [&with(15, 2, &[4, 4])[..], &[0; 4]].concat();
    let rows = [
        (with(0, 2, &[5, 128]), 1, 0),
        (with(0, 1, &[0x81, 0]), 1, 0),
        (with(1, 2, &[1, 128]), 1, 1),
        (with(10, 7, &[121]), 21, 10),
        (with(10, 7, &[0x81, 0]), 21, 10),
        (with(17, 0, &[0; 3]), 17, 20),
        (with(17, 0, &[0; 5]), 20, 21),
        (bad.clone(), 19, 0),
        (with(17, 0, &[0x0c, 0x53, 0xe4, 0x8a]), 19, 0),
        (with(17, 0, &[0x8c, 0x53, 0xe4, 0x8b]), 19, 0),
        (marked(&bad), 20, 21),
        (marked(&with(3, 4, &[3, 1, 5, 121])), 3, 3),
        (marked(&with(3, 4, &[3, 1, 0, 121])), 4, 1),
        (marked(&with(6, 4, &[121, 1, 2, 0])), 5, 0),
        (marked(&with(6, 4, &[5, 1, 2, 0])), 6, 0),
        (marked(&with(6, 4, &[5, 1, 2, 1])), 7, 0),
        (marked(&with(6, 4, &[5, 2, 2, 1])), 15, 0),
        (marked(&with(6, 11, &[5, 1, 1, 7, 6, 9, 9, 9, 9, 9, 9])), 21, 0),
        (marked(&with(11, 6, &[0, 4, 0, 0, 0, 0])), 13, 1),
        (marked(&with(11, 6, &[0, 0, 4, 4, 4, 4])), 14, 1),
        (marked(&with(10, 7, &[2, 0, 1])), 22, 0),
        (marked(&STORED_BYTES), 8, 0),
    ];
    for (bytes, number, place) in rows {
        let mut out = [9; 9];
        assert_eq!(records::read(&bytes, &mut out), Err((number, place)), "{bytes:?}");
        assert_eq!(out, [9; 9]);
    }
}
