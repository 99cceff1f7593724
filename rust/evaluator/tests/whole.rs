//! Whole numbers beside `i128`, and the laws of those beyond it.

use std::collections::HashSet;

use evaluator::{NotWhole, Whole};
use fuzz::{seed_from_environment, Prng};

/// Where digits of base 2^32 and integers begin or end, on both sides of 0.
fn edges() -> Vec<i128> {
    let powers = [0, 1, 2, 31, 32, 33, 63, 64, 65, 95, 96, 97, 126].map(|power| 1_i128 << power);
    let near = powers
        .iter()
        .flat_map(|power| [power - 1, *power, power + 1]);
    let signed = near.flat_map(|value| [value, -value]);
    signed
        .chain([
            i128::MIN,
            i128::MIN + 1,
            i128::MAX,
            1_000_000_000,
            999_999_999,
        ])
        .collect()
}

/// A number with any number of bits.
fn any_number(random: &mut Prng) -> i128 {
    let any = (u128::from(random.number()) << 64 | u128::from(random.number())) as i128;
    any >> random.below(128)
}

/// Everything that both kinds of number do, on two numbers.
fn assert_alike(left: i128, right: i128) {
    let [a, b] = [left, right].map(Whole::from);
    let told = format!("{left} and {right}");
    let assert_is = |value: Whole, expected: Option<i128>| {
        if let Some(expected) = expected {
            assert_eq!(value, Whole::from(expected), "{told}");
            assert_eq!(value.to_string(), expected.to_string(), "{told}");
        }
    };
    assert_is(&a + &b, left.checked_add(right));
    assert_is(&a - &b, left.checked_sub(right));
    assert_is(&a * &b, left.checked_mul(right));
    assert_is(-&a, left.checked_neg());
    assert_is(a.div(&b), reference::div(left, right).ok());
    assert_is(a.modulo(&b), Some(reference::modulo(left, right)));
    assert_eq!(a.cmp(&b), left.cmp(&right), "{told}");
    assert_eq!(a == b, left == right, "{told}");
    assert_eq!(left.to_string().parse(), Ok(a), "{told}");
}

#[test]
fn numbers_are_those_of_i128() {
    let edges = edges();
    for left in &edges {
        edges.iter().for_each(|right| assert_alike(*left, *right));
    }
    let mut random = Prng::new(seed_from_environment());
    for _ in 0..200_000 {
        let (left, right) = (any_number(&mut random), any_number(&mut random));
        assert_alike(left, right);
        assert_alike(left, random.pick(&edges));
        assert_alike(random.between(-9, 9).into(), random.between(-9, 9).into());
    }
}

#[test]
fn every_small_quotient_is_euclids() {
    for (n, d) in (-20_i32..=20).flat_map(|n| (-20..=20).map(move |d| (n, d))) {
        let [whole, divisor] = [n, d].map(Whole::from);
        let (quotient, rest) = if d == 0 {
            (0, n)
        } else {
            (n.div_euclid(d), n.rem_euclid(d))
        };
        assert_eq!(whole.div(&divisor), Whole::from(quotient), "{n} div {d}");
        assert_eq!(whole.modulo(&divisor), Whole::from(rest), "{n} mod {d}");
    }
}

/// A number with up to so many digits of base 2^32, many of them extreme.
fn any_large(random: &mut Prng, digits: usize) -> Whole {
    let base = Whole::from(1_i64 << 32);
    let mut number = Whole::default();
    for _ in 0..random.below(digits + 1) {
        let any = random.number() as u32;
        let digit = random.pick(&[0, 1, u32::MAX, u32::MAX - 1, 1 << 31, any, any, any]);
        number = &(&number * &base) + &Whole::from(i64::from(digit));
    }
    if random.once_in(2) {
        number = -&number;
    }
    number
}

/// n = d × q + r with 0 ≤ r < |d|.
fn assert_divides(n: &Whole, d: &Whole) {
    let zero = Whole::default();
    let (quotient, rest) = (n.div(d), n.modulo(d));
    if *d == zero {
        assert_eq!((&quotient, &rest), (&zero, n));
        return;
    }
    let size = if *d < zero { -d } else { d.clone() };
    assert!(zero <= rest && rest < size, "{n} mod {d}");
    assert_eq!(&(d * &quotient) + &rest, *n, "{n} div {d}");
}

#[test]
fn large_numbers_obey_the_laws() {
    let mut random = Prng::new(seed_from_environment());
    for round in 0..20_000 {
        let digits = if round % 100 == 0 { 300 } else { 12 };
        let [a, b, c] = [(); 3].map(|()| any_large(&mut random, digits));
        assert_divides(&a, &b);
        assert_divides(&(&(&a * &b) + &c), &b);
        let difference_of_squares = &(&a * &a) - &(&b * &b);
        assert_eq!(&(&a + &b) * &(&a - &b), difference_of_squares);
        assert_eq!(&(&a + &b) * &c, &(&a * &c) + &(&b * &c));
        assert_eq!(&(&a + &b) - &b, a);
        assert_eq!(&a - &a, Whole::default());
        assert_eq!(&a - &b, -&(&b - &a));
        assert_eq!(a < b, &a - &b < Whole::default());
        assert_eq!((&a + &c).cmp(&(&b + &c)), a.cmp(&b));
    }
}

#[test]
fn text_is_read_as_it_is_written() {
    let mut random = Prng::new(seed_from_environment());
    for round in 0..20_000 {
        let digits = if round % 100 == 0 { 300 } else { 12 };
        let number = any_large(&mut random, digits);
        let text = number.to_string();
        assert_eq!(text.parse().as_ref(), Ok(&number));
        let unsigned = text.trim_start_matches('-');
        assert!(unsigned == "0" || !unsigned.starts_with('0'), "{text}");
    }
}

/// Times a power of ten puts zeros behind; division by it takes digits off.
#[test]
fn powers_of_ten_move_the_text() {
    let mut random = Prng::new(seed_from_environment());
    let mut power = Whole::from(1);
    for zeros in 0..400 {
        assert_eq!(power.to_string(), format!("1{}", "0".repeat(zeros)));
        let number = &any_large(&mut random, 40) + &Whole::from(1);
        let text = number.to_string();
        let moved = &number * &power;
        let zeros_behind = "0".repeat(if text == "0" { 0 } else { zeros });
        assert_eq!(moved.to_string(), text.clone() + &zeros_behind);
        assert_eq!(moved.div(&power), number);
        if let Some((front, back)) = text.split_at_checked(text.len().saturating_sub(zeros)) {
            if number > power {
                assert_eq!(number.div(&power), front.parse().unwrap());
                assert_eq!(number.modulo(&power), format!("0{back}").parse().unwrap());
            }
        }
        power = &power * &Whole::from(10);
    }
}

#[test]
fn known_large_numbers() {
    let factorial = (1..=50).fold(Whole::from(1), |product, n| &product * &Whole::from(n));
    let text = "30414093201713378043612608166064768844377641568960512000000000000";
    assert_eq!(factorial.to_string(), text);
    let power = (0..200).fold(Whole::from(1), |power, _| &power + &power);
    let text = "1606938044258990275541962092341162602522202993782792835301376";
    assert_eq!(power.to_string(), text);
    let cube = power.div(&Whole::from(-3));
    assert_eq!(
        cube.to_string(),
        "-535646014752996758513987364113720867507400997927597611767125"
    );
}

#[test]
fn text_is_decimal_digits_with_or_without_a_minus() {
    for (text, value) in [("0", 0), ("-0", 0), ("000", 0), ("-007", -7), ("12", 12)] {
        assert_eq!(text.parse(), Ok(Whole::from(value)), "{text}");
    }
    assert_eq!("-0".parse::<Whole>().unwrap().to_string(), "0");
    for text in [
        "", "-", "+1", "--1", "-+1", " 1", "1 ", "1-", "1_0", "1.0", "0x1", "1e3", "٣", "−1", "1\n",
    ] {
        assert_eq!(text.parse::<Whole>(), Err(NotWhole), "{text:?}");
    }
    assert_eq!(
        format!(
            "{:>5}|{:<5}|{:05}",
            Whole::from(-7),
            Whole::from(7),
            Whole::from(-7)
        ),
        "   -7|7    |-0007"
    );
}

#[test]
fn nought_is_one_number_however_it_comes() {
    let five = Whole::from(5);
    let noughts = [
        Whole::default(),
        Whole::from(0_i32),
        Whole::from(0_i64),
        Whole::from(0_i128),
        -&Whole::default(),
        &five - &five,
        &Whole::default() * &-&five,
        five.div(&-&Whole::from(7)),
        (-&five).modulo(&five),
    ];
    assert_eq!(HashSet::from(noughts).len(), 1);
    assert_eq!(
        [i32::MIN, i32::MAX].map(|value| Whole::from(value).to_string()),
        ["-2147483648", "2147483647"]
    );
    assert_eq!(Whole::from(i64::MIN).to_string(), i64::MIN.to_string());
}

#[test]
fn digits_are_counted_up_to_a_number_of_them() {
    let powers = [
        1,
        9,
        10,
        99,
        100,
        999_999_999,
        1_000_000_000,
        10_i128.pow(38),
    ];
    for value in edges().into_iter().chain(powers).chain([0]) {
        let digits = value.unsigned_abs().to_string().len();
        for count in 0..45 {
            let has_more = Whole::from(value).has_more_digits_than(count);
            assert_eq!(has_more, digits > count, "{value}, {count}");
        }
    }
}
