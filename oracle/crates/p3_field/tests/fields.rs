//! The fields against document 01's facts and against plain remainders.

use p3_field::{Base, Element, Fp, PrimeCharacteristicRing, Quartic};

const P: u32 = 2013265921;

fn power(coefficient: u32, exponent: usize) -> Element {
    let mut words = [0; 4];
    words[exponent] = coefficient;
    Element::new(words)
}

#[test]
fn worked() {
    assert_eq!(power(1, 1) * power(1, 3), power(11, 0));
    assert_eq!(power(2, 3) * power(3, 3), power(66, 2));
    assert_eq!(power(P - 1, 0) * power(P - 1, 0), Element::ONE);
    assert_eq!(Base::new(P - 1) * Base::new(P - 1), Base::ONE);
    assert_eq!(Base::new(P), Base::ZERO);
}

/// Every pair of powers, with the factor where the rule X^4 = w is used.
fn powers<const P: u32, const W: u32>() {
    for i in 0..4 {
        for j in 0..4 {
            let mut words = [[0; 4]; 3];
            words[0][i] = P - 1;
            words[1][j] = P - 2;
            words[2][(i + j) % 4] = if i + j < 4 { 2 } else { 2 * W };
            let [x, y, product] = words.map(Quartic::<P, W>::new);
            assert_eq!(x * y, product);
        }
    }
}

#[test]
fn sixteen_powers_in_either_field() {
    powers::<2013265921, 11>();
    powers::<2130706433, 3>();
}

#[test]
fn words_at_their_limits() {
    let limits = [0, 1, 2, P / 2, P / 2 + 1, P - 2, P - 1];
    for a in limits {
        for b in limits {
            let (x, y, a, b, p) = (Base::new(a), Base::new(b), a as u64, b as u64, P as u64);
            assert_eq!((x + y).word() as u64, (a + b) % p);
            assert_eq!((x - y).word() as u64, (p + a - b) % p);
            assert_eq!((x * y).word() as u64, a * b % p);
            assert_eq!((-x).word() as u64, (p - a) % p);
        }
    }
}

/// Sums of the largest products stay exact: (p-1)^2 = 1 in each of the sixteen.
#[test]
fn largest_product() {
    let x = Element::new([P - 1; 4]);
    assert_eq!((x * x).words(), [1 + 33, 2 + 22, 3 + 11, 4]);
    type Other = Quartic<2130706433, 3>;
    let x = Other::new([Fp::<2130706433>::MODULUS - 1; 4]);
    assert_eq!((x * x).words(), [1 + 9, 2 + 6, 3 + 3, 4]);
}

#[test]
fn a_word_acts_as_the_element_it_stands_for() {
    let x = Element::new([5, P - 1, 7, P / 2]);
    let word = Base::new(P - 3);
    let element = Element::from(word);
    assert_eq!(x + word, x + element);
    assert_eq!(x - word, x - element);
    assert_eq!(x * word, x * element);
    assert_eq!(x.double(), x + x);
    assert_eq!(-x + x, Element::ZERO);
    assert_eq!(x * Element::NEG_ONE, -x);
}
