//! i_float `int` (numbers, points, vectors) and i_shape `int` (contours, area).

pub(crate) mod number {
    pub(crate) mod int {
        use super::product_uint::NotRun;
        use super::uint::UIntNumber;
        use super::wide_int::WideIntNumber;
        use crate::{Expiration, LayoutNumber, sort::key::SortKey};
        use std::fmt::Debug;

        /// A coordinate, with the twice as wide number that products of two differences need.
        pub trait IntNumber: Copy + Ord + Debug + Default + Send + Sync {
            type Wide: WideIntNumber<UInt = Self::WideUInt> + From<Self>;
            type WideUInt: UIntNumber;
            const BITS: usize;
            const ZERO: Self;

            fn to_wide(self) -> Self::Wide {
                Self::Wide::from(self)
            }

            /// Of a number that this one holds.
            fn from_wide(wide: Self::Wide) -> Self;
        }

        macro_rules! int_number {
            ($($int:ty, $wide:ty, $unsigned:ty, $product:ty;)*) => {$(
                impl IntNumber for $int {
                    type Wide = $wide;
                    type WideUInt = $unsigned;
                    const BITS: usize = <$int>::BITS as usize;
                    const ZERO: Self = 0;

                    fn from_wide(wide: $wide) -> Self {
                        wide.try_into().expect("a crossing lies between its segments' ends")
                    }
                }
                impl WideIntNumber for $wide {
                    type UInt = $unsigned;
                    const ZERO: Self = 0;
                    const ONE: Self = 1;
                    const FOUR: Self = 4;

                    fn unsigned_abs(self) -> $unsigned {
                        self.unsigned_abs()
                    }

                    fn signum(self) -> Self {
                        self.signum()
                    }

                    fn from_uint(unsigned: $unsigned) -> Self {
                        unsigned.try_into().expect("a crossing lies between its segments' ends")
                    }
                }
                impl UIntNumber for $unsigned {
                    type Product = $product;
                    const ZERO: Self = 0;

                    fn power_of_two(exponent: usize) -> Self {
                        1 << exponent
                    }
                }
                impl Expiration for $int {
                    const NEVER: Self = <$int>::MAX;
                }
                impl LayoutNumber for $int {}
                impl SortKey for $int {}
            )*};
        }
        int_number! {
            i16, i32, u32, u64;
            i32, i64, u64, u128;
            i64, i128, u128, NotRun;
        }
    }

    pub(crate) mod wide_int {
        use std::fmt::Debug;
        use std::ops::{Add, BitAnd, Div, Mul, Neg, Sub};

        pub trait WideIntNumber:
            Copy
            + Ord
            + Debug
            + Send
            + Sync
            + Add<Output = Self>
            + Sub<Output = Self>
            + Mul<Output = Self>
            + Div<Output = Self>
            + Neg<Output = Self>
            + BitAnd<Output = Self>
        {
            type UInt;
            const ZERO: Self;
            const ONE: Self;
            const FOUR: Self;

            fn unsigned_abs(self) -> Self::UInt;
            fn signum(self) -> Self;
            /// Of a number that this one holds.
            fn from_uint(unsigned: Self::UInt) -> Self;
        }
    }

    pub(crate) mod uint {
        use super::product_uint::UIntProduct;
        use std::fmt::Debug;
        use std::ops::{Add, Mul, Shr};

        pub trait UIntNumber:
            Copy + Ord + Debug + Send + Sync + Add<Output = Self> + Mul<Output = Self> + Shr<usize, Output = Self>
        {
            type Product: UIntProduct<Self>;
            const ZERO: Self;

            fn power_of_two(exponent: usize) -> Self;
        }
    }

    pub(crate) mod product_uint {
        /// The exact product of two numbers, to be divided by a third.
        pub trait UIntProduct<U> {
            fn multiply(p: U, q: U) -> Self;
            /// To the nearest, a half upward.
            fn divide_with_rounding(self, divisor: U) -> U;
        }

        macro_rules! product {
            ($($unsigned:ty, $product:ty;)*) => {$(
                impl UIntProduct<$unsigned> for $product {
                    fn multiply(p: $unsigned, q: $unsigned) -> Self {
                        <$product>::from(p) * <$product>::from(q)
                    }

                    fn divide_with_rounding(self, divisor: $unsigned) -> $unsigned {
                        let divisor = <$product>::from(divisor);
                        let is_up = self % divisor >= divisor.div_ceil(2);
                        (self / divisor + <$product>::from(is_up)).try_into().expect("a crossing lies between its segments' ends")
                    }
                }
            )*};
        }
        product! {
            u32, u64;
            u64, u128;
        }

        /// The crate's products of 128-bit numbers: coordinates of 64 bits are not run.
        pub struct NotRun;

        impl UIntProduct<u128> for NotRun {
            fn multiply(_: u128, _: u128) -> Self {
                unreachable!("coordinates of 64 bits are not run");
            }

            fn divide_with_rounding(self, _: u128) -> u128 {
                unreachable!("coordinates of 64 bits are not run");
            }
        }
    }
}

pub(crate) mod point {
    use super::number::{int::IntNumber, wide_int::WideIntNumber};
    use super::vector::IntVector;
    use std::ops::Sub;

    /// A point, ordered by x and then by y.
    #[derive(Debug, Clone, Copy, PartialEq, Eq, PartialOrd, Ord)]
    pub struct IntPoint<I> {
        pub x: I,
        pub y: I,
    }

    impl<I> IntPoint<I> {
        pub fn new(x: I, y: I) -> Self {
            Self { x, y }
        }
    }

    impl<I: IntNumber> IntPoint<I> {
        pub const ZERO: Self = Self { x: I::ZERO, y: I::ZERO };

        /// The squared distance.
        pub fn sqr_distance(self, other: Self) -> I::WideUInt {
            let IntVector { x, y } = self - other;
            let (x, y) = (x.unsigned_abs(), y.unsigned_abs());
            x * x + y * y
        }
    }

    impl<I: IntNumber> Sub for IntPoint<I> {
        type Output = IntVector<I>;

        #[inline(always)]
        fn sub(self, other: Self) -> IntVector<I> {
            let difference = |p: I, q: I| I::Wide::from(p) - I::Wide::from(q);
            IntVector { x: difference(self.x, other.x), y: difference(self.y, other.y) }
        }
    }
}

pub(crate) mod vector {
    use super::number::int::IntNumber;

    #[derive(Debug, Clone, Copy)]
    pub struct IntVector<I: IntNumber> {
        pub x: I::Wide,
        pub y: I::Wide,
    }

    impl<I: IntNumber> IntVector<I> {
        /// Positive when `other` is counterclockwise of this vector.
        #[inline(always)]
        pub fn cross_product(self, other: Self) -> I::Wide {
            self.x * other.y - self.y * other.x
        }

        pub fn dot_product(self, other: Self) -> I::Wide {
            self.x * other.x + self.y * other.y
        }
    }
}

pub(crate) mod path {
    pub type IntPath<I> = Vec<super::point::IntPoint<I>>;
}

pub(crate) mod shape {
    pub type IntContour<I> = Vec<super::point::IntPoint<I>>;
    pub type IntShape<I> = Vec<IntContour<I>>;
    pub type IntShapes<I> = Vec<IntShape<I>>;
}

pub(crate) mod area {
    use super::number::{int::IntNumber, wide_int::WideIntNumber};
    use super::point::IntPoint;

    /// The doubled area of a closed contour. The text uses its absolute value alone.
    pub trait UnsafeArea<I: IntNumber> {
        fn unsafe_area(self) -> I::Wide;
    }

    impl<I: IntNumber, It: Iterator<Item = IntPoint<I>>> UnsafeArea<I> for It {
        #[inline]
        fn unsafe_area(mut self) -> I::Wide {
            let cross = |p: IntPoint<I>, q: IntPoint<I>| {
                I::Wide::from(p.x) * I::Wide::from(q.y) - I::Wide::from(p.y) * I::Wide::from(q.x)
            };
            let Some(first) = self.next() else {
                return I::Wide::ZERO;
            };
            let (sum, last) = self.fold((I::Wide::ZERO, first), |(sum, p), q| (sum + cross(p, q), q));
            sum + cross(last, first)
        }
    }
}

pub(crate) mod simple {
    /// Removal of collinear points: never asked for, since they are kept.
    pub trait Simplify {
        fn simplify_contour(&mut self);
    }

    impl<T> Simplify for Vec<T> {
        fn simplify_contour(&mut self) {
            unreachable!("collinear points are kept");
        }
    }
}

pub(crate) mod count {
    use super::shape::IntShapes;

    pub trait PointsCount {
        fn points_count(&self) -> usize;
    }

    impl<I> PointsCount for IntShapes<I> {
        fn points_count(&self) -> usize {
            self.iter().flatten().map(Vec::len).sum()
        }
    }
}
