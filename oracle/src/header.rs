// The entries of include/jeturipe.h, each with its parameters, and what of a call's slices each of them is.

// In the header's order. A slice is a pointer and a count there; `&mut` of a number is a pointer, by which one answer is given.
// A bus number is a u32.
#[macro_export]
macro_rules! header {
    ($give:ident) => {
        $give! {
            NumbersOfBytes numbers_of_bytes(&[u8], &mut [f64]) -> u32;
            BytesOfNumbers bytes_of_numbers(&[f64], &mut [u8]) -> u32;
            WordsOfBytes words_of_bytes(&[u8], &mut [usize]) -> u32;
            BytesOfWords bytes_of_words(&[usize], &mut [u8]) -> u32;
            BusNumbersOfBytes bus_numbers_of_bytes(&[u8], &mut [u32]) -> u32;
            BytesOfBusNumbers bytes_of_bus_numbers(&[u32], &mut [u8]) -> u32;
            Cadd cadd(f64, f64, f64, f64, &mut f64, &mut f64) -> u32;
            Csub csub(f64, f64, f64, f64, &mut f64, &mut f64) -> u32;
            Cmul cmul(f64, f64, f64, f64, &mut f64, &mut f64) -> u32;
            Cdiv cdiv(f64, f64, f64, f64, &mut f64, &mut f64) -> u32;
            Cneg cneg(f64, f64, &mut f64, &mut f64) -> u32;
            ComplexInv complex_inv(f64, f64, &mut f64, &mut f64) -> u32;
            Abs abs(f64, &mut f64) -> u32;
            Sqrt sqrt(f64, &mut f64) -> u32;
            Magnitude magnitude(f64, f64, &mut f64) -> u32;
            SolveLinear solve_linear(usize, &[f64], &[f64], usize, &mut [f64], &mut [f64], &mut usize) -> u32;
            ComplexMatrixInverse complex_matrix_inverse(usize, &[f64], &mut [f64], &mut [f64]) -> u32;
            KronNew kron_new(usize, &[f64], &[u32], &mut [u8]) -> u32;
            EliminateBus eliminate_bus(&mut [u8], &mut [f64], u32) -> u32;
            EliminateBuses eliminate_buses(&mut [u8], &mut [f64], &[u32], &mut usize) -> u32;
            ActiveBuses active_buses(&[u8], &mut [u32], &mut usize) -> u32;
            ReducedMatrix reduced_matrix(&[u8], &[f64], &mut [f64]) -> u32;
            TheveninImpedance thevenin_impedance(
                &[u8], &[f64], u32, u32, &mut [f64], &mut f64, &mut f64
            ) -> u32;
            WardCompute ward_compute(
                usize, &[f64], &[u32], &[u32], &[u32], &[u32], f64, &[f64], &[f64], usize,
                &mut [f64], &mut [f64], &mut [f64], &mut [f64], &mut usize, &mut usize, &mut f64, &mut usize
            ) -> u32;
            WardComputeExtended ward_compute_extended(
                usize, &[f64], &[u32], &[u32], &[u32], &[u32], f64, &[f64], &[f64], &[f64], usize,
                &mut [f64], &mut [f64], &mut [f64], &mut [f64], &mut [f64], &mut [f64],
                &mut usize, &mut usize, &mut f64, &mut usize
            ) -> u32;
            ReiCompute rei_compute(
                &[usize], &[usize], &[f64], &[f64], &[f64], usize,
                &mut [usize], &mut [f64], &mut [usize], &mut [f64],
                &mut usize, &mut f64, &mut f64, &mut f64, &mut usize
            ) -> u32;
            RetainedBuses retained_buses(usize, &[usize], &mut [usize], &mut usize) -> u32;
            BuildBBus build_b_bus(usize, &[usize], &[usize], &[f64], &mut [f64]) -> u32;
            LodfMatrix lodf_matrix(usize, &[f64], &[usize], &[usize], &mut [f64]) -> u32;
        }
    };
}

#[derive(Clone, Copy, Debug, PartialEq)]
pub enum Of {
    Numbers,
    Words,
    BusNumbers,
    Bytes,
}

impl Of {
    // the bytes of an element
    pub fn width(self) -> usize {
        match self {
            Of::Numbers | Of::Words => 8,
            Of::BusNumbers => 4,
            Of::Bytes => 1,
        }
    }
}

trait Element {
    const OF: Of;
}

impl Element for f64 {
    const OF: Of = Of::Numbers;
}

impl Element for usize {
    const OF: Of = Of::Words;
}

impl Element for u32 {
    const OF: Of = Of::BusNumbers;
}

impl Element for u8 {
    const OF: Of = Of::Bytes;
}

// What a slice of a call is at the entry.
#[derive(Clone, Copy, Debug)]
pub struct Slice {
    pub of: Of,
    pub written: bool,
    // one answer, by pointer
    pub single: bool,
}

// How many real numbers an entry takes, and its slices.
pub struct Shape {
    pub reals: usize,
    pub slices: &'static [Slice],
}

// Takes the parameters off one by one: [a term for each real number] [the slices].
macro_rules! shape {
    ([$($real:tt)*] [$($slice:expr,)*]) => {
        const { &Shape { reals: 0 $($real)*, slices: &[$($slice),*] } }
    };
    ([$($real:tt)*] [$($slice:tt)*] usize, $($rest:tt)*) => { shape!([$($real)*] [$($slice)*] $($rest)*) };
    ([$($real:tt)*] [$($slice:tt)*] u32, $($rest:tt)*) => { shape!([$($real)*] [$($slice)*] $($rest)*) };
    ([$($real:tt)*] [$($slice:tt)*] f64, $($rest:tt)*) => { shape!([$($real)* + 1] [$($slice)*] $($rest)*) };
    ([$($real:tt)*] [$($slice:tt)*] &[$of:ident], $($rest:tt)*) => {
        shape!([$($real)*] [$($slice)* Slice { of: $of::OF, written: false, single: false },] $($rest)*)
    };
    ([$($real:tt)*] [$($slice:tt)*] &mut [$of:ident], $($rest:tt)*) => {
        shape!([$($real)*] [$($slice)* Slice { of: $of::OF, written: true, single: false },] $($rest)*)
    };
    ([$($real:tt)*] [$($slice:tt)*] &mut $of:ident, $($rest:tt)*) => {
        shape!([$($real)*] [$($slice)* Slice { of: $of::OF, written: true, single: true },] $($rest)*)
    };
}

macro_rules! functions {
    ($($function:ident $name:ident($($parameters:tt)*) -> u32;)*) => {
        #[derive(Clone, Copy, Debug, PartialEq, Eq, PartialOrd, Ord)]
        pub enum Function {
            $($function,)*
        }

        impl Function {
            pub const ALL: &'static [Function] = &[$(Function::$function),*];

            pub fn shape(self) -> &'static Shape {
                match self {
                    $(Function::$function => shape!([] [] $($parameters)*,),)*
                }
            }
        }
    };
}

header!(functions);

impl Function {
    pub fn slices(self) -> &'static [Slice] {
        self.shape().slices
    }

    // numbers in, and a number or two out
    pub fn is_scalar(self) -> bool {
        self.slices().iter().all(|slice| slice.single)
    }

    pub fn scalars() -> impl Iterator<Item = Function> {
        Self::ALL.iter().copied().filter(|function| function.is_scalar())
    }
}
