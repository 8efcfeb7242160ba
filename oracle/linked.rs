// The port as linked in: the entries of include/jeturipe.h, declared and called by the table of them.
use oracle::header;
use oracle::header::Function;
use oracle::port::Part;
use std::slice::Iter;

// What a call has still to hand over.
struct Given<'a> {
    wholes: Iter<'a, u64>,
    reals: Iter<'a, f64>,
    slices: &'a [Part],
}

impl Given<'_> {
    fn whole(&mut self) -> usize {
        *self.wholes.next().expect("a whole number") as usize
    }

    fn bus(&mut self) -> u32 {
        u32::try_from(*self.wholes.next().expect("a bus number")).expect("below 2^32")
    }

    fn real(&mut self) -> f64 {
        *self.reals.next().expect("a real number")
    }

    // where the next slice stands
    fn at<T>(&self) -> *mut T {
        self.slices[0].at.cast()
    }

    // how many elements it has; the one behind it is next
    fn count(&mut self) -> usize {
        let count = self.slices[0].count;
        self.slices = &self.slices[1..];
        count
    }

    fn single<T>(&mut self) -> *mut T {
        let at = self.at();
        self.count();
        at
    }
}

// Takes the parameters off one by one: [their types in C] [the values handed over], then declares the entry and calls it.
macro_rules! entry {
    ($name:ident $given:ident [$($type:ty,)*] [$($value:expr,)*] ()) => {{
        extern "C" {
            #[link_name = concat!("jeturipe_", stringify!($name))]
            fn entry($(_: $type),*) -> u32;
        }
        unsafe { entry($($value),*) }
    }};
    ($name:ident $given:ident [$($type:tt)*] [$($value:tt)*] (usize, $($rest:tt)*)) => {
        entry!($name $given [$($type)* usize,] [$($value)* $given.whole(),] ($($rest)*))
    };
    ($name:ident $given:ident [$($type:tt)*] [$($value:tt)*] (u32, $($rest:tt)*)) => {
        entry!($name $given [$($type)* u32,] [$($value)* $given.bus(),] ($($rest)*))
    };
    ($name:ident $given:ident [$($type:tt)*] [$($value:tt)*] (f64, $($rest:tt)*)) => {
        entry!($name $given [$($type)* f64,] [$($value)* $given.real(),] ($($rest)*))
    };
    ($name:ident $given:ident [$($type:tt)*] [$($value:tt)*] (&[$of:ident], $($rest:tt)*)) => {
        entry!($name $given [$($type)* *const $of, usize,] [$($value)* $given.at(), $given.count(),]
            ($($rest)*))
    };
    ($name:ident $given:ident [$($type:tt)*] [$($value:tt)*] (&mut [$of:ident], $($rest:tt)*)) => {
        entry!($name $given [$($type)* *mut $of, usize,] [$($value)* $given.at(), $given.count(),]
            ($($rest)*))
    };
    ($name:ident $given:ident [$($type:tt)*] [$($value:tt)*] (&mut $of:ident, $($rest:tt)*)) => {
        entry!($name $given [$($type)* *mut $of,] [$($value)* $given.single(),] ($($rest)*))
    };
}

macro_rules! linked {
    ($($function:ident $name:ident($($parameters:tt)*) -> u32;)*) => {
        pub fn call(function: Function, wholes: &[u64], reals: &[f64], slices: &[Part]) -> u32 {
            let mut given = Given { wholes: wholes.iter(), reals: reals.iter(), slices };
            match function {
                $(Function::$function => entry!($name given [] [] ($($parameters)*,)),)*
            }
        }
    };
}

header!(linked);
