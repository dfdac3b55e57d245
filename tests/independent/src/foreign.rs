//! Calls through a C interface: a list goes over as its first place and its
//! length.

/// Makes a function of each call of a library, whose name there stands before
/// it. A call takes numbers, lists to read and lists to write, as the function
/// does; the two functions at the front give the first place of such lists.
///
/// An answer of up to two words is `returned`. A longer one is returned through
/// a pointer that the caller passes first and gets back: the rule of x86-64, by
/// which the library is compiled. It is written out, so that it is the same on
/// a processor whose own rule is another.
macro_rules! foreign {
    (
        $first:expr, $first_mut:expr, returned:
        $($call:ident => $shown:vis fn $name:ident($($list:ident:
            $(&[$read:ty])? $(&mut [$write:ty])? $($number:ident)?
        ),*) -> $answer:ty;)*
    ) => {$(
        #[allow(clippy::too_many_arguments)]
        $shown fn $name($($list: $(&[$read])? $(&mut [$write])? $($number)?),*) -> $answer {
            extern "C" {
                fn $call($(
                    $(_: *const $read, _: usize)? $(_: *mut $write, _: usize)? $(_: $number)?
                ),*) -> $answer;
            }
            // SAFETY: the library reads the lent lists and writes those lent
            // for writing within their lengths, looks at no place of an empty
            // one, and keeps nothing of them.
            unsafe {
                $call($(
                    $($first($list as &[$read]), $list.len())?
                    $($first_mut($list as &mut [$write]), $list.len())?
                    $($list as $number)?
                ),*)
            }
        }
    )*};
    (
        $first:expr, $first_mut:expr, returned through a pointer:
        $($call:ident => $shown:vis fn $name:ident($($list:ident:
            $(&[$read:ty])? $(&mut [$write:ty])? $($number:ident)?
        ),*) -> $answer:ty;)*
    ) => {$(
        $shown fn $name($($list: $(&[$read])? $(&mut [$write])? $($number)?),*) -> $answer {
            extern "C" {
                fn $call(_: *mut $answer, $(
                    $(_: *const $read, _: usize)? $(_: *mut $write, _: usize)? $(_: $number)?
                ),*) -> *mut $answer;
            }
            let mut answer = std::mem::MaybeUninit::uninit();
            // SAFETY: as above; the library fills the answer whole.
            unsafe {
                $call(answer.as_mut_ptr(), $(
                    $($first($list as &[$read]), $list.len())?
                    $($first_mut($list as &mut [$write]), $list.len())?
                    $($list as $number)?
                ),*);
                answer.assume_init()
            }
        }
    )*};
}

pub(crate) use foreign;
