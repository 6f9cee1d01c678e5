// A tour of what expandm expands.
#[macro_use]
mod shapes {
    macro_rules! area {
        ($w:expr) => { area!($w, $w) };
        ($w:expr, $h:expr) => { $w * $h };
    }
    #[macro_export]
    macro_rules! unit { () => { 1 } }
}
macro_rules! getters {
    ($($(#[$about:meta])* $name:ident: $kind:ty),* $(,)?) => {
        $($(#[$about])* pub fn $name(&self) -> &$kind { &self.$name })*
    };
}
pub macro twice($a:expr) { $a + $a }

pub struct Box2 { width: u32, height: u32 }

impl Box2 {
    getters! {
        /// How wide it is.
        width: u32,
        height: u32,
    }
}

fn main() {
    let side = area!(2 + 1) - 1;   // in parentheses, since `-` is beside it
    println!("{}", area!(side, crate::unit!()));
    let all = vec![twice!(side), 0];
    if side > 3 { area! { side } }
    macro_rules! names { ($($n:ident),*) => { [$(stringify!($n)),*] } }
    let names = names!(a, r#fn);
}
