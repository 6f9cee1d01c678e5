macro_rules! pairs {
    ($($key:ident: $value:expr),*) => {
        [$((stringify!($key), $value)),*]
    };
}

fn main() {
    let sizes = pairs!(width: 2, height 3);
    println!("{sizes:?}");
}
