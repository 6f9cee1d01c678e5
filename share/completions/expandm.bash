# Completion of expandm for bash, written by tools/docs/options.py.
_expandm() {
    local word=${COMP_WORDS[COMP_CWORD]} before=${COMP_WORDS[COMP_CWORD - 1]}
    case $before in
    --edition) mapfile -t COMPREPLY < <(compgen -W '2015 2018 2021 2024' -- "$word"); return ;;
    --dialect) mapfile -t COMPREPLY < <(compgen -W 'rust-analyzer rustc' -- "$word"); return ;;
    --target) mapfile -t COMPREPLY < <(compgen -W 'x86_64-unknown-linux-gnu x86_64-pc-windows-msvc x86_64-apple-darwin aarch64-apple-darwin wasm32-unknown-unknown' -- "$word"); return ;;
    --manifest-path) mapfile -t COMPREPLY < <(compgen -f -- "$word"); return ;;
    --write | --root) mapfile -t COMPREPLY < <(compgen -d -- "$word"); return ;;
    --depth | --fuel | --max-tokens | --call | --step | --cfg | --features | --extern | --package | -p | --bin | --example | --bench) COMPREPLY=(); return ;;
    esac
    case $word in
    -*) mapfile -t COMPREPLY < <(compgen -W '--manifest-path --package --workspace --lib --bin --bins --example --examples --tests --bench --benches --all-targets --all-features --no-default-features --release --plan --once --depth --fuel --max-tokens --call --no-modules --root --extern --write --force --check --html --step --coverage --edition --dialect --cfg --features --target --test --trace --origin --explain --lint --json --sarif --help --version -h -V -p' -- "$word") ;;
    *) mapfile -t COMPREPLY < <(compgen -f -X '!*.rs' -- "$word"; compgen -d -- "$word") ;;
    esac
}
complete -o filenames -F _expandm expandm
