#!/bin/sh
# Each `pub fn` of the crates, exported to C or not: its head, from the name to the brace of its body, has an `ensures` and no `requires`,
# with a name, a star or neither. `pub(crate)` functions are the crate's own affair. Each `impl` of a trait says by the trait's ghost
# members what its function gives, and by none of them what it can be given. The check is first tried on heads that it has to find fault
# with.
set -u
cd "$(dirname "$0")/.." || exit 1
. tests/tools.sh
need awk mawk

# heads FILE..: one line for each public function at fault, then the counts. A body's brace stands on the line of the name, behind the
# parenthesis that ends the parameters, or alone; a head that none of these ends is at fault too.
heads() {
    awk '
        function judged(ended) {
            if (ended && stated && !asked) good++
            else { bad++; print where ": public " name (stated ? "" : " states no result") (asked ? " asks something of its caller" : "") (ended ? "" : " has a head that is not understood") }
            inside = 0
        }
        FNR == 1 && inside { of_trait = 0; judged(0) }
        { sub(/\/\/.*/, "") }
        /^impl[ \t<].* for .*\{[ \t]*$/ {
            if (inside) judged(0)
            inside = 1; of_trait = 1; stated = 0; asked = 0; where = FILENAME; name = $0
            sub(/[ \t]*\{[ \t]*$/, "", name)
            next
        }
        of_trait && /^[ \t]*ghost[ \t]+[a-z_]+_gives[ \t]*=/ { stated = 1; next }
        of_trait && /^[ \t]*ghost[ \t]+can_/ { asked = 1; next }
        of_trait && /^\}/ { of_trait = 0; judged(1); next }
        of_trait { next }
        /^[ \t]*pub[ \t]+((const|unsafe|extern[ \t]+"C")[ \t]+)*fn[ \t]/ {
            if (inside) judged(0)
            inside = 1; stated = 0; asked = 0; where = FILENAME; name = $0
            sub(/.*fn[ \t]+/, "", name); sub(/[^A-Za-z0-9_].*/, "", name)
            if (/\{/) judged(1)
            next
        }
        inside && /^[ \t]*ensures[*]?([ \t{]|$)/ { stated = 1; next }
        inside && /^[ \t]*requires[*]?([ \t{]|$)/ { asked = 1; next }
        inside && (/^[ \t]*\)[^{]*\{/ || /^[ \t]*\{[ \t]*$/) { judged(1) }
        END { if (inside) judged(0); print good + 0 " passed, " bad + 0 " failed"; exit (bad > 0) }' "$@"
}

faults=$(mktemp) || exit 1
trap 'rm -f "$faults"' EXIT
cat >"$faults" <<'HEADS'
pub fn good(x: u64) -> u64
    ensures { result ≡ x }
{
    x
}
pub fn good_by_names(
    x: u64,
) -> u64
    ensures low { x ≤ result }
    ensures high { result ≤ x }
{
    x
}
pub fn good_of_memory(x: &u64) -> &u64
    ensures* { sem 𝓛 (Lent x.entry result) }
{
    x
}
pub fn bare(x: u64) -> u64 {
    x
}
pub fn in_one_line(x: u64) -> u64 { x }
pub fn long_and_bare(
    x: u64,
) -> u64 {
    x
}
#[unsafe(no_mangle)]
pub extern "C" fn exported_and_bare(x: u64) -> u64 {
    x
}
pub const fn constant_and_bare(x: u64) -> u64 {
    x
}
pub fn asks(x: u64) -> u64
    requires { x < 8 }
    ensures { result ≡ x }
{
    x
}
pub fn asks_by_name(x: u64) -> u64
    requires small { x < 8 }
    requires even { x % 2 ≡ 0 }
    ensures answer { result ≡ x }
{
    x
}
pub fn asks_of_memory(x: &u64) -> u64
    requires* { sem 𝓛 (Lent x.entry x.now) }
    ensures { result ≡ x.now }
{
    *x
}
pub fn bare_before_an_impl(x: u64)
    -> u64 {
    x
}
impl From<u32> for Good {
    ghost from_gives = { λ n r. r.0 ≡ n };

    fn from(n: u32) -> Self {
        Good(n)
    }
}
impl From<u32> for Bare {
    fn from(n: u32) -> Self {
        Bare(n)
    }
}
impl Add for Asks {
    type Output = Asks;

    ghost can_add = { λ a b. a.0 + b.0 < 8 };

    ghost add_gives = { λ a b r. r.0 ≡ a.0 + b.0 };

    fn add(self, other: Asks) -> Asks {
        Asks(self.0 + other.0)
    }
}
HEADS
if [ "$(heads "$faults" | tail -n 1)" != "4 passed, 11 failed" ]; then
    echo "the check itself is at fault: of fifteen heads it has to pass four"
    heads "$faults"
    exit 1
fi
heads $(find crates/*/src -name '*.rt' | sort)
