# For runs of ./install, which read this file: over what looking.sh makes, the crate lrcheck beside lrt, and the pages and
# completions of this repository. `install` calls the script, or what `script` names; in what that says, the folder of the call
# is `.` and each number of seconds an N. `left` lists files with their modes, of these folders.

. "$TOP/runs/looking.sh"
cp "$TOP/install" top/
cp -r "$TOP/man" "$TOP/completions" top/
echo 'lrcheck: low std' >>top/crates.txt
mkdir -p top/crates/lrcheck/src home
echo checks >top/crates/lrcheck/src/main.rt
room=$PWD script=top/install
export HOME="$room/home" LC_ALL=C

install() {
    "$script" "$@" >told 2>said
    status=$?
    sed "s|$room|.|g" told
    sed "s|$room|.|g; s/[0-9]* s\b/N s/" said >&2
    rm told said
    return $status
}

left() {
    find "$@" ! -type d -printf '%m %p\n' | sort -k 2
}
