# shellcheck shell=sh
# A repository of one small source with these scripts, and beside it fakes: an rt, which says the file 'says' and makes what
# it is asked for in a crate's folder of the file 'program'; what the file 'meanwhile' says is done while it proves; and a
# uname for each kind of machine.
# shellcheck disable=SC2154
repo=$scratch/repo fakes=$scratch/fakes

fake() { # PLACE/NAME, the script on standard input
    mkdir -p "$fakes/${1%/*}"
    cat >"$fakes/$1"
    chmod +x "$fakes/$1"
}

fake x86-64/uname <<'END'
#!/bin/sh
echo x86_64
END

fake other/uname <<'END'
#!/bin/sh
echo other
END

fake kit/rt <<'END'
#!/bin/sh
fakes=$(dirname "$(dirname "$0")")
[ "$1" != version ] || { cat "$fakes/version" 2>/dev/null; exit; }
echo "rt $*" >>"$fakes/asked"
cat "$fakes/says"
[ ! -e "$fakes/meanwhile" ] || . "$fakes/meanwhile"
mkdir -p out
case "$(basename "$(pwd)") $*" in
"replay run") cp "$fakes/program" out/replay ;;
"capi_c lib") cp "$fakes/program" out/libcapi_c.a ;;
*) exit 2 ;;
esac
exit "$(cat "$fakes/status")"
END

# All is well with the fake rt; its program is on standard input.
fake_kit() {
    cat >"$fakes/program"
    chmod +x "$fakes/program"
    echo kit-1 >"$fakes/version"
    echo 0 >"$fakes/status"
    : >"$fakes/asked"
    printf '%s\n' "rt: chose --jobs 2 for words" "fn words::add: proved" "crate words: modules loaded=0 checked=57" \
        "logic=proved functions=22 sum=5" "fn device::turn: proved" "crate device: modules loaded=50 checked=7" \
        "logic=proved functions=7 sum=5" >"$fakes/says"
}

on_x86_64() { env PATH="$fakes/x86-64:$fakes/kit:$PATH" "$@"; } # COMMAND...
on_other() { env PATH="$fakes/other:$fakes/kit:$PATH" "$@"; } # COMMAND...

for folder in one/src one/specs one/proofs one/must-fail capi_c replay; do mkdir -p "$repo/crates/$folder"; done
cp -R bin "$repo/bin"
echo one: >"$repo/crates.txt"
echo one >"$repo/crates/one/src/lib.rt"
