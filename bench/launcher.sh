#!/usr/bin/env bash
# Tries `./vpo` in a copy of the repository with a stand-in for rt, whose builds take two seconds. To be run by hand: bench/launcher.sh
set -u

root=$(cd -- "$(dirname -- "${BASH_SOURCE[0]}")/.." && pwd)
room=$(mktemp -d)
trap 'rm -rf "$room"' EXIT
failed=0

mkdir -p "$room/bin" "$room/repo/crates" "$room/elsewhere"
cp "$root/vpo" "$root/crates.txt" "$root/HANDLES" "$room/repo/"
for crate in vp_io vpo_top vpo; do
    mkdir -p "$room/repo/crates/$crate"
    cp -r "$root/crates/$crate/src" "$root/crates/$crate/specs" "$room/repo/crates/$crate/"
done
cp -r "$root/crates/vpo/data" "$root/crates/vpo/stdout" "$room/repo/crates/vpo/"

cat >"$room/bin/rt" <<'END'
#!/usr/bin/env bash
built='#!/bin/sh
[ $# = 0 ] && exit 64
echo proved "$@"'
case $1 in
    version) echo "stand-in ${KIT:-1}" ;;
    run)
        echo x >>"$ROOM/runs"
        mkdir -p out
        printf 'half' >out/vpo
        chmod +x out/vpo
        echo "crate vp_io: modules loaded=1 checked=1"
        sleep 2 && echo done >>"$ROOM/ended"
        [[ -z ${EDIT-} ]] || echo >>src/main.rt
        [[ ${STATUS-64} == 64 ]] && printf '%s\n' "$built" >out/vpo && printf 'sources%s' "$(sha256sum <out/vpo | cut -d ' ' -f 1)" >out/vpo.stamp
        exit "${STATUS-64}"
        ;;
    try)
        while [[ $1 != -- ]]; do shift; done
        shift
        # as rt try does: files of the crate are there, and words that name them
        status=0
        for word in "${@:2}"; do
            if [[ -f $word ]]; then cat "$word"; else status=71; fi
        done
        ((status == 0)) || echo "vpo: read fault: description" >&2
        echo "checked: ended status=$status" >&2
        echo "run=ended status=$status runners=1 proved=no" >&2
        exit "$status"
        ;;
esac
END
chmod +x "$room/bin/rt"
export PATH=$room/bin:$PATH ROOM=$room
vpo=$room/repo/vpo

# check TEXT WANTED FOUND
check() {
    if [[ $2 == "$3" ]]; then
        printf 'ok      %s\n' "$1"
    else
        printf 'FAILED  %s: wanted %s, found %s\n' "$1" "$2" "$3"
        failed=1
    fi
}

# What a call ends with, and prints.
call() { printf '%s %s' "$("$vpo" "$@" 2>"$room/said" </dev/null)" "$?"; }

anew() { rm -rf "$room/repo/.build" "$room"/repo/crates/*/out "$room/runs" "$room/ended"; }

cd "$room/elsewhere" || exit 1
echo mine >mine.vpo

check "no words: status" 64 "$("$vpo" >/dev/null 2>&1; echo $?)"
check "no words: lines" 11 "$("$vpo" 2>&1 | wc -l)"
check "help: status" 0 "$("$vpo" --help >/dev/null; echo $?)"
check "without a proof" "mine 0" "$(call check mine.vpo)"
check "it says so in a line" 1 "$(wc -l <"$room/said")"
check "a missing file, where the crate has one of that name" " 71" "$(call check pdp11.vpo)"
check "the same by another path" " 71" "$(call check ./pdp11.vpo)"
check "a missing file of the crate's folder" " 71" "$(call --unproved check src/main.rt)"

check "a failed build ends with 69" " 69" "$(STATUS=1 call --prove)"
check "and leaves no program" "mine 0" "$(call check mine.vpo)"
check "a build that ends as no call without words does" " 69" "$(STATUS=0 call --prove)"
check "a source that changes meanwhile" " 69" "$(EDIT=1 call --prove)"
check "leaves no program" "mine 0" "$(call check mine.vpo)"

anew
"$vpo" --prove 2>/dev/null &
sleep 1
kill -TERM $!
wait $!
check "a killed build ends with 143" 143 $?
sleep 3
check "its rt is killed too" "" "$(cat "$room/ended" 2>/dev/null)"
check "and leaves no program" "mine 0" "$(call check mine.vpo)"
check "and no files" "" "$(ls "$room/repo/.build" | grep call)"

anew
"$vpo" --prove 2>"$room/first" &
sleep 0.5
"$vpo" --prove 2>"$room/second"
check "of two at once, the second ends well" 0 $?
wait
check "rt was run once" 1 "$(wc -l <"$room/runs")"
check "the second waited" 1 "$(grep -c waiting "$room/second")"
check "how far it was" 1 "$(grep -c 'of .*: vp_io' "$room/first")"
check "the proved program" "proved check mine.vpo 0" "$(call check mine.vpo)"
check "says nothing else" 0 "$(wc -l <"$room/said")"
check "without a proof though there is one" "mine 0" "$(call --unproved check mine.vpo)"
check "another kit" "mine 0" "$(KIT=2 call check mine.vpo)"
echo >>"$room/repo/crates/vpo/src/main.rt"
check "a changed source" "mine 0" "$(call check mine.vpo)"

anew
(cd "$room/repo/crates/vpo" && rt run >/dev/null)
check "what rt run left is taken over" "proved check mine.vpo 0" "$(call check mine.vpo)"
check "and no files stay" "" "$(ls "$room/repo/.build" | grep call)"
anew
(cd "$room/repo/crates/vpo" && rt run >/dev/null)
sleep 1
echo >>"$room/repo/crates/vpo/src/main.rt"
check "and not after a change" "mine 0" "$(call check mine.vpo)"
anew
sleep 1
(mkdir -p "$room"/repo/crates/{vp_io,vpo_top}/out && cd "$room/repo/crates/vpo" && rt run >/dev/null; rm out/vpo.stamp && cp out/vpo out/vpo.by-rattle && cp stdout out/stdout && cp stdout out/stdout.by-rattle)
check "what rt ci left" "mine 0" "$(call check mine.vpo)"
printf 'vp_io:\nvpo_top: vp_io\nvpo: vp_io vpo_top\n' >"$room/repo/crates.txt"
anew
sleep 2
(mkdir -p "$room"/repo/crates/{vp_io,vpo_top}/out && cd "$room/repo/crates/vpo" && rt run >/dev/null; rm out/vpo.stamp && cp out/vpo out/vpo.by-rattle && cp stdout out/stdout && cp stdout out/stdout.by-rattle)
check "is taken over where each crate has a folder" "proved check mine.vpo 0" "$(call check mine.vpo)"
exit "$failed"
