#!/bin/bash
# Stands in for the toolchain's compiler: code that it is given as IR gets address checks and coverage counters.
clang=KIT/toolchain/bin/clang
ir=0 next=0 words=() input=
for word in "$@"; do
    [ $next = 1 ] && { input=$word next=0; words+=("$word"); continue; }
    case $word in
    ir) ir=1 next=1 ;;
    esac
    words+=("$word")
done
[ $ir = 1 ] || exec "$clang" "$@"
text=$(mktemp --suffix=.ll)
trap 'rm -f "$text"' EXIT
"$clang" --target=x86_64-unknown-linux-gnu -Xclang -disable-llvm-passes -S -emit-llvm -x ir "$input" -o "$text" || exit 1
sed -i 's,^attributes #0 = {,& sanitize_address,' "$text"
for i in "${!words[@]}"; do
    [ "${words[$i]}" = "$input" ] && words[$i]=$text
done
"$clang" "${words[@]}" -fsanitize=address -fsanitize-coverage=inline-8bit-counters,pc-table,trace-cmp -Wno-error
