f() { if test -n "$1"; then f "$2" "$3" "$4"; else true; fi; }
for k in a a a a a a a a a a a a a a a a; do for j in a a a a a a a a a a a a a a a a; do for i in a a a a a a a a a a a a a a a a; do f a a a; done; done; done
echo "$i"
