for l in a a a a a a a a a a a a a a a a; do for k in a a a a a a a a a a a a a a a a; do for j in a a a a a a a a a a a a a a a a; do x=; for i in a a a a a a a a a a a a a a a a; do x="$x$i"; done; done; done; done
echo "$x"
