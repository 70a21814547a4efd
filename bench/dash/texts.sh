for l in a a a a a a a a a a a a a a a a; do for k in a a a a a a a a a a a a a a a a; do for j in a a a a a a a a a a a a a a a a; do for i in a a a a a a a a a a a a a a a a; do y=0123456789abcdef; x="0123456789abcdef${y}0123456789abcdef"; done; done; done; done
echo "$x"
