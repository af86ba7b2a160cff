# Lines of a session: structures made and given up, so that one step lets go of the cell on which all the rest hangs. Sizes on both sides of the most
# cells that a step looks at one by one, in stores of three sizes; at the end rings of all cells.
function take() { return free[head++] }
function fresh(c,  i) {
    print "fresh " c
    for (i = 1; i <= c; i++) free[i] = i
    head = 1
}
function call(text) {
    print text
    print "step"
}
# m cells in cell[1] to cell[m], each in the left field of the next. The last is held, and so is the first where twice is 1.
function chain(m, twice,  k) {
    cell[1] = take()
    call("cons 0 0")
    if (twice) call("up " cell[1] " 1")
    for (k = 2; k <= m; k++) longer(k)
}
function longer(k) {
    cell[k] = take()
    call("cons " cell[k - 1] " 0")
}
# cell[from] to cell[to] are free again: they join in front, ascending.
function freed(from, to,  k, j, x) {
    for (k = from + 1; k <= to; k++) {
        x = cell[k]
        for (j = k - 1; j >= from && cell[j] > x; j--) cell[j + 1] = cell[j]
        cell[j + 1] = x
    }
    for (k = to; k >= from; k--) free[--head] = cell[k]
}
# The first n cells of the free chain, n a prime, in another order: made one by one and given up one by one.
function scattered(n,  k, made) {
    for (k = 0; k < n; k++) {
        made[k] = take()
        call("cons 0 0")
    }
    for (k = 1; k <= n; k++) {
        cell[1] = made[k * 77 % n]
        call("down " cell[1] " 1")
        freed(1, 1)
    }
}
# A ring held at its first cell.
function closed(m) {
    chain(m, 1)
    call("setl " cell[1] " " cell[m])
}
function ring(m) {
    closed(m)
    call("down " cell[1] " 1")
    freed(1, m)
}
# A held cell outside points to the ring: it is kept, and given up with that cell.
function supported(m) {
    closed(m)
    call("up " cell[1] " 1")
    cell[m + 1] = take()
    call("cons 0 " cell[1])
    call("down " cell[1] " 1")
    call("down " cell[m + 1] " 1")
    freed(1, m + 1)
}
# Another cell of the ring, read from the first, is held too: the ring is kept, and given up there.
function rooted(m,  k) {
    closed(m)
    call("up " cell[1] " 1")
    call("car " cell[1])
    for (k = m; k > int(m / 2); k--) call("car " cell[k])
    call("down " cell[1] " 1")
    call("down " cell[int(m / 2)] " 1")
    freed(1, m)
}
# A held cell outside points to the middle of a chain: one half is freed with the chain's head, the other with that cell.
function halved(m,  half, outside, k) {
    half = int(m / 2)
    chain(half, 0)
    call("up " cell[half] " 1")
    outside = take()
    call("cons 0 " cell[half])
    for (k = half + 1; k <= m; k++) longer(k)
    call("down " cell[m] " 1")
    freed(half + 1, m)
    call("down " outside " 1")
    cell[half + 1] = outside
    freed(1, half + 1)
}
BEGIN {
    split("4096 960 200", stores)
    for (s = 1; s <= 3; s++) {
        fresh(stores[s])
        scattered(199)
        for (m = 1; m <= 65; m += m == 17 ? 46 : m < 17 ? 4 : 1) {
            ring(m)
            supported(m)
            if (m > 1) rooted(m)
            if (m > 1) halved(m)
        }
    }
    fresh(4096)
    ring(4096)
    ring(4095)
    print "step"
}
