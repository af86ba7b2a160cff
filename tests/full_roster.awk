# Writes a list for `reference roster` (reference/FORMAT.md): rosters in stores of 1,199, 1,200, 1,201 and 4,096 cells, filled with seats 600 down to 1,
# each store then asked at its far end. The expected replies are the reference's.
function call(code, p, q) { printf "R %d %d %d\n", code, p, q }
function counts(    k) {
    split("0 1 600 4094 4095 32768 65535", thresholds, " ")
    for (k = 1; k <= 7; k++) call(4, thresholds[k], 0)
}
function filled(cells,    seat) {
    printf "T %d 1 %d 9\nS %d 1 %d 5\n", 3 + 6 * cells, 3 + 6 * cells, cells + 2, cells + 2
    call(0, cells, 0)
    for (seat = 600; seat >= 1; seat--) call(1, seat, (7 * seat) % 4095)
    counts()
    # of the list the first, the last, and the ones beside them; a present seat set where no cell is free
    split("1 2 300 599 600", seats, " ")
    for (k = 1; k <= 5; k++) { call(2, seats[k], 0); call(1, seats[k], 4094); call(2, seats[k], 0) }
    # removed from the front, the middle and the end, looked up, set again, and set once more
    for (k = 1; k <= 5; k++) {
        call(3, seats[k], 0); call(3, seats[k], 0); call(2, seats[k], 0); call(1, seats[k], k); call(1, seats[k], k + 10); call(2, seats[k], 0)
    }
    counts()
}
BEGIN { filled(1199); filled(1200); filled(1201); filled(4096) }
