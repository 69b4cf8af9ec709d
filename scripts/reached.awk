# Passes on the P lines of a paper or of a finished sheet, and of its G lines those whose consumer a Sink reaches through inputs, as the P
# lines name them: a sort that no Sink reaches has gone. An input is an earlier step. Numbers are parted by commas (-F,).
$1 == "P" {
    step[steps++] = $0
    print
}
$1 == "G" && !marked++ {
    for (i = steps - 1; i >= 0; i--) {
        split(step[i], number, ",")
        if (number[2] == 2) reached[i] = 1
        if (reached[i]) for (k = 9; k < 9 + number[6]; k++) reached[number[k] + 0] = 1
    }
}
$1 == "G" && reached[$2 + 0]
