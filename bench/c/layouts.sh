# Where the linker puts a function changes its time. So a program is linked in several layouts, and a cell of its table is the median over
# these, with the least and the most. To be sourced; `work` is a folder with main.o, the program, and the files that `envelopes` writes.

layout() { # PADDING LINKED..: one layout, a line for each job
    printf '.section .note.GNU-stack\n.text\npadding: .skip %s\n' "$1" >"$work/padding.s"
    shift
    cc -c -o "$work/padding.o" "$work/padding.s"
    cc -o "$work/linked" "$work/main.o" "$work/padding.o" "$@"
    "$work/linked" "$work"
}

table() { # CORNER JOB,JOB..: of the lines of all layouts
    echo "| $1 | E, 83 bytes | 4,096 bytes | 256 commands, nested | 256 commands, flat |"
    echo "|---|---:|---:|---:|---:|"
    awk -v jobs="$2" '
        BEGIN { rows = split(jobs, job, ",") }
        { for (i = 1; i <= 4; i++) cell[(NR - 1) % rows, i] = cell[(NR - 1) % rows, i] " " $i }
        function shown(text,    v, n, i, j, x) {
            n = split(text, v, " ")
            for (i = 2; i <= n; i++) for (j = i; j > 1 && v[j] + 0 < v[j - 1] + 0; j--) { x = v[j]; v[j] = v[j - 1]; v[j - 1] = x }
            return sprintf("%.2f (%.2f to %.2f)", (v[int((n + 1) / 2)] + v[int(n / 2) + 1]) / 2, v[1], v[n])
        }
        END {
            for (r = 0; r < rows; r++) {
                line = "| " job[r + 1] " |"
                for (i = 1; i <= 4; i++) line = line " " shown(cell[r, i]) " |"
                print line
            }
        }'
}
