# What `rt lib` or `rt run` prints, as a line for each crate of `target` that is proved: its name, its seconds, how many there are, what comes next.
# The first file is crates.txt. Crates that were proved before are only counted. Where a crate is not proved, what was said of it is shown.
# `clock` is a command that prints the seconds of now.
BEGIN {
    if (!clock) clock = "date +%s"
    began = now()
}

function now(    seconds) {
    clock | getline seconds
    close(clock)
    return seconds
}

NR == FNR {
    if ($0 ~ /^[a-z]/) {
        name = $1
        sub(":.*", "", name)
        crate[++crates] = name
        line = $0
        sub("^[^:]*:", "", line)
        for (i = split(line, words, " "); i > 0; i--) needs[name, words[i]] = 1
    }
    next
}

# The crates that the target rests on: each crate stands behind those that it needs.
!counted {
    counted = wanted[target] = 1
    for (i = crates; i > 0; i--)
        for (j = 1; j < i; j++)
            if (wanted[crate[i]] && (crate[i], crate[j]) in needs) wanted[crate[j]] = 1
    for (i = 1; i <= crates; i++) all += wanted[crate[i]]
}

# A crate is done, and with it those that it rests on: rt says nothing of a library that stood already.
function finish(name,    i) {
    if (done[name]) return
    done[name] = 1
    number++
    for (i = 1; i <= crates; i++)
        if ((name, crate[i]) in needs) finish(crate[i])
}

# The crates that nothing keeps from being proved.
function following(    text, i, j, ready) {
    for (i = 1; i <= crates; i++) {
        ready = wanted[crate[i]] && !done[crate[i]]
        for (j = 1; j < i; j++)
            if ((crate[i], crate[j]) in needs && !done[crate[j]]) ready = 0
        if (ready) text = text (text ? ", " : "; next: ") crate[i]
    }
    return text
}

# Behind this line stands the verdict on the crate.
/^crate [a-z_0-9]+: modules/ {
    name = substr($2, 1, length($2) - 1)
    unchanged = / checked=0$/
    next
}

/^logic=proved/ {
    finish(name)
    if (!unchanged) {
        ended = now()
        printf "%4d of %d  %s proved in %d s%s\n", number, all, name, ended - began, following()
        fflush()
        began = ended
    }
    said = ""
    next
}

/^logic=/ {
    print said "siltbrow: " name " is not proved; all that was said is in target/log/" target ".out"
    said = ""
    fflush()
    next
}

/^(statements|library|axioms) [a-z_0-9]+: |^logic \/|^checked .* of [0-9]+$|^fn .*: proved$|^linked |^rt: (chose --jobs|running|[a-z_0-9]+: begins with) / { next }
{ said = said $0 "\n" }
END { if (said) printf "%s", said }
