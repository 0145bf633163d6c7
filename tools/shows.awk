# A script made ready for the timeline: each line that asks for something, and a `show` after it, up to a `quit`.
# The console's answers to the script come in; ENVIRON has its name (SCRIPT). words.awk comes before it.
# A block of looks is taken apart, so that each of its looks can be drawn: a block of one look for each that was done,
# and a last one of what is left, which is nothing or begins with the look that was declined.

BEGIN { script = ENVIRON["SCRIPT"] }

# a block of the samples at these places
function looks_out(word, from, to,    i) {
    printf "looks"
    for (i = from; i <= to; i++) printf " %s", word[i]
    print "\nshow"
}

# a block of looks, of which so many were done
function apart_out(done,    word, n, i) {
    n = words_in(asked, word)
    for (i = 0; i < done; i++) looks_out(word, 8 * i + 2, 8 * i + 9)
    looks_out(word, 8 * done + 2, n)
}

# the further lines of an answer that has many
within { within = $0 != "."; next }

!next_asked(script) { exit }

{ within = has_more($0) }

is_block(asked) && /^[0-9]/ { apart_out($2); next }

{ print asked; print "show" }
