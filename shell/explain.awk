# Says in sentences what a line of an answer means and what to do, by the table tables/refusals.tsv, which it reads. The
# surroundings give LINE, COMMAND, the word by which the program was asked, NAME, the name to speak by, and, each of them empty
# where it is not known, IDS, the ids that were asked about, COMMIT, the id of the commit at the position that the line names;
# CAUSE, what happened in the place of what the row has; WHERE, a sentence on the file of which the line speaks; ADVICE, what to
# do in the place of what the row has; OPENED, the files to be removed where a graph is written anew; and SIGNAL, the number and
# the name of a signal.
#
# A row is that of the line if its own has the same words, where a capital letter stands for any number, and the line may
# have more words at its end. Of several such rows the one with the most words is taken, of those one that is for the
# command, and of those the one with the fewest letters. In the sentences `L+1` is one more than L. What it means to write a
# commit-graph anew stands in rows too.

BEGIN {
    FS = "\t"
    line = ENVIRON["LINE"]
    command = ENVIRON["COMMAND"]
    detail = detail_of(line)
}

NR == 1 { for (at = 1; at <= NF; at++) column[$at] = at }
NR > 1 && cell("line") != "" { look(cell("line")) }

END {
    if (best[detail]) {
        sub(/; [^;]* is explained under .*/, "", happened[line])
        happened[line] = happened[line] ": " happened[detail]
    }
    if (ENVIRON["SIGNAL"] != "") value["S"] = ENVIRON["SIGNAL"]
    if (best[line]) say_all()
}

function say_all() {
    if (ENVIRON["COMMIT"] != "") say("the commit " (value["P"] == "" ? "" : "at position " value["P"] " ") "is " ENVIRON["COMMIT"])
    if (line ~ /^refused id / && no_id() != "") say("'" no_id() "' is not an id")
    say(ENVIRON["CAUSE"] != "" ? ENVIRON["CAUSE"] : with_values(happened[line]))
    if (ENVIRON["WHERE"] != "") say(ENVIRON["WHERE"])
    tell_cure(to_be_done())
}

# What to do, by the row of the line.
function to_be_done() {
    return ENVIRON["ADVICE"] != "" ? ENVIRON["ADVICE"] : with_values(cure[line])
}

# How a commit-graph is written anew: one whose files are known, or any other.
function anew_in_words(    text) {
    if (ENVIRON["OPENED"] == "") return happened["write it anew"]
    text = happened["write FILES anew"]
    return substr(text, 1, index(text, "FILES") - 1) ENVIRON["OPENED"] substr(text, index(text, "FILES") + length("FILES"))
}

# Says what to do, and how a commit-graph is written anew where that is a part of it.
function tell_cure(text) {
    if (text == "write it anew") say("what to do: " anew_in_words())
    else {
        if (text != "") say("what to do: " text)
        if (text ~ /write it anew/) say("to write it anew, " anew_in_words())
    }
}

# The line of the table that explains the last number of this one, if there is one.
function detail_of(line) {
    if (line ~ /^refused open 5 /) return "refused " substr(line, index(line, " file ") + 1)
    if (line ~ /^refused verify 6 /) return "!" substr(line, index(line, " error ") + 7)
    return ""
}

# A cell of the row that is read, by the title of its column.
function cell(title) {
    return $column[title]
}

# Looks whether the line of a row is the one that is told, or one that is needed beside it, and keeps the row then.
function look(text) {
    keep(text, line)
    if (detail != "") keep(text, detail)
    keep(text, "write it anew")
    keep(text, "write FILES anew")
}

function keep(text, wanted,    score) {
    score = fit(text, wanted)
    if (score > 0 && cell("from") != "") score = is_for_command(cell("from")) ? score + 50 : 0
    if (score > best[wanted]) {
        best[wanted] = score
        happened[wanted] = quoted(cell("what happened"))
        cure[wanted] = quoted(cell("what to do"))
        if (wanted == line) take_values(text)
    }
}

# How well a text fits a line: 0 where it does not.
function fit(text, wanted,    words, parts, count, number, letters) {
    count = split(text, words, " ")
    if (split(wanted, parts, " ") < count) return 0
    for (number = 1; number <= count; number++) {
        if (words[number] ~ /^[A-Z]$/ && parts[number] ~ /^[0-9]+$/) letters++
        else if (words[number] != parts[number]) return 0
    }
    return 100 * count - letters
}

function is_for_command(text,    parts, count, at) {
    count = split(text, parts, " ")
    for (at = 1; at <= count; at++) if (parts[at] == command) return 1
    return 0
}

# The numbers that the letters of a text stand for in the line.
function take_values(text,    words, parts, count, number) {
    split("", value)
    count = split(text, words, " ")
    split(line, parts, " ")
    for (number = 1; number <= count; number++) if (words[number] ~ /^[A-Z]$/) value[words[number]] = parts[number]
}

# A sentence with numbers in the place of letters, and one more in the place of a letter with `+1` behind it.
function with_values(text,    letter, start, whole, more) {
    for (letter in value) {
        whole = ""
        while (match(text, "(^|[^A-Za-z0-9])" letter "($|[^A-Za-z0-9])")) {
            start = RSTART + (substr(text, RSTART, 1) != letter)
            more = substr(text, start + 1, 2) == "+1"
            whole = whole substr(text, 1, start - 1) (more ? value[letter] + 1 : value[letter])
            text = substr(text, start + 1 + 2 * more)
        }
        text = whole text
    }
    return text
}

# The first of the ids that were asked about which is none, or nothing.
function no_id(    ids, count, number) {
    count = split(ENVIRON["IDS"], ids, " ")
    for (number = 1; number <= count; number++) {
        if (ids[number] ~ /[^0-9A-Fa-f]/ || (length(ids[number]) != 40 && length(ids[number]) != 64)) return ids[number]
    }
    return ""
}

# A text of the table with the quotes of plain text.
function quoted(text) {
    gsub(/`/, "'", text)
    return text
}

function say(text) {
    printf "%s: %s\n", ENVIRON["NAME"], text
}
